//! Times of reading and judging, as ratios to straightforward code in the same run, and of writing. bench/run builds and runs it.

use std::time::Instant;

extern "C" {
    fn basilurn_read_text(text: *const u8, n: usize, terms: *mut i32, t: usize, rows: *mut i64, r: usize) -> u64;
    fn basilurn_write_text(terms: *const i32, t: usize, rows: *const i64, r: usize, out: *mut u8, n: usize) -> u64;
    fn basilurn_judge(terms: *const i32, t: usize, rows: *const i64, r: usize, a: u64, values: *mut i64) -> u64;
    fn yardstick_judge(terms: *const i32, t: usize, rows: *const i64, r: usize, a: u64, values: *mut i64) -> u64;
}

/// A straightforward reader of the same profile: one pass, words as slices, no allocation.
mod plain {
    struct Words<'a> {
        text: &'a [u8],
        at: usize,
    }

    impl<'a> Words<'a> {
        /// The next word, `;` as a word of its own, or None at the end.
        fn next(&mut self) -> Option<&'a [u8]> {
            loop {
                let line_start = self.at == 0 || self.text[self.at - 1] == b'\n';
                match self.text.get(self.at)? {
                    b'*' if line_start => match self.text[self.at..].iter().position(|&b| b == b'\n') {
                        Some(k) => self.at += k + 1,
                        None => self.at = self.text.len(),
                    },
                    b' ' | b'\t' | b'\r' | b'\n' => self.at += 1,
                    b';' => {
                        self.at += 1;
                        return Some(b";");
                    }
                    _ => break,
                }
            }
            let start = self.at;
            while self.at < self.text.len() && !matches!(self.text[self.at], b' ' | b'\t' | b'\r' | b'\n' | b';') {
                self.at += 1;
            }
            Some(&self.text[start..self.at])
        }
    }

    fn digits(w: &[u8]) -> Option<i64> {
        if w.is_empty() || w.len() > 10 {
            return None;
        }
        let mut v = 0;
        for &b in w {
            if !b.is_ascii_digit() {
                return None;
            }
            v = v * 10 + (b - b'0') as i64;
        }
        Some(v)
    }

    fn number(w: &[u8]) -> Option<i64> {
        match w[0] {
            b'+' => digits(&w[1..]),
            b'-' => digits(&w[1..]).map(|v| -v),
            _ => digits(w),
        }
    }

    fn literal(w: &[u8]) -> Option<i64> {
        match w {
            [b'x', rest @ ..] => digits(rest),
            [b'~', b'x', rest @ ..] => digits(rest).map(|v| -v),
            _ => None,
        }
    }

    fn relation(w: &[u8]) -> Option<i64> {
        match w {
            b">=" => Some(2),
            b"<=" => Some(3),
            b"=" => Some(4),
            _ => None,
        }
    }

    pub fn read(text: &[u8], terms: &mut [i32], rows: &mut [i64]) -> Result<i64, (u32, u32)> {
        if terms.len() < 8192 || rows.len() < 1040 {
            return Err((1, 0));
        }
        if text.len() > 65535 {
            return Err((2, 0));
        }
        terms[..8192].fill(0);
        rows[..1040].fill(0);
        let r = statements(text, terms, rows);
        if r.is_err() {
            terms[..8192].fill(0);
            rows[..1040].fill(0);
        }
        r
    }

    fn statements(text: &[u8], terms: &mut [i32], rows: &mut [i64]) -> Result<i64, (u32, u32)> {
        let mut words = Words { text, at: 0 };
        let (mut objectives, mut others, mut total, mut n) = (0, 0, 0, 0);
        let mut s = 1;
        while let Some(first) = words.next() {
            let broken = Err((3, s));
            let objective = first == b"min:";
            let mut word = if objective { words.next() } else { Some(first) };
            let (mut count, mut wide, mut unnamed) = (0, false, false);
            let (kind, bound) = loop {
                let Some(w) = word else { return broken };
                if w == b";" {
                    if objective {
                        break (1, 0);
                    }
                    return broken;
                }
                if let Some(kind) = relation(w) {
                    let Some(b) = words.next().and_then(number) else { return broken };
                    if objective || words.next() != Some(b";") {
                        return broken;
                    }
                    break (kind, b);
                }
                let (Some(c), Some(l)) = (number(w), words.next().and_then(literal)) else { return broken };
                wide |= c.abs() > 1_000_000;
                unnamed |= l == 0 || l.abs() > 64;
                if total + count < 4096 {
                    terms[2 * (total + count)] = c as i32;
                    terms[2 * (total + count) + 1] = l as i32;
                }
                n = n.max(l.abs());
                count += 1;
                word = words.next();
            };
            if objective && others > 0 {
                return Err((4, s));
            }
            if if objective { objectives == 4 } else { others == 256 } {
                return Err((5, s));
            }
            if wide || bound.abs() > 4_096_000_000 {
                return Err((6, s));
            }
            if unnamed {
                return Err((7, s));
            }
            if total + count > 4096 {
                return Err((8, s));
            }
            rows[4 * (objectives + others)..][..4].copy_from_slice(&[kind, total as i64, count as i64, bound]);
            total += count;
            if objective {
                objectives += 1
            } else {
                others += 1
            }
            s += 1;
        }
        if objectives == 0 {
            return Err((9, 0));
        }
        Ok(n)
    }
}

/// The least of several timings of many calls, in nanoseconds a call.
fn time(mut f: impl FnMut()) -> f64 {
    let mut best = f64::MAX;
    for _ in 0..30 {
        let t = Instant::now();
        for _ in 0..50 {
            f();
        }
        best = best.min(t.elapsed().as_nanos() as f64 / 50.0);
    }
    best
}

/// A text of 65,535 bytes or a little less, with the terms that a row has.
fn text(per_row: usize, wide: bool) -> Vec<u8> {
    let mut out = b"* #variable= 64\nmin: +3 x1 ;\n".to_vec();
    let mut k = 0u64;
    let mut used = 1;
    'all: for _ in 0..256 {
        let mut row = Vec::new();
        for _ in 0..per_row {
            k = k.wrapping_mul(6364136223846793005).wrapping_add(1442695040888963407);
            let c = if wide { 900_000 + (k >> 40) % 100_000 } else { 1 + (k >> 40) % 9 };
            row.extend(format!("{}{} {}x{} ", if k >> 63 == 1 { '-' } else { '+' }, c, if k >> 62 & 1 == 1 { "~" } else { "" }, 1 + (k >> 33) % 64).bytes());
        }
        row.extend(b">= 1 ;\n");
        used += per_row;
        if used > 4096 || out.len() + row.len() > 65535 {
            break 'all;
        }
        out.extend(row);
    }
    while out.len() < 65535 {
        let pad = (65535 - out.len()).min(70);
        out.extend(if pad < 2 { b" ".to_vec() } else { [b"*".to_vec(), vec![b'c'; pad - 2], b"\n".to_vec()].concat() });
    }
    out
}

fn main() {
    let (mut terms, mut rows) = (vec![0i32; 8192], vec![0i64; 1040]);
    let (mut t2, mut r2) = (terms.clone(), rows.clone());
    println!("operation                             library us   plain us   ratio");
    for (name, text) in [("read, 16 terms a row", text(16, false)), ("read, long coefficients", text(16, true)), ("read, 3 terms a row", text(3, false))] {
        let got = unsafe { basilurn_read_text(text.as_ptr(), text.len(), terms.as_mut_ptr(), 8192, rows.as_mut_ptr(), 1040) };
        let want = plain::read(&text, &mut t2, &mut r2);
        assert_eq!(got as i64, want.unwrap());
        assert!(terms == t2 && rows == r2);
        let a = time(|| {
            std::hint::black_box(unsafe { basilurn_read_text(text.as_ptr(), text.len(), terms.as_mut_ptr(), 8192, rows.as_mut_ptr(), 1040) });
        });
        let b = time(|| {
            std::hint::black_box(plain::read(&text, &mut t2, &mut r2)).ok();
        });
        println!("{name:<36} {:>10.1} {:>10.1} {:>7.2}", a / 1e3, b / 1e3, a / b);
    }
    let mut out = vec![0u8; 65535];
    let w = time(|| {
        std::hint::black_box(unsafe { basilurn_write_text(terms.as_ptr(), 8192, rows.as_ptr(), 1040, out.as_mut_ptr(), out.len()) });
    });
    println!("{:<36} {:>10.1}", "write, 3 terms a row", w / 1e3);
    for (name, t) in [("judge, all rows met", b"min: +1 x1 -1 ~x2 ;".to_vec()), ("judge, 3,841 terms", text(15, false)), ("judge, 769 terms", text(3, false))] {
        let n = unsafe { basilurn_read_text(t.as_ptr(), t.len(), terms.as_mut_ptr(), 8192, rows.as_mut_ptr(), 1040) };
        for r in rows.chunks_mut(4).filter(|r| r[0] == 2) {
            r[3] = -4_096_000_000;
        }
        let a = if n == 64 { 0x9E37_79B9_7F4A_7C15 } else { 1 };
        let (mut v, mut u) = ([0i64; 4], [0i64; 4]);
        let got = unsafe { basilurn_judge(terms.as_ptr(), 8192, rows.as_ptr(), 1040, a, v.as_mut_ptr()) };
        assert_eq!(got, unsafe { yardstick_judge(terms.as_ptr(), 8192, rows.as_ptr(), 1040, a, u.as_mut_ptr()) });
        assert_eq!(v, u);
        let x = time(|| {
            std::hint::black_box(unsafe { basilurn_judge(terms.as_ptr(), 8192, rows.as_ptr(), 1040, a, v.as_mut_ptr()) });
        });
        let y = time(|| {
            std::hint::black_box(unsafe { yardstick_judge(terms.as_ptr(), 8192, rows.as_ptr(), 1040, a, u.as_mut_ptr()) });
        });
        println!("{name:<36} {:>10.1} {:>10.1} {:>7.2}", x / 1e3, y / 1e3, x / y);
    }
}
