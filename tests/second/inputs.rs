//! Inputs with fixed seeds: texts, tables and assignments, valid and damaged, short and at the limits.

use crate::doc01::{tables, write, Entry, ROW_ROOM, TERM_ROOM};

/// A small generator of numbers (xorshift64*).
pub struct Rng(pub u64);

impl Rng {
    pub fn next(&mut self) -> u64 {
        self.0 ^= self.0 >> 12;
        self.0 ^= self.0 << 25;
        self.0 ^= self.0 >> 27;
        self.0.wrapping_mul(0x2545_F491_4F6C_DD1D)
    }
    pub fn below(&mut self, n: u64) -> u64 {
        (self.next() >> 33) % n
    }
    pub fn chance(&mut self, one_in: u64) -> bool {
        self.below(one_in) == 0
    }
    pub fn pick<T: Copy>(&mut self, xs: &[T]) -> T {
        xs[self.below(xs.len() as u64) as usize]
    }
}

/// Texts of document 01 and its traps.
pub const TRAPS: &[&[u8]] = &[
    b"min: +3 x1 +1 x2 +2 x3 ;\nmin: +1 x1 +4 x2 +2 x3 ;\n+1 x1 +1 x2 >= 1 ;\n+1 x2 +1 x3 >= 1 ;\n",
    b"min: ;",
    b"min: +1 x1 ; +1 x1 >= 2 ;",
    b"min: +1 x1 ; +1 x1 +1 x1 >= 2 ;",
    b"min: -2 x1 +1 ~x2 ;",
    b"min: +1 ~x64 ;",
    b"min: +1 ~x65 ;",
    b">= 0 ; min: ;",
    b"",
    b";",
    b" \t\r\n",
    b"min:",
    b"min: ;*",
    b"min: ; * no comment\n",
    b"* ; ends nothing\nmin: +1 x1 ;\n* and ; here\n+1 x1 >= -4096000000 ;",
    b"min: +1\n* inside a statement ;\nx3 ;",
    b"min: 1 x1\n*",
    b"*",
    b"* only\r",
    b"*;\r*;\nmin: ;",
    b"min:+1 x1 ;",
    b"min: +1 x1;min: ;",
    b"min: -0 x1 ; = -0 ;",
    b"min: 0000000001 x0000000064 ;",
    b"min: 00000000001 x1 ;",
    b"min: 1 x00000000001 ;",
    b"min: 1000000 x1 -1000000 ~x64 ; 1 x1 <= 4096000000 ; 1 x1 >= -4096000000 ;",
    b"min: 1000001 x1 ;",
    b"min: -1000001 x1 ;",
    b"min: ; 1 x1 = 4096000001 ;",
    b"min: ; 1 x1 = -4096000001 ;",
    b"min: 9999999999 x0 ;",
    b"min: 1 x0 ;",
    b"min: 1 ~x0 ;",
    b"min: 1 x ;",
    b"min: + x1 ;",
    b"min: 1 x1 1 ;",
    b"min: ; 1 x1 >= ;",
    b"min: ; 1 x1 >= 1 1 ;",
    b"min: ; 1 x1 > 1 ;",
    b"min: ; 1 x1 >=1 ;",
    b"min: ; >= +1 ;",
    b"min: ; >= 0 ; min: ; >= x ;",
    b"min: ; min: ; min: ; min: ;",
    b"min: ; min: ; min: ; min: ; min: ;",
    b"min: 1 x1 >= 1 ;",
    b"min: ;\x00",
    b"min: ;\x0b",
    b"min: \xff ;",
];

/// What some texts must give, by hand from the rules: refusal number (0 = done) and n or the statement.
pub const EXPECTED: &[(&[u8], u32, u32)] = &[
    (b"min: +3 x1 +1 x2 +2 x3 ;\nmin: +1 x1 +4 x2 +2 x3 ;\n+1 x1 +1 x2 >= 1 ;\n+1 x2 +1 x3 >= 1 ;\n", 0, 3),
    (b"min: ;", 0, 0),
    (b"min: +1 ~x6 ;", 0, 6),
    (b"min: +1 ~x65 ;", 7, 1),
    (b">= 0 ; min: ;", 4, 2),
    (b"", 9, 0),
    (b";", 3, 1),
    (b"min: ;*", 3, 2),
    (b"* ; ends nothing\nmin: ;", 0, 0),
    (b"min: 1 x1\n* a ; here\n; 1 x2 >= 0 ;", 0, 2),
    (b"min: 10000000000 x1 ;", 3, 1),
    (b"min: 1000001 x0 ;", 6, 1),
    (b"min: ; min: ; min: ; min: ; min: 1000001 x0 ;", 5, 5),
    (b"min: ; >= 4096000001 ;", 6, 2),
    (b"min: ; >= 0", 3, 2),
    (b"min: -0 x64 ; <= -0 ;", 0, 64),
];

/// Texts at the limits: rows, terms, bytes.
pub fn limits() -> Vec<Vec<u8>> {
    let mut out: Vec<Vec<u8>> = Vec::new();
    for rows in [255, 256, 257] {
        out.push(b"min: ;".iter().copied().chain(b"1 x1>= 0;".repeat(rows).into_iter()).collect());
        out.push(b"min: ;".iter().copied().chain(b"1 x1 >= 0;".repeat(rows).into_iter()).collect());
    }
    for terms in [4095, 4096, 4097] {
        out.push([b"min: ".to_vec(), b"+1 x1 ".repeat(terms), b";".to_vec()].concat());
        out.push([b"min: ".to_vec(), b"+1 x1 ".repeat(terms - 1), b"; 1 x2 >= 0;".to_vec()].concat());
        out.push([b"min: ".to_vec(), b"1 x0 ".repeat(terms), b";".to_vec()].concat());
    }
    for len in [65534, 65535, 65536, 70000] {
        out.push([b"min: ;".to_vec(), vec![b' '; len - 6]].concat());
        out.push([b"* ".to_vec(), vec![b';'; len - 9], b"\nmin: ;".to_vec()].concat());
    }
    out
}

fn blank(r: &mut Rng) -> &'static [u8] {
    r.pick(&[b" ".as_slice(), b" ", b" ", b"\n", b"\t", b"\r\n", b"  ", b"\n* a ; comment\n", b"\n*\n"])
}

fn random_term(r: &mut Rng) -> (i64, i64) {
    let c = match r.below(8) {
        0 => 1_000_000,
        1 => -1_000_000,
        2 => 0,
        _ => r.below(19) as i64 - 9,
    };
    let most = if r.chance(2) { 6 } else { 64 };
    let v = if r.chance(8) { 64 } else { 1 + r.below(most) as i64 };
    (c, if r.chance(3) { -v } else { v })
}

/// A random instance.
pub fn instance(r: &mut Rng) -> Vec<Entry> {
    let mut es = Vec::new();
    let most = if r.chance(40) { 300 } else { 6 };
    for _ in 0..1 + r.below(4) {
        es.push(Entry { kind: 1, terms: (0..r.below(most)).map(|_| random_term(r)).collect(), bound: 0 });
    }
    let rows = if r.chance(30) { 257 } else { 6 };
    for _ in 0..r.below(rows) {
        let bound = match r.below(10) {
            0 => 4_096_000_000,
            1 => -4_096_000_000,
            _ => r.below(15) as i64 - 7,
        };
        let some = if es.len() > 20 { 5 } else { most };
        es.push(Entry { kind: 2 + r.below(3) as i64, terms: (0..r.below(some)).map(|_| random_term(r)).collect(), bound });
    }
    while es.iter().map(|e| e.terms.len()).sum::<usize>() > 4096 {
        es.iter_mut().for_each(|e| e.terms.truncate(e.terms.len() / 2));
    }
    es
}

/// A text: written, with odd blanks and comments, mutated, or made of random words.
pub fn text(r: &mut Rng) -> Vec<u8> {
    let mut t = match r.below(4) {
        0 => r.pick(TRAPS).to_vec(),
        1 => {
            let words: &[&[u8]] = &[
                b"min:", b"min:", b";", b";", b";", b"+1", b"-7", b"0", b"1000000", b"1000001", b"x1", b"~x3", b"x64", b"x65", b"x0", b">=", b"<=", b"=", b"4096000000",
                b"4096000001", b"99999999999", b"*", b"x", b"~", b"\xff", b"+", b"",
            ];
            let mut out = Vec::new();
            for _ in 0..r.below(24) {
                out.extend(r.pick(words));
                out.extend(blank(r));
            }
            out
        }
        _ => {
            let written = write(&instance(r));
            let mut out = Vec::new();
            for b in written {
                if b == b' ' || b == b'\n' {
                    out.extend(blank(r));
                } else {
                    out.push(b);
                }
            }
            out
        }
    };
    if r.chance(2) {
        for _ in 0..1 + r.below(3) {
            let b = r.pick(b" \n;*x~+-0149=><m:\r\t\x00");
            let at = r.below(t.len() as u64 + 1) as usize;
            match r.below(3) {
                0 => t.insert(at, b),
                1 if at < t.len() => t[at] = b,
                _ if at < t.len() => drop(t.remove(at)),
                _ => {}
            }
        }
    }
    t
}

/// Tables of a random instance, often with one number broken, sometimes too short or too long.
pub fn lent_tables(r: &mut Rng) -> (Vec<i32>, Vec<i64>) {
    let es = instance(r);
    let used = es.iter().map(|e| e.terms.len()).sum::<usize>();
    let (mut terms, mut rows) = tables(&es);
    match r.below(12) {
        0 => drop(terms.pop()),
        1 => drop(rows.pop()),
        2 | 3 => {
            terms.extend([5, -5]);
            rows.push(9);
        }
        _ => {}
    }
    if r.chance(2) {
        let near = |r: &mut Rng, n: usize| if n == 0 { 0 } else { r.below(n as u64 + 2) as usize };
        for _ in 0..1 + r.below(2) {
            match r.below(4) {
                0 => {
                    let i = near(r, used * 2).min(terms.len() - 1);
                    terms[i] = r.pick(&[0, 1, -1, 64, 65, -64, -65, 1_000_000, 1_000_001, -1_000_001, i32::MIN, i32::MAX]);
                }
                1 => {
                    let i = r.below(terms.len() as u64) as usize;
                    terms[i] = r.pick(&[0, 1, -1]);
                }
                _ => {
                    let i = near(r, es.len() * 4).min(rows.len() - 1);
                    let old = rows[i];
                    rows[i] = r.pick(&[0, 1, 2, 3, 4, 5, -1, old.wrapping_add(1), old.wrapping_sub(1), 4096, 4_096_000_000, 4_096_000_001, -4_096_000_001, i64::MIN, i64::MAX]);
                }
            }
        }
    }
    debug_assert!(terms.len() + 2 > TERM_ROOM && rows.len() + 2 > ROW_ROOM);
    (terms, rows)
}
