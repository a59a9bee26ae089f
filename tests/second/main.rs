//! Compares the library with a second implementation of document 01 on many inputs with fixed seeds.
//! Lent memory is compared whole, with guard values beyond the rooms. Arguments: COUNT (comparisons of each operation), SEED, and the
//! listing program, which is run on one text for every 25 comparisons.
//! Prints how often each operation and each refusal was reached, and fails if one never was.

mod doc01;
mod file_inputs;
mod files;
mod filing;
mod fronts;
mod inputs;
mod library;
mod program;

use inputs::Rng;
use std::collections::BTreeMap;

pub type Reached = BTreeMap<(&'static str, u32), u64>;

pub fn differ(what: &str, input: &[u8], got: &dyn std::fmt::Debug, want: &dyn std::fmt::Debug) -> ! {
    eprintln!("{what}: the library and the second implementation differ\n  input   {:?}\n  library {got:?}\n  second  {want:?}", String::from_utf8_lossy(input));
    std::process::exit(1);
}

/// Reads one text into tables of some length and content, and compares the answer and both tables whole.
fn compare_read(r: &mut Rng, reached: &mut Reached, text: &[u8]) {
    let (t, w) = match r.below(20) {
        0 => (doc01::TERM_ROOM - 1, doc01::ROW_ROOM),
        1 => (doc01::TERM_ROOM, doc01::ROW_ROOM - 1),
        2 => (0, 0),
        _ => (doc01::TERM_ROOM + r.below(3) as usize, doc01::ROW_ROOM + r.below(3) as usize),
    };
    let found: (Vec<i32>, Vec<i64>) = (vec![r.next() as i32; t], vec![r.next() as i64; w]);
    let (mut terms, mut rows) = found.clone();
    let got = library::read_text(text, &mut terms, &mut rows);
    let (want, left) = if t < doc01::TERM_ROOM || w < doc01::ROW_ROOM {
        ((1, 0), found)
    } else if text.len() > 65535 {
        ((2, 0), found)
    } else {
        let (answer, entries) = match doc01::read(text) {
            Ok(es) => ((0, doc01::variables(&es)), es),
            Err(refusal) => (refusal, Vec::new()),
        };
        let (mut a, mut b) = doc01::tables(&entries);
        a.extend(&found.0[doc01::TERM_ROOM..]);
        b.extend(&found.1[doc01::ROW_ROOM..]);
        (answer, (a, b))
    };
    if got != want {
        differ("reading text", text, &got, &want);
    }
    if (terms, rows) != left {
        differ("reading text, what the tables hold", text, &got, &want);
    }
    *reached.entry(("read", got.0)).or_default() += 1;
}

/// Writes tables into an output of some length, compares it whole, and reads back what was written.
fn compare_write(r: &mut Rng, reached: &mut Reached) {
    let (terms, rows) = inputs::lent_tables(r);
    let text = doc01::entries(&terms, &rows).map(|es| doc01::write(&es));
    let need = text.as_ref().map_or(100, Vec::len);
    let len = match r.below(6) {
        0 => need - 1,
        1 => r.below(need as u64) as usize,
        2 => 0,
        _ => need + r.below(3) as usize,
    };
    let mut out = vec![0xA5; len];
    let got = library::write_text(&terms, &rows, &mut out);
    let mut left = vec![0xA5; len];
    let want = match &text {
        None => (10, 0),
        Some(text) if len < text.len() => (13, 0),
        Some(text) => {
            left[..text.len()].copy_from_slice(text);
            (0, text.len() as u32)
        }
    };
    if got != want || out != left {
        differ("writing text", &left, &(got, out), &want);
    }
    if got.0 == 0 {
        let (mut t, mut w) = (vec![7; doc01::TERM_ROOM], vec![7; doc01::ROW_ROOM]);
        let back = library::read_text(&out[..got.1 as usize], &mut t, &mut w);
        if back.0 != 0 || t != terms[..doc01::TERM_ROOM] || w != rows[..doc01::ROW_ROOM] {
            differ("reading back what was written", &out, &back, &got);
        }
    }
    *reached.entry(("write", got.0)).or_default() += 1;
}

/// Judges an assignment.
fn compare_judge(r: &mut Rng, reached: &mut Reached) {
    let (terms, rows) = inputs::lent_tables(r);
    let n = doc01::entries(&terms, &rows).map_or(64, |es| doc01::variables(&es));
    let mut a = r.next() ^ (r.next() << 1);
    if n < 64 && !r.chance(6) {
        a &= (1 << n) - 1;
    }
    if n < 64 && r.chance(20) {
        a = 1 << n;
    }
    let (was_terms, was_rows) = (terms.clone(), rows.clone());
    let got = library::judge(&terms, &rows, a);
    let want = doc01::judge(&terms, &rows, a);
    if got != want || terms != was_terms || rows != was_rows {
        differ("judging", format!("assignment {a}").as_bytes(), &got, &want);
    }
    *reached.entry(("judge", got.0)).or_default() += 1;
}

fn main() {
    let args: Vec<u64> = std::env::args().skip(1).take(2).map(|a| a.parse().expect("a number")).collect();
    let listing = std::env::args().nth(3);
    let count = args.first().copied().unwrap_or(50_000);
    let mut r = Rng(args.get(1).copied().unwrap_or(1).wrapping_mul(0x9E37_79B9_7F4A_7C15) | 1);
    let mut reached = Reached::new();
    for (text, refusal, value) in inputs::EXPECTED {
        let (mut terms, mut rows) = (vec![7; doc01::TERM_ROOM], vec![7; doc01::ROW_ROOM]);
        let got = library::read_text(text, &mut terms, &mut rows);
        if got != (*refusal, *value) {
            differ("reading a text whose answer is known", text, &got, &(refusal, value));
        }
    }
    for text in inputs::TRAPS.iter().map(|t| t.to_vec()).chain(inputs::limits()) {
        for _ in 0..3 {
            compare_read(&mut r, &mut reached, &text);
        }
    }
    fronts::known(&mut reached);
    filing::known(&mut r, &mut reached, (50_000 / count.max(1)).max(1) as usize);
    for round in 0..count {
        let text = inputs::text(&mut r);
        compare_read(&mut r, &mut reached, &text);
        compare_write(&mut r, &mut reached);
        compare_judge(&mut r, &mut reached);
        fronts::compare(&mut r, &mut reached);
        filing::compare_write(&mut r, &mut reached, round);
        filing::compare_read(&mut r, &mut reached, round);
    }
    let mut wanted: Vec<(&str, &[u32])> = vec![
        ("read", &[0, 1, 2, 3, 4, 5, 6, 7, 8, 9]),
        ("write", &[0, 10, 13]),
        ("judge", &[0, 10, 12]),
        ("list", &[0, 10, 11]),
        ("write file", &[0, 13, 14]),
        ("read file", &[0, 13, 14, 15, 16, 17]),
        ("read file, the head named", &[16, 17]),
        ("read file, a later block named", &[16, 17]),
    ];
    if let Some(program) = listing {
        program::known(&mut reached, &program);
        for _ in 0..count / 25 {
            program::compare(&mut r, &mut reached, &program);
        }
        wanted.push(("program", &[0, 2, 3, 4, 5, 6, 7, 8, 9, 11]));
    }
    let mut missed = 0;
    for (operation, refusals) in &wanted {
        for k in *refusals {
            let times = reached.get(&(*operation, *k)).copied().unwrap_or(0);
            println!("{operation} {} {times}", if *k == 0 { "done".to_string() } else { format!("refusal {k}") });
            missed += (times == 0) as u32;
        }
    }
    if missed > 0 {
        eprintln!("{missed} answers were never reached");
        std::process::exit(1);
    }
}
