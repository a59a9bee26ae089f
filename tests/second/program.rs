//! The listing program, target/bin/listing, held against the second implementation: texts of every kind on its standard input.

use crate::doc01;
use crate::fronts;
use crate::inputs::{self, Rng};
use crate::{differ, Reached};
use std::io::Write;
use std::process::{Command, Stdio};

/// What the program must print, and the refusal (0 for a listing); None where the front is too large to enumerate.
fn listing(text: &[u8]) -> Option<(String, u32)> {
    let entries = match doc01::read(text) {
        Ok(entries) => entries,
        Err((refusal, statement)) => return Some((format!("refused {refusal} statement {statement}\n"), refusal)),
    };
    let n = doc01::variables(&entries);
    if n > 10 {
        return None;
    }
    let objectives = entries.iter().filter(|e| e.kind == 1).count();
    let front = fronts::front(&entries);
    let shown = front.len().min(1024);
    let cut = if shown < front.len() { " cut" } else { "" };
    let mut out = format!("front {shown} objectives {objectives} variables {n}{cut}\n");
    for (k, (values, model)) in front[..shown].iter().enumerate() {
        let numbers: Vec<String> = values[..objectives].iter().map(i64::to_string).collect();
        out += &format!("point {} values {} model {model}\n", k + 1, numbers.join(" "));
    }
    Some((out, 0))
}

fn run(program: &str, text: &[u8]) -> String {
    let mut child = Command::new(program).stdin(Stdio::piped()).stdout(Stdio::piped()).spawn().expect("the listing program");
    let _ = child.stdin.take().unwrap().write_all(text);
    String::from_utf8(child.wait_with_output().expect("its output").stdout).expect("text")
}

/// A text of a small instance, as written or with a byte changed; or any text.
fn text(r: &mut Rng) -> Vec<u8> {
    if r.chance(3) {
        return inputs::text(r);
    }
    let mut t = doc01::write(&fronts::small(r));
    if r.chance(4) {
        let at = r.below(t.len() as u64) as usize;
        t[at] = r.pick(b" ;x~+-09=><m:\n*");
    }
    t
}

fn compare_text(reached: &mut Reached, program: &str, text: &[u8]) {
    let Some((want, refusal)) = listing(text) else { return };
    let got = run(program, text);
    if got != want {
        differ("the listing program", text, &got, &want);
    }
    *reached.entry(("program", refusal)).or_default() += 1;
}

pub fn compare(r: &mut Rng, reached: &mut Reached, program: &str) {
    let text = text(r);
    compare_text(reached, program, &text);
}

/// The texts of document 01, its traps, and texts at the limits.
pub fn known(reached: &mut Reached, program: &str) {
    for text in inputs::TRAPS.iter().map(|t| t.to_vec()).chain(inputs::limits()) {
        compare_text(reached, program, &text);
    }
    compare_cut(reached, program);
}

/// A front of more points than the program has room for.
fn compare_cut(reached: &mut Reached, program: &str) {
    let terms = |sign: &str| (0..11).map(|i| format!("{sign}{} x{} ", 1 << i, i + 1)).collect::<String>();
    let text = format!("min: {};\nmin: {};\n", terms("+"), terms("-"));
    let got = run(program, text.as_bytes());
    let mut want = String::from("front 1024 objectives 2 variables 11 cut\n");
    for k in 0..1024 {
        want += &format!("point {} values {k} {} model {k}\n", k + 1, -k);
    }
    if got != want {
        differ("the listing program, a front that is cut", text.as_bytes(), &got, &want);
    }
    *reached.entry(("program", 11)).or_default() += 1;
}
