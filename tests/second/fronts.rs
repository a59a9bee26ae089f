//! Fronts by plain enumeration: every assignment tried, vectors sorted with their assignments, the best ones kept. Then listing compared with it.

use crate::doc01::{self, tables, Entry, ROW_ROOM, TERM_ROOM};
use crate::inputs::{self, Rng};
use crate::{differ, library, Reached};

/// The front: each best vector once, in rising order, with its smallest assignment.
pub fn front(entries: &[Entry]) -> Vec<([i64; 4], u64)> {
    let n = doc01::variables(entries);
    let (terms, rows) = tables(entries);
    let mut all: Vec<([i64; 4], u64)> = Vec::new();
    for a in 0..1u64 << n {
        let (_, values, unmet) = doc01::judge(&terms, &rows, a);
        if unmet == 0 {
            all.push((values, a));
        }
    }
    all.sort();
    all.dedup_by_key(|p| p.0);
    let mut best: Vec<([i64; 4], u64)> = Vec::new();
    for p in all {
        if !best.iter().any(|q| q.0.iter().zip(&p.0).all(|(x, y)| x <= y)) {
            best.push(p);
        }
    }
    best
}

/// A small instance: few variables, costs of several sizes and signs, rows of every kind.
pub fn small(r: &mut Rng) -> Vec<Entry> {
    let n = if r.chance(12) { 8 } else { 1 + r.below(5) } as i64;
    let size = r.pick(&[2, 5, 12, 1_000_001]);
    let part = |r: &mut Rng, most: u64| -> Vec<(i64, i64)> {
        (0..r.below(most))
            .map(|_| {
                let c = r.below(2 * size - 1) as i64 - (size as i64 - 1);
                let v = 1 + r.below(n as u64) as i64;
                (c, if r.chance(3) { -v } else { v })
            })
            .collect()
    };
    let mut es: Vec<Entry> = (0..1 + r.below(4)).map(|_| Entry { kind: 1, terms: part(r, 2 * n as u64), bound: 0 }).collect();
    for _ in 0..r.below(5) {
        let kind = r.pick(&[2, 2, 2, 3, 3, 4]);
        let bound = r.below(size + 2) as i64 - size as i64 / 2;
        es.push(Entry { kind, terms: part(r, 5), bound });
    }
    es
}

/// The room of two runs.
fn room(values: usize, models: usize) -> usize {
    1024.min(values / 4).min(models)
}

/// Lists a front into runs of the given lengths, with guard numbers all through, and compares the answer and both runs whole.
pub fn compare_with(reached: &mut Reached, terms: &[i32], rows: &[i64], front: Option<&[([i64; 4], u64)]>, v: usize, m: usize) {
    let mut values = vec![-7_777_777; v + 2];
    let mut models = vec![u64::MAX - 5; m + 2];
    let (mut left_values, mut left_models) = (values.clone(), models.clone());
    let got = library::list(terms, rows, &mut values[1..=v], &mut models[1..=m]);
    let want = match front {
        None => (10, 0),
        Some(front) => {
            let fits = room(v, m).min(front.len());
            for (k, p) in front[..fits].iter().enumerate() {
                left_values[1 + k * 4..5 + k * 4].copy_from_slice(&p.0);
                left_models[1 + k] = p.1;
            }
            (if fits < front.len() { 11 } else { 0 }, fits as u32)
        }
    };
    if got != want || values != left_values || models != left_models {
        differ("listing", format!("runs of {v} and {m}; {rows:?}").as_bytes(), &(got, values, models), &(want, left_values, left_models));
    }
    *reached.entry(("list", got.0)).or_default() += 1;
}

/// Lists a random front, or tables that are often no instance, into runs of any length.
pub fn compare(r: &mut Rng, reached: &mut Reached) {
    if r.chance(10) {
        let (terms, rows) = inputs::lent_tables(r);
        if doc01::entries(&terms, &rows).is_none() {
            compare_with(reached, &terms, &rows, None, 9, 2);
        }
    }
    let es = small(r);
    let best = front(&es);
    let (mut terms, mut rows) = tables(&es);
    if r.chance(4) {
        terms.extend([9, -9]);
        rows.push(3);
    }
    debug_assert!(terms.len() >= TERM_ROOM && rows.len() >= ROW_ROOM);
    let points = best.len();
    let (v, m) = match r.below(6) {
        0 => (4 * points, points),
        1 => ((4 * points).saturating_sub(1), points + 3),
        2 => (4 * points + 3, points.saturating_sub(1)),
        3 => (r.below(4 * points as u64 + 5) as usize, r.below(points as u64 + 3) as usize),
        4 => (0, 0),
        _ => (4 * points + 5, points + 2),
    };
    compare_with(reached, &terms, &rows, Some(&best), v, m);
}

/// Instances with known fronts: those of document 01, the weighted-sum trap and others by hand.
pub fn known(reached: &mut Reached) {
    let t = "min: +3 x1 +1 x2 +2 x3 ;\nmin: +1 x1 +4 x2 +2 x3 ;\n+1 x1 +1 x2 >= 1 ;\n+1 x2 +1 x3 >= 1 ;\n";
    let cases: &[(&str, &[(&[i64], u64)])] = &[
        (t, &[(&[1, 4], 2), (&[5, 3], 5)]),
        ("min: ;", &[(&[0], 0)]),
        ("min: +1 x1 ; +1 x1 >= 2 ;", &[]),
        ("min: +1 x1 ; +1 x1 +1 x1 >= 2 ;", &[(&[1], 1)]),
        ("min: +1 x1 +1 x2 ; +1 x1 +1 x2 >= 1 ;", &[(&[1], 1)]),
        ("min: -2 x1 +1 ~x2 ;", &[(&[-2], 3)]),
        ("min: +1 x1 ; min: -1 x1 ;", &[(&[0, 0], 0), (&[1, -1], 1)]),
        ("min: +1 ~x6 ;", &[(&[0], 32)]),
        ("min: +1 ~x64 ;", &[(&[0], 9223372036854775808)]),
        ("min: ; +1 x1 >= 1 ;", &[(&[0], 1)]),
        // Of (0,3), (2,2), (3,0) no positive weights ever pick the middle one.
        ("min: +2 x1 +3 x2 ; min: +3 ~x1 -1 x1 -3 x2 +3 x1 ; +1 x1 +1 x2 <= 1 ;", &[(&[0, 3], 0), (&[2, 2], 1), (&[3, 0], 2)]),
        // (1,2) is beaten by (1,1).
        ("min: +1 x1 +1 ~x1 ; min: +1 x1 +2 ~x1 ;", &[(&[1, 1], 1)]),
    ];
    for (text, points) in cases {
        let (mut terms, mut rows) = (vec![7; TERM_ROOM], vec![7; ROW_ROOM]);
        library::read_text(text.as_bytes(), &mut terms, &mut rows);
        let want: Vec<([i64; 4], u64)> = points
            .iter()
            .map(|(v, a)| {
                let mut four = [0; 4];
                four[..v.len()].copy_from_slice(v);
                (four, *a)
            })
            .collect();
        for spare in 0..2 {
            compare_with(reached, &terms, &rows, Some(&want), want.len() * 4 + spare, want.len() + spare);
        }
        for fewer in 1..=want.len() {
            compare_with(reached, &terms, &rows, Some(&want), (want.len() - fewer) * 4 + 3, want.len());
            compare_with(reached, &terms, &rows, Some(&want), want.len() * 4, want.len() - fewer);
        }
    }
}
