//! Compares writing and reading of front files. Each run that is lent for writing lies between guards, and is compared whole with them.

use crate::file_inputs::{self, Lent};
use crate::files::{self, List};
use crate::inputs::Rng;
use crate::{differ, library, Reached};

const GUARD: usize = 24;

/// A run to lend, with numbers before and after it.
struct Run<T>(Vec<T>);

impl<T: Clone + PartialEq> Run<T> {
    fn of(r: &mut Rng, len: usize, number: impl Fn(u64) -> T) -> Run<T> {
        let (a, b) = (r.next(), r.next());
        Run((0..(len + 2 * GUARD) as u64).map(|i| number(a ^ i.wrapping_mul(b | 1))).collect())
    }
    fn lent(&mut self) -> &mut [T] {
        let end = self.0.len() - GUARD;
        &mut self.0[GUARD..end]
    }
}

/// A length about what is needed: exact as a rule, longer, short by one or by a block, anything below, nothing.
fn about(r: &mut Rng, need: usize) -> usize {
    match r.below(12) {
        0 => need.saturating_sub(1),
        1 => r.below(need as u64 + 1) as usize,
        2 => 0,
        3 => need.saturating_sub(512),
        4 | 5 => need + 1 + r.below(3) as usize,
        6 => need + 512,
        _ => need,
    }
}

/// Writes one list into an output of some length, compares it whole, and reads back what was written.
fn compare_write_of(r: &mut Rng, reached: &mut Reached, list: &Lent, len: usize) {
    let Lent { objectives, n, points, values, models } = list;
    let mut out = Run::of(r, len, |x| (x >> 7) as u8);
    let mut left = Run(out.0.clone());
    let lent = list.clone();
    let got = library::write_file(*objectives, *n, *points, values, models, out.lent());
    let want = files::write(*objectives, *n, *points, values, models, left.lent());
    if got != want || out.0 != left.0 || lent != *list {
        differ("writing a file", format!("{list:?}, output of {len}").as_bytes(), &(got, out.lent()), &(want, left.lent()));
    }
    if got.0 == 0 {
        let count = *points as usize;
        let (mut v, mut m) = (Run::of(r, count * 4, |x| x as i64), Run::of(r, count, |x| x));
        let back = library::read_file(&out.lent()[..got.1 as usize], v.lent(), m.lent());
        if back != (0, *points as u32, [*objectives, *n, *points]) || *v.lent() != values[..count * 4] || *m.lent() != models[..count] {
            differ("reading back what was written", format!("{list:?}").as_bytes(), &(back, v.lent(), m.lent()), list);
        }
    }
    *reached.entry(("write file", got.0)).or_default() += 1;
}

/// Writes a list, proper or not.
pub fn compare_write(r: &mut Rng, reached: &mut Reached, round: u64) {
    let list = file_inputs::lent(r, round);
    let len = about(r, (list.points.min(1024) as usize).div_ceil(12) * 512 + 512);
    compare_write_of(r, reached, &list, len);
}

/// Reads one file into runs of some length, compares both whole, and writes again what was read.
fn compare_read_of(r: &mut Rng, reached: &mut Reached, file: &[u8], values: usize, models: usize) {
    let (mut v, mut m) = (Run::of(r, values, |x| x as i64), Run::of(r, models, |x| x));
    let (mut left_v, mut left_m) = (Run(v.0.clone()), Run(m.0.clone()));
    let lent = file.to_vec();
    let got = library::read_file(file, v.lent(), m.lent());
    let want = files::read(file, left_v.lent(), left_m.lent());
    if got != want || v.0 != left_v.0 || m.0 != left_m.0 || file != lent {
        differ("reading a file", format!("{file:?}, runs of {values} and {models}").as_bytes(), &(got, v.lent(), m.lent()), &(want, left_v.lent(), left_m.lent()));
    }
    if got.0 == 0 {
        let [objectives, n, points] = got.2;
        let mut again = Run::of(r, file.len(), |x| (x >> 7) as u8);
        let answer = library::write_file(objectives, n, points, v.lent(), m.lent(), again.lent());
        if answer != (0, file.len() as u32) || again.lent() != file {
            differ("writing again what was read", format!("{file:?}").as_bytes(), &(answer, again.lent()), &file);
        }
    }
    *reached.entry(("read file", got.0)).or_default() += 1;
    if got.0 == 16 || got.0 == 17 {
        *reached.entry((if got.1 == 0 { "read file, the head named" } else { "read file, a later block named" }, got.0)).or_default() += 1;
    }
}

/// Reads a file, damaged or not.
pub fn compare_read(r: &mut Rng, reached: &mut Reached, round: u64) {
    let file = file_inputs::file(r, round);
    let points = file.get(16..20).map_or(0, |b| u32::from_be_bytes(b.try_into().unwrap()).min(1100) as usize);
    let (values, models) = if r.chance(3) { (about(r, points * 4), about(r, points)) } else { (points * 4 + r.below(5) as usize, points + r.below(2) as usize) };
    compare_read_of(r, reached, &file, values, models);
}

/// Cases that are known by hand: document 01's file of T, a check of 0000, no points in no room; and a list of each size up to the limit, `step` apart.
pub fn known(r: &mut Rng, reached: &mut Reached, step: usize) {
    let (list, checks) = file_inputs::worked();
    let mut out = Run::of(r, 1024, |x| x as u8);
    let (values, models) = runs(&list);
    let got = library::write_file(list.objectives, list.n, 2, &values, &models, out.lent());
    let stored: Vec<u16> = out.lent().chunks(512).map(files::stored).collect();
    if got != (0, 1024) || stored != checks {
        differ("the file of T", b"", &(got, stored), &((0, 1024), checks));
    }
    compare_read_of(r, reached, out.lent(), 8, 2);
    let zero = file_inputs::zero_check();
    let mut ffff = zero.clone();
    ffff[512..514].fill(0xFF);
    for (file, want) in [(&zero, (0, 1, [1, 16, 1])), (&ffff, (16, 1, [0; 3]))] {
        let got = library::read_file(file, &mut [0; 4], &mut [0]);
        if files::stored(&zero[512..]) != 0 || got != want {
            differ("a check of 0000, then FFFF stored for it", file, &got, &want);
        }
    }
    let mut head = [0; 512];
    let empty = (library::write_file(4, 64, 0, &[], &[], &mut head), library::read_file(&head, &mut [], &mut []));
    if empty != ((0, 512), (0, 0, [4, 64, 0])) {
        differ("no points in no room", &head, &empty, &"done");
    }
    for size in (0..=1024).step_by(step) {
        let list = file_inputs::list_of(r, size);
        let (values, models) = runs(&list);
        let file = files::layout(&list);
        let lent = Lent { objectives: list.objectives, n: list.n, points: models.len() as u64, values, models };
        compare_write_of(r, reached, &lent, file.len());
        compare_read_of(r, reached, &file, lent.values.len(), lent.models.len());
    }
}

/// Both runs of a list.
fn runs(list: &List) -> (Vec<i64>, Vec<u64>) {
    (list.points.iter().flat_map(|p| p.vector).collect(), list.points.iter().map(|p| p.model).collect())
}
