//! Lists and front files with fixed seeds: proper ones of every size, and ones with one or two things wrong.

use crate::files::{check, layout, seal, List, Point, BLOCK};
use crate::inputs::Rng;

/// A list as it is lent: the three numbers and both runs.
#[derive(Clone, PartialEq, Debug)]
pub struct Lent {
    pub objectives: u64,
    pub n: u64,
    pub points: u64,
    pub values: Vec<i64>,
    pub models: Vec<u64>,
}

/// The instance T's list and what document 01 says of its file: 1,024 bytes, these checks.
pub fn worked() -> (List, [u16; 2]) {
    let points = vec![Point { vector: [1, 4, 0, 0], model: 2 }, Point { vector: [5, 3, 0, 0], model: 5 }];
    (List { objectives: 2, n: 3, points }, [0xFFF6, 0xFFE8])
}

/// The file of one point, its block's check 0000.
pub fn zero_check() -> Vec<u8> {
    let mut list = List { objectives: 1, n: 16, points: vec![Point { vector: [7, 0, 0, 0], model: 0 }] };
    to_zero_check(&mut list);
    layout(&list)
}

const FAR: i64 = 4_096_000_000;

/// So many points: few as a rule, whole blocks and the limit at times.
fn size(r: &mut Rng) -> usize {
    match r.below(1000) {
        0 => r.pick(&[1023, 1024, 1020, 1021]),
        1 | 2 => r.below(1025) as usize,
        3..=40 => r.below(200) as usize,
        41..=200 => r.pick(&[0, 1, 11, 12, 13, 24, 25, 36]),
        _ => r.below(9) as usize,
    }
}

/// A number within `most` of 0, small or anywhere.
fn any(r: &mut Rng, most: i64) -> i64 {
    if r.chance(3) {
        r.next() as i64 % (most + 1)
    } else {
        r.below(40) as i64 - 20
    }
}

/// So many vectors whose first value rises and whose second falls.
fn opposed(r: &mut Rng, objectives: u64, size: usize) -> Vec<[i64; 4]> {
    let step = if r.chance(3) { 2 * FAR as u64 / (size as u64 + 1) } else { 3 };
    let (mut a, mut b) = (-FAR, FAR);
    let mut vs = Vec::new();
    for _ in 0..size {
        let mut v = [a, b, any(r, FAR), any(r, FAR)];
        v[objectives as usize..].fill(0);
        vs.push(v);
        a += 1 + r.below(step) as i64;
        b -= 1 + r.below(step) as i64;
    }
    vs
}

/// What no other dominates of a few random vectors.
fn undominated(r: &mut Rng, objectives: u64, size: usize) -> Vec<[i64; 4]> {
    let mut vs: Vec<[i64; 4]> = Vec::new();
    for _ in 0..size * 4 {
        let mut v = [0; 4].map(|_: i64| any(r, FAR));
        v[objectives as usize..].fill(0);
        if !vs.iter().any(|w| (0..4).all(|i| w[i] <= v[i])) {
            vs.retain(|w| !(0..4).all(|i| v[i] <= w[i]));
            vs.push(v);
        }
    }
    vs.sort();
    vs.truncate(size);
    vs
}

/// Makes the check of the last block 0000, by the low word of an assignment in it, where n leaves that word free.
fn to_zero_check(list: &mut List) {
    if list.n < 16 || list.points.is_empty() {
        return;
    }
    let first = (list.points.len() - 1) / 12 * 12;
    list.points[first].model &= !0xFFFF;
    let bytes = layout(list);
    list.points[first].model |= check(&bytes[bytes.len() - BLOCK..]) as u64;
}

/// Objectives for so many points: one objective allows one point at most.
fn objectives_for(r: &mut Rng, size: usize) -> u64 {
    if size > 1 {
        2 + r.below(3)
    } else {
        1 + r.below(4)
    }
}

/// These vectors with n and assignments.
fn with_models(r: &mut Rng, objectives: u64, vectors: Vec<[i64; 4]>) -> List {
    let n = match r.below(6) {
        0 => r.pick(&[0, 1, 63, 64]),
        1 => 64,
        _ => r.below(65),
    };
    let mask = if n == 64 { u64::MAX } else { (1 << n) - 1 };
    let points = vectors.into_iter().map(|vector| Point { vector, model: (r.next() ^ r.next() << 1) & mask }).collect();
    List { objectives, n, points }
}

/// A proper list of so many points.
pub fn list_of(r: &mut Rng, size: usize) -> List {
    let objectives = objectives_for(r, size);
    let vectors = opposed(r, objectives, size);
    with_models(r, objectives, vectors)
}

/// A proper list of any size.
fn list(r: &mut Rng) -> List {
    let size = size(r);
    let mut list = if size <= 24 && r.chance(2) {
        let objectives = objectives_for(r, size);
        let vectors = undominated(r, objectives, size);
        with_models(r, objectives, vectors)
    } else {
        list_of(r, size)
    };
    if r.chance(8) {
        to_zero_check(&mut list);
    }
    list
}

const LIST_FAULTS: u64 = 14;

/// Breaks one clause of 'proper', the others left as they are where that can be; a list that has not what it takes stays as it is.
fn break_list(r: &mut Rng, list: &mut List, fault: u64) {
    let (size, used) = (list.points.len(), list.objectives as usize);
    let at = r.below(size.max(1) as u64) as usize;
    match fault {
        // a value too low
        0 if size > 0 => list.points[0].vector[0] = r.pick(&[-FAR - 1, i64::MIN, -FAR - 512]),
        // a value too high
        1 if size > 0 => list.points[size - 1].vector[0] = r.pick(&[FAR + 1, i64::MAX, 1 << 40]),
        // an unused value that is not 0
        2 if size > 0 && used < 4 => list.points[at].vector[used + r.below(4 - used as u64) as usize] = r.pick(&[1, -1, FAR, i64::MIN]),
        // a bit from n up
        3 if size > 0 && list.n < 64 => list.points[at].model |= 1 << (list.n + r.below(64 - list.n)),
        // two vectors that fall
        4 if size > 1 => {
            let (a, b) = (list.points[at.max(1)].vector, list.points[at.max(1) - 1].vector);
            list.points[at.max(1)].vector = b;
            list.points[at.max(1) - 1].vector = a;
        }
        // a vector twice
        5 if size > 0 => {
            let twin = list.points[at];
            list.points.insert(at, twin);
        }
        // beaten in the last place only
        6 if size > 0 => {
            let mut worse = list.points[at];
            worse.vector[used - 1] += 1;
            list.points.insert(at + 1, worse);
        }
        // beaten from afar
        7 if size > 0 => {
            let mut worse = list.points[at];
            worse.vector[0] = list.points[size - 1].vector[0] + 1;
            list.points.push(worse);
        }
        // beaten in every place
        8 if size > 0 => {
            let mut worse = list.points[at];
            worse.vector[..used].iter_mut().for_each(|v| *v += 1);
            list.points.insert(at + 1, worse);
        }
        // too many points
        9 => {
            let more = 1025 + r.below(8) as i64;
            list.objectives = list.objectives.max(2);
            list.points = (0..more).map(|i| Point { vector: [i, -i, 0, 0], model: 0 }).collect();
        }
        // objectives out of range
        10 => list.objectives = r.pick(&[0, 5, 255, 256, 65535]),
        // n out of range
        11 => list.n = r.pick(&[65, 66, 128, 256, 65535]),
        // one objective fewer than the values have
        12 if used < 4 && size > 0 => list.objectives -= 1,
        // the first vector last
        13 if size > 2 => list.points.rotate_left(1),
        _ => {}
    }
}

/// A list in lent runs: proper, or with one clause broken, in runs of exact length or longer.
pub fn lent(r: &mut Rng, round: u64) -> Lent {
    let mut list = list(r);
    if round % 3 == 0 {
        break_list(r, &mut list, round / 3 % LIST_FAULTS);
    }
    let mut lent = Lent {
        objectives: list.objectives,
        n: list.n,
        points: list.points.len() as u64,
        values: list.points.iter().flat_map(|p| p.vector).collect(),
        models: list.points.iter().map(|p| p.model).collect(),
    };
    for _ in 0..r.below(3) * r.below(6) {
        lent.values.push(r.next() as i64);
    }
    for _ in 0..r.below(3) {
        lent.models.push(r.next());
    }
    if round % 24 == 1 {
        match r.below(8) {
            0 => lent.points += 1 + r.below(3),
            1 => lent.points = r.pick(&[1 << 32, 1 << 62, u64::MAX, 1 << 63, 1025]),
            2 => lent.points += r.pick(&[1 << 32, 1 << 62]),
            3 => drop(lent.models.pop()),
            4 => drop(lent.values.pop()),
            5 => lent.objectives = r.pick(&[0, 5, u64::MAX, 1 << 32, lent.objectives + (1 << 32)]),
            6 => lent.n = r.pick(&[65, u64::MAX, 1 << 32, lent.n + (1 << 32)]),
            _ => lent.points = r.below(lent.points + 1),
        }
    }
    lent
}

const FILE_FAULTS: u64 = 20;

/// Damages a file; the checks are not touched, and a file that has not what it takes stays as it is.
fn damage(r: &mut Rng, file: &mut Vec<u8>, fault: u64) {
    if file.is_empty() {
        return;
    }
    let blocks = file.len() / BLOCK;
    let block = r.below(blocks as u64) as usize;
    let last = (blocks - 1) * BLOCK;
    let points = u32::from_be_bytes(file[16..20].try_into().unwrap());
    let mut flip = |r: &mut Rng, at: usize, among: u64| file[at + r.below(among) as usize] ^= 1 << r.below(8);
    match fault {
        // a kind
        0 => flip(r, block * BLOCK + 2, 2),
        // a block number
        1 => flip(r, block * BLOCK + 4, 4),
        // the form
        2 => flip(r, 8, 2),
        // the reserved bytes
        3 => flip(r, 14, 2),
        // the rest of the head
        4 => flip(r, 20, 492),
        // a bit of the points, and so the total
        5 => flip(r, 16, 4),
        // another number of points
        6 => file[16..20].copy_from_slice(&r.pick(&[points.wrapping_add(1), points.wrapping_sub(1), points.wrapping_add(12), points.wrapping_sub(12), u32::MAX, 1 << 31, 0]).to_be_bytes()),
        // the tail of a point block
        7 if block > 0 => flip(r, block * BLOCK + 488, 24),
        // an unused point place
        8 if points % 12 > 0 => flip(r, last + 8 + points as usize % 12 * 40, 40),
        // objectives
        9 => flip(r, 10, 2),
        // n
        10 => flip(r, 12, 2),
        // anything after the number
        11 if block > 0 => flip(r, block * BLOCK + 8, 504),
        // the last block twice
        12 => file.extend_from_within(last..),
        // no last block
        13 => file.truncate(last.max(BLOCK)),
        // a block of zeros more
        14 => file.extend([0; BLOCK]),
        // a block fewer
        15 => drop(file.drain(block * BLOCK..(block + 1) * BLOCK)),
        // the last two blocks in the other order
        16 if blocks > 2 => {
            let (a, b) = (last - BLOCK, last);
            (0..BLOCK).for_each(|i| file.swap(a + i, b + i));
        }
        // a block of any bytes
        17 => file[block * BLOCK..][..BLOCK].iter_mut().for_each(|b| *b = r.next() as u8),
        // a block of zeros
        18 => file[block * BLOCK..][..BLOCK].fill(0),
        // another known kind
        19 => file[block * BLOCK + 2..][..2].copy_from_slice(&(if block == 0 { [0, 2] } else { [0, 1] })),
        _ => {}
    }
}

/// Damages a block so that its check no longer fits, as a rule: a bit, another order of bytes, another check, all zeros.
fn damage_check(r: &mut Rng, file: &mut [u8]) {
    let block = r.below((file.len() / BLOCK) as u64) as usize;
    let part = &mut file[block * BLOCK..][..BLOCK];
    match r.below(5) {
        0 => part[r.below(2) as usize] ^= 1 << r.below(8),
        1 => part.swap(0, 1),
        2 => part[..2].copy_from_slice(&r.pick(&[[0, 0], [255, 255]])),
        3 => part.fill(0),
        _ => part[r.below(BLOCK as u64) as usize] ^= 1 << r.below(8),
    }
}

/// Stores FFFF where a block's check is 0000.
fn ffff_for_0000(file: &mut [u8]) {
    file.chunks_mut(BLOCK).filter(|b| check(b) == 0).for_each(|b| b[..2].fill(0xFF));
}

/// A file: that of a proper list, or damaged with its checks made to fit, or damaged without, or of another length.
pub fn file(r: &mut Rng, round: u64) -> Vec<u8> {
    let mut list = list(r);
    match round % 8 {
        0 | 1 => break_list(r, &mut list, round / 8 % LIST_FAULTS),
        2 => to_zero_check(&mut list),
        _ => {}
    }
    let mut file = layout(&list);
    match round % 8 {
        1 if r.chance(4) => {
            damage(r, &mut file, round / 8 % FILE_FAULTS);
            file.chunks_exact_mut(BLOCK).for_each(seal);
        }
        2 => ffff_for_0000(&mut file),
        3 | 4 => {
            for k in 0..1 + r.below(2) * r.below(2) {
                damage(r, &mut file, (round / 8 + k * 7) % FILE_FAULTS);
            }
            file.chunks_exact_mut(BLOCK).for_each(seal);
        }
        5 if !r.chance(3) => {
            for _ in 0..1 + r.below(3) {
                damage_check(r, &mut file);
            }
        }
        6 if r.chance(2) => {
            let len = r.pick(&[0, 1, 2, 511, 513, file.len() - 1, file.len() + 1, file.len() + 511, 44_543, 44_544, 44_545, 45_056, 45_057, 87 * 512, 88 * 512]);
            file.resize(len, 0);
            file.chunks_exact_mut(BLOCK).for_each(seal);
        }
        _ => {}
    }
    file
}
