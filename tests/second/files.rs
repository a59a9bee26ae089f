//! Front files: a second implementation of document 01, 'Front file, form 1', written from the document alone. A file is judged by laying out anew
//! what it says and looking for the first block that came out otherwise.

pub const BLOCK: usize = 512;
pub const MOST_POINTS: u64 = 1024;
pub const MOST_VALUE: u64 = 4_096_000_000;

/// Four values, unused ones 0, and an assignment.
#[derive(Clone, Copy, PartialEq, Debug)]
pub struct Point {
    pub vector: [i64; 4],
    pub model: u64,
}

/// A list with what its head says of it.
#[derive(Clone, PartialEq, Debug)]
pub struct List {
    pub objectives: u64,
    pub n: u64,
    pub points: Vec<Point>,
}

/// The Internet checksum of a block, its first two bytes taken as zero: one's complement sums are sums modulo 65,535, where only a sum of nothing is 0.
pub fn check(block: &[u8]) -> u16 {
    let sum: u64 = block.chunks(2).skip(1).map(|w| w[0] as u64 * 256 + w[1] as u64).sum();
    let folded = if sum == 0 { 0 } else { (sum - 1) % 65_535 + 1 };
    !(folded as u16)
}

/// The check that a block has.
pub fn stored(block: &[u8]) -> u16 {
    u16::from_be_bytes([block[0], block[1]])
}

/// Stores the computed check.
pub fn seal(block: &mut [u8]) {
    let c = check(block).to_be_bytes();
    block[..2].copy_from_slice(&c);
}

/// A sealed block: its kind, its number, then `body` and zeros.
fn block(kind: u16, number: u32, body: &[u8]) -> Vec<u8> {
    let mut out = [&[0, 0][..], &kind.to_be_bytes(), &number.to_be_bytes(), body].concat();
    out.resize(BLOCK, 0);
    seal(&mut out);
    out
}

fn head(objectives: u16, n: u16, points: u32) -> Vec<u8> {
    let mut body = Vec::new();
    for field in [1, objectives, n, 0] {
        body.extend(field.to_be_bytes());
    }
    body.extend(points.to_be_bytes());
    block(1, 0, &body)
}

fn point_block(number: usize, points: &[Point]) -> Vec<u8> {
    let body: Vec<u8> = points.iter().flat_map(|p| p.vector.iter().map(|&v| v as u64).chain([p.model])).flat_map(u64::to_be_bytes).collect();
    block(2, number as u32, &body)
}

/// The file of a list.
pub fn layout(list: &List) -> Vec<u8> {
    let mut out = head(list.objectives as u16, list.n as u16, list.points.len() as u32);
    for (i, points) in list.points.chunks(12).enumerate() {
        out.extend(point_block(i + 1, points));
    }
    out
}

fn dominates(a: &[i64; 4], b: &[i64; 4]) -> bool {
    a != b && a.iter().zip(b).all(|(x, y)| x <= y)
}

/// Whether a list is proper, but for the room that it stands in.
pub fn proper(list: &List) -> bool {
    let vectors: Vec<[i64; 4]> = list.points.iter().map(|p| p.vector).collect();
    (1..=4).contains(&list.objectives)
        && list.n <= 64
        && vectors.len() as u64 <= MOST_POINTS
        && vectors.iter().flatten().all(|v| v.unsigned_abs() <= MOST_VALUE)
        && vectors.iter().all(|v| v[list.objectives as usize..] == [0; 4][list.objectives as usize..])
        && list.points.iter().all(|p| (p.model as u128) < 1 << list.n)
        && vectors.iter().is_sorted_by(|a, b| a < b)
        && !vectors.iter().enumerate().any(|(i, a)| vectors.iter().enumerate().any(|(j, b)| i != j && dominates(a, b)))
}

/// The list at the beginning of lent runs, if it is proper.
fn lent(objectives: u64, n: u64, points: u64, values: &[i64], models: &[u64]) -> Option<List> {
    if points > MOST_POINTS || points as usize > models.len() || points as usize * 4 > values.len() {
        return None;
    }
    let points = values.chunks_exact(4).zip(models).take(points as usize).map(|(v, &model)| Point { vector: v.try_into().unwrap(), model }).collect();
    Some(List { objectives, n, points }).filter(proper)
}

/// Writes a list into `file`: refusal and bytes.
pub fn write(objectives: u64, n: u64, points: u64, values: &[i64], models: &[u64], file: &mut [u8]) -> (u32, u32) {
    let Some(list) = lent(objectives, n, points, values, models) else { return (14, 0) };
    let bytes = layout(&list);
    match file.get_mut(..bytes.len()) {
        None => (13, 0),
        Some(part) => {
            part.copy_from_slice(&bytes);
            (0, bytes.len() as u32)
        }
    }
}

/// A big-endian number of any length.
fn number(bytes: &[u8]) -> u64 {
    bytes.iter().fold(0, |n, &b| n << 8 | b as u64)
}

/// What a point block of so many points says, whatever else it holds.
fn points_in(block: &[u8], count: usize) -> Vec<Point> {
    let point = |p: &[u8]| Point { vector: [0, 8, 16, 24].map(|i| number(&p[i..i + 8]) as i64), model: number(&p[32..]) };
    block[8..].chunks_exact(40).take(count).map(point).collect()
}

/// The list that a file holds, or refusal and block.
pub fn list_in(file: &[u8]) -> Result<List, (u32, u32)> {
    if file.is_empty() || file.len() % BLOCK != 0 || file.len() > 87 * BLOCK {
        return Err((15, 0));
    }
    let blocks: Vec<&[u8]> = file.chunks(BLOCK).collect();
    if let Some(b) = blocks.iter().position(|b| stored(b) != check(b)) {
        return Err((16, b as u32));
    }
    let (objectives, n, total) = (number(&blocks[0][10..12]), number(&blocks[0][12..14]), number(&blocks[0][16..20]));
    if total.div_ceil(12) + 1 != blocks.len() as u64 || head(objectives as u16, n as u16, total as u32) != blocks[0] {
        return Err((17, 0));
    }
    let mut points = Vec::new();
    for (b, block) in blocks.iter().enumerate().skip(1) {
        let some = points_in(block, (total as usize - points.len()).min(12));
        if point_block(b, &some) != *block {
            return Err((17, b as u32));
        }
        points.extend(some);
    }
    Some(List { objectives, n, points }).filter(proper).ok_or((14, 0))
}

/// Reads a file into lent runs: refusal, answer number, and objectives, n and points.
pub fn read(file: &[u8], values: &mut [i64], models: &mut [u64]) -> (u32, u32, [u64; 3]) {
    let list = match list_in(file) {
        Ok(list) if list.points.len() * 4 <= values.len() && list.points.len() <= models.len() => list,
        Ok(_) => return (13, 0, [0; 3]),
        Err((refusal, block)) => return (refusal, block, [0; 3]),
    };
    for (i, p) in list.points.iter().enumerate() {
        values[i * 4..][..4].copy_from_slice(&p.vector);
        models[i] = p.model;
    }
    (0, list.points.len() as u32, [list.objectives, list.n, list.points.len() as u64])
}
