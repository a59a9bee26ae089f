//! Times of writing and reading a front file, as ratios to a straightforward codec in the same run. bench/run builds and runs it.
//! With 1,024 points most of the time goes to the test that none dominates another, with 24 to the blocks and their checks.

use std::hint::black_box;
use std::time::Instant;

extern "C" {
    fn basilurn_write_file(objectives: u64, n: u64, points: u64, values: *const i64, v: usize, models: *const u64, m: usize, file: *mut u8, f: usize) -> u64;
    fn basilurn_read_file(file: *const u8, f: usize, values: *mut i64, v: usize, models: *mut u64, m: usize, head: *mut u64) -> u64;
}

/// A straightforward codec that does the same work: the list is proper, the file is sound.
mod plain {
    fn proper(objectives: usize, n: usize, points: usize, values: &[i64], models: &[u64]) -> bool {
        if !(1..=4).contains(&objectives) || n > 64 || points > 1024 || points * 4 > values.len() || points > models.len() {
            return false;
        }
        let vectors: &[[i64; 4]] = values[..points * 4].as_chunks().0;
        for (v, &m) in vectors.iter().zip(models) {
            if v.iter().any(|&x| !(-4_096_000_000..=4_096_000_000).contains(&x)) || v[objectives..].iter().any(|&x| x != 0) {
                return false;
            }
            if n < 64 && m >> n != 0 {
                return false;
            }
        }
        if vectors.windows(2).any(|w| w[0] >= w[1]) {
            return false;
        }
        for (i, a) in vectors.iter().enumerate() {
            for b in &vectors[i + 1..] {
                if a[0] <= b[0] && a[1] <= b[1] && a[2] <= b[2] && a[3] <= b[3] {
                    return false;
                }
            }
        }
        true
    }

    /// The Internet checksum, bytes 0 and 1 taken as zero.
    fn check(block: &[u8]) -> u16 {
        let mut sum: u32 = block[2..].chunks_exact(2).map(|w| u16::from_be_bytes([w[0], w[1]]) as u32).sum();
        while sum > 0xFFFF {
            sum = (sum & 0xFFFF) + (sum >> 16);
        }
        !(sum as u16)
    }

    pub fn write(objectives: usize, n: usize, points: usize, values: &[i64], models: &[u64], file: &mut [u8]) -> Result<usize, u32> {
        if !proper(objectives, n, points, values, models) {
            return Err(14);
        }
        let bytes = (1 + points.div_ceil(12)) * 512;
        let Some(file) = file.get_mut(..bytes) else { return Err(13) };
        file.fill(0);
        for (b, block) in file.chunks_exact_mut(512).enumerate() {
            block[2..4].copy_from_slice(&(if b == 0 { 1u16 } else { 2 }).to_be_bytes());
            block[4..8].copy_from_slice(&(b as u32).to_be_bytes());
            if b == 0 {
                block[8..10].copy_from_slice(&1u16.to_be_bytes());
                block[10..12].copy_from_slice(&(objectives as u16).to_be_bytes());
                block[12..14].copy_from_slice(&(n as u16).to_be_bytes());
                block[16..20].copy_from_slice(&(points as u32).to_be_bytes());
            } else {
                for (j, p) in block[8..488].chunks_exact_mut(40).enumerate() {
                    let k = (b - 1) * 12 + j;
                    if k < points {
                        for i in 0..4 {
                            p[i * 8..][..8].copy_from_slice(&values[k * 4 + i].to_be_bytes());
                        }
                        p[32..].copy_from_slice(&models[k].to_be_bytes());
                    }
                }
            }
            let c = check(block).to_be_bytes();
            block[..2].copy_from_slice(&c);
        }
        Ok(bytes)
    }

    pub fn read(file: &[u8], values: &mut [i64], models: &mut [u64]) -> Result<[usize; 3], (u32, usize)> {
        if file.is_empty() || file.len() % 512 != 0 || file.len() > 44544 {
            return Err((15, 0));
        }
        let u16_at = |block: &[u8], at: usize| u16::from_be_bytes(block[at..at + 2].try_into().unwrap());
        let u32_at = |block: &[u8], at: usize| u32::from_be_bytes(block[at..at + 4].try_into().unwrap());
        for (b, block) in file.chunks_exact(512).enumerate() {
            if check(block) != u16_at(block, 0) {
                return Err((16, b));
            }
        }
        let head = &file[..512];
        let (objectives, n, points) = (u16_at(head, 10) as usize, u16_at(head, 12) as usize, u32_at(head, 16) as usize);
        for (b, block) in file.chunks_exact(512).enumerate() {
            let fine = if b == 0 {
                u16_at(block, 2) == 1 && u32_at(block, 4) == 0 && u16_at(block, 8) == 1 && u16_at(block, 14) == 0 && block[20..].iter().all(|&x| x == 0) && 1 + points.div_ceil(12) == file.len() / 512
            } else {
                let count = (points - (b - 1) * 12).min(12);
                u16_at(block, 2) == 2 && u32_at(block, 4) as usize == b && block[8 + count * 40..].iter().all(|&x| x == 0)
            };
            if !fine {
                return Err((17, b));
            }
        }
        let (mut vs, mut ms) = ([0i64; 4 * 1032], [0u64; 1032]);
        for (b, block) in file.chunks_exact(512).enumerate().skip(1) {
            for (j, p) in block[8..488].chunks_exact(40).enumerate() {
                let k = (b - 1) * 12 + j;
                for i in 0..4 {
                    vs[k * 4 + i] = i64::from_be_bytes(p[i * 8..i * 8 + 8].try_into().unwrap());
                }
                ms[k] = u64::from_be_bytes(p[32..].try_into().unwrap());
            }
        }
        if !proper(objectives, n, points, &vs, &ms) {
            return Err((14, 0));
        }
        if values.len() < points * 4 || models.len() < points {
            return Err((13, 0));
        }
        values[..points * 4].copy_from_slice(&vs[..points * 4]);
        models[..points].copy_from_slice(&ms[..points]);
        Ok([objectives, n, points])
    }
}

/// In microseconds a call, for so many calls.
fn time<T>(calls: u32, f: &mut impl FnMut() -> T) -> f64 {
    let t = Instant::now();
    for _ in 0..calls {
        black_box(f());
    }
    t.elapsed().as_nanos() as f64 / 1e3 / calls as f64
}

/// Times both in turn, and prints the least of several timings of each with their ratio.
fn compare<A, B>(name: &str, calls: u32, mut library: impl FnMut() -> A, mut plain: impl FnMut() -> B) {
    let (mut a, mut b) = (f64::MAX, f64::MAX);
    for _ in 0..60 {
        a = a.min(time(calls, &mut library));
        b = b.min(time(calls, &mut plain));
    }
    println!("{name:<36} {a:>10.1} {b:>10.1} {:>7.2}", a / b);
}

/// A proper list: the first value rises, the second falls, the others are anywhere.
fn list(points: usize) -> (Vec<i64>, Vec<u64>) {
    let mut k = 1u64;
    let mut next = || {
        k = k.wrapping_mul(6364136223846793005).wrapping_add(1442695040888963407);
        k >> 32
    };
    let values = (0..points as i64).flat_map(|i| [i * 1000 - 500_000, 500_000 - i * 900, (next() % 1_000_000) as i64 - 500_000, (next() % 1_000_000) as i64]).collect();
    (values, (0..points).map(|_| next() << 32 | next()).collect())
}

fn main() {
    for (points, calls) in [(1024, 20), (24, 500)] {
        let (values, models) = list(points);
        let (mut file, mut other) = (vec![0u8; 44544], vec![0u8; 44544]);
        let write = |file: &mut [u8]| unsafe { basilurn_write_file(4, 64, points as u64, values.as_ptr(), values.len(), models.as_ptr(), models.len(), file.as_mut_ptr(), file.len()) };
        let bytes = write(&mut file) as usize;
        assert_eq!(Ok(bytes), plain::write(4, 64, points, &values, &models, &mut other));
        assert!(file == other && bytes == (1 + points.div_ceil(12)) * 512);
        let plain_write = || plain::write(4, 64, black_box(points), &values, &models, &mut other);
        compare(&format!("write a file of {points} points"), calls, || write(&mut file), plain_write);

        let (mut v, mut m, mut head) = (vec![0i64; 4096], vec![0u64; 1024], [0u64; 3]);
        let (mut v2, mut m2) = (v.clone(), m.clone());
        let mut read = || unsafe { basilurn_read_file(file.as_ptr(), bytes, v.as_mut_ptr(), 4096, m.as_mut_ptr(), 1024, head.as_mut_ptr()) };
        let mut plain_read = || plain::read(black_box(&other[..bytes]), &mut v2, &mut m2);
        assert_eq!((read(), plain_read()), (points as u64, Ok([4, 64, points])));
        compare(&format!("read a file of {points} points"), calls, read, plain_read);
        assert!(v == v2 && m == m2 && v[..points * 4] == values && m[..points] == models && head == [4, 64, points as u64]);
    }
}
