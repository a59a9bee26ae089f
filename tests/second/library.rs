//! The library's functions, as include/basilurn.h declares them. An answer is split into refusal and value.

extern "C" {
    fn basilurn_read_text(text: *const u8, n: usize, terms: *mut i32, t: usize, rows: *mut i64, r: usize) -> u64;
    fn basilurn_write_text(terms: *const i32, t: usize, rows: *const i64, r: usize, out: *mut u8, n: usize) -> u64;
    fn basilurn_judge(terms: *const i32, t: usize, rows: *const i64, r: usize, a: u64, values: *mut i64) -> u64;
    fn basilurn_list(terms: *const i32, t: usize, rows: *const i64, r: usize, values: *mut i64, v: usize, models: *mut u64, m: usize) -> u64;
    fn basilurn_write_file(objectives: u64, n: u64, points: u64, values: *const i64, v: usize, models: *const u64, m: usize, file: *mut u8, f: usize) -> u64;
    fn basilurn_read_file(file: *const u8, f: usize, values: *mut i64, v: usize, models: *mut u64, m: usize, head: *mut u64) -> u64;
}

fn split(answer: u64) -> (u32, u32) {
    ((answer >> 32) as u32, answer as u32)
}

pub fn read_text(text: &[u8], terms: &mut [i32], rows: &mut [i64]) -> (u32, u32) {
    split(unsafe { basilurn_read_text(text.as_ptr(), text.len(), terms.as_mut_ptr(), terms.len(), rows.as_mut_ptr(), rows.len()) })
}

pub fn write_text(terms: &[i32], rows: &[i64], out: &mut [u8]) -> (u32, u32) {
    split(unsafe { basilurn_write_text(terms.as_ptr(), terms.len(), rows.as_ptr(), rows.len(), out.as_mut_ptr(), out.len()) })
}

pub fn judge(terms: &[i32], rows: &[i64], a: u64) -> (u32, [i64; 4], u32) {
    let mut values = [77; 4];
    let (refusal, row) = split(unsafe { basilurn_judge(terms.as_ptr(), terms.len(), rows.as_ptr(), rows.len(), a, values.as_mut_ptr()) });
    (refusal, values, row)
}

pub fn list(terms: &[i32], rows: &[i64], values: &mut [i64], models: &mut [u64]) -> (u32, u32) {
    split(unsafe { basilurn_list(terms.as_ptr(), terms.len(), rows.as_ptr(), rows.len(), values.as_mut_ptr(), values.len(), models.as_mut_ptr(), models.len()) })
}

pub fn write_file(objectives: u64, n: u64, points: u64, values: &[i64], models: &[u64], file: &mut [u8]) -> (u32, u32) {
    split(unsafe { basilurn_write_file(objectives, n, points, values.as_ptr(), values.len(), models.as_ptr(), models.len(), file.as_mut_ptr(), file.len()) })
}

pub fn read_file(file: &[u8], values: &mut [i64], models: &mut [u64]) -> (u32, u32, [u64; 3]) {
    let mut lent = [77; 5];
    let (refusal, value) =
        split(unsafe { basilurn_read_file(file.as_ptr(), file.len(), values.as_mut_ptr(), values.len(), models.as_mut_ptr(), models.len(), lent.as_mut_ptr().add(1)) });
    let [before, head @ .., after] = lent;
    assert_eq!((before, after), (77, 77), "reading a file, numbers beside the head");
    (refusal, value, head)
}
