//! Lists the front of an instance through the library: `list [TEXT [FRONT]]`.
//!
//! Reads instance text from the file TEXT, or from standard input where there is no argument or it is `-`; lists the front; judges each witness
//! and sees that its values are those of the list; writes the front as a front file, into the file FRONT too where it is named, and reads it
//! back. Prints the listing, or the line of a refusal; standard error says what a refusal means. Answers 0 where a listing was printed.

use std::io::{Read, Write};
use std::process::exit;

const TERM_ROOM: usize = 8192;
const ROW_ROOM: usize = 1040;
const MAX_TEXT: u64 = 65_535;
const MAX_POINTS: usize = 1024;
const MAX_FILE: usize = 44_544;

extern "C" {
    fn basilurn_read_text(text: *const u8, text_len: usize, terms: *mut i32, terms_len: usize, rows: *mut i64, rows_len: usize) -> u64;
    fn basilurn_judge(terms: *const i32, terms_len: usize, rows: *const i64, rows_len: usize, assignment: u64, values: *mut i64) -> u64;
    fn basilurn_list(terms: *const i32, terms_len: usize, rows: *const i64, rows_len: usize, values: *mut i64, values_len: usize, models: *mut u64, models_len: usize) -> u64;
    fn basilurn_write_file(objectives: u64, n: u64, points: u64, values: *const i64, values_len: usize, models: *const u64, models_len: usize, file: *mut u8, file_len: usize) -> u64;
    fn basilurn_read_file(file: *const u8, file_len: usize, values: *mut i64, values_len: usize, models: *mut u64, models_len: usize, head: *mut u64) -> u64;
}

/// What the library answers: an answer number, or a refusal with its number and what its line names.
type Answer = Result<u64, (u64, u64)>;

fn answer(word: u64) -> Answer {
    let (refusal, value) = (word >> 32, word & 0xFFFF_FFFF);
    if refusal == 0 { Ok(value) } else { Err((refusal, value)) }
}

fn cause(refusal: u64) -> &'static str {
    match refusal {
        1 => "a lent table is too short for reading text",
        2 => "the text is longer than 65,535 bytes",
        3 => "a statement breaks the grammar",
        4 => "`min:` after a row",
        5 => "a fifth objective or a 257th row",
        6 => "a coefficient or a bound is out of range",
        7 => "a variable is x0 or above x64",
        8 => "more than 4,096 terms",
        9 => "no objective",
        10 => "the tables are not an instance",
        11 => "the front is larger than the room for points",
        12 => "the assignment has a bit from n up",
        13 => "the output is too short",
        14 => "the list is not proper",
        15 => "the file's length is 0, no multiple of 512, or above 44,544",
        16 => "a block's check does not fit",
        17 => "a block's kind, number, form, total or a zero byte is wrong",
        _ => "no such refusal",
    }
}

fn fail(message: &str) -> ! {
    eprintln!("list: {message}");
    exit(2)
}

/// Ends the program where what was promised is not so.
fn demand(fine: bool, what: &str) {
    if !fine {
        fail(what)
    }
}

fn done(answer: Answer) -> u64 {
    answer.unwrap_or_else(|(refusal, _)| fail(cause(refusal)))
}

/// An instance that was read: its tables, its objectives and its number of variables.
struct Instance {
    terms: Vec<i32>,
    rows: Vec<i64>,
    objectives: usize,
    n: u64,
}

impl Instance {
    fn read(text: &[u8]) -> Result<Instance, (u64, u64)> {
        let (mut terms, mut rows) = (vec![0; TERM_ROOM], vec![0; ROW_ROOM]);
        let word = unsafe { basilurn_read_text(text.as_ptr(), text.len(), terms.as_mut_ptr(), terms.len(), rows.as_mut_ptr(), rows.len()) };
        let n = answer(word)?;
        let objectives = rows.chunks(4).take_while(|row| row[0] == 1).count();
        Ok(Instance { terms, rows, objectives, n })
    }

    fn judge(&self, assignment: u64) -> (Answer, [i64; 4]) {
        let mut four = [0; 4];
        let word = unsafe { basilurn_judge(self.terms.as_ptr(), self.terms.len(), self.rows.as_ptr(), self.rows.len(), assignment, four.as_mut_ptr()) };
        (answer(word), four)
    }

    fn list(&self) -> Front {
        let (mut values, mut models) = (vec![0; MAX_POINTS * 4], vec![0; MAX_POINTS]);
        let word = unsafe {
            basilurn_list(self.terms.as_ptr(), self.terms.len(), self.rows.as_ptr(), self.rows.len(), values.as_mut_ptr(), values.len(), models.as_mut_ptr(), models.len())
        };
        let (points, cut) = match answer(word) {
            Ok(points) => (points as usize, false),
            Err((11, room)) => (room as usize, true),
            Err((refusal, _)) => fail(cause(refusal)),
        };
        values.truncate(points * 4);
        models.truncate(points);
        Front { values, models, cut }
    }
}

/// The points that were listed, and whether there are more.
struct Front {
    values: Vec<i64>,
    models: Vec<u64>,
    cut: bool,
}

impl Front {
    /// Each witness meets all rows and has the values that are listed.
    fn judged_by(&self, instance: &Instance) {
        for (model, four) in self.models.iter().zip(self.values.chunks(4)) {
            let (answer, values) = instance.judge(*model);
            demand(answer == Ok(0), "a witness does not meet all rows");
            demand(values == four, "a witness has other values than the list");
        }
    }

    /// The front as a file, which comes back as the same front.
    fn filed(&self, instance: &Instance) -> Vec<u8> {
        let mut file = vec![0; MAX_FILE];
        let (values, models) = (&self.values, &self.models);
        let word = unsafe {
            basilurn_write_file(instance.objectives as u64, instance.n, models.len() as u64, values.as_ptr(), values.len(), models.as_ptr(), models.len(), file.as_mut_ptr(), file.len())
        };
        file.truncate(done(answer(word)) as usize);
        let (mut values_back, mut models_back, mut head) = (vec![0; values.len()], vec![0; models.len()], [0; 3]);
        let word = unsafe {
            basilurn_read_file(file.as_ptr(), file.len(), values_back.as_mut_ptr(), values_back.len(), models_back.as_mut_ptr(), models_back.len(), head.as_mut_ptr())
        };
        demand(done(answer(word)) == models.len() as u64, "the file came back with another number of points");
        demand(head == [instance.objectives as u64, instance.n, models.len() as u64], "the file came back with another head");
        demand(values_back == *values && models_back == *models, "the file came back with other points");
        file
    }

    fn listing(&self, instance: &Instance) -> String {
        let cut = if self.cut { " cut" } else { "" };
        let mut lines = format!("front {} objectives {} variables {}{cut}\n", self.models.len(), instance.objectives, instance.n);
        for (k, (model, four)) in self.models.iter().zip(self.values.chunks(4)).enumerate() {
            let values: String = four[..instance.objectives].iter().map(|v| format!(" {v}")).collect();
            lines += &format!("point {} values{values} model {model}\n", k + 1);
        }
        lines
    }
}

/// The text, and at most one byte more than the longest, so that a longer one is seen to be too long.
fn input(name: Option<&String>) -> std::io::Result<Vec<u8>> {
    let mut text = Vec::new();
    match name {
        Some(name) if name != "-" => std::fs::File::open(name)?.take(MAX_TEXT + 1).read_to_end(&mut text)?,
        _ => std::io::stdin().take(MAX_TEXT + 1).read_to_end(&mut text)?,
    };
    Ok(text)
}

fn main() {
    let arguments: Vec<String> = std::env::args().skip(1).collect();
    let text = input(arguments.first()).unwrap_or_else(|e| fail(&e.to_string()));
    let instance = Instance::read(&text).unwrap_or_else(|(refusal, statement)| {
        println!("refused {refusal} statement {statement}");
        eprintln!("list: {}", cause(refusal));
        exit(1)
    });
    let front = instance.list();
    if front.cut {
        eprintln!("list: {}: these are its first points", cause(11));
    }
    front.judged_by(&instance);
    let file = front.filed(&instance);
    if let Some(name) = arguments.get(1) {
        std::fs::write(name, file).unwrap_or_else(|e| fail(&e.to_string()));
    }
    let _ = std::io::stdout().write_all(front.listing(&instance).as_bytes());
}
