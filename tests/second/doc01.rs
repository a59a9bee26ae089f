//! A second implementation of document 01, written from the document alone: no code and no algorithm is shared with the library.

pub const TERM_ROOM: usize = 8192;
pub const ROW_ROOM: usize = 1040;

#[derive(Clone, PartialEq, Debug)]
pub struct Entry {
    pub kind: i64,
    pub terms: Vec<(i64, i64)>,
    pub bound: i64,
}

/// The text without its comment lines.
fn without_comments(text: &[u8]) -> Vec<u8> {
    text.split_inclusive(|&b| b == b'\n').filter(|line| line[0] != b'*').flatten().copied().collect()
}

fn digits(word: &[u8]) -> Option<i64> {
    if word.is_empty() || word.len() > 10 || !word.iter().all(u8::is_ascii_digit) {
        return None;
    }
    std::str::from_utf8(word).unwrap().parse().ok()
}

fn number(word: &[u8]) -> Option<i64> {
    match word.first()? {
        b'-' => digits(&word[1..]).map(|v| -v),
        b'+' => digits(&word[1..]),
        _ => digits(word),
    }
}

fn literal(word: &[u8]) -> Option<i64> {
    if let Some(rest) = word.strip_prefix(b"~x") {
        return digits(rest).map(|v| -v);
    }
    digits(word.strip_prefix(b"x")?)
}

/// One statement, read from its last word backwards.
fn statement(words: &[&[u8]]) -> Option<Entry> {
    let (kind, bound, pairs) = if words.first()? == b"min:" {
        (1, 0, &words[1..])
    } else {
        let (last, rest) = words.split_last()?;
        let (relation, rest) = rest.split_last()?;
        let kind = match *relation {
            b">=" => 2,
            b"<=" => 3,
            b"=" => 4,
            _ => return None,
        };
        (kind, number(last)?, rest)
    };
    if pairs.len() % 2 != 0 {
        return None;
    }
    let terms = pairs.chunks(2).map(|p| Some((number(p[0])?, literal(p[1])?))).collect::<Option<Vec<_>>>()?;
    Some(Entry { kind, terms, bound })
}

/// The entries of a text, or refusal and statement.
pub fn read(text: &[u8]) -> Result<Vec<Entry>, (u32, u32)> {
    if text.len() > 65535 {
        return Err((2, 0));
    }
    let bare = without_comments(text);
    let mut parts: Vec<&[u8]> = bare.split(|&b| b == b';').collect();
    let tail = parts.pop().unwrap();
    let blank = |b: &u8| matches!(b, b' ' | b'\t' | b'\r' | b'\n');
    let mut entries: Vec<Entry> = Vec::new();
    let closed = parts.len();
    if !tail.iter().all(blank) {
        parts.push(tail);
    }
    for (i, part) in parts.iter().enumerate() {
        let refuse = |k: u32| Err((k, i as u32 + 1));
        let words: Vec<&[u8]> = part.split(blank).filter(|w| !w.is_empty()).collect();
        let entry = match statement(&words) {
            Some(e) if i < closed => e,
            _ => return refuse(3),
        };
        let objectives = entries.iter().filter(|e| e.kind == 1).count();
        let rows = entries.len() - objectives;
        if entry.kind == 1 && rows > 0 {
            return refuse(4);
        }
        if (entry.kind == 1 && objectives == 4) || (entry.kind != 1 && rows == 256) {
            return refuse(5);
        }
        if entry.terms.iter().any(|t| t.0.abs() > 1_000_000) || entry.bound.abs() > 4_096_000_000 {
            return refuse(6);
        }
        if entry.terms.iter().any(|t| !(1..=64).contains(&t.1.abs())) {
            return refuse(7);
        }
        if entries.iter().map(|e| e.terms.len()).sum::<usize>() + entry.terms.len() > 4096 {
            return refuse(8);
        }
        entries.push(entry);
    }
    if !entries.iter().any(|e| e.kind == 1) {
        return Err((9, 0));
    }
    Ok(entries)
}

/// The rooms of both tables.
pub fn tables(entries: &[Entry]) -> (Vec<i32>, Vec<i64>) {
    let (mut terms, mut rows) = (Vec::new(), Vec::new());
    for e in entries {
        rows.extend([e.kind, terms.len() as i64 / 2, e.terms.len() as i64, e.bound]);
        terms.extend(e.terms.iter().flat_map(|t| [t.0 as i32, t.1 as i32]));
    }
    terms.resize(TERM_ROOM, 0);
    rows.resize(ROW_ROOM, 0);
    (terms, rows)
}

/// The entries that tables hold, if they are an instance: decode leniently, encode, compare.
pub fn entries(terms: &[i32], rows: &[i64]) -> Option<Vec<Entry>> {
    if terms.len() < TERM_ROOM || rows.len() < ROW_ROOM {
        return None;
    }
    let mut found = Vec::new();
    for row in rows[..ROW_ROOM].chunks(4) {
        if row[0] == 0 {
            break;
        }
        let (first, count) = (usize::try_from(row[1]).ok()?, usize::try_from(row[2]).ok()?);
        let part = terms[..TERM_ROOM].get(first.checked_mul(2)?..first.checked_add(count)?.checked_mul(2)?)?;
        found.push(Entry { kind: row[0], terms: part.chunks(2).map(|t| (t[0] as i64, t[1] as i64)).collect(), bound: row[3] });
    }
    let objectives = found.iter().take_while(|e| e.kind == 1).count();
    let rest = &found[objectives..];
    let fine = (1..=4).contains(&objectives)
        && rest.len() <= 256
        && rest.iter().all(|e| (2..=4).contains(&e.kind) && (-4_096_000_000..=4_096_000_000).contains(&e.bound))
        && found[..objectives].iter().all(|e| e.bound == 0)
        && found.iter().map(|e| e.terms.len()).sum::<usize>() <= 4096
        && found.iter().flat_map(|e| &e.terms).all(|t| t.0.abs() <= 1_000_000 && (1..=64).contains(&t.1.abs()));
    if !fine {
        return None;
    }
    let (t, r) = tables(&found);
    (t == terms[..TERM_ROOM] && r == rows[..ROW_ROOM]).then_some(found)
}

/// The highest variable named.
pub fn variables(entries: &[Entry]) -> u32 {
    entries.iter().flat_map(|e| &e.terms).map(|t| t.1.unsigned_abs() as u32).max().unwrap_or(0)
}

/// The text of an instance.
pub fn write(entries: &[Entry]) -> Vec<u8> {
    let mut out = String::new();
    for e in entries {
        if e.kind == 1 {
            out += "min: ";
        }
        for (c, l) in &e.terms {
            out += &format!("{:+} {}x{} ", c, if *l < 0 { "~" } else { "" }, l.abs());
        }
        if e.kind != 1 {
            out += &format!("{} {} ", [">=", "<=", "="][e.kind as usize - 2], e.bound);
        }
        out += ";\n";
    }
    out.into_bytes()
}

fn sum(e: &Entry, a: u64) -> i64 {
    e.terms.iter().map(|&(c, l)| if (a >> (l.abs() - 1)) & 1 == (l > 0) as u64 { c } else { 0 }).sum()
}

/// The vector and the first unmet row of an assignment, or a refusal.
pub fn judge(terms: &[i32], rows: &[i64], a: u64) -> (u32, [i64; 4], u32) {
    let Some(entries) = entries(terms, rows) else { return (10, [0; 4], 0) };
    let n = variables(&entries);
    if n < 64 && a >= 1 << n {
        return (12, [0; 4], 0);
    }
    let mut values = [0; 4];
    let mut unmet = 0;
    let mut row = 0;
    for e in &entries {
        let s = sum(e, a);
        if e.kind == 1 {
            values[entries.iter().position(|o| std::ptr::eq(o, e)).unwrap()] = s;
            continue;
        }
        row += 1;
        let met = match e.kind {
            2 => s >= e.bound,
            3 => s <= e.bound,
            _ => s == e.bound,
        };
        if !met && unmet == 0 {
            unmet = row;
        }
    }
    (0, values, unmet)
}
