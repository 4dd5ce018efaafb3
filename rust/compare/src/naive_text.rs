//! A second reader of the text form, slow on purpose: the whole text as a list
//! of lines, each line as a list of fields, names looked for one by one.

use plain::{Read, Why};

const X: u16 = 65_535;
const UNKNOWN: u16 = 65_534;

const HEADERS: [&str; 4] = [
    "sort index value",
    "term head sort a b c d",
    "term value",
    "step rule term value p q r s t",
];
pub const STEP_WORDS: [&str; 9] = [
    "decide", "deduce", "clash", "resolve", "clear", "jump", "flip", "fail", "learn",
];
pub const RULE_WORDS: [&str; 14] = [
    "same", "differ", "refl", "sym", "trans", "neg", "part", "unit", "eval", "cong", "pred",
    "read", "skip", "deep",
];
pub const HEAD_WORDS: [&str; 6] = ["eq", "not", "and", "or", "select", "store"];

#[derive(Default)]
struct Parsed {
    sorts: Vec<String>,
    terms: Vec<String>,
    heads: Vec<String>,
    rows: Rows,
}

/// Reads the text into the four sheets.
pub fn read(text: &[u8], sheets: &mut [Vec<u16>; 4]) -> Read {
    for sheet in sheets.iter_mut() {
        sheet.iter_mut().for_each(|number| *number = 0);
    }
    let mut result = Read {
        number: 0,
        rows: [0; 4],
        why: Why::Fine,
        line: 0,
        place: 0,
    };
    match parse(text) {
        Err(bad) => {
            result.number = bad.number;
            result.why = bad.why;
            result.line = bad.line as u64;
            result.place = bad.place;
        }
        Ok(rows) => {
            let numbers: [Vec<u16>; 4] = rows.clone().map(|rows| rows.concat());
            if (0..4).any(|at| sheets[at].len() < numbers[at].len()) {
                result.number = 32;
            } else {
                for at in 0..4 {
                    sheets[at][..numbers[at].len()].copy_from_slice(&numbers[at]);
                    result.rows[at] = rows[at].len() as u16;
                }
            }
        }
    }
    result
}

/// The rows of the four sheets.
type Rows = [Vec<Vec<u16>>; 4];

/// The first bad line, or the end of the text where another line has to stand.
struct Bad {
    number: u16,
    why: Why,
    line: usize,
    place: u64,
}

/// The rows, or the first bad line.
fn parse(text: &[u8]) -> Result<Rows, Bad> {
    let mut lines: Vec<&[u8]> = text.split(|&byte| byte == b'\n').collect();
    let unfinished = lines.pop().unwrap();
    let mut parsed = Parsed::default();
    let mut sheet = 0;
    let mut header = true;
    for (at, line) in lines.iter().enumerate() {
        let malformed = |why, place| Bad {
            number: 31,
            why,
            line: at + 1,
            place,
        };
        if header {
            if *line != HEADERS[sheet].as_bytes() {
                return Err(malformed(why_no_header(line), 0));
            }
            header = false;
        } else if line.is_empty() && sheet < 3 {
            sheet += 1;
            header = true;
        } else {
            parsed.line(sheet, line).map_err(|bad| match bad {
                (31, place) => malformed(why_no_row(sheet, place, line), place),
                (number, place) => Bad {
                    number,
                    why: Why::Fine,
                    line: at + 1,
                    place,
                },
            })?;
        }
    }
    if sheet < 3 || header || !unfinished.is_empty() {
        return Err(Bad {
            number: 31,
            why: first(&[(!unfinished.is_empty(), Why::Cut), (true, Why::Early)]),
            line: lines.len() + 1,
            place: 0,
        });
    }
    Ok(parsed.rows)
}

/// The first cause that applies.
fn first(causes: &[(bool, Why)]) -> Why {
    let found = causes.iter().find(|(applies, _)| *applies);
    found.expect("a cause that always applies").1
}

/// Why a line is not the header that is due.
fn why_no_header(line: &[u8]) -> Why {
    first(&[
        (line.len() > 525, Why::Long),
        (line.get(..3) == Some(&[239, 187, 191]), Why::Mark),
        (line.contains(&13), Why::Return),
        (true, Why::Header),
    ])
}

/// Why a line is no row of the sheet, by the place at fault.
fn why_no_row(sheet: usize, place: u64, line: &[u8]) -> Why {
    let strange = |byte: &u8| *byte < 32 || *byte > 126;
    first(&[
        (line.len() > 525, Why::Long),
        (line.is_empty(), Why::Empty),
        (line.contains(&13), Why::Return),
        (place == 0 && line.iter().any(strange), Why::Byte),
        (place == 0, Why::Fields),
        (place == [0, 0, 2, 4][sheet], Why::Value),
        (true, Why::Name),
    ])
}

/// The first so many lines of a text that can be read, the last of them a header
/// or a row, and then the headers of the sheets that have not begun.
pub fn cut(text: &[u8], lines: usize) -> Vec<u8> {
    let lines: Vec<&[u8]> = text
        .split_inclusive(|&byte| byte == b'\n')
        .take(lines)
        .collect();
    let ended = lines.iter().filter(|line| **line == b"\n").count();
    let mut shorter = lines.concat();
    for header in &HEADERS[ended + 1..] {
        shorter.extend(format!("\n{header}\n").bytes());
    }
    shorter
}

impl Parsed {
    fn line(&mut self, sheet: usize, line: &[u8]) -> Result<(), (u16, u64)> {
        let fields: Vec<&[u8]> = line.split(|&byte| byte == b' ').collect();
        for field in &fields {
            let good = field.iter().all(|byte| (33..=126).contains(byte));
            if !good || field.is_empty() {
                return Err((31, 0));
            }
        }
        // Eight names of 64 bytes, a value of five, and eight spaces are the most.
        if line.len() > 525 || fields.len() != [3, 7, 2, 9][sheet] {
            return Err((31, 0));
        }
        let fields: Vec<&str> = fields
            .iter()
            .map(|field| std::str::from_utf8(field).unwrap())
            .collect();
        let value_at = [usize::MAX, usize::MAX, 1, 3][sheet];
        let mut value = 0;
        for (at, field) in fields.iter().enumerate() {
            if at == value_at {
                value = value_of(field).ok_or((31, at as u64 + 1))?;
            } else if field.len() > 64 {
                return Err((31, at as u64 + 1));
            }
        }
        if self.rows[sheet].len() == [32, 256, 256, 1_024][sheet] {
            return Err((30, 0));
        }
        if sheet < 2 {
            let own = if sheet == 0 { &self.sorts } else { &self.terms };
            if fields[0] == "prop" || fields[0] == "-" || own.iter().any(|name| name == fields[0]) {
                return Err((2, 1));
            }
        }
        let row = self.row(sheet, &fields, value);
        self.rows[sheet].push(row);
        Ok(())
    }

    fn row(&mut self, sheet: usize, fields: &[&str], value: u16) -> Vec<u16> {
        match sheet {
            0 => {
                let row = vec![self.sort(fields[1]), self.sort(fields[2])];
                self.sorts.push(fields[0].to_string());
                row
            }
            1 => {
                let mut row = vec![self.head(fields[1]), self.sort(fields[2])];
                row.extend(fields[3..].iter().map(|name| self.term(name)));
                self.terms.push(fields[0].to_string());
                row
            }
            2 => vec![self.term(fields[0]), value],
            _ => {
                let mut row = vec![
                    word(&STEP_WORDS, fields[0]),
                    word(&RULE_WORDS, fields[1]),
                    self.term(fields[2]),
                    value,
                ];
                row.extend(fields[4..].iter().map(|name| self.term(name)));
                row
            }
        }
    }

    fn sort(&self, name: &str) -> u16 {
        match name {
            "-" => X,
            "prop" => 0,
            _ => match self.sorts.iter().position(|other| other == name) {
                Some(at) => at as u16 + 1,
                None => UNKNOWN,
            },
        }
    }

    fn term(&self, name: &str) -> u16 {
        match name {
            "-" => X,
            _ => match self.terms.iter().position(|other| other == name) {
                Some(at) => at as u16,
                None => UNKNOWN,
            },
        }
    }

    fn head(&mut self, name: &str) -> u16 {
        if name == "-" {
            return X;
        }
        if let Some(at) = HEAD_WORDS.iter().position(|word| *word == name) {
            return at as u16;
        }
        if !self.heads.iter().any(|other| other == name) {
            self.heads.push(name.to_string());
        }
        16 + self.heads.iter().position(|other| other == name).unwrap() as u16
    }
}

fn word(words: &[&str], name: &str) -> u16 {
    if name == "-" {
        return X;
    }
    match words.iter().position(|word| *word == name) {
        Some(at) => at as u16,
        None => UNKNOWN,
    }
}

/// A decimal without leading zeros is one that prints as it was written.
fn value_of(field: &str) -> Option<u16> {
    match field {
        "-" => Some(X),
        "true" => Some(1),
        "false" => Some(0),
        _ => {
            let number: u16 = field.parse().ok()?;
            (number != X && number.to_string() == field).then_some(number)
        }
    }
}
