//! The four sheets as text.

use crate::{
    BLANK, INPUT_COLUMNS, MAX_INPUTS, MAX_SORTS, MAX_TERMS, SORT_COLUMNS, STEP_COLUMNS,
    TERM_COLUMNS,
};

/// Why a line, or the end of a text, is malformed: the first cause that is met.
#[derive(Clone, Copy, Debug, PartialEq, Eq)]
#[repr(u16)]
pub enum Why {
    /// Nothing is malformed.
    Fine,
    /// A byte order mark before a header.
    Mark,
    /// A carriage return in the line.
    Return,
    /// A line that is longer than any row can be.
    Long,
    /// Another line where a header has to stand.
    Header,
    /// An empty line after the last sheet.
    Empty,
    /// A byte that is neither a space nor part of a name.
    Byte,
    /// A wrong number of fields, or spaces that are not single.
    Fields,
    /// A name that is too long.
    Name,
    /// A value that is none.
    Value,
    /// The text ends before the header of the step sheet.
    Early,
    /// The text ends within a line.
    Cut,
}

impl Why {
    /// All of them, in the order of their numbers.
    pub const ALL: [Why; 12] = [
        Why::Fine,
        Why::Mark,
        Why::Return,
        Why::Long,
        Why::Header,
        Why::Empty,
        Why::Byte,
        Why::Fields,
        Why::Name,
        Why::Value,
        Why::Early,
        Why::Cut,
    ];
}

/// The greatest number of step lines of a text.
pub const MAX_TEXT_STEPS: usize = 1_024;

const MAX_NAME: usize = 64;
const MAX_FIELDS: usize = 9;

/// Eight names, a value of five bytes and eight spaces.
const MAX_LINE: usize = 8 * MAX_NAME + 5 + 8;

/// The column of each sheet that holds a value; none in the first two.
const VALUE_COLUMN: [usize; 4] = [usize::MAX, usize::MAX, 1, 3];

/// What a name or word stands for that nothing gave.
const UNKNOWN: u16 = 65_534;

/// The bytes that some editors put before a text.
const BYTE_ORDER_MARK: &[u8] = b"\xEF\xBB\xBF";

const HEADERS: [&[u8]; 4] = [
    b"sort index value",
    b"term head sort a b c d",
    b"term value",
    b"step rule term value p q r s t",
];

/// Fields of a line of each sheet; the names of sorts and terms are no columns.
const FIELDS: [usize; 4] = [
    1 + SORT_COLUMNS,
    1 + TERM_COLUMNS,
    INPUT_COLUMNS,
    STEP_COLUMNS,
];
const COLUMNS: [usize; 4] = [SORT_COLUMNS, TERM_COLUMNS, INPUT_COLUMNS, STEP_COLUMNS];
const CEILINGS: [usize; 4] = [MAX_SORTS, MAX_TERMS, MAX_INPUTS, MAX_TEXT_STEPS];

/// The result of reading a text: 0 or the number of the trouble, the rows of
/// each sheet, why a line is malformed, and the first bad line with the field at
/// fault, both from 1.
///
/// The rows are 0 after any trouble. The line is 0 with no bad line, the place 0
/// where a line as a whole is at fault. The cause is `Fine` but for 31.
#[derive(Clone, Copy, Debug, PartialEq, Eq)]
pub struct Read {
    pub number: u16,
    pub rows: [u16; 4],
    pub why: Why,
    pub line: u64,
    pub place: u64,
}

/// What is wrong with a line.
enum Fault {
    /// The line as a whole, or an end of the text at it.
    Shape(Why),
    /// A field, counted from 1, that is no value, or a name that is too long.
    Field(Why, u64),
    /// A row too many.
    Ceiling,
    /// A name repeated or reserved.
    Name,
}

impl Fault {
    /// The number, the cause and the place that a fault is reported with.
    fn report(&self) -> (u16, Why, u64) {
        match *self {
            Fault::Shape(why) => (31, why, 0),
            Fault::Field(why, field) => (31, why, field),
            Fault::Ceiling => (30, Why::Fine, 0),
            Fault::Name => (2, Why::Fine, 1),
        }
    }
}

/// Reads a text into the four sheets.
///
/// The sheets hold the rows and then zeros; they are all zero after any trouble.
pub fn read(
    text: &[u8],
    sorts: &mut [u16],
    terms: &mut [u16],
    inputs: &mut [u16],
    steps: &mut [u16],
) -> Read {
    let mut sheets = [sorts, terms, inputs, steps];
    let mut reader = Reader::new(text);
    let mut result = Read {
        number: 0,
        rows: [0; 4],
        why: Why::Fine,
        line: 0,
        place: 0,
    };
    if let Err(fault) = reader.sheets(&mut sheets) {
        (result.number, result.why, result.place) = fault.report();
        result.line = reader.line;
    } else if (0..4).any(|at| sheets[at].len() < reader.rows[at] * COLUMNS[at]) {
        result.number = 32;
    } else {
        result.rows = reader.rows.map(|rows| rows as u16);
    }
    for at in 0..4 {
        let used = usize::from(result.rows[at]) * COLUMNS[at];
        sheets[at][used..].fill(0);
    }
    result
}

/// A field of a line, with the hash of its bytes.
#[derive(Clone, Copy)]
struct Field<'a> {
    bytes: &'a [u8],
    hash: u32,
}

impl Field<'_> {
    fn is_blank(&self) -> bool {
        self.bytes == b"-"
    }
}

struct Reader<'a> {
    text: &'a [u8],
    /// Where the next line begins.
    next: usize,
    /// The number of the line last begun.
    line: u64,
    rows: [usize; 4],
    sorts: Names<'a>,
    terms: Names<'a>,
    heads: Names<'a>,
    fields: [Field<'a>; MAX_FIELDS],
    count: usize,
}

impl<'a> Reader<'a> {
    fn new(text: &'a [u8]) -> Self {
        Reader {
            text,
            next: 0,
            line: 0,
            rows: [0; 4],
            sorts: Names::new(),
            terms: Names::new(),
            heads: Names::new(),
            fields: [Field {
                bytes: b"",
                hash: 0,
            }; MAX_FIELDS],
            count: 0,
        }
    }

    fn sheets(&mut self, sheets: &mut [&mut [u16]; 4]) -> Result<(), Fault> {
        for (at, sheet) in sheets.iter_mut().enumerate() {
            self.header(HEADERS[at])?;
            while !(at == 3 && self.next == self.text.len()) && self.row(at)? {
                self.store(at, sheet)?;
            }
        }
        Ok(())
    }

    fn header(&mut self, header: &[u8]) -> Result<(), Fault> {
        self.line += 1;
        let rest = &self.text[self.next..];
        if !rest.starts_with(header) || rest.get(header.len()) != Some(&b'\n') {
            return Err(self.no_header());
        }
        self.next += header.len() + 1;
        Ok(())
    }

    /// What is wrong with the line that begins here, where a header has to.
    #[cold]
    fn no_header(&self) -> Fault {
        Fault::Shape(match self.whole() {
            Err(why) => why,
            Ok(line) if line.starts_with(BYTE_ORDER_MARK) => Why::Mark,
            Ok(line) if line.contains(&b'\r') => Why::Return,
            Ok(_) => Why::Header,
        })
    }

    /// What is wrong with the line that begins here and is no row.
    #[cold]
    fn no_row(&self) -> Fault {
        Fault::Shape(match self.whole() {
            Err(why) => why,
            Ok(line) if line.contains(&b'\r') => Why::Return,
            Ok(line) if line.iter().all(|byte| (b' '..=b'~').contains(byte)) => Why::Fields,
            Ok(_) => Why::Byte,
        })
    }

    /// The line that begins here, if it has an end and is not too long.
    fn whole(&self) -> Result<&'a [u8], Why> {
        let rest = &self.text[self.next..];
        match rest.iter().position(|&byte| byte == b'\n') {
            Some(end) if end > MAX_LINE => Err(Why::Long),
            Some(end) => Ok(&rest[..end]),
            None if rest.is_empty() => Err(Why::Early),
            None => Err(Why::Cut),
        }
    }

    /// Takes a line of a sheet apart; false for the empty line after it.
    fn row(&mut self, at: usize) -> Result<bool, Fault> {
        self.line += 1;
        if self.text.get(self.next) == Some(&b'\n') {
            self.next += 1;
            return match at {
                3 => Err(Fault::Shape(Why::Empty)),
                _ => Ok(false),
            };
        }
        if !self.split() {
            return Err(self.no_row());
        }
        if self.count != FIELDS[at] {
            return Err(Fault::Shape(Why::Fields));
        }
        self.formed(at)?;
        Ok(true)
    }

    /// Whether every field can stand in its column: a value, or a name that is
    /// not too long. The first that cannot is at fault.
    fn formed(&self, at: usize) -> Result<(), Fault> {
        for (column, field) in self.fields[..self.count].iter().enumerate() {
            let (good, why) = if column == VALUE_COLUMN[at] {
                (value(field).is_some(), Why::Value)
            } else {
                (field.bytes.len() <= MAX_NAME, Why::Name)
            };
            if !good {
                return Err(Fault::Field(why, column as u64 + 1));
            }
        }
        Ok(())
    }

    /// Splits the line that begins here into fields, to its newline; false, and
    /// nothing done, if that cannot be.
    fn split(&mut self) -> bool {
        let text = self.text;
        let mut begin = self.next;
        let mut count = 0;
        loop {
            let mut hash = 0u32;
            let mut end = begin;
            let stop = loop {
                match text.get(end) {
                    Some(&byte @ 33..=126) => {
                        hash = (hash ^ u32::from(byte)).wrapping_mul(0x0100_0193)
                    }
                    Some(&stop) => break stop,
                    None => return false,
                }
                end += 1;
            };
            let bytes = &text[begin..end];
            if bytes.is_empty() || count == MAX_FIELDS {
                return false;
            }
            self.fields[count] = Field { bytes, hash };
            count += 1;
            begin = end + 1;
            match stop {
                b' ' => (),
                b'\n' => break,
                _ => return false,
            }
        }
        if begin - 1 - self.next > MAX_LINE {
            return false;
        }
        self.count = count;
        self.next = begin;
        true
    }

    /// Puts the fields of the line into the sheet as its next row, in so far as
    /// it has room.
    fn store(&mut self, at: usize, sheet: &mut [u16]) -> Result<(), Fault> {
        let mut row = [0; STEP_COLUMNS];
        let row = &mut row[..COLUMNS[at]];
        let number = self.rows[at];
        let fields = self.fields;
        match at {
            0 => {
                self.named(at, fields[0])?;
                row[0] = self.sort(&fields[1]);
                row[1] = self.sort(&fields[2]);
                self.sorts.add(fields[0]);
            }
            1 => {
                self.named(at, fields[0])?;
                row[0] = self.head(fields[1]);
                row[1] = self.sort(&fields[2]);
                for (to, field) in row[2..].iter_mut().zip(&fields[3..]) {
                    *to = self.term(field);
                }
                self.terms.add(fields[0]);
            }
            2 => {
                row[1] = value(&fields[1]).ok_or(Fault::Field(Why::Value, 2))?;
                self.room(at)?;
                row[0] = self.term(&fields[0]);
            }
            _ => {
                row[3] = value(&fields[3]).ok_or(Fault::Field(Why::Value, 4))?;
                self.room(at)?;
                row[0] = step_word(&fields[0]);
                row[1] = rule_word(&fields[1]);
                row[2] = self.term(&fields[2]);
                for (to, field) in row[4..].iter_mut().zip(&fields[4..]) {
                    *to = self.term(field);
                }
            }
        }
        let begin = number * row.len();
        if let Some(to) = sheet.get_mut(begin..begin + row.len()) {
            to.copy_from_slice(row);
        }
        self.rows[at] = number + 1;
        Ok(())
    }

    /// Whether the sheet may have another row.
    fn room(&self, at: usize) -> Result<(), Fault> {
        if self.rows[at] == CEILINGS[at] {
            return Err(Fault::Ceiling);
        }
        Ok(())
    }

    /// Whether the sheet may have another row, and of this name.
    fn named(&self, at: usize, name: Field) -> Result<(), Fault> {
        self.room(at)?;
        let names = if at == 0 { &self.sorts } else { &self.terms };
        if name.is_blank() || name.bytes == b"prop" || names.find(&name).is_some() {
            return Err(Fault::Name);
        }
        Ok(())
    }

    fn sort(&self, name: &Field) -> u16 {
        if name.is_blank() {
            BLANK
        } else if name.bytes == b"prop" {
            0
        } else {
            self.sorts.find(name).map_or(UNKNOWN, |row| row + 1)
        }
    }

    fn term(&self, name: &Field) -> u16 {
        if name.is_blank() {
            BLANK
        } else {
            self.terms.find(name).unwrap_or(UNKNOWN)
        }
    }

    fn head(&mut self, name: Field<'a>) -> u16 {
        match name.bytes {
            b"-" => BLANK,
            b"eq" => 0,
            b"not" => 1,
            b"and" => 2,
            b"or" => 3,
            b"select" => 4,
            b"store" => 5,
            _ => {
                16 + self
                    .heads
                    .find(&name)
                    .unwrap_or_else(|| self.heads.add(name))
            }
        }
    }
}

fn step_word(word: &Field) -> u16 {
    match word.bytes {
        b"-" => BLANK,
        b"decide" => 0,
        b"deduce" => 1,
        b"clash" => 2,
        b"resolve" => 3,
        b"clear" => 4,
        b"jump" => 5,
        b"flip" => 6,
        b"fail" => 7,
        b"learn" => 8,
        _ => UNKNOWN,
    }
}

fn rule_word(word: &Field) -> u16 {
    match word.bytes {
        b"-" => BLANK,
        b"same" => 0,
        b"differ" => 1,
        b"refl" => 2,
        b"sym" => 3,
        b"trans" => 4,
        b"neg" => 5,
        b"part" => 6,
        b"unit" => 7,
        b"eval" => 8,
        b"cong" => 9,
        b"pred" => 10,
        b"read" => 11,
        b"skip" => 12,
        b"deep" => 13,
        _ => UNKNOWN,
    }
}

/// A field of a value column: blank, true, false or a decimal to 65,534.
fn value(field: &Field) -> Option<u16> {
    match *field.bytes {
        [b'-'] => Some(BLANK),
        [digit @ b'0'..=b'9'] => Some(u16::from(digit - b'0')),
        [b'1'..=b'9', ..] if field.bytes.len() <= 5 => {
            let mut number = 0u32;
            for &byte in field.bytes {
                if !byte.is_ascii_digit() {
                    return None;
                }
                number = 10 * number + u32::from(byte - b'0');
            }
            u16::try_from(number).ok().filter(|&number| number != BLANK)
        }
        _ => match field.bytes {
            b"true" => Some(1),
            b"false" => Some(0),
            _ => None,
        },
    }
}

/// Twice as many slots as names, so that a free one is always near.
const SLOTS: usize = 512;

/// Names in the order they were given, found by hash and then by all bytes.
struct Names<'a> {
    names: [Field<'a>; MAX_TERMS],
    len: u16,
    /// The position of a name plus 1, or 0 for a free slot.
    slots: [u16; SLOTS],
}

impl<'a> Names<'a> {
    fn new() -> Self {
        Names {
            names: [Field {
                bytes: b"",
                hash: 0,
            }; MAX_TERMS],
            len: 0,
            slots: [0; SLOTS],
        }
    }

    /// The slot of the name, or the free one where it would go.
    fn slot(&self, name: &Field) -> usize {
        let mut at = (name.hash ^ name.hash >> 16) as usize % SLOTS;
        while let Some(held) = usize::from(self.slots[at]).checked_sub(1) {
            let held = &self.names[held];
            if held.hash == name.hash && held.bytes == name.bytes {
                break;
            }
            at = (at + 1) % SLOTS;
        }
        at
    }

    fn find(&self, name: &Field) -> Option<u16> {
        self.slots[self.slot(name)].checked_sub(1)
    }

    /// Adds a name that is not there and returns its position.
    fn add(&mut self, name: Field<'a>) -> u16 {
        let slot = self.slot(&name);
        let position = self.len;
        self.names[usize::from(position)] = name;
        self.len += 1;
        self.slots[slot] = self.len;
        position
    }
}
