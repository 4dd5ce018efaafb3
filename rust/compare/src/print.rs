//! Cases as text, with random names, and damage to texts.

use crate::case::Case;
use crate::naive_text::{HEAD_WORDS, RULE_WORDS, STEP_WORDS};
use crate::problem::X;
use crate::rng::Rng;
use std::collections::HashSet;

const UNKNOWN: u16 = 65_534;

const HEADERS: [&str; 4] = [
    "sort index value",
    "term head sort a b c d",
    "term value",
    "step rule term value p q r s t",
];

/// Names that look like something else.
const ODD: [&str; 18] = [
    "true", "false", "eq", "store", "decide", "clash", "fail", "learn", "same", "deep", "term",
    "sort", "0", "17", "--", "prop1", "~", "!",
];

/// Words that no step and no rule has.
const NO_WORDS: [&str; 18] = [
    "Clash", "samen", "sam", "0", "clashes", "eq", "Fail", "fails", "fai", "7", "Learn", "learns",
    "lear", "8", "Deep", "deeper", "dee", "13",
];

/// A text of a case, and the sheets that it stands for.
pub struct Printed {
    pub text: Vec<u8>,
    pub sheets: [Vec<u16>; 4],
}

/// Prints the whole rows of a case. A number that names nothing is printed as a
/// name or word that nothing gave.
pub fn print(rng: &mut Rng, case: &Case) -> Printed {
    let sort_names = names(rng, case.sorts.len() / 2);
    let term_names = names(rng, case.terms.len() / 6);
    let head_names = names(rng, case.terms.len() / 6);
    let mut printer = Printer {
        rng,
        text: String::new(),
        sheets: Default::default(),
        sort_names,
        term_names,
        head_names,
        heads: Vec::new(),
        terms: 0,
    };
    printer.sorts(&case.sorts);
    printer.terms(&case.terms);
    printer.inputs(&case.inputs);
    printer.steps(&case.steps);
    Printed {
        text: printer.text.into_bytes(),
        sheets: printer.sheets,
    }
}

/// So many different names, short or long, often with a long common beginning.
fn names(rng: &mut Rng, count: usize) -> Vec<String> {
    let letters = b"abcxyzABC019_.-+*'\"()[]{}<>|\\^~!@#$%&?/:;,=`";
    let common: String = (0..63).map(|_| char::from(*rng.pick(letters))).collect();
    let style = rng.below(6);
    let mut made: Vec<String> = Vec::new();
    let mut taken: HashSet<String> = ["-", "prop"].map(String::from).into();
    for at in 0..count {
        let name = match style {
            0 => format!("{}{at}", &common[..rng.within(16, 60)]),
            1 => format!("{}{at}", &common[..16]),
            2 => format!("t{at}"),
            3 if rng.one_in(6) => rng.pick(&ODD).to_string(),
            4 => {
                let tail = at.to_string();
                format!("{}{tail}", &common[..64 - tail.len().max(1)])
            }
            _ => format!("{}{at}", char::from(*rng.pick(letters))),
        };
        let fresh = taken.insert(name.clone());
        made.push(if fresh { name } else { format!("n.{at}") });
    }
    made
}

struct Printer<'a> {
    rng: &'a mut Rng,
    text: String,
    sheets: [Vec<u16>; 4],
    sort_names: Vec<String>,
    term_names: Vec<String>,
    head_names: Vec<String>,
    /// The free heads in the order of their first use.
    heads: Vec<u16>,
    /// How many terms are printed.
    terms: usize,
}

impl Printer<'_> {
    fn line(&mut self, fields: &[String]) {
        self.text.push_str(&fields.join(" "));
        self.text.push('\n');
    }

    fn header(&mut self, at: usize) {
        if at > 0 {
            self.text.push('\n');
        }
        self.text.push_str(HEADERS[at]);
        self.text.push('\n');
    }

    fn sorts(&mut self, sheet: &[u16]) {
        self.header(0);
        for (at, row) in sheet.chunks_exact(2).enumerate() {
            let mut fields = vec![self.sort_names[at].clone()];
            for &column in row {
                let (name, number) = self.sort(column, at);
                fields.push(name);
                self.sheets[0].push(number);
            }
            self.line(&fields);
        }
    }

    /// The name of a sort among the first so many, and what it is read as.
    fn sort(&mut self, number: u16, earlier: usize) -> (String, u16) {
        match number {
            X => ("-".into(), X),
            0 => ("prop".into(), 0),
            _ if usize::from(number) <= earlier => {
                (self.sort_names[usize::from(number) - 1].clone(), number)
            }
            _ => ("no-such-sort".into(), UNKNOWN),
        }
    }

    fn terms(&mut self, sheet: &[u16]) {
        self.header(1);
        for (at, row) in sheet.chunks_exact(6).enumerate() {
            let mut fields = vec![self.term_names[at].clone()];
            let (head, number) = self.head(row[0]);
            fields.push(head);
            self.sheets[1].push(number);
            let (sort, number) = self.sort(row[1], self.sort_names.len());
            fields.push(sort);
            self.sheets[1].push(number);
            for &column in &row[2..] {
                let (name, number) = self.term(column);
                fields.push(name);
                self.sheets[1].push(number);
            }
            self.line(&fields);
            self.terms += 1;
        }
    }

    fn head(&mut self, number: u16) -> (String, u16) {
        if number == X {
            return ("-".into(), X);
        }
        if let Some(word) = HEAD_WORDS.get(usize::from(number)) {
            return (word.to_string(), number);
        }
        let at = self
            .heads
            .iter()
            .position(|&head| head == number)
            .unwrap_or_else(|| {
                self.heads.push(number);
                self.heads.len() - 1
            });
        let mut name = self.head_names[at].clone();
        if HEAD_WORDS.contains(&name.as_str()) {
            name = format!("f.{at}");
        }
        (name, 16 + at as u16)
    }

    fn term(&mut self, number: u16) -> (String, u16) {
        match number {
            X => ("-".into(), X),
            _ if usize::from(number) < self.terms => {
                (self.term_names[usize::from(number)].clone(), number)
            }
            _ if self.rng.percent(10) => ("prop".into(), UNKNOWN),
            _ => ("no-such-term".into(), UNKNOWN),
        }
    }

    fn value(&mut self, number: u16) -> (String, u16) {
        let name = match number {
            X => "-".into(),
            0 if self.rng.percent(70) => "false".into(),
            1 if self.rng.percent(70) => "true".into(),
            _ => number.to_string(),
        };
        (name, number)
    }

    fn word(&mut self, words: &[&str], number: u16) -> (String, u16) {
        match words.get(usize::from(number)) {
            Some(word) => (word.to_string(), number),
            None if number == X => ("-".into(), X),
            None => (self.rng.pick(&NO_WORDS).to_string(), UNKNOWN),
        }
    }

    fn row(&mut self, sheet: usize, columns: Vec<(String, u16)>) {
        let (fields, numbers): (Vec<_>, Vec<_>) = columns.into_iter().unzip();
        self.sheets[sheet].extend(numbers);
        self.line(&fields);
    }

    fn inputs(&mut self, sheet: &[u16]) {
        self.header(2);
        for row in sheet.chunks_exact(2) {
            let columns = vec![self.term(row[0]), self.value(row[1])];
            self.row(2, columns);
        }
    }

    fn steps(&mut self, sheet: &[u16]) {
        self.header(3);
        for row in sheet.chunks_exact(9).take(1_400) {
            let mut columns = vec![
                self.word(&STEP_WORDS, row[0]),
                self.word(&RULE_WORDS, row[1]),
                self.term(row[2]),
                self.value(row[3]),
            ];
            columns.extend(row[4..].iter().map(|&column| self.term(column)));
            self.row(3, columns);
        }
    }
}

/// One piece of damage to a text.
pub fn damage(rng: &mut Rng, text: &mut Vec<u8>) {
    match rng.below(20) {
        0..=2 => byte(rng, text),
        3 => text.truncate(rng.below(text.len() + 1)),
        4 => text.push(*rng.pick(b"\n\n x\r")),
        5 => {
            text.pop();
        }
        6..=9 => fields(rng, text),
        10 => crowd(rng, text),
        11..=13 => lines(rng, text),
        14..=15 => stretch(rng, text),
        _ => mishap(rng, text),
    }
}

/// What editors and other systems do to texts.
fn mishap(rng: &mut Rng, text: &mut Vec<u8>) {
    let mut lines = split(text);
    if lines.is_empty() {
        return;
    }
    let at = rng.below(lines.len());
    match rng.below(8) {
        0 => lines[0].splice(..0, *b"\xEF\xBB\xBF").for_each(drop),
        1 => lines[at].splice(..0, *b"\xEF\xBB\xBF").for_each(drop),
        2 => lines.iter_mut().for_each(add_return),
        3 => add_return(&mut lines[at]),
        4 => {
            let spaces = lines[at].iter_mut().filter(|byte| **byte == b' ');
            spaces.for_each(|byte| *byte = b'\t');
        }
        5 => lines.truncate(at),
        6 => lines.push(b"\n".to_vec()),
        _ => retitle(rng, &mut lines),
    }
    *text = lines.concat();
}

/// Puts a carriage return before the newline.
fn add_return(line: &mut Vec<u8>) {
    line.insert(line.len() - 1, b'\r');
}

/// Writes a header in another way.
fn retitle(rng: &mut Rng, lines: &mut [Vec<u8>]) {
    let header = format!("{}\n", rng.pick(&HEADERS));
    let new = match rng.below(5) {
        0 => header.to_uppercase(),
        1 => header.replace(' ', "  "),
        2 => header.replace('\n', " \n"),
        3 => format!("{}\n", rng.pick(&HEADERS)),
        _ => header.replace("term", "terms").replace("sort", "sorts"),
    };
    for line in lines.iter_mut().filter(|line| **line == header.as_bytes()) {
        *line = new.clone().into_bytes();
    }
}

/// Makes a line about as long as a line may be: with a field too long, or with
/// the longest names and the longest value, perhaps with a strange byte too.
fn stretch(rng: &mut Rng, text: &mut Vec<u8>) {
    let mut lines = split(text);
    if lines.is_empty() {
        return;
    }
    let at = match rng.percent(50) {
        true => lines.len() - 1,
        false => rng.below(lines.len()),
    };
    let length = rng.within(524, 527);
    let Some(line) = lines[at].strip_suffix(b"\n") else {
        return;
    };
    let columns = line.split(|&byte| byte == b' ').count();
    let mut line = match columns {
        9 if rng.percent(70) => {
            let name = ["n"; 64].concat();
            let mut fields = [name.as_str(); 9];
            fields[3] = "65534";
            fields.join(" ").into_bytes()
        }
        _ => line.to_vec(),
    };
    line.resize(length.max(line.len()), b'n');
    if rng.percent(20) {
        line[rng.below(length)] = *rng.pick(b"\r\t \x80");
    }
    line.push(b'\n');
    lines[at] = line;
    *text = lines.concat();
}

fn byte(rng: &mut Rng, text: &mut Vec<u8>) {
    let kinds = [
        b' ', b'\n', b'\t', b'\r', 0, 32, 33, 126, 127, 128, 255, b'-', b'0', b'a',
    ];
    let at = rng.below(text.len() + 1);
    let new = *rng.pick(&kinds);
    match rng.below(3) {
        0 => text.insert(at, new),
        _ if at == text.len() => (),
        1 => text[at] = new,
        _ => {
            text.remove(at);
        }
    }
}

fn split(text: &[u8]) -> Vec<Vec<u8>> {
    text.split_inclusive(|&byte| byte == b'\n')
        .map(<[u8]>::to_vec)
        .collect()
}

fn lines(rng: &mut Rng, text: &mut Vec<u8>) {
    let mut lines = split(text);
    if lines.is_empty() {
        return;
    }
    let at = rng.below(lines.len());
    let other = rng.below(lines.len());
    match rng.below(4) {
        0 => {
            lines.remove(at);
        }
        1 => lines.swap(at, other),
        2 => lines.insert(at, b"\n".to_vec()),
        _ => {
            let line = lines[at].clone();
            lines.insert(other, line);
        }
    }
    *text = lines.concat();
}

/// Changes a field of a line, or adds or drops one.
fn fields(rng: &mut Rng, text: &mut Vec<u8>) {
    let mut lines = split(text);
    if lines.is_empty() {
        return;
    }
    let at = rng.below(lines.len());
    let Some(line) = lines[at].strip_suffix(b"\n") else {
        return;
    };
    let mut fields: Vec<Vec<u8>> = line
        .split(|&byte| byte == b' ')
        .map(<[u8]>::to_vec)
        .collect();
    let field = if rng.percent(40) {
        0
    } else {
        rng.below(fields.len())
    };
    let values: [&[u8]; 14] = [
        b"65535",
        b"65534",
        b"00",
        b"01",
        b"+1",
        b"-1",
        b"True",
        b"2",
        b"99999",
        b"100000",
        b"-",
        b"prop",
        b"65536",
        b"4294967297",
    ];
    match rng.below(10) {
        0 => fields[field] = vec![b'n'; rng.within(63, 66)],
        1 => fields.insert(field, b"x".to_vec()),
        2 => {
            fields.remove(field);
        }
        3 => {
            let same = rng.below(lines.len());
            let first = split_first(&lines[same]);
            fields[field] = first;
        }
        4 if fields.len() == 2 => fields[1] = rng.pick(&values).to_vec(),
        5 | 6 if fields.len() == 9 => fields[3] = rng.pick(&values).to_vec(),
        _ => fields[field] = rng.pick(&values).to_vec(),
    }
    let mut line = fields.join(&b' ');
    line.push(b'\n');
    lines[at] = line;
    *text = lines.concat();
}

fn split_first(line: &[u8]) -> Vec<u8> {
    line.split(|&byte| byte == b' ' || byte == b'\n')
        .next()
        .unwrap_or(b"")
        .to_vec()
}

/// Adds lines to a sheet, up to about its ceiling, the last one perhaps bad in
/// another way too.
fn crowd(rng: &mut Rng, text: &mut Vec<u8>) {
    let sheet = rng.below(4);
    let mut lines = split(text);
    let header = format!("{}\n", HEADERS[sheet]).into_bytes();
    let Some(at) = lines.iter().position(|line| *line == header) else {
        return;
    };
    let there = lines[at + 1..]
        .iter()
        .take_while(|line| *line != b"\n")
        .count();
    let ceiling = [32, 256, 256, 1_024][sheet] + rng.below(3) - 1;
    let more = ceiling.saturating_sub(there);
    let spoil = rng.percent(50);
    let new = (0..more).map(|number| {
        let last = spoil && number + 1 == more;
        let line = match sheet {
            0 if last => "more.0 - -\n".into(),
            1 if last => "more.0 c prop - - - -\n".into(),
            2 if last => "more.0 01\n".into(),
            3 if last => "decide - more.0 65535 - - - - -\n".into(),
            0 => format!("more.{number} - -\n"),
            1 => format!("more.{number} c.{number} prop - - - -\n"),
            2 => format!("more.{number} 0\n"),
            _ => format!("decide - more.{number} {number} - - - - -\n"),
        };
        line.into_bytes()
    });
    let to = at + 1 + there;
    lines.splice(to..to, new.collect::<Vec<_>>());
    *text = lines.concat();
}
