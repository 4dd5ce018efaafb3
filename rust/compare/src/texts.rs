//! Texts: what is read from them, what a person is told of them, and what the
//! program prints.

use crate::case::Case;
use crate::deep::{self, DEEP};
use crate::learn::LEARN;
use crate::rng::Rng;
use crate::stats::is_of_a_step;
use crate::{compare_run, naive, naive_text, numbers, print, run_with, Session};
use plain::{Checked, Read};
use std::fmt::Debug;
use std::io::Write;
use std::process::{Command, Output, Stdio};

/// The reader of texts, whoever it is.
type ReadText = fn(&[u8], &mut [Vec<u16>; 4]) -> Read;

/// A text read and run, whoever does it, with the line for a person in a buffer.
type CheckText = fn(&[u8], &mut [u8]) -> [u16; 5];

/// Texts of one kind have one verdict, one number, one place and one cause in words.
pub type Kind = (u16, u16, u16, &'static str);

/// How many texts of each kind go through the program.
const PROGRAM_TEXTS: u64 = 12;

/// The length of a buffer that holds every line for a person.
pub const SAID: usize = 256;

/// The lengths of sheets that hold every text.
pub const ROOM: [usize; 4] = [64, 1_536, 512, 9_216];

fn read_plain(text: &[u8], sheets: &mut [Vec<u16>; 4]) -> Read {
    let [sorts, terms, inputs, steps] = sheets;
    plain::read(text, sorts, terms, inputs, steps)
}

#[cfg(feature = "library")]
fn read_library(text: &[u8], sheets: &mut [Vec<u16>; 4]) -> Read {
    let [sorts, terms, inputs, steps] = sheets;
    let read = cdsat::read(text, sorts, terms, inputs, steps);
    Read {
        number: read.number,
        rows: read.rows,
        why: plain::Why::ALL[read.why as usize],
        line: read.line,
        place: read.place,
    }
}

/// Those that are held against `plain`.
pub fn readers() -> Vec<(&'static str, ReadText)> {
    vec![
        ("the slow reader", naive_text::read),
        #[cfg(feature = "library")]
        ("the library's reader", read_library),
    ]
}

fn checkers() -> Vec<(&'static str, CheckText)> {
    vec![
        #[cfg(feature = "library")]
        ("the library", |text, said| {
            cdsat::check_into(text, said).numbers()
        }),
    ]
}

/// The words of `plain` have to be those of the bindings.
#[cfg(feature = "library")]
pub fn compare_words() -> Result<(), String> {
    let meaning = |number| {
        let outcome = cdsat::Outcome {
            verdict: cdsat::Verdict::Refused,
            steps: 0,
            number,
            entries: 0,
            place: 0,
        };
        outcome.meaning()
    };
    let mut pairs: Vec<_> = (0..=40)
        .map(|number| (plain::meaning(number), meaning(number)))
        .collect();
    let causes = plain::Why::ALL.iter().zip(cdsat::Why::ALL);
    pairs.extend(causes.map(|(ours, theirs)| (ours.words(), theirs.words())));
    match pairs.iter().find(|(ours, theirs)| ours != theirs) {
        Some((ours, theirs)) => Err(format!("plain says {ours:?}, the bindings {theirs:?}")),
        None => Ok(()),
    }
}

#[cfg(not(feature = "library"))]
pub fn compare_words() -> Result<(), String> {
    Ok(())
}

impl Session {
    /// Prints the case as text, damages it perhaps, and compares what is made of
    /// it.
    pub fn text(&mut self, rng: &mut Rng, case: &Case, damaged: bool) -> Result<(), String> {
        let mut printed = print::print(rng, case);
        for _ in 0..if damaged { rng.within(1, 2) } else { 0 } {
            print::damage(rng, &mut printed.text);
        }
        let lengths = lengths(rng, &printed);
        let (read, sheets) = compare_read(&printed.text, lengths, rng.next() as u16)?;
        self.texts += 1;
        self.stats.text(read.number);
        let within = (0..4).all(|at| printed.sheets[at].len() <= ROOM[at]);
        if !damaged && within && read.number != 32 {
            expect_sheets(&printed, &read, &sheets)?;
        }
        let checked = plain::check(&printed.text);
        if read.number == 0 {
            let case = read_case(&read, sheets);
            let ((outcome, ..), _) = compare_run(&case)?;
            self.stats.text_verdict(outcome[0]);
            self.learns(&printed.text, &case, outcome[1].into());
            self.deeps(&case, outcome);
            expect_outcome(&printed.text, &checked, outcome)?;
        } else if read.number != 32 {
            expect_refusal(&printed.text, &checked, &read)?;
        }
        self.check(rng, &printed.text, &checked)
    }

    /// Compares what is made of a text at once: the outcome, and what is said.
    fn check(&mut self, rng: &mut Rng, text: &[u8], checked: &Checked) -> Result<(), String> {
        self.stats.told(checked);
        self.long_lines(text, checked);
        expect_line(text, checked)?;
        expect_meant(text, checked)?;
        let said = checked.said();
        let short = rng.below(said.len() + 2);
        compare_check(rng, text, checked, SAID)?;
        let length = *rng.pick(&[0, 1, short, short, SAID - 1, SAID + 44]);
        compare_check(rng, text, checked, length)?;
        let [verdict, _, number, _, place] = numbers(checked.outcome);
        let Some(program) = &self.program else {
            return Ok(());
        };
        let kind = (verdict, number, place, checked.cause());
        let through = self.programs.entry(kind).or_default();
        if *through < PROGRAM_TEXTS {
            *through += 1;
            through_program(program, text, checked)?;
        }
        Ok(())
    }

    /// Counts the learns that were allowed, and those whose level is a word.
    fn learns(&mut self, text: &[u8], case: &Case, allowed: usize) {
        let rows = case.steps.len() / 9;
        for at in (0..allowed).filter(|at| case.steps[9 * at] == LEARN) {
            let mut from_end = text.rsplit(|&byte| byte == b'\n');
            let line = from_end.nth(rows - at).unwrap_or_default();
            let level = line.split(|&byte| byte == b' ').nth(3);
            let word = matches!(level, Some(b"true" | b"false"));
            self.stats.event("learns allowed in texts", 1);
            self.stats
                .event("learns allowed, the level as a word", word.into());
        }
    }

    /// Counts the rows by deep that were allowed, and those refused with 13.
    fn deeps(&mut self, case: &Case, outcome: [u16; 5]) {
        let [_, allowed, number, ..] = outcome;
        let is_deep = |row: &&[u16]| deep::STEPS.contains(&row[0]) && row[1] == DEEP;
        let rows = case.steps.chunks(9);
        let count = rows.clone().take(allowed.into()).filter(is_deep).count();
        self.stats
            .event("rows by deep allowed in texts", count as u64);
        let refused = rows.clone().nth(allowed.into()).filter(is_deep);
        let unfit = number == 13 && refused.is_some();
        self.stats.event("13 by deep in texts", unfit.into());
    }

    /// Counts the lines that are as long as lines may be, or one byte longer.
    fn long_lines(&mut self, text: &[u8], checked: &Checked) {
        let mut lines = text.split(|&byte| byte == b'\n').map(<[u8]>::len);
        let bad = checked.why == plain::Why::Long;
        let is_over = bad && lines.clone().nth(checked.line as usize - 1) == Some(526);
        let is_full = checked.why == plain::Why::Fine && lines.any(|length| length == 525);
        let full = "texts read with a line of 525 bytes";
        self.stats.event(full, u64::from(is_full));
        self.stats
            .event("bad lines of 526 bytes", u64::from(is_over));
    }
}

/// Lengths of sheets for a text: enough for every text, about enough for this
/// one, or one number short.
fn lengths(rng: &mut Rng, printed: &print::Printed) -> [usize; 4] {
    let mut lengths = ROOM;
    if rng.percent(70) {
        for (length, sheet) in lengths.iter_mut().zip(&printed.sheets) {
            *length = sheet.len() + rng.below(3) * rng.below(12);
        }
    }
    if rng.percent(8) {
        let at = rng.below(4);
        lengths[at] = printed.sheets[at].len().saturating_sub(1);
    }
    lengths
}

/// The sheets of a text as a case with buffers of the least lengths.
fn read_case(read: &Read, sheets: [Vec<u16>; 4]) -> Case {
    let [mut sorts, mut terms, mut inputs, mut steps] = sheets;
    let [sort_rows, term_rows, input_rows, step_rows] = read.rows.map(usize::from);
    sorts.truncate(2 * sort_rows);
    terms.truncate(6 * term_rows);
    inputs.truncate(2 * input_rows);
    steps.truncate(9 * step_rows);
    Case {
        sorts,
        terms,
        inputs,
        steps,
        work: vec![u64::MAX; 8 * term_rows + 12],
        trail: vec![0xAAAA; 4 * term_rows],
    }
}

/// Reads the text with everyone into sheets of the lengths, full of old contents;
/// the result, if all agree.
pub fn compare_read(
    text: &[u8],
    lengths: [usize; 4],
    old: u16,
) -> Result<(Read, [Vec<u16>; 4]), String> {
    let go = |read: ReadText| {
        let mut sheets = lengths.map(|length| vec![old; length]);
        let result = read(text, &mut sheets);
        (result, sheets)
    };
    let ours = go(read_plain);
    for (name, read) in readers() {
        let theirs = go(read);
        if ours != theirs {
            let about = format!("plain and {name} differ, sheets of lengths {lengths:?}");
            return Err(difference(&about, text, &ours, &theirs));
        }
    }
    Ok(ours)
}

/// What differs on a text, and the text as bytes and as it looks.
fn difference(about: &str, text: &[u8], ours: impl Debug, theirs: impl Debug) -> String {
    let shown = String::from_utf8_lossy(text);
    format!("{about}:\n{ours:?}\n{theirs:?}\non the text\n{text:?}\n{shown}")
}

/// Bytes as a string that shows each of them.
fn looks(bytes: &[u8]) -> String {
    bytes.escape_ascii().to_string()
}

/// An undamaged text has to be read as what was printed, then zeros.
fn expect_sheets(
    printed: &print::Printed,
    read: &Read,
    sheets: &[Vec<u16>; 4],
) -> Result<(), String> {
    let good = (0..4).all(|at| {
        let (rows, rest) = sheets[at].split_at(printed.sheets[at].len());
        rows == printed.sheets[at] && rest.iter().all(|&number| number == 0)
    });
    if read.number != 0 || !good {
        let about = format!("an undamaged text is read as {read:?}, sheets and what was printed");
        return Err(difference(&about, &printed.text, sheets, &printed.sheets));
    }
    Ok(())
}

/// A text checked at once has to end as it does read first and then run.
fn expect_outcome(text: &[u8], checked: &Checked, outcome: [u16; 5]) -> Result<(), String> {
    let told = (checked.field, checked.why);
    if numbers(checked.outcome) != outcome || told != (outcome[4].into(), plain::Why::Fine) {
        let about = "plain's check and its reading and running differ";
        return Err(difference(about, text, checked, outcome));
    }
    Ok(())
}

/// What the reader refuses has to be refused at once, in the same way.
fn expect_refusal(text: &[u8], checked: &Checked, read: &Read) -> Result<(), String> {
    let place = (checked.line, checked.field, checked.why);
    let outcome = [2, 0, read.number, 0, 0];
    if numbers(checked.outcome) != outcome || place != (read.line, read.place, read.why) {
        let about = "plain's check and its reading differ";
        return Err(difference(about, text, checked, read));
    }
    Ok(())
}

/// The line of a row at fault is the first such that the text up to it is refused,
/// by the slow reader and the slow checker: so with it, and open without it.
fn expect_line(text: &[u8], checked: &Checked) -> Result<(), String> {
    let number = checked.outcome.number;
    if !matches!(number, 1 | 3..=8) && !is_of_a_step(number) {
        return Ok(());
    }
    let line = checked.line as usize;
    let without = slow_check(&naive_text::cut(text, line - 1));
    let with = slow_check(&naive_text::cut(text, line));
    if without[0] != 0 || with[..] != numbers(checked.outcome)[..4] {
        let about = "the line of plain's check is not the one; without it and with it";
        return Err(difference(
            &format!("{checked:?}: {about}"),
            text,
            without,
            with,
        ));
    }
    Ok(())
}

/// With 26 the other of the two lines was meant: the slow checker allows it in the
/// place of the one refused, where a fail refutes the input and a clash does not.
/// With every other number no line was meant.
fn expect_meant(text: &[u8], checked: &Checked) -> Result<(), String> {
    if checked.outcome.number != 26 {
        return match checked.meant {
            Some(_) => Err(difference("a line was meant", text, checked, "none")),
            None => Ok(()),
        };
    }
    let (meant, mended) = other_line(text, checked.line as usize);
    let outcome = slow_check(&mended);
    let verdict = u16::from(meant == "fail");
    let words = "26 fail is the line at level 0, clash the one above it";
    let line = format!("line {}: {words}: {meant} was meant\n", checked.line);
    let said = checked.said();
    if outcome[..3] != [verdict, checked.outcome.steps + 1, 0] || said != line {
        let about = format!("a {meant} was meant; its outcome and the line, and what was said");
        return Err(difference(&about, text, (outcome, line), said));
    }
    Ok(())
}

/// The other word of clash and fail, and the text up to a line of one of them, with
/// that word in it.
fn other_line(text: &[u8], line: usize) -> (&'static str, Vec<u8>) {
    let upto = naive_text::cut(text, line);
    let before = naive_text::cut(text, line - 1);
    let row = &upto[before.len()..];
    match row.strip_prefix(b"clash ") {
        Some(rest) => ("fail", [&before, &b"fail "[..], rest].concat()),
        None => ("clash", [&before, &b"clash "[..], &row[5..]].concat()),
    }
}

/// The outcome of a text that can be read, without the place.
fn slow_check(text: &[u8]) -> [u16; 4] {
    let mut sheets = ROOM.map(|length| vec![0; length]);
    let read = naive_text::read(text, &mut sheets);
    if read.number != 0 {
        return [2, 0, read.number, 0];
    }
    let ((outcome, _), ..) = run_with(&read_case(&read, sheets), naive::run);
    outcome
}

/// Checks the text at once with everyone, the line in a buffer of the length full
/// of old contents: the line is cut where the buffer is short, and zeros follow.
pub fn compare_check(
    rng: &mut Rng,
    text: &[u8],
    checked: &Checked,
    length: usize,
) -> Result<(), String> {
    let mut line = checked.said().into_bytes();
    if line.len() > SAID {
        return Err(difference("too long a line", text, checked, line));
    }
    line.resize(length, 0);
    let ours = (numbers(checked.outcome), line);
    for (name, check) in checkers() {
        let mut said: Vec<u8> = (0..length).map(|_| rng.next() as u8).collect();
        let outcome = check(text, &mut said);
        let theirs = (outcome, said);
        if ours != theirs {
            let about = format!("plain and {name} differ on a text checked at once");
            let [ours, theirs] = [ours, theirs].map(|(out, said)| (out, looks(&said)));
            return Err(difference(&about, text, ours, theirs));
        }
    }
    Ok(())
}

/// The program has to print the outcome, and what a person is told as an error.
fn through_program(program: &str, text: &[u8], checked: &Checked) -> Result<(), String> {
    let output = feed(program, text).map_err(|trouble| format!("{program}: {trouble}"))?;
    let printed = [output.stdout, output.stderr].map(|bytes| looks(&bytes));
    let expected = [checked.outcome.listing(), checked.said()];
    let expected = expected.map(|lines| looks(lines.as_bytes()));
    if printed != expected {
        let about = "the program printed as output and error, and should";
        return Err(difference(about, text, printed, expected));
    }
    Ok(())
}

fn feed(program: &str, text: &[u8]) -> std::io::Result<Output> {
    let mut child = Command::new(program)
        .stdin(Stdio::piped())
        .stdout(Stdio::piped())
        .stderr(Stdio::piped())
        .spawn()?;
    let mut input = child.stdin.take().expect("a pipe");
    let text = text.to_vec();
    let writer = std::thread::spawn(move || input.write_all(&text));
    let output = child.wait_with_output()?;
    let written = writer.join().expect("a writer that ends");
    written?;
    Ok(output)
}
