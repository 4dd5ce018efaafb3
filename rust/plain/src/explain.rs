//! A text read and run, and what a person is told of a refusal.

use crate::engine::CLASH;
use crate::{
    read, run_to, trail_numbers, work_words, Outcome, Why, INPUT_COLUMNS, MAX_INPUTS, MAX_SORTS,
    MAX_TERMS, MAX_TEXT_STEPS, SORT_COLUMNS, STEP_COLUMNS, TERM_COLUMNS,
};
use std::fmt::Write;

/// The line that was meant where the other of the two was refused, with 26.
#[derive(Clone, Copy, Debug, PartialEq, Eq)]
pub enum Meant {
    /// A fail: the line was a clash at level 0.
    Fail,
    /// A clash: the line was a fail above level 0.
    Clash,
}

/// What became of a text: the outcome of the run, and where and why it was
/// refused. Line and field count from 1 and are 0 where there is none; the field of a
/// step is its place. The
/// reader's cause is `Fine` but for 31; another line was meant with 26 alone.
#[derive(Clone, Copy, Debug, PartialEq, Eq)]
pub struct Checked {
    pub outcome: Outcome,
    pub line: u64,
    pub field: u64,
    pub why: Why,
    pub meant: Option<Meant>,
}

impl Checked {
    /// The line for a person, with its newline; empty if nothing was refused.
    pub fn said(&self) -> String {
        let mut said = String::new();
        if self.outcome.number != 0 {
            self.spell(&mut said).expect("a string takes every word");
        }
        said
    }

    /// What is told behind the number's meaning: the cause of 31, or the line that
    /// was meant with 26; no words for any other number.
    pub fn cause(&self) -> &'static str {
        self.meant.map_or(self.why.words(), Meant::words)
    }

    fn spell(&self, said: &mut String) -> std::fmt::Result {
        let number = self.outcome.number;
        write!(said, "line {}", self.line)?;
        if self.field != 0 {
            write!(said, ", field {}", self.field)?;
        }
        write!(said, ": {number} {}", meaning(number))?;
        if !self.cause().is_empty() {
            write!(said, ": {}", self.cause())?;
        }
        writeln!(said)
    }
}

impl Outcome {
    /// The two lines that a program prints: the names, then the verdict's word and the
    /// other numbers.
    pub fn listing(&self) -> String {
        let word = ["open", "refuted", "refused"][usize::from(self.verdict)];
        let Outcome {
            steps,
            number,
            entries,
            place,
            ..
        } = self;
        format!("verdict steps code trail place\n{word} {steps} {number} {entries} {place}\n")
    }
}

/// Reads a text and runs its steps. What the reader refuses is not run.
pub fn check(text: &[u8]) -> Checked {
    let mut sorts = [0; SORT_COLUMNS * MAX_SORTS];
    let mut terms = [0; TERM_COLUMNS * MAX_TERMS];
    let mut inputs = [0; INPUT_COLUMNS * MAX_INPUTS];
    let mut steps = [0; STEP_COLUMNS * MAX_TEXT_STEPS];
    let read = read(text, &mut sorts, &mut terms, &mut inputs, &mut steps);
    if read.number != 0 {
        return Checked {
            outcome: Outcome::unread(read.number),
            line: read.line,
            field: read.place,
            why: read.why,
            meant: None,
        };
    }
    let rows = read.rows.map(usize::from);
    let mut work = [0; work_words(MAX_TERMS)];
    let mut trail = [0; trail_numbers(MAX_TERMS)];
    let (outcome, bad) = run_to(
        &sorts[..SORT_COLUMNS * rows[0]],
        &terms[..TERM_COLUMNS * rows[1]],
        &inputs[..INPUT_COLUMNS * rows[2]],
        &steps[..STEP_COLUMNS * rows[3]],
        &mut work,
        &mut trail,
    );
    Checked {
        outcome,
        line: bad.map_or(0, |bad| line_of(&rows, bad.sheet.into(), bad.row.into())),
        field: outcome.place.into(),
        why: Why::Fine,
        meant: bad
            .filter(|bad| bad.number == 26)
            .map(|bad| Meant::other_than(steps[STEP_COLUMNS * usize::from(bad.row)])),
    }
}

/// The line of a row: a header stands before the rows of its sheet, and an empty
/// line between them and the header of the next.
fn line_of(rows: &[usize; 4], sheet: usize, row: usize) -> u64 {
    let before: usize = rows[..sheet].iter().map(|rows| 1 + rows + 1).sum();
    let header = before + 1;
    (header + 1 + row) as u64
}

/// What a number means.
pub fn meaning(number: u16) -> &'static str {
    match number {
        1 => "a sort row breaks the rule for sorts",
        2 => "a name is repeated or reserved",
        3 => "an argument is no earlier row",
        4 => "head, sort and arguments do not fit",
        5 => "a row with the head and arguments of an earlier one",
        6 => "an input row names no term",
        7 => "a value that the term cannot have",
        8 => "a term given twice",
        9 => "a step's columns are wrong",
        10 => "wrong state for the step",
        11 => "the term or a premise is no row",
        12 => "a premise is not on the trail",
        13 => "the rule does not fit",
        14 => "the value is there already",
        15 => "the opposite is there",
        16 => "the opposite is not there",
        17 => "not a member of the conflict",
        18 => "it is a decision",
        19 => "resolve is barred",
        20 => "not the decision that clear needs",
        21 => "its level is not above the rest, or learn's level is outside its range",
        22 => "a term's sort or head is wrong for the step, or the value does not suit it",
        23 => "no shared decision",
        25 => "the clause does not match the members, or one is named twice",
        26 => "fail is the line at level 0, clash the one above it",
        27 => "the value contradicts an equation on the trail",
        30 => "above a ceiling",
        31 => "malformed",
        32 => "a lent buffer is short",
        _ => "",
    }
}

impl Meant {
    /// The other of the two lines than a row's step.
    fn other_than(step: u16) -> Self {
        match step {
            CLASH => Meant::Fail,
            _ => Meant::Clash,
        }
    }

    /// What a person is told of it.
    pub fn words(self) -> &'static str {
        match self {
            Meant::Fail => "fail was meant",
            Meant::Clash => "clash was meant",
        }
    }
}

impl Why {
    /// What a person is told of it.
    pub fn words(self) -> &'static str {
        match self {
            Why::Fine => "",
            Why::Mark => "a byte order mark stands before the header",
            Why::Return => "a carriage return, where lines end with a newline alone",
            Why::Long => "the line has more than 525 bytes",
            Why::Header => "this is not the sheet's header line",
            Why::Empty => "an empty line after the last sheet",
            Why::Byte => "a tab or another byte that no field may have",
            Why::Fields => "not as many fields as the sheet has columns, or not single spaces",
            Why::Name => "a name of more than 64 bytes",
            Why::Value => "neither true, false, - nor a number up to 65534 without leading zeros",
            Why::Early => "the text ends before the header of the step sheet",
            Why::Cut => "the last line has no newline",
        }
    }
}
