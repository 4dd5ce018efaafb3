//! The four sheets as text: reading them, and reading and running them at once.

use crate::{sys, words, Outcome};
use std::fmt;

/// Why a line, or the end of a text, is malformed.
#[derive(Clone, Copy, Debug, PartialEq, Eq, Hash)]
#[repr(u16)]
pub enum Why {
    /// Nothing is malformed.
    Fine,
    /// A byte order mark stands before a header.
    Mark,
    /// The line holds a carriage return.
    Return,
    /// The line has more than 525 bytes.
    Long,
    /// The line is not the header that has to stand there.
    Header,
    /// An empty line follows the last sheet.
    Empty,
    /// The line holds a byte that is neither a space nor part of a name.
    Byte,
    /// The line has a wrong number of fields, or spaces that are not single.
    Fields,
    /// A name has more than 64 bytes.
    Name,
    /// A field of the value column is no value.
    Value,
    /// The text ends before the header of the step sheet.
    Early,
    /// The last line has no newline.
    Cut,
}

impl Why {
    /// All causes, in the order of their numbers.
    pub const ALL: [Why; 12] = [
        Why::Fine,
        Why::Mark,
        Why::Return,
        Why::Long,
        Why::Header,
        Why::Empty,
        Why::Byte,
        Why::Fields,
        Why::Name,
        Why::Value,
        Why::Early,
        Why::Cut,
    ];

    /// The cause in words, as the line for a person has them; none for `Fine`.
    pub fn words(self) -> &'static str {
        words::cause(self)
    }

    /// The cause of a number of the library.
    fn of(number: u16) -> Self {
        *Why::ALL
            .get(usize::from(number))
            .unwrap_or_else(|| panic!("the library answered with cause {number}"))
    }
}

/// The result of reading a text. Shown, it is the line for a person.
#[derive(Clone, Copy, Debug, PartialEq, Eq)]
pub struct Read {
    /// 0, or 2, 30, 31 or 32.
    pub number: u16,
    /// The rows of the sort, term, input and step sheet; 0 with trouble.
    pub rows: [u16; 4],
    /// Why a line is malformed; `Fine` but for 31.
    pub why: Why,
    /// The first bad line, from 1; 0 if there is none.
    pub line: u64,
    /// The field of that line at fault, from 1; 0 if it is the line as a whole.
    pub place: u64,
}

impl Read {
    /// What the number means; no words for 0.
    pub fn meaning(&self) -> &'static str {
        words::meaning(self.number)
    }
}

impl fmt::Display for Read {
    fn fmt(&self, f: &mut fmt::Formatter) -> fmt::Result {
        if self.number == 0 {
            return Ok(());
        }
        if self.line != 0 {
            write!(f, "line {}", self.line)?;
            if self.place != 0 {
                write!(f, ", field {}", self.place)?;
            }
            write!(f, ": ")?;
        }
        write!(f, "{} {}", self.number, self.meaning())?;
        if self.why != Why::Fine {
            write!(f, ": {}", self.why.words())?;
        }
        Ok(())
    }
}

impl std::error::Error for Read {}

/// Reads a text into four sheets of the caller, which hold the rows and then
/// zeros, or zeros alone if the number is not 0.
///
/// Zeros are rows too: the sheets are cut to their rows before they are run, as
/// [`Log::read`](crate::Log::read) does.
///
/// ```
/// use cdsat::{Why, INPUT_COLUMNS, SORT_COLUMNS, STEP_COLUMNS, TERM_COLUMNS};
///
/// let mut sorts = [0; SORT_COLUMNS * 2];
/// let mut terms = [0; TERM_COLUMNS * 2];
/// let mut inputs = [0; INPUT_COLUMNS * 2];
/// let mut steps = [0; STEP_COLUMNS * 2];
/// let text = "\
/// sort index value
/// S - -
///
/// term head sort a b c d
/// a A S - - - -
///
/// term value
/// a 7
///
/// step rule term value p q r s t
/// ";
/// let read = cdsat::read(text.as_bytes(), &mut sorts, &mut terms, &mut inputs, &mut steps);
/// assert_eq!((read.number, read.rows), (0, [1, 1, 1, 0]));
/// assert_eq!(inputs[..INPUT_COLUMNS * usize::from(read.rows[2])], [0, 7]);
///
/// let text = text.replace("a 7", "a 07");
/// let read = cdsat::read(text.as_bytes(), &mut sorts, &mut terms, &mut inputs, &mut steps);
/// assert_eq!((read.number, read.why, read.line, read.place), (31, Why::Value, 8, 2));
/// assert_eq!(inputs, [0; 4]);
/// ```
///
/// # Panics
///
/// If the library answers with a cause it does not have.
pub fn read(
    text: &[u8],
    sorts: &mut [u16],
    terms: &mut [u16],
    inputs: &mut [u16],
    steps: &mut [u16],
) -> Read {
    let raw = sys::read(text, sorts, terms, inputs, steps);
    Read {
        number: raw.number,
        rows: raw.rows,
        why: Why::of(raw.why),
        line: raw.line,
        place: raw.place,
    }
}

/// A text read and run.
#[derive(Clone, Debug, PartialEq, Eq)]
pub struct Checked {
    /// As a run's; what the reader refuses has no steps, no entries and no place.
    pub outcome: Outcome,
    /// The line for a person, without its newline; empty if nothing was refused. The
    /// field that it names is the reader's, or the place of a step.
    pub said: String,
}

/// The length of a buffer that holds every line for a person.
pub const SAID: usize = 256;

/// Reads a text and runs its steps.
///
/// ```
/// use cdsat::Verdict;
///
/// let text = "\
/// sort index value
/// S - -
///
/// term head sort a b c d
/// a A S - - - -
/// e eq prop a a - -
///
/// term value
/// e false
///
/// step rule term value p q r s t
/// fail refl e true - - - - -
/// ";
/// let checked = cdsat::check(text.as_bytes());
/// assert_eq!(checked.outcome.verdict, Verdict::Refuted);
/// assert_eq!(checked.said, "");
///
/// let checked = cdsat::check(text.replace("refl", "sym").as_bytes());
/// assert_eq!(checked.outcome.verdict, Verdict::Refused);
/// assert_eq!(checked.said, "line 12, field 5: 13 the rule does not fit");
///
/// let checked = cdsat::check(text.replace("fail", "clash").as_bytes());
/// assert_eq!(checked.outcome.number, 26);
/// assert_eq!(
///     checked.said,
///     "line 12: 26 fail is the line at level 0, clash the one above it: fail was meant"
/// );
///
/// let checked = cdsat::check(text.replace(" a a ", "\ta a ").as_bytes());
/// assert_eq!(checked.outcome.number, 31);
/// assert_eq!(
///     checked.said,
///     "line 6: 31 malformed: a tab or another byte that no field may have"
/// );
/// ```
///
/// # Panics
///
/// If the library answers with a verdict it does not have, or a line that is no
/// text.
pub fn check(text: &[u8]) -> Checked {
    let mut said = [0; SAID];
    let outcome = check_into(text, &mut said);
    let line = said.split(|&byte| byte == b'\n' || byte == 0).next();
    let line = std::str::from_utf8(line.unwrap_or_default());
    Checked {
        outcome,
        said: line.expect("a line of words").to_string(),
    }
}

/// The same with the line for a person in a buffer of the caller: the line with
/// its newline, cut where the buffer is short, and then zeros.
///
/// # Panics
///
/// If the library answers with a verdict it does not have.
pub fn check_into(text: &[u8], said: &mut [u8]) -> Outcome {
    Outcome::of(sys::check(text, said))
}
