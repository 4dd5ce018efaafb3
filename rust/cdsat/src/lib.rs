//! Safe bindings of the verified checker of rule logs.
//!
//! A [`Log`] collects the four sheets: sorts, terms, inputs and steps. It is built
//! row by row or read from a text ([`Log::read`]). Running it calls the checker and
//! gives the [`Outcome`] and the trail. Who has a text and wants its verdict alone
//! calls [`check`]; who keeps sheets and buffers of their own calls [`run`] and
//! [`read`].
//!
//! ```
//! use cdsat::{Head, Log, Rule, Sort, Verdict};
//!
//! let mut log = Log::new();
//! let s = log.sort();
//! let a = log.term(Head::Free(0), s, &[]);
//! let b = log.term(Head::Free(1), s, &[]);
//! let e = log.term(Head::Eq, Sort::PROP, &[a, b]);
//! let fa = log.term(Head::Free(2), s, &[a]);
//! let fb = log.term(Head::Free(2), s, &[b]);
//! let g = log.term(Head::Eq, Sort::PROP, &[fa, fb]);
//! log.input(e, 1);
//! log.input(g, 0);
//! log.fail(Rule::Cong, g, true, &[e]);
//!
//! let run = log.run();
//! assert_eq!(run.outcome.verdict, Verdict::Refuted);
//! assert_eq!(run.outcome.steps, 1);
//! assert_eq!(run.trail[1].term, g);
//! assert_eq!(run.trail[1].value, 0);
//! ```

#![deny(unsafe_code)]

mod log;
#[allow(unsafe_code)]
mod sys;
mod text;
mod words;

pub use log::{Entry, Head, Log, Rule, Run, Sort, Step, Term};
pub use text::{check, check_into, read, Checked, Read, Why, SAID};

/// The number of an empty column.
pub const BLANK: u16 = 65_535;

/// Numbers in a row of each sheet.
pub const SORT_COLUMNS: usize = 2;
pub const TERM_COLUMNS: usize = 6;
pub const INPUT_COLUMNS: usize = 2;
pub const STEP_COLUMNS: usize = 9;

/// Numbers in the trail buffer for each entry.
pub const ENTRY_COLUMNS: usize = 4;

/// The greatest number of rows of each sheet.
pub const MAX_SORTS: usize = 32;
pub const MAX_TERMS: usize = 256;
pub const MAX_INPUTS: usize = 256;
pub const MAX_STEPS: usize = 65_535;

/// The greatest number of step lines of a text.
pub const MAX_TEXT_STEPS: usize = 1_024;

/// The least number of workspace words for so many term rows.
pub const fn work_words(terms: usize) -> usize {
    8 * terms + 12
}

/// The least length of the trail buffer for so many term rows.
pub const fn trail_numbers(terms: usize) -> usize {
    ENTRY_COLUMNS * terms
}

/// What became of a log.
#[derive(Clone, Copy, Debug, PartialEq, Eq)]
pub enum Verdict {
    /// All steps were allowed and none refuted the input.
    Open,
    /// The input is refuted.
    Refuted,
    /// A step, a sheet or a buffer is in trouble; the number says which.
    Refused,
}

/// The result of a run.
#[derive(Clone, Copy, Debug, PartialEq, Eq)]
pub struct Outcome {
    pub verdict: Verdict,
    /// How many steps were allowed.
    pub steps: u16,
    /// The number of the trouble, 0 if there is none.
    pub number: u16,
    /// How many entries are on the trail.
    pub entries: u16,
    /// With the numbers 11, 12 and 13 the column of the step at which it went wrong,
    /// from 1 for its kind to 9 for its fifth premise; 0 with every other number.
    ///
    /// With 11 and 12 it is the first column that has the fault. With 13 it is the
    /// first, from the term on, after which nothing to the right makes the step fit
    /// its rule: 3 where the rule never gives the term a value, 4 where it never gives
    /// it this one, else a premise that is wrong, missing or one too many. With
    /// [`Rule::Deep`] it is 3, always.
    pub place: u16,
}

/// The columns of a step, by the names that a text has for them.
const COLUMNS: [&str; STEP_COLUMNS] = ["step", "rule", "term", "value", "p", "q", "r", "s", "t"];

impl Outcome {
    /// What the number means; no words for 0.
    pub fn meaning(&self) -> &'static str {
        words::meaning(self.number)
    }

    /// The name of the column at which the step went wrong, as a text has it; none
    /// where the place is 0.
    ///
    /// ```
    /// use cdsat::{Head, Log, Rule, Sort};
    ///
    /// let mut log = Log::new();
    /// let s = log.sort();
    /// let a = log.term(Head::Free(0), s, &[]);
    /// let b = log.term(Head::Free(1), s, &[]);
    /// let e = log.term(Head::Eq, Sort::PROP, &[a, b]);
    /// log.input(a, 7).input(b, 8);
    ///
    /// let outcome = log.clone().deduce(Rule::Same, e, true, &[a, b]).run().outcome;
    /// assert_eq!((outcome.number, outcome.place), (13, 6));
    /// assert_eq!(outcome.column(), Some("q"));
    ///
    /// let outcome = log.clone().deduce(Rule::Differ, e, true, &[a, b]).run().outcome;
    /// assert_eq!((outcome.number, outcome.column()), (13, Some("value")));
    ///
    /// let outcome = log.clone().deduce(Rule::Differ, e, false, &[a, b]).run().outcome;
    /// assert_eq!((outcome.number, outcome.column()), (0, None));
    /// ```
    pub fn column(&self) -> Option<&'static str> {
        let at = usize::from(self.place).checked_sub(1)?;
        COLUMNS.get(at).copied()
    }

    /// The outcome of the library's numbers.
    fn of(raw: sys::RawOutcome) -> Self {
        Outcome {
            verdict: match raw.verdict {
                0 => Verdict::Open,
                1 => Verdict::Refuted,
                2 => Verdict::Refused,
                other => panic!("the library answered with verdict {other}"),
            },
            steps: raw.steps,
            number: raw.number,
            entries: raw.entries,
            place: raw.place,
        }
    }

    /// The five numbers of the result, the verdict as 0, 1 or 2.
    pub fn numbers(&self) -> [u16; 5] {
        [
            self.verdict as u16,
            self.steps,
            self.number,
            self.entries,
            self.place,
        ]
    }
}

/// Runs the steps of a log over sheets and buffers of the caller.
///
/// The workspace is all zero afterwards. The trail buffer holds the entries,
/// oldest first: term, value, level, and 1 for a decision or 0; what follows them
/// is untouched. With the numbers 30, 31 and 32 nothing is written.
///
/// ```
/// use cdsat::{trail_numbers, work_words, Verdict, BLANK};
///
/// let sorts = [BLANK, BLANK];
/// let terms = [16, 1, BLANK, BLANK, BLANK, BLANK];
/// let inputs = [0, 7];
/// let mut work = [0; work_words(1)];
/// let mut trail = [0; trail_numbers(1)];
/// let outcome = cdsat::run(&sorts, &terms, &inputs, &[], &mut work, &mut trail);
/// assert_eq!((outcome.verdict, outcome.entries), (Verdict::Open, 1));
/// assert_eq!(trail, [0, 7, 0, 0]);
///
/// let outcome = cdsat::run(&sorts, &terms, &[1, 7], &[], &mut work, &mut trail);
/// assert_eq!((outcome.verdict, outcome.number), (Verdict::Refused, 6));
/// assert_eq!(outcome.meaning(), "an input row names no term");
/// ```
///
/// # Panics
///
/// If the library answers with a verdict it does not have.
pub fn run(
    sorts: &[u16],
    terms: &[u16],
    inputs: &[u16],
    steps: &[u16],
    work: &mut [u64],
    trail: &mut [u16],
) -> Outcome {
    Outcome::of(sys::run(sorts, terms, inputs, steps, work, trail))
}

/// The same with the result as the library's five numbers: verdict, steps,
/// number, entries, place.
pub fn run_numbers(
    sorts: &[u16],
    terms: &[u16],
    inputs: &[u16],
    steps: &[u16],
    work: &mut [u64],
    trail: &mut [u16],
) -> [u16; 5] {
    let raw = sys::run(sorts, terms, inputs, steps, work, trail);
    [raw.verdict, raw.steps, raw.number, raw.entries, raw.place]
}
