//! A checker of rule logs in plain Rust, written from the paper alone.
//!
//! It takes the four sheets as numbers ([`run`]) or as text ([`read`]), or a text
//! at once ([`check`]), and says to a person where and why it was refused. It
//! shares nothing with the verified checker: it is what that one is compared
//! with, on random logs, and measured against.

#![forbid(unsafe_code)]

mod deep;
mod engine;
mod explain;
mod place;
mod problem;
mod rules;
mod set;
mod text;

pub use explain::{check, meaning, Checked, Meant};
pub use text::{read, Read, Why, MAX_TEXT_STEPS};

use problem::BadRow;

/// The number of an empty column.
pub const BLANK: u16 = 65_535;

/// Numbers in a row of each sheet.
pub const SORT_COLUMNS: usize = 2;
pub const TERM_COLUMNS: usize = 6;
pub const INPUT_COLUMNS: usize = 2;
pub const STEP_COLUMNS: usize = 9;

/// Numbers written to the trail buffer for each entry.
pub const ENTRY_COLUMNS: usize = 4;

/// The greatest number of rows of each sheet.
pub const MAX_SORTS: usize = 32;
pub const MAX_TERMS: usize = 256;
pub const MAX_INPUTS: usize = 256;
pub const MAX_STEPS: usize = 65_535;

/// The verdicts of a run.
pub const OPEN: u16 = 0;
pub const REFUTED: u16 = 1;
pub const REFUSED: u16 = 2;

/// The least number of workspace words for a problem of `terms` term rows.
pub const fn work_words(terms: usize) -> usize {
    8 * terms + 12
}

/// The least length of the trail buffer for a problem of `terms` term rows.
pub const fn trail_numbers(terms: usize) -> usize {
    ENTRY_COLUMNS * terms
}

/// The result of a run: verdict, steps allowed, number of the trouble (0 if
/// none), entries on the trail, and with 11, 12 and 13 the place: the column, counted
/// from 1, at which the step went wrong (0 with every other number).
#[derive(Clone, Copy, Debug, PartialEq, Eq)]
pub struct Outcome {
    pub verdict: u16,
    pub steps: u16,
    pub number: u16,
    pub entries: u16,
    pub place: u16,
}

impl Outcome {
    /// The outcome of sheets or buffers that no step was tried on.
    const fn unread(number: u16) -> Self {
        Outcome {
            verdict: REFUSED,
            steps: 0,
            number,
            entries: 0,
            place: 0,
        }
    }
}

/// Runs the steps of a log, to the first that is refused or to a fail that is
/// allowed, which refutes the input.
///
/// The workspace is all zero afterwards and the trail buffer holds the entries,
/// oldest first, four numbers each, with what follows them untouched. With the
/// numbers 30, 31 and 32 nothing is written.
pub fn run(
    sorts: &[u16],
    terms: &[u16],
    inputs: &[u16],
    steps: &[u16],
    work: &mut [u64],
    trail: &mut [u16],
) -> Outcome {
    run_to(sorts, terms, inputs, steps, work, trail).0
}

/// The same, with the row that was refused.
fn run_to(
    sorts: &[u16],
    terms: &[u16],
    inputs: &[u16],
    steps: &[u16],
    work: &mut [u64],
    trail: &mut [u16],
) -> (Outcome, Option<BadRow>) {
    if let Err(number) = lengths(sorts, terms, inputs, steps, work.len(), trail.len()) {
        return (Outcome::unread(number), None);
    }
    let result = match engine::State::new(sorts, terms, inputs) {
        Err(bad) => (Outcome::unread(bad.number), Some(bad)),
        Ok(mut state) => {
            let outcome = state.run(steps, trail);
            let refused = BadRow {
                number: outcome.number,
                sheet: 3,
                row: outcome.steps,
            };
            (outcome, (outcome.number != 0).then_some(refused))
        }
    };
    // This checker keeps its state on the stack; the workspace is lent for
    // checkers that do not, and handed back as they hand it back.
    work.fill(0);
    result
}

/// The numbers 31, 30 and 32, in this order.
fn lengths(
    sorts: &[u16],
    terms: &[u16],
    inputs: &[u16],
    steps: &[u16],
    work: usize,
    trail: usize,
) -> Result<(), u16> {
    let sheets = [
        (sorts.len(), SORT_COLUMNS, MAX_SORTS),
        (terms.len(), TERM_COLUMNS, MAX_TERMS),
        (inputs.len(), INPUT_COLUMNS, MAX_INPUTS),
        (steps.len(), STEP_COLUMNS, MAX_STEPS),
    ];
    if sheets.iter().any(|&(len, columns, _)| len % columns != 0) {
        return Err(31);
    }
    if sheets
        .iter()
        .any(|&(len, columns, max)| len / columns > max)
    {
        return Err(30);
    }
    let rows = terms.len() / TERM_COLUMNS;
    if work < work_words(rows) || trail < trail_numbers(rows) {
        return Err(32);
    }
    Ok(())
}
