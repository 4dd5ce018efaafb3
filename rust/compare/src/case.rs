//! A case: four sheets and two buffers, in good order or damaged.

use crate::grow;
use crate::problem::{self, X};
use crate::rng::Rng;
use crate::{accept, deep, learn};

#[derive(Clone)]
pub struct Case {
    pub sorts: Vec<u16>,
    pub terms: Vec<u16>,
    pub inputs: Vec<u16>,
    pub steps: Vec<u16>,
    pub work: Vec<u64>,
    pub trail: Vec<u16>,
}

/// A case made at random.
pub struct Made {
    pub case: Case,
    /// How many late entries the cuts of the log kept.
    pub late: u64,
    /// Steps to try in place of the rest of the log after so many rows; none if
    /// the sheets are damaged.
    pub probes: Vec<(usize, grow::Row)>,
    /// What the decisions of the log and of the probes show; none if the sheets are
    /// damaged.
    pub decisions: Vec<accept::Shown>,
    /// What the learns show, likewise.
    pub learns: Vec<learn::Shown>,
    /// What the rows by deep show, likewise.
    pub deeps: Vec<deep::Shown>,
}

pub fn make(rng: &mut Rng) -> Made {
    let problem = problem::make(rng);
    let grow::Log {
        rows,
        late,
        mut probes,
        mut decisions,
        mut learns,
        mut deeps,
    } = grow::log(rng, &problem);
    let mut case = Case {
        sorts: problem.sorts.into_flattened(),
        terms: problem.terms.into_flattened(),
        inputs: problem.inputs.into_flattened(),
        steps: rows.into_flattened(),
        work: Vec::new(),
        trail: Vec::new(),
    };
    if rng.percent(30) {
        probes.clear();
        decisions.clear();
        learns.clear();
        deeps.clear();
        for _ in 0..rng.within(1, 2) {
            damage(rng, &mut case);
        }
    }
    buffers(rng, &mut case);
    Made {
        case,
        late,
        probes,
        decisions,
        learns,
        deeps,
    }
}

/// Buffers of about the least length, full of old contents.
fn buffers(rng: &mut Rng, case: &mut Case) {
    let rows = case.terms.len() / 6;
    let mut length = |least: usize| match rng.below(60) {
        0 => least.saturating_sub(1),
        1 => rng.below(least + 1),
        2..=30 => least,
        31..=40 => least + 1,
        _ => least + rng.below(40),
    };
    let (work, trail) = (length(8 * rows + 12), length(4 * rows));
    let clean = rng.percent(10);
    case.work = (0..work)
        .map(|_| if clean { 0 } else { rng.next() })
        .collect();
    case.trail = (0..trail)
        .map(|_| if clean { 0 } else { rng.next() as u16 })
        .collect();
}

/// One piece of damage to the sheets.
fn damage(rng: &mut Rng, case: &mut Case) {
    match rng.below(30) {
        0..=2 => change(rng, &mut case.sorts, 2),
        3..=8 => change(rng, &mut case.terms, 6),
        9..=11 => repeat(rng, &mut case.terms, 6),
        12..=16 => change(rng, &mut case.inputs, 2),
        17..=18 => repeat(rng, &mut case.inputs, 2),
        19..=21 => change(rng, &mut case.steps, 9),
        22..=23 => uneven(rng, case),
        24..=25 => swap(rng, &mut case.terms, 6),
        26 => pad_terms(rng, case),
        _ => crowd(rng, case),
    }
}

/// Gives a column another number.
fn change(rng: &mut Rng, sheet: &mut [u16], columns: usize) {
    if sheet.is_empty() {
        return;
    }
    let at = rng.below(sheet.len());
    let row = at / columns;
    let rows = sheet.len() / columns;
    sheet[at] = match rng.below(10) {
        0 => X,
        1 => 65_534,
        2 => row as u16,
        3 => row as u16 + 1,
        4 => rows as u16,
        5 => rng.below(17) as u16,
        6 => rng.below(65_536) as u16,
        7 => *rng.pick(sheet),
        _ => rng.below(row + 1) as u16,
    };
}

/// Adds a row that is there already.
fn repeat(rng: &mut Rng, sheet: &mut Vec<u16>, columns: usize) {
    let rows = sheet.len() / columns;
    if rows == 0 {
        return;
    }
    let from = columns * rng.below(rows);
    let to = columns * rng.below(rows + 1);
    let row = sheet[from..from + columns].to_vec();
    sheet.splice(to..to, row);
}

fn swap(rng: &mut Rng, sheet: &mut [u16], columns: usize) {
    let rows = sheet.len() / columns;
    if rows == 0 {
        return;
    }
    let (one, two) = (rng.below(rows), rng.below(rows));
    for column in 0..columns {
        sheet.swap(columns * one + column, columns * two + column);
    }
}

/// Makes a sheet's length no whole number of rows.
fn uneven(rng: &mut Rng, case: &mut Case) {
    let sheets = [
        &mut case.sorts,
        &mut case.terms,
        &mut case.inputs,
        &mut case.steps,
    ];
    let sheet = sheets.into_iter().nth(rng.below(4)).unwrap();
    if rng.percent(50) {
        sheet.push(rng.below(65_536) as u16);
    } else {
        sheet.pop();
    }
}

/// Adds constants up to the ceiling or one above it.
fn pad_terms(rng: &mut Rng, case: &mut Case) {
    let sort = u16::from(!case.sorts.is_empty());
    let rows = rng.within(255, 257);
    for number in case.terms.len() / 6..rows {
        case.terms
            .extend([30_000 + number as u16, sort, X, X, X, X]);
    }
}

/// Fills a sheet up to about its ceiling.
fn crowd(rng: &mut Rng, case: &mut Case) {
    let over = rng.below(2);
    match rng.below(40) {
        0 => {
            let row = [X; 9];
            let rows = 65_535 + over;
            while case.steps.len() < 9 * rows {
                case.steps.extend(row);
            }
        }
        1..=12 => {
            while case.sorts.len() < 2 * (32 + over) {
                case.sorts.extend([X, X]);
            }
        }
        13..=25 => {
            pad_terms(rng, case);
        }
        _ => {
            pad_terms(rng, case);
            let mut left: Vec<u16> = (0..(case.terms.len() / 6) as u16).collect();
            left.retain(|&term| case.inputs.chunks(2).all(|row| row[0] != term));
            while case.inputs.len() < 2 * (256 + over) {
                let term = match left.is_empty() {
                    true => 0,
                    false => left.swap_remove(rng.below(left.len())),
                };
                case.inputs.extend([term, rng.below(2) as u16]);
            }
        }
    }
}
