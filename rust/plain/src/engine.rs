//! The trail, the conflict and the steps.

use crate::place::{FIRST_PREMISE, TERM};
use crate::problem::{self, BadRow, Terms, AND, EQ, NOT, OR, PROP};
use crate::rules::{Premises, View, RULES};
use crate::set::Set;
use crate::{
    Outcome, BLANK, ENTRY_COLUMNS, INPUT_COLUMNS, MAX_TERMS, OPEN, REFUSED, REFUTED, STEP_COLUMNS,
};

/// The kinds of steps, in the order of their numbers.
const DECIDE: u16 = 0;
const DEDUCE: u16 = 1;
pub const CLASH: u16 = 2;
const RESOLVE: u16 = 3;
const CLEAR: u16 = 4;
const JUMP: u16 = 5;
const FLIP: u16 = 6;
const FAIL: u16 = 7;
const LEARN: u16 = 8;

/// What the trail says of a term. The value is blank for a term not on it, and
/// then the rest counts for nothing.
#[derive(Clone, Copy)]
#[repr(align(8))]
pub struct Entry {
    pub value: u16,
    pub level: u16,
    pub decision: bool,
}

/// The decision that opened a level: its term and its place on the trail.
#[derive(Clone, Copy)]
struct Opened {
    row: u8,
    place: u8,
}

/// A conflict, with its level, which is 0 in the search state.
///
/// The level is that of the clash for good: resolving trades an entry for a
/// justification of the same level.
struct Conflict {
    set: Set,
    level: u16,
}

/// The state of a run.
///
/// The levels on the trail are 0 to `top` without a gap, and each level from 1
/// on has one decision, the first entry of its level or above.
pub struct State {
    terms: Terms,
    entries: [Entry; MAX_TERMS],
    reasons: [Set; MAX_TERMS],
    order: [u8; MAX_TERMS],
    len: usize,
    opened: [Opened; MAX_TERMS],
    top: u16,
    conflict: Conflict,
}

impl State {
    /// The state before the first step, or the row with 1 or 3 to 8.
    pub fn new(sorts: &[u16], terms: &[u16], inputs: &[u16]) -> Result<State, BadRow> {
        let mut state = State {
            terms: problem::check(sorts, terms)?,
            entries: [Entry {
                value: BLANK,
                level: 0,
                decision: false,
            }; MAX_TERMS],
            reasons: [Set::EMPTY; MAX_TERMS],
            order: [0; MAX_TERMS],
            len: 0,
            opened: [Opened { row: 0, place: 0 }; MAX_TERMS],
            top: 0,
            conflict: Conflict {
                set: Set::EMPTY,
                level: 0,
            },
        };
        for (at, &[term, value]) in inputs.as_chunks::<INPUT_COLUMNS>().0.iter().enumerate() {
            state.give(term, value).map_err(|number| BadRow {
                number,
                sheet: 2,
                row: at as u16,
            })?;
        }
        Ok(state)
    }

    /// Puts an input row on the trail: 6, 7 and 8.
    fn give(&mut self, term: u16, value: u16) -> Result<(), u16> {
        let row = self.row(term).ok_or(6u16)?;
        if value == BLANK || !self.takes(row, value) {
            return Err(7);
        }
        if self.is_assigned(row) {
            return Err(8);
        }
        self.justify(row, value, 0);
        Ok(())
    }

    /// Runs the steps and writes the entries that are left to the trail buffer.
    pub fn run(&mut self, steps: &[u16], trail: &mut [u16]) -> Outcome {
        let mut outcome = Outcome {
            verdict: OPEN,
            steps: 0,
            number: 0,
            entries: 0,
            place: 0,
        };
        for step in steps.as_chunks::<STEP_COLUMNS>().0 {
            match self.step(step) {
                Ok(false) => outcome.steps += 1,
                Ok(true) => {
                    outcome.verdict = REFUTED;
                    outcome.steps += 1;
                    break;
                }
                Err(number) => {
                    outcome.verdict = REFUSED;
                    outcome.number = number;
                    outcome.place = self.place(number, step);
                    break;
                }
            }
        }
        outcome.entries = self.write(trail);
        outcome
    }

    /// The column of a step refused with 11, 12 or 13 that went wrong, 0 for a step
    /// refused with another number.
    #[cold]
    fn place(&self, number: u16, step: &[u16; STEP_COLUMNS]) -> u16 {
        let [_, rule, term, value, premises @ ..] = *step;
        let filled = premises.iter().filter(|&&premise| premise != BLANK);
        let rows = filled.map(|&premise| self.row(premise));
        let first = |fault: fn(&State, Option<u8>) -> bool| {
            let before = rows.clone().take_while(|&row| !fault(self, row));
            FIRST_PREMISE + before.count() as u16
        };
        match (number, self.row(term)) {
            (11, None) => TERM,
            (11, _) => first(|_, row| row.is_none()),
            (12, _) => first(|state, row| row.is_some_and(|row| !state.is_assigned(row))),
            (13, Some(row)) => {
                let mut premises = [0; 5];
                let mut len = 0;
                for premise in rows.flatten() {
                    premises[len] = premise;
                    len += 1;
                }
                self.view().unfit_column(rule, row, value, &premises[..len])
            }
            _ => 0,
        }
    }

    fn view(&self) -> View<'_> {
        View {
            rows: self.terms.rows,
            terms: &self.terms.terms,
            entries: &self.entries,
        }
    }

    /// Writes the entries to the trail buffer and returns how many there are.
    fn write(&self, trail: &mut [u16]) -> u16 {
        let rows = trail.as_chunks_mut::<ENTRY_COLUMNS>().0;
        for (out, &row) in rows.iter_mut().zip(&self.order[..self.len]) {
            let entry = self.entry(row);
            *out = [
                u16::from(row),
                entry.value,
                entry.level,
                u16::from(entry.decision),
            ];
        }
        self.len as u16
    }

    /// Takes one step; true if it refuted the input.
    fn step(&mut self, step: &[u16; STEP_COLUMNS]) -> Result<bool, u16> {
        let [kind, rule, term, value, premises @ ..] = *step;
        match kind {
            DECIDE => {
                let wanted = term != BLANK && value != BLANK;
                if !wanted || rule != BLANK || premises != [BLANK; 5] {
                    return Err(9);
                }
                self.decide(term, value)?;
            }
            DEDUCE | CLASH | FAIL => {
                let Some(count) = from_left(&premises) else {
                    return Err(9);
                };
                if rule >= RULES || term == BLANK || value > 1 {
                    return Err(9);
                }
                if self.in_conflict() {
                    return Err(10);
                }
                let (row, premises) = self.inference(rule, term, value, &premises, count)?;
                if kind != DEDUCE {
                    return self.clash_or_fail(kind, row, value, &premises);
                }
                self.deduce(row, value, &premises)?;
            }
            RESOLVE | CLEAR | JUMP | FLIP => {
                let [second, others @ ..] = premises;
                if rule != BLANK
                    || term == BLANK
                    || value != BLANK
                    || (second == BLANK) == (kind == FLIP)
                    || others != [BLANK; 4]
                {
                    return Err(9);
                }
                if !self.in_conflict() {
                    return Err(10);
                }
                let row = self.row(term).ok_or(11u16)?;
                match kind {
                    RESOLVE => self.resolve(row)?,
                    CLEAR => self.clear(row)?,
                    JUMP => self.jump(row)?,
                    _ => self.flip(row, self.row(second).ok_or(11u16)?)?,
                }
            }
            LEARN => {
                let Some(count @ 2..=4) = from_left(&premises) else {
                    return Err(9);
                };
                if rule != BLANK || term == BLANK || value == BLANK {
                    return Err(9);
                }
                if !self.in_conflict() {
                    return Err(10);
                }
                self.learn(term, value, &premises[..count])?;
            }
            _ => return Err(9),
        }
        Ok(false)
    }

    fn decide(&mut self, term: u16, value: u16) -> Result<(), u16> {
        if self.in_conflict() {
            return Err(10);
        }
        let row = self.row(term).ok_or(11u16)?;
        if !self.takes(row, value) {
            return Err(22);
        }
        if self.is_assigned(row) {
            return Err(14);
        }
        if !self.is_acceptable(row, value) {
            return Err(27);
        }
        self.open(row, value);
        Ok(())
    }

    /// Whether a decision is acceptable: the term is a prop, or no entry of the trail
    /// opposes its value.
    fn is_acceptable(&self, row: u8, value: u16) -> bool {
        let entries = &self.order[..self.len];
        self.sort(row) == PROP || !entries.iter().any(|&at| self.opposes(at, row, value))
    }

    /// Whether an entry equates the term with one that has a value, or with itself,
    /// and has not the value that same or differ would give it.
    #[inline]
    fn opposes(&self, at: u8, row: u8, value: u16) -> bool {
        let entry = self.view().term(at);
        if entry.head != EQ {
            return false;
        }
        let [left, right, ..] = entry.args;
        if left != row && right != row {
            return false;
        }
        let other = if left == row { right } else { left };
        let others = if other == row {
            value
        } else {
            self.entry(other).value
        };
        others != BLANK && (self.entry(at).value == 1) != (others == value)
    }

    /// What deduce, clash and fail share: the numbers 11, 22, 12 and 13.
    #[inline]
    fn inference(
        &self,
        rule: u16,
        term: u16,
        value: u16,
        columns: &[u16; 5],
        count: usize,
    ) -> Result<(u8, Premises), u16> {
        let row = self.row(term).ok_or(11u16)?;
        let mut premises = Premises {
            rows: [0; 5],
            len: count,
            level: 0,
        };
        let mut on_trail = true;
        for (to, &column) in premises.rows.iter_mut().zip(&columns[..count]) {
            *to = self.row(column).ok_or(11u16)?;
            let entry = self.entry(*to);
            on_trail &= entry.value != BLANK;
            premises.level = premises.level.max(entry.level);
        }
        if self.sort(row) != PROP {
            return Err(22);
        }
        if !on_trail {
            return Err(12);
        }
        if !self.view().gives(rule, row, value, &premises) {
            return Err(13);
        }
        Ok((row, premises))
    }

    fn deduce(&mut self, row: u8, value: u16, premises: &Premises) -> Result<(), u16> {
        if self.is_assigned(row) {
            let there = self.entry(row).value;
            return Err(if there == value { 14 } else { 15 });
        }
        self.reasons[usize::from(row)].set_to(premises.rows());
        self.justify(row, value, premises.level);
        Ok(())
    }

    /// Clash and fail, which differ in the last test alone; true for a fail, which
    /// refutes the input.
    fn clash_or_fail(
        &mut self,
        kind: u16,
        row: u8,
        value: u16,
        premises: &Premises,
    ) -> Result<bool, u16> {
        let opposite = self.entry(row);
        if opposite.value != 1 - value {
            return Err(16);
        }
        let level = premises.level.max(opposite.level);
        if (level == 0) != (kind == FAIL) {
            return Err(26);
        }
        self.conflict.level = level;
        self.conflict.set.set_to(premises.rows());
        self.conflict.set.insert(row);
        Ok(level == 0)
    }

    fn resolve(&mut self, row: u8) -> Result<(), u16> {
        if !self.conflict.set.contains(row) {
            return Err(17);
        }
        if self.entry(row).decision {
            return Err(18);
        }
        let reason = &self.reasons[usize::from(row)];
        if self.bar().is_some_and(|bar| reason.contains(bar)) {
            return Err(19);
        }
        self.conflict.set.remove(row);
        self.conflict.set.add_all(reason);
        Ok(())
    }

    fn clear(&mut self, row: u8) -> Result<(), u16> {
        if !self.conflict.set.contains(row) {
            return Err(17);
        }
        let entry = *self.entry(row);
        if !entry.decision || self.sort(row) == PROP {
            return Err(20);
        }
        if entry.level <= self.level_of_rest(row) {
            return Err(21);
        }
        self.keep(entry.level - 1);
        Ok(())
    }

    fn jump(&mut self, row: u8) -> Result<(), u16> {
        if !self.conflict.set.contains(row) {
            return Err(17);
        }
        if self.sort(row) != PROP {
            return Err(22);
        }
        let entry = *self.entry(row);
        let level = self.level_of_rest(row);
        if entry.level <= level {
            return Err(21);
        }
        self.keep(level);
        let reason = &mut self.reasons[usize::from(row)];
        *reason = self.conflict.set;
        reason.remove(row);
        self.justify(row, 1 - entry.value, level);
        Ok(())
    }

    fn flip(&mut self, row: u8, other: u8) -> Result<(), u16> {
        if !self.conflict.set.contains(row) || !self.conflict.set.contains(other) {
            return Err(17);
        }
        if self.sort(row) != PROP {
            return Err(22);
        }
        let entry = *self.entry(row);
        if entry.decision || self.entry(other).decision {
            return Err(18);
        }
        let shared = self.bar().is_some_and(|bar| {
            self.reasons[usize::from(row)].contains(bar)
                && self.reasons[usize::from(other)].contains(bar)
        });
        if row == other || !shared {
            return Err(23);
        }
        self.keep(self.conflict.level - 1);
        self.open(row, 1 - entry.value);
        Ok(())
    }

    /// Learn: back to a level below that of the members named, with a clause that
    /// says that they do not all have their values, which follows from the rest.
    fn learn(&mut self, term: u16, to: u16, columns: &[u16]) -> Result<(), u16> {
        let clause = self.row(term).ok_or(11u16)?;
        let mut rows = [0; 4];
        for (row, &column) in rows.iter_mut().zip(columns) {
            *row = self.row(column).ok_or(11u16)?;
        }
        let members = &rows[..columns.len()];
        let among = |&member: &u8| self.conflict.set.contains(member);
        if !members.iter().all(among) {
            return Err(17);
        }
        let head = self.terms.terms[usize::from(clause)].head;
        let is_prop = |&member: &u8| self.sort(member) == PROP;
        if !matches!(head, OR | AND) || !members.iter().all(is_prop) {
            return Err(22);
        }
        if !self.denies(clause, members) {
            return Err(25);
        }
        if self.is_assigned(clause) {
            return Err(14);
        }
        let mut rest = self.conflict.set;
        let mut above = 0;
        for &member in members {
            rest.remove(member);
            above = above.max(self.entry(member).level);
        }
        let level = self.level_of(&rest);
        if to < level || to >= above {
            return Err(21);
        }
        self.keep(to);
        self.reasons[usize::from(clause)] = rest;
        self.justify(clause, u16::from(head == OR), level);
        Ok(())
    }

    /// Whether an or that is true, or an and that is false, says of members that are
    /// all different that they do not all have their values: its positions and the
    /// members pair off, one to one.
    ///
    /// A member pairs with the positions of one row alone, itself or its negation,
    /// and these are all alike, so that the first one left will do.
    fn denies(&self, clause: u8, members: &[u8]) -> bool {
        let clause = &self.terms.terms[usize::from(clause)];
        let mut paired = [false; 4];
        for (at, &member) in members.iter().enumerate() {
            let negated = (self.entry(member).value == 1) == (clause.head == OR);
            let mut positions = (0..clause.args().len()).filter(|&position| !paired[position]);
            let found = positions.find(|&position| {
                let arg = clause.args[position];
                match negated {
                    true => self.is_negation(arg, member),
                    false => arg == member,
                }
            });
            match found {
                Some(position) if !members[..at].contains(&member) => paired[position] = true,
                _ => return false,
            }
        }
        clause.args().len() == members.len()
    }

    fn is_negation(&self, row: u8, of: u8) -> bool {
        let term = &self.terms.terms[usize::from(row)];
        term.head == NOT && term.args() == [of]
    }

    fn in_conflict(&self) -> bool {
        self.conflict.level > 0
    }

    /// The decision at the level of the conflict, if its term is not of sort
    /// prop: it bars resolving, and it is what flip's two members share.
    fn bar(&self) -> Option<u8> {
        let row = self.opened[usize::from(self.conflict.level) - 1].row;
        (self.sort(row) != PROP).then_some(row)
    }

    /// Keeps the entries of level at most `level`, in order, and goes back to
    /// the search. Nothing above the level comes before the decision that opened
    /// the next one.
    fn keep(&mut self, level: u16) {
        let from = usize::from(self.opened[usize::from(level)].place);
        let mut to = from;
        for place in from..self.len {
            let row = self.order[place];
            let entry = &mut self.entries[usize::from(row)];
            if entry.level <= level {
                self.order[to] = row;
                to += 1;
            } else {
                entry.value = BLANK;
            }
        }
        self.len = to;
        self.top = level;
        self.conflict.level = 0;
    }

    /// The greatest level of the conflict without a member.
    fn level_of_rest(&self, without: u8) -> u16 {
        let mut level = 0;
        self.conflict.set.for_each(|row| {
            if row != without {
                level = level.max(self.entry(row).level);
            }
        });
        level
    }

    /// The greatest level of the members, 0 if there are none.
    fn level_of(&self, set: &Set) -> u16 {
        let mut level = 0;
        set.for_each(|row| level = level.max(self.entry(row).level));
        level
    }

    /// Adds a decision.
    fn open(&mut self, row: u8, value: u16) {
        self.opened[usize::from(self.top)] = Opened {
            row,
            place: self.len as u8,
        };
        self.top += 1;
        self.entries[usize::from(row)] = Entry {
            value,
            level: self.top,
            decision: true,
        };
        self.push(row);
    }

    /// Adds an entry whose justification, of the given level, is in place.
    fn justify(&mut self, row: u8, value: u16, level: u16) {
        self.entries[usize::from(row)] = Entry {
            value,
            level,
            decision: false,
        };
        self.push(row);
    }

    fn push(&mut self, row: u8) {
        self.order[self.len] = row;
        self.len += 1;
    }

    /// The term row of a column, if there is one of that number.
    fn row(&self, column: u16) -> Option<u8> {
        (column < self.terms.rows).then_some(column as u8)
    }

    fn entry(&self, row: u8) -> &Entry {
        &self.entries[usize::from(row)]
    }

    fn is_assigned(&self, row: u8) -> bool {
        self.entry(row).value != BLANK
    }

    fn sort(&self, row: u8) -> u8 {
        self.terms.terms[usize::from(row)].sort
    }

    /// Whether the term's sort has the value.
    fn takes(&self, row: u8, value: u16) -> bool {
        self.sort(row) != PROP || value <= 1
    }
}

/// How many premises are filled, if they are filled from the left.
fn from_left(premises: &[u16; 5]) -> Option<usize> {
    let mut filled = 0u32;
    for (at, &premise) in premises.iter().enumerate() {
        filled |= u32::from(premise != BLANK) << at;
    }
    (filled & (filled + 1) == 0).then_some(filled.count_ones() as usize)
}
