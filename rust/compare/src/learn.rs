//! The learns of a conflict, for the generator, and what a learn shows, for the
//! counts.

use crate::naive::{Entry, Model};
use crate::problem::X;

/// The step's number.
pub const LEARN: u16 = 8;

/// The numbers that a learn can be refused with, in the order of its tests.
pub const NUMBERS: [u16; 8] = [9, 10, 11, 17, 22, 25, 14, 21];

/// What has to occur: of learns that are allowed, then of those that are not.
pub const NOTES: [&str; 46] = [
    "an or of 2 members",
    "an or of 3 members",
    "an or of 4 members",
    "an and of 2 members",
    "an and of 3 members",
    "an and of 4 members",
    "an or, a member negated",
    "an or, a member as itself",
    "an or, both kinds of members",
    "an and, a member negated",
    "an and, a member as itself",
    "an and, both kinds of members",
    "an or, members in another order",
    "an and, members in another order",
    "an or, one row at two positions",
    "an and, one row at two positions",
    "a member that is a negation, negated",
    "m at the rest's level",
    "m above the rest's level",
    "m 0",
    "no rest",
    "no rest, m above 0",
    "a rest at level 0",
    "a rest above level 0",
    "a rest above level 0, m above it",
    "a decision among the members",
    "a member that rests on others",
    "a member that rests on nothing",
    "a member that resolve is barred from",
    "members below the trail's top",
    "late entries kept",
    "17 by a term on the trail",
    "17 by a term not on the trail",
    "22 by a member",
    "22 by the term",
    "25 by a member named twice",
    "25 by a member twice, rows that fit",
    "25 by no match",
    "25 by the count alone",
    "25 by a negation as what it negates",
    "14, the clause true",
    "14, the clause false",
    "14, the clause above m",
    "21 below the rest",
    "21 at or above the members",
    "21 above the members, below the top",
];

/// A clause and the members of the conflict that it matches.
#[derive(Clone)]
pub struct Lesson {
    pub clause: u16,
    pub members: Vec<u16>,
}

impl Lesson {
    /// Whether the members are all different and the clause matches them.
    pub fn is_exact(&self, model: &Model) -> bool {
        !repeats(&self.members) && model.matches(self.clause, &self.members)
    }
}

fn repeats(list: &[u16]) -> bool {
    (1..list.len()).any(|at| list[..at].contains(&list[at]))
}

fn args(model: &Model, term: u16) -> Vec<u16> {
    let row = model.terms[usize::from(term)];
    row[2..].iter().copied().filter(|&arg| arg != X).collect()
}

fn head(model: &Model, term: u16) -> u16 {
    model.terms[usize::from(term)][0]
}

/// What a position of a clause can stand for: each term and its value.
pub fn readings(model: &Model, head_of_clause: u16, arg: u16) -> Vec<(u16, u16)> {
    let itself = 3 - head_of_clause;
    let mut found = vec![(arg, itself)];
    if head(model, arg) == 1 {
        found.push((args(model, arg)[0], 1 - itself));
    }
    found
}

/// The negation of a term, if it has a row.
fn negation(model: &Model, term: u16) -> Option<u16> {
    let row = [1, 0, term, X, X, X];
    let at = model.terms.iter().position(|other| *other == row);
    at.map(|at| at as u16)
}

/// The clauses that match members of the conflict, with a value or without, each
/// with the members in the order of the arguments. Loosely, a member may be there
/// twice, and one that is a negation may appear as what it negates.
pub fn lessons(model: &Model, loose: bool) -> Vec<Lesson> {
    let mut found = Vec::new();
    let Some(conflict) = &model.conflict else {
        return found;
    };
    let mut values = vec![None; model.terms.len()];
    for entry in model
        .trail
        .iter()
        .filter(|entry| conflict.contains(&entry.term))
    {
        values[usize::from(entry.term)] = Some(entry.value);
    }
    for clause in 0..model.terms.len() as u16 {
        let head = head(model, clause);
        if head != 2 && head != 3 {
            continue;
        }
        let mut lists = vec![Vec::new()];
        for arg in args(model, clause) {
            let mut can_be = readings(model, head, arg);
            if let Some(negation) = negation(model, arg).filter(|_| loose) {
                can_be.push((negation, head - 2));
            }
            let mut longer = Vec::new();
            for (term, value) in can_be {
                if values[usize::from(term)] != Some(value) {
                    continue;
                }
                for list in lists.iter().filter(|list| loose || !list.contains(&term)) {
                    longer.push([list, &[term][..]].concat());
                }
            }
            lists = longer;
        }
        found.extend(lists.into_iter().map(|members| Lesson { clause, members }));
    }
    found
}

/// The levels of the rest and of the members.
pub fn range(model: &Model, members: &[u16]) -> (u16, u16) {
    let rest = model.rest_of(members);
    (model.level_of(&rest), model.level_of(members))
}

/// The trail's greatest level.
fn top(model: &Model) -> u16 {
    let levels = model.trail.iter().map(|entry| entry.level);
    levels.max().unwrap_or(0)
}

/// What there is to count of a learn row at the state of the model.
pub struct Shown {
    /// The number that it is refused with, 0 if it is allowed.
    pub number: u16,
    /// All numbers whose tests it does not pass, each asked by itself.
    pub faults: Vec<u16>,
    pub notes: Vec<&'static str>,
}

/// What a learn row shows at the state of the model.
pub fn shown(model: &Model, row: &[u16; 9]) -> Shown {
    let number = model.next(row).err().unwrap_or(0);
    let named: Vec<u16> = row[4..].iter().copied().filter(|&term| term != X).collect();
    let mut notes = Vec::new();
    let mut note = |name: &'static str, holds: bool| {
        if holds {
            notes.push(name);
        }
    };
    let clause = row[2];
    let is_member = |term: &u16| model.conflict.iter().flatten().any(|other| other == term);
    match number {
        0 => allowed(model, row, &named, &mut note),
        17 => {
            let outside = |on_trail: bool| {
                let is_there = |term: u16| model.entry(term).is_some();
                named
                    .iter()
                    .any(|term| !is_member(term) && is_there(*term) == on_trail)
            };
            note("17 by a term on the trail", outside(true));
            note("17 by a term not on the trail", outside(false));
        }
        22 => {
            let all_props = named.iter().all(|&member| model.is_prop(member));
            note("22 by a member", !all_props);
            note("22 by the term", !matches!(head(model, clause), 2 | 3));
        }
        25 => mismatch(model, clause, &named, &mut note),
        14 => {
            let entry = model.entry(clause).unwrap();
            note("14, the clause true", entry.value == 1);
            note("14, the clause false", entry.value == 0);
            note("14, the clause above m", entry.level > row[3]);
        }
        21 => {
            let (rest, level) = range(model, &named);
            note("21 below the rest", row[3] < rest);
            note("21 at or above the members", row[3] >= level);
            let between = row[3] >= level && row[3] < top(model);
            note("21 above the members, below the top", between);
        }
        _ => (),
    }
    Shown {
        number,
        faults: faults(model, row, &named),
        notes,
    }
}

fn allowed(
    model: &Model,
    row: &[u16; 9],
    named: &[u16],
    note: &mut impl FnMut(&'static str, bool),
) {
    let (clause, to) = (row[2], row[3]);
    let is_or = head(model, clause) == 3;
    note(NOTES[if is_or { 0 } else { 3 } + named.len() - 2], true);
    let args = args(model, clause);
    let negated = |&&term: &&u16| (model.value(term) == Some(1)) == is_or;
    let count = named.iter().filter(negated).count();
    let (some, all) = (count > 0, count == named.len());
    let same_order =
        |(&arg, &term): (&u16, &u16)| model.appears(if is_or { 3 } else { 2 }, term, arg);
    let ordered = args.iter().zip(named).all(same_order);
    let twice = repeats(&args);
    note("an or, a member negated", is_or && some);
    note("an or, a member as itself", is_or && !all);
    note("an or, both kinds of members", is_or && some && !all);
    note("an and, a member negated", !is_or && some);
    note("an and, a member as itself", !is_or && !all);
    note("an and, both kinds of members", !is_or && some && !all);
    note("an or, members in another order", is_or && !ordered);
    note("an and, members in another order", !is_or && !ordered);
    note("an or, one row at two positions", is_or && twice);
    note("an and, one row at two positions", !is_or && twice);
    let double = |term: &&u16| head(model, **term) == 1 && negated(term);
    note(
        "a member that is a negation, negated",
        named.iter().any(|term| double(&term)),
    );
    let rest = model.rest_of(named);
    let level = model.level_of(&rest);
    note("m at the rest's level", to == level);
    note("m above the rest's level", to > level);
    note("m 0", to == 0);
    note("no rest", rest.is_empty());
    note("no rest, m above 0", rest.is_empty() && to > 0);
    note("a rest at level 0", !rest.is_empty() && level == 0);
    note("a rest above level 0", level > 0);
    note("a rest above level 0, m above it", level > 0 && to > level);
    let some_member =
        |is: fn(&Entry) -> bool| named.iter().any(|&term| model.entry(term).is_some_and(is));
    let rests = |entry: &Entry| entry.reason.iter().flatten().count() > 0;
    note(
        "a decision among the members",
        some_member(Entry::is_decision),
    );
    note("a member that rests on others", some_member(rests));
    note(
        "a member that rests on nothing",
        some_member(|entry| entry.reason.as_ref().is_some_and(Vec::is_empty)),
    );
    let barred = |&term: &u16| {
        let resolve = [3, X, term, X, X, X, X, X, X];
        model.next(&resolve).err() == Some(19)
    };
    note(
        "a member that resolve is barred from",
        named.iter().any(barred),
    );
    let below = model.level_of(named) < top(model);
    note("members below the trail's top", below);
    let dropped = model.trail.iter().position(|entry| entry.level > to);
    let late = dropped.is_some_and(|at| model.trail[at..].iter().any(|entry| entry.level <= to));
    note("late entries kept", late);
}

fn mismatch(model: &Model, clause: u16, named: &[u16], note: &mut impl FnMut(&'static str, bool)) {
    let twice = repeats(named);
    let fits = model.matches(clause, named);
    note("25 by a member named twice", twice);
    note("25 by a member twice, rows that fit", twice && fits);
    note("25 by no match", !twice && !fits);
    let args = args(model, clause);
    let head = head(model, clause);
    let count = args.len().min(named.len());
    let begins = |(&arg, &term): (&u16, &u16)| model.appears(head, term, arg);
    let alike = args.iter().zip(named).take(count).all(begins);
    note(
        "25 by the count alone",
        !twice && args.len() != named.len() && alike,
    );
    // A member that would have to be negated, and is a negation, as its argument.
    let inner = |(&arg, &term): (&u16, &u16)| {
        let row = model.terms[usize::from(term)];
        row[0] == 1 && row[2] == arg && model.value(term) == Some(head - 2)
    };
    let inside = |pair: (&u16, &u16)| inner(pair) || begins(pair);
    let negation = args.iter().zip(named).any(inner) && args.iter().zip(named).all(inside);
    note(
        "25 by a negation as what it negates",
        !twice && !fits && args.len() == named.len() && negation,
    );
}

/// The numbers whose tests the row does not pass, each test asked by itself of the
/// columns that it can be asked of.
fn faults(model: &Model, row: &[u16; 9], named: &[u16]) -> Vec<u16> {
    let is_row = |term: u16| usize::from(term) < model.terms.len();
    let clause = Some(row[2]).filter(|&term| is_row(term));
    let members: Vec<u16> = named.iter().copied().filter(|&term| is_row(term)).collect();
    let conflict = model.conflict.clone().unwrap_or_default();
    let level = |terms: &[u16]| {
        let levels = terms.iter().filter_map(|&term| model.entry(term));
        levels.map(|entry| entry.level).max().unwrap_or(0)
    };
    let rest: Vec<u16> = conflict
        .iter()
        .copied()
        .filter(|member| !members.contains(member))
        .collect();
    let twice = repeats(named);
    let fails = |number: u16| match number {
        9 => !crate::naive::columns_fit(row),
        10 => model.conflict.is_none(),
        11 => {
            let columns = [&row[2..3], named].concat();
            columns.iter().any(|&term| term != X && !is_row(term))
        }
        17 => members.iter().any(|member| !conflict.contains(member)),
        22 => {
            members.iter().any(|&member| !model.is_prop(member))
                || clause.is_some_and(|clause| !matches!(head(model, clause), 2 | 3))
        }
        25 => twice || clause.is_some_and(|clause| !model.matches(clause, &members)),
        14 => clause.is_some_and(|clause| model.entry(clause).is_some()),
        _ => row[3] != X && (row[3] < level(&rest) || row[3] >= level(&members)),
    };
    NUMBERS
        .into_iter()
        .filter(|&number| fails(number))
        .collect()
}
