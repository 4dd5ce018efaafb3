//! The uses of deep, for the generator, and what a row by deep shows, for the counts.

use crate::naive::{columns_fit, Model, Premise};
use crate::naive_deep::LAYERS;
use crate::problem::X;
use crate::rng::Rng;

/// The rule's number.
pub const DEEP: u16 = 13;

/// The steps that use a rule.
pub const STEPS: [u16; 3] = [1, 2, 7];

/// The numbers that a row by deep can be refused with, in the order of its tests: in a
/// deduce, and in a clash or a fail.
const NUMBERS: [[u16; 8]; 2] = [
    [9, 10, 11, 22, 12, 13, 14, 15],
    [9, 10, 11, 22, 12, 13, 16, 26],
];

/// The same for a step.
pub fn numbers(step: u16) -> [u16; 8] {
    NUMBERS[usize::from(step != STEPS[0])]
}

/// What has to occur: of rows by deep that stand, then of those that do not.
pub const NOTES: [&str; 62] = [
    "1 layer",
    "2 layers",
    "3 layers",
    "4 layers",
    "5 layers",
    "6 layers",
    "7 layers",
    "8 layers",
    "8 layers in a deduce",
    "8 layers in a clash",
    "8 layers in a fail",
    "1 premise",
    "2 premises",
    "3 premises",
    "4 premises",
    "5 premises",
    "a not",
    "an and",
    "an or",
    "true",
    "false",
    "as eval takes it",
    "one layer, not as eval takes it",
    "premises in another order",
    "a premise twice",
    "a premise twice, all 5 columns",
    "a connective as a premise",
    "a premise at two layers",
    "a connective at two layers",
    "a connective met twice",
    "an argument twice",
    "a premise below another, met besides",
    "9 by the rule after deep",
    "22, its own premise",
    "13 by a ninth layer alone",
    "13 by a tenth layer or more alone",
    "13 by a ninth layer on every path",
    "13 by a ninth layer, a path shorter",
    "13 by a ninth layer, a row higher too",
    "13 by a ninth layer, all rows met once",
    "13 by a leaf alone, on the trail",
    "13 by a leaf alone, not on the trail",
    "13 by a leaf alone, an equality",
    "13 by a leaf alone, the result settled",
    "13 by a leaf in the eighth layer alone",
    "13 by the conclusion as a leaf",
    "13 without premises",
    "13 by a premise elsewhere alone",
    "13 by a premise below another alone",
    "13 by a premise above it alone",
    "13 by a premise not prop alone",
    "13 by an argument of a premise alone",
    "13 by sides for their equality",
    "13 by itself beside other premises",
    "13 by the other value alone",
    "13 by its own other value",
    "14 by other premises",
    "14, its own premise",
    "14, its own premise, no connective",
    "16, its own premise, a clash",
    "16, its own premise, a fail",
    "16, its own premise, no connective",
];

/// A formula, its value by the walk, the most connectives on a path, and the premises
/// that the walk comes to.
#[derive(Clone)]
pub struct Use {
    pub term: u16,
    pub value: u16,
    pub layers: usize,
    pub premises: Vec<u16>,
}

/// The uses of deep for these values, of so many layers at most: the walk ends at the
/// rows that are marked, and where it cannot go on, if they have a value.
pub fn uses(model: &Model, values: &[Option<u16>], marked: &[bool], layers: usize) -> Vec<Use> {
    let mut all: Vec<Option<Use>> = Vec::new();
    let mut uses = Vec::new();
    for term in 0..model.terms.len() as u16 {
        let at = usize::from(term);
        let below = connective(model, term, &all).filter(|use_| use_.layers <= layers);
        uses.extend(below.clone());
        let itself = values[at].map(|value| Use {
            term,
            value,
            layers: 0,
            premises: vec![term],
        });
        all.push(match marked[at] {
            true => itself.or(below),
            false => below.or(itself),
        });
    }
    uses
}

/// The use for a connective from what the walk finds at its arguments.
fn connective(model: &Model, term: u16, all: &[Option<Use>]) -> Option<Use> {
    let head = model.row(term)[0];
    if !matches!(head, 1..=3) {
        return None;
    }
    let args = model
        .args(term)
        .iter()
        .map(|&arg| all[usize::from(arg)].as_ref());
    let args: Vec<&Use> = args.collect::<Option<_>>()?;
    let mut premises: Vec<u16> = Vec::new();
    for &premise in args.iter().flat_map(|arg| &arg.premises) {
        if !premises.contains(&premise) {
            premises.push(premise);
        }
    }
    let values = args.iter().map(|arg| arg.value);
    (premises.len() <= 5).then_some(Use {
        term,
        value: combined(head, values.map(Some).collect())?,
        layers: 1 + args.iter().map(|arg| arg.layers).max()?,
        premises,
    })
}

/// The value of a connective, if all its arguments have one.
fn combined(head: u16, values: Vec<Option<u16>>) -> Option<u16> {
    let values: Vec<u16> = values.into_iter().collect::<Option<_>>()?;
    match head {
        1 => Some(1 - values[0].min(1)),
        2 => values.into_iter().min(),
        _ => values.into_iter().max(),
    }
}

/// The value of a connective as soon as some arguments settle it.
fn settled(head: u16, values: &[Option<u16>]) -> Option<u16> {
    match head {
        2 if values.contains(&Some(0)) => Some(0),
        3 if values.contains(&Some(1)) => Some(1),
        _ => combined(head, values.to_vec()),
    }
}

/// The premises that a row names.
fn named(row: &[u16; 9]) -> Vec<u16> {
    row[4..].iter().copied().filter(|&term| term != X).collect()
}

/// Puts premises into the columns of a row, as many as there are.
fn put(row: &mut [u16; 9], premises: &[u16]) {
    row[4..].fill(X);
    let count = premises.len().min(5);
    row[4..4 + count].copy_from_slice(&premises[..count]);
}

/// The premises in another order, mostly, and now and then one of them again.
pub fn shuffle(rng: &mut Rng, premises: &mut Vec<u16>) {
    while rng.percent(25) && premises.len() < 5 && !premises.is_empty() {
        premises.push(*rng.pick(premises));
    }
    if rng.percent(70) {
        for at in (1..premises.len()).rev() {
            premises.swap(at, rng.below(at + 1));
        }
    }
}

/// Some row of the term sheet that will do.
fn any(rng: &mut Rng, model: &Model, will_do: impl Fn(u16) -> bool) -> Option<u16> {
    let rows: Vec<u16> = (0..model.terms.len() as u16)
        .filter(|&term| will_do(term))
        .collect();
    (!rows.is_empty()).then(|| *rng.pick(&rows))
}

/// The rows below a term, at whatever depth.
fn below(model: &Model, term: u16) -> Vec<bool> {
    let mut is_below = vec![false; model.terms.len()];
    for row in (0..=term).rev() {
        if row == term || is_below[usize::from(row)] {
            for &arg in model.args(row) {
                is_below[usize::from(arg)] = true;
            }
        }
    }
    is_below
}

/// One fault more of a row by deep, or what looks like one.
pub fn spoil(rng: &mut Rng, model: &Model, row: &mut [u16; 9]) {
    let mut premises = named(row);
    let is_there = |term: u16| model.entry(term).is_some();
    let is_row = usize::from(row[2]) < model.terms.len();
    match rng.below(20) {
        0..=1 if row[3] < 2 => row[3] = 1 - row[3],
        2..=5 if !premises.is_empty() => {
            premises.remove(rng.below(premises.len()));
        }
        6 => premises.extend(any(rng, model, is_there)),
        7..=9 => premises.extend(relative(rng, model, &premises)),
        10..=11 => premises.extend(any(rng, model, |term| {
            is_there(term) && !model.is_prop(term)
        })),
        12 => premises.extend(any(rng, model, |term| !is_there(term))),
        13 if is_row && is_there(row[2]) => premises.push(row[2]),
        14..=15 => own_premise(rng, model, row, &mut premises),
        16 => premises.clear(),
        17 => premises.push(model.terms.len() as u16),
        _ if is_row => {
            let over = any(rng, model, |term| model.args(term).contains(&row[2]));
            row[2] = over.unwrap_or(row[2]);
        }
        _ => (),
    }
    shuffle(rng, &mut premises);
    put(row, &premises);
}

/// Faults that columns have by themselves, any of them at once: a term that is no prop, a
/// premise not on the trail, one that is no row, and a gap before the last.
pub fn spoil_columns(rng: &mut Rng, model: &Model, row: &mut [u16; 9]) {
    let mut premises = named(row);
    if rng.percent(50) {
        let truth = rng.percent(50);
        let strange = any(rng, model, |term| {
            let has_truth = model.value(term).is_some_and(|value| value < 2);
            !model.is_prop(term) && has_truth == truth
        });
        row[2] = strange.unwrap_or(row[2]);
    }
    if rng.percent(50) {
        premises.extend(any(rng, model, |term| model.entry(term).is_none()));
    }
    if rng.percent(50) {
        premises.push(model.terms.len() as u16);
    }
    put(row, &premises);
    let count = named(row).len();
    if rng.percent(50) && (1..5).contains(&count) {
        row.swap(3 + count, 4 + count);
    }
}

/// Some row on the trail that stands below a premise or, less often, above one.
fn relative(rng: &mut Rng, model: &Model, premises: &[u16]) -> Option<u16> {
    let upward = rng.percent(30);
    let is_relative = |term: u16, premise: u16| {
        let (high, low) = match upward {
            true => (term, premise),
            false => (premise, term),
        };
        let are_rows = usize::from(term.max(premise)) < model.terms.len();
        are_rows && below(model, high)[usize::from(low)]
    };
    any(rng, model, |term| {
        let mut premises = premises.iter();
        model.entry(term).is_some() && premises.any(|&premise| is_relative(term, premise))
    })
}

/// Makes the row speak of a term on the trail that is its own premise, a prop or not.
fn own_premise(rng: &mut Rng, model: &Model, row: &mut [u16; 9], premises: &mut Vec<u16>) {
    let prop = rng.percent(75);
    let own = any(rng, model, |term| {
        let value = model.value(term);
        value.is_some_and(|value| value < 2) && model.is_prop(term) == prop
    });
    if let Some(own) = own {
        row[2] = own;
        row[3] = model.value(own).unwrap_or(0);
        *premises = vec![own];
    }
}

/// The walk of a row by deep, along all paths at once.
struct Walk<'a> {
    model: &'a Model,
    term: u16,
    premises: Vec<Premise>,
    /// Of each row the most and the fewest connectives on a path down from it.
    most: Vec<usize>,
    fewest: Vec<usize>,
    /// Of each row the value by all arguments, and by those that settle it.
    values: Vec<Option<u16>>,
    settled: Vec<Option<u16>>,
    /// Of each row that the walk comes to, how many connectives are above it, at least
    /// and at most, and how often it is an argument of these.
    depths: Vec<Option<(usize, usize)>>,
    times: Vec<usize>,
}

impl<'a> Walk<'a> {
    fn new(model: &'a Model, term: u16, premises: Vec<Premise>) -> Self {
        let count = model.terms.len();
        let mut walk = Walk {
            model,
            term,
            premises,
            most: vec![0; count],
            fewest: vec![0; count],
            values: vec![None; count],
            settled: vec![None; count],
            depths: vec![None; count],
            times: vec![0; count],
        };
        (0..=term).for_each(|row| walk.value(row));
        walk.depths[usize::from(term)] = Some((0, 0));
        (0..=term).rev().for_each(|row| walk.come_to(row));
        walk
    }

    fn is_premise(&self, row: u16) -> bool {
        self.premises.iter().any(|premise| premise.row == row)
    }

    fn goes_on(&self, row: u16) -> bool {
        !self.is_premise(row) && matches!(self.model.row(row)[0], 1..=3)
    }

    fn is_leaf(&self, row: u16) -> bool {
        !self.is_premise(row) && !self.goes_on(row)
    }

    /// Works out a row from its arguments.
    fn value(&mut self, row: u16) {
        let at = usize::from(row);
        if let Some(premise) = self.premises.iter().find(|premise| premise.row == row) {
            self.values[at] = Some(premise.value);
            self.settled[at] = Some(premise.value);
        } else if self.goes_on(row) {
            let args = self.model.args(row);
            let of = |list: &[Option<u16>]| -> Vec<Option<u16>> {
                args.iter().map(|&arg| list[usize::from(arg)]).collect()
            };
            let head = self.model.row(row)[0];
            self.values[at] = combined(head, of(&self.values));
            self.settled[at] = settled(head, &of(&self.settled));
            let layers = |list: &[usize]| -> Vec<usize> {
                args.iter().map(|&arg| list[usize::from(arg)]).collect()
            };
            self.most[at] = 1 + layers(&self.most).into_iter().max().unwrap_or(0);
            self.fewest[at] = 1 + layers(&self.fewest).into_iter().min().unwrap_or(0);
        }
    }

    /// Goes on from a row that the walk has come to.
    fn come_to(&mut self, row: u16) {
        let Some((least, most)) = self.depths[usize::from(row)] else {
            return;
        };
        if !self.goes_on(row) {
            return;
        }
        for &arg in self.model.args(row) {
            let at = usize::from(arg);
            let (low, high) = self.depths[at].unwrap_or((usize::MAX, 0));
            self.depths[at] = Some((low.min(least + 1), high.max(most + 1)));
            self.times[at] += 1;
        }
    }

    fn is_met(&self, row: u16) -> bool {
        self.depths[usize::from(row)].is_some()
    }

    /// The rows that the walk comes to and that will do.
    fn met(&self, will_do: impl Fn(u16) -> bool) -> Vec<u16> {
        (0..=self.term)
            .filter(|&row| self.is_met(row) && will_do(row))
            .collect()
    }

    fn leaves(&self) -> Vec<u16> {
        self.met(|row| self.is_leaf(row))
    }

    /// The premises that the walk does not come to.
    fn unmet(&self) -> Vec<u16> {
        let rows = self.premises.iter().map(|premise| premise.row);
        rows.filter(|&row| !self.is_met(row)).collect()
    }

    fn layers(&self) -> usize {
        self.most[usize::from(self.term)]
    }

    fn result(&self) -> Option<u16> {
        self.values[usize::from(self.term)]
    }

    /// Whether the row stands below a premise.
    fn is_below_premise(&self, row: u16) -> bool {
        let mut premises = self.premises.iter();
        premises.any(|premise| below(self.model, premise.row)[usize::from(row)])
    }

    /// The rows in the order in which the walk first comes to them, arguments from the left.
    fn order(&self, row: u16, seen: &mut Vec<u16>) {
        if seen.contains(&row) {
            return;
        }
        seen.push(row);
        if self.goes_on(row) {
            self.model
                .args(row)
                .iter()
                .for_each(|&arg| self.order(arg, seen));
        }
    }

    /// The faults by themselves: layers, a leaf, premises, the value.
    fn causes(&self, value: u16) -> [bool; 4] {
        [
            self.layers() > LAYERS,
            !self.leaves().is_empty(),
            !self.unmet().is_empty(),
            self.result().is_some_and(|result| result != value),
        ]
    }
}

/// What there is to count of a row by deep at the state of the model.
pub struct Shown {
    pub step: u16,
    /// Whether the rule is deep, and not the number after it.
    pub listed: bool,
    /// The number that it is refused with, 0 if it is allowed.
    pub number: u16,
    /// All numbers whose tests it does not pass, each asked by itself.
    pub faults: Vec<u16>,
    pub notes: Vec<&'static str>,
}

/// Takes a note if it holds.
struct Notes(Vec<&'static str>);

impl Notes {
    fn take(&mut self, name: &'static str, holds: bool) {
        if holds {
            self.0.push(name);
        }
    }
}

/// What a row by deep, or by the number after it, shows at the state of the model.
pub fn shown(model: &Model, row: &[u16; 9]) -> Shown {
    let number = model.next(row).err().unwrap_or(0);
    let mut notes = Notes(Vec::new());
    if row[1] == DEEP + 1 {
        let mut listed = *row;
        listed[1] = DEEP;
        notes.take("9 by the rule after deep", model.next(&listed).is_ok());
    } else if matches!(number, 0 | 13..=16 | 26) {
        let premises = model.on_trail(&named(row)).expect("premises on the trail");
        let walk = Walk::new(model, row[2], premises);
        let causes = walk.causes(row[3]);
        assert_eq!(
            number == 13,
            causes.contains(&true),
            "causes of 13 in {row:?}"
        );
        match number {
            0 => stands(&walk, row, &mut notes),
            13 => unfit(&walk, row, causes, &mut notes),
            _ => present(&walk, row, number, &mut notes),
        }
    } else if number == 22 && model.value(row[2]) == Some(row[3]) {
        let own = named(row).iter().all(|&premise| premise == row[2]);
        notes.take("22, its own premise", own && row[4] != X);
    }
    Shown {
        step: row[0],
        listed: row[1] == DEEP,
        number,
        faults: faults(model, row),
        notes: notes.0,
    }
}

/// What a row shows that stands.
fn stands(walk: &Walk, row: &[u16; 9], notes: &mut Notes) {
    let named = named(row);
    let mut distinct = named.clone();
    distinct.sort_unstable();
    distinct.dedup();
    notes.take(NOTES[walk.layers() - 1], true);
    let at = STEPS.iter().position(|&step| step == row[0]);
    notes.take(
        NOTES[8 + at.expect("a step with a rule")],
        walk.layers() == LAYERS,
    );
    notes.take(NOTES[10 + distinct.len()], true);
    notes.take(NOTES[15 + usize::from(walk.model.row(row[2])[0])], true);
    notes.take("true", row[3] == 1);
    notes.take("false", row[3] == 0);
    let as_eval = walk.model.args(row[2]) == named;
    notes.take("as eval takes it", as_eval);
    notes.take(
        "one layer, not as eval takes it",
        walk.layers() == 1 && !as_eval,
    );
    let twice = distinct.len() < named.len();
    notes.take("a premise twice", twice);
    notes.take("a premise twice, all 5 columns", twice && named.len() == 5);
    let mut order = Vec::new();
    walk.order(row[2], &mut order);
    order.retain(|&row| walk.is_premise(row));
    notes.take("premises in another order", first_uses(&named) != order);
    shared(walk, &distinct, notes);
}

/// The list without what stands in it earlier.
fn first_uses(list: &[u16]) -> Vec<u16> {
    let fresh = |&at: &usize| !list[..at].contains(&list[at]);
    (0..list.len()).filter(fresh).map(|at| list[at]).collect()
}

/// What a row that stands shows of rows that several paths come to.
fn shared(walk: &Walk, premises: &[u16], notes: &mut Notes) {
    let is_connective = |row: u16| matches!(walk.model.row(row)[0], 1..=3);
    let some = |will_do: &dyn Fn(u16) -> bool| !walk.met(will_do).is_empty();
    let two_layers = |row: u16| {
        let depths = walk.depths[usize::from(row)];
        depths.is_some_and(|(least, most)| least < most)
    };
    let premise = |row: u16| premises.contains(&row);
    notes.take(
        "a connective as a premise",
        some(&|row| premise(row) && is_connective(row)),
    );
    notes.take(
        "a premise at two layers",
        some(&|row| premise(row) && two_layers(row)),
    );
    notes.take(
        "a connective at two layers",
        some(&|row| walk.goes_on(row) && two_layers(row)),
    );
    let times = |row: u16| walk.times[usize::from(row)];
    notes.take(
        "a connective met twice",
        some(&|row| walk.goes_on(row) && times(row) > 1),
    );
    let repeats = |row: u16| {
        let args = walk.model.args(row);
        walk.goes_on(row) && first_uses(args).len() < args.len()
    };
    notes.take("an argument twice", some(&repeats));
    let besides = |row: u16| premise(row) && walk.is_below_premise(row);
    notes.take("a premise below another, met besides", some(&besides));
}

/// What a row shows that is refused with 13.
fn unfit(walk: &Walk, row: &[u16; 9], causes: [bool; 4], notes: &mut Notes) {
    let [term, value] = [row[2], row[3]];
    let own = walk.is_premise(term);
    notes.take("13 by the conclusion as a leaf", walk.is_leaf(term));
    notes.take("13 without premises", walk.premises.is_empty());
    match causes {
        [true, false, false, false] => too_deep(walk, notes),
        [false, true, false, false] => no_value(walk, value, notes),
        [false, false, true, false] => not_met(walk, notes),
        [false, false, false, true] => {
            notes.take("13 by the other value alone", !own);
            notes.take("13 by its own other value", own);
        }
        _ => (),
    }
    let sides = |leaf: u16| {
        let args = walk.model.args(leaf);
        walk.model.row(leaf)[0] == 0 && args.iter().all(|&arg| walk.is_premise(arg))
    };
    let leaves = walk.leaves();
    notes.take(
        "13 by sides for their equality",
        leaves.iter().any(|&leaf| sides(leaf)),
    );
}

/// What a row shows whose walk goes too deep, and has no other fault.
fn too_deep(walk: &Walk, notes: &mut Notes) {
    notes.take("13 by a ninth layer alone", walk.layers() == LAYERS + 1);
    notes.take(
        "13 by a tenth layer or more alone",
        walk.layers() > LAYERS + 1,
    );
    let fewest = walk.fewest[usize::from(walk.term)];
    notes.take("13 by a ninth layer on every path", fewest > LAYERS);
    notes.take("13 by a ninth layer, a path shorter", fewest < LAYERS);
    let higher = |row: u16| {
        let under = walk.most[usize::from(row)];
        let depths = walk.depths[usize::from(row)];
        depths.is_some_and(|(least, most)| {
            walk.goes_on(row) && least + under <= LAYERS && most + under > LAYERS
        })
    };
    let rows = walk.met(higher);
    notes.take("13 by a ninth layer, a row higher too", !rows.is_empty());
    let again = walk.met(|row| walk.goes_on(row) && walk.times[usize::from(row)] > 1);
    notes.take("13 by a ninth layer, all rows met once", again.is_empty());
}

/// What a row shows whose walk comes to leaves, and has no other fault.
fn no_value(walk: &Walk, value: u16, notes: &mut Notes) {
    let leaves = walk.leaves();
    let is_there = |&leaf: &u16| walk.model.entry(leaf).is_some();
    notes.take(
        "13 by a leaf alone, on the trail",
        leaves.iter().all(is_there),
    );
    notes.take(
        "13 by a leaf alone, not on the trail",
        !leaves.iter().any(is_there),
    );
    let is_eq = |&leaf: &u16| walk.model.row(leaf)[0] == 0;
    notes.take("13 by a leaf alone, an equality", leaves.iter().all(is_eq));
    let settled = walk.settled[usize::from(walk.term)] == Some(value);
    notes.take("13 by a leaf alone, the result settled", settled);
    let depth = |&leaf: &u16| walk.depths[usize::from(leaf)].map(|depths| depths.1);
    let lowest = leaves.iter().filter_map(depth).max();
    notes.take(
        "13 by a leaf in the eighth layer alone",
        lowest == Some(LAYERS),
    );
}

/// What a row shows whose walk does not come to all premises, and has no other fault.
fn not_met(walk: &Walk, notes: &mut Notes) {
    let unmet = walk.unmet();
    let is_prop = |&row: &u16| walk.model.is_prop(row);
    let is_below = |&row: &u16| walk.is_below_premise(row);
    let is_above = |&row: &u16| below(walk.model, row)[usize::from(walk.term)];
    let elsewhere = |row: &u16| is_prop(row) && !is_below(row) && !is_above(row);
    let own = walk.is_premise(walk.term);
    notes.take("13 by itself beside other premises", own);
    if own {
        return;
    }
    notes.take(
        "13 by a premise elsewhere alone",
        unmet.iter().all(elsewhere),
    );
    let under = |row: &u16| is_prop(row) && is_below(row);
    notes.take(
        "13 by a premise below another alone",
        unmet.iter().all(under),
    );
    notes.take("13 by a premise above it alone", unmet.iter().all(is_above));
    let none = !unmet.iter().any(is_prop);
    notes.take("13 by a premise not prop alone", none);
    notes.take(
        "13 by an argument of a premise alone",
        none && unmet.iter().all(is_below),
    );
}

/// What a row shows whose rule fits and whose term's value stands in the way.
fn present(walk: &Walk, row: &[u16; 9], number: u16, notes: &mut Notes) {
    let own = walk.is_premise(row[2]);
    let no_connective = own && !matches!(walk.model.row(row[2])[0], 1..=3);
    match number {
        14 => {
            notes.take("14 by other premises", !own);
            notes.take("14, its own premise", own);
            notes.take("14, its own premise, no connective", no_connective);
        }
        16 => {
            notes.take("16, its own premise, a clash", own && row[0] == 2);
            notes.take("16, its own premise, a fail", own && row[0] == 7);
            notes.take("16, its own premise, no connective", no_connective);
        }
        _ => (),
    }
}

/// The numbers whose tests the row does not pass, each test asked by itself of the
/// columns that it can be asked of.
fn faults(model: &Model, row: &[u16; 9]) -> Vec<u16> {
    let [step, _, term, value, ..] = *row;
    let is_row = |term: u16| usize::from(term) < model.terms.len();
    let named = named(row);
    let there: Vec<u16> = named
        .iter()
        .copied()
        .filter(|&premise| is_row(premise) && model.entry(premise).is_some())
        .collect();
    let has = |wanted: u16| is_row(term) && model.value(term) == Some(wanted);
    let fails = |number: u16| match number {
        9 => !columns_fit(row),
        10 => model.conflict.is_some(),
        11 => [&[term], &named[..]]
            .concat()
            .iter()
            .any(|&term| !is_row(term)),
        22 => is_row(term) && !model.is_prop(term),
        12 => named
            .iter()
            .any(|premise| is_row(*premise) && !there.contains(premise)),
        13 => {
            let premises = model.on_trail(&there).expect("premises on the trail");
            is_row(term) && value < 2 && !model.deep(term, value, &premises)
        }
        14 => has(value),
        15 => value < 2 && has(1 - value),
        16 => is_row(term) && value < 2 && !has(1 - value),
        _ => {
            let opposite = Some(term).filter(|_| value < 2 && has(1 - value));
            let members: Vec<u16> = there.iter().copied().chain(opposite).collect();
            (model.level_of(&members) == 0) != (step == 7)
        }
    };
    let all = numbers(step);
    all.into_iter().filter(|&number| fails(number)).collect()
}
