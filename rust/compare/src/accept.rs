//! Decisions and the equations of the trail: values that they leave, for the generator,
//! and what a decision shows, for the counts.

use crate::naive::{columns_fit, Model};
use crate::problem::X;
use crate::rng::Rng;

/// The step's number.
pub const DECIDE: u16 = 0;

/// The numbers that a decision can be refused with, in the order of its tests.
pub const NUMBERS: [u16; 6] = [9, 10, 11, 22, 14, 27];

/// Whether a row can have the faults of both numbers, the first one's tested first: of
/// a term that is no row nothing more is asked, and a value unfit for a prop is one of a
/// prop, of which 27 is not asked.
pub fn can_be_both(number: u16, later: u16) -> bool {
    number != 11 && (number, later) != (22, 27)
}

/// What has to occur: of decisions that are allowed, then of those refused with 27. Where
/// it is not said that they are several, it is one equation alone that is against it.
pub const NOTES: [&str; 33] = [
    "no equation on the trail",
    "equations, but none of the term",
    "a true equation, the values equal",
    "a false equation, the values differ",
    "several equations with values, all fit",
    "t=t true",
    "no value on the other side",
    "no value on any other side",
    "a false equation decided, values equal",
    "a true equation decided, values differ",
    "t=t decided false, t valued",
    "the value of another equation's term",
    "27, false and the values equal",
    "27, true and the values differ",
    "27 by t=t false",
    "27, the term on the left",
    "27, the term on the right",
    "27, the equation by an input",
    "27, the equation by a decide",
    "27, the equation by a deduce",
    "27, the equation by a jump",
    "27, the equation by a flip",
    "27, the other side by an input",
    "27, the other side by a decide",
    "27, the equation before the other side",
    "27, the equation after the other side",
    "27 by the first of equations that fit",
    "27 by the last of equations that fit",
    "27 by one, another without a value",
    "27 by several equations",
    "27 by true and false ones at once",
    "27 by several, t=t false among them",
    "27 whatever the value, without t=t",
];

/// A decision's row.
pub fn row(term: u16, value: u16) -> [u16; 9] {
    [DECIDE, X, term, value, X, X, X, X, X]
}

/// An entry of the trail whose term is an equation of the term with another, or with
/// itself.
struct Equation {
    row: u16,
    place: usize,
    truth: bool,
    other: u16,
    left: bool,
}

impl Equation {
    fn is_reflexive(&self, term: u16) -> bool {
        self.other == term
    }

    /// The value of the other side, where the term has this one.
    fn value(&self, model: &Model, term: u16, value: u16) -> Option<u16> {
        match self.is_reflexive(term) {
            true => Some(value),
            false => model.value(self.other),
        }
    }

    /// Whether it has the value that the values of both sides give it, if both have one.
    fn fits(&self, model: &Model, term: u16, value: u16) -> bool {
        let other = self.value(model, term, value);
        other.is_none_or(|other| (other == value) == self.truth)
    }
}

/// The sides of a term that is an equation.
fn sides(model: &Model, term: u16) -> Option<[u16; 2]> {
    let row = model.row(term);
    (row[0] == 0).then_some([row[2], row[3]])
}

/// The equations of a term on the trail, in its order.
fn equations(model: &Model, term: u16) -> Vec<Equation> {
    let mut found = Vec::new();
    for (place, entry) in model.trail.iter().enumerate() {
        let Some([left, right]) = sides(model, entry.term) else {
            continue;
        };
        if left == term || right == term {
            found.push(Equation {
                row: entry.term,
                place,
                truth: entry.value == 1,
                other: if left == term { right } else { left },
                left: left == term,
            });
        }
    }
    found
}

fn all_fit(model: &Model, equations: &[Equation], term: u16, value: u16) -> bool {
    let mut all = equations.iter();
    all.all(|equation| equation.fits(model, term, value))
}

/// The value if the trail's equations leave it to the term, or else one that they do, if
/// there is one among those of the other sides and a few more.
pub fn suitable(rng: &mut Rng, model: &Model, term: u16, wanted: u16) -> Option<u16> {
    if model.is_prop(term) {
        return Some(wanted);
    }
    let equations = equations(model, term);
    let others = equations.iter().filter_map(|one| model.value(one.other));
    let more = [rng.below(4), rng.below(8), rng.below(65_535)].map(|value| value as u16);
    let mut values = [wanted].into_iter().chain(others).chain(more);
    values.find(|&value| all_fit(model, &equations, term, value))
}

/// A decision on a side of an equation of the trail, mostly against it; or one with
/// another fault; or with several.
pub fn near(rng: &mut Rng, model: &Model) -> Option<[u16; 9]> {
    let [term, value] = match rng.below(12) {
        0 => [model.terms.len() as u16, rng.below(3) as u16],
        1 => [some_prop(rng, model)?, 2],
        _ => against(rng, model)?,
    };
    let mut row = row(term, value);
    if rng.percent(10) {
        row[*rng.pick(&[1, 4, 8])] = 0;
    }
    Some(row)
}

/// Some prop, mostly one on the trail.
fn some_prop(rng: &mut Rng, model: &Model) -> Option<u16> {
    let there = rng.percent(70);
    let suits = |&term: &u16| model.is_prop(term) && model.value(term).is_some() == there;
    let props: Vec<u16> = (0..model.terms.len() as u16).filter(suits).collect();
    (!props.is_empty()).then(|| *rng.pick(&props))
}

/// A side of some equation of the trail, mostly one without a value, and a value for it:
/// mostly one that is not the equation's.
fn against(rng: &mut Rng, model: &Model) -> Option<[u16; 2]> {
    let there = rng.percent(12);
    let mut found: Vec<(u16, Equation)> = Vec::new();
    for entry in &model.trail {
        let mut terms = sides(model, entry.term).map_or(Vec::new(), |sides| sides.to_vec());
        terms.dedup();
        terms.retain(|&term| model.value(term).is_some() == there);
        for term in terms {
            let of_entry = |equation: &Equation| equation.row == entry.term;
            let equation = equations(model, term).into_iter().find(of_entry)?;
            found.push((term, equation));
        }
    }
    let reflexive = rng.percent(20);
    let is_asked = |(term, equation): &(u16, Equation)| {
        let valued = model.value(equation.other).is_some();
        equation.is_reflexive(*term) == reflexive && (valued || reflexive)
    };
    if rng.percent(90) && found.iter().any(is_asked) {
        found.retain(is_asked);
    }
    if found.is_empty() {
        return None;
    }
    let (term, equation) = rng.pick(&found);
    let other = model.value(equation.other).unwrap_or(0);
    let equal = equation.truth == rng.percent(20);
    let value = if equal { other } else { rng.below(4) as u16 };
    Some([*term, value])
}

/// What there is to count of a decision at the state of the model.
pub struct Shown {
    /// The number that it is refused with, 0 if it is allowed.
    pub number: u16,
    /// All numbers whose tests it does not pass, each asked by itself.
    pub faults: Vec<u16>,
    pub notes: Vec<&'static str>,
}

/// What a decision shows at the state of the model; for each term on the trail there is
/// the step that put it there, or blank for an input.
pub fn shown(model: &Model, origins: &[u16], row: &[u16; 9]) -> Shown {
    let number = model.next(row).err().unwrap_or(0);
    let (term, value) = (row[2], row[3]);
    let mut notes = Vec::new();
    let mut note = |name: &'static str, holds: bool| {
        if holds {
            notes.push(name);
        }
    };
    match number {
        0 if model.is_prop(term) => decided(model, term, value, &mut note),
        0 => allowed(model, term, value, &mut note),
        27 => refused(model, origins, term, value, &mut note),
        _ => (),
    }
    Shown {
        number,
        faults: faults(model, row),
        notes,
    }
}

/// A decision on a prop, of which no equation is asked, even where it is one.
fn decided(model: &Model, term: u16, value: u16, note: &mut impl FnMut(&'static str, bool)) {
    let Some([left, right]) = sides(model, term) else {
        return;
    };
    let (Some(one), Some(two)) = (model.value(left), model.value(right)) else {
        return;
    };
    let (equal, truth) = (one == two, value == 1);
    let reflexive = left == right;
    let unequal = equal && !truth && !reflexive;
    note("a false equation decided, values equal", unequal);
    note("a true equation decided, values differ", !equal && truth);
    note("t=t decided false, t valued", reflexive && !truth);
}

fn allowed(model: &Model, term: u16, value: u16, note: &mut impl FnMut(&'static str, bool)) {
    let equations = equations(model, term);
    let some = |model: &Model| {
        let mut entries = model.trail.iter();
        entries.any(|entry| sides(model, entry.term).is_some())
    };
    note("no equation on the trail", !some(model));
    let of_others = equations.is_empty() && some(model);
    note("equations, but none of the term", of_others);
    let is_valued = |one: &&Equation| one.value(model, term, value).is_some();
    let valued: Vec<&Equation> = equations.iter().filter(is_valued).collect();
    for equation in &valued {
        let reflexive = equation.is_reflexive(term);
        let equal = equation.truth && !reflexive;
        note("a true equation, the values equal", equal);
        note("a false equation, the values differ", !equation.truth);
        note("t=t true", reflexive);
    }
    note("several equations with values, all fit", valued.len() > 1);
    let open = equations.len() - valued.len();
    note("no value on the other side", open > 0);
    note("no value on any other side", open > 1 && valued.is_empty());
    // It has the value of a term, though some other term's equation says otherwise.
    let apart = model.trail.iter().any(|entry| {
        let sides = sides(model, entry.term).filter(|sides| !sides.contains(&term));
        let is_equal = |side: &u16| model.value(*side) == Some(value);
        entry.value == 0 && sides.is_some_and(|sides| sides.iter().any(is_equal))
    });
    note("the value of another equation's term", apart);
}

fn refused(
    model: &Model,
    origins: &[u16],
    term: u16,
    value: u16,
    note: &mut impl FnMut(&'static str, bool),
) {
    let equations = equations(model, term);
    let fits = |one: &Equation| one.fits(model, term, value);
    let (fit, misfits): (Vec<&Equation>, Vec<&Equation>) =
        equations.iter().partition(|one| fits(one));
    if let [one] = misfits[..] {
        alone(model, origins, term, one, note);
        let is_valued = |other: &&&Equation| other.value(model, term, value).is_some();
        let places: Vec<usize> = fit.iter().filter(is_valued).map(|fit| fit.place).collect();
        let first = !places.is_empty() && places.iter().all(|&place| place > one.place);
        let last = !places.is_empty() && places.iter().all(|&place| place < one.place);
        note("27 by the first of equations that fit", first);
        note("27 by the last of equations that fit", last);
        let open = fit.len() > places.len();
        note("27 by one, another without a value", open);
    }
    let several = misfits.len() > 1;
    let some = |truth: bool| misfits.iter().any(|one| one.truth == truth);
    let reflexive = misfits.iter().any(|one| one.is_reflexive(term));
    note("27 by several equations", several);
    note(
        "27 by true and false ones at once",
        some(true) && some(false),
    );
    note("27 by several, t=t false among them", several && reflexive);
    note(
        "27 whatever the value, without t=t",
        !reflexive && leave_none(model, &equations),
    );
}

/// The one equation that is against a value.
fn alone(
    model: &Model,
    origins: &[u16],
    term: u16,
    one: &Equation,
    note: &mut impl FnMut(&'static str, bool),
) {
    note(
        "27, the equation by an input",
        origins[usize::from(one.row)] == X,
    );
    let by = |term: u16, step: u16| origins[usize::from(term)] == step;
    note("27, the equation by a decide", by(one.row, DECIDE));
    note("27, the equation by a deduce", by(one.row, 1));
    note("27, the equation by a jump", by(one.row, 5));
    note("27, the equation by a flip", by(one.row, 6));
    note("27 by t=t false", one.is_reflexive(term));
    if one.is_reflexive(term) {
        return;
    }
    note("27, false and the values equal", !one.truth);
    note("27, true and the values differ", one.truth);
    note("27, the term on the left", one.left);
    note("27, the term on the right", !one.left);
    note("27, the other side by an input", by(one.other, X));
    note("27, the other side by a decide", by(one.other, DECIDE));
    let place = |entry: &crate::naive::Entry| entry.term == one.other;
    let other = model.trail.iter().position(place);
    let before = other.is_some_and(|other| one.place < other);
    note("27, the equation before the other side", before);
    note("27, the equation after the other side", !before);
}

/// Whether equations with other terms leave no value at all.
fn leave_none(model: &Model, equations: &[Equation]) -> bool {
    let values = |truth: bool| -> Vec<u16> {
        let such = equations.iter().filter(|one| one.truth == truth);
        such.filter_map(|one| model.value(one.other)).collect()
    };
    let (equal, unequal) = (values(true), values(false));
    equal
        .iter()
        .any(|value| *value != equal[0] || unequal.contains(value))
}

/// The numbers whose tests the row does not pass, each test asked by itself of the
/// columns that it can be asked of.
fn faults(model: &Model, row: &[u16; 9]) -> Vec<u16> {
    let (value, is_row) = (row[3], usize::from(row[2]) < model.terms.len());
    let term = Some(row[2]).filter(|_| is_row);
    let prop = term.filter(|&term| model.is_prop(term));
    let other = term.filter(|&term| !model.is_prop(term) && value != X);
    let fails = |number: u16| match number {
        9 => !columns_fit(row),
        10 => model.conflict.is_some(),
        11 => row[2] != X && !is_row,
        22 => prop.is_some() && value > 1 && value != X,
        14 => term.is_some_and(|term| model.entry(term).is_some()),
        _ => other.is_some_and(|term| !all_fit(model, &equations(model, term), term, value)),
    };
    let numbers = NUMBERS.into_iter();
    numbers.filter(|&number| fails(number)).collect()
}
