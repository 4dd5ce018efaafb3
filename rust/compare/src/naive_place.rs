//! The place of a refused row, slow on purpose: document 02 read word for word. For
//! 13 every completion of the row is listed and put to the rule, one after the other.

use crate::naive::{Model, Premise};
use crate::problem::X;

/// A place, or 0, and how it was found.
#[derive(Clone, Copy, Debug, PartialEq, Eq)]
pub enum Place {
    /// Without completing anything.
    Read(u16),
    /// By completions with every row of the sheet in every open column.
    Listed(u16),
    /// By completions with the rows that can be a premise there ([`can_be`]), for there
    /// are too many with every row.
    Picked(u16),
    /// Not at all: there are too many completions of any kind.
    Unknown,
}

impl Place {
    /// The place, or another's where it was not found.
    pub fn or(self, other: u16) -> u16 {
        match self {
            Place::Read(column) | Place::Listed(column) | Place::Picked(column) => column,
            Place::Unknown => other,
        }
    }
}

/// How many completions are listed for one column at most. With every row and two
/// values that is enough for sheets of 7 rows where all premises are open, of 13 and 41
/// rows where one and two of them stand, and for every sheet where three do.
const MOST: usize = 600_000;

/// The place of a row that is refused with the number.
pub fn place(model: &Model, row: &[u16; 9], number: u16) -> Place {
    let column = |fault: &dyn Fn(u16) -> bool, among: &[usize]| {
        let first = among.iter().find(|&&at| row[at] != X && fault(row[at]));
        Place::Read(*first.expect("a column that has the fault") as u16 + 1)
    };
    let no_row = |term: u16| usize::from(term) >= model.terms.len();
    match number {
        11 => column(&no_row, &[2, 4, 5, 6, 7, 8]),
        12 => column(&|term| model.entry(term).is_none(), &[4, 5, 6, 7, 8]),
        13 => unfit(model, row),
        _ => Place::Read(0),
    }
}

/// The first column, from the term on, after which no value, rows and blanks to its
/// right fit the rule. A completion with rows that can be premises is one; where there
/// is none of these, it is sought with every row. With deep it is the term, always.
fn unfit(model: &Model, row: &[u16; 9]) -> Place {
    let [_, rule, term, value, cells @ ..] = *row;
    if rule == 13 {
        return Place::Read(3);
    }
    let filled: Vec<u16> = cells.into_iter().filter(|&cell| cell != X).collect();
    let premises = model.on_trail(&filled).expect("premises on the trail");
    for column in 3..=9 {
        let count = premises.len().min(column.max(4) - 4);
        let blank = column > 4 + premises.len();
        let question = Question {
            model,
            rule,
            term,
            values: if column == 3 { vec![0, 1] } else { vec![value] },
            standing: &premises[..count],
            open: if blank { 0 } else { 9 - column.max(4) },
        };
        match question.answer(false) {
            None => return Place::Unknown,
            Some(true) => (),
            Some(false) => return question.confirmed(column as u16),
        }
    }
    unreachable!("a row that does not fit")
}

/// Whether a row can be completed: the rule gives the term one of the values from the
/// premises that stand, then rows in some of the open columns, and then blanks.
struct Question<'a> {
    model: &'a Model,
    rule: u16,
    term: u16,
    values: Vec<u16>,
    standing: &'a [Premise],
    open: usize,
}

impl Question<'_> {
    /// The answer, by lists of premises with every row or with those that can be one;
    /// none if there are too many lists.
    fn answer(&self, every_row: bool) -> Option<bool> {
        let choices: Vec<Vec<Premise>> = (0..self.open)
            .map(|at| self.choices(self.standing.len() + at, every_row))
            .collect();
        let (mut lists, mut longer) = (1, 1usize);
        for choices in &choices {
            longer = longer.saturating_mul(choices.len());
            lists = longer.saturating_add(lists);
        }
        if lists > MOST {
            return None;
        }
        let fits = |length: usize| self.fits(&mut self.standing.to_vec(), &choices[..length]);
        Some((0..=self.open).any(fits))
    }

    /// The place at a column after which no completion was found: every row is tried, if
    /// there are not too many.
    fn confirmed(&self, column: u16) -> Place {
        match self.answer(true) {
            None => Place::Picked(column),
            Some(false) => Place::Listed(column),
            Some(true) => panic!("a premise of rule {} that cannot be one", self.rule),
        }
    }

    /// Whether the rule fits with some choice in each of the next columns.
    fn fits(&self, premises: &mut Vec<Premise>, choices: &[Vec<Premise>]) -> bool {
        let Some((first, others)) = choices.split_first() else {
            let gives = |&value: &u16| self.model.gives(self.rule, self.term, value, premises);
            return self.values.iter().any(gives);
        };
        first.iter().any(|&premise| {
            premises.push(premise);
            let found = self.fits(premises, others);
            premises.pop();
            found
        })
    }

    /// What an open column can hold: a row with a free value.
    ///
    /// Of the values 0, 1 and those of the premises that stand are tried. A rule only
    /// asks whether a value is 0, whether it is 1, or whether two are equal; what it
    /// answers for other values it answers for some of these too.
    fn choices(&self, at: usize, every_row: bool) -> Vec<Premise> {
        let mut values = vec![0, 1];
        for premise in self.standing {
            if !values.contains(&premise.value) {
                values.push(premise.value);
            }
        }
        (0..self.model.terms.len() as u16)
            .filter(|&row| every_row || can_be(self.model, self.rule, at, row))
            .flat_map(|row| values.iter().map(move |&value| Premise { row, value }))
            .collect()
    }
}

/// Whether a row can be the premise of a rule at a position, counted from 0, going by
/// heads and sorts alone.
fn can_be(model: &Model, rule: u16, at: usize, row: u16) -> bool {
    let head = model.row(row)[0];
    let is_connective = head == 2 || head == 3;
    match (rule, at) {
        (0 | 1, 0 | 1) => !model.is_prop(row),
        (3 | 12, 0) | (4, 0 | 1) | (9, 0..=3) | (10, 1..=4) => head == 0,
        (5, 0) => head == 1,
        (6 | 7, 0) => is_connective,
        (7, 1..=3) | (8, 0..=3) => model.is_prop(row),
        (10, 0) => model.is_prop(row) && head >= 16,
        _ => false,
    }
}
