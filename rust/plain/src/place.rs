//! Where a step that is refused with 11, 12 or 13 went wrong: a column of its row.
//!
//! For 13 that is the first column, from the term on, after which nothing to the
//! right makes the row fit. Every way in which the rule gives the term a value is
//! gone through; the one that agrees with the row for longest says how far the row
//! can stand, and the column after that is the place. With deep it is the term, always.

use crate::problem::{AND, NOT, OR, SELECT};
use crate::rules::{
    part_head, unit_head, View, CONG, DEEP, DIFFER, EVAL, NEG, PART, PRED, READ, REFL, SAME, SKIP,
    SYM, TRANS, UNIT,
};

/// Columns of a step row, counted from 1.
pub const TERM: u16 = 3;
const VALUE: u16 = 4;
pub const FIRST_PREMISE: u16 = 5;

/// The premises of one way, in order. A row stands there if it has, on the trail,
/// the value that it needs; none does where the row that is needed has another.
#[derive(Default)]
struct Way {
    rows: [Option<u8>; 5],
    len: usize,
}

impl Way {
    fn push(&mut self, row: Option<u8>) {
        self.rows[self.len] = row;
        self.len += 1;
    }

    /// How many of the premises are those of the way, from the left.
    fn agrees(&self, premises: &[u8]) -> u16 {
        let pairs = self.rows[..self.len].iter().zip(premises);
        pairs
            .take_while(|(row, premise)| **row == Some(**premise))
            .count() as u16
    }
}

/// Visits ways.
type Visit<'a> = &'a mut dyn FnMut(&Way);

impl View<'_> {
    /// The column at which a row that does not fit its rule went wrong.
    pub fn unfit_column(self, rule: u16, row: u8, value: u16, premises: &[u8]) -> u16 {
        if rule == DEEP {
            return TERM;
        }
        let mut longest = None;
        self.ways(rule, row, value, &mut |way| {
            longest = longest.max(Some(way.agrees(premises)));
        });
        if let Some(agreed) = longest {
            return FIRST_PREMISE + agreed;
        }
        let mut place = TERM;
        self.ways(rule, row, 1 - value, &mut |_| place = VALUE);
        place
    }

    /// All ways in which the rule gives the prop term `row` the value: the rows it
    /// needs are there, whether or not they are on the trail, and whatever their
    /// values.
    fn ways(self, rule: u16, row: u8, value: u16, visit: Visit) {
        match rule {
            NEG => self.all_rows().for_each(|whole| {
                if self.negates(whole, row) {
                    visit(&self.way(&[(whole, 1 - value)]));
                }
            }),
            PART => self.all_rows().for_each(|whole| {
                let term = self.term(whole);
                if term.head == part_head(value) && term.args().contains(&row) {
                    visit(&self.way(&[(whole, value)]));
                }
            }),
            UNIT => self
                .all_rows()
                .for_each(|whole| self.unit_ways(row, value, whole, visit)),
            EVAL => self.eval_way(row, value, visit),
            PRED => self
                .all_rows()
                .for_each(|from| self.pred_way(row, value, from, visit)),
            _ => {
                let given = u16::from(rule != DIFFER);
                if let Some((left, right)) = self.sides(row).filter(|_| value == given) {
                    self.ways_to_equality(rule, row, left, right, visit);
                }
            }
        }
    }

    fn all_rows(self) -> impl Iterator<Item = u8> {
        (0..self.rows).map(|row| row as u8)
    }

    /// The way with these rows, each with its value.
    fn way(self, premises: &[(u8, u16)]) -> Way {
        let mut way = Way::default();
        for &(row, value) in premises {
            way.push(self.with(row, value));
        }
        way
    }

    /// The row, if it has the value.
    fn with(self, row: u8, value: u16) -> Option<u8> {
        (self.value(row) == value).then_some(row)
    }

    /// The equality of two rows, if it is there.
    fn equation(self, left: u8, right: u8) -> Option<u8> {
        let is_it = |&row: &u8| self.term(row).is_eq(left, right);
        self.all_rows().find(is_it)
    }

    /// Adds the true equalities of the arguments of two terms of one head; false if
    /// one of them is not there.
    fn push_equations(self, way: &mut Way, left: u8, right: u8) -> bool {
        let pairs = self.term(left).args().iter().zip(self.term(right).args());
        for (&t, &u) in pairs {
            let Some(equation) = self.equation(t, u) else {
                return false;
            };
            way.push(self.with(equation, 1));
        }
        true
    }

    /// The ways by the rules that give an equality. Sides that are not on the trail are
    /// no premises, so that it does not matter what their values are taken for.
    fn ways_to_equality(self, rule: u16, row: u8, left: u8, right: u8, visit: Visit) {
        let equal = self.value(left) == self.value(right);
        match rule {
            SAME | DIFFER => {
                let mut way = Way::default();
                way.push(Some(left));
                way.push((equal == (rule == SAME)).then_some(right));
                visit(&way);
            }
            REFL if left == right => visit(&Way::default()),
            READ if self.read(row) => visit(&Way::default()),
            SYM => {
                if let Some(other) = self.equation(right, left) {
                    visit(&self.way(&[(other, 1)]));
                }
            }
            TRANS => self
                .all_rows()
                .for_each(|first| self.trans_way(left, right, first, visit)),
            CONG => {
                let head = self.term(left).head;
                let mut way = Way::default();
                if head >= SELECT
                    && head == self.term(right).head
                    && self.push_equations(&mut way, left, right)
                {
                    visit(&way);
                }
            }
            SKIP => {
                let mut rows = self.all_rows();
                if let Some(apart) = rows.find(|&apart| self.skip(row, apart)) {
                    visit(&self.way(&[(apart, 0)]));
                }
            }
            _ => (),
        }
    }

    /// The way by trans whose first premise is the row `first`.
    fn trans_way(self, left: u8, right: u8, first: u8, visit: Visit) {
        let over = self.sides(first).filter(|&(from, _)| from == left);
        if let Some(second) = over.and_then(|(_, over)| self.equation(over, right)) {
            visit(&self.way(&[(first, 1), (second, 1)]));
        }
    }

    /// The ways by unit from the connective `whole`, one for each position of the term.
    fn unit_ways(self, row: u8, value: u16, whole: u8, visit: Visit) {
        let term = self.term(whole);
        if term.head != unit_head(value) {
            return;
        }
        let args = term.args();
        for at in (0..args.len()).filter(|&at| args[at] == row) {
            let mut way = self.way(&[(whole, value)]);
            for other in (0..args.len()).filter(|&other| other != at) {
                way.push(self.with(args[other], 1 - value));
            }
            visit(&way);
        }
    }

    /// The way by eval. One argument can settle an or that is true, or an and that is
    /// false: the last one has to, if none before it does.
    fn eval_way(self, row: u8, value: u16, visit: Visit) {
        let term = self.term(row);
        let settles = match term.head {
            NOT => 1 - value,
            AND | OR => value,
            _ => return,
        };
        let one_settles = term.head == unit_head(value);
        let mut way = Way::default();
        for (at, &arg) in term.args().iter().enumerate() {
            let settled = term.args()[..=at]
                .iter()
                .any(|&arg| self.value(arg) == settles);
            let suits = match one_settles {
                true => settled || at + 1 < term.args().len(),
                false => self.value(arg) == settles,
            };
            way.push(suits.then_some(arg));
        }
        visit(&way);
    }

    /// The way by pred from the term `from`.
    fn pred_way(self, row: u8, value: u16, from: u8, visit: Visit) {
        let term = self.term(from);
        if !term.is_free() || term.head != self.term(row).head {
            return;
        }
        let mut way = self.way(&[(from, value)]);
        if self.push_equations(&mut way, from, row) {
            visit(&way);
        }
    }
}
