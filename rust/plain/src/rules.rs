//! The fourteen rules.

use crate::engine::Entry;
use crate::problem::{Term, AND, EQ, NOT, OR, SELECT, STORE};
use crate::MAX_TERMS;

/// How many rules there are.
pub const RULES: u16 = 14;

/// The rules, in the order of their numbers.
pub const SAME: u16 = 0;
pub const DIFFER: u16 = 1;
pub const REFL: u16 = 2;
pub const SYM: u16 = 3;
pub const TRANS: u16 = 4;
pub const NEG: u16 = 5;
pub const PART: u16 = 6;
pub const UNIT: u16 = 7;
pub const EVAL: u16 = 8;
pub const CONG: u16 = 9;
pub const PRED: u16 = 10;
pub const READ: u16 = 11;
pub const SKIP: u16 = 12;
pub const DEEP: u16 = 13;

/// The premises of a deduce, a clash or a fail; those past the length are 0.
pub struct Premises {
    pub rows: [u8; 5],
    pub len: usize,
    /// The greatest level, 0 if there are none.
    pub level: u16,
}

impl Premises {
    pub fn rows(&self) -> &[u8] {
        &self.rows[..self.len]
    }

    /// Whether the premises are the arguments of the term, in order.
    fn are_args_of(&self, term: &Term) -> bool {
        self.len == usize::from(term.arity) && self.rows[..4] == term.args
    }
}

/// What a rule looks at: the terms and what the trail says of each.
#[derive(Clone, Copy)]
pub struct View<'a> {
    pub rows: u16,
    pub terms: &'a [Term; MAX_TERMS],
    pub entries: &'a [Entry; MAX_TERMS],
}

impl<'a> View<'a> {
    pub fn term(self, row: u8) -> &'a Term {
        &self.terms[usize::from(row)]
    }

    pub fn value(self, row: u8) -> u16 {
        self.entries[usize::from(row)].value
    }

    /// Whether the row is the equality of the two others and true.
    fn equal(self, row: u8, left: u8, right: u8) -> bool {
        self.value(row) == 1 && self.term(row).is_eq(left, right)
    }

    /// Whether the premises are true equalities of the arguments of the two
    /// terms, which have one head, at every position.
    fn equal_args(self, premises: &[u8], left: &Term, right: &Term) -> bool {
        premises.len() == usize::from(left.arity)
            && (0..premises.len()).all(|at| self.equal(premises[at], left.args[at], right.args[at]))
    }

    /// The two sides of a row, if it is an equality.
    pub fn sides(self, row: u8) -> Option<(u8, u8)> {
        let term = self.term(row);
        (term.head == EQ).then_some((term.args[0], term.args[1]))
    }

    /// Whether the rule gives the prop term `row` the value, 0 or 1, from the
    /// premises, all of them on the trail.
    pub fn gives(self, rule: u16, row: u8, value: u16, premises: &Premises) -> bool {
        match (rule, premises.rows()) {
            (SAME, &[t, u]) => {
                value == 1 && self.term(row).is_eq(t, u) && self.value(t) == self.value(u)
            }
            (DIFFER, &[t, u]) => {
                value == 0 && self.term(row).is_eq(t, u) && self.value(t) != self.value(u)
            }
            (REFL, &[]) => value == 1 && self.sides(row).is_some_and(|(t, u)| t == u),
            (SYM, &[p]) => value == 1 && self.sides(row).is_some_and(|(u, t)| self.equal(p, t, u)),
            (TRANS, &[p, q]) => value == 1 && self.trans(row, p, q),
            (NEG, &[p]) => self.negates(p, row) && value != self.value(p),
            (PART, &[p]) => {
                let whole = self.term(p);
                value == self.value(p)
                    && whole.head == part_head(value)
                    && whole.args().contains(&row)
            }
            (UNIT, &[p, ref others @ ..]) => self.unit(row, value, p, others),
            (EVAL, _) => self.eval(row, value, premises),
            (CONG, equalities) => value == 1 && self.cong(row, equalities),
            (PRED, &[p, ref equalities @ ..]) => {
                let (from, to) = (self.term(p), self.term(row));
                value == self.value(p)
                    && from.is_free()
                    && from.head == to.head
                    && self.equal_args(equalities, from, to)
            }
            (READ, &[]) => value == 1 && self.read(row),
            (SKIP, &[p]) => value == 1 && self.value(p) == 0 && self.skip(row, p),
            (DEEP, rows) => self.deep(row, value, rows),
            _ => false,
        }
    }

    pub fn negates(self, row: u8, of: u8) -> bool {
        let term = self.term(row);
        term.head == NOT && term.args[0] == of
    }

    /// t=u and u=v, true, give t=v.
    fn trans(self, row: u8, p: u8, q: u8) -> bool {
        let (Some((t, v)), Some((_, u))) = (self.sides(row), self.sides(p)) else {
            return false;
        };
        self.equal(p, t, u) && self.equal(q, u, v)
    }

    /// A true disjunction whose other arguments are false gives the remaining
    /// one true; a false conjunction whose others are true gives it false.
    ///
    /// If any position fits, so does the first one where arguments and others
    /// part: up to there they agree, so each argument from the one that fits on
    /// is the same as the next.
    fn unit(self, row: u8, value: u16, whole: u8, others: &[u8]) -> bool {
        let term = self.term(whole);
        let args = term.args();
        if self.value(whole) != value
            || term.head != unit_head(value)
            || others.len() + 1 != args.len()
        {
            return false;
        }
        let mut at = 0;
        while at < others.len() && others[at] == args[at] {
            at += 1;
        }
        args[at] == row
            && others[at..]
                .iter()
                .zip(&args[at + 1..])
                .all(|(other, arg)| other == arg)
            && others.iter().all(|&other| self.value(other) == 1 - value)
    }

    /// All arguments of a connective, in order, give it its value.
    fn eval(self, row: u8, value: u16, premises: &Premises) -> bool {
        let term = self.term(row);
        if !premises.are_args_of(term) {
            return false;
        }
        let any = |wanted: u16| premises.rows().iter().any(|&row| self.value(row) == wanted);
        match term.head {
            NOT => any(1 - value),
            AND => u16::from(!any(0)) == value,
            OR => u16::from(any(1)) == value,
            _ => false,
        }
    }

    /// Equal arguments give equal results of a free head, select or store.
    fn cong(self, row: u8, premises: &[u8]) -> bool {
        let Some((left, right)) = self.sides(row) else {
            return false;
        };
        let (left, right) = (self.term(left), self.term(right));
        left.head >= SELECT && left.head == right.head && self.equal_args(premises, left, right)
    }

    /// select(store(a,i,v),i) = v.
    pub fn read(self, row: u8) -> bool {
        self.sides(row).is_some_and(|(left, right)| {
            self.select_of_store(left)
                .is_some_and(|([_, i, v], at)| at == i && right == v)
        })
    }

    /// i=j, false, gives select(store(a,i,v),j) = select(a,j).
    pub fn skip(self, row: u8, premise: u8) -> bool {
        let Some((left, right)) = self.sides(row) else {
            return false;
        };
        let Some(([a, i, _], j)) = self.select_of_store(left) else {
            return false;
        };
        let right = self.term(right);
        right.head == SELECT
            && right.args[0] == a
            && right.args[1] == j
            && self.term(premise).is_eq(i, j)
    }

    /// The store's arguments and the index, if the row is a select of a store.
    fn select_of_store(self, row: u8) -> Option<([u8; 3], u8)> {
        let select = self.term(row);
        let [array, at, ..] = select.args;
        let store = self.term(array);
        let [a, i, v, _] = store.args;
        (select.head == SELECT && store.head == STORE).then_some(([a, i, v], at))
    }
}

/// The connective that, having the value, gives each argument that value.
pub fn part_head(value: u16) -> u16 {
    match value {
        1 => AND,
        _ => OR,
    }
}

/// The connective that gives an argument the value, its own, if all others have the
/// opposite.
pub fn unit_head(value: u16) -> u16 {
    part_head(1 - value)
}
