//! Random problems: well sorted term sheets over all heads, with the terms the
//! rules need beside each other, and input rows.

use crate::rng::Rng;
use std::collections::HashMap;

pub const X: u16 = 65_535;

/// The sheets of a problem in good order.
pub struct Problem {
    pub sorts: Vec<[u16; 2]>,
    pub terms: Vec<[u16; 6]>,
    pub inputs: Vec<[u16; 2]>,
    /// Whether it was made of formulas of many layers.
    pub tall: bool,
}

/// A free head with what its first use fixes.
#[derive(Clone)]
struct Head {
    number: u16,
    sort: u16,
    args: Vec<u16>,
}

struct Maker<'a> {
    rng: &'a mut Rng,
    sorts: Vec<[u16; 2]>,
    terms: Vec<[u16; 6]>,
    known: HashMap<[u16; 5], u16>,
    heads: Vec<Head>,
    limit: usize,
}

/// What most of a problem is made of.
#[derive(Clone, Copy, PartialEq, Eq)]
enum Theme {
    /// Connectives over equalities that share a side.
    Splits,
    /// Connectives, and clauses that can be learned from them.
    Lessons,
    /// Formulas of many layers.
    Towers,
    Mixed,
}

impl Theme {
    fn any(rng: &mut Rng) -> Self {
        match rng.below(100) {
            0..=16 => Theme::Splits,
            17..=35 => Theme::Lessons,
            36..=44 => Theme::Towers,
            _ => Theme::Mixed,
        }
    }
}

/// A problem of some size, most of them small, now and then of all 256 rows.
pub fn make(rng: &mut Rng) -> Problem {
    let limit = match rng.below(500) {
        0 => 256,
        1..=4 => rng.within(80, 256),
        5..=40 => rng.within(40, 80),
        41..=60 => rng.within(0, 4),
        61..=200 => rng.within(5, 16),
        _ => rng.within(16, 40),
    };
    if rng.percent(18) {
        return small(rng);
    }
    let mut maker = Maker::new(rng, limit);
    maker.sorts = sorts(maker.rng);
    let theme = Theme::any(maker.rng);
    for _ in 0..3 * limit {
        match (theme, maker.rng.percent(85)) {
            (Theme::Splits, true) => maker.split(),
            (Theme::Lessons, true) => maker.lesson(),
            (Theme::Towers, true) => maker.tower(),
            _ => maker.bundle(),
        };
    }
    let (sorts, terms) = (maker.sorts, maker.terms);
    let inputs = match theme {
        Theme::Splits => clauses(rng, &terms),
        Theme::Towers => grounds(rng, &terms),
        _ => inputs(rng, &terms),
    };
    Problem {
        sorts,
        terms,
        inputs,
        tall: theme == Theme::Towers,
    }
}

/// A problem of few terms: arrays, or wide terms over few others, where often all
/// equalities are given, as true.
fn small(rng: &mut Rng) -> Problem {
    let theme = rng.below(6);
    let limit = match theme {
        0..=1 => 7,
        _ => rng.within(4, 8),
    };
    let mut maker = Maker::new(rng, limit);
    maker.sorts = vec![[X, X], [1, 1]];
    for _ in 0..3 * limit {
        match theme {
            0..=1 => maker.narrow_arrays(),
            2..=3 => maker.wide(1),
            4 => maker.wide(0),
            _ => maker.bundle(),
        };
    }
    let (sorts, terms) = (maker.sorts, maker.terms);
    let is_eq = |&term: &u16| terms[usize::from(term)][0] == 0;
    let inputs = match theme > 1 && rng.percent(60) {
        true => {
            let equalities = (0..terms.len() as u16).filter(is_eq);
            equalities.map(|term| [term, 1]).collect()
        }
        false => inputs(rng, &terms),
    };
    Problem {
        sorts,
        terms,
        inputs,
        tall: false,
    }
}

fn sorts(rng: &mut Rng) -> Vec<[u16; 2]> {
    let count = match rng.below(20) {
        0 => 32,
        1 => 0,
        2..=4 => rng.within(4, 12),
        _ => rng.within(1, 4),
    };
    let mut rows: Vec<[u16; 2]> = Vec::new();
    for at in 0..count {
        let array = at > 0 && rng.percent(45);
        let earlier = |rng: &mut Rng| rng.within(1, at) as u16;
        rows.push(if array {
            [earlier(rng), earlier(rng)]
        } else {
            [X, X]
        });
    }
    rows
}

fn inputs(rng: &mut Rng, terms: &[[u16; 6]]) -> Vec<[u16; 2]> {
    let mut left: Vec<u16> = (0..terms.len() as u16).collect();
    let count = match rng.below(20) {
        0 => left.len(),
        1..=3 => 0,
        _ => rng.below(9).min(left.len()),
    };
    let mut rows = Vec::new();
    for _ in 0..count {
        let term = left.swap_remove(rng.below(left.len()));
        rows.push([term, value(rng, &terms[usize::from(term)])]);
    }
    rows
}

/// Most clauses true, most conjunctions false.
fn clauses(rng: &mut Rng, terms: &[[u16; 6]]) -> Vec<[u16; 2]> {
    let is_one = |row: &[u16; 6]| row[0] == 2 || row[0] == 3;
    (0..terms.len() as u16)
        .filter(|&term| is_one(&terms[usize::from(term)]) && rng.percent(80))
        .map(|term| [term, terms[usize::from(term)][0] - 2])
        .collect()
}

/// Many of the rows that formulas are made of, and a few formulas, often the last rows.
fn grounds(rng: &mut Rng, terms: &[[u16; 6]]) -> Vec<[u16; 2]> {
    let often = *rng.pick(&[30, 60, 90, 100, 100]);
    let top = *rng.pick(&[6, 70]);
    let mut rows = Vec::new();
    for (at, row) in terms.iter().enumerate() {
        let often = match row[0] {
            1..=3 if at + 4 > terms.len() => top,
            1..=3 => 6,
            _ => often,
        };
        if rng.percent(often) {
            rows.push([at as u16, value(rng, row)]);
        }
    }
    rows
}

/// A value for the term. Values of sorts other than prop are often equal;
/// clauses are mostly true and conjunctions mostly false, so that they are of use.
pub fn value(rng: &mut Rng, row: &[u16; 6]) -> u16 {
    match (row[1], row[0]) {
        (0, 3) => u16::from(rng.percent(80)),
        (0, 2) => u16::from(rng.percent(30)),
        (0, _) => rng.below(2) as u16,
        _ => match rng.below(12) {
            0 => 65_534,
            1 => rng.below(65_535) as u16,
            _ => rng.below(3) as u16,
        },
    }
}

impl<'a> Maker<'a> {
    /// No terms yet, and no sorts.
    fn new(rng: &'a mut Rng, limit: usize) -> Self {
        Maker {
            rng,
            sorts: Vec::new(),
            terms: Vec::new(),
            known: HashMap::new(),
            heads: Vec::new(),
            limit,
        }
    }

    /// The row of the term, made if it is not there and there is room.
    fn term(&mut self, head: u16, sort: u16, args: &[u16]) -> Option<u16> {
        let mut row = [X; 6];
        row[0] = head;
        row[1] = sort;
        row[2..2 + args.len()].copy_from_slice(args);
        let key = [head, row[2], row[3], row[4], row[5]];
        if let Some(&found) = self.known.get(&key) {
            return Some(found);
        }
        if self.terms.len() == self.limit {
            return None;
        }
        let number = self.terms.len() as u16;
        self.terms.push(row);
        self.known.insert(key, number);
        Some(number)
    }

    fn sort_of(&self, term: u16) -> u16 {
        self.terms[usize::from(term)][1]
    }

    /// Some declared sort.
    fn sort(&mut self) -> Option<u16> {
        let count = self.sorts.len();
        (count > 0).then(|| self.rng.within(1, count.min(5)) as u16)
    }

    /// An array sort with its index and value sorts.
    fn array(&mut self) -> Option<(u16, [u16; 2])> {
        let arrays: Vec<usize> = (0..self.sorts.len())
            .filter(|&at| self.sorts[at][0] != X)
            .collect();
        if arrays.is_empty() {
            return None;
        }
        let at = *self.rng.pick(&arrays);
        Some((at as u16 + 1, self.sorts[at]))
    }

    /// A free head, an old one where there is one that suits.
    fn head(&mut self, suits: impl Fn(&Head) -> bool, sort: u16, args: Vec<u16>) -> Head {
        let old: Vec<&Head> = self.heads.iter().filter(|head| suits(head)).collect();
        if !old.is_empty() && self.rng.percent(75) {
            return (*self.rng.pick(&old)).clone();
        }
        let number = loop {
            let number = match self.rng.below(8) {
                0 => 65_534,
                1 => self.rng.within(16, 65_534) as u16,
                _ => 16 + self.heads.len() as u16,
            };
            if self.heads.iter().all(|head| head.number != number) {
                break number;
            }
        };
        let head = Head { number, sort, args };
        self.heads.push(head.clone());
        head
    }

    /// A term of a sort other than prop, shared with others where it can be.
    fn of_sort(&mut self, sort: u16, depth: usize) -> Option<u16> {
        let there: Vec<u16> = (0..self.terms.len() as u16)
            .filter(|&term| self.sort_of(term) == sort)
            .collect();
        if !there.is_empty() && (depth == 0 || self.rng.percent(70)) {
            return Some(*self.rng.pick(&there));
        }
        let sources: Vec<usize> = (0..self.sorts.len())
            .filter(|&at| self.sorts[at][1] == sort)
            .collect();
        let [index, value] = self.sorts[usize::from(sort) - 1];
        match self.rng.below(4) {
            0 if depth > 0 && !sources.is_empty() => {
                let at = *self.rng.pick(&sources);
                let array = self.of_sort(at as u16 + 1, depth - 1)?;
                let index = self.of_sort(self.sorts[at][0], depth - 1)?;
                self.term(4, sort, &[array, index])
            }
            1 if depth > 0 && index != X => {
                let array = self.of_sort(sort, depth - 1)?;
                let index = self.of_sort(index, depth - 1)?;
                let value = self.of_sort(value, depth - 1)?;
                self.term(5, sort, &[array, index, value])
            }
            2 if depth > 0 => {
                let head = self.function(sort, 0)?;
                self.apply(&head, depth - 1)
            }
            _ => {
                let head = self.head(
                    |head| head.sort == sort && head.args.is_empty(),
                    sort,
                    Vec::new(),
                );
                self.term(head.number, sort, &[])
            }
        }
    }

    /// A free head of the sort with arguments, at least so many.
    fn function(&mut self, sort: u16, least: usize) -> Option<Head> {
        let count = match self.rng.below(8) {
            0 => 4,
            1 => 3,
            2..=3 => 2,
            4 => 0,
            _ => 1,
        };
        let mut args = Vec::new();
        for _ in 0..count.max(least) {
            args.push(self.sort()?);
        }
        let suits = |head: &Head| head.sort == sort && head.args.len() >= least;
        Some(self.head(suits, sort, args))
    }

    fn apply(&mut self, head: &Head, depth: usize) -> Option<u16> {
        let mut args = Vec::new();
        for &sort in &head.args {
            args.push(self.of_sort(sort, depth)?);
        }
        self.term(head.number, head.sort, &args)
    }

    fn eq(&mut self, left: u16, right: u16) -> Option<u16> {
        self.term(0, 0, &[left, right])
    }

    fn prop(&mut self) -> Option<u16> {
        let props: Vec<u16> = (0..self.terms.len() as u16)
            .filter(|&term| self.sort_of(term) == 0)
            .collect();
        (!props.is_empty()).then(|| *self.rng.pick(&props))
    }

    /// A few terms that belong together. None says that there was no room.
    fn bundle(&mut self) -> Option<()> {
        match self.rng.below(27) {
            20..=23 => self.split(),
            24 => self.lesson(),
            26 => self.tower(),
            0..=4 => self.equalities(),
            5..=7 => self.congruence(),
            8..=9 | 25 => self.predicate(),
            10..=11 => self.array_read(),
            12..=13 => self.array_skip(),
            _ => self.connective(),
        }
    }

    fn equalities(&mut self) -> Option<()> {
        let sort = self.sort()?;
        let [t, u] = [self.of_sort(sort, 2)?, self.of_sort(sort, 2)?];
        self.eq(t, u)?;
        if self.rng.percent(40) {
            self.eq(u, t)?;
        }
        if self.rng.percent(30) {
            let v = self.of_sort(sort, 1)?;
            self.eq(u, v)?;
            self.eq(t, v)?;
        }
        if self.rng.percent(20) {
            self.eq(t, t)?;
        }
        Some(())
    }

    /// Two uses of a free head of the sort with three or four arguments, and the
    /// equalities between.
    fn wide(&mut self, own: u16) -> Option<()> {
        if self.rng.percent(40) {
            let head = self.head(|_| false, 1, Vec::new());
            self.term(head.number, 1, &[])?;
        }
        let args = vec![1; self.rng.within(3, 4)];
        let suits = |head: &Head| head.sort == own && head.args == args;
        let head = self.head(suits, own, args.clone());
        let first = self.apply(&head, 0)?;
        let args = self.second(first)?;
        let second = self.term(head.number, own, &args)?;
        if own != 0 {
            self.eq(first, second)?;
        }
        Some(())
    }

    /// What read and skip give of a store that has its index for its value.
    fn narrow_arrays(&mut self) -> Option<()> {
        let [i, a] = [self.of_sort(1, 0)?, self.of_sort(2, 0)?];
        let store = self.term(5, 2, &[a, i, i])?;
        let select = self.term(4, 1, &[store, i])?;
        if self.rng.percent(30) {
            self.eq(select, i)?;
            return Some(());
        }
        let under = self.term(4, 1, &[a, i])?;
        self.eq(i, i)?;
        self.eq(select, under)?;
        Some(())
    }

    /// A connective over equalities of terms that are not the same, sharing a
    /// side, now and then in both orders.
    fn split(&mut self) -> Option<()> {
        let sort = self.sort()?;
        let mut there: Vec<u16> = (0..self.terms.len() as u16)
            .filter(|&term| self.sort_of(term) == sort)
            .collect();
        while there.len() < 4 {
            let head = self.head(|_| false, sort, Vec::new());
            there.push(self.term(head.number, sort, &[])?);
        }
        let shared = there.swap_remove(self.rng.below(there.len()));
        let mut args = Vec::new();
        for _ in 0..self.rng.within(2, 3) {
            let other = there.swap_remove(self.rng.below(there.len()));
            args.push(match self.rng.percent(50) {
                true => self.eq(shared, other)?,
                false => self.eq(other, shared)?,
            });
        }
        let head = if self.rng.percent(70) { 3 } else { 2 };
        self.term(head, 0, &args)?;
        if self.rng.percent(25) {
            args.reverse();
            self.term(head, 0, &args)?;
        }
        Some(())
    }

    /// A connective over two to four props, and clauses that deny their values, as
    /// can be learned where the connective has the other value than they give it.
    fn lesson(&mut self) -> Option<()> {
        let mut props: Vec<u16> = Vec::new();
        for _ in 0..self.rng.within(2, 4) {
            let prop = match self.rng.below(10) {
                0..=1 if !props.is_empty() => self.term(1, 0, &[props[0]])?,
                0..=6 => self.prop()?,
                _ => {
                    let head = self.head(|_| false, 0, Vec::new());
                    self.term(head.number, 0, &[])?
                }
            };
            if !props.contains(&prop) {
                props.push(prop);
            }
        }
        if props.len() < 2 {
            return None;
        }
        let head = *self.rng.pick(&[2, 3]);
        let whole = self.term(head, 0, &props)?;
        let values: Vec<u16> = match self.rng.below(3) {
            0 => vec![1; props.len()],
            1 => vec![0; props.len()],
            _ => props.iter().map(|_| self.rng.below(2) as u16).collect(),
        };
        let gives = match head {
            2 => *values.iter().min()?,
            _ => *values.iter().max()?,
        };
        let mut spoken: Vec<(u16, u16)> = props.into_iter().zip(values).collect();
        if spoken.len() < 4 && self.rng.percent(25) {
            spoken.push((whole, 1 - gives));
        }
        for _ in 0..self.rng.within(1, 2) {
            let (one, two) = (self.rng.below(spoken.len()), self.rng.below(spoken.len()));
            spoken.swap(one, two);
            let clause = *self.rng.pick(&[2, 3]);
            self.denial(clause, &spoken)?;
        }
        if self.rng.percent(20) {
            self.opposites(spoken[0].0)?;
        }
        Some(())
    }

    /// A clause that says that not all of the terms have these values. Now and then
    /// it speaks of what a negation negates, where that is not the same.
    fn denial(&mut self, clause: u16, spoken: &[(u16, u16)]) -> Option<()> {
        let mut args = Vec::new();
        for &(term, value) in spoken {
            let negated = (value == 1) == (clause == 3);
            let row = self.terms[usize::from(term)];
            args.push(match negated {
                true if row[0] == 1 && self.rng.percent(30) => row[2],
                true => self.term(1, 0, &[term])?,
                false => term,
            });
        }
        self.term(clause, 0, &args)?;
        Some(())
    }

    /// A connective over a term and its negation, and a clause that has the negation
    /// at both positions: it speaks of both.
    fn opposites(&mut self, term: u16) -> Option<()> {
        let not = self.term(1, 0, &[term])?;
        let (whole, clause) = (*self.rng.pick(&[2, 3]), *self.rng.pick(&[2, 3]));
        self.term(whole, 0, &[term, not])?;
        self.term(clause, 0, &[not, not])?;
        Some(())
    }

    /// The arguments of a second use of a head, with the equalities between.
    fn second(&mut self, first: u16) -> Option<Vec<u16>> {
        let row = self.terms[usize::from(first)];
        let mut args = Vec::new();
        for arg in row[2..].iter().copied().filter(|&arg| arg != X) {
            let other = self.of_sort(self.sort_of(arg), 0)?;
            self.eq(arg, other)?;
            args.push(other);
        }
        Some(args)
    }

    fn congruence(&mut self) -> Option<()> {
        let sort = self.sort()?;
        let first = match self.rng.below(3) {
            0 => self.of_sort(sort, 2)?,
            _ => {
                let head = self.function(sort, 1)?;
                self.apply(&head, 1)?
            }
        };
        let args = self.second(first)?;
        let [head, sort, ..] = self.terms[usize::from(first)];
        let second = self.term(head, sort, &args)?;
        self.eq(first, second)?;
        if self.rng.percent(20) {
            self.eq(second, first)?;
        }
        Some(())
    }

    fn predicate(&mut self) -> Option<()> {
        let head = self.function(0, 0)?;
        let first = self.apply(&head, 1)?;
        let args = self.second(first)?;
        self.term(head.number, 0, &args)?;
        Some(())
    }

    fn array_read(&mut self) -> Option<()> {
        let (sort, [index, value]) = self.array()?;
        let a = self.of_sort(sort, 1)?;
        let [i, v] = [self.of_sort(index, 1)?, self.of_sort(value, 1)?];
        let store = self.term(5, sort, &[a, i, v])?;
        let select = self.term(4, value, &[store, i])?;
        self.eq(select, v)?;
        match self.rng.below(6) {
            0 => self.eq(v, select)?,
            1 => {
                let j = self.of_sort(index, 1)?;
                let aside = self.term(4, value, &[store, j])?;
                self.eq(aside, v)?
            }
            2 => {
                let under = self.term(4, value, &[a, i])?;
                self.eq(under, v)?
            }
            _ => select,
        };
        Some(())
    }

    fn array_skip(&mut self) -> Option<()> {
        let (sort, [index, value]) = self.array()?;
        let a = self.of_sort(sort, 1)?;
        let [i, v] = [self.of_sort(index, 1)?, self.of_sort(value, 1)?];
        let j = self.of_sort(index, 1)?;
        let store = self.term(5, sort, &[a, i, v])?;
        let select = self.term(4, value, &[store, j])?;
        let under = self.term(4, value, &[a, j])?;
        self.eq(i, j)?;
        self.eq(select, under)?;
        match self.rng.below(8) {
            0 => self.eq(under, select)?,
            1 => self.eq(j, i)?,
            2 => {
                let aside = self.term(4, value, &[a, i])?;
                self.eq(select, aside)?
            }
            3 => {
                let other = self.of_sort(sort, 1)?;
                let aside = self.term(4, value, &[other, j])?;
                self.eq(select, aside)?
            }
            _ => select,
        };
        Some(())
    }

    /// A formula of up to eleven layers over one to five props.
    fn tower(&mut self) -> Option<()> {
        let mut base = Vec::new();
        for _ in 0..self.rng.within(1, 5) {
            let old = self.prop().filter(|_| self.rng.percent(50));
            base.push(match old {
                Some(prop) => prop,
                None => {
                    let head = self.head(|_| false, 0, Vec::new());
                    self.term(head.number, 0, &[])?
                }
            });
        }
        let style = self.rng.below(10);
        let width = *self.rng.pick(&[2, 2, 2, 3, 3, 4]);
        let mut all = base.clone();
        let mut layer = base.clone();
        for _ in 0..self.rng.within(3, 11) {
            layer = match style {
                0 => self.whole_layer(&layer, width)?,
                1..=4 => vec![self.storey(&layer, &base)?],
                5..=6 => self.layer(&layer, &layer)?,
                _ => self.layer(&layer, &all)?,
            };
            all.extend(&layer);
        }
        Some(())
    }

    /// A connective of a row of the layer below and of other props, each once.
    fn storey(&mut self, below: &[u16], base: &[u16]) -> Option<u16> {
        let mut args = vec![*self.rng.pick(below)];
        for _ in 0..self.rng.below(4) {
            let at = self.rng.below(args.len() + 1);
            let prop = *self.rng.pick(base);
            if !args.contains(&prop) {
                args.insert(at, prop);
            }
        }
        let head = if args.len() == 1 {
            1
        } else {
            *self.rng.pick(&[2, 3])
        };
        self.term(head, 0, &args)
    }

    /// One to three connectives, each with an argument of the layer below and others
    /// from there or from among all rows.
    fn layer(&mut self, below: &[u16], all: &[u16]) -> Option<Vec<u16>> {
        let mut layer = Vec::new();
        for _ in 0..*self.rng.pick(&[1, 1, 1, 2, 3]) {
            let head = *self.rng.pick(&[1, 2, 2, 3, 3]);
            let count = if head == 1 { 1 } else { self.rng.within(2, 4) };
            let mut args = vec![*self.rng.pick(below)];
            while args.len() < count {
                let at = self.rng.below(args.len() + 1);
                let from = if self.rng.percent(50) { below } else { all };
                args.insert(at, *self.rng.pick(from));
            }
            layer.push(self.term(head, 0, &args)?);
        }
        Some(layer)
    }

    /// So many connectives, each over all rows of the layer below.
    fn whole_layer(&mut self, below: &[u16], width: usize) -> Option<Vec<u16>> {
        let mut layer = Vec::new();
        for at in 0..width {
            let mut args: Vec<u16> = below.iter().copied().cycle().take(width).collect();
            args.rotate_left(at);
            let head = *self.rng.pick(&[2, 3]);
            layer.push(self.term(head, 0, &args)?);
        }
        Some(layer)
    }

    fn connective(&mut self) -> Option<()> {
        let (head, count) = match self.rng.below(8) {
            0..=1 => (1, 1),
            2..=3 => (2, self.rng.within(2, 4)),
            _ => (3, self.rng.within(2, 4)),
        };
        let mut args = Vec::new();
        for _ in 0..count {
            args.push(self.prop()?);
        }
        self.term(head, 0, &args)?;
        Some(())
    }
}
