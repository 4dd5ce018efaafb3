//! Logs grown step by step, each chosen among those allowed at the state the
//! earlier ones made, then perhaps a step that is not allowed.

use crate::accept::{self, DECIDE};
use crate::deep::{self, DEEP};
use crate::learn::{self, Lesson, LEARN};
use crate::naive::{Entry, Model, Next};
use crate::problem::{value, Problem, X};
use crate::rng::Rng;
use std::collections::HashMap;

pub type Row = [u16; 9];

/// The steps that use a rule.
const DEDUCE: u16 = 1;
const CLASH: u16 = 2;
const FAIL: u16 = 7;

/// Steps of a conflict that put their term on the trail.
const JUMP: u16 = 5;
const FLIP: u16 = 6;

/// The rule whose uses deep takes too.
const EVAL: u16 = 8;

/// The other line of clash and fail.
fn other_line(step: u16) -> u16 {
    match step {
        CLASH => FAIL,
        _ => CLASH,
    }
}

/// A rule's use: the term it gives a value, and from what.
#[derive(Clone)]
struct Instance {
    rule: u16,
    term: u16,
    value: u16,
    premises: Vec<u16>,
}

impl Instance {
    fn row(&self, step: u16) -> Row {
        row(step, self.rule, self.term, self.value, &self.premises)
    }
}

fn row(step: u16, rule: u16, term: u16, value: u16, premises: &[u16]) -> Row {
    let mut row = [X; 9];
    row[..4].copy_from_slice(&[step, rule, term, value]);
    let count = premises.len().min(5);
    row[4..4 + count].copy_from_slice(&premises[..count]);
    row
}

/// Which rules to try: the hard ones more often, so that all are used often.
const TRIED: [u16; 35] = [
    0, 0, 1, 1, 2, 3, 3, 4, 4, 4, 5, 5, 6, 6, 7, 7, 7, 7, 8, 8, 8, 9, 9, 9, 10, 10, 10, 10, 11, 12,
    12, 12, 12, 13, 13,
];

/// The numbers to aim at: those of steps, the hard ones more often.
const TARGETS: [u16; 31] = [
    9, 10, 11, 12, 13, 14, 15, 15, 16, 17, 18, 19, 19, 19, 19, 19, 20, 21, 22, 22, 23, 23, 23, 13,
    21, 25, 25, 26, 26, 27, 27,
];

struct Grower<'a> {
    rng: &'a mut Rng,
    model: Model,
    /// Whether this log evaluates equalities first and clashes later.
    eager: bool,
    /// Whether this log makes conflicts that clauses can be learned from often.
    keen: bool,
    /// Whether there are formulas of many layers, and this log often walks them.
    tall: bool,
    /// Steps to take next where they are allowed, the next one last.
    plan: Vec<Row>,
    /// Whether uses that come close to a rule are taken for uses of it.
    loose: bool,
    equalities: HashMap<(u16, u16), u16>,
    values: Vec<Option<u16>>,
    /// Of each term on the trail the step that put it there, blank for an input.
    origins: Vec<u16>,
    late: u64,
    probes: Vec<(usize, Row)>,
    decisions: Vec<accept::Shown>,
    learns: Vec<learn::Shown>,
    deeps: Vec<deep::Shown>,
}

/// A grown log.
pub struct Log {
    pub rows: Vec<Row>,
    /// Entries kept by a cut although they came after one that was dropped.
    pub late: u64,
    /// Steps to try in place of the rest of the log after so many rows.
    pub probes: Vec<(usize, Row)>,
    /// What the decisions show that were grown or are to be tried.
    pub decisions: Vec<accept::Shown>,
    /// What the learns show, likewise.
    pub learns: Vec<learn::Shown>,
    /// What the rows by deep show.
    pub deeps: Vec<deep::Shown>,
}

/// A log for the problem.
pub fn log(rng: &mut Rng, problem: &Problem) -> Log {
    let model = Model::start(
        problem.sorts.as_flattened(),
        problem.terms.as_flattened(),
        problem.inputs.as_flattened(),
    )
    .expect("a problem in good order");
    let equalities = (0..model.terms.len() as u16)
        .filter(|&term| model.terms[usize::from(term)][0] == 0)
        .map(|term| {
            let row = model.terms[usize::from(term)];
            ((row[2], row[3]), term)
        })
        .collect();
    let tall = problem.tall;
    let mut grower = Grower {
        eager: rng.percent(50) && !tall,
        keen: rng.percent(40) && !tall,
        tall,
        plan: Vec::new(),
        loose: false,
        rng,
        origins: vec![X; model.terms.len()],
        model,
        equalities,
        values: Vec::new(),
        late: 0,
        probes: Vec::new(),
        decisions: Vec::new(),
        learns: Vec::new(),
        deeps: Vec::new(),
    };
    let rows = grower.grow();
    Log {
        rows,
        late: grower.late,
        probes: grower.probes,
        decisions: grower.decisions,
        learns: grower.learns,
        deeps: grower.deeps,
    }
}

impl Grower<'_> {
    fn grow(&mut self) -> Vec<Row> {
        let length = match self.rng.below(40) {
            0 => 0,
            1 => self.rng.within(60, 300),
            2..=20 => self.rng.within(1, 20),
            _ => self.rng.within(10, 60),
        };
        let target = self.rng.percent(55).then(|| *self.rng.pick(&TARGETS));
        let earliest = self.rng.below(length + 1);
        let mut rows = Vec::new();
        while rows.len() < length {
            self.values = vec![None; self.model.terms.len()];
            for entry in &self.model.trail {
                self.values[usize::from(entry.term)] = Some(entry.value);
            }
            if let Some(target) = target.filter(|_| rows.len() >= earliest) {
                if let Some(barred) = self.barred(target) {
                    self.show(&barred);
                    rows.push(barred);
                    break;
                }
            }
            let often = if self.model.conflict.is_some() {
                45
            } else {
                33
            };
            if self.rng.percent(often) {
                let row = self.attempt();
                self.show(&row);
                self.probes.push((rows.len(), row));
            }
            let Some(row) = self.allowed() else {
                break;
            };
            self.show(&row);
            match row[..2] {
                [LEARN, _] => self.around(&row, rows.len()),
                [_, EVAL] => self.by_deep(&row, rows.len()),
                _ => (),
            }
            rows.push(row);
            match self.model.next(&row).expect("an allowed step") {
                Next::Refuted => break,
                next => self.enter(&row, next),
            }
        }
        while self.rng.percent(20) {
            rows.push(self.noise());
        }
        rows
    }

    /// Probes close to a learn that is allowed, and perhaps a use of its clause.
    fn around(&mut self, learn: &Row, rows: usize) {
        for _ in 0..self.rng.below(3) {
            let mut row = *learn;
            for _ in 0..self.rng.within(1, 2) {
                self.spoil_learn(&mut row);
            }
            self.show(&row);
            self.probes.push((rows, row));
        }
        if self.rng.percent(50) {
            self.plan_unit(learn[2]);
        }
    }

    /// The row by deep, which allows all that eval allows, now and then as a probe.
    fn by_deep(&mut self, eval: &Row, rows: usize) {
        let mut row = *eval;
        row[1] = DEEP;
        let is_allowed = self.model.next(&row).is_ok();
        assert!(is_allowed, "eval allows {eval:?}, and deep does not");
        if self.rng.percent(10) {
            self.show(&row);
            self.probes.push((rows, row));
        }
    }

    /// Notes what the row shows, if it is a decision, a learn, or by deep or the rule
    /// after it.
    fn show(&mut self, row: &Row) {
        match row[0] {
            DECIDE => {
                let shown = accept::shown(&self.model, &self.origins, row);
                self.decisions.push(shown);
            }
            LEARN => self.learns.push(learn::shown(&self.model, row)),
            DEDUCE | CLASH | FAIL if row[1] == DEEP || row[1] == DEEP + 1 => {
                self.deeps.push(deep::shown(&self.model, row));
            }
            _ => (),
        }
    }

    fn enter(&mut self, row: &Row, next: Next) {
        if let DECIDE | DEDUCE | JUMP | FLIP | LEARN = row[0] {
            self.origins[usize::from(row[2])] = row[0];
        }
        if let Next::Searching(trail) = &next {
            let kept = |entry: &Entry| trail.iter().any(|other| other.term == entry.term);
            let dropped = self.model.trail.iter().position(|entry| !kept(entry));
            if let Some(at) = dropped.filter(|_| self.model.conflict.is_some()) {
                self.late += self.model.trail[at..]
                    .iter()
                    .filter(|entry| kept(entry))
                    .count() as u64;
            }
        }
        self.model.enter(next);
    }

    fn allowed(&mut self) -> Option<Row> {
        if let Some(row) = self.planned() {
            return Some(row);
        }
        match self.model.conflict {
            Some(_) => self.allowed_in_conflict(),
            None => self.allowed_in_search(),
        }
    }

    /// The next step of the plan that is allowed, a clash at level 0 as the fail that
    /// it is there. A refutation ends the plan.
    fn planned(&mut self) -> Option<Row> {
        while let Some(row) = self.plan.pop() {
            let row = self.by_level(row);
            match self.model.next(&row) {
                Ok(Next::Refuted) if self.rng.percent(80) => (),
                Ok(_) => return Some(row),
                Err(_) => (),
            }
        }
        None
    }

    /// The row, as the other line of clash and fail if its level is that one's.
    fn by_level(&self, mut row: Row) -> Row {
        if self.model.next(&row).err() == Some(26) {
            row[0] = other_line(row[0]);
        }
        row
    }

    /// Now and then a plan of one kind or another, if there is one.
    fn plan_some(&mut self) -> Option<()> {
        match self.rng.below(24) {
            0..=3 => self.plan_split(),
            4..=5 => self.plan_use(),
            6 => self.plan_lesson(),
            7..=14 if self.keen => self.plan_lesson(),
            7..=11 if self.tall => self.plan_use(),
            15..=23 => self.plan_late(),
            _ => None,
        }
    }

    fn allowed_in_search(&mut self) -> Option<Row> {
        self.plan_some();
        if let Some(row) = self.planned() {
            return Some(row);
        }
        if self.rng.percent(20) {
            if let Some(row) = self.decision() {
                return Some(row);
            }
        }
        if self.eager && self.rng.percent(50) {
            let rule = *self.rng.pick(&[4, 5, 6, 7, 7, 7, 8, 8, 9, 10]);
            if let (_, Some(closing)) = self.uses(rule) {
                return Some(closing);
            }
        }
        for _ in 0..16 {
            let rule = match self.eager && self.rng.percent(40) {
                true => self.rng.below(2) as u16,
                false => self.any_rule(),
            };
            let (deduction, closing) = self.uses(rule);
            let patient = self
                .rng
                .percent(if self.eager && rule < 2 { 85 } else { 40 });
            match (deduction, closing) {
                (None, Some(closing)) if !self.eager => return Some(closing),
                (_, Some(closing)) if !patient => return Some(closing),
                (Some(deduction), _) => return Some(deduction),
                _ => (),
            }
        }
        self.decision()
    }

    /// Plans a clash over a connective of equalities that share a side: decide
    /// the sides, the shared one last, deduce the equalities, clash, flip.
    fn plan_split(&mut self) -> Option<()> {
        let whole = self.any_row(|grower, term| {
            let (head, args) = grower.term(term);
            let over = args.iter().all(|&arg| grower.term(arg).0 == 0);
            (head == 2 || head == 3)
                && over
                && grower.value(term).is_none_or(|value| value == head - 2)
        })?;
        let (head, mut equalities) = self.term(whole);
        let [one, two] = [0, 1].map(|at| self.term(equalities[at]).1);
        let shared = *one.iter().find(|side| two.contains(side))?;
        let mut rows = vec![row(0, X, whole, head - 2, &[])];
        let sides = equalities.iter().flat_map(|&arg| self.term(arg).1);
        let mut others: Vec<u16> = sides.filter(|&side| side != shared).collect();
        others.dedup();
        for other in others {
            rows.push(row(0, X, other, if head == 3 { 1 } else { 0 }, &[]));
        }
        rows.push(row(0, X, shared, 0, &[]));
        for &arg in &equalities {
            let rule = if head == 3 { 1 } else { 0 };
            rows.push(row(DEDUCE, rule, arg, 3 - head, &self.term(arg).1));
        }
        if self.rng.percent(50) {
            rows.push(row(CLASH, 8, whole, 3 - head, &equalities));
        } else {
            let last = equalities.remove(self.rng.below(equalities.len()));
            let premises = [&[whole], &equalities[..]].concat();
            rows.push(row(CLASH, 7, last, head - 2, &premises));
        }
        rows.reverse();
        self.plan = rows;
        Some(())
    }

    /// Plans a use of some rule: decide what it lacks, then deduce; or decide the
    /// opposite of what it gives too, then clash.
    fn plan_use(&mut self) -> Option<()> {
        let rule = self.any_rule();
        let (found, dreamt) = self.dreamt(rule);
        if found.is_empty() {
            return None;
        }
        let use_ = self.rng.pick(&found).clone();
        let clash = self.rng.percent(40);
        let mut rows = vec![use_.row(if clash { CLASH } else { DEDUCE })];
        if clash {
            rows.push(row(0, X, use_.term, 1 - use_.value, &[]));
        }
        for &premise in &use_.premises {
            let at = rows.len() - self.rng.below(2).min(rows.len() - 1);
            let value = dreamt[usize::from(premise)].unwrap_or(0);
            rows.insert(at, row(0, X, premise, value, &[]));
        }
        self.plan = rows;
        Some(())
    }

    /// Plans a clash by same or differ: decide the sides of an equation and deduce it late,
    /// with the value that they do not give it, from what stands below them or is decided
    /// there first.
    fn plan_late(&mut self) -> Option<()> {
        let rule = *self.rng.pick(&[3, 4, 5, 5, 6, 6, 7, 7, 7, 9, 9, 11, 12]);
        let (mut found, dreamt) = match self.rng.percent(50) {
            true => (self.instances(rule), self.values.clone()),
            false => self.dreamt(rule),
        };
        found.retain(|use_| self.can_be_late(use_));
        if found.is_empty() {
            return None;
        }
        let use_ = self.rng.pick(&found).clone();
        let sides = self.term(use_.term).1;
        let mut rows: Vec<Row> = Vec::new();
        for &premise in &use_.premises {
            let value = dreamt[usize::from(premise)].unwrap_or(0);
            rows.push(accept::row(premise, value));
        }
        let given = self.given_against(&sides, use_.value);
        let at = rows.len();
        for (&side, value) in sides.iter().zip(given) {
            let place = at + self.rng.below(rows.len() - at + 1);
            rows.insert(place, accept::row(side, value));
        }
        rows.push(use_.row(DEDUCE));
        rows.push(row(CLASH, use_.value, use_.term, 1 - use_.value, &sides));
        rows.reverse();
        self.plan = rows;
        Some(())
    }

    /// Whether the use gives an equation a value that decisions on its sides can be
    /// against.
    fn can_be_late(&self, use_: &Instance) -> bool {
        let (head, sides) = self.term(use_.term);
        let is_open = |side: &u16| self.value(*side).is_none();
        head == 0
            && self.value(use_.term).is_none()
            && sides.iter().any(is_open)
            && (sides[0] != sides[1] || use_.value == 0)
    }

    /// Values for the sides of an equation, those that they have and else others, which do
    /// not give it the value.
    fn given_against(&mut self, sides: &[u16], value: u16) -> [u16; 2] {
        let there = [self.value(sides[0]), self.value(sides[1])];
        let base = there[0].or(there[1]);
        let base = base.unwrap_or_else(|| self.rng.below(3) as u16);
        let other = match value {
            0 => base,
            _ => base.checked_sub(1).unwrap_or(1),
        };
        match there {
            [None, Some(two)] => [other, two],
            _ => [base, there[1].unwrap_or(other)],
        }
    }

    /// A rule to try.
    fn any_rule(&mut self) -> u16 {
        match self.tall && self.rng.percent(60) {
            true => DEEP,
            false => *self.rng.pick(&TRIED),
        }
    }

    /// The uses of the rule if every prop had a value, where it has none often one that
    /// suits the rule, and these values.
    fn dreamt(&mut self, rule: u16) -> (Vec<Instance>, Vec<Option<u16>>) {
        let real = self.values.clone();
        for (value, row) in self.values.iter_mut().zip(&self.model.terms) {
            if value.is_none() && row[1] == 0 {
                let truth = row[0] == 0 && rule != 12;
                let other = self.rng.percent(30);
                *value = Some(u16::from(truth != other));
            }
        }
        let found = self.instances(rule);
        (found, std::mem::replace(&mut self.values, real))
    }

    /// Plans a conflict that a clause without a value can be learned from: decide a
    /// connective whose arguments are among what the clause speaks of, then these,
    /// each as the clause denies it, and clash.
    fn plan_lesson(&mut self) -> Option<()> {
        let terms = 0..self.model.terms.len() as u16;
        let clauses: Vec<u16> = terms.filter(|&term| self.is_clause(term)).collect();
        let (clause, members, wholes) = (0..8).find_map(|_| {
            let (clause, members) = self.spoken_of(&clauses)?;
            let wholes: Vec<(u16, u16)> = clauses
                .iter()
                .filter(|&&whole| whole != clause)
                .filter_map(|&whole| Some((whole, self.given_by(whole, &members)?)))
                .collect();
            (!wholes.is_empty()).then_some((clause, members, wholes))
        })?;
        let (whole, value) = *self.rng.pick(&wholes);
        let mut rows: Vec<Row> = members
            .iter()
            .filter(|member| member.0 != whole)
            .map(|&(term, value)| row(0, X, term, value, &[]))
            .collect();
        let decision = self.decision();
        rows.extend(decision.filter(|row| row[2] != clause && self.rng.percent(40)));
        let at = if self.rng.percent(80) { 0 } else { rows.len() };
        rows.insert(at, row(0, X, whole, 1 - value, &[]));
        rows.push(row(CLASH, 8, whole, value, &self.term(whole).1));
        rows.reverse();
        self.plan = rows;
        Some(())
    }

    fn is_clause(&self, term: u16) -> bool {
        matches!(self.model.terms[usize::from(term)][0], 2 | 3)
    }

    /// Some clause without a value, and terms that it can speak of, each with the
    /// value that it denies, which is the term's if it has one.
    fn spoken_of(&mut self, clauses: &[u16]) -> Option<(u16, Vec<(u16, u16)>)> {
        if clauses.is_empty() {
            return None;
        }
        let clause = *self.rng.pick(clauses);
        if self.value(clause).is_some() {
            return None;
        }
        let (head, args) = self.term(clause);
        let mut members: Vec<(u16, u16)> = Vec::new();
        for arg in args {
            let mut readings = learn::readings(&self.model, head, arg);
            if self.rng.percent(80) {
                readings.reverse();
            }
            let reading = readings.into_iter().find(|&(term, value)| {
                let fresh = members.iter().all(|member| member.0 != term);
                fresh && self.value(term).is_none_or(|there| there == value)
            });
            members.push(reading?);
        }
        Some((clause, members))
    }

    /// The value that a connective gets from these terms with their values, if its
    /// arguments are among them and it has not that value.
    fn given_by(&self, whole: u16, members: &[(u16, u16)]) -> Option<u16> {
        let row = self.model.terms[usize::from(whole)];
        let (head, args) = (row[0], row[2..].iter().filter(|&&arg| arg != X));
        let value = |arg: &u16| {
            let member = members.iter().find(|member| member.0 == *arg);
            member.map(|member| member.1)
        };
        let values: Option<Vec<u16>> = args.map(value).collect();
        let values = values?;
        let given = if head == 2 {
            values.iter().min()
        } else {
            values.iter().max()
        };
        given.copied().filter(|&given| !self.is(whole, given))
    }

    /// Plans a use of a clause that is learned: decide all positions but one, then
    /// deduce the remaining one, or clash where it is decided too.
    fn plan_unit(&mut self, clause: u16) {
        let (head, mut args) = self.term(clause);
        let remaining = args.remove(self.rng.below(args.len()));
        let mut rows: Vec<Row> = args
            .iter()
            .map(|&arg| row(0, X, arg, 3 - head, &[]))
            .collect();
        let clash = self.rng.percent(25);
        if clash {
            rows.push(row(0, X, remaining, 3 - head, &[]));
        }
        let premises = [&[clause], &args[..]].concat();
        let step = if clash { CLASH } else { DEDUCE };
        rows.push(row(step, 7, remaining, head - 2, &premises));
        rows.reverse();
        self.plan = rows;
    }

    /// Some term row that will do.
    fn any_row(&mut self, will_do: impl Fn(&Self, u16) -> bool) -> Option<u16> {
        let rows: Vec<u16> = (0..self.model.terms.len() as u16)
            .filter(|&term| will_do(self, term))
            .collect();
        (!rows.is_empty()).then(|| *self.rng.pick(&rows))
    }

    /// A deduction by the rule, and a clash or a fail, if there are any. Those that
    /// refute the input are mostly left out, for they end the log.
    fn uses(&mut self, rule: u16) -> (Option<Row>, Option<Row>) {
        let found = self.instances(rule);
        let fresh: Vec<_> = found
            .iter()
            .filter(|use_| self.value(use_.term).is_none())
            .collect();
        let deduction = (!fresh.is_empty()).then(|| self.rng.pick(&fresh).row(DEDUCE));
        let often = match rule {
            10 => 40,
            _ if self.tall => 45,
            _ => 12,
        };
        let closing = self.closing(&found).filter(|row| {
            let refutes = matches!(self.model.next(row), Ok(Next::Refuted));
            !refutes || self.rng.percent(often)
        });
        (deduction, closing)
    }

    /// Some of the uses whose opposite is on the trail, as the line of its level.
    fn closing(&mut self, found: &[Instance]) -> Option<Row> {
        let opposed: Vec<_> = found
            .iter()
            .filter(|use_| self.is(use_.term, 1 - use_.value))
            .collect();
        if opposed.is_empty() {
            return None;
        }
        let row = self.rng.pick(&opposed).row(CLASH);
        Some(self.by_level(row))
    }

    /// A use whose opposite is on the trail, as the other line than its level's.
    fn wrong_line(&mut self) -> Option<Row> {
        let rule = self.any_rule();
        let found = self.instances(rule);
        let mut row = self.closing(&found)?;
        row[0] = other_line(row[0]);
        Some(row)
    }

    /// A decision that is allowed, if there is one.
    fn decision(&mut self) -> Option<Row> {
        let free: Vec<u16> = (0..self.model.terms.len() as u16)
            .filter(|&term| self.value(term).is_none())
            .collect();
        if free.is_empty() {
            return None;
        }
        for _ in 0..6 {
            let mut term = *self.rng.pick(&free);
            while self.model.is_prop(term) && self.rng.percent(if self.eager { 90 } else { 40 }) {
                term = *self.rng.pick(&free);
            }
            if let Some(row) = self.decision_on(term) {
                return Some(row);
            }
        }
        free.into_iter().find_map(|term| self.decision_on(term))
    }

    /// A decision on the term with a value that the trail's equations leave it.
    fn decision_on(&mut self, term: u16) -> Option<Row> {
        let wanted = value(self.rng, &self.model.terms[usize::from(term)]);
        let given = accept::suitable(self.rng, &self.model, term, wanted)?;
        Some(accept::row(term, given))
    }

    /// Some step of the conflict state that is allowed, each kind as likely as
    /// the others where there is one of it.
    fn allowed_in_conflict(&mut self) -> Option<Row> {
        let members = self.model.conflict.clone().unwrap();
        if self.rng.percent(if self.keen { 70 } else { 40 }) {
            if let Some(row) = self.learn() {
                return Some(row);
            }
        }
        let mut kinds = vec![3, 3, 4, 5, 6, 6, 6];
        while !kinds.is_empty() {
            let kind = *self.rng.pick(&kinds);
            let rows: Vec<Row> = if kind == 6 {
                let member = |rng: &mut Rng| *rng.pick(&members);
                (0..12)
                    .map(|_| row(6, X, member(self.rng), X, &[member(self.rng)]))
                    .collect()
            } else {
                members
                    .iter()
                    .map(|&member| row(kind, X, member, X, &[]))
                    .collect()
            };
            let good: Vec<Row> = rows
                .into_iter()
                .filter(|row| self.model.next(row).is_ok())
                .collect();
            if !good.is_empty() {
                return Some(*self.rng.pick(&good));
            }
            kinds.retain(|&other| other != kind);
        }
        None
    }

    /// A learn that is allowed, if there is one.
    fn learn(&mut self) -> Option<Row> {
        let mut lessons = learn::lessons(&self.model, false);
        lessons.retain(|lesson| {
            let (rest, level) = learn::range(&self.model, &lesson.members);
            self.value(lesson.clause).is_none() && rest < level
        });
        if lessons.is_empty() {
            return None;
        }
        let lesson = self.rng.pick(&lessons).clone();
        Some(self.learn_row(&lesson))
    }

    /// The learn of a clause, its members in some order, with a level in its range
    /// where there is one.
    fn learn_row(&mut self, lesson: &Lesson) -> Row {
        let mut members = lesson.members.clone();
        if self.rng.percent(50) {
            let (one, two) = (self.rng.below(members.len()), self.rng.below(members.len()));
            members.swap(one, two);
        }
        let (rest, level) = learn::range(&self.model, &members);
        let last = level.max(rest + 1) - 1;
        let to = match self.rng.percent(50) {
            true => rest,
            false => self.rng.within(rest.into(), last.into()) as u16,
        };
        row(LEARN, X, lesson.clause, to, &members)
    }

    /// A learn that may or may not be allowed: one that matches, exactly or loosely,
    /// or one over other members, with up to three faults.
    fn near_learn(&mut self) -> Option<Row> {
        let loose = self.rng.percent(25);
        let mut lessons = learn::lessons(&self.model, loose);
        if loose && lessons.iter().any(|one| !one.is_exact(&self.model)) {
            lessons.retain(|one| !one.is_exact(&self.model));
        }
        if self.rng.percent(30) && lessons.iter().any(|one| self.value(one.clause).is_some()) {
            lessons.retain(|one| self.value(one.clause).is_some());
        }
        let mut row = match !lessons.is_empty() && self.rng.percent(90) {
            true => {
                let lesson = self.rng.pick(&lessons).clone();
                self.learn_row(&lesson)
            }
            false => self.any_learn()?,
        };
        for _ in 0..*self.rng.pick(&[0, 1, 1, 1, 1, 2, 2, 3]) {
            self.spoil_learn(&mut row);
        }
        Some(row)
    }

    /// A learn of some clause, over terms that it speaks of or other members.
    fn any_learn(&mut self) -> Option<Row> {
        let clause = self.any_row(|grower, term| grower.is_clause(term))?;
        let (head, args) = self.term(clause);
        let mut members = Vec::new();
        for arg in args {
            let readings = learn::readings(&self.model, head, arg);
            let reading = self.rng.pick(&readings).0;
            let other = self.any_member().filter(|_| self.rng.percent(70));
            members.push(other.unwrap_or(reading));
        }
        let level = self.rng.below(3) as u16;
        Some(row(LEARN, X, clause, level, &members))
    }

    fn any_member(&mut self) -> Option<u16> {
        let members = self.model.conflict.as_ref()?;
        Some(*self.rng.pick(members))
    }

    /// One fault more of a learn, of any number but 10.
    fn spoil_learn(&mut self, row: &mut Row) {
        let filled = row[4..8].iter().filter(|&&member| member != X).count();
        let at = 4 + self.rng.below(filled.max(1));
        let any = Self::any_term(self.rng, &self.model);
        match *self
            .rng
            .pick(&[9, 11, 17, 17, 22, 22, 25, 25, 25, 14, 21, 21, 21, 21])
        {
            9 => match self.rng.below(5) {
                0 => row[1] = self.rng.below(15) as u16,
                1 => row[3] = X,
                2 => row[8] = any,
                3 => row[7] = any,
                _ => row[*self.rng.pick(&[2, 4, 5])] = X,
            },
            11 => {
                let column = if self.rng.percent(50) { 2 } else { at };
                row[column] = *self.rng.pick(&[self.model.terms.len() as u16, 65_534]);
            }
            17 => {
                let on_trail = self.rng.percent(60);
                let other = self.any_row(|grower, term| {
                    let is_member = grower.model.conflict.iter().flatten().any(|&m| m == term);
                    grower.value(term).is_some() == on_trail && !is_member
                });
                row[at] = other.unwrap_or(any);
            }
            22 if self.rng.percent(50) => row[2] = any,
            22 => {
                let mut members = self.model.conflict.iter().flatten().copied();
                let slot = members.rfind(|&member| !self.model.is_prop(member));
                row[at] = slot.unwrap_or(any);
            }
            25 => match self.rng.below(5) {
                0..=1 => row[at] = row[4],
                2 if filled > 2 => row[3 + filled] = X,
                3 if filled < 4 => row[4 + filled] = self.any_member().unwrap_or(any),
                4 => {
                    row[2] = self
                        .any_row(|grower, term| grower.is_clause(term))
                        .unwrap_or(any)
                }
                _ => row[at] = self.any_member().unwrap_or(any),
            },
            14 => {
                let other = self
                    .any_row(|grower, term| grower.is_clause(term) && grower.value(term).is_some());
                row[2] = other.unwrap_or(any);
            }
            _ => {
                let top = self.model.trail.iter().map(|entry| entry.level).max();
                let top = usize::from(top.unwrap_or(0));
                row[3] = match self.rng.below(5) {
                    0 => row[3].wrapping_sub(1).min(65_534),
                    1 => 0,
                    2 => *self.rng.pick(&[top as u16, 65_534, 256]),
                    _ => self.rng.below(top + 2) as u16,
                };
            }
        }
    }

    fn value(&self, term: u16) -> Option<u16> {
        self.values[usize::from(term)]
    }

    fn is(&self, term: u16, value: u16) -> bool {
        self.value(term) == Some(value)
    }

    fn term(&self, term: u16) -> (u16, Vec<u16>) {
        let row = self.model.terms[usize::from(term)];
        (
            row[0],
            row[2..].iter().copied().filter(|&arg| arg != X).collect(),
        )
    }

    fn equality(&self, left: u16, right: u16) -> Option<u16> {
        self.equalities.get(&(left, right)).copied()
    }

    fn true_equality(&self, left: u16, right: u16) -> Option<u16> {
        self.equality(left, right).filter(|&row| self.is(row, 1))
    }

    fn equal_args(&self, left: &[u16], right: &[u16]) -> Option<Vec<u16>> {
        left.iter()
            .zip(right)
            .map(|(&t, &u)| self.true_equality(t, u))
            .collect()
    }

    /// All the uses of the rule that the trail has the premises for; by deep some.
    fn instances(&mut self, rule: u16) -> Vec<Instance> {
        if rule == DEEP {
            return self.deep_instances();
        }
        let mut found = Vec::new();
        for at in 0..self.model.terms.len() as u16 {
            let (head, args) = self.term(at);
            self.instances_at(rule, at, head, &args, &mut found);
        }
        found
    }

    /// Uses of deep whose walks end at some of the rows that have a value, often all of
    /// the same number of layers; loosely, too many.
    fn deep_instances(&mut self) -> Vec<Instance> {
        let often = *self.rng.pick(&[0, 0, 0, 10, 30, 100]);
        let count = self.model.terms.len();
        let marked: Vec<bool> = (0..count).map(|_| self.rng.percent(often)).collect();
        let most = if self.loose { 14 } else { 8 };
        let mut found = deep::uses(&self.model, &self.values, &marked, most);
        let layers = self.rng.within(1, 8);
        if self.loose {
            found.retain(|use_| use_.layers > 8);
        } else if found.iter().any(|use_| use_.layers == layers) {
            found.retain(|use_| use_.layers == layers);
        }
        found
            .into_iter()
            .map(|use_| {
                let mut premises = use_.premises;
                deep::shuffle(self.rng, &mut premises);
                Instance {
                    rule: DEEP,
                    term: use_.term,
                    value: use_.value,
                    premises,
                }
            })
            .collect()
    }

    /// A row by deep that may or may not be allowed: a use, or one of too many layers,
    /// with up to three faults; or a use by the rule after it.
    fn near_deep(&mut self) -> Option<Row> {
        self.loose = self.rng.percent(40);
        let mut found = self.instances(DEEP);
        if std::mem::take(&mut self.loose) && found.is_empty() {
            found = self.instances(DEEP);
        }
        if found.is_empty() || self.rng.percent(5) {
            found = self.dreamt(DEEP).0;
        }
        if found.is_empty() {
            return None;
        }
        let step = *self.rng.pick(&[DEDUCE, CLASH, FAIL]);
        let mut row = self.rng.pick(&found).row(step);
        if self.rng.percent(4) {
            row[1] = DEEP + 1;
            return Some(row);
        }
        for _ in 0..*self.rng.pick(&[0, 1, 1, 1, 1, 1, 2, 2, 3]) {
            deep::spoil(self.rng, &self.model, &mut row);
        }
        if self.rng.percent(18) {
            deep::spoil_columns(self.rng, &self.model, &mut row);
        }
        Some(row)
    }

    fn instances_at(&self, rule: u16, at: u16, head: u16, args: &[u16], found: &mut Vec<Instance>) {
        let mut add = |term: u16, value: u16, premises: &[u16]| {
            found.push(Instance {
                rule,
                term,
                value,
                premises: premises.to_vec(),
            });
        };
        match (rule, head) {
            (0 | 1, 0) => {
                if let (Some(one), Some(two)) = (self.value(args[0]), self.value(args[1])) {
                    if (one == two) == (rule == 0) {
                        add(at, 1 - rule, args);
                    }
                }
            }
            (2, 0) if self.loose || args[0] == args[1] => add(at, 1, &[]),
            (3, 0) if self.loose && self.is(at, 1) => add(at, 1, &[at]),
            (3, 0) => {
                if let Some(premise) = self.true_equality(args[1], args[0]) {
                    add(at, 1, &[premise]);
                }
            }
            (4, 0) if self.is(at, 1) => {
                for (right, next) in self.equalities_of(args[1]) {
                    if let Some(term) = self.equality(args[0], right).filter(|_| self.is(next, 1)) {
                        add(term, 1, &[at, next]);
                    }
                }
            }
            (5, 1) => {
                if let Some(value) = self.value(at) {
                    add(args[0], 1 - value, &[at]);
                    if self.loose {
                        add(args[0], value, &[at]);
                    }
                }
            }
            (6 | 7, 2 | 3) if self.loose => {
                let Some(value) = self.value(at) else {
                    return;
                };
                for position in 0..args.len() {
                    let mut premises = args.to_vec();
                    let term = premises.remove(position);
                    premises.insert(0, at);
                    premises.truncate(if rule == 6 { 1 } else { 4 });
                    add(term, value, &premises);
                }
            }
            (6, 2 | 3) if self.is(at, 3 - head) => {
                for &arg in args {
                    add(arg, 3 - head, &[at]);
                }
            }
            (7, 2 | 3) if self.is(at, head - 2) => {
                for position in 0..args.len() {
                    let mut premises = args.to_vec();
                    let term = premises.remove(position);
                    if premises.iter().all(|&other| self.is(other, 3 - head)) {
                        premises.insert(0, at);
                        add(term, head - 2, &premises);
                    }
                }
            }
            (8, 1..=3) => {
                let values: Option<Vec<u16>> = args.iter().map(|&arg| self.value(arg)).collect();
                if let Some(values) = values {
                    let value = match head {
                        1 => 1 - values[0],
                        2 => *values.iter().min().unwrap(),
                        _ => *values.iter().max().unwrap(),
                    };
                    add(at, value, args);
                }
            }
            (9, 0) => {
                let ((left, one), (right, two)) = (self.term(args[0]), self.term(args[1]));
                if (left == right && left >= 4) || (self.loose && one.len() == two.len()) {
                    if let Some(premises) = self.equal_args(&one, &two) {
                        add(at, 1, &premises);
                    }
                }
            }
            (10, _) if self.model.is_prop(at) && (self.loose || head >= 16) => {
                let Some(value) = self.value(at) else {
                    return;
                };
                for term in 0..self.model.terms.len() as u16 {
                    let (other, others) = self.term(term);
                    let alike =
                        self.loose && others.len() == args.len() && self.model.is_prop(term);
                    if other == head || alike {
                        if let Some(mut premises) = self.equal_args(args, &others) {
                            premises.insert(0, at);
                            add(term, value, &premises);
                        }
                    }
                }
            }
            (11 | 12, 0) => {
                let ((left, one), (right, two)) = (self.term(args[0]), self.term(args[1]));
                if left != 4 || self.term(one[0]).0 != 5 {
                    return;
                }
                let store = self.term(one[0]).1;
                if rule == 11 && one[1] == store[1] && args[1] == store[2] {
                    add(at, 1, &[]);
                }
                if rule == 12 && right == 4 && two == [store[0], one[1]] {
                    if let Some(premise) = self
                        .equality(store[1], one[1])
                        .filter(|&row| self.is(row, 0))
                    {
                        add(at, 1, &[premise]);
                    }
                }
            }
            _ => (),
        }
    }

    /// The right sides and the rows of the equalities with this left side.
    fn equalities_of(&self, left: u16) -> Vec<(u16, u16)> {
        (0..self.model.terms.len() as u16)
            .filter_map(|term| {
                let row = self.model.terms[usize::from(term)];
                (row[0] == 0 && row[2] == left).then_some((row[3], term))
            })
            .collect()
    }

    /// A step that is refused with the number, if one is soon found.
    fn barred(&mut self, target: u16) -> Option<Row> {
        let in_conflict = self.model.conflict.is_some();
        let fits = match target {
            9..=11 | 14 | 22 => true,
            12..=16 | 26 | 27 => !in_conflict,
            _ => in_conflict,
        };
        if !fits {
            return None;
        }
        (0..25).find_map(|_| {
            let row = self.attempt();
            (self.model.next(&row).err() == Some(target)).then_some(row)
        })
    }

    /// A step that may or may not be allowed, near one that is.
    fn attempt(&mut self) -> Row {
        let searches = self.model.conflict.is_none();
        let few_rows = self.model.terms.len() <= 8;
        if let Some(row) = self.near_decision() {
            return row;
        }
        if searches && self.rng.percent(if few_rows { 50 } else { 30 }) {
            return self.misplaced();
        }
        if let Some(row) = self.near_deep_or_learn() {
            return row;
        }
        if !searches && self.rng.percent(70) {
            return self.conflict_step();
        }
        let near = if searches { self.near_use() } else { None };
        if let Some(row) = near {
            return row;
        }
        let mut row = match self.rng.below(12) {
            0 => self.noise(),
            1 => self.conflict_step(),
            2..=4 => self.decision().unwrap_or([X; 9]),
            5 => self.allowed().unwrap_or([X; 9]),
            _ => self.any_use(),
        };
        if self.rng.percent(35) {
            self.garble(&mut row);
        }
        row
    }

    /// Now and then a decision near the equations of the trail.
    fn near_decision(&mut self) -> Option<Row> {
        let often = if self.model.conflict.is_some() { 2 } else { 8 };
        match self.rng.percent(often) {
            true => accept::near(self.rng, &self.model),
            false => None,
        }
    }

    /// Now and then a row near one by deep or near a learn.
    fn near_deep_or_learn(&mut self) -> Option<Row> {
        let deeps = if self.tall { 40 } else { 4 };
        let learns = if self.model.conflict.is_some() { 45 } else { 2 };
        let row = match self.rng.percent(deeps) {
            true => self.near_deep(),
            false => None,
        };
        if row.is_some() || !self.rng.percent(learns) {
            return row;
        }
        self.near_learn()
    }

    /// Mostly a row that comes close to a use, or a use as the wrong line.
    fn near_use(&mut self) -> Option<Row> {
        if self.rng.percent(10) {
            if let Some(row) = (0..4).find_map(|_| self.wrong_line()) {
                return Some(row);
            }
        }
        match self.rng.percent(60) {
            true => (0..4).find_map(|_| self.near_miss()),
            false => None,
        }
    }

    /// A use of some rule as a deduction, a clash or a fail, or else a decision.
    fn any_use(&mut self) -> Row {
        let step = *self.rng.pick(&[DEDUCE, CLASH, FAIL]);
        for _ in 0..6 {
            let rule = self.any_rule();
            let found = self.instances(rule);
            if !found.is_empty() {
                return self.rng.pick(&found).row(step);
            }
        }
        self.decision().unwrap_or([X; 9])
    }

    /// A use of some rule with a column or two that are not right, perhaps with more
    /// premises than there have to be.
    fn misplaced(&mut self) -> Row {
        let unfinished = self.unfinished().filter(|_| self.rng.percent(40));
        let mut row = unfinished.unwrap_or_else(|| self.any_use());
        let count = row[4..].iter().filter(|&&premise| premise != X).count();
        let more = *self.rng.pick(&[0, 0, 0, 0, 0, 1, 1, 2, 3, 5]);
        if let Some(other) = self.any_row(|grower, term| grower.value(term).is_some()) {
            row[4 + count..(4 + count + more).min(9)].fill(other);
        }
        for _ in 0..*self.rng.pick(&[1, 1, 1, 2]) {
            self.misplace(&mut row);
        }
        row
    }

    /// A use of some rule up to the first premise that is not on the trail.
    fn unfinished(&mut self) -> Option<Row> {
        let rule = *self.rng.pick(&TRIED);
        let (found, _) = self.dreamt(rule);
        if found.is_empty() {
            return None;
        }
        let step = *self.rng.pick(&[DEDUCE, CLASH, FAIL]);
        let mut row = self.rng.pick(&found).row(step);
        let absent = |&premise: &u16| premise != X && self.value(premise).is_none();
        if let Some(at) = row[4..].iter().position(absent) {
            row[4 + at..].fill(X);
        }
        Some(row)
    }

    /// Makes a column of a rule's use wrong: the rule, the term or the value, a premise
    /// that is another row, no row or not on the trail, or one too few or too many.
    fn misplace(&mut self, row: &mut Row) {
        let count = row[4..].iter().filter(|&&premise| premise != X).count();
        let at = 4 + self.rng.below(count.max(1));
        let any = Self::any_term(self.rng, &self.model);
        let prop = self.any_row(|grower, term| grower.model.is_prop(term));
        let there = self.any_row(|grower, term| grower.value(term).is_some());
        let absent = self.any_row(|grower, term| grower.value(term).is_none());
        let no_row = self.model.terms.len() as u16;
        match self.rng.below(14) {
            0..=1 => row[1] = self.rng.below(14) as u16,
            2 => row[2] = prop.unwrap_or(any),
            3..=5 if row[3] < 2 => row[3] = 1 - row[3],
            6..=7 => row[at] = there.unwrap_or(any),
            8 => row[at..].fill(X),
            9 => row[at] = absent.unwrap_or(any),
            10 => row[*self.rng.pick(&[2, at, at, at])] = no_row,
            _ => row[(4 + count).min(8)] = there.unwrap_or(any),
        }
    }

    /// A rule's use as it would be if a few terms had other values than they have,
    /// or with another term of the same head somewhere, or only close to a use.
    fn near_miss(&mut self) -> Option<Row> {
        let rule = *self.rng.pick(&TRIED);
        let step = *self.rng.pick(&[DEDUCE, CLASH, FAIL]);
        let real = self.values.clone();
        let swapped = self.rng.percent(40);
        for value in &mut self.values {
            if !swapped && self.rng.percent(20) {
                *value = Some(self.rng.below(2) as u16);
            }
        }
        self.loose = self.rng.percent(50);
        let found = self.instances(rule);
        self.loose = false;
        self.values = real;
        if found.is_empty() {
            return None;
        }
        let mut row = self.rng.pick(&found).row(step);
        if swapped {
            let filled: Vec<usize> = [2, 4, 5, 6, 7, 8]
                .into_iter()
                .filter(|&column| row[column] != X)
                .collect();
            let column = *self.rng.pick(&filled);
            let (head, args) = self.term(row[column]);
            let close = self.rng.percent(70);
            row[column] = self.any_row(|grower, term| {
                let (other, others) = grower.term(term);
                let shares = args.iter().any(|arg| others.contains(arg));
                other == head && term != row[column] && (shares || !close)
            })?;
        }
        Some(row)
    }

    fn conflict_step(&mut self) -> Row {
        let members = self.model.conflict.clone().unwrap_or_default();
        let any = |rng: &mut Rng| match rng.below(100) {
            0..=1 => self.model.terms.len() as u16,
            17.. if !members.is_empty() => *rng.pick(&members),
            _ => Self::any_term(rng, &self.model),
        };
        let kind = self.rng.within(3, 6) as u16;
        let mut made = row(kind, X, any(self.rng), X, &[]);
        if kind == 6 {
            made[4] = any(self.rng);
        }
        made
    }

    fn any_term(rng: &mut Rng, model: &Model) -> u16 {
        match model.terms.len() {
            0 => 0,
            count => rng.below(count) as u16,
        }
    }

    /// Changes a column or two of the row.
    fn garble(&mut self, row: &mut Row) {
        let count = row[4..].iter().filter(|&&premise| premise != X).count();
        match self.rng.below(10) {
            0 => row[3] = self.number(),
            1 => row[1] = self.rng.below(15) as u16,
            2 if count > 0 => row[3 + count] = X,
            3 if count < 5 => row[4 + count] = Self::any_term(self.rng, &self.model),
            4 if count > 1 => row.swap(4, 5),
            5 if row[3] < 2 => row[3] = 1 - row[3],
            6 if row[0] == CLASH || row[0] == FAIL => row[0] = other_line(row[0]),
            7 => row[3] = 2,
            8 => row[0] = LEARN + 1,
            _ => {
                let column = self.rng.below(9);
                row[column] = match self.rng.percent(70) {
                    true => Self::any_term(self.rng, &self.model),
                    false => self.number(),
                };
            }
        }
    }

    fn noise(&mut self) -> Row {
        let mut made = [X; 9];
        for column in &mut made {
            if self.rng.percent(60) {
                *column = self.number();
            }
        }
        if self.rng.percent(70) {
            made[0] = self.rng.below(9) as u16;
        }
        made
    }

    /// A number of the kind that makes a difference.
    fn number(&mut self) -> u16 {
        let count = self.model.terms.len();
        match self.rng.below(8) {
            0 => X,
            1 => 65_534,
            2 => count as u16,
            3 => self.rng.below(65_536) as u16,
            4 => self.rng.below(17) as u16,
            5 => 256,
            _ => self.rng.below(count + 1) as u16,
        }
    }
}
