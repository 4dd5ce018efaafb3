//! A third checker, slow on purpose: the paper read word for word over lists,
//! with no index, no bit sets and no shortcuts. It is what the random logs are
//! grown with, and what `plain` is held against when there is nothing else.

use crate::naive_place::{self, Place};

const X: u16 = 65_535;

/// An entry of the trail. A decision has no justification.
#[derive(Clone, Debug)]
pub struct Entry {
    pub term: u16,
    pub value: u16,
    pub level: u16,
    pub reason: Option<Vec<u16>>,
}

/// A row with a value, as a premise.
#[derive(Clone, Copy, Debug, PartialEq, Eq)]
pub struct Premise {
    pub row: u16,
    pub value: u16,
}

impl Premise {
    fn is_true(self) -> bool {
        self.value == 1
    }

    fn is_false(self) -> bool {
        self.value == 0
    }
}

impl Entry {
    pub fn is_decision(&self) -> bool {
        self.reason.is_none()
    }
}

/// The term rows, the trail and, in a conflict, its members.
#[derive(Clone, Debug)]
pub struct Model {
    pub terms: Vec<[u16; 6]>,
    pub trail: Vec<Entry>,
    pub conflict: Option<Vec<u16>>,
}

/// What an allowed step does.
pub enum Next {
    Searching(Vec<Entry>),
    Conflict(Vec<u16>),
    Refuted,
}

fn rows<const N: usize>(sheet: &[u16]) -> Vec<[u16; N]> {
    sheet.chunks(N).map(|row| row.try_into().unwrap()).collect()
}

/// The refusal of sheets that no step was tried on.
fn unread(number: u16) -> ([u16; 4], Place) {
    ([2, 0, number, 0], Place::Read(0))
}

/// Verdict, steps, number, entries, and the place; the buffers as the papers say.
pub fn run(
    sorts: &[u16],
    terms: &[u16],
    inputs: &[u16],
    steps: &[u16],
    work: &mut [u64],
    trail: &mut [u16],
) -> ([u16; 4], Place) {
    let lengths = [sorts.len(), terms.len(), inputs.len(), steps.len()];
    for (len, columns) in lengths.into_iter().zip([2, 6, 2, 9]) {
        if len % columns != 0 {
            return unread(31);
        }
    }
    if lengths[0] > 2 * 32
        || lengths[1] > 6 * 256
        || lengths[2] > 2 * 256
        || lengths[3] > 9 * 65_535
    {
        return unread(30);
    }
    let n = terms.len() / 6;
    if work.len() < 8 * n + 12 || trail.len() < 4 * n {
        return unread(32);
    }
    for word in work.iter_mut() {
        *word = 0;
    }
    let mut model = match Model::start(sorts, terms, inputs) {
        Ok(model) => model,
        Err(number) => return unread(number),
    };
    let (mut result, place) = model.run(steps);
    model.assert_levels();
    for (at, entry) in model.trail.iter().enumerate() {
        trail[4 * at] = entry.term;
        trail[4 * at + 1] = entry.value;
        trail[4 * at + 2] = entry.level;
        trail[4 * at + 3] = if entry.is_decision() { 1 } else { 0 };
    }
    result[3] = model.trail.len() as u16;
    (result, place)
}

/// 1 if a sort row breaks the rule.
fn check_sorts(sorts: &[[u16; 2]]) -> Result<(), u16> {
    for (at, &[index, value]) in sorts.iter().enumerate() {
        let own = at as u16 + 1;
        let both_blank = index == X && value == X;
        let both_earlier = index != 0 && index < own && value != 0 && value < own;
        if !both_blank && !both_earlier {
            return Err(1);
        }
    }
    Ok(())
}

fn filled(row: &[u16; 6]) -> Vec<u16> {
    row[2..].iter().copied().filter(|&arg| arg != X).collect()
}

fn check_terms(sorts: &[[u16; 2]], terms: &[[u16; 6]]) -> Result<(), u16> {
    for (own, row) in terms.iter().enumerate() {
        if row[2..]
            .iter()
            .any(|&arg| arg != X && usize::from(arg) >= own)
        {
            return Err(3);
        }
        if !term_fits(sorts, &terms[..own], row) {
            return Err(4);
        }
        for earlier in &terms[..own] {
            if earlier[0] == row[0] && earlier[2..] == row[2..] {
                return Err(5);
            }
        }
    }
    Ok(())
}

fn term_fits(sorts: &[[u16; 2]], earlier: &[[u16; 6]], row: &[u16; 6]) -> bool {
    let args = filled(row);
    if row[2..2 + args.len()] != args[..] {
        return false;
    }
    let [head, sort, ..] = *row;
    if usize::from(sort) > sorts.len() {
        return false;
    }
    let arg_sorts = |row: &[u16; 6]| -> Vec<u16> {
        filled(row)
            .iter()
            .map(|&arg| earlier[usize::from(arg)][1])
            .collect()
    };
    let own = arg_sorts(row);
    let array = |sort: u16| match sort {
        0 => [X, X],
        _ => sorts[usize::from(sort) - 1],
    };
    match head {
        0 => sort == 0 && own.len() == 2 && own[0] == own[1] && own[0] != 0,
        1 => sort == 0 && own == [0],
        2 | 3 => sort == 0 && [&[0, 0][..], &[0, 0, 0], &[0, 0, 0, 0]].contains(&&own[..]),
        4 => own.len() == 2 && array(own[0]) == [own[1], sort],
        5 => own.len() == 3 && array(own[0]) == [own[1], own[2]] && sort == own[0],
        6..=15 | X => false,
        _ => {
            let same_as_first = match earlier.iter().find(|other| other[0] == head) {
                None => true,
                Some(first) => first[1] == sort && arg_sorts(first) == own,
            };
            !own.contains(&0) && same_as_first
        }
    }
}

impl Model {
    /// The state before the first step; the numbers 1 to 8.
    pub fn start(sorts: &[u16], terms: &[u16], inputs: &[u16]) -> Result<Model, u16> {
        let sorts = rows::<2>(sorts);
        let terms = rows::<6>(terms);
        check_sorts(&sorts)?;
        check_terms(&sorts, &terms)?;
        let mut model = Model {
            terms,
            trail: Vec::new(),
            conflict: None,
        };
        for [term, value] in rows::<2>(inputs) {
            if usize::from(term) >= model.terms.len() {
                return Err(6);
            }
            if value == X || (model.is_prop(term) && value > 1) {
                return Err(7);
            }
            if model.entry(term).is_some() {
                return Err(8);
            }
            model.trail.push(Entry {
                term,
                value,
                level: 0,
                reason: Some(Vec::new()),
            });
        }
        Ok(model)
    }

    /// Runs the steps: verdict, steps, number and 0, and the place.
    fn run(&mut self, steps: &[u16]) -> ([u16; 4], Place) {
        let mut allowed = 0;
        for row in rows::<9>(steps) {
            match self.next(&row) {
                Err(number) => {
                    let place = naive_place::place(self, &row, number);
                    return ([2, allowed, number, 0], place);
                }
                Ok(Next::Refuted) => return ([1, allowed + 1, 0, 0], Place::Read(0)),
                Ok(next) => {
                    allowed += 1;
                    self.enter(next);
                }
            }
        }
        ([0, allowed, 0, 0], Place::Read(0))
    }

    pub fn is_prop(&self, term: u16) -> bool {
        self.terms[usize::from(term)][1] == 0
    }

    pub fn entry(&self, term: u16) -> Option<&Entry> {
        self.trail.iter().find(|entry| entry.term == term)
    }

    pub fn value(&self, term: u16) -> Option<u16> {
        self.entry(term).map(|entry| entry.value)
    }

    /// The greatest level of the members, 0 if there are none.
    pub fn level_of(&self, members: &[u16]) -> u16 {
        members
            .iter()
            .map(|&term| self.entry(term).unwrap().level)
            .max()
            .unwrap_or(0)
    }

    /// The level of every entry worked out anew from the whole trail.
    fn assert_levels(&self) {
        let mut known: Vec<(u16, u16)> = Vec::new();
        for entry in &self.trail {
            let level = match &entry.reason {
                None => 1 + known.iter().map(|&(_, level)| level).max().unwrap_or(0),
                Some(reason) => reason
                    .iter()
                    .map(|&term| known.iter().find(|&&(other, _)| other == term).unwrap().1)
                    .max()
                    .unwrap_or(0),
            };
            assert_eq!(level, entry.level, "a level in the slow checker");
            known.push((entry.term, level));
        }
    }

    pub fn enter(&mut self, next: Next) {
        match next {
            Next::Searching(trail) => {
                self.trail = trail;
                self.conflict = None;
            }
            Next::Conflict(members) => self.conflict = Some(members),
            Next::Refuted => (),
        }
    }

    /// What the step does, or the number it is refused with.
    pub fn next(&self, row: &[u16; 9]) -> Result<Next, u16> {
        let [step, rule, term, value, premises @ ..] = *row;
        if !columns_fit(row) {
            return Err(9);
        }
        let searches = matches!(step, 0 | 1 | 2 | 7);
        if searches != self.conflict.is_none() {
            return Err(10);
        }
        let premises: Vec<u16> = premises
            .into_iter()
            .filter(|&premise| premise != X)
            .collect();
        let no_row = |term: u16| usize::from(term) >= self.terms.len();
        if no_row(term) || premises.iter().any(|&premise| no_row(premise)) {
            return Err(11);
        }
        match step {
            0 => self.decide(term, value),
            1 => self.deduce(rule, term, value, &premises),
            2 => self.clash(rule, term, value, &premises),
            3 => self.resolve(term),
            4 => self.clear(term),
            5 => self.jump(term),
            6 => self.flip(term, premises[0]),
            7 => self.fail(rule, term, value, &premises),
            _ => self.learn(term, value, &premises),
        }
    }

    fn decide(&self, term: u16, value: u16) -> Result<Next, u16> {
        if self.is_prop(term) && value > 1 {
            return Err(22);
        }
        if self.entry(term).is_some() {
            return Err(14);
        }
        let trail = self.with_decision(&self.trail, term, value);
        if !self.is_prop(term) && self.is_dead(&trail, term) {
            return Err(27);
        }
        Ok(Next::Searching(trail))
    }

    /// Whether the trail has a valued u, the term t itself included, and an entry t=u or
    /// u=t whose value is not what same or differ would give.
    fn is_dead(&self, trail: &[Entry], term: u16) -> bool {
        let valued = |entry: &Entry| Premise {
            row: entry.term,
            value: entry.value,
        };
        let t = trail.iter().find(|entry| entry.term == term);
        let t = valued(t.expect("the decision"));
        trail.iter().map(valued).any(|u| {
            trail.iter().any(|entry| {
                [[t, u], [u, t]].iter().any(|[left, right]| {
                    let sides = [*left, *right];
                    let given = |rule: u16| self.gives(rule, entry.term, entry.value, &sides);
                    self.row(entry.term) == eq_row(left.row, right.row) && !given(0) && !given(1)
                })
            })
        })
    }

    fn with_decision(&self, before: &[Entry], term: u16, value: u16) -> Vec<Entry> {
        let level = 1 + before.iter().map(|entry| entry.level).max().unwrap_or(0);
        let mut trail = before.to_vec();
        trail.push(Entry {
            term,
            value,
            level,
            reason: None,
        });
        trail
    }

    fn inferred(&self, rule: u16, term: u16, value: u16, premises: &[u16]) -> Result<(), u16> {
        if !self.is_prop(term) {
            return Err(22);
        }
        let Some(premises) = self.on_trail(premises) else {
            return Err(12);
        };
        if !self.gives(rule, term, value, &premises) {
            return Err(13);
        }
        Ok(())
    }

    /// The premises with their values, if all are on the trail.
    pub fn on_trail(&self, premises: &[u16]) -> Option<Vec<Premise>> {
        let premise = |&row: &u16| self.value(row).map(|value| Premise { row, value });
        premises.iter().map(premise).collect()
    }

    fn deduce(&self, rule: u16, term: u16, value: u16, premises: &[u16]) -> Result<Next, u16> {
        self.inferred(rule, term, value, premises)?;
        if self.value(term) == Some(value) {
            return Err(14);
        }
        if self.value(term) == Some(1 - value) {
            return Err(15);
        }
        let mut trail = self.trail.clone();
        trail.push(Entry {
            term,
            value,
            level: self.level_of(premises),
            reason: Some(as_set(premises)),
        });
        Ok(Next::Searching(trail))
    }

    /// The premises and the opposite as one set.
    fn opposed(&self, rule: u16, term: u16, value: u16, premises: &[u16]) -> Result<Vec<u16>, u16> {
        self.inferred(rule, term, value, premises)?;
        if self.value(term) != Some(1 - value) {
            return Err(16);
        }
        Ok(as_set(&[premises, &[term]].concat()))
    }

    fn clash(&self, rule: u16, term: u16, value: u16, premises: &[u16]) -> Result<Next, u16> {
        let members = self.opposed(rule, term, value, premises)?;
        if self.level_of(&members) == 0 {
            return Err(26);
        }
        Ok(Next::Conflict(members))
    }

    fn fail(&self, rule: u16, term: u16, value: u16, premises: &[u16]) -> Result<Next, u16> {
        let members = self.opposed(rule, term, value, premises)?;
        let at_zero = |&member: &u16| self.entry(member).unwrap().level == 0;
        if !members.iter().all(at_zero) {
            return Err(26);
        }
        Ok(Next::Refuted)
    }

    fn members(&self) -> &[u16] {
        self.conflict.as_ref().unwrap()
    }

    fn rest(&self, without: u16) -> Vec<u16> {
        self.members()
            .iter()
            .copied()
            .filter(|&member| member != without)
            .collect()
    }

    /// The decisions among the terms, not of sort prop, at the conflict's level.
    fn bars(&self, terms: &[u16]) -> Vec<u16> {
        let level = self.level_of(self.members());
        let is_bar = |term: u16| {
            let entry = self.entry(term).unwrap();
            entry.is_decision() && entry.level == level && !self.is_prop(term)
        };
        terms.iter().copied().filter(|&term| is_bar(term)).collect()
    }

    fn kept(&self, level: u16) -> Vec<Entry> {
        self.trail
            .iter()
            .filter(|entry| entry.level <= level)
            .cloned()
            .collect()
    }

    fn resolve(&self, term: u16) -> Result<Next, u16> {
        if !self.members().contains(&term) {
            return Err(17);
        }
        let Some(reason) = &self.entry(term).unwrap().reason else {
            return Err(18);
        };
        if !self.bars(reason).is_empty() {
            return Err(19);
        }
        Ok(Next::Conflict(as_set(
            &[&self.rest(term)[..], reason].concat(),
        )))
    }

    fn clear(&self, term: u16) -> Result<Next, u16> {
        if !self.members().contains(&term) {
            return Err(17);
        }
        let entry = self.entry(term).unwrap();
        if !entry.is_decision() || self.is_prop(term) {
            return Err(20);
        }
        if entry.level <= self.level_of(&self.rest(term)) {
            return Err(21);
        }
        Ok(Next::Searching(self.kept(entry.level - 1)))
    }

    fn jump(&self, term: u16) -> Result<Next, u16> {
        if !self.members().contains(&term) {
            return Err(17);
        }
        if !self.is_prop(term) {
            return Err(22);
        }
        let rest = self.rest(term);
        let level = self.level_of(&rest);
        let entry = self.entry(term).unwrap();
        if entry.level <= level {
            return Err(21);
        }
        let mut trail = self.kept(level);
        trail.push(Entry {
            term,
            value: 1 - entry.value,
            level,
            reason: Some(rest),
        });
        Ok(Next::Searching(trail))
    }

    fn flip(&self, term: u16, other: u16) -> Result<Next, u16> {
        if !self.members().contains(&term) || !self.members().contains(&other) {
            return Err(17);
        }
        if !self.is_prop(term) {
            return Err(22);
        }
        let entry = self.entry(term).unwrap();
        let (Some(one), Some(two)) = (&entry.reason, &self.entry(other).unwrap().reason) else {
            return Err(18);
        };
        let shared = self.bars(one).into_iter().any(|bar| two.contains(&bar));
        if term == other || !shared {
            return Err(23);
        }
        let level = self.level_of(self.members());
        let kept = self.kept(level - 1);
        let trail = self.with_decision(&kept, term, 1 - entry.value);
        Ok(Next::Searching(trail))
    }

    fn learn(&self, clause: u16, to: u16, named: &[u16]) -> Result<Next, u16> {
        if !named.iter().all(|member| self.members().contains(member)) {
            return Err(17);
        }
        let is_clause = matches!(self.row(clause)[0], 2 | 3);
        if !is_clause || !named.iter().all(|&member| self.is_prop(member)) {
            return Err(22);
        }
        if as_set(named) != named || !self.matches(clause, named) {
            return Err(25);
        }
        if self.entry(clause).is_some() {
            return Err(14);
        }
        let rest = self.rest_of(named);
        let level = self.level_of(&rest);
        let in_range = level <= to && to < self.level_of(named);
        if !in_range {
            return Err(21);
        }
        let mut trail = self.kept(to);
        trail.push(Entry {
            term: clause,
            value: if self.row(clause)[0] == 3 { 1 } else { 0 },
            level,
            reason: Some(rest),
        });
        Ok(Next::Searching(trail))
    }

    /// The members of the conflict that are not named.
    pub fn rest_of(&self, named: &[u16]) -> Vec<u16> {
        self.members()
            .iter()
            .copied()
            .filter(|member| !named.contains(member))
            .collect()
    }

    /// Whether some order of the clause's arguments pairs them with the members.
    pub fn matches(&self, clause: u16, members: &[u16]) -> bool {
        let args = self.args(clause);
        let head = self.row(clause)[0];
        let pairs = |&(&arg, &member): &(&u16, &u16)| self.appears(head, member, arg);
        args.len() == members.len()
            && orders(args)
                .iter()
                .any(|order| order.iter().zip(members).all(|pair| pairs(&pair)))
    }

    /// Whether the member appears as the argument. In an or a true one appears as its
    /// negation and a false one as itself, in an and the other way round.
    pub fn appears(&self, head: u16, member: u16, arg: u16) -> bool {
        let negation = self.row(arg) == [1, 0, member, X, X, X];
        match head {
            3 if self.is_true(member) => negation,
            3 if self.is_false(member) => arg == member,
            2 if self.is_true(member) => arg == member,
            2 if self.is_false(member) => negation,
            _ => false,
        }
    }

    pub fn row(&self, term: u16) -> [u16; 6] {
        self.terms[usize::from(term)]
    }

    /// The arguments, which a checked sheet has from the left.
    pub fn args(&self, term: u16) -> &[u16] {
        let args = &self.terms[usize::from(term)][2..];
        let count = args.iter().take_while(|&&arg| arg != X).count();
        &args[..count]
    }

    fn is_true(&self, term: u16) -> bool {
        self.value(term) == Some(1)
    }

    fn is_false(&self, term: u16) -> bool {
        self.value(term) == Some(0)
    }

    /// Whether the premises are, in order, true equalities of the arguments.
    fn equal_args(&self, premises: &[Premise], left: u16, right: u16) -> bool {
        let (left, right) = (self.args(left), self.args(right));
        premises.len() == left.len().min(right.len())
            && premises.iter().enumerate().all(|(at, premise)| {
                self.row(premise.row) == eq_row(left[at], right[at]) && premise.is_true()
            })
    }

    /// Whether the rule gives the term the value from the premises.
    pub fn gives(&self, rule: u16, term: u16, value: u16, premises: &[Premise]) -> bool {
        let row = self.row(term);
        let truth = value == 1;
        match rule {
            0 | 1 => {
                premises.len() == 2
                    && row == eq_row(premises[0].row, premises[1].row)
                    && (premises[0].value == premises[1].value) == (rule == 0)
                    && truth == (rule == 0)
            }
            2 => premises.is_empty() && row == eq_row(row[2], row[2]) && truth,
            3 => {
                premises.len() == 1
                    && row == eq_row(row[2], row[3])
                    && self.row(premises[0].row) == eq_row(row[3], row[2])
                    && premises[0].is_true()
                    && truth
            }
            4 => {
                premises.len() == 2 && truth && {
                    let [first, second] = [self.row(premises[0].row), self.row(premises[1].row)];
                    first[0] == 0
                        && second[0] == 0
                        && first[3] == second[2]
                        && row == eq_row(first[2], second[3])
                        && premises[0].is_true()
                        && premises[1].is_true()
                }
            }
            5 => {
                premises.len() == 1
                    && self.row(premises[0].row) == [1, 0, term, X, X, X]
                    && premises[0].value == 1 - value
            }
            6 => premises.len() == 1 && self.part(term, truth, premises[0]),
            7 => !premises.is_empty() && self.unit(term, truth, premises[0], &premises[1..]),
            8 => {
                self.args(term)
                    .iter()
                    .eq(premises.iter().map(|premise| &premise.row))
                    && self.evaluated(row[0], premises) == Some(truth)
            }
            9 => {
                row[0] == 0 && truth && {
                    let head = self.row(row[2])[0];
                    (head == 4 || head == 5 || head >= 16)
                        && self.row(row[3])[0] == head
                        && self.equal_args(premises, row[2], row[3])
                }
            }
            10 => {
                !premises.is_empty()
                    && row[0] >= 16
                    && self.row(premises[0].row)[0] == row[0]
                    && premises[0].value == value
                    && self.equal_args(&premises[1..], premises[0].row, term)
            }
            11 => {
                premises.is_empty() && truth && row[0] == 0 && self.row(row[2])[0] == 4 && {
                    let [_, _, store, at, ..] = self.row(row[2]);
                    self.row(store)[0] == 5
                        && self.args(store)[1] == at
                        && self.args(store)[2] == row[3]
                }
            }
            12 => premises.len() == 1 && truth && self.skip(row, premises[0]),
            13 => self.deep(term, value, premises),
            _ => unreachable!(),
        }
    }

    fn part(&self, term: u16, truth: bool, whole: Premise) -> bool {
        let asked = match self.row(whole.row)[0] {
            3 => whole.is_false() && !truth,
            2 => whole.is_true() && truth,
            _ => false,
        };
        asked && self.args(whole.row).contains(&term)
    }

    fn unit(&self, term: u16, truth: bool, whole: Premise, others: &[Premise]) -> bool {
        let asked = match self.row(whole.row)[0] {
            3 => whole.is_true() && truth,
            2 => whole.is_false() && !truth,
            _ => false,
        };
        let says = |other: &Premise| match truth {
            true => other.is_false(),
            false => other.is_true(),
        };
        let args = self.args(whole.row);
        let position_fits = |at: usize| {
            let mut left = args.to_vec();
            left.remove(at) == term && left.iter().eq(others.iter().map(|other| &other.row))
        };
        asked && others.iter().all(says) && (0..args.len()).any(position_fits)
    }

    fn evaluated(&self, head: u16, args: &[Premise]) -> Option<bool> {
        match head {
            1 => Some(!args[0].is_true()),
            2 => Some(args.iter().all(|arg| arg.is_true())),
            3 => Some(args.iter().any(|arg| arg.is_true())),
            _ => None,
        }
    }

    fn skip(&self, row: [u16; 6], apart: Premise) -> bool {
        row[0] == 0 && self.row(row[2])[0] == 4 && {
            let [_, _, store, j, ..] = self.row(row[2]);
            self.row(store)[0] == 5 && {
                let [_, _, a, i, ..] = self.row(store);
                let right = self.row(row[3]);
                right[0] == 4
                    && right[2..4] == [a, j]
                    && self.row(apart.row) == eq_row(i, j)
                    && apart.is_false()
            }
        }
    }
}

fn eq_row(left: u16, right: u16) -> [u16; 6] {
    [0, 0, left, right, X, X]
}

/// The list in every order.
fn orders(list: &[u16]) -> Vec<Vec<u16>> {
    let Some((&first, others)) = list.split_first() else {
        return vec![Vec::new()];
    };
    let mut all = Vec::new();
    for order in orders(others) {
        for at in 0..list.len() {
            let mut longer = order.clone();
            longer.insert(at, first);
            all.push(longer);
        }
    }
    all
}

fn as_set(terms: &[u16]) -> Vec<u16> {
    let mut set = Vec::new();
    for &term in terms {
        if !set.contains(&term) {
            set.push(term);
        }
    }
    set
}

/// Everything under the number 9.
pub fn columns_fit(row: &[u16; 9]) -> bool {
    let [step, rule, term, value, premises @ ..] = *row;
    let blank = |column: u16| column == X;
    let none_after = |count: usize| premises[count..].iter().all(|&column| blank(column));
    if blank(term) {
        return false;
    }
    match step {
        0 => blank(rule) && !blank(value) && none_after(0),
        1 | 2 | 7 => {
            let count = premises.iter().filter(|&&column| !blank(column)).count();
            rule <= 13 && value <= 1 && none_after(count)
        }
        3..=5 => blank(rule) && blank(value) && none_after(0),
        6 => blank(rule) && blank(value) && !blank(premises[0]) && none_after(1),
        8 => {
            let count = premises.iter().filter(|&&column| !blank(column)).count();
            blank(rule) && !blank(value) && (2..=4).contains(&count) && none_after(count)
        }
        _ => false,
    }
}
