//! The step learn: every number, every form of a clause, and what it leaves.

use plain::{run, trail_numbers, work_words, BLANK as X};

const OPEN: u16 = 0;
const REFUTED: u16 = 1;
const REFUSED: u16 = 2;

const EQ: u16 = 0;
const NOT: u16 = 1;
const AND: u16 = 2;
const OR: u16 = 3;

const DEDUCE: u16 = 1;
const CLASH: u16 = 2;
const RESOLVE: u16 = 3;
const CLEAR: u16 = 4;
const JUMP: u16 = 5;
const FAIL: u16 = 7;
const LEARN: u16 = 8;

const SAME: u16 = 0;
const NEG: u16 = 5;
const UNIT: u16 = 7;
const EVAL: u16 = 8;

/// The rows that every rig has: two slots and whether they are one, then four
/// dimmers that are on or off and their negations, then whether the slots are two.
const A: u16 = 0;
const B: u16 = 1;
const E: u16 = 2;
const ON: [u16; 4] = [3, 4, 5, 6];
const OFF: [u16; 4] = [7, 8, 9, 10];
const APART: u16 = 11;

fn step(kind: u16, rule: u16, term: u16, value: u16, premises: &[u16]) -> [u16; 9] {
    let mut row = [X; 9];
    row[..4].copy_from_slice(&[kind, rule, term, value]);
    row[4..4 + premises.len()].copy_from_slice(premises);
    row
}

fn learn(clause: u16, level: u16, members: &[u16]) -> [u16; 9] {
    step(LEARN, X, clause, level, members)
}

/// Sheets that grow.
#[derive(Clone)]
struct Rig {
    terms: Vec<[u16; 6]>,
    inputs: Vec<[u16; 2]>,
    steps: Vec<[u16; 9]>,
}

impl Rig {
    fn new() -> Rig {
        let mut rig = Rig {
            terms: vec![[16, 1, X, X, X, X], [17, 1, X, X, X, X]],
            inputs: Vec::new(),
            steps: Vec::new(),
        };
        rig.prop(EQ, &[A, B]);
        for dimmer in ON {
            rig.prop(20 + dimmer, &[]);
        }
        for dimmer in ON {
            rig.prop(NOT, &[dimmer]);
        }
        rig.prop(NOT, &[E]);
        rig
    }

    fn prop(&mut self, head: u16, args: &[u16]) -> u16 {
        let mut row = [X; 6];
        row[..2].copy_from_slice(&[head, 0]);
        row[2..2 + args.len()].copy_from_slice(args);
        self.terms.push(row);
        self.terms.len() as u16 - 1
    }

    fn input(&mut self, term: u16, value: u16) {
        self.inputs.push([term, value]);
    }

    fn step(&mut self, kind: u16, rule: u16, term: u16, value: u16, premises: &[u16]) {
        self.steps.push(step(kind, rule, term, value, premises));
    }

    fn decide(&mut self, term: u16, value: u16) {
        self.step(0, X, term, value, &[]);
    }

    /// Runs with dirty buffers of the least lengths and returns the result and the
    /// trail.
    fn run(&self) -> ([u16; 4], Vec<[u16; 4]>) {
        let n = self.terms.len();
        let mut work = vec![u64::MAX; work_words(n)];
        let mut trail = vec![4242; trail_numbers(n)];
        let out = run(
            &[X, X],
            self.terms.as_flattened(),
            self.inputs.as_flattened(),
            self.steps.as_flattened(),
            &mut work,
            &mut trail,
        );
        assert!(work.iter().all(|&word| word == 0));
        let (entries, rest) = trail.split_at(4 * usize::from(out.entries));
        assert!(rest.iter().all(|&number| number == 4242));
        (
            [out.verdict, out.steps, out.number, out.entries],
            entries.chunks(4).map(|c| c.try_into().unwrap()).collect(),
        )
    }

    /// The trail after one step more, or the number that it is refused with, which
    /// leaves the trail as it is.
    fn then(&self, last: [u16; 9]) -> Result<Vec<[u16; 4]>, u16> {
        let (before, there) = self.run();
        assert_eq!(before[..3], [OPEN, self.steps.len() as u16, 0]);
        let mut rig = self.clone();
        rig.steps.push(last);
        let (result, trail) = rig.run();
        if result[0] == REFUSED {
            assert_eq!(result[1], self.steps.len() as u16);
            assert_eq!(trail, there);
            return Err(result[2]);
        }
        assert_eq!(result[..3], [OPEN, rig.steps.len() as u16, 0]);
        Ok(trail)
    }

    fn number(&self, last: [u16; 9]) -> u16 {
        self.then(last).err().unwrap_or(0)
    }
}

/// A conflict of as many dimmers as there are values, decided at the levels 1, 2
/// and so on, and their or, which is given at level 0 with the value that they do
/// not give it. Returns the or too.
fn dimmers(values: &[u16]) -> (Rig, u16) {
    let mut rig = Rig::new();
    let members = &ON[..values.len()];
    let whole = rig.prop(OR, members);
    let given = values.iter().all(|&value| value == 0);
    rig.input(whole, given.into());
    for (&member, &value) in members.iter().zip(values) {
        rig.decide(member, value);
    }
    rig.step(CLASH, EVAL, whole, (!given).into(), members);
    (rig, whole)
}

/// What a dimmer of a value appears as in a clause.
fn literal(head: u16, at: usize, value: u16) -> u16 {
    match (head, value) {
        (OR, 1) | (AND, 0) => OFF[at],
        _ => ON[at],
    }
}

fn permutations(count: usize) -> Vec<Vec<usize>> {
    if count == 0 {
        return vec![Vec::new()];
    }
    let mut all = Vec::new();
    for order in permutations(count - 1) {
        for at in 0..count {
            let mut order = order.clone();
            order.insert(at, count - 1);
            all.push(order);
        }
    }
    all
}

/// Two, three and four members, true and false in every way, in an or and in an
/// and, with the arguments in every order; and every one of these with a literal
/// of the other kind, with one member fewer, and with a member twice.
#[test]
fn every_clause() {
    for count in 2..=4 {
        for mask in 0..1u16 << count {
            let values: Vec<u16> = (0..count).map(|at| mask >> at & 1).collect();
            for head in [OR, AND] {
                for order in permutations(count) {
                    one_clause(head, &values, &order);
                }
            }
        }
    }
}

fn one_clause(head: u16, values: &[u16], order: &[usize]) {
    let (mut rig, whole) = dimmers(values);
    let members = &ON[..values.len()];
    let mut args: Vec<u16> = order
        .iter()
        .map(|&at| literal(head, at, values[at]))
        .collect();
    if head == OR && args == members {
        // This is the or that is given: it has a value.
        assert_eq!(rig.number(learn(whole, 0, members)), 14);
        return;
    }
    let clause = rig.prop(head, &args);
    let backwards: Vec<u16> = members.iter().rev().copied().collect();
    let given = rig.inputs[0][1];
    let value = u16::from(head == OR);
    for level in 0..values.len() as u16 {
        for named in [members, &backwards] {
            let mut trail = vec![[whole, given, 0, 0]];
            for (at, &member) in members[..usize::from(level)].iter().enumerate() {
                trail.push([member, values[at], at as u16 + 1, 1]);
            }
            trail.push([clause, value, 0, 0]);
            assert_eq!(rig.then(learn(clause, level, named)), Ok(trail));
        }
    }
    assert_eq!(rig.number(learn(clause, values.len() as u16, members)), 21);
    let fewer = [&[X][..], members].concat();
    assert_eq!(rig.number(learn(clause, 0, &fewer[..members.len()])), 9);
    if members.len() > 2 {
        assert_eq!(rig.number(learn(clause, 0, &members[1..])), 25);
        assert_eq!(rig.number(learn(clause, 0, &backwards[1..])), 25);
    }
    if members.len() < 4 {
        let more = [members, &[whole]].concat();
        assert_eq!(rig.number(learn(clause, 0, &more)), 25);
    }
    let mut twice = members.to_vec();
    twice[order[0]] = members[order[1]];
    assert_eq!(rig.number(learn(clause, 0, &twice)), 25);
    for at in 0..args.len() {
        let right = args[at];
        let other = literal(5 - head, order[at], values[order[at]]);
        args[at] = other;
        let wrong = match head == OR && args == members {
            true => whole,
            false => rig.prop(head, &args),
        };
        assert_eq!(rig.number(learn(wrong, 0, members)), 25);
        args[at] = right;
    }
}

/// The rest at level 1, then a slot, then the two members: a level m from that of
/// the rest on, and below that of the members. The entry's level is the rest's.
fn with_a_rest() -> (Rig, u16, u16) {
    let mut rig = Rig::new();
    let whole = rig.prop(AND, &ON[..2]);
    let clause = rig.prop(OR, &[OFF[1], OFF[0]]);
    rig.input(B, 7);
    rig.input(APART, 1);
    rig.decide(whole, 0);
    rig.decide(A, 7);
    rig.decide(ON[0], 1);
    rig.decide(ON[1], 1);
    rig.step(CLASH, EVAL, whole, 1, &ON[..2]);
    (rig, whole, clause)
}

#[test]
fn levels() {
    let (rig, whole, clause) = with_a_rest();
    let members = &ON[..2];
    let trail = [
        [B, 7, 0, 0],
        [APART, 1, 0, 0],
        [whole, 0, 1, 1],
        [A, 7, 2, 1],
        [ON[0], 1, 3, 1],
    ];
    assert_eq!(rig.number(learn(clause, 0, members)), 21);
    for (level, kept) in [(1, 3), (2, 4), (3, 5)] {
        let after = [&trail[..kept], &[[clause, 1, 1, 0]]].concat();
        assert_eq!(rig.then(learn(clause, level, members)), Ok(after));
    }
    for level in [4, 5, 100, 255, 256, 65_534] {
        assert_eq!(rig.number(learn(clause, level, members)), 21);
    }
}

/// The members' level counts, not the trail's: a conflict may stand below the top.
#[test]
fn a_conflict_below_the_top() {
    let mut rig = Rig::new();
    let whole = rig.prop(AND, &ON[..2]);
    let clause = rig.prop(OR, &OFF[..2]);
    rig.input(whole, 0);
    rig.decide(ON[0], 1);
    rig.decide(ON[1], 1);
    rig.decide(A, 7);
    rig.decide(B, 8);
    rig.step(CLASH, EVAL, whole, 1, &ON[..2]);
    for level in [2, 3, 4] {
        assert_eq!(rig.number(learn(clause, level, &ON[..2])), 21);
    }
    let after = vec![[whole, 0, 0, 0], [ON[0], 1, 1, 1], [clause, 1, 0, 0]];
    assert_eq!(rig.then(learn(clause, 1, &ON[..2])), Ok(after));
}

/// A clause added above the level of the rest stays when that level is kept, and
/// then gives what it says by unit.
#[test]
fn a_late_clause_is_kept_and_used() {
    let (mut rig, whole, clause) = with_a_rest();
    rig.steps.push(learn(clause, 2, &ON[..2]));
    rig.step(DEDUCE, NEG, E, 0, &[APART]);
    rig.step(CLASH, SAME, E, 1, &[A, B]);
    rig.step(CLEAR, X, A, X, &[]);
    let kept = vec![
        [B, 7, 0, 0],
        [APART, 1, 0, 0],
        [whole, 0, 1, 1],
        [clause, 1, 1, 0],
        [E, 0, 0, 0],
    ];
    assert_eq!(rig.run().1, kept);
    rig.decide(ON[0], 1);
    rig.step(DEDUCE, EVAL, OFF[0], 0, &ON[..1]);
    rig.step(DEDUCE, UNIT, OFF[1], 1, &[clause, OFF[0]]);
    rig.step(DEDUCE, NEG, ON[1], 0, &[OFF[1]]);
    let used = [[OFF[0], 0, 2, 0], [OFF[1], 1, 2, 0], [ON[1], 0, 2, 0]];
    let (result, trail) = rig.run();
    assert_eq!(result, [OPEN, 13, 0, 9]);
    assert_eq!(trail[6..], used);
}

/// The justification is the rest: resolving the clause brings it back.
#[test]
fn the_clause_rests_on_the_rest() {
    let (mut rig, whole, clause) = with_a_rest();
    rig.steps.push(learn(clause, 1, &ON[..2]));
    rig.decide(OFF[0], 0);
    rig.decide(OFF[1], 0);
    rig.step(CLASH, EVAL, clause, 0, &[OFF[1], OFF[0]]);
    assert_eq!(rig.number(step(RESOLVE, X, whole, X, &[])), 17);
    rig.step(RESOLVE, X, clause, X, &[]);
    assert_eq!(rig.number(step(RESOLVE, X, clause, X, &[])), 17);
    assert_eq!(rig.number(step(RESOLVE, X, whole, X, &[])), 18);
    assert_eq!(rig.number(step(JUMP, X, OFF[0], X, &[])), 21);
    let after = rig.then(step(JUMP, X, OFF[1], X, &[])).unwrap();
    let kept = [[clause, 1, 1, 0], [OFF[0], 0, 2, 1], [OFF[1], 1, 2, 0]];
    assert_eq!(after[3..], kept);
}

/// The whole conflict named, with what was given: the clause rests on nothing and
/// is at level 0, whatever level is kept. So it is for what resolve took away.
#[test]
fn an_empty_rest() {
    for head in [OR, AND] {
        let (mut rig, whole) = dimmers(&[1, 0, 1]);
        let mut args = [0, 1, 2]
            .map(|at| literal(head, at, [1, 0, 1][at]))
            .to_vec();
        let alone = rig.prop(head, &args);
        args.insert(1, whole);
        if head == AND {
            args[1] = rig.prop(NOT, &[whole]);
        }
        let clause = rig.prop(head, &args);
        let value = u16::from(head == OR);
        let all = [&[whole], &ON[..3]].concat();
        for (level, kept) in [(0, 1), (1, 2), (2, 3)] {
            let after = rig.then(learn(clause, level, &all)).unwrap();
            assert_eq!(after.len(), kept + 1);
            assert_eq!(after[kept], [clause, value, 0, 0]);
        }
        assert_eq!(rig.number(learn(clause, 3, &all)), 21);
        rig.step(RESOLVE, X, whole, X, &[]);
        assert_eq!(rig.number(learn(clause, 0, &all)), 17);
        let after = rig.then(learn(alone, 2, &ON[..3])).unwrap();
        assert_eq!(after[3], [alone, value, 0, 0]);
        assert_eq!(rig.number(learn(alone, 3, &ON[..3])), 21);
    }
}

/// A clause at level 0 refutes the input with what is given.
#[test]
fn a_learned_clause_refutes() {
    let mut rig = Rig::new();
    let whole = rig.prop(AND, &ON[..2]);
    let clause = rig.prop(OR, &OFF[..2]);
    rig.input(whole, 0);
    rig.input(OFF[0], 0);
    rig.input(OFF[1], 0);
    rig.decide(ON[0], 1);
    rig.decide(ON[1], 1);
    rig.step(CLASH, EVAL, whole, 1, &ON[..2]);
    rig.steps.push(learn(clause, 1, &ON[..2]));
    rig.step(FAIL, EVAL, clause, 0, &OFF[..2]);
    assert_eq!(rig.run().0, [REFUTED, 5, 0, 5]);
}

/// Positions are paired, not rows: an argument may stand at two of them, for a
/// member and for that member's negation.
#[test]
fn one_argument_at_two_positions() {
    for (head, value) in [(OR, 1), (AND, 0)] {
        let mut rig = Rig::new();
        let (on, off) = (ON[0], OFF[0]);
        let whole = rig.prop(AND, &[on, off]);
        let two = rig.prop(head, &[off, off]);
        let three = rig.prop(head, &[off, off, off]);
        let mixed = rig.prop(head, &[off, on]);
        rig.input(whole, 1);
        rig.decide(on, value);
        rig.step(DEDUCE, EVAL, off, 1 - value, &[on]);
        rig.step(CLASH, EVAL, whole, 0, &[on, off]);
        let after = vec![[whole, 1, 0, 0], [two, value, 0, 0]];
        assert_eq!(rig.then(learn(two, 0, &[on, off])), Ok(after.clone()));
        assert_eq!(rig.then(learn(two, 0, &[off, on])), Ok(after));
        for named in [[on, on], [off, off], [on, whole]] {
            assert_eq!(rig.number(learn(two, 0, &named)), 25);
        }
        assert_eq!(rig.number(learn(three, 0, &[on, off])), 25);
        assert_eq!(rig.number(learn(three, 0, &[on, off, on])), 25);
        assert_eq!(rig.number(learn(mixed, 0, &[on, off])), 25);
    }
}

/// A negation that is true appears as its own negation, never as what it negates.
#[test]
fn a_negated_negation() {
    for (head, value) in [(OR, 1), (AND, 0)] {
        let mut rig = Rig::new();
        let (off, other) = (OFF[0], ON[1]);
        let whole = rig.prop(OR, &[off, other]);
        let again = rig.prop(NOT, &[off]);
        let denied = literal(head, 1, value);
        let short = rig.prop(head, &[ON[0], denied]);
        let long = rig.prop(head, &[again, denied]);
        rig.input(whole, 1 - value);
        rig.decide(off, value);
        rig.decide(other, value);
        rig.step(CLASH, EVAL, whole, value, &[off, other]);
        assert_eq!(rig.number(learn(short, 0, &[off, other])), 25);
        let after = vec![[whole, 1 - value, 0, 0], [long, value, 0, 0]];
        assert_eq!(rig.then(learn(long, 0, &[off, other])), Ok(after));
    }
}

/// A conflict over two slots and their equality, and two dimmers.
fn slots() -> Rig {
    let mut rig = Rig::new();
    rig.input(B, 7);
    rig.input(APART, 1);
    rig.decide(ON[0], 1);
    rig.decide(A, 7);
    rig.step(DEDUCE, NEG, E, 0, &[APART]);
    rig.step(CLASH, SAME, E, 1, &[A, B]);
    rig
}

#[test]
fn the_columns() {
    let (rig, _, clause) = with_a_rest();
    let [p, q] = [ON[0], ON[1]];
    let good = learn(clause, 1, &[p, q]);
    assert_eq!(rig.number(good), 0);
    for (column, number) in [(1, 0), (1, 12), (2, X), (3, X), (4, X), (5, X), (8, p)] {
        let mut row = good;
        row[column] = number;
        assert_eq!(rig.number(row), 9, "column {column}");
    }
    for members in [
        &[p, q, X, p][..],
        &[p, X, q],
        &[X, p, q],
        &[p, X, X, q],
        &[p],
        &[],
        &[p, q, p, q, p],
        &[p, q, X, X, p],
    ] {
        assert_eq!(rig.number(learn(clause, 1, members)), 9);
    }
    for level in [0, 2, 17, 65_534] {
        assert_ne!(rig.number(learn(clause, level, &[p, q])), 9);
    }
    for unlisted in [LEARN + 1, 10, X] {
        let mut row = good;
        row[0] = unlisted;
        assert_eq!(rig.number(row), 9);
    }
}

/// Each number where all later ones that can be are at fault too.
#[test]
fn the_order() {
    let (mut rig, whole, clause) = with_a_rest();
    let no_row = rig.terms.len() as u16;
    let [p, q] = [ON[0], ON[1]];
    let [late, far] = [4, 65_534];
    assert_eq!(
        rig.number(step(LEARN, 0, no_row, far, &[no_row, no_row])),
        9
    );
    assert_eq!(rig.number(learn(no_row, late, &[A, p])), 11);
    assert_eq!(rig.number(learn(X - 1, late, &[p, q])), 11);
    assert_eq!(rig.number(learn(whole, late, &[no_row, A])), 11);
    assert_eq!(rig.number(learn(whole, late, &[A, A, no_row])), 11);
    assert_eq!(rig.number(learn(whole, late, &[A, A, A, no_row])), 11);
    // Not members: on the trail or not, of sort prop or not.
    for named in [[A, A], [p, A], [OFF[0], p], [p, OFF[0]], [B, E]] {
        assert_eq!(rig.number(learn(E, far, &named)), 17);
        assert_eq!(rig.number(learn(clause, 1, &named)), 17);
    }
    assert_eq!(rig.number(learn(clause, 1, &[p, q, A])), 17);
    assert_eq!(rig.number(learn(clause, 1, &[p, q, whole, A])), 17);
    // Terms that are no clauses: an equality, a dimmer, a negation, a slot.
    for term in [E, p, OFF[2], A] {
        assert_eq!(rig.number(learn(term, far, &[p, p])), 22);
        assert_eq!(rig.number(learn(term, 1, &[p, q])), 22);
    }
    // Clauses that do not match, with a value and without, and a member twice.
    assert_eq!(rig.number(learn(whole, far, &[p, p])), 25);
    assert_eq!(rig.number(learn(whole, far, &[p, whole])), 25);
    assert_eq!(rig.number(learn(clause, 1, &[p, p])), 25);
    assert_eq!(rig.number(learn(clause, far, &[p, whole])), 25);
    assert_eq!(rig.number(learn(clause, 1, &[p, q, whole])), 25);
    // One that matches, with a value.
    assert_eq!(rig.number(learn(whole, far, &[p, q])), 14);
    assert_eq!(rig.number(learn(whole, 1, &[p, q])), 14);
    assert_eq!(rig.number(learn(clause, far, &[p, q])), 21);
    rig.steps.pop();
    assert_eq!(rig.number(learn(X, far, &[no_row, no_row])), 9);
    assert_eq!(rig.number(learn(no_row, far, &[no_row, no_row])), 10);
    assert_eq!(rig.number(learn(clause, 1, &[p, q])), 10);
}

/// 22 by a member that is not of sort prop, whatever the clause is.
#[test]
fn members_of_sort_prop() {
    let mut rig = slots();
    let clause = rig.prop(OR, &[E, APART]);
    for named in [[A, B], [A, E], [E, A], [B, E]] {
        for term in [clause, E, A, APART] {
            assert_eq!(rig.number(learn(term, 0, &named)), 22);
        }
    }
    assert_eq!(rig.number(learn(clause, 0, &[E, E])), 25);
    assert_eq!(rig.number(learn(clause, 0, &[E, ON[0]])), 17);
    assert_eq!(rig.number(learn(clause, 0, &[E, E, A])), 22);
    assert_eq!(rig.number(learn(clause, 0, &[E, E, E, B])), 22);
}

/// 14 for any value, at any level, that which the learn would give it or the other,
/// even where the entry would be dropped.
#[test]
fn a_clause_that_has_a_value() {
    let members = &ON[..2];
    for value in [0, 1] {
        for level in [0, 1, 3] {
            let mut rig = Rig::new();
            let whole = rig.prop(AND, members);
            let clause = rig.prop(OR, &OFF[..2]);
            rig.input(whole, 0);
            if level == 0 {
                rig.input(clause, value);
            }
            for (at, &member) in members.iter().enumerate() {
                if level == at as u16 + 1 {
                    rig.decide(clause, value);
                }
                rig.decide(member, 1);
            }
            if level == 3 {
                rig.decide(clause, value);
            }
            rig.step(CLASH, EVAL, whole, 1, members);
            for to in [0, 1, 2, 65_534] {
                assert_eq!(rig.number(learn(clause, to, members)), 14);
            }
        }
    }
}

/// Members below the level of the rest: no level will do.
#[test]
fn members_below_the_rest() {
    let (mut rig, _) = dimmers(&[1, 1, 1]);
    let below = rig.prop(OR, &OFF[..2]);
    let across = rig.prop(OR, &[OFF[0], OFF[2]]);
    for level in 0..5 {
        assert_eq!(rig.number(learn(below, level, &ON[..2])), 21);
        let number = if level == 2 { 0 } else { 21 };
        assert_eq!(rig.number(learn(across, level, &[ON[0], ON[2]])), number);
    }
    let kept = rig.then(learn(across, 2, &[ON[2], ON[0]])).unwrap();
    assert_eq!(kept[3], [across, 1, 2, 0]);
}
