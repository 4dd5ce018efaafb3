//! The rule deep: walks that give a value, and every way in which one does not.

use plain::{run, trail_numbers, work_words, BLANK as X};

const NOT: u16 = 1;
const AND: u16 = 2;
const OR: u16 = 3;

const DECIDE: u16 = 0;
const DEDUCE: u16 = 1;
const CLASH: u16 = 2;
const FAIL: u16 = 7;

const EVAL: u16 = 8;
const DEEP: u16 = 13;

/// Verdict, number and place.
const ALLOWED: [u16; 3] = [0, 0, 0];
const REFUTED: [u16; 3] = [1, 0, 0];
const UNFIT: [u16; 3] = [2, 13, 3];

fn refused(number: u16) -> [u16; 3] {
    [2, number, 0]
}

/// The rows that every rig has: two slots, whether they are one, and five dimmers that
/// are on or off.
const A: u16 = 0;
const B: u16 = 1;
const SAME_SLOT: u16 = 2;
const ON: [u16; 5] = [3, 4, 5, 6, 7];

#[derive(Clone)]
struct Rig {
    terms: Vec<[u16; 6]>,
    inputs: Vec<[u16; 2]>,
    steps: Vec<[u16; 9]>,
}

fn row(kind: u16, rule: u16, term: u16, value: u16, premises: &[u16]) -> [u16; 9] {
    let mut row = [X; 9];
    row[..4].copy_from_slice(&[kind, rule, term, value]);
    row[4..4 + premises.len()].copy_from_slice(premises);
    row
}

impl Rig {
    fn new() -> Rig {
        let mut rig = Rig {
            terms: vec![[16, 1, X, X, X, X], [17, 1, X, X, X, X]],
            inputs: Vec::new(),
            steps: Vec::new(),
        };
        rig.prop(0, &[A, B]);
        for dimmer in ON {
            rig.prop(20 + dimmer, &[]);
        }
        rig
    }

    /// A rig whose dimmers are given, on or off.
    fn lit(values: &[u16]) -> Rig {
        let mut rig = Rig::new();
        for (&dimmer, &value) in ON.iter().zip(values) {
            rig.input(dimmer, value);
        }
        rig
    }

    fn prop(&mut self, head: u16, args: &[u16]) -> u16 {
        let mut row = [X; 6];
        row[..2].copy_from_slice(&[head, 0]);
        row[2..2 + args.len()].copy_from_slice(args);
        self.terms.push(row);
        self.terms.len() as u16 - 1
    }

    /// So many negations on a term, the last of them.
    fn nots(&mut self, term: u16, count: usize) -> u16 {
        (0..count).fold(term, |term, _| self.prop(NOT, &[term]))
    }

    fn input(&mut self, term: u16, value: u16) {
        self.inputs.push([term, value]);
    }

    fn decide(&mut self, term: u16, value: u16) {
        self.steps.push(row(DECIDE, X, term, value, &[]));
    }

    /// Verdict, number and place, and the trail; with dirty buffers.
    fn run(&self) -> ([u16; 3], Vec<u16>) {
        let n = self.terms.len();
        let mut work = vec![u64::MAX; work_words(n)];
        let mut trail = vec![4242; trail_numbers(n)];
        let out = run(
            &[X, X],
            self.terms.as_flattened(),
            self.inputs.as_flattened(),
            self.steps.as_flattened(),
            &mut work,
            &mut trail,
        );
        assert!(work.iter().all(|&word| word == 0));
        trail.truncate(4 * usize::from(out.entries));
        ([out.verdict, out.number, out.place], trail)
    }

    /// What becomes of one more step.
    fn then(&self, kind: u16, rule: u16, term: u16, value: u16, premises: &[u16]) -> [u16; 3] {
        let mut rig = self.clone();
        rig.steps.push(row(kind, rule, term, value, premises));
        rig.run().0
    }

    fn deduce(&self, term: u16, value: u16, premises: &[u16]) -> [u16; 3] {
        self.then(DEDUCE, DEEP, term, value, premises)
    }

    /// Asserts that deep gives the term the value, and not the other.
    fn assert_gives(&self, term: u16, value: u16, premises: &[u16]) {
        assert_eq!(self.deduce(term, value, premises), ALLOWED, "{premises:?}");
        assert_eq!(
            self.deduce(term, 1 - value, premises),
            UNFIT,
            "{premises:?}"
        );
    }

    /// Asserts that deep gives the term no value; a clash and a fail are refused alike.
    fn assert_gives_none(&self, term: u16, premises: &[u16]) {
        for kind in [DEDUCE, CLASH, FAIL] {
            for value in [0, 1] {
                let end = self.then(kind, DEEP, term, value, premises);
                assert_eq!(end, UNFIT, "{kind} {value} {premises:?}");
            }
        }
    }
}

/// Three layers: an or of an and of a not.
fn three_layers(rig: &mut Rig) -> u16 {
    let not = rig.prop(NOT, &[ON[1]]);
    let and = rig.prop(AND, &[ON[0], not]);
    rig.prop(OR, &[ON[2], and])
}

#[test]
fn three_layers_refute() {
    let mut rig = Rig::lit(&[1, 0, 0]);
    let top = three_layers(&mut rig);
    rig.assert_gives(top, 1, &[ON[0], ON[1], ON[2]]);
    rig.input(top, 0);
    let premises = [ON[2], ON[0], ON[1]];
    assert_eq!(rig.then(FAIL, DEEP, top, 1, &premises), REFUTED);
    assert_eq!(rig.then(CLASH, DEEP, top, 1, &premises), refused(26));
    // A premise that is decided makes it a clash.
    rig.inputs.retain(|input| input[0] != ON[2]);
    rig.decide(ON[2], 0);
    assert_eq!(rig.then(CLASH, DEEP, top, 1, &premises), ALLOWED);
    assert_eq!(rig.then(FAIL, DEEP, top, 1, &premises), refused(26));
}

#[test]
fn all_values_of_three_layers() {
    for values in 0..8u16 {
        let [one, two, three] = [0, 1, 2].map(|at| values >> at & 1);
        let mut rig = Rig::lit(&[one, two, three]);
        let top = three_layers(&mut rig);
        let value = three | one & (1 - two);
        rig.assert_gives(top, value, &[ON[0], ON[1], ON[2]]);
    }
}

/// Whatever eval allows deep allows, with the same trail; what it gives no value from
/// all arguments in order deep does not give one either.
#[test]
fn all_that_eval_allows() {
    for (head, count) in [
        (NOT, 1),
        (AND, 2),
        (AND, 3),
        (AND, 4),
        (OR, 2),
        (OR, 3),
        (OR, 4),
    ] {
        for values in 0..1u16 << count {
            let values: Vec<u16> = (0..count).map(|at| values >> at & 1).collect();
            let mut rig = Rig::lit(&values);
            let top = rig.prop(head, &ON[..count]);
            let ends = [0, 1].map(|value| {
                let [eval, deep] = [EVAL, DEEP].map(|rule| {
                    let mut rig = rig.clone();
                    rig.steps.push(row(DEDUCE, rule, top, value, &ON[..count]));
                    rig.run()
                });
                assert_eq!(eval.0[1], deep.0[1]);
                assert_eq!(eval.1, deep.1);
                deep.0[1]
            });
            assert!(ends == [0, 13] || ends == [13, 0]);
        }
    }
    let mut rig = Rig::lit(&[1]);
    let both = rig.prop(OR, &[ON[0], ON[0]]);
    rig.assert_gives(both, 1, &[ON[0], ON[0]]);
    rig.assert_gives(both, 1, &[ON[0]]);
}

#[test]
fn premises_in_any_order() {
    let mut rig = Rig::lit(&[1, 1, 0, 1, 0]);
    let [one, two] = [&ON[..3], &ON[2..]].map(|args| rig.prop(AND, args));
    let not = rig.prop(NOT, &[two]);
    let top = rig.prop(OR, &[one, not]);
    let mut order = ON.to_vec();
    for at in 0..120 {
        rig.assert_gives(top, 1, &order);
        order.swap(at % 4, at % 4 + 1);
    }
    for left_out in ON {
        let others: Vec<u16> = ON.into_iter().filter(|&on| on != left_out).collect();
        rig.assert_gives_none(top, &others);
    }
}

#[test]
fn eight_layers_at_most() {
    for count in 1..=12 {
        let mut rig = Rig::lit(&[1]);
        let top = rig.nots(ON[0], count);
        match count <= 8 {
            true => rig.assert_gives(top, 1 - count as u16 % 2, &[ON[0]]),
            false => rig.assert_gives_none(top, &[ON[0]]),
        }
        // From a premise on the way the layers count anew.
        let mut rig = Rig::new();
        let middle = rig.nots(ON[0], 3);
        let top = rig.nots(middle, count);
        rig.input(middle, 0);
        match count <= 8 {
            true => rig.assert_gives(top, count as u16 % 2, &[middle]),
            false => rig.assert_gives_none(top, &[middle]),
        }
    }
}

/// The longest path counts, whichever the walk takes first.
#[test]
fn layers_along_each_path() {
    for long in [7, 8] {
        for first in [0, 1] {
            let mut rig = Rig::lit(&[1, 1]);
            let end = rig.nots(ON[0], long);
            let mut args = [ON[1], ON[1]];
            args[first] = end;
            let top = rig.prop(OR, &args);
            match long {
                7 => rig.assert_gives(top, 1, &[ON[0], ON[1]]),
                _ => rig.assert_gives_none(top, &[ON[0], ON[1]]),
            }
        }
    }
}

/// A row that two paths come to, at different layers: below it there are five more.
#[test]
fn a_row_at_two_layers() {
    for above in [2, 3] {
        for first in [0, 1] {
            let mut rig = Rig::lit(&[1]);
            let shared = rig.nots(ON[0], 5);
            let higher = rig.nots(shared, above);
            let mut args = [shared, shared];
            args[first] = higher;
            let top = rig.prop(AND, &args);
            match above {
                2 => rig.assert_gives(top, 0, &[ON[0]]),
                _ => rig.assert_gives_none(top, &[ON[0]]),
            }
        }
    }
}

/// Layers of four rows, each over all four rows of the layer below.
#[test]
fn shared_rows_are_walked_once() {
    for layers in 1..=9 {
        let mut rig = Rig::lit(&[1, 0, 1, 1]);
        let mut below = [ON[0], ON[1], ON[2], ON[3]];
        let mut values = [1, 0, 1, 1];
        for _ in 1..layers {
            let orders = [0, 1, 2, 3].map(|at| {
                let mut args = below;
                args.rotate_left(at);
                args
            });
            let heads = [AND, OR, OR, AND];
            below = [0, 1, 2, 3].map(|at| rig.prop(heads[at], &orders[at]));
            let (all, any) = (values.iter().min(), values.iter().max());
            values = heads.map(|head| *(if head == AND { all } else { any }).unwrap());
        }
        let top = rig.prop(AND, &below);
        let value = *values.iter().min().unwrap();
        let premises = [ON[3], ON[1], ON[0], ON[2]];
        match layers <= 8 {
            true => rig.assert_gives(top, value, &premises),
            false => rig.assert_gives_none(top, &premises),
        }
    }
}

/// All arguments need a value, even where one settles the result.
#[test]
fn a_leaf_without_a_value() {
    let mut rig = Rig::lit(&[1, 0]);
    let or = rig.prop(OR, &[ON[0], ON[2]]);
    let and = rig.prop(AND, &[ON[2], ON[1]]);
    let slots = rig.prop(OR, &[ON[0], SAME_SLOT]);
    let top = rig.prop(OR, &[or, and]);
    rig.assert_gives_none(or, &[ON[0]]);
    rig.assert_gives_none(and, &[ON[1]]);
    rig.assert_gives_none(top, &[ON[0], ON[1]]);
    // On the trail, but no premise.
    rig.input(ON[2], 1);
    rig.assert_gives_none(top, &[ON[0], ON[1]]);
    rig.assert_gives(top, 1, &[ON[0], ON[1], ON[2]]);
    // An equality is a leaf, whatever its sides are.
    rig.input(A, 7);
    rig.input(B, 7);
    rig.assert_gives_none(slots, &[ON[0]]);
    rig.assert_gives_none(slots, &[ON[0], A, B]);
    rig.input(SAME_SLOT, 0);
    rig.assert_gives(slots, 1, &[ON[0], SAME_SLOT]);
    // The conclusion itself is the leaf.
    rig.assert_gives_none(ON[3], &[ON[0]]);
    rig.assert_gives_none(or, &[]);
}

#[test]
fn premises_that_are_not_met() {
    let mut rig = Rig::lit(&[1, 0, 1]);
    let and = rig.prop(AND, &[ON[0], ON[1]]);
    let or = rig.prop(OR, &[and, ON[0]]);
    let top = rig.prop(NOT, &[or]);
    rig.input(and, 0);
    rig.input(A, 1);
    rig.input(SAME_SLOT, 1);
    rig.assert_gives(top, 0, &[ON[0], and]);
    rig.assert_gives(top, 0, &[ON[0], ON[1]]);
    // Elsewhere; not a prop; below another premise alone.
    rig.assert_gives_none(top, &[ON[0], and, ON[2]]);
    rig.assert_gives_none(top, &[A, ON[0], and]);
    rig.assert_gives_none(top, &[ON[0], ON[1], and]);
    // Below another premise and beside it.
    let beside = rig.prop(AND, &[and, ON[1]]);
    rig.assert_gives(beside, 0, &[ON[1], and]);
    // The sides of an equality that is a premise.
    let slots = rig.prop(NOT, &[SAME_SLOT]);
    rig.assert_gives(slots, 0, &[SAME_SLOT]);
    rig.assert_gives_none(slots, &[SAME_SLOT, A]);
}

/// A premise that is a connective has its value, whatever its arguments would give.
#[test]
fn a_premise_has_its_own_value() {
    let mut rig = Rig::lit(&[1, 1]);
    let and = rig.prop(AND, &[ON[0], ON[1]]);
    let top = rig.prop(NOT, &[and]);
    rig.decide(and, 0);
    rig.assert_gives(top, 1, &[and]);
    rig.assert_gives(top, 0, &[ON[0], ON[1]]);
}

#[test]
fn premises_may_repeat() {
    let mut rig = Rig::lit(&[1, 0]);
    let or = rig.prop(OR, &[ON[0], ON[1]]);
    rig.assert_gives(or, 1, &[ON[0], ON[0], ON[1], ON[0], ON[1]]);
    rig.assert_gives_none(or, &[ON[0], ON[0]]);
    rig.input(A, 0);
    rig.assert_gives_none(or, &[ON[0], ON[1], A, A]);
}

#[test]
fn the_conclusion_as_its_own_premise() {
    let mut rig = Rig::lit(&[1, 0]);
    let or = rig.prop(OR, &[ON[0], ON[1]]);
    rig.input(or, 0);
    for term in [or, ON[1]] {
        for premises in [&[term][..], &[term, term]] {
            assert_eq!(rig.deduce(term, 0, premises), refused(14));
            assert_eq!(rig.deduce(term, 1, premises), UNFIT);
            for kind in [CLASH, FAIL] {
                assert_eq!(rig.then(kind, DEEP, term, 0, premises), refused(16));
                assert_eq!(rig.then(kind, DEEP, term, 1, premises), UNFIT);
            }
        }
    }
    // The walk ends at it at once, so that others are not met.
    rig.assert_gives_none(or, &[or, ON[0], ON[1]]);
    assert_eq!(rig.deduce(or, 1, &[ON[0], ON[1]]), refused(15));
}

#[test]
fn numbers_in_their_order() {
    let mut rig = Rig::lit(&[1]);
    let not = rig.prop(NOT, &[ON[0]]);
    let both = rig.prop(AND, &[ON[0], ON[1]]);
    rig.input(A, 1);
    // Were a slot a prop, it would be its own premise.
    for kind in [DEDUCE, CLASH, FAIL] {
        assert_eq!(rig.then(kind, DEEP, A, 1, &[A]), refused(22));
        assert_eq!(rig.then(kind, DEEP, A, 1, &[ON[1]]), refused(22));
        let absent = rig.then(kind, DEEP, both, 1, &[ON[0], ON[1]]);
        assert_eq!(absent, [2, 12, 6]);
        let absent = rig.then(kind, DEEP, not, 1, &[ON[0], ON[0], both]);
        assert_eq!(absent, [2, 12, 7]);
        assert_eq!(rig.then(kind, DEEP, not, 2, &[ON[0]]), refused(9));
        assert_eq!(rig.then(kind, DEEP + 1, not, 0, &[ON[0]]), refused(9));
        let no_row = rig.then(kind, DEEP, A, 0, &[ON[1], 99]);
        assert_eq!(no_row, [2, 11, 6]);
    }
    rig.input(not, 1);
    assert_eq!(rig.deduce(not, 1, &[ON[0]]), UNFIT);
    assert_eq!(rig.deduce(not, 0, &[ON[0]]), refused(15));
    assert_eq!(rig.then(FAIL, DEEP, not, 0, &[ON[0]]), REFUTED);
    assert_eq!(rig.then(CLASH, DEEP, not, 0, &[ON[0]]), refused(26));
    assert_eq!(rig.then(CLASH, DEEP, not, 1, &[ON[0]]), UNFIT);
}

/// The entry rests on the premises, and its level is the greatest of theirs.
#[test]
fn what_it_rests_on() {
    let mut rig = Rig::lit(&[1]);
    let not = rig.prop(NOT, &[ON[1]]);
    let top = rig.prop(AND, &[not, ON[0], ON[2]]);
    rig.decide(ON[1], 0);
    rig.decide(ON[2], 1);
    rig.decide(ON[3], 1);
    let premises = [ON[0], ON[1], ON[2]];
    rig.steps.push(row(DEDUCE, DEEP, top, 1, &premises));
    let (end, trail) = rig.run();
    assert_eq!(end, ALLOWED);
    assert_eq!(trail[16..], [top, 1, 2, 0]);
    // A rule of level 0 against it: the conflict is worked back to two decisions.
    let out = rig.prop(NOT, &[top]);
    rig.input(out, 1);
    rig.steps.push(row(CLASH, 5, top, 0, &[out]));
    rig.steps.push(row(3, X, top, X, &[]));
    rig.steps.push(row(5, X, ON[2], X, &[]));
    let (end, trail) = rig.run();
    assert_eq!(end, ALLOWED);
    assert_eq!(trail[12..], [ON[2], 0, 1, 0]);
}

#[test]
fn the_word_in_a_text() {
    let text = |rule: &str| {
        let rows = "p P prop - - - -\nn not prop p - - -\nm not prop n - - -\n";
        let step = format!("fail {rule} m true p - - - -\n");
        let sheets = format!("sort index value\n\nterm head sort a b c d\n{rows}\n");
        let inputs = "term value\np true\nm false\n";
        format!("{sheets}{inputs}\nstep rule term value p q r s t\n{step}")
    };
    let number = |rule: &str| plain::check(text(rule).as_bytes()).outcome.number;
    assert_eq!(plain::check(text("deep").as_bytes()).outcome.verdict, 1);
    for word in ["Deep", "dee", "deeps", "13", "14"] {
        assert_eq!(number(word), 9, "{word}");
    }
    let said = plain::check(text("deep").replace("m true p", "m false p").as_bytes()).said();
    assert_eq!(said, "line 13, field 3: 13 the rule does not fit\n");
}
