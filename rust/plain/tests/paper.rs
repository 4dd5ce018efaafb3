//! The paper's runs, its text and its ceilings.

use plain::{read, run, trail_numbers, work_words, Outcome, Read, BLANK as X};

const OPEN: u16 = 0;
const REFUTED: u16 = 1;
const REFUSED: u16 = 2;

const SORTS: &[u16] = &[X, X];

/// a, b, e, fa, fb, g, then not(e) and or(e,g).
#[rustfmt::skip]
const TERMS: &[u16] = &[
    16, 1, X, X, X, X,
    17, 1, X, X, X, X,
    0, 0, 0, 1, X, X,
    18, 1, 0, X, X, X,
    18, 1, 1, X, X, X,
    0, 0, 3, 4, X, X,
    1, 0, 2, X, X, X,
    3, 0, 2, 5, X, X,
];

const A: u16 = 0;
const B: u16 = 1;
const E: u16 = 2;
const G: u16 = 5;
const FA: u16 = 3;
const NOT_E: u16 = 6;
const E_OR_G: u16 = 7;

const CLASH: u16 = 2;
const FAIL: u16 = 7;
const LEARN: u16 = 8;

fn step(kind: u16, rule: u16, term: u16, value: u16, premises: &[u16]) -> [u16; 9] {
    let mut row = [X; 9];
    row[..4].copy_from_slice(&[kind, rule, term, value]);
    row[4..4 + premises.len()].copy_from_slice(premises);
    row
}

fn decide(term: u16, value: u16) -> [u16; 9] {
    step(0, X, term, value, &[])
}

fn the_clash() -> [u16; 9] {
    step(CLASH, 9, G, 1, &[E])
}

fn the_fail() -> [u16; 9] {
    step(FAIL, 9, G, 1, &[E])
}

/// Runs on the small board with dirty buffers of the least lengths and returns
/// the result and the trail.
fn board(inputs: &[[u16; 2]], steps: &[[u16; 9]]) -> ([u16; 4], Vec<[u16; 4]>) {
    let n = TERMS.len() / 6;
    let mut work = vec![u64::MAX; work_words(n)];
    let mut trail = vec![4242; trail_numbers(n)];
    let out = run(
        SORTS,
        TERMS,
        &inputs.concat(),
        &steps.concat(),
        &mut work,
        &mut trail,
    );
    assert!(work.iter().all(|&word| word == 0));
    let (entries, rest) = trail.split_at(4 * usize::from(out.entries));
    assert!(rest.iter().all(|&number| number == 4242));
    let entries = entries.chunks(4).map(|c| c.try_into().unwrap());
    (
        [out.verdict, out.steps, out.number, out.entries],
        entries.collect(),
    )
}

fn result(inputs: &[[u16; 2]], steps: &[[u16; 9]]) -> [u16; 4] {
    board(inputs, steps).0
}

#[test]
fn runs_on_the_small_board() {
    assert_eq!(result(&[], &[]), [OPEN, 0, 0, 0]);
    assert_eq!(result(&[[E, 1], [G, 0]], &[the_fail()]), [REFUTED, 1, 0, 2]);
    assert_eq!(result(&[[E, 1]], &[the_fail()]), [REFUSED, 0, 16, 1]);
    assert_eq!(
        board(
            &[[G, 0]],
            &[decide(E, 1), the_clash(), step(5, X, E, X, &[])]
        ),
        ([OPEN, 3, 0, 2], vec![[G, 0, 0, 0], [E, 0, 0, 0]])
    );
    assert_eq!(
        result(&[], &[decide(A, 7), decide(A, 7)]),
        [REFUSED, 1, 14, 1]
    );
    assert_eq!(result(&[], &[step(3, X, A, X, &[])]), [REFUSED, 0, 10, 0]);
}

#[test]
fn barred_resolve_and_jump() {
    let four = [
        decide(A, 7),
        decide(B, 7),
        step(1, 0, E, 1, &[A, B]),
        the_clash(),
    ];
    let with = |last| [&four[..], &[last]].concat();
    assert_eq!(
        result(&[[G, 0]], &with(step(3, X, E, X, &[]))),
        [REFUSED, 4, 19, 4]
    );
    assert_eq!(
        result(&[[G, 0]], &with(step(5, X, E, X, &[]))),
        [OPEN, 5, 0, 2]
    );
}

/// The same conflict with a row for or(not(e),g), which can be learned: neither that
/// a member is barred from resolving nor that one was given stands in the way.
#[test]
fn learn_where_resolve_is_barred() {
    let terms = [TERMS, &[3, 0, NOT_E, G, X, X]].concat();
    let clause = 8;
    let end = |level: u16, members: &[u16]| {
        let steps = [
            decide(A, 7),
            decide(B, 7),
            step(1, 0, E, 1, &[A, B]),
            the_clash(),
            step(LEARN, X, clause, level, members),
        ];
        let mut work = [0; work_words(9)];
        let mut trail = [0; trail_numbers(9)];
        let steps = steps.concat();
        let out = run(SORTS, &terms, &[G, 0], &steps, &mut work, &mut trail);
        let entries = 4 * usize::from(out.entries);
        ((out.verdict, out.number), trail[..entries].to_vec())
    };
    let low = [G, 0, 0, 0, clause, 1, 0, 0];
    assert_eq!(end(0, &[E, G]), ((OPEN, 0), low.to_vec()));
    let high = [G, 0, 0, 0, A, 7, 1, 1, clause, 1, 0, 0];
    assert_eq!(end(1, &[G, E]), ((OPEN, 0), high.to_vec()));
    assert_eq!(end(2, &[E, G]).0, (REFUSED, 21));
    assert_eq!(end(0, &[E, E]).0, (REFUSED, 25));
    assert_eq!(end(0, &[E, NOT_E]).0, (REFUSED, 17));
}

#[test]
fn clear_keeps_the_late_entry() {
    let four = [
        decide(A, 7),
        decide(B, 7),
        step(1, 5, E, 0, &[NOT_E]),
        step(CLASH, 0, E, 1, &[A, B]),
    ];
    let with = |last| [&four[..], &[last]].concat();
    assert_eq!(
        board(&[[NOT_E, 1]], &with(step(4, X, B, X, &[]))),
        (
            [OPEN, 5, 0, 3],
            vec![[NOT_E, 1, 0, 0], [A, 7, 1, 1], [E, 0, 0, 0]]
        )
    );
    assert_eq!(
        result(&[[NOT_E, 1]], &with(step(4, X, A, X, &[]))),
        [REFUSED, 4, 21, 4]
    );
}

/// The results of a clash and of the fail that is like it, after the same steps.
fn both(
    inputs: &[[u16; 2]],
    before: &[[u16; 9]],
    rule: u16,
    term: u16,
    premises: &[u16],
) -> [[u16; 3]; 2] {
    [CLASH, FAIL].map(|kind| {
        let last = step(kind, rule, term, 1, premises);
        let [verdict, steps, number, _] = result(inputs, &[before, &[last]].concat());
        [verdict, steps, number]
    })
}

#[test]
fn clash_or_fail_by_the_level() {
    let cong = |inputs: &[[u16; 2]], before: &[[u16; 9]]| both(inputs, before, 9, G, &[E]);
    let opened = |steps| [[OPEN, steps, 0], [REFUSED, steps - 1, 26]];
    let refuted = |steps| [[REFUSED, steps - 1, 26], [REFUTED, steps, 0]];
    assert_eq!(cong(&[[E, 1], [G, 0]], &[]), refuted(1));
    assert_eq!(cong(&[[E, 1], [G, 0]], &[decide(A, 7)]), refuted(2));
    assert_eq!(cong(&[[G, 0]], &[decide(E, 1)]), opened(2));
    assert_eq!(cong(&[[E, 1]], &[decide(G, 0)]), opened(2));
    assert_eq!(cong(&[], &[decide(E, 1), decide(G, 0)]), opened(3));
    let late = step(1, 5, E, 0, &[NOT_E]);
    let same = |before: &[[u16; 9]]| both(&[[NOT_E, 1], [A, 7]], before, 0, E, &[A, B]);
    assert_eq!(same(&[decide(B, 7), decide(FA, 1), late]), opened(4));
    assert_eq!(same(&[decide(B, 7), late]), opened(3));
    assert_eq!(
        both(&[[NOT_E, 1], [A, 7], [B, 7]], &[late], 0, E, &[A, B]),
        refuted(2)
    );
}

/// The board with a row for a=a, which refl gives with no premise.
#[test]
fn the_level_of_no_premises() {
    let terms = [TERMS, &[0, 0, A, A, X, X]].concat();
    let end = |kind: u16, inputs: &[u16], steps: &[[u16; 9]]| {
        let steps = [steps, &[step(kind, 2, 8, 1, &[])]].concat().concat();
        let mut work = [0; work_words(9)];
        let mut trail = [0; trail_numbers(9)];
        let out = run(SORTS, &terms, inputs, &steps, &mut work, &mut trail);
        (out.verdict, out.number)
    };
    assert_eq!(end(FAIL, &[8, 0], &[]), (REFUTED, 0));
    assert_eq!(end(CLASH, &[8, 0], &[]), (REFUSED, 26));
    assert_eq!(end(FAIL, &[], &[decide(8, 0)]), (REFUSED, 26));
    assert_eq!(end(CLASH, &[], &[decide(8, 0)]), (OPEN, 0));
    assert_eq!(end(FAIL, &[], &[decide(8, 1)]), (REFUSED, 16));
    assert_eq!(end(CLASH, &[8, 1], &[]), (REFUSED, 16));
}

/// A row with a fault has later ones too, where there is such a row.
#[test]
fn the_order_of_clash_and_fail() {
    let inputs = [[E, 1], [NOT_E, 0]];
    let above = vec![decide(A, 7), decide(B, 7)];
    let neg = step(CLASH, 5, E, 0, &[NOT_E]);
    let same = step(FAIL, 0, E, 0, &[A, B]);
    for (kind, before, premise, misfit) in [(CLASH, vec![], E, neg), (FAIL, above, A, same)] {
        let number = |row: [u16; 9]| result(&inputs, &[&before[..], &[row]].concat())[2];
        assert_eq!(number(step(kind, 14, 8, 1, &[8])), 9);
        assert_eq!(number(step(kind, 13, 8, 1, &[8])), 11);
        assert_eq!(number(step(kind, X, 8, 1, &[8])), 9);
        assert_eq!(number(step(kind, 9, X, 1, &[8])), 9);
        assert_eq!(number(step(kind, 9, 8, 2, &[8])), 9);
        assert_eq!(number(step(kind, 9, 8, X, &[8])), 9);
        assert_eq!(number(step(kind, 9, 8, 1, &[X, 8])), 9);
        assert_eq!(number(step(kind, 9, 8, 1, &[FA])), 11);
        assert_eq!(number(step(kind, 9, FA, 1, &[8])), 11);
        assert_eq!(number(step(kind, 9, FA, 1, &[G])), 22);
        assert_eq!(number(step(kind, 9, G, 1, &[G])), 12);
        assert_eq!(number(step(kind, 9, G, 1, &[premise, premise])), 13);
        assert_eq!(number(misfit), 13);
    }
    let conflict = |last| result(&[[G, 0]], &[decide(E, 1), the_clash(), last])[2];
    for kind in [CLASH, FAIL] {
        assert_eq!(conflict(step(kind, 9, G, 2, &[E])), 9);
        assert_eq!(conflict(step(kind, 9, 8, 1, &[8])), 10);
    }
    for other in [LEARN, LEARN + 1] {
        let row = step(other, 9, G, 1, &[E]);
        assert_eq!(result(&[[E, 1], [G, 0]], &[row])[2], 9);
    }
}

/// Where the opposite is absent it is 16, whatever the level of the premises.
#[test]
fn absent_opposites() {
    for kind in [CLASH, FAIL] {
        let row = step(kind, 9, G, 1, &[E]);
        assert_eq!(result(&[[E, 1]], &[row]), [REFUSED, 0, 16, 1]);
        assert_eq!(result(&[], &[decide(E, 1), row]), [REFUSED, 1, 16, 1]);
        assert_eq!(result(&[[E, 1], [G, 1]], &[row]), [REFUSED, 0, 16, 2]);
        let decided = [decide(E, 1), decide(G, 1), row];
        assert_eq!(result(&[], &decided), [REFUSED, 2, 16, 2]);
    }
}

#[test]
fn a_fail_ends_the_run() {
    let after = [the_fail(), [X; 9], the_fail()];
    assert_eq!(
        board(&[[E, 1], [G, 0]], &after),
        ([REFUTED, 1, 0, 2], vec![[E, 1, 0, 0], [G, 0, 0, 0]])
    );
}

#[test]
fn unit_and_the_input_numbers() {
    let unit = step(1, 7, G, 1, &[E_OR_G, E]);
    assert_eq!(result(&[[E_OR_G, 1], [E, 0]], &[unit]), [OPEN, 1, 0, 3]);
    assert_eq!(result(&[[E, 2]], &[unit]), [REFUSED, 0, 7, 0]);
    assert_eq!(result(&[[E, 1], [E, 1]], &[unit]), [REFUSED, 0, 8, 0]);
}

/// The outcome on a sheet of so many terms of no arguments, and whether the
/// buffers were left as they were.
fn constants(rows: usize, work: usize, trail: usize) -> (Outcome, bool) {
    let terms: Vec<u16> = (0..rows as u16)
        .flat_map(|at| [16 + at, 1, X, X, X, X])
        .collect();
    let mut work = vec![9; work];
    let mut trail = vec![9; trail];
    let out = run(SORTS, &terms, &[], &[], &mut work, &mut trail);
    let untouched = work.iter().all(|&w| w == 9) && trail.iter().all(|&w| w == 9);
    (out, untouched)
}

#[test]
fn ceilings_and_buffers() {
    let (out, _) = constants(256, work_words(256), trail_numbers(256));
    assert_eq!((out.verdict, out.number), (OPEN, 0));
    let (out, untouched) = constants(257, work_words(257), trail_numbers(257));
    assert_eq!((out.verdict, out.number, untouched), (REFUSED, 30, true));
    let (out, untouched) = constants(256, work_words(256) - 1, trail_numbers(256));
    assert_eq!((out.verdict, out.number, untouched), (REFUSED, 32, true));
    let (out, untouched) = constants(256, work_words(256), trail_numbers(256) - 1);
    assert_eq!((out.verdict, out.number, untouched), (REFUSED, 32, true));
    let (out, _) = constants(0, 12, 0);
    assert_eq!((out.verdict, out.number), (OPEN, 0));
    let (out, _) = constants(0, 11, 0);
    assert_eq!((out.verdict, out.number), (REFUSED, 32));
}

#[test]
fn longest_log() {
    let mut work = [0; 12];
    let steps = vec![X; 9 * 65_536];
    let out = run(&[], &[], &[], &steps, &mut work, &mut []);
    assert_eq!((out.verdict, out.number), (REFUSED, 30));
    let out = run(&[], &[], &[], &steps[9..], &mut work, &mut []);
    assert_eq!((out.verdict, out.steps, out.number), (REFUSED, 0, 9));
    let out = run(&[], &[], &[], &steps[8..], &mut work, &mut []);
    assert_eq!((out.verdict, out.number), (REFUSED, 31));
}

const TEXT: &str = include_str!("../../../crates/check_log/stdin");

/// Reads into dirty sheets of the given lengths.
fn read_text(text: &str, lengths: [usize; 4]) -> (Read, [Vec<u16>; 4]) {
    let mut sheets = lengths.map(|len| vec![77; len]);
    let [sorts, terms, inputs, steps] = &mut sheets;
    let result = read(text.as_bytes(), sorts, terms, inputs, steps);
    (result, sheets)
}

fn trouble(text: &str) -> (u16, u64, u64) {
    let (result, sheets) = read_text(text, [10, 60, 20, 90]);
    assert_eq!(result.rows, [0; 4]);
    assert!(sheets.iter().flatten().all(|&number| number == 0));
    (result.number, result.line, result.place)
}

#[test]
fn the_text() {
    let (result, sheets) = read_text(TEXT, [3, 37, 4, 20]);
    assert_eq!((result.number, result.rows), (0, [1, 6, 2, 1]));
    assert_eq!((result.line, result.place), (0, 0));
    assert_eq!(sheets[0], [X, X, 0]);
    assert_eq!(sheets[1][..36], TERMS[..36]);
    assert_eq!(sheets[1][36], 0);
    assert_eq!(sheets[2], [E, 1, G, 0]);
    assert_eq!(sheets[3][..9], the_fail());
    assert!(sheets[3][9..].iter().all(|&number| number == 0));
    for short in 0..4 {
        let mut lengths = [2, 36, 4, 9];
        assert_eq!(read_text(TEXT, lengths).0.number, 0);
        lengths[short] -= 1;
        let (result, sheets) = read_text(TEXT, lengths);
        assert_eq!((result.number, result.rows), (32, [0; 4]));
        assert!(sheets.iter().flatten().all(|&number| number == 0));
    }
}

#[test]
fn bad_lines() {
    assert_eq!(trouble(""), (31, 1, 0));
    assert_eq!(trouble("sort index value\n"), (31, 2, 0));
    assert_eq!(trouble(TEXT.trim_end()), (31, 17, 0));
    assert_eq!(trouble(&format!("{TEXT}\n")), (31, 18, 0));
    assert_eq!(trouble(&TEXT.replace("g false", "g 65535")), (31, 14, 2));
    assert_eq!(trouble(&TEXT.replace("g true", "g 01")), (31, 17, 4));
    assert_eq!(trouble(&TEXT.replace("S - -", "prop - -")), (2, 2, 1));
    assert_eq!(trouble(&TEXT.replace("b B", "a B")), (2, 6, 1));
    assert_eq!(trouble(&TEXT.replace("b B", "b  B")), (31, 6, 0));
    assert_eq!(trouble(&TEXT.replace("b B", "b")), (31, 6, 0));
    assert_eq!(trouble(&TEXT.replace("b B", "b\t B")), (31, 6, 0));
    assert_eq!(
        trouble(&TEXT.replace("b B", &format!("b {}", "B".repeat(65)))),
        (31, 6, 2)
    );
    assert_eq!(
        trouble(&TEXT.replace("b B", &format!("b {}", "B".repeat(525)))),
        (31, 6, 0)
    );
}

#[test]
fn names_differ_by_any_byte() {
    let long = "n".repeat(63);
    let text = TEXT
        .replace("\na A", &format!("\n{long}a A"))
        .replace("\nb B", &format!("\n{long}b B"))
        .replace("prop a b", &format!("prop {long}a {long}b"))
        .replace("F S a", &format!("F S {long}a"))
        .replace("F S b", &format!("F S {long}b"));
    let (result, sheets) = read_text(&text, [2, 36, 4, 9]);
    assert_eq!(result.number, 0);
    assert_eq!(sheets[1], TERMS[..36]);
}

#[test]
fn text_ceilings() {
    let step = "flip - a - b - - - -\n";
    let fits = format!("{TEXT}{}", step.repeat(1_023));
    assert_eq!(read_text(&fits, [2, 36, 4, 9 * 1_024]).0.number, 0);
    assert_eq!(trouble(&format!("{fits}{step}")), (30, 1_041, 0));
    let sorts = |count: usize| -> String {
        let lines: String = (1..count).map(|at| format!("s{at} - -\n")).collect();
        TEXT.replace("S - -\n", &format!("S - -\n{lines}"))
    };
    assert_eq!(read_text(&sorts(32), [64, 36, 4, 9]).0.number, 0);
    assert_eq!(trouble(&sorts(33)), (30, 34, 0));
}
