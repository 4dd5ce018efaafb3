//! Decisions that an equation on the trail is against: 27, and all that is not 27.

use plain::{check, Checked};

/// Slots and whether they are one, two patch sheets, and what conflicts need.
const BOARD: &str = "\
sort index value
S - -
T S S

term head sort a b c d
a A S - - - -
b B S - - - -
c C S - - - -
d D S - - - -
ab eq prop a b - -
ba eq prop b a - -
bc eq prop b c - -
ac eq prop a c - -
aa eq prop a a - -
cd eq prop c d - -
fa F S a - - -
fb F S b - - -
fab eq prop fa fb - -
nab not prop ab - - -
ncd not prop cd - - -
either or prop ab ac - -
one or prop nab cd - -
two or prop ncd nab - -
m M T - - - -
n N T - - - -
mn eq prop m n - -
p P prop - - - -

";

const STEPS: &str = "\nstep rule term value p q r s t\n";

/// What becomes of a log. Inputs and steps stand between commas; a decision is the term
/// and the value, any other step has its columns.
fn checked(inputs: &str, steps: &str) -> Checked {
    let list = |all: &str| -> Vec<String> {
        let parts = all.split(", ").filter(|part| !part.is_empty());
        parts.map(str::to_string).collect()
    };
    let inputs: String = list(inputs).iter().map(|row| format!("{row}\n")).collect();
    let steps: String = list(steps).iter().map(|row| line(row)).collect();
    check(format!("{BOARD}term value\n{inputs}{STEPS}{steps}").as_bytes())
}

/// A step's line.
fn line(step: &str) -> String {
    let words: Vec<&str> = step.split(' ').collect();
    let columns = match words.len() {
        2 => format!("decide - {step}"),
        _ => step.to_string(),
    };
    let blanks = 9 - columns.split(' ').count();
    format!("{columns}{}\n", " -".repeat(blanks))
}

/// The number of the last step; all others have to be allowed.
fn number(inputs: &str, steps: &str) -> u16 {
    let count = steps.split(", ").count() as u16;
    let outcome = checked(inputs, steps).outcome;
    let refused = u16::from(outcome.number != 0);
    assert_eq!(outcome.steps + refused, count, "{steps}: {outcome:?}");
    assert_eq!(outcome.place, 0);
    outcome.number
}

#[test]
fn the_line_for_a_person() {
    let refused = checked("a 7, ab false", "p true, b 7, c 7");
    let line = "line 35: 27 the value contradicts an equation on the trail\n";
    assert_eq!(refused.said(), line);
    assert_eq!((refused.field, refused.cause()), (0, ""));
    let lines = "verdict steps code trail place\nrefused 1 27 3 0\n";
    assert_eq!(refused.outcome.listing(), lines);
    assert_eq!(checked("a 7, ab false", "p true, b 8, c 7").said(), "");
}

/// Either side, true and false, equal and other values.
#[test]
fn either_side() {
    for equation in ["ab", "ba"] {
        for (given, decided) in [("a", "b"), ("b", "a")] {
            let end = |truth: &str, value: u16| {
                let inputs = format!("{given} 7, {equation} {truth}");
                number(&inputs, &format!("{decided} {value}"))
            };
            assert_eq!(end("false", 7), 27);
            assert_eq!(end("true", 7), 0);
            for other in [0, 1, 6, 8, 65_534] {
                assert_eq!(end("false", other), 0);
                assert_eq!(end("true", other), 27);
            }
        }
    }
    assert_eq!(number("mn true, m 0", "n 1"), 27);
    assert_eq!(number("mn true, m 0", "n 0"), 0);
}

/// A value is compared with the other's, not with that of the equation.
#[test]
fn values_zero_and_one() {
    for (truth, equal) in [("false", 27), ("true", 0)] {
        for (one, two) in [(0, 0), (1, 1), (0, 1), (1, 0)] {
            let wanted = if one == two { equal } else { 27 - equal };
            let inputs = format!("ab {truth}, a {one}");
            assert_eq!(number(&inputs, &format!("b {two}")), wanted);
        }
    }
}

#[test]
fn a_term_and_itself() {
    for value in [0, 1, 7, 65_534] {
        assert_eq!(number("aa false", &format!("a {value}")), 27);
        assert_eq!(number("", &format!("aa false, a {value}")), 27);
        assert_eq!(number("aa true", &format!("a {value}")), 0);
    }
    assert_eq!(number("aa false", "b 7"), 0);
    assert_eq!(number("aa true, ab true, b 7", "a 8"), 27);
    assert_eq!(number("aa false, ab true, b 7", "a 7"), 27);
}

/// It is asked of every equation, whatever put it there, and of every value.
#[test]
fn whatever_put_it_there() {
    for (inputs, before) in [
        ("ab false, a 7", ""),
        ("ab false", "a 7, "),
        ("a 7", "ab false, "),
        ("", "a 7, ab false, "),
        ("", "ab false, a 7, "),
        ("", "ab false, p true, a 7, c 7, "),
        ("nab true", "deduce neg ab false nab, a 7, "),
        ("nab true", "a 7, deduce neg ab false nab, "),
        ("nab true, a 7", "c 7, deduce neg ab false nab, "),
        (
            "fab false",
            "ab true, clash cong fab true ab, jump - ab, a 7, ",
        ),
        (
            "fab false, a 7",
            "c 7, ab true, clash cong fab true ab, jump - ab, ",
        ),
    ] {
        assert_eq!(number(inputs, &format!("{before}b 7")), 27, "{before}");
        assert_eq!(number(inputs, &format!("{before}b 8")), 0, "{before}");
    }
    let split = "b 1, c 2, either true";
    let flipped = "a 0, deduce differ ab false a b, deduce differ ac false a c, \
                   clash eval either false ab ac, flip - ab - ac";
    assert_eq!(number(split, flipped), 0);
    assert_eq!(number(split, &format!("{flipped}, a 0")), 27);
    assert_eq!(number(split, &format!("{flipped}, a 1")), 0);
}

/// What a cut drops does not count, and what it keeps does.
#[test]
fn after_a_cut() {
    let before = "p true, ab true, a 7";
    assert_eq!(number("fab false", &format!("{before}, b 8")), 27);
    assert_eq!(number("fab false", &format!("{before}, b 7")), 0);
    let cut = format!("{before}, b 7, clash cong fab true ab, jump - ab");
    assert_eq!(number("fab false", &format!("{cut}, b 8, a 7")), 0);
    assert_eq!(number("fab false", &format!("{cut}, b 7, a 7")), 27);
    let late = "a 7, deduce neg ab false nab, clash same ab true a b, clear - a";
    assert_eq!(number("b 7, nab true", &format!("{late}, a 7")), 27);
    assert_eq!(number("b 7, nab true", &format!("{late}, a 8")), 0);
}

#[test]
fn no_value_on_the_other_side() {
    for truth in ["true", "false"] {
        for value in [0, 1, 7] {
            let inputs = format!("ab {truth}, ba {truth}, ac {truth}");
            assert_eq!(number(&inputs, &format!("a {value}")), 0);
        }
    }
    assert_eq!(number("ab true", "a 7, b 8"), 27);
    assert_eq!(number("ab true", "b 8, a 7"), 27);
    // Nothing is asked of terms that follow by other equations only.
    assert_eq!(number("ab true, bc true", "a 7, c 8"), 0);
    assert_eq!(number("ab true, bc true", "a 7, c 8, b 7"), 27);
    assert_eq!(number("ab true, bc true", "a 7, c 8, b 8"), 27);
    assert_eq!(number("fab false", "a 7, b 7"), 0);
    assert_eq!(number("nab true", "a 7, b 7"), 0);
}

#[test]
fn equations_of_other_terms() {
    assert_eq!(number("a 7, c 7, ac false", "b 7"), 0);
    assert_eq!(number("a 7, c 8, ac true", "b 9"), 0);
    assert_eq!(number("a 7, cd false", "c 7, b 7"), 0);
}

/// One that is against it is enough, wherever it stands among others.
#[test]
fn among_several() {
    for inputs in [
        "ab false, bc true, a 7, c 8",
        "c 8, bc true, a 7, ab false",
        "a 7, bc true, ab false, c 8",
    ] {
        assert_eq!(number(inputs, "b 8"), 0);
        assert_eq!(number(inputs, "b 7"), 27);
        assert_eq!(number(inputs, "b 9"), 27);
    }
    for inputs in [
        "ab false, ba true, a 7",
        "ab true, bc false, a 7, c 7",
        "ab true, bc true, a 7, c 8",
    ] {
        for value in 6..10 {
            assert_eq!(number(inputs, &format!("b {value}")), 27);
        }
    }
    for [ab, ba, bc] in [[0, 1, 1], [1, 0, 1], [1, 1, 0]] {
        let inputs = format!("a 7, c 7, ab {ab}, ba {ba}, bc {bc}");
        assert_eq!(number(&inputs, "b 7"), 27);
    }
    assert_eq!(number("a 7, c 7, ab 1, ba 1, bc 1", "b 7"), 0);
}

/// A decision on a prop is not asked, even on the equation itself.
#[test]
fn decisions_on_props() {
    assert_eq!(number("a 7, b 7", "ab false"), 0);
    assert_eq!(number("a 7, b 8", "ab true"), 0);
    assert_eq!(number("a 7", "aa false"), 0);
    assert_eq!(number("ab false, a 7, b 7", "ba false"), 0);
    let clash = "a 7, b 7, ab false, clash same ab true a b";
    assert_eq!(number("", &format!("{clash}, jump - ab")), 0);
    assert_eq!(number("", &format!("{clash}, clear - b")), 21);
}

/// Nor is flip's, here on cd, which becomes false though c and d are equal.
#[test]
fn flips() {
    let inputs = "b 5, c 1, d 1, one true, two true";
    let jumped = "a 5, deduce same ab true a b, deduce eval nab false ab, cd false, \
                  clash eval one false nab cd, resolve - nab, resolve - ab, jump - cd";
    let flipped = "deduce eval ncd false cd, clash eval two false ncd nab, \
                   resolve - ncd, resolve - nab, flip - cd - ab";
    let log = format!("{jumped}, {flipped}");
    assert_eq!(number(inputs, &log), 0);
    let end = format!("{log}, clash same cd true c d");
    assert_eq!(number(inputs, &end), 0);
}

/// Nor are inputs.
#[test]
fn inputs() {
    assert_eq!(number("a 7, b 7, ab false", "c 7"), 0);
    assert_eq!(number("aa false, a 7", "c 7"), 0);
    let refuted = checked("a 7, b 7, ab false", "fail same ab true a b").outcome;
    assert_eq!((refuted.verdict, refuted.number), (1, 0));
}

/// Each number where the value is against an equation too.
#[test]
fn the_last_of_the_numbers() {
    let inputs = "ab false, a 7";
    assert_eq!(number(inputs, "decide - b 7 a"), 9);
    assert_eq!(number(inputs, "decide same b 7"), 9);
    assert_eq!(number(inputs, "decide - b - -"), 9);
    let conflict = "a 7, b 7, deduce neg ab false nab, clash same ab true a b, ";
    assert_eq!(
        number("nab true, cd false, c 3", &format!("{conflict}d 3")),
        10
    );
    assert_eq!(number("aa false", "p 2"), 22);
    assert_eq!(number("ab true, a 7, b 7", "b 8"), 14);
    assert_eq!(number("ab true, a 7, b 8", "b 8"), 14);
    assert_eq!(number("aa false, a 7", "a 8"), 14);
    let unknown = checked(inputs, "x 7").outcome;
    assert_eq!((unknown.number, unknown.place), (11, 3));
}
