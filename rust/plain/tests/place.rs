//! Where a refused step went wrong: the place, a column of its row counted from 1.

use plain::check;

/// A board on which every rule finds what it needs.
const BOARD: &str = "\
sort index value
S - -
T S S

term head sort a b c d
a A S - - - -
b B S - - - -
c C S - - - -
m M T - - - -
ab eq prop a b - -
ba eq prop b a - -
bc eq prop b c - -
ac eq prop a c - -
aa eq prop a a - -
ca eq prop c a - -
p P prop - - - -
q Q prop - - - -
np not prop p - - -
pp or prop p p - -
r R prop - - - -
rr or prop r r - -
or or prop p q ab bc
and and prop p q ab bc
faab F S a a b b
fbbc F S b b c c
cong eq prop faab fbbc - -
gaab G prop a a b b
gbbc G prop b b c c
h H prop a b c -
i H prop b c a -
store store T m a c -
at_a select S store a - -
at_b select S store b - -
under select S m b - -
read eq prop at_a c - -
skip eq prop at_b under - -

";

const STEPS: &str = "\nstep rule term value p q r s t\n";

/// Number and place of the last step on the board with these inputs; a person is told
/// both.
fn told(inputs: &str, steps: &str) -> (u16, u16) {
    let rows: String = inputs
        .split(", ")
        .filter(|input| !input.is_empty())
        .map(|input| format!("{input}\n"))
        .collect();
    let checked = check(format!("{BOARD}term value\n{rows}{STEPS}{steps}\n").as_bytes());
    let said = checked.said();
    let field = match checked.outcome.place {
        0 => String::new(),
        place => format!(", field {place}"),
    };
    let number = checked.outcome.number;
    let meaning = plain::meaning(number);
    assert_eq!(
        said,
        format!("line {}{field}: {number} {meaning}\n", checked.line),
        "{steps}"
    );
    assert_eq!(checked.field, checked.outcome.place.into());
    (number, checked.outcome.place)
}

/// The place of a deduce that does not fit its rule; a clash and a fail have it too.
fn unfit(inputs: &str, row: &str) -> u16 {
    let [deduce, clash, fail] = ["deduce", "clash", "fail"].map(|step| {
        let (number, place) = told(inputs, &format!("{step} {row}"));
        assert_eq!(number, 13, "{row}");
        place
    });
    assert_eq!((deduce, deduce), (clash, fail));
    deduce
}

#[test]
fn values_of_slots() {
    for rule in ["same", "differ"] {
        let (right, wrong) = if rule == "same" {
            ("true", "false")
        } else {
            ("false", "true")
        };
        let inputs = match rule {
            "same" => "a 7, b 8, c 8",
            _ => "a 7, b 7, c 8",
        };
        let place = |row: &str| unfit(inputs, &format!("{rule} {row}"));
        assert_eq!(place(&format!("p {right} a b - - -")), 3);
        assert_eq!(place(&format!("ab {wrong} a b - - -")), 4);
        assert_eq!(place(&format!("ab {right} - - - - -")), 5);
        assert_eq!(place(&format!("ab {right} b a - - -")), 5);
        assert_eq!(place(&format!("ab {right} a - - - -")), 6);
        assert_eq!(place(&format!("ab {right} a c - - -")), 6);
        assert_eq!(place(&format!("ab {right} a b - - -")), 6);
        assert_eq!(place(&format!("ab {right} a b c - -")), 6);
    }
    assert_eq!(unfit("a 7, b 7", "same ab true a b a - -"), 7);
    assert_eq!(unfit("a 7, b 8", "differ ab false a b a - -"), 7);
    // The second column could have another value than the first, whatever its row.
    assert_eq!(unfit("a 7", "differ aa false a a - - -"), 6);
}

#[test]
fn equalities() {
    assert_eq!(unfit("", "refl ab true - - - - -"), 3);
    assert_eq!(unfit("", "refl aa false - - - - -"), 4);
    assert_eq!(unfit("aa true", "refl aa true aa - - - -"), 5);
    // c=b has no row.
    assert_eq!(unfit("bc true", "sym bc true bc - - - -"), 3);
    assert_eq!(unfit("ba true", "sym ab false ba - - - -"), 4);
    assert_eq!(unfit("", "sym ab true - - - - -"), 5);
    assert_eq!(unfit("ba false", "sym ab true ba - - - -"), 5);
    assert_eq!(unfit("ba true, p true", "sym ab true ba p - - -"), 6);
    let all = "ab true, bc true, ba false, aa true, ac true";
    assert_eq!(unfit(all, "trans p true ab bc - - -"), 3);
    assert_eq!(unfit(all, "trans ac false ab bc - - -"), 4);
    assert_eq!(unfit(all, "trans ac true bc ab - - -"), 5);
    assert_eq!(unfit(all, "trans ac true - - - - -"), 5);
    assert_eq!(unfit(all, "trans ac true ab ba - - -"), 6);
    assert_eq!(unfit(all, "trans ac true aa - - - -"), 6);
    assert_eq!(unfit(all, "trans ac true ab bc ab - -"), 7);
    assert_eq!(unfit("ab false", "trans ac true ab - - - -"), 5);
}

#[test]
fn connectives() {
    // not(q) has no row; with not(p) p can have either value.
    assert_eq!(unfit("np true", "neg q false np - - - -"), 3);
    assert_eq!(unfit("np true", "neg p true np - - - -"), 5);
    assert_eq!(unfit("np true, q true", "neg p false np q - - -"), 6);
    let all = "and true, or false, p true, q false, ab false, bc false, pp true";
    assert_eq!(unfit(all, "part ac true and - - - -"), 3);
    assert_eq!(unfit(all, "part ac false or - - - -"), 3);
    // r is in an or alone.
    assert_eq!(unfit("rr true", "part r true rr - - - -"), 4);
    assert_eq!(unfit("rr true", "part r false rr - - - -"), 5);
    assert_eq!(unfit("rr true", "unit r false rr - - - -"), 4);
    assert_eq!(unfit("and true, pp true", "part p false and - - - -"), 5);
    assert_eq!(unfit(all, "part q true or - - - -"), 5);
    assert_eq!(unfit(all, "part q true and p - - -"), 6);
    let unit = "or true, p false, q false, ab false, bc true, pp true, and true";
    assert_eq!(unfit(unit, "unit ac true or p q ab -"), 3);
    assert_eq!(unfit(unit, "unit np false or p q ab -"), 3);
    assert_eq!(unfit(unit, "unit bc false or p q ab -"), 5);
    assert_eq!(unfit(unit, "unit bc true and p q ab -"), 5);
    assert_eq!(unfit(unit, "unit bc true or q p ab -"), 6);
    assert_eq!(unfit(unit, "unit bc true or p ab - -"), 7);
    assert_eq!(unfit(unit, "unit bc true or p q bc -"), 8);
    assert_eq!(unfit(unit, "unit ab true or p q bc -"), 8);
    assert_eq!(unfit(unit, "unit bc true or p q ab p"), 9);
    assert_eq!(unfit("pp true, p true", "unit p true pp p - - -"), 6);
}

#[test]
fn evaluation() {
    let all = "p false, q false, ab false, bc false, ac true";
    assert_eq!(unfit(all, "eval ab true p q - - -"), 3);
    assert_eq!(unfit(all, "eval np false p - - - -"), 5);
    assert_eq!(unfit(all, "eval np true p p - - -"), 6);
    assert_eq!(unfit(all, "eval or true - - - - -"), 5);
    assert_eq!(unfit(all, "eval or true p p - - -"), 6);
    assert_eq!(unfit(all, "eval or true p q - - -"), 7);
    assert_eq!(unfit(all, "eval or false p q ab ac -"), 8);
    // No argument is true: the last one was the last that could have been.
    assert_eq!(unfit(all, "eval or true p q ab bc -"), 8);
    assert_eq!(unfit(all, "eval or false p q ab bc p"), 9);
    assert_eq!(unfit(all, "eval and true p q ab bc -"), 5);
    assert_eq!(
        unfit(
            "p true, q true, ab true, bc true",
            "eval and false p q ab bc -"
        ),
        8
    );
    assert_eq!(
        unfit(
            "p true, q true, ab false, bc true",
            "eval and true p q ab bc -"
        ),
        7
    );
    assert_eq!(unfit(all, "eval pp true p p - - -"), 6);
}

#[test]
fn functions_and_predicates() {
    let all = "ab true, bc true, ba false, aa true, gaab true, h true, ca true, gbbc false";
    assert_eq!(unfit(all, "cong ab true - - - - -"), 3);
    assert_eq!(unfit(all, "cong cong false ab ab bc bc -"), 4);
    assert_eq!(unfit(all, "cong cong true - - - - -"), 5);
    assert_eq!(unfit(all, "cong cong true ab bc bc - -"), 6);
    assert_eq!(unfit(all, "cong cong true ab ab ab bc -"), 7);
    assert_eq!(unfit(all, "cong cong true ab ab bc aa -"), 8);
    assert_eq!(unfit(all, "cong cong true ab ab bc bc aa"), 9);
    assert_eq!(unfit("ab false", "cong cong true ab - - - -"), 5);
    // A constant equals itself by cong without a premise.
    assert_eq!(unfit("aa true", "cong aa true aa - - - -"), 5);
    // No row of this head has equalities to h: b=b has no row.
    assert_eq!(unfit(all, "pred h true h - - - -"), 3);
    assert_eq!(unfit("or true", "pred or true or - - - -"), 3);
    assert_eq!(unfit(all, "pred gbbc false gaab ab ab bc bc"), 5);
    assert_eq!(unfit(all, "pred gbbc true gbbc - - - -"), 5);
    assert_eq!(unfit(all, "pred gbbc true gaab aa - - -"), 6);
    assert_eq!(unfit(all, "pred gbbc true gaab ab - - -"), 7);
    assert_eq!(unfit(all, "pred gbbc true gaab ab ab ab -"), 8);
    assert_eq!(unfit(all, "pred gbbc true gaab ab ab bc ab"), 9);
    assert_eq!(unfit(all, "pred i true h ab bc ca aa"), 9);
    assert_eq!(unfit("p true", "pred p false p - - - -"), 5);
    assert_eq!(unfit("p true", "pred p true p p - - -"), 6);
}

#[test]
fn arrays() {
    assert_eq!(unfit("", "read skip true - - - - -"), 3);
    assert_eq!(unfit("", "read read false - - - - -"), 4);
    assert_eq!(unfit("p true", "read read true p - - - -"), 5);
    assert_eq!(unfit("ab false", "skip read true ab - - - -"), 3);
    assert_eq!(unfit("ab false", "skip skip false ab - - - -"), 4);
    assert_eq!(unfit("ab true", "skip skip true ab - - - -"), 5);
    assert_eq!(unfit("ab false, ba false", "skip skip true ba - - - -"), 5);
    assert_eq!(unfit("ab false", "skip skip true ab ab - - -"), 6);
}

/// Whatever is wrong, it is placed at the term.
#[test]
fn through_several_layers() {
    let all = "p true, q false, ab true, bc true, pp true, a 1";
    assert_eq!(unfit(all, "deep or false p q ab bc -"), 3);
    assert_eq!(unfit(all, "deep or true p q ab - -"), 3);
    assert_eq!(unfit(all, "deep or true p q ab bc pp"), 3);
    assert_eq!(unfit(all, "deep or true p q ab bc a"), 3);
    assert_eq!(unfit(all, "deep or true - - - - -"), 3);
    assert_eq!(unfit(all, "deep r true p - - - -"), 3);
    assert_eq!(unfit(all, "deep np true p - - - -"), 3);
    assert_eq!(unfit(all, "deep pp false pp - - - -"), 3);
    assert_eq!(unfit(all, "deep pp true pp p - - -"), 3);
}

/// 11 and 12 have the first column with the fault.
#[test]
fn no_rows_and_absent_premises() {
    for step in ["deduce", "clash", "fail"] {
        let place = |row: &str| told("p true", &format!("{step} {row}"));
        assert_eq!(place("eval x true x p p p p"), (11, 3));
        assert_eq!(place("eval or true x y p p p"), (11, 5));
        assert_eq!(place("eval or true q x p p p"), (11, 6));
        assert_eq!(place("eval or true p p x p p"), (11, 7));
        assert_eq!(place("eval or true p p p x p"), (11, 8));
        assert_eq!(place("eval or true p p p p x"), (11, 9));
        assert_eq!(place("refl or true q p p p p"), (12, 5));
        assert_eq!(place("refl or true p q np p p"), (12, 6));
        assert_eq!(place("refl or true p p q p p"), (12, 7));
        assert_eq!(place("refl or true p p p q p"), (12, 8));
        assert_eq!(place("refl or true p p p p q"), (12, 9));
        assert_eq!(place("deep or true p p q p p"), (12, 7));
        assert_eq!(place("refl a true p p p p q"), (22, 0));
        assert_eq!(place("refl or 2 p p p p q"), (9, 0));
    }
    assert_eq!(told("", "decide - x true - - - - -"), (11, 3));
    assert_eq!(told("", "decide - p 2 - - - - -"), (22, 0));
    assert_eq!(told("", "jump - x - - - - - -"), (10, 0));
}

/// In a conflict: the steps of one term, flip with its second, learn with its members.
#[test]
fn no_rows_in_a_conflict() {
    let begin = "decide - p true - - - - -\ndecide - q false - - - - -";
    let place = |row: &str| {
        let clash = "clash eval or true p q ab bc -";
        told(
            "ab false, bc false, or false",
            &format!("{begin}\n{clash}\n{row}"),
        )
    };
    for step in ["resolve", "clear", "jump"] {
        assert_eq!(place(&format!("{step} - x - - - - - -")), (11, 3));
        assert_eq!(place(&format!("{step} - np - - - - - -")), (17, 0));
    }
    assert_eq!(place("flip - x - y - - - -"), (11, 3));
    assert_eq!(place("flip - p - y - - - -"), (11, 5));
    assert_eq!(place("learn - x 0 y q - - -"), (11, 3));
    assert_eq!(place("learn - or 0 x y - - -"), (11, 5));
    assert_eq!(place("learn - or 0 p x - - -"), (11, 6));
    assert_eq!(place("learn - or 0 np p x y -"), (11, 7));
    assert_eq!(place("learn - or 0 np p q y -"), (11, 8));
    assert_eq!(place("learn - or 0 np p - - -"), (17, 0));
}
