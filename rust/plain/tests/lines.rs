//! Why a text is malformed, and the line for a person.

use plain::{check, read, Meant, Why};

/// The paper's text, with the two more terms of its small board.
const TEXT: &str = "\
sort index value
S - -

term head sort a b c d
a A S - - - -
b B S - - - -
e eq prop a b - -
fa F S a - - -
fb F S b - - -
g eq prop fa fb - -
n not prop e - - -
o or prop e g - -

term value
e true
g false

step rule term value p q r s t
fail cong g true e - - - -
";

fn said(text: &str) -> String {
    check(text.as_bytes()).said()
}

/// The line for the text with something in another's place.
fn said_of(old: &str, new: &str) -> String {
    assert!(TEXT.contains(old), "{old}");
    said(&TEXT.replacen(old, new, 1))
}

fn why(text: &[u8]) -> (u16, Why, u64, u64) {
    let mut sheets = [64, 1_536, 512, 9_216].map(|length| vec![5; length]);
    let [sorts, terms, inputs, steps] = &mut sheets;
    let read = read(text, sorts, terms, inputs, steps);
    (read.number, read.why, read.line, read.place)
}

/// The same for the text with something in another's place.
fn why_of(old: &str, new: &str) -> (u16, Why, u64, u64) {
    assert!(TEXT.contains(old), "{old}");
    why(TEXT.replacen(old, new, 1).as_bytes())
}

#[test]
fn nothing_to_say() {
    assert_eq!(why(TEXT.as_bytes()), (0, Why::Fine, 0, 0));
    assert_eq!(said(TEXT), "");
    assert_eq!(said_of("fail cong g true e - - - -\n", ""), "");
    let refuted = check(TEXT.as_bytes()).outcome;
    assert_eq!((refuted.verdict, refuted.steps, refuted.entries), (1, 1, 2));
    let lines = "verdict steps code trail place\nrefuted 1 0 2 0\n";
    assert_eq!(refuted.listing(), lines);
    let refused = check(TEXT.replace("cong g true e", "cong g true g").as_bytes());
    let lines = "verdict steps code trail place\nrefused 0 13 2 5\n";
    assert_eq!(refused.outcome.listing(), lines);
    assert_eq!(
        refused.said(),
        "line 19, field 5: 13 the rule does not fit\n"
    );
    let lines = "verdict steps code trail place\nrefused 0 31 0 0\n";
    assert_eq!(check(b"").outcome.listing(), lines);
}

#[test]
fn causes_of_headers() {
    let marked = [b"\xEF\xBB\xBF", TEXT.as_bytes()].concat();
    assert_eq!(why(&marked), (31, Why::Mark, 1, 0));
    let marked = [b"\xEF\xBB\xBFn\r\n", TEXT.as_bytes()].concat();
    assert_eq!(why(&marked), (31, Why::Mark, 1, 0));
    let returns = TEXT.replace('\n', "\r\n");
    assert_eq!(why(returns.as_bytes()), (31, Why::Return, 1, 0));
    assert_eq!(
        why_of("term value", "term  value"),
        (31, Why::Header, 14, 0)
    );
    assert_eq!(
        why_of("\nterm head", "\n\nterm head"),
        (31, Why::Header, 4, 0)
    );
    let long = format!("\nterm value{}\r\n", " ".repeat(514));
    assert_eq!(why_of("\nterm value\n", &long), (31, Why::Return, 14, 0));
    let long = format!("\nterm value{}\r\n", " ".repeat(515));
    assert_eq!(why_of("\nterm value\n", &long), (31, Why::Long, 14, 0));
}

#[test]
fn causes_of_rows() {
    assert_eq!(why_of("S - -\n", "S - -\r\n"), (31, Why::Return, 2, 0));
    assert_eq!(why_of("S - -\n", "S\t- -\r\n"), (31, Why::Return, 2, 0));
    assert_eq!(why_of("S - -\n\n", "S - -\n\r\n"), (31, Why::Return, 3, 0));
    assert_eq!(why_of("S - -\n", "S\t- -\n"), (31, Why::Byte, 2, 0));
    assert_eq!(why_of("S - -\n", "S - - \u{e9}\n"), (31, Why::Byte, 2, 0));
    assert_eq!(why_of("S - -\n", "S -\n"), (31, Why::Fields, 2, 0));
    assert_eq!(why_of("S - -\n", "S -  -\n"), (31, Why::Fields, 2, 0));
    assert_eq!(why_of("S - -\n", " S - -\n"), (31, Why::Fields, 2, 0));
    assert_eq!(why_of("S - -\n", "S - - \n"), (31, Why::Fields, 2, 0));
    let many = format!("S{}\n", " -".repeat(12));
    assert_eq!(why_of("S - -\n", &many), (31, Why::Fields, 2, 0));
    let long = format!("{} - -\n", "S".repeat(65));
    assert_eq!(why_of("S - -\n", &long), (31, Why::Name, 2, 1));
    assert_eq!(why_of("g false", "g 01"), (31, Why::Value, 16, 2));
    assert_eq!(why_of("g true", "g 65535"), (31, Why::Value, 19, 4));
    assert_eq!(why_of("g true", "g 65534"), (0, Why::Fine, 0, 0));
    let value = format!("g {}", "1".repeat(65));
    assert_eq!(why_of("g true", &value), (31, Why::Value, 19, 4));
    assert_eq!(why(format!("{TEXT}\n").as_bytes()), (31, Why::Empty, 20, 0));
    assert_eq!(
        why(format!("{TEXT}\r\n").as_bytes()),
        (31, Why::Return, 20, 0)
    );
}

#[test]
fn the_longest_line() {
    let row = |last: usize| {
        let name = "n".repeat(64);
        let names = [name.as_str(); 3].join(" ");
        let more = [name.as_str(); 4].join(" ");
        format!("{names} 65534 {more} {}\n", "n".repeat(last))
    };
    assert_eq!(row(64).len(), 526);
    let with = |row: &str| why(format!("{TEXT}{row}").as_bytes());
    assert_eq!(with(&row(64)), (0, Why::Fine, 0, 0));
    assert_eq!(with(&row(65)), (31, Why::Long, 20, 0));
    assert_eq!(
        with(&row(64).replacen('n', "\r", 1)),
        (31, Why::Return, 20, 0)
    );
    assert_eq!(
        with(&row(65).replacen('n', "\r", 1)),
        (31, Why::Long, 20, 0)
    );
}

#[test]
fn causes_of_ends() {
    assert_eq!(why(b""), (31, Why::Early, 1, 0));
    assert_eq!(why(b"sort index value\n"), (31, Why::Early, 2, 0));
    assert_eq!(why(b"sort index value\n\n"), (31, Why::Early, 3, 0));
    assert_eq!(why(b"sort index value"), (31, Why::Cut, 1, 0));
    assert_eq!(why(b"\xEF\xBB\xBF"), (31, Why::Cut, 1, 0));
    assert_eq!(why(&[b'\t'; 600]), (31, Why::Cut, 1, 0));
    assert_eq!(why(TEXT.trim_end().as_bytes()), (31, Why::Cut, 19, 0));
    assert_eq!(why(format!("{TEXT}\r").as_bytes()), (31, Why::Cut, 20, 0));
    let before = TEXT.split("step").next().unwrap();
    assert_eq!(why(before.as_bytes()), (31, Why::Early, 18, 0));
    let before = TEXT.split(" rule").next().unwrap();
    assert_eq!(why(before.as_bytes()), (31, Why::Cut, 18, 0));
}

#[test]
fn lines_of_the_reader() {
    assert_eq!(
        said_of("b B S", "a B S"),
        "line 6, field 1: 2 a name is repeated or reserved\n"
    );
    assert_eq!(
        said_of("e true", "e 01"),
        "line 15, field 2: 31 malformed: neither true, false, - nor a number up to 65534 without leading zeros\n"
    );
    assert_eq!(
        said(TEXT.trim_end()),
        "line 19: 31 malformed: the last line has no newline\n"
    );
    let rows: String = (0..33).map(|at| format!("s{at} - -\n")).collect();
    assert_eq!(said_of("S - -\n", &rows), "line 34: 30 above a ceiling\n");
}

#[test]
fn lines_of_the_run() {
    let sort = "line 3: 1 a sort row breaks the rule for sorts\n";
    assert_eq!(said_of("S - -\n", "S - -\nT S prop\n"), sort);
    let term = "line 6: 3 an argument is no earlier row\n";
    assert_eq!(said_of("b B S -", "b B S c"), term);
    let term = "line 9: 4 head, sort and arguments do not fit\n";
    assert_eq!(said_of("fb F S b", "fb F S e"), term);
    let term = "line 6: 5 a row with the head and arguments of an earlier one\n";
    assert_eq!(said_of("b B", "b A"), term);
    assert_eq!(
        said_of("e true", "E true"),
        "line 15: 6 an input row names no term\n"
    );
    let input = "line 16: 7 a value that the term cannot have\n";
    assert_eq!(said_of("g false", "g -"), input);
    assert_eq!(
        said_of("g false", "e false"),
        "line 16: 8 a term given twice\n"
    );
    let step = "line 19: 9 a step's columns are wrong\n";
    for word in [
        "crash", "Fail", "fails", "fai", "learn", "Learn", "learns", "lear", "8",
    ] {
        assert_eq!(said_of("fail", word), step);
    }
    let step = "line 20: 14 the value is there already\n";
    let decide = "decide - a 7 - - - - -\n".repeat(3);
    assert_eq!(said_of("fail cong g true e - - - -\n", &decide), step);
    let step = "line 18: 16 the opposite is not there\n";
    assert_eq!(said_of("g false\n", ""), step);
}

#[test]
fn which_line_was_meant() {
    let clash = TEXT.replace("fail", "clash");
    let checked = check(clash.as_bytes());
    let fail_was_meant =
        "line 19: 26 fail is the line at level 0, clash the one above it: fail was meant\n";
    assert_eq!(checked.said(), fail_was_meant);
    assert_eq!((checked.why, checked.meant), (Why::Fine, Some(Meant::Fail)));
    let above = TEXT
        .replace("e true\n", "")
        .replace("fail", "decide - e true - - - - -\nfail");
    let checked = check(above.as_bytes());
    let clash_was_meant =
        "line 19: 26 fail is the line at level 0, clash the one above it: clash was meant\n";
    assert_eq!(checked.said(), clash_was_meant);
    assert_eq!(
        (checked.why, checked.meant),
        (Why::Fine, Some(Meant::Clash))
    );
    assert_eq!(said(&above.replace("fail", "clash")), "");
    let later = clash.replace("clash", "decide - a 7 - - - - -\nclash");
    assert_eq!(said(&later), fail_was_meant.replace("19", "20"));
    let twice = format!("{above}clash cong g true e - - - -\n");
    assert_eq!(said(&twice), clash_was_meant);
}

#[test]
fn no_line_was_meant() {
    let clash = TEXT.replace("fail", "clash");
    for text in [TEXT, &clash] {
        for (old, new) in [
            ("g false\n", ""),
            ("e true\n", ""),
            ("cong", "sym"),
            ("g true", "g 2"),
        ] {
            let checked = check(text.replace(old, new).as_bytes());
            assert_eq!((checked.why, checked.meant), (Why::Fine, None), "{old}");
            assert!(!checked.said().contains("meant"), "{old}");
        }
    }
    assert_eq!(check(TEXT.as_bytes()).meant, None);
    assert_eq!(check(b"").meant, None);
}

/// Two circuits that a dimmer cannot feed at once, and a clause that says so. The
/// patch is checked line by line; the learn is line 27.
const LEARNT: &str = "\
sort index value
S - -

term head sort a b c d
a A S - - - -
b B S - - - -
one eq prop a b - -
p on1 prop - - - -
q on2 prop - - - -
np not prop p - - -
nq not prop q - - -
both and prop p q - -
swap and prop q p - -
either or prop nq np - -
pq or prop p nq - -

term value
both false
b 7
one false

step rule term value p q r s t
decide - swap true - - - - -
decide - p true - - - - -
decide - q true - - - - -
clash eval both true p q - - -
learn - either 0 p q - - -
deduce neg p false np - - - -
";

/// The learn's line with something in its place, with what is said of it.
fn learn_said(row: &str) -> String {
    assert!(LEARNT.contains("learn - either 0 p q - - -"));
    said(&LEARNT.replace("learn - either 0 p q - - -", row))
}

#[test]
fn lines_of_learn() {
    assert_eq!(
        said(LEARNT),
        "line 28, field 5: 12 a premise is not on the trail\n",
        "the clause is learned, and what it does not give is not there"
    );
    let level =
        "line 27: 21 its level is not above the rest, or learn's level is outside its range\n";
    let head =
        "line 27: 22 a term's sort or head is wrong for the step, or the value does not suit it\n";
    let clause = "line 27: 25 the clause does not match the members, or one is named twice\n";
    let columns = "line 27: 9 a step's columns are wrong\n";
    for (row, said) in [
        ("learn - either 3 p q - - -", level),
        ("learn - either 65534 p q - - -", level),
        ("learn - np 0 p q - - -", head),
        ("learn - one 0 p p - - -", head),
        ("learn - pq 0 p q - - -", clause),
        ("learn - either 0 p p - - -", clause),
        ("learn - either 0 p q both - -", clause),
        ("learn - either - p q - - -", columns),
        ("learn eval either 0 p q - - -", columns),
        ("learn - either 0 p - - - -", columns),
        ("learn - either 0 p q - - p", columns),
        ("learn - either 0 p - q - -", columns),
        ("learns - either 0 p q - - -", columns),
        ("Learn - either 0 p q - - -", columns),
        ("lear - either 0 p q - - -", columns),
        ("8 - either 0 p q - - -", columns),
        (
            "learn - nor 0 p q - - -",
            "line 27, field 3: 11 the term or a premise is no row\n",
        ),
        (
            "learn - either 0 p x - - -",
            "line 27, field 6: 11 the term or a premise is no row\n",
        ),
        (
            "learn - either 0 p swap - - -",
            "line 27: 17 not a member of the conflict\n",
        ),
        (
            "learn - both 0 p q - - -",
            "line 27: 14 the value is there already\n",
        ),
        (
            "learn - swap 0 p q - - -",
            "line 27: 14 the value is there already\n",
        ),
    ] {
        assert_eq!(learn_said(row), said, "{row}");
        let checked = check(LEARNT.replace("learn - either 0 p q - - -", row).as_bytes());
        assert_eq!((checked.meant, checked.cause()), (None, ""), "{row}");
    }
    let early = LEARNT.replace("clash eval both true p q - - -\n", "");
    assert_eq!(said(&early), "line 26: 10 wrong state for the step\n");
    let malformed = learn_said("learn - either 00 p q - - -");
    assert!(malformed.starts_with("line 27, field 4: 31 malformed: "));
}

/// 22 by a member that is not of sort prop.
#[test]
fn a_slot_is_no_literal() {
    let text = LEARNT.replace("one false\n", "").replace(
        "clash eval both true p q - - -",
        "decide - a 7 - - - - -\ndecide - one false - - - - -\nclash same one true a b - - -",
    );
    for members in ["a one", "one a", "a b"] {
        let text = text.replace("either 0 p q", &format!("either 0 {members}"));
        assert_eq!(
            said(&text),
            "line 28: 22 a term's sort or head is wrong for the step, or the value does not suit it\n"
        );
    }
}

/// Levels are read like values: `false` is 0 and `true` is 1.
#[test]
fn levels_as_words() {
    for (row, entries) in [
        ("learn - either 0 p q - - -", 4),
        ("learn - either false p q - - -", 4),
        ("learn - either 1 q p - - -", 5),
        ("learn - either true p q - - -", 5),
        ("learn - either 2 p q - - -", 6),
    ] {
        let text = LEARNT
            .replace("learn - either 0 p q - - -", row)
            .replace("deduce neg p false np - - - -\n", "");
        let outcome = check(text.as_bytes()).outcome;
        assert_eq!((outcome.verdict, outcome.steps), (0, 5), "{row}");
        assert_eq!(outcome.entries, entries, "{row}");
    }
}
