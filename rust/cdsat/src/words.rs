//! What the numbers and the causes mean, in the words of the line for a person.

use crate::Why;

/// The words of a number; 0 and the numbers that there are not have none.
pub fn meaning(number: u16) -> &'static str {
    match number {
        1 => "a sort row breaks the rule for sorts",
        2 => "a name is repeated or reserved",
        3 => "an argument is no earlier row",
        4 => "head, sort and arguments do not fit",
        5 => "a row with the head and arguments of an earlier one",
        6 => "an input row names no term",
        7 => "a value that the term cannot have",
        8 => "a term given twice",
        9 => "a step's columns are wrong",
        10 => "wrong state for the step",
        11 => "the term or a premise is no row",
        12 => "a premise is not on the trail",
        13 => "the rule does not fit",
        14 => "the value is there already",
        15 => "the opposite is there",
        16 => "the opposite is not there",
        17 => "not a member of the conflict",
        18 => "it is a decision",
        19 => "resolve is barred",
        20 => "not the decision that clear needs",
        21 => "its level is not above the rest, or learn's level is outside its range",
        22 => "a term's sort or head is wrong for the step, or the value does not suit it",
        23 => "no shared decision",
        25 => "the clause does not match the members, or one is named twice",
        26 => "fail is the line at level 0, clash the one above it",
        27 => "the value contradicts an equation on the trail",
        30 => "above a ceiling",
        31 => "malformed",
        32 => "a lent buffer is short",
        _ => "",
    }
}

/// The words of a cause; `Fine` has none.
pub fn cause(why: Why) -> &'static str {
    match why {
        Why::Fine => "",
        Why::Mark => "a byte order mark stands before the header",
        Why::Return => "a carriage return, where lines end with a newline alone",
        Why::Long => "the line has more than 525 bytes",
        Why::Header => "this is not the sheet's header line",
        Why::Empty => "an empty line after the last sheet",
        Why::Byte => "a tab or another byte that no field may have",
        Why::Fields => "not as many fields as the sheet has columns, or not single spaces",
        Why::Name => "a name of more than 64 bytes",
        Why::Value => "neither true, false, - nor a number up to 65534 without leading zeros",
        Why::Early => "the text ends before the header of the step sheet",
        Why::Cut => "the last line has no newline",
    }
}
