//! The sort sheet and the term sheet: their checks, and the terms in the form
//! the steps use.

use crate::{BLANK, MAX_SORTS, MAX_TERMS, SORT_COLUMNS, TERM_COLUMNS};

pub const EQ: u16 = 0;
pub const NOT: u16 = 1;
pub const AND: u16 = 2;
pub const OR: u16 = 3;
pub const SELECT: u16 = 4;
pub const STORE: u16 = 5;

/// The first and the last free head.
pub const FREE: u16 = 16;
const LAST_FREE: u16 = BLANK - 1;

/// The sort prop.
pub const PROP: u8 = 0;

/// A checked term. Arguments past the arity are 0.
#[derive(Clone, Copy)]
pub struct Term {
    pub head: u16,
    pub sort: u8,
    pub arity: u8,
    pub args: [u8; 4],
}

impl Term {
    const NONE: Term = Term {
        head: BLANK,
        sort: PROP,
        arity: 0,
        args: [0; 4],
    };

    pub fn args(&self) -> &[u8] {
        &self.args[..usize::from(self.arity)]
    }

    pub fn is_free(&self) -> bool {
        self.head >= FREE
    }

    /// Whether this is the equality of the two rows, in this order.
    pub fn is_eq(&self, left: u8, right: u8) -> bool {
        self.head == EQ && self.args[0] == left && self.args[1] == right
    }

    /// Head and arguments in one number, never 0.
    fn key(&self) -> u64 {
        u64::from(self.head)
            | u64::from(self.arity) << 16
            | u64::from(u32::from_le_bytes(self.args)) << 32
    }
}

/// A checked term sheet. Only the first `rows` terms count.
pub struct Terms {
    pub rows: u16,
    pub terms: [Term; MAX_TERMS],
}

/// The first row in trouble of the sheets, which stand in the order sorts, terms,
/// inputs, steps; both count from 0.
#[derive(Clone, Copy, Debug, PartialEq, Eq)]
pub struct BadRow {
    pub number: u16,
    pub sheet: u16,
    pub row: u16,
}

/// The index sort and the value sort of an array sort.
type Array = Option<(u8, u8)>;

/// A checked sort sheet. Sort 0 is prop.
struct Sorts {
    declared: usize,
    arrays: [Array; MAX_SORTS + 1],
}

/// Reads the sort sheet; 1 if a row breaks the rule.
fn check_sorts(sheet: &[u16]) -> Result<Sorts, BadRow> {
    let mut sorts = Sorts {
        declared: 0,
        arrays: [None; MAX_SORTS + 1],
    };
    for row in sheet.as_chunks::<SORT_COLUMNS>().0 {
        let earlier = 1..=sorts.declared as u16;
        let array = match *row {
            [BLANK, BLANK] => None,
            [index, value] if earlier.contains(&index) && earlier.contains(&value) => {
                Some((index as u8, value as u8))
            }
            _ => {
                return Err(BadRow {
                    number: 1,
                    sheet: 0,
                    row: sorts.declared as u16,
                })
            }
        };
        sorts.declared += 1;
        sorts.arrays[sorts.declared] = array;
    }
    Ok(sorts)
}

/// Twice as many slots as rows, so that a free one is always near.
const SLOTS: usize = 512;

/// An open table of non-zero numbers, 0 for a free slot.
struct Table([u64; SLOTS]);

impl Table {
    /// The first slot, from the one the hash points at, that is free or fits.
    fn slot(&mut self, hashed: u64, fits: impl Fn(u64) -> bool) -> &mut u64 {
        let mut at = (hashed.wrapping_mul(0x9E37_79B9_7F4A_7C15) >> 55) as usize;
        while self.0[at % SLOTS] != 0 && !fits(self.0[at % SLOTS]) {
            at += 1;
        }
        &mut self.0[at % SLOTS]
    }
}

/// Reads the sort sheet and the term sheet; 1, 3, 4 or 5 at the first trouble.
pub fn check(sort_sheet: &[u16], term_sheet: &[u16]) -> Result<Terms, BadRow> {
    let sorts = check_sorts(sort_sheet)?;
    let mut found = Terms {
        rows: 0,
        terms: [Term::NONE; MAX_TERMS],
    };
    match check_terms(&sorts, term_sheet, &mut found) {
        Ok(()) => Ok(found),
        Err(number) => Err(BadRow {
            number,
            sheet: 1,
            row: found.rows,
        }),
    }
}

/// Reads the term rows up to the first with 3, 4 or 5.
fn check_terms(sorts: &Sorts, sheet: &[u16], found: &mut Terms) -> Result<(), u16> {
    let mut uses = Table([0; SLOTS]);
    let mut keys = Table([0; SLOTS]);
    for row in sheet.as_chunks::<TERM_COLUMNS>().0 {
        let term = shape(row, found.rows, sorts.declared)?;
        if !fits(&term, &found.terms, sorts, &mut uses) {
            return Err(4);
        }
        let key = term.key();
        let slot = keys.slot(key, |other| other == key);
        if *slot != 0 {
            return Err(5);
        }
        *slot = key;
        found.terms[usize::from(found.rows)] = term;
        found.rows += 1;
    }
    Ok(())
}

/// The term of a row: 3 for an argument that is no earlier row, then 4 for
/// arguments not from the left or a sort not declared.
fn shape(row: &[u16; TERM_COLUMNS], own: u16, declared: usize) -> Result<Term, u16> {
    let [head, sort, args @ ..] = *row;
    if args.iter().any(|&arg| arg != BLANK && arg >= own) {
        return Err(3);
    }
    let arity = args.iter().filter(|&&arg| arg != BLANK).count();
    if args[..arity].contains(&BLANK) || usize::from(sort) > declared {
        return Err(4);
    }
    Ok(Term {
        head,
        sort: sort as u8,
        arity: arity as u8,
        args: args.map(|arg| if arg == BLANK { 0 } else { arg as u8 }),
    })
}

/// Whether head, sort and arguments belong together. A free head's first use is
/// noted.
fn fits(term: &Term, earlier: &[Term; MAX_TERMS], sorts: &Sorts, uses: &mut Table) -> bool {
    let sort = |position: usize| earlier[usize::from(term.args[position])].sort;
    let array = |position: usize| sorts.arrays[usize::from(sort(position))];
    let own = term.sort;
    match (term.head, term.arity) {
        (EQ, 2) => own == PROP && sort(0) != PROP && sort(0) == sort(1),
        (NOT, 1) | (AND | OR, 2..=4) => {
            own == PROP && (0..usize::from(term.arity)).all(|at| sort(at) == PROP)
        }
        (SELECT, 2) => array(0) == Some((sort(1), own)),
        (STORE, 3) => array(0) == Some((sort(1), sort(2))) && own == sort(0),
        (FREE..=LAST_FREE, arity) => {
            let mut use_ = u64::from(term.head) | u64::from(arity) << 16 | u64::from(own) << 24;
            for at in 0..usize::from(arity) {
                if sort(at) == PROP {
                    return false;
                }
                use_ |= u64::from(sort(at)) << (32 + 8 * at);
            }
            let first = uses.slot(u64::from(term.head), |other| other as u16 == term.head);
            if *first == 0 {
                *first = use_;
            }
            *first == use_
        }
        _ => false,
    }
}
