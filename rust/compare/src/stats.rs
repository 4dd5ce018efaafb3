//! How often everything occurred.

use crate::accept;
use crate::deep::{self, DEEP};
use crate::learn;
use crate::naive_place::Place;
use crate::naive_text::{RULE_WORDS, STEP_WORDS};
use crate::problem::X;
use crate::Ran;
use plain::{Checked, Meant, Why};
use std::collections::BTreeMap;

/// The numbers that a run can be refused with.
const RUN_NUMBERS: [u16; 29] = [
    0, 1, 3, 4, 5, 6, 7, 8, 9, 10, 11, 12, 13, 14, 15, 16, 17, 18, 19, 20, 21, 22, 23, 25, 26, 27,
    30, 31, 32,
];

/// The numbers that a person is told of a text.
const TOLD: [u16; 28] = [
    1, 2, 3, 4, 5, 6, 7, 8, 9, 10, 11, 12, 13, 14, 15, 16, 17, 18, 19, 20, 21, 22, 23, 25, 26, 27,
    30, 31,
];

/// The numbers of the text reader.
const TEXT_NUMBERS: [u16; 5] = [0, 2, 30, 31, 32];

/// The numbers that each step can be refused with, in the order of its tests.
const ORDERS: [&[u16]; 9] = [
    &accept::NUMBERS,
    &[9, 10, 11, 22, 12, 13, 14, 15],
    &[9, 10, 11, 22, 12, 13, 16, 26],
    &[9, 10, 11, 17, 18, 19],
    &[9, 10, 11, 17, 20, 21],
    &[9, 10, 11, 17, 22, 21],
    &[9, 10, 11, 17, 22, 18, 23],
    &[9, 10, 11, 22, 12, 13, 16, 26],
    &learn::NUMBERS,
];

/// The places that 11 can have in each step: the term, and the premises it takes.
const STRANGE: [&[u16]; 9] = [
    &[3],
    &[3, 5, 6, 7, 8, 9],
    &[3, 5, 6, 7, 8, 9],
    &[3],
    &[3],
    &[3],
    &[3, 5],
    &[3, 5, 6, 7, 8, 9],
    &[3, 5, 6, 7, 8],
];

/// The steps that use a rule, and the places that 12 can have in them.
const INFERENCES: [u16; 3] = [1, 2, 7];
const ABSENT: [u16; 5] = [5, 6, 7, 8, 9];

/// The places that 13 can have with each rule: 3 where the rule never gives the term a
/// value, 4 where it never gives it this one (neg, eval and pred give both or none),
/// then every premise, and the column after the last one for a surplus premise. same,
/// differ and trans take two premises, sym, neg, part and skip one, refl and read none;
/// unit, eval and cong take up to four, and pred up to five, which leaves no column for
/// another. With deep it is 3, always.
const UNFIT: [&[u16]; 14] = [
    &[3, 4, 5, 6, 7],
    &[3, 4, 5, 6, 7],
    &[3, 4, 5],
    &[3, 4, 5, 6],
    &[3, 4, 5, 6, 7],
    &[3, 5, 6],
    &[3, 4, 5, 6],
    &[3, 4, 5, 6, 7, 8, 9],
    &[3, 5, 6, 7, 8, 9],
    &[3, 4, 5, 6, 7, 8, 9],
    &[3, 5, 6, 7, 8, 9],
    &[3, 4, 5],
    &[3, 4, 5, 6],
    &[3],
];

/// The fields that a person is told with 11, 12 and 13.
const FIELDS: [(usize, &[u16]); 3] = [
    (11, &[3, 5, 6, 7, 8, 9]),
    (12, &ABSENT),
    (13, &[3, 4, 5, 6, 7, 8, 9]),
];

const VERDICTS: [&str; 3] = ["open", "refuted", "refused"];

/// Where premises and opposite can stand: nowhere, at level 0 or above it.
const PREMISES: [&str; 3] = ["no premise", "premises at 0", "premises above"];
const OPPOSITES: [&str; 3] = ["no opposite", "opposite at 0", "opposite above"];

/// The lines that a person is told were meant.
const MEANT: [Meant; 2] = [Meant::Fail, Meant::Clash];

/// Everything that has to occur, by heading and name, in the order of printing.
pub struct Stats {
    counts: BTreeMap<(Heading, u16), (String, u64)>,
    /// Places of 13 that the slow checker did not find, and those that deep gives.
    unknown: u64,
    given: u64,
}

#[derive(Clone, Copy, PartialEq, Eq, PartialOrd, Ord)]
enum Heading {
    Steps,
    Deduces,
    Clashes,
    Fails,
    Verdicts,
    Numbers,
    Refusals,
    Standing,
    Decisions,
    DecisionBefore,
    Learns,
    Before,
    Deeps,
    DeepNumbers,
    DeepBefore,
    Strange,
    Absent,
    Unfit,
    Listed,
    Events,
    TextNumbers,
    TextVerdicts,
    Causes,
    Told,
    Fields,
    Meant,
}

impl Heading {
    fn words(self) -> &'static str {
        match self {
            Heading::Steps => "steps allowed",
            Heading::Deduces => "rules used by a deduce",
            Heading::Clashes => "rules used by a clash",
            Heading::Fails => "rules used by a fail",
            Heading::Verdicts => "verdicts",
            Heading::Numbers => "numbers of runs",
            Heading::Refusals => "numbers of each step",
            Heading::Standing => "levels of clashes and fails that ended a run",
            Heading::Decisions => "what decisions showed",
            Heading::DecisionBefore => "numbers of decisions with a later one's fault too",
            Heading::Learns => "what learns showed",
            Heading::Before => "numbers of learns with a later one's fault too",
            Heading::Deeps => "what rows by deep showed",
            Heading::DeepNumbers => "numbers of rows by deep in each step",
            Heading::DeepBefore => "numbers of rows by deep with a later one's fault too",
            Heading::Strange => "places of 11 in each step",
            Heading::Absent => "places of 12 in each step",
            Heading::Unfit => "places of 13 with each rule",
            Heading::Listed => "places of 13 with each rule, by completions with every row",
            Heading::Events => "other events",
            Heading::TextNumbers => "numbers of texts",
            Heading::TextVerdicts => "verdicts of texts",
            Heading::Causes => "causes of malformed texts",
            Heading::Told => "numbers of lines for a person",
            Heading::Fields => "fields that a person is told, with each number",
            Heading::Meant => "lines that were meant",
        }
    }
}

/// Events that are counted besides.
pub const EVENTS: [&str; 22] = [
    "11 behind a premise not on the trail",
    "12 with a premise too many for the rule",
    "12 behind every place that 13 can have",
    "late entries kept by a cut",
    "learned clauses used by a unit deduce",
    "learned clauses in a clash or a fail",
    "learns allowed in texts",
    "learns allowed, the level as a word",
    "rows by deep allowed in texts",
    "13 by deep in texts",
    "workspace exactly long enough",
    "workspace one short",
    "trail buffer exactly long enough",
    "trail buffer one short",
    "256 term rows run",
    "256 input rows run",
    "32 sort rows run",
    "logs that end in a conflict",
    "refuted with decisions on the trail",
    "26 by a fail above level 1",
    "texts read with a line of 525 bytes",
    "bad lines of 526 bytes",
];

/// Whether a step was refused with the number.
pub fn is_of_a_step(number: u16) -> bool {
    matches!(number, 9..=23 | 25..=27)
}

impl Stats {
    pub fn new() -> Self {
        let mut stats = Stats {
            counts: BTreeMap::new(),
            unknown: 0,
            given: 0,
        };
        stats.expect(Heading::Steps, &STEP_WORDS);
        for uses in [Heading::Deduces, Heading::Clashes, Heading::Fails] {
            stats.expect(uses, &RULE_WORDS);
        }
        stats.expect(Heading::Verdicts, &VERDICTS);
        stats.expect(Heading::Decisions, &accept::NOTES);
        stats.expect(Heading::Learns, &learn::NOTES);
        stats.expect(Heading::Deeps, &deep::NOTES);
        stats.expect(Heading::Events, &EVENTS);
        stats.expect(Heading::TextVerdicts, &VERDICTS);
        stats.expect(Heading::Meant, &MEANT.map(Meant::words));
        stats.expect_numbers(Heading::Numbers, &RUN_NUMBERS);
        stats.expect_numbers(Heading::TextNumbers, &TEXT_NUMBERS);
        stats.expect_numbers(Heading::Told, &TOLD);
        for why in &Why::ALL[1..] {
            stats.expect_one(Heading::Causes, *why as u16, format!("{why:?}"));
        }
        stats.expect_refusals();
        stats.expect_standing();
        stats.expect_decision();
        stats.expect_before();
        stats.expect_deep();
        stats.expect_places();
        stats
    }

    fn expect_one(&mut self, heading: Heading, at: u16, name: String) {
        self.counts.insert((heading, at), (name, 0));
    }

    fn expect(&mut self, heading: Heading, names: &[&str]) {
        for (at, name) in names.iter().enumerate() {
            self.expect_one(heading, at as u16, name.to_string());
        }
    }

    fn expect_numbers(&mut self, heading: Heading, numbers: &[u16]) {
        for &number in numbers {
            self.expect_one(heading, number, number.to_string());
        }
    }

    fn expect_refusals(&mut self) {
        for (step, numbers) in ORDERS.iter().enumerate() {
            for &number in *numbers {
                let name = format!("{} {number}", STEP_WORDS[step]);
                self.expect_one(Heading::Refusals, refusal(step as u16, number), name);
            }
        }
    }

    fn expect_standing(&mut self) {
        for step in [2, 7] {
            for (premises, one) in PREMISES.iter().enumerate() {
                for (opposite, two) in OPPOSITES.iter().enumerate() {
                    let name = format!("{}, {one}, {two}", STEP_WORDS[usize::from(step)]);
                    let at = standing(step, premises, opposite);
                    self.expect_one(Heading::Standing, at, name);
                }
            }
        }
    }

    /// Every number of a decision before every later one that it can come with.
    fn expect_decision(&mut self) {
        for (at, &number) in accept::NUMBERS.iter().enumerate() {
            for (later, &other) in accept::NUMBERS.iter().enumerate().skip(at + 1) {
                let name = format!("{number} before {other}");
                if accept::can_be_both(number, other) {
                    self.expect_one(Heading::DecisionBefore, decision_before(at, later), name);
                }
            }
        }
    }

    /// Every number of learn before every later one.
    fn expect_before(&mut self) {
        for (at, &number) in learn::NUMBERS.iter().enumerate() {
            for (later, &other) in learn::NUMBERS.iter().enumerate().skip(at + 1) {
                let name = format!("{number} before {other}");
                self.expect_one(Heading::Before, before(at, later), name);
            }
        }
    }

    /// Every number of a row by deep in each step, before every later one but 14 before
    /// 15, which no row has both.
    fn expect_deep(&mut self) {
        for step in deep::STEPS {
            let word = STEP_WORDS[usize::from(step)];
            let numbers = deep::numbers(step);
            self.expect_one(Heading::DeepNumbers, refusal(step, 0), format!("{word} 0"));
            for (at, &number) in numbers.iter().enumerate() {
                let name = format!("{word} {number}");
                self.expect_one(Heading::DeepNumbers, refusal(step, number), name);
                for (later, &other) in numbers.iter().enumerate().skip(at + 1) {
                    let name = format!("{word}, {number} before {other}");
                    if (number, other) != (14, 15) {
                        self.expect_one(Heading::DeepBefore, deep_before(step, at, later), name);
                    }
                }
            }
        }
    }

    /// Every place of 11, 12 and 13.
    fn expect_places(&mut self) {
        for (step, places) in STRANGE.iter().enumerate() {
            self.expect_at(Heading::Strange, step, STEP_WORDS[step], places);
        }
        for step in INFERENCES.map(usize::from) {
            self.expect_at(Heading::Absent, step, STEP_WORDS[step], &ABSENT);
        }
        for (rule, places) in UNFIT.iter().enumerate() {
            self.expect_at(Heading::Unfit, rule, RULE_WORDS[rule], places);
            if rule != usize::from(DEEP) {
                self.expect_at(Heading::Listed, rule, RULE_WORDS[rule], places);
            }
        }
        for (number, places) in FIELDS {
            self.expect_at(Heading::Fields, number, &number.to_string(), places);
        }
    }

    fn expect_at(&mut self, heading: Heading, at: usize, word: &str, places: &[u16]) {
        for &place in places {
            self.expect_one(
                heading,
                located(at as u16, place),
                format!("{word} at {place}"),
            );
        }
    }

    fn add(&mut self, heading: Heading, at: u16, more: u64) {
        let count = self
            .counts
            .entry((heading, at))
            .or_insert_with(|| (format!("{at} (unexpected)"), 0));
        count.1 += more;
    }

    /// Counts a run: its outcome, with how the slow checker found the place, the steps
    /// that were allowed from the given row on, and how it ended.
    pub fn run(&mut self, ran: &Ran, found: Place, steps: &[u16], from: usize) {
        let (outcome, _, trail) = ran;
        let [verdict, allowed, number, entries, place] = *outcome;
        self.add(Heading::Verdicts, verdict, 1);
        self.add(Heading::Numbers, number, 1);
        let mut learned = Vec::new();
        for (at, row) in steps.chunks(9).take(usize::from(allowed)).enumerate() {
            if at >= from {
                self.step(row);
                self.lesson(row, &learned);
            }
            match row[0] {
                learn::LEARN => learned.push(row[2]),
                0 | 1 | 5 | 6 => learned.retain(|&term| term != row[2]),
                _ => (),
            }
        }
        let refused = is_of_a_step(number);
        let read = usize::from(allowed) + usize::from(refused);
        let trail: Vec<&[u16]> = trail.chunks(4).take(usize::from(entries)).collect();
        if let Some(row) = steps.chunks(9).take(read).next_back() {
            if refused && usize::from(row[0]) < STEP_WORDS.len() {
                self.add(Heading::Refusals, refusal(row[0], number), 1);
                self.place(row, number, place, found);
                self.order(row, number, place, &trail);
            }
            self.end(row, number, &trail);
        }
    }

    /// Counts the place of a row that was refused.
    fn place(&mut self, row: &[u16], number: u16, place: u16, found: Place) {
        match number {
            11 => self.add(Heading::Strange, located(row[0], place), 1),
            12 => self.add(Heading::Absent, located(row[0], place), 1),
            13 => {
                self.add(Heading::Unfit, located(row[1], place), 1);
                match found {
                    Place::Listed(_) => self.add(Heading::Listed, located(row[1], place), 1),
                    Place::Unknown => self.unknown += 1,
                    Place::Read(_) => self.given += 1,
                    Place::Picked(_) => (),
                }
            }
            _ => (),
        }
    }

    /// Counts the rows that have the fault of a later number further to the left: a
    /// number is asked of all columns before the next.
    fn order(&mut self, row: &[u16], number: u16, place: u16, trail: &[&[u16]]) {
        if !INFERENCES.contains(&row[0]) {
            return;
        }
        let before = &row[4..usize::from(place.max(5)) - 1];
        let absent = |premise: &u16| trail.iter().all(|entry| entry[0] != *premise);
        let behind = number == 11 && before.iter().any(absent);
        self.event("11 behind a premise not on the trail", behind.into());
        let Some(&last) = UNFIT
            .get(usize::from(row[1]))
            .and_then(|places| places.last())
            .filter(|_| row[1] != DEEP)
        else {
            return;
        };
        let too_many = number == 12 && last < 9 && row[usize::from(last) - 1] != X;
        self.event("12 with a premise too many for the rule", too_many.into());
        let behind = number == 12 && place > last;
        self.event("12 behind every place that 13 can have", behind.into());
    }

    fn step(&mut self, row: &[u16]) {
        self.add(Heading::Steps, row[0], 1);
        match row[0] {
            1 => self.add(Heading::Deduces, row[1], 1),
            2 => self.add(Heading::Clashes, row[1], 1),
            7 => self.add(Heading::Fails, row[1], 1),
            _ => (),
        }
    }

    /// Counts an allowed step by the premises that are learned clauses: the terms
    /// that learn was the last to put on the trail.
    fn lesson(&mut self, row: &[u16], learned: &[u16]) {
        if matches!(row[..2], [1, 7]) && learned.contains(&row[4]) {
            self.event("learned clauses used by a unit deduce", 1);
        }
        let closes = matches!(row[0], 2 | 7);
        let mut terms = row[4..].iter().chain([&row[2]]);
        if closes && terms.any(|term| learned.contains(term)) {
            self.event("learned clauses in a clash or a fail", 1);
        }
    }

    /// Counts what a decision that was tried showed.
    pub fn decision(&mut self, shown: &accept::Shown) {
        for name in &shown.notes {
            let at = accept::NOTES.iter().position(|note| note == name);
            self.add(Heading::Decisions, at.expect("a note listed") as u16, 1);
        }
        let place = |number: u16| accept::NUMBERS.iter().position(|&other| other == number);
        let Some(at) = place(shown.number) else {
            return;
        };
        for later in shown.faults.iter().filter_map(|&number| place(number)) {
            if later > at {
                self.add(Heading::DecisionBefore, decision_before(at, later), 1);
            }
        }
    }

    /// Counts what a learn that was tried showed.
    pub fn learn(&mut self, shown: &learn::Shown) {
        for name in &shown.notes {
            let at = learn::NOTES.iter().position(|note| note == name);
            self.add(Heading::Learns, at.expect("a note listed") as u16, 1);
        }
        let place = |number: u16| learn::NUMBERS.iter().position(|&other| other == number);
        let Some(at) = place(shown.number) else {
            return;
        };
        for later in shown.faults.iter().filter_map(|&number| place(number)) {
            if later > at {
                self.add(Heading::Before, before(at, later), 1);
            }
        }
    }

    /// Counts what a row by deep that was tried showed.
    pub fn deep(&mut self, shown: &deep::Shown) {
        for name in &shown.notes {
            let at = deep::NOTES.iter().position(|note| note == name);
            self.add(Heading::Deeps, at.expect("a note listed") as u16, 1);
        }
        if !shown.listed {
            return;
        }
        let (step, number) = (shown.step, shown.number);
        self.add(Heading::DeepNumbers, refusal(step, number), 1);
        let numbers = deep::numbers(step);
        let place = |number: u16| numbers.iter().position(|&other| other == number);
        let Some(at) = place(number) else {
            return;
        };
        for later in shown.faults.iter().filter_map(|&number| place(number)) {
            if later > at {
                self.add(Heading::DeepBefore, deep_before(step, at, later), 1);
            }
        }
    }

    /// Counts the end of a run by a clash or a fail whose rule fits, the row last
    /// read, by the levels of its premises and of its opposite.
    fn end(&mut self, row: &[u16], number: u16, trail: &[&[u16]]) {
        let step = row[0];
        if !matches!((step, number), (2 | 7, 0 | 16 | 26)) {
            return;
        }
        let entry = |term: u16| trail.iter().find(|entry| entry[0] == term);
        let premises = row[4..].iter().filter(|&&premise| premise != X);
        let premises = premises.filter_map(|&premise| entry(premise)).map(|e| e[2]);
        let opposite = entry(row[2]).filter(|entry| entry[1] != row[3]);
        let levels = [premises.max(), opposite.map(|entry| entry[2])];
        let [one, two] = levels.map(|level| level.map_or(0, |level| 1 + usize::from(level > 0)));
        self.add(Heading::Standing, standing(step, one, two), 1);
        let above = (step, number) == (7, 26) && levels.iter().flatten().any(|&level| level > 1);
        self.event("26 by a fail above level 1", above.into());
        let decided = (step, number) == (7, 0) && trail.iter().any(|entry| entry[3] == 1);
        self.event("refuted with decisions on the trail", decided.into());
    }

    pub fn text(&mut self, number: u16) {
        self.add(Heading::TextNumbers, number, 1);
    }

    /// Counts what a person is told of a text, if anything.
    pub fn told(&mut self, checked: &Checked) {
        if checked.why != Why::Fine {
            self.add(Heading::Causes, checked.why as u16, 1);
        }
        if checked.outcome.number != 0 {
            self.add(Heading::Told, checked.outcome.number, 1);
        }
        if let number @ 11..=13 = checked.outcome.number {
            let at = located(number, checked.field as u16);
            self.add(Heading::Fields, at, 1);
        }
        if let Some(meant) = checked.meant {
            self.add(Heading::Meant, meant as u16, 1);
        }
    }

    pub fn text_verdict(&mut self, verdict: u16) {
        self.add(Heading::TextVerdicts, verdict, 1);
    }

    pub fn event(&mut self, name: &str, more: u64) {
        let at = EVENTS
            .iter()
            .position(|event| *event == name)
            .expect("an event listed");
        self.add(Heading::Events, at as u16, more);
    }

    /// Prints all counts; false if something never occurred.
    pub fn print(&self) -> bool {
        let mut last = None;
        let mut missing = Vec::new();
        for (&(heading, _), (name, count)) in &self.counts {
            if last != Some(heading) {
                println!("{}:", heading.words());
                last = Some(heading);
            }
            println!("  {name:<37} {count:>10}");
            if *count == 0 {
                missing.push(format!("{}: {name}", heading.words()));
            }
        }
        for name in &missing {
            println!("never occurred: {name}");
        }
        missing.is_empty() && self.enough_places()
    }

    /// Whether the slow checker found at least two of three places of 13, but for those
    /// with deep, which are not sought.
    fn enough_places(&self) -> bool {
        let all: u64 = self.counted(Heading::Unfit) - self.given;
        let listed = self.counted(Heading::Listed);
        let found = all - self.unknown;
        println!("{found} of {all} places of 13 by completions, {listed} of them with every row");
        3 * found >= 2 * all
    }

    fn counted(&self, heading: Heading) -> u64 {
        let of_heading = |&(key, _): &(&(Heading, u16), _)| key.0 == heading;
        let counts = self.counts.iter().filter(of_heading);
        counts.map(|(_, (_, count))| count).sum()
    }
}

/// The place of a step's number in the counts.
fn refusal(step: u16, number: u16) -> u16 {
    100 * step + number
}

/// The place of a step in the counts by where its premises and opposite stand.
fn standing(step: u16, premises: usize, opposite: usize) -> u16 {
    100 * step + (3 * premises + opposite) as u16
}

/// The place in the counts of a column of the rows of a step, or of a rule.
fn located(of: u16, column: u16) -> u16 {
    10 * of + column
}

/// Only 11, 12 and 13 have a place, and each only those of its table.
pub fn expect_place(outcome: [u16; 5], steps: &[u16]) -> Result<(), String> {
    let [_, allowed, number, _, place] = outcome;
    let row = steps.chunks(9).nth(allowed.into()).unwrap_or_default();
    let places = match number {
        11 => STRANGE[usize::from(row[0])],
        12 => &ABSENT,
        13 => UNFIT.get(usize::from(row[1])).copied().unwrap_or_default(),
        _ => &[0],
    };
    match places.contains(&place) {
        true => Ok(()),
        false => Err(format!("plain gives {number} the place {place} in {row:?}")),
    }
}

/// The place in the counts of a number of a row by deep before a later one.
fn deep_before(step: u16, at: usize, later: usize) -> u16 {
    100 * step + (10 * at + later) as u16
}

/// The place in the counts of a number of a decision before a later one.
fn decision_before(at: usize, later: usize) -> u16 {
    (accept::NUMBERS.len() * at + later) as u16
}

/// The place in the counts of a number of learn before a later one.
fn before(at: usize, later: usize) -> u16 {
    (learn::NUMBERS.len() * at + later) as u16
}
