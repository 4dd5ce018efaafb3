//! Random problems and logs on which the checkers have to agree.
//!
//! `compare [--cases N] [--seed S] [--only I] [--program PATH]`
//!
//! Every case is run by `plain`, by the slow checker and, with the feature
//! `library`, by the static library: the result, the whole trail buffer and the
//! whole workspace have to be the same. Many cases are also printed as text,
//! damaged or not, and read by all readers there are, and checked at once: the
//! outcome and the line for a person have to be the same. With a program, some of
//! the texts of every kind go through it too. In one small text every byte is put in
//! the place of each byte. The counts of everything that has to occur are printed, and
//! a zero fails.

mod accept;
mod bytes;
mod case;
mod deep;
mod grow;
mod learn;
mod naive;
mod naive_deep;
mod naive_place;
mod naive_text;
mod print;
mod problem;
mod rng;
mod stats;
mod texts;

use case::Case;
use naive_place::Place;
use rng::Rng;
use stats::Stats;
use std::collections::BTreeMap;
use std::process::ExitCode;

/// The call, whoever makes it and whatever it answers.
type Call<T> = fn(&[u16], &[u16], &[u16], &[u16], &mut [u64], &mut [u16]) -> T;

/// The call with the numbers that it answers: verdict, steps, number, entries, place.
type Run = Call<[u16; 5]>;

fn run_plain(
    sorts: &[u16],
    terms: &[u16],
    inputs: &[u16],
    steps: &[u16],
    work: &mut [u64],
    trail: &mut [u16],
) -> [u16; 5] {
    numbers(plain::run(sorts, terms, inputs, steps, work, trail))
}

/// The outcome of `plain`: verdict, steps, number, entries and place.
fn numbers(out: plain::Outcome) -> [u16; 5] {
    [out.verdict, out.steps, out.number, out.entries, out.place]
}

/// What a run leaves: the outcome, the workspace and the trail buffer.
type Ran = ([u16; 5], Vec<u64>, Vec<u16>);

/// Those that are held against `plain` besides the slow checker.
fn runners() -> Vec<(&'static str, Run)> {
    vec![
        #[cfg(feature = "library")]
        ("the library", cdsat::run_numbers),
    ]
}

struct Options {
    cases: u64,
    seed: u64,
    only: Option<u64>,
    program: Option<String>,
}

fn options() -> Result<Options, String> {
    let mut options = Options {
        cases: 60_000,
        seed: 1,
        only: None,
        program: None,
    };
    let mut args = std::env::args().skip(1);
    while let Some(flag) = args.next() {
        let value = args.next().ok_or(format!("{flag} wants a value"))?;
        let number = || {
            value
                .parse::<u64>()
                .map_err(|_| format!("{value} is no number"))
        };
        match flag.as_str() {
            "--cases" => options.cases = number()?,
            "--seed" => options.seed = number()?,
            "--only" => options.only = Some(number()?),
            "--program" => options.program = Some(value),
            _ => return Err(format!("{flag} is no option")),
        }
    }
    Ok(options)
}

fn main() -> ExitCode {
    let options = match options() {
        Ok(options) => options,
        Err(trouble) => {
            eprintln!("compare: {trouble}");
            return ExitCode::FAILURE;
        }
    };
    let mut session = Session {
        stats: Stats::new(),
        program: options.program.clone(),
        probes: 0,
        texts: 0,
        programs: BTreeMap::new(),
    };
    let words = texts::compare_words();
    let swept = match words.and_then(|()| bytes::compare_bytes(&mut Rng::new(options.seed))) {
        Ok(swept) => swept,
        Err(difference) => {
            println!("{difference}");
            return ExitCode::FAILURE;
        }
    };
    let numbers = match options.only {
        Some(only) => only..only + 1,
        None => 0..options.cases,
    };
    for number in numbers.clone() {
        let mut rng = Rng::new(options.seed.wrapping_mul(0x2545_F491_4F6C_DD1D) ^ number << 20);
        if let Err(difference) = session.case(&mut rng) {
            println!("{difference}");
            println!("case {number} of seed {}", options.seed);
            return ExitCode::FAILURE;
        }
    }
    if options.only.is_some() {
        println!("case agrees");
        return ExitCode::SUCCESS;
    }
    let complete = session.stats.print();
    let mut names = vec!["the slow checker"];
    names.extend(runners().iter().map(|runner| runner.0));
    let readers: Vec<&str> = texts::readers().iter().map(|reader| reader.0).collect();
    println!(
        "{} cases and {} probes of seed {} agree with plain: {}; {} texts: {}; {} through the program; {swept} with each byte in each place",
        options.cases,
        session.probes,
        options.seed,
        names.join(", "),
        session.texts,
        readers.join(", "),
        session.programs.values().sum::<u64>(),
    );
    if complete {
        ExitCode::SUCCESS
    } else {
        ExitCode::FAILURE
    }
}

struct Session {
    stats: Stats,
    program: Option<String>,
    /// Logs with another last step than the one that was grown.
    probes: u64,
    texts: u64,
    /// How many texts of each kind went through the program.
    programs: BTreeMap<texts::Kind, u64>,
}

impl Session {
    /// Makes a case and compares everything on it.
    fn case(&mut self, rng: &mut Rng) -> Result<(), String> {
        let case::Made {
            mut case,
            late,
            probes,
            decisions,
            learns,
            deeps,
        } = case::make(rng);
        let (ran, place) = compare_run(&case)?;
        let outcome = ran.0;
        self.stats.run(&ran, place, &case.steps, 0);
        self.events(&case, outcome, late);
        if rng.percent(40) && case.steps.len() < 9 * 2_000 {
            let damaged = rng.percent(65);
            self.text(rng, &case, damaged)?;
        }
        // With a buffer too short a probe says no more than the case.
        if outcome[2] == 32 {
            return Ok(());
        }
        for shown in &decisions {
            self.stats.decision(shown);
        }
        for shown in &learns {
            self.stats.learn(shown);
        }
        for shown in &deeps {
            self.stats.deep(shown);
        }
        for (rows, row) in probes.into_iter().rev() {
            case.steps.truncate(9 * rows);
            case.steps.extend(row);
            let (ran, place) = compare_run(&case)?;
            self.probes += 1;
            self.stats.run(&ran, place, &case.steps, rows);
            let far_right = ran.0[4] > 7;
            if rng.percent(if far_right { 50 } else { 5 }) {
                self.text(rng, &case, false)?;
            }
        }
        Ok(())
    }

    fn events(&mut self, case: &Case, outcome: [u16; 5], late: u64) {
        let rows = case.terms.len() / 6;
        let ran = outcome[2] == 0 || stats::is_of_a_step(outcome[2]);
        let mut count = |name: &str, happened: bool| self.stats.event(name, u64::from(happened));
        let (work, trail) = (case.work.len(), case.trail.len());
        count(
            "workspace exactly long enough",
            ran && work == 8 * rows + 12,
        );
        count(
            "workspace one short",
            outcome[2] == 32 && work == 8 * rows + 11,
        );
        count(
            "trail buffer exactly long enough",
            ran && rows > 0 && trail == 4 * rows,
        );
        count(
            "trail buffer one short",
            outcome[2] == 32 && trail + 1 == 4 * rows,
        );
        count("256 term rows run", ran && rows == 256);
        count("256 input rows run", ran && case.inputs.len() == 512);
        count("32 sort rows run", ran && case.sorts.len() == 64);
        let steps = usize::from(outcome[1]);
        let last = case
            .steps
            .chunks(9)
            .take(steps)
            .next_back()
            .map(|row| row[0]);
        count(
            "logs that end in a conflict",
            outcome[0] == 0 && matches!(last, Some(2 | 3)),
        );
        self.stats.event("late entries kept by a cut", late);
    }
}

/// Runs the case with everyone; what `plain` makes of it, if all agree, and how the
/// slow checker found the place.
fn compare_run(case: &Case) -> Result<(Ran, Place), String> {
    let ours = run_with(case, run_plain);
    stats::expect_place(ours.0, &case.steps)?;
    let ((slow, place), work, trail) = run_with(case, naive::run);
    let [verdict, steps, number, entries] = slow;
    let outcome = [verdict, steps, number, entries, place.or(ours.0[4])];
    let slow = ("the slow checker", (outcome, work, trail));
    let others = runners()
        .into_iter()
        .map(|(name, run)| (name, run_with(case, run)));
    for (name, theirs) in [slow].into_iter().chain(others) {
        if ours != theirs {
            return Err(difference(case, name, &ours, &theirs));
        }
    }
    Ok((ours, place))
}

/// Runs the case over copies of its buffers.
fn run_with<T>(case: &Case, run: Call<T>) -> (T, Vec<u64>, Vec<u16>) {
    let (mut work, mut trail) = (case.work.clone(), case.trail.clone());
    let outcome = run(
        &case.sorts,
        &case.terms,
        &case.inputs,
        &case.steps,
        &mut work,
        &mut trail,
    );
    (outcome, work, trail)
}

/// The difference and the case, as arrays and as text.
fn difference(case: &Case, name: &str, ours: &Ran, theirs: &Ran) -> String {
    let work = ours.1.iter().zip(&theirs.1).position(|(a, b)| a != b);
    let trail = ours.2.iter().zip(&theirs.2).position(|(a, b)| a != b);
    let text = print::print(&mut Rng::new(0), case).text;
    format!(
        "plain and {name} differ: outcome {:?} and {:?}; first workspace word that differs: {work:?}; \
         first trail number that differs: {trail:?}\n\
         let sorts: &[u16] = &{:?};\nlet terms: &[u16] = &{:?};\nlet inputs: &[u16] = &{:?};\n\
         let steps: &[u16] = &{:?};\nlet work = {}; // words\nlet trail = {}; // numbers\n\
         // plain's trail: {:?}\n// the other's:   {:?}\n{}",
        ours.0,
        theirs.0,
        case.sorts,
        case.terms,
        case.inputs,
        case.steps,
        case.work.len(),
        case.trail.len(),
        ours.2,
        theirs.2,
        String::from_utf8_lossy(&text),
    )
}
