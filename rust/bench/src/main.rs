//! Benchmarks: medians of many runs in one process, and the ratio of the static
//! library to the plain checker.
//!
//! `bench [--plain-only] [--runs N] [--only WORD]`
//!
//! `--only` measures what has the word in its name, as for a profile.
//!
//! The runs of the two alternate. Sheets are in memory; the workspace and the
//! trail buffer have the least lengths, are not cleared between the runs and so
//! start as the run before left them, the workspace all zero. The calls' own
//! clearing of the workspace is part of what is measured.

mod work;

use std::hint::black_box;
use std::process::ExitCode;
use std::time::Instant;
use work::Sheets;

type Run = fn(&[u16], &[u16], &[u16], &[u16], &mut [u64], &mut [u16]) -> [u16; 5];

/// The reader of texts: the number and the rows.
type ReadText = fn(&[u8], &mut [Vec<u16>; 4]) -> (u16, [u16; 4]);

/// A text read and run at once: verdict, steps, number, entries, place.
type CheckText = fn(&[u8]) -> [u16; 5];

fn run_plain(
    sorts: &[u16],
    terms: &[u16],
    inputs: &[u16],
    steps: &[u16],
    work: &mut [u64],
    trail: &mut [u16],
) -> [u16; 5] {
    numbers(plain::run(sorts, terms, inputs, steps, work, trail))
}

fn numbers(out: plain::Outcome) -> [u16; 5] {
    [out.verdict, out.steps, out.number, out.entries, out.place]
}

fn read_plain(text: &[u8], sheets: &mut [Vec<u16>; 4]) -> (u16, [u16; 4]) {
    let [sorts, terms, inputs, steps] = sheets;
    let read = plain::read(text, sorts, terms, inputs, steps);
    (read.number, read.rows)
}

fn check_plain(text: &[u8]) -> [u16; 5] {
    let checked = plain::check(text);
    black_box(checked.said());
    numbers(checked.outcome)
}

#[cfg(feature = "library")]
fn run_library() -> Option<Run> {
    Some(cdsat::run_numbers)
}

#[cfg(not(feature = "library"))]
fn run_library() -> Option<Run> {
    None
}

#[cfg(feature = "library")]
fn read_library() -> Option<ReadText> {
    Some(|text, sheets| {
        let [sorts, terms, inputs, steps] = sheets;
        let read = cdsat::read(text, sorts, terms, inputs, steps);
        (read.number, read.rows)
    })
}

#[cfg(not(feature = "library"))]
fn read_library() -> Option<ReadText> {
    None
}

#[cfg(feature = "library")]
fn check_library() -> Option<CheckText> {
    Some(|text| {
        let mut said = [0; cdsat::SAID];
        let outcome = cdsat::check_into(text, &mut said);
        black_box(said);
        outcome.numbers()
    })
}

#[cfg(not(feature = "library"))]
fn check_library() -> Option<CheckText> {
    None
}

/// Nanoseconds: the median of many timings and the least of them.
struct Times {
    median: f64,
    least: f64,
}

/// The times of each of the tasks, which take turns.
fn medians(runs: usize, repeats: usize, tasks: &mut [Box<dyn FnMut() + '_>]) -> Vec<Times> {
    let mut times = vec![Vec::with_capacity(runs); tasks.len()];
    for round in 0..runs + 3 {
        for (task, times) in tasks.iter_mut().zip(&mut times) {
            let begin = Instant::now();
            for _ in 0..repeats {
                task();
            }
            let time = begin.elapsed().as_nanos() as f64 / repeats as f64;
            if round >= 3 {
                times.push(time);
            }
        }
    }
    times
        .into_iter()
        .map(|mut times| {
            times.sort_by(f64::total_cmp);
            Times {
                median: times[times.len() / 2],
                least: times[0],
            }
        })
        .collect()
}

struct Bench {
    runs: usize,
    plain_only: bool,
    only: String,
}

impl Bench {
    /// Measures the call on the sheets and prints a line, per step or per call.
    fn run(&self, name: &str, sheets: &Sheets, per_step: bool) -> Result<(), String> {
        if !name.contains(&self.only) {
            return Ok(());
        }
        let mut runners: Vec<Run> = vec![run_plain];
        runners.extend(run_library().filter(|_| !self.plain_only));
        let rows = sheets.rows();
        let mut buffers: Vec<_> = runners
            .iter()
            .map(|_| {
                (
                    vec![0; plain::work_words(rows)],
                    vec![0; plain::trail_numbers(rows)],
                )
            })
            .collect();
        let go = |run: Run, (work, trail): &mut (Vec<u64>, Vec<u16>)| {
            let [sorts, terms] = [&sheets.sorts, &sheets.terms];
            let [inputs, steps] = [&sheets.inputs, &sheets.steps];
            run(
                black_box(sorts),
                black_box(terms),
                black_box(inputs),
                black_box(steps),
                work,
                trail,
            )
        };
        for (run, buffers) in runners.iter().zip(&mut buffers) {
            let outcome = go(*run, buffers);
            let [verdict, steps, number, _, place] = outcome;
            if [verdict, steps, number, place] != sheets.expected() {
                return Err(format!("{name}: the outcome is {outcome:?}"));
            }
        }
        let mut tasks: Vec<Box<dyn FnMut()>> = Vec::new();
        for (run, buffers) in runners.iter().zip(&mut buffers) {
            tasks.push(Box::new(move || {
                black_box(go(*run, buffers));
            }));
        }
        let repeats = if per_step { 1 } else { 100 };
        let times = medians(self.runs, repeats, &mut tasks);
        if per_step {
            let steps = sheets.step_rows() as f64;
            line(name, &sheets.about, "ns/step", &times, |time| time / steps);
        } else {
            line(name, &sheets.about, "us/call", &times, |time| time / 1e3);
        }
        Ok(())
    }

    /// Measures the reader on a text, which is read whole or begins with a bad
    /// line.
    fn read(&self, name: &str, (about, text): (String, Vec<u8>)) -> Result<(), String> {
        if !name.contains(&self.only) {
            return Ok(());
        }
        let mut readers: Vec<ReadText> = vec![read_plain];
        readers.extend(read_library().filter(|_| !self.plain_only));
        let mut buffers: Vec<_> = readers
            .iter()
            .map(|_| [64, 1_536, 512, 9_216].map(|length: usize| vec![0u16; length]))
            .collect();
        for (read, sheets) in readers.iter().zip(&mut buffers) {
            let (number, rows) = read(&text, sheets);
            let good = number == 0 && rows[1] == 256 && rows[3] == 1_024;
            if good != text.starts_with(b"sort ") {
                return Err(format!("the text is read as {number}, {rows:?}"));
            }
        }
        let mut tasks: Vec<Box<dyn FnMut()>> = Vec::new();
        for (read, sheets) in readers.iter().zip(&mut buffers) {
            let text = &text;
            tasks.push(Box::new(move || {
                black_box(read(black_box(text), sheets));
            }));
        }
        let times = medians(self.runs, 10, &mut tasks);
        let bytes = text.len() as f64;
        line(name, &about, "MB/s", &times, |time| bytes * 1e3 / time);
        Ok(())
    }

    /// Measures a text read and run at once, whose steps are all allowed.
    fn check(&self, name: &str, (about, text): (String, Vec<u8>)) -> Result<(), String> {
        if !name.contains(&self.only) {
            return Ok(());
        }
        let mut checkers: Vec<CheckText> = vec![check_plain];
        checkers.extend(check_library().filter(|_| !self.plain_only));
        let mut tasks: Vec<Box<dyn FnMut()>> = Vec::new();
        for check in checkers {
            let outcome = check(&text);
            if outcome[..3] != [0, 1_024, 0] {
                return Err(format!("{name}: the outcome is {outcome:?}"));
            }
            let text = &text;
            tasks.push(Box::new(move || {
                black_box(check(black_box(text)));
            }));
        }
        let times = medians(self.runs, 10, &mut tasks);
        let bytes = text.len() as f64;
        line(name, &about, "MB/s", &times, |time| bytes * 1e3 / time);
        Ok(())
    }
}

/// Prints the medians in their unit, with the least times in brackets, and the
/// ratio of both.
fn line(name: &str, about: &str, unit: &str, times: &[Times], scale: impl Fn(f64) -> f64) {
    print!("{name:<22}");
    for (who, times) in ["plain", "library"].iter().zip(times) {
        let (median, least) = (scale(times.median), scale(times.least));
        print!(" {who} {median:>8.2} [{least:>7.2}] {unit}");
    }
    if let [plain, library] = times {
        let (medians, least) = (library.median / plain.median, library.least / plain.least);
        print!(" ratio of times {medians:>5.2} [{least:>5.2}]");
    }
    println!("  ({about})");
}

/// The name the processor gives itself, where it can be read.
fn processor() -> String {
    let about = std::fs::read_to_string("/proc/cpuinfo").unwrap_or_default();
    let name = about.lines().find(|line| line.starts_with("model name"));
    let name = name.and_then(|line| line.split_once(": "));
    name.map_or("unknown processor".into(), |(_, name)| name.into())
}

fn all(bench: &Bench) -> Result<(), String> {
    bench.run("deduce-heavy log", &work::deduce_heavy(), true)?;
    bench.run("conflict-heavy log", &work::conflict_heavy(), true)?;
    bench.run("cut-heavy log", &work::cut_heavy(), true)?;
    bench.run("decide-heavy log", &work::decide_heavy(), true)?;
    bench.run("decides, no equation", &work::decide_bare(), true)?;
    bench.run("learn-heavy log", &work::learn_heavy(), true)?;
    bench.run("deep-heavy log", &work::deep_heavy(), true)?;
    bench.run("deep, shared rows", &work::deep_shared(), true)?;
    bench.run("deep, all rows", &work::deep_wide(), true)?;
    bench.run("wide conflicts", &work::wide_conflicts(256, [4, 4]), true)?;
    bench.run(
        "wide conflicts, 64",
        &work::wide_conflicts(64, [3, 2]),
        true,
    )?;
    bench.run("terms, distinct heads", &work::distinct_heads(), false)?;
    bench.run("terms, one head", &work::one_head(), false)?;
    bench.run("terms, mixed heads", &work::mixed_heads(), false)?;
    bench.run("refused row", &work::refused_row(), false)?;
    bench.read("text reader", work::text())?;
    bench.read("text, long names", work::long_names())?;
    bench.read("text, one byte's tag", work::one_byte_tag())?;
    bench.read("text, one tag", work::one_tag())?;
    bench.read("text, one tag, short", work::one_tag_short())?;
    bench.read("text, one tag, long", work::one_tag_long())?;
    bench.read("text, newlines", work::newlines())?;
    bench.read("text, one line", work::one_line())?;
    bench.check("text, read and run", work::text())
}

fn main() -> ExitCode {
    let mut bench = Bench {
        runs: 201,
        plain_only: false,
        only: String::new(),
    };
    let mut args = std::env::args().skip(1);
    while let Some(flag) = args.next() {
        let number = |value: Option<String>| value.and_then(|value| value.parse().ok());
        match flag.as_str() {
            "--plain-only" => bench.plain_only = true,
            "--only" => bench.only = args.next().unwrap_or_default(),
            "--runs" => bench.runs = number(args.next()).unwrap_or(bench.runs).max(1),
            _ => {
                eprintln!("bench: {flag} is no option");
                return ExitCode::FAILURE;
            }
        }
    }
    println!("{}", processor());
    println!(
        "medians [and least] of {} runs; logs of 65,535 steps, or as many as is said",
        bench.runs
    );
    println!("workspace and trail buffer of the least lengths, not cleared between runs");
    match all(&bench) {
        Ok(()) => ExitCode::SUCCESS,
        Err(trouble) => {
            eprintln!("bench: {trouble}");
            ExitCode::FAILURE
        }
    }
}
