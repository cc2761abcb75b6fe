//! A second program for the rules of document 01 with §1, §2, §4 to §8, §11 and §12 of document 02, and a comparison of the library
//! with it on many inputs.
//!
//! SEED=n sets the seed; CASES=n or SECONDS=n how long to run; CASE=n runs one case alone, DUMP=n one dump.

mod cases;
mod dumps;
mod either_order;
mod fatal;
mod generate;
mod host;
mod records;
mod rules;
mod small;
mod spoiled;
mod taken_back;
mod tally;
mod unknown;
mod whiteboard;
mod windows;

use cases::{Case, Longest, Size};
use dumps::Limit;
use generate::Random;
use std::process::ExitCode;
use std::time::{Duration, Instant};
use tally::Tally;

const DEFAULT_SEED: u64 = 20_260;
const DEFAULT_CASES: u64 = 80_000;

type CaseOf = fn(&mut Case) -> Result<(), String>;

/// The calls take turns in this order; those with more to vary come more often.
const TURNS: [CaseOf; 16] = [
    cases::step,
    cases::check,
    cases::recheck,
    cases::failures,
    cases::step,
    cases::check,
    cases::recheck,
    cases::bench,
    cases::totals,
    cases::recheck,
    cases::open_count,
    cases::failures,
    cases::step,
    cases::check,
    cases::recheck,
    cases::first_failure,
];

fn number(name: &str) -> Option<u64> {
    let text = std::env::var(name).ok()?;
    match text.parse() {
        Ok(number) => Some(number),
        Err(_) => panic!("{name}={text} is not a number"),
    }
}

/// The greatest sizes are slow, so each comes once in 300 turns of a place in the order, and a longest window once in 120;
/// the places are set apart.
fn size(case: u64) -> Size {
    let place = case % TURNS.len() as u64;
    let turn = case / TURNS.len() as u64 + 19 * place;
    if turn % 120 == 45 {
        return Size::Longest(Longest::new(turn as usize / 120));
    }
    match turn % 300 {
        100 => Size::Greatest,
        200 => Size::TooLong,
        290 => Size::WordMore,
        _ => Size::Any,
    }
}

/// After the case of each recheck comes one of several rechecks, one after another (§12). There the greatest sizes are slower
/// still, so only every second of these cases has them.
fn beside(case: u64) -> Option<(CaseOf, Size)> {
    match case % TURNS.len() as u64 {
        2 => Some((taken_back::take_back, size(case))),
        6 => Some((either_order::either_order, size(case))),
        9 => Some((taken_back::take_back, Size::Any)),
        14 => Some((either_order::either_order, Size::Any)),
        _ => None,
    }
}

fn run_one(run: CaseOf, mut random: Random, size: Size, tally: &mut Tally) -> Result<(), String> {
    let careless = random.chance(64);
    run(&mut Case { random, size, careless, tally })
}

/// What comes beside has a generator of its own, so that the case of the turn is what it would be without it.
fn run_turn(seed: u64, case: u64, tally: &mut Tally) -> Result<(), String> {
    let turn = TURNS[(case % TURNS.len() as u64) as usize];
    run_one(turn, Random::new(seed, case), size(case), tally)?;
    match beside(case) {
        Some((run, size)) => run_one(run, Random::new(!seed, case), size, tally),
        None => Ok(()),
    }
}

fn run_case(seed: u64, case: u64, tally: &mut Tally) -> Result<(), String> {
    run_turn(seed, case, tally).map_err(|difference| format!("seed {seed}, case {case}: {difference}"))
}

fn most_cases() -> u64 {
    number("CASES").unwrap_or(if number("SECONDS").is_some() { u64::MAX } else { DEFAULT_CASES })
}

/// A quarter of the time is for dumps.
fn dumps_share(seconds: u64) -> Duration {
    Duration::from_secs(seconds) / 4
}

/// For every four cases there is one dump.
fn compare_dumps(seed: u64) -> Result<(), String> {
    dumps::compare(seed, Limit { dumps: most_cases() / 4, time: number("SECONDS").map(dumps_share) })
}

/// Answers how many cases were run.
fn run(seed: u64, tally: &mut Tally) -> Result<u64, String> {
    let begin = Instant::now();
    let seconds = number("SECONDS").map(|seconds| Duration::from_secs(seconds) - dumps_share(seconds));
    let cases = most_cases();
    let mut case = 0;
    while case < cases && seconds.is_none_or(|most| begin.elapsed() < most) {
        run_case(seed, case, tally)?;
        case += 1;
    }
    Ok(case)
}

fn compare_all(seed: u64) -> Result<String, String> {
    let mut tally = Tally::default();
    if let Some(case) = number("CASE") {
        run_case(seed, case, &mut tally)?;
        return Ok(format!("second: case {case}, seed {seed}, equal"));
    }
    if let Some(dump) = number("DUMP") {
        return dumps::show(seed, dump);
    }
    println!("{}", whiteboard::compare()?);
    println!("small inputs: {}, all equal\n", small::compare()?);
    let cases = run(seed, &mut tally)?;
    tally.print();
    let missed = tally.missed();
    if !missed.is_empty() {
        return Err(format!(
            "{cases} cases, seed {seed}, all equal, but these had too few cases:\n  {}",
            missed.join("\n  ")
        ));
    }
    compare_dumps(seed)?;
    Ok(format!("\nsecond: {cases} cases, seed {seed}, all equal, none was missed"))
}

/// The whole program: `main.rs` calls it.
pub fn compare() -> ExitCode {
    run_part(compare_all)
}

/// The dumps alone: `dumps/main.rs` calls it. Without a call that loads dumps this needs no library.
pub fn compare_dumps_alone() -> ExitCode {
    run_part(|seed| match number("DUMP") {
        Some(dump) => dumps::show(seed, dump),
        None => compare_dumps(seed).map(|()| format!("\nsecond: dumps alone, seed {seed}, all equal, none was missed")),
    })
}

fn run_part(part: fn(u64) -> Result<String, String>) -> ExitCode {
    let seed = number("SEED").unwrap_or(DEFAULT_SEED);
    println!("second: seed {seed}");
    match part(seed) {
        Ok(line) => {
            println!("{line}");
            ExitCode::SUCCESS
        }
        Err(difference) => {
            println!("second: FAILED\n{difference}");
            ExitCode::FAILURE
        }
    }
}
