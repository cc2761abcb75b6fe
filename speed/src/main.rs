//! The proved library's times as ratios: full check and bench step beside ordinary Rust that does the same steps; recheck
//! and failure list beside the library's own full check; and all of them beside another build of the library.
//!
//! Never a test with a time limit: it fails only where two answer differently. A ratio above 2 is a fault to look for.
mod compare;
mod engine;
mod form;
mod inputs;
mod plain;
mod proved;
mod timing;

use engine::Engine;
use form::Form;
use inputs::{Input, Table, CYCLES};
use proved::Library;
use std::env;
use std::process::ExitCode;
use std::time::Duration;
use timing::{Plan, Times};

const LEAST_ROUNDS: usize = 31;
const LEAST_TIME: Duration = Duration::from_millis(500);

fn main() -> ExitCode {
    match run() {
        Ok(()) => ExitCode::SUCCESS,
        Err(message) => {
            println!("speed: {message}");
            ExitCode::FAILURE
        }
    }
}

/// The arguments are one or two libraries; ONLY, SKIP and ROUNDS are those of `speed/run`.
fn run() -> Result<(), String> {
    let libraries: Vec<Library> = env::args().skip(1).map(|path| Library::open(&path)).collect::<Result<_, _>>()?;
    if libraries.is_empty() {
        return Err("no library given: speed/run makes and gives them".into());
    }
    let plan = plan()?;
    let tables = chosen_tables()?;
    for table in &tables {
        for library in takers(&libraries, table) {
            for input in &table.inputs {
                compare::compare(library, input)
                    .map_err(|difference| format!("{}, {}: {difference}", library.path, input.name))?;
            }
        }
    }
    println!("seed {:#x}; {CYCLES} cycles; CPU {}; {}", inputs::SEED, cpu_name(), env!("SPEED_RUSTC"));
    let rounds = plan.least_rounds;
    println!("results equal, entry by entry; memory warm; best of at least {rounds}, interleaved within a row");
    let [before, today] = timing::read_times([Form::BEFORE, Form::TODAY], plan);
    println!("memory alone: reading a trace takes {before:.2} ns a cycle with four words a frame, {today:.2} with eight");
    for table in &tables {
        let takers = takers(&libraries, table);
        if takers.len() < libraries.len() {
            println!("\nonly for libraries that take these calls and frames of eight words: {}", paths(&takers));
        }
        if !takers.is_empty() {
            print_table(table, &takers, plan);
        }
    }
    Ok(())
}

/// The libraries that take the traces of all the table's inputs, and have the call.
fn takers<'a>(libraries: &'a [Library], table: &Table) -> Vec<&'a Library> {
    let takes = |library: &Library, input: &Input| {
        library.form().takes(&input.trace) && (library.takes_back() || !input.call.takes_back())
    };
    libraries.iter().filter(|library| table.inputs.iter().all(|input| takes(library, input))).collect()
}

fn paths(libraries: &[&Library]) -> String {
    let paths: Vec<&str> = libraries.iter().map(|library| &library.path[..]).collect();
    if paths.is_empty() {
        "none".into()
    } else {
        paths.join(", ")
    }
}

/// All inputs; with ONLY, those that have its text in their names, and with SKIP those that do not; and the tables that have
/// any.
fn chosen_tables() -> Result<Vec<Table>, String> {
    let only = env::var("ONLY").unwrap_or_default();
    let skip = env::var("SKIP").ok().filter(|text| !text.is_empty());
    let skipped = |name: &str| skip.as_ref().is_some_and(|text| name.contains(text));
    let mut tables = inputs::tables();
    for table in &mut tables {
        table.inputs.retain(|input| input.name.contains(&only) && !skipped(&input.name));
    }
    tables.retain(|table| !table.inputs.is_empty());
    if tables.is_empty() {
        return Err(format!("no input has {only:?} in its name and is not skipped"));
    }
    Ok(tables)
}

/// At least 31 rounds and half a second for each input; with ROUNDS, just so many rounds.
fn plan() -> Result<Plan, String> {
    match env::var("ROUNDS") {
        Err(_) => Ok(Plan { least_rounds: LEAST_ROUNDS, least_time: LEAST_TIME }),
        Ok(rounds) => match rounds.parse() {
            Ok(least_rounds) if least_rounds > 0 => Ok(Plan { least_rounds, least_time: Duration::ZERO }),
            _ => Err(format!("ROUNDS is {rounds:?}, not a number of rounds")),
        },
    }
}

/// Time, yardstick and their ratio for each input; then the time of the other library, and the first one's divided by it.
fn print_table(table: &Table, libraries: &[&Library], plan: Plan) {
    let [time, yardstick] = table.columns;
    print!("\n{:53} {time:>14} {yardstick:>14} {:>7}", "input", "ratio");
    println!("{}", if libraries.len() > 1 { format!(" {:>14} {:>11}", "other", "first/other") } else { String::new() });
    let mut worst: f64 = 0.0;
    for input in &table.inputs {
        let times = timing::times(input, libraries, plan);
        let (first, yardstick) = (times.libraries[0], times.yardstick);
        let ratio = first / yardstick;
        worst = worst.max(ratio);
        print!("{:53} {first:14.2} {yardstick:14.2} {ratio:7.2}", input.name);
        for other in &times.libraries[1..] {
            print!(" {other:14.2} {:11.2}", first / other);
        }
        println!("{}", share_text(input, &times));
    }
    println!("speed: worst ratio {worst:.2}");
}

/// How many of the cycles fail or, of a fatal checker, find it stopped.
fn share_text(input: &Input, times: &Times) -> String {
    match (input.stopped(), times.failing) {
        (Some(share), _) => format!("  {:.2}% stopped", 100.0 * share),
        (None, Some(share)) => format!("  {:.2}% fail", 100.0 * share),
        (None, None) => String::new(),
    }
}

fn cpu_name() -> String {
    let info = std::fs::read_to_string("/proc/cpuinfo").unwrap_or_default();
    let model = info.lines().find(|line| line.starts_with("model name"));
    let name = model.and_then(|line| line.split_once(':'));
    name.map_or("unknown".into(), |(_, name)| name.trim().into())
}
