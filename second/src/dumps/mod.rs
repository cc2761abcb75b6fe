//! VCD dumps (§1 of document 02, with the frames of §8), whole and in pieces (§11): two readers, dumps worked by hand, dumps
//! from a seed, and the comparison of the library with the readers on all of them. Where the library has no such call yet,
//! the readers are compared with each other; and in every run the comparison has to find each of many wrong readers.
//!
//! DUMP=n shows one dump alone.

mod cases;
mod compare;
mod damage;
mod faults;
mod generate;
#[cfg(loads)]
mod host;
mod inputs;
mod pieces;
mod plain;
pub mod reader;
mod situations;
mod tables;
mod tally;
mod tokens;
mod wrong;

use crate::generate::Random;
use compare::{Due, Loader};
use inputs::Input;
use pieces::Ways;
use situations::Met;
use std::time::{Duration, Instant};
use tally::Tally;
use wrong::{Wrong, WRONG};

/// How long to go on.
pub struct Limit {
    pub dumps: u64,
    pub time: Option<Duration>,
}

/// The library, where it has the call.
#[cfg(loads)]
const LIBRARY: Option<Loader<'static>> = Some(&host::load);
#[cfg(not(loads))]
const LIBRARY: Option<Loader<'static>> = None;

fn input(seed: u64, number: u64) -> Input {
    inputs::input(&mut Random::new(seed.rotate_left(32), number))
}

/// Compares what is due with the plain reader and the library; says what the dump met.
fn compare_readers(input: &Input, due: &Due) -> Result<Met, String> {
    let mut frames = input.frames.clone();
    let (loaded, met) = plain::load(&input.dump, &input.table, &mut frames, Wrong::Nothing);
    if loaded != due.loaded {
        return Err(format!("the plain reader answers {loaded:?}, the fast one {:?}", due.loaded));
    }
    if frames != due.frames {
        return Err("the plain reader and the fast one leave different frames".into());
    }
    if input.is_good && ![0, 16].contains(&loaded.refusal) {
        return Err(format!("a dump that is meant to be good is refused: {loaded:?}"));
    }
    match LIBRARY {
        Some(library) => compare::compare(library, input, due).map(|()| met),
        None => Ok(met),
    }
}

/// Tries the wrong readers that have not been found yet.
fn try_wrong(input: &Input, due: &Due, number: u64, tally: &mut Tally) {
    for (i, found) in tally.found.iter_mut().enumerate().filter(|(_, found)| found.is_none()) {
        let is_found = match WRONG.get(i + 1) {
            Some((wrong, _)) => compare::compare(&compare::plain_with(*wrong), input, due).is_err(),
            None => compare::compare(&compare::WRITERS[i + 1 - WRONG.len()].0, input, due).is_err(),
        };
        if is_found {
            *found = Some(number);
        }
    }
}

fn run_one(seed: u64, number: u64, tally: &mut Tally, in_pieces: &mut pieces::Tally) -> Result<(), String> {
    let input = input(seed, number);
    let due = compare::due(&input);
    let met = compare_readers(&input, &due)?;
    try_wrong(&input, &due, number, tally);
    tally.count(due.loaded.refusal, &met);
    Ways::new(seed, number, &input, &due).compare(in_pieces)
}

/// One dump alone, to be looked at.
pub fn show(seed: u64, number: u64) -> Result<String, String> {
    pieces::test_header()?;
    let input = input(seed, number);
    let due = compare::due(&input);
    println!("{}", input.dump.escape_ascii().to_string().replace("\\n", "\\n\n"));
    for (entry, pair) in input.table.chunks(2).enumerate().filter(|(_, pair)| pair[0] != 0) {
        println!("entry {entry}: code {:?}, index {:?}", pair[0].to_le_bytes().escape_ascii().to_string(), pair.get(1));
    }
    println!("{} words of frames; {:?}", input.frames.len(), due.loaded);
    for frame in due.frames.chunks(reader::FRAME_WORDS).take(due.loaded.frames as usize) {
        println!("{frame:x?}");
    }
    compare_readers(&input, &due)?;
    Ways::new(seed, number, &input, &due).compare(&mut pieces::Tally::new())?;
    Ok(format!("second: dump {number}, seed {seed}, equal"))
}

/// The dumps worked by hand, then the generated ones.
pub fn compare(seed: u64, limit: Limit) -> Result<(), String> {
    let begin = Instant::now();
    pieces::test_header()?;
    println!("\ndumps worked by hand: {}, all equal", cases::compare(LIBRARY)?);
    println!("dumps in pieces worked by hand: {}, all equal", pieces::compare_by_hand()?);
    println!("dumps with long words or many samples: {}, all equal", pieces::compare_long(seed, LIBRARY)?);
    let (mut tally, mut in_pieces) = (Tally::new(), pieces::Tally::new());
    let mut number = 0;
    while number < limit.dumps && limit.time.is_none_or(|most| begin.elapsed() < most) {
        run_one(seed, number, &mut tally, &mut in_pieces)
            .map_err(|difference| format!("seed {seed}, dump {number} (DUMP={number} shows it): {difference}"))?;
        number += 1;
    }
    tally.print(LIBRARY.is_some());
    in_pieces.print(pieces::HAS_LIBRARY);
    let missed = [tally.missed(), in_pieces.missed()].concat();
    if !missed.is_empty() {
        return Err(format!("{number} dumps, seed {seed}, all equal, but these were missed:\n  {}", missed.join("\n  ")));
    }
    Ok(())
}
