//! Reads a dump and prints its frames: `second/read` builds and runs it.

#[path = "reader/mod.rs"]
mod reader;
mod speed;

use reader::{Loaded, FRAME_WORDS, MOST_FRAMES, TABLE_WORDS};
use std::io::Read;
use std::process::ExitCode;
use std::time::Instant;

const USE: &str = "second/read FILE clock CODE INDEX [reset CODE INDEX] [enable CODE INDEX]
                 [p CODE LEFT RIGHT] [q CODE LEFT RIGHT] [r CODE LEFT RIGHT]
second/read --speed [MEGABYTES]

FILE is a VCD dump, or - for standard input. Index LEFT is the most significant wire of a port, RIGHT the least: of a
descending port they are the wires LEFT-RIGHT and 0 of the frame's word, of an ascending one the wires 0 and RIGHT-LEFT.
Printed are the answer and a line for each frame: its number, the reset word (enable and reset), P, Q and R. A wire that
is x or z is x, and a word of which nothing is connected is -.
--speed measures the reader on large dumps.";

/// The wires of each word of a frame that are printed, the most significant first.
type Printed = [Vec<usize>; 4];

struct Choice {
    table: Vec<u64>,
    printed: Printed,
}

impl Choice {
    fn connect(&mut self, entry: usize, code: &str, index: u64) -> Result<(), String> {
        if code.is_empty() || code.len() > 8 {
            return Err(format!("a code has 1 to 8 bytes, {code} has {}", code.len()));
        }
        let mut bytes = [0; 8];
        bytes[..code.len()].copy_from_slice(code.as_bytes());
        (self.table[2 * entry], self.table[2 * entry + 1]) = (u64::from_le_bytes(bytes), index);
        Ok(())
    }

    /// A wire of the reset word.
    fn control(&mut self, wire: usize, code: &str, index: u64) -> Result<(), String> {
        self.connect(1 + wire, code, index)?;
        self.printed[0].push(wire);
        self.printed[0].sort_by(|a, b| b.cmp(a));
        Ok(())
    }

    fn port(&mut self, word: usize, code: &str, left: u64, right: u64) -> Result<(), String> {
        let (low, width) = (left.min(right), left.abs_diff(right).saturating_add(1));
        if width > 32 {
            return Err(format!("a port has 1 to 32 wires, [{left}:{right}] has {width}"));
        }
        for wire in 0..width as usize {
            self.connect(1 + 32 * word + wire, code, low + wire as u64)?;
        }
        let wires = 0..width as usize;
        self.printed[word] = if left < right { wires.collect() } else { wires.rev().collect() };
        Ok(())
    }
}

fn number(words: &mut impl Iterator<Item = String>) -> Result<u64, String> {
    let word = words.next().ok_or("an index is missing")?;
    word.parse().map_err(|_| format!("{word} is no index"))
}

fn choice(mut words: impl Iterator<Item = String>) -> Result<Choice, String> {
    let mut choice = Choice { table: vec![0; TABLE_WORDS], printed: Default::default() };
    while let Some(word) = words.next() {
        let code = words.next().ok_or(format!("no code behind {word}"))?;
        let index = number(&mut words)?;
        match &word[..] {
            "clock" => choice.connect(0, &code, index)?,
            "reset" => choice.control(0, &code, index)?,
            "enable" => choice.control(1, &code, index)?,
            "p" => choice.port(1, &code, index, number(&mut words)?)?,
            "q" => choice.port(2, &code, index, number(&mut words)?)?,
            "r" => choice.port(3, &code, index, number(&mut words)?)?,
            _ => return Err(format!("{word} is nothing that can be connected")),
        }
    }
    Ok(choice)
}

fn meaning(refusal: u32) -> &'static str {
    match refusal {
        10 => "ill-formed text, or an undeclared code",
        11 => "more than 32 scopes open",
        12 => "more than 1,024 $var, a code above 8 bytes, or a width above 4,096",
        13 => "the clock or a wire is not declared, or is a real",
        14 => "a stamp goes back",
        16 => "more samples than 65,536 frames",
        _ => "",
    }
}

fn print_answer(loaded: Loaded) {
    let frames = loaded.frames;
    if loaded.refusal == 0 {
        println!("done, {frames} frames");
        return;
    }
    let meaning = meaning(loaded.refusal);
    print!("refused {} ({meaning}), {frames} frames, line {}", loaded.refusal, loaded.line);
    if loaded.identifier != 0 {
        let code = loaded.identifier.to_le_bytes();
        print!(", identifier {}", code[..8 - loaded.identifier.leading_zeros() as usize / 8].escape_ascii());
    }
    println!();
}

fn print_frame(number: usize, frame: &[u32], printed: &Printed) {
    print!("{number:>6}");
    for (word, wires) in printed.iter().enumerate() {
        let digit = |wire: &usize| match (frame[word + 4] >> wire & 1, frame[word] >> wire & 1) {
            (1, _) => 'x',
            (_, value) => {
                if value == 1 {
                    '1'
                } else {
                    '0'
                }
            }
        };
        let digits: String = wires.iter().map(digit).collect();
        print!(" {}", if digits.is_empty() { "-" } else { &digits });
    }
    println!();
}

fn read(file: &str, choice: Choice) -> Result<bool, String> {
    let mut dump = Vec::new();
    match file {
        "-" => std::io::stdin().read_to_end(&mut dump).map(|_| ()),
        _ => std::fs::read(file).map(|bytes| dump = bytes),
    }
    .map_err(|error| format!("{file}: {error}"))?;
    let mut frames = vec![0; FRAME_WORDS * MOST_FRAMES];
    let loaded = reader::load(&dump, &choice.table, &mut frames);
    print_answer(loaded);
    for (number, frame) in frames.chunks(FRAME_WORDS).take(loaded.frames as usize).enumerate() {
        print_frame(number, frame, &choice.printed);
    }
    Ok(loaded.refusal == 0)
}

/// The best of some rounds, with memory warm.
fn measure(name: &str, large: &speed::Large) -> Result<(), String> {
    let mut choice = Choice { table: vec![0; TABLE_WORDS], printed: Default::default() };
    for (entry, code, index) in &large.pairs {
        choice.connect(*entry, &String::from_utf8_lossy(code), *index)?;
    }
    let mut frames = vec![0; FRAME_WORDS * MOST_FRAMES];
    let mut best = f64::INFINITY;
    for _ in 0..7 {
        let begin = Instant::now();
        let loaded = reader::load(&large.dump, &choice.table, &mut frames);
        best = best.min(begin.elapsed().as_secs_f64());
        if loaded.refusal != 0 || loaded.frames != large.edges as u64 {
            return Err(format!("{name}: {loaded:?} where {} frames are due", large.edges));
        }
    }
    let megabytes = large.dump.len() as f64 / 1e6;
    println!("{name}: {megabytes:.1} MB, {} frames, {:.1} ms, {:.0} MB/s", large.edges, 1e3 * best, megabytes / best);
    Ok(())
}

fn measure_all(megabytes: usize) -> Result<bool, String> {
    measure("200 wires, 1 % changing at a stamp", &speed::scalars(megabytes * 1_000_000))?;
    measure("200 wires, 50 % changing at a stamp", &speed::busy_scalars(megabytes * 1_000_000))?;
    measure("20 vectors of 64 bits, 10 % changing at a stamp", &speed::vectors(megabytes * 1_000_000))?;
    Ok(true)
}

fn run() -> Result<bool, String> {
    let mut words = std::env::args().skip(1);
    match words.next().as_deref() {
        None => Err(USE.into()),
        Some("--speed") => measure_all(words.next().map_or(Ok(10), |word| word.parse().map_err(|_| USE.to_string()))?),
        Some(file) => read(file, choice(words)?),
    }
}

fn main() -> ExitCode {
    match run() {
        Ok(true) => ExitCode::SUCCESS,
        Ok(false) => ExitCode::FAILURE,
        Err(message) => {
            eprintln!("{message}");
            ExitCode::from(2)
        }
    }
}
