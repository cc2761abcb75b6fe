//! The load of the library beside the second program's reader and Debian's vcd2fst, on the same dumps, in turns.
//! Arguments: a folder for the dumps, how many rounds, and the program vcd2fst or nothing.

use std::process::{Command, Stdio};
use std::time::Instant;

#[path = "../../second/src/dumps/speed.rs"]
mod large;
mod table;
#[allow(dead_code)]
#[path = "../../second/src/dumps/reader/mod.rs"]
mod reader;

#[repr(C)]
struct Loaded {
    refusal: u32,
    frames: u64,
    line: u64,
    identifier: u64,
}

extern "C" {
    fn selvedgeon_load(
        dump: *const u8,
        dump_len: usize,
        wires: *const u64,
        wires_len: usize,
        frames: *mut u32,
        frames_len: usize,
    ) -> Loaded;
}

const BYTES: usize = 10_000_000;
const FRAMES: usize = 65_536;

/// The seconds that vcd2fst takes on a file, from its start to its end.
fn converted(program: &str, dump: &str) -> f64 {
    let start = Instant::now();
    let out = format!("{dump}.fst");
    let done = Command::new(program).args([dump, &out]).stdout(Stdio::null()).stderr(Stdio::null()).status();
    assert!(done.expect("vcd2fst runs").success(), "{program} refused {dump}");
    start.elapsed().as_secs_f64()
}

fn measure(name: &str, large: large::Large, folder: &str, rounds: usize, program: Option<&str>) {
    let wires = table::of(&large.pairs);
    let (mut ours, mut theirs) = (vec![0_u32; 8 * FRAMES], vec![0_u32; 8 * FRAMES]);
    let file = format!("{folder}/{}.vcd", name.replace(' ', "_"));
    std::fs::write(&file, &large.dump).expect("the dump is written");
    let mut best = [f64::MAX; 3];
    for _ in 0..rounds {
        let start = Instant::now();
        let got = unsafe {
            selvedgeon_load(
                large.dump.as_ptr(),
                large.dump.len(),
                wires.as_ptr(),
                wires.len(),
                ours.as_mut_ptr(),
                ours.len(),
            )
        };
        best[0] = best[0].min(start.elapsed().as_secs_f64());
        let start = Instant::now();
        let due = reader::load(&large.dump, &wires, &mut theirs);
        best[1] = best[1].min(start.elapsed().as_secs_f64());
        assert_eq!((got.refusal, got.frames, got.line, got.identifier), (due.refusal, due.frames, due.line, due.identifier));
        assert!(ours == theirs && due.refusal == 0 && due.frames as usize == large.edges, "the readers differ");
        if let Some(program) = program {
            best[2] = best[2].min(converted(program, &file));
        }
    }
    let speed = |seconds: f64| large.dump.len() as f64 / seconds / 1e6;
    let other = if program.is_some() { format!("{:7.0}", speed(best[2])) } else { "      -".into() };
    println!("{name:38} {:7} {:7.0} {:7.0} {:7.2} {other}", large.edges, speed(best[0]), speed(best[1]), best[0] / best[1]);
}

fn main() {
    let words: Vec<String> = std::env::args().skip(1).collect();
    let rounds = words[1].parse().expect("a number of rounds");
    let program = words.get(2).map(String::as_str);
    println!("{:38} {:>7} {:>7} {:>7} {:>7} {:>7}", "dump of 10 MB, MB/s", "frames", "proved", "Rust", "ratio", "vcd2fst");
    measure("200 wires 1 in 100 changing", large::scalars(BYTES), &words[0], rounds, program);
    measure("200 wires half of them changing", large::busy_scalars(BYTES), &words[0], rounds, program);
    measure("20 vectors of 64 bits 1 in 10 changing", large::vectors(BYTES), &words[0], rounds, program);
}
