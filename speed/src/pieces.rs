//! A dump read in blocks beside the same dump read as one piece and loaded at once, in turns. Argument: how many rounds.

use std::hint::black_box;
use std::time::Instant;

#[path = "../../second/src/dumps/speed.rs"]
mod large;
mod table;

#[repr(C)]
#[derive(Clone, Copy, Debug, PartialEq)]
struct Loaded {
    refusal: u32,
    frames: u64,
    line: u64,
    identifier: u64,
}

#[repr(C)]
#[derive(Clone, Copy)]
struct Reader {
    kept: [u64; 9021],
}

#[repr(C)]
struct Read {
    state: Reader,
    answer: Loaded,
}

#[rustfmt::skip]
extern "C" {
    fn selvedgeon_load(dump: *const u8, dump_len: usize, wires: *const u64, wires_len: usize,
        frames: *mut u32, frames_len: usize) -> Loaded;
    fn selvedgeon_reader_begin(wires: *const u64, wires_len: usize) -> Reader;
    fn selvedgeon_reader_piece(state: Reader, piece: *const u8, piece_len: usize,
        frames: *mut u32, frames_len: usize) -> Read;
    fn selvedgeon_reader_end(state: Reader, frames: *mut u32, frames_len: usize) -> Read;
}

const BYTES: usize = 10_000_000;
const FRAMES: usize = 65_536;

/// The blocks that are timed; the first is the whole dump.
const BLOCKS: [usize; 4] = [usize::MAX, 65_536, 4_096, 512];

fn load(dump: &[u8], wires: &[u64], frames: &mut [u32]) -> Loaded {
    unsafe { selvedgeon_load(dump.as_ptr(), dump.len(), wires.as_ptr(), wires.len(), frames.as_mut_ptr(), frames.len()) }
}

/// The dump in blocks of at most so many bytes.
fn in_blocks(dump: &[u8], block: usize, wires: &[u64], frames: &mut [u32]) -> Loaded {
    let mut state = unsafe { selvedgeon_reader_begin(wires.as_ptr(), wires.len()) };
    for piece in dump.chunks(block) {
        let read =
            unsafe { selvedgeon_reader_piece(state, piece.as_ptr(), piece.len(), frames.as_mut_ptr(), frames.len()) };
        state = read.state;
    }
    unsafe { selvedgeon_reader_end(state, frames.as_mut_ptr(), frames.len()) }.answer
}

/// The best time of each block size, and of the load, in turns; the answers and frames are compared each time.
fn measure(name: &str, large: large::Large, rounds: usize) {
    let wires = table::of(&large.pairs);
    let (mut whole, mut frames) = (vec![0_u32; 8 * FRAMES], vec![0_u32; 8 * FRAMES]);
    let mut best = [f64::MAX; 1 + BLOCKS.len()];
    for _ in 0..rounds {
        let start = Instant::now();
        let due = load(&large.dump, &wires, &mut whole);
        best[0] = best[0].min(start.elapsed().as_secs_f64());
        for (block, least) in BLOCKS.iter().zip(&mut best[1..]) {
            frames.fill(0);
            let start = Instant::now();
            let got = in_blocks(&large.dump, *block, &wires, &mut frames);
            *least = least.min(start.elapsed().as_secs_f64());
            assert!(got == due && frames == whole && got.refusal == 0 && got.frames as usize == large.edges);
        }
    }
    let ratio = |seconds: f64| seconds / best[1];
    let calls = (large.dump.len() / 512) as f64;
    println!(
        "{name:38} {:6.0} {:6.2} {:6.2} {:6.2} {:6.2} {:8.2}",
        large.dump.len() as f64 / best[1] / 1e6,
        ratio(best[0]),
        ratio(best[2]),
        ratio(best[3]),
        ratio(best[4]),
        (best[4] - best[1]) / calls * 1e6
    );
}

/// The best time of a call on an empty piece, beside that of copying a state, each from many in a row.
fn measure_call(rounds: usize) {
    const CALLS: usize = 1_000;
    let wires = vec![0; 258];
    let mut frames = [0; 8];
    let mut state = unsafe { selvedgeon_reader_begin(wires.as_ptr(), wires.len()) };
    let mut copies = Box::new([state; 2]);
    let (mut call, mut copy) = (f64::MAX, f64::MAX);
    for _ in 0..rounds {
        let start = Instant::now();
        for _ in 0..CALLS {
            state = unsafe { selvedgeon_reader_piece(state, wires.as_ptr().cast(), 0, frames.as_mut_ptr(), frames.len()) }.state;
        }
        call = call.min(start.elapsed().as_secs_f64());
        let start = Instant::now();
        for i in 0..CALLS {
            copies[i % 2] = *black_box(&copies[1 - i % 2]);
        }
        copy = copy.min(start.elapsed().as_secs_f64());
    }
    let each = |seconds: f64| seconds / CALLS as f64 * 1e6;
    println!("a call on an empty piece {:.2} us, a copy of a state {:.2} us, so {:.1} copies", each(call), each(copy), call / copy);
}

fn main() {
    let rounds = std::env::args().nth(1).and_then(|word| word.parse().ok()).expect("a number of rounds");
    println!("{:38} {:>6} {:>6} {:>6} {:>6} {:>6} {:>8}", "dump of 10 MB", "MB/s", "load", "64 KB", "4 KB", "512 B", "call, us");
    measure("200 wires 1 in 100 changing", large::scalars(BYTES), rounds);
    measure("200 wires half of them changing", large::busy_scalars(BYTES), rounds);
    measure("20 vectors of 64 bits 1 in 10 changing", large::vectors(BYTES), rounds);
    measure_call(rounds);
}
