//! The comparison of a loader, the library's or another, with the answer that is due.

use super::inputs::Input;
use super::plain;
use super::reader::{self, Loaded};
use super::wrong::Wrong;
use crate::cases::{same, same_entries};
use crate::host::Lent;

/// What a loader is lent. A pointer is not read where its length is 0: it may be null.
#[derive(Clone, Copy)]
pub struct Pointers {
    pub dump: *mut u8,
    pub dump_len: usize,
    pub wires: *mut u64,
    pub wires_len: usize,
    pub frames: *mut u32,
    pub frames_len: usize,
}

pub type Loader<'a> = &'a dyn Fn(Pointers) -> Loaded;

/// What is due: the answer, and the frames after the call.
pub struct Due {
    pub loaded: Loaded,
    pub frames: Vec<u32>,
}

/// What the fast reader gives.
pub fn due(input: &Input) -> Due {
    let mut frames = input.frames.clone();
    let loaded = reader::load(&input.dump, &input.table, &mut frames);
    Due { loaded, frames }
}

/// All four numbers, every word of the frames and of the guards around them, and that dump and table are as they were.
pub fn compare(loader: Loader, input: &Input, due: &Due) -> Result<(), String> {
    let mut dump = Lent::new("dump", &input.dump);
    let mut wires = Lent::new("wires", &input.table);
    let mut frames = Lent::new("frames", &input.frames);
    let loaded = loader(Pointers {
        dump: dump.pointer(),
        dump_len: dump.len(),
        wires: wires.pointer(),
        wires_len: wires.len(),
        frames: frames.pointer(),
        frames_len: frames.len(),
    });
    same("answer", loaded, due.loaded)?;
    same_entries("frames", frames.content()?, &due.frames)?;
    dump.is_unchanged(&input.dump)?;
    wires.is_unchanged(&input.table)
}

/// The slices behind the pointers, for a loader that is written in Rust.
///
/// # Safety
/// Each pointer is that of a live buffer of so many entries that nothing else uses, or its length is 0.
unsafe fn slices<'a>(lent: Pointers) -> (&'a [u8], &'a [u64], &'a mut [u32]) {
    let dump = if lent.dump_len == 0 { &[] } else { std::slice::from_raw_parts(lent.dump, lent.dump_len) };
    let wires = if lent.wires_len == 0 { &[] } else { std::slice::from_raw_parts(lent.wires, lent.wires_len) };
    let frames = if lent.frames_len == 0 { &mut [] } else { std::slice::from_raw_parts_mut(lent.frames, lent.frames_len) };
    (dump, wires, frames)
}

/// The plain reader with a mistake, as a loader.
pub fn plain_with(wrong: Wrong) -> impl Fn(Pointers) -> Loaded {
    move |lent| {
        // SAFETY: `compare` lends live buffers of its own; so below.
        let (dump, wires, frames) = unsafe { slices(lent) };
        plain::load(dump, wires, frames, wrong).0
    }
}

/// The fast reader as a loader.
pub fn right(lent: Pointers) -> Loaded {
    let (dump, wires, frames) = unsafe { slices(lent) };
    reader::load(dump, wires, frames)
}

/// The loaders that answer what is due and write where they must not, with what they are called.
pub const WRITERS: [(fn(Pointers) -> Loaded, &str); 3] = [
    (write_behind, "a word written behind the frames"),
    (write_dump, "the dump altered"),
    (write_table, "the table altered"),
];

fn write_behind(lent: Pointers) -> Loaded {
    let loaded = right(lent);
    if lent.frames_len > 0 {
        // SAFETY: there are guard words behind the frames.
        unsafe { *lent.frames.add(lent.frames_len) = 0 };
    }
    loaded
}

fn write_dump(lent: Pointers) -> Loaded {
    let loaded = right(lent);
    if lent.dump_len > 0 {
        unsafe { *lent.dump.add(lent.dump_len - 1) ^= 1 };
    }
    loaded
}

fn write_table(lent: Pointers) -> Loaded {
    let loaded = right(lent);
    if lent.wires_len > 0 {
        unsafe { *lent.wires.add(lent.wires_len - 1) ^= 1 };
    }
    loaded
}
