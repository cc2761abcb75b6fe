//! The library's call. This file is compiled only with `--cfg loads`, which `second/run` gives where the header declares it.

use super::compare::Pointers;
use super::reader::Loaded;

#[rustfmt::skip]
extern "C" {
    fn selvedgeon_load(dump: *const u8, dump_len: usize, wires: *const u64, wires_len: usize, frames: *mut u32,
        frames_len: usize) -> Loaded;
}

// Each number of 64 bits lies on a multiple of 8.
const _: () = assert!(size_of::<Loaded>() == 32);

/// The library as a loader.
pub fn load(lent: Pointers) -> Loaded {
    // SAFETY: `compare` lends live buffers of its own.
    unsafe { selvedgeon_load(lent.dump, lent.dump_len, lent.wires, lent.wires_len, lent.frames, lent.frames_len) }
}
