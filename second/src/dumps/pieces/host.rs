//! The library's calls. This file is compiled only with `--cfg pieces`, which `second/run` gives where the header declares
//! them.

use super::calls::{Reader, Slice};
use crate::dumps::reader::Loaded;

/// Words in a state.
pub const KEPT: usize = 9_021;

/// A call with a state of another size would write where nothing is lent, so the header is asked before the first one.
pub fn is_as_declared() -> bool {
    include_str!("../../../../include/selvedgeon.h").contains(&format!("uint64_t kept[{KEPT}];"))
}

/// `struct selvedgeon_reader`
#[repr(C)]
#[derive(Clone, Copy)]
struct State {
    kept: [u64; KEPT],
}

/// `struct selvedgeon_read`
#[repr(C)]
#[derive(Clone)]
struct Read {
    state: State,
    answer: Loaded,
}

const _: () = assert!(size_of::<State>() == 8 * KEPT && size_of::<Read>() == 8 * KEPT + 32);

#[rustfmt::skip]
extern "C" {
    fn selvedgeon_reader_begin(wires: *const u64, wires_len: usize) -> State;
    fn selvedgeon_reader_piece(state: State, piece: *const u8, piece_len: usize, frames: *mut u32, frames_len: usize) -> Read;
    fn selvedgeon_reader_end(state: State, frames: *mut u32, frames_len: usize) -> Read;
}

pub struct Library;

/// A state has 72 kB: it is kept where the call has left it, with the answer behind it, and is not moved again.
#[derive(Clone)]
pub struct Left(Box<Read>);

impl Left {
    fn by(read: impl FnOnce() -> Read) -> (Left, Loaded) {
        let left = Box::write(Box::new_uninit(), read());
        let answer = left.answer;
        (Left(left), answer)
    }

    pub fn kept(&mut self) -> &mut [u64; KEPT] {
        &mut self.0.state.kept
    }
}

impl PartialEq for Left {
    fn eq(&self, other: &Left) -> bool {
        self.0.state.kept == other.0.state.kept
    }
}

impl Reader for Library {
    type State = Left;

    fn begin(&self, wires: Slice<u64>) -> Left {
        // SAFETY: `calls` lends live buffers of its own; so below.
        let state = unsafe { selvedgeon_reader_begin(wires.pointer, wires.len) };
        Left(Box::new(Read { state, answer: Loaded { refusal: 0, frames: 0, line: 0, identifier: 0 } }))
    }

    fn piece(&self, state: &Left, piece: Slice<u8>, frames: Slice<u32>) -> (Left, Loaded) {
        let state = &state.0.state;
        Left::by(|| unsafe { selvedgeon_reader_piece(*state, piece.pointer, piece.len, frames.pointer, frames.len) })
    }

    fn end(&self, state: &Left, frames: Slice<u32>) -> (Left, Loaded) {
        let state = &state.0.state;
        Left::by(|| unsafe { selvedgeon_reader_end(*state, frames.pointer, frames.len) })
    }
}
