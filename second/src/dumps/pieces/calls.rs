//! The calls for a dump in pieces, of the library or of another reader, and the comparison of them with what is due.

use super::reading::Reading;
use super::ways::{Lending, Step};
use crate::cases::{same, same_entries};
use crate::dumps::inputs::Input;
use crate::dumps::reader::Loaded;
use crate::host::{Entry, Lent};

/// A buffer that is lent. The pointer is not read where the length is 0: it may be null.
#[derive(Clone, Copy)]
pub struct Slice<T> {
    pub pointer: *mut T,
    pub len: usize,
}

impl<T: Entry> Slice<T> {
    fn of(lent: &mut Lent<T>) -> Slice<T> {
        Slice { pointer: lent.pointer(), len: lent.len() }
    }

    /// # Safety
    /// The pointer is that of a live buffer of so many entries that nothing else uses, or the length is 0.
    pub unsafe fn entries<'a>(self) -> &'a mut [T] {
        if self.len == 0 {
            &mut []
        } else {
            std::slice::from_raw_parts_mut(self.pointer, self.len)
        }
    }
}

/// A reader of dumps in pieces. The state is handed over by value: what is lent here is the caller's copy.
pub trait Reader {
    type State: Clone + PartialEq;

    fn begin(&self, wires: Slice<u64>) -> Self::State;
    fn piece(&self, state: &Self::State, piece: Slice<u8>, frames: Slice<u32>) -> (Self::State, Loaded);
    fn end(&self, state: &Self::State, frames: Slice<u32>) -> (Self::State, Loaded);
}

/// What a call gives, and the frames behind it.
#[derive(PartialEq)]
pub struct Given<S> {
    pub state: S,
    pub answer: Loaded,
    pub frames: Vec<u32>,
}

/// The first state. The table is gone before the first piece arrives, so that a reader cannot go back to it.
pub fn begin<R: Reader>(reader: &R, table: &[u64]) -> Result<R::State, String> {
    let mut wires = Lent::new("wires", table);
    let state = reader.begin(Slice::of(&mut wires));
    wires.is_unchanged(table)?;
    Ok(state)
}

/// Makes one call, with a piece or at the end, and with copies of the buffers between guards.
pub fn call<R: Reader>(
    reader: &R,
    state: &R::State,
    piece: Option<&[u8]>,
    frames: &[u32],
) -> Result<Given<R::State>, String> {
    let mut lent = Lent::new("frames", frames);
    let (state, answer) = match piece {
        Some(bytes) => {
            let mut piece = Lent::new("piece", bytes);
            let given = reader.piece(state, Slice::of(&mut piece), Slice::of(&mut lent));
            piece.is_unchanged(bytes)?;
            given
        }
        None => reader.end(state, Slice::of(&mut lent)),
    };
    Ok(Given { state, answer, frames: lent.content()?.to_vec() })
}

/// A call that was made, with what was known before it, and its answer.
pub struct Made<'a> {
    pub step: Step<'a>,
    /// Words of the frames that were lent.
    pub words: usize,
    pub sampled: usize,
    pub settled: Option<Loaded>,
    pub answer: Loaded,
}

/// What other frames than the last ones have in them.
const OTHERS: u32 = 0xc3c3_c3c3;

/// A dump that is arriving: the state of a reader, and beside it what is due.
pub struct Arrival<'r, R: Reader> {
    reader: &'r R,
    state: R::State,
    reading: Reading,
    /// The frames that each call is lent again, if it is lent no others.
    pub frames: Vec<u32>,
}

impl<'r, R: Reader> Arrival<'r, R> {
    pub fn begin(reader: &'r R, input: &Input) -> Result<Arrival<'r, R>, String> {
        let state = begin(reader, &input.table)?;
        Ok(Arrival { reader, state, reading: Reading::begin(&input.table), frames: input.frames.clone() })
    }

    /// A copy that goes on by itself.
    pub fn copy(&self) -> Arrival<'r, R> {
        let (reading, frames) = (self.reading.clone(), self.frames.clone());
        Arrival { reader: self.reader, state: self.state.clone(), reading, frames }
    }

    /// One call. All four numbers and every word of the frames are compared, and the state where it must not be altered.
    pub fn call<'a>(&mut self, step: Step<'a>) -> Result<Made<'a>, String> {
        let frames = match step.lending {
            Lending::Same => std::mem::take(&mut self.frames),
            Lending::Others(words) => vec![OTHERS; words],
        };
        let (settled, sampled) = (self.reading.settled, self.reading.sampled);
        let mut due = frames.clone();
        let answer = self.reading.call(step.piece, &mut due);
        let given = call(self.reader, &self.state, step.piece, &frames)?;
        same("answer", given.answer, answer)?;
        same_entries("frames", &given.frames, &due)?;
        if settled.is_some() && given.state != self.state {
            return Err(format!("the state is altered by a call that only gives {} again", answer.refusal));
        }
        self.state = given.state;
        if step.lending == Lending::Same {
            self.frames = given.frames;
        }
        Ok(Made { step, words: due.len(), sampled, settled, answer })
    }

    /// Several calls; where one is not as is due, those up to it are named.
    pub fn follow<'a>(&mut self, way: &[Step<'a>]) -> Result<Vec<Made<'a>>, String> {
        let mut made = Vec::with_capacity(way.len());
        for (i, step) in way.iter().enumerate() {
            made.push(self.call(*step).map_err(|difference| format!("{}: {difference}", super::ways::named(&way[..=i])))?);
        }
        Ok(made)
    }
}
