//! Any state gets an answer, also one that no call gave, and nothing but the frames is written.

use super::calls::{call, Reader};
use crate::cases::{same, same_entries};
use crate::dumps::reader::{refused_lengths, TABLE_WORDS};

/// The same call twice, whatever the state is: it gives the same, and frames of a bad length are left as they were. What is
/// written outside of the frames is found by the guards.
pub fn any_state<R: Reader>(reader: &R, state: &R::State, piece: Option<&[u8]>, frames: &[u32]) -> Result<(), String> {
    let first = call(reader, state, piece, frames)?;
    if refused_lengths(TABLE_WORDS, frames.len()).is_some() {
        same_entries("frames that 4 is for", &first.frames, frames)?;
    }
    let again = call(reader, state, piece, frames)?;
    same("answer of the same call again", again.answer, first.answer)?;
    same_entries("frames of the same call again", &again.frames, &first.frames)?;
    if again.state != first.state {
        return Err("the same call again gives another state".into());
    }
    Ok(())
}
