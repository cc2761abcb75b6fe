//! A reader of VCD dumps (§1 and §8 of document 02). The text is cut into words, and all else is a grammar over words. It
//! stands by itself, so that other programs can take this directory in.

mod changes;
mod codes;
mod declarations;
mod numbers;
mod samples;
mod words;

use changes::Changes;
use declarations::Declarations;
use samples::Sampler;
use words::{Place, Words};

/// Words in a frame: four of values and four of unknown bits.
pub const FRAME_WORDS: usize = 8;
/// Words in a table: the clock and 4 times 32 wires, each a code and an index.
pub const TABLE_WORDS: usize = 2 * (1 + 4 * 32);
pub const MOST_FRAMES: usize = 65_536;

/// `struct selvedgeon_loaded`
#[repr(C)]
#[derive(Clone, Copy, Debug, PartialEq, Eq)]
pub struct Loaded {
    pub refusal: u32,
    pub frames: u64,
    pub line: u64,
    pub identifier: u64,
}

/// Why and where a text is refused.
#[derive(Debug)]
struct Refusal {
    number: u32,
    place: Place,
    identifier: u64,
}

/// Samples the frames of a dump. They stand in front of `frames`; everything behind them is left as it was.
pub fn load(dump: &[u8], wires: &[u64], frames: &mut [u32]) -> Loaded {
    load_part(dump, wires, frames, true)
}

/// As `load`, for a whole dump, or for the front of one that goes on: there the words are read that have white space behind
/// them, and what shows only at the end is not known yet.
pub fn load_part(text: &[u8], wires: &[u64], frames: &mut [u32], is_whole: bool) -> Loaded {
    if let Some(refusal) = refused_lengths(wires.len(), frames.len()) {
        return Loaded { refusal, frames: 0, line: 0, identifier: 0 };
    }
    let mut sampler = Sampler::new(wires, frames);
    let words = Words::new(if is_whole { text } else { words::ended(text) });
    let read = read(words, wires, &mut sampler, is_whole);
    let frames = sampler.sampled();
    match read {
        Err(refusal) if is_whole || !matches!(refusal.place, Place::End) => {
            let line = words::line(text, refusal.place);
            Loaded { refusal: refusal.number, frames, line, identifier: refusal.identifier }
        }
        _ => Loaded { refusal: 0, frames, line: 0, identifier: 0 },
    }
}

/// The refusal of what is lent, which comes before anything is read.
pub fn refused_lengths(wires: usize, frames: usize) -> Option<u32> {
    if frames % FRAME_WORDS != 0 || frames / FRAME_WORDS > MOST_FRAMES {
        return Some(4);
    }
    (wires != TABLE_WORDS).then_some(5)
}

fn read(mut words: Words, table: &[u64], sampler: &mut Sampler, is_whole: bool) -> Result<(), Refusal> {
    let mut declarations = Declarations::new(&mut words);
    let end = declarations.read()?;
    let mut declared = declarations.declared;
    if !declared.connect(table) {
        return Err(end.refused(13));
    }
    Changes { words, declared: &declared, sampler }.read()?;
    if is_whole {
        sampler.end()?;
    }
    Ok(())
}
