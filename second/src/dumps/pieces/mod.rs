//! Dumps that arrive in pieces (§11 of document 02): what is due for each call, the ways of cutting, and the comparison of
//! the library's calls with it. Where the library has no such calls yet, the plain reader takes their place; and in every
//! run the comparison has to find each of many wrong readers of pieces.

mod calls;
mod cases;
#[cfg(pieces)]
mod host;
mod long;
mod places;
mod reading;
mod situations;
#[cfg(pieces)]
mod spoilt;
mod states;
mod tally;
mod ways;
mod whole;
mod wrong;

use super::compare::{self, Due, Loader};
use super::inputs::Input;
use crate::generate::Random;
use calls::Reader;
pub use tally::Tally;
use whole::Whole;
use wrong::{Slip, Slipping, SLIPS};

/// The library, where it has the calls.
#[cfg(pieces)]
fn library() -> host::Library {
    host::Library
}
#[cfg(not(pieces))]
fn library() -> Slipping {
    Slipping::new(Slip::Nothing)
}

pub const HAS_LIBRARY: bool = cfg!(pieces);

/// Small dumps have at most so many bytes, and at most so many words of frames.
const SMALL: usize = 260;
const FEW_WORDS: usize = 800;
/// So many words of frames are slow to copy at every call.
const MANY_WORDS: usize = 100_000;
/// One dump in so many arrives in pieces, and one small dump in so many is cut everywhere.
const EVERY: u64 = 8;
const EVERY_SMALL: u64 = 24;

fn is_small(input: &Input) -> bool {
    input.dump.len() <= SMALL && input.frames.len() <= FEW_WORDS
}

/// A dump of the run, and what its ways are drawn by.
pub struct Ways<'a> {
    seed: u64,
    number: u64,
    input: &'a Input,
    due: &'a Due,
    is_drawn: bool,
    is_cut_everywhere: bool,
}

impl<'a> Ways<'a> {
    pub fn new(seed: u64, number: u64, input: &'a Input, due: &'a Due) -> Ways<'a> {
        let is_cut_everywhere = (number % EVERY_SMALL == 1 || input.dump.is_empty()) && is_small(input);
        Ways { seed, number, input, due, is_drawn: number % EVERY == 1, is_cut_everywhere }
    }

    fn random(&self) -> Random {
        Random::new(self.seed.rotate_left(17), self.number)
    }

    /// All the ways of the dump. The generator is begun anew for each reader, so that every one is given the same.
    fn follow<R: Reader>(&self, reader: &R, tally: &mut Tally) -> Result<(), String> {
        let random = &mut self.random();
        let whole = Whole::new(self.input, self.due);
        if self.is_drawn {
            let mut way = ways::drawn(random, &self.input.dump);
            way.extend(ways::further(random, &self.input.dump));
            whole.follow(reader, &way, tally)?;
        }
        // Of a great many frames, one way shows what is special about them.
        if self.is_drawn && self.input.frames.len() < MANY_WORDS {
            whole.follow_aimed(reader, random, tally)?;
            whole.follow_with_others(reader, random, tally)?;
            whole.follow_two(reader, random, tally)?;
            whole.cut_short(reader, random, tally)?;
        }
        if self.is_cut_everywhere {
            whole.cut_everywhere(reader, tally)?;
        }
        Ok(())
    }

    /// A true state somewhere in the dump, and what is left of the dump.
    fn state_inside<R: Reader>(&self, reader: &R, random: &mut Random) -> Result<(R::State, &'a [u8]), String> {
        let at = random.below(self.input.dump.len() + 1);
        let (front, rest) = self.input.dump.split_at(at);
        let state = calls::begin(reader, &self.input.table)?;
        Ok((calls::call(reader, &state, Some(front), &self.input.frames)?.state, rest))
    }

    /// Compares the library and the plain reader with what is due.
    pub fn compare(&self, tally: &mut Tally) -> Result<(), String> {
        if !self.is_drawn && !self.is_cut_everywhere {
            return Ok(());
        }
        tally.dumps += 1;
        self.follow(&library(), tally)?;
        self.try_wrong(tally);
        if HAS_LIBRARY && self.number % (4 * EVERY) == 1 {
            self.follow(&Slipping::new(Slip::Nothing), &mut Tally::new())
                .map_err(|difference| format!("the plain reader, not the library: {difference}"))?;
        }
        tally.states += self.compare_strange_states()?;
        Ok(())
    }

    #[cfg(pieces)]
    fn compare_strange_states(&self) -> Result<u64, String> {
        if !self.is_drawn {
            return Ok(0);
        }
        let random = &mut self.random();
        let (state, rest) = self.state_inside(&library(), random)?;
        let few = &self.input.frames[..self.input.frames.len().min(FEW_WORDS)];
        spoilt::compare_some(random, &state, rest, few)
    }

    #[cfg(not(pieces))]
    fn compare_strange_states(&self) -> Result<u64, String> {
        Ok(0)
    }

    /// Tries the wrong readers that have not been found yet.
    fn try_wrong(&self, tally: &mut Tally) {
        for i in 1..SLIPS.len() {
            if tally.found[i - 1].is_none() && self.finds(SLIPS[i].0) {
                tally.found[i - 1] = Some(self.number);
            }
        }
    }

    fn finds(&self, slip: Slip) -> bool {
        let wrong = Slipping::new(slip);
        if !slip.is_of_any_state() {
            return self.follow(&wrong, &mut Tally::new()).is_err();
        }
        let random = &mut self.random();
        let Ok((state, rest)) = self.state_inside(&wrong, random) else { return true };
        let bad = vec![7; ways::bad_words(random)];
        let lent = [&self.input.frames[..], &bad];
        lent.iter().any(|frames| states::any_state(&wrong, &state, Some(rest), frames).is_err())
    }
}

/// The dumps in pieces that were worked by hand, and every word of a state altered. Answers how many.
pub fn compare_by_hand() -> Result<String, String> {
    cases::compare()
}

/// Dumps with long words or many samples, in pieces that are drawn. Answers how many.
pub fn compare_long(seed: u64, loader: Option<Loader>) -> Result<usize, String> {
    let inputs = long::inputs();
    for (i, input) in inputs.iter().enumerate() {
        let due = compare::due(input);
        let random = &mut Random::new(seed.rotate_left(5), i as u64);
        let (whole, way) = (Whole::new(input, &due), ways::drawn(random, &input.dump));
        loader
            .map_or(Ok(()), |loader| compare::compare(loader, input, &due))
            .and_then(|()| whole.follow(&library(), &way, &mut Tally::new()))
            .and_then(|()| whole.cut_short(&library(), random, &mut Tally::new()))
            .map_err(|difference| format!("long dump {i}, {:?}: {difference}", due.loaded))?;
    }
    Ok(inputs.len())
}

/// Whether a state has as many words here as in the header.
#[cfg(pieces)]
pub fn test_header() -> Result<(), String> {
    host::is_as_declared().then_some(()).ok_or("the header declares a state of another size".into())
}
#[cfg(not(pieces))]
pub fn test_header() -> Result<(), String> {
    Ok(())
}

/// A small dump worked by hand, cut everywhere. Answers how many ways that were.
pub fn compare_small(input: &Input, due: &Due) -> Result<u64, String> {
    if !is_small(input) {
        return Ok(0);
    }
    let mut tally = Tally::new();
    Whole::new(input, due).cut_everywhere(&library(), &mut tally).map_err(|d| format!("in pieces: {d}"))?;
    Ok(tally.ways)
}
