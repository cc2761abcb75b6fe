//! One dump on its ways: cut here or there, with the same frames or with others, and compared with the uncut dump.

use super::calls::{Arrival, Reader};
use super::places;
use super::situations::{Map, Seen};
use super::tally::Tally;
use super::ways::{self, Step};
use crate::cases::{same, same_entries};
use crate::dumps::compare::{self, Due};
use crate::dumps::inputs::Input;
use crate::dumps::reader;
use crate::generate::Random;
use std::ops::Range;

/// A dump, and what the uncut one gives.
pub struct Whole<'a> {
    input: &'a Input,
    due: &'a Due,
    map: Map<'a>,
}

impl<'a> Whole<'a> {
    pub fn new(input: &'a Input, due: &'a Due) -> Whole<'a> {
        let words = if due.loaded.refusal == 0 { places::roles(&input.dump) } else { Vec::new() };
        Whole { input, due, map: Map { dump: &input.dump, words, refused: refused_word(input) } }
    }

    /// Follows a way with the same frames all the time: behind its end is what the uncut dump gives.
    pub fn follow<R: Reader>(&self, reader: &R, way: &[Step], tally: &mut Tally) -> Result<(), String> {
        let mut arrival = Arrival::begin(reader, self.input)?;
        let made = arrival.follow(way)?;
        let at_end = made.iter().find(|made| made.step.piece.is_none()).map(|made| made.answer);
        same("answer of the dump in pieces and uncut", at_end, Some(self.due.loaded))?;
        same_entries("frames of the dump in pieces and uncut", &arrival.frames, &self.due.frames)?;
        tally.way(&self.map, self.input.table.len(), &made);
        Ok(())
    }

    /// Cuts in words that are known, where the dump is accepted.
    pub fn follow_aimed<R: Reader>(&self, reader: &R, random: &mut Random, tally: &mut Tally) -> Result<(), String> {
        if self.map.words.is_empty() {
            return Ok(());
        }
        self.follow(reader, &ways::aimed(random, &self.input.dump, &self.map.words), tally)
    }

    /// A way on which some calls have other frames.
    pub fn follow_with_others<R: Reader>(&self, reader: &R, random: &mut Random, tally: &mut Tally) -> Result<(), String> {
        // Now and then the end comes before any piece; only so does it give 5.
        let is_end_first = random.chance(if self.input.table.len() == reader::TABLE_WORDS { 40 } else { 400 });
        let mut way = if is_end_first { vec![ways::END] } else { ways::drawn(random, &self.input.dump) };
        ways::lend_others(random, self.input, &mut way);
        way.extend(ways::further(random, &self.input.dump));
        let made = Arrival::begin(reader, self.input)?.follow(&way)?;
        tally.way(&self.map, self.input.table.len(), &made);
        Ok(())
    }

    /// Two ways on from one state: neither knows of the other.
    pub fn follow_two<R: Reader>(&self, reader: &R, random: &mut Random, tally: &mut Tally) -> Result<(), String> {
        let dump = &self.input.dump[..];
        let way = ways::drawn(random, dump);
        let (front, rest) = way.split_at(random.below(way.len()));
        let any = random.below(dump.len() + 1);
        let text = random.pick(&[&b"\n#1 0! "[..], b" $end", b"!\n?\n", &dump[any..], &dump[any..]]);
        let other = if random.chance(256) { rest.to_vec() } else { ways::drawn(random, text) };
        let mut arrival = Arrival::begin(reader, self.input)?;
        arrival.follow(front)?;
        let mut copy = arrival.copy();
        let named = |difference| format!("{}, then on from there twice, {difference}", ways::named(front));
        let copied = copy.follow(&other).map_err(named)?;
        let first = arrival.follow(rest).map_err(named)?;
        let [copied, first] = [copied, first].map(|made| made.last().map(|made| made.answer));
        tally.see(if copied == first { Seen::CopySame } else { Seen::CopyOther });
        let is_refused = copied.is_some_and(|answer| answer.refusal >= 10);
        if is_refused && first.is_some_and(|answer| answer.refusal == 0) {
            tally.see(Seen::CopyRefused);
        }
        Ok(())
    }

    /// Byte by byte, with empty pieces between, and cut in two at every byte.
    pub fn cut_everywhere<R: Reader>(&self, reader: &R, tally: &mut Tally) -> Result<(), String> {
        let dump = &self.input.dump;
        self.follow(reader, &ways::by_bytes(dump), tally)?;
        self.follow(reader, &ways::with_empty_ones(&ways::by_bytes(dump)), tally)?;
        (0..=dump.len()).try_for_each(|at| self.follow(reader, &ways::in_two(dump, at), tally))
    }

    /// The dump that ends with the word that is refused: there the end shows it.
    pub fn cut_short<R: Reader>(&self, reader: &R, random: &mut Random, tally: &mut Tally) -> Result<(), String> {
        let Some(word) = self.map.refused.clone() else { return Ok(()) };
        let Input { dump, table, frames, .. } = self.input;
        let short = Input { dump: dump[..word.end].to_vec(), table: table.clone(), frames: frames.clone(), is_good: false };
        let due = compare::due(&short);
        tally.see(Seen::CutAtRefusal);
        let at = word.start + random.below(word.len() + 1);
        let mut way = ways::in_two(&short.dump, at).to_vec();
        way.extend(ways::further(random, dump));
        Whole::new(&short, &due).follow(reader, &way, tally)
    }
}

/// The word that is refused where the white space behind it arrives; none where that is so only at the end.
fn refused_word(input: &Input) -> Option<Range<usize>> {
    let dump = &input.dump;
    let mut frames = input.frames.clone();
    let mut is_refused = |len: usize| reader::load_part(&dump[..len], &input.table, &mut frames, false).refusal >= 10;
    if !is_refused(dump.len()) {
        return None;
    }
    // More text never takes a refusal back, so the shortest front that is refused can be found by halves.
    let (mut taken, mut refused) = (0, dump.len());
    while taken + 1 < refused {
        let middle = (taken + refused) / 2;
        *(if is_refused(middle) { &mut refused } else { &mut taken }) = middle;
    }
    let end = refused - 1;
    let start = dump[..end].iter().rposition(|byte| matches!(byte, 9..=13 | 32)).map_or(0, |white| white + 1);
    Some(start..end)
}
