//! What one call is given: a dump, a table and frames.

use super::generate::Dump;
use super::reader::{self, FRAME_WORDS, MOST_FRAMES};
use super::{damage, faults, tables, tokens};
use crate::generate::Random;

pub struct Input {
    pub dump: Vec<u8>,
    pub table: Vec<u64>,
    /// What the frames have in them before the call.
    pub frames: Vec<u32>,
    /// Nothing was damaged: it is done, or there are too few frames.
    pub is_good: bool,
}

/// How many frames the dump needs.
fn needed(dump: &[u8], table: &[u64], stamps: usize) -> usize {
    let mut frames = vec![0; FRAME_WORDS * (stamps + 2)];
    reader::load(dump, table, &mut frames).frames as usize
}

/// How many words of frames are lent: most often enough.
fn room(random: &mut Random, needed: usize) -> usize {
    let (more, fewer) = (random.below(4), random.below(needed + 1));
    match random.below(1024) {
        0..=500 => FRAME_WORDS * (needed + more),
        501..=720 => FRAME_WORDS * needed,
        721..=860 => FRAME_WORDS * needed.saturating_sub(1),
        861..=920 => FRAME_WORDS * fewer,
        921..=950 => 0,
        951..=969 => FRAME_WORDS * (needed + more) + 1 + random.below(7),
        970..=979 => FRAME_WORDS * (needed + more) + 4,
        980..=982 => FRAME_WORDS * MOST_FRAMES,
        983..=985 => FRAME_WORDS * (MOST_FRAMES + 1),
        986 => FRAME_WORDS * MOST_FRAMES + 1 + random.below(7),
        _ => FRAME_WORDS * (2 * needed + 1 + more),
    }
}

/// What is done to a dump before it is text.
#[derive(Clone, Copy, PartialEq)]
enum Sort {
    Valid,
    Fault,
    Words,
    Bytes,
    Nonsense,
}

fn sort(random: &mut Random) -> Sort {
    match random.below(100) {
        0..=39 => Sort::Valid,
        40..=77 => Sort::Fault,
        78..=86 => Sort::Words,
        87..=97 => Sort::Bytes,
        _ => Sort::Nonsense,
    }
}

pub fn input(random: &mut Random) -> Input {
    let mut dump = Dump::new(random);
    let mut table = tables::good(random, &dump);
    let sort = sort(random);
    let times = random.pick(&[1, 1, 1, 1, 2, 3]);
    match sort {
        Sort::Fault => faults::put_in(random, &mut dump),
        Sort::Words => (0..times).for_each(|_| damage::damage_words(random, &mut dump.tokens)),
        Sort::Nonsense => dump.tokens = damage::nonsense(random),
        Sort::Valid | Sort::Bytes => {}
    }
    let mut text = tokens::text(random, &dump.tokens);
    if sort == Sort::Bytes {
        (0..times).for_each(|_| damage::damage_bytes(random, &mut text));
    }
    let mut is_good = sort == Sort::Valid;
    if random.chance(110) {
        tables::spoil(random, &dump, &mut table);
        is_good = false;
    }
    let words = room(random, needed(&text, &table, dump.stamps));
    let is_lent_well = words % FRAME_WORDS == 0 && words <= FRAME_WORDS * MOST_FRAMES;
    // Where both are bad, the order of the two tests decides.
    if random.chance(if is_lent_well { 24 } else { 150 }) {
        tables::resize(random, &mut table);
        is_good = false;
    }
    is_good &= is_lent_well;
    Input { dump: text, table, frames: random.words(words), is_good }
}
