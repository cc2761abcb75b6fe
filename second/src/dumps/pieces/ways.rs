//! The ways in which a dump arrives: where it is cut, with which frames, and what is called when it is over.

use super::places::Word;
use crate::dumps::inputs::Input;
use crate::dumps::reader::{FRAME_WORDS, MOST_FRAMES, TABLE_WORDS};
use crate::dumps::tokens::Role;
use crate::generate::Random;

/// The frames that a call is lent.
#[derive(Clone, Copy, PartialEq, Debug)]
pub enum Lending {
    /// Those of the calls before, as these left them.
    Same,
    /// Others, of so many words.
    Others(usize),
}

/// One call: a piece, or the end where there is none.
#[derive(Clone, Copy)]
pub struct Step<'a> {
    pub piece: Option<&'a [u8]>,
    pub lending: Lending,
}

pub const fn piece(bytes: &[u8]) -> Step<'_> {
    Step { piece: Some(bytes), lending: Lending::Same }
}

pub const END: Step = Step { piece: None, lending: Lending::Same };

/// The last of these calls in words.
pub fn named(way: &[Step]) -> String {
    let name = |step: &Step| {
        let what = step.piece.map_or("end".into(), |piece| piece.len().to_string());
        match step.lending {
            Lending::Same => what,
            Lending::Others(words) => format!("{what} with {words} other words of frames"),
        }
    };
    let shown = way.len().saturating_sub(12);
    let names: Vec<String> = way[shown..].iter().map(name).collect();
    let front = if shown > 0 { format!("{shown} calls before, ") } else { String::new() };
    format!("in pieces of so many bytes, {front}{}", names.join(", "))
}

/// Two pieces and the end.
pub fn in_two(dump: &[u8], at: usize) -> [Step<'_>; 3] {
    [piece(&dump[..at]), piece(&dump[at..]), END]
}

/// Byte by byte, and then the end.
pub fn by_bytes(dump: &[u8]) -> Vec<Step<'_>> {
    dump.chunks(1).map(piece).chain([END]).collect()
}

/// Each piece behind an empty one, and one more before the end.
pub fn with_empty_ones<'a>(way: &[Step<'a>]) -> Vec<Step<'a>> {
    way.iter().flat_map(|step| [piece(&[]), *step]).collect()
}

/// Pieces of sizes that are drawn: none, one byte, a few, many, or all that is left.
pub fn drawn<'a>(random: &mut Random, dump: &'a [u8]) -> Vec<Step<'a>> {
    let mut way = Vec::new();
    let mut rest = dump;
    let most = random.pick(&[2, 3, 4, 6, 10]);
    while !rest.is_empty() && way.len() < most {
        let any = random.below(rest.len() + 1);
        let size = random.pick(&[0, 0, 1, 1, 2, 3, 7, 17, 255, 4097, any, any, any, any / 2, rest.len() - 1]);
        let (front, behind) = rest.split_at(size.min(rest.len()));
        way.push(piece(front));
        rest = behind;
    }
    if !rest.is_empty() {
        way.push(piece(rest));
    }
    if random.chance(200) {
        way.push(piece(&[]));
    }
    way.push(END);
    way
}

/// Cuts in or directly behind some words. Their roles are drawn first, so that the rare ones come up too.
pub fn aimed<'a>(random: &mut Random, dump: &'a [u8], words: &[Word]) -> Vec<Step<'a>> {
    let mut roles: Vec<Role> = Vec::new();
    words.iter().for_each(|word| roles.extend((!roles.contains(&word.role)).then_some(word.role)));
    let cut = |_| {
        let role = random.pick(&roles);
        let of_role: Vec<&Word> = words.iter().filter(|word| word.role == role).collect();
        let word = random.pick(&of_role);
        word.place.start + 1 + random.below(word.place.len())
    };
    let mut cuts: Vec<usize> = (0..6).map(cut).collect();
    cuts.sort_unstable();
    let begins = [0].into_iter().chain(cuts.iter().copied());
    let ends = cuts.iter().copied().chain([dump.len()]);
    begins.zip(ends).map(|(begin, end)| piece(&dump[begin..end])).chain([END]).collect()
}

/// A number of words that no frames have.
pub fn bad_words(random: &mut Random) -> usize {
    match random.below(256) {
        0 => FRAME_WORDS * (MOST_FRAMES + 1),
        1 => FRAME_WORDS * MOST_FRAMES + 4,
        _ => FRAME_WORDS * random.below(5) + 1 + random.below(7),
    }
}

fn other_frames(random: &mut Random, input: &Input) -> Lending {
    let frames = input.frames.len() / FRAME_WORDS;
    let fewer = random.below(frames + 1);
    match random.below(8) {
        0 | 1 => Lending::Others(bad_words(random)),
        2 => Lending::Others(0),
        3 => Lending::Others(FRAME_WORDS * (frames.min(100) + 1 + random.below(20))),
        _ => Lending::Others(FRAME_WORDS * fewer),
    }
}

/// A way on which some calls are lent other frames than the last ones. Where the table has a wrong length, the first call
/// often has bad frames too: then the order of the two tests decides.
pub fn lend_others(random: &mut Random, input: &Input, way: &mut [Step]) {
    for step in way.iter_mut() {
        if random.chance(300) {
            step.lending = other_frames(random, input);
        }
    }
    if input.table.len() != TABLE_WORDS && random.chance(400) {
        way[0].lending = Lending::Others(bad_words(random));
    }
}

/// Calls that come when the dump is over or refused.
pub fn further<'a>(random: &mut Random, dump: &'a [u8]) -> Vec<Step<'a>> {
    let call = |random: &mut Random| {
        let any = random.below(dump.len() + 1);
        let bytes = random.pick(&[&[], &dump[any..], &dump[..any], b"\n", b" $end #1 ", b"?"]);
        let step = if random.chance(400) { END } else { piece(bytes) };
        let bad = bad_words(random);
        let words = random.pick(&[0, FRAME_WORDS, bad, bad]);
        let lending = random.pick(&[Lending::Same, Lending::Same, Lending::Others(words)]);
        Step { lending, ..step }
    };
    (0..2 + random.below(3)).map(|_| call(random)).collect()
}
