//! States of the library that no call gave: true ones with words altered, and random words. This file is compiled only with
//! `--cfg pieces`.

use super::calls::{begin, call};
use super::host::{Left, Library, KEPT};
use super::states::any_state;
use super::ways::bad_words;
use crate::dumps::reader::FRAME_WORDS;
use crate::generate::Random;

/// Values that lengths, places and marks may go wrong with.
const VALUES: [u64; 4] = [0, 1, 1 << 32, u64::MAX];

fn any_word(random: &mut Random) -> u64 {
    let any = random.next();
    random.pick(&[0, 1, 2, 8, 255, 1 << 31, 1 << 32, 1 << 63, u64::MAX, any, any >> 32, any >> 48, any >> 56])
}

fn spoil(random: &mut Random, kept: &mut [u64; KEPT]) {
    let (place, another) = (random.below(KEPT), random.below(KEPT));
    let len = random.below(KEPT - place + 1).min(random.pick(&[1, 2, 8, 64, KEPT]));
    match random.below(8) {
        0..=2 => kept[place] ^= 1 << random.below(64),
        3 | 4 => kept[place] = any_word(random),
        5 => kept.swap(place, another),
        6 => kept[place..place + len].iter_mut().for_each(|word| *word = any_word(random)),
        _ => (0..1 + random.below(200)).for_each(|_| kept[random.below(KEPT)] = any_word(random)),
    }
}

/// A true state that is spoilt, or random words.
fn strange(random: &mut Random, state: &Left) -> Left {
    let mut strange = state.clone();
    let kept = strange.kept();
    match random.below(10) {
        0 => kept.iter_mut().for_each(|word| *word = random.next()),
        1 => kept.iter_mut().for_each(|word| *word = any_word(random)),
        2 => kept.fill(any_word(random)),
        _ => (0..random.pick(&[1, 1, 1, 2, 5])).for_each(|_| spoil(random, kept)),
    }
    strange
}

/// Some such states from a true one. Answers how many.
pub fn compare_some(random: &mut Random, state: &Left, rest: &[u8], frames: &[u32]) -> Result<u64, String> {
    const STATES: u64 = 4;
    for _ in 0..STATES {
        let strange = strange(random, state);
        let size = random.below(rest.len() + 1);
        let piece = random.pick(&[Some(rest), Some(&rest[..size]), Some(&[]), Some(b" #1 0! b1 \" 1! #2 $end "), None]);
        let bad = bad_words(random);
        let words = random.pick(&[frames.len(), frames.len(), 0, FRAME_WORDS, bad]);
        let lent: Vec<u32> = frames.iter().copied().chain(std::iter::repeat(7)).take(words).collect();
        any_state(&Library, &strange, piece, &lent)?;
    }
    Ok(STATES)
}

/// Every word of three true states in turn, with each of the values. Answers how many states that were.
pub fn compare_each_word(table: &[u64], fronts: [&[u8]; 3], behind: &[u8]) -> Result<u64, String> {
    let frames = [0x5a5a_5a5a; 3 * FRAME_WORDS];
    let mut states = Vec::new();
    for front in fronts {
        states.push(call(&Library, &begin(&Library, table)?, Some(front), &frames)?.state);
    }
    for word in 0..KEPT {
        for (i, value) in VALUES.into_iter().enumerate() {
            let mut state = states[(word + i) % states.len()].clone();
            state.kept()[word] = value;
            let piece = if (word / 3 + i) % 4 == 0 { None } else { Some(behind) };
            // A call takes its time, so only one of the four is made again.
            let compared = if (word + i) % 4 == 0 {
                any_state(&Library, &state, piece, &frames)
            } else {
                call(&Library, &state, piece, &frames).map(|_| ())
            };
            compared.map_err(|difference| format!("word {word} of a state is {value:#x}: {difference}"))?;
        }
    }
    Ok((KEPT * VALUES.len()) as u64)
}
