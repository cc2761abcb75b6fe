//! The records that a recheck is handed: true ones, false ones with words that are possible, those of other checkers, and
//! spoiled ones.

use crate::generate::{self, Random};
use crate::rules::{self, Config, Edit, Record, STOPPED};

#[derive(Clone, Copy, Debug, PartialEq, Eq)]
pub enum Sort {
    /// That of a full check of the trace before the edit.
    True,
    /// Any rows, and words that are all possible.
    False,
    /// That of a full check by another checker. Its words are possible or not, as it happens.
    Another,
    /// A true or a false one with impossible words put in.
    Spoiled,
}

/// Most often one that is not refused: there is more to compare in it.
pub fn sort(random: &mut Random) -> Sort {
    match random.below(1024) {
        0..=599 => Sort::True,
        600..=843 => Sort::False,
        844..=907 => Sort::Another,
        _ => Sort::Spoiled,
    }
}

/// A record of this sort, from the true one. The edit is the one that follows, with the trace before it.
pub fn kept(random: &mut Random, sort: Sort, record: Record, before: &Edit) -> Record {
    match sort {
        Sort::True => record,
        Sort::False => false_record(random, record, before),
        Sort::Another => {
            let other = generate::another_checker(random, before.config);
            rules::true_record(other, before.trace)
        }
        Sort::Spoiled => {
            let base = if random.chance(512) { Sort::True } else { Sort::False };
            let mut record = kept(random, base, record, before);
            spoil(random, &mut record.words, before);
            record
        }
    }
}

/// Words to put into a record, all of them possible, or none. Those at a limit come up as often as all others.
pub struct Words {
    config: Config,
    are_possible: bool,
    at_limits: Vec<u64>,
}

impl Words {
    pub fn new(config: Config, are_possible: bool) -> Words {
        Words { config, are_possible, at_limits: generate::limit_words_that(config, are_possible) }
    }

    pub fn draw(&self, random: &mut Random) -> u64 {
        if random.chance(512) {
            random.pick(&self.at_limits)
        } else if self.are_possible {
            generate::possible_word(random, self.config)
        } else {
            generate::impossible_word(random, self.config)
        }
    }
}

/// A true record made one that need not be: a few entries damaged, all words random, or that of another trace; and in some,
/// a fatal checker is stopped for a while, often to the cycle before a. All words are possible.
fn false_record(random: &mut Random, mut record: Record, before: &Edit) -> Record {
    let (config, cycles) = (before.config, record.rows.len());
    let words = Words::new(config, true);
    match random.below(3) {
        0 => {
            for _ in 0..random.below(4).min(cycles) {
                let (row, word) = (random.below(cycles), random.below(cycles));
                record.rows[row] = random.word();
                record.words[word] = words.draw(random);
            }
        }
        1 => record.words.iter_mut().for_each(|word| *word = words.draw(random)),
        _ => {
            let other = generate::trace(random, config, cycles);
            record = rules::true_record(config, &other);
        }
    }
    if random.chance(512) {
        record.rows = random.words(cycles);
    }
    if config.can_stop() && random.chance(512) {
        let (any, before_a) = (random.below(cycles + 1), before.a.min(cycles as u64) as usize);
        let end = random.pick(&[any, before_a, before_a]);
        record.words[random.below(end + 1)..end].fill(STOPPED);
    }
    record
}

/// Makes words impossible: most often one, or a few that are apart or close together; seldom most of them.
fn spoil(random: &mut Random, kept: &mut [u64], edit: &Edit) {
    if kept.is_empty() {
        return;
    }
    let words = Words::new(edit.config, false);
    let first = place(random, kept.len(), edit);
    kept[first] = words.draw(random);
    for _ in 0..random.pick(&[0, 0, 0, 0, 0, 1, 1, 2, 3, kept.len()]) {
        let (apart, close) = (place(random, kept.len(), edit), first + random.below(70));
        let next = random.pick(&[apart, close, first + 1]);
        kept[next.min(kept.len() - 1)] = words.draw(random);
    }
}

/// A cycle to spoil: the first, the one before a, one of the edit, one behind it, the last, any, or one at a multiple of a
/// power of two or next to it: there a block of words may begin or end. Where a and b are out of order or beyond the record,
/// it is some cycle of it.
pub fn place(random: &mut Random, cycles: usize, edit: &Edit) -> usize {
    let [a, b] = [edit.a, edit.b].map(|cycle| cycle.min(cycles as u64) as usize);
    let within = a + random.below(b.saturating_sub(a).max(1));
    let behind = b + random.below((cycles - b).max(1));
    let any_power = 2 << random.below(12);
    let power = random.pick(&[64, any_power]);
    let near_multiple = (random.below(cycles / power + 1) * power + random.below(3)).saturating_sub(1);
    let any = random.below(cycles);
    random.pick(&[0, a.saturating_sub(1), within, behind, cycles - 1, any, near_multiple]).min(cycles - 1)
}
