//! The situations of kept records (§6 of document 02) that every run has to meet, most of them with each kind that can meet
//! them: a record that is refused for an impossible word, one that is not refused, and an earlier refusal of a spoiled one.

use crate::records::Sort;
use crate::rules::{self, Config, Edit, Refusal, STOPPED};
use crate::tally::{kinds_of, of, tally_all, tally_any, Situation, Tally, ALL};

const SEQUENCES: &[u8] = &[0, 1, 2];
/// The kinds whose greatest word is n.
const COUNTS: &[u8] = &[3, 4, 5, 7];

/// A recheck that is refused for a kept word.
struct Refused {
    is_fatal: bool,
    sort: Sort,
    a: usize,
    b: usize,
    cycles: usize,
    /// The named cycle.
    cycle: usize,
    /// How many of the kept words are impossible.
    impossible: usize,
}

impl Refused {
    /// The only impossible word, in a cycle that is so many above a multiple of 64.
    fn alone_at(&self, above: usize) -> bool {
        self.impossible == 1 && self.cycle >= 63 && self.cycle % 64 == above
    }
}

static REFUSED: [Situation<Refused>; 15] = [
    of(ALL, "spoiled record, cycle 0 named", |r| r.cycle == 0),
    of(ALL, "spoiled record, a cycle before a-1 named", |r| r.cycle + 1 < r.a),
    of(ALL, "spoiled record, cycle a-1 named", |r| r.cycle + 1 == r.a),
    of(ALL, "spoiled record, a cycle of the edit named", |r| (r.a..r.b).contains(&r.cycle)),
    of(ALL, "spoiled record, a cycle behind the edit named", |r| r.b <= r.cycle),
    of(ALL, "spoiled record, the last of several cycles named", |r| r.cycles > 1 && r.cycle + 1 == r.cycles),
    of(ALL, "spoiled record, the lower of two cycles named", |r| r.impossible == 2),
    of(ALL, "spoiled record, the lowest of more cycles named", |r| r.impossible > 2),
    of(ALL, "spoiled record, a = 0", |r| r.a == 0),
    of(ALL, "spoiled record, a = b", |r| r.a == r.b),
    of(ALL, "spoiled record, one word, in cycle 1,000 or later", |r| r.impossible == 1 && r.cycle >= 1000),
    of(ALL, "spoiled record, one word, at a multiple of 64", |r| r.alone_at(0)),
    of(ALL, "spoiled record, one word, before a multiple of 64", |r| r.alone_at(63)),
    of(ALL, "spoiled record of a fatal checker", |r| r.is_fatal),
    of(ALL, "record of another checker, refused", |r| r.sort == Sort::Another),
];

/// A kept word of a recheck: the one that is named, or one of a record that is not refused. Of the latter, not the one before
/// a: that was tested before §6 too.
struct Word {
    config: Config,
    word: u64,
}

impl Word {
    fn n(&self) -> u64 {
        u64::from(self.config.n)
    }

    fn min(&self) -> u64 {
        u64::from(self.config.min)
    }

    /// The least number that does not fit P.
    fn wide(&self) -> u64 {
        1 << self.config.p.width()
    }

    fn fatal(&self, word: u64) -> bool {
        self.config.is_fatal() && self.word == word
    }

    /// Whether it holds this reference and has so many cycles left.
    fn holds(&self, reference: u64, left: u64) -> bool {
        self.word == rules::with_reference(left, reference)
    }

    fn reference_fits(&self) -> bool {
        rules::reference_in(self.word).is_some_and(|reference| reference < self.wide())
    }

    fn left_fits(&self) -> bool {
        (1..=self.n() - self.min()).contains(&rules::cycles_left_in(self.word))
    }
}

/// Impossible words that are named.
static NAMED: [Situation<Word>; 17] = [
    of(SEQUENCES, "2^(n-1) named", |w| w.word == 1 << (w.n() - 1)),
    of(&[2], "two bits below bit n-1 named", |w| w.word.count_ones() == 2 && w.word < 1 << (w.n() - 1)),
    of(COUNTS, "n+1 named", |w| w.word == w.n() + 1),
    of(&[6], "2^32 + 2^width named", |w| w.word == (1 << 32) + w.wide()),
    of(&[6], "2^32-1 named", |w| w.word == (1 << 32) - 1),
    of(&[6], "1 named", |w| w.word == 1),
    of(&[8], "reference with 0 cycles left named", |w| w.reference_fits() && rules::cycles_left_in(w.word) == 0),
    of(&[8], "reference with max-min+1 cycles left named", |w| {
        w.reference_fits() && rules::cycles_left_in(w.word) == w.n() - w.min() + 1
    }),
    of(&[8], "reference 2^width named", |w| w.left_fits() && rules::reference_in(w.word) == Some(w.wide())),
    of(&[8], "max+1 cycles left without a reference named", |w| w.word == w.n() + 1),
    of(&[7, 8], "2^48 named", |w| w.word == 1 << 48),
    of(&[7, 8], "2^48-1 named", |w| w.word == (1 << 48) - 1),
    of(&[7, 8], "2^48+1 named", |w| w.word == (1 << 48) + 1),
    of(ALL, "2^63 named, severity 0", |w| w.word == STOPPED && !w.config.is_fatal()),
    of(&[8], "2^63 named, severity 1, min = max", |w| w.fatal(STOPPED)),
    of(ALL, "2^63+1 named, severity 1", |w| w.fatal(STOPPED + 1)),
    of(ALL, "2^64-1 named", |w| w.word == u64::MAX),
];

/// Possible words of records that are not refused.
static ACCEPTED: [Situation<Word>; 10] = [
    of(&[0, 1], "2^(n-1)-1 kept", |w| w.word == (1 << (w.n() - 1)) - 1),
    of(&[2], "2^(n-2) kept", |w| w.word == 1 << (w.n() - 2)),
    of(COUNTS, "n kept", |w| w.word == w.n()),
    of(&[6], "2^32 kept", |w| w.word == 1 << 32),
    of(&[6], "2^32 + 2^width-1 kept", |w| w.word == (1 << 32) + w.wide() - 1),
    of(&[8], "greatest reference with max-min cycles left kept", |w| w.holds(w.wide() - 1, w.n() - w.min())),
    of(&[8], "max cycles left without a reference kept", |w| w.min() > 0 && w.word == w.n()),
    of(&[8], "max cycles left without a reference kept, min 0", |w| w.min() == 0 && w.n() > 0 && w.word == w.n()),
    of(&[8], "2^48+1 kept", |w| w.holds(0, 1)),
    of(ALL, "2^63 kept, severity 1", |w| w.fatal(STOPPED)),
];

/// A recheck that is not refused.
struct Done {
    sort: Sort,
    cycles: usize,
    /// Whether a word of the record is not 0.
    is_open: bool,
}

static DONES: [Situation<Done>; 2] = [
    of(ALL, "record of another checker, not refused", |d| d.sort == Sort::Another && d.is_open),
    of(ALL, "false record of 1,000 cycles or more, not refused", |d| d.sort == Sort::False && d.cycles >= 1000),
];

/// A recheck that is refused before its words are tested, for its lengths or for a and b.
struct Earlier {
    refusal: u32,
    is_spoiled: bool,
}

static EARLIER: [Situation<Earlier>; 3] = [
    of(ALL, "spoiled record, refused 4", |e| e.is_spoiled && e.refusal == 4),
    of(ALL, "spoiled record, refused 5", |e| e.is_spoiled && e.refusal == 5),
    of(ALL, "spoiled record, refused 6", |e| e.is_spoiled && e.refusal == 6),
];

pub fn all_situations() -> impl Iterator<Item = (u8, &'static str, u64)> {
    let words = kinds_of(&NAMED).chain(kinds_of(&ACCEPTED));
    words.chain(kinds_of(&REFUSED)).chain(kinds_of(&DONES)).chain(kinds_of(&EARLIER))
}

/// A recheck of these kept words.
pub fn tally_recheck(tally: &mut Tally, edit: &Edit, words: &[u64], refusal: Refusal, sort: Sort) {
    match refusal.number {
        1..=3 => tally_bad_config(tally, words, refusal.number),
        4..=6 => {
            let is_spoiled = words.iter().any(|word| !edit.config.possible(*word));
            tally_all(tally, edit.config.kind, &EARLIER, &Earlier { refusal: refusal.number, is_spoiled });
        }
        7 => tally_refused(tally, edit, words, refusal.cycle as usize, sort),
        _ => tally_done(tally, edit, words, sort),
    }
}

/// What is possible is not said for a refused configuration; but no checker leaves a word that has one of these bits.
fn tally_bad_config(tally: &mut Tally, words: &[u64], refusal: u32) {
    let never = |word: &u64| word >> 49 & 0x3fff != 0;
    let met = |number: u32| refusal == number && words.iter().any(never);
    tally.situation("recheck refused 1, a kept word that no checker leaves", met(1));
    tally.situation("recheck refused 2, a kept word that no checker leaves", met(2));
    tally.situation("recheck refused 3, a kept word that no checker leaves", met(3));
}

fn tally_refused(tally: &mut Tally, edit: &Edit, words: &[u64], cycle: usize, sort: Sort) {
    let config = edit.config;
    let refused = Refused {
        is_fatal: config.is_fatal(),
        sort,
        a: edit.a as usize,
        b: edit.b as usize,
        cycles: words.len(),
        cycle,
        impossible: words.iter().filter(|word| !config.possible(**word)).count(),
    };
    tally_all(tally, config.kind, &REFUSED, &refused);
    tally_all(tally, config.kind, &NAMED, &Word { config, word: words[cycle] });
}

fn tally_done(tally: &mut Tally, edit: &Edit, words: &[u64], sort: Sort) {
    let config = edit.config;
    let is_open = words.iter().any(|word| *word != 0);
    tally_all(tally, config.kind, &DONES, &Done { sort, cycles: words.len(), is_open });
    let others = words.iter().zip(1..).filter(|(_, next)| *next != edit.a);
    let others: Vec<Word> = others.map(|(word, _)| Word { config, word: *word }).collect();
    tally_any(tally, config.kind, &ACCEPTED, &others);
}
