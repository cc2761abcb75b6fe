//! The situations of fatal checkers (§7 of document 02) that every run has to meet, most of them with each kind that can meet
//! them: those of a check, a failure list, a recheck, a step, an open word, a bench and a configuration.

use crate::rules::{self, Config, Edit, Frame, Record, FRAME_WORDS, LONGEST_WINDOW, MOST_CYCLES, STOPPED};
use crate::tally::{kinds_of, of, tally_all, Situation, Tally, ALL};
use crate::windows;

/// The kinds that open a check in a cycle that fails.
const OPEN: &[u8] = &[0, 1, 6, 7];
/// Kind 2 has no other attempt where one fails, and ignores a start there.
const UNFINISHED: &[u8] = &[0, 1, 3, 4, 5, 6, 7, 8];
/// The kinds with several entries of one cycle.
const SEVERAL: &[u8] = &[1, 5];
/// The kinds that have a limit on e where they go on.
const LIMITED: &[u8] = &[0, 1, 4, 6];

/// A full check of a fatal checker.
#[derive(Default)]
struct Check {
    n: u32,
    cycles: usize,
    /// The marks of all rows together.
    marks: u32,
    stop: Option<usize>,
    /// The row of the failing cycle. This and all that follows is 0 or false where there is none.
    row: u32,
    /// The word of the failing cycle where the checker goes on, and the marks of all cycles after it.
    word: u64,
    later: u32,
    /// The marks where it goes on behind the first reset after the failing cycle.
    revived: u32,
    reset_before: bool,
    reset_after: bool,
}

impl Check {
    fn fails_last(&self) -> bool {
        self.stop.is_some_and(|stop| stop + 1 == self.cycles)
    }

    fn is_longest(&self) -> bool {
        self.n == LONGEST_WINDOW && self.cycles == MOST_CYCLES
    }

    fn has_passed(&self) -> bool {
        self.stop.is_none() && self.marks & 8 != 0
    }
}

static CHECKS: [Situation<Check>; 17] = [
    of(ALL, "fatal check, failed", |c| c.stop.is_some()),
    of(ALL, "fatal check, never failed, but has marks", |c| c.stop.is_none() && c.marks != 0),
    of(ALL, "fatal check, failed in the last cycle", |c| c.cycles > 1 && c.fails_last()),
    of(&[7], "fatal check, failed in cycle 0", |c| c.stop == Some(0)),
    of(&[5], "fatal check, stopped by an illegal start alone", |c| c.row & 3 == 2),
    of(&[5], "fatal check, failure and illegal start in one cycle", |c| c.row & 3 == 3),
    of(OPEN, "fatal check, mark 4 in the failing cycle", |c| c.row & 4 != 0),
    of(&windows::KINDS, "fatal check, mark 8 in the failing cycle", |c| c.row & 8 != 0),
    of(UNFINISHED, "fatal check, an attempt or window unfinished at the failure", |c| c.word != 0),
    of(ALL, "fatal check, starts after the failure", |c| c.later & 4 != 0),
    of(ALL, "fatal check, would fail again", |c| c.later & 3 != 0),
    of(ALL, "fatal check, reset before the failure", |c| c.reset_before),
    of(ALL, "fatal check, reset after the failure", |c| c.reset_after),
    of(ALL, "fatal check, starts behind a reset after the failure", |c| c.revived & 4 != 0),
    of(&windows::KINDS, "fatal check, window of 65,535 cycles failed in its last cycle", |c| {
        c.is_longest() && c.fails_last()
    }),
    of(&windows::KINDS, "fatal check, window of 65,535 cycles failed before its last cycle", |c| {
        c.is_longest() && c.row & 9 == 1
    }),
    of(&windows::KINDS, "fatal check, window of 65,535 cycles closed, none failed", |c| c.is_longest() && c.has_passed()),
];

/// A failure list: how many of its words are needed, are needed where the checker goes on, and are lent.
struct List {
    needed: usize,
    going_on: usize,
    lent: usize,
}

static LISTS: [Situation<List>; 4] = [
    of(ALL, "fatal list, cut at the failure", |l| l.lent >= l.needed && l.going_on > l.needed),
    of(ALL, "fatal list, long enough, but not where the checker goes on", |l| l.lent >= l.needed && l.going_on > l.lent),
    of(ALL, "fatal list, too short", |l| l.lent < l.needed),
    of(SEVERAL, "fatal list, several entries", |l| l.lent >= l.needed && l.needed > 3),
];

/// A recheck that is not refused. Of a true record, the failing cycles before the edit and after it.
struct Recheck {
    is_true: bool,
    a: usize,
    b: usize,
    e: usize,
    cycles: usize,
    old: Option<usize>,
    new: Option<usize>,
    /// The words before a and before e.
    from: u64,
    end: u64,
    /// The latest e where the checker goes on.
    limit: Option<u64>,
}

impl Recheck {
    /// Of the failing cycles before the edit and after it, if there are both.
    fn both(&self, is_met: fn(usize, usize) -> bool) -> bool {
        self.old.zip(self.new).is_some_and(|(old, new)| is_met(old, new))
    }

    fn is_late(&self) -> bool {
        self.is_true && self.limit.is_some_and(|limit| self.e as u64 > limit)
    }

    fn is_longest(&self) -> bool {
        self.is_true && (self.a, self.b) == (0, 1) && self.e == MOST_CYCLES
    }
}

static RECHECKS: [Situation<Recheck>; 11] = [
    of(ALL, "fatal recheck, the failure taken away", |r| r.old.is_some() && r.new.is_none()),
    of(ALL, "fatal recheck, the failure put off", |r| r.both(|old, new| old < new)),
    of(ALL, "fatal recheck, an earlier failure", |r| r.both(|old, new| old > new)),
    of(ALL, "fatal recheck, a failure where there was none", |r| r.old.is_none() && r.new.is_some()),
    of(ALL, "fatal recheck, fails in the same edited cycle", |r| {
        r.both(|old, new| old == new) && r.old.is_some_and(|old| (r.a..r.b).contains(&old))
    }),
    of(ALL, "fatal recheck, edit after the failure, e = b", |r| {
        r.old.is_some_and(|old| old < r.a && r.a < r.b && r.e == r.b)
    }),
    of(ALL, "fatal recheck, both stopped before e, above b", |r| {
        r.is_true && r.b < r.e && r.e < r.cycles && r.end == STOPPED
    }),
    of(LIMITED, "fatal recheck, e above the limit of the checker that goes on", |r| r.is_late()),
    of(&windows::KINDS, "fatal recheck, edit of cycle 0, e = N = 65,536", |r| r.is_longest()),
    of(ALL, "fatal recheck, a = b after the failure, e = b", |r| {
        r.is_true && r.from == STOPPED && r.a == r.b && r.e == r.b
    }),
    of(ALL, "fatal recheck, false record, from 2^63, e above b", |r| !r.is_true && r.from == STOPPED && r.e > r.b),
];

/// A step that is not refused.
struct Step {
    word: u64,
    row: u32,
    reset: bool,
    /// Whether a check starts in this frame where none is open.
    starts: bool,
}

static STEPS: [Situation<Step>; 5] = [
    of(ALL, "fatal step from 2^63", |s| s.word == STOPPED && !s.reset),
    of(ALL, "fatal step from 2^63, a start", |s| s.word == STOPPED && s.starts),
    of(ALL, "fatal step from 2^63, in reset", |s| s.word == STOPPED && s.reset),
    of(ALL, "fatal step that fails", |s| s.row & 3 != 0),
    of(ALL, "fatal step from an open word that does not fail", |s| {
        s.word != 0 && s.word != STOPPED && !s.reset && s.row & 3 == 0
    }),
];

/// A word to go on from, to count or to refuse, with a right configuration.
struct Word {
    config: Config,
    word: u64,
    is_possible: bool,
}

impl Word {
    fn fatal(&self, word: u64) -> bool {
        self.config.is_fatal() && self.word == word
    }

    fn apart(&self) -> u32 {
        self.config.n - self.config.min
    }

    /// Whether it has the bits of an open word besides that of 2^63.
    fn has_open_bits(&self) -> bool {
        self.word > STOPPED && self.config.possible(self.word - STOPPED)
    }
}

static WORDS: [Situation<Word>; 8] = [
    of(ALL, "2^63 possible, severity 1", |w| w.fatal(STOPPED) && w.is_possible),
    of(&[7], "2^63 possible, severity 1, min = max", |w| w.fatal(STOPPED) && w.is_possible && w.apart() == 0),
    of(&[8], "2^63 possible, severity 1, max = min+1", |w| w.fatal(STOPPED) && w.is_possible && w.apart() == 1),
    of(&[8], "2^63 refused, severity 1, min = max", |w| w.fatal(STOPPED) && !w.is_possible),
    of(ALL, "2^63 refused, severity 0", |w| w.word == STOPPED && !w.config.is_fatal()),
    of(ALL, "2^63+1 refused, severity 1", |w| w.fatal(STOPPED + 1) && !w.is_possible),
    of(ALL, "2^62 refused, severity 1", |w| w.fatal(STOPPED >> 1) && !w.is_possible),
    of(ALL, "2^63 plus an open word refused, severity 1", |w| w.config.is_fatal() && w.has_open_bits()),
];

/// Every situation with each of its kinds, and how many times it has to be met.
pub fn all_situations() -> impl Iterator<Item = (u8, &'static str, u64)> {
    let words_and_steps = kinds_of(&WORDS).chain(kinds_of(&STEPS));
    words_and_steps.chain(kinds_of(&CHECKS)).chain(kinds_of(&LISTS)).chain(kinds_of(&RECHECKS))
}

fn failing_cycle(rows: &[u32]) -> Option<usize> {
    rows.iter().position(|row| row & 3 != 0)
}

fn marks(rows: &[u32]) -> u32 {
    rows.iter().fold(0, |marks, row| marks | row)
}

/// The check of a trace that is not refused; the rows are those of the rules.
pub fn tally_check(tally: &mut Tally, config: Config, trace: &[u32], rows: &[u32]) {
    if !config.is_fatal() {
        return;
    }
    let stop = failing_cycle(rows);
    let check = Check { n: config.n, cycles: rows.len(), marks: marks(rows), stop, ..Check::default() };
    let check = match stop {
        Some(stop) => stopped_check(check, config, trace, stop),
        None => check,
    };
    tally_all(tally, config.kind, &CHECKS, &check);
}

fn stopped_check(check: Check, config: Config, trace: &[u32], stop: usize) -> Check {
    let going_on = rules::true_record(config.going_on(), trace);
    let in_reset = |t: &usize| !rules::is_running(&trace[FRAME_WORDS * t..]);
    let reset = (stop..check.cycles).find(in_reset);
    Check {
        row: going_on.rows[stop],
        word: going_on.words[stop],
        later: marks(&going_on.rows[stop + 1..]),
        revived: reset.map_or(0, |t| marks(&going_on.rows[t..])),
        reset_before: (0..stop).any(|t| in_reset(&t)),
        reset_after: reset.is_some(),
        ..check
    }
}

/// A list that is refused for its length or not at all; so many of its words are needed, and lent.
pub fn tally_list(tally: &mut Tally, config: Config, trace: &[u32], needed: usize, lent: usize) {
    if config.is_fatal() {
        let going_on = 3 * rules::entries(config.going_on(), trace).len();
        tally_all(tally, config.kind, &LISTS, &List { needed, going_on, lent });
    }
}

/// A recheck that is not refused, with the record before it and after it.
pub fn tally_recheck(tally: &mut Tally, edit: &Edit, kept: &Record, new: &Record, e: usize, is_true: bool) {
    if !edit.config.is_fatal() {
        return;
    }
    let (a, b) = (edit.a as usize, edit.b as usize);
    let recheck = Recheck {
        is_true,
        a,
        b,
        e,
        cycles: kept.rows.len(),
        old: failing_cycle(&kept.rows).filter(|_| is_true),
        new: failing_cycle(&new.rows).filter(|_| is_true),
        from: rules::word_before(&kept.words, a),
        end: rules::word_before(&new.words, e),
        limit: Edit { config: edit.config.going_on(), ..*edit }.latest_end(),
    };
    tally_all(tally, edit.config.kind, &RECHECKS, &recheck);
}

/// A step that is not refused.
pub fn tally_step(tally: &mut Tally, config: Config, word: u64, frame: Frame, row: u32) {
    if config.is_fatal() {
        let starts = rules::one_step(config.going_on(), 0, frame) != (0, 0);
        tally_all(tally, config.kind, &STEPS, &Step { word, row, reset: !rules::is_running(&frame), starts });
    }
}

/// The word of a step or of an open count, or that which a recheck goes on from or names.
pub fn tally_word(tally: &mut Tally, config: Config, word: u64) {
    tally_all(tally, config.kind, &WORDS, &Word { config, word, is_possible: config.possible(word) });
}

/// A bench; the words are those before the step.
pub fn tally_bench(tally: &mut Tally, table: &[Config], words: &[u64], rows: &[u32], answer: u32) {
    let (refusal, bad) = (answer / 256, answer as usize % 256);
    let has = |fatal: bool| refusal == 0 && table.iter().any(|config| config.is_fatal() == fatal);
    let fails = |fatal: bool| table.iter().zip(rows).any(|(config, row)| config.is_fatal() == fatal && row & 3 != 0);
    let stopped = words.iter().filter(|word| **word == STOPPED).count();
    tally.situation("bench, fatal checkers beside others", has(true) && has(false));
    tally.situation("bench, a fatal checker fails, and another one", refusal == 0 && fails(true) && fails(false));
    tally.situation("bench, stopped checkers beside others", refusal == 0 && 0 < stopped && stopped < table.len());
    tally.situation("bench, severity refused", refusal == 2 && table[bad].severity > 1);
    tally.situation("bench, 2^63 refused", refusal == 7 && words[bad] == STOPPED);
}

/// A configuration whose severity is refused, or would be.
pub fn tally_config(tally: &mut Tally, config: Config) {
    let with_another = |refusal: u32| config.severity > 1 && config.going_on().refusal() == refusal;
    tally.situation("severity refused, 2", with_another(0) && config.severity == 2);
    tally.situation("severity refused, 255", with_another(0) && config.severity == 255);
    tally.situation("severity refused, ports or value bad too", with_another(3));
    tally.situation("kind refused, severity bad too", with_another(1));
}
