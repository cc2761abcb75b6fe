//! The situations of kinds 7 and 8 (§4 of document 02) and of the longest windows (§5) that every run has to meet: those of
//! a window, of an open word and of a configuration.

use crate::rules::{self, Config, Frame, FRAME_WORDS, LONGEST_WINDOW, TO_UNKNOWN};
use crate::tally::Tally;

/// A window of a checked trace: from its accepted trigger s to s+max, or to where a reset or the end of the trace cuts it.
pub struct Window<'a> {
    config: Config,
    trace: &'a [u32],
    rows: &'a [u32],
    s: usize,
    /// The first cycle behind it.
    end: usize,
    /// What P is compared with.
    due: Option<u32>,
}

pub struct Situation {
    pub kinds: &'static [u8],
    pub name: &'static str,
    is_met: fn(&Window) -> bool,
}

const fn both(name: &'static str, is_met: fn(&Window) -> bool) -> Situation {
    Situation { kinds: &[7, 8], name, is_met }
}

const fn value(name: &'static str, is_met: fn(&Window) -> bool) -> Situation {
    Situation { kinds: &[7], name, is_met }
}

const fn stability(name: &'static str, is_met: fn(&Window) -> bool) -> Situation {
    Situation { kinds: &[8], name, is_met }
}

/// The kinds whose n is the length of a window.
pub const KINDS: [u8; 5] = [3, 4, 5, 7, 8];

pub const LONGEST_CLOSED: &str = "window of 65,535 cycles closed";
pub const LONGEST_FAILED: &str = "window of 65,535 cycles failed in its last cycle";
pub const LONGEST_PASSED: &str = "window of 65,535 cycles closed, its last cycle not failed";
pub const LONGEST_RECHECK: &str = "recheck, true record, edit of cycle 0, e = N = 65,536";
pub const LONGEST_LIST: &str = "failures, at least 65,535 entries";

/// The situations of the longest window. They come up on a schedule, so every one of the kinds has to meet each so many times.
const LONGEST: [&str; 5] = [LONGEST_CLOSED, LONGEST_FAILED, LONGEST_PASSED, LONGEST_RECHECK, LONGEST_LIST];
const LEAST_LONGEST: u64 = 3;

pub const SITUATIONS: [Situation; 23] = [
    both("opened and closed in one cycle, max 0", |w| w.max() == 0),
    both("closed, min 0, max above 0", |w| w.is_closed() && w.min() == 0 && w.max() > 0),
    both("closed, min = max above 0", |w| w.is_closed() && w.min() == w.max() && w.max() > 0),
    both("closed with enable 0", |w| w.is_closed() && !w.enable(w.end - 1)),
    both("ended by a reset", |w| w.is_reset()),
    both("ended by a reset with enable 0", |w| w.is_reset() && !w.enable(w.end)),
    both("trigger ignored before s+min", |w| (w.s + 1..w.end.min(w.s + w.min())).any(|t| w.trigger(t))),
    both("trigger ignored in s+max", |w| w.is_closed() && w.max() > 0 && w.trigger(w.end - 1)),
    both("trigger accepted in s+max+1", |w| w.is_closed() && w.max() > 0 && w.opens(w.end)),
    both("trigger with enable 0 not seen in s+max+1", |w| w.is_closed() && w.trigger_is_disabled(w.end)),
    both("trigger accepted in s+1 to s+max after a reset", |w| (w.end..=w.s + w.max()).any(|t| w.opens(t))),
    both("several cycles tested, none failed", |w| w.is_closed() && w.tested().count() > 1 && !w.has_failed()),
    both("failed twice", |w| w.tested().filter(|&t| w.fails(t)).count() > 1),
    both("failed in s+max", |w| w.is_closed() && w.max() > 0 && w.fails(w.end - 1)),
    both("passed after a failure", |w| w.tested().skip_while(|&t| !w.fails(t)).any(|t| !w.fails(t))),
    both("wrong before s+min, none failed", |w| (w.s..w.end.min(w.s + w.min())).any(|t| w.is_wrong(t)) && !w.has_failed()),
    both("wrong with enable 0, none failed", |w| w.disabled().any(|t| w.is_wrong(t)) && !w.has_failed()),
    value("failed in its trigger cycle, max above 0", |w| w.rows[w.s] == 5),
    value("failed in its trigger cycle, max 0", |w| w.rows[w.s] == 13),
    stability("failed, reference of s", |w| w.min() == 0 && w.has_failed()),
    stability("reference later than s+min", |w| w.sampled().next().is_some_and(|t| t > w.s + w.min())),
    stability("closed without a reference", |w| w.is_closed() && w.sampled().next().is_none()),
    stability("reference with its 32nd bit 1", |w| w.due.is_some_and(|r| r >> 31 == 1)),
];

/// Every situation of a window with each of its kinds, and how many times it has to be met.
pub fn all_situations() -> impl Iterator<Item = (u8, &'static str, u64)> {
    let of_windows = SITUATIONS.iter().flat_map(|one| one.kinds.iter().map(move |kind| (*kind, one.name, 1)));
    of_windows.chain(LONGEST.iter().flat_map(|name| KINDS.map(|kind| (kind, *name, LEAST_LONGEST))))
}

impl Window<'_> {
    fn min(&self) -> usize {
        self.config.min as usize
    }

    fn max(&self) -> usize {
        self.config.n as usize
    }

    fn frame(&self, t: usize) -> Frame {
        rules::frame_at(self.trace, t)
    }

    fn enable(&self, t: usize) -> bool {
        rules::is_enabled(&self.frame(t))
    }

    /// None where a wire of it is unknown.
    fn p(&self, t: usize) -> Option<u32> {
        let (frame, range) = (self.frame(t), self.config.p);
        (range.value(frame[1 + TO_UNKNOWN]) == 0).then(|| range.value(frame[1]))
    }

    fn q(&self, t: usize) -> bool {
        let (frame, range) = (self.frame(t), self.config.q);
        range.value(frame[2]) == 1 && range.value(frame[2 + TO_UNKNOWN]) == 0
    }

    fn trigger(&self, t: usize) -> bool {
        self.enable(t) && self.q(t)
    }

    fn trigger_is_disabled(&self, t: usize) -> bool {
        t < self.rows.len() && rules::is_running(&self.frame(t)) && !self.enable(t) && self.q(t)
    }

    fn opens(&self, t: usize) -> bool {
        self.rows.get(t).is_some_and(|row| row & 4 != 0)
    }

    fn fails(&self, t: usize) -> bool {
        self.rows[t] & 1 != 0
    }

    fn has_failed(&self) -> bool {
        (self.s..self.end).any(|t| self.fails(t))
    }

    fn is_closed(&self) -> bool {
        self.rows[self.end - 1] & 8 != 0
    }

    fn is_reset(&self) -> bool {
        !self.is_closed() && self.end < self.rows.len()
    }

    /// The cycles from s+min on where enable is 1 and P is known.
    fn sampled(&self) -> impl Iterator<Item = usize> + '_ {
        (self.s + self.min()..self.end).filter(|&t| self.enable(t) && self.p(t).is_some())
    }

    fn disabled(&self) -> impl Iterator<Item = usize> + '_ {
        (self.s + self.min()..self.end).filter(|&t| !self.enable(t))
    }

    /// The cycles that can fail: the stability check only takes its reference in the first.
    fn tested(&self) -> impl Iterator<Item = usize> + '_ {
        self.sampled().skip(usize::from(self.config.kind == 8))
    }

    fn find_due(&self) -> Option<u32> {
        if self.config.kind == 7 {
            return Some(self.config.value);
        }
        self.sampled().next().and_then(|t| self.p(t))
    }

    fn is_wrong(&self, t: usize) -> bool {
        self.due.is_some_and(|due| self.p(t).is_some_and(|p| p != due))
    }
}

fn windows<'a>(config: Config, trace: &'a [u32], rows: &'a [u32]) -> Vec<Window<'a>> {
    let mut windows = Vec::new();
    for s in (0..rows.len()).filter(|&s| rows[s] & 4 != 0) {
        let last = rows.len().min(s + config.n as usize + 1);
        let end = (s + 1..last).find(|&t| !rules::is_running(&trace[FRAME_WORDS * t..])).unwrap_or(last);
        let mut window = Window { config, trace, rows, s, end, due: None };
        window.due = window.find_due();
        windows.push(window);
    }
    windows
}

/// The windows of a checked trace; the rows are those of the rules.
pub fn tally_windows(tally: &mut Tally, config: Config, trace: &[u32], rows: &[u32]) {
    if !config.is_after_trigger() {
        return;
    }
    let windows = windows(config, trace, rows);
    for situation in SITUATIONS.iter().filter(|situation| situation.kinds.contains(&config.kind)) {
        tally.of_kind(config.kind, situation.name, windows.iter().any(situation.is_met));
    }
}

/// The longest windows of a checked trace: mark 8 stands in the last cycle of a window, and mark 1 there is its failure. Those
/// of fatal checkers are counted apart.
pub fn tally_longest(tally: &mut Tally, config: Config, rows: &[u32]) {
    if !config.has_window() || config.is_fatal() {
        return;
    }
    let is_met = |marks: u32| config.n == LONGEST_WINDOW && rows.iter().any(|row| row & 9 == marks);
    tally.of_kind(config.kind, LONGEST_FAILED, is_met(9));
    tally.of_kind(config.kind, LONGEST_PASSED, is_met(8));
    tally.of_kind(config.kind, LONGEST_CLOSED, is_met(9) || is_met(8));
}

/// The word of a step or of an open count, or that which a recheck goes on from or names, at the limits of the possible
/// words and just beyond them.
pub fn tally_word(tally: &mut Tally, config: Config, word: u64) {
    let (min, max) = (u64::from(config.min), u64::from(config.n));
    tally_longest_word(tally, config, word);
    match (config.kind, rules::reference_in(word)) {
        (7, _) => {
            tally.situation("value word, max left", word == max && max > 0);
            tally.situation("value word refused, max+1 left", word == max + 1);
        }
        (8, None) => {
            tally.situation("stability word without a reference, max left", word == max && min > 0);
            tally.situation("stability word without a reference, max left, min 0", word == max && max > 0 && min == 0);
            tally.situation("stability word without a reference refused, max+1 left", word == max + 1 && min > 0);
            tally.situation("stability word without a reference refused, max+1 left, min 0", word == max + 1 && min == 0);
        }
        (8, Some(r)) => {
            let (left, above) = (rules::cycles_left_in(word), 1 << config.p.width());
            let (reference_fits, left_fits) = (r < above, (1..=max - min).contains(&left));
            tally.situation("stability word, max-min left", reference_fits && left_fits && left == max - min);
            tally.situation("stability word, greatest reference of 32 wires", left_fits && r == u64::from(u32::MAX));
            tally.situation("stability word refused, 0 left", reference_fits && left == 0);
            tally.situation("stability word refused, max-min+1 left", reference_fits && left == max - min + 1);
            tally.situation("stability word refused, reference one too large", left_fits && r == above);
        }
        _ => {}
    }
}

/// A word with 65,535 cycles left, or 65,536, of a window of that length.
fn tally_longest_word(tally: &mut Tally, config: Config, word: u64) {
    let longest = u64::from(LONGEST_WINDOW);
    if !config.has_window() || config.n != LONGEST_WINDOW {
        return;
    }
    let held = rules::reference_in(word).is_some();
    if config.kind == 8 {
        let held_longest = held && config.possible(word) && rules::cycles_left_in(word) == longest;
        tally.situation("stability word, reference and 65,535 left", held_longest);
        tally.situation("stability word, 65,535 left and no reference", config.possible(word) && word == longest);
        tally.situation("stability word refused, 65,536 left", word == longest + 1);
    } else {
        tally.situation("time or value word, 65,535 left", word == longest);
        tally.situation("time or value word refused, 65,536 left", word == longest + 1);
    }
}

/// A configuration that is refused for one number alone: with another it is right.
pub fn tally_config(tally: &mut Tally, config: Config) {
    let after_trigger = config.is_after_trigger();
    let only = |other: Config| config.refusal() != 0 && other.refusal() == 0;
    let min = only(Config { min: 0, ..config });
    tally.situation("kind 9 refused", config.kind == 9);
    tally.situation("min refused, one above max", min && after_trigger && config.min == config.n + 1);
    tally.situation("min refused, kinds 0 to 6", min && !after_trigger);
    let n = only(Config { n: LONGEST_WINDOW, ..config }) && config.n == LONGEST_WINDOW + 1;
    tally.situation("n refused, 65,536, kinds 3 to 5", n && config.is_time());
    tally.situation("max refused, 65,536", n && after_trigger);
    let accepted = |n: u32| config.n == n && config.refusal() == 0;
    tally.situation("n accepted, 1,025, kinds 3 to 5", accepted(1025) && config.is_time());
    tally.situation("n accepted, 65,535, kinds 3 to 5", accepted(LONGEST_WINDOW) && config.is_time());
    tally.situation("max accepted, 1,025", accepted(1025) && after_trigger);
    tally.situation("max accepted, 65,535", accepted(LONGEST_WINDOW) && after_trigger);
    let value = only(Config { value: 0, ..config });
    tally.situation("value refused, kinds 0 to 6", value && !after_trigger);
    tally.situation("value refused, kind 8", value && config.kind == 8);
    let one_too_large = config.kind == 7 && value && u64::from(config.value) == 1 << config.p.width();
    tally.situation("value refused, kind 7, one too large", one_too_large);
    tally.situation("value accepted, 2^32-1", config.kind == 7 && config.refusal() == 0 && config.value == u32::MAX);
    let wire = rules::Range { left: 0, right: 0 };
    let q = only(Config { q: wire, ..config });
    tally.situation("width of Q refused, kinds 7 and 8", q && after_trigger && config.q.width() == 2);
    tally.situation("R refused, kinds 7 and 8", after_trigger && only(Config { r: wire, ..config }));
}
