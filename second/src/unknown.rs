//! Unknown bits (§8 of document 02): how they are put into a trace, the traces that a checker cannot tell from one another, and
//! the situations of them that every run has to meet, most of them with each kind that can meet them.

use crate::generate::Random;
use crate::rules::{self, Config, Frame, Record, FRAME_WORDS, LONGEST_WINDOW, MOST_CYCLES, STOPPED, TO_UNKNOWN};
use crate::tally::{kinds_of, of, tally_all, tally_any, Situation, Tally, ALL};
use crate::windows;
use std::ops::Range;

/// The wires that a checker reads of reset, P, Q and R: reset_n and, for kinds 7 and 8, enable, and those in the declared ranges
/// of the ports that its kind uses.
pub fn read_wires(config: Config) -> [u32; 4] {
    let all = u32::MAX;
    match config.kind {
        0..=2 => [1, config.p.wires(all), 0, 0],
        3..=5 => [1, config.p.wires(all), config.q.wires(all), 0],
        6 => [1, config.p.wires(all), config.q.wires(all), config.r.wires(all)],
        _ => [3, config.p.wires(all), config.q.wires(all), 0],
    }
}

/// Of these, the wires that are as good as 0 where they are unknown: reset_n and enable, starts and triggers, and all events of
/// kind 0 before the last. In a comparison of states an unknown bit is neither 0 nor 1.
fn wires_as_0(config: Config) -> [u32; 4] {
    let [reset, p, q, _] = read_wires(config);
    match config.kind {
        0 => [reset, p & !config.p.wires(1), 0, 0],
        1 | 2 => [reset, config.p.wires(1 << (config.n - 1)), 0, 0],
        3..=5 => [reset, p, 0, 0],
        6 => [reset, 0, 0, 0],
        _ => [reset, 0, q, 0],
    }
}

/// Where a trace has unknown bits.
#[derive(Clone, Copy)]
enum Place {
    Everywhere,
    FewCycles,
    /// On one wire that is read in a cycle, and not in every cycle.
    OneWire,
    /// On wires that are not read.
    Unread,
    ResetAndEnable,
}

/// How many unknown bits there are in the cycles and words that have some, and how often there are some.
struct Style {
    place: Place,
    density: i32,
    often: usize,
    control: usize,
}

/// Makes these wires of a frame unknown; the value bits under them are random.
fn put_in_frame(random: &mut Random, frame: &mut [u32], unknown: [u32; 4]) {
    for (i, bits) in unknown.into_iter().enumerate() {
        frame[i] ^= random.word() & bits;
        frame[i + TO_UNKNOWN] |= bits;
    }
}

/// One wire of a port that the kind uses: most often of the one that can set 32 where there is a start; often bit 0, which is
/// the last event of a sequence.
fn one_wire(random: &mut Random, config: Config) -> [u32; 4] {
    let (ports, marked) = match config.kind {
        0..=2 => (1, 0),
        3..=5 => (2, 1),
        6 => (3, 2),
        _ => (2, 0),
    };
    let any = random.below(ports);
    let port = random.pick(&[marked, any]);
    let range = [config.p, config.q, config.r][port];
    let any = random.below(range.width() as usize);
    let mut unknown = [0; 4];
    unknown[1 + port] = range.wires(1 << random.pick(&[0, any]));
    unknown
}

/// Unknown reset_n and enable, each so many times of 1,024.
fn control_bits(random: &mut Random, of_1024: usize) -> u32 {
    u32::from(random.chance(of_1024)) | u32::from(random.chance(of_1024)) << 1
}

/// The unknown bits of one frame. An unknown reset_n ends everything, so it has a chance of its own.
fn draw(random: &mut Random, config: Config, style: &Style) -> [u32; 4] {
    let dense = |random: &mut Random| [0; 4].map(|_| random.dense_word(style.density));
    match style.place {
        Place::Everywhere | Place::FewCycles => {
            let [reset, p, q, r] = dense(random);
            [reset & !1 | control_bits(random, style.control), p, q, r]
        }
        Place::OneWire => one_wire(random, config),
        Place::Unread => {
            let read = read_wires(config);
            let bits = dense(random);
            [0, 1, 2, 3].map(|i| bits[i] & !read[i])
        }
        Place::ResetAndEnable => [control_bits(random, style.often), 0, 0, 0],
    }
}

/// Makes bits of a trace unknown, in one cycle at least, unless there is none.
pub fn put(random: &mut Random, config: Config, trace: &mut [u32]) {
    use Place::*;
    let place = random.pick(&[Everywhere, FewCycles, OneWire, OneWire, Unread, ResetAndEnable]);
    let often = match place {
        Everywhere | Unread => 1024,
        FewCycles => random.pick(&[0, 10, 60]),
        OneWire | ResetAndEnable => random.pick(&[10, 60, 300, 700]),
    };
    let style = Style { place, density: random.pick(&[-5, -3, -2, 1, 2]), often, control: random.pick(&[0, 0, 20, 150]) };
    let chosen = random.below((trace.len() / FRAME_WORDS).max(1));
    for (t, frame) in trace.chunks_exact_mut(FRAME_WORDS).enumerate() {
        if t == chosen || random.chance(style.often) {
            let unknown = draw(random, config, &style);
            put_in_frame(random, frame, unknown);
        }
    }
    if config.is_fatal() && random.chance(512) {
        put_at_stop(random, config, trace);
    }
}

/// Makes wires unknown in the cycle where a fatal checker stops: by chance it still stops there, and 32 is in the same row.
fn put_at_stop(random: &mut Random, config: Config, trace: &mut [u32]) {
    let words = rules::true_record(config, trace).words;
    if let Some(stop) = words.iter().position(|word| *word == STOPPED) {
        for _ in 0..1 + random.below(3) {
            let unknown = one_wire(random, config);
            put_in_frame(random, &mut trace[FRAME_WORDS * stop..FRAME_WORDS * (stop + 1)], unknown);
        }
    }
}

/// Makes bits of a trace unknown that are not read, and often some tests in these cycles.
pub fn put_between(random: &mut Random, config: Config, trace: &mut [u32], between: Range<usize>) {
    let style = Style { place: Place::Unread, density: 1, often: 1024, control: 0 };
    for frame in trace.chunks_exact_mut(FRAME_WORDS) {
        let unknown = draw(random, config, &style);
        put_in_frame(random, frame, unknown);
    }
    if between.is_empty() || random.chance(100) {
        return;
    }
    for _ in 0..1 + random.below(20) {
        let t = between.start + random.below(between.len());
        let bit = 1 << random.below(config.p.width() as usize);
        let (p, q) = if config.is_time() { (0, config.q.wires(1)) } else { (config.p.wires(bit), 0) };
        put_in_frame(random, &mut trace[FRAME_WORDS * t..FRAME_WORDS * (t + 1)], [0, p, q, 0]);
    }
}

/// Changes the unknown bits of these frames, and nothing else.
pub fn edit(random: &mut Random, config: Config, frames: &mut [u32]) {
    let (read, sort) = (read_wires(config), random.below(4));
    for frame in frames.chunks_exact_mut(FRAME_WORDS) {
        let changed = match sort {
            0 => [0, 1, 2, 3].map(|i| frame[i + TO_UNKNOWN]),
            1 => [0, 1, 2, 3].map(|i| if i == 0 { 0 } else { random.dense_word(-3) & read[i] }),
            2 => one_wire(random, config),
            _ => [control_bits(random, 300), 0, 0, 0],
        };
        for (i, bits) in changed.into_iter().enumerate() {
            frame[i + TO_UNKNOWN] ^= bits;
        }
    }
}

const UNDER: &str = "value bits under unknown bits changed";
const UNREAD: &str = "bits changed that are not read";
const AS_0: &str = "unknown bits made 0 that are as good as 0";

/// A trace that this checker cannot tell from the one that is given, and how they differ. "Value bits under a 1 are ignored";
/// "Wires outside the range are ignored", so their unknown bits are, and a port that a kind does not use is not read.
pub fn alike(random: &mut Random, config: Config, trace: &[u32]) -> (&'static str, Vec<u32>) {
    let (read, as_0) = (read_wires(config), wires_as_0(config));
    let what = random.pick(&[UNDER, UNREAD, AS_0]);
    let mut other = trace.to_vec();
    for frame in other.chunks_exact_mut(FRAME_WORDS) {
        for i in 0..4 {
            let unknown = frame[i + TO_UNKNOWN];
            match what {
                UNDER => frame[i] ^= random.word() & unknown,
                UNREAD => {
                    frame[i] ^= random.word() & !read[i];
                    frame[i + TO_UNKNOWN] ^= random.word() & !read[i];
                }
                _ => {
                    frame[i] &= !(unknown & as_0[i]);
                    frame[i + TO_UNKNOWN] &= !as_0[i];
                }
            }
        }
    }
    (what, other)
}

/// Whether no wire is unknown in any cycle. "A trace without unknowns has the rows it had before."
pub fn has_none(trace: &[u32]) -> bool {
    trace.chunks_exact(FRAME_WORDS).all(|frame| frame[TO_UNKNOWN..].iter().all(|bits| *bits == 0))
}

/// A cycle of a checked trace, up to the one where a fatal checker stops.
struct Cycle {
    config: Config,
    frame: Frame,
    row: u32,
    row_before: u32,
    /// The words before and after it.
    before: u64,
    after: u64,
}

impl Cycle {
    fn has(&self, marks: u32) -> bool {
        self.row & marks == marks
    }

    fn lacks(&self, marks: u32) -> bool {
        self.row & marks == 0
    }

    fn is_running(&self) -> bool {
        rules::is_running(&self.frame)
    }

    /// The value bits of P, Q or R, also those under unknown bits, and the unknown bits.
    fn port(&self, i: usize) -> (u32, u32) {
        let range = [self.config.p, self.config.q, self.config.r][i];
        (range.value(self.frame[1 + i]), range.value(self.frame[1 + i + TO_UNKNOWN]))
    }

    fn unknown(&self, i: usize) -> bool {
        self.port(i).1 != 0
    }

    /// How many attempts that were open before have an unknown bit for their next event, which is the last, or is not.
    fn unknown_events(&self, last: bool) -> usize {
        let n = self.config.n as usize;
        let js = if last { n - 2..n - 1 } else { 0..n - 2 };
        let is_unknown = |j: &usize| self.before >> j & 1 == 1 && self.port(0).1 >> (n - 2 - j) & 1 == 1;
        if self.is_running() {
            js.filter(is_unknown).count()
        } else {
            0
        }
    }

    /// An event, 1 and known, that is the start of a sequence.
    fn sequence_starts(&self) -> bool {
        let ((p, unknown), first) = (self.port(0), self.config.n - 1);
        p >> first & 1 == 1 && unknown >> first & 1 == 0
    }

    /// Whether there would be a start if value bits under unknown bits were read; but there is none.
    fn would_start(&self) -> bool {
        let ((p, p_x), (q, q_x)) = (self.port(0), self.port(1));
        self.is_running()
            && match self.config.kind {
                0..=2 => (p & p_x) >> (self.config.n - 1) & 1 == 1,
                3..=5 => p & p_x == 1,
                6 => p_x | q_x != 0 && p == q,
                _ => q & q_x == 1 && rules::is_enabled(&self.frame),
            }
    }

    /// At a pending transition check that the test is unknown for: whether its known bits are those of the stored value.
    fn known_bits_pass(&self) -> Option<bool> {
        let (p, unknown) = self.port(0);
        let is_pending = self.before != 0 && self.is_running() && unknown != 0;
        is_pending.then_some((p ^ self.before as u32) & !unknown == 0)
    }

    fn is_held(&self) -> bool {
        rules::reference_in(self.before).is_some()
    }

    /// In a window of kind 7 or 8.
    fn in_window(&self) -> bool {
        self.is_running() && (self.before != 0 || self.has(4))
    }

    /// The reset word has this bit 1, and unknown.
    fn is_control_unknown(&self, bit: u32) -> bool {
        self.frame[0] & self.frame[TO_UNKNOWN] & bit != 0
    }
}

const SEQUENCES: &[u8] = &[0, 1, 2];
const TIMES: &[u8] = &[3, 4, 5];
const TRIGGERED: &[u8] = &[7, 8];

/// Marks together with 32.
static MARKS_TOGETHER: [Situation<Cycle>; 8] = [
    of(ALL, "32 alone", |c| c.row == 32),
    of(&[1, 6], "32 and 1", |c| c.has(33)),
    of(&[5], "32 and 2", |c| c.has(34)),
    of(&[0, 1, 6, 7, 8], "32 and 4", |c| c.has(36)),
    of(&windows::KINDS, "32 and 8", |c| c.has(40)),
    of(TRIGGERED, "32, 4 and 8", |c| c.has(44)),
    of(ALL, "32 on a fatal checker, which goes on", |c| c.config.is_fatal() && c.has(32) && c.after != STOPPED),
    of(&[1, 5, 6], "32 on a fatal checker where it stops", |c| c.config.is_fatal() && c.has(32) && c.after == STOPPED),
];

static CYCLES: [Situation<Cycle>; 27] = [
    of(SEQUENCES, "32, unknown last event", |c| c.has(32) && c.unknown_events(true) > 0),
    of(&[1, 2], "32, unknown event before the last", |c| c.has(32) && c.unknown_events(false) > 0),
    of(&[0], "unknown event before the last, no mark", |c| c.row == 0 && c.unknown_events(false) > 0),
    of(&[1], "32 for two attempts", |c| c.has(32) && c.unknown_events(false) > 1),
    of(&[0, 1], "32, start accepted", |c| c.has(32) && c.after & 1 == 1),
    of(&[2], "32, start ignored", |c| c.has(32) && c.sequence_starts()),
    of(ALL, "unknown start with nothing open", |c| c.before == 0 && c.would_start()),
    of(TIMES, "unknown start in a pending cycle", |c| c.before != 0 && c.would_start()),
    of(TIMES, "unknown start and test in a pending cycle", |c| c.before != 0 && c.would_start() && c.has(32)),
    of(TRIGGERED, "unknown trigger in the cycle behind a window", |c| c.row_before & 8 != 0 && c.would_start()),
    of(&[4], "restart with an unknown test, no 32", |c| c.row == 20 && c.unknown(1)),
    of(TIMES, "unknown test where the check opens, no 32", |c| c.row == 4 && c.unknown(1)),
    of(TIMES, "unknown test with nothing pending, no 32", |c| c.row == 0 && c.is_running() && c.unknown(1)),
    of(TIMES, "32 after a failure of the same check", |c| c.row_before & 9 == 1 && c.has(32)),
    of(&[6], "4 and 32, nothing stored", |c| c.has(36) && c.after == 0),
    of(&[6], "1, 4 and 32", |c| c.has(37)),
    of(&[6], "32, known bits of the test pass", |c| c.known_bits_pass() == Some(true)),
    of(&[6], "32, known bits of the test fail", |c| c.known_bits_pass() == Some(false)),
    of(&[6], "unknown next state without a start, no mark", |c| c.row == 0 && c.is_running() && c.unknown(2)),
    of(ALL, "unknown reset with a check open", |c| c.before != 0 && c.is_control_unknown(1)),
    of(TRIGGERED, "unknown enable, P unknown, no 32", |c| {
        c.in_window() && c.is_control_unknown(2) && c.unknown(0) && c.lacks(32)
    }),
    of(TRIGGERED, "P unknown before s+min, no 32", |c| {
        c.in_window() && rules::is_enabled(&c.frame) && c.unknown(0) && c.lacks(32)
    }),
    of(&[8], "32 before a reference, min 0", |c| c.has(32) && !c.is_held() && c.config.min == 0),
    of(&[8], "32 before a reference, min above 0", |c| c.has(32) && !c.is_held() && c.config.min > 0),
    of(&[8], "32 with a reference", |c| c.has(32) && c.is_held()),
    of(&[8], "reference in the cycle after 32", |c| {
        c.row_before & 40 == 32 && !c.is_held() && rules::reference_in(c.after).is_some()
    }),
    of(&[8], "32 and 8 without a reference", |c| c.has(40) && !c.is_held()),
];

/// A checked trace.
struct Check {
    n: u32,
    cycles: usize,
    /// The marks of all rows together.
    marks: u32,
    /// The unknown bits of all cycles together, and those of them that are read.
    unknown: [u32; 4],
    read: [u32; 4],
    /// In how many cycles one is read.
    cycles_read: usize,
}

impl Check {
    fn is_unread(&self) -> bool {
        self.unknown != [0; 4] && self.read == [0; 4]
    }

    fn is_control_alone(&self) -> bool {
        self.read[0] != 0 && self.read[1..] == [0; 3]
    }
}

static CHECKS: [Situation<Check>; 6] = [
    of(ALL, "check without unknown bits", |c| c.unknown == [0; 4] && c.marks & 5 == 5),
    of(ALL, "check with unknown bits that are not read", |c| c.is_unread() && c.marks & 5 == 5),
    of(ALL, "check with unknown reset or enable alone", |c| c.is_control_alone() && c.marks & 4 != 0),
    of(ALL, "check with unknown bits in most cycles", |c| c.cycles > 20 && 2 * c.cycles_read > c.cycles),
    of(ALL, "check with unknown bits in one cycle", |c| c.cycles > 20 && c.cycles_read == 1),
    of(&windows::KINDS, "window of 65,535 cycles closed, with 32", |c| {
        c.n == LONGEST_WINDOW && c.cycles == MOST_CYCLES && c.marks & 40 == 40
    }),
];

/// An edit, and a recheck that is not refused.
const EDITED: &str = "edit of unknown bits alone";
const MORE: &str = "recheck, more rows with 32";
const FEWER: &str = "recheck, fewer rows with 32";

/// Every situation with each of its kinds, and how many times it has to be met.
pub fn all_situations() -> impl Iterator<Item = (u8, &'static str, u64)> {
    let names = [UNDER, UNREAD, AS_0, EDITED, MORE, FEWER];
    let of_all = names.into_iter().flat_map(|name| ALL.iter().map(move |kind| (*kind, name, 1)));
    of_all.chain(kinds_of(&MARKS_TOGETHER)).chain(kinds_of(&CYCLES)).chain(kinds_of(&CHECKS))
}

/// The check of a trace that is not refused, with the rows and words of the rules.
pub fn tally_check(tally: &mut Tally, config: Config, trace: &[u32], record: &Record) {
    let Record { rows, words } = record;
    let stop = words.iter().position(|word| *word == STOPPED).map_or(rows.len(), |stop| stop + 1);
    let cycle = |t: usize| Cycle {
        config,
        frame: rules::frame_at(trace, t),
        row: rows[t],
        row_before: if t == 0 { 0 } else { rows[t - 1] },
        before: rules::word_before(words, t),
        after: words[t],
    };
    if !has_none(trace) {
        let cycles: Vec<Cycle> = (0..stop).map(cycle).collect();
        tally_any(tally, config.kind, &MARKS_TOGETHER, &cycles);
        tally_any(tally, config.kind, &CYCLES, &cycles);
    }
    let wires = read_wires(config);
    let mut check = Check { n: config.n, cycles: rows.len(), marks: 0, unknown: [0; 4], read: [0; 4], cycles_read: 0 };
    for (frame, row) in trace.chunks_exact(FRAME_WORDS).zip(rows) {
        check.marks |= row;
        let read = [0, 1, 2, 3].map(|i| frame[i + TO_UNKNOWN] & wires[i]);
        check.cycles_read += usize::from(read != [0; 4]);
        for i in 0..4 {
            check.unknown[i] |= frame[i + TO_UNKNOWN];
            check.read[i] |= read[i];
        }
    }
    tally_all(tally, config.kind, &CHECKS, &check);
}

/// The edit of a trace by a good checker.
pub fn tally_edit(tally: &mut Tally, kind: u8, old: &[u32], new: &[u32]) {
    let mut words = old.iter().zip(new).enumerate();
    let alone = words.all(|(i, (old, new))| old == new || i % FRAME_WORDS >= TO_UNKNOWN);
    tally.of_kind(kind, EDITED, alone && old != new);
}

/// The change of mark 32 that a recheck answered.
pub fn tally_change(tally: &mut Tally, kind: u8, change: i32) {
    tally.of_kind(kind, MORE, change > 0);
    tally.of_kind(kind, FEWER, change < 0);
}
