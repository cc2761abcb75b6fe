//! The rules of document 01, with §2, §4 to §8 and §12 of document 02, as a search over starts. A full check looks, for every
//! cycle, for the starts that matter in it; a step from an open word builds a trace that leaves this word and asks the same
//! search about the cycle behind it, and a recheck about all cycles behind it. All of this is about a checker that goes on; a
//! fatal one has its rows and words up to the first cycle that fails. A sample is an Option, and None is unknown. The sentence
//! that a function follows is quoted above it, from document 01 where no other is named.

/// §8: "Six counts instead of five."
pub const MARKS: [u32; 6] = [1, 2, 4, 8, 16, 32];
/// What a recheck answers: "e and five signed changes, one per mark", by §8 six.
pub const ANSWERS: usize = 1 + MARKS.len();
pub const MOST_CYCLES: usize = 65_536;
pub const MOST_CHECKERS: usize = 64;
/// §5: "Raise n for kinds 3 to 5 from 1,024 to 65,535, and max in §4 too. 65,536 is refusal 2."
pub const LONGEST_WINDOW: u32 = 65_535;
const STORED: u64 = 1 << 32;
const HELD: u64 = 1 << 48;
const REFERENCE_SHIFT: u32 = 16;
/// §7: "the open word is 2^63 to the end of the trace"
pub const STOPPED: u64 = 1 << 63;

/// §8: "A frame gets four more words after them, one per existing word in order, where a 1 means that the wire is x or z".
pub const FRAME_WORDS: usize = 8;
pub type Frame = [u32; FRAME_WORDS];
/// From a word of a frame to its unknown bits.
pub const TO_UNKNOWN: usize = 4;

/// A frame without unknown bits.
pub const fn known([reset, p, q, r]: [u32; 4]) -> Frame {
    [reset, p, q, r, 0, 0, 0, 0]
}

pub fn frame_at(trace: &[u32], t: usize) -> Frame {
    std::array::from_fn(|i| trace[FRAME_WORDS * t + i])
}

/// Whether a wire of the reset word is 1. §8: "Unknown reset counts as reset, unknown enable as 0."
fn control(frame: &[u32], wire: u32) -> bool {
    frame[0] >> wire & 1 == 1 && frame[TO_UNKNOWN] >> wire & 1 == 0
}

/// "Reset_n is bit 0 of the first word"
pub fn is_running(frame: &[u32]) -> bool {
    control(frame, 0)
}

/// §4: "Enable is reset word bit 1."
pub fn is_enabled(frame: &[u32]) -> bool {
    control(frame, 1)
}

#[derive(Clone, Copy, Debug, PartialEq, Eq)]
pub struct Range {
    pub left: u8,
    pub right: u8,
}

/// §4: "n is max; min and the expected value are constants of the configuration, 0 where unused". §7: "The checker record
/// gains a severity".
#[derive(Clone, Copy, Debug, PartialEq, Eq)]
pub struct Config {
    pub kind: u8,
    pub n: u32,
    pub p: Range,
    pub q: Range,
    pub r: Range,
    pub min: u32,
    pub value: u32,
    pub severity: u8,
}

impl Range {
    /// "its width is the distance plus 1"
    pub fn width(self) -> u32 {
        u32::from(self.left.abs_diff(self.right)) + 1
    }

    /// "Bit k of the value is wire right+k when left ≥ right, and wire right−k otherwise."
    pub fn wire(self, k: u32) -> u32 {
        if self.left >= self.right {
            u32::from(self.right) + k
        } else {
            u32::from(self.right) - k
        }
    }

    /// "Wires outside the range are ignored."
    pub fn value(self, word: u32) -> u32 {
        (0..self.width()).map(|k| (word >> self.wire(k) & 1) << k).sum()
    }

    /// A word with this value on the wires of the range, and 0 on the others.
    pub fn wires(self, value: u32) -> u32 {
        (0..self.width()).map(|k| (value >> k & 1) << self.wire(k)).sum()
    }
}

impl Config {
    pub fn is_sequence(self) -> bool {
        self.kind <= 2
    }

    pub fn is_time(self) -> bool {
        (3..=5).contains(&self.kind)
    }

    /// The value check (7) and the stability check (8) of §4.
    pub fn is_after_trigger(self) -> bool {
        matches!(self.kind, 7 | 8)
    }

    /// The kinds whose n is the length of a window.
    pub fn has_window(self) -> bool {
        self.is_time() || self.is_after_trigger()
    }

    /// §7: "0 goes on, 1 is fatal"
    pub fn is_fatal(self) -> bool {
        self.severity == 1
    }

    /// The same checker with severity 0.
    pub fn going_on(self) -> Config {
        Config { severity: 0, ..self }
    }

    /// §7: "a fatal checker that can fail (all but kind 8 with min equal to max)". With min equal to max, stability is tested
    /// in one cycle at most, where it takes its reference.
    pub fn can_stop(self) -> bool {
        self.is_fatal() && !(self.kind == 8 && self.min == self.n)
    }

    /// The limits of n in the table of kinds, with those of §4 and §5.
    pub fn limits(self) -> (u32, u32) {
        if self.is_sequence() {
            (2, 32)
        } else if self.is_time() {
            (1, LONGEST_WINDOW)
        } else if self.is_after_trigger() {
            (0, LONGEST_WINDOW)
        } else {
            (0, 0)
        }
    }

    /// §4: "Min above max […] is refusal 2"; "0 where unused (else refusal 2 for min […])".
    fn greatest_min(self) -> u32 {
        if self.is_after_trigger() {
            self.n
        } else {
            0
        }
    }

    /// The ports column of the table of kinds; None is an unused port. §4: "on 1 to 32 wires"; "P is the tracked value, Q
    /// the trigger (width 1)".
    fn widths_due(self) -> [Option<u32>; 3] {
        if self.is_sequence() {
            [Some(self.n), None, None]
        } else if self.is_time() {
            [Some(1), Some(1), None]
        } else if self.is_after_trigger() {
            [Some(self.p.width()), Some(1), None]
        } else {
            [Some(self.p.width()); 3]
        }
    }

    fn ports_are_right(self) -> bool {
        [self.p, self.q, self.r].into_iter().zip(self.widths_due()).all(|(port, due)| port_is_right(port, due))
    }

    /// §4: "0 where unused (else […] 3 for the value, also 3 when it does not fit P)". Stability expects no value.
    fn value_is_right(self) -> bool {
        if self.kind == 7 {
            u64::from(self.value) < 1 << self.p.width()
        } else {
            self.value == 0
        }
    }

    /// Refusals 1 to 3: "n outside its limits", "index above 31, wrong width, or unused port not 0:0"; §4 adds min to 2 and
    /// the value to 3, and: "Kinds 7 and 8, so refusal 1 starts at 9." §7: "0 goes on, 1 is fatal, else refusal 2."
    pub fn refusal(self) -> u32 {
        let (least, most) = self.limits();
        if self.kind > 8 {
            1
        } else if self.n < least || self.n > most || self.min > self.greatest_min() || self.severity > 1 {
            2
        } else if !self.ports_are_right() || !self.value_is_right() {
            3
        } else {
            0
        }
    }

    /// "A word is possible when: kinds 0 and 1, below 2^(n−1); kind 2, also at most one bit set; kinds 3 to 5, at most n;
    /// kind 6, 0 or 2^32 plus a value that fits the width." §4: "The open word is the cycles left to s+max"; "A word is
    /// possible exactly when some trace leaves it." §7: "2^63 is possible exactly for a fatal checker that can fail".
    pub fn possible(self, word: u64) -> bool {
        match self.kind {
            _ if word == STOPPED => self.can_stop(),
            0 | 1 => word < 1 << (self.n - 1),
            2 => word == 0 || (0..self.n - 1).any(|j| word == 1 << j),
            3..=5 | 7 => word <= u64::from(self.n),
            8 => word == 0 || self.possible_stability_window(word),
            _ => word == 0 || (STORED..STORED + (1 << self.p.width())).contains(&word),
        }
    }

    /// A window has no reference where P is unknown in its trigger cycle, or s+min is later, and enable stays 0: that can last
    /// to the end. A reference is there from s+min at the earliest, with max−min cycles left.
    fn possible_stability_window(self, word: u64) -> bool {
        let (min, max) = (u64::from(self.min), u64::from(self.n));
        match reference_in(word) {
            None => (1..=max).contains(&word),
            Some(r) => r < 1 << self.p.width() && (1..=max - min).contains(&cycles_left_in(word)),
        }
    }
}

/// §4: "an open kind 8 window that holds a reference r adds 2^48 plus r times 2^16"
pub fn with_reference(left: u64, r: u64) -> u64 {
    left + HELD + (r << REFERENCE_SHIFT)
}

/// The reference in a kind 8 word; in an impossible word it can have more than 32 bits.
pub fn reference_in(word: u64) -> Option<u64> {
    Some(word.checked_sub(HELD)? >> REFERENCE_SHIFT)
}

/// The cycles left in a kind 8 word with a reference.
pub fn cycles_left_in(word: u64) -> u64 {
    word % (1 << REFERENCE_SHIFT)
}

/// "A port has a declared range left:right, each 0 to 31"; "An unused port must be 0:0."
fn port_is_right(port: Range, due: Option<u32>) -> bool {
    match due {
        Some(width) => port.left <= 31 && port.right <= 31 && port.width() == width,
        None => port.left == 0 && port.right == 0,
    }
}

/// What the rules say of one cycle. The starts are kept because the failure list names them.
#[derive(Default)]
struct Verdict {
    failed: Vec<usize>,
    illegal: Option<usize>,
    opened: bool,
    closed: bool,
    restarted: bool,
    unknown: bool,
    word: u64,
}

impl Verdict {
    /// "A row holds a cycle's marks, summed: 1 failure; 2 illegal start; 4 trigger, window opened, or start state seen;
    /// 8 window closed; 16 window reset." §8: "An unknown bit in a tested value […] sets the new mark 32".
    fn row(&self) -> u32 {
        let failed = !self.failed.is_empty();
        let has = [failed, self.illegal.is_some(), self.opened, self.closed, self.restarted, self.unknown];
        MARKS.iter().zip(has).filter(|(_, has)| *has).map(|(mark, _)| mark).sum()
    }
}

/// An accepted attempt of a cycle sequence: alive through start + lived − 1, and no further.
struct Attempt {
    start: usize,
    lived: usize,
}

/// A trace as one checker reads it, with the starts that were accepted.
struct History {
    config: Config,
    p: Vec<Sample>,
    q: Vec<Sample>,
    r: Vec<Sample>,
    /// How many cycles without a reset end with this one; 0 in a cycle with reset.
    running: Vec<usize>,
    attempts: Vec<Attempt>,
    /// Time: the cycles from which n pending cycles were counted.
    counted: Vec<usize>,
    enable: Vec<bool>,
    /// §4: the first cycle from this one on with enable 1 and all of P known; where there is none, the number of cycles.
    next_reference: Vec<usize>,
    /// §4: the accepted triggers.
    triggers: Vec<usize>,
}

/// What is on a port in one cycle: bit k of `unknown` is 1 where bit k of the value is unknown. §8: "Value bits under a 1 are
/// ignored."
#[derive(Clone, Copy)]
struct Sample {
    value: u32,
    unknown: u32,
}

impl Sample {
    fn bit(self, k: usize) -> Option<bool> {
        (self.unknown >> k & 1 == 0).then_some(self.value >> k & 1 == 1)
    }

    /// None where any bit is unknown.
    fn whole(self) -> Option<u32> {
        (self.unknown == 0).then_some(self.value)
    }
}

/// The samples of a port, cycle by cycle. Traces that leave a word repeat a frame up to 65,535 times: words like those before
/// them are not read again.
fn read_port(trace: &[u32], i: usize, range: Range) -> Vec<Sample> {
    let mut last = ((0, 0), Sample { value: 0, unknown: 0 });
    let mut read = |word: u32, unknown: u32| {
        if (word, unknown) != last.0 {
            last = ((word, unknown), Sample { value: range.value(word), unknown: range.value(unknown) });
        }
        last.1
    };
    trace.chunks_exact(FRAME_WORDS).map(|frame| read(frame[i], frame[i + TO_UNKNOWN])).collect()
}

/// Looked up rather than searched for in every cycle of a window, which could take as many looks as the window is long.
fn next_reference(enable: &[bool], p: &[Sample]) -> Vec<usize> {
    let mut next = vec![enable.len(); enable.len() + 1];
    for t in (0..enable.len()).rev() {
        next[t] = if enable[t] && p[t].whole().is_some() { t } else { next[t + 1] };
    }
    next
}

impl History {
    fn new(config: Config, trace: &[u32]) -> History {
        let enable: Vec<bool> = trace.chunks_exact(FRAME_WORDS).map(is_enabled).collect();
        let p = read_port(trace, 1, config.p);
        let mut history = History {
            config,
            next_reference: next_reference(&enable, &p),
            p,
            q: read_port(trace, 2, config.q),
            r: read_port(trace, 3, config.r),
            running: Vec::new(),
            attempts: Vec::new(),
            counted: Vec::new(),
            enable,
            triggers: Vec::new(),
        };
        for frame in trace.chunks_exact(FRAME_WORDS) {
            let before = history.running.last().copied().unwrap_or(0);
            history.running.push(if is_running(frame) { before + 1 } else { 0 });
        }
        for s in 0..history.p.len() {
            if history.running[s] > 0 {
                history.accept(s);
            }
        }
        history
    }

    fn accept(&mut self, s: usize) {
        if self.config.is_sequence() && self.accepts_attempt(s) {
            let attempt = Attempt { start: s, lived: self.lived(s) };
            self.attempts.push(attempt);
        } else if self.config.is_time() && self.counts_from(s) {
            self.counted.push(s);
        } else if self.config.is_after_trigger() && self.accepts_trigger(s) {
            self.triggers.push(s);
        }
    }

    /// "A cycle with reset_n 0 has row 0 and open word 0, and ends every check."
    fn no_reset(&self, s: usize, t: usize) -> bool {
        self.running[t] > t - s
    }

    fn verdict(&self, t: usize) -> Verdict {
        if self.running[t] == 0 {
            Verdict::default()
        } else if self.config.is_sequence() {
            self.sequence(t)
        } else if self.config.is_time() {
            self.time(t)
        } else if self.config.is_after_trigger() {
            self.after_trigger(t)
        } else {
            self.transition(t)
        }
    }

    /// "It is alive through s+j when event bit n−1−i was 1 at s+i for each i from 0 to j, with no reset between."
    /// The answer is how many such j there are. An unknown bit is not 1, whether it ends the attempt with a mark or without.
    fn lived(&self, s: usize) -> usize {
        let n = self.config.n as usize;
        let end = self.p.len().min(s + n);
        (s..end).take_while(|&t| self.running[t] > 0 && self.p[t].bit(n - 1 - (t - s)) == Some(true)).count()
    }

    /// "An attempt starts at s when event bit n−1 is 1." "Kinds 0 and 1 accept every start. Kind 2 ignores a start in any
    /// cycle where an accepted attempt alive through the cycle before is still being tested, also its last cycle and also
    /// the cycle where it fails"; and so where an unknown bit ends it. §8: "An unknown start […] bit […] is no start."
    fn accepts_attempt(&self, s: usize) -> bool {
        let n = self.config.n as usize;
        let tested = |attempt: &Attempt| s - attempt.start <= n - 1 && attempt.start + attempt.lived >= s;
        self.p[s].bit(n - 1) == Some(true) && !(self.config.kind == 2 && self.attempts.last().is_some_and(tested))
    }

    /// The accepted attempts that can matter in t: those that started in t−(n−1) to t.
    fn recent_attempts(&self, t: usize) -> &[Attempt] {
        let first = (t + 1).saturating_sub(self.config.n as usize);
        let from = self.attempts.partition_point(|attempt| attempt.start < first);
        let to = self.attempts.partition_point(|attempt| attempt.start <= t);
        &self.attempts[from..to]
    }

    /// "Kinds 1 and 2 fail at s+j, j from 1 to n−1, when the attempt was alive through s+j−1 and bit n−1−j is 0. Kind 0
    /// fails only for j = n−1. Mark 4: kinds 1 and 2 at an accepted start, kind 0 when an attempt is alive through s+n−2.
    /// Bit j of the open word after t, j from 0 to n−2, is 1 exactly when an accepted attempt from t−j is alive through t."
    /// §8: "An unknown bit in a tested value is neither pass nor failure: it sets the new mark 32, ends that sequence attempt";
    /// "For kind 0 an unknown bit before the last event reads as 0, without mark."
    fn sequence(&self, t: usize) -> Verdict {
        let n = self.config.n as usize;
        let mut verdict = Verdict::default();
        for attempt in self.recent_attempts(t) {
            let j = t - attempt.start;
            let alive = attempt.lived > j;
            let tested_here = if self.config.kind == 0 { j == n - 1 } else { j >= 1 };
            if tested_here && attempt.lived == j {
                match self.p[t].bit(n - 1 - j) {
                    Some(_) => verdict.failed.push(attempt.start),
                    None => verdict.unknown = true,
                }
            }
            if alive && j == if self.config.kind == 0 { n - 2 } else { 0 } {
                verdict.opened = true;
            }
            if alive && j <= n - 2 {
                verdict.word |= 1 << j;
            }
        }
        verdict
    }

    /// "With nothing pending, start 1 at s opens a check"; "kind 3 ignores it; kind 4 […] counts n cycles afresh from there;
    /// kind 5 […] carries on."
    fn counts_from(&self, s: usize) -> bool {
        self.starts(s) && (self.config.kind == 4 || self.pending(s).is_none())
    }

    /// §8: "An unknown start […] bit […] is no start": so it neither restarts a check, nor is it illegal.
    fn starts(&self, t: usize) -> bool {
        self.p[t].whole() == Some(1)
    }

    /// "It is pending in s+1 to s+n". The answer is the start from which the check pending in t counts.
    fn pending(&self, t: usize) -> Option<usize> {
        let before = self.counted.partition_point(|&s| s < t);
        let s = *self.counted[..before].last()?;
        (t - s <= self.config.n as usize && self.no_reset(s, t)).then_some(s)
    }

    fn time(&self, t: usize) -> Verdict {
        match self.pending(t) {
            Some(s) => self.pending_cycle(s, t),
            None => self.idle_cycle(t),
        }
    }

    /// "With nothing pending, start 1 at s opens a check (mark 4); test is not sampled at s."
    fn idle_cycle(&self, t: usize) -> Verdict {
        let opened = self.starts(t);
        Verdict { opened, word: if opened { u64::from(self.config.n) } else { 0 }, ..Verdict::default() }
    }

    /// "test 0 in such a cycle is a failure and does not end it. At s+n mark 8 is set, failed or not, and the check is over.
    /// Start 1 while pending: kind 3 ignores it; kind 4 sets mark 16 only, takes no test, and counts n cycles afresh from
    /// there; kind 5 sets mark 2, tests as usual and carries on. The open word is the number of pending cycles left."
    /// Document 02, §2, changes "mark 16 only" and nothing else of this: "By source document 001 a new check is initiated
    /// there, which is what window_open means. So a restart sets 16 and 4, row 20." That is without mark 8, also at s+n; and
    /// without 32: it takes no test. §8, of an unknown test: it "sets the new mark 32, […] and lets a time check […] carry on".
    fn pending_cycle(&self, s: usize, t: usize) -> Verdict {
        let n = self.config.n as usize;
        let (start, test) = (self.starts(t), self.q[t].whole());
        if start && self.config.kind == 4 {
            return Verdict { opened: true, restarted: true, word: n as u64, ..Verdict::default() };
        }
        Verdict {
            failed: if test == Some(0) { vec![s] } else { Vec::new() },
            illegal: (start && self.config.kind == 5).then_some(s),
            closed: t == s + n,
            unknown: test.is_none(),
            word: (s + n - t) as u64,
            ..Verdict::default()
        }
    }

    /// "When test equals start state, mark 4 is set and next state is stored." §8: an unknown bit "in a start comparison, is no
    /// start".
    fn start_seen(&self, s: usize) -> bool {
        let (test, start_state) = (self.p[s].whole(), self.q[s].whole());
        self.running[s] > 0 && test.is_some() && test == start_state
    }

    /// §8: "An unknown next state at a start sets 4 and 32 and stores nothing."
    fn stored(&self, s: usize) -> Option<u32> {
        self.r[s].whole().filter(|_| self.start_seen(s))
    }

    /// "At the next cycle, test different from the stored value is a failure; the same cycle may start again. […] The open word
    /// is 0, or 2^32 plus the stored value." §8, of an unknown bit in the test: "neither pass nor failure: it sets the new mark
    /// 32, ends that […] transition check".
    fn transition(&self, t: usize) -> Verdict {
        let due = t.checked_sub(1).and_then(|s| self.stored(s));
        let (test, opened, stored) = (self.p[t].whole(), self.start_seen(t), self.stored(t));
        let failed = due.is_some() && test.is_some() && test != due;
        Verdict {
            failed: if failed { vec![t - 1] } else { Vec::new() },
            opened,
            unknown: due.is_some() && test.is_none() || opened && stored.is_none(),
            word: stored.map_or(0, |value| STORED + u64::from(value)),
            ..Verdict::default()
        }
    }

    /// §4: "A cycle with enable 0 counts towards the delay, but nothing is tested and no trigger seen"; "after an accepted
    /// trigger at s every trigger in s+1 to s+max, the cycles before s+min included, is ignored." §8: "An unknown […] trigger
    /// bit […] is no start."
    fn accepts_trigger(&self, s: usize) -> bool {
        self.enable[s] && self.q[s].whole() == Some(1) && self.window(s).is_none()
    }

    /// The accepted trigger s with t in s to s+max. There is one at most: the next accepted trigger is above s+max, or
    /// behind a reset.
    fn window(&self, t: usize) -> Option<usize> {
        let so_far = self.triggers.partition_point(|&s| s <= t);
        let s = *self.triggers[..so_far].last()?;
        (t - s <= self.config.n as usize && self.no_reset(s, t)).then_some(s)
    }

    /// §4: "A failure does not end the window"; "Marks are 1, 4 at the trigger, 8 at s+max. The listed start is the trigger
    /// cycle." §8: an unknown bit in a tested value "sets the new mark 32, […] and lets […] a §4 window carry on; in a
    /// stability window it sets 32 also before there is a reference".
    fn after_trigger(&self, t: usize) -> Verdict {
        let Some(s) = self.window(t) else { return Verdict::default() };
        Verdict {
            failed: if self.is_violated(s, t) { vec![s] } else { Vec::new() },
            opened: t == s,
            closed: t == s + self.config.n as usize,
            unknown: self.is_tested(s, t) && self.p[t].whole().is_none(),
            word: self.window_word(s, t),
            ..Verdict::default()
        }
    }

    /// §4: "from min to max cycles after trigger", "Both limits are inclusive"; with enable 0 "nothing is tested".
    fn is_tested(&self, s: usize, t: usize) -> bool {
        self.enable[t] && t >= s + self.config.min as usize
    }

    /// §4: "Stability compares with the first enabled cycle from s+min on." In that cycle itself it compares equal.
    fn is_violated(&self, s: usize, t: usize) -> bool {
        let due = if self.config.kind == 7 { Some(self.config.value) } else { self.reference(s, t) };
        let tested = self.p[t].whole();
        self.is_tested(s, t) && tested.is_some() && tested != due
    }

    /// P of the first enabled cycle from s+min on, if there was one up to t. §8, of one where it is unknown: it "never becomes
    /// one".
    fn reference(&self, s: usize, t: usize) -> Option<u32> {
        let u = *self.next_reference.get(s + self.config.min as usize)?;
        if u <= t {
            self.p[u].whole()
        } else {
            None
        }
    }

    /// §4: "The open word is the cycles left to s+max; an open kind 8 window that holds a reference r adds 2^48 plus r times
    /// 2^16." At s+max it is open no more.
    fn window_word(&self, s: usize, t: usize) -> u64 {
        let left = (s + self.config.n as usize - t) as u64;
        let reference = if self.config.kind == 8 && left > 0 { self.reference(s, t) } else { None };
        reference.map_or(left, |r| with_reference(left, u64::from(r)))
    }

    /// The cycle in which a fatal checker stops: the first with mark 1 or 2 on the checker that goes on. §8: "Mark 32 is no
    /// failure for list, first failure or §7."
    fn stop(&self) -> Option<usize> {
        let fails = |t: &usize| self.verdict(*t).row() & 3 != 0;
        (0..self.p.len()).find(|t| self.config.is_fatal() && fails(t))
    }

    /// The rows and words from this cycle on. §7: "After a cycle with mark 1 or 2 on a fatal checker, the open word is 2^63 to
    /// the end of the trace, rows are 0, and a reset does not revive it"; "The failing cycle itself has all its marks." The
    /// word of a cycle is the one after it, so that of the failing cycle is 2^63 too.
    fn record_from(&self, first: usize) -> Record {
        let stop = self.stop().unwrap_or(self.p.len());
        let mut record = Record { rows: Vec::new(), words: Vec::new() };
        for t in first..self.p.len() {
            let verdict = self.verdict(t);
            record.rows.push(if t <= stop { verdict.row() } else { 0 });
            record.words.push(if t < stop { verdict.word } else { STOPPED });
        }
        record
    }
}

/// Rows and open words: "entry t is after cycle t".
#[derive(Clone, Debug, PartialEq)]
pub struct Record {
    pub rows: Vec<u32>,
    pub words: Vec<u64>,
}

/// "A trace's true record under a configuration is the rows and words that the rules above give"
pub fn true_record(config: Config, trace: &[u32]) -> Record {
    History::new(config, trace).record_from(0)
}

/// A possible word other than 2^63, and a frame that fails from it, for a checker that can fail.
fn failing_step(config: Config) -> (u64, Frame) {
    let (min, max) = (u64::from(config.min), u64::from(config.n));
    match config.kind {
        // An attempt alive through s+n−2, and no event: that is a failure for kind 0 too.
        0..=2 => (1 << (config.n - 2), known([1, 0, 0, 0])),
        // Test 0 in the cycle after the start.
        3..=5 => (max, known([1, 0, 0, 0])),
        // In s+min, which is the trigger cycle itself for min 0. Later a trigger is ignored.
        7 => {
            let before = if min == 0 { 0 } else { max - min + 1 };
            (before, known([3, config.p.wires(config.value ^ 1), 1 << config.q.wire(0), 0]))
        }
        // In s+min+1, with the reference 0 of s+min.
        8 => (with_reference(max - min, 0), known([3, config.p.wires(1), 0, 0])),
        // The stored value is 0.
        _ => (STORED, known([1, config.p.wires(1), 0, 0])),
    }
}

/// Some trace that leaves a possible word. No cycle of it has a failure or an illegal start, but for the last one of the
/// trace that leaves 2^63: so it leaves the word whatever the severity is.
fn trace_that_leaves(config: Config, word: u64) -> Vec<u32> {
    let mut trace = Vec::new();
    if word == STOPPED {
        let (before, frame) = failing_step(config);
        trace = trace_that_leaves(config, before);
        trace.extend(frame);
    } else if config.is_sequence() {
        // Bit j of the word is an attempt from t−j, with t = n−2 the last cycle: its wires are set and no others, so that
        // no second attempt starts.
        let n = config.n as usize;
        trace = known([1, 0, 0, 0]).repeat(n - 1);
        for j in (0..n - 1).filter(|j| word >> j & 1 == 1) {
            for i in 0..=j {
                trace[FRAME_WORDS * (n - 2 - j + i) + 1] |= 1 << config.p.wire((n - 1 - i) as u32);
            }
        }
    } else if config.is_time() && word > 0 {
        // One start, then as many quiet cycles as leave this many pending ones.
        trace = known([1, 1 << config.p.wire(0), 0, 0]).to_vec();
        trace.extend(known([1, 0, 1 << config.q.wire(0), 0]).repeat(config.n as usize - word as usize));
    } else if config.kind == 6 && word > 0 {
        // Test and start state are 0, so they are equal.
        trace = known([1, 0, 0, config.r.wires((word - STORED) as u32)]).to_vec();
    } else if config.is_after_trigger() && word > 0 {
        trace = window_that_leaves(config, word);
    }
    trace
}

/// A trigger, then as many cycles as leave this many in the window. With a reference, P has its value and enable is 1 from
/// the trigger on; without one, enable is 0 after the trigger, and for kind 8 P is unknown in it, so that none is taken. For kind
/// 7, P has the expected value: with min 0 the trigger cycle is tested.
fn window_that_leaves(config: Config, word: u64) -> Vec<u32> {
    let reference = reference_in(word);
    let left = if reference.is_some() { cycles_left_in(word) } else { word };
    let p = config.p.wires(reference.map_or(config.value, |r| r as u32));
    let mut trace = known([3, p, 1 << config.q.wire(0), 0]).to_vec();
    if config.kind == 8 && reference.is_none() {
        trace[1 + TO_UNKNOWN] = config.p.wires(1);
    }
    let after = if reference.is_some() { 3 } else { 1 };
    trace.extend(known([after, p, 0, 0]).repeat(config.n as usize - left as usize));
    trace
}

/// The rows and words of these frames from a word on: "Some trace leaves each such word; a step from it answers as the rules
/// do after that trace." So do the steps that follow.
fn record_after(config: Config, word: u64, frames: &[u32]) -> Record {
    let mut trace = trace_that_leaves(config, word);
    let first = trace.len() / FRAME_WORDS;
    trace.extend(frames);
    History::new(config, &trace).record_from(first)
}

pub fn one_step(config: Config, word: u64, frame: Frame) -> (u32, u64) {
    let record = record_after(config, word, &frame);
    (record.rows[0], record.words[0])
}

/// Refusals 1 to 3, then 7: "the word to go on from is not possible".
fn step_refusal(config: Config, word: u64) -> u32 {
    match config.refusal() {
        0 if !config.possible(word) => 7,
        refusal => refusal,
    }
}

/// "one step is also offered on numbers and a lent 8-byte word, least significant byte first; it writes the next word there
/// and answers 256 times the refusal number plus the row."
pub fn step(config: Config, frame: Frame, bytes: &mut [u8]) -> u32 {
    let refusal = config.refusal();
    if refusal != 0 {
        return 256 * refusal;
    }
    let Ok(lent) = <[u8; 8]>::try_from(&*bytes) else { return 256 * 5 };
    let word = u64::from_le_bytes(lent);
    if !config.possible(word) {
        return 256 * 7;
    }
    let (row, next) = one_step(config, word, frame);
    bytes.copy_from_slice(&next.to_le_bytes());
    row
}

/// Refusal 4: "trace not a multiple of 4 words, or N above 65,536"; §8: "A trace is then 8N words (refusal 4: a multiple of 8)".
fn trace_refusal(config: Config, trace: &[u32]) -> u32 {
    match config.refusal() {
        0 if trace.len() % FRAME_WORDS != 0 || trace.len() / FRAME_WORDS > MOST_CYCLES => 4,
        refusal => refusal,
    }
}

/// "Full check: fills N rows of 32 bits and N open words of 64 bits"
pub fn check(config: Config, trace: &[u32], rows: &mut [u32], words: &mut [u64]) -> u32 {
    let refusal = trace_refusal(config, trace);
    if refusal != 0 {
        return refusal;
    }
    if rows.len() != trace.len() / FRAME_WORDS || words.len() != trace.len() / FRAME_WORDS {
        return 5;
    }
    let record = true_record(config, trace);
    rows.copy_from_slice(&record.rows);
    words.copy_from_slice(&record.words);
    0
}

/// "before cycle 0 both are 0"
pub fn word_before(words: &[u64], t: usize) -> u64 {
    if t == 0 {
        0
    } else {
        words[t - 1]
    }
}

/// What a recheck answers besides its buffers. §6: "name the lowest such cycle. Otherwise that number is 0."
#[derive(Clone, Copy, Debug, PartialEq, Eq)]
pub struct Refusal {
    pub number: u32,
    /// The cycle that refusal 7 names.
    pub cycle: u32,
}

/// "0 is done."
pub const DONE: Refusal = Refusal { number: 0, cycle: 0 };

/// What a recheck is handed.
pub struct Edit<'a> {
    pub config: Config,
    pub trace: &'a [u32],
    pub a: u64,
    pub b: u64,
}

impl Edit<'_> {
    /// Refusals 1 to 6 "by number": 5 "another lent slice has not the length that is due", 6 "a above b, or b above N".
    fn refusal_before_words(&self, rows: &[u32], words: &[u64], answer: &[i32]) -> u32 {
        let cycles = self.trace.len() / FRAME_WORDS;
        let refusal = trace_refusal(self.config, self.trace);
        if refusal != 0 {
            refusal
        } else if rows.len() != cycles || words.len() != cycles || answer.len() != ANSWERS {
            5
        } else if self.a > self.b || self.b > cycles as u64 {
            6
        } else {
            0
        }
    }

    /// §6: "Recheck is to give refusal 7 when any kept word, not only word a−1, is impossible for the configuration, and
    /// name the lowest such cycle. Otherwise that number is 0. Order of tests stays." So no word is looked at before the
    /// others are passed, of which the first makes certain that the configuration says what is possible.
    pub fn refusal(&self, rows: &[u32], words: &[u64], answer: &[i32]) -> Refusal {
        let number = self.refusal_before_words(rows, words, answer);
        if number != 0 {
            return Refusal { number, cycle: 0 };
        }
        match words.iter().position(|word| !self.config.possible(*word)) {
            Some(cycle) => Refusal { number: 7, cycle: cycle as u32 },
            None => DONE,
        }
    }

    /// The recheck of a true record: everything is checked again.
    pub fn recheck_true(&self, rows: &mut [u32], words: &mut [u64], answer: &mut [i32]) -> Refusal {
        let refusal = self.refusal(rows, words, answer);
        if refusal == DONE {
            self.recheck_to(&true_record(self.config, self.trace), rows, words, answer);
        }
        refusal
    }

    /// The same with the true record of the trace, for those that have it, and a recheck that is not refused. "It ends at e, the
    /// least cycle from b to N such that e is N or its word before e equals the kept one"; the changes are those "over all N
    /// rows".
    pub fn recheck_to(&self, new: &Record, rows: &mut [u32], words: &mut [u64], answer: &mut [i32]) {
        let last = rows.len();
        let same = |e: &usize| *e == last || word_before(&new.words, *e) == word_before(words, *e);
        let e = (self.b as usize..=last).find(same).unwrap_or(last);
        write_answer(e, rows, &new.rows, answer);
        rows.copy_from_slice(&new.rows);
        words.copy_from_slice(&new.words);
    }

    /// The recheck of any record: "goes on from kept word a−1 (0 when a is 0), one step for each cycle of the lent trace from
    /// a on. It ends at e, the least cycle from b to N such that e is N or its word before e equals the kept one […]. It
    /// writes a to e−1 only. It answers e and five signed changes, one per mark: new count less old count over a to e−1". By §8
    /// there are six.
    pub fn recheck_any(&self, rows: &mut [u32], words: &mut [u64], answer: &mut [i32]) -> Refusal {
        let refusal = self.refusal(rows, words, answer);
        if refusal != DONE {
            return refusal;
        }
        let (a, b, last) = (self.a as usize, self.b as usize, rows.len());
        let new = record_after(self.config, word_before(words, a), &self.trace[FRAME_WORDS * a..]);
        // Before a no step is taken: the word is the kept one.
        let same = |e: &usize| *e == a || *e == last || new.words[e - 1 - a] == words[e - 1];
        let e = (b..=last).find(same).unwrap_or(last);
        write_answer(e, &rows[a..e], &new.rows[..e - a], answer);
        rows[a..e].copy_from_slice(&new.rows[..e - a]);
        words[a..e].copy_from_slice(&new.words[..e - a]);
        DONE
    }

    /// The same by single steps, each from a trace of its own that leaves the word before it. Such a trace can be as long as
    /// a window, so this is for records and windows that are not long.
    pub fn recheck_by_steps(&self, rows: &mut [u32], words: &mut [u64], answer: &mut [i32]) -> Refusal {
        let refusal = self.refusal(rows, words, answer);
        if refusal != DONE {
            return refusal;
        }
        let (a, b, last) = (self.a as usize, self.b as usize, rows.len());
        let mut new = Record { rows: Vec::new(), words: Vec::new() };
        let (mut e, mut word) = (a, word_before(words, a));
        while e < b || (e != last && word != word_before(words, e)) {
            let (row, next) = one_step(self.config, word, frame_at(self.trace, e));
            new.rows.push(row);
            new.words.push(next);
            word = next;
            e += 1;
        }
        write_answer(e, &rows[a..e], &new.rows, answer);
        rows[a..e].copy_from_slice(&new.rows);
        words[a..e].copy_from_slice(&new.words);
        DONE
    }

    /// "For true kept records, e ≤ b+n−1 for kinds 0 and 1, e ≤ b+n for kind 4, e ≤ b+1 for kind 6. Kinds 2, 3 and 5 have no
    /// such limit." §4, of kinds 7 and 8: "no limit on e is claimed." §7, of fatal checkers: "the limits on e are withdrawn".
    pub fn latest_end(&self) -> Option<u64> {
        let n = u64::from(self.config.n);
        match self.config.kind {
            _ if self.config.is_fatal() => None,
            0 | 1 => Some(self.b + n - 1),
            4 => Some(self.b + n),
            6 => Some(self.b + 1),
            _ => None,
        }
    }
}

fn write_answer(e: usize, old: &[u32], new: &[u32], answer: &mut [i32]) {
    answer[0] = e as i32;
    for (i, mark) in MARKS.iter().enumerate() {
        answer[i + 1] = count(new, *mark) as i32 - count(old, *mark) as i32;
    }
}

/// What an edit that is taken back is lent: the trace before it, the record, and the new samples.
#[derive(Clone)]
pub struct Lending {
    pub trace: Vec<u32>,
    pub rows: Vec<u32>,
    pub words: Vec<u64>,
    pub samples: Vec<u32>,
}

impl Lending {
    /// The header: "5 where rows_len or words_len is not N, or samples_len is not 8 (b-a) (not 0, where a is above b)". All
    /// other refusals are those of a recheck, and 5 comes before 6 and 7.
    fn refusal(&self, config: Config, a: u64, b: u64) -> Refusal {
        let edit = Edit { config, trace: &self.trace, a, b };
        let refusal = edit.refusal(&self.rows, &self.words, &[0; ANSWERS]);
        if matches!(refusal.number, 0 | 6 | 7) && self.samples.len() as u128 != samples_due(a, b) {
            return Refusal { number: 5, cycle: 0 };
        }
        refusal
    }

    /// "the samples, b-a frames of eight words, change places with those of cycles a to b-1 of the trace"
    fn change_places(&mut self, a: u64, b: u64) {
        let [first, end] = [a, b].map(|cycle| FRAME_WORDS * cycle as usize);
        self.trace[first..end].swap_with_slice(&mut self.samples);
    }

    fn recheck(&mut self, config: Config, a: u64, b: u64) -> (Refusal, [i32; ANSWERS]) {
        let (edit, mut answer) = (Edit { config, trace: &self.trace, a, b }, [0; ANSWERS]);
        let refusal = edit.recheck_any(&mut self.rows, &mut self.words, &mut answer);
        (refusal, answer)
    }

    /// "Four things are done in this order": the samples change places, rows and words are rechecked, the samples change places
    /// again, rows and words are rechecked again. The answers are those of the two rechecks; refused, they are the same, and
    /// "every other number is 0, but with 7 the cycle".
    pub fn take_back(&mut self, config: Config, a: u64, b: u64) -> [(Refusal, [i32; ANSWERS]); 2] {
        let refusal = self.refusal(config, a, b);
        if refusal != DONE {
            return [(refusal, [0; ANSWERS]); 2];
        }
        self.change_places(a, b);
        let edit = self.recheck(config, a, b);
        self.change_places(a, b);
        [edit, self.recheck(config, a, b)]
    }
}

/// How many words the samples of cycles a to b−1 are: more than 64 bits can say, for some a and b.
pub fn samples_due(a: u64, b: u64) -> u128 {
    FRAME_WORDS as u128 * u128::from(b.saturating_sub(a))
}

/// "A mark's count is the number of the record's rows with its bit set."
pub fn count(rows: &[u32], mark: u32) -> u32 {
    rows.iter().filter(|row| *row & mark != 0).count() as u32
}

/// "Totals: for each of the five marks, the rows with that bit set, over up to 65,536 rows (more is refusal 5); other bits are
/// ignored" By §8 there are six marks.
pub fn totals(rows: &[u32], counts: &mut [u32]) -> u32 {
    if counts.len() != MARKS.len() || rows.len() > MOST_CYCLES {
        return 5;
    }
    counts.copy_from_slice(&MARKS.map(|mark| count(rows, mark)));
    0
}

/// "three 32-bit words each (cycle, mark 1 or 2, start cycle), ordered by cycle, mark, start"; "A time check's start is where it
/// was opened or last window reset, a transition's the cycle before." §4: "The listed start is the trigger cycle." §7: "For fatal
/// checkers demand 2 speaks of starts and checks through the first cycle with mark 1 or 2", so no later cycle has an entry.
pub fn entries(config: Config, trace: &[u32]) -> Vec<[u32; 3]> {
    let history = History::new(config, trace);
    let end = history.stop().map_or(trace.len() / FRAME_WORDS, |stop| stop + 1);
    let mut entries = Vec::new();
    for t in 0..end {
        let verdict = history.verdict(t);
        entries.extend(verdict.failed.iter().map(|&s| [t as u32, 1, s as u32]));
        entries.extend(verdict.illegal.map(|s| [t as u32, 2, s as u32]));
    }
    entries.sort();
    entries
}

/// "it answers how many. […] Later entries of the lent slice stay unaltered." Refusal 8: "three words for each entry (failure
/// or illegal start) exceed the list's slice".
pub fn failures(config: Config, trace: &[u32], list: &mut [u32]) -> u64 {
    let refusal = trace_refusal(config, trace);
    if refusal != 0 {
        return u64::from(refusal) << 32;
    }
    let entries = entries(config, trace);
    if 3 * entries.len() > list.len() {
        return 8 << 32;
    }
    for (place, word) in list.iter_mut().zip(entries.concat()) {
        *place = word;
    }
    entries.len() as u64
}

/// "Open count of a possible word: the number of its ones for kinds 0 to 2, otherwise 1 when a check is unfinished, else 0."
/// §7, of 2^63: "its open count is 0".
pub fn open_count(config: Config, word: u64) -> u32 {
    let refusal = step_refusal(config, word);
    if refusal != 0 {
        256 * refusal
    } else if word == STOPPED {
        0
    } else if config.is_sequence() {
        (0..64).filter(|j| word >> j & 1 == 1).count() as u32
    } else {
        u32::from(word != 0)
    }
}

/// "K and N as numbers, and K lots of N rows, checker by checker. The smallest cycle with mark 1 or 2, then the smallest
/// checker; "none" exactly if no row has either mark." The header gives the number that says so.
pub fn first_failure(checkers: u64, cycles: u64, rows: &[u32]) -> u64 {
    if checkers > MOST_CHECKERS as u64 {
        return 9 << 32;
    }
    if cycles > MOST_CYCLES as u64 {
        return 4 << 32;
    }
    if rows.len() as u64 != checkers * cycles {
        return 5 << 32;
    }
    let first_of = |(checker, lot): (usize, &[u32])| Some((lot.iter().position(|row| row & 3 != 0)?, checker));
    let first = rows.chunks(cycles.max(1) as usize).enumerate().filter_map(first_of).min();
    first.map_or(0, |(cycle, checker)| (1 << 31) + ((checker as u64) << 16) + cycle as u64)
}

/// "Every word and row becomes what that checker's one step gives." "A bench tests 9 and 5, then checkers in order, and names
/// the first bad one (0 for 9 and 5)." §8: "a bench's 8K".
pub fn bench(table: &[Config], frames: &[u32], words: &mut [u64], rows: &mut [u32]) -> u32 {
    if table.len() > MOST_CHECKERS {
        return 256 * 9;
    }
    if frames.len() != FRAME_WORDS * table.len() || words.len() != table.len() || rows.len() != table.len() {
        return 256 * 5;
    }
    for (k, config) in table.iter().enumerate() {
        let refusal = step_refusal(*config, words[k]);
        if refusal != 0 {
            return 256 * refusal + k as u32;
        }
    }
    for (k, config) in table.iter().enumerate() {
        (rows[k], words[k]) = one_step(*config, words[k], frame_at(frames, k));
    }
    0
}
