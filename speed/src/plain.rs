//! The full check and the bench step in ordinary Rust, to hold the proved library's times against.
//!
//! The same on both sides: what a call is handed and what it answers; the refusals, tested before anything is written; the
//! stepping, where an open word carries all that is unfinished from one cycle to the next, and every cycle is one step from
//! that word and the cycle's frame alone; the instruction set that both are compiled for (see `speed/run`).
//!
//! On both sides a full check looks at the kind once and then runs a loop of its own, and a step of kinds 3 to 5, 7 and 8
//! leaves early where nothing is open. What differs, as it would in ordinary Rust: `Checker` and `fill` are generic, so
//! there is a loop for each kind and not for each family; shifts and masks of the ports are worked out before the loop; a
//! bus that is read against the order of its wires is turned round by `u32::reverse_bits`, and for kind 7 it is the
//! expected value that is, once before the loop; the slices are walked by iterators. There is no proof, and no `unsafe`:
//! the compiler's tests of indices stay where it cannot see that they are not needed.
//!
//! A fatal checker has loops of its own, so that those of one that goes on look at no severity.
//!
//! Most frames have no unknown bit. Kinds 0 to 2 and 6 ask for one first, and the step that says what it does stands beside
//! the loop: in it, it would cost each cycle more than the question. The other kinds read one bit more, or ask where they
//! test: for them a step aside costs more, where bits are unknown, than it saves where none is.
#![forbid(unsafe_code)]

use std::hint::select_unpredictable;

pub const MOST_PIPE: u8 = 0;
const FIRST_PIPE: u8 = 1;
const FIRST_NO_PIPE: u8 = 2;
const IGNORE_NEW_START: u8 = 3;
const RESET_ON_NEW_START: u8 = 4;
const ERROR_ON_NEW_START: u8 = 5;
pub const TRANSITION: u8 = 6;
const VALUE: u8 = 7;
pub const STABILITY: u8 = 8;

pub const FAILURE: u32 = 1;
pub const ILLEGAL: u32 = 2;
pub const OPENED: u32 = 4;
const CLOSED: u32 = 8;
const RESTARTED: u32 = 16;
/// What was to be tested is unknown.
const UNTESTED: u32 = 32;

const MOST_CYCLES: usize = 65_536;
const MOST_CHECKERS: usize = 64;
const LONGEST_WINDOW: u32 = 65_535;

/// A transition's open word is 0, or this plus the stored next state.
pub const STORED: u64 = 1 << 32;

/// A stability window that has its reference adds this to the open word, and the reference from bit `REFERENCE` up.
pub const HELD: u64 = 1 << 48;
const REFERENCE: u32 = 16;

pub const GOES_ON: u8 = 0;
pub const FATAL: u8 = 1;

/// The open word of a fatal checker from its first failure on.
pub const STOPPED: u64 = 1 << 63;

/// The wire of enable in the reset word; wire 0 is reset_n.
pub const ENABLE: u32 = 1;

/// Eight words of 32 wires: the values of reset, P, Q and R, then the unknown bits of each, in the same order.
pub type Frame = [u32; FRAME];
pub const FRAME: usize = 8;

const RESET: usize = 0;
const P: usize = 1;
const Q: usize = 2;
const R: usize = 3;

/// A word of a frame without what stands under its unknown bits: so an unknown reset_n, enable, start, trigger or event is
/// read as 0.
fn known(frame: &Frame, word: usize) -> u32 {
    frame[word] & !unknown(frame, word)
}

/// The unknown wires of a word.
fn unknown(frame: &Frame, word: usize) -> u32 {
    frame[word + FRAME / 2]
}

/// A port's declaration [left:right]. The C host's layout, as `Config` has: one table serves both sides.
#[repr(C)]
#[derive(Clone, Copy, Debug)]
pub struct Range {
    pub left: u8,
    pub right: u8,
}

#[repr(C)]
#[derive(Clone, Copy, Debug)]
pub struct Config {
    pub kind: u8,
    pub n: u32,
    pub p: Range,
    pub q: Range,
    pub r: Range,
    /// Kinds 7 and 8: the value is tested from so many cycles after the trigger on.
    pub min: u32,
    /// Kind 7: the value that is expected.
    pub value: u32,
    pub severity: u8,
}

/// Fills the row and the open word of every cycle. An error is the refusal number, 1 to 5.
// The library cannot be inlined into the benchmark, nor made for the one configuration that is timed: so this is not either.
#[inline(never)]
pub fn full_check(config: &Config, trace: &[u32], rows: &mut [u32], words: &mut [u64]) -> Result<(), u32> {
    test_config(config)?;
    let (frames, rest) = trace.as_chunks::<FRAME>();
    if !rest.is_empty() || frames.len() > MOST_CYCLES {
        return Err(4);
    }
    if rows.len() != frames.len() || words.len() != frames.len() {
        return Err(5);
    }
    let ascends = config.p.ascends();
    match config.kind {
        MOST_PIPE if ascends => fill(Sequence::<MOST_PIPE, true>::new(config), config, frames, rows, words),
        MOST_PIPE => fill(Sequence::<MOST_PIPE, false>::new(config), config, frames, rows, words),
        FIRST_PIPE if ascends => fill(Sequence::<FIRST_PIPE, true>::new(config), config, frames, rows, words),
        FIRST_PIPE => fill(Sequence::<FIRST_PIPE, false>::new(config), config, frames, rows, words),
        FIRST_NO_PIPE if ascends => fill(Sequence::<FIRST_NO_PIPE, true>::new(config), config, frames, rows, words),
        FIRST_NO_PIPE => fill(Sequence::<FIRST_NO_PIPE, false>::new(config), config, frames, rows, words),
        IGNORE_NEW_START => fill(Time::<IGNORE_NEW_START>::new(config), config, frames, rows, words),
        RESET_ON_NEW_START => fill(Time::<RESET_ON_NEW_START>::new(config), config, frames, rows, words),
        ERROR_ON_NEW_START => fill(Time::<ERROR_ON_NEW_START>::new(config), config, frames, rows, words),
        TRANSITION if config.all_descend() => fill(Transition::<false>::new(config), config, frames, rows, words),
        TRANSITION => fill(Transition::<true>::new(config), config, frames, rows, words),
        VALUE => fill(Value::new(config), config, frames, rows, words),
        _ if ascends => fill(Stability::<true>::new(config), config, frames, rows, words),
        _ => fill(Stability::<false>::new(config), config, frames, rows, words),
    }
    Ok(())
}

/// The loop of a checker that goes on; a fatal one has its own.
fn fill(checker: impl Checker, config: &Config, frames: &[Frame], rows: &mut [u32], words: &mut [u64]) {
    if config.severity == FATAL {
        return fill_fatal(checker, frames, rows, words);
    }
    let mut word = 0;
    for ((frame, row), kept) in frames.iter().zip(rows).zip(words) {
        (*row, word) = step(&checker, word, frame);
        *kept = word;
    }
}

/// A fatal checker is stepped through its first failure; what comes after it depends on no frame.
fn fill_fatal(checker: impl Checker, frames: &[Frame], rows: &mut [u32], words: &mut [u64]) {
    if let Some(t) = fill_to_failure(&checker, frames, rows, words) {
        rows[t + 1..].fill(0);
        words[t..].fill(STOPPED);
    }
}

/// Fills through the first failure, and answers its cycle.
// Never inlined: two loops in one function have worse registers.
#[inline(never)]
fn fill_to_failure(checker: &impl Checker, frames: &[Frame], rows: &mut [u32], words: &mut [u64]) -> Option<usize> {
    let mut word = 0;
    frames.iter().zip(rows).zip(words).position(|((frame, row), kept)| {
        (*row, word) = step(checker, word, frame);
        *kept = word;
        fails(*row)
    })
}

/// Steps every checker of the table on its own frame, word and row. An error is 256 times the refusal plus the bad checker.
#[inline(never)]
pub fn bench_step(table: &[Config], frames: &[u32], words: &mut [u64], rows: &mut [u32]) -> Result<(), u32> {
    let checkers = table.len();
    if checkers > MOST_CHECKERS {
        return Err(256 * 9);
    }
    if frames.len() != FRAME * checkers || words.len() != checkers || rows.len() != checkers {
        return Err(256 * 5);
    }
    // All are tested before the first is stepped: a refusal writes nothing.
    for (k, (config, word)) in table.iter().zip(words.iter()).enumerate() {
        test_step(config, *word).map_err(|refusal| 256 * refusal + k as u32)?;
    }
    let (frames, _) = frames.as_chunks::<FRAME>();
    for (((config, frame), word), row) in table.iter().zip(frames).zip(words).zip(rows) {
        (*row, *word) =
            if config.severity == FATAL { fatal_step(config, *word, frame) } else { step_of_kind(config, *word, frame) };
    }
    Ok(())
}

/// One step of a fatal checker that was tested. Once stopped it looks at no frame.
fn fatal_step(config: &Config, word: u64, frame: &Frame) -> (u32, u64) {
    if word == STOPPED {
        return (0, STOPPED);
    }
    let (row, next) = step_of_kind(config, word, frame);
    (row, if fails(row) { STOPPED } else { next })
}

/// One step of a checker that was tested. A table's kinds are mixed, so here the kind is looked at in each step.
// It has two callers, and is too large to be inlined in both unasked: each step would pay a call.
#[inline(always)]
fn step_of_kind(config: &Config, word: u64, frame: &Frame) -> (u32, u64) {
    let ascends = config.p.ascends();
    match config.kind {
        MOST_PIPE if ascends => step(&Sequence::<MOST_PIPE, true>::new(config), word, frame),
        MOST_PIPE => step(&Sequence::<MOST_PIPE, false>::new(config), word, frame),
        FIRST_PIPE if ascends => step(&Sequence::<FIRST_PIPE, true>::new(config), word, frame),
        FIRST_PIPE => step(&Sequence::<FIRST_PIPE, false>::new(config), word, frame),
        FIRST_NO_PIPE if ascends => step(&Sequence::<FIRST_NO_PIPE, true>::new(config), word, frame),
        FIRST_NO_PIPE => step(&Sequence::<FIRST_NO_PIPE, false>::new(config), word, frame),
        IGNORE_NEW_START => step(&Time::<IGNORE_NEW_START>::new(config), word, frame),
        RESET_ON_NEW_START => step(&Time::<RESET_ON_NEW_START>::new(config), word, frame),
        ERROR_ON_NEW_START => step(&Time::<ERROR_ON_NEW_START>::new(config), word, frame),
        TRANSITION => step(&Transition::<true>::new(config), word, frame),
        VALUE => step(&Value::new(config), word, frame),
        _ if ascends => step(&Stability::<true>::new(config), word, frame),
        _ => step(&Stability::<false>::new(config), word, frame),
    }
}

/// One step: the cycle's row and the next open word. Reset ends every check.
fn step(checker: &impl Checker, word: u64, frame: &Frame) -> (u32, u64) {
    if known(frame, RESET) & 1 == 0 {
        return (0, 0);
    }
    checker.step(word, frame)
}

/// A configured checker, and its step for a cycle out of reset.
// All steps are inlined by request: each has several callers and some are large, and a loop with a call in it takes longer.
trait Checker {
    fn step(&self, word: u64, frame: &Frame) -> (u32, u64);
}

/// Kinds 0 to 2. Bit j of the open word is the attempt that started j cycles ago. There is a loop for each direction.
struct Sequence<const KIND: u8, const ASCENDING: bool> {
    /// The events in the order in which an attempt meets them: bit i is the event needed i cycles after the start.
    events: Port,
    last: u32,
}

impl<const KIND: u8, const ASCENDING: bool> Sequence<KIND, ASCENDING> {
    fn new(config: &Config) -> Self {
        let turned = Range { left: config.p.right, right: config.p.left };
        Self { events: Port::new(turned), last: config.n - 1 }
    }

    fn read(&self, wires: u32) -> u64 {
        // An attempt meets its events from the left on, so it is the descending port that is turned round.
        self.events.descending(if ASCENDING { wires } else { wires.reverse_bits() }).into()
    }

    /// The step on a frame with unknown wires.
    // Never inlined, so that it takes no registers from the loop.
    #[inline(never)]
    fn unknown_step(&self, word: u64, frame: &Frame) -> (u32, u64) {
        self.step_on(word, self.read(known(frame, P)), self.read(unknown(frame, P)))
    }

    /// The step where these events are there, and these others are unknown.
    #[inline(always)]
    fn step_on(&self, word: u64, events: u64, unknown: u64) -> (u32, u64) {
        let accepts = KIND != FIRST_NO_PIPE || word == 0;
        let start = events & u64::from(accepts);
        let older = word << 1;
        let next = (older | start) & events & ((1 << self.last) - 1);
        // An attempt of kind 0 that ends before its last event leaves no mark.
        let (ended, opened) = match KIND {
            MOST_PIPE => (older & !events & 1 << self.last, next >> (self.last - 1) & 1 != 0),
            _ => (older & !events, start != 0),
        };
        let result = mark(ended & !unknown != 0, FAILURE) | mark(ended & unknown != 0, UNTESTED);
        (result | mark(opened, OPENED), next)
    }
}

impl<const KIND: u8, const ASCENDING: bool> Checker for Sequence<KIND, ASCENDING> {
    #[inline(always)]
    fn step(&self, word: u64, frame: &Frame) -> (u32, u64) {
        if unknown(frame, P) == 0 {
            self.step_on(word, self.read(frame[P]), 0)
        } else {
            self.unknown_step(word, frame)
        }
    }
}

/// Kinds 3 to 5. The open word is the number of pending cycles left.
struct Time<const KIND: u8> {
    start: u32,
    test: u32,
    n: u64,
}

impl<const KIND: u8> Time<KIND> {
    fn new(config: &Config) -> Self {
        // Ports of one wire: either end is that wire.
        Self { start: config.p.left.into(), test: config.q.left.into(), n: config.n.into() }
    }
}

impl<const KIND: u8> Checker for Time<KIND> {
    #[inline(always)]
    fn step(&self, word: u64, frame: &Frame) -> (u32, u64) {
        let start = known(frame, P) >> self.start & 1 != 0;
        if word == 0 {
            return if start { (OPENED, self.n) } else { (0, 0) };
        }
        if KIND == RESET_ON_NEW_START && start {
            return (OPENED | RESTARTED, self.n);
        }
        let illegal = KIND == ERROR_ON_NEW_START && start;
        let untested = unknown(frame, Q) >> self.test & 1 != 0;
        // Or it is unknown: in either case no failure.
        let passed = (frame[Q] | unknown(frame, Q)) >> self.test & 1 != 0;
        let result = mark(!passed, FAILURE) | mark(untested, UNTESTED);
        (result | mark(illegal, ILLEGAL) | mark(word == 1, CLOSED), word - 1)
    }
}

/// Kind 6. The open word is 0, or `STORED` plus the next state that was stored.
/// Most buses are declared descending: where all three are, the loop `Transition<false>` looks at no direction.
struct Transition<const TURNS: bool> {
    test: Port,
    start_state: Port,
    next_state: Port,
    /// The wires of each.
    wires: [u32; 3],
}

impl<const TURNS: bool> Transition<TURNS> {
    fn new(config: &Config) -> Self {
        let ports = [config.p, config.q, config.r];
        let [test, start_state, next_state] = ports.map(Port::new);
        Self { test, start_state, next_state, wires: ports.map(Range::wires) }
    }

    fn read(port: &Port, wires: u32) -> u32 {
        if TURNS {
            port.value(wires)
        } else {
            port.descending(wires)
        }
    }

    /// The step on a frame with unknown wires, of whatever word.
    #[inline(never)]
    fn unknown_step(&self, word: u64, frame: &Frame) -> (u32, u64) {
        let [p, q, r] = self.wires;
        let unknown = [unknown(frame, P) & p, unknown(frame, Q) & q, unknown(frame, R) & r];
        self.step_on(word, frame, unknown.map(|wires| wires != 0))
    }

    /// The step where each of test, start state and next state has unknown wires or has none.
    #[inline(always)]
    fn step_on(&self, word: u64, frame: &Frame, [p_unknown, q_unknown, r_unknown]: [bool; 3]) -> (u32, u64) {
        let checks = word != 0;
        let test = Self::read(&self.test, frame[P]);
        let failure = checks & !p_unknown & (test != word as u32);
        let starts = !(p_unknown | q_unknown) & (test == Self::read(&self.start_state, frame[Q]));
        let untested = checks & p_unknown | starts & r_unknown;
        let stored = STORED | u64::from(Self::read(&self.next_state, frame[R]));
        // The states of a trace follow no pattern that the processor could guess.
        let next = select_unpredictable(starts & !r_unknown, stored, 0);
        (mark(failure, FAILURE) | mark(starts, OPENED) | mark(untested, UNTESTED), next)
    }
}

impl<const TURNS: bool> Checker for Transition<TURNS> {
    #[inline(always)]
    fn step(&self, word: u64, frame: &Frame) -> (u32, u64) {
        // All four words are one comparison, which takes less than a mask for each of the three ports.
        if frame[FRAME / 2..] == [0; FRAME / 2] {
            self.step_on(word, frame, [false; 3])
        } else {
            self.unknown_step(word, frame)
        }
    }
}

/// Kinds 7 and 8: a trigger opens a window that ends `max` cycles later and is tested from `min` cycles later on.
struct Window {
    trigger: u32,
    max: u64,
    /// A cycle is tested where so many are left after it, or fewer.
    tested: u64,
}

impl Window {
    fn new(config: &Config) -> Self {
        // A port of one wire: either end is that wire.
        Self { trigger: config.q.left.into(), max: config.n.into(), tested: (config.n - config.min).into() }
    }

    /// Whether the cycle opens a window, where none is open. One test for both wires: the processor can guess neither.
    fn opens(&self, frame: &Frame) -> bool {
        known(frame, RESET) >> ENABLE & known(frame, Q) >> self.trigger & 1 != 0
    }

    /// Whether a cycle of an open window is tested, where so many are left after it.
    fn tests(&self, left: u64, frame: &Frame) -> bool {
        (left <= self.tested) & is_enabled(frame)
    }
}

fn is_enabled(frame: &Frame) -> bool {
    known(frame, RESET) >> ENABLE & 1 != 0
}

/// Kind 7. The open word is the number of cycles left.
struct Value {
    window: Window,
    /// The tracked wires, and those of them that are 1 in the expected value: so no cycle has to put its wires in order.
    tracked: u32,
    expected: u32,
}

impl Value {
    fn new(config: &Config) -> Self {
        let expected = Port::new(config.p).wires(config.value);
        Self { window: Window::new(config), tracked: config.p.wires(), expected }
    }

    fn row(&self, left: u64, frame: &Frame) -> u32 {
        let tests = self.window.tests(left, frame);
        let closed = mark(left == 0, CLOSED);
        if unknown(frame, P) & self.tracked != 0 {
            return closed | mark(tests, UNTESTED);
        }
        closed | mark(tests & (frame[P] & self.tracked != self.expected), FAILURE)
    }
}

impl Checker for Value {
    #[inline(always)]
    fn step(&self, word: u64, frame: &Frame) -> (u32, u64) {
        if word == 0 {
            let max = self.window.max;
            return if self.window.opens(frame) { (OPENED | self.row(max, frame), max) } else { (0, 0) };
        }
        let left = word - 1;
        (self.row(left, frame), left)
    }
}

/// Kind 8. The open word is the number of cycles left and, once there is a reference, `HELD` and the reference above it.
/// It has one bus, so there is a loop for each direction.
struct Stability<const ASCENDING: bool> {
    window: Window,
    tracked: Port,
    wires: u32,
}

impl<const ASCENDING: bool> Stability<ASCENDING> {
    fn new(config: &Config) -> Self {
        Self { window: Window::new(config), tracked: Port::new(config.p), wires: config.p.wires() }
    }

    fn value(&self, frame: &Frame) -> u32 {
        self.tracked.descending(if ASCENDING { frame[P].reverse_bits() } else { frame[P] })
    }

    fn is_unknown(&self, frame: &Frame) -> bool {
        unknown(frame, P) & self.wires != 0
    }

    /// Mark and next word of a cycle of a window that had no reference before it: it is the reference if it is tested and
    /// known.
    fn first(&self, left: u64, frame: &Frame) -> (u32, u64) {
        if !self.window.tests(left, frame) {
            (0, left)
        } else if self.is_unknown(frame) {
            (UNTESTED, left)
        } else if left != 0 {
            (0, HELD | u64::from(self.value(frame)) << REFERENCE | left)
        } else {
            (0, 0)
        }
    }
}

impl<const ASCENDING: bool> Checker for Stability<ASCENDING> {
    #[inline(always)]
    fn step(&self, word: u64, frame: &Frame) -> (u32, u64) {
        if word == 0 {
            if !self.window.opens(frame) {
                return (0, 0);
            }
            let max = self.window.max;
            let (row, next) = self.first(max, frame);
            return (row | OPENED | mark(max == 0, CLOSED), next);
        }
        let next = word - 1;
        let closed = next as u16 == 0;
        if word < HELD {
            let (row, next) = self.first(next, frame);
            return (row | mark(closed, CLOSED), next);
        }
        // A window that has its reference is tested to its end.
        let changed = self.value(frame) != (word >> REFERENCE) as u32;
        let result = if self.is_unknown(frame) { UNTESTED } else { mark(changed, FAILURE) };
        let row = mark(is_enabled(frame), result);
        if closed {
            (row | CLOSED, 0)
        } else {
            (row, next)
        }
    }
}

fn mark(set: bool, mark: u32) -> u32 {
    u32::from(set) * mark
}

/// Whether a row has the mark of a failure or of an illegal start.
pub fn fails(row: u32) -> bool {
    row & (FAILURE | ILLEGAL) != 0
}

/// How a port is read from its word of wires.
pub struct Port {
    ascending: bool,
    shift: u32,
    mask: u32,
}

impl Port {
    pub fn new(range: Range) -> Self {
        let mask = u32::MAX >> (32 - range.width());
        let right = u32::from(range.right);
        if range.left >= range.right {
            Port { ascending: false, shift: right, mask }
        } else {
            // Turned round, wire w is bit 31 - w, so that the wires go up from the right end as the value's bits do.
            Port { ascending: true, shift: 31 - right, mask }
        }
    }

    pub fn value(&self, wires: u32) -> u32 {
        self.descending(if self.ascending { wires.reverse_bits() } else { wires })
    }

    fn descending(&self, wires: u32) -> u32 {
        wires >> self.shift & self.mask
    }

    /// The wires that are 1 where the port has that value and all other wires are 0.
    fn wires(&self, value: u32) -> u32 {
        let wires = value << self.shift;
        if self.ascending {
            wires.reverse_bits()
        } else {
            wires
        }
    }
}

impl Config {
    fn all_descend(&self) -> bool {
        [self.p, self.q, self.r].iter().all(|range| !range.ascends())
    }

    /// Whether some trace stops the checker. Kind 8 with one tested cycle has nothing to compare its reference with.
    fn can_stop(&self) -> bool {
        self.severity == FATAL && (self.kind != STABILITY || self.min < self.n)
    }
}

impl Range {
    pub fn width(self) -> u32 {
        u32::from(self.left.abs_diff(self.right)) + 1
    }

    /// Its wires, as ones.
    fn wires(self) -> u32 {
        u32::MAX >> (32 - self.width()) << self.left.min(self.right)
    }

    fn ascends(self) -> bool {
        self.left < self.right
    }

    fn is_unused(self) -> bool {
        self.left == 0 && self.right == 0
    }

    fn is_within(self) -> bool {
        self.left <= 31 && self.right <= 31
    }
}

/// Refusals 1 to 3.
fn test_config(config: &Config) -> Result<(), u32> {
    let &Config { kind, n, p, q, r, min, value, severity } = config;
    let n_fits = match kind {
        MOST_PIPE..=FIRST_NO_PIPE => (2..=32).contains(&n) && min == 0,
        IGNORE_NEW_START..=ERROR_ON_NEW_START => (1..=LONGEST_WINDOW).contains(&n) && min == 0,
        TRANSITION => n == 0 && min == 0,
        VALUE | STABILITY => n <= LONGEST_WINDOW && min <= n,
        _ => return Err(1),
    };
    if !n_fits || severity > FATAL {
        return Err(2);
    }
    if !(p.is_within() && q.is_within() && r.is_within()) {
        return Err(3);
    }
    let fits = match kind {
        MOST_PIPE..=FIRST_NO_PIPE => p.width() == n && q.is_unused() && r.is_unused() && value == 0,
        IGNORE_NEW_START..=ERROR_ON_NEW_START => p.width() == 1 && q.width() == 1 && r.is_unused() && value == 0,
        TRANSITION => q.width() == p.width() && r.width() == p.width() && value == 0,
        VALUE => q.width() == 1 && r.is_unused() && u64::from(value) >> p.width() == 0,
        _ => q.width() == 1 && r.is_unused() && value == 0,
    };
    if !fits {
        return Err(3);
    }
    Ok(())
}

/// Refusals 1 to 3 of a configuration, then 7 of a word to go on from.
fn test_step(config: &Config, word: u64) -> Result<(), u32> {
    test_config(config)?;
    let possible = match config.kind {
        MOST_PIPE | FIRST_PIPE => word >> (config.n - 1) == 0,
        FIRST_NO_PIPE => word >> (config.n - 1) == 0 && word & word.wrapping_sub(1) == 0,
        IGNORE_NEW_START..=ERROR_ON_NEW_START | VALUE => word <= u64::from(config.n),
        TRANSITION => word == 0 || word.checked_sub(STORED).is_some_and(|value| value >> config.p.width() == 0),
        _ => is_stability_word(config, word),
    };
    // No kind takes the word of a stopped checker for one of its own.
    if possible || word == STOPPED && config.can_stop() {
        Ok(())
    } else {
        Err(7)
    }
}

/// Kind 8: nothing is open; or a window without a reference; or one that has its reference, so that `min` cycles are over.
fn is_stability_word(config: &Config, word: u64) -> bool {
    let Some(held) = word.checked_sub(HELD) else {
        return word <= u64::from(config.n);
    };
    let left = held as u16;
    (1..=config.n - config.min).contains(&left.into()) && held >> REFERENCE >> config.p.width() == 0
}
