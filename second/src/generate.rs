//! The inputs: configurations, traces and open words, all from one deterministic generator.

use crate::rules::{self, cycles_left_in, reference_in, with_reference, Config, Frame, Range};
use crate::rules::{FRAME_WORDS, LONGEST_WINDOW, STOPPED};
use crate::unknown;

/// splitmix64
pub struct Random(u64);

impl Random {
    /// Each case has a generator of its own, so that a case can be run again alone.
    pub fn new(seed: u64, case: u64) -> Random {
        let mut random = Random(seed ^ case.wrapping_mul(0xd134_2543_de82_ef95));
        random.next();
        random
    }

    pub fn next(&mut self) -> u64 {
        self.0 = self.0.wrapping_add(0x9e37_79b9_7f4a_7c15);
        let mut z = self.0;
        z = (z ^ (z >> 30)).wrapping_mul(0xbf58_476d_1ce4_e5b9);
        z = (z ^ (z >> 27)).wrapping_mul(0x94d0_49bb_1331_11eb);
        z ^ (z >> 31)
    }

    pub fn word(&mut self) -> u32 {
        self.next() as u32
    }

    /// 0 to limit − 1
    pub fn below(&mut self, limit: usize) -> usize {
        (self.next() % limit as u64) as usize
    }

    /// True in so many of 1,024 draws.
    pub fn chance(&mut self, of_1024: usize) -> bool {
        self.below(1024) < of_1024
    }

    pub fn pick<T: Copy>(&mut self, from: &[T]) -> T {
        from[self.below(from.len())]
    }

    pub fn words(&mut self, len: usize) -> Vec<u32> {
        (0..len).map(|_| self.word()).collect()
    }

    pub fn long_words(&mut self, len: usize) -> Vec<u64> {
        (0..len).map(|_| self.next()).collect()
    }

    /// A word whose bits are 1 with probability 1/2, 1 − 2^−k for k above 1, or 2^k for k below −1.
    pub fn dense_word(&mut self, k: i32) -> u32 {
        let mut word = self.word();
        for _ in 1..k.abs() {
            word = if k > 0 { word | self.word() } else { word & self.word() };
        }
        word
    }
}

pub const UNUSED: Range = wire(0);

/// The wire of the reset word that is the enable of kinds 7 and 8.
const ENABLE: Range = wire(1);

/// A port that is one wire.
pub const fn wire(w: u8) -> Range {
    Range { left: w, right: w }
}

/// A range of this width anywhere in the 32 wires, in either direction.
fn range(random: &mut Random, width: u32) -> Range {
    let low = random.below(33 - width as usize) as u8;
    let high = low + (width - 1) as u8;
    if random.chance(512) {
        Range { left: high, right: low }
    } else {
        Range { left: low, right: high }
    }
}

pub fn good_config(random: &mut Random) -> Config {
    let kind = random.below(9) as u8;
    good_config_of(random, kind)
}

/// A length of a window that is not short: at the limit and around 50,000, around the limit that §5 raised, or anything.
fn long_window(random: &mut Random) -> u32 {
    let any = 1 + random.below(LONGEST_WINDOW as usize) as u32;
    let around_50_000 = 49_990 + any % 21;
    random.pick(&[LONGEST_WINDOW, LONGEST_WINDOW, LONGEST_WINDOW - 1, around_50_000, any, 1023, 1024, 1025, 1 + any % 1100])
}

pub fn good_config_of(random: &mut Random, kind: u8) -> Config {
    let any = random.below(LONGEST_WINDOW as usize + 1) as u32;
    let long = long_window(random);
    let n = match kind {
        0..=2 => random.pick(&[2, 2, 3, 3, 4, 5, 6, 8, 16, 31, 32, 32, 2 + any % 31]),
        3..=5 => random.pick(&[1, 1, 2, 2, 3, 4, 5, 7, 10, 20, long, long, long, 1 + any % 40]),
        6 => 0,
        _ => random.pick(&[0, 0, 1, 1, 2, 2, 3, 4, 5, 7, 10, 20, long, long, long, long, any % 40]),
    };
    let width = random.pick(&[1, 1, 2, 3, 4, 8, 31, 32, 32, 1 + any % 32]);
    let (p, q, r) = match kind {
        0..=2 => (range(random, n), UNUSED, UNUSED),
        3..=5 => (range(random, 1), range(random, 1), UNUSED),
        6 => (range(random, width), range(random, width), range(random, width)),
        _ => (range(random, width), range(random, 1), UNUSED),
    };
    let severity = random.below(2) as u8;
    let mut config = Config { kind, n, p, q, r, min: 0, value: 0, severity };
    if config.is_after_trigger() {
        config.min = random.pick(&[0, 0, 1.min(n), n, n, n.saturating_sub(1), n / 2, any % (n + 1)]);
    }
    if kind == 7 {
        let (word, greatest) = (random.word(), u32::MAX >> (32 - width));
        config.value = random.pick(&[word & greatest, word & greatest, 0, 1, greatest]);
    }
    config
}

/// A window of the greatest length, whose last cycle can fail.
pub fn longest_config(random: &mut Random, kind: u8) -> Config {
    let config = good_config_of(random, kind);
    let below_max = random.below(LONGEST_WINDOW as usize) as u32;
    let min = random.pick(&[0, 0, 1, LONGEST_WINDOW - 1, below_max]);
    Config { n: LONGEST_WINDOW, min: if config.is_after_trigger() { min } else { 0 }, ..config }
}

/// Another checker of the same trace: of any kind, of the same kind with other numbers, or one that differs in its kind, n,
/// min or severity alone.
pub fn another_checker(random: &mut Random, config: Config) -> Config {
    match random.below(4) {
        0 => return good_config(random),
        1 => return good_config_of(random, config.kind),
        _ => {}
    }
    let mut near: Vec<Config> = (0..=8).map(|kind| Config { kind, ..config }).collect();
    near.extend([config.n + 1, config.n.saturating_sub(1)].map(|n| Config { n, ..config }));
    near.extend([config.min + 1, config.min.saturating_sub(1)].map(|min| Config { min, ..config }));
    near.extend([Config { severity: 1 - config.severity, ..config }; 2]);
    near.retain(|other| other.refusal() == 0 && *other != config);
    random.pick(&near)
}

/// n just outside of its limits, far outside, or anything. Where the width can follow n, it does: then n alone is bad.
fn damage_n(random: &mut Random, config: &mut Config) {
    // Above the limit, and also such that the lower 16 bits alone would be a good n.
    let (above, low) = (LONGEST_WINDOW + 1, random.below(100) as u32);
    config.n = match config.kind {
        0..=2 => random.pick(&[0, 1, 1, 33, 33, 64, 1024, LONGEST_WINDOW, u32::MAX]),
        3..=5 => random.pick(&[0, 0, above, above, above + 1, above + low, u32::MAX]),
        7 | 8 => random.pick(&[config.min.saturating_sub(1), above, above, above + 1, above + low, u32::MAX]),
        _ => random.pick(&[1, 1, 2, 32, 256, u32::MAX]),
    };
    if config.is_sequence() && config.n == 1 && random.chance(512) {
        config.p = range(random, 1);
    }
    if random.chance(128) {
        config.n = random.word();
    }
}

/// An index above 31 (also with the width that is due), a width one off, or an unused port that is not 0:0.
fn damage_port(random: &mut Random, config: &mut Config) {
    let port = match random.below(3) {
        0 => &mut config.p,
        1 => &mut config.q,
        _ => &mut config.r,
    };
    let bits = random.below(256) as u8;
    match random.below(8) {
        0 => *port = Range { left: port.left + 32, right: port.right + 32 },
        1 => port.left = random.pick(&[32, 33, 64, 128, 255]),
        2 => port.right = random.pick(&[32, 33, 64, 128, 255]),
        3 => port.left = port.left.wrapping_add(1),
        4 => port.right = port.right.wrapping_sub(1) % 64,
        5 => *port = random.pick(&[Range { left: 1, right: 1 }, Range { left: 0, right: 1 }, Range { left: 1, right: 0 }]),
        6 => *port = Range { left: bits % 32, right: bits / 8 },
        _ => port.right = bits,
    }
}

/// A min above max, or a min of a kind that has none.
fn damage_min(random: &mut Random, config: &mut Config) {
    let any = random.word();
    config.min = if config.is_after_trigger() {
        let above = config.n.wrapping_add(1);
        random.pick(&[above, above, above, LONGEST_WINDOW, LONGEST_WINDOW + 1, u32::MAX, any])
    } else {
        random.pick(&[1, 1, config.n, LONGEST_WINDOW, u32::MAX, any])
    };
}

/// A value that has one bit too many for P, or the value of a kind that expects none.
fn damage_value(random: &mut Random, config: &mut Config) {
    let any = random.word();
    config.value = if config.kind == 7 {
        let above = 1u32.checked_shl(config.p.width()).unwrap_or(u32::MAX);
        random.pick(&[above, above, above | config.value, u32::MAX, any])
    } else {
        random.pick(&[1, 1, 1 << 31, u32::MAX, any])
    };
}

/// A kind that does not exist, or one whose limits, ports, min and value need not be those of this configuration.
fn damage_kind(random: &mut Random, config: &mut Config) {
    let any = 9 + random.below(247) as u8;
    let another = random.below(9) as u8;
    config.kind = random.pick(&[9, 9, 10, 128, 254, 255, any, another]);
}

/// A severity that is neither 0 nor 1.
fn damage_severity(random: &mut Random, config: &mut Config) {
    let any = 2 + random.below(254) as u8;
    config.severity = random.pick(&[2, 2, 3, 128, 254, 255, 255, any]);
}

fn damage(random: &mut Random, config: &mut Config) {
    match random.below(8) {
        0 | 1 => damage_kind(random, config),
        2 => damage_n(random, config),
        3 | 4 => damage_port(random, config),
        5 => damage_min(random, config),
        6 => damage_value(random, config),
        _ => damage_severity(random, config),
    }
}

/// A configuration with one fault or several; once in a while all of its numbers are random. Not every damage is a fault.
pub fn damaged_config(random: &mut Random) -> Config {
    let mut config = good_config(random);
    for _ in 0..random.pick(&[1, 1, 1, 1, 2, 3]) {
        damage(random, &mut config);
    }
    if random.chance(64) {
        let any = random.next().to_le_bytes();
        config.kind = any[0];
        config.p = Range { left: any[1], right: any[2] };
        config.q = Range { left: any[3], right: any[4] };
        config.r = Range { left: any[5], right: any[6] };
        (config.min, config.value) = (random.word(), random.word());
        config.severity = random.pick(&[0, 1, any[7]]);
    }
    config
}

/// How the samples of a trace are drawn. Drawn anew for every trace, so that some traces are nearly silent and others have a
/// start in every cycle.
#[derive(Clone)]
struct Style {
    reset: usize,
    events: i32,
    start: usize,
    test: usize,
    planted: usize,
    states: Vec<u32>,
    strange: usize,
    fixed_start_state: bool,
    enable: usize,
    steady: usize,
}

fn style(random: &mut Random) -> Style {
    let states = 1 + random.below(3);
    Style {
        reset: random.pick(&[0, 0, 0, 3, 20, 20, 100, 512]),
        events: random.pick(&[-3, 1, 1, 2, 3, 5, 5, 7, 9]),
        start: random.pick(&[2, 20, 100, 300, 512, 900, 1024]),
        test: random.pick(&[0, 100, 512, 900, 1000, 1024]),
        planted: random.pick(&[0, 0, 20, 200]),
        states: random.words(states),
        strange: 30,
        fixed_start_state: random.chance(512),
        enable: random.pick(&[100, 512, 900, 1000, 1024, 1024]),
        steady: random.pick(&[0, 512, 900, 1000, 1024, 1024]),
    }
}

/// The same style with few failures or none, and few illegal starts.
fn calm(config: Config, style: &Style) -> Style {
    let states = vec![style.states[0]];
    let start = if config.kind == 5 { style.start.min(20) } else { style.start };
    Style { events: 9, start, test: 1024, planted: 0, states, strange: 0, steady: 1024, ..style.clone() }
}

/// The same style with failures soon after each start.
fn wild(style: &Style) -> Style {
    Style {
        reset: style.reset.min(20),
        events: 1,
        start: 512,
        test: 100,
        strange: 512,
        enable: 1024,
        steady: 0,
        ..style.clone()
    }
}

fn put_bit(word: &mut u32, range: Range, k: u32, bit: bool) {
    *word = *word & !(1 << range.wire(k)) | u32::from(bit) << range.wire(k);
}

fn put_value(word: &mut u32, range: Range, value: u32) {
    for k in 0..range.width() {
        put_bit(word, range, k, value >> k & 1 == 1);
    }
}

/// The tracked value of a check after a trigger: most often the one that passes, else often wrong in one wire only.
fn tracked_value(random: &mut Random, config: Config, style: &Style) -> u32 {
    let passes = if config.kind == 7 { config.value } else { style.states[0] };
    if random.chance(style.steady) {
        return passes;
    }
    let one_wire = passes ^ 1 << random.below(config.p.width() as usize);
    let (state, any) = (random.pick(&style.states), random.word());
    random.pick(&[one_wire, one_wire, state, any])
}

/// A frame for a good configuration. Wires outside the declared ranges, and the rest of the reset word, are random; no wire is
/// unknown.
fn frame(random: &mut Random, config: Config, style: &Style) -> Frame {
    let mut frame = rules::known([0; 4].map(|_: u32| random.word()));
    frame[0] = frame[0] & !1 | u32::from(!random.chance(style.reset));
    if config.is_sequence() {
        frame[1] = random.dense_word(style.events);
        put_bit(&mut frame[1], config.p, config.n - 1, random.chance(style.start));
    } else if config.is_time() {
        put_bit(&mut frame[1], config.p, 0, random.chance(style.start));
        put_bit(&mut frame[2], config.q, 0, random.chance(style.test));
    } else if config.is_after_trigger() {
        put_bit(&mut frame[0], ENABLE, 0, random.chance(style.enable));
        put_value(&mut frame[1], config.p, tracked_value(random, config, style));
        put_bit(&mut frame[2], config.q, 0, random.chance(style.start));
    } else {
        for (word, range) in frame[1..4].iter_mut().zip([config.p, config.q, config.r]) {
            let value = if random.chance(style.strange) { random.word() } else { random.pick(&style.states) };
            put_value(word, range, value);
        }
        if style.fixed_start_state {
            put_value(&mut frame[2], config.q, style.states[0]);
        }
    }
    frame
}

/// Writes into the trace an attempt that begins at s and lives to its last cycle or dies there or earlier.
fn plant_attempt(random: &mut Random, config: Config, trace: &mut [u32], s: usize) {
    let n = config.n as usize;
    let any = 1 + random.below(n);
    let lives = random.pick(&[n, n - 1, n - 1, any]);
    for i in 0..n.min(lives + 1).min(trace.len() / FRAME_WORDS - s) {
        put_bit(&mut trace[FRAME_WORDS * (s + i) + 1], config.p, (n - 1 - i) as u32, i < lives);
    }
}

/// Writes into the trace a trigger at s and further ones in its window, in its last cycle and in the cycle after it.
fn plant_triggers(random: &mut Random, config: Config, trace: &mut [u32], s: usize) {
    let max = config.n as usize;
    let within = s + random.below(max + 1);
    for t in [s, within, s + max, s + max + 1] {
        if t < trace.len() / FRAME_WORDS && (t == s || random.chance(700)) {
            put_bit(&mut trace[FRAME_WORDS * t], ENABLE, 0, true);
            put_bit(&mut trace[FRAME_WORDS * t + 2], config.q, 0, true);
        }
    }
}

fn styled_frames(random: &mut Random, config: Config, cycles: usize, style: &Style) -> Vec<u32> {
    let mut trace = Vec::with_capacity(FRAME_WORDS * cycles);
    for _ in 0..cycles {
        trace.extend(frame(random, config, style));
    }
    trace
}

/// Most traces of a fatal checker begin calm: in others it would most often stop early, and have little to go on from. Some end
/// with the cycle where it stops. A third of all traces have unknown bits.
pub fn trace(random: &mut Random, config: Config, cycles: usize) -> Vec<u32> {
    if config.refusal() != 0 {
        return random.words(FRAME_WORDS * cycles);
    }
    let mut style = style(random);
    let (mut first, mut trace) = (0, Vec::new());
    if config.is_fatal() && random.chance(700) {
        let any = random.below(cycles + 1);
        first = random.pick(&[0, any, any, any, any, any, any, any]);
        trace = styled_frames(random, config, first, &calm(config, &style));
        style = if random.chance(700) { wild(&style) } else { style };
    }
    trace.extend(styled_frames(random, config, cycles - first, &style));
    for s in first..cycles {
        if config.is_sequence() && random.chance(style.planted) {
            plant_attempt(random, config, &mut trace, s);
        } else if config.is_after_trigger() && random.chance(style.planted) {
            plant_triggers(random, config, &mut trace, s);
        }
    }
    if random.chance(341) {
        unknown::put(random, config, &mut trace);
    }
    if config.is_fatal() && random.chance(80) {
        put_stop_last(random, config, &mut trace);
    }
    trace
}

/// Cuts the trace behind the cycle where it stops a fatal checker, and fills it up from the front, with cycles in reset and
/// without unknown bits.
fn put_stop_last(random: &mut Random, config: Config, trace: &mut Vec<u32>) {
    let words = rules::true_record(config, trace).words;
    let Some(stop) = words.iter().position(|word| *word == STOPPED) else { return };
    let cycles = trace.len() / FRAME_WORDS;
    trace.truncate(FRAME_WORDS * (stop + 1));
    let in_reset = |_| rules::known([random.word() & !1, random.word(), random.word(), random.word()]);
    trace.splice(..0, (stop + 1..cycles).flat_map(in_reset));
}

/// What is certain of the tested cycles of a window: the last does not fail, or it does, or all do.
#[derive(Clone, Copy, PartialEq)]
pub enum Failing {
    NotLast,
    Last,
    All,
}

fn put_start(config: Config, trace: &mut [u32], s: usize) {
    if config.is_time() {
        put_bit(&mut trace[FRAME_WORDS * s + 1], config.p, 0, true);
    } else {
        put_bit(&mut trace[FRAME_WORDS * s], ENABLE, 0, true);
        put_bit(&mut trace[FRAME_WORDS * s + 2], config.q, 0, true);
    }
}

/// Makes a tested cycle pass or fail; `right` is the tracked value that passes.
fn put_outcome(config: Config, trace: &mut [u32], t: usize, right: u32, passes: bool) {
    if config.is_time() {
        put_bit(&mut trace[FRAME_WORDS * t + 2], config.q, 0, passes);
    } else {
        put_bit(&mut trace[FRAME_WORDS * t], ENABLE, 0, true);
        put_value(&mut trace[FRAME_WORDS * t + 1], config.p, right ^ u32::from(!passes));
    }
}

/// A trace in which the start in s has a window that closes, unless an earlier start has. There is no reset, and for kind 4,
/// where a second start would put off the end, no other start. A fatal checker would stop before the last cycle: so for it
/// the cycles before that pass, unless all fail, and kind 5 has no other start either.
pub fn window_trace(random: &mut Random, config: Config, cycles: usize, s: usize, failing: Failing) -> Vec<u32> {
    let drawn = style(random);
    let only = config.kind == 4 || config.kind == 5 && config.is_fatal();
    let style = Style { reset: 0, start: if only { 0 } else { drawn.start }, ..drawn };
    let mut trace = styled_frames(random, config, cycles, &style);
    let right = if config.kind == 7 { config.value } else { style.states[0] };
    let first = if config.is_time() { s + 1 } else { s + config.min as usize };
    let last = s + config.n as usize;
    if failing == Failing::All || config.is_fatal() {
        (first..=last).for_each(|t| put_outcome(config, &mut trace, t, right, failing != Failing::All));
    }
    put_outcome(config, &mut trace, last, right, failing == Failing::NotLast);
    if config.kind == 8 {
        // The reference.
        put_outcome(config, &mut trace, first, right, true);
    }
    put_start(config, &mut trace, s);
    if random.chance(400) {
        // Where all fail, and in the cycles that were made for this, no test is unknown.
        let between = if failing == Failing::All { 0..0 } else { first + 1..last };
        unknown::put_between(random, config, &mut trace, between);
    }
    trace
}

/// A trace longer than the window of its configuration, in which most often a window closes: a second start in its last
/// cycle, behind it or within it, and a reset, are seldom.
pub fn long_trace(random: &mut Random, config: Config, cycles: usize) -> Vec<u32> {
    let n = config.n as usize;
    let (any, within) = (random.below(cycles - n), random.below(n));
    let s = random.pick(&[0, cycles - n - 1, any]);
    let failing = random.pick(&[Failing::NotLast, Failing::Last, Failing::All]);
    let mut trace = window_trace(random, config, cycles, s, failing);
    let second = random.pick(&[s + n, s + n + 1, s + 1 + within]);
    if second < cycles && random.chance(256) {
        put_start(config, &mut trace, second);
    }
    if random.chance(128) {
        trace[FRAME_WORDS * random.below(cycles)] &= !1;
    }
    trace
}

/// The frame of cycle 0 with its start taken away or put there, by the start itself or by what a start needs.
pub fn edited_in_cycle_0(random: &mut Random, config: Config, old: &[u32]) -> Vec<u32> {
    let mut new = old.to_vec();
    let (port, start) = if config.is_time() { (1, config.p) } else { (2, config.q) };
    let needed = if config.is_time() { 1 } else { random.pick(&[1, 2]) };
    // By its unknown bit too: an unknown start is none, as is a start that is 0.
    let unknown = random.pick(&[0, 0, rules::TO_UNKNOWN]);
    if random.chance(512) {
        new[port + unknown] ^= 1 << start.wire(0);
    } else {
        new[unknown] ^= needed;
    }
    new
}

/// Makes the frames from a on such that a fatal checker does not stop in them, or does.
fn edit_stop(random: &mut Random, config: Config, trace: &mut [u32], a: usize) {
    let (drawn, is_calm) = (style(random), random.chance(512));
    let style = if is_calm { calm(config, &drawn) } else { wild(&drawn) };
    let frames = styled_frames(random, config, trace.len() / FRAME_WORDS - a, &style);
    trace[FRAME_WORDS * a..].copy_from_slice(&frames);
    if random.chance(200) {
        unknown::put(random, config, &mut trace[FRAME_WORDS * a..]);
    }
    if is_calm && random.chance(512) {
        // What was open before need not pass.
        trace[FRAME_WORDS * a] &= !1;
    } else if !is_calm && config.is_sequence() {
        plant_attempt(random, config, trace, a);
    }
}

/// A trace with the same frames outside a to b−1.
pub fn edited(random: &mut Random, config: Config, old: &[u32], a: usize, b: usize) -> Vec<u32> {
    let mut new = old.to_vec();
    match random.below(5) {
        _ if random.chance(200) => unknown::edit(random, config, &mut new[FRAME_WORDS * a..FRAME_WORDS * b]),
        _ if config.is_fatal() && a < b && random.chance(768) => edit_stop(random, config, &mut new[..FRAME_WORDS * b], a),
        0 | 1 => new[FRAME_WORDS * a..FRAME_WORDS * b].copy_from_slice(&trace(random, config, b - a)),
        2 => {
            for t in a..b {
                let port = 1 + random.below(3);
                new[FRAME_WORDS * t + port] ^= random.dense_word(-4);
            }
        }
        _ => {
            let reset_n_or_enable = random.below(2);
            for t in a..b {
                new[FRAME_WORDS * t] ^= u32::from(random.chance(100)) << reset_n_or_enable;
            }
        }
    }
    new
}

/// A word that is possible for this configuration; 2^63 now and then, where it is.
pub fn possible_word(random: &mut Random, config: Config) -> u64 {
    if config.can_stop() && random.chance(250) {
        STOPPED
    } else {
        open_word(random, config)
    }
}

/// A word of a checker that goes on, or of a fatal one that has not stopped.
fn open_word(random: &mut Random, config: Config) -> u64 {
    let n = u64::from(config.n);
    let any = random.next();
    match config.kind {
        0 | 1 => {
            let k = random.pick(&[-3, -2, 1, 2, 5]);
            u64::from(random.dense_word(k)) & ((1 << (n - 1)) - 1)
        }
        2 => random.pick(&[0, 1, 1 << (n - 2), 1 << (any % (n - 1))]),
        3..=5 => random.pick(&[0, 1, 1, n, n - 1, any % (n + 1)]),
        7 => {
            // The next cycle is the first one tested, or the one after it or before it.
            let from_min = (n + 1 - u64::from(config.min)).min(n);
            random.pick(&[0, 1.min(n), n, from_min, from_min.saturating_sub(1), (from_min + 1).min(n), any % (n + 1)])
        }
        8 => possible_stability_word(random, config),
        _ => random.pick(&[0, 1 << 32 | any & ((1 << config.p.width()) - 1), (1 << 32) + ((1 << config.p.width()) - 1)]),
    }
}

/// A word of a window with a reference or without one, with as many cycles left as can be, one, or any number.
fn possible_stability_word(random: &mut Random, config: Config) -> u64 {
    let (min, max) = (u64::from(config.min), u64::from(config.n));
    let any = random.next();
    let mut words = vec![0];
    if max > 0 {
        // Also where the next cycle is the first that can be the reference.
        words.extend([1, max, max.min(max - min + 1), 1 + any % max]);
    }
    if max > min {
        let greatest = u64::MAX >> (64 - config.p.width());
        let reference = random.pick(&[0, greatest, greatest, any >> 32 & greatest, any >> 32 & greatest]);
        let left = random.pick(&[1, max - min, 1 + any % (max - min)]);
        words.extend([with_reference(left, reference); 4]);
    }
    random.pick(&words)
}

fn around(word: u64) -> [u64; 3] {
    [word - 1, word, word + 1]
}

/// Words at the limits of the possible ones and just beyond them, and words where those of other kinds have theirs.
pub fn limit_words(config: Config) -> Vec<u64> {
    let (n, stored, wide) = (u64::from(config.n), 1 << 32, 1 << config.p.width());
    let mut words = vec![0, 1, 2, 3, u64::MAX];
    words.extend([16, 32, 48, 62, 63].into_iter().flat_map(|power| around(1 << power)));
    match config.kind {
        0..=2 => {
            // The greatest bit of an open word, and the one above it: alone, together, and with the least.
            let (greatest, above) = (1 << (n - 2), 1 << (n - 1));
            words.extend(around(above));
            words.extend([greatest, greatest | 1, greatest | above]);
        }
        // Also where the lower 32 bits alone would do.
        3..=5 => words.extend(around(n).into_iter().chain([n + 2, stored | n])),
        6 => words.extend(around(stored + wide).into_iter().chain(around(wide))),
        _ => words.extend(window_limits(config)),
    }
    words
}

/// Of these, the words that are possible, or those that are not. There always are some of both: 0 and 2^64−1.
pub fn limit_words_that(config: Config, are_possible: bool) -> Vec<u64> {
    let mut words = limit_words(config);
    words.retain(|word| config.possible(*word) == are_possible);
    words
}

/// Words of kinds 7 and 8 with as many cycles left as can be, and one more; without a reference, and with those at the
/// limits.
fn window_limits(config: Config) -> Vec<u64> {
    let (min, max) = (u64::from(config.min), u64::from(config.n));
    let greatest = u64::MAX >> (64 - config.p.width());
    let lefts = [0, 1, max - min, max - min + 1, max, max + 1];
    let held = |left| [0, 1, greatest, greatest + 1].map(|reference| with_reference(left, reference));
    lefts.into_iter().chain(lefts.into_iter().flat_map(held)).collect()
}

/// A kind 8 word just beyond one of the limits, or one with a bit where none can be.
fn impossible_stability_word(random: &mut Random, config: Config) -> u64 {
    let (min, max) = (u64::from(config.min), u64::from(config.n));
    let any = random.next();
    let above = 1 << config.p.width();
    let fits = any >> 32 & (above - 1);
    let mut words = vec![max + 1, max + 1, with_reference(0, fits), with_reference(max - min + 1, fits)];
    words.extend([with_reference(1, above); 2]);
    // 65,536 cycles left would be a reference more by one, and none left.
    let longest = u64::from(LONGEST_WINDOW);
    words.extend([longest, longest + 1, longest + 1, with_reference(longest, fits), with_reference(longest + 1, fits)]);
    if random.chance(300) {
        let (above_max, above_reference) = (1 << (11 + any % 5), 1 << (49 + any % 15));
        words = vec![max + 2, 1 << 16 | 1, fits << 16 | 1, u64::MAX, any | 1 << 50, with_reference(max, fits)];
        words.extend([with_reference(1, fits) | above_max, with_reference(1, fits) | above_reference]);
        words.push(with_reference(1, above + fits));
    }
    words.retain(|word| !config.possible(*word));
    random.pick(&words)
}

/// 2^63 where it is not possible, or a word near it, also one with the bits of an open word.
fn impossible_stop(random: &mut Random, config: Config) -> u64 {
    let open = open_word(random, config);
    let mut words = vec![STOPPED, STOPPED, STOPPED, STOPPED + 1, STOPPED >> 1, STOPPED - 1, STOPPED | open, STOPPED | open];
    words.retain(|word| !config.possible(*word));
    random.pick(&words)
}

/// A possible word made one that passes with this frame, where it holds a value to compare with: that is hit seldom by chance.
pub fn passing_word(config: Config, frame: Frame, word: u64) -> u64 {
    let tested = u64::from(config.p.value(frame[1]));
    match config.kind {
        _ if word == STOPPED || !config.possible(word) => word,
        6 if word != 0 => 1 << 32 | tested,
        8 if reference_in(word).is_some() => with_reference(cycles_left_in(word), tested),
        _ => word,
    }
}

pub fn impossible_word(random: &mut Random, config: Config) -> u64 {
    let (n, longest) = (u64::from(config.n), u64::from(LONGEST_WINDOW));
    let any = random.next();
    match config.kind {
        _ if random.chance(450) => impossible_stop(random, config),
        0 | 1 => random.pick(&[1 << (n - 1), 1 << n, u64::MAX, any | 1 << 40, (1 << (n - 1)) + 1]),
        2 => random.pick(&[1 << (n - 1), 3 << (n - 2), 1 << n, u64::MAX, 1 << 63 | 1, if n > 2 { 3 } else { 2 }]),
        3..=5 => random.pick(&[n + 1, n + 2, longest.max(n + 1), longest + 1, u64::MAX, 1 << 32 | 1, any | 1 << 20]),
        7 => {
            let held = with_reference(1.min(n), 0);
            random.pick(&[n + 1, n + 1, n + 2, longest.max(n + 1), longest + 1, u64::MAX, held, any | 1 << 20])
        }
        8 => impossible_stability_word(random, config),
        _ => {
            let above = (1 << 32) + (1u64 << config.p.width());
            random.pick(&[1, (1 << 32) - 1, 1 << 33, above, u64::MAX, any | 1 << 50])
        }
    }
}
