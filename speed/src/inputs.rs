//! What is timed: the traces, made from a seed, and the checkers that run over them.
use crate::engine::{Engine, Plain, Record};
use crate::form::Form;
use crate::plain::{self, fails, Config, Frame, Port, Range, ENABLE, FATAL, FRAME, GOES_ON};
use crate::plain::{HELD, STABILITY, STOPPED, STORED, TRANSITION};
use std::borrow::Cow;
use std::rc::Rc;
use std::slice;

pub const SEED: u64 = 0x5e17_ed6e_2026;
pub const CYCLES: usize = 65_536;
pub const BENCH: usize = 64;
/// Words of the slice for a failure list: one entry a cycle, far more than the traces have.
pub const LIST: usize = 3 * CYCLES;

// Where the trace has its signals. A checker of fewer wires has noise beside it, which it must ignore.
const EVENTS: u8 = 0; // P, 16 wires from here up
const EVENT_WIRES: u32 = 0xffff;
const START: u8 = 16; // P
const TEST: u8 = 3; // Q
const STATES: u8 = 24; // P, Q and R, 8 wires from here up
const TRACKED: u8 = 17; // P, 7 wires from here up
const TRIGGER: u8 = 5; // Q

/// What the tracked wires are: first as expected, then with the lowest wire changed, with the highest, with all.
const TRACKED_VALUES: [u32; 4] = [0x17, 0x16, 0x57, 0x68];

/// So many frames are drawn for a failure that is due, before it waits for the next cycle.
const MOST_DRAWS: u32 = 64;

/// So many frames are drawn for a cycle without a failure, before it is one in reset.
const DRAWS_TO_RESET: u32 = 1024;

/// When a fatal checker fails first: never, soon after the middle of its trace, or soon after the beginning.
const FIRST_FAILURES: [&str; 3] = ["none", "middle", "early"];
const MIDDLE: usize = CYCLES / 2;

const BESIDE_RUST: [&str; 2] = ["proved ns/step", "plain ns/step"];
const RECHECKS: [&str; 2] = ["recheck ns", "full check ns"];
const ONE_CYCLE: [&str; 2] = ["recheck ns", "read words ns"];
const TAKEN_BACK: [&str; 2] = ["there and back", "two rechecks"];
const LISTS: [&str; 2] = ["list pass ns", "full check ns"];

/// The inputs that are held against the same yardstick, and the names of the columns of time and yardstick.
pub struct Table {
    pub columns: [&'static str; 2],
    pub inputs: Vec<Input>,
}

/// One row of a table. The trace is that of all checkers, but for `Call::OwnList`.
pub struct Input {
    pub name: String,
    pub call: Call,
    pub checkers: Vec<Config>,
    pub trace: Rc<[u32]>,
}

#[derive(Clone, Copy)]
pub enum Call {
    /// A full check for each checker: checker k on the cycles k to k + 65,535.
    FullCheck,
    /// A bench step for each of the 65,536 cycles: in step t, checker k is on cycle t + k, as in its full check.
    Bench,
    /// A recheck for each checker, on the cycles of its full check. It starts from a false record and goes through them all.
    Recheck,
    /// A recheck of the last cycle alone for each checker, on the true record: nearly all that it does is the test of the
    /// kept words.
    OneCycle,
    /// For each checker an edit of the last so many cycles made and taken back, on the true record, beside two rechecks and the
    /// exchanges of the samples.
    TakenBack { cycles: usize },
    /// The failure list for each checker, on the cycles of its full check.
    List,
    /// The failure list for each checker, on a trace of its own where one of so many cycles fails, or none does.
    OwnList { one_in: Option<u32> },
}

impl Call {
    /// Whether a library has to have the call of request §12.
    pub fn takes_back(self) -> bool {
        matches!(self, Call::TakenBack { .. })
    }
}

/// What an edit of the last so many cycles of a trace puts there: the samples of the first ones, each a cycle earlier.
pub fn samples(trace: &[u32], cycles: usize) -> Vec<u32> {
    let mut samples = trace[..FRAME * cycles].to_vec();
    samples.rotate_left(FRAME);
    samples
}

impl Input {
    /// The frames of checker k's cycles.
    pub fn frames(&self, k: usize) -> Cow<'_, [u32]> {
        match self.call {
            Call::OwnList { one_in } => list_trace(&self.checkers[k], one_in).into(),
            _ => cut(&self.trace, k, CYCLES).into(),
        }
    }

    /// The share of all checkers' cycles that leave their checker stopped, where one is fatal.
    pub fn stopped(&self) -> Option<f64> {
        if self.checkers.iter().all(|config| config.severity != FATAL) {
            return None;
        }
        let mut stopped = 0;
        for (k, config) in self.checkers.iter().enumerate() {
            let record = true_record(config, &self.frames(k));
            stopped += record.words.iter().filter(|word| **word == STOPPED).count();
        }
        Some(stopped as f64 / (CYCLES * self.checkers.len()) as f64)
    }
}

/// For each call, each kind alone and then 64 checkers of mixed kinds; a bench step for these 64 only. Full checks and bench
/// step also on traces with unknown bits, and full checks on buses of several widths. Then all but these once more, with
/// fatal checkers.
pub fn tables() -> Vec<Table> {
    let trace: Rc<[u32]> = trace().into();
    let input = |name, call, checkers| Input { name, call, checkers, trace: trace.clone() };
    let all = |title: &str, call| -> Vec<Input> {
        groups().into_iter().map(|(name, checkers)| input(format!("{title}{name}"), call, checkers)).collect()
    };
    let mut lists = all("list, none, ", Call::OwnList { one_in: None });
    lists.extend(all("list, 1 in 16, ", Call::OwnList { one_in: Some(16) }));
    let mut taken_back = all("edit of a cycle and back, ", Call::TakenBack { cycles: 1 });
    taken_back.extend(all("edit of all cycles and back, ", Call::TakenBack { cycles: CYCLES }));
    let mut tables = vec![
        Table { columns: BESIDE_RUST, inputs: check_inputs("", |_| trace.clone()) },
        Table { columns: BESIDE_RUST, inputs: check_inputs("unknown, ", |checkers| unknown_trace(&trace, checkers).into()) },
        Table { columns: BESIDE_RUST, inputs: bus_inputs() },
        Table { columns: RECHECKS, inputs: all("recheck, ", Call::Recheck) },
        Table { columns: ONE_CYCLE, inputs: all("recheck of a cycle, ", Call::OneCycle) },
        Table { columns: TAKEN_BACK, inputs: taken_back },
        Table { columns: LISTS, inputs: lists },
    ];
    tables.extend(fatal_tables(&trace));
    tables
}

/// Full checks of each kind alone and of the 64 mixed, and bench steps of these. `trace` makes the trace for an input's
/// checkers.
fn check_inputs(title: &str, trace: impl Fn(&[Config]) -> Rc<[u32]>) -> Vec<Input> {
    let input = |name, call, checkers: Vec<Config>| {
        let trace = trace(&checkers);
        Input { name: format!("{title}{name}"), call, checkers, trace }
    };
    let alone = alone().into_iter().map(|(name, checker)| input(name, Call::FullCheck, vec![checker]));
    let mixed = [("64 mixed, full check", Call::FullCheck), ("64 mixed, bench step", Call::Bench)]
        .map(|(name, call)| input(name.into(), call, mixed()));
    alone.chain(mixed).collect()
}

/// The same checkers, all fatal, each on a trace for each of `FIRST_FAILURES`.
fn fatal_tables(usual: &Rc<[u32]>) -> Vec<Table> {
    let groups: Vec<Fatal> = groups().into_iter().map(|(name, checkers)| Fatal::new(name, checkers, usual)).collect();
    let inputs = |title: &str, call, groups: &[Fatal]| -> Vec<Input> {
        (0..FIRST_FAILURES.len()).flat_map(|first| groups.iter().map(move |group| group.input(title, call, first))).collect()
    };
    let mixed = &groups[groups.len() - 1..];
    let mut checks = inputs("fatal", Call::FullCheck, &groups);
    checks.extend(inputs("fatal bench step", Call::Bench, mixed));
    vec![
        Table { columns: BESIDE_RUST, inputs: checks },
        Table { columns: RECHECKS, inputs: inputs("fatal recheck", Call::Recheck, &groups) },
        Table { columns: ONE_CYCLE, inputs: inputs("fatal recheck of a cycle", Call::OneCycle, &groups) },
        Table { columns: LISTS, inputs: inputs("fatal list", Call::List, &groups) },
    ]
}

/// Fatal checkers, and their trace for each of `FIRST_FAILURES`.
struct Fatal {
    name: String,
    checkers: Vec<Config>,
    traces: [Rc<[u32]>; FIRST_FAILURES.len()],
}

impl Fatal {
    /// On the usual trace every checker fails early, so behind a quiet half it fails soon as well.
    fn new(name: String, mut checkers: Vec<Config>, usual: &Rc<[u32]>) -> Self {
        checkers.iter_mut().for_each(|config| config.severity = FATAL);
        let quiet = quiet_trace(&checkers);
        let middle = [&quiet[..FRAME * MIDDLE], &usual[FRAME * MIDDLE..]].concat();
        Fatal { name, checkers, traces: [quiet.into(), middle.into(), usual.clone()] }
    }

    fn input(&self, title: &str, call: Call, first_failure: usize) -> Input {
        let name = format!("{title}, {}, {}", FIRST_FAILURES[first_failure], self.name);
        Input { name, call, checkers: self.checkers.clone(), trace: self.traces[first_failure].clone() }
    }
}

/// Full checks of kinds 1 and 6 on buses of either direction. A bus of one wire has no direction, and kind 1 has at least
/// two events.
fn bus_inputs() -> Vec<Input> {
    let trace: Rc<[u32]> = bus_trace().into();
    let mut inputs = Vec::new();
    let mut add = |checker: Config| {
        let Config { kind, p: Range { left, right }, .. } = checker;
        let name = format!("bus, kind {kind}, [{left}:{right}]");
        inputs.push(Input { name, call: Call::FullCheck, checkers: vec![checker], trace: trace.clone() });
    };
    for width in [2, 8, 31, 32] {
        add(sequence(1, bus(0, width, false)));
        add(sequence(1, bus(0, width, true)));
    }
    add(transition(bus(0, 1, false)));
    for width in [2, 8, 31, 32] {
        add(transition(bus(0, width, false)));
        add(transition(bus(0, width, true)));
    }
    inputs
}

/// Each checker alone, then the 64 mixed.
fn groups() -> Vec<(String, Vec<Config>)> {
    let alone = alone().into_iter().map(|(name, checker)| (name, vec![checker]));
    alone.chain([("64 mixed".into(), mixed())]).collect()
}

/// A checker of each kind, and where the direction of a bus counts, of each direction.
fn alone() -> Vec<(String, Config)> {
    let mut checkers = Vec::new();
    for kind in 0..=2 {
        checkers.push((format!("kind {kind}, n 8, [7:0]"), sequence(kind, bus(EVENTS, 8, false))));
        checkers.push((format!("kind {kind}, n 8, [0:7]"), sequence(kind, bus(EVENTS, 8, true))));
    }
    for kind in 3..=5 {
        checkers.push((format!("kind {kind}, n 16"), time(kind, 16)));
    }
    checkers.push(("kind 6, width 8, [31:24]".into(), transition(bus(STATES, 8, false))));
    checkers.push(("kind 6, width 8, [24:31]".into(), transition(bus(STATES, 8, true))));
    for kind in 7..=8 {
        checkers.push((format!("kind {kind}, min 4, max 16, [23:17]"), window(kind, 4, 16, bus(TRACKED, 7, false))));
        checkers.push((format!("kind {kind}, min 4, max 16, [17:23]"), window(kind, 4, 16, bus(TRACKED, 7, true))));
    }
    checkers
}

/// All kinds in turn; sizes and directions go round with other periods, so that they are mixed as well.
fn mixed() -> Vec<Config> {
    (0..BENCH)
        .map(|k| match k % 9 {
            kind @ 0..=2 => sequence(kind as u8, bus(EVENTS, [4, 8, 12, 16][k % 4], k % 2 == 1)),
            kind @ 3..=5 => time(kind as u8, [1, 4, 16, 64, 1024][k % 5]),
            6 => transition(bus(STATES, [2, 4, 8][k / 9 % 3], k % 2 == 1)),
            kind => {
                let (min, max) = [(0, 1), (0, 4), (4, 16), (16, 64), (64, 1024)][k % 5];
                window(kind as u8, min, max, bus(TRACKED, [1, 4, 7][k / 9 % 3], k % 2 == 1))
            }
        })
        .collect()
}

const UNUSED: Range = Range { left: 0, right: 0 };

fn sequence(kind: u8, events: Range) -> Config {
    Config { kind, n: events.width(), p: events, q: UNUSED, r: UNUSED, min: 0, value: 0, severity: GOES_ON }
}

fn time(kind: u8, n: u32) -> Config {
    Config { kind, n, p: bus(START, 1, false), q: bus(TEST, 1, false), r: UNUSED, min: 0, value: 0, severity: GOES_ON }
}

fn transition(states: Range) -> Config {
    Config { kind: 6, n: 0, p: states, q: states, r: states, min: 0, value: 0, severity: GOES_ON }
}

fn window(kind: u8, min: u32, max: u32, tracked: Range) -> Config {
    let value = if kind == 7 { Port::new(tracked).value(TRACKED_VALUES[0] << TRACKED) } else { 0 };
    Config { kind, n: max, p: tracked, q: bus(TRIGGER, 1, false), r: UNUSED, min, value, severity: GOES_ON }
}

/// `width` wires from `lowest` up, declared [high:low] or, ascending, [low:high].
fn bus(lowest: u8, width: u8, ascending: bool) -> Range {
    let highest = lowest + width - 1;
    if ascending {
        Range { left: lowest, right: highest }
    } else {
        Range { left: highest, right: lowest }
    }
}

/// The frames of 65,536 cycles and 64 more, so that each of the 64 checkers has its own 65,536 (see `Call`) and the 65,536
/// from one cycle later (see `kept_rows`).
///
/// An event is there in 3 cycles of 4, so that attempts live for some cycles and some end well; a start in 1 of 8, a test
/// in 7 of 8; of 4 states one is the start state, and the next one comes in 7 cycles of 8; reset once in some 1,024; enable
/// in 15 of 16, a trigger in 1 of 8; the tracked value is drawn in 1 of 32, and else the expected one, so that of 4 windows
/// of 16 cycles about 3 pass.
fn trace() -> Vec<u32> {
    let mut streams = Streams::new();
    let mut state = 0;
    let mut frames = Vec::with_capacity(FRAME * (CYCLES + BENCH));
    for _ in 0..CYCLES + BENCH {
        let frame = streams.frame(state);
        frames.extend(frame);
        state = streams.base.state_after(&frame);
    }
    frames
}

/// A trace for buses of any width: each wire of P is 1 in 3 cycles of 4; the start state is P's value in at least 1 cycle of
/// 4, and the next state is P's in the cycle after in at least 7 of 8.
fn bus_trace() -> Vec<u32> {
    let mut generator = Generator(SEED);
    let mut p = generator.often();
    let mut frames = Vec::with_capacity(FRAME * (CYCLES + BENCH));
    for _ in 0..CYCLES + BENCH {
        let after = generator.often();
        let start_state = if generator.word().is_multiple_of(4) { p } else { generator.often() };
        let next_state = if generator.word().is_multiple_of(8) { generator.often() } else { after };
        frames.extend(without_unknown([generator.reset(), p, start_state, next_state]));
        p = after;
    }
    frames
}

/// The trace with an unknown wire in about one of 8 cycles: one of a port that one of the checkers reads. In about one of 32
/// such cycles reset_n is unknown as well, and in another one enable. The values under unknown bits are those of the trace.
fn unknown_trace(usual: &[u32], checkers: &[Config]) -> Vec<u32> {
    let mut generator = Generator(SEED.reverse_bits());
    let mut trace = usual.to_vec();
    for [_, _, _, _, unknown @ ..] in trace.as_chunks_mut::<FRAME>().0 {
        if generator.below(8) != 0 {
            continue;
        }
        let Config { kind, p, q, r, .. } = checkers[generator.below(checkers.len())];
        let ports = match kind {
            0..=2 => 1,
            TRANSITION => 3,
            _ => 2,
        };
        let port = generator.below(ports);
        let range = [p, q, r][port];
        unknown[1 + port] = 1 << (usize::from(range.left.min(range.right)) + generator.below(range.width() as usize));
        unknown[0] = match generator.below(32) {
            0 => 1,
            1 => 1 << ENABLE,
            _ => 0,
        };
    }
    trace
}

/// The frames of `length` cycles from cycle `from` on.
pub fn cut(trace: &[u32], from: usize, length: usize) -> &[u32] {
    Form::TODAY.cut(trace, from, length)
}

/// A frame of these words, all of whose wires are known.
fn without_unknown([reset, p, q, r]: [u32; 4]) -> Frame {
    [reset, p, q, r, 0, 0, 0, 0]
}

/// The false record that checker k's recheck starts from. Its rows are those of the trace one cycle later: they are like its
/// own and differ in many cycles; for a fatal checker they are those of one that goes on, which are not 0 to the end. Its
/// words are possible and in no cycle the checker's own, so that the recheck never stops early.
pub fn false_record(config: &Config, trace: &[u32], k: usize) -> Record {
    let mut record = true_record(&Config { severity: GOES_ON, ..*config }, cut(trace, k + 1, CYCLES));
    let own = true_record(config, cut(trace, k, CYCLES));
    record.words = own.words.iter().map(|word| another_word(config, *word)).collect();
    record
}

/// The record that a full check leaves.
pub fn true_record(config: &Config, trace: &[u32]) -> Record {
    let mut record = Record::new(CYCLES);
    Plain.full_check(config, trace, &mut record).expect("every input's configuration is good");
    record
}

/// A possible word other than the one given. Every input's windows have a cycle after their trigger.
fn another_word(config: &Config, word: u64) -> u64 {
    match config.kind {
        _ if word != 0 => 0,
        TRANSITION => STORED,
        STABILITY if config.min == 0 => HELD + 1,
        _ => 1,
    }
}

/// A trace of 65,536 cycles for the checker's failure list, of which about one in so many fails, or none.
///
/// A failure that has come due in a cycle where nothing can fail waits for the next one where something can.
fn list_trace(config: &Config, one_in: Option<u32>) -> Vec<u32> {
    let mut streams = Streams::new();
    let mut cycle = Cycle::START;
    let mut due = 0;
    let mut frames = Vec::with_capacity(FRAME * CYCLES);
    for _ in 0..CYCLES {
        due += u32::from(one_in.is_some_and(|cycles| streams.base.word().is_multiple_of(cycles)));
        cycle = streams.cycle(slice::from_ref(config), &cycle, due > 0);
        due -= u32::from(cycle.fails);
        frames.extend(cycle.frame);
    }
    frames
}

/// A trace as long as the usual one, on which none of the checkers fails, checker k from cycle k on (see `Call`). For one
/// checker it begins with the trace of its list without failures.
///
/// For the 64 mixed, the start comes about once in 550 cycles, since kind 5 bears no other in its windows of 1,024; and all
/// 16 events are there in nearly every cycle.
fn quiet_trace(checkers: &[Config]) -> Vec<u32> {
    let mut streams = Streams::new();
    let mut cycle = Cycle::START;
    let mut frames = Vec::with_capacity(FRAME * (CYCLES + BENCH));
    for t in 0..CYCLES + BENCH {
        let begun = &checkers[..checkers.len().min(t + 1)];
        cycle = streams.cycle(begun, &cycle, false);
        frames.extend(cycle.frame);
    }
    frames
}

/// A cycle of one or more checkers: its frame, each one's open word after it, and whether a row has a failure or an illegal
/// start.
struct Cycle {
    frame: Frame,
    words: [u64; BENCH],
    fails: bool,
}

impl Cycle {
    /// What the first cycle comes after.
    const START: Cycle = Cycle { frame: [0; FRAME], words: [0; BENCH], fails: false };
}

/// SplitMix64: the same words from the same seed on every machine.
struct Generator(u64);

impl Generator {
    fn word(&mut self) -> u32 {
        self.0 = self.0.wrapping_add(0x9e37_79b9_7f4a_7c15);
        let mixed = (self.0 ^ self.0 >> 30).wrapping_mul(0xbf58_476d_1ce4_e5b9);
        let mixed = (mixed ^ mixed >> 27).wrapping_mul(0x94d0_49bb_1331_11eb);
        (mixed >> 32) as u32
    }

    /// A number from 0 on, below the limit.
    fn below(&mut self, limit: usize) -> usize {
        self.word() as usize % limit
    }

    /// A word of which each bit is 1 three times in 4.
    fn often(&mut self) -> u32 {
        self.word() | self.word()
    }

    /// A reset word: in reset once in some 1,024 cycles.
    fn reset(&mut self) -> u32 {
        let in_reset = self.word().is_multiple_of(1024);
        self.word() & !1 | u32::from(!in_reset)
    }

    /// One of 4 states of 8 wires, which differ in each pair of wires.
    fn state(&mut self) -> u32 {
        self.word() % 4 * 0x55
    }

    /// A frame whose test state is the one given.
    fn frame(&mut self, state: u32) -> Frame {
        let next_state = self.state();
        let reset = self.reset();
        let events = self.often() & EVENT_WIRES;
        let start = (self.word() & self.word() & self.word()) & 1 << START;
        let test = self.word() | self.word() | self.word();
        let p = events | start | state << STATES;
        let q = test & 0x00ff_ffff | self.state() << STATES;
        let r = self.word() & 0x00ff_ffff | next_state << STATES;
        without_unknown([reset, p, q, r])
    }

    /// A test state for the cycle after the frame.
    fn state_after(&mut self, frame: &Frame) -> u32 {
        if self.word().is_multiple_of(8) {
            self.state()
        } else {
            frame[3] >> STATES
        }
    }

    /// Puts enable, trigger and tracked value on their wires of a frame, which has nothing on the tracked ones.
    fn add_window(&mut self, [reset, p, q, ..]: &mut Frame) {
        let enabled = !self.word().is_multiple_of(16);
        let trigger = self.word().is_multiple_of(8);
        let value = if self.word().is_multiple_of(32) { self.word() as usize % TRACKED_VALUES.len() } else { 0 };
        *reset = *reset & !(1 << ENABLE) | u32::from(enabled) << ENABLE;
        *q = *q & !(1 << TRIGGER) | u32::from(trigger) << TRIGGER;
        *p |= TRACKED_VALUES[value] << TRACKED;
    }
}

/// What a trace is drawn from. Enable, trigger and tracked value have a stream of their own, so that the other signals do
/// not depend on them.
struct Streams {
    base: Generator,
    window: Generator,
}

impl Streams {
    fn new() -> Self {
        Streams { base: Generator(SEED), window: Generator(!SEED) }
    }

    /// A frame whose test state is the one given.
    fn frame(&mut self, state: u32) -> Frame {
        let mut frame = self.base.frame(state);
        self.window.add_window(&mut frame);
        frame
    }

    /// A cycle after `before` that fails or does not, as asked; where none of many draws fails, one that does not.
    fn cycle(&mut self, checkers: &[Config], before: &Cycle, fails: bool) -> Cycle {
        // Out of the draws that are thrown away: a cycle in reset or not enabled never fails, so it would come too often.
        let mut reset = self.frame(0)[0];
        let mut draws = 0;
        loop {
            let cycle = self.draw(checkers, before, reset);
            if cycle.fails == (fails && draws < MOST_DRAWS) {
                return cycle;
            }
            draws += 1;
            // One checker does not fail on every frame, but several can ask for different values of the same wires.
            if draws == DRAWS_TO_RESET {
                reset &= !1;
            }
        }
    }

    /// A cycle after `before`. Where a checker fails, the words of those behind it are not those after the cycle.
    fn draw(&mut self, checkers: &[Config], before: &Cycle, reset: u32) -> Cycle {
        let state = self.base.state_after(&before.frame);
        let mut frame = self.frame(state);
        frame[0] = reset;
        // An event is there in 7 cycles of 8: else too few attempts at 16 events come to the last one, where kind 0 fails.
        frame[1] |= self.base.word() & EVENT_WIRES;
        let mut words = before.words;
        let fails = checkers.iter().zip(&mut words).any(|(config, word)| {
            let mut row = [0];
            plain::bench_step(slice::from_ref(config), &frame, slice::from_mut(word), &mut row)
                .expect("every input's configuration is good");
            fails(row[0])
        });
        Cycle { frame, words, fails }
    }
}
