//! Inputs so small that all of them are compared: configurations, words at their limits, single steps, short traces, the places
//! of impossible words in a record, and edits of a few cycles that are taken back.

use crate::cases::{compare_unaltered, same, same_entries};
use crate::generate::{self, wire, UNUSED};
use crate::host;
use crate::rules::{self, Config, Edit, Frame, Lending, Range, Record, ANSWERS, FRAME_WORDS, LONGEST_WINDOW, STOPPED};
use crate::taken_back::compare_call;
use crate::unknown;

type Outcome = Result<(), String>;

fn compare_open_count(config: Config, word: u64) -> Outcome {
    same("open count", host::open_count(config, word), rules::open_count(config, word))
        .map_err(|d| format!("{config:?}, word {word:#x}: {d}"))
}

/// Refusal and named cycle of a record with these words. With a = b in the middle nothing else is done, and the frames, which
/// are all in reset, are not looked at.
fn compare_kept(config: Config, words: &[u64]) -> Outcome {
    let (trace, rows, at) = (vec![0; FRAME_WORDS * words.len()], vec![77; words.len()], words.len() as u64 / 2);
    let edit = Edit { config, trace: &trace, a: at, b: at };
    let refusal = edit.refusal(&rows, words, &[99; ANSWERS]);
    compare_unaltered(&edit, &rows, words, refusal).map_err(|d| format!("{config:?}, kept words {words:x?}: {d}"))
}

/// Whether a word is possible, seen through its open count and as one of three kept words.
fn compare_word(config: Config, word: u64) -> Outcome {
    compare_open_count(config, word)?;
    compare_kept(config, &[0, 0, word])
}

/// The refusal of a configuration, seen through the open count of word 0, which is always possible: with both severities, the
/// least that is refused, and the greatest. The answer is how many these are.
fn compare_config(config: Config) -> Result<u64, String> {
    let severities = [0, 1, 2, 255];
    for severity in severities {
        compare_open_count(Config { severity, ..config }, 0)?;
    }
    Ok(severities.len() as u64)
}

/// Numbers at and around the limits of n and of min, the one of 1,024 that §5 raised, and one whose lower 16 bits are small.
#[rustfmt::skip]
const BOUNDS: [u32; 16] = [
    0, 1, 2, 3, 31, 32, 33, 1023, 1024, 1025,
    LONGEST_WINDOW - 1, LONGEST_WINDOW, LONGEST_WINDOW + 1, LONGEST_WINDOW + 2, LONGEST_WINDOW + 6, u32::MAX,
];

/// A configuration whose ports are right for this kind and n, if any are.
fn with_right_ports(kind: u8, n: u32) -> Config {
    let p = if kind <= 2 { Range { left: 0, right: n.clamp(1, 32) as u8 - 1 } } else { wire(3) };
    let other = if kind == 6 { wire(5) } else { UNUSED };
    Config { kind, n, p, q: other, r: other, min: 0, value: 0, severity: 0 }
}

/// Every kind, n at and around its limits, and every range of low numbers for one port while the others are right.
fn configs() -> Result<u64, String> {
    let indices: Vec<u8> = (0..=34).chain([63, 64, 255]).collect();
    let mut compared = 0;
    for kind in 0..=255 {
        for n in BOUNDS {
            let right = with_right_ports(kind, n);
            compared += compare_config(right)?;
            // Above 9 the kinds are refused before their ports are looked at; one of them is enough.
            let ranges = if kind <= 9 { indices.as_slice() } else { &[] };
            for (&left, &other) in ranges.iter().flat_map(|left| ranges.iter().map(move |right| (left, right))) {
                let range = Range { left, right: other };
                compared += compare_config(Config { p: range, ..right })?;
                compared += compare_config(Config { q: range, ..right })?;
                compared += compare_config(Config { r: range, ..right })?;
            }
        }
    }
    Ok(compared)
}

/// Every kind, n and min at and around their limits, and values at and around the limits of some widths of P.
fn mins_and_values() -> Result<u64, String> {
    let ranges = [(3, 3), (4, 3), (3, 4), (30, 0), (0, 30), (31, 0), (0, 31)];
    let values = [0, 1, 2, 3, 4, (1 << 31) - 1, 1 << 31, (1 << 31) + 1, u32::MAX];
    let mut compared = 0;
    for (kind, n) in (0..=9).flat_map(|kind| BOUNDS.map(|n| (kind, n))) {
        let right = with_right_ports(kind, n);
        for (min, value) in BOUNDS.iter().flat_map(|&min| values.map(|value| (min, value))) {
            compared += compare_config(Config { min, value, ..right })?;
            for (left, right_end) in ranges {
                compared += compare_config(Config { min, value, p: Range { left, right: right_end }, ..right })?;
            }
        }
    }
    Ok(compared)
}

/// Every kind and every severity, with n at and around its limits.
fn severities() -> Result<u64, String> {
    let mut compared = 0;
    for (kind, n) in (0..=255).flat_map(|kind| BOUNDS.map(|n| (kind, n))) {
        let right = with_right_ports(kind, n);
        for severity in 0..=255 {
            compare_open_count(Config { severity, ..right }, 0)?;
            compared += 1;
        }
    }
    Ok(compared)
}

/// The checker going on, and the same checker fatal.
fn both(config: Config) -> [Config; 2] {
    [0, 1].map(|severity| Config { severity, ..config })
}

/// Small configurations of kinds 0 to 6, in both directions where a port has more than one wire.
fn small_configs() -> Vec<Config> {
    let new = |kind, n, p, q, r| Config { kind, n, p, q, r, min: 0, value: 0, severity: 0 };
    let mut configs = Vec::new();
    for kind in 0..=2 {
        for n in 2..=4 {
            let (low, high) = (3, 3 + n as u8 - 1);
            configs.push(new(kind, n, Range { left: high, right: low }, UNUSED, UNUSED));
            configs.push(new(kind, n, Range { left: low, right: high }, UNUSED, UNUSED));
        }
    }
    for kind in 3..=5 {
        configs.extend((1..=4).map(|n| new(kind, n, wire(31), wire(0), UNUSED)));
    }
    configs.push(new(6, 0, wire(31), wire(0), wire(7)));
    let (p, q, r) = (Range { left: 30, right: 31 }, Range { left: 1, right: 0 }, Range { left: 7, right: 8 });
    configs.push(new(6, 0, p, q, r));
    configs
}

/// Kinds 7 and 8 with every min and max up to 3 on one wire, and some on two wires in both directions.
fn small_windows() -> Vec<Config> {
    let mut configs = Vec::new();
    for (min, n) in (0..=3).flat_map(|n| (0..=n).map(move |min| (min, n))) {
        let window = |kind, value| Config { kind, n, p: wire(31), q: wire(0), r: UNUSED, min, value, severity: 0 };
        configs.extend([window(7, 1), window(8, 0)]);
        // The other value only turns the wire round, so shorter windows are enough for it.
        configs.extend((n <= 2).then_some(window(7, 0)));
    }
    for (min, n) in [(0, 1), (1, 2)] {
        for (left, right, value) in [(30, 31, 1), (1, 0, 2)] {
            let (p, q) = (Range { left, right }, wire(7));
            let wide = |kind, value| Config { kind, n, p, q, r: UNUSED, min, value, severity: 0 };
            configs.extend([wide(7, value), wide(8, 0)]);
        }
    }
    configs
}

/// What a bit of a frame can be.
#[derive(Clone, Copy, PartialEq)]
enum Bits {
    /// 0 or 1.
    Known,
    /// 0, 1, or unknown with a value bit 1 under it: that one is told from a 0 where a start or a trigger is read.
    Three,
    /// 0, 1, or unknown with either value bit under it.
    Four,
}

impl Bits {
    /// Words of this range with their unknown bits.
    fn words(self, range: Range) -> Vec<(u32, u32)> {
        let all = 1 << range.width();
        let unknown = if self == Bits::Known { 0..1 } else { 0..all };
        let pairs = unknown.flat_map(|unknown| (0..all).map(move |value| (value, unknown)));
        let taken = |(value, unknown): &(u32, u32)| self != Bits::Three || value & unknown == *unknown;
        pairs.filter(taken).map(|(value, unknown)| (range.wires(value), range.wires(unknown))).collect()
    }
}

/// Every frame of such bits that a checker can tell from others, and one with reset_n 0. Kinds 7 and 8 take no notice of the
/// ports where enable is 0, nor of enable where reset_n is 0, but a wrong check would: so these are varied too. With unknown
/// bits, there is one with an unknown reset_n as well, and all wires that are not read are unknown.
fn all_frames(config: Config, bits: Bits) -> Vec<Frame> {
    let words = |range: Range, used: bool| if used { bits.words(range) } else { vec![(0, 0)] };
    let (enable, q, r) = (words(wire(1), config.is_after_trigger()), words(config.q, config.kind > 2), config.kind == 6);
    let mut frames = vec![rules::known([!1, u32::MAX, u32::MAX, u32::MAX])];
    frames.extend(config.is_after_trigger().then_some([0; FRAME_WORDS]));
    frames.extend((bits != Bits::Known).then_some([u32::MAX, u32::MAX, u32::MAX, u32::MAX, 1, 0, 0, 0]));
    for (p, p_x) in words(config.p, true) {
        for &(q, q_x) in &q {
            for (r, r_x) in words(config.r, r) {
                frames.extend(enable.iter().map(|&(e, e_x)| [1 | e, p, q, r, e_x, p_x, q_x, r_x]));
            }
        }
    }
    if bits != Bits::Known {
        let read = unknown::read_wires(config);
        frames.iter_mut().for_each(|frame| (0..4).for_each(|i| frame[i + rules::TO_UNKNOWN] |= !read[i]));
    }
    frames
}

fn words_to_try(config: Config) -> Vec<u64> {
    let mut words: Vec<u64> = (0..40).collect();
    if config.kind == 6 {
        words.extend((1 << 32)..(1 << 32) + 6);
    }
    if config.is_after_trigger() {
        words.extend((0..6).flat_map(|r| (0..6).map(move |left| rules::with_reference(left, r))));
        words.extend([1 << 16 | 1, 1 << 47 | 1, rules::with_reference(1, 1 << 32), rules::with_reference(1, 1) | 1 << 49]);
    }
    if config.kind >= 6 {
        words.push(1 << 33);
    }
    words.extend([STOPPED >> 1, STOPPED, STOPPED + 1, u64::MAX]);
    words
}

/// Words at the limits and one beyond, and each of them with one bit turned round.
fn words_at_limits(config: Config) -> Vec<u64> {
    let mut words = generate::limit_words(config);
    let turned: Vec<u64> = words.iter().flat_map(|word| (0..64).map(move |bit| word ^ 1 << bit)).collect();
    words.extend(turned);
    words
}

/// Windows of kinds 7 and 8 of all sorts, on few wires and on many.
fn all_sorts_of_windows() -> Vec<Config> {
    let longest = [0, 1, 50_000, LONGEST_WINDOW - 1, LONGEST_WINDOW].map(|min| (min, LONGEST_WINDOW));
    let limits = [(0, 0), (0, 3), (1, 3), (3, 3), (0, 1024), (0, 1025), (1000, 1025), (0, LONGEST_WINDOW - 1)];
    let limits: Vec<(u32, u32)> = limits.into_iter().chain(longest).collect();
    let mut configs = Vec::new();
    for (width, &(min, n)) in
        [1, 2, 16, 31, 32].into_iter().flat_map(|width| limits.iter().map(move |limit| (width, limit)))
    {
        let p = Range { left: width - 1, right: 0 };
        configs.extend([7, 8].map(|kind| Config { kind, n, p, q: wire(9), r: UNUSED, min, value: 0, severity: 0 }));
    }
    configs
}

/// Every kind with the most wires, where n is not a window.
fn widest() -> Vec<Config> {
    let (p, all) = (Range { left: 31, right: 0 }, Range { left: 0, right: 31 });
    let new = |kind, n, other| Config { kind, n, p, q: other, r: other, min: 0, value: 0, severity: 0 };
    vec![new(0, 32, UNUSED), new(1, 32, UNUSED), new(2, 32, UNUSED), new(6, 0, all)]
}

/// Which words are possible, for checkers of all sorts.
fn words() -> Result<u64, String> {
    let mut compared = 0;
    let windows = [small_windows(), longest_windows(), all_sorts_of_windows()].concat();
    let configs = [small_configs(), widest(), windows].concat();
    for config in configs.into_iter().flat_map(both) {
        for word in words_at_limits(config) {
            compare_word(config, word)?;
            compared += 1;
        }
    }
    Ok(compared)
}

/// The longest window of every kind that has one.
fn longest_windows() -> Vec<Config> {
    let (n, p, q) = (LONGEST_WINDOW, wire(31), wire(0));
    let window = |kind, min| Config { kind, n, p, q, r: UNUSED, min, value: 0, severity: 0 };
    let mut configs: Vec<Config> = (3..=5).map(|kind| window(kind, 0)).collect();
    configs.extend([0, 1, LONGEST_WINDOW - 1, LONGEST_WINDOW].into_iter().flat_map(|min| [window(7, min), window(8, min)]));
    configs
}

/// Every frame from every word; and whether the word is possible.
fn steps(config: Config) -> Result<u64, String> {
    Ok(steps_from(config, words_to_try(config), Bits::Known)? + steps_from(config, words_to_try(config), Bits::Four)?)
}

/// The same for a longest window: from the words with the most cycles left, the fewest, and 65,536; and from 2^63.
fn longest_steps(config: Config) -> Result<u64, String> {
    let longest = u64::from(LONGEST_WINDOW);
    let lefts = [0, 1, 2, longest - 1, longest, longest + 1];
    let held = lefts.into_iter().flat_map(|left| [0, 1].map(|reference| rules::with_reference(left, reference)));
    let words = lefts.into_iter().chain(held.filter(|_| config.is_after_trigger())).chain([STOPPED]).collect();
    steps_from(config, words, Bits::Three)
}

fn steps_from(config: Config, words: Vec<u64>, bits: Bits) -> Result<u64, String> {
    let mut compared = 0;
    for &word in &words {
        compare_word(config, word)?;
    }
    for frame in all_frames(config, bits) {
        for &word in &words {
            let (mut bytes, mut expected) = (word.to_le_bytes(), word.to_le_bytes());
            let context = |d| format!("step, {config:?}, frame {frame:x?}, word {word:#x}: {d}");
            let answer = host::step(config, frame, &mut bytes).map_err(context)?;
            same("answer", answer, rules::step(config, frame, &mut expected)).map_err(context)?;
            same_entries("word", &bytes, &expected).map_err(context)?;
            compared += 1;
        }
    }
    Ok(compared)
}

/// The frames that traces are made of: of those of kinds 7 and 8 with enable 0, only the ones with a trigger. The others are
/// left to the single steps, so that the traces can be longer.
fn trace_frames(config: Config, bits: Bits) -> Vec<Frame> {
    let mut frames = all_frames(config, bits);
    frames.retain(|frame| !config.is_after_trigger() || frame[0] & 2 != 0 || frame[2] != 0);
    frames
}

/// Every trace of so many cycles that there are at most `most` of them.
fn all_traces(config: Config, bits: Bits, most: usize) -> impl Iterator<Item = Vec<u32>> {
    let frames = trace_frames(config, bits);
    let cycles = (1..).take_while(|&cycles| frames.len().pow(cycles) <= most).last().unwrap_or(1);
    (0..frames.len().pow(cycles)).map(move |number| {
        let frame_of = |t: u32| frames[number / frames.len().pow(t) % frames.len()];
        (0..cycles).flat_map(frame_of).collect()
    })
}

fn traces(config: Config) -> Result<u64, String> {
    let mut compared = 0;
    // Enough for 4 cycles of 4 events, for 6 cycles of start and test, and for 5 cycles of a window on one wire; and with
    // unknown bits for 3 cycles of 3 events, for 4 cycles of start and test, and for 3 cycles of a window on one wire.
    let most = if config.is_time() { 20_000 } else { 100_000 };
    let known = all_traces(config, Bits::Known, most);
    for trace in known.chain(all_traces(config, Bits::Three, 25_000)) {
        compare_trace(config, &trace).map_err(|d| format!("{config:?}, trace {trace:x?}: {d}"))?;
        compared += 1;
    }
    Ok(compared)
}

/// Every edit of one frame in every trace of fewer cycles, from its true record.
fn rechecks(config: Config) -> Result<u64, String> {
    // With unknown bits there are too many frames for two wires of each port.
    let with_unknown = if trace_frames(config, Bits::Three).len() > 100 { 0 } else { rechecks_of(config, Bits::Three)? };
    Ok(rechecks_of(config, Bits::Known)? + with_unknown)
}

fn rechecks_of(config: Config, bits: Bits) -> Result<u64, String> {
    let (frames, mut compared) = (trace_frames(config, bits), 0);
    for old in all_traces(config, bits, 1_000) {
        let kept = rules::true_record(config, &old);
        let cycles = old.len() / FRAME_WORDS;
        for (t, frame) in (0..cycles).flat_map(|t| frames.iter().map(move |frame| (t, frame))) {
            let mut trace = old.clone();
            trace[FRAME_WORDS * t..FRAME_WORDS * (t + 1)].copy_from_slice(frame);
            let edit = Edit { config, trace: &trace, a: t as u64, b: t as u64 + 1 };
            compare_recheck(&edit, &kept).map_err(|d| format!("{config:?}, {old:x?} made {trace:x?} in cycle {t}: {d}"))?;
            compared += 1;
        }
    }
    Ok(compared)
}

/// Every choice of impossible words in the true record of three cycles, and of none, with every a and b up to 4: also those
/// of refusal 6, which comes first.
fn spoiled_records(config: Config) -> Result<u64, String> {
    let frames = trace_frames(config, Bits::Known);
    let trace = [frames[1], frames[frames.len() / 2], frames[frames.len() - 1]].concat();
    let Record { rows, words } = rules::true_record(config, &trace);
    let impossible = generate::limit_words_that(config, false);
    let mut compared = 0;
    for (word, chosen) in [impossible[0], u64::MAX].into_iter().flat_map(|word| (0..8).map(move |chosen| (word, chosen))) {
        let spoiled = words.iter().enumerate().map(|(t, right)| if chosen >> t & 1 == 1 { word } else { *right });
        let kept = Record { rows: rows.clone(), words: spoiled.collect() };
        for (a, b) in (0..=4).flat_map(|a| (0..=4).map(move |b| (a, b))) {
            let words = &kept.words;
            compare_recheck(&Edit { config, trace: &trace, a, b }, &kept)
                .map_err(|d| format!("{config:?}, trace {trace:x?}, a {a}, b {b}, kept words {words:x?}: {d}"))?;
            compared += 1;
        }
    }
    Ok(compared)
}

/// The call that takes an edit back, from the true record of a trace.
fn compare_taken_back(config: Config, trace: &[u32], a: u64, b: u64, samples: &[u32]) -> Outcome {
    let Record { rows, words } = rules::true_record(config, trace);
    let lending = Lending { trace: trace.to_vec(), rows, words, samples: samples.to_vec() };
    compare_call(config, a, b, &lending)
        .map(|_| ())
        .map_err(|d| format!("take back, {config:?}, trace {trace:x?}, a {a}, b {b}, samples {samples:x?}: {d}"))
}

/// Edits of a trace of three cycles that are taken back, with every a and b up to 4 and every number of samples up to that of
/// four cycles and a word; and every edit of one frame in every trace of fewer cycles.
fn taken_back(config: Config) -> Result<u64, String> {
    let frames = trace_frames(config, Bits::Known);
    let [first, middle, last] = [1, frames.len() / 2, frames.len() - 1].map(|i| frames[i]);
    let (trace, samples) = ([first, middle, last].concat(), [last, first, middle, first, last].concat());
    let mut compared = 0;
    for (a, b) in (0..=4).flat_map(|a| (0..=4).map(move |b| (a, b))) {
        for len in 0..=4 * FRAME_WORDS + 1 {
            compare_taken_back(config, &trace, a, b, &samples[..len])?;
            compared += 1;
        }
    }
    for old in all_traces(config, Bits::Known, 60) {
        for (t, frame) in (0..old.len() / FRAME_WORDS).flat_map(|t| frames.iter().map(move |frame| (t as u64, frame))) {
            compare_taken_back(config, &old, t, t + 1, frame)?;
            compared += 1;
        }
    }
    Ok(compared)
}

/// No impossible word, and one in every place, of records of all these lengths: the words may be tested in blocks of any
/// size. And two in every two places of a record of 40 cycles.
fn spoiled_places(config: Config) -> Result<u64, String> {
    let [possible, impossible] = [true, false].map(|are_possible| generate::limit_words_that(config, are_possible));
    let mut compared = 0;
    for cycles in (0..=130).chain([1_100]) {
        let right: Vec<u64> = (0..cycles).map(|t| possible[t % possible.len()]).collect();
        compare_kept(config, &right)?;
        for t in 0..cycles {
            let mut words = right.clone();
            words[t] = impossible[t % impossible.len()];
            compare_kept(config, &words)?;
            if cycles == 40 {
                compared += spoiled_again(config, &words, t, impossible[0])?;
            }
        }
        compared += 1 + cycles as u64;
    }
    Ok(compared)
}

/// A second impossible word in every place behind the first.
fn spoiled_again(config: Config, words: &[u64], first: usize, word: u64) -> Result<u64, String> {
    for t in first + 1..words.len() {
        let mut words = words.to_vec();
        words[t] = word;
        compare_kept(config, &words)?;
    }
    Ok((words.len() - first - 1) as u64)
}

/// From a true record, or a spoiled one.
fn compare_recheck(edit: &Edit, kept: &Record) -> Outcome {
    let (mut rows, mut words, mut answer) = (kept.rows.clone(), kept.words.clone(), [99; ANSWERS]);
    let (mut due_rows, mut due_words, mut due) = (kept.rows.clone(), kept.words.clone(), [99; ANSWERS]);
    let refusal = edit.recheck_true(&mut due_rows, &mut due_words, &mut due);
    same("answer of recheck", host::recheck(edit, &mut rows, &mut words, &mut answer)?, refusal)?;
    same_entries("e and changes", &answer, &due)?;
    same_entries("rows", &rows, &due_rows)?;
    same_entries("words", &words, &due_words)
}

/// Full check and failure list of one trace.
fn compare_trace(config: Config, trace: &[u32]) -> Outcome {
    let cycles = trace.len() / FRAME_WORDS;
    let (mut rows, mut words) = (vec![77; cycles], vec![77; cycles]);
    let record = rules::true_record(config, trace);
    same("answer of check", host::check(config, trace, &mut rows, &mut words)?, 0)?;
    same_entries("rows", &rows, &record.rows)?;
    same_entries("words", &words, &record.words)?;
    let (mut list, mut expected) = ([99; 50], [99; 50]);
    let due = rules::failures(config, trace, &mut expected);
    same("answer of failures", host::failures(config, trace, &mut list)?, due)?;
    same_entries("list", &list, &expected)
}

fn compare_all() -> Result<String, String> {
    let configs = configs()? + mins_and_values()? + severities()?;
    let words = words()?;
    let mut counts = [0; 5];
    for config in small_configs().into_iter().chain(small_windows()).flat_map(both) {
        for (count, compare) in counts.iter_mut().zip([steps, traces, rechecks, spoiled_records, taken_back]) {
            *count += compare(config)?;
        }
    }
    for config in longest_windows().into_iter().flat_map(both) {
        counts[0] += longest_steps(config)?;
    }
    for config in longest_windows().into_iter().chain(widest()).flat_map(both) {
        counts[3] += spoiled_places(config)?;
    }
    let [steps, traces, rechecks, spoiled, taken_back] = counts;
    Ok(format!(
        "{configs} configurations, {words} words, {steps} steps, {traces} traces, {rechecks} rechecks, \
         {spoiled} spoiled records, {taken_back} edits taken back"
    ))
}

pub fn compare() -> Result<String, String> {
    compare_all().map_err(|d| format!("all small inputs: {d}"))
}
