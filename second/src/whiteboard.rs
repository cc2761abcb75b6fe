//! The whiteboard table of document 01 and the examples under it. The numbers are the document's, but for the rows of case
//! H, which §2 of document 02 changes: "Case H becomes 4 0 20 0 20 0, same words." A second table has cases of kinds 7 and 8,
//! worked by hand from the sentences of §4, a third has the longest windows, from those of §5, a fourth fatal checkers,
//! from those of §7, a fifth records of other checkers, from those of §6, and a sixth, in a file of its own, unknown bits, from
//! those of §8; a seventh, in a file of its own too, has edits that are taken back and two edits in either order, from those of
//! §12. The library and the rules are both held against them.

mod taken_back;
mod unknown_bits;

use crate::generate::{wire, UNUSED};
use crate::host;
use crate::rules::{self, known, Config, Edit, Frame, Range, Record, Refusal, ANSWERS, DONE, FRAME_WORDS, TO_UNKNOWN};
use std::fmt::Debug;

type Outcome = Result<(), String>;

const STORED: u64 = 1 << 32;
/// The word of a fatal checker from its failing cycle on.
const S: u64 = 1 << 63;

fn is<T: PartialEq + Debug>(what: &str, given: T, due: T) -> Outcome {
    if given == due {
        return Ok(());
    }
    Err(format!("{what}: it is {given:?}, due is {due:?}"))
}

fn are<T: PartialEq + Debug>(what: &str, given: &[T], due: &[T]) -> Outcome {
    if given == due {
        return Ok(());
    }
    let different = given.iter().zip(due).position(|(g, d)| g != d);
    Err(format!("{what}: not what is due from entry {different:?} on (None: their lengths differ)"))
}

struct Line {
    name: &'static str,
    config: Config,
    trace: Vec<u32>,
    rows: Vec<u32>,
    words: Vec<u64>,
}

fn line(name: &'static str, config: Config, trace: Vec<u32>, rows: &[u32], words: &[u64]) -> Line {
    Line { name, config, trace, rows: rows.to_vec(), words: words.to_vec() }
}

const THREE_WIRES: Range = Range { left: 2, right: 0 };

fn sequence(kind: u8, n: u32, left: u8, right: u8) -> Config {
    Config { kind, n, p: Range { left, right }, q: UNUSED, r: UNUSED, min: 0, value: 0, severity: 0 }
}

fn time(kind: u8, n: u32) -> Config {
    Config { kind, n, p: wire(0), q: wire(0), r: UNUSED, min: 0, value: 0, severity: 0 }
}

fn transition() -> Config {
    Config { kind: 6, n: 0, p: THREE_WIRES, q: THREE_WIRES, r: THREE_WIRES, min: 0, value: 0, severity: 0 }
}

fn value(min: u32, max: u32, value: u32) -> Config {
    Config { kind: 7, n: max, p: THREE_WIRES, q: wire(0), r: UNUSED, min, value, severity: 0 }
}

fn stability(min: u32, max: u32) -> Config {
    Config { kind: 8, n: max, p: THREE_WIRES, q: wire(0), r: UNUSED, min, value: 0, severity: 0 }
}

/// The same checker with severity 1.
fn fatal(config: Config) -> Config {
    Config { severity: 1, ..config }
}

/// Frames with reset_n 1; a port without samples is 0.
fn frames(p: &[u32], q: &[u32], r: &[u32]) -> Vec<u32> {
    let sample = |port: &[u32], t: usize| port.get(t).copied().unwrap_or(0);
    (0..p.len()).flat_map(|t| known([1, p[t], sample(q, t), sample(r, t)])).collect()
}

/// Frames with reset_n 1, and enable, trigger and tracked value as given.
fn window_frames([enable, trigger, tracked]: [&[u32]; 3]) -> Vec<u32> {
    (0..enable.len()).flat_map(|t| known([1 + 2 * enable[t], tracked[t], trigger[t], 0])).collect()
}

const A: [u32; 6] = [8, 4, 10, 5, 2, 1];
const D: [u32; 6] = [4, 6, 5, 4, 4, 4];

fn sequence_lines() -> Vec<Line> {
    let line = |name, config, samples: &[u32], rows: &[u32], words: &[u64]| {
        line(name, config, frames(samples, &[], &[]), rows, words)
    };
    vec![
        line("A", sequence(1, 4, 3, 0), &A, &[4, 0, 4, 0, 0, 0], &[1, 2, 5, 2, 4, 0]),
        line("B", sequence(0, 4, 3, 0), &A, &[0, 0, 4, 0, 4, 0], &[1, 2, 5, 2, 4, 0]),
        line("C", sequence(1, 4, 0, 3), &A, &[0, 0, 0, 4, 0, 5], &[0, 0, 0, 1, 2, 1]),
        line("D", sequence(2, 3, 2, 0), &D, &[4, 0, 0, 4, 1, 4], &[1, 2, 0, 1, 0, 1]),
        line("E", sequence(1, 3, 2, 0), &D, &[4, 4, 5, 5, 5, 5], &[1, 3, 1, 1, 1, 1]),
        line("F", sequence(0, 3, 2, 0), &[4, 6, 0], &[0, 4, 1], &[1, 3, 0]),
    ]
}

/// The samples of G, H and I.
fn g() -> Vec<u32> {
    frames(&[1, 0, 1, 0, 1, 0], &[0, 1, 0, 1, 1, 1], &[])
}

fn other_lines() -> Vec<Line> {
    vec![
        line("G", time(3, 3), g(), &[4, 0, 1, 8, 4, 0], &[3, 2, 1, 0, 3, 2]),
        line("H", time(4, 3), g(), &[4, 0, 20, 0, 20, 0], &[3, 2, 3, 2, 3, 2]),
        line("I", time(5, 3), g(), &[4, 0, 3, 8, 4, 0], &[3, 2, 1, 0, 3, 2]),
        line("J", time(3, 1), frames(&[1, 1, 1], &[1, 1, 0], &[]), &[4, 8, 4], &[1, 0, 1]),
        line(
            "K",
            transition(),
            frames(&[3, 4, 3, 0, 3], &[3; 5], &[4, 4, 0, 4, 4]),
            &[4, 0, 4, 0, 4],
            &[STORED + 4, 0, STORED, 0, STORED + 4],
        ),
        line("L", transition(), frames(&[3, 3], &[3, 3], &[4, 4]), &[4, 5], &[STORED + 4, STORED + 4]),
    ]
}

/// The cases of kinds 7 and 8, on P [2:0]; the three rows of samples are enable, trigger and tracked value. Where no cycle is
/// named as accepted, s is 0.
///
/// M: min is 1, so the 2 in cycle 0 is not tested; cycles 1 to 3 have the value 5, and cycle 3 is s+max.
/// N: wrong in cycles 1 and 3, right in cycle 2 between them; the 4 in cycle 4 is behind the window.
/// O: enable is 0 in cycle 1, so its 0 is not tested, but it counts: s+max is cycle 3, which is wrong. The trigger in cycle
///    2 is in the window; in cycle 4 it is not seen, for enable is 0; in cycle 5 it opens a window that stays open.
/// P: each enabled trigger opens and closes a window of one cycle, also in cycle 1 next to that of cycle 0; in cycle 1 the
///    value is wrong in the trigger cycle itself; in cycle 4 enable is 0.
/// Q: s+min is cycle 1, where enable is 0, so the reference is the 6 of cycle 2. In cycle 3 enable is 0, so its 1 is not
///    compared; the 5 in cycle 4 is, at s+max. The 4 of cycle 1 would have failed cycle 4 too, but is not in the words.
/// R: min is 0, so the reference is the 3 of cycle 0. The trigger in cycle 2 is at s+max and ignored. The one in cycle 3 is
///    accepted, with the reference 5, from which the 2 at its s+max differs.
fn window_lines() -> Vec<Line> {
    let line = |name, config, samples: [&[u32]; 3], rows: &[u32], words: &[u64]| {
        line(name, config, window_frames(samples), rows, words)
    };
    let m: [&[u32]; 3] = [&[1, 1, 1, 1, 1], &[1, 0, 0, 0, 0], &[2, 5, 5, 5, 0]];
    let n: [&[u32]; 3] = [&[1, 1, 1, 1, 1], &[1, 0, 0, 0, 0], &[5, 4, 5, 7, 4]];
    let o: [&[u32]; 3] = [&[1, 0, 1, 1, 0, 1], &[1, 0, 1, 0, 1, 1], &[5, 0, 5, 4, 5, 5]];
    let p: [&[u32]; 3] = [&[1, 1, 1, 1, 0], &[1, 1, 0, 1, 1], &[5, 4, 4, 5, 4]];
    let q: [&[u32]; 3] = [&[1, 0, 1, 0, 1, 1], &[1, 0, 0, 0, 0, 0], &[3, 4, 6, 1, 5, 6]];
    let r: [&[u32]; 3] = [&[1, 1, 1, 1, 1, 1], &[1, 0, 1, 1, 0, 0], &[3, 3, 3, 5, 5, 2]];
    vec![
        line("M", value(1, 3, 5), m, &[4, 0, 0, 8, 0], &[3, 2, 1, 0, 0]),
        line("N", value(1, 3, 5), n, &[4, 1, 0, 9, 0], &[3, 2, 1, 0, 0]),
        line("O", value(1, 3, 5), o, &[4, 0, 0, 9, 0, 4], &[3, 2, 1, 0, 0, 3]),
        line("P", value(0, 0, 5), p, &[12, 13, 0, 12, 0], &[0, 0, 0, 0, 0]),
        line("Q", stability(1, 4), q, &[4, 0, 0, 0, 9, 0], &Q_WORDS),
        line("R", stability(0, 2), r, &[4, 0, 8, 4, 0, 9], &R_WORDS),
    ]
}

/// The reference 6 with 2 cycles left is 2^48 + 6 × 2^16 + 2.
const Q_WORDS: [u64; 6] = [4, 3, 281_474_977_103_874, 281_474_977_103_873, 0, 0];
const R_WORDS: [u64; 6] = [281_474_976_907_266, 281_474_976_907_265, 0, 281_474_977_038_338, 281_474_977_038_337, 0];

/// A full check by the library, by the rules, and by single steps of the library.
fn check_line(line: &Line) -> Outcome {
    let cycles = line.trace.len() / FRAME_WORDS;
    let (mut rows, mut words) = (vec![77; cycles], vec![77; cycles]);
    is("answer", host::check(line.config, &line.trace, &mut rows, &mut words)?, 0)?;
    are("rows of the library", &rows, &line.rows)?;
    are("words of the library", &words, &line.words)?;
    let record = rules::true_record(line.config, &line.trace);
    are("rows of the rules", &record.rows, &line.rows)?;
    are("words of the rules", &record.words, &line.words)?;
    let mut bytes = [0; 8];
    for t in 0..cycles {
        let frame = rules::frame_at(&line.trace, t);
        is("row of a step", host::step(line.config, frame, &mut bytes)?, line.rows[t])?;
        is("word of a step", u64::from_le_bytes(bytes), line.words[t])?;
    }
    Ok(())
}

/// The list of a trace, as (cycle, mark, start).
fn check_list(config: Config, trace: &[u32], list: &[u32]) -> Outcome {
    let mut by_host = vec![99; list.len()];
    is("number of entries", host::failures(config, trace, &mut by_host)?, list.len() as u64 / 3)?;
    are("list of the library", &by_host, list)?;
    are("list of the rules", &rules::entries(config, trace).concat(), list)
}

/// Who rechecks a true record, and who rechecks any: only a true one may be checked anew from cycle 0.
const OF_TRUE: [&str; 3] = ["the library", "the rules", "the rules from the kept word"];
const OF_ANY: [&str; 3] = ["the library", "the rules from the kept word", "the rules by single steps"];

/// What is due from a recheck.
struct Due<'a> {
    refusal: Refusal,
    rows: &'a [u32],
    words: &'a [u64],
    answer: [i32; ANSWERS],
}

fn check_kept(edit: &Edit, kept: &Record, all: [&str; 3], due: Due) -> Outcome {
    for by in all {
        let (mut r, mut w, mut x) = (kept.rows.clone(), kept.words.clone(), NO_ANSWER);
        let refusal = match by {
            "the library" => host::recheck(edit, &mut r, &mut w, &mut x)?,
            "the rules" => edit.recheck_true(&mut r, &mut w, &mut x),
            "the rules from the kept word" => edit.recheck_any(&mut r, &mut w, &mut x),
            _ => edit.recheck_by_steps(&mut r, &mut w, &mut x),
        };
        is(&format!("refusal and named cycle of {by}"), refusal, due.refusal)?;
        are(&format!("e and changes of {by}"), &x, &due.answer)?;
        are(&format!("rows of {by}"), &r, due.rows)?;
        are(&format!("words of {by}"), &w, due.words)?;
    }
    Ok(())
}

/// e and five changes; where no wire is unknown, the sixth is 0: "A trace without unknowns has the rows it had before."
fn without_32([e, failed, illegal, opened, closed, restarted]: [i32; 6]) -> [i32; ANSWERS] {
    [e, failed, illegal, opened, closed, restarted, 0]
}

/// A recheck of the true record of `old` after the edit from a to b, without unknown bits.
fn check_recheck(edit: &Edit, old: &[u32], rows: &[u32], words: &[u64], answer: [i32; 6]) -> Outcome {
    check_changes(edit, old, rows, words, without_32(answer))
}

/// The same with all six changes.
fn check_changes(edit: &Edit, old: &[u32], rows: &[u32], words: &[u64], answer: [i32; ANSWERS]) -> Outcome {
    let kept = rules::true_record(edit.config, old);
    check_kept(edit, &kept, OF_TRUE, Due { refusal: DONE, rows, words, answer })
}

/// What stands in the slice of answers before a call.
const NO_ANSWER: [i32; ANSWERS] = [99; ANSWERS];

/// A recheck that is refused: "A refusal writes nothing".
fn check_refused(edit: &Edit, kept: &Record, number: u32, cycle: u32) -> Outcome {
    let (refusal, answer) = (Refusal { number, cycle }, NO_ANSWER);
    check_kept(edit, kept, OF_ANY, Due { refusal, rows: &kept.rows, words: &kept.words, answer })
}

/// "Samples of F under kind 1 list (2,1,0), (2,1,1). C lists (5,1,3)." and the two rechecks after it.
fn examples() -> Outcome {
    check_list(sequence(1, 3, 2, 0), &frames(&[4, 6, 0], &[], &[]), &[2, 1, 0, 2, 1, 1])?;
    check_list(sequence(1, 4, 0, 3), &frames(&A, &[], &[]), &[5, 1, 3])?;

    let (old, new) = (frames(&A, &[], &[]), frames(&[8, 4, 2, 5, 2, 1], &[], &[]));
    let edit = Edit { config: sequence(1, 4, 3, 0), trace: &new, a: 2, b: 3 };
    check_recheck(&edit, &old, &[4, 0, 0, 0, 0, 0], &[1, 2, 4, 0, 0, 0], [6, 0, 0, -1, 0, 0])?;

    let (old, new) = (frames(&[1; 6], &[1; 6], &[]), frames(&[0, 1, 1, 1, 1, 1], &[1; 6], &[]));
    let config = time(3, 2);
    are("words before the edit", &rules::true_record(config, &old).words, &[2, 1, 0, 2, 1, 0])?;
    let edit = Edit { config, trace: &new, a: 0, b: 1 };
    check_recheck(&edit, &old, &[0, 4, 0, 8, 4, 0], &[0, 2, 1, 0, 2, 1], [6, 0, 0, 0, -1, 0])
}

/// Configurations with the refusal that is due, each with a trace of no cycles.
fn check_limits(limits: impl IntoIterator<Item = (Config, u32)>) -> Outcome {
    for (config, due) in limits {
        is(&format!("{config:?} by the library"), host::check(config, &[], &mut [], &mut [])?, due)?;
        is(&format!("{config:?} by the rules"), config.refusal(), due)?;
    }
    Ok(())
}

/// Open words with the answer of open count that is due.
fn check_counts(counts: impl IntoIterator<Item = (Config, u64, u32)>) -> Outcome {
    for (config, word, due) in counts {
        is(&format!("{config:?}, word {word:#x} by the library"), host::open_count(config, word), due)?;
        is(&format!("{config:?}, word {word:#x} by the rules"), rules::open_count(config, word), due)?;
    }
    Ok(())
}

/// "Limits: kind 1 takes n 2 and 32, not 1 or 33; kind 3 takes 1 and 1,024, not 0 or 1,025; N 65,536 passes and 65,537 is
/// refused; a=b=N=0 gives e=0." By §5 kind 3 takes 1,025 as well; `longest_limits` has its new limit.
fn limits() -> Outcome {
    let at = |n: u32| sequence(1, n, (n - 1).min(31) as u8, 0);
    let limits = [(at(2), 0), (at(32), 0), (at(1), 2), (at(33), 2)];
    let times = [(time(3, 1), 0), (time(3, 1024), 0), (time(3, 0), 2), (time(3, 1025), 0)];
    check_limits(limits.into_iter().chain(times))?;
    for (cycles, due) in [(65_536, 0), (65_537, 4)] {
        let trace = vec![1; FRAME_WORDS * cycles];
        let (mut rows, mut words) = (vec![0; cycles], vec![0; cycles]);
        is("N by the library", host::check(at(2), &trace, &mut rows, &mut words)?, due)?;
        is("N by the rules", rules::check(at(2), &trace, &mut rows, &mut words), due)?;
    }
    let edit = Edit { config: at(2), trace: &[], a: 0, b: 0 };
    check_recheck(&edit, &[], &[], &[], [0; 6])
}

/// The failures of M to R: "The listed start is the trigger cycle."
fn window_lists(lines: &[Line]) -> Outcome {
    let lists: [(&str, &[u32]); 6] = [
        ("M", &[]),
        ("N", &[1, 1, 0, 3, 1, 0]),
        ("O", &[3, 1, 0]),
        ("P", &[1, 1, 1]),
        ("Q", &[4, 1, 0]),
        ("R", &[5, 1, 3]),
    ];
    for (line, (name, list)) in lines.iter().zip(lists) {
        is("order of the cases", line.name, name)?;
        check_list(line.config, &line.trace, list).map_err(|d| format!("case {name}: {d}"))?;
    }
    Ok(())
}

/// Windows of two cycles that stand next to each other, until the first trigger is taken away: then all are a cycle later,
/// and no word is as it was, to the end of the trace.
fn window_recheck() -> Outcome {
    let trace = |trigger: &[u32]| window_frames([&[1; 6], trigger, &[5; 6]]);
    let (old, new) = (trace(&[1; 6]), trace(&[0, 1, 1, 1, 1, 1]));
    let config = value(0, 1, 5);
    are("words before the edit", &rules::true_record(config, &old).words, &[1, 0, 1, 0, 1, 0])?;
    let edit = Edit { config, trace: &new, a: 0, b: 1 };
    check_recheck(&edit, &old, &[0, 4, 8, 4, 8, 4], &[0, 1, 0, 1, 0, 1], [6, 0, 0, 0, -1, 0])
}

/// Configurations of §4 at and beyond each limit, with the refusal that is due.
fn window_limits() -> Outcome {
    let nine = Config { kind: 9, ..value(0, 0, 0) };
    let wide = |expected, width: u8| Config { p: Range { left: 0, right: width - 1 }, ..value(0, 3, expected) };
    let limits = [
        (nine, 1),
        (value(0, 0, 7), 0),
        (value(1024, 1024, 0), 0),
        (value(0, 1025, 0), 0),
        (value(4, 3, 0), 2),
        (value(1025, 1025, 0), 0),
        (value(0, 3, 8), 3),
        (wide(1, 1), 0),
        (wide(2, 1), 3),
        (wide(u32::MAX, 32), 0),
        (stability(0, 0), 0),
        (stability(1, 0), 2),
        (Config { value: 1, ..stability(0, 3) }, 3),
        (Config { min: 1, ..time(3, 3) }, 2),
        (Config { value: 1, ..time(3, 3) }, 3),
        (Config { min: 1, value: 1, ..transition() }, 2),
        (Config { q: Range { left: 1, right: 0 }, ..stability(0, 3) }, 3),
        (Config { r: wire(1), ..stability(0, 3) }, 3),
    ];
    check_limits(limits)
}

/// Words of windows at and beyond each limit, with the answer of open count that is due: 1792 is refusal 7.
fn window_words() -> Outcome {
    const HELD: u64 = 1 << 48;
    let counts = [
        (value(1, 3, 5), 3, 1),
        (value(1, 3, 5), 4, 1792),
        (value(0, 0, 5), 1, 1792),
        (stability(1, 3), 0, 0),
        (stability(1, 3), 3, 1),
        (stability(1, 3), 4, 1792),
        (stability(0, 3), 3, 1),
        (stability(0, 3), 1, 1),
        (stability(0, 3), 4, 1792),
        (stability(0, 0), 1, 1792),
        (stability(0, 3), HELD + 3, 1),
        (stability(1, 3), HELD + (7 << 16) + 2, 1),
        (stability(1, 3), HELD + (7 << 16) + 3, 1792),
        (stability(1, 3), HELD + (7 << 16), 1792),
        (stability(1, 3), HELD + (8 << 16) + 2, 1792),
        (stability(3, 3), HELD + 1, 1792),
        (value(1, 3, 5), HELD + (5 << 16) + 1, 1792),
    ];
    check_counts(counts)
}

/// "exact at zero and at plus or minus 65,536": rows that all have every bit become 0, and rows that are 0 become 4, or 36
/// where the next state is unknown.
fn greatest_changes() -> Outcome {
    let cycles = rules::MOST_CYCLES;
    let most = cycles as i32;
    let (zeros, unknown) = (known([1, 0, 0, 0]).repeat(cycles), [1, 0, 0, 0, 0, 0, 0, 4].repeat(cycles));
    let edit = |config, trace| Edit { config, trace, a: 0, b: cycles as u64 };
    let fewer = (edit(sequence(0, 2, 1, 0), &zeros), u32::MAX, 0, [most, -most, -most, -most, -most, -most, -most]);
    let more = (edit(transition(), &zeros), 0, 4, [most, 0, 0, most, 0, 0, 0]);
    let more_unknown = (edit(transition(), &unknown), 0, 36, [most, 0, 0, most, 0, 0, most]);
    for (edit, old, new, due) in &[fewer, more, more_unknown] {
        for by_host in [true, false] {
            let (mut rows, mut words, mut answer) = (vec![*old; cycles], vec![0; cycles], NO_ANSWER);
            let refusal = if by_host {
                host::recheck(edit, &mut rows, &mut words, &mut answer)?
            } else {
                edit.recheck_any(&mut rows, &mut words, &mut answer)
            };
            is("refusal and named cycle", refusal, DONE)?;
            are("e and changes", &answer, due)?;
            are("rows", &rows, &vec![*new; cycles])?;
        }
    }
    Ok(())
}

/// The trace of 65,536 cycles that has this frame in every cycle but those named.
fn long_frames(quiet: Frame, others: &[(usize, Frame)]) -> Vec<u32> {
    let mut trace = quiet.repeat(65_536);
    for (t, frame) in others {
        trace[FRAME_WORDS * t..FRAME_WORDS * (t + 1)].copy_from_slice(frame);
    }
    trace
}

/// The 65,536 rows that are 0 in every cycle but those named.
fn long_rows(others: &[(usize, u32)]) -> Vec<u32> {
    let mut rows = vec![0; 65_536];
    for (t, row) in others {
        rows[*t] = *row;
    }
    rows
}

/// With a start in cycle 0 and n 65,535, 65,535−t cycles are left after cycle t: from 65,535 down to 0 in the last cycle.
fn countdown() -> Vec<u64> {
    (0..=65_535).rev().collect()
}

/// The same with a reference from the cycle `first` on; in the last cycle the window is over, and the word 0.
fn held_countdown(reference: u64, first: usize) -> Vec<u64> {
    let mut words = countdown();
    words[first..65_535].iter_mut().for_each(|left| *left += (1 << 48) + (reference << 16));
    words
}

/// Time: start 0 and test 1; a start with test 0; test 0 alone; a start with test 1.
const QUIET: Frame = known([1, 0, 1, 0]);
const START: Frame = known([1, 1, 0, 0]);
const TEST_0: Frame = known([1, 0, 0, 0]);
const START_TEST_1: Frame = known([1, 1, 1, 0]);

/// Windows of n 65,535 over 65,536 cycles, opened in cycle 0: the last cycle, 65,535, is s+n.
///
/// S: test 0 in cycle 0, where it is not sampled, and in the last cycle: 1 for the failure and 8.
/// T: test 0 in cycle 0 only: 8 in the last cycle.
/// U: a second start in the last cycle, which is still pending. Kind 3 ignores it; kind 4 sets 16 and 4, takes no test and
///    counts 65,535 afresh; kind 5 sets 2 besides 8.
fn longest_time_lines() -> Vec<Line> {
    let mut lines = Vec::new();
    let s = long_frames(QUIET, &[(0, START), (65_535, TEST_0)]);
    let t = long_frames(QUIET, &[(0, START)]);
    let u = long_frames(QUIET, &[(0, START), (65_535, START_TEST_1)]);
    let mut counted_afresh = countdown();
    counted_afresh[65_535] = 65_535;
    let second_start = [(3, 8, countdown()), (4, 20, counted_afresh), (5, 10, countdown())];
    for (kind, row, words) in second_start {
        let config = time(kind, 65_535);
        lines.push(line("S", config, s.clone(), &long_rows(&[(0, 4), (65_535, 9)]), &countdown()));
        lines.push(line("T", config, t.clone(), &long_rows(&[(0, 4), (65_535, 8)]), &countdown()));
        lines.push(line("U", config, u.clone(), &long_rows(&[(0, 4), (65_535, row)]), &words));
    }
    lines
}

/// Kinds 7 and 8: enable 1 and the tracked value 5 or 4, without a trigger.
const FIVE: Frame = known([3, 5, 0, 0]);
const FOUR: Frame = known([3, 4, 0, 0]);

/// The same with a trigger, and the tracked value given.
const fn trigger(tracked: u32) -> Frame {
    known([3, tracked, 1, 0])
}

/// The same of kinds 7 and 8, with max 65,535.
///
/// V: min is 1, so the 4 in cycle 0 is not tested; the 4 in the last cycle is, and fails at s+max: 1 and 8.
/// W: the 4 in cycle 0 only: 8 in the last cycle. The trigger there is ignored.
/// X: min is 1, so the reference is the 5 of cycle 1, and is in the words from there on; the 4 in the last cycle differs.
/// Y: no other value than that of the reference but in cycle 0: 8 in the last cycle. The trigger there is ignored.
/// Z: min is 0, so the reference is the 4 of cycle 0, with 65,535 cycles left; enable is 0 in all cycles after it but the
///    last, so that the 5 in them is not compared. The 5 in the last is: 1 and 8.
fn longest_window_lines() -> Vec<Line> {
    let failed = long_rows(&[(0, 4), (65_535, 9)]);
    let closed = long_rows(&[(0, 4), (65_535, 8)]);
    let wrong_last = long_frames(FIVE, &[(0, trigger(4)), (65_535, FOUR)]);
    let right_last = long_frames(FIVE, &[(0, trigger(4)), (65_535, trigger(5))]);
    let disabled = long_frames(known([1, 5, 0, 0]), &[(0, trigger(4)), (65_535, FIVE)]);
    vec![
        line("V", value(1, 65_535, 5), wrong_last.clone(), &failed, &countdown()),
        line("W", value(1, 65_535, 5), right_last.clone(), &closed, &countdown()),
        line("X", stability(1, 65_535), wrong_last, &failed, &held_countdown(5, 1)),
        line("Y", stability(1, 65_535), right_last, &closed, &held_countdown(5, 1)),
        line("Z", stability(0, 65_535), disabled, &failed, &held_countdown(4, 0)),
    ]
}

/// The failures of S to Z: at most one, in the last cycle, and the illegal start of U under kind 5.
fn longest_lists(lines: &[Line]) -> Outcome {
    for line in lines {
        let list: &[u32] = match (line.name, line.config.kind) {
            ("S" | "V" | "X" | "Z", _) => &[65_535, 1, 0],
            ("U", 5) => &[65_535, 2, 0],
            _ => &[],
        };
        check_list(line.config, &line.trace, list).map_err(|d| format!("case {}: {d}", line.name))?;
    }
    Ok(())
}

/// A failure in each of cycles 1 to 65,535, all from the start in cycle 0: 65,535 entries. With a word less it is refused.
fn longest_list() -> Outcome {
    let list: Vec<u32> = (1..=65_535).flat_map(|t| [t, 1, 0]).collect();
    let mut cases: Vec<(Config, Vec<u32>)> = Vec::new();
    for kind in 3..=5 {
        cases.push((time(kind, 65_535), long_frames(TEST_0, &[(0, START)])));
    }
    // The value in cycle 0 is right, or is the reference.
    cases.push((value(0, 65_535, 5), long_frames(FOUR, &[(0, trigger(5))])));
    cases.push((stability(0, 65_535), long_frames(FOUR, &[(0, trigger(5))])));
    for (config, trace) in cases {
        check_list(config, &trace, &list).map_err(|d| format!("{config:?}: {d}"))?;
        let mut short = vec![99; 3 * 65_535 - 1];
        is("answer for a list one word short", host::failures(config, &trace, &mut short)?, 8 << 32)?;
        are("list one word short", &short, &[99; 3 * 65_535 - 1])?;
    }
    Ok(())
}

/// Edits of cycle 0 of time checks with n 65,535. The words before the edit and after it differ in all cycles but perhaps the
/// last, 65,535: the recheck ends with the trace.
fn longest_time_rechecks() -> Outcome {
    // The start is taken away, and with it the failure and the 8 of the last cycle; then it is put back.
    let with = long_frames(QUIET, &[(0, START), (65_535, TEST_0)]);
    let without = long_frames(QUIET, &[(65_535, TEST_0)]);
    let edit = |kind, trace| Edit { config: time(kind, 65_535), trace, a: 0, b: 1 };
    let opened = long_rows(&[(0, 4), (65_535, 9)]);
    check_recheck(&edit(3, &without), &with, &long_rows(&[]), &[0; 65_536], [65_536, -1, 0, -1, -1, 0])?;
    check_recheck(&edit(3, &with), &without, &opened, &countdown(), [65_536, 1, 0, 1, 1, 0])?;

    // The row of the start in the last cycle was 20, and becomes 4: nothing is pending there any more.
    let with = long_frames(QUIET, &[(0, START), (65_535, START_TEST_1)]);
    let without = long_frames(QUIET, &[(65_535, START_TEST_1)]);
    let mut words = [0; 65_536];
    words[65_535] = 65_535;
    check_recheck(&edit(4, &without), &with, &long_rows(&[(65_535, 4)]), &words, [65_536, 0, 0, -1, 0, -1])?;

    // The start in cycle 7 was illegal, and now opens the window, of which 7 cycles are left in the end: no 8. The failure
    // in cycle 3 is gone; that in the last cycle is still one, without the 8. The rows were 4, 1, 2 and 9.
    let others = [(3, TEST_0), (7, START_TEST_1), (65_535, TEST_0)];
    let without = long_frames(QUIET, &others);
    let mut with = without.clone();
    with[..FRAME_WORDS].copy_from_slice(&START);
    let words: Vec<u64> = (0..65_536).map(|t| if t < 7 { 0 } else { 65_535 + 7 - t }).collect();
    check_recheck(&edit(5, &without), &with, &long_rows(&[(7, 4), (65_535, 1)]), &words, [65_536, -1, -1, 0, -1, 0])
}

/// The same of kinds 7 and 8.
fn longest_window_rechecks() -> Outcome {
    // The trigger is taken away: with it go the failures in cycle 0 and in the last, the 4 and the 8.
    let config = value(0, 65_535, 5);
    let old = long_frames(FIVE, &[(0, trigger(4)), (65_535, FOUR)]);
    let new = long_frames(FIVE, &[(0, FOUR), (65_535, FOUR)]);
    let edit = Edit { config, trace: &new, a: 0, b: 1 };
    check_recheck(&edit, &old, &long_rows(&[]), &[0; 65_536], [65_536, -2, 0, -1, -1, 0])?;

    // The reference becomes 3, from which the 5 in all of the other 65,535 cycles differs.
    let config = stability(0, 65_535);
    let (old, new) = (long_frames(FIVE, &[(0, trigger(5))]), long_frames(FIVE, &[(0, trigger(3))]));
    let mut rows = [1; 65_536];
    (rows[0], rows[65_535]) = (4, 9);
    let edit = Edit { config, trace: &new, a: 0, b: 1 };
    check_recheck(&edit, &old, &rows, &held_countdown(3, 0), [65_536, 65_535, 0, 0, 0, 0])
}

/// §5: n "for kinds 3 to 5 from 1,024 to 65,535, and max in §4 too. 65,536 is refusal 2." The last but one has lower 16 bits
/// that would do.
fn longest_limits() -> Outcome {
    let of_n =
        [(1025, 0), (50_000, 0), (65_534, 0), (65_535, 0), (65_536, 2), (65_537, 2), (65_536 + 50_000, 2), (u32::MAX, 2)];
    let mut limits = Vec::new();
    for (n, due) in of_n {
        limits.extend([time(3, n), time(4, n), time(5, n), value(0, n, 5), stability(0, n)].map(|config| (config, due)));
    }
    for (min, n, due) in [(65_535, 65_535, 0), (65_536, 65_535, 2), (65_536, 65_536, 2), (65_535, 65_534, 2)] {
        limits.extend([(value(min, n, 5), due), (stability(min, n), due)]);
    }
    check_limits(limits)
}

/// Words of windows with n or max 65,535. With a reference, 65,536 cycles left would be one more in the reference and none
/// left.
fn longest_words() -> Outcome {
    const HELD: u64 = 1 << 48;
    let mut counts = vec![
        (value(65_535, 65_535, 5), 65_535, 1),
        (stability(1, 65_535), 65_535, 1),
        (stability(1, 65_535), 65_536, 1792),
        (stability(1, 65_535), HELD + 65_534, 1),
        (stability(1, 65_535), HELD + 65_535, 1792),
        (stability(0, 65_535), 65_535, 1),
        (stability(0, 65_535), 65_536, 1792),
        (stability(0, 65_535), HELD + 65_535, 1),
        (stability(0, 65_535), HELD + (7 << 16) + 65_535, 1),
        (stability(0, 65_535), HELD + (8 << 16) + 65_535, 1792),
        (stability(0, 65_535), HELD + 65_536, 1792),
        (stability(65_535, 65_535), 65_535, 1),
        (stability(65_535, 65_535), HELD + 1, 1792),
    ];
    for config in [time(3, 65_535), time(4, 65_535), time(5, 65_535), value(0, 65_535, 5)] {
        counts.extend([(config, 65_535, 1), (config, 65_536, 1792)]);
    }
    check_counts(counts)
}

/// The longest windows; the answer is how many cases there are in their table.
fn longest() -> Result<usize, String> {
    longest_limits().map_err(|d| format!("limits of the longest windows: {d}"))?;
    longest_words().map_err(|d| format!("words of the longest windows: {d}"))?;
    let lines: Vec<Line> = longest_time_lines().into_iter().chain(longest_window_lines()).collect();
    for line in &lines {
        check_line(line)
            .map_err(|d| format!("case {} of the longest windows, kind {}: {d}", line.name, line.config.kind))?;
    }
    longest_lists(&lines).map_err(|d| format!("failure lists of the longest windows: {d}"))?;
    longest_list().map_err(|d| format!("longest failure list: {d}"))?;
    longest_time_rechecks().map_err(|d| format!("rechecks of the longest windows, kinds 3 to 5: {d}"))?;
    longest_window_rechecks().map_err(|d| format!("rechecks of the longest windows, kinds 7 and 8: {d}"))?;
    Ok(lines.len())
}

/// The frames with reset_n 0 in cycle t.
fn with_reset(mut trace: Vec<u32>, t: usize) -> Vec<u32> {
    trace[FRAME_WORDS * t] &= !1;
    trace
}

/// A case of a fatal checker, with its failure list.
struct Fatal {
    line: Line,
    list: &'static [u32],
}

fn fatal_line(
    name: &'static str,
    config: Config,
    trace: Vec<u32>,
    rows: &[u32],
    words: &[u64],
    list: &'static [u32],
) -> Fatal {
    Fatal { line: line(name, fatal(config), trace, rows, words), list }
}

/// Cases of cycle sequences and transitions in the whiteboard table, with severity 1. Rows and words are those of the table up
/// to the first cycle with mark 1 or 2, and this row too; from its word on, words are 2^63, and later rows are 0.
///
/// A: no attempt fails, so all stay, also the words of two open attempts.
/// C: fails in the last cycle, where a start is seen too: row 5.
/// D: the start of cycle 5 comes after the failure of cycle 4.
/// E: 5 in cycle 2 has bit 0, which the attempt of cycle 0 needs, and not bit 1, which that of cycle 1 needs; and a start.
///    What becomes of this start, and of those of cycles 3 to 5, is not listed.
/// F: under kind 0 only the attempt of cycle 0 fails in the last cycle, under kind 1 that of cycle 1 too.
/// L: the check of cycle 0 fails in cycle 1, which is a start again: row 5. What it stores is not in the word.
fn fatal_sequence_lines() -> Vec<Fatal> {
    let d = || frames(&D, &[], &[]);
    let a = || frames(&A, &[], &[]);
    let f = || frames(&[4, 6, 0], &[], &[]);
    let l = frames(&[3, 3], &[3, 3], &[4, 4]);
    vec![
        fatal_line("A", sequence(1, 4, 3, 0), a(), &[4, 0, 4, 0, 0, 0], &[1, 2, 5, 2, 4, 0], &[]),
        fatal_line("C", sequence(1, 4, 0, 3), a(), &[0, 0, 0, 4, 0, 5], &[0, 0, 0, 1, 2, S], &[5, 1, 3]),
        fatal_line("D", sequence(2, 3, 2, 0), d(), &[4, 0, 0, 4, 1, 0], &[1, 2, 0, 1, S, S], &[4, 1, 3]),
        fatal_line("E", sequence(1, 3, 2, 0), d(), &[4, 4, 5, 0, 0, 0], &[1, 3, S, S, S, S], &[2, 1, 1]),
        fatal_line("F", sequence(0, 3, 2, 0), f(), &[0, 4, 1], &[1, 3, S], &[2, 1, 0]),
        fatal_line("F, kind 1", sequence(1, 3, 2, 0), f(), &[4, 4, 1], &[1, 3, S], &[2, 1, 0, 2, 1, 1]),
        fatal_line("L", transition(), l, &[4, 5], &[STORED + 4, S], &[1, 1, 0]),
    ]
}

/// Time checks with severity 1: H and I of the whiteboard table, and four more.
///
/// H: restarts are no failure, and take no test: all stays.
/// I: test 0 and a start in cycle 2, which is pending: a failure and an illegal start, both listed with start 0.
/// AA: the test is 1 where it is taken; the start of cycle 2 stops the checker alone. That of cycle 3 would be illegal too.
/// AB: fails in cycle 1. The reset of cycle 3 does not revive it, so that the start of cycle 4 is not seen.
/// AC: the reset of cycle 1 ends the check before its test 0 is taken. The check of cycle 2 fails in s+n: 1 and 8.
/// AD: n 1; the failure of cycle 1 closes the window. The start in it is illegal: 1, 2 and 8.
fn fatal_time_lines() -> Vec<Fatal> {
    let aa = frames(&[1, 0, 1, 1, 0, 1], &[0, 1, 1, 1, 1, 0], &[]);
    let ab = with_reset(frames(&[1, 0, 0, 1, 1, 0], &[0, 0, 1, 1, 1, 0], &[]), 3);
    let ac = with_reset(frames(&[1, 0, 1, 0, 0, 0], &[1, 0, 1, 1, 0, 0], &[]), 1);
    let ad = frames(&[1, 1, 1], &[0, 0, 0], &[]);
    vec![
        fatal_line("H", time(4, 3), g(), &[4, 0, 20, 0, 20, 0], &[3, 2, 3, 2, 3, 2], &[]),
        fatal_line("I", time(5, 3), g(), &[4, 0, 3, 0, 0, 0], &[3, 2, S, S, S, S], &[2, 1, 0, 2, 2, 0]),
        fatal_line("AA", time(5, 3), aa, &[4, 0, 2, 0, 0, 0], &[3, 2, S, S, S, S], &[2, 2, 0]),
        fatal_line("AB", time(3, 2), ab, &[4, 1, 0, 0, 0, 0], &[2, S, S, S, S, S], &[1, 1, 0]),
        fatal_line("AC", time(3, 2), ac, &[4, 0, 4, 0, 9, 0], &[2, 0, 2, 1, S, S], &[4, 1, 2]),
        fatal_line("AD", time(5, 1), ad, &[4, 11, 0], &[1, S, S], &[1, 1, 0, 1, 2, 0]),
    ]
}

/// Checks after a trigger with severity 1.
///
/// AE: wrong in cycles 1 and 3 of the window; the second is not seen, and no mark 8 comes.
/// AF: windows of one cycle: 4 and 8 in cycle 0; in cycle 1 the value is wrong as well. The trigger of cycle 2 is not seen.
/// AG: min 0 and wrong in the trigger cycle itself, cycle 0.
/// AH: the reference is the 3 of cycle 0. In cycle 2 another value; one cycle would be left.
/// AI: min = max: the one cycle tested gives the reference, so that nothing can fail.
fn fatal_window_lines() -> Vec<Fatal> {
    // The reference 3 with 3 cycles left, and with 2: 2^48 + 3 × 2^16 + 3, and one less.
    let held = [281_474_976_907_267, 281_474_976_907_266];
    let ae = window_frames([&[1; 5], &[1, 0, 0, 0, 0], &[5, 4, 5, 7, 4]]);
    let af = window_frames([&[1; 4], &[1, 1, 1, 0], &[5, 4, 5, 4]]);
    let ag = window_frames([&[1; 3], &[1, 0, 1], &[4, 5, 4]]);
    let ah = window_frames([&[1; 5], &[1, 0, 1, 0, 1], &[3, 3, 2, 3, 2]]);
    let ai = window_frames([&[1; 5], &[1, 0, 0, 1, 0], &[1, 2, 3, 4, 5]]);
    vec![
        fatal_line("AE", value(1, 3, 5), ae, &[4, 1, 0, 0, 0], &[3, S, S, S, S], &[1, 1, 0]),
        fatal_line("AF", value(0, 0, 5), af, &[12, 13, 0, 0], &[0, S, S, S], &[1, 1, 1]),
        fatal_line("AG", value(0, 2, 5), ag, &[5, 0, 0], &[S, S, S], &[0, 1, 0]),
        fatal_line("AH", stability(0, 3), ah, &[4, 0, 1, 0, 0], &[held[0], held[1], S, S, S], &[2, 1, 0]),
        fatal_line("AI", stability(2, 2), ai, &[4, 0, 8, 4, 0], &[2, 1, 0, 2, 1], &[]),
    ]
}

/// The last cycle of 65,536 stops the checker, or the second does and it stays so. The windows are those of S, V and X, and of
/// the longest lists.
fn fatal_longest_lines() -> Vec<Fatal> {
    let stopped_last = |mut words: Vec<u64>| {
        words[65_535] = S;
        words
    };
    let stopped = |word: u64| [vec![word], vec![S; 65_535]].concat();
    let (last, second) = (long_rows(&[(0, 4), (65_535, 9)]), long_rows(&[(0, 4), (1, 1)]));
    let mut lines = Vec::new();
    for kind in 3..=5 {
        let late = long_frames(QUIET, &[(0, START), (65_535, TEST_0)]);
        let early = long_frames(TEST_0, &[(0, START)]);
        let config = time(kind, 65_535);
        lines.push(fatal_line("S", config, late, &last, &stopped_last(countdown()), &[65_535, 1, 0]));
        lines.push(fatal_line("stopped in cycle 1", config, early, &second, &stopped(65_535), &[1, 1, 0]));
    }
    let held = held_countdown(5, 0)[0];
    for (config, name, words, early) in [
        (value(0, 65_535, 5), "V, min 0", countdown(), 65_535),
        (stability(0, 65_535), "X, min 0", held_countdown(5, 0), held),
    ] {
        let late = long_frames(FIVE, &[(0, trigger(5)), (65_535, FOUR)]);
        lines.push(fatal_line(name, config, late, &last, &stopped_last(words), &[65_535, 1, 0]));
        let trace = long_frames(FOUR, &[(0, trigger(5))]);
        lines.push(fatal_line("stopped in cycle 1", config, trace, &second, &stopped(early), &[1, 1, 0]));
    }
    lines
}

/// Edits that take the failure away, put it off, or bring an earlier one.
fn fatal_rechecks() -> Outcome {
    // Kind 5, n 2, test 0 in cycle 1, made 1: the window closes in cycle 2, the next opens in cycle 3, and the start of cycle 4
    // is illegal in it. There both are stopped, so e is 5. Then the test is made 0 again.
    let trace = |test| frames(&[1, 0, 0, 1, 1, 0], &[1, test, 1, 1, 1, 1], &[]);
    let edit = |trace| Edit { config: fatal(time(5, 2)), trace, a: 1, b: 2 };
    let (wrong, right) = (trace(0), trace(1));
    check_recheck(&edit(&right), &wrong, &[4, 0, 8, 4, 2, 0], &[2, 1, 0, 2, S, S], [5, -1, 1, 1, 1, 0])?;
    check_recheck(&edit(&wrong), &right, &[4, 1, 0, 0, 0, 0], &[2, S, S, S, S, S], [5, 1, -1, -1, -1, 0])?;

    // Kind 4, n 2, the same edit: cycle 2 restarts the window, which closes in cycle 4, and nothing fails any more. No word is
    // as it was, so e is N, where b+n is 4.
    let trace = |test| frames(&[1, 0, 1, 0, 0, 0], &[1, test, 1, 1, 1, 1], &[]);
    let edit = |trace| Edit { config: fatal(time(4, 2)), trace, a: 1, b: 2 };
    let (wrong, right) = (trace(0), trace(1));
    check_recheck(&edit(&right), &wrong, &[4, 0, 20, 0, 8, 0], &[2, 1, 2, 1, 0, 0], [6, -1, 0, 1, 1, 1])?;
    check_recheck(&edit(&wrong), &right, &[4, 1, 0, 0, 0, 0], &[2, S, S, S, S, S], [6, 1, 0, -1, -1, -1])?;

    // Kind 3, n 2: a reset in the failing cycle ends the check instead.
    let old = frames(&[1, 0, 0, 0], &[1, 0, 1, 1], &[]);
    let new = with_reset(old.clone(), 1);
    let edit = Edit { config: fatal(time(3, 2)), trace: &new, a: 1, b: 2 };
    check_recheck(&edit, &old, &[4, 0, 0, 0], &[2, 0, 0, 0], [4, -1, 0, 0, 0, 0])
}

/// An edit that brings an earlier failure, one after the failure, and one in its cycle, of kind 1 with n 3.
fn fatal_sequence_rechecks() -> Outcome {
    let config = fatal(sequence(1, 3, 2, 0));
    let samples = |samples: &[u32]| frames(samples, &[], &[]);

    // The attempt of cycle 0 passes and that of cycle 3 fails in cycle 4; then the first fails in cycle 1. In cycle 4 both are
    // stopped: e is 5, where b+n−1 is 4. The mark 4 of cycle 3 is gone.
    let (old, new) = (samples(&[4, 2, 1, 4, 0, 4]), samples(&[4, 0, 1, 4, 0, 4]));
    are("words before the edit", &rules::true_record(config, &old).words, &[1, 2, 0, 1, S, S])?;
    let edit = Edit { config, trace: &new, a: 1, b: 2 };
    check_recheck(&edit, &old, &[4, 1, 0, 0, 0, 0], &[1, S, S, S, S, S], [5, 0, 0, -1, 0, 0])?;

    // After the failure, a reset, and a start behind it that would fail in cycle 5: nothing changes, and e is b.
    let later = with_reset(samples(&[4, 0, 1, 4, 4, 4]), 3);
    let edit = Edit { config, trace: &later, a: 3, b: 5 };
    check_recheck(&edit, &new, &[4, 1, 0, 0, 0, 0], &[1, S, S, S, S, S], [5, 0, 0, 0, 0, 0])?;

    // E without the start of its failing cycle: it still fails there.
    let (old, new) = (samples(&D), samples(&[4, 6, 1, 4, 4, 4]));
    let edit = Edit { config, trace: &new, a: 2, b: 3 };
    check_recheck(&edit, &old, &[4, 4, 1, 0, 0, 0], &[1, 3, S, S, S, S], [3, 0, 0, -1, 0, 0])
}

/// The start of S taken away and put back, with severity 1: of the words, only that before cycle 0 is the same.
fn fatal_longest_recheck() -> Outcome {
    let with = long_frames(QUIET, &[(0, START), (65_535, TEST_0)]);
    let without = long_frames(QUIET, &[(65_535, TEST_0)]);
    let (rows, mut words) = (long_rows(&[(0, 4), (65_535, 9)]), countdown());
    words[65_535] = S;
    let edit = |trace| Edit { config: fatal(time(3, 65_535)), trace, a: 0, b: 1 };
    check_recheck(&edit(&without), &with, &long_rows(&[]), &[0; 65_536], [65_536, -1, 0, -1, -1, 0])?;
    check_recheck(&edit(&with), &without, &rows, &words, [65_536, 1, 0, 1, 1, 0])
}

/// One right configuration of every kind, of which each can fail.
fn one_of_each_kind() -> Vec<Config> {
    let sequences = (0..=2).map(|kind| sequence(kind, 4, 3, 0));
    let others = [time(3, 3), time(4, 3), time(5, 3), transition(), value(1, 3, 5), stability(1, 3)];
    sequences.chain(others).collect()
}

/// "0 goes on, 1 is fatal, else refusal 2": after the kind and before ports and value.
fn fatal_limits() -> Outcome {
    let mut limits = Vec::new();
    for config in one_of_each_kind() {
        let index = Range { left: 32, right: 32 };
        for (severity, right, bad_ports) in [(0, 0, 3), (1, 0, 3), (2, 2, 2), (3, 2, 2), (128, 2, 2), (255, 2, 2)] {
            let config = Config { severity, ..config };
            limits.extend([(config, right), (Config { p: index, ..config }, bad_ports)]);
            limits.extend([(Config { value: 8, ..config }, bad_ports), (Config { n: 65_536, ..config }, 2)]);
            limits.extend([(Config { kind: 9, ..config }, 1), (Config { kind: 255, p: index, ..config }, 1)]);
        }
    }
    check_limits(limits)
}

/// "2^63 is possible exactly for a fatal checker that can fail (all but kind 8 with min equal to max); its open count is 0":
/// 1792 is refusal 7.
fn fatal_words() -> Outcome {
    let mut counts = vec![
        (fatal(stability(0, 0)), S, 1792),
        (fatal(stability(3, 3)), S, 1792),
        (fatal(stability(65_535, 65_535)), S, 1792),
        (fatal(stability(65_534, 65_535)), S, 0),
        (fatal(stability(0, 1)), S, 0),
        (fatal(value(0, 0, 5)), S, 0),
        (fatal(value(65_535, 65_535, 5)), S, 0),
        // Open words are possible as before.
        (fatal(sequence(1, 4, 3, 0)), 5, 2),
        (fatal(sequence(1, 4, 3, 0)), 8, 1792),
        (fatal(time(3, 3)), 3, 1),
        (fatal(transition()), STORED + 7, 1),
        (fatal(stability(3, 3)), 3, 1),
    ];
    for config in one_of_each_kind() {
        counts.extend([(config, S, 1792), (fatal(config), S, 0), (fatal(config), 0, 0)]);
        counts.extend([S + 1, S - 1, S >> 1, S + 3, S + STORED].map(|word| (fatal(config), word, 1792)));
    }
    check_counts(counts)
}

/// From 2^63 a step gives row 0 and 2^63, whatever the frame is, where this word is possible.
fn fatal_steps() -> Outcome {
    let mut steps = vec![(fatal(stability(3, 3)), 1792)];
    for config in one_of_each_kind() {
        steps.extend([(fatal(config), 0), (config, 1792)]);
    }
    let all = u32::MAX;
    let [in_reset, in_reset_too] = [[0, 0, 0, 0], [!1, all, all, all]].map(known);
    let [quiet, full, mixed] = [[1, 0, 0, 0], [3, all, all, 0], [3, 8, 1, 1]].map(known);
    let frames = [in_reset, in_reset_too, quiet, full, mixed, [all; 8], [3, 0, 0, 0, 0, all, all, all]];
    for ((config, due), frame) in steps.into_iter().flat_map(|step| frames.map(|frame| (step, frame))) {
        let (mut by_host, mut by_rules) = (S.to_le_bytes(), S.to_le_bytes());
        is(&format!("{config:?}, {frame:x?} by the library"), host::step(config, frame, &mut by_host)?, due)?;
        is(&format!("{config:?}, {frame:x?} by the rules"), rules::step(config, frame, &mut by_rules), due)?;
        is(&format!("words of {config:?}, {frame:x?}"), [by_host, by_rules].map(u64::from_le_bytes), [S, S])?;
    }
    Ok(())
}

/// Test 0 with two pending cycles left, going on and fatal; the latter stopped already; and an illegal start, test 1.
fn fatal_bench() -> Outcome {
    let table = [time(3, 2), fatal(time(3, 2)), fatal(time(3, 2)), fatal(time(5, 2)), time(5, 2)];
    let frames = [TEST_0, TEST_0, START, START_TEST_1, START_TEST_1].concat();
    for by_host in [true, false] {
        let (mut words, mut rows) = ([2, 2, S, 2, 2], [99; 5]);
        let answer = if by_host {
            host::bench(&table, &frames, &mut words, &mut rows)?
        } else {
            rules::bench(&table, &frames, &mut words, &mut rows)
        };
        is("answer", answer, 0)?;
        are("rows", &rows, &[1, 1, 0, 2, 2])?;
        are("words", &words, &[1, S, S, S, 1])?;
    }
    Ok(())
}

/// Fatal checkers; the answer is how many cases there are in their tables.
fn fatal_checkers() -> Result<usize, String> {
    fatal_limits().map_err(|d| format!("limits of severity: {d}"))?;
    fatal_words().map_err(|d| format!("words of fatal checkers: {d}"))?;
    fatal_steps().map_err(|d| format!("steps from 2^63: {d}"))?;
    let tables = [fatal_sequence_lines(), fatal_time_lines(), fatal_window_lines(), fatal_longest_lines()];
    let lines: Vec<Fatal> = tables.into_iter().flatten().collect();
    for Fatal { line, list } in &lines {
        check_line(line)
            .and_then(|()| check_list(line.config, &line.trace, list))
            .map_err(|d| format!("case {} of fatal checkers, kind {}: {d}", line.name, line.config.kind))?;
    }
    fatal_rechecks().map_err(|d| format!("rechecks of fatal checkers: {d}"))?;
    fatal_sequence_rechecks().map_err(|d| format!("rechecks of fatal checkers, kind 1: {d}"))?;
    fatal_longest_recheck().map_err(|d| format!("recheck of a fatal checker with the longest window: {d}"))?;
    fatal_bench().map_err(|d| format!("bench with fatal checkers: {d}"))?;
    Ok(lines.len())
}

/// The record of a case above, another checker of the same trace that is handed it, and the cycle that is named.
///
/// A: under kind 2 the 5 of cycle 2 is two attempts. With n 3 words are below 4, with n 2 below 2. A window of 4 cycles, or
///    of 3, never has 5 left, and a transition no word between 0 and 2^32.
/// G: with n 2, the 3 of cycle 0 is one too many. Kind 2 takes it as two attempts.
/// J: with max 0 a window is never open; for a transition 1 is no word.
/// K: the 4 of cycle 0 does not fit two wires. For a sequence and for a window all of 2^32 is too much.
/// Q: with min 3 a reference comes with 1 cycle left, not with 2, and with min 4 it comes with none left. With max 3 the 4 is one
///    too many. Kind 7 has no references.
/// R: the references 3 of cycle 0 and 5 of cycle 3 need two wires and three; with min 1 they come with 1 cycle left.
/// E, fatal: 2^63 from cycle 2 on is not left by a checker that goes on, nor by kind 8 with min equal to max, which cannot
///    fail; the 1 and 3 before it are where max is 3, but not where it is 2. AG, fatal, is stopped in cycle 0.
fn others_records() -> Vec<(&'static str, Config, u32)> {
    let wires = |left| Range { left, right: 0 };
    let two_wires = Config { p: wires(1), q: wires(1), r: wires(1), ..transition() };
    let tracked = |left, config| Config { p: wires(left), ..config };
    vec![
        ("A", sequence(2, 4, 3, 0), 2),
        ("A", sequence(1, 3, 2, 0), 2),
        ("A", sequence(0, 2, 0, 1), 1),
        ("A", time(3, 4), 2),
        ("A", time(5, 3), 2),
        ("A", transition(), 0),
        ("G", time(3, 2), 0),
        ("G", fatal(time(4, 2)), 0),
        ("G", sequence(2, 3, 2, 0), 0),
        ("J", stability(0, 0), 0),
        ("J", transition(), 0),
        ("K", two_wires, 0),
        ("K", fatal(two_wires), 0),
        ("K", sequence(1, 32, 31, 0), 0),
        ("K", time(4, 65_535), 0),
        ("Q", stability(4, 4), 2),
        ("Q", stability(3, 4), 2),
        ("Q", stability(1, 3), 0),
        ("Q", value(1, 4, 5), 2),
        ("R", tracked(0, stability(0, 2)), 0),
        ("R", tracked(1, stability(0, 2)), 3),
        ("R", stability(1, 2), 0),
        ("E, fatal", sequence(1, 3, 2, 0), 2),
        ("E, fatal", fatal(stability(2, 2)), 1),
        ("E, fatal", fatal(stability(3, 3)), 2),
        ("AG, fatal", value(0, 2, 5), 0),
        ("AG, fatal", fatal(stability(1, 1)), 0),
    ]
}

/// The trace of a case above, and its record.
fn record_of(name: &str) -> Result<(Vec<u32>, Record), String> {
    let (name, is_fatal) = name.strip_suffix(", fatal").map_or((name, false), |name| (name, true));
    let going_on = sequence_lines().into_iter().chain(other_lines()).chain(window_lines());
    let fatal = fatal_sequence_lines().into_iter().chain(fatal_window_lines()).map(|fatal| fatal.line);
    let line = going_on.chain(fatal).find(|line| line.name == name && line.config.is_fatal() == is_fatal);
    let line = line.ok_or(format!("there is no case {name}"))?;
    Ok((line.trace, Record { rows: line.rows, words: line.words }))
}

/// §6: "Recheck is to give refusal 7 when any kept word, not only word a−1, is impossible for the configuration, and name
/// the lowest such cycle", whatever a and b are. The answer is how many records there are.
fn others_refused() -> Result<usize, String> {
    let others = others_records();
    for &(name, config, cycle) in &others {
        let (trace, kept) = record_of(name)?;
        let last = kept.rows.len() as u64;
        for (a, b) in (0..=last).flat_map(|a| (a..=last).map(move |b| (a, b))) {
            check_refused(&Edit { config, trace: &trace, a, b }, &kept, 7, cycle)
                .map_err(|d| format!("record of case {name} for {config:?}, a {a}, b {b}: {d}"))?;
        }
    }
    Ok(others.len())
}

/// Records of other checkers whose words are all possible: the recheck runs.
fn others_accepted() -> Outcome {
    // H for kind 3, from the 2 of cycle 1. Cycle 2 has test 0, cycle 3 closes the window, and cycle 4 opens the next with
    // the word 3 that is kept there: e is 5. The rows of cycles 2 to 4 were 20, 0 and 20.
    let (trace, kept) = record_of("H")?;
    let edit = Edit { config: time(3, 3), trace: &trace, a: 2, b: 3 };
    let (rows, words, answer) = (&[4, 0, 1, 8, 4, 0], &[3, 2, 1, 0, 3, 2], without_32([5, 1, 0, -1, 1, -2]));
    check_kept(&edit, &kept, OF_ANY, Due { refusal: DONE, rows, words, answer })?;

    // Q for min 0, where a window without a reference is possible too: from cycle 0 on the reference is its 3, from which the 6
    // of cycle 2 differs, and the 5 of cycle 4, which closes the window: there the word is 0, as is the one kept: e is 5.
    let (trace, kept) = record_of("Q")?;
    let edit = Edit { config: stability(0, 4), trace: &trace, a: 0, b: 1 };
    let held = [4, 3, 2, 1].map(|left| 281_474_976_907_264 + left);
    let (rows, words) = (&[4, 0, 1, 0, 9, 0], &[held[0], held[1], held[2], held[3], 0, 0]);
    check_kept(&edit, &kept, OF_ANY, Due { refusal: DONE, rows, words, answer: without_32([5, 1, 0, 0, 0, 0]) })?;

    // E for the fatal checker, which stops in cycle 2, where the row is the same. Those of cycles 3 to 5 were 5.
    let (trace, kept) = record_of("E")?;
    let edit = Edit { config: fatal(sequence(1, 3, 2, 0)), trace: &trace, a: 2, b: 3 };
    let (rows, words, answer) = (&[4, 4, 5, 0, 0, 0], &[1, 3, S, S, S, S], without_32([6, -3, 0, -3, 0, 0]));
    check_kept(&edit, &kept, OF_ANY, Due { refusal: DONE, rows, words, answer })
}

/// §6: "Order of tests stays", "Otherwise that number is 0": the record of A for kind 2 with each earlier refusal, and what
/// would be refused later wrong too. 47 words are no whole number of frames, nor are 44, and 40 are one frame less than there
/// are rows.
fn spoiled_order() -> Outcome {
    let (trace, kept) = record_of("A")?;
    let right = sequence(2, 4, 3, 0);
    let bad_n = [Config { n: 33, ..right }, Config { severity: 2, ..right }];
    let bad = [(Config { kind: 9, ..right }, 1), (bad_n[0], 2), (bad_n[1], 2), (Config { q: wire(1), ..right }, 3)];
    for (config, number) in bad {
        check_refused(&Edit { config, trace: &trace[1..], a: 5, b: 4 }, &kept, number, 0)?;
    }
    let edit = |trace, a, b| Edit { config: right, trace, a, b };
    check_refused(&edit(&trace[1..], 5, 4), &kept, 4, 0)?;
    check_refused(&edit(&trace[4..], 5, 4), &kept, 4, 0)?;
    check_refused(&edit(&trace[FRAME_WORDS..], 5, 4), &kept, 5, 0)?;
    for (a, b) in [(5, 4), (3, 7), (0, 7), (7, 7), (u64::MAX, 0), (3 + (1 << 32), 4 + (1 << 32))] {
        check_refused(&edit(&trace, a, b), &kept, 6, 0)?;
    }
    check_refused(&edit(&trace, 4, 5), &kept, 7, 2)
}

/// A record of 65,536 cycles, spoiled in the last and then in ever lower ones.
fn spoiled_longest() -> Outcome {
    let trace = long_frames(QUIET, &[(0, START)]);
    let mut kept = Record { rows: long_rows(&[(0, 4), (65_535, 8)]), words: countdown() };
    for (cycle, word) in [(65_535, 65_536), (65_534, u64::MAX), (32_768, S), (4_095, STORED), (1, S + 1), (0, 65_536)] {
        kept.words[cycle as usize] = word;
        for (a, b) in [(0, 0), (0, 65_536), (32_768, 32_769), (65_536, 65_536)] {
            check_refused(&Edit { config: time(3, 65_535), trace: &trace, a, b }, &kept, 7, cycle)
                .map_err(|d| format!("cycle {cycle}, a {a}, b {b}: {d}"))?;
        }
    }
    Ok(())
}

/// Records of other checkers and spoiled ones; the answer is how many cases there are in their table.
fn spoiled_records() -> Result<usize, String> {
    let others = others_refused()?;
    others_accepted().map_err(|d| format!("records of other checkers that are not refused: {d}"))?;
    spoiled_order().map_err(|d| format!("earlier refusals of a spoiled record: {d}"))?;
    spoiled_longest().map_err(|d| format!("spoiled record of 65,536 cycles: {d}"))?;
    Ok(others)
}

/// What was compared, in words.
pub fn compare() -> Result<String, String> {
    let document: Vec<Line> = sequence_lines().into_iter().chain(other_lines()).collect();
    let windows = window_lines();
    for line in document.iter().chain(&windows) {
        check_line(line).map_err(|d| format!("whiteboard case {}: {d}", line.name))?;
    }
    examples().map_err(|d| format!("examples under the whiteboard table: {d}"))?;
    limits().map_err(|d| format!("limits: {d}"))?;
    greatest_changes().map_err(|d| format!("greatest changes: {d}"))?;
    window_lists(&windows).map_err(|d| format!("failure list of kinds 7 and 8: {d}"))?;
    window_recheck().map_err(|d| format!("recheck of kind 7: {d}"))?;
    window_limits().map_err(|d| format!("limits of kinds 7 and 8: {d}"))?;
    window_words().map_err(|d| format!("words of kinds 7 and 8: {d}"))?;
    let (document, windows, longest, fatal) = (document.len(), windows.len(), longest()?, fatal_checkers()?);
    let (spoiled, unknown) = (spoiled_records()?, unknown_bits::compare()?);
    let [taken_back, either_order, refused] = taken_back::compare()?;
    Ok(format!(
        "whiteboard table: {document} cases and the examples under it, all as in the document\n\
         kinds 7 and 8: {windows} cases, a recheck, limits and words, all as worked by hand\n\
         longest windows: {longest} cases, lists, rechecks, limits and words, all as worked by hand\n\
         fatal checkers: {fatal} cases, lists, rechecks, a bench, limits, words and steps, all as worked by hand\n\
         records of other checkers: {spoiled} refused, three rechecks, earlier refusals and a longest record, all as worked \
         by hand\n\
         unknown bits: {unknown} cases with their lists, rechecks, totals, first failures, lengths and steps, all as worked \
         by hand\n\
         edits taken back: {taken_back} cases, {either_order} of two edits in either order, three false records, and {refused} \
         refused, all as worked by hand"
    ))
}
