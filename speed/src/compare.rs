//! Whether the proved library answers every call that is timed as ordinary Rust does.
use crate::engine::{Answer, Engine, Plain, Record};
use crate::inputs::{cut, false_record, samples, Call, Input, BENCH, CYCLES, LIST};
use crate::plain::{self, Config, Frame, FAILURE, FRAME, ILLEGAL, MOST_PIPE, OPENED};
use crate::proved::Library;
use std::ops::Range;

pub fn compare(library: &Library, input: &Input) -> Result<(), String> {
    let trace = &input.trace[..];
    if let Call::Bench = input.call {
        return compare_bench(library, &input.checkers, trace);
    }
    for (k, config) in input.checkers.iter().enumerate() {
        let own = &input.frames(k)[..];
        let compared = match input.call {
            Call::Recheck => compare_recheck(library, config, own, false_record(config, trace, k), 0..1),
            Call::OneCycle => compare_check(library, config, own)
                .and_then(|record| compare_recheck(library, config, own, record, CYCLES - 1..CYCLES)),
            Call::TakenBack { cycles } => compare_taken_back(library, config, own, cycles),
            Call::List | Call::OwnList { .. } => compare_list(library, config, own),
            _ => compare_check(library, config, own).map(|_| ()),
        };
        compared.map_err(|difference| format!("checker {k}, {difference}"))?;
    }
    Ok(())
}

/// The record of the full check, on which both sides agree.
fn compare_check(library: &Library, config: &Config, trace: &[u32]) -> Result<Record, String> {
    let [mut proved, mut plain] = [Record::new(CYCLES), Record::new(CYCLES)];
    let own = library.form().trace(trace);
    let answers = [library.full_check(config, &own, &mut proved), Plain.full_check(config, trace, &mut plain)];
    equal(answers, [&proved, &plain])?;
    Ok(plain)
}

fn compare_bench(library: &Library, checkers: &[Config], trace: &[u32]) -> Result<(), String> {
    let [mut proved, mut plain] = [Record::new(BENCH), Record::new(BENCH)];
    let own = library.form().trace(trace);
    for t in 0..CYCLES {
        let answers = [
            library.bench_step(checkers, library.form().cut(&own, t, BENCH), &mut proved),
            Plain.bench_step(checkers, cut(trace, t, BENCH), &mut plain),
        ];
        equal(answers, [&proved, &plain]).map_err(|difference| format!("step {t}, {difference}"))?;
    }
    Ok(())
}

/// Whether both calls were done and left the same entries; else what differs, the proved side first.
fn equal(answers: [Answer; 2], records: [&Record; 2]) -> Result<(), String> {
    if answers != [Ok(()); 2] {
        return Err(format!("refused: {answers:?}"));
    }
    for i in 0..records[0].rows.len() {
        let [proved, plain] = records.map(|record| (record.rows[i], record.words[i]));
        if proved != plain {
            return Err(format!("entry {i}: (row, word) is {proved:?} and {plain:?}"));
        }
    }
    Ok(())
}

/// A recheck of an edit has to run to the last cycle and to leave what the full check leaves.
fn compare_recheck(
    library: &Library,
    config: &Config,
    trace: &[u32],
    mut record: Record,
    edit: Range<usize>,
) -> Result<(), String> {
    let full = compare_check(library, config, trace)?;
    let kept = record.rows.clone();
    let answer = library.recheck(config, &library.form().trace(trace), &mut record, edit);
    equal([answer.map(|_| ()), Ok(())], [&record, &full]).map_err(|difference| format!("recheck, {difference}"))?;

    let mut expected = [0; 7];
    expected[0] = CYCLES as i32;
    for (mark, change) in expected[1..].iter_mut().enumerate() {
        let count = |rows: &[u32]| rows.iter().filter(|row| *row >> mark & 1 != 0).count() as i32;
        *change = count(&full.rows) - count(&kept);
    }
    if answer != Ok(expected) {
        return Err(format!("recheck: (stop, changes) is {answer:?} and {expected:?}"));
    }
    Ok(())
}

/// An edit that is made and taken back has to answer what two rechecks do, and to leave the record of the full check.
fn compare_taken_back(library: &Library, config: &Config, trace: &[u32], cycles: usize) -> Result<(), String> {
    let full = compare_check(library, config, trace)?;
    let (edit, mut edited, mut given) = (CYCLES - cycles..CYCLES, trace.to_vec(), samples(trace, cycles));
    let [mut record, mut rechecked] = [Record::new(CYCLES), Record::new(CYCLES)];
    record.copy_from(&full);
    rechecked.copy_from(&full);
    let answer = library.edit_and_take_back(config, &mut edited, &mut record, edit.clone(), &mut given);
    equal([Ok(()); 2], [&record, &full]).map_err(|difference| format!("taken back, {difference}"))?;
    if edited != trace || given != samples(trace, cycles) {
        return Err("taken back: the trace or the samples are not as they were".into());
    }
    for part in [&answer.edit, &answer.back] {
        edited[FRAME * edit.start..].swap_with_slice(&mut given);
        let due = library.recheck(config, &edited, &mut rechecked, edit.clone());
        let mut found = [part.end as i32; 7];
        found[1..].copy_from_slice(&part.changes);
        if part.refusal != 0 || part.cycle != 0 || due != Ok(found) {
            return Err(format!("taken back: refusal {}, {found:?}, and a recheck gives {due:?}", part.refusal));
        }
    }
    Ok(())
}

fn compare_list(library: &Library, config: &Config, trace: &[u32]) -> Result<(), String> {
    let record = compare_check(library, config, trace)?;
    let mut list = vec![0; LIST];
    let own = library.form().trace(trace);
    let entries = library.failures(config, &own, &mut list).map_err(|refusal| format!("refused: {refusal}"))?;
    let expected = failures(config, trace, &record);
    if list[..3 * entries] != *expected.as_flattened() {
        return Err(format!("the list of {entries} entries is not the one of {} that is due", expected.len()));
    }
    Ok(())
}

/// The failure list of a record that is true for the trace: cycle, mark and start of each entry.
fn failures(config: &Config, trace: &[u32], record: &Record) -> Vec<[u32; 3]> {
    let mut list = Vec::new();
    let (mut opened, mut word) = (0, 0);
    let (frames, _) = trace.as_chunks::<FRAME>();
    for (t, (&row, frame)) in record.rows.iter().zip(frames).enumerate() {
        let cycle = t as u32;
        // Ahead of the entries: a window of kind 7 can fail in the cycle that opens it; kinds 3 to 5 have no entry there.
        if row & OPENED != 0 {
            opened = cycle;
        }
        if row & FAILURE != 0 {
            let starts = match config.kind {
                0..=2 => failed_attempts(config, cycle, word, frame),
                6 => vec![cycle - 1],
                _ => vec![opened],
            };
            list.extend(starts.into_iter().map(|start| [cycle, FAILURE, start]));
        }
        if row & ILLEGAL != 0 {
            list.push([cycle, ILLEGAL, opened]);
        }
        word = record.words[t];
    }
    list
}

/// Kinds 0 to 2: the starts of the attempts open before the cycle that miss their event in it, the oldest first. An event
/// that is unknown is not missed.
fn failed_attempts(config: &Config, cycle: u32, word: u64, [_, p, _, _, _, p_unknown, _, _]: &Frame) -> Vec<u32> {
    let last = config.n - 1;
    let first_tested = if config.kind == MOST_PIPE { last } else { 1 };
    let wires = p | p_unknown;
    (first_tested..=last)
        .rev()
        .filter(|age| word >> (age - 1) & 1 != 0 && wires >> wire(config.p, last - age) & 1 == 0)
        .map(|age| cycle - age)
        .collect()
}

/// The wire of a port that is bit `bit` of its value.
fn wire(port: plain::Range, bit: u32) -> u32 {
    let right = u32::from(port.right);
    if port.left >= port.right {
        right + bit
    } else {
        right - bit
    }
}
