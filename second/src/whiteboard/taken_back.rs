//! Edits that are taken back, and two edits in either order, worked by hand from the sentences of §12 of document 02 and
//! from what the header says of the call that makes an edit and takes it back.

use super::*;
use crate::rules::Lending;
use crate::taken_back::{rechecked, Answer};

fn record(rows: &[u32], words: &[u64]) -> Record {
    Record { rows: rows.to_vec(), words: words.to_vec() }
}

/// The frames with those of another trace in cycles a to b−1.
fn with_frames(trace: &[u32], other: &[u32], (a, b): (usize, usize)) -> Vec<u32> {
    let mut trace = trace.to_vec();
    trace[FRAME_WORDS * a..FRAME_WORDS * b].copy_from_slice(&other[FRAME_WORDS * a..FRAME_WORDS * b]);
    trace
}

/// The frames with other wires of a word unknown in one cycle.
fn with_unknown(mut trace: Vec<u32>, t: usize, word: usize, bits: u32) -> Vec<u32> {
    trace[FRAME_WORDS * t + TO_UNKNOWN + word] = bits;
    trace
}

/// The reference r with so many cycles left: 2^48 + r × 2^16 and these.
const fn held(r: u64, left: u64) -> u64 {
    281_474_976_710_656 + r * 65_536 + left
}

/// An edit that is taken back: the record before it and after it, and e and changes of the edit and of its taking back.
struct Taken {
    line: Line,
    new: Vec<u32>,
    range: (usize, usize),
    edited: Record,
    edit: Answer,
    back: Answer,
}

/// The changes of the marks are those of the edit, and the opposite when it is taken back; e is the same.
fn taken(line: Line, new: Vec<u32>, range: (usize, usize), edited: Record, edit: Answer) -> Taken {
    let [e, changes @ ..] = edit;
    let [failed, illegal, opened, closed, restarted, unknown] = changes.map(|change| -change);
    let back = [e, failed, illegal, opened, closed, restarted, unknown];
    Taken { line, new, range, edited, edit, back }
}

/// The samples of case A, and with cycle 2 made 2.
fn a_and_edited() -> [Vec<u32>; 2] {
    [&A, &[8, 4, 2, 5, 2, 1]].map(|samples| frames(samples, &[], &[]))
}

/// Edits of cases of the whiteboard table, and of F under kind 1.
///
/// A: the trigger of cycle 2 goes, and its attempt, which was open after cycles 2 to 4: no word from 2 to 4 is as it was,
///    so e is N. When it comes back, so do they.
/// F: the 3 of cycle 2 has the last event of the attempt of cycle 0, which passes, and the second one of that of cycle 1,
///    which is then alive through s+n−2: 4 for kind 0. The edit is at the end of the trace.
/// F, kind 1: all samples made 0, and the whole trace edited: two triggers and a failure go.
/// K: the next state of cycle 2 made 5, from which the 0 of cycle 3 differs. The word of cycle 3 is as it was: e is 4.
/// K, unknown: a wire of that next state unknown, which is the last word of the samples: 32 besides the 4, and nothing is
///     stored.
fn sequence_edits() -> Vec<Taken> {
    let samples = |samples: &[u32]| frames(samples, &[], &[]);
    let [old, new] = a_and_edited();
    let a = line("A", sequence(1, 4, 3, 0), old, &[4, 0, 4, 0, 0, 0], &[1, 2, 5, 2, 4, 0]);
    let f = line("F", sequence(0, 3, 2, 0), samples(&[4, 6, 0]), &[0, 4, 1], &[1, 3, 0]);
    let f_1 = line("F, kind 1", sequence(1, 3, 2, 0), samples(&[4, 6, 0]), &[4, 4, 1], &[1, 3, 0]);
    let states = |next: &[u32]| frames(&[3, 4, 3, 0, 3], &[3; 5], next);
    let words = |stored| [STORED + 4, 0, stored, 0, STORED + 4];
    let k = |name| line(name, transition(), states(&[4, 4, 0, 4, 4]), &[4, 0, 4, 0, 4], &words(STORED));
    let k_edited = record(&[4, 0, 4, 1, 4], &words(STORED + 5));
    let (k_unknown, unknown) = (with_unknown(states(&[4, 4, 0, 4, 4]), 2, 3, 1), record(&[4, 0, 36, 0, 4], &words(0)));
    vec![
        taken(a, new, (2, 3), record(&[4, 0, 0, 0, 0, 0], &[1, 2, 4, 0, 0, 0]), [6, 0, 0, -1, 0, 0, 0]),
        taken(f, samples(&[4, 6, 3]), (2, 3), record(&[0, 4, 4], &[1, 3, 2]), [3, -1, 0, 1, 0, 0, 0]),
        taken(f_1, samples(&[0; 3]), (0, 3), record(&[0; 3], &[0; 3]), [3, -1, 0, -2, 0, 0, 0]),
        taken(k("K"), states(&[4, 4, 5, 4, 4]), (2, 3), k_edited, [4, 1, 0, 0, 0, 0, 0]),
        taken(k("K, unknown"), k_unknown, (2, 3), unknown, [4, 0, 0, 0, 0, 0, 1]),
    ]
}

/// Edits of time checks of n 2.
///
/// AW: kind 3 with start and test 1 in all cycles: windows from 0 to 2 and from 3 to 5. Without the start of cycle 0 they
///     are from 1 to 3 and from 4 on, so that one 8 goes, and no word is as it was.
/// AX: kind 4. The start of cycle 2 restarts the window, in its last cycle: 20; it closes in cycle 4. Without it, it closes
///     in cycle 2: one 8 goes and one comes. After cycle 4 nothing is pending either way: e is 5.
/// AY: kind 5. In cycle 1 the test is 0 and the start illegal: 3. With neither, the window goes on as before: e is b.
fn time_edits() -> Vec<Taken> {
    let all = frames(&[1; 6], &[1; 6], &[]);
    let aw = line("AW", time(3, 2), all, &[4, 0, 8, 4, 0, 8], &[2, 1, 0, 2, 1, 0]);
    let aw_new = frames(&[0, 1, 1, 1, 1, 1], &[1; 6], &[]);
    let restarted = frames(&[1, 0, 1, 0, 0, 0], &[1; 6], &[]);
    let ax = line("AX", time(4, 2), restarted, &[4, 0, 20, 0, 8, 0], &[2, 1, 2, 1, 0, 0]);
    let ax_new = frames(&[1, 0, 0, 0, 0, 0], &[1; 6], &[]);
    let illegal = frames(&[1, 1, 0, 1, 0, 0], &[1, 0, 1, 1, 1, 1], &[]);
    let ay = line("AY", time(5, 2), illegal, &[4, 3, 8, 4, 0, 8], &[2, 1, 0, 2, 1, 0]);
    let ay_new = frames(&[1, 0, 0, 1, 0, 0], &[1; 6], &[]);
    vec![
        taken(aw, aw_new, (0, 1), record(&[0, 4, 0, 8, 4, 0], &[0, 2, 1, 0, 2, 1]), [6, 0, 0, 0, -1, 0, 0]),
        taken(ax, ax_new, (2, 3), record(&[4, 0, 8, 0, 0, 0], &[2, 1, 0, 0, 0, 0]), [5, 0, 0, -1, 0, -1, 0]),
        taken(ay, ay_new, (1, 2), record(&[4, 0, 8, 4, 0, 8], &[2, 1, 0, 2, 1, 0]), [2, -1, -1, 0, 0, 0, 0]),
    ]
}

/// Edits of fatal checkers.
///
/// D: the failure of cycle 4 goes: there and in cycle 5 the second and the last event of the attempt of cycle 3 are put in.
/// AZ: kind 7, min 1, max 3, value 5. The window of cycle 0 passes, and that of cycle 4 fails in cycle 5. Then P is 7 in
///     cycle 2, where the first window fails: its 8 and the 4 of cycle 4 go, and there is one failure as before. In cycle 5
///     both are stopped: e is 6.
fn fatal_edits() -> Vec<Taken> {
    let d = line("D", fatal(sequence(2, 3, 2, 0)), frames(&D, &[], &[]), &[4, 0, 0, 4, 1, 0], &[1, 2, 0, 1, S, S]);
    let d_new = frames(&[4, 6, 5, 4, 2, 5], &[], &[]);
    let [old, earlier, _] = az();
    let az = line("AZ", fatal(value(1, 3, 5)), old, &[4, 0, 0, 8, 4, 1, 0], &[3, 2, 1, 0, 3, S, S]);
    let az_edited = record(&[4, 0, 1, 0, 0, 0, 0], &[3, 2, S, S, S, S, S]);
    vec![
        taken(d, d_new, (4, 6), record(&[4, 0, 0, 4, 0, 0], &[1, 2, 0, 1, 2, 0]), [6, -1, 0, 0, 0, 0, 0]),
        taken(az, earlier, (2, 3), az_edited, [6, 0, 0, -1, -1, 0, 0]),
    ]
}

/// The samples of AZ, with P 7 in cycle 2, and with P 5 in cycle 5.
fn az() -> [Vec<u32>; 3] {
    let tracked: [[u32; 7]; 3] = [[5, 5, 5, 5, 5, 4, 5], [5, 5, 7, 5, 5, 4, 5], [5; 7]];
    tracked.map(|tracked| window_frames([&[1; 7], &[1, 0, 0, 0, 1, 0, 0], &tracked]))
}

/// Case Q, with the tracked value of cycle 2, and with that of cycle 4.
fn q(reference: u32, last: u32) -> Vec<u32> {
    window_frames([&[1, 0, 1, 0, 1, 1], &[1, 0, 0, 0, 0, 0], &[3, 4, reference, 1, last, 6]])
}

/// Edits of cycle 2 of case Q, which has the reference 6, from which the 5 of cycle 4 differs.
///
/// Q: the reference is 5, and cycle 4 does not fail. After it the window is over: e is 5.
/// Q, unknown: a wire of P unknown in cycle 2: 32, and no reference. In cycle 3 enable is 0, so it is taken in cycle 4,
///    which is s+max: the window closes.
fn stability_edits() -> Vec<Taken> {
    let line = |name| line(name, stability(1, 4), q(6, 5), &[4, 0, 0, 0, 9, 0], &Q_WORDS);
    let five = record(&[4, 0, 0, 0, 8, 0], &[4, 3, held(5, 2), held(5, 1), 0, 0]);
    let unknown = record(&[4, 0, 32, 0, 8, 0], &[4, 3, 2, 1, 0, 0]);
    vec![
        taken(line("Q"), q(5, 5), (2, 3), five, [5, -1, 0, 0, 0, 0, 0]),
        taken(line("Q, unknown"), with_unknown(q(6, 5), 2, 1, 2), (2, 3), unknown, [5, -1, 0, 0, 0, 0, 1]),
    ]
}

/// "exact at zero and at plus or minus 65,536": test, start state and next state are 0 in all of 65,536 cycles, so that
/// each starts and none fails. Then the test is 1 in all of them, and none starts.
fn greatest_edit() -> Taken {
    let [old, new] = [known([1, 0, 0, 0]), known([1, 1, 0, 0])].map(|frame| frame.repeat(65_536));
    let line = line("65,536 starts", transition(), old, &[4; 65_536], &[STORED; 65_536]);
    taken(line, new, (0, 65_536), record(&[0; 65_536], &[0; 65_536]), [65_536, 0, 0, -65_536, 0, 0, 0])
}

/// A with a = b, where e is b, and a trace without cycles, where e is 0.
fn empty_edits() -> Vec<Taken> {
    let [old, _] = a_and_edited();
    let (rows, words) = ([4, 0, 4, 0, 0, 0], [1, 2, 5, 2, 4, 0]);
    let a = || line("A, a = b", sequence(1, 4, 3, 0), old.clone(), &rows, &words);
    let none = line("N = 0", sequence(1, 4, 3, 0), Vec::new(), &[], &[]);
    let at = |t: usize| taken(a(), old.clone(), (t, t), record(&rows, &words), [t as i32, 0, 0, 0, 0, 0, 0]);
    vec![at(0), at(3), at(6), taken(none, Vec::new(), (0, 0), record(&[], &[]), [0; ANSWERS])]
}

/// The call by the library and by the rules: the refusals and answers of its two rechecks, and the record that it leaves.
fn check_call(config: Config, range: (u64, u64), lending: &Lending, due: [(Refusal, Answer); 2], left: &Record) -> Outcome {
    let (a, b) = range;
    let (mut by_host, mut by_rules) = (lending.clone(), lending.clone());
    let answer = host::edit_and_take_back(config, a, b, &mut by_host)?;
    is("answer after the edit", answer.edit, rechecked(due[0]))?;
    is("answer after it was taken back", answer.back, rechecked(due[1]))?;
    is("answers of the rules", by_rules.take_back(config, a, b), due)?;
    for (by, given) in [("the library", by_host), ("the rules", by_rules)] {
        are(&format!("rows of {by}"), &given.rows, &left.rows)?;
        are(&format!("words of {by}"), &given.words, &left.words)?;
        are(&format!("trace of {by}"), &given.trace, &lending.trace)?;
        are(&format!("samples of {by}"), &given.samples, &lending.samples)?;
    }
    Ok(())
}

/// The samples of cycles a to b−1.
fn samples_of(trace: &[u32], (a, b): (usize, usize)) -> Vec<u32> {
    trace[FRAME_WORDS * a..FRAME_WORDS * b].to_vec()
}

/// The record before the edit by a full check, the recheck after it, the one after it was taken back, and the call.
fn check_taken(taken: &Taken) -> Outcome {
    let Taken { line, new, range, edited, edit, back } = taken;
    let (config, kept, (a, b)) = (line.config, record(&line.rows, &line.words), (range.0 as u64, range.1 as u64));
    check_line(line)?;
    let after_edit = Due { refusal: DONE, rows: &edited.rows, words: &edited.words, answer: *edit };
    check_kept(&Edit { config, trace: new, a, b }, &kept, OF_TRUE, after_edit).map_err(|d| format!("edit: {d}"))?;
    let after_back = Due { refusal: DONE, rows: &kept.rows, words: &kept.words, answer: *back };
    check_kept(&Edit { config, trace: &line.trace, a, b }, edited, OF_TRUE, after_back)
        .map_err(|d| format!("taken back: {d}"))?;
    let lending = Lending {
        trace: line.trace.clone(),
        rows: kept.rows.clone(),
        words: kept.words.clone(),
        samples: samples_of(new, *range),
    };
    check_call(config, (a, b), &lending, [(DONE, *edit), (DONE, *back)], &kept).map_err(|d| format!("call: {d}"))
}

/// Two edits: the records without an edit, with the first, with the second, and with both; and e and changes of each edit,
/// made first and made second.
struct Two {
    name: &'static str,
    config: Config,
    traces: [Vec<u32>; 3],
    ranges: [(usize, usize); 2],
    records: [Record; 4],
    first: [Answer; 2],
    second: [Answer; 2],
}

/// Two edits of checkers that go on.
///
/// A: cycle 2 made 2, and next to it cycle 3 made 1. With the second alone, the attempt of cycle 2 fails in cycle 3, which
///    has not its second event. With the first that attempt is not there, and the second changes nothing: its e is 4, where
///    it was 6. With the second made, the word of cycle 3 is 0 whether that attempt was there or not: e of the first is 4,
///    where it was 6.
/// AW: the start of cycle 0 taken away, and that of cycle 3. With the second alone, the second window is from 4 on. With
///    the first, cycle 3 is the last of a window, and its start is ignored: both are as the first alone. So the second,
///    made after it, changes nothing, and the first, made after the second, finds its window of cycle 4.
fn two_of_going_on() -> Vec<Two> {
    let samples = |samples: &[u32]| frames(samples, &[], &[]);
    let starts = |start: &[u32]| frames(start, &[1; 6], &[]);
    let attempt_gone = || record(&[4, 0, 0, 0, 0, 0], &[1, 2, 4, 0, 0, 0]);
    let later = || record(&[0, 4, 0, 8, 4, 0], &[0, 2, 1, 0, 2, 1]);
    vec![
        Two {
            name: "A",
            config: sequence(1, 4, 3, 0),
            traces: [samples(&A), samples(&[8, 4, 2, 5, 2, 1]), samples(&[8, 4, 10, 1, 2, 1])],
            ranges: [(2, 3), (3, 4)],
            records: [
                record(&[4, 0, 4, 0, 0, 0], &[1, 2, 5, 2, 4, 0]),
                attempt_gone(),
                record(&[4, 0, 4, 1, 0, 0], &[1, 2, 5, 0, 0, 0]),
                attempt_gone(),
            ],
            first: [[6, 0, 0, -1, 0, 0, 0], [4, -1, 0, -1, 0, 0, 0]],
            second: [[6, 1, 0, 0, 0, 0, 0], [4, 0, 0, 0, 0, 0, 0]],
        },
        Two {
            name: "AW",
            config: time(3, 2),
            traces: [starts(&[1; 6]), starts(&[0, 1, 1, 1, 1, 1]), starts(&[1, 1, 1, 0, 1, 1])],
            ranges: [(0, 1), (3, 4)],
            records: [
                record(&[4, 0, 8, 4, 0, 8], &[2, 1, 0, 2, 1, 0]),
                later(),
                record(&[4, 0, 8, 0, 4, 0], &[2, 1, 0, 0, 2, 1]),
                later(),
            ],
            first: [[6, 0, 0, 0, -1, 0, 0], [4, 0, 0, 0, 0, 0, 0]],
            second: [[6, 0, 0, 0, -1, 0, 0], [4, 0, 0, 0, 0, 0, 0]],
        },
    ]
}

/// Two edits of a fatal checker.
///
/// AZ: P 7 in cycle 2, which fails there, and P 5 in cycle 5, which takes the failure there away. With the second alone,
///     the window of cycle 4 is open in the end. With the first, it is stopped in cycle 5 as before: e of the second is d.
///     Made after the second, the first finds no stopped checker: its e is N, and it has one failure more.
fn two_of_fatal() -> Two {
    let stopped = || record(&[4, 0, 1, 0, 0, 0, 0], &[3, 2, S, S, S, S, S]);
    Two {
        name: "AZ",
        config: fatal(value(1, 3, 5)),
        traces: az(),
        ranges: [(2, 3), (5, 6)],
        records: [
            record(&[4, 0, 0, 8, 4, 1, 0], &[3, 2, 1, 0, 3, S, S]),
            stopped(),
            record(&[4, 0, 0, 8, 4, 0, 0], &[3, 2, 1, 0, 3, 2, 1]),
            stopped(),
        ],
        first: [[6, 0, 0, -1, -1, 0, 0], [7, 1, 0, -1, -1, 0, 0]],
        second: [[7, -1, 0, 0, 0, 0, 0], [6, 0, 0, 0, 0, 0, 0]],
    }
}

/// Two edits of kind 8.
///
/// Q: the reference made 5, and the value of cycle 4 made 6. Each alone takes the failure away, and with both it is there
///    again. No end differs, but all the changes do.
/// BA: min 0, max 3, P 3 always. The trigger of cycle 0 taken away, and one put into cycle 1. With the second alone it is
///     ignored: nothing changes, and e is d. With both, the window is a cycle later: e is 5 for the edit that is made last.
fn two_of_stability() -> Vec<Two> {
    let fives = [4, 3, held(5, 2), held(5, 1), 0, 0];
    let threes = [held(3, 3), held(3, 2), held(3, 1), 0, 0, 0];
    let triggers = |trigger: &[u32]| window_frames([&[1; 6], trigger, &[3; 6]]);
    vec![
        Two {
            name: "Q",
            config: stability(1, 4),
            traces: [q(6, 5), q(5, 5), q(6, 6)],
            ranges: [(2, 3), (4, 5)],
            records: [
                record(&[4, 0, 0, 0, 9, 0], &Q_WORDS),
                record(&[4, 0, 0, 0, 8, 0], &fives),
                record(&[4, 0, 0, 0, 8, 0], &Q_WORDS),
                record(&[4, 0, 0, 0, 9, 0], &fives),
            ],
            first: [[5, -1, 0, 0, 0, 0, 0], [5, 1, 0, 0, 0, 0, 0]],
            second: [[5, -1, 0, 0, 0, 0, 0], [5, 1, 0, 0, 0, 0, 0]],
        },
        Two {
            name: "BA",
            config: stability(0, 3),
            traces: [triggers(&[1, 0, 0, 0, 0, 0]), triggers(&[0; 6]), triggers(&[1, 1, 0, 0, 0, 0])],
            ranges: [(0, 1), (1, 2)],
            records: [
                record(&[4, 0, 0, 8, 0, 0], &threes),
                record(&[0; 6], &[0; 6]),
                record(&[4, 0, 0, 8, 0, 0], &threes),
                record(&[0, 4, 0, 0, 8, 0], &[0, held(3, 3), held(3, 2), held(3, 1), 0, 0]),
            ],
            first: [[4, 0, 0, -1, -1, 0, 0], [5, 0, 0, 0, 0, 0, 0]],
            second: [[2, 0, 0, 0, 0, 0, 0], [5, 0, 0, 1, 1, 0, 0]],
        },
    ]
}

/// Both edits in both orders, each recheck from the record that the one before left.
fn check_two(two: &Two) -> Outcome {
    let Two { config, traces: [old, first, second], ranges, records, .. } = two;
    let traces = [old, first, second, &with_frames(first, second, ranges[1])];
    for (made, record) in records.iter().enumerate() {
        is(&format!("record by the rules, edits {made}"), &rules::true_record(*config, traces[made]), record)?;
    }
    let answers = [two.first, two.second];
    for (before, i, at) in [(0, 0, 0), (1, 1, 1), (0, 1, 0), (2, 0, 1)] {
        let after = before | 1 << i;
        let (a, b) = (ranges[i].0 as u64, ranges[i].1 as u64);
        let due = Due { refusal: DONE, rows: &records[after].rows, words: &records[after].words, answer: answers[i][at] };
        check_kept(&Edit { config: *config, trace: traces[after], a, b }, &records[before], OF_TRUE, due)
            .map_err(|d| format!("edit {i}, made after {at} others: {d}"))?;
    }
    let sum = |one: Answer, other: Answer| [1, 2, 3, 4, 5, 6].map(|i| one[i] + other[i]);
    is("sums of the changes", sum(two.first[0], two.second[1]), sum(two.second[0], two.first[1]))
}

/// The call from records that are not the trace's own: what is left is what the two rechecks leave.
///
/// Case A with all bits of its marks in each row: the edit makes the rows of cycles 2 to 5 0, and takes each mark from four
/// rows. Taken back, they are those of A, where cycle 2 has a 4.
///
/// Case A with the word 0 in cycles 3 and 4, which is possible: the edit leaves the word 0 in cycle 3, so that its e is 4.
/// Taken back, the words of cycles 3 and 4 are 2 and 4, and so e is N, and the record A's own.
///
/// Case K with rows 0 and with words 0 but for the 2^32 of cycle 3: the edit leaves 0 there, so it goes on to N. Taken
/// back, the word of cycle 3 is the 0 that was left: e is 4.
fn false_records() -> Outcome {
    let [trace, new] = a_and_edited();
    let (config, words) = (sequence(1, 4, 3, 0), [1, 2, 5, 2, 4, 0]);
    let lent = |rows: &[u32], words: &[u64]| Lending {
        trace: trace.clone(),
        rows: rows.to_vec(),
        words: words.to_vec(),
        samples: samples_of(&new, (2, 3)),
    };
    let due = [(DONE, [6, -4, -4, -4, -4, -4, -4]), (DONE, [6, 0, 0, 1, 0, 0, 0])];
    check_call(config, (2, 3), &lent(&[63; 6], &words), due, &record(&[63, 63, 4, 0, 0, 0], &words))?;
    let due = [(DONE, [4, 0, 0, -1, 0, 0, 0]), (DONE, [6, 0, 0, 1, 0, 0, 0])];
    let rows = [4, 0, 4, 0, 0, 0];
    check_call(config, (2, 3), &lent(&rows, &[1, 2, 5, 0, 0, 0]), due, &record(&rows, &words))?;

    let states = |next: &[u32]| frames(&[3, 4, 3, 0, 3], &[3; 5], next);
    let lending = Lending {
        trace: states(&[4, 4, 0, 4, 4]),
        rows: vec![0; 5],
        words: vec![0, 0, 0, STORED, 0],
        samples: samples_of(&states(&[4, 4, 5, 4, 4]), (2, 3)),
    };
    let due = [(DONE, [5, 1, 0, 2, 0, 0, 0]), (DONE, [4, -1, 0, 0, 0, 0, 0])];
    check_call(transition(), (2, 3), &lending, due, &record(&[0, 0, 4, 0, 4], &[0, 0, STORED, 0, STORED + 4]))
}

/// A call for case A that is refused: with these lengths of trace, rows, words and samples, and the word of cycle 4.
struct Refused {
    config: Config,
    lengths: [usize; 4],
    word: u64,
    range: (u64, u64),
    due: (u32, u32),
}

/// Case A has 48 words of trace, 6 rows and 6 words; the word 8 is impossible for it. The samples of one cycle are 8 words.
fn refused(lengths: [usize; 4], range: (u64, u64), number: u32) -> Refused {
    Refused { config: sequence(1, 4, 3, 0), lengths, word: 4, range, due: (number, 0) }
}

/// Refusal 5 for the samples, and 6 where they are as many as are due, which is 0 where a is above b. 8 times 2^61 is 2^64,
/// of which the lower 64 bits are 0.
fn refused_samples() -> Vec<Refused> {
    const FAR: u64 = 1 << 61;
    const LAST: u64 = u64::MAX;
    let samples: [((u64, u64), &[usize], &[usize]); 13] = [
        ((2, 3), &[0, 1, 4, 7, 9, 16], &[]),
        ((0, 6), &[0, 40, 47, 49, 56], &[]),
        ((3, 3), &[1, 8], &[]),
        ((3, 2), &[1, 8], &[0]),
        ((6, 0), &[8, 48], &[0]),
        ((6, 7), &[0, 7, 16], &[8]),
        ((7, 7), &[8], &[0]),
        ((0, FAR), &[0, 8, 48], &[]),
        ((2, 3 + FAR), &[0, 8], &[]),
        ((2 + FAR, 3), &[8], &[0]),
        ((LAST, LAST), &[8], &[0]),
        ((0, LAST), &[0, 8, 48], &[]),
        ((LAST, 0), &[8], &[0]),
    ];
    let mut calls = Vec::new();
    for (range, wrong, right) in samples {
        calls.extend(wrong.iter().map(|len| refused([48, 6, 6, *len], range, 5)));
        calls.extend(right.iter().map(|len| refused([48, 6, 6, *len], range, 6)));
    }
    calls
}

/// Each refusal with all that would be refused later wrong too.
fn refused_in_order() -> Vec<Refused> {
    let right = sequence(1, 4, 3, 0);
    let with = |config, call: Refused| Refused { config, ..call };
    let spoiled = |call: Refused| Refused { word: 8, ..call };
    vec![
        with(Config { kind: 9, n: 33, ..right }, spoiled(refused([47, 5, 7, 9], (3, 2), 1))),
        with(Config { n: 33, q: wire(1), ..right }, spoiled(refused([47, 5, 7, 9], (3, 2), 2))),
        with(Config { severity: 2, q: wire(1), ..right }, spoiled(refused([47, 5, 7, 9], (3, 2), 2))),
        with(Config { q: wire(1), ..right }, spoiled(refused([47, 5, 7, 9], (3, 2), 3))),
        spoiled(refused([47, 5, 7, 9], (3, 2), 4)),
        spoiled(refused([44, 6, 6, 8], (2, 3), 4)),
        spoiled(refused([8 * 65_537, 6, 6, 9], (3, 2), 4)),
        spoiled(refused([48, 5, 6, 0], (3, 2), 5)),
        spoiled(refused([48, 6, 7, 0], (3, 2), 5)),
        spoiled(refused([40, 6, 6, 8], (2, 3), 5)),
        spoiled(refused([48, 6, 6, 8], (3, 2), 5)),
        spoiled(refused([48, 6, 6, 7], (2, 3), 5)),
        spoiled(refused([48, 6, 6, 0], (3, 2), 6)),
        spoiled(refused([48, 6, 6, 8], (6, 7), 6)),
        Refused { due: (7, 4), ..spoiled(refused([48, 6, 6, 8], (2, 3), 7)) },
        Refused { due: (7, 4), ..spoiled(refused([48, 6, 6, 0], (6, 6), 7)) },
        Refused { due: (7, 4), ..spoiled(refused([48, 6, 6, 48], (0, 6), 7)) },
    ]
}

/// "Refused, rows and words are as they were", and trace and samples are always.
fn check_refused_call(call: &Refused) -> Outcome {
    let [trace_len, rows_len, words_len, samples_len] = call.lengths;
    let [mut trace, _] = a_and_edited();
    trace.resize(trace_len, 1);
    let (mut rows, mut words) = (vec![4, 0, 4, 0, 0, 0], vec![1, 2, 5, 2, call.word, 0]);
    rows.resize(rows_len, 5);
    words.resize(words_len, 1);
    let left = record(&rows, &words);
    let lending = Lending { trace, rows, words, samples: vec![9; samples_len] };
    let refusal = Refusal { number: call.due.0, cycle: call.due.1 };
    check_call(call.config, call.range, &lending, [(refusal, [0; ANSWERS]); 2], &left)
}

/// The answer is how many cases of an edit that is taken back there are, of two edits, and of calls that are refused.
pub fn compare() -> Result<[usize; 3], String> {
    let tables = [sequence_edits(), time_edits(), fatal_edits(), stability_edits(), empty_edits(), vec![greatest_edit()]];
    let edits: Vec<Taken> = tables.into_iter().flatten().collect();
    for taken in &edits {
        check_taken(taken).map_err(|d| format!("case {}, an edit taken back: {d}", taken.line.name))?;
    }
    let twos: Vec<Two> = [two_of_going_on(), vec![two_of_fatal()], two_of_stability()].into_iter().flatten().collect();
    for two in &twos {
        check_two(two).map_err(|d| format!("case {}, two edits in either order: {d}", two.name))?;
    }
    false_records().map_err(|d| format!("edits of false records taken back: {d}"))?;
    let calls: Vec<Refused> = refused_samples().into_iter().chain(refused_in_order()).collect();
    for call in &calls {
        check_refused_call(call).map_err(|d| {
            let Refused { config, lengths, range, .. } = call;
            format!("case A, an edit taken back, {config:?}, lengths {lengths:?}, a and b {range:?}: {d}")
        })?;
    }
    Ok([edits.len(), twos.len(), calls.len()])
}
