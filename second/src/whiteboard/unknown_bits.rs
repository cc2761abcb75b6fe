//! Cases with unknown bits, worked by hand from the sentences of §8 of document 02 and the readings that settle them. Value bits
//! under unknown bits are such that a check which read them would go wrong.

use super::*;

const RESET: usize = 0;
const P: usize = 1;
const Q: usize = 2;
const R: usize = 3;

/// The frames with these unknown bits of a word, cycle by cycle from 0 on.
fn with_unknown(mut trace: Vec<u32>, word: usize, bits: &[u32]) -> Vec<u32> {
    for (t, bits) in bits.iter().enumerate() {
        trace[FRAME_WORDS * t + TO_UNKNOWN + word] = *bits;
    }
    trace
}

/// A case with its failure list.
struct Listed {
    line: Line,
    list: &'static [u32],
}

fn listed(line: Line, list: &'static [u32]) -> Listed {
    Listed { line, list }
}

/// The reference 6 with 2 cycles left, and with 1: 2^48 + 6 × 2^16 + 2, and one less.
const HELD_6: [u64; 2] = [281_474_977_103_874, 281_474_977_103_873];

/// Sequences of n 3 on P [2:0]: the events are 4, 2 and 1. In cycle 2 bit 0 is unknown, in cycle 3 the start bit with a 1 under
/// it, in cycle 5 bit 1 with a 1 under it, and in cycle 7 all but bit 0.
///
/// AJ: in cycle 2 the attempt of cycle 0 needs bit 0, which is unknown: 32; that of cycle 1 needs bit 1, which is 0: 1. No start
///     in cycle 3. In cycle 5 the attempt of cycle 4 needs bit 1, which is unknown: 32, and the start there is accepted: 4. That
///     attempt goes on in cycle 6 and passes in cycle 7.
/// AK: kind 2 ignores the start of cycle 1, so in cycle 2 there is 32 alone; and that of cycle 5, where 32 ends the attempt of
///     cycle 4: nothing is open after it.
/// AL: kind 0 has 4 in cycle 1, where the attempt of cycle 0 is alive through s+1; in cycle 2 its last event is unknown: 32. The
///     attempt of cycle 1 dies there without a mark, and in cycle 5 that of cycle 4, for bit 1 is not the last event.
fn sequence_lines() -> Vec<Listed> {
    let samples = || with_unknown(frames(&[4, 6, 0, 7, 4, 6, 2, 7], &[], &[]), P, &[0, 0, 1, 4, 0, 2, 0, 6]);
    let line = |name, kind, rows: &[u32], words: &[u64]| line(name, sequence(kind, 3, 2, 0), samples(), rows, words);
    vec![
        listed(line("AJ", 1, &[4, 4, 33, 0, 4, 36, 0, 0], &[1, 3, 0, 0, 1, 1, 2, 0]), &[2, 1, 1]),
        listed(line("AK", 2, &[4, 0, 32, 0, 4, 32, 0, 0], &[1, 2, 0, 0, 1, 0, 0, 0]), &[]),
        listed(line("AL", 0, &[0, 4, 32, 0, 0, 0, 4, 0], &[1, 3, 0, 0, 1, 1, 2, 0]), &[]),
    ]
}

/// Time checks of n 3. The start is unknown in cycles 0 and 3, with a 1 under it, the test in cycles 1, 2, 4 and 6.
///
/// In cycle 0 there is no start. In cycle 1 there is one, and no test: 4. In cycle 2 the test is unknown: 32, and the check goes
/// on. In cycle 3 the test is 0: 1; the unknown start neither restarts the check nor is illegal.
/// AM: cycle 4 is s+n, its test is unknown: 32 and 8. Kind 3 ignores the start in it, and nothing is pending after it.
/// AN: in cycle 4 kind 4 restarts: 20, and no 32, for no test is taken. The test is 1 in cycle 5, unknown in cycle 6: 32, and 0
///     in cycle 7, which is s+n: 9.
/// AO: as AM, and the start in cycle 4 is illegal: 2, 8 and 32.
/// AM, fatal: the 32 of cycle 2 does not stop it, the failure of cycle 3 does.
fn time_lines() -> Vec<Listed> {
    let (start, test) = ([1, 1, 0, 1, 1, 0, 0, 0], [0, 0, 0, 0, 1, 1, 0, 0]);
    let known = frames(&start, &test, &[]);
    let samples = with_unknown(with_unknown(known, P, &[1, 0, 0, 1]), Q, &[0, 1, 1, 0, 1, 0, 1]);
    let line = |name, config, rows: &[u32], words: &[u64]| line(name, config, samples.clone(), rows, words);
    vec![
        listed(line("AM", time(3, 3), &[0, 4, 32, 1, 40, 0, 0, 0], &[0, 3, 2, 1, 0, 0, 0, 0]), &[3, 1, 1]),
        listed(line("AN", time(4, 3), &[0, 4, 32, 1, 20, 0, 32, 9], &[0, 3, 2, 1, 3, 2, 1, 0]), &[3, 1, 1, 7, 1, 4]),
        listed(line("AO", time(5, 3), &[0, 4, 32, 1, 42, 0, 0, 0], &[0, 3, 2, 1, 0, 0, 0, 0]), &[3, 1, 1, 4, 2, 1]),
        listed(line("AM, fatal", fatal(time(3, 3)), &[0, 4, 32, 1, 0, 0, 0, 0], &[0, 3, 2, S, S, S, S, S]), &[3, 1, 1]),
    ]
}

/// Transitions on three wires, with start state 3.
///
/// AP: in cycle 0 bit 2 of the start state is unknown: no start. Cycle 1 starts and stores 4. In cycle 2 bit 2 of the test is
///     unknown: 32, though its known bits are not those of 4; and no start, though its value bits are 3. Cycle 3 starts with an
///     unknown next state: 4 and 32, nothing is stored, so that the 0 of cycle 4 does not fail. Cycle 5 starts and stores 4. In
///     cycle 6 the 3 is not 4, it is a start again, and the next state is unknown: 1, 4 and 32. Nothing is pending in cycle 7.
fn transition_lines() -> Vec<Listed> {
    let known = frames(&[3, 3, 3, 3, 0, 3, 3, 5], &[3; 8], &[4; 8]);
    let states = with_unknown(with_unknown(known, P, &[0, 0, 4]), Q, &[4]);
    let samples = with_unknown(states, R, &[0, 0, 0, 1, 7, 0, 2, 7]);
    let words = [0, STORED + 4, 0, 0, 0, STORED + 4, 0, 0];
    vec![listed(line("AP", transition(), samples, &[0, 4, 32, 36, 0, 4, 37, 0], &words), &[6, 1, 5])]
}

/// Checks after a trigger, on P [2:0]. The rows of samples are enable, trigger and tracked value.
///
/// AQ: kind 7, min 0, max 3, value 5. The trigger of cycle 0 is unknown. That of cycle 1 is accepted, and P is unknown in it: 4
///     and 32. In cycle 2 enable is unknown, so that the 0 is not tested. The 4 of cycle 3 fails. In cycle 4, which is s+max, bit
///     1 of P is unknown, and the others are those of 5: 32 and 8; the trigger there is ignored. In cycle 5 there is one with P
///     right: 4. The unknown reset of cycle 6 ends the window; cycle 7 has none, so that its unknown P is not tested.
/// AR: kind 8, min 0, max 4. P is unknown in the trigger cycle 0: 4 and 32, and in cycle 1: 32; so the reference is the 6 of
///     cycle 2. In cycle 3 bit 0 of P is unknown: 32, the reference stays. The 7 of cycle 4, s+max, differs: 1 and 8. In the
///     window of cycle 5 P is unknown where it is tested, in cycles 5, 8 and 9, and enable is 0 in cycle 6 and unknown in cycle
///     7: it closes without a reference.
fn window_lines() -> Vec<Listed> {
    let aq = window_frames([&[1; 8], &[1, 1, 0, 0, 1, 1, 0, 0], &[5, 5, 0, 4, 7, 5, 4, 4]]);
    let aq = with_unknown(with_unknown(aq, Q, &[1]), P, &[0, 1, 0, 0, 2, 0, 0, 7]);
    let aq = with_unknown(aq, RESET, &[0, 0, 2, 0, 0, 0, 1]);
    let tracked = [3, 3, 6, 6, 7, 1, 2, 2, 1, 1];
    let ar = window_frames([&[1, 1, 1, 1, 1, 1, 0, 1, 1, 1], &[1, 0, 0, 0, 0, 1, 0, 0, 0, 0], &tracked]);
    let ar = with_unknown(ar, P, &[4, 1, 0, 1, 0, 7, 0, 0, 2, 1]);
    let ar = with_unknown(ar, RESET, &[0, 0, 0, 0, 0, 0, 0, 2]);
    let ar_words = [4, 3, HELD_6[0], HELD_6[1], 0, 4, 3, 2, 1, 0];
    vec![
        listed(line("AQ", value(0, 3, 5), aq, &[0, 36, 0, 1, 40, 4, 0, 0], &[0, 3, 2, 1, 0, 3, 0, 0]), &[3, 1, 1]),
        listed(line("AR", stability(0, 4), ar, &[36, 32, 0, 32, 9, 36, 0, 0, 32, 40], &ar_words), &[4, 1, 0]),
    ]
}

/// What an unknown reset word does, and what is not read.
///
/// AS: kind 1, n 2. The reset of cycle 1 is unknown, with a 1 under it: it ends the attempt of cycle 0, and the start bit there
///     is not seen. In cycle 3 bit 1 of the reset word is unknown, which is no enable of this kind: 4; and 1 in cycle 4.
/// AT: case C of document 01 with all wires unknown that it does not read: those above wire 3 of P, all of Q and R, and the
///     reset word but for reset_n. All is as in C.
/// AU: kind 3, n 1, with start and test on wire 0, and all other wires unknown: 4, then 8.
/// AV: kind 7, min 0, max 1, value 5, and all wires unknown but P [2:0], the trigger, reset_n and enable: 4, then 8.
fn reset_lines() -> Vec<Listed> {
    let samples = with_unknown(frames(&[2, 3, 1, 2, 0], &[], &[]), RESET, &[0, 1, 0, 2, 0]);
    let all = u32::MAX;
    let unread = with_unknown(with_unknown(frames(&A, &[], &[]), RESET, &[!1; 6]), P, &[!15; 6]);
    let unread = with_unknown(with_unknown(unread, Q, &[all; 6]), R, &[all; 6]);
    let wires = with_unknown(with_unknown(frames(&[1, 0], &[0, 1], &[]), P, &[!1; 2]), Q, &[!1; 2]);
    let wires = with_unknown(with_unknown(wires, R, &[all; 2]), RESET, &[!1; 2]);
    let window = with_unknown(window_frames([&[1; 2], &[1, 0], &[5; 2]]), RESET, &[!3; 2]);
    let window = with_unknown(with_unknown(with_unknown(window, P, &[!7; 2]), Q, &[!1; 2]), R, &[all; 2]);
    vec![
        listed(line("AS", sequence(1, 2, 1, 0), samples, &[4, 0, 0, 4, 1], &[1, 0, 0, 1, 0]), &[4, 1, 3]),
        listed(line("AT", sequence(1, 4, 0, 3), unread, &[0, 0, 0, 4, 0, 5], &[0, 0, 0, 1, 2, 1]), &[5, 1, 3]),
        listed(line("AU", time(3, 1), wires, &[4, 8], &[1, 0]), &[]),
        listed(line("AV", value(0, 1, 5), window, &[4, 8], &[1, 0]), &[]),
    ]
}

/// Edits of unknown bits alone.
fn rechecks() -> Outcome {
    // Kind 1, n 3: the attempt of cycle 0 fails in cycle 2, until its last event is unknown; then it is again known.
    let known = frames(&[4, 2, 0], &[], &[]);
    let unknown = with_unknown(known.clone(), P, &[0, 0, 1]);
    let edit = |trace| Edit { config: sequence(1, 3, 2, 0), trace, a: 2, b: 3 };
    check_changes(&edit(&unknown), &known, &[4, 0, 32], &[1, 2, 0], [3, -1, 0, 0, 0, 0, 1])?;
    check_changes(&edit(&known), &unknown, &[4, 0, 1], &[1, 2, 0], [3, 1, 0, 0, 0, 0, -1])?;

    // Kind 8, min 0, max 2: P is unknown in the trigger cycle, so the reference is taken in cycle 1, and is the same: e is 2.
    let known = window_frames([&[1; 4], &[1, 0, 0, 0], &[6; 4]]);
    let unknown = with_unknown(known.clone(), P, &[2]);
    let edit = Edit { config: stability(0, 2), trace: &unknown, a: 0, b: 1 };
    check_changes(&edit, &known, &[36, 0, 8, 0], &[2, HELD_6[1], 0, 0], [2, 0, 0, 0, 0, 0, 1])
}

/// The totals have six counts, of which other bits are none, and 32 is no first failure. Bits 64 and above are no marks.
fn rows_with_32() -> Outcome {
    let (rows, due) = ([33, 32, 96, 31, 64], [2, 1, 1, 1, 1, 3]);
    for by_host in [true, false] {
        let by = if by_host { "the library" } else { "the rules" };
        let totals = |counts: &mut [u32]| {
            if by_host {
                host::totals(&rows, counts)
            } else {
                Ok(rules::totals(&rows, counts))
            }
        };
        let (mut counts, mut five, mut seven) = ([99; 6], [99; 5], [99; 7]);
        is(&format!("answers of {by}"), [totals(&mut counts)?, totals(&mut five)?, totals(&mut seven)?], [0, 5, 5])?;
        are(&format!("counts of {by}"), &counts, &due)?;
        are(&format!("counts left by {by}"), &[&five[..], &seven[..]].concat(), &[99; 12])?;
    }
    // Two checkers of three cycles: the second fails in cycle 1, the first in cycle 2.
    for (rows, due) in [([32, 36, 33, 40, 34, 0], (1 << 31) + (1 << 16) + 1), ([32, 36, 40, 44, 32, 48], 0)] {
        is("first failure by the library", host::first_failure(2, 3, &rows)?, due)?;
        is("first failure by the rules", rules::first_failure(2, 3, &rows), due)?;
    }
    Ok(())
}

/// "A trace is then 8N words (refusal 4: a multiple of 8), a bench's 8K", and the answer of a recheck has 7 numbers.
fn lengths() -> Outcome {
    let config = sequence(1, 2, 1, 0);
    for (len, due) in [(0, 0), (4, 4), (7, 4), (8, 0), (9, 4), (12, 4), (16, 0)] {
        let (trace, cycles) = (vec![1; len], len / 8);
        let (mut rows, mut words) = (vec![9; cycles], vec![9; cycles]);
        is(&format!("{len} words by the library"), host::check(config, &trace, &mut rows, &mut words)?, due)?;
        is(&format!("{len} words by the rules"), rules::check(config, &trace, &mut rows, &mut words), due)?;
    }
    for (len, number) in [(6, 5), (7, 0), (8, 5)] {
        let edit = Edit { config, trace: &[], a: 0, b: 0 };
        let (mut by_host, mut by_rules) = (vec![9; len], vec![9; len]);
        let due = Refusal { number, cycle: 0 };
        is(&format!("{len} answers by the library"), host::recheck(&edit, &mut [], &mut [], &mut by_host)?, due)?;
        is(&format!("{len} answers by the rules"), edit.recheck_any(&mut [], &mut [], &mut by_rules), due)?;
    }
    for (len, due) in [(4, 5 * 256), (8, 0), (12, 5 * 256)] {
        let frames = vec![1; len];
        is(&format!("bench of {len} words by the library"), host::bench(&[config], &frames, &mut [0], &mut [9])?, due)?;
        is(&format!("bench of {len} words by the rules"), rules::bench(&[config], &frames, &mut [0], &mut [9]), due)?;
    }
    Ok(())
}

/// Single steps: from a window of kind 8 with min 0 that has no reference, one that takes it, one that does not for P is unknown,
/// and one with an unknown enable; from a stored 4, an unknown test, and an unknown reset; and an unknown restart.
fn steps() -> Outcome {
    let window = stability(0, 3);
    let steps = [
        (window, 3, [3, 6, 0, 0, 0, 0, 0, 0], (0, HELD_6[0])),
        (window, 3, [3, 6, 0, 0, 0, 1, 0, 0], (32, 2)),
        (window, 3, [3, 6, 0, 0, 2, 0, 0, 0], (0, 2)),
        (window, 1, [3, 6, 1, 0, 0, 4, 0, 0], (40, 0)),
        (transition(), STORED + 4, [1, 4, 4, 4, 0, 1, 0, 0], (32, 0)),
        (transition(), STORED + 4, [1, 0, 0, 4, 1, 0, 0, 0], (0, 0)),
        (transition(), STORED + 4, [1, 4, 4, 7, 0, 0, 0, 7], (36, 0)),
        (time(4, 3), 2, [1, 1, 1, 0, 0, 1, 0, 0], (0, 1)),
        (time(4, 3), 2, [1, 1, 1, 0, 0, 1, 1, 0], (32, 1)),
        (time(4, 3), 2, [1, 1, 1, 0, 0, 0, 1, 0], (20, 3)),
    ];
    for (config, word, frame, due) in steps {
        let what = format!("{config:?}, word {word:#x}, {frame:x?}");
        let mut bytes = u64::to_le_bytes(word);
        let row = host::step(config, frame, &mut bytes)?;
        is(&format!("{what} by the library"), (row, u64::from_le_bytes(bytes)), due)?;
        is(&format!("{what} by the rules"), rules::one_step(config, word, frame), due)?;
    }
    Ok(())
}

/// The answer is how many cases there are in the tables.
pub fn compare() -> Result<usize, String> {
    let tables = [sequence_lines(), time_lines(), transition_lines(), window_lines(), reset_lines()];
    let lines: Vec<Listed> = tables.into_iter().flatten().collect();
    for Listed { line, list } in &lines {
        check_line(line)
            .and_then(|()| check_list(line.config, &line.trace, list))
            .map_err(|d| format!("case {} of unknown bits: {d}", line.name))?;
    }
    rechecks().map_err(|d| format!("rechecks with unknown bits: {d}"))?;
    rows_with_32().map_err(|d| format!("rows with mark 32: {d}"))?;
    lengths().map_err(|d| format!("lengths: {d}"))?;
    steps().map_err(|d| format!("steps with unknown bits: {d}"))?;
    Ok(lines.len())
}
