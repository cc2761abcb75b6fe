//! Edits that are taken back (§12 of document 02): the call of the header that makes an edit and takes it back, and from
//! true records the same by two rechecks, compared with the rules; and the situations of them that every run has to meet.

use crate::cases::{draw_edit, edit_range, edited, same, same_entries, shown, Case, Drawn, Size};
use crate::host::{self, Rechecked};
use crate::records::Sort;
use crate::rules::{self, Config, Edit, Lending, Record, Refusal, ANSWERS, DONE, FRAME_WORDS, MARKS, MOST_CYCLES, STOPPED};
use crate::tally::{kinds_of, of, tally_all, Call, Situation, Tally, ALL};
use crate::windows;

type Outcome = Result<(), String>;

/// e and the changes of a recheck.
pub type Answer = [i32; ANSWERS];

/// Below so many cycles a trace is edited several times.
pub const SHORT: usize = 60;

/// A case of the call: an edit of cycles a to b−1, the trace after it, and what is lent.
struct Input {
    config: Config,
    sort: Sort,
    a: u64,
    b: u64,
    new: Vec<u32>,
    lending: Lending,
}

impl Input {
    /// The recheck after the edit, or after it was taken back: by the trace that it is handed.
    fn edit<'a>(&self, trace: &'a [u32]) -> Edit<'a> {
        Edit { config: self.config, trace, a: self.a, b: self.b }
    }

    fn cycles(&self) -> usize {
        self.lending.trace.len() / FRAME_WORDS
    }

    fn kept(&self) -> Record {
        Record { rows: self.lending.rows.clone(), words: self.lending.words.clone() }
    }

    /// The samples are not as many as are due.
    fn is_length_wrong(&self) -> bool {
        self.lending.samples.len() as u128 != rules::samples_due(self.a, self.b)
    }
}

/// Half of the a and b that are refused are moved far apart, so that 8 (b−a) is a small number where only 32 or 64 bits of
/// it are kept.
fn far_range(case: &mut Case, a: u64, b: u64, cycles: usize) -> (u64, u64) {
    if a <= b && b <= cycles as u64 || case.random.chance(512) {
        return (a, b);
    }
    let near = case.random.below(cycles + 1) as u64;
    let behind = near + case.random.below(cycles + 1 - near as usize) as u64;
    let far = 1 << case.random.pick(&[29, 32, 61, 61, 61, 62, 63]);
    case.random.pick(&[(near, behind + far), (near + far, behind)])
}

/// How many words of samples are lent: most often as many as are due. Where these are more than can be lent, and often
/// where a is above b, it is what the lower bits of 8 (b−a) say, or how far a and b are apart.
fn samples_length(case: &mut Case, a: u64, b: u64) -> usize {
    let most = FRAME_WORDS * (MOST_CYCLES + 2);
    let words_of = |cycles: u64| FRAME_WORDS * (cycles % (1 << 29)) as usize;
    let [lower, apart] = [b.wrapping_sub(a), a.abs_diff(b)].map(words_of).map(|len| if len > most { 0 } else { len });
    let frame = FRAME_WORDS;
    let due = usize::try_from(rules::samples_due(a, b)).unwrap_or(usize::MAX);
    let fault = case.fault(100);
    if due > most {
        case.random.pick(&[lower, lower, 0, frame])
    } else if a > b && case.random.chance(400) {
        case.random.pick(&[lower, apart, 1, frame])
    } else if fault {
        let less = |by: usize| due.saturating_sub(by);
        case.random.pick(&[0, due + 1, less(1), due + frame, less(frame), due / 2, due / frame, 2 * due, apart])
    } else {
        due
    }
}

/// The new samples of cycles a to b−1, if there are such cycles; cut, or followed by any words.
fn draw_samples(case: &mut Case, config: Config, new: &[u32], a: u64, b: u64) -> Vec<u32> {
    let len = samples_length(case, a, b);
    let mut samples = Vec::new();
    if config.refusal() == 0 && a <= b && b <= (new.len() / FRAME_WORDS) as u64 {
        samples.extend(&new[FRAME_WORDS * a as usize..FRAME_WORDS * b as usize]);
    }
    samples.resize_with(len, || case.random.word());
    samples
}

/// What is lent for an edit, and a and b, which are moved where they are refused.
fn draw(case: &mut Case, drawn: Drawn) -> Input {
    let Drawn { config, sort, old: mut trace, mut new, a, b, kept: Record { mut rows, mut words } } = drawn;
    if case.size == Size::Any && case.random.chance(60) {
        // An edit that changes nothing.
        new.clone_from(&trace);
    }
    let cycles = rows.len();
    let (a, b) = far_range(case, a, b, cycles);
    let samples = draw_samples(case, config, &new, a, b);
    case.cut_trace(&mut trace);
    rows.resize(case.length(cycles), 5);
    words.resize(case.length(cycles), 1);
    Input { config, sort, a, b, new, lending: Lending { trace, rows, words, samples } }
}

/// Another edit of the same trace, with the same record.
fn draw_again(case: &mut Case, before: &Drawn) -> Drawn {
    let Drawn { config, sort, ref old, ref kept, .. } = *before;
    let (a, b) = edit_range(case, kept.rows.len(), stop(&kept.words));
    let new = edited(case, &Edit { config, trace: old, a, b });
    Drawn { config, sort, old: old.clone(), new, a, b, kept: kept.clone() }
}

/// Edits that are taken back, by the call, and from a true record by two rechecks too. Of a short trace there are several,
/// which takes little time, so that what is rare comes up.
pub fn take_back(case: &mut Case) -> Outcome {
    let drawn = draw_edit(case);
    let more = if drawn.kept.rows.len() < SHORT { 5 } else { 0 };
    for _ in 0..more {
        let again = draw_again(case, &drawn);
        take_back_one(case, again)?;
    }
    take_back_one(case, drawn)
}

fn take_back_one(case: &mut Case, drawn: Drawn) -> Outcome {
    let input = draw(case, drawn);
    compare(case.tally, &input).map_err(|d| {
        let Input { config, sort, a, b, lending: Lending { trace, rows, words, samples }, .. } = &input;
        let (lengths, trace) = ([rows.len(), words.len(), samples.len()], shown(trace));
        format!("take back, {config:?}, a {a}, b {b}, record {sort:?}, lengths {lengths:?}: {d}\n{trace}")
    })
}

fn compare(tally: &mut Tally, input: &Input) -> Outcome {
    let (answers, left) = compare_call(input.config, input.a, input.b, &input.lending)?;
    let refusal = answers[0].0;
    tally.case(Call::TakeBack, Some(input.config.kind), refusal.number);
    tally_samples(tally, input, refusal.number);
    match (refusal, input.sort) {
        (DONE, Sort::True) => {
            let new = compare_both_ways(input, answers.map(|(_, answer)| answer))?;
            tally_true(tally, input, &new, answers[0].1);
        }
        (DONE, _) => tally_false(tally, input, &left, answers),
        (Refusal { number: 7, cycle }, _) => tally_named(tally, input, cycle),
        _ => {}
    }
    Ok(())
}

/// What the call answers and leaves, by the library and by the rules. "trace and samples, which are in the end as they
/// were, whatever was lent".
pub fn compare_call(c: Config, a: u64, b: u64, lending: &Lending) -> Result<([(Refusal, Answer); 2], Lending), String> {
    let (mut given, mut due) = (lending.clone(), lending.clone());
    let answer = host::edit_and_take_back(c, a, b, &mut given)?;
    let answers = due.take_back(c, a, b);
    same("answer after the edit", answer.edit, rechecked(answers[0]))?;
    same("answer after it was taken back", answer.back, rechecked(answers[1]))?;
    same_entries("rows", &given.rows, &due.rows)?;
    same_entries("words", &given.words, &due.words)?;
    same_entries("trace in the end", &given.trace, &lending.trace)?;
    same_entries("samples in the end", &given.samples, &lending.samples)?;
    Ok((answers, due))
}

/// What a recheck of the rules answers, as the header has it.
pub fn rechecked((refusal, answer): (Refusal, Answer)) -> Rechecked {
    let [e, changes @ ..] = answer;
    Rechecked { refusal: refusal.number, cycle: refusal.cycle.into(), end: e as u64, changes }
}

/// A recheck of a true record by the library. The record becomes that of the edited trace, which is handed too. §12 is
/// about rechecks that are not refused: "records of a full check are never refused for this", nor are those that a recheck
/// left.
pub fn recheck_to(edit: &Edit, record: &mut Record, new: &Record) -> Result<Answer, String> {
    let (mut due, mut answer, mut due_answer) = (record.clone(), [99; ANSWERS], [99; ANSWERS]);
    let refusal = edit.refusal(&due.rows, &due.words, &answer);
    if refusal != DONE {
        return Err(format!("the rules refuse a true record: {refusal:?}"));
    }
    edit.recheck_to(new, &mut due.rows, &mut due.words, &mut due_answer);
    let by_host = host::recheck(edit, &mut record.rows, &mut record.words, &mut answer)?;
    same("refusal and named cycle of a recheck", by_host, DONE)?;
    same_entries("e and changes of a recheck", &answer, &due_answer)?;
    same_entries("rows of a recheck", &record.rows, &due.rows)?;
    same_entries("words of a recheck", &record.words, &due.words)?;
    Ok(answer)
}

/// §12: "from a true record, an edit and then one that restores the old samples in the same a to b leave the old rows and
/// words, and their changes add to 0 for each mark." By two rechecks of the library and by the call, whose answers are
/// handed. The answer is the record between the two.
fn compare_both_ways(input: &Input, answers: [Answer; 2]) -> Result<Record, String> {
    let (kept, new) = (input.kept(), rules::true_record(input.config, &input.new));
    let mut record = kept.clone();
    let edit = recheck_to(&input.edit(&input.new), &mut record, &new)?;
    let back = recheck_to(&input.edit(&input.lending.trace), &mut record, &kept)?;
    same_entries("rows taken back", &record.rows, &kept.rows)?;
    same_entries("words taken back", &record.words, &kept.words)?;
    if answers != [edit, back] {
        return Err(format!("the call answers {answers:?}, two rechecks {edit:?} and {back:?}"));
    }
    is_taken_back(edit, back)?;
    Ok(new)
}

/// The changes add to 0. The ends are the same: "its word before e equals the kept one" says the same of two true records,
/// whichever is the kept one.
fn is_taken_back(edit: Answer, back: Answer) -> Outcome {
    if edit[0] != back[0] || (1..ANSWERS).any(|i| edit[i] + back[i] != 0) {
        return Err(format!("e and changes {edit:?} are not taken back by {back:?}"));
    }
    Ok(())
}

/// An edit of a true record that was taken back.
struct Back {
    is_fatal: bool,
    a: usize,
    b: usize,
    e: usize,
    cycles: usize,
    /// Whether the edit changed a sample, and whether a row or a word.
    has_new_samples: bool,
    is_new: bool,
    /// The cycles where a fatal checker stops, before the edit and after it.
    old: Option<usize>,
    stop: Option<usize>,
    changes: [i32; MARKS.len()],
}

impl Back {
    fn at(&self, a_is_0: bool, b_is_last: bool) -> bool {
        self.is_new && (self.a == 0) == a_is_0 && (self.b == self.cycles) == b_is_last
    }

    /// Of the failing cycles before the edit and after it, if there are both.
    fn both(&self, is_met: fn(usize, usize) -> bool) -> bool {
        self.old.zip(self.stop).is_some_and(|(old, stop)| is_met(old, stop))
    }

    fn is_longest(&self) -> bool {
        (self.a, self.b) == (0, 1) && self.e == MOST_CYCLES && self.is_new
    }
}

static BACKS: [Situation<Back>; 22] = [
    of(ALL, "taken back, severity 0, the record had changed", |b| !b.is_fatal && b.is_new),
    of(ALL, "taken back, severity 1, the record had changed", |b| b.is_fatal && b.is_new),
    of(ALL, "taken back, N = 0", |b| b.cycles == 0),
    of(ALL, "taken back, a = b", |b| b.cycles > 0 && b.a == b.b),
    of(ALL, "taken back, a = 0, b below N", |b| b.at(true, false)),
    of(ALL, "taken back, a above 0, b = N", |b| b.at(false, true)),
    of(ALL, "taken back, the whole trace", |b| b.at(true, true)),
    of(ALL, "taken back, the same samples", |b| b.a < b.b && !b.has_new_samples),
    of(ALL, "taken back, other samples and the same record", |b| b.has_new_samples && !b.is_new),
    of(ALL, "taken back, e = b, the record had changed", |b| b.is_new && b.e == b.b),
    of(ALL, "taken back, e between b and N", |b| b.b < b.e && b.e < b.cycles),
    of(ALL, "taken back, e = N above b", |b| b.b < b.e && b.e == b.cycles),
    of(ALL, "taken back, more failures", |b| b.changes[0] > 0),
    of(ALL, "taken back, fewer failures", |b| b.changes[0] < 0),
    of(ALL, "taken back, more rows with 32", |b| b.changes[5] > 0),
    of(ALL, "taken back, fewer rows with 32", |b| b.changes[5] < 0),
    of(ALL, "taken back, the failure that stopped it was gone", |b| b.old.is_some() && b.stop.is_none()),
    of(ALL, "taken back, a failure where there was none", |b| b.old.is_none() && b.stop.is_some()),
    of(ALL, "taken back, an earlier failure", |b| b.both(|old, stop| old > stop)),
    of(ALL, "taken back, a later failure", |b| b.both(|old, stop| old < stop)),
    of(ALL, "taken back, both stopped before e, above b", |b| {
        b.b < b.e && b.e < b.cycles && b.both(|old, stop| old != stop)
    }),
    of(&windows::KINDS, "taken back, edit of cycle 0, e = N = 65,536", |b| b.is_longest()),
];

/// A call that was done from a record that need not be true.
struct FromFalse {
    ends: [i32; 2],
    changes_add_to_0: bool,
    rows_stay: bool,
    words_stay: bool,
}

static FROM_FALSE: [Situation<FromFalse>; 6] = [
    of(ALL, "taken back, false record, rows and words as they were", |f| f.rows_stay && f.words_stay),
    of(ALL, "taken back, false record, other rows", |f| !f.rows_stay),
    of(ALL, "taken back, false record, other words", |f| !f.words_stay),
    of(ALL, "taken back, false record, the second end is earlier", |f| f.ends[1] < f.ends[0]),
    of(ALL, "taken back, false record, the second end is later", |f| f.ends[1] > f.ends[0]),
    of(ALL, "taken back, false record, the changes do not add to 0", |f| !f.changes_add_to_0),
];

/// A call that was refused for a kept word.
struct Named {
    is_fatal: bool,
    a: u64,
    b: u64,
    cycle: u64,
}

static NAMED: [Situation<Named>; 5] = [
    of(ALL, "take back refused 7, severity 0", |n| !n.is_fatal),
    of(ALL, "take back refused 7, severity 1", |n| n.is_fatal),
    of(ALL, "take back refused 7, a cycle before a named", |n| n.cycle < n.a),
    of(ALL, "take back refused 7, a cycle of the edit named", |n| (n.a..n.b).contains(&n.cycle)),
    of(ALL, "take back refused 7, a cycle behind the edit named", |n| n.b <= n.cycle),
];

pub fn all_situations() -> impl Iterator<Item = (u8, &'static str, u64)> {
    kinds_of(&BACKS).chain(kinds_of(&FROM_FALSE)).chain(kinds_of(&NAMED))
}

/// The cycle where a fatal checker stops.
pub fn stop(words: &[u64]) -> Option<usize> {
    words.iter().position(|word| *word == STOPPED)
}

/// The record is that between the edit and its taking back.
fn tally_true(tally: &mut Tally, input: &Input, new: &Record, edit: Answer) {
    let (kind, cycles, kept) = (input.config.kind, input.cycles(), input.kept());
    let [e, changes @ ..] = edit;
    let (a, b, e) = (input.a as usize, input.b as usize, e as usize);
    tally.rows(Call::TakeBack, kind, &new.rows[a..e]);
    tally.situation("taken back, 65,536 cycles", cycles == MOST_CYCLES && kept != *new);
    let back = Back {
        is_fatal: input.config.is_fatal(),
        a,
        b,
        e,
        cycles,
        has_new_samples: input.new != input.lending.trace,
        is_new: kept != *new,
        old: stop(&kept.words),
        stop: stop(&new.words),
        changes,
    };
    tally_all(tally, kind, &BACKS, &back);
}

fn tally_false(tally: &mut Tally, input: &Input, left: &Lending, answers: [(Refusal, Answer); 2]) {
    let [edit, back] = answers.map(|(_, answer)| answer);
    let from_false = FromFalse {
        ends: [edit[0], back[0]],
        changes_add_to_0: (1..ANSWERS).all(|i| edit[i] + back[i] == 0),
        rows_stay: left.rows == input.lending.rows,
        words_stay: left.words == input.lending.words,
    };
    tally_all(tally, input.config.kind, &FROM_FALSE, &from_false);
}

fn tally_named(tally: &mut Tally, input: &Input, cycle: u32) {
    let named = Named { is_fatal: input.config.is_fatal(), a: input.a, b: input.b, cycle: cycle.into() };
    tally_all(tally, input.config.kind, &NAMED, &named);
}

/// The lengths of the samples that are refused, and what else is: which of the two comes first.
fn tally_samples(tally: &mut Tally, input: &Input, refusal: u32) {
    let Input { config, a, b, lending: Lending { rows, words, samples, .. }, .. } = input;
    let (cycles, len, frame) = (input.cycles(), samples.len() as u128, FRAME_WORDS as u128);
    let (due, is_in_order) = (rules::samples_due(*a, *b), a <= b && *b <= cycles as u64);
    let alone = refusal == 5 && rows.len() == cycles && words.len() == cycles;
    tally.situation("samples refused, one word more", alone && is_in_order && len == due + 1);
    tally.situation("samples refused, one word less", alone && is_in_order && len + 1 == due);
    tally.situation("samples refused, one frame more", alone && is_in_order && len == due + frame);
    tally.situation("samples refused, one frame less", alone && is_in_order && len > 0 && len + frame == due);
    tally.situation("samples refused, none", alone && is_in_order && len == 0);
    tally.situation("samples refused, some where a = b", alone && is_in_order && a == b);
    tally.situation("samples refused, a above b", alone && a > b);
    tally.situation("samples refused, as many as a is above b", alone && a > b && len == rules::samples_due(*b, *a));
    tally.situation("samples refused, b above N", alone && a <= b && !is_in_order);
    let lower = u128::from(b.wrapping_sub(*a).wrapping_mul(8));
    tally.situation("samples refused, the lower 64 bits of 8 (b-a), a above b", alone && a > b && len == lower);
    tally.situation("samples refused, the lower 64 bits of 8 (b-a), b above N", alone && a <= b && len == lower);
    let is_spoiled = alone && words.iter().any(|word| !config.possible(*word));
    tally.situation("samples refused, a kept word impossible too", is_spoiled && is_in_order);
    let wrong = input.is_length_wrong();
    tally.situation("take back refused 1, samples wrong too", refusal == 1 && wrong);
    tally.situation("take back refused 2, samples wrong too", refusal == 2 && wrong);
    tally.situation("take back refused 3, samples wrong too", refusal == 3 && wrong);
    tally.situation("take back refused 4, samples wrong too", refusal == 4 && wrong);
    tally.situation("take back refused 4, 65,537 cycles", refusal == 4 && cycles == MOST_CYCLES + 1);
    tally.situation("take back refused 6, a above b, no samples", refusal == 6 && a > b);
    tally.situation("take back refused 6, b above N, samples of b-a frames", refusal == 6 && a < b);
    tally.situation("take back refused 6, a = b = 2^64-1", refusal == 6 && a == b && *a == u64::MAX);
}
