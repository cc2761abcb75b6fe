//! One random case of each call: the input is drawn, handed to the library and to the rules, and everything that either of
//! them answered or left in a buffer is compared.

use crate::fatal;
use crate::generate::{self, Failing, Random};
use crate::host;
use crate::records::{self, Sort, Words};
use crate::rules::{self, Config, Edit, Record, Refusal, ANSWERS, DONE, FRAME_WORDS, LONGEST_WINDOW, MARKS};
use crate::rules::{MOST_CYCLES, STOPPED};
use crate::spoiled;
use crate::tally::{Call, Tally, NO_KIND};
use crate::unknown;
use crate::windows;
use std::fmt::Debug;

type Outcome = Result<(), String>;

/// The greatest trace, the one that is just too long, the greatest with a word more, and the greatest with a window of the
/// greatest length come up on a fixed schedule.
#[derive(Clone, Copy, PartialEq, Debug)]
pub enum Size {
    Any,
    Longest(Longest),
    Greatest,
    TooLong,
    WordMore,
}

/// The cases with a window of the greatest length are numbered: the severities take turns, then the kinds, and then whether
/// the last cycle of the window fails.
#[derive(Clone, Copy, PartialEq, Debug)]
pub struct Longest {
    severity: u8,
    number: usize,
}

impl Longest {
    pub fn new(number: usize) -> Longest {
        Longest { severity: (number % 2) as u8, number: number / 2 }
    }

    fn config(self, random: &mut Random) -> Config {
        let config = generate::longest_config(random, windows::KINDS[self.number % windows::KINDS.len()]);
        Config { severity: self.severity, ..config }
    }

    /// How many turns each kind has had.
    fn round(self) -> usize {
        self.number / windows::KINDS.len()
    }

    /// A fatal checker stops in the last cycle or long before it: each of these has its turn too.
    fn failing(self, random: &mut Random) -> Failing {
        match (self.round() % 4, self.severity) {
            (0 | 2, _) => Failing::NotLast,
            (_, 0) => random.pick(&[Failing::Last, Failing::All]),
            (1, _) => Failing::Last,
            _ => Failing::All,
        }
    }
}

/// From this length on a window gets traces that are made for it: in others it would hardly ever close.
const LONG_WINDOW: u32 = 300;

/// From this length on a record is spoiled in more places.
const LONG_RECORD: usize = 1000;

pub struct Case<'a> {
    pub random: Random,
    pub size: Size,
    /// In a careless case faults are frequent, so that several meet in one call: the order of the refusals then decides.
    pub careless: bool,
    pub tally: &'a mut Tally,
}

pub fn same<T: PartialEq + Debug>(what: &str, host: T, rules: T) -> Outcome {
    if host == rules {
        return Ok(());
    }
    Err(format!("{what}: the library gives {host:?}, the rules give {rules:?}"))
}

pub fn same_entries<T: PartialEq + Debug>(what: &str, host: &[T], rules: &[T]) -> Outcome {
    same(&format!("length of {what}"), host.len(), rules.len())?;
    match host.iter().zip(rules).position(|(h, r)| h != r) {
        Some(i) => same(&format!("{what}, entry {i} of {}", host.len()), &host[i], &rules[i]),
        None => Ok(()),
    }
}

impl Case<'_> {
    /// Whether to put in a fault that is due so many times of 1,024.
    pub fn fault(&mut self, of_1024: usize) -> bool {
        self.size == Size::Any && self.random.chance(if self.careless { 300 } else { of_1024 })
    }

    pub fn config(&mut self) -> Config {
        let config = if let Size::Longest(longest) = self.size {
            longest.config(&mut self.random)
        } else if self.fault(200) {
            generate::damaged_config(&mut self.random)
        } else {
            generate::good_config(&mut self.random)
        };
        self.tally_config(config);
        config
    }

    /// Every call that takes a configuration tests it first.
    fn tally_config(&mut self, config: Config) {
        windows::tally_config(self.tally, config);
        fatal::tally_config(self.tally, config);
    }

    /// For a call that takes a word and no trace. That is quick, so a longest window can come up more often.
    fn config_for_word(&mut self) -> Config {
        if !self.random.chance(100) {
            return self.config();
        }
        let kind = self.random.pick(&windows::KINDS);
        let config = generate::longest_config(&mut self.random, kind);
        self.tally_config(config);
        config
    }

    pub fn cycles(&mut self, n: u32) -> usize {
        if self.size != Size::Any {
            return if self.size == Size::TooLong { MOST_CYCLES + 1 } else { MOST_CYCLES };
        }
        let long_enough = if n < 2000 { 300 } else { 90 };
        if (LONG_WINDOW..=LONGEST_WINDOW).contains(&n) && self.random.chance(long_enough) {
            // So long that the window closes: once and hardly more, or perhaps twice.
            let (few, many) = (self.random.below(20), self.random.below(2 * n as usize));
            return MOST_CYCLES.min(n as usize + 1 + self.random.pick(&[few, few, many]));
        }
        match self.random.below(1024) {
            0..=39 => 0,
            40..=89 => 1,
            90..=599 => 2 + self.random.below(40),
            600..=1015 => 40 + self.random.below(260),
            _ => 1000 + self.random.below(4000),
        }
    }

    /// Of false and spoiled records more are long: their words may be tested in blocks.
    fn recheck_cycles(&mut self, n: u32, sort: Sort) -> usize {
        let long = match sort {
            Sort::True | Sort::Another => 0,
            Sort::False => 60,
            Sort::Spoiled => 150,
        };
        if self.size == Size::Any && self.random.chance(long) {
            return LONG_RECORD + self.random.below(4000);
        }
        self.cycles(n)
    }

    /// A trace of so many cycles; where a long window fits in, most often one made for it.
    pub fn trace(&mut self, config: Config, cycles: usize) -> Vec<u32> {
        let random = &mut self.random;
        let is_longer = config.has_window() && config.n >= LONG_WINDOW && cycles > config.n as usize;
        if let Size::Longest(longest) = self.size {
            let failing = longest.failing(random);
            generate::window_trace(random, config, cycles, 0, failing)
        } else if config.refusal() == 0 && is_longer && random.chance(768) {
            generate::long_trace(random, config, cycles)
        } else {
            generate::trace(random, config, cycles)
        }
    }

    /// Most often the length that is due.
    pub fn length(&mut self, due: usize) -> usize {
        if !self.fault(30) {
            return due;
        }
        self.random.pick(&[0, due + 1, due.saturating_sub(1), due + 4, due / 2, 2 * due + 1, 4 * due])
    }

    /// Makes some traces a little longer or shorter, so that they are no whole number of frames; also by half a frame.
    pub fn cut_trace(&mut self, trace: &mut Vec<u32>) {
        if self.size == Size::WordMore {
            trace.push(self.random.word());
        } else if self.fault(40) {
            let any = 1 + self.random.below(FRAME_WORDS - 1);
            let change = self.random.pick(&[FRAME_WORDS / 2, any, any]);
            let longer = self.random.chance(512);
            let len = if longer { trace.len() + change } else { trace.len().saturating_sub(change) };
            trace.resize(len, 1);
        }
        self.tally.situation("trace of no multiple of 8 words", trace.len() % FRAME_WORDS != 0);
        self.tally.situation("trace of an odd multiple of 4 words", trace.len() % FRAME_WORDS == 4);
    }
}

pub fn step(case: &mut Case) -> Outcome {
    let config = case.config_for_word();
    let trace = generate::trace(&mut case.random, config, 1);
    let mut frame = rules::frame_at(&trace, 0);
    let mut word = case.random.next();
    if config.refusal() == 0 {
        word = any_word(&mut case.random, config, 250);
        if case.random.chance(512) {
            word = generate::passing_word(config, frame, word);
        }
        if word == STOPPED && case.random.chance(200) {
            frame[0] &= !1;
        }
    }
    let mut lent = word.to_le_bytes().to_vec();
    if case.fault(40) {
        lent.resize(case.random.pick(&[0, 1, 4, 7, 9, 16]), 0);
    }

    let context = |d| format!("step, {config:?}, frame {frame:x?}, word bytes {lent:x?}: {d}");
    let (mut bytes, mut expected) = (lent.clone(), lent.clone());
    let answer = host::step(config, frame, &mut bytes).map_err(context)?;
    let due = rules::step(config, frame, &mut expected);
    same("answer", answer, due).and_then(|()| same_entries("word", &bytes, &expected)).map_err(context)?;

    case.tally.case(Call::Step, Some(config.kind), due / 256);
    if due < 256 {
        case.tally.rows(Call::Step, config.kind, &[due]);
        tally_window_step(case.tally, config, word, frame, due);
        fatal::tally_step(case.tally, config, word, frame, due);
    }
    if lent.len() == 8 && config.refusal() == 0 {
        tally_word(case.tally, config, word);
    }
    Ok(())
}

/// The word of a step or of an open count, or that which a recheck goes on from or names.
fn tally_word(tally: &mut Tally, config: Config, word: u64) {
    windows::tally_word(tally, config, word);
    fatal::tally_word(tally, config, word);
}

/// What a step of kind 7 or 8 did in an open window that it neither opened nor failed, nor marked 32.
fn tally_window_step(tally: &mut Tally, config: Config, word: u64, frame: rules::Frame, row: u32) {
    let held = rules::reference_in(word).is_some();
    let left = if held { rules::cycles_left_in(word) } else { word };
    // The step's own cycle is s+max−left+1.
    let in_range = left > 0 && u64::from(config.n) + 1 - left >= u64::from(config.min);
    if !config.is_after_trigger() || !rules::is_running(&frame) || row & 33 != 0 || !in_range {
        return;
    }
    let enable = rules::is_enabled(&frame);
    if config.kind == 7 {
        tally.situation("step, value tested and passed", enable);
        tally.situation("step, value not tested, enable 0", !enable && config.p.value(frame[1]) != config.value);
    } else {
        tally.situation("step, stability, reference taken", enable && !held);
        tally.situation("step, stability, compared and passed", enable && held);
        tally.situation("step, stability, reference taken after the trigger, min 0", enable && !held && config.min == 0);
    }
}

/// A short trace in full, a longer one by its length: its case can be run again alone.
pub fn shown(trace: &[u32]) -> String {
    if trace.len() <= 160 {
        format!("trace {trace:x?}")
    } else {
        format!("trace of {} words", trace.len())
    }
}

/// A possible word, or an impossible one so many times of 1,024.
fn any_word(random: &mut Random, config: Config, impossible: usize) -> u64 {
    if random.chance(impossible) {
        generate::impossible_word(random, config)
    } else {
        generate::possible_word(random, config)
    }
}

pub fn check(case: &mut Case) -> Outcome {
    let config = case.config();
    let cycles = case.cycles(config.n);
    let mut trace = case.trace(config, cycles);
    case.cut_trace(&mut trace);
    let (rows_len, words_len) = (case.length(cycles), case.length(cycles));
    let (mut rows, mut words) = (case.random.words(rows_len), case.random.long_words(words_len));
    let (mut due_rows, mut due_words) = (rows.clone(), words.clone());

    let context = |d| format!("check, {config:?}, {rows_len} rows, {words_len} words: {d}\n{}", shown(&trace));
    let answer = host::check(config, &trace, &mut rows, &mut words).map_err(context)?;
    let due = rules::check(config, &trace, &mut due_rows, &mut due_words);
    same("answer", answer, due)
        .and_then(|()| same_entries("rows", &rows, &due_rows))
        .and_then(|()| same_entries("words", &words, &due_words))
        .map_err(context)?;

    if due == 0 {
        // §6: "records of a full check are never refused for this"
        let at = case.random.below(cycles + 1) as u64;
        compare_unaltered(&Edit { config, trace: &trace, a: at, b: at }, &rows, &words, DONE).map_err(context)?;
        compare_alike(case, config, &trace, &rows, &words).map_err(context)?;
    }
    let tally = &mut case.tally;
    tally.case(Call::Check, Some(config.kind), due);
    if due == 0 {
        tally_check(tally, config, &trace, &Record { rows, words });
    }
    tally.situation("check refused 65,537 cycles", due == 4 && case.size == Size::TooLong);
    tally.situation("trace of 65,536 cycles and one word more", due == 4 && case.size == Size::WordMore);
    Ok(())
}

/// What §8 says of one trace and another besides: without unknown bits there is no mark 32, and a trace that differs only where
/// the checker does not look has the same rows, words and list, by the library and by the rules.
fn compare_alike(case: &mut Case, config: Config, trace: &[u32], rows: &[u32], words: &[u64]) -> Outcome {
    if unknown::has_none(trace) && rows.iter().any(|row| row & 32 != 0) {
        return Err("mark 32 without an unknown bit".into());
    }
    if rows.len() >= LONG_RECORD {
        return Ok(());
    }
    let (what, other) = unknown::alike(&mut case.random, config, trace);
    case.tally.of_kind(config.kind, what, other != trace);
    let (mut new_rows, mut new_words) = (vec![77; rows.len()], vec![77; words.len()]);
    same(what, host::check(config, &other, &mut new_rows, &mut new_words)?, 0)?;
    same_entries(&format!("rows, {what}"), &new_rows, rows)?;
    same_entries(&format!("words, {what}"), &new_words, words)?;
    let record = rules::true_record(config, &other);
    same_entries(&format!("rows and those of the rules, {what}"), rows, &record.rows)?;
    same_entries(&format!("words and those of the rules, {what}"), words, &record.words)?;
    let list = rules::entries(config, trace).concat();
    let mut new_list = vec![77; list.len()];
    let entries = host::failures(config, &other, &mut new_list)?;
    same(&format!("entries, {what}"), entries, list.len() as u64 / 3)?;
    same_entries(&format!("list, {what}"), &new_list, &list)?;
    same_entries(&format!("list and that of the rules, {what}"), &list, &rules::entries(config, &other).concat())
}

/// A recheck that leaves rows and words as they are: it is refused, or a = b. In the latter case it tests each word, and then
/// has nothing to do: "(before cycle 0 both are 0)", and elsewhere the word before a is the kept one.
pub fn compare_unaltered(edit: &Edit, rows: &[u32], words: &[u64], due: Refusal) -> Outcome {
    let (mut new_rows, mut new_words, mut answer) = (rows.to_vec(), words.to_vec(), [99; ANSWERS]);
    let refusal = host::recheck(edit, &mut new_rows, &mut new_words, &mut answer)?;
    same("refusal and named cycle of a recheck", refusal, due)?;
    let answer_due = if due == DONE { [edit.b as i32, 0, 0, 0, 0, 0, 0] } else { [99; ANSWERS] };
    same_entries("e and changes of a recheck", &answer, &answer_due)?;
    same_entries("rows that stay", &new_rows, rows)?;
    same_entries("words that stay", &new_words, words)
}

fn tally_check(tally: &mut Tally, config: Config, trace: &[u32], record: &Record) {
    let Record { rows, words } = record;
    tally.rows(Call::Check, config.kind, rows);
    tally.situation("check of 0 cycles", rows.is_empty());
    tally.situation("check of 1 cycle", rows.len() == 1);
    tally.situation("check of 65,536 cycles", rows.len() == MOST_CYCLES);
    tally.situation("window restarted, row 20", rows.contains(&20));
    let in_last_cycle = words.iter().zip(rows.iter().skip(1)).any(|pair| pair == (&1, &20));
    tally.situation("window restarted in its last cycle, n above 1", config.n > 1 && in_last_cycle);
    let twice_running = rows.windows(2).any(|pair| pair == [20, 20]);
    tally.situation("window restarted twice running, n = 1", config.n == 1 && twice_running);
    // To a fatal checker the trace ends where it stops.
    let stop = rows.len().min(words.iter().take_while(|word| **word != STOPPED).count() + 1);
    windows::tally_windows(tally, config, &trace[..FRAME_WORDS * stop], &rows[..stop]);
    windows::tally_longest(tally, config, rows);
    fatal::tally_check(tally, config, trace, rows);
    unknown::tally_check(tally, config, trace, record);
}

/// An edit of the cycle in which a fatal checker stops, with a few cycles around it or all that follow; or of cycles before it
/// or after it, or of none after it.
fn range_around(random: &mut Random, stop: u64, last: u64) -> (u64, u64) {
    let any = random.below(stop as usize + 1) as u64;
    let near = stop.saturating_sub(random.below(3) as u64);
    let behind = (stop + 1 + random.below(3) as u64).min(last);
    let around = [(near, behind), (near, last), (any, behind)];
    let before = [(any, stop), (any, stop.min(any + 2))];
    let after = [(behind, last.min(behind + 2)), (behind, behind)];
    let (around, before, after) = (random.pick(&around), random.pick(&before), random.pick(&after));
    random.pick(&[around, around, around, before, before, after, after])
}

/// The cycles a to b−1 of an edit; sometimes a is above b, or b above N, also by more than 32 bits. That of a longest window
/// is in cycle 0, so that the recheck has the whole window to go.
pub fn edit_range(case: &mut Case, cycles: usize, stop: Option<usize>) -> (u64, u64) {
    if let Size::Longest(_) = case.size {
        return (0, 1);
    }
    let fault = case.fault(60);
    let random = &mut case.random;
    let last = cycles as u64;
    if let (Some(stop), false, true) = (stop, fault, random.chance(768)) {
        return range_around(random, stop as u64, last);
    }
    let a = random.below(cycles + 1) as u64;
    let b = a + random.below(cycles + 1 - a as usize) as u64;
    let above_b = [(b + 1, a), (last + 1, last), (u64::MAX, a), (a + (1 << 32), b)];
    let above_last = [(a, last + 1), (a, b + (1 << 32)), (0, u64::MAX), (u64::MAX, u64::MAX), (last + 1, last + 1)];
    if fault {
        return if random.chance(512) { random.pick(&above_b) } else { random.pick(&above_last) };
    }
    match random.below(30) {
        0..=3 => (a, a),
        4 => (0, 0),
        5 => (last, last),
        6..=8 => (0, b),
        9..=11 => (a, last),
        12..=13 => (0, last),
        14..=25 => (a, (a + 1 + random.below(3) as u64).min(last)),
        _ => (a, b),
    }
}

/// The buffers of a recheck.
#[derive(Clone)]
struct Lent {
    rows: Vec<u32>,
    words: Vec<u64>,
    answer: Vec<i32>,
}

impl Lent {
    fn same_as(&self, rules: &Lent) -> Outcome {
        same_entries("changes and e", &self.answer, &rules.answer)?;
        same_entries("rows", &self.rows, &rules.rows)?;
        same_entries("words", &self.words, &rules.words)
    }
}

/// An edit of cycles a to b−1, with the trace before it and after it, and the record that is kept.
pub struct Drawn {
    pub config: Config,
    pub sort: Sort,
    pub old: Vec<u32>,
    pub new: Vec<u32>,
    pub a: u64,
    pub b: u64,
    pub kept: Record,
}

pub fn draw_edit(case: &mut Case) -> Drawn {
    let config = case.config();
    let in_cycle_0 = matches!(case.size, Size::Longest(_));
    let sort = if in_cycle_0 { Sort::True } else { records::sort(&mut case.random) };
    let cycles = case.recheck_cycles(config.n, sort);
    let old = case.trace(config, cycles);
    let is_good = config.refusal() == 0;
    let mut kept = if is_good {
        rules::true_record(config, &old)
    } else {
        Record { rows: case.random.words(cycles), words: case.random.long_words(cycles) }
    };
    let stop = kept.words.iter().position(|word| *word == STOPPED);
    let (a, b) = edit_range(case, cycles, stop);
    let new = edited(case, &Edit { config, trace: &old, a, b });
    if is_good {
        kept = records::kept(&mut case.random, sort, kept, &Edit { config, trace: &old, a, b });
    }
    Drawn { config, sort, old, new, a, b, kept }
}

pub fn recheck(case: &mut Case) -> Outcome {
    let Drawn { config, sort, old, new: mut trace, a, b, kept } = draw_edit(case);
    let (is_good, cycles) = (config.refusal() == 0, kept.rows.len());
    if is_good {
        unknown::tally_edit(case.tally, config.kind, &old, &trace);
    }
    case.cut_trace(&mut trace);
    let mut lent = Lent { rows: kept.rows, words: kept.words, answer: vec![0; case.length(ANSWERS)] };
    lent.answer.iter_mut().for_each(|entry| *entry = case.random.word() as i32);
    lent.rows.resize(case.length(cycles), 5);
    lent.words.resize(case.length(cycles), 1);
    let edit = Edit { config, trace: &trace, a, b };
    if is_good && sort == Sort::Spoiled {
        compare_places(case, &edit, cycles)?;
    }
    compare_recheck(case, &edit, lent, sort)
}

/// The trace after the edit; as it was where the edit is refused.
pub fn edited(case: &mut Case, before: &Edit) -> Vec<u32> {
    let Edit { config, trace: old, a, b } = *before;
    if let Size::Longest(_) = case.size {
        generate::edited_in_cycle_0(&mut case.random, config, old)
    } else if config.refusal() == 0 && a <= b && b <= (old.len() / FRAME_WORDS) as u64 {
        generate::edited(&mut case.random, config, old, a as usize, b as usize)
    } else {
        old.to_vec()
    }
}

/// A record of possible words and one that is impossible, in one place after another.
fn compare_places(case: &mut Case, edit: &Edit, cycles: usize) -> Outcome {
    let (right, wrong) = (Words::new(edit.config, true), Words::new(edit.config, false));
    let mut words: Vec<u64> = (0..cycles).map(|_| right.draw(&mut case.random)).collect();
    let rows = vec![5; cycles];
    let places = match cycles {
        0 => 0,
        1..LONG_RECORD => 6,
        _ => 16,
    };
    for _ in 0..places {
        let t = records::place(&mut case.random, cycles, edit);
        let kept = std::mem::replace(&mut words[t], wrong.draw(&mut case.random));
        let refusal = edit.refusal(&rows, &words, &[99; ANSWERS]);
        compare_unaltered(edit, &rows, &words, refusal).map_err(|d| {
            let (config, a, b, word) = (edit.config, edit.a, edit.b, words[t]);
            format!("recheck, {config:?}, a {a}, b {b}, {cycles} cycles, {word:#x} in cycle {t}: {d}")
        })?;
        spoiled::tally_recheck(case.tally, edit, &words, refusal, Sort::Spoiled);
        words[t] = kept;
    }
    Ok(())
}

fn compare_recheck(case: &mut Case, edit: &Edit, lent: Lent, sort: Sort) -> Outcome {
    let context = |d: String| {
        let lengths = [lent.rows.len(), lent.words.len(), lent.answer.len()];
        let (config, a, b, trace) = (edit.config, edit.a, edit.b, shown(edit.trace));
        format!("recheck, {config:?}, a {a}, b {b}, record {sort:?}, lengths {lengths:?}: {d}\n{trace}")
    };
    let is_true = sort == Sort::True;
    let (mut given, mut due) = (lent.clone(), lent.clone());
    let answer = host::recheck(edit, &mut given.rows, &mut given.words, &mut given.answer).map_err(context)?;
    let refusal = if is_true {
        edit.recheck_true(&mut due.rows, &mut due.words, &mut due.answer)
    } else {
        edit.recheck_any(&mut due.rows, &mut due.words, &mut due.answer)
    };
    // "A refusal writes nothing"
    let left = if refusal == DONE { &due } else { &lent };
    same("refusal and named cycle", answer, refusal).and_then(|()| given.same_as(left)).map_err(context)?;
    refusal_claims(refusal, sort).map_err(context)?;
    if is_true && refusal == DONE {
        true_record_claims(edit, &lent, &due).map_err(context)?;
    }
    if refusal == DONE && lent.rows.len() <= 300 && edit.config.n <= 2000 {
        step_claims(edit, &lent, &due).map_err(context)?;
    }
    tally_rechecks(case.tally, edit, lent, due, refusal, sort);
    Ok(())
}

/// §6: "records of a full check are never refused for this"; and no record is that has possible words only.
fn refusal_claims(refusal: Refusal, sort: Sort) -> Outcome {
    if refusal.number == 7 && matches!(sort, Sort::True | Sort::False) {
        return Err(format!("the rules refuse a record without an impossible word: {refusal:?}"));
    }
    Ok(())
}

/// What the document says of true records besides: the latest e, and that a recheck from the kept word gives the same.
fn true_record_claims(edit: &Edit, lent: &Lent, due: &Lent) -> Outcome {
    let e = due.answer[0] as u64;
    if edit.latest_end().is_some_and(|latest| e > latest) {
        return Err(format!("e is {e}, above {:?}", edit.latest_end()));
    }
    let mut other = lent.clone();
    let refusal = edit.recheck_any(&mut other.rows, &mut other.words, &mut other.answer);
    is_no_other(refusal, &other, due)
}

/// A recheck by single steps gives the same, of a true record or not.
fn step_claims(edit: &Edit, lent: &Lent, due: &Lent) -> Outcome {
    let mut stepped = lent.clone();
    let refusal = edit.recheck_by_steps(&mut stepped.rows, &mut stepped.words, &mut stepped.answer);
    is_no_other(refusal, &stepped, due)
}

fn is_no_other(refusal: Refusal, other: &Lent, due: &Lent) -> Outcome {
    if refusal != DONE || other.same_as(due).is_err() {
        return Err(format!("the rules' own rechecks differ: e and changes {:?} and {:?}", other.answer, due.answer));
    }
    Ok(())
}

/// All that is counted of a recheck, with what it was lent and what it left.
fn tally_rechecks(tally: &mut Tally, edit: &Edit, lent: Lent, due: Lent, refusal: Refusal, sort: Sort) {
    let is_true = sort == Sort::True;
    tally.case(Call::Recheck, Some(edit.config.kind), refusal.number);
    tally.situation("recheck, a above b", refusal.number == 6 && edit.a > edit.b);
    tally.situation("recheck, b above N", refusal.number == 6 && edit.a <= edit.b);
    spoiled::tally_recheck(tally, edit, &lent.words, refusal, sort);
    if refusal.number == 7 {
        tally_word(tally, edit.config, lent.words[refusal.cycle as usize]);
    }
    if refusal == DONE {
        tally_recheck(tally, edit, &due, is_true);
        tally_word_recheck(tally, edit, &lent.words, &due.answer, is_true);
        unknown::tally_change(tally, edit.config.kind, due.answer[6]);
        let (kept, new) = (Record { rows: lent.rows, words: lent.words }, Record { rows: due.rows, words: due.words });
        fatal::tally_recheck(tally, edit, &kept, &new, due.answer[0] as usize, is_true);
    }
}

/// A recheck that is not refused.
fn tally_recheck(tally: &mut Tally, edit: &Edit, due: &Lent, is_true: bool) {
    let (kind, last) = (edit.config.kind, (edit.trace.len() / FRAME_WORDS) as u64);
    let e = due.answer[0] as u64;
    let (a, b) = (edit.a as usize, edit.b as usize);
    tally.rows(Call::Recheck, kind, &due.rows[a..e as usize]);
    tally.situation("recheck of 65,536 cycles", last == 65_536);
    tally.situation("recheck, a = b = N = 0", last == 0);
    tally.situation("recheck, a = b", a == b);
    tally.situation("recheck of the whole trace", a == 0 && edit.b == last && last > 0);
    let ends = [e == edit.b, e > edit.b && e < last, e > edit.b && e == last];
    if is_true && !edit.config.is_fatal() {
        tally.situation("recheck, true record, e = b", ends[0]);
        tally.situation("recheck, true record, e between b and N", ends[1]);
        tally.situation("recheck, true record, e = N above b", ends[2]);
        let unlimited = matches!(kind, 2 | 3 | 5) && e > edit.b + u64::from(edit.config.n);
        tally.situation("recheck, true record, e above b + n, kinds 2, 3, 5", unlimited);
        if edit.config.has_window() {
            let in_cycle_0 = a == 0 && b == 1;
            tally.of_kind(kind, windows::LONGEST_RECHECK, in_cycle_0 && e == last && last == MOST_CYCLES as u64);
        }
    } else if !is_true {
        tally.situation("recheck, false record, e = b", ends[0]);
        tally.situation("recheck, false record, e between b and N", ends[1]);
        tally.situation("recheck, false record, e = N above b", ends[2]);
    }
}

/// What a recheck went on from; and of kinds 7 and 8, whether it ended later than a limit like that of kind 4 would let it.
fn tally_word_recheck(tally: &mut Tally, edit: &Edit, kept: &[u64], answer: &[i32], is_true: bool) {
    let before = rules::word_before(kept, edit.a as usize);
    tally_word(tally, edit.config, before);
    if edit.config.is_after_trigger() && before != STOPPED {
        let e = answer[0] as u64;
        let (held, goes_on) = (rules::reference_in(before).is_some(), edit.config.kind == 8 && e > edit.a);
        tally.situation("recheck goes on with a reference", goes_on && held);
        tally.situation("recheck goes on before the reference", goes_on && !held && before != 0);
        let min_0 = goes_on && !held && before != 0 && edit.config.min == 0;
        tally.situation("recheck goes on before the reference, min 0", min_0);
        let late = is_true && !edit.config.is_fatal() && e > edit.b + u64::from(edit.config.n);
        tally.situation("recheck, true record, e above b + max, kinds 7 and 8", late);
    }
}

pub fn totals(case: &mut Case) -> Outcome {
    let rows_len = case.cycles(0);
    let mask = case.random.pick(&[u32::MAX, 63, 3, 0, 1 << 5, !63]);
    let fixed = case.random.pick(&[0, 0, 0, 63, u32::MAX]);
    let rows: Vec<u32> = (0..rows_len).map(|_| case.random.word() & mask | fixed).collect();
    let counts_len = case.length(MARKS.len());
    let mut counts = case.random.words(counts_len);
    let mut expected = counts.clone();

    let context = |d| format!("totals, {rows_len} rows, {counts_len} counts: {d}");
    let answer = host::totals(&rows, &mut counts).map_err(context)?;
    let due = rules::totals(&rows, &mut expected);
    same("answer", answer, due).and_then(|()| same_entries("counts", &counts, &expected)).map_err(context)?;

    case.tally.case(Call::Totals, None, due);
    if due == 0 {
        case.tally.rows(Call::Totals, NO_KIND, &rows);
    }
    case.tally.situation("totals of 65,536 rows", due == 0 && rows_len == MOST_CYCLES);
    case.tally.situation("totals refused 65,537 rows", due == 5 && rows_len > MOST_CYCLES && counts_len == MARKS.len());
    Ok(())
}

/// How long a list is lent where so many words are needed. With a longest window it is most often long enough: a list as
/// long as that is what such a case is for.
fn list_length(case: &mut Case, needed: usize) -> usize {
    let more = needed + 1 + case.random.below(40);
    if let Size::Longest(longest) = case.size {
        let is_short = longest.round() % 3 == 2;
        return if is_short { needed - 1 } else { case.random.pick(&[needed, more]) };
    }
    case.random.pick(&[needed, needed, more, more, needed.saturating_sub(1), needed.saturating_sub(3), 0])
}

pub fn failures(case: &mut Case) -> Outcome {
    let mut config = case.config();
    let cycles = case.cycles(config.n);
    let mut trace = if let Size::Longest(_) = case.size {
        // All cycles of the window tested and failed, so that the list is as long as one window makes it.
        config.min = 0;
        generate::window_trace(&mut case.random, config, cycles, 0, Failing::All)
    } else {
        case.trace(config, cycles)
    };
    case.cut_trace(&mut trace);
    let refused = config.refusal() != 0 || trace.len() % FRAME_WORDS != 0 || cycles > MOST_CYCLES;
    let needed = if refused { 0 } else { 3 * rules::entries(config, &trace).len() };
    let list_len = list_length(case, needed);
    let mut list = case.random.words(list_len);
    let mut expected = list.clone();

    let context = |d| format!("failures, {config:?}, list of {list_len}: {d}\n{}", shown(&trace));
    let answer = host::failures(config, &trace, &mut list).map_err(context)?;
    let due = rules::failures(config, &trace, &mut expected);
    same("answer", answer, due).and_then(|()| same_entries("list", &list, &expected)).map_err(context)?;

    let refusal = (due >> 32) as u32;
    case.tally.case(Call::Failures, Some(config.kind), refusal);
    if refusal == 0 {
        case.tally.situation("failures of 65,536 cycles", cycles == MOST_CYCLES);
        tally_list(case.tally, config, &list[..needed]);
    }
    if !refused {
        fatal::tally_list(case.tally, config, &trace, needed, list_len);
    }
    case.tally.situation("failures, list exactly long enough", refusal == 0 && needed > 0 && list_len == needed);
    case.tally.situation("failures, list longer", refusal == 0 && needed > 0 && list_len > needed);
    case.tally.situation("failures, list one word short", refusal == 8 && list_len + 1 == needed);
    Ok(())
}

fn tally_list(tally: &mut Tally, config: Config, list: &[u32]) {
    let entries = || list.chunks_exact(3);
    let marks: Vec<u32> = entries().map(|entry| entry[1]).collect();
    tally.rows(Call::Failures, config.kind, &marks);
    let in_32nd_cycle = |entry: &[u32]| config.is_sequence() && entry[0] - entry[2] == 31;
    tally.situation("attempt failed in its 32nd cycle", entries().any(in_32nd_cycle));
    tally.situation("failures, start in its own cycle", entries().any(|entry| entry[0] == entry[2]));
    if config.has_window() {
        tally.of_kind(config.kind, windows::LONGEST_LIST, entries().len() >= LONGEST_WINDOW as usize);
    }
}

pub fn open_count(case: &mut Case) -> Outcome {
    let config = case.config_for_word();
    let mut word = case.random.next();
    if config.refusal() == 0 {
        word = any_word(&mut case.random, config, 300);
    }
    let due = rules::open_count(config, word);
    same("answer", host::open_count(config, word), due)
        .map_err(|d| format!("open count, {config:?}, word {word:#x}: {d}"))?;
    case.tally.case(Call::OpenCount, Some(config.kind), due / 256);
    if config.refusal() == 0 {
        tally_word(case.tally, config, word);
    }
    Ok(())
}

/// K and N of a first failure, at the limits and beyond them.
fn checkers_and_cycles(case: &mut Case) -> (u64, u64) {
    let any_checkers = case.random.below(66) as u64;
    match case.size {
        Size::Greatest => (64, 65_536),
        Size::TooLong => (case.random.pick(&[0, 1, 2]), 65_537),
        Size::WordMore => (case.random.pick(&[0, 1, 2]), 65_536),
        Size::Any | Size::Longest(_) => {
            let checkers = case.random.pick(&[0, 1, 1, 2, 2, 3, 7, 63, 64, 65, any_checkers, any_checkers, any_checkers]);
            let cycles = case.random.pick(&[0, 1, 2, 5, 20, 20, 50, 200, 999]);
            match case.random.below(64) {
                0 => (checkers, random_above(case, 65_536)),
                1 => (random_above(case, 64), cycles),
                2 => (random_above(case, 64), random_above(case, 65_536)),
                _ => (checkers, cycles),
            }
        }
    }
}

fn random_above(case: &mut Case, limit: u64) -> u64 {
    let any = case.random.next() | 1 << 33;
    case.random.pick(&[limit + 1, 1 << 32, 1 << 63, u64::MAX, any])
}

/// Rows with any bits besides the two marks that count; how often these occur is drawn for each case.
fn rows_with_failures(random: &mut Random, len: usize) -> Vec<u32> {
    let often = random.pick(&[0, 0, 1, 10, 512]);
    let noise = random.pick(&[0, u32::MAX, u32::MAX]) & !3;
    let mut rows: Vec<u32> = (0..len).map(|_| random.word() & noise).collect();
    for row in rows.iter_mut() {
        if often > 0 && random.chance(often) {
            *row |= 1 + random.below(3) as u32;
        }
    }
    if let (0, true, Some(last)) = (often, random.chance(512), rows.last_mut()) {
        *last |= 1 + random.below(3) as u32;
    }
    rows
}

pub fn first_failure(case: &mut Case) -> Outcome {
    let (checkers, cycles) = checkers_and_cycles(case);
    let rows_due = checkers.min(70) as usize * cycles.min(65_537) as usize;
    let rows_len = case.length(rows_due);
    let rows = rows_with_failures(&mut case.random, rows_len);

    let context = |d| format!("first failure, K {checkers}, N {cycles}, {rows_len} rows: {d}");
    let answer = host::first_failure(checkers, cycles, &rows).map_err(context)?;
    let due = rules::first_failure(checkers, cycles, &rows);
    same("answer", answer, due).map_err(context)?;

    let tally = &mut case.tally;
    let refusal = (due >> 32) as u32;
    tally.case(Call::FirstFailure, None, refusal);
    tally.checkers(Call::FirstFailure, checkers.min(1000) as usize);
    if refusal == 0 && due != 0 {
        let (checker, cycle) = ((due >> 16 & 0x7fff) as usize, (due & 0xffff) as usize);
        tally.rows(Call::FirstFailure, NO_KIND, &[rows[checker * cycles as usize + cycle] & 3]);
        let earlier = rows[..rows_len - 1].iter().all(|row| row & 3 == 0);
        tally.situation("first failure, in the last row only", earlier && rows_len > 1);
    }
    tally.situation("first failure, none", due == 0 && rows_len > 0);
    let unknown_first = rows.first().is_some_and(|row| row & 35 == 32);
    tally.situation("first failure, none, rows with 32", due == 0 && unknown_first);
    tally.situation("first failure, after a row with 32", refusal == 0 && due != 0 && unknown_first);
    tally.situation("first failure, 64 checkers of 65,536 cycles", refusal == 0 && rows_len == 64 * MOST_CYCLES);
    tally.situation("first failure refused 65,537 cycles", refusal == 4 && cycles == 65_537);
    Ok(())
}

/// The lent buffers of a bench, with good checkers and possible words.
struct Bench {
    table: Vec<Config>,
    frames: Vec<u32>,
    words: Vec<u64>,
}

fn good_bench(random: &mut Random, checkers: usize) -> Bench {
    let mut bench = Bench { table: Vec::new(), frames: Vec::new(), words: Vec::new() };
    for _ in 0..checkers {
        let config = generate::good_config(random);
        bench.table.push(config);
        bench.frames.extend(generate::trace(random, config, 1));
        bench.words.push(generate::possible_word(random, config));
    }
    bench
}

/// Spoils so many checkers, each by its configuration or by its word. The last is spoiled as often as all others together.
fn spoil_bench(random: &mut Random, bench: &mut Bench, bad: usize) {
    for _ in 0..bad {
        let last = bench.table.len() - 1;
        let any = random.below(last + 1);
        let k = random.pick(&[last, any]);
        if bench.table[k].refusal() == 0 && random.chance(400) {
            bench.words[k] = generate::impossible_word(random, bench.table[k]);
        } else {
            bench.table[k] = generate::damaged_config(random);
        }
    }
}

pub fn bench(case: &mut Case) -> Outcome {
    let any = case.random.below(65);
    let checkers = case.random.pick(&[0, 1, 2, 3, 5, 63, 64, 64, 65, 66 + any, any, any]);
    let mut bench = good_bench(&mut case.random, checkers);
    let bad = if checkers == 0 { 0 } else { case.random.pick(&[0, 0, 1, 1, 2, 4]) };
    spoil_bench(&mut case.random, &mut bench, bad);
    let Bench { table, mut frames, words: mut lent } = bench;
    frames.resize(case.length(FRAME_WORDS * checkers), 1);
    lent.resize(case.length(checkers), 0);
    let rows_len = case.length(checkers);
    let mut rows = case.random.words(rows_len);
    let (mut words, mut due_words, mut due_rows) = (lent.clone(), lent.clone(), rows.clone());

    let context = |d| format!("bench of {checkers}, {} frame words, {rows_len} rows: {d}\ntable {table:?}", frames.len());
    let answer = host::bench(&table, &frames, &mut words, &mut rows).map_err(context)?;
    let due = rules::bench(&table, &frames, &mut due_words, &mut due_rows);
    same("answer", answer, due)
        .and_then(|()| same_entries("words", &words, &due_words))
        .and_then(|()| same_entries("rows", &rows, &due_rows))
        .map_err(context)?;
    tally_bench(case.tally, &table, &lent, &rows, due);
    Ok(())
}

/// The words are those before the step.
fn tally_bench(tally: &mut Tally, table: &[Config], words: &[u64], rows: &[u32], answer: u32) {
    let refusal = answer / 256;
    tally.case(Call::Bench, None, refusal);
    tally.checkers(Call::Bench, table.len());
    if refusal == 0 {
        for (config, row) in table.iter().zip(rows) {
            tally.kind(Call::Bench, config.kind);
            tally.rows(Call::Bench, config.kind, &[*row]);
        }
    }
    let is_bad = |(config, word): (&Config, &u64)| config.refusal() != 0 || !config.possible(*word);
    let bad = table.iter().zip(words).filter(|pair| is_bad(*pair)).count();
    tally.situation("bench, several bad checkers", bad > 1 && matches!(refusal, 1 | 2 | 3 | 7));
    tally.situation("bench, bad checker last of 64", table.len() == 64 && answer % 256 == 63);
    fatal::tally_bench(tally, table, words, rows, answer);
}
