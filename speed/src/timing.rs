//! How long the calls take: the best of many rounds, in which the calls that are held against each other take turns.
use crate::engine::{Engine, Plain, Record};
use crate::form::Form;
use crate::inputs::{cut, false_record, samples, true_record, Call, Input, BENCH, CYCLES, LIST};
use crate::plain::{fails, Config, FRAME};
use crate::proved::Library;
use std::hint::black_box;
use std::ops::{BitOr, Range};
use std::time::{Duration, Instant};

/// Each call is timed so often, or more often until so much time is over, and the best is taken: what else the machine does
/// only ever adds time, and seldom goes on for so long.
#[derive(Clone, Copy)]
pub struct Plan {
    pub least_rounds: usize,
    pub least_time: Duration,
}

/// The first rounds bring memory and branch prediction in, and do not count.
const WARMING: usize = 2;

/// What an input took, in ns a step.
pub struct Times {
    /// Of each library, in the order given.
    pub libraries: Vec<f64>,
    /// What the first library is held against: ordinary Rust; for a recheck or a list its own full check; for a recheck of one
    /// cycle the kept words read once.
    pub yardstick: f64,
    /// Of a list's trace, the share of the cycles that fail.
    pub failing: Option<f64>,
}

/// What the calls write: the same for all that are held against each other, so that none has the better memory.
struct Memory {
    record: Record,
    list: Vec<u32>,
    /// A trace and samples that are exchanged with it.
    trace: Vec<u32>,
    samples: Vec<u32>,
}

impl Memory {
    fn new(entries: usize, list: usize) -> Self {
        Memory { record: Record::new(entries), list: vec![0; list], trace: Vec::new(), samples: Vec::new() }
    }
}

/// A call that is timed. It was done when it was compared, so here it is done as well.
type Timed<'a> = Box<dyn Fn(&mut Memory) + 'a>;

pub fn times(input: &Input, libraries: &[&Library], plan: Plan) -> Times {
    match input.call {
        Call::FullCheck | Call::Bench => all_at_once(input, libraries, plan),
        Call::Recheck | Call::OneCycle | Call::TakenBack { .. } | Call::List | Call::OwnList { .. } => {
            one_by_one(input, libraries, plan)
        }
    }
}

/// The calls of all the input's checkers are timed together, beside those of ordinary Rust.
fn all_at_once(input: &Input, libraries: &[&Library], plan: Plan) -> Times {
    let (checkers, trace) = (&input.checkers[..], &input.trace[..]);
    let (call, entries): (fn(_, _, _) -> _, _) = match input.call {
        Call::Bench => (bench, BENCH),
        _ => (full_checks, CYCLES),
    };
    let mut calls: Vec<Timed> = libraries.iter().map(|library| call(*library, checkers, trace)).collect();
    calls.push(call(&Plain, checkers, trace));
    let mut memory = Memory::new(entries, 0);
    let best = best_times(&calls, |memory| memory.record.words.fill(0), &mut memory, plan);
    per_step(&best, CYCLES * checkers.len())
}

/// Each checker's call is timed alone, beside its full check over the same trace, and the best times are added up: 64 traces
/// and kept records at once would be too much for the cache, and it would be the memory that is timed.
fn one_by_one(input: &Input, libraries: &[&Library], plan: Plan) -> Times {
    let checkers = input.checkers.len();
    let plan = Plan { least_time: plan.least_time / checkers as u32, ..plan };
    let mut memory = Memory::new(CYCLES, LIST);
    let mut sums = vec![Duration::ZERO; libraries.len() + 1];
    let mut failing = 0;
    for (k, config) in input.checkers.iter().enumerate() {
        let best = match input.call {
            Call::Recheck => recheck_times(config, &input.trace, k, libraries, &mut memory, plan),
            Call::OneCycle => one_cycle_times(config, cut(&input.trace, k, CYCLES), libraries, &mut memory, plan),
            Call::TakenBack { cycles } => {
                taken_back_times(config, cut(&input.trace, k, CYCLES), cycles, libraries, &mut memory, plan)
            }
            _ => list_times(config, &input.frames(k), libraries, &mut memory, plan),
        };
        sums.iter_mut().zip(best).for_each(|(sum, best)| *sum += best);
        failing += memory.record.rows.iter().filter(|row| fails(**row)).count();
    }
    let mut times = per_step(&sums, CYCLES * checkers);
    if matches!(input.call, Call::List | Call::OwnList { .. }) {
        // A list goes over the trace twice, once to count and once to write.
        times.libraries.iter_mut().for_each(|time| *time /= 2.0);
        times.failing = Some(failing as f64 / (CYCLES * checkers) as f64);
    }
    times
}

fn recheck_times(
    config: &Config,
    trace: &[u32],
    k: usize,
    libraries: &[&Library],
    memory: &mut Memory,
    plan: Plan,
) -> Vec<Duration> {
    let kept = false_record(config, trace, k);
    let trace = cut(trace, k, CYCLES);
    let mut calls: Vec<Timed> = libraries.iter().map(|library| recheck(library, config, trace, 0..1)).collect();
    calls.push(full_check(libraries[0], config, trace));
    // Before the full check as well, so that both find the record in the same state of the cache.
    best_times(&calls, |memory| memory.record.copy_from(&kept), memory, plan)
}

fn one_cycle_times(
    config: &Config,
    trace: &[u32],
    libraries: &[&Library],
    memory: &mut Memory,
    plan: Plan,
) -> Vec<Duration> {
    let edit = CYCLES - 1..CYCLES;
    let mut calls: Vec<Timed> = libraries.iter().map(|library| recheck(library, config, trace, edit.clone())).collect();
    calls.push(Box::new(|memory| {
        black_box(read(black_box(&memory.record.words)));
    }));
    memory.record.copy_from(&true_record(config, trace));
    best_times(&calls, |_| (), memory, plan)
}

/// Each call leaves trace, samples and record as they were, so nothing has to be prepared.
fn taken_back_times(
    config: &Config,
    trace: &[u32],
    cycles: usize,
    libraries: &[&Library],
    memory: &mut Memory,
    plan: Plan,
) -> Vec<Duration> {
    let edit = CYCLES - cycles..CYCLES;
    let mut calls: Vec<Timed> = libraries.iter().map(|library| take_back(library, config, edit.clone())).collect();
    calls.push(two_rechecks(libraries[0], config, edit));
    memory.record.copy_from(&true_record(config, trace));
    memory.trace = trace.to_vec();
    memory.samples = samples(trace, cycles);
    best_times(&calls, |_| (), memory, plan)
}

/// All the words, each once, and nothing but the loads and one operation a word.
#[inline(never)]
fn read<Word: Copy + Default + BitOr<Output = Word>>(words: &[Word]) -> Word {
    words.iter().fold(Word::default(), |all, word| all | *word)
}

/// What memory alone costs: a trace of each form read once and nothing done with it, in ns a cycle.
pub fn read_times(forms: [Form; 2], plan: Plan) -> [f64; 2] {
    let traces = forms.map(|form| vec![1_u32; form.words(CYCLES)]);
    let calls = traces.each_ref().map(|trace| -> Timed {
        Box::new(|_| {
            black_box(read(black_box(&trace[..])));
        })
    });
    let mut memory = Memory::new(CYCLES, 0);
    // As before a full check.
    let best = best_times(&calls, |memory| memory.record.words.fill(0), &mut memory, plan);
    [best[0], best[1]].map(|time| time.as_nanos() as f64 / CYCLES as f64)
}

fn list_times(config: &Config, trace: &[u32], libraries: &[&Library], memory: &mut Memory, plan: Plan) -> Vec<Duration> {
    let mut calls: Vec<Timed> = libraries.iter().map(|library| failures(library, config, trace)).collect();
    calls.push(full_check(libraries[0], config, trace));
    best_times(&calls, |_| (), memory, plan)
}

/// The best time of each call. `prepare` comes before each of them and is not timed.
fn best_times(calls: &[Timed], prepare: impl Fn(&mut Memory), memory: &mut Memory, plan: Plan) -> Vec<Duration> {
    let mut best = vec![Duration::MAX; calls.len()];
    let mut round = 0;
    let started = Instant::now();
    while round < WARMING + plan.least_rounds || started.elapsed() < plan.least_time {
        // The calls take turns in going first.
        for turn in 0..calls.len() {
            let call = (round + turn) % calls.len();
            prepare(memory);
            let started = Instant::now();
            calls[call](memory);
            let time = started.elapsed();
            if round >= WARMING {
                best[call] = best[call].min(time);
            }
        }
        round += 1;
    }
    best
}

/// `best` has the time of each library, then that of the yardstick.
fn per_step(best: &[Duration], steps: usize) -> Times {
    let mut libraries: Vec<f64> = best.iter().map(|time| time.as_nanos() as f64 / steps as f64).collect();
    let yardstick = libraries.pop().expect("the yardstick is timed too");
    Times { libraries, yardstick, failing: None }
}

// What is handed in and what comes out goes through `black_box`, so that the compiler knows nothing of either.

fn full_checks<'a>(engine: &'a dyn Engine, checkers: &'a [Config], trace: &'a [u32]) -> Timed<'a> {
    let (form, own) = (engine.form(), engine.form().trace(trace));
    Box::new(move |memory| {
        for (k, config) in checkers.iter().enumerate() {
            let trace = black_box(form.cut(&own, k, CYCLES));
            let answer = engine.full_check(black_box(config), trace, &mut memory.record);
            black_box((answer, &mut *memory)).0.expect("done when compared");
        }
    })
}

fn full_check<'a>(library: &'a Library, config: &'a Config, trace: &'a [u32]) -> Timed<'a> {
    full_checks(library, std::slice::from_ref(config), trace)
}

fn bench<'a>(engine: &'a dyn Engine, checkers: &'a [Config], trace: &'a [u32]) -> Timed<'a> {
    let (form, own) = (engine.form(), engine.form().trace(trace));
    Box::new(move |memory| {
        for t in 0..CYCLES {
            let frames = black_box(form.cut(&own, t, BENCH));
            let answer = engine.bench_step(black_box(checkers), frames, &mut memory.record);
            black_box((answer, &mut *memory)).0.expect("done when compared");
        }
    })
}

/// Where cycle 0 alone is edited, in all later cycles it looks whether it can stop.
fn recheck<'a>(library: &'a Library, config: &'a Config, trace: &'a [u32], edit: Range<usize>) -> Timed<'a> {
    let own = library.form().trace(trace);
    Box::new(move |memory| {
        let answer = library.recheck(black_box(config), black_box(&own), &mut memory.record, black_box(edit.clone()));
        black_box((answer, memory)).0.expect("done when compared");
    })
}

fn take_back<'a>(library: &'a Library, config: &'a Config, edit: Range<usize>) -> Timed<'a> {
    Box::new(move |memory| {
        let Memory { record, trace, samples, .. } = memory;
        let answer = library.edit_and_take_back(black_box(config), trace, record, black_box(edit.clone()), samples);
        assert_eq!(black_box((answer, memory)).0.back.refusal, 0, "done when compared");
    })
}

fn two_rechecks<'a>(library: &'a Library, config: &'a Config, edit: Range<usize>) -> Timed<'a> {
    Box::new(move |memory| {
        let Memory { record, trace, samples, .. } = memory;
        for _ in 0..2 {
            trace[FRAME * edit.start..FRAME * edit.end].swap_with_slice(samples);
            let answer = library.recheck(black_box(config), black_box(trace), record, black_box(edit.clone()));
            black_box(answer).expect("done when compared");
        }
    })
}

fn failures<'a>(library: &'a Library, config: &'a Config, trace: &'a [u32]) -> Timed<'a> {
    let own = library.form().trace(trace);
    Box::new(move |memory| {
        let answer = library.failures(black_box(config), black_box(&own), &mut memory.list);
        black_box((answer, memory)).0.expect("done when compared");
    })
}
