//! Two edits whose cycles do not meet, made and rechecked in either order (§12 of document 02): the record is the same, and
//! so is the sum of the changes; and the situations of them that every run has to meet.

use crate::cases::{same_entries, shown, Case, Size};
use crate::generate::{self, Random};
use crate::rules::{self, Config, Edit, Record, ANSWERS, FRAME_WORDS, MOST_CYCLES};
use crate::taken_back::{recheck_to, stop, Answer, SHORT};
use crate::tally::{kinds_of, of, tally_all, Situation, Tally, ALL};
use crate::windows;

type Outcome = Result<(), String>;

/// Two edits, of cycles a to b−1 and c to d−1 with b ≤ c. Of the traces and their true records, bit i of the place says
/// whether edit i was made: they are without an edit, with the first, with the second, and with both.
struct Edits {
    config: Config,
    ranges: [(usize, usize); 2],
    traces: [Vec<u32>; 4],
    records: [Record; 4],
}

impl Edits {
    /// From the trace before the edits, the traces with either edit alone, and the true record of the first of these.
    fn new(config: Config, ranges: [(usize, usize); 2], [old, first, second]: [Vec<u32>; 3], kept: Record) -> Edits {
        let mut both = first.clone();
        let (c, d) = ranges[1];
        both[FRAME_WORDS * c..FRAME_WORDS * d].copy_from_slice(&second[FRAME_WORDS * c..FRAME_WORDS * d]);
        let [with_first, with_second, with_both] = [&first, &second, &both].map(|trace| rules::true_record(config, trace));
        let records = [kept, with_first, with_second, with_both];
        Edits { config, ranges, traces: [old, first, second, both], records }
    }

    fn cycles(&self) -> usize {
        self.records[0].rows.len()
    }
}

/// The length of an edit, or how far one is from the other: most often short, so that the recheck of one runs into the
/// other.
fn length(random: &mut Random, most: usize) -> usize {
    let any = random.below(most + 1);
    random.pick(&[0, 1, 1, 1, 1, 2, 2, 3, any]).min(most)
}

/// Where the second edit begins: often where a check is open, and around the cycle where a fatal checker stops.
fn second_start(random: &mut Random, words: &[u64]) -> usize {
    let any = random.below(words.len() + 1);
    let open = (any..words.len()).find(|t| words[*t] != 0).map_or(any, |t| t + 1);
    let around = stop(words).map_or(open, |stop| (stop + random.below(5)).saturating_sub(2));
    random.pick(&[any, open, around, around]).min(words.len())
}

/// Often next to each other; some from the first cycle on, or to the last.
fn two_ranges(random: &mut Random, words: &[u64]) -> [(usize, usize); 2] {
    let (cycles, c) = (words.len(), second_start(random, words));
    let apart = length(random, c);
    let b = c - random.pick(&[0, apart]);
    let (a, d) = (b - length(random, b), c + length(random, cycles - c));
    match random.below(10) {
        0 => [(0, b), (c, d)],
        1 => [(a, b), (c, cycles)],
        2 | 3 => [(0, b), (c, cycles)],
        _ => [(a, b), (c, d)],
    }
}

/// Now and then an edit that changes nothing, or one that ends every check: without a reset, time checks of kind 4 hardly
/// ever have other ends in the other order.
fn edited(random: &mut Random, config: Config, old: &[u32], (from, to): (usize, usize)) -> Vec<u32> {
    let mut new = old.to_vec();
    match random.below(16) {
        0 => {}
        1 | 2 => (from..to).for_each(|t| new[FRAME_WORDS * t] &= !1),
        _ => new = generate::edited(random, config, old, from, to),
    }
    new
}

/// The edits of a longest window are of cycle 0, so that the recheck has the whole window to go, and of any later one.
fn draw(case: &mut Case, config: Config, old: &[u32], kept: &Record) -> Edits {
    let (random, cycles) = (&mut case.random, kept.rows.len());
    let (ranges, first) = if let Size::Longest(_) = case.size {
        let any = 1 + random.below(cycles - 1);
        let c = random.pick(&[1, 2, any, cycles - 1]);
        ([(0, 1), (c, c + 1)], generate::edited_in_cycle_0(random, config, old))
    } else {
        let ranges = two_ranges(random, &kept.words);
        (ranges, edited(random, config, old, ranges[0]))
    };
    let second = edited(random, config, old, ranges[1]);
    Edits::new(config, ranges, [old.to_vec(), first, second], kept.clone())
}

/// Two edits of a trace; of a short one several times two, which takes little time, so that what is rare comes up.
pub fn either_order(case: &mut Case) -> Outcome {
    if matches!(case.size, Size::TooLong | Size::WordMore) {
        // Such a trace is refused.
        case.size = Size::Any;
    }
    let config = if case.size == Size::Any { generate::good_config(&mut case.random) } else { case.config() };
    // Here a trace need not be as long as its window.
    let cycles = case.cycles(0);
    let old = case.trace(config, cycles);
    let kept = rules::true_record(config, &old);
    let times = if cycles < SHORT { 10 } else { 1 };
    for _ in 0..times {
        let edits = draw(case, config, &old, &kept);
        let answers = compare(&edits).map_err(|difference| {
            let (ranges, traces) = (edits.ranges, edits.traces.each_ref().map(|trace| shown(trace)));
            format!("either order, {config:?}, a to b and c to d {ranges:?}: {difference}\n{traces:#?}")
        })?;
        tally_order(case.tally, &edits, answers);
    }
    Ok(())
}

/// §12: "two edits whose cycles do not meet give the same record in either order. The ends e may differ." The changes of
/// each mark have the same sum too. The answer is e and changes of each edit: made first, and made second.
fn compare(edits: &Edits) -> Result<[[Answer; 2]; 2], String> {
    let ([first, second_then], one) = make(edits, [0, 1]).map_err(|d| format!("the first edit first: {d}"))?;
    let ([second, first_then], other) = make(edits, [1, 0]).map_err(|d| format!("the second edit first: {d}"))?;
    same_entries("rows in either order", &one.rows, &other.rows)?;
    same_entries("words in either order", &one.words, &other.words)?;
    if (1..ANSWERS).any(|i| first[i] + second_then[i] != second[i] + first_then[i]) {
        return Err(format!("changes {first:?} and {second_then:?}, in the other order {second:?} and {first_then:?}"));
    }
    Ok([[first, first_then], [second, second_then]])
}

/// The edits made and rechecked by the library in this order: what each answers, and the record in the end.
fn make(edits: &Edits, order: [usize; 2]) -> Result<([Answer; 2], Record), String> {
    let (mut record, mut made) = (edits.records[0].clone(), 0);
    let mut answers = [[0; ANSWERS]; 2];
    for (answer, i) in answers.iter_mut().zip(order) {
        made |= 1 << i;
        let (from, to) = edits.ranges[i];
        let edit = Edit { config: edits.config, trace: &edits.traces[made], a: from as u64, b: to as u64 };
        *answer = recheck_to(&edit, &mut record, &edits.records[made])?;
    }
    Ok((answers, record))
}

/// Two edits that were made in either order.
struct Order {
    is_fatal: bool,
    cycles: usize,
    ranges: [(usize, usize); 2],
    /// Whether each edit changes a sample, and whether it changes a row or a word where it is the first to be made.
    has_new_samples: [bool; 2],
    is_new: [bool; 2],
    answers: [[Answer; 2]; 2],
    /// The cycle where a fatal checker stops, without an edit, with the first, with the second, and with both.
    stops: [Option<usize>; 4],
}

impl Order {
    fn is_empty(&self, i: usize) -> bool {
        self.ranges[i].0 == self.ranges[i].1
    }

    /// Both change the record.
    fn are_new(&self) -> bool {
        self.is_new == [true; 2]
    }

    fn are_next(&self) -> bool {
        self.ranges[0].1 == self.ranges[1].0
    }

    fn are_from_0_to_last(&self) -> bool {
        self.ranges[0].0 == 0 && self.ranges[1].1 == self.cycles
    }

    fn changes_nothing(&self, i: usize) -> bool {
        !self.is_empty(i) && !self.has_new_samples[i]
    }

    fn ends_differ(&self, i: usize) -> bool {
        self.answers[i][0][0] != self.answers[i][1][0]
    }

    /// The recheck of the first edit, made first, runs beyond c.
    fn runs_into_second(&self) -> bool {
        !self.is_empty(1) && self.answers[0][0][0] as usize > self.ranges[1].0
    }

    fn changes_differ(&self) -> bool {
        self.answers.iter().any(|[made_first, made_second]| made_first[1..] != made_second[1..])
    }

    fn has_changes_of_32(&self) -> bool {
        self.answers.iter().any(|edit| edit.iter().any(|answer| answer[6] != 0))
    }

    /// With this edit alone a fatal checker stops earlier than with none.
    fn stops_earlier(&self, made: usize) -> bool {
        self.stops[made].is_some_and(|stop| self.stops[0].is_none_or(|old| stop < old))
    }

    /// With these edits a fatal checker stops before the cycles of the second.
    fn stops_before(&self, made: usize) -> bool {
        self.stops[made].is_some_and(|stop| stop < self.ranges[1].0)
    }

    fn is_longest(&self) -> bool {
        self.ranges[0] == (0, 1) && self.answers[0][0][0] as usize == MOST_CYCLES
    }
}

/// A word of kind 6 comes from its frame alone, whatever was before it, so that only a fatal one has other ends in the
/// other order.
const NOT_TRANSITION: &[u8] = &[0, 1, 2, 3, 4, 5, 7, 8];

static ORDERS: [Situation<Order>; 25] = [
    of(ALL, "either order, severity 0, both change the record", |o| !o.is_fatal && o.are_new()),
    of(ALL, "either order, severity 1, both change the record", |o| o.is_fatal && o.are_new()),
    of(NOT_TRANSITION, "either order, severity 0, the ends of the first edit differ", |o| !o.is_fatal && o.ends_differ(0)),
    of(NOT_TRANSITION, "either order, severity 0, the ends of the second edit differ", |o| !o.is_fatal && o.ends_differ(1)),
    of(ALL, "either order, severity 1, the ends of the first edit differ", |o| o.is_fatal && o.ends_differ(0)),
    of(ALL, "either order, severity 1, the ends of the second edit differ", |o| o.is_fatal && o.ends_differ(1)),
    of(ALL, "either order, the ends of both edits differ", |o| o.ends_differ(0) && o.ends_differ(1)),
    of(ALL, "either order, no end differs", |o| o.are_new() && !o.ends_differ(0) && !o.ends_differ(1)),
    of(ALL, "either order, the first recheck runs into the second edit", |o| o.are_new() && o.runs_into_second()),
    of(ALL, "either order, the changes of an edit differ", |o| o.changes_differ()),
    of(ALL, "either order, changes of mark 32", |o| o.has_changes_of_32()),
    of(ALL, "either order, N = 0", |o| o.cycles == 0),
    of(ALL, "either order, b = c", |o| o.are_new() && o.are_next()),
    of(ALL, "either order, b below c", |o| o.are_new() && !o.are_next()),
    of(ALL, "either order, a = 0 and d = N", |o| o.are_new() && o.are_from_0_to_last()),
    of(ALL, "either order, the whole trace", |o| o.are_new() && o.are_next() && o.are_from_0_to_last()),
    of(ALL, "either order, the first edit empty", |o| o.cycles > 0 && o.is_empty(0) && !o.is_empty(1)),
    of(ALL, "either order, the second edit empty", |o| o.cycles > 0 && !o.is_empty(0) && o.is_empty(1)),
    of(ALL, "either order, both edits empty", |o| o.cycles > 0 && o.is_empty(0) && o.is_empty(1)),
    of(ALL, "either order, the first edit changes nothing", |o| o.changes_nothing(0) && o.is_new[1]),
    of(ALL, "either order, the second edit changes nothing", |o| o.changes_nothing(1) && o.is_new[0]),
    of(ALL, "either order, stopped before the second edit by the first", |o| !o.stops_before(0) && o.stops_before(1)),
    of(ALL, "either order, stopped before the second edit but for the first", |o| o.stops_before(0) && !o.stops_before(1)),
    of(ALL, "either order, stopped earlier by each edit alone", |o| o.stops_earlier(1) && o.stops_earlier(2)),
    of(&windows::KINDS, "either order, edit of cycle 0, e = N = 65,536", |o| o.is_longest()),
];

pub fn all_situations() -> impl Iterator<Item = (u8, &'static str, u64)> {
    kinds_of(&ORDERS)
}

fn tally_order(tally: &mut Tally, edits: &Edits, answers: [[Answer; 2]; 2]) {
    let Edits { config, ranges, traces, records } = edits;
    let order = Order {
        is_fatal: config.is_fatal(),
        cycles: edits.cycles(),
        ranges: *ranges,
        has_new_samples: [1, 2].map(|made| traces[made] != traces[0]),
        is_new: [1, 2].map(|made| records[made] != records[0]),
        answers,
        stops: [0, 1, 2, 3].map(|made| stop(&records[made].words)),
    };
    tally_all(tally, config.kind, &ORDERS, &order);
}
