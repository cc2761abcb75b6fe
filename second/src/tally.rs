//! What the run has covered: how many cases each call, kind, mark, refusal and situation had. A run that missed one fails.

use crate::{either_order, fatal, spoiled, taken_back, unknown, windows};
use std::collections::BTreeMap;
use std::ops::RangeInclusive;

#[derive(Clone, Copy, PartialEq, Eq, PartialOrd, Ord, Debug)]
pub enum Call {
    Step,
    Check,
    Recheck,
    TakeBack,
    Totals,
    Failures,
    OpenCount,
    FirstFailure,
    Bench,
}

use Call::*;

pub const CALLS: [Call; 9] = [Step, Check, Recheck, TakeBack, Totals, Failures, OpenCount, FirstFailure, Bench];

impl Call {
    /// The answers 0 to 9 that the header allows a call.
    fn refusals(self) -> &'static [u32] {
        match self {
            Step => &[0, 1, 2, 3, 5, 7],
            Check => &[0, 1, 2, 3, 4, 5],
            Recheck | TakeBack => &[0, 1, 2, 3, 4, 5, 6, 7],
            Totals => &[0, 5],
            Failures => &[0, 1, 2, 3, 4, 8],
            OpenCount => &[0, 1, 2, 3, 7],
            FirstFailure => &[0, 4, 5, 9],
            Bench => &[0, 1, 2, 3, 5, 7, 9],
        }
    }

    fn has_kind(self) -> bool {
        !matches!(self, Totals | FirstFailure)
    }

    /// The marks that the rows (or entries) of a call can have for a kind.
    fn marks(self, kind: u8) -> Vec<u32> {
        let of_kind: &[u32] = match kind {
            3 => &[1, 4, 8, 32],
            4 => &[1, 4, 8, 16, 32],
            5 => &[1, 2, 4, 8, 32],
            7 | 8 => &[1, 4, 8, 32],
            NO_KIND => &[1, 2, 4, 8, 16, 32],
            _ => &[1, 4, 32],
        };
        match self {
            OpenCount => Vec::new(),
            Failures | FirstFailure => of_kind.iter().copied().filter(|mark| *mark <= 2).collect(),
            _ => of_kind.to_vec(),
        }
    }
}

const KINDS: RangeInclusive<u8> = 0..=8;

/// Stands for the kind in a call that has no configuration.
pub const NO_KIND: u8 = 9;

/// The situations that every run has to meet, besides calls, kinds, marks and refusals.
const SITUATIONS: [&str; 112] = [
    "check of 0 cycles",
    "check of 1 cycle",
    "check of 65,536 cycles",
    "check refused 65,537 cycles",
    "trace of 65,536 cycles and one word more",
    "trace of no multiple of 8 words",
    "trace of an odd multiple of 4 words",
    "window restarted, row 20",
    "window restarted in its last cycle, n above 1",
    "window restarted twice running, n = 1",
    "attempt failed in its 32nd cycle",
    "recheck of 65,536 cycles",
    "recheck, a = b = N = 0",
    "recheck, a = b",
    "recheck of the whole trace",
    "recheck, a above b",
    "recheck, b above N",
    "recheck, true record, e = b",
    "recheck, true record, e between b and N",
    "recheck, true record, e = N above b",
    "recheck, true record, e above b + n, kinds 2, 3, 5",
    "recheck, false record, e = b",
    "recheck, false record, e between b and N",
    "recheck, false record, e = N above b",
    "recheck refused 1, a kept word that no checker leaves",
    "recheck refused 2, a kept word that no checker leaves",
    "recheck refused 3, a kept word that no checker leaves",
    "taken back, 65,536 cycles",
    "samples refused, one word more",
    "samples refused, one word less",
    "samples refused, one frame more",
    "samples refused, one frame less",
    "samples refused, none",
    "samples refused, some where a = b",
    "samples refused, a above b",
    "samples refused, as many as a is above b",
    "samples refused, b above N",
    "samples refused, the lower 64 bits of 8 (b-a), a above b",
    "samples refused, the lower 64 bits of 8 (b-a), b above N",
    "samples refused, a kept word impossible too",
    "take back refused 1, samples wrong too",
    "take back refused 2, samples wrong too",
    "take back refused 3, samples wrong too",
    "take back refused 4, samples wrong too",
    "take back refused 4, 65,537 cycles",
    "take back refused 6, a above b, no samples",
    "take back refused 6, b above N, samples of b-a frames",
    "take back refused 6, a = b = 2^64-1",
    "failures, list exactly long enough",
    "failures, list one word short",
    "failures, list longer",
    "failures of 65,536 cycles",
    "totals of 65,536 rows",
    "totals refused 65,537 rows",
    "first failure, none",
    "first failure, none, rows with 32",
    "first failure, after a row with 32",
    "first failure, in the last row only",
    "first failure, 64 checkers of 65,536 cycles",
    "first failure refused 65,537 cycles",
    "bench, several bad checkers",
    "bench, bad checker last of 64",
    "bench, fatal checkers beside others",
    "bench, a fatal checker fails, and another one",
    "bench, stopped checkers beside others",
    "bench, severity refused",
    "bench, 2^63 refused",
    "severity refused, 2",
    "severity refused, 255",
    "severity refused, ports or value bad too",
    "kind refused, severity bad too",
    "kind 9 refused",
    "min refused, one above max",
    "min refused, kinds 0 to 6",
    "n refused, 65,536, kinds 3 to 5",
    "max refused, 65,536",
    "n accepted, 1,025, kinds 3 to 5",
    "n accepted, 65,535, kinds 3 to 5",
    "max accepted, 1,025",
    "max accepted, 65,535",
    "value refused, kinds 0 to 6",
    "value refused, kind 8",
    "value refused, kind 7, one too large",
    "value accepted, 2^32-1",
    "width of Q refused, kinds 7 and 8",
    "R refused, kinds 7 and 8",
    "time or value word, 65,535 left",
    "time or value word refused, 65,536 left",
    "stability word, reference and 65,535 left",
    "stability word, 65,535 left and no reference",
    "stability word refused, 65,536 left",
    "value word, max left",
    "value word refused, max+1 left",
    "stability word without a reference, max left",
    "stability word without a reference, max left, min 0",
    "stability word without a reference refused, max+1 left",
    "stability word without a reference refused, max+1 left, min 0",
    "stability word, max-min left",
    "stability word, greatest reference of 32 wires",
    "stability word refused, 0 left",
    "stability word refused, max-min+1 left",
    "stability word refused, reference one too large",
    "step, value tested and passed",
    "step, value not tested, enable 0",
    "step, stability, reference taken",
    "step, stability, compared and passed",
    "step, stability, reference taken after the trigger, min 0",
    "recheck, true record, e above b + max, kinds 7 and 8",
    "recheck goes on with a reference",
    "recheck goes on before the reference",
    "recheck goes on before the reference, min 0",
    "failures, start in its own cycle",
];

/// A situation that each of some kinds has to meet.
pub struct Situation<T> {
    kinds: &'static [u8],
    name: &'static str,
    is_met: fn(&T) -> bool,
}

pub const fn of<T>(kinds: &'static [u8], name: &'static str, is_met: fn(&T) -> bool) -> Situation<T> {
    Situation { kinds, name, is_met }
}

pub const ALL: &[u8] = &[0, 1, 2, 3, 4, 5, 6, 7, 8];

/// Every situation of a table with each of its kinds, and how many times it has to be met.
pub fn kinds_of<T>(table: &'static [Situation<T>]) -> impl Iterator<Item = (u8, &'static str, u64)> {
    table.iter().flat_map(|one| one.kinds.iter().map(move |kind| (*kind, one.name, 1)))
}

pub fn tally_all<T>(tally: &mut Tally, kind: u8, table: &'static [Situation<T>], met: &T) {
    tally_any(tally, kind, table, std::slice::from_ref(met));
}

/// Counts a situation once if one or several of these meet it.
pub fn tally_any<T>(tally: &mut Tally, kind: u8, table: &'static [Situation<T>], met: &[T]) {
    for situation in table.iter().filter(|situation| situation.kinds.contains(&kind)) {
        tally.of_kind(kind, situation.name, met.iter().any(situation.is_met));
    }
}

#[derive(Default)]
pub struct Tally {
    refusals: BTreeMap<(Call, u32), u64>,
    kinds: BTreeMap<(Call, u8), u64>,
    marks: BTreeMap<(Call, u8, u32), u64>,
    situations: BTreeMap<&'static str, u64>,
    of_kinds: BTreeMap<(u8, &'static str), u64>,
    checkers: BTreeMap<(Call, usize), u64>,
}

impl Tally {
    /// One case of a call. Kinds are counted where the call was not refused.
    pub fn case(&mut self, call: Call, kind: Option<u8>, refusal: u32) {
        *self.refusals.entry((call, refusal)).or_default() += 1;
        if let (0, Some(kind)) = (refusal, kind) {
            self.kind(call, kind);
        }
    }

    pub fn kind(&mut self, call: Call, kind: u8) {
        *self.kinds.entry((call, kind)).or_default() += 1;
    }

    pub fn rows(&mut self, call: Call, kind: u8, rows: &[u32]) {
        for mark in crate::rules::MARKS {
            *self.marks.entry((call, kind, mark)).or_default() += u64::from(crate::rules::count(rows, mark));
        }
    }

    pub fn checkers(&mut self, call: Call, checkers: usize) {
        *self.checkers.entry((call, checkers)).or_default() += 1;
    }

    pub fn situation(&mut self, name: &'static str, met: bool) {
        assert!(SITUATIONS.contains(&name), "{name} is not in the list");
        *self.situations.entry(name).or_default() += u64::from(met);
    }

    /// A situation of a window, of a fatal checker, of a kept record, of unknown bits or of edits one after another; each is
    /// counted for every kind that has it.
    pub fn of_kind(&mut self, kind: u8, name: &'static str, met: bool) {
        *self.of_kinds.entry((kind, name)).or_default() += u64::from(met);
    }

    fn cases(&self, call: Call) -> u64 {
        self.refusals.iter().filter(|((c, _), _)| *c == call).map(|(_, count)| count).sum()
    }

    fn mark(&self, call: Call, kind: u8, mark: u32) -> u64 {
        self.marks.get(&(call, kind, mark)).copied().unwrap_or(0)
    }

    pub fn print(&self) {
        self.print_answers();
        println!("\nchecks done by kind:");
        print_line("call", KINDS.map(|kind| format!("kind {kind}")), "");
        for call in CALLS.into_iter().filter(|call| call.has_kind()) {
            let count = |kind: u8| self.kinds.get(&(call, kind)).copied().unwrap_or(0).to_string();
            print_line(&format!("{call:?}"), KINDS.map(count), "");
        }
        println!("\nrows with each mark (failures: entries; first failure: answers), kinds together:");
        print_line("call", crate::rules::MARKS.iter().map(|mark| format!("mark {mark}")), "");
        for call in CALLS.into_iter().filter(|call| *call != OpenCount) {
            let count = |mark: &u32| (0..=NO_KIND).map(|kind| self.mark(call, kind, *mark)).sum::<u64>().to_string();
            print_line(&format!("{call:?}"), crate::rules::MARKS.iter().map(count), "");
        }
        println!("\nsituations:");
        for (name, count) in &self.situations {
            println!("{count:>9}  {name}");
        }
        println!("\nsituations by kind:");
        for ((kind, name), count) in &self.of_kinds {
            println!("{count:>9}  kind {kind}, {name}");
        }
    }

    fn print_answers(&self) {
        println!("cases by answer:");
        print_line("call", (0..=9).map(|no| if no == 0 { "done".into() } else { format!("refused {no}") }), "all");
        for call in CALLS {
            let count = |no: u32| match self.refusals.get(&(call, no)) {
                Some(count) => count.to_string(),
                None => (if call.refusals().contains(&no) { "MISSED" } else { "-" }).into(),
            };
            print_line(&format!("{call:?}"), (0..=9).map(count), &self.cases(call).to_string());
        }
    }

    /// The names of all that had no case, and of the situations that had too few.
    pub fn missed(&self) -> Vec<String> {
        let mut missed = Vec::new();
        for call in CALLS {
            let not_given = call.refusals().iter().filter(|no| !self.refusals.contains_key(&(call, **no)));
            missed.extend(not_given.map(|no| format!("{call:?}: answer {no}")));
            let kinds = if call.has_kind() { KINDS } else { NO_KIND..=NO_KIND };
            for kind in kinds {
                if call.has_kind() && !self.kinds.contains_key(&(call, kind)) {
                    missed.push(format!("{call:?}: kind {kind}"));
                }
                let not_seen = call.marks(kind).into_iter().filter(|mark| self.mark(call, kind, *mark) == 0);
                missed.extend(not_seen.map(|mark| format!("{call:?}: kind {kind}, mark {mark}")));
            }
        }
        let not_met = SITUATIONS.iter().filter(|name| self.situations.get(*name).copied().unwrap_or(0) == 0);
        missed.extend(not_met.map(|name| name.to_string()));
        let of_windows = windows::all_situations().chain(fatal::all_situations());
        let of_edits = taken_back::all_situations().chain(either_order::all_situations());
        let of_kinds = of_windows.chain(spoiled::all_situations()).chain(unknown::all_situations()).chain(of_edits);
        for (kind, name, least) in of_kinds {
            if self.of_kinds.get(&(kind, name)).copied().unwrap_or(0) < least {
                missed.push(format!("kind {kind}: {name}"));
            }
        }
        for call in [FirstFailure, Bench] {
            let not_tried = [0, 1, 2, 63, 64, 65].into_iter().filter(|k| !self.checkers.contains_key(&(call, *k)));
            missed.extend(not_tried.map(|k| format!("{call:?}: {k} checkers")));
        }
        missed
    }
}

pub fn print_line(name: &str, columns: impl Iterator<Item = String>, last: &str) {
    let columns: String = columns.map(|column| format!("{column:>11}")).collect();
    println!("{name:<13}{columns}{last:>9}");
}
