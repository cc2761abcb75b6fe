//! What the dumps in pieces have covered: answers, situations, and the wrong readers that were found.

use super::calls::Made;
use super::situations::{self, Map, Seen, SEEN};
use super::wrong::SLIPS;
use crate::dumps::reader::refused_lengths;
use crate::tally::print_line;
use std::collections::BTreeMap;

/// Every answer of a piece or an end.
const REFUSALS: [u32; 10] = [0, 4, 5, 10, 11, 12, 13, 14, 16, 17];

/// Which call gives an answer, and whether it is given for the first time.
#[derive(Clone, Copy, PartialEq, Eq, PartialOrd, Ord)]
enum When {
    First,
    Later,
    End,
    AgainPiece,
    AgainEnd,
    AgainBadFrames,
}

const WHENS: [(When, &str); 6] = [
    (When::First, "first piece"),
    (When::Later, "later piece"),
    (When::End, "end"),
    (When::AgainPiece, "again, piece"),
    (When::AgainEnd, "again, end"),
    (When::AgainBadFrames, "again, not 4"),
];

impl When {
    fn of(made: &Made, is_first: bool) -> When {
        let is_bad = refused_lengths(0, made.words) == Some(4);
        match (made.settled, made.step.piece) {
            (Some(_), _) if is_bad => When::AgainBadFrames,
            (Some(_), Some(_)) => When::AgainPiece,
            (Some(_), None) => When::AgainEnd,
            (None, None) => When::End,
            (None, Some(_)) if is_first => When::First,
            (None, Some(_)) => When::Later,
        }
    }

    /// 5 does not wait: the first call gives it, if it does not give 4.
    fn can_give(self, refusal: u32) -> bool {
        match self {
            When::First | When::End => refusal != 17,
            When::Later => refusal != 17 && refusal != 5,
            _ => refusal != 0,
        }
    }
}

pub struct Tally {
    pub dumps: u64,
    pub ways: u64,
    calls: u64,
    /// States that no call gave, and that got an answer.
    pub states: u64,
    answers: BTreeMap<(When, u32), u64>,
    seen: Vec<u64>,
    /// For each wrong reader the first dump that found it. The first entry of `SLIPS` makes no mistake and has none here.
    pub found: Vec<Option<u64>>,
}

impl Tally {
    pub fn new() -> Tally {
        let found = vec![None; SLIPS.len() - 1];
        let seen = vec![0; SEEN.len()];
        Tally { dumps: 0, ways: 0, calls: 0, states: 0, answers: BTreeMap::new(), seen, found }
    }

    pub fn see(&mut self, situation: Seen) {
        self.seen[situation as usize] += 1;
    }

    /// A way that a dump has taken.
    pub fn way(&mut self, map: &Map, table: usize, made: &[Made]) {
        self.ways += 1;
        self.calls += made.len() as u64;
        for (i, one) in made.iter().enumerate() {
            *self.answers.entry((When::of(one, i == 0), one.answer.refusal)).or_default() += 1;
        }
        let mut seen = Vec::new();
        situations::pieces(map, made, &mut seen);
        situations::samples(map, made, &mut seen);
        situations::refusals(map, table, made, &mut seen);
        seen.into_iter().for_each(|situation| self.see(situation));
    }

    pub fn ways_and_calls(&self) -> String {
        format!("{} ways of cutting, {} calls", self.ways, self.calls)
    }

    pub fn print(&self, has_library: bool) {
        let library = if has_library { "" } else { " (the library has no calls for pieces)" };
        println!("\ndumps in pieces{library}: {}, {}", self.dumps, self.ways_and_calls());
        println!("states that no call gave: {}", self.states);
        println!("calls by answer (again: over or refused before; not 4: with frames that 4 would be for):");
        let name = |no: &u32| if *no == 0 { "done".into() } else { format!("refused {no}") };
        print_line("call", REFUSALS.iter().map(name), "");
        for (when, name) in WHENS {
            let count = |no: &u32| match self.answers.get(&(when, *no)) {
                Some(count) => count.to_string(),
                None => (if when.can_give(*no) { "MISSED" } else { "-" }).into(),
            };
            print_line(name, REFUSALS.iter().map(count), "");
        }
        let mut rarest: Vec<(u64, &str)> = self.seen.iter().zip(SEEN).map(|(count, (_, name))| (*count, *name)).collect();
        let met = rarest.iter().filter(|(count, _)| *count > 0).count();
        println!("situations of pieces: {met} of {} met; the rarest:", rarest.len());
        rarest.sort_unstable();
        rarest[..5].iter().for_each(|(count, name)| println!("{count:>9}  {name}"));
        self.print_wrong();
    }

    fn print_wrong(&self) {
        let names = SLIPS[1..].iter().map(|(_, name)| *name);
        let mut found: Vec<(u64, &str)> =
            self.found.iter().zip(names).filter_map(|(at, name)| Some(((*at)?, name))).collect();
        let all = self.found.len();
        println!("wrong readers of pieces: {} of {all} found; the last, with the dump that found it:", found.len());
        found.sort_unstable();
        found.iter().rev().take(5).for_each(|(number, name)| println!("{number:>9}  {name}"));
    }

    /// The names of all that had no dump, and of the wrong readers that no dump found.
    pub fn missed(&self) -> Vec<String> {
        let answers = WHENS.iter().flat_map(|when| REFUSALS.map(|no| (when.0, when.1, no)));
        let not_given = answers.filter(|(when, _, no)| when.can_give(*no) && !self.answers.contains_key(&(*when, *no)));
        let seen = self.seen.iter().zip(SEEN).filter(|(count, _)| **count == 0);
        let wrong = self.found.iter().zip(&SLIPS[1..]).filter(|(at, _)| at.is_none());
        not_given
            .map(|(_, name, no)| format!("pieces, {name}: answer {no}"))
            .chain(seen.map(|(_, (_, name))| format!("pieces: {name}")))
            .chain(wrong.map(|(_, (_, name))| format!("wrong reader of pieces not found: {name}")))
            .collect()
    }
}
