//! What the generated dumps have covered: refusals, situations, and the wrong readers that were found.

use super::compare::WRITERS;
use super::situations::{Met, SITUATIONS};
use super::wrong::WRONG;
use crate::tally::print_line;
use std::collections::BTreeMap;

/// Every answer of a load; 15 is not given from §8 on.
const REFUSALS: [u32; 9] = [0, 4, 5, 10, 11, 12, 13, 14, 16];

pub struct Tally {
    refusals: BTreeMap<u32, u64>,
    situations: Vec<u64>,
    /// For each wrong reader the first dump that found it. The first entry of `WRONG` makes no mistake and has none here.
    pub found: Vec<Option<u64>>,
}

impl Tally {
    pub fn new() -> Tally {
        let wrong = WRONG.len() - 1 + WRITERS.len();
        Tally { refusals: BTreeMap::new(), situations: vec![0; SITUATIONS.len()], found: vec![None; wrong] }
    }

    pub fn count(&mut self, refusal: u32, met: &Met) {
        *self.refusals.entry(refusal).or_default() += 1;
        for (count, is_met) in self.situations.iter_mut().zip(met.is_met) {
            *count += u64::from(is_met);
        }
    }

    fn names_of_wrong() -> impl Iterator<Item = &'static str> {
        WRONG[1..].iter().map(|(_, name)| *name).chain(WRITERS.map(|(_, name)| name))
    }

    pub fn print(&self, has_library: bool) {
        println!("\ndumps by answer{}:", if has_library { "" } else { " (the library has no call that loads dumps)" });
        let name = |no: &u32| if *no == 0 { "done".into() } else { format!("refused {no}") };
        print_line("call", REFUSALS.iter().map(name), "all");
        let count = |no: &u32| self.refusals.get(no).map_or("MISSED".into(), u64::to_string);
        let all: u64 = self.refusals.values().sum();
        print_line("Load", REFUSALS.iter().map(count), &all.to_string());
        let mut rarest: Vec<(u64, &str)> =
            self.situations.iter().zip(SITUATIONS).map(|(count, (_, name))| (*count, *name)).collect();
        let met = rarest.iter().filter(|(count, _)| *count > 0).count();
        println!("situations of dumps: {met} of {} met; the rarest:", rarest.len());
        rarest.sort_unstable();
        for (count, name) in &rarest[..5] {
            println!("{count:>9}  {name}");
        }
        self.print_wrong();
    }

    fn print_wrong(&self) {
        let mut found: Vec<(u64, &str)> =
            self.found.iter().zip(Tally::names_of_wrong()).filter_map(|(at, name)| Some(((*at)?, name))).collect();
        println!(
            "wrong readers of dumps: {} of {} found; the last, with the dump that found it:",
            found.len(),
            self.found.len()
        );
        found.sort_unstable();
        for (number, name) in found.iter().rev().take(5) {
            println!("{number:>9}  {name}");
        }
    }

    /// The names of all that had no dump, and of the wrong readers that no dump found.
    pub fn missed(&self) -> Vec<String> {
        let refusals = REFUSALS.iter().filter(|no| !self.refusals.contains_key(no)).map(|no| format!("load: answer {no}"));
        let situations = self.situations.iter().zip(SITUATIONS).filter(|(count, _)| **count == 0);
        let wrong = self.found.iter().zip(Tally::names_of_wrong()).filter(|(at, _)| at.is_none());
        refusals
            .chain(situations.map(|(_, (_, name))| format!("dump: {name}")))
            .chain(wrong.map(|(_, name)| format!("wrong reader not found: {name}")))
            .collect()
    }
}
