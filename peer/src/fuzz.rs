//! Holds the proved planner to the independent one, to the paper's algorithm and to runs; and the proved
//! timetables and the proved writer to the independent ones.

use crate::dijkstra::{self, Answer};
use crate::forms;
use crate::generate::{case, Case, Kind};
use crate::lend::{self, Needs};
use crate::lent;
use crate::memory::{zeroed, Memory};
use crate::paper::{self, Outcome};
use crate::random::Random;
use crate::runs;
use crate::search::Search;
use crate::table::{self, node_count, Table};
use crate::timetables;
use std::collections::BTreeMap;
use std::process::ExitCode;

/// How many states the paper's algorithm takes from WAITING before it gives up.
const MOST_ROUNDS: u64 = 20_000_000;

/// Tries so many cases, and says what came out.
pub fn run(seed: u64, count: u64) -> ExitCode {
    let mut tally = Tally::default();
    for index in 0..count {
        let case = case(seed, index);
        if let Err(difference) = check_all(&case, &mut tally) {
            let hex: String = case.table.iter().map(|byte| format!(" {byte:02x}")).collect();
            println!(
                "DIFFERENCE: seed {seed}, case {index}, {:?}\ntable{hex}\n{difference}",
                case.kind
            );
            return ExitCode::FAILURE;
        }
    }
    tally.print();
    println!("no difference");
    ExitCode::SUCCESS
}

/// What was seen.
#[derive(Default)]
struct Tally {
    kinds: BTreeMap<Kind, u64>,
    refused: BTreeMap<u8, u64>,
    /// Tables that are read, with a rate or price above 255.
    with_high: u64,
    no_route: u64,
    /// Routes, by the number of bits that their number of steps has.
    routes: BTreeMap<u32, u64>,
    with_linger: u64,
    charged_above_255: u64,
    charged_above_65_535: u64,
    /// Tables that were planned with just what the call says that is to be lent.
    as_much_as_said: u64,
    searched: u64,
    gave_up: u64,
    held_to_runs: u64,
    timetables: timetables::Tally,
    forms: forms::Tally,
}

impl Tally {
    fn count(&mut self, kind: Kind, answer: &Answer) {
        *self.kinds.entry(kind).or_default() += 1;
        match answer {
            Answer::Refused(number) => *self.refused.entry(*number).or_default() += 1,
            Answer::NoRoute => self.no_route += 1,
            Answer::Route { charge, steps } => {
                self.charged_above_255 += u64::from(*charge > 255);
                self.charged_above_65_535 += u64::from(*charge > 65_535);
                *self.routes.entry(usize::BITS - steps.len().leading_zeros()).or_default() += 1;
                self.with_linger += u64::from(steps.contains(&65));
            }
        }
    }

    fn print(&self) {
        println!("tables {}", self.kinds.values().sum::<u64>());
        self.kinds.iter().for_each(|(kind, count)| println!("  {kind:?} {count}"));
        println!("with a rate or price above 255: {}", self.with_high);
        self.refused.iter().for_each(|(number, count)| println!("refused {number}: {count}"));
        println!("no route: {}", self.no_route);
        println!("routes: {}", self.routes.values().sum::<u64>());
        for (bits, count) in &self.routes {
            println!("  of {} to {} steps: {count}", 1 << bits >> 1, (1 << bits) - 1);
        }
        println!("  with a linger: {}", self.with_linger);
        println!("  charged above 255: {}", self.charged_above_255);
        println!("  charged above 65,535: {}", self.charged_above_65_535);
        println!("lent as much as lend says: {}", self.as_much_as_said);
        let held = self.searched - self.gave_up;
        println!("held to the paper's algorithm: {held} (it gave up on {} more)", self.gave_up);
        println!("held to runs: {}", self.held_to_runs);
        self.timetables.print();
        self.forms.print();
    }
}

/// Makes every call of one case; an error tells a difference.
fn check_all(case: &Case, tally: &mut Tally) -> Result<(), String> {
    check(case, tally)?;
    timetables::check(case, &mut tally.timetables)?;
    forms::check(case, &mut tally.forms)
}

/// Plans one table with every planner; an error tells a difference.
fn check(case: &Case, tally: &mut Tally) -> Result<(), String> {
    let table = table::read(&case.table).ok();
    let nodes = table.as_ref().map(node_count);
    let is_high = table.as_ref().is_some_and(|table| table.charges().any(|charge| charge > 255));
    let unlimited = dijkstra::plan(&case.table, usize::MAX, usize::MAX);
    let mut random = case.random.clone();
    let needs = needs(&case.table, lend::of(&unlimited, nodes), &mut random)?;
    let as_said = random.one_in(4);
    let (words, route_bytes) = match needs {
        Needs::Memory { words, route_bytes } if as_said => (words, route_bytes),
        _ => (
            lent::words(&mut random, nodes),
            lent::route_bytes(&mut random, Search::Plan, &unlimited),
        ),
    };
    let with_lent = |text| format!("{words} words and {route_bytes} route bytes lent\n{text}");
    let before = Memory::new(Search::Plan, &case.table, words, route_bytes, &mut random);
    let answer = dijkstra::plan(&case.table, words, route_bytes);
    let must = before.clone().after(&answer, zeroed(&answer, nodes));
    let got = before.called();
    if must != got {
        return Err(with_lent(format!("independent: {answer:?}\n{}", must.unlike(&got))));
    }
    if as_said && matches!(answer, Answer::Refused(9 | 10)) {
        return Err(with_lent(format!("as much as was said: {answer:?}")));
    }
    tally.as_much_as_said += u64::from(as_said && matches!(needs, Needs::Memory { .. }));
    tally.with_high += u64::from(is_high);
    tally.count(case.kind, &answer);
    match table {
        Some(table) if answer.is_searched() => {
            hold(&table, case.kind, &unlimited, tally).map_err(with_lent)
        }
        _ => Ok(()),
    }
}

/// How much to lend, by the proved call, if that is what it must be.
fn needs(table: &[u8], must: Needs, random: &mut Random) -> Result<Needs, String> {
    let got = lend::proved(table, random)?;
    if got != must {
        return Err(format!("to lend: must be {must:?}, is {got:?}"));
    }
    Ok(got)
}

/// Holds the answer to the paper's algorithm and, if the table is small, to runs.
fn hold(table: &Table, kind: Kind, answer: &Answer, tally: &mut Tally) -> Result<(), String> {
    tally.searched += 1;
    match paper::least_charge(table, MOST_ROUNDS) {
        Outcome::GaveUp => tally.gave_up += 1,
        outcome if outcome == outcome_of(answer) => (),
        outcome => return Err(format!("the paper's algorithm: {outcome:?}, route: {answer:?}")),
    }
    if kind == Kind::Small {
        tally.held_to_runs += 1;
        runs::check(table, answer)?;
    }
    Ok(())
}

pub fn outcome_of(answer: &Answer) -> Outcome {
    match answer {
        Answer::Route { charge, .. } => Outcome::Charge(*charge),
        _ => Outcome::Unreachable,
    }
}

#[cfg(test)]
mod tests {
    use super::*;

    #[test]
    fn a_few_cases() {
        let mut tally = Tally::default();
        for index in 0..2_000 {
            let case = case(3, index);
            assert_eq!(check_all(&case, &mut tally), Ok(()), "case {index}");
        }
        assert!(tally.refused.keys().copied().eq(1..=10));
        assert!(tally.no_route > 0 && tally.routes.len() > 4 && tally.with_linger > 0);
        assert!(tally.with_high > 300 && tally.charged_above_65_535 > 10);
        assert!(tally.timetables.is_varied());
        assert!(tally.forms.is_varied());
    }
}
