//! Holds the proved timetables to the independent ones, to the proved planning and to runs: on the
//! tables of the cases, most of them closed, and on some that have long ones.

use crate::closed::{closed, closed_and_even, nearly_closed};
use crate::dijkstra::Answer;
use crate::generate::Case;
use crate::lent;
use crate::long::long;
use crate::memory::{zeroed, Memory};
use crate::proved;
use crate::random::Random;
use crate::replay;
use crate::search::Search;
use crate::table::{node_count, read, Table};
use std::collections::BTreeMap;

/// What was seen.
#[derive(Default)]
pub struct Tally {
    /// Timetables, by the number of bits that their number of pairs has.
    timetables: BTreeMap<u32, u64>,
    /// Of those: with a wait.
    with_wait: u64,
    no_route: u64,
    refused: BTreeMap<u8, u64>,
}

impl Tally {
    fn count(&mut self, answer: &Answer) {
        match answer {
            Answer::Refused(number) => *self.refused.entry(*number).or_default() += 1,
            Answer::NoRoute => self.no_route += 1,
            Answer::Route { steps, .. } => {
                let pairs = Search::Timetable.count(steps);
                *self.timetables.entry(usize::BITS - pairs.leading_zeros()).or_default() += 1;
                self.with_wait += u64::from(steps.iter().step_by(2).any(|&minutes| minutes > 0));
            }
        }
    }

    pub fn print(&self) {
        println!("timetables: {}", self.timetables.values().sum::<u64>());
        for (bits, count) in &self.timetables {
            println!("  of {} to {} pairs: {count}", 1 << bits >> 1, (1 << bits) - 1);
        }
        println!("  with a wait: {}", self.with_wait);
        println!("no timetable: {}", self.no_route);
        for (number, count) in &self.refused {
            println!("timetables refused {number}: {count}");
        }
    }
}

#[cfg(test)]
impl Tally {
    /// Whether every answer was seen.
    pub fn is_varied(&self) -> bool {
        self.refused.keys().copied().eq((1..=10).chain([12]))
            && self.timetables.len() > 6
            && self.with_wait.min(self.no_route) > 50
    }
}

/// Makes a timetable of the case's table; an error tells a difference.
pub fn check(case: &Case, tally: &mut Tally) -> Result<(), String> {
    let mut random = case.random.clone();
    let table = match random.below(100) {
        0..6 => case.table.clone(),
        6..12 => nearly_closed(&case.table, &mut random),
        12 => long(&mut random),
        13..40 => closed_and_even(&case.table, &mut random),
        _ => closed(&case.table),
    };
    check_table(&table, tally, &mut random).map_err(|text| {
        let hex: String = table.iter().map(|byte| format!(" {byte:02x}")).collect();
        format!("timetable of{hex}\n{text}")
    })
}

fn check_table(bytes: &[u8], tally: &mut Tally, random: &mut Random) -> Result<(), String> {
    let search = Search::Timetable;
    let table = read(bytes).ok();
    let nodes = table.as_ref().map(node_count);
    let unlimited = search.independent(bytes, usize::MAX, usize::MAX);
    let words = lent::words(random, nodes);
    let route_bytes = lent::route_bytes(random, search, &unlimited);
    let with_lent = |text| format!("{words} words and {route_bytes} route bytes lent\n{text}");
    let answer = search.independent(bytes, words, route_bytes);
    let before = Memory::new(search, bytes, words, route_bytes, random);
    let must = before.clone().after(&answer, zeroed(&answer, nodes));
    let got = before.called();
    if must != got {
        return Err(with_lent(format!("independent: {answer:?}\n{}", must.unlike(&got))));
    }
    let planned = planned(bytes, words, nodes);
    if !is_as_planned(&answer, &unlimited, &planned) {
        return Err(with_lent(format!("planning: {planned:?}, timetable: {answer:?}")));
    }
    if let (Some(table), Answer::Route { charge, steps }) = (&table, &answer) {
        is_run(table, *charge, steps).map_err(with_lent)?;
    }
    tally.count(&answer);
    Ok(())
}

/// Whether the answer agrees with that of planning, where the same words and enough route bytes are
/// lent: it has the same charge, or there is none.
fn is_as_planned(answer: &Answer, unlimited: &Answer, planned: &Answer) -> bool {
    match (answer, planned) {
        // Planning takes tables with < or >; for their size or for the words it may refuse them.
        (Answer::Refused(12), planned) => !matches!(planned, Answer::Refused(1..=7)),
        (Answer::Refused(1..=9), planned) => planned == answer,
        // Where 10 is given there is a charge too.
        (_, planned) => {
            !matches!(planned, Answer::Refused(_)) && planned.charge() == unlimited.charge()
        }
    }
}

/// What the proved planning answers with so many words and enough route bytes.
fn planned(table: &[u8], words: usize, nodes: Option<u64>) -> Answer {
    let mut words = vec![0; words];
    let mut route = vec![0; nodes.map_or(0, |nodes| nodes as usize - 1)];
    let (mut charge, mut steps) = (0, 0);
    match proved::plan(table, &mut words, &mut route, &mut charge, &mut steps) {
        proved::ROUTE => Answer::Route { charge, steps: route[..steps].to_vec() },
        proved::NO_ROUTE => Answer::NoRoute,
        number => Answer::Refused(number),
    }
}

/// Whether the pairs are a run into the goal that is charged so much.
fn is_run(table: &Table, charge: u32, pairs: &[u8]) -> Result<(), String> {
    match replay::charge(table, pairs) {
        Ok(replayed) if replayed == charge.into() => Ok(()),
        replayed => Err(format!("charged {charge}, the run: {replayed:?}, pairs {pairs:?}")),
    }
}
