//! Breeds tables that are costly for the proved planner, within what the unit lends.
//!
//! Hill climbing: a small herd of tables, of which one at a time is changed; what is costlier than
//! the cheapest of the herd takes its place. A herd that grows no costlier is left for a new one.

use crate::bench::{grouped, hexadecimal, instructions_of};
use crate::blocks::blocks;
use crate::call::{Call, Planner};
use crate::draft::Draft;
use crate::paper::Outcome;
use crate::random::Random;
use std::path::Path;
use std::process::ExitCode;

const HERD: usize = 8;
/// Tables that are drawn for a herd, of which the costliest begin it.
const DRAWN: u32 = 500;
/// After so many changes by which the costliest of a herd grew by less than a hundredth, a new herd
/// is drawn.
const MOST_FRUITLESS: u64 = 10_000;
/// The bytes in a line of a file of tables/.
const BYTES_IN_LINE: usize = 24;

unsafe extern "C" {
    /// The processor time that this program has taken, in millionths of a second.
    safe fn clock() -> i64;
}

/// A table and what it costs.
#[derive(Clone)]
struct Weighed {
    draft: Draft,
    /// The basic blocks that the proved planner goes through.
    blocks: u64,
    /// None if there is no route.
    steps: Option<usize>,
}

impl Weighed {
    fn line(&self) -> String {
        let steps = self.steps.map_or("no route".into(), |steps| format!("{steps} steps"));
        let (nodes, moves) = (grouped(self.draft.nodes()), self.draft.moves());
        format!("{} blocks: E {nodes}, {moves} moves, {steps}", grouped(self.blocks))
    }
}

/// None if the proved planner refuses the table, which it may for a route that is longer than the
/// bytes lent.
fn weigh(draft: Draft) -> Option<Weighed> {
    let mut call = Call::new(Planner::Proved, &draft.bytes(), draft.nodes());
    let blocks = blocks(|| call.make());
    let steps = match call.outcome? {
        Outcome::Charge(_) => Some(call.count),
        _ => None,
    };
    Some(Weighed { draft, blocks, steps })
}

/// What is bred, and until when.
struct Breeding {
    /// The words that peer was called with.
    called: String,
    /// In processor time.
    ends: i64,
    /// The costliest so far, of all herds.
    worst: Option<Weighed>,
}

impl Breeding {
    fn is_over(&self) -> bool {
        clock() >= self.ends
    }

    /// Weighs a table and lets it into the herd. One that is costlier than all before is told, and
    /// kept in a file, so that it is not lost if the program is stopped.
    fn try_out(&mut self, herd: &mut Vec<Weighed>, draft: Draft) {
        let Some(weighed) = weigh(draft) else { return };
        if self.worst.as_ref().is_none_or(|worst| weighed.blocks > worst.blocks) {
            println!("{}", weighed.line());
            let kept = format!("target/{}.hex", self.called.replace(' ', "-"));
            let written = std::fs::write(kept, file(&weighed, &self.called, &weighed.line()));
            written.expect("the folder target is where run-peer is");
            self.worst = Some(weighed.clone());
        }
        admit(herd, weighed);
    }

    /// Breeds one herd until it grows no costlier, or time is over.
    fn breed(&mut self, timers: u8, random: &mut Random) {
        let mut herd = Vec::new();
        for _ in 0..DRAWN {
            self.try_out(&mut herd, Draft::any(timers, random));
        }
        let (mut grown, mut fruitless) = (0, 0);
        while fruitless < MOST_FRUITLESS && !self.is_over() {
            let child = parent(&herd, random).draft.changed(random);
            self.try_out(&mut herd, child);
            let costliest = herd.iter().map(|weighed| weighed.blocks).max().unwrap_or(0);
            fruitless += 1;
            if costliest > grown + grown / 100 {
                (grown, fruitless) = (costliest, 0);
            }
        }
    }
}

/// Takes a table into a herd that is not full, or in the place of its cheapest if that costs no more.
fn admit(herd: &mut Vec<Weighed>, weighed: Weighed) {
    if herd.len() < HERD {
        herd.push(weighed);
    } else if let Some(cheapest) = herd.iter_mut().min_by_key(|kept| kept.blocks) {
        if weighed.blocks >= cheapest.blocks {
            *cheapest = weighed;
        }
    }
}

/// The costlier of any two.
fn parent<'a>(herd: &'a [Weighed], random: &mut Random) -> &'a Weighed {
    let [one, other] = [(); 2].map(|()| &herd[random.below(herd.len() as u64) as usize]);
    if one.blocks >= other.blocks {
        one
    } else {
        other
    }
}

/// Breeds for so many seconds, tables of so many timers or of any number, and prints the costliest.
/// What is bred depends on the seed only, but for where it ends.
pub fn run(seed: u64, seconds: u32, timers: Option<u8>) -> ExitCode {
    let words = timers.map_or(String::new(), |timers| format!(" {timers}"));
    let called = format!("peer worst {seed} {seconds}{words}");
    let mut breeding = Breeding { called, ends: 1_000_000 * i64::from(seconds), worst: None };
    for herd in 0.. {
        if breeding.is_over() {
            break;
        }
        let mut random = Random::new(seed, herd);
        let any = random.within(1, 3);
        breeding.breed(timers.unwrap_or(any), &mut random);
    }
    if let Some(worst) = &breeding.worst {
        print!("{}", file(worst, &breeding.called, &cost_told(worst)));
    }
    ExitCode::SUCCESS
}

/// What a table costs, in words, with valgrind's count if the ordinary build of peer is told.
fn cost_told(worst: &Weighed) -> String {
    let line = worst.line();
    let bytes = worst.draft.bytes();
    let ordinary = std::env::var_os("ORDINARY_PEER");
    let count =
        ordinary.and_then(|peer| instructions_of(Path::new(&peer), &bytes, Planner::Proved));
    count.map_or(line.clone(), |count| format!("{} instructions, {line}", grouped(count)))
}

/// The table as a file of tables/, with the call that bred it and what it costs.
fn file(worst: &Weighed, called: &str, cost: &str) -> String {
    let (bytes, told) = (worst.draft.bytes(), worst.draft.told());
    let lines: Vec<String> = bytes.chunks(BYTES_IN_LINE).map(hexadecimal).collect();
    let lines = lines.join("\n");
    format!(
        "# A costly table within the unit's limit, bred by `{called}`: {told}.\n# {cost}.\n{lines}\n"
    )
}

#[cfg(test)]
mod tests {
    use super::*;
    use crate::bench::bytes;

    fn drawn(blocks: u64) -> Weighed {
        let draft = Draft::any(2, &mut Random::new(1, 1));
        Weighed { draft, blocks, steps: None }
    }

    #[test]
    fn a_file_has_the_table_and_how_it_was_bred() {
        let worst = drawn(7_000);
        let text = file(&worst, "peer worst 4 60 2", &worst.line());
        assert_eq!(bytes(&text), worst.draft.bytes());
        assert!(text.contains("`peer worst 4 60 2`"), "{text}");
        assert!(text.contains("7,000 blocks"), "{text}");
        assert!(text.lines().all(|line| line.len() <= 120), "{text}");
    }

    #[test]
    fn the_costlier_is_changed() {
        let herd = [5, 2, 9].map(drawn);
        let mut random = Random::new(2, 0);
        let costs: Vec<u64> = (0..300).map(|_| parent(&herd, &mut random).blocks).collect();
        let times = |cost| costs.iter().filter(|&&other| other == cost).count();
        assert!(times(9) > times(5) && times(5) > times(2));
    }

    #[test]
    fn a_herd_is_of_the_costliest() {
        let (mut herd, mut random) = (Vec::new(), Random::new(3, 0));
        let mut costs: Vec<u64> = (0..200).map(|_| random.below(1_000)).collect();
        costs.iter().for_each(|&cost| admit(&mut herd, drawn(cost)));
        let mut kept: Vec<u64> = herd.iter().map(|weighed| weighed.blocks).collect();
        costs.sort();
        kept.sort();
        assert_eq!(kept, costs[costs.len() - HERD..]);
    }

    #[cfg(feature = "counted")]
    #[test]
    fn a_table_costs_the_same_every_time() {
        let cost = || weigh(Draft::any(2, &mut Random::new(4, 0))).map(|weighed| weighed.blocks);
        assert!(cost() > Some(1_000), "{:?}", cost());
        assert_eq!(cost(), cost());
    }
}
