//! A planner called with the memory that it needs, to be measured.

use crate::dijkstra::{self, Answer};
use crate::paper::{self, Outcome};
use crate::search::Search;
use crate::table::read;
use crate::{proved, timetable};
use std::hint::black_box;

/// The route bytes lent, as many as the unit lends.
const ROUTE_BYTES: usize = 256;
/// States that the paper's algorithm takes from WAITING before it gives up: some seconds.
const MOST_ROUNDS: u64 = 20_000_000;

#[derive(Clone, Copy, PartialEq, Eq)]
pub enum Planner {
    Proved,
    Dijkstra,
    Paper,
    /// The proved timetable.
    Timetable,
    /// The independent timetable, which is found in sweeps.
    Sweeps,
}

/// Those that are measured on every table, and those that are on closed ones.
pub const PLANNERS: [Planner; 3] = [Planner::Proved, Planner::Dijkstra, Planner::Paper];
pub const ON_CLOSED: [Planner; 3] = [Planner::Timetable, Planner::Proved, Planner::Sweeps];

impl Planner {
    pub fn name(self) -> &'static str {
        match self {
            Planner::Proved => "proved",
            Planner::Dijkstra => "Dijkstra",
            Planner::Paper => "paper",
            Planner::Timetable => "timetable",
            Planner::Sweeps => "sweeps",
        }
    }

    /// The proved call that it is, if it is one.
    pub fn proved(self) -> Option<Search> {
        match self {
            Planner::Proved => Some(Search::Plan),
            Planner::Timetable => Some(Search::Timetable),
            _ => None,
        }
    }
}

/// A call of a planner, with the memory that it is lent and what came out of it last.
pub struct Call {
    pub planner: Planner,
    bytes: Vec<u8>,
    words: Vec<u32>,
    route: [u8; ROUTE_BYTES],
    /// Of the route, or the timetable's pairs, if a proved call found one.
    pub count: usize,
    /// None if the table was refused, or no call was made yet.
    pub outcome: Option<Outcome>,
}

impl Call {
    pub fn new(planner: Planner, bytes: &[u8], nodes: u64) -> Call {
        Call {
            planner,
            bytes: bytes.to_vec(),
            words: vec![0; 2 * nodes as usize],
            route: [0; ROUTE_BYTES],
            count: 0,
            outcome: None,
        }
    }

    /// Makes the call. The paper's algorithm starts from a table that was read.
    pub fn make(&mut self) {
        let bytes = black_box(&self.bytes);
        let mut proved = |search: Search| {
            let mut charge = 0;
            let (words, route) = (&mut self.words, &mut self.route);
            match search.proved(bytes, words, route, &mut charge, &mut self.count) {
                proved::ROUTE => Some(Outcome::Charge(charge)),
                proved::NO_ROUTE => Some(Outcome::Unreachable),
                _ => None,
            }
        };
        let outcome = match self.planner {
            Planner::Proved => proved(Search::Plan),
            Planner::Timetable => proved(Search::Timetable),
            Planner::Dijkstra => outcome(dijkstra::plan(bytes, self.words.len(), ROUTE_BYTES)),
            Planner::Sweeps => outcome(timetable::plan(bytes, self.words.len(), ROUTE_BYTES)),
            Planner::Paper => {
                read(bytes).ok().map(|table| paper::least_charge(&table, MOST_ROUNDS))
            }
        };
        self.outcome = black_box(outcome);
    }
}

/// None if the table was refused.
fn outcome(answer: Answer) -> Option<Outcome> {
    match answer {
        Answer::Route { charge, .. } => Some(Outcome::Charge(charge)),
        Answer::NoRoute => Some(Outcome::Unreachable),
        Answer::Refused(_) => None,
    }
}
