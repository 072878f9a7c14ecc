//! The two calls that search in the memory that they are lent: planning, and the timetable. They are
//! handed the same and answer in the same form.

use crate::dijkstra::{self, Answer};
use crate::proved;
use crate::timetable;

#[derive(Clone, Copy, Debug, PartialEq, Eq)]
pub enum Search {
    Plan,
    Timetable,
}

impl Search {
    /// Calls the proved one. `count` is the number of steps, or of pairs.
    pub fn proved(
        self,
        table: &[u8],
        words: &mut [u32],
        route: &mut [u8],
        charge: &mut u32,
        count: &mut usize,
    ) -> u8 {
        match self {
            Search::Plan => proved::plan(table, words, route, charge, count),
            Search::Timetable => proved::timetable(table, words, route, charge, count),
        }
    }

    /// What the independent one answers.
    pub fn independent(self, table: &[u8], words: usize, route_bytes: usize) -> Answer {
        match self {
            Search::Plan => dijkstra::plan(table, words, route_bytes),
            Search::Timetable => timetable::plan(table, words, route_bytes),
        }
    }

    /// What is found, and what of it is counted.
    pub fn names(self) -> [&'static str; 2] {
        match self {
            Search::Plan => ["route", "steps"],
            Search::Timetable => ["timetable", "pairs"],
        }
    }

    /// The bytes of a step, or of a pair.
    pub fn bytes_each(self) -> usize {
        match self {
            Search::Plan => 1,
            Search::Timetable => 2,
        }
    }

    /// The number of steps or pairs that these bytes are.
    pub fn count(self, bytes: &[u8]) -> usize {
        bytes.len() / self.bytes_each()
    }
}
