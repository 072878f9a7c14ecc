//! How much memory a case is lent.

use crate::dijkstra::Answer;
use crate::random::Random;
use crate::search::Search;

/// Mostly just enough words, else about as many, or the unit's, or few.
pub fn words(random: &mut Random, nodes: Option<u64>) -> usize {
    let small = random.below(200) as usize;
    match nodes.map(|nodes| 2 * nodes as usize) {
        Some(needed) if needed <= 2 * 65_536 => match random.below(20) {
            0 => needed - 1,
            1 => needed + 1 + small,
            2 => needed + 1,
            3 => 6_000,
            4 => 0,
            5 => small,
            _ => needed,
        },
        Some(needed) if random.one_in(8) => needed.min(150_000), // Refused by 8 nevertheless.
        _ => random.pick(&[0, small, small, small, 6_000]),
    }
}

/// Mostly just enough route bytes, else about as many, or the unit's, or none; or, for a timetable, as
/// many as it has pairs.
pub fn route_bytes(random: &mut Random, search: Search, unlimited: &Answer) -> usize {
    let (bytes, count) = match unlimited {
        Answer::Route { steps, .. } => (steps.len(), search.count(steps)),
        _ => (3, 3), // None will be written.
    };
    match random.below(10) {
        0 => bytes.saturating_sub(1),
        1 => bytes + 1 + random.below(40) as usize,
        2 => 0,
        3 | 4 => 256,
        5 => count,
        _ => bytes,
    }
}
