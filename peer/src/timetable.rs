//! The timetable of request N5, over the states of a unit in whole minutes as document 01's "A run of
//! the unit" has them. No regions, no queue and no pairs: from every state what lies between it and the
//! goal is made better, one minute or one move at a time, until nothing changes any more; then the bytes
//! are read off from the start.

use crate::dijkstra::Answer;
use crate::grid::Grid;
use crate::table::{node_count, read, Table};

/// What lies between a state and the goal: the charge first, and then the number of moves, which is the
/// number of pairs.
type Way = (u64, u64);
const NONE: Way = (u64::MAX, u64::MAX);

/// An act that is allowed in a state.
struct Act {
    /// The state that it leads to.
    to: usize,
    length: Way,
    /// The number of the move; None for a wait of one minute.
    made: Option<u8>,
}

/// The acts that are allowed in each state, at mode × points + point: the moves by rising number, and
/// then the minute.
///
/// Several minutes are waited one after another. A mode's conditions let each timer be between two
/// values, so where they hold before a wait and after it they hold in between.
fn acts(table: &Table) -> Vec<Vec<Act>> {
    let grid = Grid::new(table, 1);
    let mut states = Vec::with_capacity(table.modes.len() * grid.points);
    for (mode, point) in (0..table.modes.len()).flat_map(|m| (0..grid.points).map(move |p| (m, p)))
    {
        let mut acts = Vec::new();
        // Nothing follows the last move, so nothing is done in the goal.
        if mode != table.goal && grid.is_allowed(mode, point) {
            let values = grid.values(point);
            for (number, step) in table.moves.iter().enumerate().filter(|(_, s)| s.from == mode) {
                if let Some(to) = grid.moved(step, point, &values) {
                    let (to, length) = (step.to * grid.points + to, (step.price.into(), 1));
                    acts.push(Act { to, length, made: Some(number as u8) });
                }
            }
            if let Some(to) = grid.later(mode, point, &values) {
                let (to, length) = (mode * grid.points + to, (table.modes[mode].rate.into(), 0));
                acts.push(Act { to, length, made: None });
            }
        }
        states.push(acts);
    }
    states
}

/// The way that begins with this act.
fn through(act: &Act, ways: &[Way]) -> Way {
    match ways[act.to] {
        NONE => NONE,
        (charge, moves) => (act.length.0 + charge, act.length.1 + moves),
    }
}

/// The best way from every state: sweeps over all of them, the last mode and the latest point first,
/// until one changes nothing.
fn best(table: &Table, acts: &[Vec<Act>]) -> Vec<Way> {
    let points = acts.len() / table.modes.len();
    let mut ways = vec![NONE; acts.len()];
    ways[table.goal * points..][..points].fill((0, 0));
    let mut is_settled = false;
    while !is_settled {
        is_settled = true;
        for (state, acts) in acts.iter().enumerate().rev() {
            for act in acts {
                let way = through(act, &ways);
                if way < ways[state] {
                    ways[state] = way;
                    is_settled = false;
                }
            }
        }
    }
    ways
}

/// The first bytes of the best ways from the start. Bytes are compared as they come: the minutes of a
/// pair, of which fewer go first, and then its move. So wherever a move begins a best way no minute is
/// waited, and of several such moves the first is made.
fn bytes(acts: &[Vec<Act>], ways: &[Way]) -> Vec<u8> {
    let (mut state, mut minutes, mut bytes) = (0, 0, Vec::new());
    while ways[state].1 > 0 {
        let act = acts[state].iter().find(|act| through(act, ways) == ways[state]);
        let act = act.expect("a way begins with an act");
        match act.made {
            None => minutes += 1,
            Some(number) => bytes.extend([std::mem::take(&mut minutes), number]),
        }
        state = act.to;
    }
    bytes
}

/// Whether every condition is ≤, = or ≥.
fn is_closed(table: &Table) -> bool {
    let modes = table.modes.iter().flat_map(|mode| &mode.conditions);
    let moves = table.moves.iter().flat_map(|step| &step.conditions);
    modes.chain(moves).all(|condition| (2..=4).contains(&condition.code))
}

/// The timetable with so many words and so many route bytes lent.
pub fn plan(table: &[u8], words: usize, route_bytes: usize) -> Answer {
    let table = match read(table) {
        Ok(table) if is_closed(&table) => table,
        Ok(_) => return Answer::Refused(12),
        Err(number) => return Answer::Refused(number),
    };
    let nodes = node_count(&table);
    if nodes > 65_536 {
        return Answer::Refused(8);
    }
    if (words as u64) < 2 * nodes {
        return Answer::Refused(9);
    }
    let acts = acts(&table);
    let ways = best(&table, &acts);
    if ways[0] == NONE {
        return Answer::NoRoute;
    }
    let (charge, pairs) = ways[0];
    let bytes = bytes(&acts, &ways);
    assert_eq!(bytes.len() as u64, 2 * pairs);
    if bytes.len() > route_bytes {
        return Answer::Refused(10);
    }
    let charge = charge.try_into().expect("fewer than 65,536 acts, of at most 65,535");
    Answer::Route { charge, steps: bytes }
}

#[cfg(test)]
mod tests;
