//! The least charge over runs with delays in q-ths, by going through the states of the unit that
//! document 01 calls "in whole numbers". No regions.

use crate::table::{Condition, Move, Table};
use std::cmp::Reverse;
use std::collections::BinaryHeap;

/// The least charge S, in q-ths, over the runs into the goal whose delays are q-ths; None if there
/// is none.
///
/// Dijkstra's method. Two waits in a row are one longer wait: it ends in the same state, so it is
/// allowed as the second one is, and costs the same. So waits are taken from the start and from
/// states that were reached by a move only.
pub fn least(table: &Table, q: u32) -> Option<u64> {
    let grid = Grid::new(table, q);
    let states = table.modes.len() * grid.points;
    let mut charges = vec![u64::MAX; states];
    let mut by_wait = vec![false; states];
    let mut moves_from = vec![Vec::new(); table.modes.len()];
    for step in &table.moves {
        moves_from[step.from].push(step);
    }
    charges[0] = 0;
    let mut open = BinaryHeap::from([Reverse((0, 0))]);
    while let Some(Reverse((charge, state))) = open.pop() {
        if charge > charges[state] {
            continue;
        }
        let (mode, point, waited) = (state / grid.points, state % grid.points, by_wait[state]);
        if mode == table.goal {
            return Some(charge);
        }
        let mut reach = |next: usize, charge: u64, by: bool| {
            if charge < charges[next] {
                charges[next] = charge;
                by_wait[next] = by;
                open.push(Reverse((charge, next)));
            }
        };
        let values = grid.values(point);
        for &step in &moves_from[mode] {
            if let Some(to) = grid.moved(step, point, &values) {
                reach(step.to * grid.points + to, charge + grid.price(step), false);
            }
        }
        if !waited {
            grid.waits(mode, point, |to, wait| reach(mode * grid.points + to, charge + wait, true));
        }
    }
    None
}

/// The least charge S, in q-ths, over the runs into the goal whose delays are q-ths and that make
/// exactly these moves in their order; None if there is none.
pub fn least_along(table: &Table, q: u32, moves: &[usize]) -> Option<u64> {
    let grid = Grid::new(table, q);
    let mut mode = 0;
    // The least charge of each point right after the moves so far.
    let mut arrived = vec![u64::MAX; grid.points];
    arrived[0] = 0;
    for &number in moves {
        let step = table.moves.get(number).filter(|step| step.from == mode)?;
        // One wait or none stands for all waits between two moves, as in `least`.
        let mut waited = arrived.clone();
        for (point, &charge) in reached(&arrived) {
            grid.waits(mode, point, |to, wait| waited[to] = waited[to].min(charge + wait));
        }
        arrived.fill(u64::MAX);
        for (point, &charge) in reached(&waited) {
            if let Some(to) = grid.moved(step, point, &grid.values(point)) {
                arrived[to] = arrived[to].min(charge + grid.price(step));
            }
        }
        mode = step.to;
    }
    // A wait after the last move leads from such a point only and charges no less.
    reached(&arrived).map(|(_, &charge)| charge).min().filter(|_| mode == table.goal)
}

/// The points with a charge.
fn reached(charges: &[u64]) -> impl Iterator<Item = (usize, &u64)> {
    charges.iter().enumerate().filter(|(_, &charge)| charge != u64::MAX)
}

/// The points of a table: a value in q-ths for each timer, 0 to its ceiling, in one number. The start's
/// is 0.
pub struct Grid<'a> {
    table: &'a Table,
    q: u32,
    /// The number of points.
    pub points: usize,
    /// What one q-th of each timer adds to a point.
    strides: Vec<usize>,
    /// Whether a mode's conditions hold in a point, at mode × points + point.
    holds: Vec<bool>,
}

/// The values of the timers in q-ths.
pub type Values = [u32; 3];

impl<'a> Grid<'a> {
    pub fn new(table: &'a Table, q: u32) -> Self {
        let mut points = 1;
        let mut strides = Vec::new();
        for ceiling in &table.ceilings {
            strides.push(points);
            points *= (ceiling * q) as usize + 1;
        }
        let mut grid = Grid { table, q, points, strides, holds: Vec::new() };
        let mut holds = Vec::with_capacity(table.modes.len() * points);
        for mode in &table.modes {
            holds.extend((0..points).map(|point| grid.hold(&mode.conditions, &grid.values(point))));
        }
        grid.holds = holds;
        grid
    }

    pub fn values(&self, point: usize) -> Values {
        let mut values = [0; 3];
        let mut rest = point;
        for (value, ceiling) in values.iter_mut().zip(&self.table.ceilings) {
            let size = (ceiling * self.q) as usize + 1;
            *value = (rest % size) as u32;
            rest /= size;
        }
        values
    }

    fn hold(&self, conditions: &[Condition], values: &Values) -> bool {
        conditions.iter().all(|condition| {
            let (value, limit) = (values[condition.timer], condition.value * self.q);
            match condition.code {
                1 => value < limit,
                2 => value <= limit,
                3 => value == limit,
                4 => value >= limit,
                5 => value > limit,
                code => panic!("a condition's code is 1 to 5, not {code}"),
            }
        })
    }

    fn price(&self, step: &Move) -> u64 {
        u64::from(step.price) * u64::from(self.q)
    }

    /// Whether the mode may be in this point: its conditions hold there.
    pub fn is_allowed(&self, mode: usize, point: usize) -> bool {
        self.holds[mode * self.points + point]
    }

    /// Where the move leads from this point of its from mode, if it is allowed.
    pub fn moved(&self, step: &Move, point: usize, values: &Values) -> Option<usize> {
        if !self.hold(&step.conditions, values) {
            return None;
        }
        let back: usize = step.resets.iter().map(|&t| values[t] as usize * self.strides[t]).sum();
        Some(point - back).filter(|&to| self.is_allowed(step.to, to))
    }

    /// Where a wait of one q-th leads from this point, if it is allowed.
    pub fn later(&self, mode: usize, point: usize, values: &Values) -> Option<usize> {
        let mut ceilings = self.table.ceilings.iter().zip(values);
        if ceilings.any(|(ceiling, &value)| value == ceiling * self.q) {
            return None;
        }
        Some(point + self.tick()).filter(|&to| self.is_allowed(mode, to))
    }

    /// What one q-th of every timer adds to a point.
    fn tick(&self) -> usize {
        self.strides.iter().sum()
    }

    /// Hands on every allowed wait of one q-th or more: the point it leads to and its charge.
    fn waits(&self, mode: usize, point: usize, mut hand_on: impl FnMut(usize, u64)) {
        let values = self.values(point);
        let room = self.table.ceilings.iter().zip(values).map(|(c, v)| c * self.q - v).min();
        let rate = u64::from(self.table.modes[mode].rate);
        for d in 1..=room.unwrap_or(0) {
            let to = point + d as usize * self.tick();
            if self.is_allowed(mode, to) {
                hand_on(to, u64::from(d) * rate);
            }
        }
    }
}

#[cfg(test)]
mod tests {
    use super::*;
    use crate::paper::tests::{condition, figure_2, rates, samples};
    use crate::paper::{least_charge, Outcome};

    #[test]
    fn tables_of_document_01() {
        for (table, charge, route, over) in samples() {
            for q in [1, 2, 3, 4, 8, 16, 32] {
                // So S is at least q × the charge, and S / q comes nearer to it as q grows.
                let s = charge.map(|c| u64::from(q) * u64::from(c) + over);
                assert_eq!(least(&table, q), s, "q {q}, {table:?}");
                assert_eq!(least_along(&table, q, route), s, "q {q}, {table:?}");
            }
        }
        for q in 1..=4 {
            assert_eq!(least(&figure_2(2, 2), q), Some(5 * u64::from(q)));
            assert_eq!(least_along(&figure_2(2, 2), q, &[0, 1, 2, 3, 4]), Some(5 * u64::from(q)));
            assert_eq!(least_along(&figure_2(2, 2), q, &[0, 1, 3, 4]), Some(6 * u64::from(q)));
            assert_eq!(least(&figure_2(1, 3), q), Some(4 * u64::from(q)));
        }
    }

    #[test]
    fn moves_that_make_no_run() {
        let (table, ..) = samples().swap_remove(0);
        for moves in [&[][..], &[0], &[1], &[0, 0], &[0, 1, 1], &[2]] {
            assert_eq!(least_along(&table, 4, moves), None);
        }
    }

    /// A small table from a seed, with one or two timers.
    fn drawn(seed: u64) -> Table {
        let mut state = seed.wrapping_mul(0x9E37_79B9_7F4A_7C15) | 1;
        let mut draw = |below: u64| {
            state = state.wrapping_mul(6_364_136_223_846_793_005).wrapping_add(1);
            ((state >> 33) % below) as u32
        };
        let ceilings: Vec<u32> = (0..1 + draw(2)).map(|_| 1 + draw(2)).collect();
        let timers = ceilings.len() as u64;
        let mut modes = rates(&[draw(6), draw(6), 0]);
        modes[1].conditions = condition(draw(timers) as usize, 1 + draw(2) as u8, 1 + draw(2));
        let moves = (0..4).map(|_| {
            let (from, to, price) = (draw(2) as usize, draw(3) as usize, draw(4));
            let mut conditions = vec![];
            for _ in 0..draw(3) {
                conditions.extend(condition(draw(timers) as usize, 1 + draw(5) as u8, draw(3)));
            }
            let resets = (0..timers as usize).filter(|_| draw(2) == 0).collect();
            Move { from, to, price, conditions, resets }
        });
        let moves = moves.collect();
        Table { goal: 2, ceilings, modes, moves }
    }

    /// Figure 5 and the runs in q-ths bear each other out on drawn tables. From 8-ths on there is a
    /// run wherever there is a charge, and none is more than 5 q-ths above it, as seen here.
    #[test]
    fn drawn_tables() {
        let mut charged = 0;
        for seed in 0..300 {
            let table = drawn(seed);
            let outcome = least_charge(&table, u64::MAX);
            for q in [1, 3, 8, 24] {
                match (outcome, least(&table, q)) {
                    (Outcome::Charge(c), Some(s)) => {
                        let exact = u64::from(q) * u64::from(c);
                        assert!(s >= exact && (q < 8 || s - exact <= 5), "{s} {exact} {table:?}");
                        charged += 1;
                    }
                    // Strict conditions may need a finer grid than this one.
                    (Outcome::Charge(_), None) => assert!(q < 8, "{table:?}"),
                    (_, found) => assert_eq!(found, None, "{table:?}"),
                }
            }
        }
        assert!(charged > 300);
    }
}
