//! The least charge and the route, by Dijkstra's algorithm on an explicit graph of corners.
//!
//! Every operation on a priced region makes each new price out of old prices plus a charge, and
//! takes the smaller where there are two. So the price at a corner, after a chain, is the least
//! total charge of a path of single corners along that chain, and the route is the least charged
//! path of corners into the goal mode with fewest steps and then the first bytes.

use crate::table::{node_count, read, Condition, Table};
use std::cmp::Reverse;
use std::collections::BinaryHeap;

/// What a plan comes to.
#[derive(Clone, Debug, PartialEq, Eq)]
pub enum Answer {
    /// Refused, by the number of the refusal.
    Refused(u8),
    /// No chain comes into the goal.
    NoRoute,
    /// The least charge, and the route's bytes; of a timetable the bytes of its pairs.
    Route { charge: u32, steps: Vec<u8> },
}

impl Answer {
    /// Whether it is given after a search.
    pub fn is_searched(&self) -> bool {
        !matches!(self, Answer::Refused(1..=9 | 12))
    }

    /// The least charge, if something was found.
    pub fn charge(&self) -> Option<u32> {
        match self {
            Answer::Route { charge, .. } => Some(*charge),
            _ => None,
        }
    }
}

const DELAY: u8 = 64;
const LINGER: u8 = 65;
const MOST_TIMERS: usize = 3;
const MOST_CORNERS: usize = 4;

/// For each timer, the values that its conditions let pass: bit 2w is the whole value w, and
/// bit 2w + 1 all that lies between w and w + 1. A region is never in part inside one of these.
type Window = [u32; MOST_TIMERS];

fn window(conditions: &[Condition]) -> Window {
    let mut window = [u32::MAX; MOST_TIMERS];
    for condition in conditions {
        let value = 1u32 << (2 * condition.value); // The bit of the value itself.
        let below = value - 1;
        window[condition.timer] &= match condition.code {
            1 => below,
            2 => below | value,
            3 => value,
            4 => !below,
            _ => !(below | value),
        };
    }
    window
}

/// A region without its prices. Absent timers stay at 0.
#[derive(Clone, Copy)]
struct Region {
    whole: [u8; MOST_TIMERS],
    /// The number of the group, 0 to k, that each timer is in.
    group: [u8; MOST_TIMERS],
    k: u8,
}

/// Where a step leads each corner, by number, or GONE.
type Corners = [u8; MOST_CORNERS];
const GONE: u8 = u8::MAX;
const STAY: Corners = [0, 1, 2, 3];

impl Region {
    const START: Region = Region { whole: [0; MOST_TIMERS], group: [0; MOST_TIMERS], k: 0 };

    fn meets(&self, window: &Window) -> bool {
        (0..MOST_TIMERS)
            .all(|t| window[t] >> (2 * self.whole[t] + (self.group[t] > 0) as u8) & 1 == 1)
    }

    fn r0_is_empty(&self, timers: usize) -> bool {
        !self.group[..timers].contains(&0)
    }

    fn delay(mut self, timers: usize) -> Region {
        if self.r0_is_empty(timers) {
            for t in 0..timers {
                if self.group[t] == self.k {
                    self.group[t] = 0;
                    self.whole[t] += 1;
                }
            }
            self.k -= 1;
        } else {
            self.group[..timers].iter_mut().for_each(|group| *group += 1);
            self.k += 1;
        }
        self
    }

    /// Resets one timer and sends on the corners that earlier resets of the same move led to.
    fn reset(&mut self, timer: usize, corners: &mut Corners) {
        let i = self.group[timer];
        self.whole[timer] = 0;
        self.group[timer] = 0;
        if i > 0 && self.group.iter().all(|&group| group != i) {
            // It was alone: c(k-i+1) falls on c(k-i), and what comes after moves down.
            corners.iter_mut().for_each(|corner| *corner -= u8::from(*corner > self.k - i));
            self.group.iter_mut().for_each(|group| *group -= u8::from(*group > i));
            self.k -= 1;
        }
    }
}

/// A step from one corner to another. Refusal 8 sees to it that a node's number fits.
#[derive(Clone, Copy)]
struct Edge {
    to: u16,
    charge: u16,
    byte: u8,
}

/// The corners of all places (mode and region) that chains come to. The start's is node 0.
#[derive(Default)]
struct Graph {
    /// The edges, by the node that they leave.
    edges: Vec<Edge>,
    /// Where in `edges` those of a node begin.
    begins: Vec<u32>,
    in_goal: Vec<bool>,
}

impl Graph {
    fn edges_of(&self, node: u16) -> &[Edge] {
        let end =
            self.begins.get(node as usize + 1).map_or(self.edges.len(), |&begin| begin as usize);
        &self.edges[self.begins[node as usize] as usize..end]
    }
}

struct Place {
    mode: usize,
    region: Region,
}

/// The places found, in the order of their corners' numbers.
struct Places {
    found: Vec<Place>,
    corners: u32,
    /// The node of a place's corner 0, by the place's key.
    first: Vec<u32>,
    ceilings: Vec<u32>,
}

impl Places {
    const UNSEEN: u32 = u32::MAX;

    /// The node of corner 0 of a place, which is put down if it is new.
    fn node(&mut self, mode: usize, region: Region) -> u16 {
        let mut key = mode;
        for (t, &ceiling) in self.ceilings.iter().enumerate() {
            key = key * (ceiling as usize + 1) + region.whole[t] as usize;
            key = key * MOST_CORNERS + region.group[t] as usize;
        }
        if self.first[key] == Self::UNSEEN {
            self.first[key] = self.corners;
            self.corners += u32::from(region.k) + 1;
            self.found.push(Place { mode, region });
        }
        self.first[key] as u16
    }
}

/// Explores the places forwards from the start, each once.
fn explore(table: &Table) -> Graph {
    let timers = table.ceilings.len();
    let mut modes: Vec<Window> = table.modes.iter().map(|mode| window(&mode.conditions)).collect();
    for (t, &ceiling) in table.ceilings.iter().enumerate() {
        let at_most = window(&[Condition { timer: t, code: 2, value: ceiling }]);
        modes.iter_mut().for_each(|mode| mode[t] &= at_most[t]);
    }
    let moves: Vec<Window> = table.moves.iter().map(|step| window(&step.conditions)).collect();
    let mut moves_from = vec![Vec::new(); table.modes.len()];
    for (number, step) in table.moves.iter().enumerate() {
        moves_from[step.from].push(number);
    }

    let cells: usize = table.ceilings.iter().map(|&ceiling| ceiling as usize + 1).product();
    let keys = table.modes.len() * cells * MOST_CORNERS.pow(timers as u32);
    let first = vec![Places::UNSEEN; keys];
    let mut places =
        Places { found: Vec::new(), corners: 0, first, ceilings: table.ceilings.clone() };
    let mut graph = Graph::default();
    // The steps from one place: an edge to corner 0 of where it leads, and where each corner goes.
    let mut steps: Vec<(Edge, Corners)> = Vec::new();
    places.node(0, Region::START);
    let mut here = 0; // The node of corner 0 of the place in hand.
    let mut next = 0;
    while let Some(&Place { mode, region }) = places.found.get(next) {
        next += 1;
        steps.clear();
        let k = region.k;
        // A chain that goes on from the goal mode is never the route, as what it has done so far
        // has fewer steps and is charged no more.
        if mode != table.goal {
            let rate = table.modes[mode].rate as u16;
            let later = region.delay(timers);
            let r0_is_empty = region.r0_is_empty(timers);
            if later.meets(&modes[mode]) {
                let to = places.node(mode, later);
                let edge = Edge { to, charge: 0, byte: DELAY };
                if r0_is_empty {
                    steps.push((edge, [GONE, 0, 1, 2]));
                } else {
                    steps.push((edge, STAY));
                    steps.push((Edge { charge: rate, ..edge }, [k + 1, GONE, GONE, GONE]));
                }
            }
            // Linger also leaves every corner where it is. Such an edge is left out: without
            // that step the chain comes to the same places with the corner at the same price,
            // so no path with fewest steps has it.
            if r0_is_empty {
                let edge = Edge { to: here, charge: rate, byte: LINGER };
                steps.push((edge, [k, GONE, GONE, GONE]));
            }
            for &number in &moves_from[mode] {
                if !region.meets(&moves[number]) {
                    continue;
                }
                let step = &table.moves[number];
                let (mut after, mut corners) = (region, STAY);
                step.resets.iter().for_each(|&timer| after.reset(timer, &mut corners));
                if after.meets(&modes[step.to]) {
                    let to = places.node(step.to, after);
                    let edge = Edge { to, charge: step.price as u16, byte: number as u8 };
                    steps.push((edge, corners));
                }
            }
        }
        for corner in 0..=k as usize {
            graph.begins.push(graph.edges.len() as u32);
            graph.in_goal.push(mode == table.goal);
            let leading = steps.iter().filter(|(_, corners)| corners[corner] != GONE);
            graph.edges.extend(
                leading.map(|&(edge, corners)| Edge {
                    to: edge.to + u16::from(corners[corner]),
                    ..edge
                }),
            );
        }
        here = graph.begins.len() as u16;
    }
    graph
}

/// Charge and number of steps in one number that orders by charge first. A best path meets no node
/// twice, so it has fewer than 2^16 steps of at most 65,535: 16 bits for the steps and 32 for the
/// charge leave 16 for a node. A step more, from the end of such a path, stays below 2^48 too, and
/// leads back to a node that is nearer.
type Distance = u64;
const CHARGE: u32 = 16;
const UNREACHED: Distance = Distance::MAX;

impl Edge {
    fn length(&self) -> Distance {
        Distance::from(self.charge) << CHARGE | 1
    }
}

/// Dijkstra's algorithm up to the first node in the goal mode: the distances, the nodes before it
/// in the order they were settled, and the least distance into the goal.
fn search(graph: &Graph) -> Option<(Vec<Distance>, Vec<u16>, Distance)> {
    let mut distance = vec![UNREACHED; graph.begins.len()];
    let mut settled = Vec::new();
    // An entry is a distance, then 16 bits for the node.
    let mut heap = BinaryHeap::from([Reverse(0u64)]);
    distance[0] = 0;
    while let Some(Reverse(entry)) = heap.pop() {
        let (so_far, node) = (entry >> 16, entry as u16);
        if so_far > distance[node as usize] {
            continue; // A shorter way was found after this was put down.
        }
        if graph.in_goal[node as usize] {
            return Some((distance, settled, so_far));
        }
        settled.push(node);
        for edge in graph.edges_of(node) {
            let through = so_far + edge.length();
            let known = &mut distance[edge.to as usize];
            if through < *known {
                *known = through;
                heap.push(Reverse(through << 16 | u64::from(edge.to)));
            }
        }
    }
    None
}

/// The first in byte order of the best paths into the goal mode.
fn route(graph: &Graph, distance: &[Distance], settled: &[u16], best: Distance) -> Vec<u8> {
    // Every node before the goal on a best path is nearer than the goal, so it is settled, and
    // its edges on best paths lead to nodes that were settled later or are in the goal.
    let mut on_best: Vec<bool> =
        (0..distance.len()).map(|node| graph.in_goal[node] && distance[node] == best).collect();
    let keeps = |on_best: &[bool], from: u16, edge: &Edge| {
        on_best[edge.to as usize]
            && distance[from as usize] + edge.length() == distance[edge.to as usize]
    };
    for &node in settled.iter().rev() {
        on_best[node as usize] =
            graph.edges_of(node).iter().any(|edge| keeps(&on_best, node, edge));
    }
    // The bytes chosen so far fix the place, so these are at most four corners of one place.
    let (mut at, mut next) = (vec![0u16], Vec::new());
    let mut steps = Vec::new();
    while !graph.in_goal[at[0] as usize] {
        let mut least = u8::MAX;
        for &node in &at {
            for edge in graph.edges_of(node).iter().filter(|edge| keeps(&on_best, node, edge)) {
                if edge.byte < least {
                    least = edge.byte;
                    next.clear();
                }
                if edge.byte == least && !next.contains(&edge.to) {
                    next.push(edge.to);
                }
            }
        }
        steps.push(least);
        std::mem::swap(&mut at, &mut next);
        next.clear();
    }
    steps
}

/// Plans with so many words and so many route bytes lent.
pub fn plan(bytes: &[u8], words: usize, route_bytes: usize) -> Answer {
    let table = match read(bytes) {
        Ok(table) => table,
        Err(number) => return Answer::Refused(number),
    };
    let nodes = node_count(&table);
    if nodes > 65_536 {
        return Answer::Refused(8);
    }
    if (words as u64) < 2 * nodes {
        return Answer::Refused(9);
    }
    let graph = explore(&table);
    let Some((distance, settled, best)) = search(&graph) else {
        return Answer::NoRoute;
    };
    let steps = route(&graph, &distance, &settled, best);
    if steps.len() > route_bytes {
        return Answer::Refused(10);
    }
    Answer::Route { charge: (best >> CHARGE) as u32, steps }
}

#[cfg(test)]
mod tests;
