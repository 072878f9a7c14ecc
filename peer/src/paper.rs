//! Figure 5 of the 2001 paper as it stands, for the charge only, with the steps of document 01.

use crate::table::{Condition, Table};
use std::collections::VecDeque;

/// What the search of figure 5 comes to.
#[derive(Clone, Copy, Debug, PartialEq, Eq)]
pub enum Outcome {
    /// The least charge into the goal.
    Charge(u32),
    /// No chain of steps ends in the goal.
    Unreachable,
    /// The rounds were used up with states still in WAITING.
    GaveUp,
}

/// The least charge into the goal by figure 5; at most `most_rounds` states are taken from WAITING.
pub fn least_charge(table: &Table, most_rounds: u64) -> Outcome {
    match table.ceilings.len() {
        1 => search::<1>(table, most_rounds),
        2 => search::<2>(table, most_rounds),
        3 => search::<3>(table, most_rounds),
        n => panic!("a table has 1 to 3 timers, not {n}"),
    }
}

/// The region that resets of timers, one after another, make of a region.
pub fn reset(parts: &Parts, timers: &[usize]) -> Result<Parts, String> {
    match parts.whole.len() {
        1 => Region::<1>::of(parts).map(|region| region.reset_all(timers).parts()),
        2 => Region::<2>::of(parts).map(|region| region.reset_all(timers).parts()),
        3 => Region::<3>::of(parts).map(|region| region.reset_all(timers).parts()),
        n => Err(format!("a region has 1 to 3 timers, not {n}")),
    }
}

/// A priced region by its parts: of each timer its whole part and the number of its group, and the
/// prices c0 to ck.
#[derive(Clone, Debug, PartialEq, Eq)]
pub struct Parts {
    pub whole: Vec<u8>,
    pub group: Vec<u8>,
    pub prices: Vec<u32>,
}

/// The prices c0 to ck of a region; those after ck are kept at 0, so that all four can be compared.
/// A sum that does not fit stays at the most that does. No least charge has such a price on its way,
/// as it is less than 2^16 charges of at most 65,535, so how such prices compare changes nothing.
type Prices = [u32; 4];

/// A priced region over N timers (definition 3).
#[derive(Clone, Copy, Debug, PartialEq, Eq)]
struct Region<const N: usize> {
    /// The whole part of each timer.
    whole: [u8; N],
    /// The number i of the group ri that holds each timer.
    group: [u8; N],
    /// k, the number of the last group and of the last price.
    top: u8,
    prices: Prices,
}

impl<const N: usize> Region<N> {
    const START: Self = Region { whole: [0; N], group: [0; N], top: 0, prices: [0; 4] };

    /// The region with these parts, if they are those of one: each group but r0 holds a timer, and
    /// there is one price more than that.
    fn of(parts: &Parts) -> Result<Self, String> {
        let none = || format!("no region: {parts:?}");
        let group: [u8; N] = parts.group[..].try_into().map_err(|_| none())?;
        let top = group.iter().fold(0, |top, &i| top.max(i));
        let is_full = (1..=top).all(|i| group.contains(&i));
        if !is_full || parts.prices.len() != usize::from(top) + 1 {
            return Err(none());
        }
        let mut prices = Prices::default();
        prices[..=top as usize].copy_from_slice(&parts.prices);
        Ok(Region { whole: parts.whole[..].try_into().map_err(|_| none())?, group, top, prices })
    }

    fn parts(&self) -> Parts {
        Parts {
            whole: self.whole.to_vec(),
            group: self.group.to_vec(),
            prices: self.prices[..=self.top as usize].to_vec(),
        }
    }

    fn r0_is_empty(&self) -> bool {
        !self.group.contains(&0)
    }

    /// Definition 5.
    fn delay(mut self, rate: u32) -> Self {
        if self.r0_is_empty() {
            for t in 0..N {
                if self.group[t] == self.top {
                    self.group[t] = 0;
                    self.whole[t] += 1;
                }
            }
            let [_, c1, c2, c3] = self.prices;
            self.prices = [c1, c2, c3, 0];
            self.top -= 1;
        } else {
            for i in &mut self.group {
                *i += 1;
            }
            self.top += 1;
            self.prices[self.top as usize] = self.prices[0].saturating_add(rate);
        }
        self
    }

    /// Definition 8, there called self.
    fn linger(mut self, rate: u32) -> Self {
        if self.r0_is_empty() {
            let (waited, last) = (self.prices[0].saturating_add(rate), self.top as usize);
            self.prices[last] = self.prices[last].min(waited);
        }
        self
    }

    /// Definition 6, for one timer.
    fn reset(mut self, timer: usize) -> Self {
        let i = self.group[timer];
        self.whole[timer] = 0;
        self.group[timer] = 0;
        if i > 0 && !self.group.contains(&i) {
            // The timer was alone in ri: two corners fall together and the later ones move down.
            let low = (self.top - i) as usize;
            self.prices[low] = self.prices[low].min(self.prices[low + 1]);
            self.prices.copy_within(low + 2.., low + 1);
            self.prices[3] = 0;
            for j in &mut self.group {
                *j -= u8::from(*j > i);
            }
            self.top -= 1;
        }
        self
    }

    /// Definition 6, for several timers one after another.
    fn reset_all(self, timers: &[usize]) -> Self {
        timers.iter().fold(self, |region, &timer| region.reset(timer))
    }

    /// Definition 7, there called increment.
    fn charge(mut self, price: u32) -> Self {
        for c in &mut self.prices[..=self.top as usize] {
            *c = c.saturating_add(price);
        }
        self
    }

    /// Definition 4: the smallest corner price.
    fn mincost(&self) -> u32 {
        self.prices[..=self.top as usize].iter().fold(u32::MAX, |least, &c| least.min(c))
    }

    /// Whether all points of the region are in the windows.
    fn meets(&self, windows: &Windows<N>) -> bool {
        (0..N).all(|t| windows[t] >> (2 * self.whole[t] + u8::from(self.group[t] > 0)) & 1 == 1)
    }
}

/// Definition 9 for two priced regions of the same region.
fn at_most(a: &Prices, b: &Prices) -> bool {
    (a[0] <= b[0]) & (a[1] <= b[1]) & (a[2] <= b[2]) & (a[3] <= b[3])
}

/// For each timer where its conditions hold and its ceiling is kept, as bits: bit 2w for the value
/// w, bit 2w + 1 for all values between w and w + 1. A condition's value is whole, so between two
/// whole numbers it holds everywhere or nowhere. Ceilings to 15 take 31 bits.
type Windows<const N: usize> = [u32; N];

fn windows<const N: usize>(conditions: &[Condition], ceilings: &[u32]) -> Windows<N> {
    std::array::from_fn(|t| {
        let meets = |half: u32| {
            conditions.iter().filter(|c| c.timer == t).all(|c| match c.code {
                1 => half < 2 * c.value,
                2 => half <= 2 * c.value,
                3 => half == 2 * c.value,
                4 => half >= 2 * c.value,
                5 => half > 2 * c.value,
                code => panic!("a condition's code is 1 to 5, not {code}"),
            })
        };
        (0..=2 * ceilings[t]).filter(|&half| meets(half)).fold(0, |bits, half| bits | 1 << half)
    })
}

/// Figure 5 over N timers.
fn search<const N: usize>(table: &Table, most_rounds: u64) -> Outcome {
    let modes = &table.modes;
    let inside = |conditions: &[Condition]| windows::<N>(conditions, &table.ceilings);
    let insides: Vec<_> = modes.iter().map(|mode| inside(&mode.conditions)).collect();
    let mut moves_from = vec![Vec::new(); modes.len()];
    for step in &table.moves {
        moves_from[step.from].push((step, inside(&step.conditions)));
    }
    // PASSED has a list for each mode and region, as only priced regions of one region compare.
    // A region's place counts the whole parts up to the ceilings and the group numbers 0 to 3.
    let sizes: [usize; N] = std::array::from_fn(|t| table.ceilings[t] as usize + 1);
    let place = |mode: usize, region: &Region<N>| {
        let cell = (0..N).fold(mode, |at, t| at * sizes[t] + region.whole[t] as usize);
        (0..N).fold(cell, |at, t| at * 4 + region.group[t] as usize)
    };
    // A region gets its list when first passed; until then it has list 0, which stays empty.
    let places = sizes.iter().product::<usize>() * modes.len() * 4usize.pow(N as u32);
    let mut list_of = vec![0u32; places];
    let mut passed: Vec<Vec<Prices>> = vec![Vec::new()];
    let mut waiting = VecDeque::from([(0, Region::<N>::START)]);
    let mut cost = None;
    for _ in 0..most_rounds {
        let Some((mode, region)) = waiting.pop_front() else { break };
        if mode == table.goal && cost.is_none_or(|least| region.mincost() < least) {
            cost = Some(region.mincost());
        }
        let number = &mut list_of[place(mode, &region)];
        if passed[*number as usize].iter().any(|prices| at_most(prices, &region.prices)) {
            continue;
        }
        if *number == 0 {
            *number = passed.len() as u32;
            passed.push(Vec::new());
        }
        // Dropping what the new one is at most of changes nothing: comparison is transitive, so
        // whatever a dropped one would turn away later, the new one turns away too.
        let list = &mut passed[*number as usize];
        list.retain(|prices| !at_most(&region.prices, prices));
        list.push(region.prices);
        for (step, windows) in &moves_from[mode] {
            if region.meets(windows) {
                let next = region.reset_all(&step.resets);
                if next.meets(&insides[step.to]) {
                    waiting.push_back((step.to, next.charge(step.price)));
                }
            }
        }
        let rate = modes[mode].rate;
        let delayed = region.delay(rate);
        if delayed.meets(&insides[mode]) {
            waiting.push_back((mode, delayed));
        }
        waiting.push_back((mode, region.linger(rate)));
    }
    match cost {
        _ if !waiting.is_empty() => Outcome::GaveUp,
        Some(charge) => Outcome::Charge(charge),
        None => Outcome::Unreachable,
    }
}

#[cfg(test)]
pub(crate) mod tests {
    use super::*;
    use crate::table::{Mode, Move};

    pub(crate) fn condition(timer: usize, code: u8, value: u32) -> Vec<Condition> {
        vec![Condition { timer, code, value }]
    }

    pub(crate) fn rates(rates: &[u32]) -> Vec<Mode> {
        rates.iter().map(|&rate| Mode { rate, conditions: vec![] }).collect()
    }

    type Step<'a> = (usize, usize, u32, Vec<Condition>, &'a [usize]);

    fn steps<const E: usize>(steps: [Step; E]) -> Vec<Move> {
        let step = |(from, to, price, conditions, resets): Step| Move {
            from,
            to,
            price,
            conditions,
            resets: resets.to_vec(),
        };
        steps.map(step).to_vec()
    }

    /// T of document 01 with this condition on its last move.
    fn t(code: u8, value: u32) -> Table {
        let moves = steps([(0, 1, 5, vec![], &[]), (1, 2, 1, condition(0, code, value), &[])]);
        Table { goal: 2, ceilings: vec![2], modes: rates(&[3, 1, 0]), moves }
    }

    /// Figure 2 of the paper as appendix B tells it; x, y, z are the timers 0, 1, 2.
    pub(crate) fn figure_2(alpha: u32, beta: u32) -> Table {
        let moves = steps([
            (0, 1, 0, vec![], &[0]),
            (1, 2, 0, vec![], &[1, 2]),
            (2, 2, alpha, vec![], &[1]),
            (2, 3, 0, [condition(0, 4, 2), condition(1, 2, 1)].concat(), &[]),
            (3, 4, 0, condition(2, 4, 3), &[]),
        ]);
        Table { goal: 4, ceilings: vec![4; 3], modes: rates(&[1, 1, 1, beta, 1]), moves }
    }

    /// A table of document 01, its charge, the moves of its route, and how far the least S is above
    /// q × the charge: one q-th has to be waited beyond a strict condition, at some rate.
    pub(crate) type Sample = (Table, Option<u32>, &'static [usize], u64);

    pub(crate) fn samples() -> Vec<Sample> {
        let mut late = t(4, 1);
        late.moves[0].conditions = condition(0, 5, 0);
        let moves = steps([(0, 1, 0, condition(0, 5, 0), &[0])]);
        let two_modes = Table { goal: 1, ceilings: vec![1], modes: rates(&[1, 0]), moves };
        vec![
            (t(5, 1), Some(7), &[0, 1], 1),
            (t(4, 1), Some(7), &[0, 1], 0),
            (t(3, 2), Some(8), &[0, 1], 0),
            (t(5, 2), None, &[0, 1], 0),
            (Table { ceilings: vec![1], ..t(5, 1) }, None, &[0, 1], 0),
            (Table { goal: 0, ..t(5, 1) }, Some(0), &[], 0),
            (Table { modes: rates(&[1, 3, 0]), ..t(4, 1) }, Some(7), &[0, 1], 0),
            (late, Some(7), &[0, 1], 2),
            (two_modes, Some(0), &[0], 1),
        ]
    }

    #[test]
    fn tables_of_document_01() {
        for (table, charge, ..) in samples() {
            let outcome = charge.map_or(Outcome::Unreachable, Outcome::Charge);
            assert_eq!(least_charge(&table, 1000), outcome, "{table:?}");
            assert_eq!(least_charge(&table, 0), Outcome::GaveUp);
        }
        assert_eq!(least_charge(&figure_2(2, 2), u64::MAX), Outcome::Charge(5));
        assert_eq!(least_charge(&figure_2(1, 3), u64::MAX), Outcome::Charge(4));
    }

    #[test]
    fn steps_of_a_region() {
        let start = Region::<2>::START;
        let line = Region { group: [1, 1], top: 1, prices: [0, 3, 0, 0], ..start };
        assert_eq!(start.delay(3), line);
        assert_eq!(line.delay(9), Region { whole: [1, 1], prices: [3, 0, 0, 0], ..start });
        assert_eq!((line.linger(2).prices, line.linger(4)), ([0, 2, 0, 0], line));
        // Timer 1 shares its group, so no corner goes.
        let edge = line.reset(1);
        assert_eq!(edge, Region { group: [1, 0], ..line });
        let plane = edge.delay(1).charge(4);
        assert_eq!(plane, Region { group: [2, 1], top: 2, prices: [4, 7, 5, 0], ..start });
        // Timer 0 alone in r2: c0 and c1 become one. Timer 1 alone in r1: c1 and c2 do.
        assert_eq!(plane.reset(0), Region { group: [0, 1], top: 1, prices: [4, 5, 0, 0], ..start });
        assert_eq!(plane.reset(1), Region { group: [1, 0], top: 1, prices: [4, 5, 0, 0], ..start });
    }
}
