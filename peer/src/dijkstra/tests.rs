use super::*;
use crate::table::{Mode, Move};
use std::collections::BTreeMap;

/// T of document 01.
const T: [u8; 19] = [3, 1, 2, 2, 2, 1, 3, 1, 1, 0, 1, 0, 1, 5, 3, 1, 2, 1, 0x51];

/// T with some bytes changed.
fn t_with(changes: &[(usize, u8)]) -> Vec<u8> {
    let mut bytes = T.to_vec();
    changes.iter().for_each(|&(at, byte)| bytes[at] = byte);
    bytes
}

fn came(charge: u32, steps: &[u8]) -> Answer {
    Answer::Route { charge, steps: steps.to_vec() }
}

#[test]
fn marked_tables() {
    let over_0 = [&T[..10], &[3, 0, 1, 5, 0x50], &T[14..18], &[0x41]].concat();
    for (bytes, answer) in [
        (T.to_vec(), came(7, &[0, 64, 64, 64, 1])),
        (t_with(&[(18, 0x41)]), came(7, &[0, 64, 64, 1])),
        (t_with(&[(18, 0x32)]), came(8, &[0, 64, 64, 64, 64, 1])),
        (t_with(&[(18, 0x52)]), Answer::NoRoute),
        (t_with(&[(4, 1)]), Answer::NoRoute),
        (t_with(&[(3, 0)]), came(0, &[])),
        (t_with(&[(6, 1), (8, 3), (18, 0x41)]), came(7, &[64, 0, 64, 1])),
        (over_0, came(7, &[64, 0, 65, 64, 1])),
        (vec![2, 1, 1, 1, 1, 1, 1, 0, 0x82, 0, 1, 0x50, 1], came(0, &[64, 0])),
    ] {
        assert_eq!(plan(&bytes, 6_000, 256), answer, "{bytes:x?}");
    }
}

#[test]
fn refusals() {
    let left_over = [&T[..], &[0]].concat();
    let large = [&[16, 3, 0, 0, 6, 3, 1][..], &[0; 16]].concat();
    let cases: [(&[u8], usize, usize); 10] = [
        (&[], 6_000, 256),
        (&[0], 6_000, 256),
        (&[1, 1, 0, 0, 1, 0x04], 6_000, 256),
        (&[1, 1, 0, 0, 1, 2, 0], 6_000, 256),
        (&[1, 1, 1, 0, 1, 0, 0, 1], 6_000, 256),
        (&left_over, 6_000, 256),
        (&[1, 1, 0, 0, 1, 2, 0x41], 6_000, 256),
        (&large, 1_000_000, 256),
        (&T, 53, 256),
        (&T, 54, 4),
    ];
    for (number, (bytes, words, route_bytes)) in (1..).zip(cases) {
        assert_eq!(plan(bytes, words, route_bytes), Answer::Refused(number));
    }
    // A high byte is missing.
    assert_eq!(plan(&[1, 1, 0, 0, 1, 0x80], 6_000, 256), Answer::Refused(1));
    // 8 and 9 go before the search, 10 needs a route, and 8 goes before 9.
    assert_eq!(plan(&large, 0, 0), Answer::Refused(8));
    assert_eq!(plan(&t_with(&[(18, 0x52)]), 53, 0), Answer::Refused(9));
    assert_eq!(plan(&t_with(&[(18, 0x52)]), 54, 0), Answer::NoRoute);
    assert_eq!(plan(&T, 54, 5), came(7, &[0, 64, 64, 64, 1]));
}

#[test]
fn the_largest_tables() {
    let bytes = [&[16, 3, 0, 0, 2, 2, 5][..], &[0; 16]].concat();
    assert_eq!(node_count(&read(&bytes).unwrap()), 64_800);
    assert_eq!(plan(&bytes, 129_600, 0), came(0, &[]));
    assert_eq!(plan(&bytes, 129_599, 0), Answer::Refused(9));
    let bytes = [&[16, 3, 0, 0, 6, 3, 1][..], &[0; 16]].concat();
    assert_eq!(node_count(&read(&bytes).unwrap()), 67_200);
}

/// Figure 2: x is reset on the way to B, y and z on the way to C, y by C's loop; D is entered
/// with x at least 2 and y at most 1, E with z at least 3.
#[test]
fn figure_2() {
    for (alpha, beta, least) in [(2, 2, 5), (1, 3, 4), (9, 1, 4), (9, 3, 8)] {
        let bytes = [
            5, 3, 5, 4, 4, 4, 4, 1, 1, 1, 1, 1, 1, 1, beta, 1, 1, // modes A to E
            0x80, 0, 1, 0x01, 0x80, 1, 2, 0x06, // to B, to C
            0x81, 2, 2, alpha, 0x02, // the loop
            0x06, 2, 3, 0x42, 0x21, 0x08, 3, 4, 0x43, // to D, to E
        ];
        let Answer::Route { charge, .. } = plan(&bytes, 93_750, 256) else { panic!() };
        assert_eq!(charge, least, "prices {alpha} and {beta}");
    }
}

/// T with rates and prices a multiple of what they are: it is the charge's, and the route stays.
#[test]
fn high_bytes() {
    for grain in [256, 300, 13_107] {
        let [three, five, one] = [3, 5, 1].map(|grains: u16| (grains * grain).to_le_bytes());
        let bytes = [
            &[3, 1, 2, 2, 2, 0x81, three[0], three[1], 0x81, one[0], one[1], 0],
            &[0x81, 0, 1, five[0], 0x80, five[1]][..],
            &[0x83, 1, 2, one[0], 0x51, 0x80, one[1]],
        ];
        let answer = came(7 * u32::from(grain), &[0, 64, 64, 64, 1]);
        assert_eq!(plan(&bytes.concat(), 54, 5), answer, "{grain}");
    }
}

/// The samples with high bytes come to what their comments tell.
#[test]
fn samples() {
    for (text, answer) in [
        (include_str!("../../../tables/crystal.hex"), came(1_773, &[0, 64, 64, 64, 64, 64, 64, 1])),
        (
            include_str!("../../../tables/high-bytes.hex"),
            came(66_061, &[0, 64, 64, 1, 64, 64, 64, 64, 2]),
        ),
    ] {
        assert_eq!(plan(&crate::bench::bytes(text), 6_000, 256), answer, "{text}");
    }
}

/// The dearest: one mode after another at the highest rate, each entered at the ceiling.
#[test]
fn the_highest_rates_and_prices() {
    let mut bytes = vec![16, 1, 15, 15, 15];
    bytes.extend([0x81, 255, 255].repeat(16));
    (0..15).for_each(|from| bytes.extend([0x83, from, from + 1, 255, 0x4f, 0x81, 255]));
    let Answer::Route { charge, .. } = plan(&bytes, 6_000, 1_000) else { panic!() };
    assert_eq!(charge, 15 * (15 + 1) * 65_535);
}

/// What the program prints.
fn printed(answer: Answer) -> String {
    match answer {
        Answer::Refused(number) => format!("refused {number}\n"),
        Answer::NoRoute => "no route\n".into(),
        Answer::Route { charge, steps } => {
            let steps: String = steps.iter().map(|step| format!(" {step}")).collect();
            format!("charge {charge}\nroute{steps}\n")
        }
    }
}

/// Runs the tables of the folder named by VECTORS, if it is set. They are of the base, so one that
/// was refused by 3 may be answered otherwise, as two bits may stand now.
#[test]
fn vectors() {
    let Ok(folder) = std::env::var("VECTORS") else { return };
    let tables = std::fs::read(format!("{folder}/base.bin")).unwrap();
    let expected = std::fs::read_to_string(format!("{folder}/base.out")).unwrap();
    let (mut rest, mut expected) = (&tables[..], &expected[..]);
    let mut slowest = (std::time::Duration::ZERO, 0);
    for number in 0.. {
        let [low, high, after @ ..] = rest else { break };
        let (bytes, after) = after.split_at(u16::from_le_bytes([*low, *high]).into());
        rest = after;
        let begun = std::time::Instant::now();
        let answer = plan(bytes, 6_000, 256);
        slowest = slowest.max((begun.elapsed(), number));
        let lines = printed(answer);
        let before = expected.strip_prefix("refused 3\n");
        let Some(left) = expected.strip_prefix(&lines).or(before) else {
            panic!("table {number} {bytes:x?}: {lines}expected {:?}", expected.lines().next());
        };
        expected = left;
    }
    assert!(rest.is_empty() && expected.is_empty());
    println!("slowest: {:?} for table {}", slowest.0, slowest.1);
}

/// A priced region in document 01's own words, to try chains with.
#[derive(Clone, PartialEq, Eq, PartialOrd, Ord)]
struct Priced {
    whole: Vec<u32>,
    groups: Vec<Vec<usize>>,
    prices: Vec<u32>,
}

impl Priced {
    fn meets(&self, conditions: &[Condition], ceilings: &[u32]) -> bool {
        let exact = |timer| self.groups[0].contains(&timer);
        let at_most = |timer: usize, value| {
            self.whole[timer] < value || self.whole[timer] == value && exact(timer)
        };
        ceilings.iter().enumerate().all(|(timer, &ceiling)| at_most(timer, ceiling))
            && conditions.iter().all(|&Condition { timer, code, value }| match code {
                1 => self.whole[timer] < value,
                2 => at_most(timer, value),
                3 => self.whole[timer] == value && exact(timer),
                4 => self.whole[timer] >= value,
                _ => !at_most(timer, value) && self.whole[timer] >= value,
            })
    }

    fn delay(mut self, rate: u32) -> Priced {
        if self.groups[0].is_empty() {
            self.groups[0] = self.groups.pop().unwrap();
            self.groups[0].iter().for_each(|&timer| self.whole[timer] += 1);
            self.prices.remove(0);
        } else {
            self.groups.insert(0, vec![]);
            self.prices.push(self.prices[0] + rate);
        }
        self
    }

    fn linger(mut self, rate: u32) -> Priced {
        let (first, last) = (self.prices[0], self.prices.len() - 1);
        if self.groups[0].is_empty() {
            self.prices[last] = self.prices[last].min(first + rate);
        }
        self
    }

    fn reset(mut self, timer: usize) -> Priced {
        let i = self.groups.iter().position(|group| group.contains(&timer)).unwrap();
        self.whole[timer] = 0;
        self.groups[i].retain(|&other| other != timer);
        self.groups[0].push(timer);
        self.groups[0].sort();
        if i > 0 && self.groups[i].is_empty() {
            let k = self.groups.len() - 1;
            let removed = self.prices.remove(k - i + 1);
            self.prices[k - i] = self.prices[k - i].min(removed);
            self.groups.remove(i);
        }
        self
    }
}

/// The best of all chains of at most so many steps, tried one length after another: its
/// charge, number of steps and steps.
fn best_chain(table: &Table, most: usize) -> Option<(u32, usize, Vec<u8>)> {
    let timers = table.ceilings.len();
    let start =
        Priced { whole: vec![0; timers], groups: vec![(0..timers).collect()], prices: vec![0] };
    let mut best = None;
    // The first bytes that lead to each mode and priced region in just so many steps.
    let mut layer = BTreeMap::from([((0, start), vec![])]);
    for length in 0..=most {
        let mut next = BTreeMap::new();
        for ((mode, region), steps) in layer {
            if mode == table.goal {
                let found = (*region.prices.iter().min().unwrap(), length, steps.clone());
                best = Some(best.map_or(found.clone(), |best| found.min(best)));
            }
            let mut go = |mode: usize, region, byte| {
                let steps: Vec<u8> = [&steps[..], &[byte]].concat();
                let known = next.entry((mode, region)).or_insert(steps.clone());
                *known = steps.min(known.clone());
            };
            let Mode { rate, conditions } = &table.modes[mode];
            let later = region.clone().delay(*rate);
            if later.meets(conditions, &table.ceilings) {
                go(mode, later, DELAY);
            }
            go(mode, region.clone().linger(*rate), LINGER);
            for (number, Move { from, to, price, conditions, resets }) in
                table.moves.iter().enumerate()
            {
                if *from == mode && region.meets(conditions, &table.ceilings) {
                    let mut after =
                        resets.iter().fold(region.clone(), |region, &timer| region.reset(timer));
                    after.prices.iter_mut().for_each(|corner| *corner += price);
                    if after.meets(&table.modes[*to].conditions, &table.ceilings) {
                        go(*to, after, number as u8);
                    }
                }
            }
        }
        layer = next;
    }
    best
}

/// A small table, from a seed: few modes, low ceilings, and prices close together so that
/// many chains are equally good.
fn small_table(seed: u64) -> Vec<u8> {
    let mut state = seed.wrapping_mul(0x9e37_79b9_7f4a_7c15) | 1;
    let mut below = |bound: u64| {
        state =
            state.wrapping_mul(6_364_136_223_846_793_005).wrapping_add(1_442_695_040_888_963_407);
        ((state >> 33) % bound) as u8
    };
    let (modes, timers) = (3 + below(2), 1 + below(3));
    let moves = modes - 1 + below(4);
    let mut bytes = vec![modes, timers, moves, modes - 1];
    bytes.extend((0..timers).map(|_| 1 + below(2)));
    for record in 0..modes + moves {
        let is_move = record >= modes;
        let mut map = below(4).min(1);
        for bit in [1, 2, 3, 4, 5, 6].into_iter().filter(|bit| (bit - 1) % 3 < timers) {
            map |= u8::from(below(if is_move { 3 } else { 8 }) == 0) << bit;
        }
        // In a mode, bit 7 is for a high byte.
        map |= u8::from(below(if is_move { 2 } else { 6 }) == 0) << 7;
        bytes.push(map);
        if is_move && record + 1 < 2 * modes {
            bytes.extend([record - modes, record - modes + 1]); // The first moves lead to the goal.
        } else if is_move {
            bytes.extend([below(modes.into()), below(modes.into())]);
        }
        for bit in (0..8).filter(|bit| map >> bit & 1 == 1) {
            let byte = match bit {
                0 => below(5),
                7 if is_move => below(1 << timers) + 0x80 * (below(4) / 3),
                7 => below(2),
                _ => match below(8) {
                    0 => 0x30 + below(3),
                    1..3 => 0x11 + 16 * below(2) + below(2),
                    _ => 0x40 + 16 * below(2) + below(2),
                },
            };
            bytes.push(byte);
            if is_move && bit == 7 && byte >= 0x80 {
                bytes.push(below(2)); // The high byte.
            }
        }
    }
    bytes
}

/// Compares with all chains of few steps. A longer route must be charged less than these.
/// SEEDS sets how many tables are tried.
#[test]
fn chains() {
    const MOST: usize = 9;
    let seeds = std::env::var("SEEDS").map_or(300, |seeds| seeds.parse().unwrap());
    let (mut same, mut longer, mut none) = (0, 0, 0);
    for seed in 0..seeds {
        let bytes = small_table(seed);
        let Ok(table) = read(&bytes) else { continue };
        let chain = best_chain(&table, MOST);
        match plan(&bytes, 131_072, 65_536) {
            Answer::Route { charge, steps } if steps.len() <= MOST => {
                assert_eq!(chain, Some((charge, steps.len(), steps)), "{bytes:x?}");
                same += 1;
            }
            Answer::Route { charge, .. } => {
                assert!(chain.is_none_or(|chain| chain.0 > charge), "{bytes:x?}");
                longer += 1;
            }
            Answer::NoRoute => {
                assert_eq!(chain, None, "{bytes:x?}");
                none += 1;
            }
            Answer::Refused(number) => panic!("refused {number}: {bytes:x?}"),
        }
    }
    println!("the same {same}, longer {longer}, no route {none}");
}
