//! Closed tables, which have no < and no >: made of others, byte by byte.

use crate::random::Random;
use std::ops::Range;

/// The table with < turned into ≤ and > into ≥, as far as it follows the layout.
pub fn closed(table: &[u8]) -> Vec<u8> {
    let mut table = table.to_vec();
    for at in records(&table).into_iter().flat_map(|record| record.conditions) {
        match table[at] / 16 {
            1 => table[at] += 16,
            5 => table[at] -= 16,
            _ => (),
        }
    }
    table
}

/// The closed table with any one of its conditions made < or >, if it has one.
pub fn nearly_closed(table: &[u8], random: &mut Random) -> Vec<u8> {
    let mut table = closed(table);
    let places = records(&table).into_iter().flat_map(|record| record.conditions);
    let places: Vec<usize> = places.collect();
    if !places.is_empty() {
        let at = random.pick(&places);
        table[at] = 16 * random.pick(&[1, 5]) + table[at] % 16;
    }
    table
}

/// The closed table with rates and prices that are so low that many timetables are charged the same.
pub fn closed_and_even(table: &[u8], random: &mut Random) -> Vec<u8> {
    let mut table = closed(table);
    let low_bits = random.pick(&[0, 0, 1, 3]);
    for record in records(&table) {
        record.low.into_iter().for_each(|at| table[at] &= low_bits);
        record.high.into_iter().for_each(|at| table[at] = 0);
    }
    table
}

/// Where in a table the bytes of a record stand, as far as the table has bytes.
#[derive(Default)]
struct Record {
    low: Option<usize>,
    conditions: Range<usize>,
    high: Option<usize>,
}

fn records(table: &[u8]) -> Vec<Record> {
    let [modes, timers, moves, ..] = *table else { return Vec::new() };
    let [modes, timers, moves] = [modes, timers, moves].map(usize::from);
    let mut records = Vec::new();
    let mut at = 4 + timers;
    for number in 0..modes + moves {
        let Some(map) = table.get(at) else { break };
        let is_move = number >= modes;
        at += if is_move { 3 } else { 1 };
        let mut record = Record::default();
        if map & 1 != 0 {
            record.low = Some(at);
            at += 1;
        }
        let conditions = (map >> 1 & 0x3f).count_ones() as usize;
        record.conditions = at.min(table.len())..(at + conditions).min(table.len());
        at += conditions;
        // A bit announces a mode's high byte, or a move's resets, which may announce it.
        let mut is_announced = map & 0x80 != 0;
        if is_announced && is_move {
            is_announced = table.get(at).is_some_and(|resets| resets & 0x80 != 0);
            at += 1;
        }
        if is_announced {
            record.high = Some(at);
            at += 1;
        }
        record.low = record.low.filter(|&at| at < table.len());
        record.high = record.high.filter(|&at| at < table.len());
        records.push(record);
    }
    records
}

#[cfg(test)]
mod tests {
    use super::*;
    use crate::table::read;

    /// In one mode and one move every field stands.
    const TABLE: [u8; 39] = [
        2, 3, 3, 0, 1, 2, 3, // counts, goal and ceilings
        0xff, 0x10, 0x11, 0x22, 0x30, 0x40, 0x2f, 0x1f, 0x50, // mode 0
        0x08, 0x50, // mode 1
        0xff, 0, 0, 0x10, 0x51, 0x52, 0x53, 0x14, 0x25, 0x36, 0x85, 0x10, // move 0
        0x02, 0, 0, 0x12, // move 1
        0x80, 0, 1, 0x87, 0x11, // move 2
    ];

    #[test]
    fn conditions_and_nothing_else_are_closed() {
        let mut must = TABLE.to_vec();
        for (at, byte) in [(9, 0x21), (14, 0x2f), (17, 0x40), (22, 0x41), (23, 0x42), (24, 0x43)] {
            must[at] = byte;
        }
        (must[25], must[33]) = (0x24, 0x22);
        assert!(read(&TABLE).is_ok() && read(&must).is_ok());
        assert_eq!(closed(&TABLE), must);
        assert_eq!(closed(&must), must);
        // What does not follow the layout is closed as far as it does.
        for end in 0..TABLE.len() {
            assert_eq!(closed(&TABLE[..end]), must[..end]);
        }
    }

    #[test]
    fn rates_and_prices_are_low() {
        let (table, mut random) = (closed(&TABLE), Random::new(2, 0));
        for _ in 0..20 {
            let even = closed_and_even(&TABLE, &mut random);
            for at in 0..table.len() {
                match at {
                    8 | 21 => assert!(even[at] < 4),
                    15 | 29 | 38 => assert_eq!(even[at], 0),
                    _ => assert_eq!(even[at], table[at]),
                }
            }
            (0..table.len()).for_each(|end| {
                closed_and_even(&table[..end], &mut random);
            });
        }
    }

    #[test]
    fn one_condition_is_open() {
        let (table, mut random) = (closed(&TABLE), Random::new(1, 0));
        let mut changed = Vec::new();
        for _ in 0..500 {
            let nearly = nearly_closed(&TABLE, &mut random);
            let places: Vec<usize> =
                (0..table.len()).filter(|&at| table[at] != nearly[at]).collect();
            assert_eq!(places.len(), 1);
            assert!([1, 5].contains(&(nearly[places[0]] / 16)));
            changed.extend(places);
        }
        changed.sort();
        changed.dedup();
        assert_eq!(changed, [9, 10, 11, 12, 13, 14, 17, 22, 23, 24, 25, 26, 27, 33]);
        // There is none.
        assert_eq!(nearly_closed(&[1, 1, 0, 0, 1, 0], &mut random), [1, 1, 0, 0, 1, 0]);
    }
}
