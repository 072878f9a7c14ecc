use super::*;
use crate::closed::closed;
use crate::generate::{case, Kind};
use crate::paper::{least_charge, Outcome};
use crate::table::Condition;
use std::collections::BTreeMap;

/// T of document 01, its last byte ≥ 1.
const T: [u8; 19] = [3, 1, 2, 2, 2, 1, 3, 1, 1, 0, 1, 0, 1, 5, 3, 1, 2, 1, 0x41];

/// T with some bytes changed.
fn t_with(changes: &[(usize, u8)]) -> Vec<u8> {
    let mut bytes = T.to_vec();
    changes.iter().for_each(|&(at, byte)| bytes[at] = byte);
    bytes
}

fn came(charge: u32, pairs: &[u8]) -> Answer {
    Answer::Route { charge, steps: pairs.to_vec() }
}

/// Those of document 01 that are closed.
#[test]
fn marked_tables() {
    for (bytes, answer) in [
        (T.to_vec(), came(7, &[0, 0, 1, 1])),
        (t_with(&[(18, 0x32)]), came(8, &[0, 0, 2, 1])),
        (t_with(&[(18, 0x33)]), Answer::NoRoute),
        (t_with(&[(3, 0)]), came(0, &[])),
        (t_with(&[(6, 1), (8, 3)]), came(7, &[1, 0, 0, 1])),
        // A minute costs the same in both modes, so it is waited where that comes later.
        (t_with(&[(6, 1)]), came(7, &[0, 0, 1, 1])),
        // Ceiling 1 is enough for ≥ 1, and not for ≥ 2.
        (t_with(&[(4, 1)]), came(7, &[0, 0, 1, 1])),
        (t_with(&[(4, 1), (18, 0x42)]), Answer::NoRoute),
    ] {
        assert_eq!(plan(&bytes, 54, 4), answer, "{bytes:x?}");
    }
}

#[test]
fn refusals() {
    let left_over = [&T[..], &[0]].concat();
    let large = [&[16, 3, 0, 0, 6, 3, 1][..], &[0; 16]].concat();
    let open = t_with(&[(18, 0x51)]);
    let cases: [(&[u8], usize, usize, u8); 12] = [
        (&[], 54, 4, 1),
        (&left_over, 54, 4, 6),
        (&[1, 1, 0, 0, 1, 2, 0x41], 54, 4, 7),
        (&open, 54, 4, 12),
        (&T, 53, 4, 9),
        (&T, 54, 3, 10),
        (&T, 54, 2, 10),
        (&large, 200_000, 4, 8),
        // 12 after 7 and 6, before 8 and 9.
        (&[1, 1, 0, 0, 1, 2, 0x50], 54, 4, 7),
        (&[&open[..], &[0]].concat(), 54, 4, 6),
        (&[&[16, 3, 0, 0, 6, 3, 1, 2, 0x11][..], &[0; 15]].concat(), 0, 0, 12),
        (&open, 0, 0, 12),
    ];
    for (bytes, words, route_bytes, number) in cases {
        assert_eq!(plan(bytes, words, route_bytes), Answer::Refused(number), "{bytes:x?}");
    }
    // 10 needs a timetable, and one of no pairs fits.
    assert_eq!(plan(&t_with(&[(18, 0x33)]), 54, 0), Answer::NoRoute);
    assert_eq!(plan(&t_with(&[(3, 0)]), 54, 0), came(0, &[]));
}

/// One condition anywhere is enough for 12: in a mode that is never reached, always true, or in a
/// further place.
#[test]
fn closed_or_not() {
    for (code, number) in [(1, Some(12)), (2, None), (3, None), (4, None), (5, Some(12))] {
        let mode = [&[3, 1, 0, 0, 1, 0, 0, 2][..], &[16 * code + 15]].concat();
        let step = [&[2, 1, 1, 0, 1, 0, 0, 0x10, 1, 1][..], &[16 * code]].concat();
        for bytes in [mode, step] {
            let answer = number.map_or(came(0, &[]), Answer::Refused);
            assert_eq!(plan(&bytes, 6_000, 256), answer, "{bytes:x?}");
        }
    }
}

/// Charge, then pairs, then bytes. All moves are from mode 0, but for those through mode 1; the goal is
/// mode 2, and it takes a minute to come there.
#[test]
fn what_goes_first() {
    let table = |moves: &[&[u8]]| {
        let begins = [3, 1, moves.len() as u8, 2, 3, 0, 0, 0];
        plan(&[&begins[..], &moves.concat()].concat(), 6_000, 256)
    };
    let direct = |least: u8, price| [3, 0, 2, price, 0x40 + least];
    let there: [&[u8]; 2] = [&[0, 0, 1], &[2, 1, 2, 0x41]];
    // A dearer one of one pair, or as dear.
    assert_eq!(table(&[there[0], there[1], &direct(1, 1)]), came(0, &[0, 0, 1, 1]));
    assert_eq!(table(&[there[0], there[1], &direct(1, 0)]), came(0, &[1, 2]));
    // More minutes, but fewer pairs.
    assert_eq!(table(&[there[0], there[1], &direct(3, 0)]), came(0, &[3, 2]));
    // Fewer minutes, then the least move.
    assert_eq!(table(&[&direct(2, 0), &direct(1, 0), &direct(1, 0)]), came(0, &[1, 1]));
    // A loop that costs nothing is never made.
    assert_eq!(table(&[&[0, 0, 0], &direct(1, 0)]), came(0, &[1, 1]));
}

/// The dearest: one mode after another at the highest rate, each entered at the ceiling.
#[test]
fn the_highest_rates_and_prices() {
    let mut bytes = vec![16, 1, 15, 15, 15];
    bytes.extend([0x81, 255, 255].repeat(16));
    (0..15).for_each(|from| bytes.extend([0x83, from, from + 1, 255, 0x4f, 0x81, 255]));
    let pairs: Vec<u8> = (0..15).flat_map(|number| [15, number]).collect();
    assert_eq!(plan(&bytes, 6_000, 30), came(15 * (15 + 1) * 65_535, &pairs));
    assert_eq!(plan(&bytes, 6_000, 29), Answer::Refused(10));
}

/// The best timetable of at most so many pairs, by trying them forwards, one number of pairs after
/// another: charge, number of pairs and bytes. Waits are whole here.
fn best_pairs(table: &Table, most: usize) -> Option<(u32, usize, Vec<u8>)> {
    let hold = |conditions: &[Condition], values: &[u32]| {
        conditions.iter().all(|&Condition { timer, code, value }| match code {
            2 => values[timer] <= value,
            3 => values[timer] == value,
            _ => values[timer] >= value,
        })
    };
    let stays = |mode: usize, values: &[u32]| {
        hold(&table.modes[mode].conditions, values)
            && values.iter().zip(&table.ceilings).all(|(value, ceiling)| value <= ceiling)
    };
    let mut best = None;
    // The least charge, and then the first bytes, with which just so many pairs come to a state.
    let mut layer = BTreeMap::from([((0, vec![0; table.ceilings.len()]), (0, vec![]))]);
    for pairs in 0..=most {
        let mut next = BTreeMap::new();
        for ((mode, values), (charge, bytes)) in layer {
            if mode == table.goal {
                let found = (charge, pairs, bytes.clone());
                best = Some(best.map_or(found.clone(), |best| found.min(best)));
            }
            for minutes in 0..=15 {
                let waited: Vec<u32> = values.iter().map(|value| value + minutes).collect();
                if !stays(mode, &waited) {
                    continue;
                }
                let charge = charge + minutes * table.modes[mode].rate;
                for (number, step) in table.moves.iter().enumerate() {
                    let mut after = waited.clone();
                    step.resets.iter().for_each(|&timer| after[timer] = 0);
                    if step.from == mode
                        && hold(&step.conditions, &waited)
                        && stays(step.to, &after)
                    {
                        let bytes = [&bytes[..], &[minutes as u8, number as u8]].concat();
                        let came = (charge + step.price, bytes);
                        let known = next.entry((step.to, after)).or_insert(came.clone());
                        *known = came.min(known.clone());
                    }
                }
            }
        }
        layer = next;
    }
    best
}

/// Compares with all timetables of few pairs. A longer one must be charged less than these. And in a
/// closed table the charge is that of all runs.
#[test]
fn few_pairs() {
    const MOST: usize = 5;
    let (mut same, mut longer, mut none) = (0, 0, 0);
    for index in 0..1_500 {
        let case = case(5, index);
        let bytes = closed(&case.table);
        let Ok(table) = read(&bytes) else { continue };
        if case.kind == Kind::Large || node_count(&table) > 1_000 {
            continue;
        }
        let tried = best_pairs(&table, MOST);
        let outcome = match plan(&bytes, usize::MAX, usize::MAX) {
            Answer::Route { charge, steps } => {
                if steps.len() <= 2 * MOST {
                    assert_eq!(tried, Some((charge, steps.len() / 2, steps)), "{bytes:x?}");
                    same += 1;
                } else {
                    assert!(tried.is_none_or(|tried| tried.0 > charge), "{bytes:x?}");
                    longer += 1;
                }
                Outcome::Charge(charge)
            }
            answer => {
                assert_eq!((answer, tried), (Answer::NoRoute, None), "{bytes:x?}");
                none += 1;
                Outcome::Unreachable
            }
        };
        assert_eq!(least_charge(&table, u64::MAX), outcome, "{bytes:x?}");
    }
    assert!(same > 200 && longer > 20 && none > 50, "{same} {longer} {none}");
}
