//! Closed tables with long timetables: in each mode timer 0 is ahead of timer 1 by a number of minutes
//! that falls by one from round to round.

use crate::charge::{charge, grain};
use crate::random::Random;
use crate::record::{write_mode, write_move, Fields, HIGH, LOW, RESETS};

const MOST_MOVES: usize = 64;

/// What a move is for.
#[derive(Clone, Copy)]
enum Role {
    /// Sets timer 0 back at its ceiling.
    A,
    /// Sets timer 1 back one minute below it. So the lead begins at the ceiling less one, since this
    /// comes first, and both in turn make it fall.
    B,
    /// Leads to the next mode with both timers at 0, when timer 0 is at its ceiling and timer 1 here.
    Next(u8),
}

impl Role {
    fn fields(self, ceiling: u8) -> Fields {
        let equal = |value: u8| Some(0x30 + value);
        let mut fields = [None; 9];
        let [first, second, resets] = match self {
            Role::A => [equal(ceiling), None, Some(1)],
            Role::B => [None, equal(ceiling - 1), Some(2)],
            Role::Next(value) => [equal(ceiling), equal(value), Some(3)],
        };
        [fields[1], fields[2], fields[RESETS]] = [first, second, resets];
        fields
    }
}

/// A table with such a timetable, of up to 420 pairs. Some moves come twice, so that others may be as good.
pub fn long(random: &mut Random) -> Vec<u8> {
    let ceiling = random.pick(&[2, 3, 3, 4, 4, 5, 5, 6, 6, 15]);
    let modes = random.within(2, 16);
    let last = |random: &mut Random| Role::Next(random.within(1, ceiling - 1));
    let mut moves = Vec::new();
    for mode in 0..modes - 1 {
        let next = if random.one_in(2) { Role::Next(ceiling - 1) } else { last(random) };
        moves.extend([Role::A, Role::B, next].map(|role| (mode, role)));
    }
    for _ in 0..random.below((MOST_MOVES - moves.len()) as u64) {
        let (mode, role) = random.pick(&moves);
        let role = if random.one_in(4) { last(random) } else { role };
        moves.push((mode, role));
    }
    for at in (1..moves.len()).rev() {
        moves.swap(at, random.below(at as u64 + 1) as usize);
    }
    let (most_rate, most_price) = (random.pick(&[0, 1, 9]), random.pick(&[0, 1, 9]));
    let grain = grain(most_rate.max(most_price), random);
    let mut bytes = vec![modes, 2, moves.len() as u8, modes - 1, ceiling, ceiling];
    for _ in 0..modes {
        let mut fields = [None; 9];
        [fields[LOW], fields[HIGH]] = charge(most_rate, grain, random);
        write_mode(&mut bytes, fields);
    }
    for (mode, role) in moves {
        let mut fields = role.fields(ceiling);
        [fields[LOW], fields[HIGH]] = charge(most_price, grain, random);
        let to = if let Role::Next(_) = role { mode + 1 } else { mode };
        write_move(&mut bytes, fields, [mode, to]);
    }
    bytes
}

#[cfg(test)]
mod tests {
    use super::*;
    use crate::dijkstra::Answer;
    use crate::timetable;

    /// All have a timetable, and some a long one.
    #[test]
    fn timetables_are_long() {
        let mut random = Random::new(1, 0);
        let pairs = (0..200).map(|_| {
            let bytes = long(&mut random);
            match timetable::plan(&bytes, usize::MAX, usize::MAX) {
                Answer::Route { steps, .. } => steps.len() / 2,
                answer => panic!("{answer:?}: {bytes:x?}"),
            }
        });
        let pairs: Vec<usize> = pairs.collect();
        let more_than = |least: usize| pairs.iter().filter(|&&pairs| pairs > least).count();
        assert!(more_than(64) > 10 && more_than(128) > 2, "{pairs:?}");
    }
}
