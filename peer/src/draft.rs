//! A table whose fields are changed at random, one at a time.

use crate::random::Random;
use crate::record::{write_mode, write_move, Fields, HIGH, LOW, RESETS};
use crate::table::{node_count, read};

/// The most E that the unit's 6,000 words are enough for.
pub const MOST_NODES: u64 = 3_000;
const MOST_MODES: usize = 16;
const MOST_MOVES: usize = 64;
const MOST_CEILING: u8 = 15;

/// A table before it is written.
#[derive(Clone, PartialEq, Eq)]
pub struct Draft {
    goal: u8,
    ceilings: Vec<u8>,
    modes: Vec<Fields>,
    moves: Vec<Move>,
}

#[derive(Clone, Copy, PartialEq, Eq)]
struct Move {
    ends: [u8; 2],
    fields: Fields,
}

impl Draft {
    /// Any table of so many timers that the unit has the words for.
    pub fn any(timers: u8, random: &mut Random) -> Draft {
        loop {
            // Large tables are costlier, so most begin with many modes.
            let least = random.within(1, MOST_MODES as u8);
            let modes = random.within(least, MOST_MODES as u8);
            let mut draft = Draft {
                goal: random.within(0, modes - 1),
                ceilings: (0..timers).map(|_| random.within(1, MOST_CEILING)).collect(),
                modes: vec![[None; 9]; modes.into()],
                moves: Vec::new(),
            };
            if !draft.fits() {
                continue;
            }
            for mode in 0..draft.modes.len() {
                draft.modes[mode] = draft.any_fields(&draft.mode_places(), random);
            }
            draft.moves = (0..MOST_MOVES).map(|_| draft.any_move(random)).collect();
            if draft.fits() {
                return draft;
            }
        }
    }

    /// This table with a few changes; the unit has the words for it too.
    pub fn changed(&self, random: &mut Random) -> Draft {
        loop {
            let mut draft = self.clone();
            draft.change(random);
            while random.one_in(2) {
                draft.change(random);
            }
            if draft != *self && draft.fits() {
                return draft;
            }
        }
    }

    pub fn bytes(&self) -> Vec<u8> {
        let counts = [self.modes.len(), self.ceilings.len(), self.moves.len()];
        let mut bytes = counts.map(|count| count as u8).to_vec();
        bytes.push(self.goal);
        bytes.extend(&self.ceilings);
        self.modes.iter().for_each(|&fields| write_mode(&mut bytes, fields));
        self.moves.iter().for_each(|step| write_move(&mut bytes, step.fields, step.ends));
        bytes
    }

    /// E.
    pub fn nodes(&self) -> u64 {
        read(&self.bytes()).map_or(0, |table| node_count(&table))
    }

    /// Its modes and ceilings, in words.
    pub fn told(&self) -> String {
        let ceilings: Vec<String> = self.ceilings.iter().map(u8::to_string).collect();
        format!("modes {}, ceilings {}", self.modes.len(), ceilings.join(" "))
    }

    pub fn moves(&self) -> usize {
        self.moves.len()
    }

    /// Whether a call with the unit's words searches it.
    fn fits(&self) -> bool {
        read(&self.bytes()).is_ok_and(|table| node_count(&table) <= MOST_NODES)
    }

    fn any_mode(&self, random: &mut Random) -> u8 {
        random.below(self.modes.len() as u64) as u8
    }

    fn any_move(&self, random: &mut Random) -> Move {
        let ends = [(); 2].map(|()| self.any_mode(random));
        Move { ends, fields: self.any_fields(&self.move_places(), random) }
    }

    fn any_fields(&self, places: &[usize], random: &mut Random) -> Fields {
        let mut fields = [None; 9];
        for &place in places {
            fields[place] = self.any_field(place, None, random);
        }
        fields
    }

    /// The places of the fields that a mode may have.
    fn mode_places(&self) -> Vec<usize> {
        let timers = 0..self.ceilings.len();
        [LOW, HIGH].into_iter().chain(timers.flat_map(|timer| [1 + timer, 4 + timer])).collect()
    }

    fn move_places(&self) -> Vec<usize> {
        [self.mode_places(), vec![RESETS]].concat()
    }

    /// A field in the place of an old one.
    fn any_field(&self, place: usize, old: Option<u8>, random: &mut Random) -> Option<u8> {
        match place {
            LOW => match random.below(8) {
                0 => None,
                1 => Some(random.pick(&[0, 1, 255])),
                2..5 => Some(old.unwrap_or(0).saturating_add(random.within(1, 9))),
                5 => Some(old.unwrap_or(0).saturating_sub(random.within(1, 9))),
                _ => Some(any_size(random)),
            },
            HIGH => random.one_in(6).then(|| any_size(random)),
            RESETS => (!random.one_in(6)).then(|| random.below(1 << self.ceilings.len()) as u8),
            _ => match random.below(8) {
                0 => None,
                // Met everywhere, but tested.
                1..5 => Some(0x40),
                _ => {
                    let ceiling = self.ceilings[(place - 1) % 3];
                    Some(16 * random.within(1, 5) + random.within(0, ceiling))
                }
            },
        }
    }

    /// Makes one change. It may be none, and what comes of it may not fit.
    fn change(&mut self, random: &mut Random) {
        match random.below(20) {
            0 => self.goal = self.any_mode(random),
            1 => self.change_ceiling(random),
            2 => self.change_modes(random),
            3 => self.change_moves(random),
            4..8 => {
                let mode = usize::from(self.any_mode(random));
                let place = random.pick(&self.mode_places());
                let old = self.modes[mode][place];
                self.modes[mode][place] = self.any_field(place, old, random);
            }
            _ if self.moves.is_empty() => (),
            change => {
                let [one, other] = [(); 2].map(|()| random.below(self.moves.len() as u64) as usize);
                match change {
                    8 => self.moves.swap(one, other),
                    9 => self.moves[one] = self.moves[other],
                    10..13 => self.moves[one].ends[other % 2] = self.any_mode(random),
                    _ => {
                        let place = random.pick(&self.move_places());
                        let old = self.moves[one].fields[place];
                        self.moves[one].fields[place] = self.any_field(place, old, random);
                    }
                }
            }
        }
    }

    fn change_ceiling(&mut self, random: &mut Random) {
        let timer = random.below(self.ceilings.len() as u64) as usize;
        self.ceilings[timer] = random.within(1, MOST_CEILING);
        if random.one_in(2) {
            // Another one makes room.
            let other = random.below(self.ceilings.len() as u64) as usize;
            self.ceilings[other] = random.within(1, self.ceilings[other]);
        }
    }

    /// Adds a mode like another one, or takes the last one away and leads its moves elsewhere.
    fn change_modes(&mut self, random: &mut Random) {
        if random.one_in(2) && self.modes.len() < MOST_MODES {
            self.modes.push(self.modes[usize::from(self.any_mode(random))]);
        } else if self.modes.len() > 1 {
            self.modes.pop();
            let gone = self.modes.len() as u8;
            let elsewhere = self.any_mode(random);
            let ends = self.moves.iter_mut().flat_map(|step| &mut step.ends);
            ends.chain([&mut self.goal])
                .filter(|end| **end == gone)
                .for_each(|end| *end = elsewhere);
        }
    }

    /// Adds a move or takes one away.
    fn change_moves(&mut self, random: &mut Random) {
        if random.one_in(2) && self.moves.len() < MOST_MOVES {
            self.moves.push(self.any_move(random));
        } else if !self.moves.is_empty() {
            self.moves.remove(random.below(self.moves.len() as u64) as usize);
        }
    }
}

/// A byte of any size, as small ones decide where large ones are even.
fn any_size(random: &mut Random) -> u8 {
    random.draw() as u8 >> random.below(8)
}

#[cfg(test)]
mod tests {
    use super::*;

    /// What comes of many changes is accepted, within the unit's words, and of as many timers.
    #[test]
    fn what_is_changed_fits() {
        for timers in 1..=3 {
            let mut random = Random::new(1, timers.into());
            let mut draft = Draft::any(timers, &mut random);
            for _ in 0..2_000 {
                draft = draft.changed(&mut random);
                let table = read(&draft.bytes()).expect("a draft is a table");
                assert!(node_count(&table) <= MOST_NODES);
                assert_eq!(table.ceilings.len(), usize::from(timers));
            }
        }
    }

    /// Changes come to every count of modes and every goal, and the number of moves varies.
    #[test]
    fn every_number_is_changed() {
        let mut random = Random::new(2, 0);
        let mut draft = Draft::any(1, &mut random);
        let (mut modes, mut goals, mut ceilings) = ([false; 17], [false; 16], [false; 16]);
        let mut fewest_moves = MOST_MOVES;
        for _ in 0..20_000 {
            draft = draft.changed(&mut random);
            modes[draft.modes.len()] = true;
            goals[usize::from(draft.goal)] = true;
            ceilings[usize::from(draft.ceilings[0])] = true;
            fewest_moves = fewest_moves.min(draft.moves.len());
        }
        assert!(modes[1..].iter().chain(&goals).chain(&ceilings[1..]).all(|&seen| seen));
        assert!(fewest_moves < MOST_MOVES);
    }

    #[test]
    fn the_same_numbers_make_the_same_table() {
        let bred = || {
            let mut random = Random::new(3, 1);
            (0..50).fold(Draft::any(2, &mut random), |draft, _| draft.changed(&mut random)).bytes()
        };
        assert_eq!(bred(), bred());
    }
}
