//! Well-formed tables at random, of a given shape.

use crate::charge::{charge, grain};
use crate::random::Random;
use crate::record::{write_mode, write_move, Fields, HIGH, LOW, RESETS};

/// What a well-formed table is drawn from.
pub struct Shape {
    pub modes: u8,
    pub ceilings: Vec<u8>,
    moves: u8,
    goal: u8,
    /// The highest, in grains.
    most_rate: u8,
    most_price: u8,
    /// Rates and prices are multiples of this; mostly it is 1, otherwise they have high bytes.
    grain: u16,
    /// A move has a window on a timer once in so many; a mode half as often, or less.
    window_in: u64,
    reset_in: u64,
    line: Line,
}

/// Whether the first moves lead from each mode to the next, and how these are drawn.
#[derive(Clone, Copy, PartialEq, Eq)]
pub enum Line {
    /// No line.
    None,
    /// With bounds from below that take time to meet.
    Slow,
    /// Made at the ceiling only, and resetting every timer.
    Slowest,
    /// With windows about the states of a run, which resets some timers on its way.
    Woven,
}

impl Shape {
    /// E.
    pub fn nodes(&self) -> u64 {
        let cells: u64 = self.ceilings.iter().map(|&ceiling| u64::from(ceiling) + 1).product();
        u64::from(self.modes) * cells * [3, 13, 75][self.ceilings.len() - 1]
    }

    /// A table so small that its runs can be gone through.
    pub fn small(random: &mut Random) -> Shape {
        let timers = random.pick(&[1, 1, 1, 2, 2, 2, 3]);
        let most = if timers == 1 { 3 } else { 2 };
        let modes = random.pick(&[1, 2, 2, 3, 3, 3]);
        Shape {
            modes,
            ceilings: (0..timers).map(|_| random.within(1, most)).collect(),
            moves: random.within(0, 6),
            goal: modes - 1,
            most_rate: 4,
            most_price: 9,
            grain: grain(9, random),
            window_in: random.pick(&[1, 2, 3]),
            reset_in: random.pick(&[1, 2, 4]),
            line: random.pick(&[Line::None, Line::None, Line::Slow, Line::Woven]),
        }
    }

    /// A table with E a little below or well above the most that is accepted.
    pub fn large(random: &mut Random) -> Shape {
        let accepted = random.one_in(20);
        let mut shape = Shape::until(random, Line::None, |shape| match shape.nodes() {
            nodes if accepted => (55_000..=65_536).contains(&nodes),
            nodes => (65_537..80_000).contains(&nodes),
        });
        if !accepted && random.one_in(4) {
            shape.ceilings.iter_mut().for_each(|ceiling| *ceiling = random.within(*ceiling, 15));
        }
        shape
    }

    /// A line of few modes and at least two timers, with low rates and prices, so that many chains
    /// are nearly as good as the route.
    pub fn woven(random: &mut Random, most_nodes: u64) -> Shape {
        let shape = Shape::until(random, Line::Woven, |shape| {
            shape.ceilings.len() > 1 && shape.modes < 8 && shape.nodes() <= most_nodes
        });
        let moves = shape.modes - 1 + random.within(0, 8);
        let (most_rate, most_price) = (random.pick(&[1, 2, 4, 9]), random.pick(&[0, 1, 2, 9]));
        let grain = grain(most_rate.max(most_price), random);
        Shape { moves, most_rate, most_price, grain, ..shape }
    }

    /// Draws until one fits.
    pub fn until(random: &mut Random, line: Line, fits: impl Fn(&Shape) -> bool) -> Shape {
        loop {
            let in_line = line != Line::None;
            let modes = random.within(if in_line { 2 } else { 1 }, 16);
            // Mode 0 as the goal is always reached, so a later one is the goal more often.
            let goal = random.within(0, modes - 1).max(random.within(0, modes - 1));
            let goal = if in_line { modes - 1 } else { goal };
            let most_moves = random.pick(&[4, 12, 24, 64]);
            let most_ceiling = random.pick(&[1, 2, 3, 4, 4, 8, 15]);
            let most_rate = random.pick(&[0, 1, 3, 9, 30, 255]);
            let most_price = random.pick(&[0, 1, 9, 30, 255]);
            let shape = Shape {
                modes,
                ceilings: (0..random.within(1, 3))
                    .map(|_| random.within(1, most_ceiling))
                    .collect(),
                moves: random.within(if in_line { modes - 1 } else { 0 }, most_moves.max(modes)),
                goal,
                most_rate,
                most_price,
                grain: grain(most_rate.max(most_price), random),
                window_in: random.pick(&[1, 2, 4, 8]),
                reset_in: random.pick(&[1, 2, 4]),
                line,
            };
            if fits(&shape) {
                return shape;
            }
        }
    }

    /// A table of this shape.
    pub fn table(&self, random: &mut Random) -> Vec<u8> {
        let mut bytes = vec![self.modes, self.ceilings.len() as u8, self.moves, self.goal];
        bytes.extend(&self.ceilings);
        for mode in 0..self.modes {
            write_mode(&mut bytes, mode_fields(self, mode, random));
        }
        let mut run = vec![0; self.ceilings.len()];
        for number in 0..self.moves {
            let (fields, modes) = if self.line != Line::None && number + 1 < self.modes {
                (line_fields(self, &mut run, random), [number, number + 1])
            } else {
                (move_fields(self, random), self.ends(random))
            };
            write_move(&mut bytes, fields, modes);
        }
        bytes
    }

    /// The from and to mode of a move.
    fn ends(&self, random: &mut Random) -> [u8; 2] {
        let mut ends = [(); 2].map(|()| random.within(0, self.modes - 1));
        if self.line != Line::None && ends[0] < ends[1] && !random.one_in(8) {
            ends.reverse(); // Few moves lead past the line.
        }
        ends
    }
}

fn mode_fields(shape: &Shape, mode: u8, random: &mut Random) -> Fields {
    let mut fields = [None; 9];
    [fields[LOW], fields[HIGH]] = charge(shape.most_rate, shape.grain, random);
    for (timer, &ceiling) in shape.ceilings.iter().enumerate() {
        if random.one_in(if shape.line != Line::None { 20 } else { 2 * shape.window_in }) {
            // Mostly a bound from above, else a mode is rarely reached. Mode 0 must hold at zero,
            // or nothing but refusal 7 comes of the table.
            let any = random.one_in(if mode == 0 { 15 } else { 3 });
            let bound = 16 * random.within(1, 2) + random.within(1, ceiling);
            let window = if any { window(ceiling, random) } else { [Some(bound), None] };
            [fields[1 + timer], fields[4 + timer]] = window;
        }
    }
    fields
}

fn move_fields(shape: &Shape, random: &mut Random) -> Fields {
    let mut fields = [None; 9];
    [fields[LOW], fields[HIGH]] = charge(shape.most_price, shape.grain, random);
    for (timer, &ceiling) in shape.ceilings.iter().enumerate() {
        if random.one_in(shape.window_in) {
            [fields[1 + timer], fields[4 + timer]] = window(ceiling, random);
        }
    }
    // Any set of timers, so sometimes none.
    fields[RESETS] =
        random.one_in(shape.reset_in).then(|| random.below(1 << shape.ceilings.len()) as u8);
    fields
}

/// A move of the line, the values of whose run go on.
fn line_fields(shape: &Shape, run: &mut [u32], random: &mut Random) -> Fields {
    let mut fields = match shape.line {
        Line::Woven => woven_fields(shape, run, random),
        _ => slow_fields(shape, random),
    };
    [fields[LOW], fields[HIGH]] = charge(shape.most_price, shape.grain, random);
    fields
}

fn slow_fields(shape: &Shape, random: &mut Random) -> Fields {
    let mut fields = [None; 9];
    let timers = shape.ceilings.len() as u64;
    let timer = random.below(timers) as usize;
    let ceiling = shape.ceilings[timer];
    let all = (1 << timers) - 1;
    if shape.line == Line::Slowest {
        fields[1 + timer] = Some(0x40 + ceiling);
        fields[RESETS] = Some(all);
        return fields;
    }
    let value = random.within(1, ceiling).max(random.within(1, ceiling));
    fields[1 + timer] = match random.below(8) {
        0 => None,
        1 => Some(0x30 + value),
        2 => Some(0x50),
        3 => Some(0x50 + value - 1),
        _ => Some(0x40 + value),
    };
    if random.one_in(12) {
        fields[4 + timer] = Some(16 * random.within(1, 2) + random.within(1, ceiling));
    }
    if !random.one_in(4) {
        let (one, some) = (1 << timer, random.below(1 << timers) as u8);
        fields[RESETS] = Some(random.pick(&[all, all, one, some]));
    }
    fields
}

/// The run of a woven line has its delays in so many parts of a minute.
const PARTS: u32 = 6;

/// Waits, puts windows about the values that the timers then have, and resets some.
fn woven_fields(shape: &Shape, run: &mut [u32], random: &mut Random) -> Fields {
    let mut fields = [None; 9];
    let room = run.iter().zip(&shape.ceilings).map(|(v, &c)| PARTS * u32::from(c) - v).min();
    let wait = random.below(u64::from(room.unwrap_or(0).min(2 * PARTS)) + 1) as u32;
    let resets = match random.below(4) {
        0 => None,
        1 => Some(random.below(1 << run.len()) as u8),
        _ => Some(1 << random.below(run.len() as u64)),
    };
    for (timer, value) in run.iter_mut().enumerate() {
        *value += wait;
        if !random.one_in(3) {
            [fields[1 + timer], fields[4 + timer]] = window_about(*value, random);
        }
        if resets.is_some_and(|resets| resets >> timer & 1 == 1) {
            *value = 0;
        }
    }
    fields[RESETS] = resets;
    fields
}

/// One or two conditions that hold at this value, in parts of a minute.
fn window_about(value: u32, random: &mut Random) -> [Option<u8>; 2] {
    let whole = (value / PARTS) as u8;
    let exact = value.is_multiple_of(PARTS);
    let strict = u8::from(!exact && random.one_in(2));
    let lower = Some(16 * (4 + strict) + whole);
    let upper = Some(if exact { 0x20 + whole } else { 16 * (2 - strict) + whole + 1 });
    match random.below(4) {
        0 => [lower, None],
        1 => [upper, None],
        2 if exact => [Some(0x30 + whole), None],
        _ => [lower, upper],
    }
}

/// One or two conditions on a timer.
fn window(ceiling: u8, random: &mut Random) -> [Option<u8>; 2] {
    let low = random.within(0, ceiling);
    let high = random.within(low, ceiling);
    let lower = 16 * random.within(4, 5) + low;
    let upper = 16 * random.within(1, 2) + high;
    let mut any = |least| 16 * random.within(1, 5) + random.within(least, 15);
    let (beyond, one, other) = (any(ceiling), any(0), any(0));
    let mut conditions = match random.below(16) {
        0..5 => [Some(lower), None],
        5..8 => [Some(upper), None],
        8..11 => [Some(lower), Some(upper)],
        11..13 => [Some(0x30 + low), None],
        13 => [Some(0x50 + high), Some(0x20 + low)], // Met nowhere.
        14 => [Some(beyond), None],
        _ => [Some(one), Some(other)],
    };
    if random.one_in(4) {
        conditions.reverse();
    }
    conditions
}
