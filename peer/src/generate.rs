//! Tables to try: well-formed ones of several kinds, and bytes that are none or nearly one.

use crate::random::Random;
use crate::shape::{Line, Shape};

/// What a case is made as.
#[derive(Clone, Copy, Debug, PartialEq, Eq, PartialOrd, Ord)]
pub enum Kind {
    /// So small that its runs can be gone through.
    Small,
    /// Everything at random.
    Mixed,
    /// A line of moves towards the goal, with windows and resets that make long routes.
    Line,
    /// A line of moves along a run that has the timers at several fractions.
    Woven,
    /// E at, around and above the most that is accepted.
    Large,
    /// A well-formed table with a bit or byte changed, put in or taken out.
    Damaged,
    /// The first bytes of a well-formed table.
    Truncated,
    /// A well-formed table with bytes after it.
    Oversize,
    /// Random bytes, or none.
    Noise,
}

/// A table to try.
pub struct Case {
    pub table: Vec<u8>,
    pub kind: Kind,
    /// For whatever else is drawn for this case.
    pub random: Random,
}

/// The case of this number. It depends on nothing but the seed and the number.
pub fn case(seed: u64, index: u64) -> Case {
    let mut random = Random::new(seed, index);
    let kind = match random.below(100) {
        0..18 => Kind::Small,
        18..36 => Kind::Mixed,
        36..54 => Kind::Line,
        54..70 => Kind::Woven,
        70..72 => Kind::Large,
        72..86 => Kind::Damaged,
        86..92 => Kind::Truncated,
        92..96 => Kind::Oversize,
        _ => Kind::Noise,
    };
    let table = match kind {
        Kind::Small | Kind::Mixed | Kind::Line | Kind::Woven | Kind::Large => {
            shape(kind, &mut random).table(&mut random)
        }
        Kind::Damaged => damaged(&mut random),
        Kind::Truncated => {
            let mut table = any_well_formed(&mut random);
            table.truncate(random.below(table.len() as u64) as usize);
            table
        }
        Kind::Oversize => {
            let mut table = any_well_formed(&mut random);
            let most = if random.one_in(4) { 900 } else { 3 };
            let more = 1 + random.below(most) as usize;
            table.extend(random.bytes(more));
            table
        }
        Kind::Noise => noise(&mut random),
    };
    Case { table, kind, random }
}

fn any_well_formed(random: &mut Random) -> Vec<u8> {
    let kind = random.pick(&[Kind::Small, Kind::Mixed, Kind::Line, Kind::Woven]);
    shape(kind, random).table(random)
}

fn shape(kind: Kind, random: &mut Random) -> Shape {
    // The time of a plan grows with E, so large ones are rare.
    let most = random.pick(&[300, 600, 1_000, 3_000, 6_000]);
    let most = if random.one_in(50) { 30_000 } else { most };
    match kind {
        Kind::Small => Shape::small(random),
        Kind::Large => Shape::large(random),
        Kind::Line => {
            let line = random.pick(&[Line::Slow, Line::Slow, Line::Slow, Line::Slowest]);
            Shape::until(random, line, |shape| shape.nodes() <= most)
        }
        Kind::Woven => Shape::woven(random, most.max(3_000)),
        _ => Shape::until(random, Line::None, |shape| shape.nodes() <= most),
    }
}

fn damaged(random: &mut Random) -> Vec<u8> {
    let mut table = any_well_formed(random);
    for _ in 0..random.pick(&[1, 1, 1, 2]) {
        // The counts and ceilings are hit as often as all that comes after them.
        let end = if random.one_in(2) { table.len().min(7) } else { table.len() };
        let at = random.below(end as u64) as usize;
        match random.below(4) {
            0 => table[at] ^= 1 << random.below(8),
            1 => table[at] = random.draw() as u8,
            2 => table.insert(at, random.draw() as u8),
            _ => drop(table.remove(at)),
        }
    }
    table
}

fn noise(random: &mut Random) -> Vec<u8> {
    let most = if random.one_in(8) { 1_000 } else { 40 };
    let length = random.below(most) as usize;
    let mut bytes = random.bytes(length);
    if random.one_in(2) {
        // A beginning that is in order, so that the rest is looked at.
        let beginning = [random.within(1, 3), random.within(1, 3), random.within(0, 3), 0, 1, 1, 1];
        bytes.iter_mut().zip(beginning).for_each(|(byte, begun)| *byte = begun);
    }
    if random.one_in(10) {
        bytes.clear();
    }
    bytes
}
