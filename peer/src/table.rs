//! A table as document 01 defines it, with the high bytes of request N2, read from its bytes.

use crate::form::{self, Conditions, Form};

/// A condition on a timer: `code` 1 to 5 is <, ≤, =, ≥, >.
#[derive(Clone, Debug, PartialEq, Eq)]
pub struct Condition {
    pub timer: usize,
    pub code: u8,
    pub value: u32,
}

/// A mode (location).
#[derive(Clone, Debug, Default, PartialEq, Eq)]
pub struct Mode {
    /// At most 65,535, as a price is.
    pub rate: u32,
    pub conditions: Vec<Condition>,
}

/// A move (edge).
#[derive(Clone, Debug, Default, PartialEq, Eq)]
pub struct Move {
    pub from: usize,
    pub to: usize,
    pub price: u32,
    pub conditions: Vec<Condition>,
    /// The timers that the move resets, rising.
    pub resets: Vec<usize>,
}

/// A table that follows the layout. The number of timers is that of the ceilings.
#[derive(Clone, Debug, Default, PartialEq, Eq)]
pub struct Table {
    pub goal: usize,
    pub ceilings: Vec<u32>,
    pub modes: Vec<Mode>,
    pub moves: Vec<Move>,
}

impl Table {
    /// The table of fields that are in order.
    fn of(form: &Form) -> Table {
        let mode = |mode: &form::Mode| Mode {
            rate: mode.rate.into(),
            conditions: by_rising_bit(&mode.conditions),
        };
        let step = |step: &form::Move| Move {
            from: step.from.into(),
            to: step.to.into(),
            price: step.price.into(),
            conditions: by_rising_bit(&step.conditions),
            resets: (0..3).filter(|timer| step.resets >> timer & 1 == 1).collect(),
        };
        Table {
            goal: form.goal.into(),
            ceilings: form.ceilings[..form.timers.into()].iter().map(|&c| c.into()).collect(),
            modes: form.modes.iter().map(mode).collect(),
            moves: form.moves.iter().map(step).collect(),
        }
    }

    /// All rates and prices.
    pub fn charges(&self) -> impl Iterator<Item = u32> + '_ {
        let prices = self.moves.iter().map(|step| step.price);
        self.modes.iter().map(|mode| mode.rate).chain(prices)
    }
}

/// The conditions of a record: all first places, then all further ones.
fn by_rising_bit(conditions: &Conditions) -> Vec<Condition> {
    let mut list = Vec::new();
    for place in [0, 1] {
        for (timer, places) in conditions.iter().enumerate() {
            let condition = |given: form::Condition| {
                let form::Condition { code, value } = given;
                Condition { timer, code, value: value.into() }
            };
            list.extend(places[place].map(condition));
        }
    }
    list
}

/// The bytes of a table, taken from the left.
struct Reader<'a> {
    bytes: std::slice::Iter<'a, u8>,
    timers: u8,
    modes: u8,
}

/// The bit that announces a reset byte in the map of a move, and a high byte in the map of a mode
/// and in a reset byte.
const LAST: u8 = 0x80;

impl Reader<'_> {
    fn byte(&mut self) -> Result<u8, u8> {
        self.bytes.next().copied().ok_or(1)
    }

    /// A count, goal or ceiling.
    fn within(&mut self, least: u8, most: u8) -> Result<u8, u8> {
        let byte = self.byte()?;
        if (least..=most).contains(&byte) {
            Ok(byte)
        } else {
            Err(2)
        }
    }

    /// A bit map, or the reset byte, in which only the bits of `allowed` may stand.
    fn bits(&mut self, allowed: u8) -> Result<u8, u8> {
        let bits = self.byte()?;
        if bits & !allowed == 0 {
            Ok(bits)
        } else {
            Err(3)
        }
    }

    /// One bit for each timer that is there.
    fn timer_bits(&self) -> u8 {
        (1 << self.timers) - 1
    }

    /// The map of a record.
    fn map(&mut self) -> Result<u8, u8> {
        self.bits(1 | self.timer_bits() << 1 | self.timer_bits() << 4 | LAST)
    }

    /// A from or to mode.
    fn mode(&mut self) -> Result<u8, u8> {
        let mode = self.byte()?;
        if mode < self.modes {
            Ok(mode)
        } else {
            Err(5)
        }
    }

    /// The low byte of a rate or price, 0 if it is missing.
    fn low(&mut self, map: u8) -> Result<u16, u8> {
        if map & 1 == 0 {
            return Ok(0);
        }
        Ok(self.byte()?.into())
    }

    fn conditions(&mut self, map: u8) -> Result<Conditions, u8> {
        let mut conditions = Conditions::default();
        for bit in (1..7).filter(|bit| map >> bit & 1 == 1) {
            let byte = self.byte()?;
            let code = byte / 16;
            if !(1..=5).contains(&code) {
                return Err(4);
            }
            let condition = form::Condition { code, value: byte % 16 };
            conditions[(bit - 1) % 3][(bit - 1) / 3] = Some(condition);
        }
        Ok(conditions)
    }

    /// The reset byte of a move, 0 if it is missing.
    fn resets(&mut self, map: u8) -> Result<u8, u8> {
        if map & LAST == 0 {
            return Ok(0);
        }
        self.bits(self.timer_bits() | LAST)
    }

    /// What the high byte adds to a rate or price, if these bits announce one.
    fn high(&mut self, bits: u8) -> Result<u16, u8> {
        if bits & LAST == 0 {
            return Ok(0);
        }
        Ok(256 * u16::from(self.byte()?))
    }
}

/// Reads a table, or gives the number of the first refusal among 1 to 7.
pub fn read(bytes: &[u8]) -> Result<Table, u8> {
    read_form(bytes).map(|form| Table::of(&form))
}

/// Reads the fields of a table, every condition in the place where it stands, or gives that number.
pub fn read_form(bytes: &[u8]) -> Result<Form, u8> {
    let mut reader = Reader { bytes: bytes.iter(), timers: 0, modes: 0 };
    reader.modes = reader.within(1, 16)?;
    reader.timers = reader.within(1, 3)?;
    let mut form = Form {
        mode_count: reader.modes,
        timers: reader.timers,
        move_count: reader.within(0, 64)?,
        goal: reader.within(0, reader.modes - 1)?,
        ..Form::default()
    };
    for timer in 0..form.timers {
        form.ceilings[usize::from(timer)] = reader.within(1, 15)?;
    }
    for _ in 0..form.mode_count {
        let map = reader.map()?;
        let low = reader.low(map)?;
        let conditions = reader.conditions(map)?;
        let rate = low + reader.high(map)?;
        form.modes.push(form::Mode { rate, conditions });
    }
    for _ in 0..form.move_count {
        let map = reader.map()?;
        let (from, to) = (reader.mode()?, reader.mode()?);
        let low = reader.low(map)?;
        let conditions = reader.conditions(map)?;
        let resets = reader.resets(map)?;
        let price = low + reader.high(resets)?;
        form.moves.push(form::Move { from, to, price, conditions, resets: resets & !LAST });
    }
    if reader.bytes.len() > 0 {
        return Err(6);
    }
    let holds_at_zero = |condition: &form::Condition| match condition.code {
        1 => condition.value > 0,
        2 => true,
        3 | 4 => condition.value == 0,
        _ => false,
    };
    if !form.modes[0].conditions.iter().flatten().flatten().all(holds_at_zero) {
        return Err(7);
    }
    Ok(form)
}

/// E: the corners of a cell, for every cell and mode.
pub fn node_count(table: &Table) -> u64 {
    let cells: u64 = table.ceilings.iter().map(|&ceiling| u64::from(ceiling) + 1).product();
    table.modes.len() as u64 * cells * [3, 13, 75][table.ceilings.len() - 1]
}

#[cfg(test)]
mod tests;
