//! The fields of a table with every condition in its place: as they are given to be written, in range
//! or not, and as they are read.

/// A condition on the timer in whose place it stands.
#[derive(Clone, Copy, Debug, PartialEq, Eq)]
pub struct Condition {
    pub code: u8,
    pub value: u8,
}

/// The first and the further place of each timer.
pub type Conditions = [[Option<Condition>; 2]; 3];

#[derive(Clone, Debug, Default, PartialEq, Eq)]
pub struct Mode {
    pub rate: u16,
    pub conditions: Conditions,
}

#[derive(Clone, Debug, Default, PartialEq, Eq)]
pub struct Move {
    pub from: u8,
    pub to: u8,
    pub price: u16,
    pub conditions: Conditions,
    /// Bit x names timer x.
    pub resets: u8,
}

/// The fields. The two lists have as many records as the counts say, or more, which are ignored; fewer
/// only if a count is out of range. The ceilings of absent timers are ignored too.
#[derive(Clone, Debug, Default, PartialEq, Eq)]
pub struct Form {
    pub mode_count: u8,
    pub timers: u8,
    pub move_count: u8,
    pub goal: u8,
    pub ceilings: [u8; 3],
    pub modes: Vec<Mode>,
    pub moves: Vec<Move>,
}

impl Form {
    /// What is read of these fields once they were written: nothing that is ignored, and an only
    /// condition on a timer in the first place.
    pub fn as_read(&self) -> Form {
        let mut form = self.clone();
        form.modes.truncate(self.mode_count.into());
        form.moves.truncate(self.move_count.into());
        form.ceilings.iter_mut().skip(self.timers.into()).for_each(|ceiling| *ceiling = 0);
        for places in form.conditions().flatten() {
            if places[0].is_none() {
                places.swap(0, 1);
            }
        }
        form
    }

    /// The places of every record.
    pub fn conditions(&mut self) -> impl Iterator<Item = &mut Conditions> {
        let modes = self.modes.iter_mut().map(|mode| &mut mode.conditions);
        modes.chain(self.moves.iter_mut().map(|step| &mut step.conditions))
    }
}
