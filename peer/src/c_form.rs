//! The fields of a table as the C interface takes and gives them.

use crate::form::{self, Condition, Conditions};
use crate::random::Random;

/// The place of a condition. Code 0: there is none, and the value is ignored.
#[repr(C)]
#[derive(Clone, Copy, Debug, Default, PartialEq, Eq)]
struct Place {
    code: u8,
    value: u8,
}

/// The first place of each timer, and the further one.
#[repr(C)]
#[derive(Clone, Copy, Debug, Default, PartialEq, Eq)]
struct Places {
    first: [Place; 3],
    further: [Place; 3],
}

#[repr(C)]
#[derive(Clone, Copy, Debug, Default, PartialEq, Eq)]
struct Mode {
    rate: u16,
    places: Places,
}

#[repr(C)]
#[derive(Clone, Copy, Debug, Default, PartialEq, Eq)]
struct Move {
    from: u8,
    to: u8,
    price: u16,
    places: Places,
    resets: u8,
    unused: u8,
}

/// The form. No byte of it is padding, so that two are equal only if all their bytes are.
#[repr(C)]
#[derive(Clone, Copy, Debug, PartialEq, Eq)]
pub struct Form {
    modes: u8,
    timers: u8,
    moves: u8,
    goal: u8,
    ceiling: [u8; 3],
    unused: u8,
    mode: [Mode; 16],
    step: [Move; 64],
}

const FORM_BYTES: usize = 1_384;
const _: () = assert!(size_of::<Mode>() == 14 && size_of::<Move>() == 18);
const _: () = assert!(size_of::<Form>() == FORM_BYTES && FORM_BYTES == 8 + 16 * 14 + 64 * 18);

impl Form {
    /// Every byte 0.
    pub fn zero() -> Form {
        let (mode, step) = ([Mode::default(); 16], [Move::default(); 64]);
        Form { modes: 0, timers: 0, moves: 0, goal: 0, ceiling: [0; 3], unused: 0, mode, step }
    }

    /// Every byte at random.
    pub fn noise(random: &mut Random) -> Form {
        let mut form = Form::zero();
        form.bytes_mut().chunks_mut(8).for_each(|eight| {
            eight.copy_from_slice(&random.draw().to_le_bytes());
        });
        form
    }

    /// Its bytes in memory.
    pub fn bytes_mut(&mut self) -> &mut [u8; FORM_BYTES] {
        // Sound: no byte of a form is padding, whatever bytes it has it is one, and bytes are aligned
        // everywhere. The form is borrowed for as long as its bytes.
        unsafe { &mut *std::ptr::from_mut(self).cast() }
    }

    /// This form with the fields put in; what is no field is left as it is here. None if a condition
    /// of code 0 is among them, which says here that there is no condition.
    pub fn with(mut self, form: &form::Form) -> Option<Form> {
        [self.modes, self.timers, self.moves] = [form.mode_count, form.timers, form.move_count];
        self.goal = form.goal;
        let timers = form.timers.min(3).into();
        self.ceiling[..timers].copy_from_slice(&form.ceilings[..timers]);
        for (mode, given) in self.mode.iter_mut().zip(&form.modes) {
            *mode = Mode { rate: given.rate, places: mode.places.with(&given.conditions)? };
        }
        for (step, given) in self.step.iter_mut().zip(&form.moves) {
            *step = Move {
                from: given.from,
                to: given.to,
                price: given.price,
                places: step.places.with(&given.conditions)?,
                resets: given.resets,
                unused: step.unused,
            };
        }
        Some(self)
    }

    /// The fields.
    pub fn fields(&self) -> form::Form {
        let mut ceilings = [0; 3];
        let timers = self.timers.min(3).into();
        ceilings[..timers].copy_from_slice(&self.ceiling[..timers]);
        let mode = |mode: &Mode| form::Mode { rate: mode.rate, conditions: mode.places.given() };
        let step = |step: &Move| form::Move {
            from: step.from,
            to: step.to,
            price: step.price,
            conditions: step.places.given(),
            resets: step.resets,
        };
        form::Form {
            mode_count: self.modes,
            timers: self.timers,
            move_count: self.moves,
            goal: self.goal,
            ceilings,
            modes: self.mode.iter().take(self.modes.into()).map(mode).collect(),
            moves: self.step.iter().take(self.moves.into()).map(step).collect(),
        }
    }
}

impl Places {
    /// These with the conditions put in. The value of a place without one is left.
    fn with(mut self, conditions: &Conditions) -> Option<Places> {
        for (timer, given) in conditions.iter().enumerate() {
            for (place, given) in
                [&mut self.first[timer], &mut self.further[timer]].into_iter().zip(given)
            {
                match given {
                    None => place.code = 0,
                    Some(Condition { code: 0, .. }) => return None,
                    Some(Condition { code, value }) => {
                        *place = Place { code: *code, value: *value }
                    }
                }
            }
        }
        Some(self)
    }

    /// The conditions in their places.
    fn given(&self) -> Conditions {
        let given = |Place { code, value }: Place| (code > 0).then_some(Condition { code, value });
        [0, 1, 2].map(|timer| [self.first[timer], self.further[timer]].map(given))
    }
}

#[cfg(test)]
mod tests {
    use super::*;

    /// What lies where is what C has: by the offsets, as the fields have no padding between them.
    #[test]
    fn the_places_are_those_of_c() {
        use std::mem::{align_of, offset_of};
        assert_eq!(align_of::<Form>(), 2);
        assert_eq!([offset_of!(Form, ceiling), offset_of!(Form, unused)], [4, 7]);
        assert_eq!([offset_of!(Form, mode), offset_of!(Form, step)], [8, 232]);
        assert_eq!([offset_of!(Mode, rate), offset_of!(Mode, places)], [0, 2]);
        assert_eq!([offset_of!(Places, first), offset_of!(Places, further)], [0, 6]);
        let step = [offset_of!(Move, price), offset_of!(Move, places), offset_of!(Move, resets)];
        assert_eq!(step, [2, 4, 16]);
    }
}
