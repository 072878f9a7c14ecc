//! Fields at random to be written, most of them in order.

use crate::form::{Condition, Conditions, Form, Mode, Move};
use crate::random::Random;

/// Fields, of which one in three has faults.
pub fn drawn_form(random: &mut Random) -> Form {
    let mut form = if random.one_in(100) { longest(random) } else { in_order(random) };
    if !random.one_in(8) {
        // Mode 0 holds at zero, so that what is written is read.
        let conditions = form.modes[0].conditions.iter_mut().flatten().flatten();
        conditions.for_each(|condition| condition.code = 2);
    }
    if random.one_in(3) {
        for _ in 0..random.pick(&[1, 1, 1, 2, 2, 5]) {
            spoil(&mut form, random);
        }
    }
    form
}

fn in_order(random: &mut Random) -> Form {
    let [few, many] = [4, 16].map(|most| random.within(1, most));
    let mode_count = random.pick(&[1, few, few, many]);
    let timers = random.within(1, 3);
    let [few, many] = [6, 64].map(|most| random.within(0, most));
    let move_count = random.pick(&[0, few, few, few, few, few, many, many]);
    let conditions_in = random.pick(&[1, 2, 8]);
    let mode = |random: &mut Random| Mode {
        rate: charge(random),
        conditions: conditions(timers, conditions_in, random),
    };
    let step = |random: &mut Random| Move {
        from: random.within(0, mode_count - 1),
        to: random.within(0, mode_count - 1),
        price: charge(random),
        conditions: conditions(timers, conditions_in, random),
        resets: if random.one_in(2) { 0 } else { random.below(1 << timers) as u8 },
    };
    Form {
        mode_count,
        timers,
        move_count,
        goal: random.within(0, mode_count - 1),
        ceilings: [(); 3].map(|()| random.within(1, 15)),
        modes: (0..mode_count).map(|_| mode(random)).collect(),
        moves: (0..move_count).map(|_| step(random)).collect(),
    }
}

/// Fields of which every one stands in the bytes.
fn longest(random: &mut Random) -> Form {
    let both = |random: &mut Random| [[(); 2]; 3].map(|two| two.map(|()| condition(random)));
    let mode = |random: &mut Random| Mode {
        rate: random.draw() as u16 | 0x0101,
        conditions: both(random),
    };
    let step = |random: &mut Random| Move {
        from: random.within(0, 15),
        to: random.within(0, 15),
        price: random.draw() as u16 | 0x0101,
        conditions: both(random),
        resets: random.within(1, 7),
    };
    Form {
        mode_count: 16,
        timers: 3,
        move_count: 64,
        goal: random.within(0, 15),
        ceilings: [(); 3].map(|()| random.within(1, 15)),
        modes: (0..16).map(|_| mode(random)).collect(),
        moves: (0..64).map(|_| step(random)).collect(),
    }
}

/// A rate or price; often its low byte, its high byte or both are 0.
fn charge(random: &mut Random) -> u16 {
    let any = random.draw() as u16;
    random.pick(&[0, 0, any & 0xff, any & 0xff, any & 0xff00, any, 256, u16::MAX])
}

/// Conditions on the timers that are there, once in so many on each.
fn conditions(timers: u8, conditions_in: u64, random: &mut Random) -> Conditions {
    let mut conditions = Conditions::default();
    for places in conditions.iter_mut().take(timers.into()) {
        if random.one_in(conditions_in) {
            let [one, other] = [(); 2].map(|()| condition(random));
            *places =
                random.pick(&[[one, None], [None, one], [None, one], [one, other], [one, one]]);
        }
    }
    conditions
}

fn condition(random: &mut Random) -> Option<Condition> {
    Some(Condition { code: random.within(1, 5), value: random.within(0, 15) })
}

/// Puts one fault in, or changes a count, so that other fields may be faults; sometimes nothing comes
/// of it, where there is no such field.
fn spoil(form: &mut Form, random: &mut Random) {
    let any = random.draw() as u8;
    match random.below(16) {
        0 => form.mode_count = random.pick(&[0, 17, 255, any]),
        1 => form.timers = random.pick(&[0, 4, 255, any]),
        2 => form.move_count = random.pick(&[65, 66, 255, any]),
        3 => form.goal = random.pick(&[form.mode_count, 16, 255, any]),
        4 => form.ceilings[random.below(3) as usize] = random.pick(&[0, 16, 17, 255, any]),
        5 => {
            form.mode_count = random.within(1, 16);
            form.timers = random.within(1, 3);
        }
        kind @ 6..12 if !form.moves.is_empty() => {
            let number = random.below(form.moves.len() as u64) as usize;
            let mode = random.pick(&[form.mode_count, 16, 255, any]);
            let step = &mut form.moves[number];
            match kind {
                6 | 7 => step.from = mode,
                8 | 9 => step.to = mode,
                _ => step.resets |= 1 << random.below(8),
            }
        }
        _ => spoil_condition(form, random),
    }
    // Where a count is in range its records are there.
    if form.mode_count <= 16 && form.modes.len() < form.mode_count.into() {
        form.modes.resize(form.mode_count.into(), Mode::default());
    }
    if form.move_count <= 64 && form.moves.len() < form.move_count.into() {
        form.moves.resize(form.move_count.into(), Move::default());
    }
}

/// Puts a condition on any timer into any record, with a code or value that is out of range, both, or
/// neither. The code is never 0, which the C interface has no way to tell from no condition.
fn spoil_condition(form: &mut Form, random: &mut Random) {
    let record = random.below((form.modes.len() + form.moves.len()) as u64) as usize;
    let [any_code, any_value] = [(); 2].map(|()| random.draw() as u8);
    let (code, value) = (random.within(1, 5), random.within(0, 15));
    let code = random.pick(&[code, code, 6, 15, 16 + code, any_code.max(1)]);
    let value = random.pick(&[value, value, 16, 16 + value, any_value]);
    let (timer, place) = (random.below(3) as usize, random.below(2) as usize);
    if let Some(conditions) = form.conditions().nth(record) {
        conditions[timer][place] = Some(Condition { code, value });
    }
}

#[cfg(test)]
mod tests {
    use super::*;
    use crate::c_form;
    use crate::writer;

    #[test]
    fn the_longest_has_919_bytes() {
        let mut random = Random::new(2, 0);
        assert!((0..100).all(
            |_| writer::write(&longest(&mut random), 919).is_ok_and(|bytes| bytes.len() == 919)
        ));
    }

    /// Records are there wherever they are looked at, and the C interface can express all of it.
    #[test]
    fn what_is_drawn_can_be_given() {
        let mut random = Random::new(1, 0);
        for _ in 0..5_000 {
            let form = drawn_form(&mut random);
            assert!(form.mode_count > 16 || form.modes.len() >= form.mode_count.into());
            assert!(form.move_count > 64 || form.moves.len() >= form.move_count.into());
            let given = c_form::Form::noise(&mut random).with(&form);
            let fields = given.expect("no condition has code 0").fields();
            if form.mode_count <= 16 && form.move_count <= 64 {
                // The same but for what is ignored.
                assert_eq!(fields.as_read(), form.as_read());
            }
        }
    }
}
