//! A writer of tables, as request N3 asks for it: all fields are judged first, record by record, and
//! then the bytes of those that are in order are put together.

use crate::form::{Condition, Conditions, Form};
use crate::record::{write_mode, write_move, Fields, HIGH, LOW, RESETS};

/// The bytes of the table, if so many have room for them, or the number of the refusal.
pub fn write(form: &Form, capacity: usize) -> Result<Vec<u8>, u8> {
    judge(form)?;
    let bytes = bytes(form);
    if bytes.len() > capacity {
        return Err(11);
    }
    Ok(bytes)
}

/// The number of the first fault in the order of the bytes, if there is one.
fn judge(form: &Form) -> Result<(), u8> {
    // Every fault before the first record has the same number.
    let counts = (1..=16).contains(&form.mode_count)
        && (1..=3).contains(&form.timers)
        && form.move_count <= 64
        && form.goal < form.mode_count;
    refuse(2, !counts || !ceilings(form).iter().all(|ceiling| (1..=15).contains(ceiling)))?;
    for mode in form.modes.iter().take(form.mode_count.into()) {
        refuse(3, has_absent_timer(form, &mode.conditions))?;
        refuse(4, has_bad_condition(&mode.conditions))?;
    }
    for step in form.moves.iter().take(form.move_count.into()) {
        refuse(3, has_absent_timer(form, &step.conditions))?;
        refuse(5, step.from.max(step.to) >= form.mode_count)?;
        refuse(4, has_bad_condition(&step.conditions))?;
        // Bit 7 is no field: whether it stands follows from the price.
        refuse(3, step.resets >> form.timers != 0)?;
    }
    Ok(())
}

fn refuse(number: u8, is_fault: bool) -> Result<(), u8> {
    if is_fault {
        return Err(number);
    }
    Ok(())
}

fn ceilings(form: &Form) -> &[u8] {
    &form.ceilings[..form.timers.into()]
}

/// Whether the map would have a bit for an absent timer.
fn has_absent_timer(form: &Form, conditions: &Conditions) -> bool {
    conditions.iter().skip(form.timers.into()).flatten().any(Option::is_some)
}

fn has_bad_condition(conditions: &Conditions) -> bool {
    let is_bad = |given: &Condition| !(1..=5).contains(&given.code) || given.value > 15;
    conditions.iter().flatten().flatten().any(is_bad)
}

/// The bytes of fields that are in order.
fn bytes(form: &Form) -> Vec<u8> {
    let mut bytes = vec![form.mode_count, form.timers, form.move_count, form.goal];
    bytes.extend(ceilings(form));
    for mode in form.modes.iter().take(form.mode_count.into()) {
        write_mode(&mut bytes, fields(mode.rate, &mode.conditions, 0));
    }
    for step in form.moves.iter().take(form.move_count.into()) {
        let fields = fields(step.price, &step.conditions, step.resets);
        write_move(&mut bytes, fields, [step.from, step.to]);
    }
    bytes
}

/// The fields of a record that stand in its bytes: those that are 0 do not.
fn fields(charge: u16, conditions: &Conditions, resets: u8) -> Fields {
    let unless_zero = |byte: u8| (byte > 0).then_some(byte);
    let [low, high] = charge.to_le_bytes();
    let mut fields = [None; 9];
    [fields[LOW], fields[RESETS], fields[HIGH]] = [low, resets, high].map(unless_zero);
    for (timer, places) in conditions.iter().enumerate() {
        // The first that is given stands in the first place, wherever it was given.
        let mut given = places.iter().flatten().map(|given| 16 * given.code + given.value);
        [fields[1 + timer], fields[4 + timer]] = [given.next(), given.next()];
    }
    fields
}

#[cfg(test)]
mod tests;
