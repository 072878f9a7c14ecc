//! The bytes of a timetable gone through as a run of the unit, act by act, in whole minutes.

use crate::table::{Condition, Table};

/// The charge of the run that these pairs are, which must come into the goal; an error tells what is
/// not allowed.
pub fn charge(table: &Table, pairs: &[u8]) -> Result<u64, String> {
    let (mut mode, mut values, mut charge) = (0, vec![0; table.ceilings.len()], 0);
    let (pairs, rest) = pairs.as_chunks();
    if !rest.is_empty() {
        return Err("half a pair".to_string());
    }
    for (number, &[minutes, made]) in pairs.iter().enumerate() {
        let told = |what: &str| format!("pair {number} ({minutes} {made}): {what}");
        values.iter_mut().for_each(|value| *value += u32::from(minutes));
        charge += u64::from(minutes) * u64::from(table.modes[mode].rate);
        stays(table, mode, &values).map_err(|what| told(&format!("waited, {what}")))?;
        let step = table.moves.get(usize::from(made)).ok_or_else(|| told("no such move"))?;
        if step.from != mode {
            return Err(told("the move is from another mode"));
        }
        hold(&step.conditions, &values).map_err(|what| told(&what))?;
        step.resets.iter().for_each(|&timer| values[timer] = 0);
        charge += u64::from(step.price);
        mode = step.to;
        stays(table, mode, &values).map_err(|what| told(&format!("moved, {what}")))?;
    }
    if mode != table.goal {
        return Err(format!("the run ends in mode {mode}"));
    }
    Ok(charge)
}

/// Whether the mode may be there: its conditions hold, and each timer is at or below its ceiling.
fn stays(table: &Table, mode: usize, values: &[u32]) -> Result<(), String> {
    if values.iter().zip(&table.ceilings).any(|(value, ceiling)| value > ceiling) {
        return Err(format!("above a ceiling: {values:?}"));
    }
    hold(&table.modes[mode].conditions, values)
}

fn hold(conditions: &[Condition], values: &[u32]) -> Result<(), String> {
    for condition in conditions {
        let value = values[condition.timer];
        let holds = match condition.code {
            1 => value < condition.value,
            2 => value <= condition.value,
            3 => value == condition.value,
            4 => value >= condition.value,
            _ => value > condition.value,
        };
        if !holds {
            return Err(format!("{condition:?} fails in {values:?}"));
        }
    }
    Ok(())
}

#[cfg(test)]
mod tests {
    use super::*;
    use crate::table::read;

    /// T of document 01, its last byte ≥ 1.
    const T: [u8; 19] = [3, 1, 2, 2, 2, 1, 3, 1, 1, 0, 1, 0, 1, 5, 3, 1, 2, 1, 0x41];

    #[test]
    fn runs_and_what_is_none() {
        let table = read(&T).unwrap();
        assert_eq!(charge(&table, &[0, 0, 1, 1]), Ok(7));
        assert_eq!(charge(&table, &[1, 0, 0, 1]), Ok(9));
        assert_eq!(charge(&table, &[1, 0, 1, 1]), Ok(10));
        let refused: [(&[u8], &str); 7] = [
            (&[], "ends in mode 0"),
            (&[0, 0], "ends in mode 1"),
            (&[0, 0, 1], "half a pair"),
            (&[0, 0, 0, 1], "fails"),
            (&[2, 0, 1, 1], "above a ceiling"),
            (&[1, 1], "another mode"),
            (&[0, 2], "no such move"),
        ];
        for (pairs, why) in refused {
            let error = charge(&table, pairs).unwrap_err();
            assert!(error.contains(why), "{error}");
        }
    }

    /// What a mode asks holds after a wait and after a move.
    #[test]
    fn modes_are_tested() {
        let mode_1_until = |value: u8| {
            let bytes = [&T[..7], &[3, 1, 0x20 + value], &T[9..]].concat();
            charge(&read(&bytes).unwrap(), &[0, 0, 1, 1])
        };
        assert_eq!(mode_1_until(1), Ok(7));
        assert!(mode_1_until(0).unwrap_err().contains("waited"));
        let mode_1_from_1 = [&T[..7], &[3, 1, 0x41], &T[9..]].concat();
        let error = charge(&read(&mode_1_from_1).unwrap(), &[0, 0, 1, 1]).unwrap_err();
        assert!(error.contains("moved"), "{error}");
    }
}
