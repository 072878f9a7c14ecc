//! The fields of a table as the vectors tell them.

use super::number;
use crate::form::{Condition, Conditions, Form, Mode, Move};
use crate::json::Json;

pub fn form(fields: &Json) -> Result<Form, String> {
    let ceiling = |ceiling: &Json| match ceiling {
        Json::Number(number) => byte(*number),
        other => Err(format!("no ceiling: {other:?}")),
    };
    let mode = |mode: &Json| {
        Ok(Mode { rate: number(mode, "rate")?, conditions: conditions(mode.list("conditions")?)? })
    };
    let step = |step: &Json| {
        Ok(Move {
            from: number(step, "from")?,
            to: number(step, "to")?,
            price: number(step, "price")?,
            conditions: conditions(step.list("conditions")?)?,
            resets: number(step, "resets")?,
        })
    };
    let form = Form {
        mode_count: number(fields, "m")?,
        timers: number(fields, "n")?,
        move_count: number(fields, "e")?,
        goal: number(fields, "goal")?,
        ceilings: exactly(fields.list("ceilings")?, ceiling)?,
        modes: fields.list("modes")?.iter().map(mode).collect::<Result<_, String>>()?,
        moves: fields.list("moves")?.iter().map(step).collect::<Result<_, String>>()?,
    };
    let is_short = |count: u8, most: u8, records: usize| count <= most && records < count.into();
    if is_short(form.mode_count, 16, form.modes.len())
        || is_short(form.move_count, 64, form.moves.len())
    {
        return Err("records are missing".to_string());
    }
    Ok(form)
}

/// For each timer its first and its further place.
fn conditions(timers: &[Json]) -> Result<Conditions, String> {
    exactly(timers, |places| match places {
        Json::List(places) => exactly(places, place),
        other => Err(format!("no places: {other:?}")),
    })
}

/// Nothing, or a code and a value.
fn place(place: &Json) -> Result<Option<Condition>, String> {
    let Json::List(condition) = place else {
        return match place {
            Json::Null => Ok(None),
            other => Err(format!("no condition: {other:?}")),
        };
    };
    match condition[..] {
        [Json::Number(code), Json::Number(value)] => {
            Ok(Some(Condition { code: byte(code)?, value: byte(value)? }))
        }
        _ => Err(format!("no condition: {condition:?}")),
    }
}

fn byte(number: u64) -> Result<u8, String> {
    number.try_into().map_err(|_| format!("no byte: {number}"))
}

/// The items of a list that has just so many.
fn exactly<T, const N: usize>(
    list: &[Json],
    item: impl Fn(&Json) -> Result<T, String>,
) -> Result<[T; N], String> {
    let items = list.iter().map(item).collect::<Result<Vec<T>, String>>()?;
    items.try_into().map_err(|items: Vec<T>| format!("{} items, not {N}", items.len()))
}
