//! Resets of regions, which have no call in C. The program `cases` makes them: its script has their
//! lines. Here the lines are held to what is told, and so is the independent region, in every order.

use super::number;
use crate::json::Json;
use crate::paper::{self, Parts};

/// The script of `cases`, and what must come out.
const SCRIPT: &str = include_str!("../../../crates/cases/stdin");
const OUTPUT: &str = include_str!("../../../crates/cases/stdout");

const ORDERS: [[usize; 3]; 6] = [[0, 1, 2], [0, 2, 1], [1, 0, 2], [1, 2, 0], [2, 0, 1], [2, 1, 0]];

pub fn hold(line: &Json) -> Result<(), String> {
    let (region, told) = (parts(line)?, parts(line.field("expect")?)?);
    let resets: u8 = number(line, "mask")?;
    for order in ORDERS {
        // A timer that the region does not have changes nothing.
        let is_named = |timer: &usize| *timer < region.whole.len() && resets >> timer & 1 == 1;
        let named: Vec<usize> = order.into_iter().filter(is_named).collect();
        let independent = paper::reset(&region, &named)?;
        if independent != told {
            return Err(format!("told is {told:?}, the independent region is {independent:?}"));
        }
    }
    in_script(&script_line(&region, resets), &output_line(&told))
}

fn parts(object: &Json) -> Result<Parts, String> {
    Ok(Parts {
        whole: numbers(object.list("whole")?)?,
        group: numbers(object.list("group")?)?,
        prices: numbers(object.list("prices")?)?,
    })
}

fn numbers<T: TryFrom<u64>>(list: &[Json]) -> Result<Vec<T>, String> {
    let number = |entry: &Json| match entry {
        Json::Number(number) => T::try_from(*number).ok(),
        _ => None,
    };
    list.iter().map(number).collect::<Option<_>>().ok_or(format!("no numbers: {list:?}"))
}

fn script_line(region: &Parts, resets: u8) -> String {
    let prices: Vec<String> = region.prices.iter().map(|price| format!("{price:08x}")).collect();
    let three = |entries: &[u8]| {
        let mut three = [0; 3];
        three[..entries.len()].copy_from_slice(entries);
        spaced(&three)
    };
    let (whole, group) = (three(&region.whole), three(&region.group));
    format!("reset {} {resets}{whole}{group}: {}", region.whole.len(), prices.join(" "))
}

fn output_line(region: &Parts) -> String {
    let Parts { whole, group, prices } = region;
    format!("reset: whole{} groups{} prices{}", spaced(whole), spaced(group), spaced(prices))
}

fn spaced<T: std::fmt::Display>(entries: &[T]) -> String {
    entries.iter().map(|entry| format!(" {entry}")).collect()
}

/// Whether the script has the line, and the output what comes of it at the same place.
fn in_script(call: &str, must: &str) -> Result<(), String> {
    let calls = SCRIPT.lines().filter(|line| line.starts_with("reset "));
    let outputs = OUTPUT.lines().filter(|line| line.starts_with("reset: "));
    match calls.zip(outputs).find(|(line, _)| *line == call) {
        Some((_, output)) if output == must => Ok(()),
        Some((_, output)) => Err(format!("{call}: told is {must}, `cases` prints {output}")),
        None => Err(format!("the script of `cases` has no line {call}")),
    }
}
