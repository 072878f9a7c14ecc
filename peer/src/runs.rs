//! Holds an answer to the runs of the unit: none is charged less, and runs along the route's moves
//! come as near as one likes. How near is told in parts of what all rates and prices are multiples of:
//! high ones would need finer delays otherwise.

use crate::dijkstra::Answer;
use crate::grid::{least, least_along};
use crate::table::Table;

/// Goes through the runs with delays in q-ths for some q; an error tells a difference.
pub fn check(table: &Table, answer: &Answer) -> Result<(), String> {
    for q in [1, 2, 3, 5, 8] {
        // A charge without a run in q-ths is no difference: strict conditions may need a larger q.
        let Some(s) = least(table, q) else { continue };
        match answer {
            Answer::Route { charge, .. } if s >= u64::from(q) * u64::from(*charge) => (),
            _ => return Err(format!("a run is charged {s} / {q}, route: {answer:?}")),
        }
    }
    let Answer::Route { charge, steps } = answer else { return Ok(()) };
    let moves: Vec<usize> =
        steps.iter().map(|&step| step.into()).filter(|&step| step < 64).collect();
    let part = common_divisor(table);
    for m in nearness(table) {
        // Whether a run in q-ths is charged less than C + part / m.
        let less = |q, s| m * s < u64::from(q) * (m * u64::from(*charge) + part);
        let near = |&q: &u32| least_along(table, q, &moves).is_some_and(|s| less(q, s));
        if !denominators(table).iter().any(near) {
            return Err(format!(
                "no run along the route is charged less than {charge} + {part}/{m}: {answer:?}"
            ));
        }
    }
    Ok(())
}

/// The greatest number that all rates and prices are multiples of; 1 if all are 0.
fn common_divisor(table: &Table) -> u64 {
    fn of(a: u32, b: u32) -> u32 {
        if b == 0 {
            a
        } else {
            of(b, a % b)
        }
    }
    table.charges().fold(0, of).max(1).into()
}

/// The values of m to try. The points of three timers are many, so there m is 1 only.
fn nearness(table: &Table) -> impl Iterator<Item = u64> {
    let most = if table.ceilings.len() == 3 { 1 } else { 4 };
    [1, 2, 4].into_iter().filter(move |&m| m <= most)
}

/// The values of q to try, one after another.
fn denominators(table: &Table) -> &'static [u32] {
    match table.ceilings.len() {
        3 => &[1, 2, 4, 8, 16],
        _ => &[1, 2, 4, 8, 16, 32, 64],
    }
}
