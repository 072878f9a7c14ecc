//! Measures the three planners side by side; and on closed tables the timetables beside planning.

use crate::call::{Call, Planner, ON_CLOSED, PLANNERS};
use crate::closed::closed;
use crate::measure::{heap_bytes, instructions, stack_bytes};
use crate::paper::Outcome;
use crate::search::Search;
use crate::table::{node_count, read};
use std::path::Path;
use std::process::ExitCode;
use std::time::{Duration, Instant};

macro_rules! tables {
    ($($name:literal)*) => {
        [$(($name, include_str!(concat!("../../tables/", $name, ".hex")))),*]
    };
}

/// The tables that are measured: name, and bytes in hexadecimal with comments after `#`.
const TABLES: [(&str, &str); 22] = tables![
    "T" "figure-2"
    "one-timer-narrow-24" "one-timer-narrow-64" "one-timer-wide-24" "one-timer-wide-64"
    "unit-24" "unit-64" "two-timers-wide-24" "two-timers-wide-64"
    "three-timers-narrow-24" "three-timers-narrow-64" "three-timers-wide-24" "three-timers-wide-64"
    "worst-one-timer" "worst-two-timers" "worst-three-timers"
    "bred-one-timer" "bred-two-timers" "bred-three-timers"
    "largest-narrow-64" "largest-wide-64"
];

/// How long each table is timed for, unless so many runs were made before.
const TIMED_FOR: Duration = Duration::from_secs(2);
const MOST_RUNS: usize = 10_000;

pub fn bytes(text: &str) -> Vec<u8> {
    let lines = text.lines().map(|line| line.split('#').next().unwrap_or(""));
    let byte = |hex| u8::from_str_radix(hex, 16).expect("a table's bytes are hexadecimal");
    lines.flat_map(str::split_whitespace).map(byte).collect()
}

/// The way back.
pub fn hexadecimal(bytes: &[u8]) -> String {
    let bytes: Vec<String> = bytes.iter().map(|byte| format!("{byte:02x}")).collect();
    bytes.join(" ")
}

/// The name of the function in which valgrind counts.
const MEASURED: &str = "peer_measured";

#[inline(never)]
#[no_mangle]
extern "C" fn peer_measured(call: &mut Call) {
    call.make();
}

/// The instructions of a call in this or another build of peer, as valgrind counts them. None if there
/// is no valgrind.
pub fn instructions_of(peer: &Path, table: &[u8], planner: Planner) -> Option<u64> {
    instructions(peer, MEASURED, &["measured", &hexadecimal(table), planner.name()])
}

/// Makes a first call outside of what is measured, of T, closed, and one inside. It is run by valgrind.
pub fn measured(table: &str, planner: &str) -> ExitCode {
    let planner = PLANNERS.into_iter().chain(ON_CLOSED).find(|known| known.name() == planner);
    let Some(planner) = planner else { return ExitCode::from(2) };
    let call = |bytes: Vec<u8>| {
        let nodes = read(&bytes).map_or(0, |table| node_count(&table));
        Call::new(planner, &bytes, nodes)
    };
    call(closed(&bytes(TABLES[0].1))).make();
    peer_measured(&mut call(bytes(table)));
    ExitCode::SUCCESS
}

/// Measures every table and prints one table of all, and then another with each of them closed.
pub fn run() -> ExitCode {
    let all = TABLES.map(|(name, text)| (name, bytes(text)));
    let all_closed = all.clone().map(|(name, bytes)| (name, closed(&bytes)));
    let caption = "\nWith < turned into ≤ and > into ≥:\n\n";
    for (caption, tables, planners) in [("", all, PLANNERS), (caption, all_closed, ON_CLOSED)] {
        match rows(&tables, planners) {
            Ok(rows) => {
                print!("{caption}");
                print(&rows);
            }
            Err(difference) => {
                println!("DIFFERENCE: {difference}");
                return ExitCode::FAILURE;
            }
        }
    }
    ExitCode::SUCCESS
}

/// The heading and a row for each table, by its name and bytes.
fn rows(tables: &[(&str, Vec<u8>)], planners: [Planner; 3]) -> Result<Vec<Vec<String>>, String> {
    let mut rows = vec![heading(planners)];
    for (name, bytes) in tables {
        rows.push(
            row(name, bytes, planners).map_err(|difference| format!("{name}: {difference}"))?,
        );
    }
    Ok(rows)
}

/// The first of them is a proved call, whose steps or pairs are told.
fn heading(planners: [Planner; 3]) -> Vec<String> {
    let [_, counted] = planners[0].proved().map_or(["", "steps"], Search::names);
    let mut cells = ["table", "E", "moves", counted].map(String::from).to_vec();
    for planner in planners {
        let memory = if planner.proved().is_some() { "lent" } else { "heap" };
        for what in ["instructions", "µs", "stack", memory] {
            cells.push(format!("{} {what}", planner.name()));
        }
    }
    cells
}

/// What is measured of one table; an error tells charges that differ.
fn row(name: &str, bytes: &[u8], planners: [Planner; 3]) -> Result<Vec<String>, String> {
    let table = read(bytes).map_err(|number| format!("refused {number}"))?;
    let nodes = node_count(&table);
    let mut calls = planners.map(|planner| Call::new(planner, bytes, nodes));
    calls.iter_mut().for_each(Call::make);
    let outcomes = calls.each_ref().map(|call| call.outcome);
    let agrees = |other| other == outcomes[0] || other == Some(Outcome::GaveUp);
    if outcomes[0].is_none() || !outcomes.into_iter().all(agrees) {
        return Err(format!("{outcomes:?}"));
    }
    let mut cells = vec![name.into()];
    cells.extend([nodes, table.moves.len() as u64].map(grouped));
    cells.push(match outcomes[0] {
        Some(Outcome::Charge(_)) => grouped(calls[0].count as u64),
        _ => "no route".into(),
    });
    let times = best_times(&mut calls);
    for (call, time) in calls.iter_mut().zip(times) {
        if call.outcome == Some(Outcome::GaveUp) {
            cells.extend(["gave up", "-", "-", "-"].map(String::from));
            continue;
        }
        let peer = std::env::current_exe().ok();
        let counted = peer.and_then(|peer| instructions_of(&peer, bytes, call.planner));
        cells.push(counted.map_or("-".into(), grouped));
        cells.push(format!("{:.1}", time.as_secs_f64() * 1e6));
        cells.push(grouped(stack_bytes(|| call.make()) as u64));
        cells.push(grouped(memory(call, nodes)));
    }
    Ok(cells)
}

/// The bytes of memory beside the stack: the words lent to a proved call, or the heap.
fn memory(call: &mut Call, nodes: u64) -> u64 {
    let heap = heap_bytes(|| call.make()) as u64;
    if call.planner.proved().is_none() {
        return heap;
    }
    assert_eq!(heap, 0, "a proved call takes no heap");
    8 * nodes
}

/// The best time of each call, made in turn many times. One that gave up is not made again.
fn best_times(calls: &mut [Call; 3]) -> [Duration; 3] {
    let mut best = [Duration::MAX; 3];
    let begun = Instant::now();
    for _ in 0..MOST_RUNS {
        for (call, best) in calls.iter_mut().zip(&mut best) {
            if call.outcome != Some(Outcome::GaveUp) {
                let begun = Instant::now();
                call.make();
                *best = begun.elapsed().min(*best);
            }
        }
        if begun.elapsed() > TIMED_FOR {
            break;
        }
    }
    best
}

/// A number with a comma before every three digits.
pub fn grouped(number: u64) -> String {
    let digits = number.to_string();
    let mut text = String::new();
    for (at, digit) in digits.chars().enumerate() {
        if at > 0 && (digits.len() - at).is_multiple_of(3) {
            text.push(',');
        }
        text.push(digit);
    }
    text
}

/// Prints the rows under the first of them, as markdown has it. All columns but the first are
/// numbers, so they end together.
fn print(rows: &[Vec<String>]) {
    let widths: Vec<usize> = (0..rows[0].len())
        .map(|column| rows.iter().map(|row| row[column].chars().count()).max().unwrap_or(0))
        .collect();
    for (number, row) in rows.iter().enumerate() {
        let cells: String = (row.iter().zip(&widths).enumerate())
            .map(|(column, (cell, &width))| match column {
                0 => format!(" {cell:<width$} |"),
                _ => format!(" {cell:>width$} |"),
            })
            .collect();
        println!("|{cells}");
        if number == 0 {
            let rule = |(column, width): (usize, &usize)| {
                format!("{}{}|", "-".repeat(width + 1), if column == 0 { "-" } else { ":" })
            };
            println!("|{}", widths.iter().enumerate().map(rule).collect::<String>());
        }
    }
}
