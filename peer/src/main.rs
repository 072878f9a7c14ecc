//! Cross-checks the proved planner against two independent ones, and measures all three; and the proved
//! timetables and the proved writer of tables against independent ones.

mod bench;
mod blocks;
mod c_form;
mod call;
mod charge;
mod closed;
mod dijkstra;
mod draft;
mod drawn_form;
mod form;
mod forms;
mod fuzz;
mod generate;
mod grid;
mod json;
mod lend;
mod lent;
mod long;
mod measure;
mod memory;
mod paper;
mod proved;
mod random;
mod record;
mod replay;
mod runs;
mod search;
mod shape;
mod table;
mod timetable;
mod timetables;
mod vectors;
mod worst;
mod writer;
mod writing;

use std::process::ExitCode;

const USAGE: &str = "usage:
  peer fuzz SEED COUNT   compare the planners on COUNT tables drawn from SEED, the timetables on these,
                         mostly without < and >, and the writers on these and on as many forms
  peer vectors FILE..    run the calls of the files, and compare their answers with those that they tell
  peer bench             measure the planners on the tables of the folder tables, and the timetables
                         on these without < and >
  peer worst SEED SECONDS [TIMERS]
                         breed tables that are costly for the proved planner, for so many seconds of
                         processor time, and print the costliest as a file of that folder; this needs
                         the feature counted, with which run-peer builds";

fn main() -> ExitCode {
    let arguments: Vec<String> = std::env::args().skip(1).collect();
    let arguments: Vec<&str> = arguments.iter().map(String::as_str).collect();
    match arguments[..] {
        ["fuzz", seed, count] => {
            if let (Ok(seed), Ok(count)) = (seed.parse(), count.parse()) {
                return fuzz::run(seed, count);
            }
        }
        ["vectors", ref files @ ..] if !files.is_empty() => return vectors::run(files),
        ["bench"] => return bench::run(),
        ["worst", seed, seconds, ref timers @ ..] if cfg!(feature = "counted") => {
            if let (Ok(seed), Ok(seconds), Some(timers)) =
                (seed.parse(), seconds.parse(), timers_of(timers))
            {
                return worst::run(seed, seconds, timers);
            }
        }
        // What the bench runs under valgrind.
        ["measured", table, planner] => return bench::measured(table, planner),
        _ => (),
    }
    eprintln!("{USAGE}");
    ExitCode::from(2)
}

/// The number of timers, if one is given. None if it is none that a table may have.
fn timers_of(arguments: &[&str]) -> Option<Option<u8>> {
    match arguments {
        [] => Some(None),
        [timers] => timers.parse().ok().filter(|timers| (1..=3).contains(timers)).map(Some),
        _ => None,
    }
}
