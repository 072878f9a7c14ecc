//! Runs the shared vectors through the C interface: files with one JSON object a line, which say a
//! call, its inputs and the answer. The independent planner is held to them too. Resets of regions
//! have no call in C.

mod fields;
mod resets;

use crate::c_form;
use crate::dijkstra::{self, Answer};
use crate::form::Form;
use crate::forms;
use crate::json::Json;
use crate::lend::{self, Needs};
use crate::memory::{zeroed, Memory};
use crate::random::Random;
use crate::search::Search;
use crate::table::{node_count, read, read_form};
use crate::writer;
use crate::writing::{self, Written};
use std::process::ExitCode;

/// Runs the files, and says how many lines of each are right.
pub fn run(paths: &[&str]) -> ExitCode {
    for path in paths {
        match file(path) {
            Ok(Count { right, left_out: 0 }) => println!("{path}: {right} right"),
            Ok(Count { right, left_out }) => {
                let why = "no call can be given a condition of code 0";
                println!("{path}: {right} right, {left_out} left out ({why})");
            }
            Err(error) => {
                eprintln!("{path}: {error}");
                return ExitCode::FAILURE;
            }
        }
    }
    ExitCode::SUCCESS
}

/// How many lines of a file are right, and how many no call can express.
#[derive(Default)]
struct Count {
    right: usize,
    left_out: usize,
}

/// The feature of lines that are left out: in C, code 0 says that there is no condition.
const CODE_0: &str = "code 0";

/// Counts the lines, if none is wrong and there is one.
fn file(path: &str) -> Result<Count, String> {
    let text = std::fs::read_to_string(path).map_err(|error| error.to_string())?;
    let mut count = Count::default();
    for (number, text) in text.lines().enumerate() {
        match line(text).map_err(|error| format!("line {}: {error}", number + 1))? {
            Line::Right => count.right += 1,
            Line::LeftOut => count.left_out += 1,
        }
    }
    match text.lines().count() {
        0 => Err("no line".to_string()),
        _ => Ok(count),
    }
}

#[derive(Debug, PartialEq)]
enum Line {
    Right,
    LeftOut,
}

fn line(text: &str) -> Result<Line, String> {
    let line = Json::read(text)?;
    let mut random = Random::new(1, 0);
    match must(&line)? {
        Must::Lend { table, needs } => {
            let got = lend::proved(&table, &mut random)?;
            if got != needs {
                return Err(format!("must be {needs:?}, is {got:?}"));
            }
        }
        Must::Search { search, table, words, route_bytes, searched } => {
            let before = Memory::new(search, &table, words, route_bytes, &mut random);
            for before in [before.clone(), before.inverted()] {
                let must = before.clone().after(&searched.answer, searched.zeroed);
                let got = before.called();
                if got != must {
                    return Err(format!("must be {searched:?}\n{}", must.unlike(&got)));
                }
            }
        }
        Must::Write { form, capacity, written } => {
            let code_0 = Json::Text(CODE_0.to_string());
            let is_left_out = line.list("features").is_ok_and(|named| named.contains(&code_0));
            // What is no field is once 0 and once anything.
            for around in [c_form::Form::zero(), c_form::Form::noise(&mut random)] {
                match around.with(&form) {
                    Some(given) if !is_left_out => {
                        writing::write(&given, capacity, &written, &mut random)?
                    }
                    None if is_left_out => return Ok(Line::LeftOut),
                    _ => {
                        return Err(format!("{CODE_0} is named, or there, but not both: {form:?}"))
                    }
                }
            }
        }
        Must::Reset => resets::hold(&line)?,
        Must::Rewrite { table, capacity, written } => {
            if let Ok(form) = forms::read(&table, &mut random)? {
                let given = forms::given(&form, c_form::Form::zero())?;
                writing::write(&given, capacity, &written, &mut random)?;
            }
        }
    }
    Ok(Line::Right)
}

/// What a planning or timetable leaves: its answer, and so many words 0.
#[derive(Debug, PartialEq)]
struct Searched {
    answer: Answer,
    zeroed: usize,
}

/// A call, and what must come of it.
enum Must {
    Lend {
        table: Vec<u8>,
        needs: Needs,
    },
    Search {
        search: Search,
        table: Vec<u8>,
        words: usize,
        route_bytes: usize,
        searched: Searched,
    },
    Write {
        form: Form,
        capacity: usize,
        written: Written,
    },
    /// Resets of a region.
    Reset,
    /// The table read, and then written.
    Rewrite {
        table: Vec<u8>,
        capacity: usize,
        written: Written,
    },
}

/// The call of a line, and which of the answers that it tells must come.
fn must(line: &Json) -> Result<Must, String> {
    match line.text("call")? {
        "lend" => {
            let table = table(line)?;
            let answer = dijkstra::plan(&table, usize::MAX, usize::MAX);
            let needs = told(line, needs_told, lend::of(&answer, nodes(&table)))?;
            Ok(Must::Lend { table, needs })
        }
        call @ ("plan" | "timetable") => {
            let search = if call == "plan" { Search::Plan } else { Search::Timetable };
            let table = table(line)?;
            let (words, route_bytes) = (number(line, "words")?, number(line, "route")?);
            let answer = search.independent(&table, words, route_bytes);
            let zeroed = zeroed(&answer, nodes(&table));
            let searched =
                told(line, |line| searched_told(search, line), Searched { answer, zeroed })?;
            Ok(Must::Search { search, table, words, route_bytes, searched })
        }
        "write" => {
            let form = fields::form(line.field("fields")?)?;
            let capacity = number(line, "capacity")?;
            let written = told(line, written_told, writer::write(&form, capacity))?;
            Ok(Must::Write { form, capacity, written })
        }
        "rewrite" => {
            let table = table(line)?;
            let capacity = number(line, "capacity")?;
            let written = read_form(&table).and_then(|form| writer::write(&form, capacity));
            let written = told(line, written_told, written)?;
            Ok(Must::Rewrite { table, capacity, written })
        }
        "reset" => Ok(Must::Reset),
        other => Err(format!("there is no call {other}")),
    }
}

fn table(line: &Json) -> Result<Vec<u8>, String> {
    bytes(line.text("table")?)
}

/// E of a table that follows the layout.
fn nodes(table: &[u8]) -> Option<u64> {
    read(table).ok().map(|table| node_count(&table))
}

/// The answer of the independent planner, if the line tells it: as `expect`, or as `expect_final`,
/// which some lines add for when later requests have changed the format.
fn told<T: PartialEq + std::fmt::Debug>(
    line: &Json,
    read: impl Fn(&Json) -> Result<T, String>,
    independent: T,
) -> Result<T, String> {
    let mut told = vec![read(line.field("expect")?)?];
    if let Ok(last) = line.field("expect_final") {
        told.push(read(last)?);
    }
    if told.contains(&independent) {
        return Ok(independent);
    }
    Err(format!("told are {told:?}, the independent planner gives {independent:?}"))
}

fn needs_told(expect: &Json) -> Result<Needs, String> {
    match expect.text("answer")? {
        "lend" => Ok(Needs::Memory {
            words: number(expect, "words")?,
            route_bytes: number(expect, "route")?,
        }),
        "refused" => Ok(Needs::Refused(number(expect, "number")?)),
        other => Err(format!("there is no answer {other}")),
    }
}

fn searched_told(search: Search, expect: &Json) -> Result<Searched, String> {
    let [found, counted] = search.names();
    let answer = match expect.text("answer")? {
        "no route" => Answer::NoRoute,
        "refused" => Answer::Refused(number(expect, "number")?),
        answer if answer == found => {
            let charge = number(expect, "charge")?;
            let steps = bytes(expect.text("route")?)?;
            let count: usize = number(expect, counted)?;
            if steps.len() != count * search.bytes_each() {
                return Err(format!(
                    "the {found} has {} bytes, not {count} {counted}",
                    steps.len()
                ));
            }
            Answer::Route { charge, steps }
        }
        other => return Err(format!("there is no answer {other}")),
    };
    Ok(Searched { answer, zeroed: number(expect, "words_zeroed")? })
}

fn written_told(expect: &Json) -> Result<Written, String> {
    match expect.text("answer")? {
        "written" => {
            let bytes = bytes(expect.text("bytes")?)?;
            if bytes.len() != number(expect, "length")? {
                return Err(format!("there are {} bytes", bytes.len()));
            }
            Ok(Ok(bytes))
        }
        "refused" => Ok(Err(number(expect, "number")?)),
        other => Err(format!("there is no answer {other}")),
    }
}

/// The field that is a number, if it fits.
fn number<T: TryFrom<u64>>(object: &Json, name: &str) -> Result<T, String> {
    let number = object.number(name)?;
    number.try_into().map_err(|_| format!("{name} is too large: {number}"))
}

/// Bytes in hexadecimal, two digits each.
fn bytes(hex: &str) -> Result<Vec<u8>, String> {
    let byte = |at: usize| hex.get(at..at + 2).and_then(|two| u8::from_str_radix(two, 16).ok());
    let bytes: Option<Vec<u8>> = (0..hex.len()).step_by(2).map(byte).collect();
    bytes.ok_or(format!("not hexadecimal: {hex}"))
}

#[cfg(test)]
mod tests;
