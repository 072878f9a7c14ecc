use super::*;
use crate::fuzz::outcome_of;
use crate::paper::least_charge;

/// T of document 01.
const T: &str = "03010202020103010100010001050301020151";

fn lend_line(words: u32, more: &str) -> String {
    let expect = format!(r#"{{"answer":"lend","words":{words},"route":26}}"#);
    format!(r#"{{"call":"lend","table":"{T}","expect":{expect}{more}}}"#)
}

#[test]
fn a_line_is_held_to_the_call() {
    assert_eq!(line(&lend_line(54, "")), Ok(Line::Right));
    assert!(line(&lend_line(53, "")).is_err());
    assert!(line(r#"{"call":"lend","table":"0","expect":{"answer":"lend"}}"#).is_err());
    assert!(line(r#"{"call":"none","table":""}"#).is_err());
}

#[test]
fn a_planning_is_held_to_the_call() {
    let plan_line = |route_bytes: u32, expect: &str| {
        let lent = format!(r#""words":60,"route":{route_bytes}"#);
        line(&format!(r#"{{"call":"plan","table":"{T}",{lent},"expect":{{{expect}}}}}"#))
    };
    let route = |charge: u32, steps: u32, bytes: &str, zeroed: u32| {
        let told = format!(r#""answer":"route","charge":{charge},"steps":{steps}"#);
        plan_line(7, &format!(r#"{told},"route":"{bytes}","words_zeroed":{zeroed}"#))
    };
    assert_eq!(route(7, 5, "0040404001", 54), Ok(Line::Right));
    assert!(route(6, 5, "0040404001", 54).is_err());
    assert!(route(7, 4, "0040404001", 54).is_err());
    assert!(route(7, 5, "0040404101", 54).is_err());
    assert!(route(7, 5, "0040404001", 55).is_err());
    let refused = |zeroed: u32| {
        plan_line(4, &format!(r#""answer":"refused","number":10,"words_zeroed":{zeroed}"#))
    };
    assert_eq!(refused(54), Ok(Line::Right));
    assert!(refused(0).is_err());
    assert!(plan_line(7, r#""answer":"no route","words_zeroed":54"#).is_err());
}

#[test]
fn a_timetable_is_held_to_the_call() {
    let timetable_line = |last: &str, route_bytes: u32, expect: &str| {
        let table = format!("{}{last}", &T[..36]);
        let lent = format!(r#""words":60,"route":{route_bytes}"#);
        line(&format!(r#"{{"call":"timetable","table":"{table}",{lent},"expect":{{{expect}}}}}"#))
    };
    let found = |answer: &str, charge: u32, pairs: u32, bytes: &str| {
        let told = format!(r#""answer":"{answer}","charge":{charge},"pairs":{pairs}"#);
        timetable_line("41", 5, &format!(r#"{told},"route":"{bytes}","words_zeroed":54"#))
    };
    assert_eq!(found("timetable", 7, 2, "00000101"), Ok(Line::Right));
    assert!(found("timetable", 8, 2, "00000101").is_err());
    assert!(found("timetable", 7, 4, "00000101").is_err());
    assert!(found("timetable", 7, 2, "0000010101").is_err());
    assert!(found("timetable", 7, 2, "01000001").is_err());
    assert!(found("route", 7, 2, "00000101").is_err());
    let refused = |last: &str, number: u32, zeroed: u32| {
        let told = format!(r#""answer":"refused","number":{number},"words_zeroed":{zeroed}"#);
        timetable_line(last, 3, &told)
    };
    assert_eq!(refused("41", 10, 54), Ok(Line::Right));
    assert_eq!(refused("51", 12, 0), Ok(Line::Right));
    assert!(refused("51", 12, 54).is_err());
    let none = r#""answer":"no route","words_zeroed":54"#;
    assert_eq!(timetable_line("43", 3, none), Ok(Line::Right));
    assert!(timetable_line("41", 4, none).is_err());
}

#[test]
fn a_writing_is_held_to_the_call() {
    let write_line = |mode: &str, capacity: u32, expect: &str, more: &str| {
        let counts = r#""m":1,"n":1,"e":0,"goal":0,"ceilings":[1,0,0]"#;
        let none = "[null,null]";
        let modes = format!(r#"[{{"rate":256,"conditions":[{mode},{none},{none}]}}]"#);
        let fields = format!(r#"{{{counts},"modes":{modes},"moves":[]}}"#);
        let given = format!(r#""fields":{fields},"capacity":{capacity}{more}"#);
        line(&format!(r#"{{"call":"write",{given},"expect":{{{expect}}}}}"#))
    };
    let written = r#""answer":"written","length":8,"bytes":"0101000001824101""#;
    let refused = |number: u32| format!(r#""answer":"refused","number":{number}"#);
    assert_eq!(write_line("[[4,1],null]", 8, written, ""), Ok(Line::Right));
    assert_eq!(write_line("[null,[4,1]]", 9, written, ""), Ok(Line::Right));
    assert_eq!(write_line("[[4,1],null]", 7, &refused(11), ""), Ok(Line::Right));
    assert_eq!(write_line("[[4,16],null]", 8, &refused(4), ""), Ok(Line::Right));
    assert!(write_line("[[4,1],null]", 8, &refused(4), "").is_err());
    assert!(write_line("[[4,2],null]", 8, written, "").is_err());
    assert!(write_line("[[4,1]]", 8, written, "").is_err());
    // Code 0 is left out if the line says so, and nothing else is.
    let named = r#","features":["code 0"]"#;
    assert_eq!(write_line("[[0,1],null]", 8, &refused(4), named), Ok(Line::LeftOut));
    assert!(write_line("[[0,1],null]", 8, &refused(4), "").is_err());
    assert!(write_line("[[4,1],null]", 8, written, named).is_err());
}

#[test]
fn a_table_is_read_and_written() {
    let rewrite_line = |table: &str, capacity: u32, expect: &str| {
        let given = format!(r#""table":"{table}","capacity":{capacity}"#);
        line(&format!(r#"{{"call":"rewrite",{given},"expect":{{{expect}}}}}"#))
    };
    let written = r#""answer":"written","length":7,"bytes":"01010000010220""#;
    assert_eq!(rewrite_line("010100000191002000", 7, written), Ok(Line::Right));
    assert_eq!(rewrite_line(T, 18, r#""answer":"refused","number":11"#), Ok(Line::Right));
    assert_eq!(rewrite_line("00", 18, r#""answer":"refused","number":2"#), Ok(Line::Right));
    assert!(rewrite_line(T, 19, written).is_err());
}

#[test]
fn the_independent_planner_decides_between_two_answers() {
    let last = |answer: &str| format!(r#","expect_final":{{{answer}}}"#);
    let refused = last(r#""answer":"refused","number":1"#);
    assert_eq!(line(&lend_line(54, &refused)), Ok(Line::Right));
    assert!(line(&lend_line(53, &refused)).is_err());
    let right = last(r#""answer":"lend","words":54,"route":26"#);
    assert_eq!(line(&lend_line(53, &right)), Ok(Line::Right));
}

/// Every line here tells what the independent planner and the paper's algorithm come to.
#[test]
fn the_independent_planner_is_held_to_every_line() {
    let folder = std::fs::read_dir(concat!(env!("CARGO_MANIFEST_DIR"), "/vectors")).unwrap();
    let paths = folder.map(|entry| entry.unwrap().path());
    let (mut lines, mut timetables) = (0, 0);
    for path in paths.filter(|path| path.extension().is_some_and(|name| name == "jsonl")) {
        for text in std::fs::read_to_string(path).unwrap().lines() {
            let line = Json::read(text).unwrap();
            must(&line).unwrap_or_else(|error| panic!("{text}\n{error}"));
            lines += 1;
            // Fields are not planned.
            let Ok(bytes) = table(&line) else { continue };
            let answer = dijkstra::plan(&bytes, usize::MAX, usize::MAX);
            if answer.is_searched() {
                let charge = least_charge(&read(&bytes).unwrap(), u64::MAX);
                assert_eq!(charge, outcome_of(&answer), "{text}");
            }
            // So do timetables, wherever there may be one.
            let timetable = Search::Timetable.independent(&bytes, usize::MAX, usize::MAX);
            if timetable.is_searched() {
                assert_eq!(outcome_of(&timetable), outcome_of(&answer), "{text}");
                timetables += 1;
            }
        }
    }
    assert!(lines > 1_500 && timetables > 300, "{lines} {timetables}");
}

#[test]
fn a_reset_is_held_to_the_script() {
    let reset_line = |groups: &str, resets: u32, prices: &str| {
        let region = format!(r#""whole":[5,7],"group":[{groups}],"prices":[9,4],"mask":{resets}"#);
        let expect = format!(r#""whole":[0,0],"group":[0,0],"prices":[{prices}]"#);
        line(&format!(r#"{{"call":"reset",{region},"expect":{{{expect}}}}}"#))
    };
    assert_eq!(reset_line("1,1", 3, "4"), Ok(Line::Right));
    assert!(reset_line("1,1", 3, "9").is_err());
    // The script has no such line.
    assert!(reset_line("1,1", 7, "4").is_err());
    // No region has these groups.
    assert!(reset_line("2,2", 3, "4").is_err());
}
