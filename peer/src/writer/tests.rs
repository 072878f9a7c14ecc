use super::*;
use crate::form::{Mode, Move};
use crate::table::{read, read_form};

/// T of document 01.
const T: [u8; 19] = [3, 1, 2, 2, 2, 1, 3, 1, 1, 0, 1, 0, 1, 5, 3, 1, 2, 1, 0x51];

fn given(code: u8, value: u8) -> Option<Condition> {
    Some(Condition { code, value })
}

/// One mode, three timers and one move, with nothing in them.
fn small() -> Form {
    Form {
        mode_count: 1,
        timers: 3,
        move_count: 1,
        goal: 0,
        ceilings: [1, 2, 3],
        modes: vec![Mode::default()],
        moves: vec![Move::default()],
    }
}

/// The answer for the small form with a change.
fn changed(change: impl Fn(&mut Form)) -> Result<Vec<u8>, u8> {
    let mut form = small();
    change(&mut form);
    write(&form, usize::MAX)
}

#[test]
fn t_is_written_as_it_was() {
    let form = read_form(&T).unwrap();
    assert_eq!(write(&form, 19), Ok(T.to_vec()));
    assert_eq!(write(&form, 18), Err(11));
}

#[test]
fn zeros_are_left_out_and_a_high_byte_is_announced() {
    let mode = |rate| changed(|form| form.modes[0].rate = rate).map(|bytes| bytes[7..].to_vec());
    assert_eq!(mode(0), Ok(vec![0, 0, 0, 0]));
    assert_eq!(mode(255), Ok(vec![1, 255, 0, 0, 0]));
    assert_eq!(mode(256), Ok(vec![0x80, 1, 0, 0, 0]));
    assert_eq!(mode(257), Ok(vec![0x81, 1, 1, 0, 0, 0]));
    let step = |price, resets| {
        let bytes = changed(|form| (form.moves[0].price, form.moves[0].resets) = (price, resets));
        bytes.map(|bytes| bytes[8..].to_vec())
    };
    assert_eq!(step(0, 0), Ok(vec![0, 0, 0]));
    assert_eq!(step(0, 5), Ok(vec![0x80, 0, 0, 5]));
    assert_eq!(step(256, 0), Ok(vec![0x80, 0, 0, 0x80, 1]));
    assert_eq!(step(257, 7), Ok(vec![0x81, 0, 0, 1, 0x87, 1]));
}

#[test]
fn an_only_condition_goes_to_the_first_place() {
    let step = |places| {
        let bytes = changed(|form| form.moves[0].conditions[1] = places);
        bytes.map(|bytes| bytes[8..].to_vec())
    };
    let (one, other) = (given(4, 1), given(2, 15));
    assert_eq!(step([one, None]), Ok(vec![0x04, 0, 0, 0x41]));
    assert_eq!(step([None, one]), Ok(vec![0x04, 0, 0, 0x41]));
    assert_eq!(step([one, other]), Ok(vec![0x24, 0, 0, 0x41, 0x2f]));
    assert_eq!(step([other, one]), Ok(vec![0x24, 0, 0, 0x2f, 0x41]));
    assert_eq!(step([one, one]), Ok(vec![0x24, 0, 0, 0x41, 0x41]));
}

/// The longest table: every field stands.
#[test]
fn the_longest_table_is_read_as_its_fields() {
    let conditions = [[given(4, 0), given(2, 15)]; 3];
    let step = Move { from: 0, to: 15, price: 0xffff, conditions, resets: 7 };
    let form = Form {
        mode_count: 16,
        timers: 3,
        move_count: 64,
        goal: 15,
        ceilings: [15; 3],
        modes: vec![Mode { rate: 0xffff, conditions }; 16],
        moves: vec![step; 64],
    };
    let bytes = write(&form, 919).unwrap();
    assert_eq!(bytes.len(), 919);
    assert_eq!(write(&form, 918), Err(11));
    assert_eq!(read_form(&bytes), Ok(form));
}

#[test]
fn what_is_ignored_is_not_judged() {
    let mut form = read_form(&T).unwrap();
    form.ceilings = [2, 0, 255];
    form.modes.push(Mode { rate: 1, conditions: [[given(9, 99); 2]; 3] });
    form.moves.push(Move { from: 99, to: 99, price: 1, conditions: [[None; 2]; 3], resets: 255 });
    assert_eq!(write(&form, 19), Ok(T.to_vec()));
    assert_eq!(form.as_read(), read_form(&T).unwrap());
}

/// What fails at zero is written all the same.
#[test]
fn the_writer_never_gives_7() {
    let bytes = changed(|form| form.modes[0].conditions[0] = [None, given(5, 0)]).unwrap();
    assert_eq!(read(&bytes), Err(7));
}

#[test]
fn every_range_ends_where_it_does() {
    type Change = fn(&mut Form);
    let changes: [(Change, u8); 16] = [
        (|form| form.mode_count = 0, 2),
        (|form| form.mode_count = 17, 2),
        (|form| form.timers = 0, 2),
        (|form| form.timers = 4, 2),
        (|form| form.move_count = 65, 2),
        (|form| form.goal = 1, 2),
        (|form| form.ceilings[2] = 0, 2),
        (|form| form.ceilings[0] = 16, 2),
        (|form| form.moves[0].from = 1, 5),
        (|form| form.moves[0].to = 1, 5),
        (|form| form.modes[0].conditions[0][0] = given(0, 0), 4),
        (|form| form.modes[0].conditions[0][0] = given(6, 0), 4),
        (|form| form.moves[0].conditions[2][1] = given(17, 0), 4),
        (|form| form.moves[0].conditions[2][1] = given(1, 16), 4),
        (|form| form.moves[0].resets = 8, 3),
        (|form| form.moves[0].resets = 0x80, 3),
    ];
    for (number, (change, refusal)) in changes.into_iter().enumerate() {
        assert_eq!(changed(change), Err(refusal), "change {number}");
    }
}

/// In a record: the map, from and to, the conditions, the resets; and the records one after another.
#[test]
fn the_first_fault_in_the_order_of_the_bytes_decides() {
    let mut form = small();
    form.timers = 2;
    form.moves[0] = Move {
        from: 9,
        to: 9,
        price: 0,
        conditions: [[given(9, 0), None], [None; 2], [None, given(9, 9)]],
        resets: 4,
    };
    assert_eq!(write(&form, 0), Err(3));
    form.moves[0].conditions[2] = [None; 2];
    assert_eq!(write(&form, 0), Err(5));
    form.moves[0].from = 0;
    assert_eq!(write(&form, 0), Err(5));
    form.moves[0].to = 0;
    assert_eq!(write(&form, 0), Err(4));
    form.moves[0].conditions[0] = [None, given(5, 15)];
    assert_eq!(write(&form, 0), Err(3));
    form.modes[0].conditions[1] = [None, given(6, 0)];
    assert_eq!(write(&form, 0), Err(4));
    form.ceilings[1] = 0;
    assert_eq!(write(&form, 0), Err(2));
    form.ceilings[1] = 1;
    form.modes[0].conditions[1] = [None; 2];
    form.moves[0].resets = 3;
    assert_eq!(write(&form, 0), Err(11));
    assert_eq!(write(&form, 12), Ok(vec![1, 2, 1, 0, 1, 1, 0, 0x82, 0, 0, 0x5f, 3]));
}
