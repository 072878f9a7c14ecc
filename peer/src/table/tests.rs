use super::*;

/// T of document 01.
const T: [u8; 19] = [3, 1, 2, 2, 2, 1, 3, 1, 1, 0, 1, 0, 1, 5, 3, 1, 2, 1, 0x51];

#[test]
fn t_is_read_whole() {
    let condition = Condition { timer: 0, code: 5, value: 1 };
    let mode = |rate| Mode { rate, conditions: vec![] };
    let table = Table {
        goal: 2,
        ceilings: vec![2],
        modes: vec![mode(3), mode(1), mode(0)],
        moves: vec![
            Move { from: 0, to: 1, price: 5, ..Move::default() },
            Move { from: 1, to: 2, price: 1, conditions: vec![condition], resets: vec![] },
        ],
    };
    assert_eq!(read(&T), Ok(table.clone()));
    assert_eq!(node_count(&table), 27);
}

#[test]
fn every_field_is_read_by_rising_bit_and_then_the_high_byte() {
    let bytes = [
        1, 3, 1, 0, 1, 2, 3, // counts, goal and ceilings
        0xff, 9, 0x11, 0x22, 0x30, 0x40, 0x2f, 0x1f, 7, // one mode
        0xff, 0, 0, 8, 0x51, 0x52, 0x53, 0x14, 0x25, 0x36, 0x85, 6, // one move
    ];
    let list = |bytes: &[u8]| -> Vec<Condition> {
        let condition =
            |(i, b): (usize, &u8)| Condition { timer: i % 3, code: b >> 4, value: (b & 15).into() };
        bytes.iter().enumerate().map(condition).collect()
    };
    let table = read(&bytes).unwrap();
    assert_eq!(table.ceilings, [1, 2, 3]);
    let (mode, step) = (list(&bytes[9..15]), list(&bytes[20..26]));
    assert_eq!(table.modes, [Mode { rate: 9 + 7 * 256, conditions: mode }]);
    let (price, conditions, resets) = (8 + 6 * 256, step, vec![0, 2]);
    assert_eq!(table.moves, [Move { from: 0, to: 0, price, conditions, resets }]);
    assert_eq!(node_count(&table), 2 * 3 * 4 * 75);
}

#[test]
fn low_and_high_bytes_may_stand_or_not() {
    let modes: [(&[u8], u32); 7] = [
        (&[0x00], 0),
        (&[0x01, 44], 44),
        (&[0x80, 1], 256),
        (&[0x81, 44, 1], 300),
        (&[0x81, 44, 0], 44),
        (&[0x81, 0, 0], 0),
        (&[0x81, 255, 255], 65_535),
    ];
    for (record, rate) in modes {
        let bytes = [&[1, 1, 0, 0, 1], record].concat();
        assert_eq!(read(&bytes).unwrap().modes[0].rate, rate, "{record:x?}");
    }
    let moves: [(&[u8], u32, &[usize]); 9] = [
        (&[0x00, 0, 0], 0, &[]),
        (&[0x81, 0, 0, 44, 0x00], 44, &[]),
        (&[0x81, 0, 0, 44, 0x01], 44, &[0]),
        (&[0x80, 0, 0, 0x80, 1], 256, &[]),
        (&[0x80, 0, 0, 0x81, 1], 256, &[0]),
        (&[0x81, 0, 0, 44, 0x80, 1], 300, &[]),
        (&[0x81, 0, 0, 44, 0x81, 1], 300, &[0]),
        (&[0x81, 0, 0, 0, 0x80, 0], 0, &[]),
        (&[0x81, 0, 0, 255, 0x80, 255], 65_535, &[]),
    ];
    for (record, price, resets) in moves {
        let bytes = [&[1, 1, 1, 0, 1, 0], record].concat();
        let step = read(&bytes).unwrap().moves.remove(0);
        assert_eq!((step.price, &step.resets[..]), (price, resets), "{record:x?}");
    }
}

#[test]
fn the_longest_table() {
    let mode = [0xff, 1, 0x40, 0x40, 0x40, 0x40, 0x40, 0x40, 1];
    let step = [0xff, 0, 0, 1, 0x40, 0x40, 0x40, 0x40, 0x40, 0x40, 0x87, 1];
    let bytes = [&[16, 3, 64, 15, 1, 1, 1][..], &mode.repeat(16), &step.repeat(64)].concat();
    assert_eq!(bytes.len(), 919);
    let table = read(&bytes).unwrap();
    assert!(table.modes.iter().all(|mode| mode.rate == 257));
    assert!(table.moves.iter().all(|step| step.price == 257));
}

#[test]
fn a_byte_is_judged_before_the_next_is_sought() {
    for length in 0..T.len() {
        assert_eq!(read(&T[..length]), Err(1), "{length} bytes");
    }
    let refused: [(&[u8], u8); 22] = [
        (&[17], 2),
        (&[1, 0], 2),
        (&[1, 4], 2),
        (&[1, 1, 65], 2),
        (&[1, 1, 0, 1], 2),
        (&[1, 1, 0, 0, 0], 2),
        (&[1, 1, 0, 0, 16], 2),
        (&[1, 1, 0, 0, 1, 0x04], 3),
        (&[1, 2, 0, 0, 1, 1, 0x40], 3),
        (&[1, 1, 1, 0, 1, 0, 0x20], 3),
        (&[1, 1, 1, 0, 1, 0, 0x80, 0, 0, 0x02], 3),
        (&[1, 3, 1, 0, 1, 1, 1, 0, 0x80, 0, 0, 0x08], 3),
        // A high byte is sought after the byte that announces it was judged.
        (&[1, 1, 0, 0, 1, 0x80], 1),
        (&[1, 1, 0, 0, 1, 0x84], 3),
        (&[1, 1, 1, 0, 1, 0, 0x80, 0, 0, 0x80], 1),
        (&[1, 1, 1, 0, 1, 0, 0x80, 0, 0, 0x82], 3),
        (&[1, 3, 1, 0, 1, 1, 1, 0, 0x80, 0, 0, 0xc0], 3),
        // It comes after the conditions.
        (&[1, 1, 0, 0, 1, 0x82, 0x60], 4),
        (&[1, 1, 0, 0, 1, 0x02, 0x60], 4),
        (&[1, 1, 1, 0, 1, 0, 0x02, 1], 5),
        (&[1, 1, 1, 0, 1, 0, 0x02, 0, 1], 5),
        // What is left over goes before mode 0's conditions.
        (&[1, 1, 0, 0, 1, 0x02, 0x41, 0], 6),
    ];
    for (bytes, number) in refused {
        assert_eq!(read(bytes), Err(number), "{bytes:?}");
    }
}

#[test]
fn mode_0_is_tested_at_zero() {
    for (condition, holds) in [
        (0x10, false),
        (0x11, true),
        (0x20, true),
        (0x2f, true),
        (0x30, true),
        (0x31, false),
        (0x40, true),
        (0x41, false),
        (0x50, false),
        (0x5f, false),
    ] {
        let answer = read(&[1, 1, 0, 0, 1, 0x02, condition]);
        assert_eq!(answer.err(), if holds { None } else { Some(7) }, "{condition:#x}");
    }
}
