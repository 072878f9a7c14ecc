//! The record of a mode or move before it is written.

/// The fields of a record in the order of their bytes: at 0 to 7 those of the map's bits, and last
/// the high byte of the rate or price. A mode has no resets.
pub type Fields = [Option<u8>; 9];

/// The low byte of the rate or price.
pub const LOW: usize = 0;
pub const RESETS: usize = 7;
pub const HIGH: usize = 8;

/// The bit that announces a high byte.
const ANNOUNCES: u8 = 0x80;

pub fn write_mode(bytes: &mut Vec<u8>, fields: Fields) {
    let high = if fields[HIGH].is_some() { ANNOUNCES } else { 0 };
    bytes.push(map(&fields) | high);
    bytes.extend(fields.into_iter().flatten());
}

/// Writes a move with its from and to mode.
pub fn write_move(bytes: &mut Vec<u8>, mut fields: Fields, ends: [u8; 2]) {
    if fields[HIGH].is_some() {
        fields[RESETS] = Some(fields[RESETS].unwrap_or(0) | ANNOUNCES);
    }
    bytes.push(map(&fields));
    bytes.extend(ends);
    bytes.extend(fields.into_iter().flatten());
}

/// A bit for each field up to the resets that is there.
fn map(fields: &Fields) -> u8 {
    (0..HIGH).map(|bit| u8::from(fields[bit].is_some()) << bit).sum()
}

#[cfg(test)]
mod tests {
    use super::*;

    fn fields(low: Option<u8>, resets: Option<u8>, high: Option<u8>) -> Fields {
        let mut fields = [None; 9];
        fields[2] = Some(0x41);
        [fields[LOW], fields[RESETS], fields[HIGH]] = [low, resets, high];
        fields
    }

    #[test]
    fn a_high_byte_is_announced_and_stands_last() {
        let mode = |low, high| {
            let mut bytes = Vec::new();
            write_mode(&mut bytes, fields(low, None, high));
            bytes
        };
        assert_eq!(mode(Some(5), None), [0x05, 5, 0x41]);
        assert_eq!(mode(Some(5), Some(6)), [0x85, 5, 0x41, 6]);
        assert_eq!(mode(None, Some(0)), [0x84, 0x41, 0]);
        let step = |low, resets, high| {
            let mut bytes = Vec::new();
            write_move(&mut bytes, fields(low, resets, high), [3, 4]);
            bytes
        };
        assert_eq!(step(Some(5), None, None), [0x05, 3, 4, 5, 0x41]);
        assert_eq!(step(None, Some(2), None), [0x84, 3, 4, 0x41, 2]);
        assert_eq!(step(Some(5), Some(2), Some(6)), [0x85, 3, 4, 5, 0x41, 0x82, 6]);
        assert_eq!(step(None, None, Some(6)), [0x84, 3, 4, 0x41, 0x80, 6]);
    }
}
