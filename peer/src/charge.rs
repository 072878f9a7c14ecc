//! Rates and prices at random.

use crate::random::Random;

/// A grain that rates and prices of so many grains have room for: once in three times one that
/// makes high bytes.
pub fn grain(most: u8, random: &mut Random) -> u16 {
    let largest = u16::MAX / u16::from(most.max(1));
    let any = 1 + random.below(largest.into()) as u16;
    random.pick(&[1, 1, 1, 1, 1, 1, 256, any, largest])
}

/// The low and the high byte of a rate or price of so many grains at most, or none. A byte that is 0
/// may stand.
pub fn charge(most: u8, grain: u16, random: &mut Random) -> [Option<u8>; 2] {
    if random.one_in(5) {
        return [None, None];
    }
    let [low, high] = (u16::from(random.within(0, most)) * grain).to_le_bytes();
    let low_stands = low > 0 || random.one_in(2);
    let high_stands = high > 0 || grain > 1 && random.one_in(8);
    [low_stands.then_some(low), high_stands.then_some(high)]
}

#[cfg(test)]
mod tests {
    use super::*;

    /// A third of the grains make high bytes, and the highest rate or price comes of one.
    #[test]
    fn grains_have_room() {
        let mut random = Random::new(1, 0);
        for most in [0, 1, 9, 30, 255] {
            let grains: Vec<u16> = (0..900).map(|_| grain(most, &mut random)).collect();
            assert!(grains.iter().all(|&grain| u16::from(most).checked_mul(grain).is_some()));
            assert!((200..400).contains(&grains.iter().filter(|&&grain| grain > 1).count()));
            assert!(grains.contains(&(u16::MAX / u16::from(most.max(1)))));
        }
    }

    /// Low and high byte, where each is missing, 0 or neither.
    #[test]
    fn every_form_is_drawn() {
        let mut random = Random::new(2, 0);
        let mut seen = [[false; 3]; 3];
        for _ in 0..2_000 {
            let form = |byte: Option<u8>| byte.map_or(0, |byte| 1 + usize::from(byte > 0));
            let grain = random.pick(&[4, 256, 257]);
            let [low, high] = charge(9, grain, &mut random).map(form);
            seen[low][high] = true;
        }
        assert_eq!(seen, [[true; 3]; 3]);
        assert!((0..500).all(|_| charge(255, 1, &mut random)[1].is_none()));
    }
}
