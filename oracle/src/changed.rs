//! An input's bytes changed at random.

use crate::random::Random;

/// Changes, adds or removes some bytes, or cuts the rest off. Two new bytes of three are of the list.
pub fn change(bytes: &mut Vec<u8>, list: &[u8], random: &mut Random) {
    for _ in 0..1 + random.below(3) {
        let at = random.below(1 + bytes.len() as u64) as usize;
        let byte = match random.below(3) {
            0 => random.word() as u8,
            _ => random.of(list),
        };
        match random.below(8) {
            0 => bytes.truncate(at),
            1 | 2 if at < bytes.len() => drop(bytes.remove(at)),
            3..=5 if at < bytes.len() => bytes[at] = byte,
            _ => bytes.insert(at, byte),
        }
    }
}
