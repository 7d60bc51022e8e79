//! Hexadecimal digits in either case.

use crate::random::Random;

/// A text in lower case: as it is, in upper case, or each of its letters in either.
pub fn cased(text: String, random: &mut Random) -> String {
    let cased = |c: char, upper: bool| if upper { c.to_ascii_uppercase() } else { c };
    match random.below(3) {
        0 => text,
        1 => text.to_uppercase(),
        _ => text.chars().map(|c| cased(c, random.once_in(2))).collect(),
    }
}
