//! Numbers in words.

/// A whole number with its thousands apart.
pub fn grouped(n: usize) -> String {
    let digits = n.to_string();
    let mut out = String::new();
    for (k, digit) in digits.chars().enumerate() {
        if k > 0 && (digits.len() - k) % 3 == 0 {
            out.push(',');
        }
        out.push(digit);
    }
    out
}

#[cfg(test)]
mod tests {
    use super::grouped;

    #[test]
    fn thousands_apart() {
        let all = [0, 7, 999, 1_000, 1_023, 16_777_216].map(grouped);
        assert_eq!(all, ["0", "7", "999", "1,000", "1,023", "16,777,216"]);
    }
}
