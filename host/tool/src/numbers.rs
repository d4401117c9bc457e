//! Numbers as a person reads them.

/// A number with its thousands set apart.
pub fn thousands(number: u64) -> String {
    let digits = number.to_string();
    let mut text = String::new();
    for (place, digit) in digits.chars().enumerate() {
        if place > 0 && (digits.len() - place).is_multiple_of(3) {
            text.push(',');
        }
        text.push(digit);
    }
    text
}

/// The word for so many of something.
pub const fn plural(number: u64, one: &'static str, many: &'static str) -> &'static str {
    match number {
        1 => one,
        _ => many,
    }
}

#[cfg(test)]
mod tests {
    use super::*;

    #[test]
    fn thousands_are_set_apart() {
        assert_eq!(thousands(0), "0");
        assert_eq!(thousands(999), "999");
        assert_eq!(thousands(1000), "1,000");
        assert_eq!(thousands(62_500_000), "62,500,000");
    }

    #[test]
    fn one_alone_is_singular() {
        let words = [0, 1, 2, 21].map(|number| plural(number, "box", "boxes"));
        assert_eq!(words, ["boxes", "box", "boxes", "boxes"]);
    }
}
