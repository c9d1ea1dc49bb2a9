//! Tables as the documents have them, and numbers as they print them.

/// A table of rows under a head: the first column to the left, the others to the right.
pub fn print(head: &[&str], rows: &[Vec<String>]) -> String {
    let mut text = format!("| {} |\n|---|{}\n", head.join(" | "), "---:|".repeat(head.len() - 1));
    for row in rows {
        text += &format!("| {} |\n", row.join(" | "));
    }
    text
}

/// A number with a comma before every three digits.
pub fn number(value: u64) -> String {
    let digits = value.to_string();
    let mut text = String::new();
    for (place, digit) in digits.chars().enumerate() {
        if place > 0 && (digits.len() - place).is_multiple_of(3) {
            text.push(',');
        }
        text.push(digit);
    }
    text
}

/// A ratio, with as many places as its size is worth.
pub fn ratio(value: f64) -> String {
    match value {
        v if v >= 100.0 => number(v.round() as u64),
        v if v >= 10.0 => format!("{v:.1}"),
        v if v >= 0.01 => format!("{v:.2}"),
        v => format!("{v:.1e}"),
    }
}

#[cfg(test)]
mod tests {
    use super::*;

    #[test]
    fn numbers() {
        assert_eq!(
            ["0", "999", "1,000", "1,234,567"],
            [0, 999, 1_000, 1_234_567].map(number).each_ref().map(|s| &s[..])
        );
        assert_eq!(
            ["0.25", "1.00", "12.5", "1,235"],
            [0.25, 1.0, 12.5, 1_234.6].map(ratio).each_ref().map(|s| &s[..])
        );
    }

    #[test]
    fn tables() {
        let text = print(&["call", "ours"], &[vec!["open".to_string(), number(1_000)]]);
        assert_eq!(text, "| call | ours |\n|---|---:|\n| open | 1,000 |\n");
    }
}
