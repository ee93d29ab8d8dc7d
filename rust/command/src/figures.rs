//! Numbers as they are shown.

/// Digits in groups of three with this separator, from five digits on.
pub fn grouped(number: u128, separator: &str) -> String {
    let digits = number.to_string();
    if digits.len() < 5 {
        return digits;
    }
    let first = (digits.len() - 1) % 3 + 1;
    let mut text = digits[..first].to_string();
    for start in (first..digits.len()).step_by(3) {
        text += separator;
        text += &digits[start..start + 3];
    }
    text
}

/// The part of the whole in percent, rounded to a tenth. Only nothing is shown as 0, and only all as 100.
pub fn share(part: u128, whole: u128) -> String {
    if part == 0 || whole == 0 {
        return "0%".to_string();
    }
    if part == whole {
        return "100%".to_string();
    }
    match (part * 2000 + whole) / (whole * 2) {
        0 => "<0.1%".to_string(),
        1000 => ">99.9%".to_string(),
        tenths => format!("{}.{}%", tenths / 10, tenths % 10),
    }
}

/// A quotient rounded to hundredths. Nothing divided by nothing is 0.
pub fn mean(sum: u64, number: u64) -> String {
    let hundredths = (u128::from(sum) * 200 + u128::from(number)) / (u128::from(number) * 2).max(1);
    format!("{}.{:02}", hundredths / 100, hundredths % 100)
}
