//! Text from outside, made fit to be shown.

/// The bytes as text in which nothing moves the cursor, ends the line or turns the order of the letters:
/// what is not UTF-8, and every character that is not to be shown, becomes U+FFFD.
pub fn clean(bytes: &[u8]) -> String {
    String::from_utf8_lossy(bytes).chars().map(|c| if shown(c) { c } else { char::REPLACEMENT_CHARACTER }).collect()
}

fn shown(c: char) -> bool {
    let turns = matches!(c, '\u{61c}' | '\u{200e}' | '\u{200f}' | '\u{202a}'..='\u{202e}' | '\u{2066}'..='\u{2069}');
    let separates = matches!(c, '\u{2028}' | '\u{2029}');
    let code = u32::from(c);
    let nothing = matches!(code, 0xfdd0..=0xfdef) || code & 0xfffe == 0xfffe;
    !c.is_control() && !turns && !separates && !nothing
}

/// At most this many columns of a terminal: a text that has more is cut, and ends in three dots.
pub fn fitted(text: &str, columns: usize) -> String {
    if width(text) <= columns {
        return text.to_string();
    }
    let dots = columns.min(3);
    let mut left = columns - dots;
    let kept = text.chars().take_while(|&c| match left.checked_sub(columns_of(c)) {
        Some(rest) => {
            left = rest;
            true
        }
        None => false,
    });
    kept.collect::<String>() + &"..."[..dots]
}

pub fn width(text: &str) -> usize {
    text.chars().map(columns_of).sum()
}

/// Two for every character that may be wide. It may be one too many, never one too few: below U+1100 none is wide.
pub fn columns_of(c: char) -> usize {
    if u32::from(c) < 0x1100 || c == char::REPLACEMENT_CHARACTER {
        1
    } else {
        2
    }
}
