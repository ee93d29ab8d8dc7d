//! Rising numbers as ranges.

/// First and last of each run of numbers without a gap.
pub type Ranges = Vec<(u64, u64)>;

/// Adds a number above all that are there.
pub fn extend(ranges: &mut Ranges, number: u64) {
    match ranges.last_mut() {
        Some((_, last)) if *last + 1 == number => *last = number,
        _ => ranges.push((number, number)),
    }
}

pub fn ranges(rising: impl IntoIterator<Item = u64>) -> Ranges {
    let mut ranges = vec![];
    rising.into_iter().for_each(|number| extend(&mut ranges, number));
    ranges
}

/// As `3, 7-12`, each number written by `write`, with this dash.
pub fn spelled(ranges: &[(u64, u64)], dash: &str, write: fn(u64) -> String) -> String {
    let one = |&(first, last): &(u64, u64)| {
        if first == last {
            write(first)
        } else {
            format!("{}{dash}{}", write(first), write(last))
        }
    };
    if ranges.is_empty() {
        "none".to_string()
    } else {
        ranges.iter().map(one).collect::<Vec<_>>().join(", ")
    }
}
