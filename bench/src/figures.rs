//! Numbers as the tables show them.

/// Thousands with commas.
pub fn grouped(number: u64) -> String {
    match number {
        0..=999 => number.to_string(),
        _ => format!("{},{:03}", grouped(number / 1000), number % 1000),
    }
}

/// One decimal below 100, whole numbers above.
pub fn short(number: f64) -> String {
    if number < 99.95 {
        format!("{number:.1}")
    } else {
        grouped(number.round() as u64)
    }
}
