//! Numbers as text.

/// A time with its unit, to two or three digits.
pub fn seconds(time: f64) -> String {
    let (number, unit) = match time {
        t if t < 0.99e-6 => (t * 1e9, "ns"),
        t if t < 0.99e-3 => (t * 1e6, "µs"),
        t if t < 0.99 => (t * 1e3, "ms"),
        t => (t, "s"),
    };
    if number < 9.95 {
        let rounded = format!("{number:.1}");
        format!("{} {unit}", rounded.trim_end_matches(".0"))
    } else {
        format!("{number:.0} {unit}")
    }
}

/// A whole number with commas, as 6,137.
pub fn thousands(number: f64) -> String {
    let digits = format!("{number:.0}");
    let mut grouped = String::new();
    for (index, digit) in digits.chars().enumerate() {
        if index > 0 && (digits.len() - index) % 3 == 0 {
            grouped.push(',');
        }
        grouped.push(digit);
    }
    grouped
}
