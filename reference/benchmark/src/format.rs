//! How figures are printed: rows of Markdown tables, times, ratios and counts.

/// A row of a Markdown table.
pub fn row<T: AsRef<str>>(cells: &[T]) -> String {
    let cells: Vec<&str> = cells.iter().map(|cell| cell.as_ref()).collect();
    format!("| {} |", cells.join(" | "))
}

/// The first two lines of a Markdown table. A name that begins with `>` is a column of
/// figures, set to the right.
pub fn head(names: &[&str]) -> String {
    let plain: Vec<&str> = names.iter().map(|name| name.trim_start_matches('>')).collect();
    let rule = |name: &&str| if name.starts_with('>') { "---:|" } else { "---|" };
    let rules: String = names.iter().map(rule).collect();
    format!("{}\n|{rules}", row(&plain))
}

/// A time in a unit that leaves one to three figures before the point; three in all.
pub fn time(seconds: f64) -> String {
    let (value, unit) = match seconds {
        s if s >= 0.9995 => (s, "s"),
        s if s >= 0.9995e-3 => (s * 1e3, "ms"),
        s => (s * 1e6, "µs"),
    };
    let places = match value {
        v if v >= 99.95 => 0,
        v if v >= 9.995 => 1,
        _ => 2,
    };
    format!("{value:.places$} {unit}")
}

/// A ratio with two places.
pub fn ratio(value: f64) -> String {
    format!("{value:.2}")
}

/// A count with a comma at each third figure.
pub fn count(number: usize) -> String {
    let digits = number.to_string();
    let mut text = String::new();
    for (k, digit) in digits.chars().enumerate() {
        if k > 0 && (digits.len() - k) % 3 == 0 {
            text.push(',');
        }
        text.push(digit);
    }
    text
}
