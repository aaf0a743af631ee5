//! Numbers as the tables show them.

/// A number with a comma before every three digits.
pub fn grouped(n: usize) -> String {
    if n < 1000 { n.to_string() } else { format!("{},{:03}", grouped(n / 1000), n % 1000) }
}

/// Microseconds or nanoseconds: whole ones from a hundred on.
pub fn time(time: f64) -> String {
    if time < 100.0 { format!("{time:.1}") } else { grouped(time.round() as usize) }
}

/// Bytes as thousands of them, below ten thousand with one digit behind the point.
pub fn kilobytes(bytes: usize) -> String {
    let thousands = bytes as f64 / 1000.0;
    if thousands < 10.0 { format!("{thousands:.1}") } else { grouped(thousands.round() as usize) }
}
