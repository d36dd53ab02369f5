//! Numbers in words.

/// A number of things.
pub fn count(n: usize, what: &str) -> String {
    if n == 1 { format!("1 {what}") } else { format!("{n} {what}s") }
}

/// Bytes as a person says them: 21.9 MB.
pub fn in_words(bytes: u64) -> String {
    let units = ["bytes", "kB", "MB", "GB", "TB"];
    let (mut size, mut unit) = (bytes as f64, 0);
    while size >= 999.95 && unit + 1 < units.len() {
        size /= 1000.0;
        unit += 1;
    }
    if unit == 0 { count(bytes as usize, "byte") } else { format!("{size:.1} {}", units[unit]) }
}

/// Bytes exactly, and as a person says them.
pub fn both(bytes: u64) -> String {
    if bytes < 1000 { count(bytes as usize, "byte") } else { format!("{bytes} bytes ({})", in_words(bytes)) }
}
