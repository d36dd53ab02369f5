//! The sheet of short codes, in lines.
use fuji_compressed::{Refusal, short_codes};
use std::fmt::Write;

/// For each string its bits, how many they are, their value and the code.
pub fn sheet(depth: u32, k: u32, length: u32) -> Result<String, Refusal> {
    // An empty list asks for the count alone.
    let mut list = vec![0; short_codes(depth, k, length, &mut [])?];
    short_codes(depth, k, length, &mut list)?;
    let mut text = String::new();
    for (code, entry) in list.into_iter().enumerate() {
        let (bits, value) = (entry as usize / 65_536, entry % 65_536);
        let _ = writeln!(text, "{value:0bits$b}\t{bits}\t{value}\t{code}");
    }
    Ok(text)
}
