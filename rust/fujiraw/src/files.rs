//! Files that are read, and text for standard output. A file named - is standard input or output.
use std::fs;
use std::io::{self, Read, Write};
use std::path::Path;

/// No stream is longer: a header, 16 sizes, 16 base rows of 2,736 bytes, and 16 blocks of less than 2^32 bytes. A
/// camera file has at most 2^32 bytes more.
const LONGEST: u64 = 16 + 64 + 16 * 2_736 + 17 * 0xFFFF_FFFF;

pub fn load(file: &Path) -> Result<Vec<u8>, String> {
    let failed = |e: io::Error| format!("cannot read {}: {}", name(file), plain(&e));
    if is_standard(file) {
        let mut bytes = vec![];
        return io::stdin().read_to_end(&mut bytes).map(|_| bytes).map_err(failed);
    }
    let there = fs::metadata(file).map_err(failed)?;
    if there.is_file() && there.len() > LONGEST {
        return Err(format!("cannot read {}: it is too large, no stream or camera file has more than {LONGEST} bytes", name(file)));
    }
    fs::read(file).map_err(failed)
}

/// Samples of 16 bits, little-endian.
pub fn load_samples(file: &Path) -> Result<Vec<u16>, String> {
    let bytes = load(file)?;
    let (pairs, rest) = bytes.as_chunks::<2>();
    if !rest.is_empty() {
        return Err(format!("{} has half a sample at its end: samples are two bytes each", name(file)));
    }
    Ok(pairs.iter().map(|b| u16::from_le_bytes(*b)).collect())
}

pub fn is_standard(file: &Path) -> bool {
    file == Path::new("-")
}

/// What a file is called in a sentence.
pub fn name(file: &Path) -> String {
    if is_standard(file) { "standard input".to_string() } else { file.display().to_string() }
}

/// The error in words, without its number.
pub fn plain(e: &io::Error) -> String {
    let text = e.to_string();
    text.split(" (os error").next().unwrap_or(&text).to_lowercase()
}

/// Text for standard output, which may be closed early, as by `head`, or full.
pub fn print(text: &str) -> Result<(), String> {
    to_standard(|out| out.write_all(text.as_bytes()))
}

pub fn to_standard(put: impl FnOnce(&mut dyn Write) -> io::Result<()>) -> Result<(), String> {
    let mut out = io::stdout().lock();
    put(&mut out).and_then(|()| out.flush()).map_err(|e| format!("cannot write to standard output: {}", plain(&e)))
}
