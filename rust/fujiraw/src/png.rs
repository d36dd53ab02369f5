//! Grey pictures as PNG, with stored deflate blocks: larger than they need be, and written without outside crates.
use std::io::{Result, Write};

/// `depth` is 8 or 16 bits a sample, of which the first `significant` count. Rows are the samples' bytes, the higher
/// byte first.
pub fn write(out: &mut dyn Write, width: u32, height: u32, depth: u8, significant: u8, rows: impl Iterator<Item = Vec<u8>>) -> Result<()> {
    out.write_all(b"\x89PNG\r\n\x1a\n")?;
    let mut head = [width.to_be_bytes(), height.to_be_bytes()].concat();
    // Grey, and the only methods that there are.
    head.extend([depth, 0, 0, 0, 0]);
    chunk(out, b"IHDR", &head)?;
    chunk(out, b"sBIT", &[significant])?;
    // The header of a deflated stream: a window of 32 KiB, no dictionary.
    chunk(out, b"IDAT", &[0x78, 0x01])?;
    let mut sum = Adler::new();
    for row in rows {
        // No filter.
        let line = [&[0][..], &row].concat();
        sum.take(&line);
        let stored = line.chunks(0xFFFF).flat_map(|part| [&stored_head(part.len() as u16)[..], part].concat());
        chunk(out, b"IDAT", &stored.collect::<Vec<u8>>())?;
    }
    // The last block is an empty one.
    chunk(out, b"IDAT", &[&[1, 0, 0, 0xFF, 0xFF][..], &sum.bytes()].concat())?;
    chunk(out, b"IEND", &[])
}

/// A stored block that is not the last one: its length, and the length's complement.
fn stored_head(length: u16) -> [u8; 5] {
    let (n, not) = (length.to_le_bytes(), (!length).to_le_bytes());
    [0, n[0], n[1], not[0], not[1]]
}

fn chunk(out: &mut dyn Write, kind: &[u8; 4], data: &[u8]) -> Result<()> {
    out.write_all(&(data.len() as u32).to_be_bytes())?;
    out.write_all(kind)?;
    out.write_all(data)?;
    out.write_all(&crc(&[kind, data]).to_be_bytes())
}

const CRC: [u32; 256] = {
    let mut table = [0; 256];
    let mut i = 0;
    while i < 256 {
        let (mut c, mut turn) = (i as u32, 0);
        while turn < 8 {
            c = if c & 1 == 1 { 0xEDB8_8320 ^ (c >> 1) } else { c >> 1 };
            turn += 1;
        }
        table[i] = c;
        i += 1;
    }
    table
};

fn crc(parts: &[&[u8]]) -> u32 {
    !parts.iter().flat_map(|p| p.iter()).fold(!0, |c, b| CRC[((c ^ *b as u32) & 0xFF) as usize] ^ (c >> 8))
}

/// Adler-32, the sum of a deflated stream.
struct Adler(u32, u32);

impl Adler {
    fn new() -> Adler {
        Adler(1, 0)
    }

    fn take(&mut self, bytes: &[u8]) {
        // As many bytes as 32 bits hold without a remainder.
        for part in bytes.chunks(5552) {
            for b in part {
                self.0 += *b as u32;
                self.1 += self.0;
            }
            self.0 %= 65_521;
            self.1 %= 65_521;
        }
    }

    fn bytes(&self) -> [u8; 4] {
        (self.1 << 16 | self.0).to_be_bytes()
    }
}
