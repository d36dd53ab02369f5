//! Puts streams together: the header, the blocks' sizes, the base rows and the blocks.
use crate::encoder;

/// The header's fields as they stand in the bytes, whether or not they keep the rules.
#[derive(Clone, Copy, Debug, PartialEq, Eq)]
pub struct Header {
    pub signature: u16,
    pub lossless: u8,
    pub raw_type: u8,
    pub bits: u8,
    pub height: u16,
    pub rounded_width: u16,
    pub width: u16,
    pub block_size: u16,
    pub blocks: u8,
    pub lines: u16,
}

impl Header {
    /// A header that keeps the rules, for lines of six rows.
    pub fn new(lossless: bool, xtrans: bool, bits: u8, width: u16, lines: u16) -> Header {
        let blocks = width.div_ceil(768);
        Header {
            signature: 0x4953,
            lossless: lossless as u8,
            raw_type: if xtrans { 16 } else { 0 },
            bits,
            height: 6 * lines,
            rounded_width: 768 * blocks,
            width,
            block_size: 768,
            blocks: blocks as u8,
            lines,
        }
    }

    /// What the first 16 bytes say.
    pub fn of(bytes: &[u8]) -> Option<Header> {
        let d: &[u8; 16] = bytes.first_chunk()?;
        let two = |i: usize| u16::from_be_bytes([d[i], d[i + 1]]);
        Some(Header {
            signature: two(0),
            lossless: d[2],
            raw_type: d[3],
            bits: d[4],
            height: two(5),
            rounded_width: two(7),
            width: two(9),
            block_size: two(11),
            blocks: d[13],
            lines: two(14),
        })
    }

    pub fn bytes(&self) -> [u8; 16] {
        let mut out = [0; 16];
        out[2..5].copy_from_slice(&[self.lossless, self.raw_type, self.bits]);
        out[13] = self.blocks;
        let pairs =
            [(0, self.signature), (5, self.height), (7, self.rounded_width), (9, self.width), (11, self.block_size), (14, self.lines)];
        for (at, v) in pairs {
            out[at..at + 2].copy_from_slice(&v.to_be_bytes());
        }
        out
    }
}

fn pad(out: &mut Vec<u8>) {
    out.resize(out.len().next_multiple_of(16), 0);
}

/// A stream of these blocks. There is a base row for each of them, or none if the stream is lossless.
pub fn stream(header: &Header, rows: &[Vec<u8>], blocks: &[Vec<u8>]) -> Vec<u8> {
    let mut out = header.bytes().to_vec();
    for block in blocks {
        out.extend_from_slice(&(block.len() as u32).to_be_bytes());
    }
    pad(&mut out);
    for row in rows {
        out.extend_from_slice(row);
        pad(&mut out);
    }
    out.extend(blocks.iter().flatten());
    out
}

/// What a picture wants of block, line, colour line and position.
pub type Wanted<'a> = &'a mut dyn FnMut(usize, usize, usize, usize) -> u16;

/// The blocks of a picture, lossless if there are no rows.
pub fn blocks(header: &Header, rows: &[Vec<u8>], want: Wanted) -> Vec<Vec<u8>> {
    let block = |b: usize| {
        let row = rows.get(b).map_or(&[][..], |r| &r[..]);
        let mut of_block = |n, line, p| want(b, n, line, p);
        encoder::encode(header.bits as u32, header.raw_type == 16, row, header.lines as usize, &mut of_block)
    };
    (0..header.blocks as usize).map(block).collect()
}

/// A picture's stream.
pub fn encoded(header: &Header, rows: &[Vec<u8>], want: Wanted) -> Vec<u8> {
    stream(header, rows, &blocks(header, rows, want))
}

#[cfg(test)]
mod tests {
    use super::*;

    #[test]
    fn header_of_marked_case_k() {
        let bytes = [0x49, 0x53, 1, 0, 14, 0, 6, 3, 0, 3, 0, 3, 0, 1, 0, 1];
        let header = Header::new(true, false, 14, 768, 1);
        assert_eq!((header.bytes(), Header::of(&bytes)), (bytes, Some(header)));
    }

    #[test]
    fn parts_are_padded() {
        let header = Header::new(false, true, 12, 768, 1);
        let bytes = stream(&header, &[vec![3]], &[vec![1, 2]]);
        assert_eq!(bytes.len(), 16 + 16 + 16 + 2);
        assert_eq!(bytes[16..20], [0, 0, 0, 2]);
        assert_eq!(bytes[32], 3);
        assert_eq!(bytes[48..], [1, 2]);
    }
}
