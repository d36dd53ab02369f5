
// Appended to a copy of fuji_compressed.rs: a child module sees its parent's private items.
pub mod blocks {
    use super::*;

    /// The colour lines of each line that was read (red 2 to 4, green 7 to 12, blue 15 to 17). There are fewer than `lines` if one of
    /// them is truncated: the next one is.
    pub fn read(data: &[u8], bases: &[u8], lines: usize, xtrans: bool, bits: u32) -> Vec<Vec<u16>> {
        let lossless = bases.is_empty();
        let header = FujiHeader {
            lossless,
            xtrans,
            bits,
            height: 6 * lines as u32,
            rounded_width: 768,
            width: 768,
            block_size: 768,
            blocks: 1,
            lines: lines as u32,
        };
        let rows: Vec<&[u8]> = if lossless { vec![] } else { vec![bases] };
        let common = Common::new(&header, &rows).unwrap();
        let w = common.line_width;
        let mut read = Vec::new();
        let emit = |_: usize, all: &[u16]| {
            let kept = [2, 3, 4, 7, 8, 9, 10, 11, 12, 15, 16, 17];
            read.push(kept.iter().flat_map(|l| all[l * (w + 2) + 1..][..w].iter().copied()).collect());
        };
        let done = if lossless {
            decode_block::<false>(&common, data, bases, lines, emit)
        } else {
            decode_block::<true>(&common, data, bases, lines, emit)
        };
        assert_eq!(done.is_ok(), read.len() == lines);
        read
    }
}

// The base rows of a stream that opened.
pub mod rows {
    use super::*;

    pub fn rows<'a>(stream: &FujiCompressed<'a>) -> Vec<&'a [u8]> {
        stream.q_bases.clone()
    }
}
