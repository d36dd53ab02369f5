//! Why a call is refused.
use std::fmt;

/// A refusal: its number, and the block, the line and the index that it names, 0 where it names none.
#[derive(Debug, Clone, Copy, PartialEq, Eq)]
pub struct Refusal {
    /// The number in docs/FORMAT.md.
    pub number: u32,
    /// The block that it names.
    pub block: usize,
    /// The line of six rows that it names.
    pub line: usize,
    /// The sample, or the record of a plan, that it names.
    pub index: usize,
}

impl Refusal {
    /// What the library handed back: all 0 if nothing is refused.
    pub(crate) fn answer(words: [usize; 4]) -> Result<(), Refusal> {
        match words {
            [0, ..] => Ok(()),
            [number, block, line, index] => Err(Refusal { number: number as u32, block, line, index }),
        }
    }

    /// A sentence for it.
    pub fn words(&self) -> &'static str {
        match self.number {
            1 => "fewer than 16 bytes of header",
            2 => "a header rule is broken",
            3 => "the block sizes are cut short",
            4 => "a lossy base row is not whole",
            5 => "there is no such block",
            6 => "the size is not the picture's",
            7 => "the region passes the picture's edge, or the image is too short for it",
            8 => "the stream is lossy",
            9 => "the number of samples is not the block's",
            10 => "the scratch is too short",
            11 => "a sample is above the largest",
            12 => "an interpolated sample is not its prediction",
            13 => "the output is too short",
            14 => "a line is truncated",
            15 => "the block is not tight",
            16 => "the header is lossless",
            17 => "the number of base bytes is not that of the lines",
            18 => "the plan's record is malformed, runs backwards, passes the last line or has a base above 255",
            19 => "two records of the plan hold it",
            20 => "no record of the plan holds it",
            21 => "the line to store after is not there, or the stored state is malformed",
            22 => "the stored state is of another header or block",
            23 => "the line's depth and base have no entry, and all 16 are held",
            24 => "the depth is not 12, 14 or 16, k is above 15, or the length is not 1 to 16",
            25 => "there is not one length for each block",
            26 => "the block has 2^32 bytes or more",
            _ => "refused",
        }
    }
}

impl fmt::Display for Refusal {
    fn fmt(&self, f: &mut fmt::Formatter) -> fmt::Result {
        write!(f, "refusal {}: ", self.number)?;
        match self.number {
            4 | 26 => write!(f, "block {}: ", self.block)?,
            11 | 12 => write!(f, "sample {}: ", self.index)?,
            14 | 23 => write!(f, "block {}, line {}: ", self.block, self.line)?,
            15 | 19 | 20 => write!(f, "line {}: ", self.line)?,
            18 => write!(f, "record {}: ", self.index)?,
            _ => {}
        }
        f.write_str(self.words())
    }
}

impl std::error::Error for Refusal {}
