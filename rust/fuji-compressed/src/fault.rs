//! Why a block is not tight.
use std::fmt;

/// What is wrong with a code: it is 2^bits or more; it is long where the short form fits; it has more zeros than the limit. Where two hold, the first is given.
#[derive(Debug, Clone, Copy, PartialEq, Eq)]
pub enum Reason {
    /// The code is 2^bits or more.
    Large,
    /// It is long where the short form fits.
    Escape,
    /// It has more zeros than the limit.
    Zeros,
}

/// The first bad code of a block in coding order, or its tail if every code is tight.
#[derive(Debug, Clone, Copy, PartialEq, Eq)]
pub enum Fault {
    /// Its line of six rows, its pass, 1 to 6, its colour line, 2 to 17, its position, its first bit, counted from the block's first, and the reason.
    Code {
        /// The line of six rows.
        line: usize,
        /// The pass, 1 to 6.
        pass: usize,
        /// The colour line, 2 to 17.
        colour_line: usize,
        /// The position in it.
        position: usize,
        /// The code's first bit, counted from the block's first.
        bit: usize,
        /// What is wrong with it.
        reason: Reason,
    },
    /// The first bit after the last code, which may lie up to 7 bits past the block's end.
    Tail {
        /// The first bit after the last code.
        bit: usize,
    },
}

impl Fault {
    /// What the library handed back: all 0 if there is no fault.
    pub(crate) fn of(words: [usize; 6]) -> Option<Fault> {
        let [line, pass, colour_line, position, bit, reason] = words;
        let reason = match reason {
            0 => return None,
            1 => Reason::Large,
            2 => Reason::Escape,
            3 => Reason::Zeros,
            _ => return Some(Fault::Tail { bit }),
        };
        Some(Fault::Code { line, pass, colour_line, position, bit, reason })
    }
}

impl fmt::Display for Reason {
    fn fmt(&self, f: &mut fmt::Formatter) -> fmt::Result {
        f.write_str(match self {
            Reason::Large => "large: the code is 2^bits or more",
            Reason::Escape => "escape: the code is long, and the short form fits",
            Reason::Zeros => "zeros: the code has more zeros than the limit",
        })
    }
}

impl fmt::Display for Fault {
    fn fmt(&self, f: &mut fmt::Formatter) -> fmt::Result {
        match self {
            Fault::Code { line, pass, colour_line, position, bit, reason } => {
                write!(f, "line {line}, pass {pass}, colour line {colour_line}, position {position}, bit {bit}: {reason}")
            }
            Fault::Tail { bit } => {
                write!(f, "bit {bit}: tail: after the last code there must be zero bits up to the next 16 bytes, and no more")
            }
        }
    }
}
