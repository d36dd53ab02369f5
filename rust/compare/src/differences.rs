//! The differences that docs/DIFFERENCES.md lists, each with an input. A build with checked sums panics where another wraps.
use crate::sides::{Answer, Wanted, ask, decode_ours, decode_theirs, ours};
use common::stream::{Header, stream};
use fuji_compressed::{ColorTile, FujiHeader, Scratch};
use original::fuji_compressed as theirs;

const CHECKED: bool = cfg!(debug_assertions);
const TILE: ColorTile = [[1; 6]; 6];

/// One line of 14 bits, Bayer, lossless, whose one block has these bytes.
fn one_line(block: Vec<u8>) -> Vec<u8> {
    stream(&Header::new(true, false, 14, 768, 1), &[], &[block])
}

/// A block that begins with so many zero bits; ones follow.
fn zeros_first(zeros: usize, ones: usize) -> Vec<u8> {
    let mut block = vec![0; zeros / 8];
    block.push(0xFF >> (zeros % 8));
    block.resize(block.len() + ones, 0xFF);
    block
}

/// Both answers, and the first sample of each image. The sample of colour line 7 that is coded first stands second in the pass, after that of
/// line 2: the tile of one colour shows green, and a tile of red shows the sample that the zeros belong to.
fn first_samples(bytes: &[u8]) -> (Answer<()>, u16, Answer<()>, u16) {
    let red: ColorTile = [[0; 6]; 6];
    let (mut theirs, mut mine) = (vec![0; 4608], vec![0; 4608]);
    let want = decode_theirs(bytes, Wanted::Whole(768, 6), &red, &mut theirs);
    let got = ours(decode_ours(bytes, Wanted::Whole(768, 6), &red, &mut mine, &mut Scratch::new()));
    (want, theirs[0], got, mine[0])
}

/// A run of 2^31 zero bits: the original counts it in 32 bits with a sign.
fn d1() -> Result<String, String> {
    let below = first_samples(&one_line(zeros_first((1 << 31) - 1, 12_000)));
    if below != (Answer::Given(()), 8192, Answer::Given(()), 8192) {
        return Err(format!("D-1, with 2^31 - 1 zeros: {below:?}"));
    }
    let at = first_samples(&one_line(zeros_first(1 << 31, 12_000)));
    let want = if CHECKED { (Answer::Panicked, 0) } else { (Answer::Given(()), 16256) };
    let said = format!("D-1, a run of 2^31 zeros: the original {:?}, sample {}; ours {:?}, sample {}", at.0, at.1, at.2, at.3);
    let right = (&at.0, at.1) == (&want.0, want.1) && (at.2, at.3) == (Answer::Given(()), 8192);
    if right { Ok(said) } else { Err(said) }
}

/// Zero bytes alone, 2^28 of them.
fn d2() -> Result<String, String> {
    let bytes = one_line(vec![0; 1 << 28]);
    let mut image = vec![0; 4608];
    let want = decode_theirs(&bytes, Wanted::Whole(768, 6), &TILE, &mut image);
    let got = ours(decode_ours(&bytes, Wanted::Whole(768, 6), &TILE, &mut image, &mut Scratch::new()));
    let said = format!("D-2, 2^28 bytes of zeros: the original {want:?}, ours {got:?}");
    let right = want == (if CHECKED { Answer::Panicked } else { Answer::Refused(14) }) && got == Answer::Refused(14);
    if right { Ok(said) } else { Err(said) }
}

/// A width above the rounded width.
fn d3() -> Result<String, String> {
    let bytes = [0x49, 0x53, 1, 0, 0x0E, 0, 6, 3, 0, 3, 0x18, 3, 0, 1, 0, 1];
    let want = ask(|| theirs::FujiHeader::parse(&bytes).map(|_| ()));
    let got = ours(FujiHeader::parse(&bytes).map(|_| ()));
    let said = format!("D-3, a width above the rounded width: the original {want:?}, ours {got:?}");
    let right = want == (if CHECKED { Answer::Panicked } else { Answer::Refused(2) }) && got == Answer::Refused(2);
    if right { Ok(said) } else { Err(said) }
}

/// The width of a block that is not there.
fn d4() -> Result<String, String> {
    let bytes = Header::new(true, false, 14, 768, 1).bytes();
    let (theirs, mine) = (theirs::FujiHeader::parse(&bytes).unwrap(), FujiHeader::parse(&bytes).unwrap());
    let width = |i: u32| (ask(|| Ok(theirs.block_width(i))), ours(mine.block_width(i)));
    let (next, last) = (width(1), width(u32::MAX));
    let said = format!(
        "D-4, the width of block 1 of 1: the original {:?}, ours {:?}; of block 2^32 - 1: {:?}, {:?}",
        next.0, next.1, last.0, last.1
    );
    let right = next == (Answer::Given(768), Answer::Refused(5))
        && last == (if CHECKED { Answer::Panicked } else { Answer::Given(768) }, Answer::Refused(5));
    if right { Ok(said) } else { Err(said) }
}

pub fn all() -> [fn() -> Result<String, String>; 4] {
    [d1, d2, d3, d4]
}
