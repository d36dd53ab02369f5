//! Decodes Fuji compressed raw streams (lossless and lossy, Bayer and X-Trans), through a library whose functions are proved to meet their
//! contracts. The names are those of the Rust that it was ported from, so that it can take its place.
//!
//! ```
//! use fuji_compressed::{FujiHeader, Refusal};
//!
//! let refused = FujiHeader::parse(b"not a stream, but long enough").unwrap_err();
//! assert_eq!(refused.number, 2);
//! assert_eq!(refused.to_string(), "refusal 2: a header rule is broken");
//! ```
#![deny(missing_docs)]

mod checkpoint;
mod copies;
mod decoder;
mod fault;
mod ffi;
mod parallel;
mod refusal;
mod shared;
mod windowed;
mod writer;

pub use copies::{lossy_copy, lossy_copy_parallel, lossy_copy_with, put_front, tighten, tighten_parallel, tighten_with};
pub use decoder::Decoder;
pub use fault::{Fault, Reason};
pub use refusal::Refusal;
pub use shared::{Camera, Quantisers};
pub use writer::{measure_block, measure_block_with, write_block, write_block_with, write_lossy, write_lossy_with};

/// The size of a stream's header in bytes.
pub const HEADER_SIZE: usize = 16;

/// The colour (0 red, 2 blue, else green) of every position of a tile of six rows and columns, which begins at the picture's first sample.
pub type ColorTile = [[u8; 6]; 6];

/// What a call gives that may be refused.
pub type Result<T> = std::result::Result<T, Refusal>;

/// A region: its first column and row, and its size.
#[derive(Debug, Clone, Copy, PartialEq, Eq, Default)]
pub struct Rect {
    /// The first column.
    pub x: u32,
    /// The first row.
    pub y: u32,
    /// How many columns.
    pub width: u32,
    /// How many rows.
    pub height: u32,
}

impl Rect {
    /// The region of this size from that column and row on.
    pub const fn new(x: u32, y: u32, width: u32, height: u32) -> Rect {
        Rect { x, y, width, height }
    }
}

/// One of the adaptive records of a block.
#[repr(C)]
#[derive(Debug, Clone, Copy, PartialEq, Eq, Default)]
pub struct Record {
    /// The sum of the residuals' sizes.
    pub sum: u32,
    /// How many residuals, 1 to 64.
    pub n: u32,
}

/// What a decode works in. Its contents do not matter; a decode that read a block leaves samples 0 and records (0, n 1) in the part that it
/// used. One scratch serves any number of decodes, one after the other.
#[derive(Debug, Clone, PartialEq, Eq)]
pub struct Scratch {
    /// Colour lines.
    pub samples: Vec<u16>,
    /// Statistics.
    pub records: Vec<Record>,
}

impl Scratch {
    /// Samples that suffice for every stream: 18 colour lines of 512 samples and two guards.
    pub const SAMPLES: usize = 9252;
    /// Records that suffice for every stream.
    pub const RECORDS: usize = 336;

    /// Scratch for every call and every stream.
    pub fn new() -> Scratch {
        Scratch { samples: vec![0; Self::SAMPLES], records: vec![Record::default(); Self::RECORDS] }
    }
}

impl Default for Scratch {
    fn default() -> Scratch {
        Scratch::new()
    }
}

/// A stream's header.
#[derive(Debug, Clone, Copy, PartialEq, Eq)]
pub struct FujiHeader {
    /// Lossless, or lossy with a base for each line.
    pub lossless: bool,
    /// X-Trans (raw type 16) or Bayer (raw type 0).
    pub xtrans: bool,
    /// Bits of a sample: 12, 14 or 16.
    pub bits: u32,
    /// Rows of the picture.
    pub height: u32,
    /// Columns of all blocks: 768 each.
    pub rounded_width: u32,
    /// Columns of the picture.
    pub width: u32,
    /// Columns of a block: 768.
    pub block_size: u32,
    /// Blocks, 1 to 16.
    pub blocks: u32,
    /// Lines of six rows.
    pub lines: u32,
}

impl FujiHeader {
    /// Parses and validates the first 16 bytes. Refusals 1 and 2.
    pub fn parse(bytes: &[u8]) -> Result<FujiHeader> {
        let (mut header, mut refusal) = ([0; 9], [0; 4]);
        // SAFETY: each pointer and length is that of a slice or array that outlives the call; what is written to is borrowed exclusively.
        unsafe { ffi::fuji_parse(bytes.as_ptr(), bytes.len(), &mut header, &mut refusal) };
        Refusal::answer(refusal).map(|()| FujiHeader::of(header))
    }

    /// The width in samples of block i; the last block may be narrower. Refusal 5, and 2 for a header that breaks a rule.
    pub fn block_width(&self, i: u32) -> Result<u32> {
        let bytes = self.bytes();
        let (mut width, mut refusal) = ([0; 1], [0; 4]);
        // SAFETY: each pointer and length is that of a slice or array that outlives the call; what is written to is borrowed exclusively.
        unsafe { ffi::fuji_block_width(bytes.as_ptr(), bytes.len(), i, &mut width, &mut refusal) };
        Refusal::answer(refusal).map(|()| width[0] as u32)
    }

    /// A length in bytes that no tight block under this header exceeds, whatever its samples: lines·2304·bits. Refusal 8, and 2 for a header that
    /// breaks a rule.
    ///
    /// ```
    /// use fuji_compressed::{FujiHeader, measure_block};
    ///
    /// // one line of a 14-bit Bayer picture, all samples 0
    /// let header = [0x49, 0x53, 1, 0, 14, 0, 6, 3, 0, 3, 0, 3, 0, 1, 0, 1];
    /// assert_eq!(FujiHeader::parse(&header)?.length_bound(), Ok(32_256));
    /// assert_eq!(measure_block(&header, &[0; 12 * 384]), Ok(848));
    /// # Ok::<(), fuji_compressed::Refusal>(())
    /// ```
    pub fn length_bound(&self) -> Result<usize> {
        let bytes = self.bytes();
        let (mut length, mut refusal) = ([0; 1], [0; 4]);
        // SAFETY: each pointer and length is that of a slice or array that outlives the call; what is written to is borrowed exclusively.
        unsafe { ffi::fuji_length_bound(bytes.as_ptr(), bytes.len(), &mut length, &mut refusal) };
        Refusal::answer(refusal).map(|()| length[0])
    }

    fn of(words: [usize; 9]) -> FujiHeader {
        let [lossless, xtrans, bits, height, rounded_width, width, block_size, blocks, lines] = words.map(|w| w as u32);
        FujiHeader { lossless: lossless == 1, xtrans: xtrans == 1, bits, height, rounded_width, width, block_size, blocks, lines }
    }

    /// The header's bytes. A field that has no room becomes 0, which breaks a rule.
    fn bytes(&self) -> [u8; HEADER_SIZE] {
        let one = |v: u32| u8::try_from(v).unwrap_or(0);
        let two = |v: u32| u16::try_from(v).unwrap_or(0).to_be_bytes();
        let (height, rounded) = (two(self.height), two(self.rounded_width));
        let (width, size, lines) = (two(self.width), two(self.block_size), two(self.lines));
        let kind = if self.xtrans { 16 } else { 0 };
        [
            0x49,
            0x53,
            self.lossless as u8,
            kind,
            one(self.bits),
            height[0],
            height[1],
            rounded[0],
            rounded[1],
            width[0],
            width[1],
            size[0],
            size[1],
            one(self.blocks),
            lines[0],
            lines[1],
        ]
    }
}

/// What is counted of the lines of a block: the bits of their codes, and how many of these codes are long, with no fewer zeros than the limit.
#[derive(Debug, Clone, Copy, PartialEq, Eq, Default)]
pub struct Totals {
    /// Bits of the codes.
    pub bits: u64,
    /// How many codes are long.
    pub long_codes: u64,
}

/// What the reading of one block answers. Its totals are those of all lines if the block is accepted, of the lines before the one that the refusal
/// names, and 0 if it names none.
///
/// ```
/// use fuji_compressed::{FujiCompressed, Totals};
///
/// // A header of one line of six rows, and a block without bytes.
/// let header = [0x49, 0x53, 1, 0, 14, 0, 6, 3, 0, 3, 0, 3, 0, 1, 0, 1];
/// let stream = [&header[..], &[0; 16]].concat();
/// let counted = FujiCompressed::new(&stream).unwrap().read_block(0);
/// assert_eq!(counted.answer.unwrap_err().to_string(), "refusal 14: block 0, line 0: a line is truncated");
/// assert_eq!(counted.totals, Totals { bits: 0, long_codes: 0 });
/// ```
#[derive(Debug, Clone, Copy, PartialEq, Eq)]
pub struct Counted {
    /// Whether the block is accepted, or why not.
    pub answer: Result<()>,
    /// What was counted.
    pub totals: Totals,
}

impl Counted {
    /// What the library handed back.
    fn of(totals: [usize; 2], refusal: [usize; 4]) -> Counted {
        let [bits, long_codes] = totals.map(|n| n as u64);
        Counted { answer: Refusal::answer(refusal), totals: Totals { bits, long_codes } }
    }
}

/// A stream that opened, ready to decode. Its fields are those of [`Opened`], and can be read but not changed: the header is that of the bytes.
///
/// ```compile_fail
/// # fn changed(mut stream: fuji_compressed::FujiCompressed) {
/// stream.header.width = 24;
/// # }
/// ```
#[derive(Debug, Clone, Copy)]
pub struct FujiCompressed<'a> {
    opened: Opened,
    stream: &'a [u8],
}

/// What is known of a stream that opened.
#[derive(Debug, Clone, Copy, PartialEq, Eq)]
#[non_exhaustive]
pub struct Opened {
    /// The stream's header.
    pub header: FujiHeader,
}

impl std::ops::Deref for FujiCompressed<'_> {
    type Target = Opened;

    fn deref(&self) -> &Opened {
        &self.opened
    }
}

impl<'a> FujiCompressed<'a> {
    /// `stream` starts at the header. Refusals 1 to 4.
    pub fn new(stream: &'a [u8]) -> Result<FujiCompressed<'a>> {
        let (mut header, mut refusal) = ([0; 9], [0; 4]);
        // SAFETY: each pointer and length is that of a slice or array that outlives the call; what is written to is borrowed exclusively.
        unsafe { ffi::fuji_open(stream.as_ptr(), stream.len(), &mut header, &mut refusal) };
        Refusal::answer(refusal).map(|()| FujiCompressed { opened: Opened { header: FujiHeader::of(header) }, stream })
    }

    /// Where each block's bytes lie in the stream: an offset from the header's first byte, and a length.
    pub fn block_ranges(&self) -> Vec<(usize, usize)> {
        let blocks = 0..self.header.blocks as usize;
        blocks.map(|i| self.block_range(i).expect("every block of a stream that opened has a range")).collect()
    }

    /// Where block i lies. Refusal 5.
    pub fn block_range(&self, i: usize) -> Result<(usize, usize)> {
        self.range(ffi::fuji_block_range, i)
    }

    /// The bytes of block i. Refusal 5.
    pub fn block(&self, i: usize) -> Result<&'a [u8]> {
        self.block_range(i).map(|(from, length)| &self.stream[from..from + length])
    }

    /// The quantisation bases of block i, one for each line; none if the stream is lossless. Refusal 5.
    pub fn q_bases(&self, i: usize) -> Result<&'a [u8]> {
        self.range(ffi::fuji_base_row_range, i).map(|(from, length)| &self.stream[from..from + length])
    }

    /// Decodes the whole picture, of the size that is named, row after row. Refusals 6, 7 and 14.
    pub fn decode(&self, image: &mut [u16], width: u32, height: u32, tile: &ColorTile) -> Result<()> {
        self.decode_with(&mut Scratch::new(), image, width, height, tile)
    }

    /// Decodes a region into an image that holds the region alone. Refusals 7 and 14.
    pub fn decode_region(&self, image: &mut [u16], region: Rect, tile: &ColorTile) -> Result<()> {
        self.decode_region_with(&mut Scratch::new(), image, region, tile)
    }

    /// `decode` with lent scratch. Refusal 10 too.
    pub fn decode_with(&self, scratch: &mut Scratch, image: &mut [u16], width: u32, height: u32, tile: &ColorTile) -> Result<()> {
        let mut refusal = [0; 4];
        // SAFETY: each pointer and length is that of a slice or array that outlives the call; what is written to is borrowed exclusively.
        unsafe {
            ffi::fuji_decode(
                self.stream.as_ptr(),
                self.stream.len(),
                width as usize,
                height as usize,
                flat(tile),
                image.as_mut_ptr(),
                image.len(),
                scratch.samples.as_mut_ptr(),
                scratch.samples.len(),
                scratch.records.as_mut_ptr(),
                scratch.records.len(),
                &mut refusal,
            )
        };
        Refusal::answer(refusal)
    }

    /// `decode_region` with lent scratch. Refusal 10 too.
    pub fn decode_region_with(&self, scratch: &mut Scratch, image: &mut [u16], region: Rect, tile: &ColorTile) -> Result<()> {
        self.region_by(ffi::fuji_decode_region, scratch, image, region, tile)
    }

    fn region_by(&self, of: RegionOf, scratch: &mut Scratch, image: &mut [u16], region: Rect, tile: &ColorTile) -> Result<()> {
        let mut refusal = [0; 4];
        // SAFETY: each pointer and length is that of a slice or array that outlives the call; what is written to is borrowed exclusively.
        unsafe {
            of(
                self.stream.as_ptr(),
                self.stream.len(),
                region.x as usize,
                region.y as usize,
                region.width as usize,
                region.height as usize,
                flat(tile),
                image.as_mut_ptr(),
                image.len(),
                scratch.samples.as_mut_ptr(),
                scratch.samples.len(),
                scratch.records.as_mut_ptr(),
                scratch.records.len(),
                &mut refusal,
            )
        };
        Refusal::answer(refusal)
    }

    /// Reads block i, of a lossless or a lossy stream, and shows nothing. Refusals 5 and 14.
    pub fn read_block(&self, i: usize) -> Counted {
        self.read_block_with(&mut Scratch::new(), i)
    }

    /// `read_block` with lent scratch. Refusal 10 too.
    pub fn read_block_with(&self, scratch: &mut Scratch, i: usize) -> Counted {
        self.counted(ffi::fuji_read_block, scratch, i)
    }

    /// The tight reading of block i: accepted are exactly the tight blocks. Refusals 5, 8, 14 and 15.
    pub fn read_tight(&self, i: usize) -> Counted {
        self.read_tight_with(&mut Scratch::new(), i)
    }

    /// `read_tight` with lent scratch. Refusal 10 too.
    pub fn read_tight_with(&self, scratch: &mut Scratch, i: usize) -> Counted {
        self.counted(ffi::fuji_read_tight, scratch, i)
    }

    fn counted(&self, of: CountedOf, scratch: &mut Scratch, i: usize) -> Counted {
        let (mut totals, mut refusal) = ([0; 2], [0; 4]);
        // SAFETY: each pointer and length is that of a slice or array that outlives the call; what is written to is borrowed exclusively.
        unsafe {
            of(
                self.stream.as_ptr(),
                self.stream.len(),
                i,
                scratch.samples.as_mut_ptr(),
                scratch.samples.len(),
                scratch.records.as_mut_ptr(),
                scratch.records.len(),
                &mut totals,
                &mut refusal,
            )
        };
        Counted::of(totals, refusal)
    }

    /// Why block i is not tight, `None` if it is: its first bad code, or its tail. A block that the tight reading refuses with 14 is refused here too, whatever bad code
    /// it has. Refusals 5, 8 and 14.
    pub fn bad_code(&self, i: usize) -> Result<Option<Fault>> {
        let (mut spot, mut refusal) = ([0; 6], [0; 4]);
        // SAFETY: each pointer and length is that of a slice or array that outlives the call; what is written to is borrowed exclusively.
        unsafe { ffi::fuji_bad_code(self.stream.as_ptr(), self.stream.len(), i, &mut spot, &mut refusal) };
        match (Fault::of(spot), Refusal::answer(refusal)) {
            (Some(fault), _) => Ok(Some(fault)),
            (None, answer) => answer.map(|()| None),
        }
    }

    fn range(&self, of: RangeOf, i: usize) -> Result<(usize, usize)> {
        let (mut range, mut refusal) = ([0; 2], [0; 4]);
        // SAFETY: each pointer and length is that of a slice or array that outlives the call; what is written to is borrowed exclusively.
        unsafe { of(self.stream.as_ptr(), self.stream.len(), i, &mut range, &mut refusal) };
        Refusal::answer(refusal).map(|()| (range[0], range[1]))
    }
}

/// The full sheet of short codes: every bit string of at most `length` bits that is one tight lossless code for that depth and k, as
/// 65,536·(its bits) + its value, by length and then by value. Entry number c is the string of code c. Gives how many there are; a list that is
/// shorter than that is left as it was, and a longer one from there on. No sheet has more than 32,768 strings. Refusal 24.
///
/// ```
/// let mut list = [0; 4];
/// assert_eq!(fuji_compressed::short_codes(12, 0, 3, &mut list), Ok(3));
/// assert_eq!(list, [65_537, 131_073, 196_609, 0]);
/// ```
pub fn short_codes(depth: u32, k: u32, length: u32, list: &mut [u32]) -> Result<usize> {
    let (mut count, mut refusal) = ([0; 1], [0; 4]);
    // SAFETY: each pointer and length is that of a slice or array that outlives the call; what is written to is borrowed exclusively.
    unsafe { ffi::fuji_short_codes(depth, k, length, list.as_mut_ptr(), list.len(), &mut count, &mut refusal) };
    Refusal::answer(refusal).map(|()| count[0])
}

/// The base bytes of a lossy header's lines, as a plan says. The plan is text, one record a line: first line, last line, base, in decimal, tab-separated, each of
/// 1 to 5 digits. Every line lies in exactly one record, in any order; byte n becomes the base of the record that holds line n. `bases` has as many bytes as there are
/// lines. Of the header the first 16 bytes count. Refusals 1, 2, 16, 17, 18 (its `index` is the record's number, from 1 on), 19 and 20; each leaves `bases` as it was.
///
/// ```
/// let header = [0x49, 0x53, 0, 0, 14, 0, 12, 3, 0, 3, 0, 3, 0, 1, 0, 2];
/// let mut bases = [0; 2];
/// fuji_compressed::plan_bases(&header, b"1\t1\t40\n0\t0\t3\n", &mut bases).unwrap();
/// assert_eq!(bases, [3, 40]);
/// ```
pub fn plan_bases(header: &[u8], plan: &[u8], bases: &mut [u8]) -> Result<()> {
    let mut refusal = [0; 4];
    // SAFETY: each pointer and length is that of a slice or array that outlives the call; what is written to is borrowed exclusively.
    unsafe {
        ffi::fuji_plan_bases(header.as_ptr(), header.len(), plan.as_ptr(), plan.len(), bases.as_mut_ptr(), bases.len(), &mut refusal)
    };
    Refusal::answer(refusal)
}

type RegionOf = unsafe extern "C" fn(
    *const u8,
    usize,
    usize,
    usize,
    usize,
    usize,
    *const [u8; 36],
    *mut u16,
    usize,
    *mut u16,
    usize,
    *mut Record,
    usize,
    *mut [usize; 4],
);

type CountedOf = unsafe extern "C" fn(*const u8, usize, usize, *mut u16, usize, *mut Record, usize, *mut [usize; 2], *mut [usize; 4]);

type RangeOf = unsafe extern "C" fn(*const u8, usize, usize, *mut [usize; 2], *mut [usize; 4]);

fn flat(tile: &ColorTile) -> *const [u8; 36] {
    tile.as_flattened().as_ptr().cast()
}
