//! The same question to both sides.
use fuji_compressed::{ColorTile, FujiCompressed, FujiHeader, Rect, Refusal, Scratch};
use original::fuji_compressed as theirs;
use std::panic::{AssertUnwindSafe, catch_unwind};

/// What the original answers: a value, a refusal's number, or a panic.
#[derive(Debug, Clone, PartialEq, Eq)]
pub enum Answer<T> {
    Given(T),
    Refused(u32),
    Panicked,
}

/// The original names a refusal by its words alone.
fn number(error: &original::Error) -> u32 {
    use original::Error::{CorruptFile, InvalidArgument};
    match error {
        CorruptFile(words) => match words.as_str() {
            "truncated Fuji compressed header" => 1,
            "invalid Fuji compressed header" => 2,
            "truncated Fuji block size table" => 3,
            "truncated Fuji lossy quantisation table" => 4,
            "truncated Fuji compressed block" => 14,
            _ => panic!("an error of the original that has no number here: {words}"),
        },
        InvalidArgument(words) => match words.as_str() {
            "Fuji compressed output size does not match the stream" => 6,
            "Fuji compressed region outside the image or buffer too small" => 7,
            _ => panic!("an error of the original that has no number here: {words}"),
        },
    }
}

/// Asks the original.
pub fn ask<T>(question: impl FnOnce() -> original::Result<T>) -> Answer<T> {
    match catch_unwind(AssertUnwindSafe(question)) {
        Ok(Ok(value)) => Answer::Given(value),
        Ok(Err(error)) => Answer::Refused(number(&error)),
        Err(_) => Answer::Panicked,
    }
}

/// Our answer in the same form.
pub fn ours<T>(answer: Result<T, Refusal>) -> Answer<T> {
    match answer {
        Ok(value) => Answer::Given(value),
        Err(refusal) => Answer::Refused(refusal.number),
    }
}

/// The original's header with our names.
pub fn same(h: theirs::FujiHeader) -> FujiHeader {
    let theirs::FujiHeader { lossless, xtrans, bits, height, rounded_width, width, block_size, blocks, lines } = h;
    FujiHeader { lossless, xtrans, bits, height, rounded_width, width, block_size, blocks, lines }
}

/// All that opening a stream tells: the header, the blocks' ranges, and the base rows with their places.
#[derive(Debug, PartialEq, Eq)]
pub struct Opened {
    pub header: FujiHeader,
    pub ranges: Vec<(usize, usize)>,
    pub rows: Vec<Vec<u8>>,
    pub blocks: Vec<Vec<u8>>,
}

pub fn open_theirs(bytes: &[u8]) -> Answer<Opened> {
    ask(|| {
        let stream = theirs::FujiCompressed::new(bytes)?;
        let ranges = stream.block_ranges(bytes);
        let blocks = ranges.iter().map(|(from, length)| bytes[*from..from + length].to_vec()).collect();
        let inside = original::opened::FujiCompressed::new(bytes)?;
        let rows = original::opened::rows::rows(&inside).iter().map(|row| row.to_vec()).collect();
        Ok(Opened { header: same(stream.header), ranges, rows, blocks })
    })
}

pub fn open_ours(bytes: &[u8]) -> Answer<Opened> {
    ours(FujiCompressed::new(bytes).map(|stream| {
        let all = 0..stream.header.blocks as usize;
        let part = |bytes: Result<&[u8], Refusal>| bytes.expect("a block of a stream that opened").to_vec();
        let mut rows: Vec<Vec<u8>> = all.clone().map(|b| part(stream.q_bases(b))).collect();
        if stream.header.lossless {
            // The original holds no rows then; ours are empty.
            assert!(rows.iter().all(Vec::is_empty));
            rows.clear();
        }
        let blocks = all.map(|b| part(stream.block(b))).collect();
        Opened { header: stream.header, ranges: stream.block_ranges(), rows, blocks }
    }))
}

/// What a decode is asked: a size, or a region.
#[derive(Debug, Clone, Copy)]
pub enum Wanted {
    Whole(u32, u32),
    Region(Rect),
}

impl Wanted {
    pub fn region(&self) -> Rect {
        match *self {
            Wanted::Whole(width, height) => Rect::new(0, 0, width, height),
            Wanted::Region(region) => region,
        }
    }
}

/// The original's decode, on one thread, of a stream that opens.
pub fn decode_theirs(bytes: &[u8], wanted: Wanted, tile: &ColorTile, image: &mut [u16]) -> Answer<()> {
    ask(|| {
        let stream = theirs::FujiCompressed::new(bytes)?;
        match wanted {
            Wanted::Whole(width, height) => stream.decode(image, width, height, tile, false),
            Wanted::Region(r) => stream.decode_region(image, original::Rect::new(r.x, r.y, r.width, r.height), tile, false),
        }
    })
}

pub fn decode_ours(bytes: &[u8], wanted: Wanted, tile: &ColorTile, image: &mut [u16], scratch: &mut Scratch) -> Result<(), Refusal> {
    let stream = FujiCompressed::new(bytes)?;
    match wanted {
        Wanted::Whole(width, height) => stream.decode_with(scratch, image, width, height, tile),
        Wanted::Region(region) => stream.decode_region_with(scratch, image, region, tile),
    }
}

/// Whether the original refuses the first `lines` lines of a block as truncated: it is asked for one column of it.
fn is_truncated(bytes: &[u8], block: usize, lines: usize) -> bool {
    let region = Rect::new(768 * block as u32, 6 * lines as u32 - 1, 1, 1);
    let mut image = [0];
    decode_theirs(bytes, Wanted::Region(region), &ColorTile::default(), &mut image) == Answer::Refused(14)
}

/// The lowest block that the original finds truncated among those of a region, and its first truncated line. Its own answer names neither.
pub fn truncated_place(bytes: &[u8], region: Rect) -> Option<(usize, usize)> {
    let lines = (region.y + region.height).div_ceil(6) as usize;
    let blocks = region.x as usize / 768..=(region.x + region.width - 1) as usize / 768;
    let block = blocks.into_iter().find(|b| is_truncated(bytes, *b, lines))?;
    let line = (0..lines).find(|n| is_truncated(bytes, block, n + 1))?;
    Some((block, line))
}

/// What is to be in the image where a region is decoded in windows: the original's image, with 0 in the six rows of each block's first truncated line.
pub fn with_zeros(bytes: &[u8], region: Rect, mut image: Vec<u16>) -> Vec<u16> {
    let columns = region.x..region.x + region.width;
    for block in region.x / 768..=(columns.end - 1) / 768 {
        let (left, right) = (columns.start.max(768 * block), columns.end.min(768 * block + 768));
        let Some((_, line)) = truncated_place(bytes, Rect::new(left, region.y, right - left, region.height)) else { continue };
        let rows = (6 * line as u32).max(region.y)..(6 * line as u32 + 6).min(region.y + region.height);
        for row in rows {
            let at = (row - region.y) as usize * region.width as usize;
            image[at + (left - region.x) as usize..at + (right - region.x) as usize].fill(0);
        }
    }
    image
}
