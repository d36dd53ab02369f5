//! One way to decode, with options.
use crate::{ColorTile, FujiCompressed, Rect, Result, Scratch};

/// A decode that is being described. Without options it decodes the whole picture, with the usual tile of its kind, on one thread.
///
/// ```
/// use fuji_compressed::{FujiCompressed, Rect, write_block};
///
/// // One line of six rows of Bayer samples, all of them 9.
/// let header = [0x49, 0x53, 1, 0, 14, 0, 6, 3, 0, 3, 0, 3, 0, 1, 0, 1];
/// let mut block = [0; 32256];
/// let length = write_block(&header, &[9; 4608], &mut block)?;
/// let bytes = [&header[..], &(length as u32).to_be_bytes(), &[0; 12], &block[..length]].concat();
/// let stream = FujiCompressed::new(&bytes)?;
/// assert_eq!(stream.decoder().decode()?, vec![9; 768 * 6]);
/// let mut image = [0; 6];
/// stream.decoder().region(Rect::new(10, 1, 3, 2)).windowed(true).decode_into(&mut image)?;
/// assert_eq!(image, [9; 6]);
/// # Ok::<(), fuji_compressed::Refusal>(())
/// ```
#[derive(Debug)]
#[must_use = "nothing is decoded before decode or decode_into"]
pub struct Decoder<'s, 'a> {
    stream: FujiCompressed<'a>,
    region: Rect,
    tile: ColorTile,
    threads: usize,
    windowed: bool,
    scratch: Option<&'s mut Scratch>,
}

impl FujiCompressed<'_> {
    /// The tile of all known cameras that write compressed Bayer streams.
    pub const BAYER_TILE: ColorTile = [[0, 1, 0, 1, 0, 1], [1, 2, 1, 2, 1, 2], [0, 1, 0, 1, 0, 1], [1, 2, 1, 2, 1, 2], [0, 1, 0, 1, 0, 1], [1, 2, 1, 2, 1, 2]];

    /// The tile of all known cameras that write compressed X-Trans streams.
    pub const XTRANS_TILE: ColorTile = [[1, 1, 0, 1, 1, 2], [1, 1, 2, 1, 1, 0], [2, 0, 1, 0, 2, 1], [1, 1, 2, 1, 1, 0], [1, 1, 0, 1, 1, 2], [0, 2, 1, 2, 0, 1]];
}

impl<'a> FujiCompressed<'a> {
    /// Describes a decode of this stream.
    pub fn decoder<'s>(&self) -> Decoder<'s, 'a> {
        let tile = if self.header.xtrans { Self::XTRANS_TILE } else { Self::BAYER_TILE };
        let region = Rect::new(0, 0, self.header.width, self.header.height);
        Decoder { stream: *self, region, tile, threads: 1, windowed: false, scratch: None }
    }
}

impl<'s> Decoder<'s, '_> {
    /// Decodes only this region.
    pub fn region(mut self, region: Rect) -> Self {
        self.region = region;
        self
    }

    /// The sensor's colours.
    pub fn tile(mut self, tile: &ColorTile) -> Self {
        self.tile = *tile;
        self
    }

    /// By so many threads. Each has scratch of its own, so that lent scratch serves one thread only.
    pub fn threads(mut self, threads: usize) -> Self {
        self.threads = threads;
        self
    }

    /// In half the scratch. With refusal 14 the six rows of a block's truncated line are 0.
    pub fn windowed(mut self, windowed: bool) -> Self {
        self.windowed = windowed;
        self
    }

    /// In this scratch, if it is on one thread.
    pub fn scratch(mut self, scratch: &'s mut Scratch) -> Self {
        self.scratch = Some(scratch);
        self
    }

    /// Decodes into an image that holds the region alone. Refusals 7, 10 (of lent scratch) and 14, as with `decode_region`.
    pub fn decode_into(self, image: &mut [u16]) -> Result<()> {
        let Decoder { stream, region, tile, threads, windowed, scratch } = self;
        if threads > 1 {
            return match windowed {
                true => stream.decode_region_windowed_parallel(threads, image, region, &tile, &|| ()),
                false => stream.decode_region_parallel(threads, image, region, &tile, &|| ()),
            };
        }
        match (windowed, scratch) {
            (true, Some(scratch)) => stream.decode_region_windowed_with(scratch, image, region, &tile),
            (true, None) => stream.decode_region_windowed(image, region, &tile),
            (false, Some(scratch)) => stream.decode_region_with(scratch, image, region, &tile),
            (false, None) => stream.decode_region(image, region, &tile),
        }
    }

    /// Decodes into an image of its own. A region that passes the picture's edge is refused before memory is asked for.
    pub fn decode(self) -> Result<Vec<u16>> {
        let (h, r) = (self.stream.header, self.region);
        let fits = r.x.checked_add(r.width).is_some_and(|e| e <= h.width) && r.y.checked_add(r.height).is_some_and(|e| e <= h.height);
        let mut image = if fits { vec![0; r.width as usize * r.height as usize] } else { Vec::new() };
        self.decode_into(&mut image)?;
        Ok(image)
    }
}
