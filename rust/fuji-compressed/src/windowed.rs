//! Decoding in half the samples of scratch: of each colour only three lines are kept, and each goes to the image when it has been read.
use crate::{ColorTile, FujiCompressed, Record, Rect, Result, Scratch, ffi};

impl Scratch {
    /// Samples that suffice for every stream where three lines of each colour are kept: nine lines of 512 samples and two guards. For Bayer streams
    /// 3,474 do.
    pub const WINDOW_SAMPLES: usize = 4626;

    /// Scratch for `decode_region_windowed_with` and any stream. Every other call refuses it with 10.
    pub fn windowed() -> Scratch {
        Scratch { samples: vec![0; Self::WINDOW_SAMPLES], records: vec![Record::default(); Self::RECORDS] }
    }
}

impl FujiCompressed<'_> {
    /// `decode_region` in half the samples of scratch. Samples and answers are the same, but with refusal 14 the six rows of a block's truncated line are
    /// 0, within its columns and the region. Refusals 7 and 14.
    ///
    /// ```
    /// use fuji_compressed::{ColorTile, FujiCompressed, Rect};
    ///
    /// // One line of six rows, and a block without bytes.
    /// let header = [0x49, 0x53, 1, 0, 14, 0, 6, 3, 0, 3, 0, 3, 0, 1, 0, 1];
    /// let stream = [&header[..], &[0; 4]].concat();
    /// let mut image = [7; 5];
    /// let answer = FujiCompressed::new(&stream)?.decode_region_windowed(&mut image, Rect::new(10, 2, 2, 2), &ColorTile::default());
    /// assert_eq!(answer.unwrap_err().number, 14);
    /// assert_eq!(image, [0, 0, 0, 0, 7]);
    /// # Ok::<(), fuji_compressed::Refusal>(())
    /// ```
    pub fn decode_region_windowed(&self, image: &mut [u16], region: Rect, tile: &ColorTile) -> Result<()> {
        self.decode_region_windowed_with(&mut Scratch::windowed(), image, region, tile)
    }

    /// `decode_region_windowed` with lent scratch. Refusal 10 too, with fewer than 3,474 samples (X-Trans: 4,626) or 336 records; what is longer is left
    /// as it was.
    pub fn decode_region_windowed_with(&self, scratch: &mut Scratch, image: &mut [u16], region: Rect, tile: &ColorTile) -> Result<()> {
        self.region_by(ffi::fuji_decode_region_windowed, scratch, image, region, tile)
    }
}
