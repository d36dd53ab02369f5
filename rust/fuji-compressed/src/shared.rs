//! Two cameras whose streams share 16 quantiser entries.
use crate::{ColorTile, Rect, Refusal, Result, Scratch, ffi, flat};

/// One of the two cameras.
#[derive(Debug, Clone, Copy, PartialEq, Eq)]
pub enum Camera {
    /// Camera 1.
    One,
    /// Camera 2.
    Two,
}

impl Camera {
    fn number(self) -> u32 {
        match self {
            Camera::One => 1,
            Camera::Two => 2,
        }
    }
}

/// The 16 quantiser entries, one for each pair of depth and main base that a camera holds. Each call takes them and returns them. None is held at
/// first.
#[derive(Debug, Clone, Copy, PartialEq, Eq)]
pub struct Quantisers {
    words: [u32; 128],
}

impl Default for Quantisers {
    fn default() -> Quantisers {
        Quantisers { words: [0; 128] }
    }
}

impl Quantisers {
    /// `decode_region` of a stream for a camera. Each line that is read needs the entry of its depth and base: a held one is shared, or else the lowest that
    /// nobody holds is taken. Refusal 23 names the block and the line that has none while all 16 are held; the rows before that line stay, and later blocks are not
    /// read. Every refusal gives back all that the camera holds. Where it is not 23, answer and image are those of `decode_region`. Refusals 1 to 4, 7, 14 and 23.
    ///
    /// ```
    /// use fuji_compressed::{Camera, ColorTile, Quantisers, Rect};
    ///
    /// // One line of six rows, and a block without bytes: its first line is truncated.
    /// let header = [0x49, 0x53, 1, 0, 14, 0, 6, 3, 0, 3, 0, 3, 0, 1, 0, 1];
    /// let stream = [&header[..], &[0; 4]].concat();
    /// let mut image = [7; 4];
    /// let all = Quantisers::default();
    /// let (answer, all) = all.decode_region(Camera::One, &stream, &mut image, Rect::new(10, 2, 2, 2), &ColorTile::default());
    /// assert_eq!(answer.unwrap_err().number, 14);
    /// assert_eq!(image, [7; 4]);
    /// let all = all.end_stream(Camera::One);
    /// # let _ = all;
    /// ```
    pub fn decode_region(
        self,
        camera: Camera,
        stream: &[u8],
        image: &mut [u16],
        region: Rect,
        tile: &ColorTile,
    ) -> (Result<()>, Quantisers) {
        self.decode_region_with(camera, &mut Scratch::new(), stream, image, region, tile)
    }

    /// `decode_region` with lent scratch. Refusal 10 too.
    pub fn decode_region_with(
        mut self,
        camera: Camera,
        scratch: &mut Scratch,
        stream: &[u8],
        image: &mut [u16],
        region: Rect,
        tile: &ColorTile,
    ) -> (Result<()>, Quantisers) {
        let mut refusal = [0; 4];
        // SAFETY: each pointer and length is that of a slice or array that outlives the call; what is written to is borrowed exclusively.
        unsafe {
            ffi::fuji_decode_region_shared(
                camera.number(),
                &mut self.words,
                stream.as_ptr(),
                stream.len(),
                region.x as usize,
                region.y as usize,
                region.width as usize,
                region.height as usize,
                flat(tile),
                image.as_mut_ptr(),
                image.len(),
                scratch.samples.as_mut_ptr(),
                scratch.samples.len(),
                scratch.records.as_mut_ptr(),
                scratch.records.len(),
                &mut refusal,
            )
        };
        (Refusal::answer(refusal), self)
    }

    /// The camera's stream ends: all that it holds is given back.
    pub fn end_stream(mut self, camera: Camera) -> Quantisers {
        // SAFETY: each pointer and length is that of a slice or array that outlives the call; what is written to is borrowed exclusively.
        unsafe { ffi::fuji_end_stream(camera.number(), &mut self.words) };
        self
    }

    /// How many entries a camera holds.
    pub fn held(&self, camera: Camera) -> usize {
        let word = match camera {
            Camera::One => 6,
            Camera::Two => 7,
        };
        self.words.chunks_exact(8).filter(|entry| entry[word] != 0).count()
    }
}
