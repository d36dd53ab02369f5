//! The state of a block after a line, stored, and reading that goes on from it: the foot of a tall picture takes the time of its own lines.
use crate::{ColorTile, Counted, FujiCompressed, FujiHeader, Rect, Scratch, ffi, flat};

impl FujiHeader {
    /// The size in bytes of a stored state: 1,707 + 12·W, with 384 samples a colour line (X-Trans: 512).
    pub fn checkpoint_size(&self) -> usize {
        1_707 + 12 * if self.xtrans { 512 } else { 384 }
    }
}

impl FujiCompressed<'_> {
    /// Stores the state of block i after a line, counted from 0, at the start of `state`. The lines up to it are read, and counted. Refusals 5, 21 if the line is not
    /// below the lines, 13 if `state` is shorter than `checkpoint_size`, and 14; each leaves `state` as it was.
    ///
    /// ```
    /// use fuji_compressed::{ColorTile, FujiCompressed, Rect, write_block};
    ///
    /// // A block of four lines of six rows, all samples 0.
    /// let header = [0x49, 0x53, 1, 0, 14, 0, 24, 3, 0, 3, 0, 3, 0, 1, 0, 4];
    /// let mut block = vec![0; 4 * 2304 * 14];
    /// let length = write_block(&header, &[0; 4 * 12 * 384], &mut block)?;
    /// let bytes = [&header[..], &(length as u32).to_be_bytes(), &[0; 12], &block[..length]].concat();
    /// let stream = FujiCompressed::new(&bytes)?;
    ///
    /// let mut state = vec![0; stream.header.checkpoint_size()];
    /// stream.store_checkpoint(0, 2, &mut state).answer?;
    /// // Rows 12 to 23: those of line 3, the state's next line, begin at row 18.
    /// let mut image = [7; 768 * 12];
    /// stream.resume_region(0, &state, &mut image, Rect::new(0, 12, 768, 12), &ColorTile::default()).answer?;
    /// assert!(image[..768 * 6].iter().all(|v| *v == 7) && image[768 * 6..].iter().all(|v| *v == 0));
    /// # Ok::<(), fuji_compressed::Refusal>(())
    /// ```
    pub fn store_checkpoint(&self, i: usize, line: usize, state: &mut [u8]) -> Counted {
        self.store_checkpoint_with(&mut Scratch::new(), i, line, state)
    }

    /// `store_checkpoint` with lent scratch. Refusal 10 too, before 21.
    pub fn store_checkpoint_with(&self, scratch: &mut Scratch, i: usize, line: usize, state: &mut [u8]) -> Counted {
        let (mut totals, mut refusal) = ([0; 2], [0; 4]);
        // SAFETY: each pointer and length is that of a slice or array that outlives the call; what is written to is borrowed exclusively.
        unsafe {
            ffi::fuji_store_checkpoint(
                self.stream.as_ptr(),
                self.stream.len(),
                i,
                line,
                state.as_mut_ptr(),
                state.len(),
                scratch.samples.as_mut_ptr(),
                scratch.samples.len(),
                scratch.records.as_mut_ptr(),
                scratch.records.len(),
                &mut totals,
                &mut refusal,
            )
        };
        Counted::of(totals, refusal)
    }

    /// Goes on in block i from a stored state of it: fills the region's rows from the state's next line on, within that block's columns, in an image that holds the region
    /// alone, and counts the lines that it reads now. All other samples stay as they were. If the state is of a stream with the same header, and the same bytes and base row of
    /// that block, samples and answers are those of a reading from the top; any other bytes are safe. Refusals 5, 7, 21, 22 and 14.
    pub fn resume_region(&self, i: usize, state: &[u8], image: &mut [u16], region: Rect, tile: &ColorTile) -> Counted {
        self.resume_region_with(&mut Scratch::new(), i, state, image, region, tile)
    }

    /// `resume_region` with lent scratch. Refusal 10 too, before 21.
    pub fn resume_region_with(
        &self,
        scratch: &mut Scratch,
        i: usize,
        state: &[u8],
        image: &mut [u16],
        region: Rect,
        tile: &ColorTile,
    ) -> Counted {
        let (mut totals, mut refusal) = ([0; 2], [0; 4]);
        // SAFETY: each pointer and length is that of a slice or array that outlives the call; what is written to is borrowed exclusively.
        unsafe {
            ffi::fuji_resume_region(
                self.stream.as_ptr(),
                self.stream.len(),
                i,
                state.as_ptr(),
                state.len(),
                region.x as usize,
                region.y as usize,
                region.width as usize,
                region.height as usize,
                flat(tile),
                image.as_mut_ptr(),
                image.len(),
                scratch.samples.as_mut_ptr(),
                scratch.samples.len(),
                scratch.records.as_mut_ptr(),
                scratch.records.len(),
                &mut totals,
                &mut refusal,
            )
        };
        Counted::of(totals, refusal)
    }
}
