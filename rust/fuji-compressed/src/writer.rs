//! Writing and measuring blocks.
use crate::{Refusal, Result, Scratch, ffi};

/// Writes the tight block of a set of colour lines to the start of `out`, and gives its length: for each line of six rows red 2 to 4, green 7 to 12
/// and blue 15 to 17, with 384 samples each (X-Trans: 512). The length is a multiple of 16: the last bytes are filled with zero bits. Of the header the
/// first 16 bytes count. With `FujiHeader::length_bound` bytes of output or more the block is written in one walk, with fewer in two. Refusals 1, 2, 8, 9, 11, 12 and 13; each
/// leaves `out` as it was.
pub fn write_block(header: &[u8], samples: &[u16], out: &mut [u8]) -> Result<usize> {
    write_block_with(&mut Scratch::new(), header, samples, out)
}

/// `write_block` with lent scratch. Refusal 10 too.
pub fn write_block_with(scratch: &mut Scratch, header: &[u8], samples: &[u16], out: &mut [u8]) -> Result<usize> {
    let (mut length, mut refusal) = ([0; 1], [0; 4]);
    // SAFETY: each pointer and length is that of a slice or array that outlives the call; what is written to is borrowed exclusively.
    unsafe {
        ffi::fuji_write_block(
            header.as_ptr(),
            header.len(),
            samples.as_ptr(),
            samples.len(),
            out.as_mut_ptr(),
            out.len(),
            scratch.samples.as_mut_ptr(),
            scratch.samples.len(),
            scratch.records.as_mut_ptr(),
            scratch.records.len(),
            &mut length,
            &mut refusal,
        )
    };
    Refusal::answer(refusal).map(|()| length[0])
}

/// Writes the block of such a set under a lossy header to the start of `out`, with one base byte for each line of six rows, and gives its length. A sample that has a
/// code reads back within the base of the quantiser that coded it, which is at most that of its line; where X-Trans interpolates, the set's samples are ignored. The
/// base row of the stream is not part of the block. Each code has at most 4·bits bits, so that lines·2304·bits bytes are enough, and with so many it is written in one
/// walk. Refusals 1, 2, 16, 17, 9, 11 and 13, in this order; each leaves `out` as it was.
///
/// ```
/// use fuji_compressed::{plan_bases, write_lossy};
///
/// // two lines of a 14-bit Bayer picture, the first with fine steps
/// let header = [0x49, 0x53, 0, 0, 14, 0, 12, 3, 0, 3, 0, 3, 0, 1, 0, 2];
/// let mut bases = [0; 2];
/// plan_bases(&header, b"0\t0\t1\n1\t1\t40\n", &mut bases)?;
/// let mut out = vec![0; 2 * 2304 * 14];
/// assert_eq!(write_lossy(&header, &bases, &[0; 24 * 384], &mut out), Ok(1424));
/// # Ok::<(), fuji_compressed::Refusal>(())
/// ```
pub fn write_lossy(header: &[u8], bases: &[u8], samples: &[u16], out: &mut [u8]) -> Result<usize> {
    write_lossy_with(&mut Scratch::new(), header, bases, samples, out)
}

/// `write_lossy` with lent scratch. Refusal 10 too, after 9.
pub fn write_lossy_with(scratch: &mut Scratch, header: &[u8], bases: &[u8], samples: &[u16], out: &mut [u8]) -> Result<usize> {
    let (mut length, mut refusal) = ([0; 1], [0; 4]);
    // SAFETY: each pointer and length is that of a slice or array that outlives the call; what is written to is borrowed exclusively.
    unsafe {
        ffi::fuji_write_lossy(
            header.as_ptr(),
            header.len(),
            bases.as_ptr(),
            bases.len(),
            samples.as_ptr(),
            samples.len(),
            out.as_mut_ptr(),
            out.len(),
            scratch.samples.as_mut_ptr(),
            scratch.samples.len(),
            scratch.records.as_mut_ptr(),
            scratch.records.len(),
            &mut length,
            &mut refusal,
        )
    };
    Refusal::answer(refusal).map(|()| length[0])
}

/// The length that `write_block` would give, without an output: nothing is written. Refusals 1, 2, 8, 9, 11 and 12.
pub fn measure_block(header: &[u8], samples: &[u16]) -> Result<usize> {
    measure_block_with(&mut Scratch::new(), header, samples)
}

/// `measure_block` with lent scratch. Refusal 10 too.
pub fn measure_block_with(scratch: &mut Scratch, header: &[u8], samples: &[u16]) -> Result<usize> {
    let (mut length, mut refusal) = ([0; 1], [0; 4]);
    // SAFETY: each pointer and length is that of a slice or array that outlives the call; what is written to is borrowed exclusively.
    unsafe {
        ffi::fuji_measure_block(
            header.as_ptr(),
            header.len(),
            samples.as_ptr(),
            samples.len(),
            scratch.samples.as_mut_ptr(),
            scratch.samples.len(),
            scratch.records.as_mut_ptr(),
            scratch.records.len(),
            &mut length,
            &mut refusal,
        )
    };
    Refusal::answer(refusal).map(|()| length[0])
}
