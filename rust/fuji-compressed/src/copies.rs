//! Colour lines out of a stream, and whole streams made of them: tight masters and lossy working copies.
use crate::writer::{write_block_with, write_lossy_with};
use crate::{Counted, FujiCompressed, FujiHeader, HEADER_SIZE, Refusal, Result, Scratch, ffi};
use std::sync::Mutex;
use std::thread;

impl FujiHeader {
    /// The samples of a set of colour lines: lines·12·W, where W is 384 (X-Trans: 512).
    pub fn set_size(&self) -> usize {
        self.lines as usize * 12 * if self.xtrans { 512 } else { 384 }
    }

    /// The bytes that stand before the blocks of a stream with this header: 16, the sizes, and the base rows of a lossy stream. At most 43,856.
    pub fn front_length(&self) -> usize {
        let blocks = self.blocks as usize;
        let row = if self.lossless { 0 } else { self.lines as usize };
        HEADER_SIZE + (4 * blocks).next_multiple_of(16) + blocks * row.next_multiple_of(16)
    }

    /// Bytes that suffice for the output of `tighten`, whatever the stream's samples are.
    pub fn tightened_bound(&self) -> usize {
        FujiHeader { lossless: true, ..*self }.front_length() + self.blocks as usize * self.block_bound()
    }

    /// Bytes that suffice for the output of `lossy_copy`, whatever the samples and the bases are.
    pub fn lossy_copy_bound(&self) -> usize {
        FujiHeader { lossless: false, ..*self }.front_length() + self.blocks as usize * self.block_bound()
    }

    /// Bytes that suffice for a block, tight or lossy: each of its codes has at most 4·bits bits.
    fn block_bound(&self) -> usize {
        self.lines as usize * 2304 * self.bits as usize
    }
}

impl FujiCompressed<'_> {
    /// The colour lines of block i, lossless or lossy: the set that `write_block` and `write_lossy` take, of exactly `FujiHeader::set_size` samples. The
    /// answer and the totals are those of `read_block`. Refusals 5, 9 and 14, in this order. With 14 the lines before the truncated one are in the set, and
    /// the rest of it is as it was; the others leave it as it was.
    pub fn read_set(&self, i: usize, set: &mut [u16]) -> Counted {
        self.read_set_with(&mut Scratch::new(), i, set)
    }

    /// `read_set` with lent scratch. Refusal 10 too, after 9.
    pub fn read_set_with(&self, scratch: &mut Scratch, i: usize, set: &mut [u16]) -> Counted {
        let (mut totals, mut refusal) = ([0; 2], [0; 4]);
        // SAFETY: each pointer and length is that of a slice or array that outlives the call; what is written to is borrowed exclusively.
        unsafe {
            ffi::fuji_read_set(
                self.stream.as_ptr(),
                self.stream.len(),
                i,
                set.as_mut_ptr(),
                set.len(),
                scratch.samples.as_mut_ptr(),
                scratch.samples.len(),
                scratch.records.as_mut_ptr(),
                scratch.records.len(),
                &mut totals,
                &mut refusal,
            )
        };
        Counted::of(totals, refusal)
    }
}

/// Puts what stands before the blocks of a stream to the start of `out`: the header's 16 bytes, the blocks' sizes and, if the header is lossy, the base rows, each
/// filled with zeros to a multiple of 16 bytes. `rows` has a byte for each line of each block, block after block, and none if the header is lossless; `lengths` has the
/// length of each block. Gives the length of the whole stream: the blocks follow the first `FujiHeader::front_length` bytes, one after the other. Refusals 1, 2, 25, 17,
/// 26 and 13, in this order; each leaves `out` as it was.
pub fn put_front(header: &[u8], rows: &[u8], lengths: &[usize], out: &mut [u8]) -> Result<usize> {
    let (mut length, mut refusal) = ([0; 1], [0; 4]);
    // SAFETY: each pointer and length is that of a slice or array that outlives the call; what is written to is borrowed exclusively.
    unsafe {
        ffi::fuji_put_front(
            header.as_ptr(),
            header.len(),
            rows.as_ptr(),
            rows.len(),
            lengths.as_ptr(),
            lengths.len(),
            out.as_mut_ptr(),
            out.len(),
            &mut length,
            &mut refusal,
        )
    };
    Refusal::answer(refusal).map(|()| length[0])
}

/// Writes the tight stream of a stream, lossless or lossy, to the start of `out`, and gives its length: the same header but for the lossless flag, every block tight,
/// and the same samples in every decode. Two streams whose headers agree but for that flag have the same tight stream exactly if they have the same colour lines. With
/// `FujiHeader::tightened_bound` bytes `out` is long enough. Refusals 1 to 4; 13 if `out` has no room for what stands before the blocks; then 14 or 13 of the lowest
/// block that is truncated or has no room. Up to the first 13 `out` is as it was; one that was refused later begins with zeros and does not open.
///
/// ```
/// use fuji_compressed::{FujiCompressed, tighten, write_block};
///
/// // One line of six rows of Bayer samples, all of them 9; and bytes that belong to no block.
/// let header = [0x49, 0x53, 1, 0, 14, 0, 6, 3, 0, 3, 0, 3, 0, 1, 0, 1];
/// let mut block = [0; 32_256];
/// let length = write_block(&header, &[9; 4608], &mut block)?;
/// let stream = [&header[..], &(length as u32).to_be_bytes(), &[0; 12], &block[..length], b"more"].concat();
/// let mut out = vec![0; FujiCompressed::new(&stream)?.header.tightened_bound()];
/// let length = tighten(&stream, &mut out)?;
/// assert!(out[..length] == stream[..stream.len() - 4]);
/// # Ok::<(), fuji_compressed::Refusal>(())
/// ```
pub fn tighten(stream: &[u8], out: &mut [u8]) -> Result<usize> {
    tighten_with(&mut Scratch::new(), &mut set_for(stream), stream, out)
}

/// `tighten` with lent scratch and a lent set of exactly `FujiHeader::set_size` samples, which is scratch too. Refusals 9 and 10 too, after 4.
pub fn tighten_with(scratch: &mut Scratch, set: &mut [u16], stream: &[u8], out: &mut [u8]) -> Result<usize> {
    let (mut length, mut refusal) = ([0; 1], [0; 4]);
    // SAFETY: each pointer and length is that of a slice or array that outlives the call; what is written to is borrowed exclusively.
    unsafe {
        ffi::fuji_tighten(
            stream.as_ptr(),
            stream.len(),
            out.as_mut_ptr(),
            out.len(),
            set.as_mut_ptr(),
            set.len(),
            scratch.samples.as_mut_ptr(),
            scratch.samples.len(),
            scratch.records.as_mut_ptr(),
            scratch.records.len(),
            &mut length,
            &mut refusal,
        )
    };
    Refusal::answer(refusal).map(|()| length[0])
}

/// Writes a lossy working copy of a stream, lossless or lossy, to the start of `out`, and gives its length. `bases` has a byte for each line of each block, block after
/// block; each sample that has a code reads back within the base of its line. With `FujiHeader::lossy_copy_bound` bytes `out` is long enough. Refusals as those of
/// `tighten`, with 17 after 4 for another number of bases.
pub fn lossy_copy(stream: &[u8], bases: &[u8], out: &mut [u8]) -> Result<usize> {
    lossy_copy_with(&mut Scratch::new(), &mut set_for(stream), stream, bases, out)
}

/// `lossy_copy` with lent scratch and a lent set. Refusals 9 and 10 too, after 17.
pub fn lossy_copy_with(scratch: &mut Scratch, set: &mut [u16], stream: &[u8], bases: &[u8], out: &mut [u8]) -> Result<usize> {
    let (mut length, mut refusal) = ([0; 1], [0; 4]);
    // SAFETY: each pointer and length is that of a slice or array that outlives the call; what is written to is borrowed exclusively.
    unsafe {
        ffi::fuji_lossy_copy(
            stream.as_ptr(),
            stream.len(),
            bases.as_ptr(),
            bases.len(),
            out.as_mut_ptr(),
            out.len(),
            set.as_mut_ptr(),
            set.len(),
            scratch.samples.as_mut_ptr(),
            scratch.samples.len(),
            scratch.records.as_mut_ptr(),
            scratch.records.len(),
            &mut length,
            &mut refusal,
        )
    };
    Refusal::answer(refusal).map(|()| length[0])
}

/// The tight stream of a stream by so many threads, or one if 0 is named: the bytes that `tighten` writes. `done` is called after each block. Refusals 1 to 4 and 14, as
/// `tighten` gives them. Each thread has scratch and a set of its own, and room for one block; what is made before it is put together takes the length of the result
/// once more.
///
/// That the bytes are the same rests on a proved statement: what `put_front` puts, with the blocks behind it, is the stream
/// (crates/theorem_whole_streams/specs/Fronts.antt).
pub fn tighten_parallel(threads: usize, stream: &[u8], done: &(dyn Fn() + Sync)) -> Result<Vec<u8>> {
    not_begun(tighten_with(&mut Scratch::new(), &mut [], stream, &mut []))?;
    let opened = FujiCompressed::new(stream)?;
    let head = flagged(stream, 1);
    by_threads(&opened, threads, done, &head, &[], &|scratch, _, set, out| write_block_with(scratch, &head, set, out))
}

/// The lossy working copy of a stream by so many threads, in the same way: the bytes that `lossy_copy` writes. Refusals 1 to 4, 17 and 14.
pub fn lossy_copy_parallel(threads: usize, stream: &[u8], bases: &[u8], done: &(dyn Fn() + Sync)) -> Result<Vec<u8>> {
    not_begun(lossy_copy_with(&mut Scratch::new(), &mut [], stream, bases, &mut []))?;
    let opened = FujiCompressed::new(stream)?;
    let (head, lines) = (flagged(stream, 0), opened.header.lines as usize);
    by_threads(&opened, threads, done, &head, bases, &|scratch, b, set, out| {
        write_lossy_with(scratch, &head, &bases[b * lines..(b + 1) * lines], set, out)
    })
}

/// A set of the right size for a stream that opens.
fn set_for(stream: &[u8]) -> Vec<u16> {
    vec![0; FujiCompressed::new(stream).map_or(0, |opened| opened.header.set_size())]
}

/// The header's bytes with this lossless flag.
fn flagged(stream: &[u8], lossless: u8) -> [u8; HEADER_SIZE] {
    let mut head: [u8; HEADER_SIZE] = stream[..HEADER_SIZE].try_into().unwrap();
    head[2] = lossless;
    head
}

/// What a call without a set answers: refusal 9, unless one comes before it.
fn not_begun(answer: Result<usize>) -> Result<()> {
    match answer {
        Err(refusal) if refusal.number != 9 => Err(refusal),
        _ => Ok(()),
    }
}

/// Writes the set of a block of this number.
type Writer<'w> = &'w (dyn Fn(&mut Scratch, usize, &[u16], &mut [u8]) -> Result<usize> + Sync);

/// Each block is read and written by a thread, and they are put together behind what stands before them.
fn by_threads(
    opened: &FujiCompressed,
    threads: usize,
    done: &(dyn Fn() + Sync),
    head: &[u8],
    rows: &[u8],
    write: Writer,
) -> Result<Vec<u8>> {
    let count = opened.header.blocks as usize;
    let (next, made) = (Mutex::new(0..count), Mutex::new(vec![Ok(vec![]); count]));
    let work = || {
        let mut scratch = Scratch::new();
        let mut set = vec![0; opened.header.set_size()];
        let mut room = vec![0; opened.header.block_bound()];
        loop {
            let Some(b) = next.lock().unwrap().next() else { return };
            let read = opened.read_set_with(&mut scratch, b, &mut set).answer;
            let block = read.and_then(|()| write(&mut scratch, b, &set, &mut room)).map(|length| room[..length].to_vec());
            made.lock().unwrap()[b] = block;
            done();
        }
    };
    let threads = threads.clamp(1, count);
    // This thread only waits, if it can: where it works too, a new one may have to share its processor.
    thread::scope(|scope| {
        let has_thread = |_| threads > 1 && thread::Builder::new().spawn_scoped(scope, work).is_ok();
        if (0..threads).filter(|i| has_thread(*i)).count() == 0 {
            work();
        }
    });
    // The lowest block that is refused is the answer.
    let blocks: Vec<Vec<u8>> = made.into_inner().unwrap().into_iter().collect::<Result<_>>()?;
    let lengths: Vec<usize> = blocks.iter().map(Vec::len).collect();
    let mut out = vec![0; FujiHeader::parse(head)?.front_length()];
    let length = put_front(head, rows, &lengths, &mut out)?;
    out.reserve_exact(length - out.len());
    blocks.iter().for_each(|block| out.extend_from_slice(block));
    Ok(out)
}
