//! Colour lines out of a stream, the front of a stream, and whole streams made of a stream: of another encoder's blocks, tight ones, loose ones and lossy ones; what every
//! refusal leaves in every buffer; and by several threads.
mod lent;
mod sets;

use common::encoder::{How, Spoil, encode_spoilt};
use common::pictures::scene;
use common::random::Random;
use common::stream::{Header, encoded, stream};
use fuji_compressed::{
    ColorTile, FujiCompressed, FujiHeader, Record, Refusal, Scratch, lossy_copy, lossy_copy_parallel, put_front, tighten, tighten_parallel,
};
use lent::{FINE, OLD, PATTERN, ffi, sample_file};
use sets::{is_cleared, is_interpolated, soiled, width};
use std::sync::atomic::{AtomicUsize, Ordering};

const TILE: ColorTile =
    [[1, 1, 0, 1, 1, 2], [1, 1, 2, 1, 1, 0], [2, 0, 1, 0, 2, 1], [1, 1, 2, 1, 1, 0], [1, 1, 0, 1, 1, 2], [0, 2, 1, 2, 0, 1]];

/// What was in the output before a call.
const BYTE: u8 = 0x77;

fn picture(header: &Header, rows: &[Vec<u8>], seed: u64) -> Vec<u8> {
    let (mut random, largest) = (Random::new(seed), (1 << header.bits) - 1);
    encoded(header, rows, &mut |b, n, line, p| scene(seed + b as u64, largest, n, line, p, &mut random))
}

fn rows(header: &Header, random: &mut Random, most: u64) -> Vec<Vec<u8>> {
    (0..header.blocks).map(|_| (0..header.lines).map(|_| random.below(most) as u8).collect()).collect()
}

/// Blocks of which each has a code that is not tight, bytes to spare, or both.
fn loose(header: &Header, seed: u64) -> Vec<u8> {
    let (mut random, largest) = (Random::new(seed), (1 << header.bits) - 1);
    let hows = [How::Escape, How::Zero, How::Large, How::Two];
    let block = |b: usize| {
        let spoil = Spoil { from: 100 * b + 3000 * (b % 2), how: hows[(seed as usize + b) % 4] };
        let mut want = |n, line, p| scene(b as u64, largest, n, line, p, &mut random);
        let mut block = encode_spoilt(header.bits as u32, header.raw_type == 16, &[], header.lines as usize, &mut want, Some(spoil));
        assert!(block.spoilt);
        block.bytes.extend(std::iter::repeat_n(b as u8 ^ 0x5a, 40 * (b % 3)));
        block.bytes
    };
    stream(header, &[], &(0..header.blocks as usize).map(block).collect::<Vec<_>>())
}

/// Streams that read whole, with and without columns that are hidden in the last block.
fn readable() -> Vec<Vec<u8>> {
    let mut random = Random::new(20);
    let mut all = vec![];
    for (xtrans, bits, width, lines) in
        [(false, 14, 768, 3), (true, 14, 1536, 2), (false, 12, 1800, 2), (true, 16, 2304 - 24, 1), (false, 16, 768, 1)]
    {
        let header = Header::new(true, xtrans, bits, width, lines);
        let seed = bits as u64 + width as u64;
        let tight = picture(&header, &[], seed);
        all.push([&tight[..], b"bytes that belong to no block"].concat());
        // what fills up the sizes
        let mut filled = tight.clone();
        if header.blocks % 4 != 0 {
            filled[16 + 4 * header.blocks as usize] = 9;
        }
        all.push(filled);
        all.push(tight);
        all.push(loose(&header, seed));
        let lossy = Header::new(false, xtrans, bits, width, lines);
        for most in [1, 4, 256] {
            let rows = rows(&lossy, &mut random, most);
            all.push(picture(&lossy, &rows, seed));
        }
    }
    all
}

fn image(bytes: &[u8]) -> Result<Vec<u16>, Refusal> {
    let opened = FujiCompressed::new(bytes)?;
    let mut image = vec![0; opened.header.width as usize * opened.header.height as usize];
    opened.decode(&mut image, opened.header.width, opened.header.height, &TILE).map(|()| image)
}

/// The set of a block as single colours show it.
fn shown(bytes: &[u8], b: usize) -> Vec<u16> {
    let header = Header::of(bytes).unwrap();
    let opened = FujiCompressed::new(bytes).unwrap();
    let alone = Header::new(header.lossless == 1, header.raw_type == 16, header.bits, 768, header.lines);
    sets::read_set(&alone, opened.q_bases(b).unwrap(), opened.block(b).unwrap())
}

fn handed(bytes: &[u8], b: usize) -> Vec<u16> {
    let opened = FujiCompressed::new(bytes).unwrap();
    let (mut set, mut scratch) = (vec![PATTERN; opened.header.set_size()], soiled());
    let counted = opened.read_set_with(&mut scratch, b, &mut set);
    assert_eq!(counted, opened.read_block(b));
    assert_eq!(counted.answer, Ok(()));
    assert!(is_cleared(&scratch, opened.header.xtrans));
    set
}

fn blocks(bytes: &[u8]) -> std::ops::Range<usize> {
    0..FujiCompressed::new(bytes).unwrap().header.blocks as usize
}

/// The tight stream, with an output of the size that suffices.
fn tightened(bytes: &[u8]) -> Vec<u8> {
    let bound = FujiCompressed::new(bytes).unwrap().header.tightened_bound();
    let mut out = vec![BYTE; bound];
    let length = tighten(bytes, &mut out).unwrap();
    assert!(out[length..].iter().all(|v| *v == BYTE));
    out.truncate(length);
    out
}

fn copied(bytes: &[u8], bases: &[u8]) -> Vec<u8> {
    let bound = FujiCompressed::new(bytes).unwrap().header.lossy_copy_bound();
    let mut out = vec![BYTE; bound];
    let length = lossy_copy(bytes, bases, &mut out).unwrap();
    assert!(out[length..].iter().all(|v| *v == BYTE));
    out.truncate(length);
    out
}

#[test]
fn sets_that_are_handed_out() {
    for bytes in readable() {
        for b in blocks(&bytes) {
            assert!(handed(&bytes, b) == shown(&bytes, b));
        }
    }
}

#[test]
fn tight_streams() {
    let mut own = 0;
    for bytes in readable() {
        let tight = tightened(&bytes);
        let mut head = bytes[..16].to_vec();
        head[2] = 1;
        assert!(tight[..16] == head);
        let opened = FujiCompressed::new(&tight).unwrap();
        assert!(blocks(&tight).all(|b| opened.read_tight(b).answer == Ok(())));
        // nothing follows the last block, and the blocks follow each other from the front on
        let ranges = opened.block_ranges();
        let mut at = opened.header.front_length();
        for (from, length) in ranges {
            assert_eq!(from, at);
            at += length;
        }
        assert_eq!(at, tight.len());
        // the same samples, hidden columns too
        assert!(image(&tight) == image(&bytes));
        assert!(blocks(&tight).all(|b| handed(&tight, b) == handed(&bytes, b)));
        // once is enough
        assert!(tightened(&tight) == tight);
        own += (tight == bytes) as usize;
        // of the same sets there is one tight stream, with bytes behind it or not
        assert!(tightened(&[&bytes[..], &[1, 2, 3]].concat()) == tight);
    }
    assert_eq!(own, 5);
}

#[test]
fn lossy_copies() {
    let mut random = Random::new(8);
    for bytes in readable() {
        let header = Header::of(&bytes).unwrap();
        for most in [1, 3, 9, 256] {
            let rows = rows(&header, &mut random, most);
            let copy = copied(&bytes, &rows.concat());
            let opened = FujiCompressed::new(&copy).unwrap();
            assert_eq!((copy[2], &copy[3..16]), (0, &bytes[3..16]));
            for (b, row) in rows.iter().enumerate() {
                assert!(opened.q_bases(b) == Ok(row));
                let (set, back) = (handed(&bytes, b), handed(&copy, b));
                let line = 12 * width(&header);
                let off = |i: usize| {
                    let base = if header.raw_type == 16 && is_interpolated(i) { u16::MAX } else { row[i / line] as u16 };
                    set[i].abs_diff(back[i]) > base
                };
                assert_eq!((0..set.len()).find(|i| off(*i)), None, "base {most}");
                // bases of 0 lose nothing
                assert!(most > 1 || set == back);
            }
            if most == 1 {
                assert!(image(&copy) == image(&bytes));
            }
        }
    }
}

#[test]
fn threads_give_the_same_bytes() {
    let mut random = Random::new(31);
    for bytes in readable() {
        let header = Header::of(&bytes).unwrap();
        let bases = rows(&header, &mut random, 6).concat();
        for threads in 0..5 {
            let done = AtomicUsize::new(0);
            let counted = || {
                done.fetch_add(1, Ordering::Relaxed);
            };
            assert!(tighten_parallel(threads, &bytes, &counted).unwrap() == tightened(&bytes));
            assert!(lossy_copy_parallel(threads, &bytes, &bases, &counted).unwrap() == copied(&bytes, &bases));
            assert_eq!(done.into_inner(), 2 * header.blocks as usize);
        }
        // each refusal that serial calls give too
        let nothing = || ();
        for cut in [10, 17, bytes.len() / 2, bytes.len() - 200] {
            let short = &bytes[..cut];
            let set = FujiCompressed::new(short).map_or(0, |s| s.header.tightened_bound() + s.header.lossy_copy_bound());
            let mut out = vec![0; set];
            assert_eq!(tighten_parallel(3, short, &nothing).map(|b| b.len()), tighten(short, &mut out));
            assert_eq!(lossy_copy_parallel(3, short, &bases, &nothing).map(|b| b.len()), lossy_copy(short, &bases, &mut out));
            assert_eq!(lossy_copy_parallel(3, short, &bases[1..], &nothing).map(|b| b.len()), lossy_copy(short, &bases[1..], &mut out));
        }
    }
}

// ---- what is left in every buffer

#[derive(Clone, PartialEq)]
struct Buffers {
    out: Vec<u8>,
    set: Vec<u16>,
    scratch: Scratch,
}

impl Buffers {
    fn new(out: usize, set: usize, samples: usize, records: usize) -> Buffers {
        let scratch = Scratch { samples: vec![PATTERN; samples], records: vec![OLD; records] };
        Buffers { out: vec![BYTE; out], set: vec![PATTERN; set], scratch }
    }

    /// `fuji_tighten`, or `fuji_lossy_copy` with bases: the refusal's words and the length.
    fn make(&mut self, d: &[u8], bases: Option<&[u8]>) -> ([usize; 4], usize) {
        let (mut refusal, mut length) = ([usize::MAX; 4], [usize::MAX]);
        let (o, t, s, r) = (&mut self.out, &mut self.set, &mut self.scratch.samples, &mut self.scratch.records);
        let (out, set, samples, records) = (o.as_mut_ptr(), t.as_mut_ptr(), s.as_mut_ptr(), r.as_mut_ptr());
        let (on, tn, sn, rn) = (o.len(), t.len(), s.len(), r.len());
        let (answer, said) = (&mut length, &mut refusal);
        match bases {
            None => unsafe { ffi::fuji_tighten(d.as_ptr(), d.len(), out, on, set, tn, samples, sn, records, rn, answer, said) },
            Some(b) => unsafe {
                ffi::fuji_lossy_copy(d.as_ptr(), d.len(), b.as_ptr(), b.len(), out, on, set, tn, samples, sn, records, rn, answer, said)
            },
        }
        (refusal, length[0])
    }

    /// `fuji_read_set`: the refusal's words and the totals.
    fn read(&mut self, d: &[u8], b: usize) -> ([usize; 4], [usize; 2]) {
        let (mut refusal, mut totals) = ([usize::MAX; 4], [usize::MAX; 2]);
        let (t, s, r) = (&mut self.set, &mut self.scratch.samples, &mut self.scratch.records);
        let (set, samples, records) = (t.as_mut_ptr(), s.as_mut_ptr(), r.as_mut_ptr());
        unsafe { ffi::fuji_read_set(d.as_ptr(), d.len(), b, set, t.len(), samples, s.len(), records, r.len(), &mut totals, &mut refusal) };
        (refusal, totals)
    }

    fn scratch_is_cleared(&self, used: usize) -> bool {
        let samples = self.scratch.samples.iter().enumerate().all(|(i, v)| *v == if i < used { 0 } else { PATTERN });
        let cleared = Record { sum: 0, n: 1 };
        samples && self.scratch.records.iter().enumerate().all(|(i, r)| *r == if i < 336 { cleared } else { OLD })
    }
}

/// All choices among these numbers, each with the first of them.
fn choices(numbers: &[usize]) -> Vec<(Vec<usize>, usize)> {
    let chosen = |mask: usize| numbers.iter().enumerate().filter(|(i, _)| mask >> i & 1 == 1).map(|(_, n)| *n).collect::<Vec<_>>();
    (0..1 << numbers.len()).map(chosen).map(|c| (c.clone(), c.first().copied().unwrap_or(0))).collect()
}

/// A lossy stream of three blocks, with what is wrong of refusals 1 to 4.
fn spoilt(bytes: &[u8], wrong: &[usize]) -> Vec<u8> {
    let mut d = bytes.to_vec();
    if wrong.contains(&2) {
        d[4] = 13;
    }
    let ends = [(1, 15), (3, 27), (4, 32 + 16 + 1)];
    let end = ends.iter().filter(|(n, _)| wrong.contains(n)).map(|(_, end)| *end).min();
    d.truncate(end.unwrap_or(d.len()));
    d
}

const USED: usize = 6948;

fn three_blocks() -> (Header, Vec<u8>) {
    let header = Header::new(false, false, 14, 2304, 3);
    let rows = vec![vec![1, 0, 2], vec![3, 3, 3], vec![0, 9, 0]];
    (header, picture(&header, &rows, 5))
}

fn named(number: usize) -> [usize; 4] {
    [number, if number == 4 { 1 } else { 0 }, 0, 0]
}

#[test]
fn the_earliest_refusal_of_read_set() {
    let (header, bytes) = three_blocks();
    let size = 3 * 12 * width(&header);
    for (wrong, first) in choices(&[1, 2, 3, 4, 5, 9, 10]) {
        let is = |n| wrong.contains(&n);
        for more in [0, 2] {
            let set = if is(9) { size - 1 + more } else { size };
            let before = Buffers::new(0, set, USED - (is(10) && more == 0) as usize, 336 - (is(10) && more > 0) as usize);
            let mut after = before.clone();
            let (refusal, totals) = after.read(&spoilt(&bytes, &wrong), if is(5) { 3 } else { 2 });
            assert_eq!(refusal, named(first), "{wrong:?}");
            assert_eq!((after == before, totals == [0, 0]), (first != 0, first != 0), "{wrong:?}");
        }
    }
}

#[test]
fn a_truncated_block_leaves_the_lines_before() {
    let (header, bytes) = three_blocks();
    let line = 12 * width(&header);
    let whole = handed(&bytes, 1);
    let opened = FujiCompressed::new(&bytes).unwrap();
    let (from, length) = opened.block_range(1).unwrap();
    let mut seen = [0; 3];
    for part in 1..12 {
        let d = &bytes[..from + part * length / 12];
        let mut after = Buffers::new(0, 3 * line, USED + 3, 338);
        let (refusal, totals) = after.read(d, 1);
        let (number, n) = (refusal[0], refusal[2]);
        assert_eq!((number, refusal[1], refusal[3]), (14, 1, 0));
        seen[n] += 1;
        assert!(after.set[..n * line] == whole[..n * line] && after.set[n * line..].iter().all(|v| *v == PATTERN));
        assert!(after.scratch_is_cleared(USED));
        let counted = FujiCompressed::new(d).unwrap().read_block(1);
        assert_eq!((totals[0] as u64, totals[1] as u64), (counted.totals.bits, counted.totals.long_codes));
    }
    assert!(seen.iter().all(|n| *n > 0), "{seen:?}");
}

#[test]
fn the_earliest_refusal_of_tighten_and_lossy_copy() {
    let (header, bytes) = three_blocks();
    let size = 3 * 12 * width(&header);
    let bases = [2; 9];
    let enough = FujiCompressed::new(&bytes).unwrap().header.lossy_copy_bound();
    for (wrong, first) in choices(&[1, 2, 3, 4, 17, 9, 10, 13]) {
        let is = |n| wrong.contains(&n);
        for lossy in [false, true] {
            if !lossy && is(17) {
                continue;
            }
            for more in [0, 2] {
                let front = if lossy { 32 + 3 * 16 } else { 32 };
                let room = if is(13) { front - 1 } else { enough };
                let set = if is(9) { size - 1 + more } else { size };
                let before = Buffers::new(room, set, USED - (is(10) && more == 0) as usize, 336 - (is(10) && more > 0) as usize);
                let mut after = before.clone();
                let given = if is(17) { &bases[..8 - more] } else { &bases[..] };
                let (refusal, length) = after.make(&spoilt(&bytes, &wrong), lossy.then_some(given));
                assert_eq!(refusal, named(first), "{wrong:?} {lossy}");
                assert_eq!((after == before, length == 0), (first != 0, first != 0), "{wrong:?} {lossy}");
            }
        }
    }
}

/// The output of a call that was refused on the way: zeros for what stands before the blocks, the blocks before the failing one, and the rest as it was.
fn left_on_the_way(after: &Buffers, whole: &[u8], ends: &[usize], failing: usize) {
    let front = ends[0];
    assert!(after.out[..front].iter().all(|v| *v == 0) && front >= 16);
    assert!(after.out[front..ends[failing]] == whole[front..ends[failing]]);
    assert!(after.out[ends[failing]..].iter().all(|v| *v == BYTE));
    assert!(after.set.iter().all(|v| *v == 0) && after.scratch_is_cleared(USED));
    assert_eq!(FujiCompressed::new(&after.out).unwrap_err().number, 2);
}

#[test]
fn refusals_on_the_way() {
    let (header, bytes) = three_blocks();
    let size = 3 * 12 * width(&header);
    let bases = [4, 0, 1, 1, 2, 3, 200, 0, 0];
    let opened = FujiCompressed::new(&bytes).unwrap();
    for lossy in [None, Some(&bases[..])] {
        let whole = lossy.map_or_else(|| tightened(&bytes), |b| copied(&bytes, b));
        let made = FujiCompressed::new(&whole).unwrap();
        // where what stands before the blocks ends, and each block
        let mut ends = vec![made.header.front_length()];
        ends.extend(made.block_ranges().iter().map(|(from, length)| from + length));
        assert_eq!(ends[3], whole.len());
        // a byte of room less than each block needs, up to just what stands before it
        for failing in 0..3 {
            for room in [ends[failing], ends[failing] + 16, ends[failing + 1] - 1] {
                let mut after = Buffers::new(room, size, USED + 1, 340);
                assert_eq!(after.make(&bytes, lossy), ([13, 0, 0, 0], 0));
                left_on_the_way(&after, &whole, &ends, failing);
            }
        }
        let mut exact = Buffers::new(whole.len(), size, USED, 336);
        assert_eq!(exact.make(&bytes, lossy), (FINE, whole.len()));
        assert!(exact.out == whole && exact.set.iter().all(|v| *v == 0) && exact.scratch_is_cleared(USED));
        // truncated blocks, one or more of them; 14 of a block comes before its 13
        for failing in 0..3 {
            let (from, length) = opened.block_range(failing).unwrap();
            let d = &bytes[..from + length / 2];
            for room in [ends[failing], whole.len() + 100] {
                let mut after = Buffers::new(room, size, USED, 336);
                let (refusal, said) = after.make(d, lossy);
                assert_eq!((refusal[0], refusal[1], refusal[3], said), (14, failing, 0, 0));
                assert!((1..3).contains(&refusal[2]) || refusal[2] == 0);
                left_on_the_way(&after, &whole, &ends, failing);
            }
        }
        // an earlier block without room comes before a later one that is truncated
        let (from, length) = opened.block_range(2).unwrap();
        let mut after = Buffers::new(ends[2] - 1, size, USED, 336);
        assert_eq!(after.make(&bytes[..from + length / 2], lossy), ([13, 0, 0, 0], 0));
        left_on_the_way(&after, &whole, &ends, 1);
    }
}

// ---- what stands before the blocks

#[test]
fn fronts() {
    let mut random = Random::new(77);
    for (lossless, width, lines) in
        [(true, 768, 1), (true, 2304, 5), (false, 768, 16), (false, 3072, 17), (false, 12288, 40), (true, 12288, 2)]
    {
        let header = Header::new(lossless, true, 14, width, lines);
        let rows = if lossless { vec![] } else { rows(&header, &mut random, 256) };
        let blocks: Vec<Vec<u8>> = (0..header.blocks).map(|b| vec![b; random.below(70_000) as usize]).collect();
        let whole = stream(&header, &rows, &blocks);
        let lengths: Vec<usize> = blocks.iter().map(Vec::len).collect();
        let front = FujiHeader::parse(&header.bytes()).unwrap().front_length();
        for more in [0, 1, 50] {
            let mut out = vec![BYTE; front + more];
            assert_eq!(put_front(&header.bytes(), &rows.concat(), &lengths, &mut out), Ok(whole.len()));
            assert!(out[..front] == whole[..front] && out[front..].iter().all(|v| *v == BYTE));
        }
    }
}

#[test]
fn the_earliest_refusal_of_put_front() {
    let header = Header::new(false, false, 14, 2304, 3);
    for (wrong, first) in choices(&[1, 2, 25, 17, 26, 13]) {
        let is = |n| wrong.contains(&n);
        for more in [0, 2] {
            let mut head = header.bytes().to_vec();
            if is(2) {
                head[0] = 0;
            }
            head.truncate(if is(1) { 15 } else { 16 });
            let mut lengths = vec![0xFFFF_FFFF; 3];
            if is(26) {
                lengths[1] = 1 << 32;
                lengths[2] = usize::MAX;
            }
            if is(25) {
                lengths.resize(2 + more, if is(26) { 1 << 33 } else { 7 });
            }
            let rows = vec![3; if is(17) { 8 + more } else { 9 }];
            let mut out = vec![BYTE; 80 - is(13) as usize];
            let (mut length, mut refusal) = ([usize::MAX], [usize::MAX; 4]);
            let (r, l, o) = (rows.as_ptr(), lengths.as_ptr(), out.as_mut_ptr());
            unsafe {
                ffi::fuji_put_front(head.as_ptr(), head.len(), r, rows.len(), l, lengths.len(), o, out.len(), &mut length, &mut refusal)
            };
            assert_eq!(refusal, [first, (first == 26) as usize, 0, 0], "{wrong:?}");
            if first == 0 {
                assert_eq!(length, [80 + 3 * 0xFFFF_FFFF]);
                assert!(out[16..28] == [0xff; 12] && out[..16] == head);
            } else {
                assert!(length == [0] && out.iter().all(|v| *v == BYTE), "{wrong:?}");
            }
        }
    }
    // a lossless header takes no rows
    let lossless = Header { lossless: 1, ..header }.bytes();
    let seventeen = put_front(&lossless, &[1; 9], &[1, 2, 3], &mut [0; 80]).unwrap_err();
    assert_eq!((seventeen.number, put_front(&lossless, &[], &[1, 2, 3], &mut [0; 32])), (17, Ok(38)));
    let long = put_front(&lossless, &[], &[0, 0, 1 << 32], &mut [0; 32]).unwrap_err();
    assert_eq!(long.to_string(), "refusal 26: block 2: the block has 2^32 bytes or more");
    let few = put_front(&lossless, &[], &[0, 0], &mut [0; 32]).unwrap_err();
    assert_eq!(few.to_string(), "refusal 25: there is not one length for each block");
}

// ---- damaged streams

/// Whatever bits are changed: a stream that decodes whole has a tight one that decodes to the same; a truncated one is refused alike.
#[test]
fn damaged_streams() {
    let mut random = Random::new(99);
    let (mut made, mut refused) = (0, 0);
    for bytes in readable() {
        for _ in 0..12 {
            let mut d = bytes.clone();
            for _ in 0..=random.below(3) {
                let at = 16 + random.below(d.len() as u64 - 16) as usize;
                d[at] ^= 1 << random.below(8);
            }
            let Ok(opened) = FujiCompressed::new(&d) else { continue };
            let mut out = vec![BYTE; opened.header.tightened_bound()];
            let answer = tighten(&d, &mut out);
            match (image(&d), answer) {
                (Ok(picture), Ok(length)) => {
                    made += 1;
                    assert!(image(&out[..length]) == Ok(picture));
                    assert!(tightened(&out[..length]) == out[..length]);
                }
                (before, after) => {
                    refused += 1;
                    assert_eq!(before.unwrap_err(), after.unwrap_err());
                }
            }
        }
    }
    assert!(made > 50 && refused > 20, "{made} {refused}");
}

/// The samples of the repository, with the lengths that an earlier program gave: tight, and with bases of 2 in every line.
#[test]
fn samples_of_the_repository() {
    for (name, tight, lossy) in [("bayer.fcs", 95_840, Some(71_440)), ("escape.fcs", 4_416, None), ("xtrans.fcs", 114_656, Some(88_288))] {
        let bytes = sample_file(name);
        let made = tightened(&bytes);
        assert_eq!((made.len(), made == bytes), (tight, name == "bayer.fcs"));
        assert!(image(&made) == image(&bytes));
        let Some(lossy) = lossy else { continue };
        let header = Header::of(&bytes).unwrap();
        let copy = copied(&bytes, &vec![2; header.blocks as usize * header.lines as usize]);
        assert_eq!(copy.len(), lossy);
        // the sample that was coded with these bases before has the same sets again
        assert_eq!(blocks(&bytes).all(|b| handed(&copy, b) == handed(&bytes, b)), name == "xtrans.fcs");
    }
}
