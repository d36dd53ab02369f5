//! Each refusal of each entry, one byte and one sample to either side of its limit, and any number of things wrong at once: the earliest number
//! is answered. The functions of the library are called as C calls them, since they take the stream as bytes. All buffers are filled before, and
//! looked at whole afterwards.
use common::pictures::scene;
use common::random::Random;
use common::stream::{Header, blocks, stream};
use fuji_compressed::Record;

// Not all of its functions are asked here.
#[allow(dead_code)]
#[path = "../src/ffi.rs"]
mod ffi;

const FILL: usize = 0x5a5a;
const OLD: Record = Record { sum: 7, n: 9 };
const CLEARED: Record = Record { sum: 0, n: 1 };
const FINE: [usize; 4] = [0; 4];
const BAYER: [u8; 36] = [0, 1, 0, 1, 0, 1, 1, 2, 1, 2, 1, 2, 0, 1, 0, 1, 0, 1, 1, 2, 1, 2, 1, 2, 0, 1, 0, 1, 0, 1, 1, 2, 1, 2, 1, 2];

fn refused(number: usize, block: usize, line: usize) -> [usize; 4] {
    [number, block, line, 0]
}

// ---- the entries, each asked with filled buffers

fn parse(d: &[u8]) -> ([usize; 4], [usize; 9]) {
    let (mut header, mut refusal) = ([FILL; 9], [FILL; 4]);
    unsafe { ffi::fuji_parse(d.as_ptr(), d.len(), &mut header, &mut refusal) };
    (refusal, header)
}

fn open(d: &[u8]) -> ([usize; 4], [usize; 9]) {
    let (mut header, mut refusal) = ([FILL; 9], [FILL; 4]);
    unsafe { ffi::fuji_open(d.as_ptr(), d.len(), &mut header, &mut refusal) };
    (refusal, header)
}

fn block_width(d: &[u8], block: u32) -> ([usize; 4], [usize; 1]) {
    let (mut width, mut refusal) = ([FILL; 1], [FILL; 4]);
    unsafe { ffi::fuji_block_width(d.as_ptr(), d.len(), block, &mut width, &mut refusal) };
    (refusal, width)
}

fn block_range(d: &[u8], block: usize) -> ([usize; 4], [usize; 2]) {
    let (mut range, mut refusal) = ([FILL; 2], [FILL; 4]);
    unsafe { ffi::fuji_block_range(d.as_ptr(), d.len(), block, &mut range, &mut refusal) };
    (refusal, range)
}

fn base_row_range(d: &[u8], block: usize) -> ([usize; 4], [usize; 2]) {
    let (mut range, mut refusal) = ([FILL; 2], [FILL; 4]);
    unsafe { ffi::fuji_base_row_range(d.as_ptr(), d.len(), block, &mut range, &mut refusal) };
    (refusal, range)
}

/// The buffers of a decode: image, samples and records of these lengths, filled.
#[derive(Clone, PartialEq, Debug)]
struct Buffers {
    image: Vec<u16>,
    samples: Vec<u16>,
    records: Vec<Record>,
}

impl Buffers {
    fn new(image: usize, samples: usize, records: usize) -> Buffers {
        Buffers { image: vec![FILL as u16; image], samples: vec![FILL as u16; samples], records: vec![OLD; records] }
    }

    fn decode(&mut self, d: &[u8], width: usize, height: usize) -> [usize; 4] {
        let mut refusal = [FILL; 4];
        let (i, s, r) = (&mut self.image, &mut self.samples, &mut self.records);
        unsafe {
            ffi::fuji_decode(
                d.as_ptr(),
                d.len(),
                width,
                height,
                &BAYER,
                i.as_mut_ptr(),
                i.len(),
                s.as_mut_ptr(),
                s.len(),
                r.as_mut_ptr(),
                r.len(),
                &mut refusal,
            )
        };
        refusal
    }

    fn region(&mut self, d: &[u8], [x, y, width, height]: [usize; 4]) -> [usize; 4] {
        let mut refusal = [FILL; 4];
        let (i, s, r) = (&mut self.image, &mut self.samples, &mut self.records);
        unsafe {
            ffi::fuji_decode_region(
                d.as_ptr(),
                d.len(),
                x,
                y,
                width,
                height,
                &BAYER,
                i.as_mut_ptr(),
                i.len(),
                s.as_mut_ptr(),
                s.len(),
                r.as_mut_ptr(),
                r.len(),
                &mut refusal,
            )
        };
        refusal
    }

    /// The used part of scratch is cleared, and what follows it is as it was.
    fn scratch_is_cleared(&self, used: usize) -> bool {
        let samples = self.samples.iter().enumerate().all(|(i, v)| *v == if i < used { 0 } else { FILL as u16 });
        samples && self.records.iter().enumerate().all(|(i, v)| *v == if i < 336 { CLEARED } else { OLD })
    }
}

// ---- a picture

const WIDTH: usize = 1560;
const HEIGHT: usize = 18;
const USED: usize = 18 * (384 + 2);

/// Three blocks, the last of 24 columns, lossy, three lines; where the base rows begin, and where the blocks do.
struct Picture {
    header: Header,
    rows: Vec<Vec<u8>>,
    blocks: Vec<Vec<u8>>,
    bytes: Vec<u8>,
}

impl Picture {
    fn new() -> Picture {
        let header = Header::new(false, false, 14, WIDTH as u16, 3);
        let rows = vec![vec![1, 4, 4], vec![2, 2, 0], vec![3, 9, 9]];
        let mut random = Random::new(11);
        let made = blocks(&header, &rows, &mut |_, n, line, p| scene(0, 16383, n, line, p, &mut random));
        let bytes = stream(&header, &rows, &made);
        Picture { header, rows, blocks: made, bytes }
    }

    /// The same with block b cut to nothing: its first line is truncated.
    fn without_block(&self, b: usize) -> Vec<u8> {
        let mut blocks = self.blocks.clone();
        blocks[b].clear();
        stream(&self.header, &self.rows, &blocks)
    }

    fn image(&self) -> Vec<u16> {
        let mut b = Buffers::new(WIDTH * HEIGHT, USED, 336);
        assert_eq!(b.decode(&self.bytes, WIDTH, HEIGHT), FINE);
        b.image
    }
}

/// Where base row b begins: after the header, the padded sizes of three blocks, and b padded rows.
fn row_start(b: usize) -> usize {
    32 + 16 * b
}

// ---- headers

fn header_keeps(h: Header, fine: bool) {
    let want = if fine { FINE } else { refused(2, 0, 0) };
    let mut d = h.bytes().to_vec();
    let (refusal, words) = parse(&d);
    assert_eq!(refusal, want, "{h:?}");
    if !fine {
        assert_eq!(words, [0; 9], "{h:?}");
        d.resize(4000, 0);
        assert_eq!(open(&d), (want, [0; 9]), "{h:?}");
        assert_eq!(block_width(&d, 0), (want, [0]), "{h:?}");
        assert_eq!(block_range(&d, 0), (want, [0; 2]), "{h:?}");
        assert_eq!(base_row_range(&d, 0), (want, [0; 2]), "{h:?}");
        let before = Buffers::new(10, 10, 10);
        let mut b = before.clone();
        assert_eq!((b.decode(&d, 1, 1), b.region(&d, [0, 0, 1, 1])), (want, want), "{h:?}");
        assert!(b == before, "{h:?}");
    }
}

#[test]
fn header_rules() {
    let good = Header::new(true, false, 14, 1560, 3);
    header_keeps(good, true);
    for (v, fine) in [(0x4952, false), (0x4953, true), (0x4954, false)] {
        header_keeps(Header { signature: v, ..good }, fine);
    }
    for (v, fine) in [(0, true), (1, true), (2, false), (255, false)] {
        header_keeps(Header { lossless: v, ..good }, fine);
    }
    for v in 0..=255 {
        header_keeps(Header { raw_type: v, ..good }, v == 0 || v == 16);
        header_keeps(Header { bits: v, ..good }, v == 12 || v == 14 || v == 16);
        header_keeps(Header { blocks: v, ..good }, v == 3);
    }
    for v in [767, 769, 0] {
        header_keeps(Header { block_size: v, ..good }, false);
    }
}

#[test]
fn header_sizes() {
    let good = Header::new(true, false, 14, 1560, 3);
    // height and lines
    for (height, lines, fine) in [
        (0, 0, false),
        (6, 1, true),
        (7, 1, false),
        (5, 1, false),
        (12, 1, false),
        (12, 3, false),
        (0x4002, 0xaab, true),
        (0x4008, 0xaac, false),
    ] {
        header_keeps(Header { height, lines, ..good }, fine);
    }
    // the rounded width is the blocks' width; the width is at most 767 less, at least 768, and divisible by 24
    for (width, fine) in [(2304, true), (2328, false), (2280, true), (2292, false), (1560, true), (1536, false), (1559, false)] {
        header_keeps(Header { width, ..good }, fine);
    }
    for (rounded_width, fine) in [(2304, true), (2303, false), (2305, false), (1536, false), (3072, false)] {
        header_keeps(Header { rounded_width, ..good }, fine);
    }
    for (width, fine) in [(768, true), (744, false), (24, false), (0, false)] {
        header_keeps(Header { width, rounded_width: 768, blocks: 1, ..good }, fine);
    }
    for (blocks, fine) in [(0, false), (1, true), (16, true), (17, false), (21, false), (22, false)] {
        let width = 768 * blocks as u16;
        header_keeps(Header { width, rounded_width: width, blocks, ..good }, fine);
    }
}

// ---- the stream's parts, a byte to either side

#[test]
fn lengths_of_a_stream() {
    let p = Picture::new();
    let at = |n: usize| &p.bytes[..n];
    assert_eq!(parse(at(15)), (refused(1, 0, 0), [0; 9]));
    assert_eq!(parse(at(0)), (refused(1, 0, 0), [0; 9]));
    assert_eq!(parse(at(16)).0, FINE);
    assert_eq!(parse(at(17)), parse(at(16)));
    assert_eq!(open(at(15)), (refused(1, 0, 0), [0; 9]));
    assert_eq!(open(at(16)).0, refused(3, 0, 0));
    assert_eq!(open(at(27)), (refused(3, 0, 0), [0; 9]));
    // the sizes are there, and the base rows are not
    assert_eq!(open(at(28)), (refused(4, 0, 0), [0; 9]));
    for b in 0..3 {
        let whole = row_start(b) + 3;
        assert_eq!(open(at(whole - 1)), (refused(4, b, 0), [0; 9]));
        assert_eq!(open(at(whole)).0, if b < 2 { refused(4, b + 1, 0) } else { FINE });
        for ask in [block_range, base_row_range] {
            assert_eq!(ask(at(whole - 1), 0), (refused(4, b, 0), [0; 2]));
        }
        let mut buffers = Buffers::new(WIDTH * HEIGHT, USED, 336);
        assert_eq!(buffers.decode(at(whole - 1), WIDTH, HEIGHT), refused(4, b, 0));
        assert_eq!(buffers.region(at(whole - 1), [0, 0, 1, 1]), refused(4, b, 0));
        assert!(buffers == Buffers::new(WIDTH * HEIGHT, USED, 336));
    }
    assert_eq!(open(&p.bytes).1, [0, 0, 14, HEIGHT, 2304, WIDTH, 768, 3, 3]);
}

#[test]
fn a_lossless_stream_needs_its_sizes_alone() {
    let d = stream(&Header::new(true, true, 12, 1536, 1), &[], &[vec![], vec![]]);
    assert_eq!(open(&d[..23]), (refused(3, 0, 0), [0; 9]));
    assert_eq!(open(&d[..24]).0, FINE);
    assert_eq!(block_range(&d[..24], 1), (FINE, [24, 0]));
    // the start of a base row is cut to the stream's end too
    assert_eq!(base_row_range(&d[..24], 1), (FINE, [24, 0]));
}

#[test]
fn numbers_of_blocks() {
    let p = Picture::new();
    assert_eq!([block_width(&p.bytes, 0), block_width(&p.bytes, 2)], [(FINE, [768]), (FINE, [24])]);
    assert_eq!([block_width(&p.bytes, 3), block_width(&p.bytes, u32::MAX)], [(refused(5, 0, 0), [0]); 2]);
    for ask in [block_range, base_row_range] {
        assert_eq!(ask(&p.bytes, 2).0, FINE);
        assert_eq!([ask(&p.bytes, 3), ask(&p.bytes, usize::MAX)], [(refused(5, 0, 0), [0; 2]); 2]);
    }
    // the ranges, and the bytes that stand there
    let mut from = row_start(3);
    for b in 0..3 {
        assert_eq!(block_range(&p.bytes, b), (FINE, [from, p.blocks[b].len()]));
        assert_eq!(p.bytes[from..from + p.blocks[b].len()], p.blocks[b]);
        assert_eq!(base_row_range(&p.bytes, b), (FINE, [row_start(b), 3]));
        from += p.blocks[b].len();
    }
    // a block's end is cut to the stream's, a byte before it and at it; so is its start
    let end = p.bytes.len();
    let [last, length] = block_range(&p.bytes, 2).1;
    assert_eq!(block_range(&p.bytes[..end - 1], 2).1, [last, length - 1]);
    assert_eq!(block_range(&p.bytes[..last], 2).1, [last, 0]);
    assert_eq!(block_range(&p.bytes[..last - 1], 2).1, [last - 1, 0]);
}

// ---- decoding, a sample to either side

#[test]
fn sizes_that_are_named() {
    let p = Picture::new();
    for (width, height) in [
        (WIDTH - 1, HEIGHT),
        (WIDTH + 1, HEIGHT),
        (WIDTH, HEIGHT - 1),
        (WIDTH, HEIGHT + 1),
        (HEIGHT, WIDTH),
        (0, 0),
        (usize::MAX, HEIGHT),
        (WIDTH + (1 << 32), HEIGHT),
    ] {
        let mut b = Buffers::new(WIDTH * HEIGHT, USED, 336);
        assert_eq!(b.decode(&p.bytes, width, height), refused(6, 0, 0));
        assert!(b == Buffers::new(WIDTH * HEIGHT, USED, 336));
    }
}

#[test]
fn lengths_of_buffers() {
    let p = Picture::new();
    let image = p.image();
    for (more, want) in [(-1, refused(7, 0, 0)), (0, FINE), (1, FINE), (500, FINE)] {
        let length = (image.len() as isize + more) as usize;
        let mut b = Buffers::new(length, USED, 336);
        let mut r = b.clone();
        assert_eq!(b.decode(&p.bytes, WIDTH, HEIGHT), want);
        assert_eq!(r.region(&p.bytes, [0, 0, WIDTH, HEIGHT]), want);
        assert!(b == r);
        if want == FINE {
            assert!(b.image[..image.len()] == image && b.image[image.len()..].iter().all(|v| *v == FILL as u16));
            assert!(b.scratch_is_cleared(USED));
        } else {
            assert!(b == Buffers::new(length, USED, 336));
        }
    }
    for (samples, records, fine) in [
        (USED - 1, 336, false),
        (USED, 335, false),
        (0, 0, false),
        (USED - 1, 400, false),
        (USED, 336, true),
        (USED + 1, 337, true),
        (9252, 1000, true),
    ] {
        let mut b = Buffers::new(image.len(), samples, records);
        let mut r = b.clone();
        let want = if fine { FINE } else { refused(10, 0, 0) };
        assert_eq!(b.decode(&p.bytes, WIDTH, HEIGHT), want);
        assert_eq!(r.region(&p.bytes, [0, 0, WIDTH, HEIGHT]), want);
        assert!(b == r);
        if fine {
            assert!(b.image == image && b.scratch_is_cleared(USED));
        } else {
            assert!(b == Buffers::new(image.len(), samples, records));
        }
    }
}

#[test]
fn edges_of_a_region() {
    let p = Picture::new();
    let most = usize::MAX;
    let seven = refused(7, 0, 0);
    for (region, want) in [
        ([WIDTH - 1, HEIGHT - 1, 1, 1], FINE),
        ([WIDTH, HEIGHT - 1, 1, 1], seven),
        ([WIDTH - 1, HEIGHT, 1, 1], seven),
        ([WIDTH - 1, 0, 2, 1], seven),
        ([0, HEIGHT - 1, 1, 2], seven),
        ([1, 0, WIDTH, 1], seven),
        ([0, 1, 1, HEIGHT], seven),
        ([most, 0, 1, 1], seven),
        ([0, most, 1, 1], seven),
        ([1, 0, most, 1], seven),
        ([0, 1, 1, most], seven),
        ([most, most, most, most], seven),
        // empty ones, at the edge and past it
        ([0, 0, 0, 0], FINE),
        ([WIDTH, HEIGHT, 0, 0], FINE),
        ([WIDTH, 0, 0, HEIGHT], FINE),
        ([0, HEIGHT, WIDTH, 0], FINE),
        ([WIDTH + 1, 0, 0, 1], seven),
        ([0, HEIGHT + 1, 1, 0], seven),
        ([most, 0, 0, 0], seven),
        ([0, 0, 0, HEIGHT + 1], seven),
        ([0, 0, WIDTH + 1, 0], seven),
    ] {
        let empty = region[2] == 0 || region[3] == 0;
        let mut b = Buffers::new(4, USED, 336);
        assert_eq!(b.region(&p.bytes, region), want, "{region:?}");
        if empty || want != FINE {
            assert!(b == Buffers::new(4, USED, 336), "{region:?}");
        }
        if empty {
            // an empty region needs neither image nor scratch
            let mut none = Buffers::new(0, 0, 0);
            assert_eq!(none.region(&p.bytes, region), want, "{region:?}");
        }
    }
    let mut short = Buffers::new(5, USED, 336);
    assert_eq!(short.region(&p.bytes, [766, 3, 3, 2]), seven);
    assert!(short == Buffers::new(5, USED, 336));
    let mut exact = Buffers::new(6, USED, 336);
    assert_eq!(exact.region(&p.bytes, [766, 3, 3, 2]), FINE);
}

// ---- truncation

#[test]
fn all_blocks_are_tried_and_keep_the_rows_before_their_failing_line() {
    let p = Picture::new();
    let image = p.image();
    for failing in [vec![0], vec![1], vec![2], vec![0, 2], vec![1, 2], vec![0, 1, 2]] {
        for keep in [0, 1, 2] {
            // a block that is cut after half of line `keep`, so that this line is its first truncated one
            let mut blocks = p.blocks.clone();
            for b in &failing {
                let length = p.blocks[*b].len();
                blocks[*b].truncate((2 * keep + 1) * length / 6);
            }
            let d = stream(&p.header, &p.rows, &blocks);
            let mut b = Buffers::new(image.len() + 3, USED + 5, 340);
            let answer = b.decode(&d, WIDTH, HEIGHT);
            assert_eq!(answer[..2], [14, failing[0]]);
            assert!(b.scratch_is_cleared(USED));
            let lines = [0, 1, 2].map(|block| if failing.contains(&block) { keep } else { 3 });
            assert_eq!([0, 1, 2].map(|block| lines_before(&d, block)), lines);
            assert_eq!(answer[2], keep);
            for (i, v) in b.image.iter().enumerate() {
                let inside = i < image.len() && i / WIDTH / 6 < lines[i % WIDTH / 768];
                assert_eq!(*v, if inside { image[i] } else { FILL as u16 }, "entry {i}");
            }
        }
    }
}

/// How many lines of a block are read: asked of one column of it, with one line more each time.
fn lines_before(d: &[u8], block: usize) -> usize {
    let fine = |lines: &usize| Buffers::new(6 * lines, USED, 336).region(d, [768 * block, 0, 1, 6 * lines]) == FINE;
    (0..=3).take_while(|n| fine(n)).last().unwrap()
}

#[test]
fn a_failing_block_that_is_not_touched_does_no_harm() {
    let p = Picture::new();
    let image = p.image();
    let d = p.without_block(1);
    for (x, fine) in [(766, true), (767, true), (768, false), (1534, false), (1535, false), (1536, true)] {
        let mut b = Buffers::new(6, USED, 336);
        assert_eq!(b.region(&d, [x, 0, 1, 6]), if fine { FINE } else { refused(14, 1, 0) });
        let want: Vec<u16> = (0..6).map(|r| if fine { image[r * WIDTH + x] } else { FILL as u16 }).collect();
        assert_eq!(b.image, want);
    }
}

// ---- many things wrong at once

/// A stream with these things wrong, of refusals 1 to 4 and 14.
fn spoilt(p: &Picture, wrong: &[usize]) -> Vec<u8> {
    let mut d = if wrong.contains(&14) { p.without_block(0) } else { p.bytes.clone() };
    if wrong.contains(&2) {
        d[4] = 13;
    }
    let ends = [(1, 15), (3, 27), (4, row_start(1) + 2)];
    let end = ends.iter().filter(|(n, _)| wrong.contains(n)).map(|(_, end)| *end).min();
    d.truncate(end.unwrap_or(d.len()));
    d
}

/// All choices among these numbers, with what is answered: the lowest of them.
fn choices(numbers: &[usize], answered: fn(usize) -> [usize; 4]) -> Vec<(Vec<usize>, [usize; 4])> {
    let chosen = |mask: usize| numbers.iter().enumerate().filter(|(i, _)| mask >> i & 1 == 1).map(|(_, n)| *n).collect::<Vec<_>>();
    (0..1 << numbers.len()).map(chosen).map(|c| (c.clone(), c.first().map_or(FINE, |n| answered(*n)))).collect()
}

fn answered(number: usize) -> [usize; 4] {
    refused(number, if number == 4 { 1 } else { 0 }, 0)
}

#[test]
fn the_earliest_refusal_of_decode() {
    let p = Picture::new();
    for (wrong, want) in choices(&[1, 2, 3, 4, 6, 7, 10, 14], answered) {
        let is = |n| wrong.contains(&n);
        let before = Buffers::new(WIDTH * HEIGHT - is(7) as usize, USED - is(10) as usize, 336);
        let mut b = before.clone();
        assert_eq!(b.decode(&spoilt(&p, &wrong), WIDTH + is(6) as usize, HEIGHT), want, "{wrong:?}");
        assert_eq!(b == before, want != FINE && want[0] < 14, "{wrong:?}");
    }
}

#[test]
fn the_earliest_refusal_of_decode_region() {
    let p = Picture::new();
    for (wrong, want) in choices(&[1, 2, 3, 4, 7, 10, 14], answered) {
        let is = |n| wrong.contains(&n);
        for edge in [false, true] {
            let before = Buffers::new(60 - (is(7) && !edge) as usize, USED, 336 - is(10) as usize);
            let mut b = before.clone();
            let y = if is(7) && edge { HEIGHT - 5 } else { 6 };
            assert_eq!(b.region(&spoilt(&p, &wrong), [3, y, 10, 6]), want, "{wrong:?}");
            assert_eq!(b == before, want != FINE && want[0] < 14, "{wrong:?}");
        }
    }
}

#[test]
fn the_earliest_refusal_of_a_range() {
    let p = Picture::new();
    for (wrong, want) in choices(&[1, 2, 3, 4, 5], answered) {
        let d = spoilt(&p, &wrong);
        let block = if wrong.contains(&5) { 3 } else { 1 };
        for ask in [block_range, base_row_range] {
            let (refusal, range) = ask(&d, block);
            assert_eq!(refusal, want, "{wrong:?}");
            assert_eq!(range == [0; 2], want != FINE, "{wrong:?}");
        }
        let headers = wrong.iter().copied().find(|n| [1, 2, 5].contains(n)).map_or(FINE, answered);
        assert_eq!(block_width(&d, block as u32).0, headers, "{wrong:?}");
    }
}
