//! Decoding in half the samples of scratch: the picture and the answer of `fuji_decode_region`, but that a truncated line shows 0. The functions are called
//! as C calls them; all buffers are filled before, and looked at whole afterwards.
use common::pictures::scene;
use common::random::Random;
use common::stream::{Header, blocks, encoded, stream};
use fuji_compressed::{Record, Scratch};

mod lent;

use lent::{BAYER, Buffers, FINE, PATTERN, XTRANS, image_fnv, prefill, sample_file};

/// Samples that windows need: Bayer, X-Trans.
const NEEDED: [usize; 2] = [3474, 4626];

// ---- the table of known answers: by an independent model for Bayer, and for both kinds from the original's images, with 0 in the rows of the truncated line

#[test]
fn a_block_without_bytes() {
    let mut d = Header::new(true, false, 14, 768, 1).bytes().to_vec();
    d.extend([0; 4]);
    let mut b = Buffers::new(vec![7; 4611], NEEDED[0], 336);
    assert_eq!(b.region(true, &d, [0, 0, 768, 6], &BAYER), [14, 0, 0, 0]);
    assert!(b.image[..4608].iter().all(|v| *v == 0));
    assert_eq!(b.image[4608..], [7; 3]);
    assert!(b.scratch_is_cleared(NEEDED[0]));
    let mut old = Buffers::new(vec![7; 4611], 6948, 336);
    assert_eq!(old.region(false, &d, [0, 0, 768, 6], &BAYER), [14, 0, 0, 0]);
    assert!(old.image.iter().all(|v| *v == 7));
}

#[test]
fn known_pictures() {
    let whole = [0, 0, 768, 144];
    for (name, cut, region, seed, length, answer, want) in [
        ("bayer", 0, whole, 1, 110_592, FINE, 0xa8c9_8308_3312_7a74),
        ("xtrans", 0, whole, 2, 110_592, FINE, 0xeb0c_ed70_cbdb_299b),
        ("bayer", 50_000, whole, 3, 110_600, [14, 0, 12, 0], 0x13b0_a302_2fcc_1273),
        ("bayer", 50_000, [100, 73, 300, 4], 4, 1200, [14, 0, 12, 0], 0x8929_0f58_593c_8ea5),
        ("bayer", 50_000, [5, 100, 7, 44], 5, 308, [14, 0, 12, 0], 0xeb35_1d2e_6c94_937e),
        ("bayer", 50_000, [5, 0, 7, 72], 5, 504, FINE, 0x010d_1b14_f4f5_54e9),
        ("bayer", 95_836, whole, 3, 110_600, [14, 0, 23, 0], 0x0c28_73ec_c94f_0cb9),
        ("xtrans", 40_000, [3, 40, 700, 50], 6, 35_000, [14, 0, 10, 0], 0xe8e8_808f_52bb_7520),
    ] {
        let xtrans = name == "xtrans";
        let mut d = sample_file(&format!("{name}.fcs"));
        d.truncate(if cut == 0 { d.len() } else { cut });
        let mut b = Buffers::new(prefill(seed, length), NEEDED[xtrans as usize], 336);
        let case = format!("{name}, {cut} bytes, region {region:?}");
        assert_eq!(b.region(true, &d, region, if xtrans { &XTRANS } else { &BAYER }), answer, "{case}");
        assert_eq!(image_fnv(&b.image), want, "{case}");
        assert!(b.scratch_is_cleared(NEEDED[xtrans as usize]), "{case}");
    }
}

#[test]
fn rows_of_the_truncated_line_alone_differ() {
    let mut d = sample_file("bayer.fcs");
    d.truncate(50_000);
    let whole = [0, 0, 768, 144];
    let mut new = Buffers::new(prefill(3, 110_600), NEEDED[0], 336);
    let mut old = Buffers::new(prefill(3, 110_600), 6948, 336);
    assert_eq!(new.region(true, &d, whole, &BAYER), old.region(false, &d, whole, &BAYER));
    assert_eq!(image_fnv(&old.image), 0x2b8f_c5de_1307_4ae6);
    let differ: Vec<usize> = (0..110_600).filter(|i| new.image[*i] != old.image[*i] || new.image[*i] == 0).collect();
    assert_eq!(differ, (768 * 72..768 * 78).collect::<Vec<_>>());
    assert!(differ.iter().all(|i| new.image[*i] == 0));
}

// ---- scratch

#[test]
fn lengths_of_scratch() {
    let mut random = Random::new(11);
    for xtrans in [false, true] {
        let used = NEEDED[xtrans as usize];
        let header = Header::new(true, xtrans, 14, 1536, 2);
        let d = encoded(&header, &[], &mut |b, n, line, p| scene(b as u64, 16383, n, line, p, &mut random));
        let mut want = Buffers::new(vec![1; 600], 2 * used, 336);
        assert_eq!(want.region(false, &d, [700, 2, 100, 6], &BAYER), FINE);
        for (samples, records, fine) in [
            (used - 1, 336, false),
            (used, 335, false),
            (0, 0, false),
            (used - 1, 400, false),
            (used, 336, true),
            (used + 1, 337, true),
            (2 * used - 1, 336, true),
            (2 * used, 400, true),
            (3 * used, 336, true),
        ] {
            let before = Buffers::new(vec![1; 600], samples, records);
            let mut b = before.clone();
            let answer = b.region(true, &d, [700, 2, 100, 6], &BAYER);
            assert_eq!(answer, if fine { FINE } else { [10, 0, 0, 0] }, "{samples} samples, {records} records");
            if fine {
                assert!(b.image == want.image && b.scratch_is_cleared(used), "{samples} samples, {records} records");
            } else {
                assert!(b == before, "{samples} samples, {records} records");
            }
            // The entry with 18 lines refuses what is shorter than those.
            let old = before.clone().region(false, &d, [700, 2, 100, 6], &BAYER);
            assert_eq!(old, if fine && samples >= 2 * used { FINE } else { [10, 0, 0, 0] });
        }
    }
    assert_eq!(Scratch::windowed().samples.len(), NEEDED[1]);
}

// ---- refusals

/// Any number of things wrong at once: the earliest number is answered, and only 14 touches a buffer.
#[test]
fn the_earliest_refusal() {
    let header = Header::new(false, false, 14, 1560, 3);
    let rows = vec![vec![3, 3, 200]; 3];
    let mut random = Random::new(9);
    let whole = blocks(&header, &rows, &mut |b, n, line, p| scene(b as u64, 16383, n, line, p, &mut random));
    let numbers = [1, 2, 3, 4, 7, 10, 14];
    for mask in 0..1 << numbers.len() {
        let wrong: Vec<usize> = numbers.iter().enumerate().filter(|(i, _)| mask >> i & 1 == 1).map(|(_, n)| *n).collect();
        let is = |n| wrong.contains(&n);
        let mut parts = whole.clone();
        if is(14) {
            parts[0].clear();
        }
        let mut d = stream(&header, &rows, &parts);
        if is(2) {
            d[4] = 13;
        }
        let ends = [(1, 15), (3, 27), (4, 32 + 16 + 2)];
        let end = ends.iter().filter(|(n, _)| is(*n)).map(|(_, end)| *end).min();
        d.truncate(end.unwrap_or(d.len()));
        let want = wrong.first().map_or(FINE, |n| [*n, (*n == 4) as usize, 0, 0]);
        for samples in [false, true] {
            let (less_samples, less_records) = if samples { (is(10) as usize, 0) } else { (0, is(10) as usize) };
            for edge in [false, true] {
                let image = vec![PATTERN; 60 - (is(7) && !edge) as usize];
                let before = Buffers::new(image, NEEDED[0] - less_samples, 336 - less_records);
                let mut b = before.clone();
                let y = if is(7) && edge { 18 - 5 } else { 6 };
                assert_eq!(b.region(true, &d, [3, y, 10, 6], &BAYER), want, "{wrong:?}");
                assert_eq!(b == before, want != FINE && want[0] < 14, "{wrong:?}");
            }
        }
    }
}

/// An empty region needs neither image nor scratch, and changes nothing; one past the edge is refused first.
#[test]
fn empty_regions() {
    let d = sample_file("bayer.fcs");
    for (region, want) in [
        ([0, 0, 0, 0], FINE),
        ([768, 144, 0, 0], FINE),
        ([0, 144, 768, 0], FINE),
        ([769, 0, 0, 1], [7, 0, 0, 0]),
        ([0, 145, 1, 0], [7, 0, 0, 0]),
        ([usize::MAX, 0, 0, 0], [7, 0, 0, 0]),
    ] {
        for (image, samples, records) in [(0, 0, 0), (4, NEEDED[0], 336)] {
            let before = Buffers::new(vec![PATTERN; image], samples, records);
            let mut b = before.clone();
            assert_eq!(b.region(true, &d, region, &BAYER), want, "{region:?}");
            assert!(b == before, "{region:?}");
        }
    }
}

// ---- any stream, region, tile and prefill

/// How many of the lines that a region needs are read of a block: asked of one column of it, with the 18 lines.
fn lines_read(d: &[u8], block: usize, lines: usize) -> usize {
    let column = |n: usize| Buffers::new(vec![0; 6 * n], 9252, 336).region(false, d, [768 * block, 0, 1, 6 * n], &BAYER);
    (1..=lines).take_while(|n| column(*n) == FINE).last().unwrap_or(0)
}

/// What windows are to leave: the other entry's image, with 0 in the rows of each block's first truncated line.
fn with_zeros(d: &[u8], [x, y, width, height]: [usize; 4], mut image: Vec<u16>) -> Vec<u16> {
    let lines = (y + height).div_ceil(6);
    for block in x / 768..=(x + width - 1) / 768 {
        let cut = lines_read(d, block, lines);
        if cut == lines {
            continue;
        }
        for i in 0..width * height {
            if (y + i / width) / 6 == cut && (x + i % width) / 768 == block {
                image[i] = 0;
            }
        }
    }
    image
}

/// Compares both entries on one call; gives the number that they answer.
fn compare(d: &[u8], xtrans: bool, region: [usize; 4], tile: &[u8; 36], random: &mut Random) -> usize {
    let area = region[2] * region[3];
    let image: Vec<u16> = (0..area + random.below(5) as usize).map(|_| random.number() as u16).collect();
    let used = NEEDED[xtrans as usize];
    let mut old = Buffers::new(image.clone(), 2 * used, 336);
    let answer = old.region(false, d, region, tile);
    let mut new = Buffers::new(image, random.pick(&[used, used + 1, 2 * used]), 336 + random.below(3) as usize);
    for v in &mut new.samples[..used] {
        *v = random.number() as u16;
    }
    assert_eq!(new.region(true, d, region, tile), answer, "{region:?}");
    assert!(new.image == with_zeros(d, region, old.image), "{region:?}, {answer:?}");
    assert!(new.scratch_is_cleared(used), "{region:?}");
    answer[0]
}

#[test]
fn any_stream_region_and_tile() {
    let mut random = Random::new(17);
    let mut answers = [0; 2];
    for round in 0..24 {
        let (xtrans, lossy) = (round % 2 == 1, round % 4 >= 2);
        let lines = 1 + random.below(5) as usize;
        let header = Header::new(!lossy, xtrans, [12, 14, 16][round % 3], [768, 1536, 1560][round % 3], lines as u16);
        let rows: Vec<Vec<u8>> = (0..if lossy { header.blocks } else { 0 })
            .map(|b| (0..lines).map(|n| b.wrapping_mul(60) + 3 * (n as u8 / 2)).collect())
            .collect();
        let largest = (1u32 << header.bits) - 1;
        let whole = blocks(&header, &rows, &mut |b, n, line, p| scene((b + round) as u64, largest, n, line, p, &mut random));
        for damage in 0..6 {
            let mut parts = whole.clone();
            for part in parts.iter_mut().filter(|_| damage > 0) {
                let at = random.below(part.len() as u64) as usize;
                match random.below(4) {
                    0 => part.truncate(at),
                    1 => part[at..].fill(0),
                    2 => part[at] ^= 1 << random.below(8),
                    // The last line may fail only at its end.
                    _ => part.truncate(part.len() - 1 - random.below(20) as usize),
                }
            }
            let mut d = stream(&header, &rows, &parts);
            if damage == 5 {
                d.truncate(d.len() - random.below(whole[0].len() as u64) as usize);
            }
            for _ in 0..6 {
                let (w, h) = (header.width as u64, header.height as u64);
                let (x, y) = (random.below(w), random.below(h));
                let region = if random.chance(3) { [0, 0, w, h] } else { [x, y, 1 + random.below(w - x), 1 + random.below(h - y)] };
                let mut tile = [0; 36];
                tile.fill_with(|| random.below(4) as u8);
                let tile = random.pick(&[BAYER, XTRANS, tile, [0; 36], [2; 36]]);
                let number = compare(&d, xtrans, region.map(|n| n as usize), &tile, &mut random);
                answers[(number == 14) as usize] += 1;
            }
        }
    }
    // Both were asked often.
    assert!(answers[0] > 100 && answers[1] > 100, "{answers:?}");
}

/// A line whose codes are all there, but that ends 8 bits or more past the block's end: all its samples were placed, and its rows are 0. Such a line is read
/// where zero bytes follow, since zeros follow the end of a block too.
#[test]
fn a_line_that_fails_only_at_its_end() {
    let mut random = Random::new(23);
    for (xtrans, tile) in [(false, BAYER), (true, XTRANS)] {
        // Noise of 16 bits: a code ends with 14 or 15 bits, so that its one bit can stand and the line still end 8 bits too late.
        let header = Header::new(true, xtrans, 16, 768, 2);
        let whole = blocks(&header, &[], &mut |_, n, line, p| scene(2, 65535, n, line, p, &mut random));
        let mut only_at_its_end = 0;
        // Up to 15 bytes of these are filling.
        for cut in 1..24 {
            let part = whole[0][..whole[0].len() - cut].to_vec();
            let filled = [&part[..], &[0; 16]].concat();
            let d = stream(&header, &[], &[part]);
            let number = compare(&d, xtrans, [0, 0, 768, 12], &tile, &mut random);
            only_at_its_end += (number == 14 && lines_read(&stream(&header, &[], &[filled]), 0, 2) == 2) as usize;
        }
        assert!(only_at_its_end > 0);
    }
}
