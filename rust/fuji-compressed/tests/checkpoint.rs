//! States of blocks, stored and gone on from: the table of known answers; every refusal with what it leaves; for streams of all kinds every line and random regions against
//! `fuji_decode_region`; and states of random bytes. The functions are called as C calls them; all buffers are filled before, and looked at whole afterwards.
use common::pictures::scene;
use common::random::Random;
use common::stream::{Header, blocks, encoded, stream};
use fuji_compressed::{FujiHeader, Record};

mod lent;

use lent::{BAYER, Buffers, FINE, PATTERN, XTRANS, ffi, fnv, image_fnv, prefill, sample_file};

/// Samples of scratch, and bytes of a state: Bayer, X-Trans.
const NEEDED: [usize; 2] = [6948, 9252];
const SIZE: [usize; 2] = [6315, 7851];
const WHOLE: [usize; 4] = [0, 0, 768, 144];

/// The refusal's words, and the totals.
type Answer = ([usize; 4], [usize; 2]);

trait States {
    fn store(&mut self, d: &[u8], block: usize, line: usize, state: &mut [u8]) -> Answer;
    fn resume(&mut self, d: &[u8], block: usize, state: &[u8], region: [usize; 4], tile: &[u8; 36]) -> Answer;
}

impl States for Buffers {
    fn store(&mut self, d: &[u8], block: usize, line: usize, state: &mut [u8]) -> Answer {
        let (mut totals, mut refusal) = ([usize::MAX; 2], [usize::MAX; 4]);
        let (s, r) = (&mut self.samples, &mut self.records);
        let (samples, records, out) = (s.as_mut_ptr(), r.as_mut_ptr(), state.as_mut_ptr());
        let (p, n, room) = (d.as_ptr(), d.len(), state.len());
        unsafe { ffi::fuji_store_checkpoint(p, n, block, line, out, room, samples, s.len(), records, r.len(), &mut totals, &mut refusal) };
        (refusal, totals)
    }

    fn resume(&mut self, d: &[u8], block: usize, state: &[u8], [x, y, w, h]: [usize; 4], tile: &[u8; 36]) -> Answer {
        let (mut totals, mut refusal) = ([usize::MAX; 2], [usize::MAX; 4]);
        let (image, samples, records) = (self.image.as_mut_ptr(), self.samples.as_mut_ptr(), self.records.as_mut_ptr());
        let (i, s, r) = (self.image.len(), self.samples.len(), self.records.len());
        let (p, n, c, m) = (d.as_ptr(), d.len(), state.as_ptr(), state.len());
        unsafe {
            ffi::fuji_resume_region(p, n, block, c, m, x, y, w, h, tile, image, i, samples, s, records, r, &mut totals, &mut refusal)
        };
        (refusal, totals)
    }
}

fn lend(image: Vec<u16>) -> Buffers {
    Buffers::new(image, 9300, 340)
}

/// The state of a block after a line, and the bits up to there; it has to be accepted.
fn stored(d: &[u8], block: usize, line: usize) -> (Vec<u8>, usize) {
    let xtrans = d[3] == 16;
    let mut state = vec![0xEE; SIZE[xtrans as usize]];
    let mut b = lend(vec![]);
    let (refusal, [bits, _]) = b.store(d, block, line, &mut state);
    assert_eq!(refusal, FINE);
    assert!(b.scratch_is_cleared(NEEDED[xtrans as usize]));
    (state, bits)
}

fn cut(name: &str, length: usize) -> Vec<u8> {
    let mut d = sample_file(name);
    d.truncate(length);
    d
}

// ---- the table of known answers, for Bayer: by an independent model

#[test]
fn the_bytes_of_a_state() {
    let d = sample_file("bayer.fcs");
    let mut state = vec![0xEE; 6320];
    let mut b = lend(vec![]);
    let (refusal, [bits, _]) = b.store(&d, 0, 0, &mut state);
    assert_eq!((refusal, bits), (FINE, 22_743));
    let head = [0x49, 0x53, 1, 0, 0x0e, 0, 0x90, 3, 0, 3, 0, 3, 0, 1, 0, 0x18, 0, 0, 1, 0, 0, 0, 0, 0, 0, 0x58, 0xd7];
    assert_eq!(state[..27], head);
    let record = |j: usize| &state[27 + 5 * j..32 + 5 * j];
    assert_eq!(record(0), [0, 2, 0x81, 0xbc, 0x21]);
    assert_eq!(record(1), [0, 0, 1, 0, 1]);
    assert_eq!((record(41), record(55)), (&[0, 0, 0, 0, 1][..], &[0, 0, 0, 0, 1][..]));
    assert_eq!(record(112), [0, 2, 0xae, 0xc8, 0x21]);
    assert_eq!(state[1707..1711], [0x21, 0x84, 0x21, 0x8c]);
    assert_eq!(state[6311..], [0x2d, 0x8a, 0x2d, 0x92, 0xEE, 0xEE, 0xEE, 0xEE, 0xEE]);
    assert_eq!(fnv(state.iter().copied()), 0x42e8_67e2_d502_c5c5);
    assert!(b.scratch_is_cleared(NEEDED[0]));
}

#[test]
fn known_pictures() {
    for (length, line, region, samples, answer, want) in [
        (0, 0, WHOLE, 110_594, (FINE, Some(743_693)), Some(0x1ff2_d0dd_d291_9c1b)),
        (0, 11, [17, 70, 300, 60], 18_002, (FINE, Some(350_882)), Some(0xba28_25cb_cf75_7e9c)),
        (50_000, 10, WHOLE, 110_594, ([14, 0, 12, 0], None), Some(0x3930_f914_1cb7_2f87)),
        (0, 23, WHOLE, 110_594, (FINE, Some(0)), None),
    ] {
        let d = if length == 0 { sample_file("bayer.fcs") } else { cut("bayer.fcs", length) };
        let (state, _) = stored(&d, 0, line);
        let before = prefill(9, samples);
        let mut b = lend(before.clone());
        let (refusal, [bits, _]) = b.resume(&d, 0, &state, region, &BAYER);
        assert_eq!(refusal, answer.0, "line {line}");
        assert!(answer.1.is_none_or(|want| bits == want), "line {line}: {bits} bits");
        match want {
            Some(want) => assert_eq!(image_fnv(&b.image), want, "line {line}"),
            None => assert!(b.image == before, "line {line}"),
        }
        assert!(b.scratch_is_cleared(NEEDED[0]));
    }
}

#[test]
fn positions_of_known_states() {
    let d = sample_file("bayer.fcs");
    for (line, position) in [(0, 22_743), (11, 384_105), (23, 766_436)] {
        let (state, bits) = stored(&d, 0, line);
        assert_eq!(u64::from_be_bytes(state[19..27].try_into().unwrap()), position);
        assert_eq!(bits as u64, position);
        assert_eq!(state[17..19], (line as u16 + 1).to_be_bytes());
    }
}

// ---- refusals, and what they leave

#[test]
fn storing_refused() {
    let whole = sample_file("bayer.fcs");
    let one_line = [&Header::new(true, false, 14, 768, 1).bytes()[..], &[0; 4]].concat();
    let cleared = [13, 14, 21];
    for (d, block, line, room, samples, records, want) in [
        (&whole[..15], 0, 0, 6320, 6948, 336, [1, 0, 0, 0]),
        (&[0; 40][..], 0, 0, 6320, 6948, 336, [2, 0, 0, 0]),
        (&whole[..19], 0, 0, 6320, 6948, 336, [3, 0, 0, 0]),
        (&cut("xtrans.fcs", 40)[..], 0, 0, 7851, 9252, 336, [4, 0, 0, 0]),
        (&whole[..], 1, 24, 0, 0, 0, [5, 0, 0, 0]),
        (&whole[..], usize::MAX, 24, 0, 0, 0, [5, 0, 0, 0]),
        (&whole[..], 0, 24, 0, 6947, 336, [10, 0, 0, 0]),
        (&whole[..], 0, 24, 0, 6948, 335, [10, 0, 0, 0]),
        (&whole[..], 0, 24, 0, 6948, 336, [21, 0, 0, 0]),
        (&whole[..], 0, 24, 6320, 6949, 337, [21, 0, 0, 0]),
        (&whole[..], 0, usize::MAX, 6320, 6948, 336, [21, 0, 0, 0]),
        (&whole[..], 0, 3, 6314, 6948, 336, [13, 0, 0, 0]),
        (&whole[..], 0, 3, 0, 6948, 336, [13, 0, 0, 0]),
        (&one_line[..], 0, 0, 6315, 6948, 336, [14, 0, 0, 0]),
        (&one_line[..], 0, 1, 6315, 6948, 336, [21, 0, 0, 0]),
        (&whole[..50_000], 0, 20, 6315, 7000, 400, [14, 0, 12, 0]),
        (&whole[..50_000], 0, 20, 6314, 7000, 400, [13, 0, 0, 0]),
    ] {
        let before = Buffers::new(vec![], samples, records);
        let mut b = before.clone();
        let mut state = vec![0xA7; room];
        let (refusal, totals) = b.store(d, block, line, &mut state);
        assert_eq!(refusal, want, "line {line}, {room} bytes");
        assert!(state.iter().all(|v| *v == 0xA7), "{want:?}");
        if cleared.contains(&want[0]) {
            assert!(b.scratch_is_cleared(NEEDED[0]), "{want:?}");
        } else {
            assert!(b == before, "{want:?}");
        }
        if want[0] != 14 || want[2] == 0 {
            assert_eq!(totals, [0, 0], "{want:?}");
        } else {
            assert_eq!(totals, read_so_far(d, 0, want[2]), "{want:?}");
        }
    }
}

/// The totals of the first lines of a block, by the whole block's reading of a stream that has no more of them.
fn read_so_far(d: &[u8], block: usize, lines: usize) -> [usize; 2] {
    let mut state = vec![0; 7851];
    let (refusal, totals) = lend(vec![]).store(d, block, lines - 1, &mut state);
    assert_eq!(refusal, FINE);
    totals
}

#[test]
fn going_on_refused() {
    let d = sample_file("bayer.fcs");
    let (state, _) = stored(&d, 0, 4);
    let with = |at: usize, bytes: &[u8]| {
        let mut s = state.clone();
        s[at..at + bytes.len()].copy_from_slice(bytes);
        s
    };
    let length = u32::from_be_bytes(d[16..20].try_into().unwrap()) as u64;
    let longer = [&state[..], &[0]].concat();
    let both = {
        let mut s = with(17, &[0, 25]);
        s[16] = 1;
        s
    };
    for (what, s, want) in [
        ("a byte less", state[..6314].to_vec(), 21),
        ("a byte more", longer, 21),
        ("no byte", vec![], 21),
        ("n 0", with(31, &[0]), 21),
        ("n 65", with(31 + 5 * 335, &[65]), 21),
        ("n 65 of a flat record", with(31 + 5 * 50, &[65]), 21),
        ("a sum of 2^26", with(27, &[4, 0, 0, 0]), 21),
        ("a sum of 2^32 - 1", with(27 + 5 * 111, &[255; 4]), 21),
        ("a sample of 16,384", with(1707, &[0x40, 0]), 21),
        ("a last sample of 16,384", with(6313, &[0x40, 0]), 21),
        ("line 25", with(17, &[0, 25]), 21),
        ("line 65,535", with(17, &[255; 2]), 21),
        ("a position past the end", with(19, &(8 * length + 8).to_be_bytes()), 21),
        ("a position of 2^64 - 1", with(19, &[255; 8]), 21),
        ("another last byte of the header", with(15, &[23]), 22),
        ("another first byte of the header", with(0, &[0]), 22),
        ("another block", with(16, &[1]), 22),
        ("line 25 and another block", both, 21),
    ] {
        let before = prefill(5, 110_600);
        let mut b = lend(before.clone());
        assert_eq!(b.resume(&d, 0, &s, WHOLE, &BAYER), ([want, 0, 0, 0], [0, 0]), "{what}");
        assert!(b.image == before, "{what}");
        assert!(b.scratch_is_cleared(NEEDED[0]), "{what}");
    }
    // Each of these is the last that is accepted.
    let mut b = lend(prefill(5, 110_600));
    assert_eq!(b.resume(&d, 0, &with(17, &[0, 24]), WHOLE, &BAYER), (FINE, [0, 0]));
    assert!(b.image == prefill(5, 110_600));
    assert_eq!(b.resume(&d, 0, &with(19, &(8 * length + 7).to_be_bytes()), WHOLE, &BAYER), ([14, 0, 5, 0], [0, 0]));
    assert!(b.image == prefill(5, 110_600));
    for s in [with(27, &[3, 255, 255, 255, 1]), with(31, &[64]), with(1707, &[0x3f, 0xff])] {
        let mut b = lend(vec![0; 110_592]);
        let (refusal, _) = b.resume(&d, 0, &s, WHOLE, &BAYER);
        assert!(refusal == FINE || refusal[0] == 14, "{refusal:?}");
        assert!(b.image.iter().all(|v| *v <= 16_383));
    }
}

#[test]
fn going_on_refused_before_the_state_is_looked_at() {
    let whole = sample_file("bayer.fcs");
    let lossy = cut("xtrans.fcs", 40);
    for (d, block, region, image, samples, records, want) in [
        (&whole[..15], 0, WHOLE, 110_592, 6948, 336, 1),
        (&[0; 40][..], 0, WHOLE, 110_592, 6948, 336, 2),
        (&whole[..19], 0, WHOLE, 110_592, 6948, 336, 3),
        (&lossy[..], 0, WHOLE, 110_592, 9252, 336, 4),
        (&whole[..], 1, [700, 0, 69, 1], 0, 0, 0, 5),
        (&whole[..], 0, [700, 0, 69, 1], 110_592, 0, 0, 7),
        (&whole[..], 0, WHOLE, 110_591, 0, 0, 7),
        (&whole[..], 0, [usize::MAX; 4], 110_592, 0, 0, 7),
        (&whole[..], 0, [5, 5, 0, 3], 0, 0, 0, 0),
        (&whole[..], 0, [5, 5, 3, 0], 0, 0, 0, 0),
        (&whole[..], 0, WHOLE, 110_592, 6947, 336, 10),
        (&whole[..], 0, WHOLE, 110_592, 6948, 335, 10),
    ] {
        let before = Buffers::new(vec![PATTERN; image], samples, records);
        let mut b = before.clone();
        // No state at all: it would be refused by 21.
        assert_eq!(b.resume(d, block, &[1, 2, 3], region, &BAYER), ([want, 0, 0, 0], [0, 0]));
        assert!(b == before, "{want}");
    }
}

// ---- going on is reading on

/// Streams of all kinds: two blocks, the second narrower, and a third of the base rows with changes.
fn streams() -> Vec<(Header, Vec<Vec<u8>>, Vec<Vec<u8>>)> {
    let mut random = Random::new(23);
    let mut all = vec![];
    for (kind, (lossless, xtrans, bits)) in
        [(true, false, 14), (true, true, 14), (false, false, 14), (false, true, 12), (true, true, 16), (false, false, 16)]
            .into_iter()
            .enumerate()
    {
        let header = Header::new(lossless, xtrans, bits, 960, 5);
        let row = vec![3, 3, kind as u8, 0, 7];
        let rows = if lossless { vec![] } else { vec![row.clone(), row] };
        let largest = (1 << bits) - 1;
        let parts = blocks(&header, &rows, &mut |b, n, line, p| scene((b + kind) as u64, largest, n, line, p, &mut random));
        all.push((header, rows, parts));
    }
    all
}

#[test]
fn going_on_gives_what_reading_from_the_top_gives() {
    let mut random = Random::new(29);
    let mut filled = 0;
    for (header, rows, mut parts) in streams() {
        let (xtrans, tile) = (header.raw_type == 16, if header.raw_type == 16 { XTRANS } else { BAYER });
        let size = SIZE[xtrans as usize];
        let whole = stream(&header, &rows, &parts);
        // A stream in which the other block is cut, and one in which this one is.
        let cut_at = parts[1].len() / 2;
        parts[1].truncate(cut_at);
        let shorter = stream(&header, &rows, &parts);
        for (d, block) in [(&whole, 0), (&whole, 1), (&shorter, 0), (&shorter, 1)] {
            for line in 0..5 {
                let mut state = vec![0xEE; size + 3];
                let mut s = lend(vec![]);
                let (refusal, totals) = s.store(d, block, line, &mut state);
                assert!(s.scratch_is_cleared(NEEDED[xtrans as usize]));
                // What a reading of the block alone says of the lines up to this one.
                let mut column = vec![0; 6 * (line + 1)];
                let want = lend(column.clone()).region(false, d, [768 * block, 0, 1, 6 * (line + 1)], &tile);
                assert_eq!(refusal, want);
                if refusal != FINE {
                    assert!(state.iter().all(|v| *v == 0xEE));
                    continue;
                }
                assert_eq!(state[size..], [0xEE; 3]);
                column.clear();
                for _ in 0..12 {
                    let (x, y) = (random.below(960), random.below(30));
                    let region = [x, y, 1 + random.below(960 - x), 1 + random.below(30 - y)].map(|n| n as usize);
                    filled += goes_on(d, block, line, &state[..size], totals, region, &tile);
                }
                filled += goes_on(d, block, line, &state[..size], totals, [0, 0, 960, 30], &tile);
            }
        }
        // The state of the one goes on in the other: block 0 is the same in both.
        let (state, _) = stored(&whole, 0, 2);
        let mut b = lend(vec![PATTERN; 960 * 30]);
        assert_eq!(b.resume(&shorter, 0, &state, [0, 0, 960, 30], &tile).0, FINE);
        let mut top = lend(vec![PATTERN; 960 * 30]);
        assert_eq!(top.region(false, &whole, [0, 0, 960, 30], &tile), FINE);
        assert!((0..960 * 30).all(|i| b.image[i] == if i % 960 < 768 && i / 960 >= 18 { top.image[i] } else { PATTERN }));
    }
    assert!(filled > 1_000_000, "{filled}");
}

/// Goes on in a region, and compares with a reading of that block from the top. Gives how many samples were filled.
fn goes_on(d: &[u8], block: usize, line: usize, state: &[u8], before: [usize; 2], region: [usize; 4], tile: &[u8; 36]) -> usize {
    let [x, y, w, h] = region;
    let mut b = lend(vec![PATTERN; w * h + 2]);
    let (refusal, totals) = b.resume(d, block, state, region, tile);
    assert!(b.scratch_is_cleared(NEEDED[(d[3] == 16) as usize]));
    let (left, right) = (x.max(768 * block), (x + w).min(768 * (block + 1)));
    if left >= right {
        assert_eq!((refusal, totals), (FINE, [0, 0]));
        assert!(b.image.iter().all(|v| *v == PATTERN));
        return 0;
    }
    // The columns of that block alone, from the top.
    let mut top = lend(vec![PATTERN; (right - left) * h]);
    let want = top.region(false, d, [left, y, right - left, h], tile);
    assert_eq!(refusal, want, "line {line}, region {region:?}");
    let end = if refusal == FINE { (y + h).div_ceil(6) } else { refusal[2] };
    let mut filled = 0;
    for (i, v) in b.image.iter().enumerate() {
        let (column, row) = (x + i % w, y + i / w);
        let is = i < w * h && (left..right).contains(&column) && (line + 1..end).contains(&(row / 6));
        assert_eq!(*v, if is { top.image[(row - y) * (right - left) + column - left] } else { PATTERN }, "column {column}, row {row}");
        filled += is as usize;
    }
    // The lines that were read now, and those before, are those up to the end.
    let last = end.max(line + 1);
    let all = read_so_far(d, block, last);
    assert_eq!([totals[0] + before[0], totals[1] + before[1]], all);
    filled
}

// ---- any bytes

#[test]
fn states_of_random_bytes() {
    let mut random = Random::new(31);
    let (mut loaded, mut read) = (0, 0);
    let largest = |bits: u32| (1u32 << bits) - 1;
    let made: Vec<(Vec<u8>, FujiHeader)> = [(true, false, 14), (false, true, 12), (true, true, 16), (false, false, 14)]
        .into_iter()
        .map(|(lossless, xtrans, bits)| {
            let header = Header::new(lossless, xtrans, bits, 768, 3);
            let rows = if lossless { vec![] } else { vec![vec![2, 0, 5]] };
            let d = encoded(&header, &rows, &mut |_, n, line, p| scene(1, largest(bits as u32), n, line, p, &mut random));
            let parsed = FujiHeader::parse(&d).unwrap();
            (d, parsed)
        })
        .collect();
    for round in 0..12_000 {
        let (d, h) = &made[round % 4];
        let mut s: Vec<u8> = (0..h.checkpoint_size()).map(|_| random.number() as u8).collect();
        s[..16].copy_from_slice(&d[..16]);
        s[16] = 0;
        s[17..19].copy_from_slice(&(random.below(4) as u16).to_be_bytes());
        let length = u32::from_be_bytes(d[16..20].try_into().unwrap());
        s[19..27].copy_from_slice(&random.below(8 * length as u64 + 8).to_be_bytes());
        for j in 0..336 {
            s[27 + 5 * j] %= 4;
            s[31 + 5 * j] = 1 + s[31 + 5 * j] % 64;
        }
        for v in s[1707..].chunks_mut(2) {
            let sample = u16::from_be_bytes([v[0], v[1]]) & largest(h.bits) as u16;
            v.copy_from_slice(&sample.to_be_bytes());
        }
        // One in eight does not load.
        if round % 8 == 7 {
            s[31 + 5 * random.below(336) as usize] = 65 + (random.number() as u8) % 190;
        }
        let mut b = Buffers::new(vec![0; 768 * 18], 9252, 336);
        let (refusal, _) = b.resume(d, 0, &s, [0, 0, 768, 18], &BAYER);
        assert!(b.image.iter().all(|v| *v as u32 <= largest(h.bits)), "round {round}");
        assert!(b.scratch_is_cleared(NEEDED[h.xtrans as usize]), "round {round}");
        match (refusal[0], round % 8) {
            (21, 7) => assert!(b.image.iter().all(|v| *v == 0)),
            (0 | 14, 0..7) => {
                loaded += 1;
                read += b.image.iter().any(|v| *v != 0) as usize;
            }
            _ => panic!("round {round}: {refusal:?}"),
        }
    }
    assert!(loaded == 10_500 && read > 1000, "{loaded} loaded, {read} with lines");
}
