//! The tight reading: tight blocks, each kind of bad code at the first, a middle and the last code, tails, truncation, scratch, refusals.
use common::encoder::{Encoded, How, Spoil, encode, encode_spoilt};
use common::pictures::scene;
use common::random::Random;
use common::stream::{Header, stream};
use fuji_compressed::{ColorTile, FujiCompressed, Record, Refusal, Scratch};

const LINES: usize = 3;
const LAST: usize = 4608 * LINES - 1;

fn refused(number: u32, block: usize, line: usize) -> Result<(), Refusal> {
    Err(Refusal { number, block, line, index: 0 })
}

fn largest(bits: u8) -> u32 {
    (1 << bits) - 1
}

/// A picture with noise and with jumps, so that all codes but a few are above 0.
fn block(bits: u8, xtrans: bool, kind: u64, spoil: Option<Spoil>) -> Vec<u8> {
    let mut random = Random::new(bits as u64 + kind);
    let mut want = |n, line, p| scene(kind, largest(bits), n, line, p, &mut random);
    let made = encode_spoilt(bits as u32, xtrans, &[], LINES, &mut want, spoil);
    assert_eq!(made.spoilt, spoil.is_some());
    made.bytes
}

fn stream_of(bits: u8, xtrans: bool, block: Vec<u8>) -> Vec<u8> {
    stream(&Header::new(true, xtrans, bits, 768, LINES as u16), &[], &[block])
}

/// What the tight reading says, with soiled scratch that it must leave cleared.
fn read(bits: u8, xtrans: bool, block: &[u8]) -> Result<(), Refusal> {
    let bytes = stream_of(bits, xtrans, block.to_vec());
    let mut scratch = Scratch::new();
    scratch.samples.resize(9300, 0);
    scratch.samples.fill(77);
    scratch.records.resize(340, Record::default());
    scratch.records.fill(Record { sum: 3, n: 0 });
    let answer = FujiCompressed::new(&bytes).unwrap().read_tight_with(&mut scratch, 0).answer;
    let used = if xtrans { 9252 } else { 6948 };
    assert!(scratch.samples.iter().enumerate().all(|(i, v)| *v == if i < used { 0 } else { 77 }));
    assert!(scratch.records.iter().enumerate().all(|(i, r)| *r == if i < 336 { Record { sum: 0, n: 1 } } else { Record { sum: 3, n: 0 } }));
    answer
}

const FORMS: [(u8, bool); 6] = [(12, false), (14, false), (16, false), (12, true), (14, true), (16, true)];

#[test]
fn tight_blocks_are_accepted() {
    for (bits, xtrans) in FORMS {
        for kind in 0..5 {
            assert_eq!(read(bits, xtrans, &block(bits, xtrans, kind, None)), Ok(()), "{bits} {xtrans} {kind}");
        }
    }
}

#[test]
fn each_bad_code_is_found_in_its_line() {
    for (bits, xtrans) in FORMS {
        for how in [How::Escape, How::Zero, How::Large] {
            // some codes before the last are 0, and cannot be spoilt; 40 are enough to find one that can
            for (from, line) in [(0, 0), (4607 - 40, 0), (4608, 1), (4608 + 2304, 1), (2 * 4608, 2), (LAST - 40, 2)] {
                let bytes = block(bits, xtrans, 2, Some(Spoil { from, how }));
                assert_eq!(read(bits, xtrans, &bytes), refused(15, 0, line), "{bits} {xtrans} {how:?} {from}");
            }
        }
    }
}

/// 14 bits, lossless, prediction and gradient 0, k 8: 41 zeros, a one and 14 zeros are sample 16383, and not tight. Then all codes as they come.
#[test]
fn marked_case_i_in_a_block() {
    let mut want = |_, _, _| 16383;
    let spoil = Spoil { from: 0, how: How::Escape };
    let made = encode_spoilt(14, false, &[], LINES, &mut want, Some(spoil));
    assert!(made.spoilt);
    let bytes = made.bytes;
    assert_eq!(bytes[..7], [0, 0, 0, 0, 0, 0b0100_0000, 0]);
    assert_eq!(read(14, false, &bytes), refused(15, 0, 0));
    assert_eq!(read(14, false, &encode(14, false, &[], LINES, &mut want)), Ok(()));
}

#[test]
fn tails() {
    for (bits, xtrans) in FORMS {
        let good = block(bits, xtrans, 0, None);
        assert_eq!(good.len() % 16, 0);
        let mut longer = good.clone();
        for more in [1, 15, 16, 32] {
            longer.resize(good.len() + more, 0);
            assert_eq!(read(bits, xtrans, &longer), refused(15, 0, LINES), "{more} bytes more");
        }
        // a bad code is named before the tail
        let mut both = block(bits, xtrans, 2, Some(Spoil { from: 4608, how: How::Escape }));
        both.push(0);
        assert_eq!(read(bits, xtrans, &both), refused(15, 0, 1));
    }
}

fn one_line(bits: u8, want: &mut dyn FnMut(usize, usize, usize) -> u16) -> (Header, Encoded) {
    (Header::new(true, false, bits, 768, 1), encode_spoilt(bits as u32, false, &[], 1, want, None))
}

fn ask(header: &Header, block: &[u8]) -> Result<(), Refusal> {
    let d = stream(header, &[], &[block.to_vec()]);
    FujiCompressed::new(&d).unwrap().read_tight(0).answer
}

/// A line of zeros at 14 bits has 6,660 bits: 833 bytes, and 848 with the filling.
#[test]
fn a_line_of_zeros() {
    let (header, made) = one_line(14, &mut |_, _, _| 0);
    assert_eq!((made.used, made.unfilled().len(), made.bytes.len()), (6660, 833, 848));
    assert_eq!(ask(&header, &made.bytes), Ok(()));
    for length in [833, 847, 864] {
        let mut other = made.bytes.clone();
        other.resize(length, 0);
        assert_eq!(ask(&header, &other), refused(15, 0, 1), "{length} bytes");
    }
    for bit in [6660, 848 * 8 - 1] {
        let mut set = made.bytes.clone();
        set[bit / 8] |= 0x80 >> (bit % 8);
        assert_eq!(ask(&header, &set), refused(15, 0, 1), "bit {bit}");
    }
}

/// Blocks with 0 to 127 bits of filling: each bit of it set, and the whole left out. And blocks that lack 1 to 7 bits that are 0 once all
/// bytes from there on are gone: those bits are read as zeros, so every code is as it was, and only the length is wrong.
#[test]
fn filling_and_missing_bits() {
    let (mut filling_seen, mut missing_seen) = ([false; 128], [false; 8]);
    // noise, of which the last sample, in line 17 at position 383, takes one value after the other
    for v in 0..16 * 4096 {
        let mut random = Random::new(1 + v % 997);
        let mut want = |n, line, p| if (line, p) == (17, 383) { (v % 4096) as u16 } else { scene(2, 4095, n, line, p, &mut random) };
        let (header, made) = one_line(12, &mut want);
        let (end, filling) = (8 * made.bytes.len(), 8 * made.bytes.len() - made.used);
        let whole = made.used / 8;
        if !filling_seen[filling] {
            filling_seen[filling] = true;
            assert_eq!(ask(&header, &made.bytes), Ok(()));
            for bit in made.used..end {
                let mut set = made.bytes.clone();
                set[bit / 8] |= 0x80 >> (bit % 8);
                assert_eq!(ask(&header, &set), refused(15, 0, 1), "bit {bit} of {end}");
            }
            // what was tight before blocks were filled is tight only where nothing is missing
            let unfilled = if filling < 8 { Ok(()) } else { refused(15, 0, 1) };
            assert_eq!(ask(&header, made.unfilled()), unfilled, "{filling} bits of filling");
        }
        if made.used % 8 != 0 && made.bytes[whole] == 0 && !missing_seen[made.used % 8] {
            missing_seen[made.used % 8] = true;
            assert_eq!(ask(&header, &made.bytes[..whole]), refused(15, 0, 1), "{} bits are missing", made.used % 8);
        }
        if filling_seen == [true; 128] && missing_seen[1..] == [true; 7] {
            return;
        }
    }
    panic!("not all numbers of bits were seen: {filling_seen:?} {missing_seen:?}");
}

/// The ordinary reading takes filled blocks and unfilled ones.
#[test]
fn the_ordinary_reading_takes_both() {
    for (bits, xtrans) in FORMS {
        let mut random = Random::new(3);
        let mut want = |n, line, p| scene(1, largest(bits), n, line, p, &mut random);
        let made = encode_spoilt(bits as u32, xtrans, &[], LINES, &mut want, None);
        let pictures: Vec<Vec<u16>> = [made.unfilled(), &made.bytes]
            .iter()
            .map(|block| {
                let d = stream_of(bits, xtrans, block.to_vec());
                let mut image = vec![0; 768 * 6 * LINES];
                assert_eq!(FujiCompressed::new(&d).unwrap().decode(&mut image, 768, 6 * LINES as u32, &ColorTile::default()), Ok(()));
                image
            })
            .collect();
        assert!(pictures[0] == pictures[1]);
    }
}

#[test]
fn truncation_comes_before_a_bad_code() {
    for (bits, xtrans) in FORMS {
        let bytes = block(bits, xtrans, 2, Some(Spoil { from: 0, how: How::Zero }));
        for (cut, line) in [(bytes.len() / 6, 0), (bytes.len() / 2, 1), (5 * bytes.len() / 6, 2)] {
            assert_eq!(read(bits, xtrans, &bytes[..cut]), refused(14, 0, line), "{bits} {xtrans}");
        }
    }
    assert_eq!(read(14, false, &[]), refused(14, 0, 0));
}

#[test]
fn refusals_of_the_tight_reading() {
    let lossless = stream_of(14, false, block(14, false, 0, None));
    let opened = FujiCompressed::new(&lossless).unwrap();
    assert_eq!((opened.read_tight(0).answer, opened.read_tight(1).answer), (Ok(()), refused(5, 0, 0)));
    let lossy = stream(&Header::new(false, false, 14, 768, LINES as u16), &[vec![0; LINES]], &[vec![]]);
    let opened_lossy = FujiCompressed::new(&lossy).unwrap();
    assert_eq!((opened_lossy.read_tight(0).answer, opened_lossy.read_tight(1).answer), (refused(8, 0, 0), refused(5, 0, 0)));
    for (samples, records, answer) in
        [(6948, 336, Ok(())), (6947, 336, refused(10, 0, 0)), (6948, 335, refused(10, 0, 0)), (0, 0, refused(10, 0, 0))]
    {
        let before = Scratch { samples: vec![9; samples], records: vec![Record { sum: 5, n: 5 }; records] };
        let mut scratch = before.clone();
        assert_eq!(opened.read_tight_with(&mut scratch, 0).answer, answer);
        assert_eq!(scratch == before, answer.is_err());
        // a lossy stream is refused before scratch is looked at
        let mut scratch = before.clone();
        assert_eq!(opened_lossy.read_tight_with(&mut scratch, 0).answer, refused(8, 0, 0));
        assert!(scratch == before);
    }
}

/// Each bit of a tight block counts: with one of them flipped it is refused, or another set is read from it.
#[test]
fn every_flipped_bit() {
    for (xtrans, kind) in [(false, 1), (true, 4)] {
        let header = Header::new(true, xtrans, 12, 768, 1);
        let mut random = Random::new(3);
        let good = encode(12, xtrans, &[], 1, &mut |n, line, p| scene(kind, 4095, n, line, p, &mut random));
        let set = |block: &[u8]| {
            let d = stream(&header, &[], &[block.to_vec()]);
            let opened = FujiCompressed::new(&d).unwrap();
            opened.read_tight(0).answer.ok().map(|()| {
                let mut images = vec![0; 3 * 4608];
                for (colour, image) in images.chunks_mut(4608).enumerate() {
                    let tile: ColorTile = [[colour as u8; 6]; 6];
                    opened.decode(image, 768, 6, &tile).unwrap();
                }
                images
            })
        };
        let want = set(&good);
        assert!(want.is_some());
        let mut accepted = 0;
        for bit in 0..8 * good.len() {
            let mut flipped = good.clone();
            flipped[bit / 8] ^= 1 << (bit % 8);
            let got = set(&flipped);
            assert!(got != want, "bit {bit}");
            accepted += got.is_some() as usize;
        }
        assert!(accepted > 0, "some flipped bits make another tight block");
    }
}
