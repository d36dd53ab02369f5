//! The lossy writer: blocks that an independent model of the rules has made, those of the encoder for tests, how far samples are off, each refusal and what it
//! leaves, and their order.
mod sets;

use common::encoder::encode;
use common::random::{Random, congruential};
use common::sha256::digits;
use common::stream::{Header, stream};
use fuji_compressed::{FujiCompressed, Record, Refusal, Scratch, Totals, write_block, write_lossy, write_lossy_with};
use sets::{is_cleared, is_interpolated, read_set, refused, soiled, wanted, width};

fn lossy(bits: u8, xtrans: bool, lines: usize) -> Header {
    Header::new(false, xtrans, bits, 768, lines as u16)
}

/// The block, with an output that is longer and soiled scratch.
fn written(header: &Header, bases: &[u8], set: &[u16]) -> Result<Vec<u8>, Refusal> {
    let mut out = vec![0xa5; header.lines as usize * 2304 * header.bits as usize + 5];
    let mut scratch = soiled();
    let answer = write_lossy_with(&mut scratch, &header.bytes(), bases, set, &mut out);
    assert!(is_cleared(&scratch, header.raw_type == 16));
    let length = *answer.as_ref().unwrap_or(&0);
    assert!(out[length..].iter().all(|v| *v == 0xa5));
    out.truncate(length);
    answer.map(|_| out)
}

fn totals(header: &Header, bases: &[u8], block: &[u8]) -> Totals {
    let d = stream(header, &[bases.to_vec()], &[block.to_vec()]);
    let counted = FujiCompressed::new(&d).unwrap().read_block(0);
    assert_eq!(counted.answer, Ok(()));
    counted.totals
}

/// For each line how far the samples that have a code are off at most.
fn errors(header: &Header, set: &[u16], back: &[u16]) -> Vec<u16> {
    let (xtrans, line) = (header.raw_type == 16, 12 * width(header));
    let off = |i: usize| if xtrans && is_interpolated(i) { 0 } else { set[i].abs_diff(back[i]) };
    (0..header.lines as usize).map(|n| (n * line..(n + 1) * line).map(off).max().unwrap()).collect()
}

/// Sets from a linear congruential generator, with something added to each sample: of each the bits and the long codes, the block's length, how far each line is off,
/// and the first digits of the SHA-256 of the block and of the set that is read back, 16 bits a sample, big-endian.
#[test]
fn blocks_of_known_sets() {
    type Known<'a> = (u8, bool, &'a [u8], u32, Option<u32>, u16, u64, usize, u64, &'a [u16], &'a str, &'a str);
    let known: [Known; 8] = [
        (12, false, &[0], 11, None, 0, 60140, 7520, 46, &[0], "f114664c5e44ebb402e6732a", "cf98aeab602e3204dd6faa04"),
        (12, false, &[1, 1], 12, None, 0, 104_369, 13_056, 32, &[1, 1], "93c0ce37566831ba4b0efd41", "74e644199b024f0bc824b43c"),
        (14, false, &[3, 3, 0], 13, Some(64), 0, 71_589, 8960, 0, &[3, 3, 0], "4e1d0e232620d9be736c047b", "3e80a0a213ddb833a5223589"),
        (14, true, &[3, 3, 0], 13, Some(64), 0, 73_024, 9136, 0, &[3, 3, 0], "b5f12661e14521a640ea2fe3", "ff4798615d67d887b60fa29a"),
        (16, false, &[255, 2], 14, None, 0, 109_288, 13_664, 19, &[255, 2], "2528bb076f8cb8f8ae322a98", "d698a18551fb4e8b5f78050c"),
        (16, true, &[7, 7, 40], 15, Some(300), 0, 65_134, 8144, 0, &[7, 7, 40], "81f02e4970390a18b0752483", "fe3ac53b0bbf6123876b6d4e"),
        (
            12,
            false,
            &[3, 3, 5, 5],
            501,
            Some(12),
            1000,
            54_209,
            6784,
            3,
            &[3, 3, 5, 5],
            "7687d14b37bd9b907a1d4aff",
            "1b7fa2355fe90abb55777f79",
        ),
        (
            14,
            true,
            &[1, 2, 2, 9],
            502,
            Some(7),
            8000,
            89_910,
            11_248,
            5,
            &[1, 2, 2, 8],
            "0faa450dec0f0d32c9619c17",
            "e45089737d4f52b2e1e9bddf",
        ),
    ];
    for (bits, xtrans, bases, seed, below, more, used, length, long_codes, off, block_digits, set_digits) in known {
        let header = lossy(bits, xtrans, bases.len());
        let count = 12 * width(&header) * bases.len();
        let set: Vec<u16> = congruential(seed, below.unwrap_or(1 << bits), count).iter().map(|v| v + more).collect();
        let block = written(&header, bases, &set).unwrap();
        assert_eq!((block.len(), digits(&block, 24).as_str()), (length, block_digits), "{bits} {xtrans} {bases:?}");
        assert_eq!(totals(&header, bases, &block), Totals { bits: used, long_codes });
        let back = read_set(&header, bases, &block);
        assert_eq!(errors(&header, &set, &back), off);
        let bytes: Vec<u8> = back.iter().flat_map(|v| v.to_be_bytes()).collect();
        assert_eq!(digits(&bytes, 24), set_digits);
    }
}

/// Random sets, quiet and loud, with samples above the largest where X-Trans interpolates: the encoder, which shares no code with the writer, makes the same block.
#[test]
fn blocks_of_the_encoder() {
    let mut random = Random::new(0x5eed);
    for round in 0..60 {
        let (bits, xtrans, lines) = (random.pick(&[12, 14, 16]), round % 2 == 1, 1 + random.below(4) as usize);
        let (header, largest) = (lossy(bits, xtrans, lines), (1u32 << bits) - 1);
        let most = random.pick(&[4, 10, 256]);
        let bases: Vec<u8> = (0..lines).map(|_| random.below(most) as u8).collect();
        let (span, least) = (random.pick(&[1, 4, 16, 200, largest as u64 + 1]), random.below(largest as u64 / 2));
        let mut set: Vec<u16> = (0..12 * width(&header) * lines).map(|_| (least + random.below(span)).min(largest as u64) as u16).collect();
        let encoded = encode(bits as u32, xtrans, &bases, lines, &mut wanted(&set, width(&header)));
        if xtrans {
            // what stands there is ignored
            (0..set.len()).filter(|i| is_interpolated(*i)).for_each(|i| set[i] = random.number() as u16);
        }
        let block = written(&header, &bases, &set).unwrap();
        assert!(block == encoded, "{header:?} {bases:?} {span}");
        let off = errors(&header, &set, &read_set(&header, &bases, &block));
        assert!(off.iter().zip(&bases).all(|(e, b)| *e <= *b as u16), "{off:?} {bases:?}");
        // of a shorter output nothing is written
        let (mut short, mut scratch) = (vec![0xa5; block.len() - 1], soiled());
        assert_eq!(write_lossy_with(&mut scratch, &header.bytes(), &bases, &set, &mut short), refused(13, 0));
        assert!(short.iter().all(|v| *v == 0xa5) && is_cleared(&scratch, xtrans));
        let mut exact = vec![0; block.len()];
        assert_eq!(write_lossy(&header.bytes(), &bases, &set, &mut exact), Ok(block.len()));
        assert!(exact == block);
    }
}

/// Every base at every depth, with the samples that are farthest from their predictions: 0 and the largest by turns.
#[test]
fn every_base_and_depth() {
    for bits in [12, 14, 16] {
        let (header, largest) = (lossy(bits, false, 1), ((1u32 << bits) - 1) as u16);
        let loud: Vec<u16> = (0..12 * 384).map(|i| if (i % 384 + i / 384) % 2 == 0 { 0 } else { largest }).collect();
        let mut random = Random::new(bits as u64);
        let noise: Vec<u16> = (0..12 * 384).map(|_| random.below(largest as u64 + 1) as u16).collect();
        for base in 0..=255 {
            for set in [&loud, &noise] {
                let block = written(&header, &[base], set).unwrap();
                assert!(errors(&header, set, &read_set(&header, &[base], &block))[0] <= base as u16, "{bits} {base}");
            }
        }
    }
}

/// With base 0 in every line the block is the tight one.
#[test]
fn base_0_is_lossless() {
    for (bits, xtrans) in [(12, false), (14, false), (16, false), (12, true), (14, true), (16, true)] {
        let (header, lossless) = (lossy(bits, xtrans, 3), Header::new(true, xtrans, bits, 768, 3));
        let mut random = Random::new(7 + bits as u64);
        let set: Vec<u16> = (0..36 * width(&header)).map(|_| random.below(1 << bits) as u16).collect();
        let block = written(&header, &[0; 3], &set).unwrap();
        let predicted = read_set(&lossless, &[], &block);
        let mut tight = vec![0; block.len()];
        assert_eq!(write_block(&lossless.bytes(), &predicted, &mut tight), Ok(block.len()));
        assert!(tight == block && (xtrans || predicted == set));
    }
}

#[test]
fn samples_above_the_largest() {
    let header = lossy(12, true, 2);
    let set = vec![100; 24 * 512];
    let same = written(&header, &[3, 4], &set).unwrap();
    let with = |places: &[usize]| {
        let mut set = set.clone();
        places.iter().for_each(|i| set[*i] = 5000);
        written(&header, &[3, 4], &set)
    };
    // index 0 is position 0 of line 2, which is interpolated, and index 1 has a code
    assert_eq!(with(&[0]).as_ref(), Ok(&same));
    let named = |index| refused(11, index).map(|_| vec![]);
    assert_eq!(with(&[1]), named(1));
    assert_eq!(with(&[0, 2, 4, 9000, 7001, 8001]), named(7001));
    for i in (0..set.len()).step_by(37) {
        let answer = with(&[i]);
        if is_interpolated(i) {
            assert_eq!(answer.as_ref(), Ok(&same), "{i}");
        } else {
            assert_eq!(answer, named(i));
        }
    }
    let all: Vec<usize> = (0..set.len()).filter(|i| is_interpolated(*i)).collect();
    assert_eq!(all.len(), 24 * 512 - 2 * 4608);
    assert_eq!(with(&all).as_ref(), Ok(&same));
    // the largest itself is taken, and Bayer interpolates nothing
    let bayer = lossy(12, false, 1);
    let mut set = vec![4095; 12 * 384];
    assert!(written(&bayer, &[255], &set).is_ok());
    for i in [0, 1, 383, 384, 4607] {
        let old = std::mem::replace(&mut set[i], 4096);
        assert_eq!(written(&bayer, &[255], &set), named(i));
        set[i] = old;
    }
}

/// Each refusal with everything wrong that comes later, and what it leaves.
#[test]
fn order_of_refusals() {
    let header = lossy(14, false, 2);
    let good = header.bytes().to_vec();
    let (short, broken) = (good[..15].to_vec(), [&good[..4], &[13], &good[5..]].concat());
    let lossless = Header { lossless: 1, ..header }.bytes().to_vec();
    let longer = [&good[..], &[7; 9]].concat();
    let set = vec![500; 24 * 384];
    let mut high = set.clone();
    high[9] = 16_384;
    let high_fewer = high[..high.len() - 1].to_vec();
    let more = [&set[..], &[0]].concat();
    let all = Scratch { samples: vec![1; 6948], records: vec![Record { sum: 2, n: 2 }; 336] };
    let few = Scratch { samples: vec![1; 6947], ..all.clone() };
    let less = Scratch { records: vec![Record { sum: 2, n: 2 }; 335], ..all.clone() };
    let length = written(&header, &[3, 40], &set).unwrap().len();
    let (one, two, three) = (&[3][..], &[3, 40][..], &[3, 40, 5][..]);
    for (header, bases, set, scratch, room, answer) in [
        (&short, one, &high_fewer, &few, 0, refused(1, 0)),
        (&broken, one, &high_fewer, &few, 0, refused(2, 0)),
        (&lossless, one, &high_fewer, &few, 0, refused(16, 0)),
        (&lossless, &[], &set, &all, length, refused(16, 0)),
        (&lossless, two, &set, &all, length, refused(16, 0)),
        (&good, one, &high_fewer, &few, 0, refused(17, 0)),
        (&good, three, &high_fewer, &few, 0, refused(17, 0)),
        (&good, &[], &set, &all, length, refused(17, 0)),
        (&good, two, &high_fewer, &few, 0, refused(9, 0)),
        (&good, two, &more, &all, length, refused(9, 0)),
        (&good, two, &vec![], &all, length, refused(9, 0)),
        (&good, two, &high, &few, 0, refused(10, 0)),
        (&good, two, &high, &less, 0, refused(10, 0)),
        (&good, two, &high, &all, 0, refused(11, 9)),
        (&good, two, &set, &all, length - 1, refused(13, 0)),
        (&good, two, &set, &all, 0, refused(13, 0)),
        (&good, two, &set, &all, length, Ok(length)),
        (&longer, two, &set, &all, length + 3, Ok(length)),
    ] {
        let (mut out, mut lent) = (vec![0x77; room], scratch.clone());
        assert_eq!(write_lossy_with(&mut lent, header, bases, set, &mut out), answer);
        let number = answer.map_or_else(|e| e.number, |_| 0);
        if [1, 2, 16, 17, 9, 10].contains(&number) {
            assert!(lent == *scratch);
        } else {
            assert!(lent.samples.iter().all(|v| *v == 0) && lent.records.iter().all(|r| *r == Record { sum: 0, n: 1 }));
        }
        assert!(number == 0 || out.iter().all(|v| *v == 0x77));
    }
    // a lossy header is still none for the lossless writer
    assert_eq!(write_block(&good, &set, &mut [0; 9]), refused(8, 0));
}
