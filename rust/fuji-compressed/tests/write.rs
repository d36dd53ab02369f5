//! The writer: it writes the block that the encoder for tests writes, whatever the buffers held; each refusal at its limit and together. Measuring is
//! asked beside it: it answers the same, but for a short output.
mod sets;

use common::encoder::{encode, encode_spoilt};
use common::random::{Random, congruential};
use common::sha256::digits;
use common::stream::{Header, stream};
use fuji_compressed::{FujiCompressed, Record, Refusal, Scratch, measure_block, measure_block_with, write_block, write_block_with};
use sets::{FILLED, is_cleared, is_interpolated, read_set, refused, soiled, wanted};

/// A set that fits, and its block as the encoder makes it. X-Trans interpolates, so that the set is what is read from the block.
struct Written {
    header: Header,
    set: Vec<u16>,
    block: Vec<u8>,
}

fn sample(kind: u64, largest: u64, n: usize, line: usize, p: usize, random: &mut Random) -> u16 {
    let v = match kind % 6 {
        0 => random.below(largest + 1),
        1 => largest / 3 + (p as u64 / 5 + 6 * n as u64 + line as u64) % 40 + random.below(3),
        2 => 0,
        3 => largest,
        4 => {
            if (p + line) % 2 == 0 {
                0
            } else {
                largest
            }
        }
        _ => {
            if random.below(50) == 0 {
                largest - random.below(3)
            } else {
                random.below(4)
            }
        }
    };
    v as u16
}

impl Written {
    fn new(bits: u8, xtrans: bool, lines: usize, kind: u64) -> Written {
        let header = Header::new(true, xtrans, bits, 768, lines as u16);
        let mut random = Random::new(1 + kind + 100 * lines as u64);
        let mut want = |n, line, p| sample(kind, (1 << bits) - 1, n, line, p, &mut random);
        let block = encode(bits as u32, xtrans, &[], lines, &mut want);
        let set = read_set(&header, &[], &block);
        Written { header, set, block }
    }
}

/// What measuring answers, with soiled scratch, which is cleared then.
fn measured(header: &Header, set: &[u16]) -> Result<usize, Refusal> {
    let mut scratch = soiled();
    let answer = measure_block_with(&mut scratch, &header.bytes(), set);
    assert!(is_cleared(&scratch, header.raw_type == 16));
    answer
}

#[test]
fn what_is_written_is_the_tight_block() {
    for (bits, xtrans) in [(12, false), (14, false), (16, false), (12, true), (14, true), (16, true)] {
        for (lines, kind) in [(1, 0), (2, 1), (3, 2), (3, 3), (4, 4), (5, 5), (30, 1)] {
            let w = Written::new(bits, xtrans, lines, kind);
            let length = w.block.len();
            for more in [0, 1, 100] {
                let mut out = vec![0xa5; length + more];
                let mut scratch = soiled();
                assert_eq!(write_block_with(&mut scratch, &w.header.bytes(), &w.set, &mut out), Ok(length));
                assert!(out[..length] == w.block && out[length..].iter().all(|v| *v == 0xa5), "{bits} {xtrans} {lines} {kind}");
                assert!(is_cleared(&scratch, xtrans));
            }
            let mut short = vec![0xa5; length - 1];
            let mut scratch = soiled();
            assert_eq!(write_block_with(&mut scratch, &w.header.bytes(), &w.set, &mut short), refused(13, 0));
            assert!(short.iter().all(|v| *v == 0xa5) && is_cleared(&scratch, xtrans));
            assert_eq!(measured(&w.header, &w.set), Ok(length));
            assert!(length <= lines * 2304 * bits as usize);
            // it is tight, and reads back
            let d = stream(&w.header, &[], &[w.block.clone()]);
            assert_eq!(FujiCompressed::new(&d).unwrap().read_tight(0).answer, Ok(()));
        }
    }
}

/// Sets whose blocks an independent model of the rules has made: samples by a linear congruential generator from a seed, or zeros; of each the
/// bits of its codes, the block's length, and the first digits of the block's SHA-256.
#[test]
fn blocks_of_known_sets() {
    let known: [(u8, bool, usize, Option<u32>, u32, usize, usize, &str); 8] = [
        (12, false, 1, None, 1, 5328, 672, "c670d9742f396c16fcdc5f5f"),
        (14, false, 1, None, 1, 6660, 848, "c59897c9e4a4c7785c901a34"),
        (16, false, 1, None, 1, 8760, 1104, "c1ac0ce796e6d98f77115607"),
        (12, true, 3, None, 1, 14544, 1824, "d53bb109ad354d3404cdd2d3"),
        (14, false, 1, Some(1), 1 << 14, 68542, 8576, "6c09048552b47c8956293c77"),
        (14, false, 2, Some(3), 64, 63190, 7904, "96ea613089696ba378e3719c"),
        (16, true, 1, Some(1), 1 << 16, 77695, 9712, "7175319d246a50e5faff3225"),
        (12, true, 2, Some(2), 1 << 12, 119237, 14912, "cb226d54d03fbff62abcdf3b"),
    ];
    for (bits, xtrans, lines, seed, below, used, length, digest) in known {
        let width = if xtrans { 512 } else { 384 };
        let count = 12 * width * lines;
        let samples = seed.map_or_else(|| vec![0; count], |seed| congruential(seed, below, count));
        // the encoder puts predictions where samples are interpolated
        let made = encode_spoilt(bits as u32, xtrans, &[], lines, &mut wanted(&samples, width), None);
        let header = Header::new(true, xtrans, bits, 768, lines as u16);
        let set = read_set(&header, &[], &made.bytes);
        for old in [0, 0xff] {
            let mut out = vec![old; length + 1];
            assert_eq!(write_block(&header.bytes(), &set, &mut out), Ok(length));
            assert_eq!((made.used, digits(&out[..length], 24).as_str(), out[length]), (used, digest, old));
        }
        let mut short = vec![0xa5; length - 1];
        assert_eq!(write_block(&header.bytes(), &set, &mut short), refused(13, 0));
        assert!(short.iter().all(|v| *v == 0xa5));
        assert_eq!(measured(&header, &set), Ok(length));
    }
}

#[test]
fn samples_above_the_largest() {
    let w = Written::new(12, false, 2, 1);
    let last = w.set.len() - 1;
    for bad in [vec![0], vec![last], vec![5000, 7], vec![last, 4000]] {
        let mut set = w.set.clone();
        for i in &bad {
            set[*i] = 4096;
        }
        let (mut out, mut scratch) = (vec![3; 10_000], soiled());
        assert_eq!(write_block_with(&mut scratch, &w.header.bytes(), &set, &mut out), refused(11, *bad.iter().min().unwrap()));
        assert!(out.iter().all(|v| *v == 3) && is_cleared(&scratch, false));
        assert_eq!(measured(&w.header, &set), refused(11, *bad.iter().min().unwrap()));
    }
    let mut set = w.set.clone();
    set[last] = 4095;
    let written = write_block(&w.header.bytes(), &set, &mut [0; 20_000]);
    assert!(written.is_ok());
    assert_eq!(measured(&w.header, &set), written);
}

#[test]
fn interpolated_samples_that_are_not_their_prediction() {
    let w = Written::new(14, true, 2, 1);
    let mut seen = 0;
    for i in (0..w.set.len()).step_by(97) {
        let mut set = w.set.clone();
        set[i] ^= 1;
        let (mut out, mut scratch) = (vec![3; 60_000], soiled());
        let answer = write_block_with(&mut scratch, &w.header.bytes(), &set, &mut out);
        assert!(is_cleared(&scratch, true));
        assert_eq!(measured(&w.header, &set), answer);
        if is_interpolated(i) {
            seen += 1;
            assert_eq!(answer, refused(12, i));
            assert!(out.iter().all(|v| *v == 3));
            // it comes before an output that is too short
            assert_eq!(write_block(&w.header.bytes(), &set, &mut []), refused(12, i));
            // a sample above the largest comes first, wherever it stands
            set[w.set.len() - 1] = 20_000;
            assert_eq!(write_block(&w.header.bytes(), &set, &mut out), refused(11, w.set.len() - 1));
            assert_eq!(measured(&w.header, &set), refused(11, w.set.len() - 1));
        }
    }
    assert!(seen > 20);
}

/// Of two wrong samples the first in coding order is named, whichever index is lower.
#[test]
fn the_first_wrong_sample_in_coding_order() {
    let w = Written::new(14, true, 2, 1);
    let at = |n: usize, line: usize, p: usize| (12 * n + FILLED.iter().position(|&l| l == line).unwrap()) * 512 + p;
    // Line 15 is read in the second pass, line 3 in the third; line 16 in the fourth, line 4 in the fifth. In the last pass position 0 of line 17 comes
    // before position 2 of line 12. A line of six rows is read before the next one.
    let pairs = [((0, 15, 6), (0, 3, 4)), ((0, 17, 0), (0, 12, 2)), ((0, 17, 508), (1, 2, 0)), ((1, 16, 2), (1, 4, 2))];
    for ((n, line, p), (later_n, later_line, later_p)) in pairs {
        let (first, later) = (at(n, line, p), at(later_n, later_line, later_p));
        let mut set = w.set.clone();
        set[first] ^= 1;
        set[later] ^= 1;
        let mut out = vec![0xA5; w.block.len() + 9];
        assert_eq!(write_block(&w.header.bytes(), &set, &mut out), refused(12, first));
        assert!(out.iter().all(|&b| b == 0xA5));
        assert_eq!(measured(&w.header, &set), refused(12, first));
    }
}

#[test]
fn refusals_before_the_set_is_looked_at() {
    let w = Written::new(14, false, 1, 0);
    let good = w.header.bytes();
    let (short, broken) = (good[..15].to_vec(), [&good[..4], &[13], &good[5..]].concat());
    let lossy = Header { lossless: 0, ..w.header }.bytes().to_vec();
    let fewer = w.set[1..].to_vec();
    let more = [&w.set[..], &[0]].concat();
    let mut high = w.set.clone();
    high[9] = 16384;
    let mut high_fewer = high.clone();
    high_fewer.pop();
    let all = Scratch { samples: vec![1; 6948], records: vec![Record { sum: 2, n: 2 }; 336] };
    let few = Scratch { samples: vec![1; 6947], ..all.clone() };
    let less = Scratch { records: vec![Record { sum: 2, n: 2 }; 335], ..all.clone() };
    for (header, set, scratch, room, answer) in [
        (&short, &fewer, &few, 0, refused(1, 0)),
        (&broken, &fewer, &few, 0, refused(2, 0)),
        (&lossy, &fewer, &few, 0, refused(8, 0)),
        (&good.to_vec(), &fewer, &few, 0, refused(9, 0)),
        (&good.to_vec(), &more, &all, 0, refused(9, 0)),
        (&good.to_vec(), &high_fewer, &all, 0, refused(9, 0)),
        (&good.to_vec(), &vec![], &all, 0, refused(9, 0)),
        (&good.to_vec(), &high, &few, 0, refused(10, 0)),
        (&good.to_vec(), &high, &less, 0, refused(10, 0)),
        (&good.to_vec(), &high, &all, 0, refused(11, 9)),
        (&good.to_vec(), &w.set, &all, 0, refused(13, 0)),
        (&good.to_vec(), &w.set, &all, w.block.len(), Ok(w.block.len())),
        (&[&good[..], &[7; 9]].concat(), &w.set, &all, w.block.len(), Ok(w.block.len())),
    ] {
        let (mut out, mut lent) = (vec![0x77; room], scratch.clone());
        assert_eq!(write_block_with(&mut lent, header, set, &mut out), answer);
        let number = answer.map_or_else(|e| e.number, |_| 0);
        assert_eq!(lent == *scratch, (1..=10).contains(&number));
        if number != 0 {
            assert!(out.iter().all(|v| *v == 0x77));
        }
        // measuring needs no output
        let exact = if number == 13 { Ok(w.block.len()) } else { answer };
        let mut lent = scratch.clone();
        assert_eq!(measure_block_with(&mut lent, header, set), exact);
        assert_eq!(lent == *scratch, (1..=10).contains(&number));
    }
}

/// Bayer sets of two lines in which 0 and the largest sample take turns, measured by an independent model of the rules.
#[test]
fn lengths_of_loud_sets() {
    for (bits, length) in [(12, 8928), (14, 10_192), (16, 11_568)] {
        let header = Header::new(true, false, bits, 768, 2);
        let largest = ((1u32 << bits) - 1) as u16;
        let line = |line: usize| (0..384).map(move |p| if (p + line) % 2 == 0 { 0 } else { largest });
        let set: Vec<u16> = (0..2).flat_map(|_| FILLED.into_iter().flat_map(line)).collect();
        assert_eq!(measure_block(&header.bytes(), &set), Ok(length));
        assert_eq!(write_block(&header.bytes(), &set, &mut vec![0; length]), Ok(length));
    }
}

/// Bytes that read as a tight block are written back byte for byte.
#[test]
fn tight_blocks_are_written_back() {
    let header = Header::new(true, false, 12, 768, 1);
    let mut random = Random::new(8);
    let mut found = 0;
    for kind in 0..6 {
        let good = encode(12, false, &[], 1, &mut |n, line, p| sample(kind, 4095, n, line, p, &mut random));
        for bit in (0..8 * good.len()).step_by(61) {
            let mut block = good.clone();
            block[bit / 8] ^= 1 << (bit % 8);
            let d = stream(&header, &[], &[block.clone()]);
            if FujiCompressed::new(&d).unwrap().read_tight(0).answer.is_err() {
                continue;
            }
            found += 1;
            let mut out = vec![9; block.len()];
            assert_eq!(write_block(&header.bytes(), &read_set(&header, &[], &block), &mut out), Ok(block.len()));
            assert!(out == block, "bit {bit} flipped");
        }
    }
    assert!(found > 50, "{found}");
}
