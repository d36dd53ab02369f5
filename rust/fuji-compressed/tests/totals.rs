//! Bits and long codes of blocks: known sets, cut and bad blocks, lines that end past the block's end, every refusal, and what a caller in C gets.
use common::encoder::{Encoded, How, Spoil, encode_spoilt};
use common::pictures::scene;
use common::random::{Random, congruential};
use common::sha256::digits;
use common::stream::{Header, stream};
use fuji_compressed::{Counted, FujiCompressed, Record, Refusal, Scratch, Totals};

/// The colour lines of a set, in its order.
const FILLED: [usize; 12] = [2, 3, 4, 7, 8, 9, 10, 11, 12, 15, 16, 17];

fn counted(answer: Result<(), Refusal>, bits: u64, long_codes: u64) -> Counted {
    Counted { answer, totals: Totals { bits, long_codes } }
}

fn refused(number: u32, line: usize) -> Result<(), Refusal> {
    Err(Refusal { number, block: 0, line, index: 0 })
}

/// The block of a set, of which each sample is raised by `off`.
fn of_set(bits: u8, xtrans: bool, bases: &[u8], lines: usize, set: &[u16], off: u16, spoil: Option<Spoil>) -> Encoded {
    let width = if xtrans { 512 } else { 384 };
    let mut want = |n: usize, line: usize, p: usize| set[(12 * n + FILLED.iter().position(|&l| l == line).unwrap()) * width + p] + off;
    encode_spoilt(bits as u32, xtrans, bases, lines, &mut want, spoil)
}

/// What both readings say of the one block of a stream, lossless if there are no bases. Both leave soiled scratch cleared.
fn read(bits: u8, xtrans: bool, bases: &[u8], lines: usize, block: &[u8]) -> [Counted; 2] {
    let rows = if bases.is_empty() { vec![] } else { vec![bases.to_vec()] };
    let d = stream(&Header::new(bases.is_empty(), xtrans, bits, 768, lines as u16), &rows, &[block.to_vec()]);
    let opened = FujiCompressed::new(&d).unwrap();
    let soiled = Scratch { samples: vec![77; 9300], records: vec![Record { sum: 3, n: 0 }; 340] };
    let used = if xtrans { 9252 } else { 6948 };
    [false, true].map(|tight| {
        let mut scratch = soiled.clone();
        let answer = if tight { opened.read_tight_with(&mut scratch, 0) } else { opened.read_block_with(&mut scratch, 0) };
        if tight && !bases.is_empty() {
            assert!(scratch == soiled);
            return answer;
        }
        assert!(scratch.samples.iter().enumerate().all(|(i, v)| *v == if i < used { 0 } else { 77 }));
        let clear = |i| if i < 336 { Record { sum: 0, n: 1 } } else { Record { sum: 3, n: 0 } };
        assert!(scratch.records.iter().enumerate().all(|(i, r)| *r == clear(i)));
        answer
    })
}

/// Sets whose bits and long codes an independent model of the rules has counted.
#[test]
fn known_sets() {
    let known: [(u8, bool, usize, Option<u32>, u32, u64, u64); 9] = [
        (12, false, 1, None, 1, 5328, 0),
        (14, false, 1, None, 1, 6660, 0),
        (16, false, 1, None, 1, 8760, 0),
        (12, true, 3, None, 1, 14544, 0),
        (14, false, 1, Some(1), 1 << 14, 68542, 24),
        (14, false, 2, Some(2), 1 << 14, 135865, 29),
        (14, false, 2, Some(3), 64, 63190, 0),
        (16, true, 1, Some(1), 1 << 16, 77695, 19),
        (12, true, 2, Some(2), 1 << 12, 119237, 70),
    ];
    for (bits, xtrans, lines, seed, below, used, long_codes) in known {
        let count = lines * 12 * if xtrans { 512 } else { 384 };
        let set = seed.map_or_else(|| vec![0; count], |seed| congruential(seed, below, count));
        let made = of_set(bits, xtrans, &[], lines, &set, 0, None);
        assert_eq!((made.used, made.long_codes), (used as usize, long_codes as usize));
        assert_eq!(read(bits, xtrans, &[], lines, &made.bytes), [counted(Ok(()), used, long_codes); 2]);
    }
}

/// Lossy ones, with the first digits of the block's SHA-256. The tight reading refuses them, and counts nothing.
#[test]
fn known_lossy_sets() {
    type Known = (u8, bool, &'static [u8], u32, u32, u16, u64, u64, &'static str);
    let known: [Known; 8] = [
        (12, false, &[0], 11, 1 << 12, 0, 60140, 46, "f114664c5e44ebb402e6732a"),
        (12, false, &[1, 1], 12, 1 << 12, 0, 104369, 32, "93c0ce37566831ba4b0efd41"),
        (14, false, &[3, 3, 0], 13, 64, 0, 71589, 0, "4e1d0e232620d9be736c047b"),
        (14, true, &[3, 3, 0], 13, 64, 0, 73024, 0, "b5f12661e14521a640ea2fe3"),
        (16, false, &[255, 2], 14, 1 << 16, 0, 109288, 19, "2528bb076f8cb8f8ae322a98"),
        (16, true, &[7, 7, 40], 15, 300, 0, 65134, 0, "81f02e4970390a18b0752483"),
        (12, false, &[3, 3, 5, 5], 501, 12, 1000, 54209, 3, "7687d14b37bd9b907a1d4aff"),
        (14, true, &[1, 2, 2, 9], 502, 7, 8000, 89910, 5, "0faa450dec0f0d32c9619c17"),
    ];
    for (bits, xtrans, bases, seed, below, off, used, long_codes, digest) in known {
        let set = congruential(seed, below, bases.len() * 12 * if xtrans { 512 } else { 384 });
        let made = of_set(bits, xtrans, bases, bases.len(), &set, off, None);
        assert_eq!(digits(&made.bytes, 24), digest);
        assert_eq!(read(bits, xtrans, bases, bases.len(), &made.bytes), [counted(Ok(()), used, long_codes), counted(refused(8, 0), 0, 0)]);
    }
}

/// One set of two lines, its first line of 68,619 bits with 25 long codes: whole, cut, with a bad code, and with both.
#[test]
fn cut_and_bad_blocks() {
    let set = congruential(2, 1 << 14, 2 * 12 * 384);
    let made = |from| of_set(14, false, &[], 2, &set, 0, from_spoil(from)).bytes;
    let (whole, early, late) = (made(None), made(Some(100)), made(Some(4708)));
    assert_eq!(whole.len(), 16_992);
    let longer = [&whole[..], &[0; 16]].concat();
    let line_0 = |answer| counted(answer, 68_619, 25);
    let cases = [
        (&whole[..], counted(Ok(()), 135_865, 29)),
        (&whole[..8_000], counted(refused(14, 0), 0, 0)),
        (&whole[..12_000], line_0(refused(14, 1))),
        (&[], counted(refused(14, 0), 0, 0)),
        (&longer, counted(refused(15, 2), 135_865, 29)),
        (&early, counted(refused(15, 0), 0, 0)),
        (&late, line_0(refused(15, 1))),
        (&late[..12_000], line_0(refused(14, 1))),
        (&early[..12_000], counted(refused(14, 1), 68_742, 28)),
    ];
    for (i, (block, tight)) in cases.into_iter().enumerate() {
        let [ordinary, strict] = read(14, false, &[], 2, block);
        assert_eq!(strict, tight, "case {i}");
        // The ordinary reading knows no bad code: it counts all lines of what it accepts.
        match tight.answer.map_err(|e| e.number) {
            Err(15) => assert!(ordinary.answer.is_ok() && ordinary.totals.bits > 134_000 && ordinary.totals.long_codes >= 29, "case {i}"),
            _ => assert_eq!(ordinary, tight, "case {i}"),
        }
    }
}

fn from_spoil(from: Option<usize>) -> Option<Spoil> {
    from.map(|from| Spoil { from, how: How::Two })
}

/// Blocks of every form, against the count of the encoder; and with each kind of bad code in the second line, up to which is counted.
#[test]
fn as_the_encoder_counts() {
    for (bits, xtrans) in [(12, false), (14, false), (16, false), (12, true), (14, true), (16, true)] {
        for kind in 0..5 {
            let block = |lines, spoil| {
                let mut random = Random::new(bits as u64 + kind);
                let mut want = |n, line, p| scene(kind, (1 << bits) - 1, n, line, p, &mut random);
                encode_spoilt(bits as u32, xtrans, &[], lines, &mut want, spoil)
            };
            let (one, two) = (block(1, None), block(2, None));
            let of = |answer, made: &Encoded| counted(answer, made.used as u64, made.long_codes as u64);
            assert_eq!(read(bits, xtrans, &[], 2, &two.bytes), [of(Ok(()), &two); 2]);
            for how in [How::Escape, How::Zero, How::Large, How::Two] {
                let bad = block(2, Some(Spoil { from: 4608, how }));
                if bad.spoilt {
                    assert_eq!(
                        read(bits, xtrans, &[], 2, &bad.bytes),
                        [of(Ok(()), &bad), of(refused(15, 1), &one)],
                        "{bits} {xtrans} {kind} {how:?}"
                    );
                }
            }
        }
    }
}

/// A line may end 1 to 7 bits past the block's end, where zero bits are missing. It is accepted and counted, and the bits are then more than the
/// block has: as the last line, which the tight reading refuses for its tail, and as the line before one that is truncated.
#[test]
fn lines_that_end_past_the_block() {
    let mut seen = [false; 8];
    for v in 0..16 * 4096 {
        let made = |lines| {
            let mut random = Random::new(1 + v % 997);
            let last = move |n, line, p| (n, line, p) == (0, 17, 383);
            let mut want = |n, line, p| if last(n, line, p) { (v % 4096) as u16 } else { scene(2, 4095, n, line, p, &mut random) };
            encode_spoilt(12, false, &[], lines, &mut want, None)
        };
        let one = made(1);
        let (whole, past) = (one.used / 8, one.used % 8);
        if past == 0 || one.bytes[whole] != 0 || seen[past] {
            continue;
        }
        seen[past] = true;
        let of = |answer| counted(answer, one.used as u64, one.long_codes as u64);
        assert_eq!(read(12, false, &[], 1, &one.bytes[..whole]), [of(Ok(())), of(refused(15, 1))], "{past} bits");
        assert_eq!(read(12, false, &[], 2, &made(2).bytes[..whole]), [of(refused(14, 1)); 2], "{past} bits");
        if seen[1..] == [true; 7] {
            return;
        }
    }
    panic!("not all numbers of bits were seen: {seen:?}");
}

/// Eight bits past the end are truncation, though every code of the line is read: its last eight bits are zeros, which follow the block's end too.
#[test]
fn a_line_that_ends_eight_bits_past_the_block() {
    for v in 0..64 * 4096 {
        let mut random = Random::new(1 + v % 997);
        let last = |n, line, p| (n, line, p) == (0, 17, 383);
        let mut want = |n, line, p| if last(n, line, p) { (v % 4096) as u16 } else { scene(2, 4095, n, line, p, &mut random) };
        let one = encode_spoilt(12, false, &[], 1, &mut want, None);
        let whole = one.used / 8;
        if one.used % 8 != 0 || one.bytes[whole - 1] != 0 {
            continue;
        }
        let of = |answer| counted(answer, one.used as u64, one.long_codes as u64);
        assert_eq!(read(12, false, &[], 1, &one.bytes[..whole])[0], of(Ok(())));
        assert_eq!(read(12, false, &[], 1, &one.bytes[..whole - 1]), [counted(refused(14, 0), 0, 0); 2]);
        return;
    }
    panic!("no line ends so");
}

unsafe extern "C" {
    fn fuji_read_block(
        stream: *const u8,
        stream_length: usize,
        block: usize,
        scratch: *mut u16,
        scratch_length: usize,
        records: *mut Record,
        records_length: usize,
        totals: *mut [usize; 2],
        refusal: *mut [usize; 4],
    );
    fn fuji_read_tight(
        stream: *const u8,
        stream_length: usize,
        block: usize,
        scratch: *mut u16,
        scratch_length: usize,
        records: *mut Record,
        records_length: usize,
        totals: *mut [usize; 2],
        refusal: *mut [usize; 4],
    );
}

/// What a caller in C gets, whatever its numbers were before.
fn told(tight: bool, d: &[u8], block: usize, scratch: &mut Scratch) -> ([usize; 2], [usize; 4]) {
    let (mut totals, mut refusal) = ([7; 2], [9; 4]);
    let of = if tight { fuji_read_tight } else { fuji_read_block };
    let (samples, records) = (&mut scratch.samples, &mut scratch.records);
    unsafe {
        of(d.as_ptr(), d.len(), block, samples.as_mut_ptr(), samples.len(), records.as_mut_ptr(), records.len(), &mut totals, &mut refusal)
    };
    (totals, refusal)
}

/// Refusals 1 to 5, 8 and 10 leave scratch as it was, and no number of an earlier call.
#[test]
fn refused_before_reading() {
    let set = congruential(1, 1 << 14, 12 * 384);
    let lossless = stream(&Header::new(true, false, 14, 768, 1), &[], &[of_set(14, false, &[], 1, &set, 0, None).bytes]);
    let bases = [vec![2]];
    let lossy = stream(&Header::new(false, false, 14, 768, 1), &bases, &[of_set(14, false, &bases[0], 1, &set, 0, None).bytes]);
    let mut broken = lossless.clone();
    broken[4] = 13;
    for tight in [false, true] {
        let mut scratch = Scratch::new();
        assert_eq!(told(tight, &lossless, 0, &mut scratch), ([68_542, 24], [0; 4]));
        let cases: [(&[u8], usize, usize, usize, usize); 8] = [
            (&lossless[..15], 0, 9252, 336, 1),
            (&broken, 0, 9252, 336, 2),
            (&lossless[..19], 0, 9252, 336, 3),
            (&lossy[..32], 0, 9252, 336, 4),
            (&lossless, 1, 9252, 336, 5),
            (&lossy, 1, 0, 0, 5),
            (&lossless, 0, 6947, 336, 10),
            (&lossless, 0, 6948, 335, 10),
        ];
        for (d, block, samples, records, number) in cases {
            let before = Scratch { samples: vec![9; samples], records: vec![Record { sum: 5, n: 5 }; records] };
            let mut scratch = before.clone();
            assert_eq!(told(tight, d, block, &mut scratch), ([0, 0], [number, 0, 0, 0]), "{tight}");
            assert!(scratch == before);
        }
        let before = Scratch { samples: vec![9; 6947], records: vec![Record { sum: 5, n: 5 }; 336] };
        let mut scratch = before.clone();
        let number = if tight { 8 } else { 10 };
        assert_eq!(told(tight, &lossy, 0, &mut scratch), ([0, 0], [number, 0, 0, 0]));
        assert!(scratch == before);
    }
}
