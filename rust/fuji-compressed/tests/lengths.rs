//! The length that no tight block under a header exceeds, and lengths as C gets them: 0 where the call is refused.
use common::stream::Header;
use fuji_compressed::{FujiHeader, Record};

// Not all of its functions are asked here.
#[allow(dead_code)]
#[path = "../src/ffi.rs"]
mod ffi;

const FILL: usize = 0x5a5a;
const OLD: Record = Record { sum: 7, n: 9 };

fn bound(header: &[u8]) -> (usize, [usize; 4]) {
    let (mut length, mut refusal) = ([FILL; 1], [FILL; 4]);
    unsafe { ffi::fuji_length_bound(header.as_ptr(), header.len(), &mut length, &mut refusal) };
    (length[0], refusal)
}

/// The length and the refusal that measuring gives, and whether scratch of this size was left as it was.
fn measure(header: &[u8], set: &[u16], samples: usize, records: usize) -> (usize, [usize; 4], bool) {
    let (mut length, mut refusal) = ([FILL; 1], [FILL; 4]);
    let (mut samples, mut records) = (vec![FILL as u16; samples], vec![OLD; records]);
    unsafe {
        ffi::fuji_measure_block(
            header.as_ptr(),
            header.len(),
            set.as_ptr(),
            set.len(),
            samples.as_mut_ptr(),
            samples.len(),
            records.as_mut_ptr(),
            records.len(),
            &mut length,
            &mut refusal,
        )
    };
    (length[0], refusal, samples.iter().all(|v| *v == FILL as u16) && records.iter().all(|r| *r == OLD))
}

#[test]
fn bounds() {
    for (bits, line) in [(12, 27_648), (14, 32_256), (16, 36_864)] {
        for xtrans in [false, true] {
            for lines in [1, 2, 2731] {
                let header = Header::new(true, xtrans, bits, 792, lines);
                let length = lines as usize * line;
                assert_eq!(bound(&header.bytes()), (length, [0; 4]));
                assert_eq!(FujiHeader::parse(&header.bytes()).unwrap().length_bound(), Ok(length));
            }
        }
    }
    // the largest header, and bytes after a header, which do not count
    let largest = Header::new(true, true, 16, 12_288, 2731).bytes();
    assert_eq!(bound(&largest), (100_675_584, [0; 4]));
    assert_eq!(bound(&[&largest[..], &[0xff; 9]].concat()), (100_675_584, [0; 4]));
}

#[test]
fn headers_without_a_bound() {
    let good = Header::new(true, false, 14, 768, 1);
    let lossy = Header { lossless: 0, ..good };
    let broken = Header { bits: 13, ..lossy };
    for (header, number) in [(&broken.bytes()[..15], 1), (&[][..], 1), (&broken.bytes()[..], 2), (&lossy.bytes()[..], 8)] {
        assert_eq!(bound(header), (0, [number, 0, 0, 0]));
    }
    let lossy = FujiHeader::parse(&lossy.bytes()).unwrap();
    assert_eq!(lossy.length_bound().unwrap_err().number, 8);
    assert_eq!(FujiHeader { bits: 13, ..lossy }.length_bound().unwrap_err().number, 2);
    assert_eq!(FujiHeader { lines: 65_537, lossless: true, ..lossy }.length_bound().unwrap_err().number, 2);
}

/// One line of X-Trans zeros: each thing that is wrong with a call, with all later ones.
#[test]
fn refused_lengths_are_0() {
    let good = Header::new(true, true, 14, 768, 1);
    let (broken, lossy) = (Header { bits: 13, lossless: 0, ..good }, Header { lossless: 0, ..good });
    let zeros = vec![0; 12 * 512];
    let with = |changes: &[(usize, u16)]| {
        let mut set = zeros.clone();
        changes.iter().for_each(|(i, v)| set[*i] = *v);
        set
    };
    // index 0 is position 0 of line 2, which is interpolated; 512 that of line 3
    let both = with(&[(512, 1), (6143, 16_384)]);
    for (header, set, samples, records, refusal, kept) in [
        (&broken.bytes()[..15], &both[1..], 9251, 335, [1, 0, 0, 0], true),
        (&broken.bytes()[..], &both[1..], 9251, 335, [2, 0, 0, 0], true),
        (&lossy.bytes()[..], &both[1..], 9251, 335, [8, 0, 0, 0], true),
        (&good.bytes()[..], &both[1..], 9251, 335, [9, 0, 0, 0], true),
        (&good.bytes()[..], &both[..], 9251, 336, [10, 0, 0, 0], true),
        (&good.bytes()[..], &both[..], 9252, 335, [10, 0, 0, 0], true),
        (&good.bytes()[..], &both[..], 9252, 336, [11, 0, 0, 6143], false),
        (&good.bytes()[..], &with(&[(512, 1)])[..], 9252, 336, [12, 0, 0, 512], false),
        (&good.bytes()[..], &with(&[(0, 1)])[..], 9252, 336, [12, 0, 0, 0], false),
    ] {
        assert_eq!(measure(header, set, samples, records), (0, refusal, kept));
    }
    let (length, refusal, kept) = measure(&good.bytes(), &zeros, 9252, 336);
    assert!(length > 0 && length % 16 == 0 && length <= 32_256);
    assert_eq!((refusal, kept), ([0; 4], false));
}
