//! The sheet of short codes: sheets that a model of the rules made, every refusal, lists that are too short and too long, and one sheet for every
//! depth, k and length held against all strings that there are.
use common::sha256::digits;
use fuji_compressed::{Record, short_codes};

// Not all of its functions are asked here.
#[allow(dead_code)]
#[path = "../src/ffi.rs"]
mod ffi;

const FILL: u32 = 0x5a5a_5a5a;

/// The call as C makes it, with filled buffers: the refusal, the count, and the list.
fn asked(depth: u32, k: u32, length: u32, room: usize) -> ([usize; 4], usize, Vec<u32>) {
    let (mut list, mut count, mut refusal) = (vec![FILL; room], [9; 1], [9; 4]);
    unsafe { ffi::fuji_short_codes(depth, k, length, list.as_mut_ptr(), list.len(), &mut count, &mut refusal) };
    (refusal, count[0], list)
}

fn sheet(depth: u32, k: u32, length: u32) -> Vec<u32> {
    let mut list = vec![FILL; 40_000];
    let count = short_codes(depth, k, length, &mut list).unwrap();
    assert!(list[count..].iter().all(|v| *v == FILL));
    list.truncate(count);
    list
}

/// Depth, k and length; count; the first two entries and the last; the digest of the entries as big-endian words. By a model of the rules that was
/// written for this, in another language.
type Known = ((u32, u32, u32), usize, &'static [u32], u32, &'static str);
const KNOWN: [Known; 10] = [
    ((12, 0, 1), 1, &[65537], 65537, "76cc5805dab9b4eacefdb477"),
    ((12, 0, 3), 3, &[65537, 131073], 196609, "745442b25ba12e6c2b7ccbf7"),
    ((14, 0, 16), 16, &[65537, 131073], 1048577, "67f8d6d322e2c19808be010b"),
    ((14, 8, 8), 0, &[], 0, ""),
    ((14, 8, 9), 256, &[590080, 590081], 590335, "94839c38966a90808fa91b43"),
    ((14, 8, 16), 2048, &[590080, 590081], 1049087, "0fed323e140e54f3d264182d"),
    ((12, 12, 16), 4096, &[856064, 856065], 860159, "a980824f32aaac2d3d002798"),
    ((12, 13, 16), 4096, &[925696, 925697], 929791, "8ab79649ea8163db944ab643"),
    ((12, 15, 15), 0, &[], 0, ""),
    ((16, 15, 16), 32768, &[1081344, 1081345], 1114111, "931cc9440efd2525403bd82e"),
];

#[test]
fn known_sheets() {
    for ((depth, k, length), count, first, last, digest) in KNOWN {
        let list = sheet(depth, k, length);
        assert_eq!(list.len(), count, "{depth} {k} {length}");
        assert!(list.starts_with(first), "{depth} {k} {length}");
        assert_eq!(list.last().copied().unwrap_or(0), last, "{depth} {k} {length}");
        let bytes: Vec<u8> = list.iter().flat_map(|v| v.to_be_bytes()).collect();
        assert!(count == 0 || digits(&bytes, 24) == digest, "{depth} {k} {length}");
    }
}

/// Whether a string of so many bits is one tight lossless code, by the rules of reading: zeros up to a one, and k bits; below 2^depth, and no long code
/// has so few bits.
fn is_code(depth: u32, k: u32, bits: u32, value: u32) -> bool {
    let Some(zeros) = (bits - 1).checked_sub(value.checked_ilog2().unwrap_or(u32::MAX)) else { return false };
    let low = bits - 1 - zeros;
    low == k && ((zeros as u64) << k | (value & ((1 << k) - 1)) as u64) < 1 << depth
}

#[test]
fn every_string_stands_once_and_in_order() {
    for depth in [12, 14, 16] {
        for k in 0..=15 {
            let all: Vec<u32> = (1..=16)
                .flat_map(|bits| (0..1u32 << bits).filter(move |v| is_code(depth, k, bits, *v)).map(move |v| 65_536 * bits + v))
                .collect();
            for length in 1..=16 {
                let want: Vec<u32> = all.iter().copied().take_while(|e| e / 65_536 <= length).collect();
                assert_eq!(sheet(depth, k, length), want, "{depth} {k} {length}");
            }
        }
    }
}

#[test]
fn outside_is_refused_first() {
    let refused = [(13, 0, 1), (12, 16, 16), (12, 0, 0), (12, 0, 17), (0, 0, 1), (11, 0, 1), (15, 3, 9), (17, 0, 1), (12, u32::MAX, 16)];
    let more = [(12, 0, u32::MAX), (u32::MAX, u32::MAX, u32::MAX), (13, 16, 0)];
    for (depth, k, length) in refused.into_iter().chain(more) {
        for room in [0, 1, 40_000] {
            assert_eq!(asked(depth, k, length, room), ([24, 0, 0, 0], 0, vec![FILL; room]), "{depth} {k} {length} {room}");
        }
    }
    let said = short_codes(13, 0, 1, &mut []).unwrap_err().to_string();
    assert_eq!(said, "refusal 24: the depth is not 12, 14 or 16, k is above 15, or the length is not 1 to 16");
}

#[test]
fn short_exact_and_long_lists() {
    let whole = sheet(14, 8, 9);
    for room in [0, 1, 255] {
        assert_eq!(asked(14, 8, 9, room), ([0; 4], 256, vec![FILL; room]), "{room}");
    }
    assert_eq!(asked(14, 8, 9, 256), ([0; 4], 256, whole.clone()));
    let (refusal, count, list) = asked(14, 8, 9, 300);
    assert_eq!((refusal, count), ([0; 4], 256));
    assert_eq!((&list[..256], &list[256..]), (&whole[..], &[FILL; 44][..]));
    // A sheet with no string needs no list, and writes to none.
    assert_eq!(asked(12, 15, 15, 0), ([0; 4], 0, vec![]));
    assert_eq!(asked(12, 15, 15, 3), ([0; 4], 0, vec![FILL; 3]));
}
