//! Buffers as C lends them: filled before a call, and looked at whole afterwards.
#![allow(dead_code)] // Each test program uses a part of it.
use fuji_compressed::Record;
use std::path::Path;

#[path = "../../src/ffi.rs"]
pub mod ffi;

pub const FINE: [usize; 4] = [0; 4];
pub const OLD: Record = Record { sum: 7, n: 9 };
pub const CLEARED: Record = Record { sum: 0, n: 1 };
pub const PATTERN: u16 = 0x5a5a;
pub const BAYER: [u8; 36] = [0, 1, 0, 1, 0, 1, 1, 2, 1, 2, 1, 2, 0, 1, 0, 1, 0, 1, 1, 2, 1, 2, 1, 2, 0, 1, 0, 1, 0, 1, 1, 2, 1, 2, 1, 2];
pub const XTRANS: [u8; 36] = [1, 1, 0, 1, 1, 2, 1, 1, 2, 1, 1, 0, 2, 0, 1, 0, 2, 1, 1, 1, 2, 1, 1, 0, 1, 1, 0, 1, 1, 2, 0, 2, 1, 2, 0, 1];

#[derive(Clone, PartialEq)]
pub struct Buffers {
    pub image: Vec<u16>,
    pub samples: Vec<u16>,
    pub records: Vec<Record>,
}

impl Buffers {
    pub fn new(image: Vec<u16>, samples: usize, records: usize) -> Buffers {
        Buffers { image, samples: vec![PATTERN; samples], records: vec![OLD; records] }
    }

    /// `fuji_decode_region_windowed`, or `fuji_decode_region`.
    pub fn region(&mut self, windowed: bool, d: &[u8], [x, y, w, h]: [usize; 4], tile: &[u8; 36]) -> [usize; 4] {
        let mut refusal = [usize::MAX; 4];
        let (i, s, r) = (&mut self.image, &mut self.samples, &mut self.records);
        let of = if windowed { ffi::fuji_decode_region_windowed } else { ffi::fuji_decode_region };
        let (image, samples, records) = (i.as_mut_ptr(), s.as_mut_ptr(), r.as_mut_ptr());
        unsafe { of(d.as_ptr(), d.len(), x, y, w, h, tile, image, i.len(), samples, s.len(), records, r.len(), &mut refusal) };
        refusal
    }

    /// The used part of scratch is cleared, and what follows it is as it was.
    pub fn scratch_is_cleared(&self, used: usize) -> bool {
        let samples = self.samples.iter().enumerate().all(|(i, v)| *v == if i < used { 0 } else { PATTERN });
        samples && self.records.iter().enumerate().all(|(i, v)| *v == if i < 336 { CLEARED } else { OLD })
    }
}

/// A prefill of the tables of known answers: a linear congruential generator of 64 bits, the high 16 of each number.
pub fn prefill(seed: u64, length: usize) -> Vec<u16> {
    let mut x = seed;
    let mut next = || {
        x = x.wrapping_mul(6_364_136_223_846_793_005).wrapping_add(1_442_695_040_888_963_407);
        (x >> 48) as u16
    };
    (0..length).map(|_| next()).collect()
}

/// FNV-1a, 64 bits.
pub fn fnv(bytes: impl IntoIterator<Item = u8>) -> u64 {
    bytes.into_iter().fold(0xcbf2_9ce4_8422_2325, |h, b| (h ^ b as u64).wrapping_mul(0x0100_0000_01b3))
}

/// That of the image's bytes, little-endian.
pub fn image_fnv(image: &[u16]) -> u64 {
    fnv(image.iter().flat_map(|v| v.to_le_bytes()))
}

pub fn sample_file(name: &str) -> Vec<u8> {
    let file = Path::new(env!("CARGO_MANIFEST_DIR")).join("../../samples").join(name);
    std::fs::read(file).unwrap()
}
