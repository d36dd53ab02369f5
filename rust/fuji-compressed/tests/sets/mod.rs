//! Sets of colour lines: read from a block, and what scratch is lent for them.
#![allow(dead_code)] // Each test program uses a part of it.
use common::stream::{Header, stream};
use fuji_compressed::{ColorTile, FujiCompressed, Record, Refusal, Scratch};

/// The colour lines of a set, in its order.
pub const FILLED: [usize; 12] = [2, 3, 4, 7, 8, 9, 10, 11, 12, 15, 16, 17];

pub fn refused(number: u32, index: usize) -> Result<usize, Refusal> {
    Err(Refusal { number, block: 0, line: 0, index })
}

pub fn width(header: &Header) -> usize {
    if header.raw_type == 16 { 512 } else { 384 }
}

/// Whether X-Trans interpolates index i of a set.
pub fn is_interpolated(i: usize) -> bool {
    let p = i % 512;
    match FILLED[i / 512 % 12] {
        2 | 15 | 9 | 12 => p % 2 == 0,
        3 | 17 => p % 4 == 0,
        16 | 4 => p % 4 == 2,
        _ => false,
    }
}

/// The set that is read from a block with these bases, none for a lossless one: tiles of one colour show its colour lines, each column of a place once.
pub fn read_set(header: &Header, bases: &[u8], block: &[u8]) -> Vec<u16> {
    let rows = if bases.is_empty() { vec![] } else { vec![bases.to_vec()] };
    let d = stream(header, &rows, &[block.to_vec()]);
    let opened = FujiCompressed::new(&d).unwrap();
    let (width, lines) = (width(header), header.lines as usize);
    let mut set = vec![0; 12 * width * lines];
    let columns: Vec<usize> = (0..width).map(|p| if header.raw_type == 16 { p / 2 * 3 + p % 2 } else { 2 * p }).collect();
    for (colour, rows, first) in [(0, [0, 2, 4].as_slice(), 0), (1, &[0, 1, 2, 3, 4, 5], 3), (2, &[0, 2, 4], 9)] {
        let tile: ColorTile = [[colour; 6]; 6];
        let mut image = vec![0; 768 * 6 * lines];
        opened.decode(&mut image, 768, 6 * lines as u32, &tile).unwrap();
        for n in 0..lines {
            for (i, row) in rows.iter().enumerate() {
                for (p, column) in columns.iter().enumerate() {
                    set[(12 * n + first + i) * width + p] = image[(6 * n + row) * 768 + column];
                }
            }
        }
    }
    set
}

/// What the encoder for tests is asked for: the samples of a set.
pub fn wanted(set: &[u16], width: usize) -> impl FnMut(usize, usize, usize) -> u16 {
    let set = set.to_vec();
    move |n, line, p| set[(12 * n + FILLED.iter().position(|&l| l == line).unwrap()) * width + p]
}

pub fn soiled() -> Scratch {
    Scratch { samples: vec![0xffff; 9300], records: vec![Record { sum: u32::MAX, n: 0 }; 340] }
}

pub fn is_cleared(scratch: &Scratch, xtrans: bool) -> bool {
    let used = if xtrans { 9252 } else { 6948 };
    let samples = scratch.samples.iter().enumerate().all(|(i, v)| *v == if i < used { 0 } else { 0xffff });
    let records = [Record { sum: 0, n: 1 }, Record { sum: u32::MAX, n: 0 }];
    samples && scratch.records.iter().enumerate().all(|(i, r)| *r == records[(i >= 336) as usize])
}
