//! What the port writes, decoded by the original: its colour lines, through tiles of one colour, are the set that was written, or with bases come as near to it as they
//! say.
use common::encoder::encode;
use common::pictures::scene;
use common::random::Random;
use common::stream::{Header, stream};
use fuji_compressed::{write_block, write_lossy};
use original::fuji_compressed::FujiCompressed;

/// The set that the original reads from a block, with bases if it is lossy.
fn read_set(header: &Header, bases: &[u8], block: &[u8]) -> Result<Vec<u16>, String> {
    let rows = if bases.is_empty() { vec![] } else { vec![bases.to_vec()] };
    let d = stream(header, &rows, &[block.to_vec()]);
    let opened = FujiCompressed::new(&d).map_err(|_| "the original does not open the stream")?;
    let xtrans = header.raw_type == 16;
    let (width, lines) = (if xtrans { 512 } else { 384 }, header.lines as usize);
    let mut set = vec![0; 12 * width * lines];
    for (colour, step, first) in [(0, 2, 0), (1, 1, 3), (2, 2, 9)] {
        let mut image = vec![0; 768 * 6 * lines];
        let decoded = opened.decode(&mut image, 768, 6 * lines as u32, &[[colour; 6]; 6], false);
        decoded.map_err(|_| "the original refuses the block")?;
        for (row, samples) in image.chunks(768).enumerate().filter(|(row, _)| row % step == 0) {
            let to = (12 * (row / 6) + first + row % 6 / step) * width;
            for p in 0..width {
                set[to + p] = samples[if xtrans { p / 2 * 3 + p % 2 } else { 2 * p }];
            }
        }
    }
    Ok(set)
}

/// A set that fits: any samples for Bayer, what is read from a block of the encoder for X-Trans.
fn made(header: &Header, random: &mut Random) -> Result<Vec<u16>, String> {
    let (largest, lines, kind) = ((1 << header.bits) - 1, header.lines as usize, random.below(5));
    if header.raw_type == 16 {
        let block = encode(header.bits as u32, true, &[], lines, &mut |n, line, p| scene(kind, largest, n, line, p, random));
        return read_set(header, &[], &block);
    }
    Ok((0..12 * 384 * lines).map(|i| scene(kind, largest, i / 4608, i / 384 % 12, i % 384, random)).collect())
}

/// Lossless and lossy by turns.
fn one(number: u64, random: &mut Random) -> Result<(), String> {
    if number % 2 == 0 { lossless(random) } else { lossy(random) }
}

/// Whether X-Trans interpolates index i of a set.
fn is_interpolated(i: usize) -> bool {
    match [2, 3, 4, 7, 8, 9, 10, 11, 12, 15, 16, 17][i / 512 % 12] {
        2 | 15 | 9 | 12 => i % 2 == 0,
        3 | 17 => i % 4 == 0,
        16 | 4 => i % 4 == 2,
        _ => false,
    }
}

/// Any set, also with samples above the largest where they are ignored: what has a code reads back within its line's base.
fn lossy(random: &mut Random) -> Result<(), String> {
    let (xtrans, bits, lines) = (random.chance(2), random.pick(&[12, 14, 16]), 1 + random.below(6) as u16);
    let header = Header::new(false, xtrans, bits, 768, lines);
    let (width, kind, most) = (if xtrans { 512 } else { 384 }, random.below(5), random.pick(&[4, 12, 256]));
    let bases: Vec<u8> = (0..lines).map(|_| random.below(most) as u8).collect();
    let ignored = |i: usize| xtrans && is_interpolated(i);
    let set: Vec<u16> = (0..12 * width * lines as usize)
        .map(|i| match ignored(i) {
            true => random.number() as u16,
            false => scene(kind, (1 << bits) - 1, i / (12 * width), i / width % 12, i % width, random),
        })
        .collect();
    let mut out = vec![0x5a; lines as usize * 2304 * bits as usize];
    let length = write_lossy(&header.bytes(), &bases, &set, &mut out).map_err(|e| e.to_string())?;
    let back = read_set(&header, &bases, &out[..length])?;
    let off = |i: &usize| !ignored(*i) && set[*i].abs_diff(back[*i]) > bases[i / (12 * width)] as u16;
    match (0..set.len()).find(off) {
        Some(i) => Err(format!("{header:?}, {bases:?}: sample {i}, {}, is read by the original as {}", set[i], back[i])),
        None => Ok(()),
    }
}

fn lossless(random: &mut Random) -> Result<(), String> {
    let (xtrans, bits, lines) = (random.chance(2), random.pick(&[12, 14, 16]), 1 + random.below(6) as u16);
    let header = Header::new(true, xtrans, bits, 768, lines);
    let set = made(&header, random)?;
    let mut out = vec![0x5a; 8 * set.len()];
    let length = write_block(&header.bytes(), &set, &mut out).map_err(|e| e.to_string())?;
    if read_set(&header, &[], &out[..length])? != set {
        return Err(format!("{header:?}: the original reads another set than was written"));
    }
    Ok(())
}

pub fn run(count: u64, seed: u64) -> Result<(), String> {
    let mut random = Random::new(seed);
    (0..count).try_for_each(|n| one(n, &mut random))
}
