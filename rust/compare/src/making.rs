//! Inputs: headers, streams, regions and tiles, right and wrong ones.
use common::pictures::scene;
use common::random::Random;
use common::stream::{Header, blocks, stream};
use fuji_compressed::{ColorTile, Rect};

/// A header that keeps the rules, of a small picture.
pub fn header(r: &mut Random) -> Header {
    let columns = match r.below(8) {
        0..=3 => 768,
        4..=5 => 24 * r.within(32, 64),
        _ => 24 * r.within(32, 96),
    };
    Header::new(r.chance(2), r.chance(2), r.pick(&[12, 14, 16]), columns as u16, r.within(1, 3) as u16)
}

/// A header of any size, with some fields at or past the ends of their ranges.
pub fn any_header(r: &mut Random) -> Header {
    let blocks = if r.chance(3) { r.pick(&[1, 2, 15, 16, 17]) } else { r.within(1, 22) as u16 };
    let width = (768 * blocks - 24 * r.below(32) as u16).max(768);
    let lines = if r.chance(3) { r.pick(&[1, 2, 0xAAA, 0xAAB, 0xAAC]) } else { r.within(1, 0xAAB) as u16 };
    let mut h = Header::new(r.chance(2), r.chance(2), r.pick(&[12, 14, 16]), width, lines);
    for _ in 0..r.below(3) {
        change(r, &mut h);
    }
    h
}

fn change(r: &mut Random, h: &mut Header) {
    let any = r.number() as u16;
    let step = r.within(-2, 2) as u16;
    let near = |v: u16| v.wrapping_add(step);
    match r.below(11) {
        0 => h.signature = near(0x4953),
        1 => h.lossless = r.pick(&[0, 1, 2, 255]),
        2 => h.raw_type = r.pick(&[0, 1, 15, 16, 17]),
        3 => h.bits = r.pick(&[11, 12, 13, 14, 15, 16, 17]),
        4 => h.height = r.pick(&[0, 5, 6, 12, 0x4002, 0x4003, 0x4008, any, near(h.height)]),
        5 => h.rounded_width = r.pick(&[0, 0x2FF, 0x300, 0x4200, 0x4500, any, h.width, near(h.rounded_width)]),
        6 => {
            let less = h.rounded_width.wrapping_sub(768);
            h.width = r.pick(&[0, 0x2E8, 0x300, 0x4200, 0x4218, any, less, less.wrapping_add(24), h.rounded_width, near(h.width)]);
        }
        7 => h.block_size = near(0x300),
        8 => h.blocks = r.pick(&[0, 1, 16, 17, h.blocks.wrapping_add(1), h.blocks.wrapping_sub(1)]),
        9 => h.lines = r.pick(&[0, 1, 0xAAB, 0xAAC, h.lines.wrapping_add(1), any]),
        // Consistent, and yet wider than the rounded width.
        _ => h.width = h.rounded_width.wrapping_add(24 * r.within(1, 40) as u16),
    }
}

fn rows(r: &mut Random, h: &Header) -> Vec<Vec<u8>> {
    if h.lossless == 1 {
        return vec![];
    }
    let row = |r: &mut Random| match r.below(4) {
        0 => vec![r.below(4) as u8; h.lines as usize],
        1 => (0..h.lines).map(|_| r.below(5) as u8).collect(),
        2 => vec![r.below(256) as u8; h.lines as usize],
        _ => (0..h.lines).map(|_| r.number() as u8).collect(),
    };
    (0..h.blocks).map(|_| row(r)).collect()
}

/// Bytes that no encoder made.
fn noise(r: &mut Random, length: usize) -> Vec<u8> {
    let style = r.below(5);
    let byte = |r: &mut Random| match style {
        0 => r.number() as u8,
        1 => (r.number() & r.number()) as u8,
        2 => (r.number() | r.number()) as u8,
        3 => 0,
        _ => {
            if r.chance(40) {
                1 << r.below(8)
            } else {
                0
            }
        }
    };
    (0..length).map(|_| byte(r)).collect()
}

/// A whole stream: of pictures, or now and then of noise.
pub fn whole(r: &mut Random) -> (Header, Vec<u8>) {
    let h = header(r);
    let rows = rows(r, &h);
    if r.chance(6) {
        let blocks: Vec<Vec<u8>> = (0..h.blocks)
            .map(|_| {
                let n = r.below(14000) as usize;
                noise(r, n)
            })
            .collect();
        return (h, stream(&h, &rows, &blocks));
    }
    let kinds: Vec<u64> = (0..h.blocks).map(|_| r.below(5)).collect();
    let largest = (1 << h.bits) - 1;
    let mut blocks = blocks(&h, &rows, &mut |b, n, line, p| scene(kinds[b], largest, n, line, p, r));
    // With bytes to spare a damaged block may still be read to its end.
    if r.chance(2) {
        for block in &mut blocks {
            let spare = r.below(9000) as usize;
            block.extend(noise(r, spare));
        }
    }
    (h, stream(&h, &rows, &blocks))
}

/// One line of noise, whose last code has many low bits, without its last bytes: the line may end up to seven bits past the end.
pub fn ends(r: &mut Random) -> (Header, Vec<u8>) {
    let h = Header::new(true, r.chance(2), r.pick(&[12, 14, 16]), 768, 1);
    let largest = (1 << h.bits) - 1;
    let mut blocks = blocks(&h, &[], &mut |_, n, line, p| scene(2, largest, n, line, p, r));
    let kept = blocks[0].len() - r.within(1, 2) as usize;
    blocks[0].truncate(kept);
    (h, stream(&h, &[], &blocks))
}

/// Where the sizes end, and where the blocks start.
fn places(h: &Header) -> (usize, usize) {
    let sizes = 16 + 4 * h.blocks as usize;
    let row = if h.lossless == 1 { 0 } else { (h.lines as usize).next_multiple_of(16) };
    (sizes, sizes.next_multiple_of(16) + h.blocks as usize * row)
}

/// The stream with something wrong in it: changed bits or bytes, a changed size, a cut end, an end added.
pub fn damaged(r: &mut Random, h: &Header, bytes: &[u8]) -> Vec<u8> {
    let mut d = bytes.to_vec();
    let (sizes, blocks) = places(h);
    let end = d.len();
    match r.below(10) {
        0..=3 => {
            for _ in 0..=r.below(4) {
                let at = r.within(blocks as i64, end as i64 - 1).max(0) as usize % end;
                d[at] ^= 1 << r.below(8);
            }
        }
        4 => {
            let at = r.below(end as u64) as usize;
            let patch = r.below(60) as usize;
            let new = noise(r, patch);
            let to = (at + patch).min(end);
            d[at..to].copy_from_slice(&new[..to - at]);
        }
        5 => {
            let at = 16 + 4 * r.below(h.blocks as u64) as usize;
            let size: u32 = r.pick(&[0, 1, 17, 3000, 0x0100_0000, 0xFFFF_FFFF]);
            d[at..at + 4].copy_from_slice(&size.to_be_bytes());
        }
        6 => d.truncate(r.within(0, end as i64) as usize),
        7 => d.truncate(end - r.below(40.min(end as u64)) as usize),
        8 => d.truncate(r.within(sizes as i64 - 5, blocks as i64 + 5) as usize),
        _ => d.extend((0..r.below(30)).map(|_| r.number() as u8).collect::<Vec<u8>>()),
    }
    d
}

pub fn tile(r: &mut Random) -> ColorTile {
    let most = r.pick(&[3, 3, 4, 256]);
    std::array::from_fn(|_| std::array::from_fn(|_| r.below(most) as u8))
}

/// A region: inside, at an edge, empty, or past the picture's edge.
pub fn region(r: &mut Random, width: u32, height: u32) -> Rect {
    let (w, h) = (width as i64, height as i64);
    let (x, y) = (r.within(0, w), r.within(0, h));
    let inside = Rect::new(x as u32, y as u32, r.within(0, w - x) as u32, r.within(0, h - y) as u32);
    let odd = [0, 1, width, width + 1, height, height + 1, u32::MAX - 5, u32::MAX];
    match r.below(12) {
        0..=6 => inside,
        7 => Rect::new(0, 0, width, height),
        8 => Rect { width: 1, height: 1, ..inside },
        9 => Rect { width: width - x as u32, height: height - y as u32, ..inside },
        10 => Rect { width: r.pick(&odd), ..inside },
        _ => Rect::new(r.pick(&odd), r.pick(&odd), r.pick(&odd), r.pick(&odd)),
    }
}
