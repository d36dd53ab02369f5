//! Regions of pictures of 1 to 16 blocks: each is the part of the whole picture that it names. Whole pictures are compared with the original's by
//! `compare`.
use common::pictures::scene;
use common::random::Random;
use common::stream::{Header, encoded};
use fuji_compressed::{ColorTile, FujiCompressed, Record, Rect, Scratch};

const SPARE: u16 = 0xA5A5;
const BAYER: ColorTile =
    [[0, 1, 0, 1, 0, 1], [1, 2, 1, 2, 1, 2], [0, 1, 0, 1, 0, 1], [1, 2, 1, 2, 1, 2], [0, 1, 0, 1, 0, 1], [1, 2, 1, 2, 1, 2]];
const XTRANS: ColorTile =
    [[1, 1, 0, 1, 1, 2], [1, 1, 2, 1, 1, 0], [2, 0, 1, 0, 2, 1], [1, 1, 2, 1, 1, 0], [1, 1, 0, 1, 1, 2], [0, 2, 1, 2, 0, 1]];

struct Picture {
    bytes: Vec<u8>,
    tile: ColorTile,
    width: usize,
    height: usize,
}

impl Picture {
    fn new(xtrans: bool, lossy: bool, bits: u8, width: usize, lines: usize) -> Picture {
        let header = Header::new(!lossy, xtrans, bits, width as u16, lines as u16);
        let rows: Vec<Vec<u8>> =
            (0..if lossy { header.blocks } else { 0 }).map(|b| (0..lines).map(|n| b + n as u8 / 2).collect()).collect();
        let mut random = Random::new(width as u64 + bits as u64);
        let most = (1u32 << bits) - 1;
        let bytes = encoded(&header, &rows, &mut |b, n, line, p| scene(b as u64, most, n, line, p, &mut random));
        Picture { bytes, tile: if xtrans { XTRANS } else { BAYER }, width, height: 6 * lines }
    }

    fn whole(&self) -> Vec<u16> {
        let mut image = vec![SPARE; self.width * self.height];
        let opened = FujiCompressed::new(&self.bytes).unwrap();
        opened.decode(&mut image, self.width as u32, self.height as u32, &self.tile).unwrap();
        image
    }

    /// The region is the whole's part, with scratch that held anything, in an image with room to spare.
    fn shows(&self, whole: &[u16], [x, y, width, height]: [usize; 4]) {
        let mut scratch = Scratch::new();
        scratch.samples.fill(0xffff);
        scratch.records.fill(Record { sum: u32::MAX, n: 0 });
        let mut image = vec![SPARE; width * height + 2];
        let region = Rect::new(x as u32, y as u32, width as u32, height as u32);
        let opened = FujiCompressed::new(&self.bytes).unwrap();
        opened.decode_region_with(&mut scratch, &mut image, region, &self.tile).unwrap();
        let mut want: Vec<u16> = (y..y + height).flat_map(|r| &whole[r * self.width + x..r * self.width + x + width]).copied().collect();
        want.extend([SPARE; 2]);
        assert!(image == want, "{} columns, region {region:?}", self.width);
    }
}

#[test]
fn one_to_sixteen_blocks() {
    for blocks in 1..=16 {
        // the last block has 768, 24 or 744 columns
        for less in [0, 744, 24] {
            let width = 768 * blocks - less;
            if width < 768 {
                continue;
            }
            let kind = blocks + less / 24;
            let p = Picture::new(kind % 2 == 1, kind % 3 == 0, [12, 14, 16][kind % 3], width, 1);
            let whole = p.whole();
            for x in (0..blocks).flat_map(|b| [768 * b, 768 * b + 767]).chain([width - 1]) {
                if x < width {
                    p.shows(&whole, [x, 0, 1, 6]);
                    p.shows(&whole, [x, 5, 1, 1]);
                    p.shows(&whole, [x, 2, (width - x).min(770), 2]);
                }
            }
        }
    }
}

#[test]
fn every_edge_of_a_small_picture() {
    for (xtrans, lossy) in [(false, false), (true, false), (false, true), (true, true)] {
        let p = Picture::new(xtrans, lossy, 14, 1560, 3);
        let whole = p.whole();
        // corners and sides, lines and their borders, all rows, all columns
        for y in 0..p.height {
            for x in [0, 1, 5, 6, 766, 767, 768, 769, 1535, 1536, 1537, 1558, 1559] {
                p.shows(&whole, [x, y, 1, 1]);
                p.shows(&whole, [x, y, p.width - x, p.height - y]);
            }
            p.shows(&whole, [0, y, p.width, 1]);
        }
        for left in 0..13 {
            for width in 1..14 {
                p.shows(&whole, [760 + left, left, width, 3]);
            }
        }
        for x in 0..24 {
            p.shows(&whole, [1536 + x, 0, 24 - x, p.height]);
        }
    }
}

#[test]
fn random_regions() {
    let mut random = Random::new(5);
    for (xtrans, lossy, bits) in [(false, false, 12), (true, true, 14), (true, false, 16), (false, true, 12)] {
        let p = Picture::new(xtrans, lossy, bits, 3000, 4);
        let whole = p.whole();
        for _ in 0..100 {
            let (x, y) = (random.below(p.width as u64) as usize, random.below(p.height as u64) as usize);
            let width = 1 + random.below((p.width - x) as u64) as usize;
            let height = 1 + random.below((p.height - y) as u64) as usize;
            p.shows(&whole, [x, y, width, height]);
        }
    }
}
