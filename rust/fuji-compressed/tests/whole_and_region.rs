//! A region is the whole picture's part: all regions of a grid, of the samples and of a picture of three blocks, whole, cut and damaged, through every pair
//! of entries. Which regions are accepted is foretold by the reading of each block alone.
use common::pictures::scene;
use common::random::Random;
use common::stream::{Header, encoded};
use fuji_compressed::{ColorTile, FujiCompressed, Record, Rect, Refusal, Scratch};
use std::path::Path;

const SPARE: u16 = 0xA5A5;
const BAYER: ColorTile =
    [[0, 1, 0, 1, 0, 1], [1, 2, 1, 2, 1, 2], [0, 1, 0, 1, 0, 1], [1, 2, 1, 2, 1, 2], [0, 1, 0, 1, 0, 1], [1, 2, 1, 2, 1, 2]];
const XTRANS: ColorTile =
    [[1, 1, 0, 1, 1, 2], [1, 1, 2, 1, 1, 0], [2, 0, 1, 0, 2, 1], [1, 1, 2, 1, 1, 0], [1, 1, 0, 1, 1, 2], [0, 2, 1, 2, 0, 1]];

type Answer = Result<(), Refusal>;
type Entry = (&'static str, fn(&FujiCompressed, &mut Scratch, &mut [u16], Rect, &ColorTile) -> Answer);

const REGIONS: [Entry; 4] = [
    ("decode_region", |s, scratch, image, r, tile| s.decode_region_with(scratch, image, r, tile)),
    ("decode_region_windowed", |s, scratch, image, r, tile| s.decode_region_windowed_with(scratch, image, r, tile)),
    ("decode_region_parallel", |s, _, image, r, tile| s.decode_region_parallel(2, image, r, tile, &|| ())),
    ("decode_region_windowed_parallel", |s, _, image, r, tile| s.decode_region_windowed_parallel(2, image, r, tile, &|| ())),
];

/// For the whole picture alone.
const WHOLES: [Entry; 2] = [
    ("decode", |s, scratch, image, r, tile| s.decode_with(scratch, image, r.width, r.height, tile)),
    ("decode_parallel", |s, _, image, r, tile| s.decode_parallel(2, image, r.width, r.height, tile)),
];

/// A call's answer and image, with scratch that held anything and an image with room to spare.
fn called(entry: Entry, stream: &FujiCompressed, region: Rect, tile: &ColorTile) -> (Answer, Vec<u16>) {
    let mut scratch = Scratch::new();
    scratch.samples.fill(0xffff);
    scratch.records.fill(Record { sum: u32::MAX, n: 0 });
    let mut image = vec![SPARE; region.width as usize * region.height as usize + 2];
    let answer = entry.1(stream, &mut scratch, &mut image, region, tile);
    (answer, image)
}

/// The line on which each block fails, if it does.
fn failing(stream: &FujiCompressed) -> Vec<Option<usize>> {
    let line = |b| {
        stream.read_block(b).answer.err().map(|r| {
            assert_eq!((r.number, r.block), (14, b));
            r.line
        })
    };
    (0..stream.header.blocks as usize).map(line).collect()
}

/// The lowest block that the region touches and that fails on the region's last line or an earlier one.
fn foretold(failing: &[Option<usize>], r: Rect) -> Result<(), (u32, usize, usize)> {
    if r.width == 0 || r.height == 0 {
        return Ok(());
    }
    let last_line = (r.y + r.height - 1) as usize / 6;
    let touched = (r.x / 768) as usize..=((r.x + r.width - 1) / 768) as usize;
    let fails = touched.filter_map(|b| failing[b].map(|m| (14, b, m))).find(|(_, _, m)| *m <= last_line);
    fails.map_or(Ok(()), Err)
}

fn told(answer: Answer) -> Result<(), (u32, usize, usize)> {
    answer.map_err(|r| (r.number, r.block, r.line))
}

/// The region's rows of the whole picture, and what the image held before after them.
fn part_of(whole: &[u16], width: usize, r: Rect) -> Vec<u16> {
    let (x, y) = (r.x as usize, r.y as usize);
    let rows = (y..y + r.height as usize).flat_map(|row| &whole[row * width + x..row * width + x + r.width as usize]);
    rows.copied().chain([SPARE; 2]).collect()
}

/// Every region between two of these columns and two of these rows, through every entry, against the whole through every entry. So many are accepted.
fn agrees(bytes: &[u8], tile: &ColorTile, columns: &[u32], rows: &[u32]) -> usize {
    let stream = FujiCompressed::new(bytes).unwrap();
    let (width, height) = (stream.header.width, stream.header.height);
    let failing = failing(&stream);
    let all = Rect::new(0, 0, width, height);
    let wholes: Vec<_> = WHOLES.into_iter().chain(REGIONS).map(|e| (e.0, called(e, &stream, all, tile))).collect();
    for (name, (answer, _)) in &wholes {
        assert_eq!(told(*answer), foretold(&failing, all), "{name}");
    }
    let between = |edges: &[u32]| -> Vec<(u32, u32)> {
        edges.iter().enumerate().flat_map(|(i, a)| edges[i..].iter().map(|b| (*a, *b - *a))).collect()
    };
    let mut accepted = 0;
    for (x, w) in between(columns) {
        for (y, h) in between(rows) {
            let region = Rect::new(x, y, w, h);
            for entry in REGIONS {
                let (answer, image) = called(entry, &stream, region, tile);
                assert_eq!(told(answer), foretold(&failing, region), "{region:?} by {}", entry.0);
                if answer.is_err() {
                    continue;
                }
                accepted += 1;
                for (name, (_, whole)) in &wholes {
                    assert!(image == part_of(whole, width as usize, region), "{region:?} by {}, the whole by {name}", entry.0);
                }
            }
        }
    }
    accepted / REGIONS.len()
}

fn sample(name: &str) -> Vec<u8> {
    std::fs::read(Path::new(env!("CARGO_MANIFEST_DIR")).join("../../samples").join(name)).unwrap()
}

const COLUMNS: [u32; 5] = [0, 1, 383, 767, 768];
const ROWS: [u32; 8] = [0, 1, 6, 71, 72, 73, 78, 144];
/// Pairs of columns, and of rows, of which both may be the same.
const GRID: usize = 15 * 36;

#[test]
fn whole_samples() {
    for (name, tile) in [("bayer.fcs", BAYER), ("xtrans.fcs", XTRANS)] {
        assert_eq!(agrees(&sample(name), &tile, &COLUMNS, &ROWS), GRID, "{name}");
    }
}

/// The first 50,000 bytes of the Bayer sample end in line 12: the regions up to row 72 are accepted, and the empty ones.
#[test]
fn cut_samples() {
    let cut = sample("bayer.fcs")[..50_000].to_vec();
    let stream = FujiCompressed::new(&cut).unwrap();
    assert_eq!(failing(&stream), [Some(12)]);
    let whole = called(WHOLES[0], &stream, Rect::new(0, 0, 768, 144), &BAYER);
    assert_eq!(told(whole.0), Err((14, 0, 12)));
    for (region, want) in [
        (Rect::new(0, 0, 768, 72), Ok(())),
        (Rect::new(0, 0, 768, 73), Err((14, 0, 12))),
        (Rect::new(5, 71, 1, 1), Ok(())),
        (Rect::new(5, 72, 1, 1), Err((14, 0, 12))),
    ] {
        for entry in REGIONS {
            let (answer, image) = called(entry, &stream, region, &BAYER);
            assert_eq!(told(answer), want, "{region:?} by {}", entry.0);
            if want.is_ok() {
                assert_eq!(image[0], whole.1[region.y as usize * 768 + region.x as usize], "{region:?} by {}", entry.0);
            }
        }
    }
    // of 15 pairs of columns 10 are two columns, and of the 36 of rows 10 are two rows up to row 72; with an empty side every pair is accepted
    assert_eq!(agrees(&cut, &BAYER, &COLUMNS, &ROWS), GRID - 10 * 28 + 10 * 10);
    for length in [70, 2000, 40_000, 88_000] {
        agrees(&sample("xtrans.fcs")[..length], &XTRANS, &COLUMNS, &ROWS);
        agrees(&sample("bayer.fcs")[..length], &BAYER, &COLUMNS, &ROWS);
    }
}

/// Blocks that fail on lines of their own: a region is refused only for the blocks that it touches, and the lowest of them is named.
#[test]
fn three_blocks() {
    for (xtrans, lossy, tile) in [(false, false, BAYER), (true, true, XTRANS)] {
        let header = Header::new(!lossy, xtrans, 14, 1560, 4);
        let bases = if lossy { vec![vec![3, 3, 1, 0]; 3] } else { vec![] };
        let mut random = Random::new(10);
        let bytes = encoded(&header, &bases, &mut |b, n, line, p| scene(b as u64, 16383, n, line, p, &mut random));
        let ranges = FujiCompressed::new(&bytes).unwrap().block_ranges();
        let zeroed = |block: usize, share: usize| {
            let (from, length) = ranges[block];
            (from + length * share / 8, from + length)
        };
        let mut seen = vec![];
        for damage in [vec![], vec![zeroed(1, 4)], vec![zeroed(0, 6)], vec![zeroed(0, 7), zeroed(1, 2), zeroed(2, 5)]] {
            let mut stream = bytes.clone();
            for (from, to) in damage {
                stream[from..to].fill(0);
            }
            seen.push(failing(&FujiCompressed::new(&stream).unwrap()));
            agrees(&stream, &tile, &[0, 767, 768, 1000, 1535, 1536, 1560], &[0, 5, 6, 12, 13, 18, 24]);
        }
        let fails = |f: &Vec<Option<usize>>| f.iter().map(Option::is_some).collect::<Vec<_>>();
        let want = [[false; 3], [false, true, false], [true, false, false], [true; 3]];
        assert_eq!(seen.iter().map(fails).collect::<Vec<_>>(), want, "{seen:?}");
        // the last has blocks that fail on different lines, the lowest of them later than another
        assert!(seen[3][0] > seen[3][1], "{seen:?}");
    }
}
