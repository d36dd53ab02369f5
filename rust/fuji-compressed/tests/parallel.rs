//! A picture by several threads is the picture by one, its answer too, on whole, cut and damaged streams; and every region is the whole's part.
use common::pictures::scene;
use common::random::Random;
use common::stream::{Header, encoded};
use fuji_compressed::{ColorTile, FujiCompressed, Rect, Refusal};
use std::sync::atomic::{AtomicUsize, Ordering};

const TILE: ColorTile =
    [[1, 1, 0, 1, 1, 2], [1, 1, 2, 1, 1, 0], [2, 0, 1, 0, 2, 1], [1, 1, 2, 1, 1, 0], [1, 1, 0, 1, 1, 2], [0, 2, 1, 2, 0, 1]];

/// A stream of so many columns and lines.
fn stream(xtrans: bool, lossy: bool, width: u16, lines: u16, seed: u64) -> Vec<u8> {
    let header = Header::new(!lossy, xtrans, 14, width, lines);
    let rows = if lossy { vec![vec![2; lines as usize]; header.blocks as usize] } else { vec![] };
    let mut random = Random::new(seed);
    encoded(&header, &rows, &mut |b, n, line, p| scene(b as u64, 16383, n, line, p, &mut random))
}

type Serial = fn(&FujiCompressed, &mut [u16], Rect, &ColorTile) -> Result<(), Refusal>;
type Parallel = fn(&FujiCompressed, usize, &mut [u16], Rect, &ColorTile, &(dyn Fn() + Sync)) -> Result<(), Refusal>;

const ENTRIES: [(Serial, Parallel); 2] = [
    (
        |s, image, region, tile| s.decode_region(image, region, tile),
        |s, threads, image, region, tile, done| s.decode_region_parallel(threads, image, region, tile, done),
    ),
    (
        |s, image, region, tile| s.decode_region_windowed(image, region, tile),
        |s, threads, image, region, tile, done| s.decode_region_windowed_parallel(threads, image, region, tile, done),
    ),
];

fn called(serial: Serial, bytes: &[u8], region: Rect, fill: u16, spare: usize) -> (Result<(), Refusal>, Vec<u16>) {
    let mut image = vec![fill; region.width as usize * region.height as usize + spare];
    let answer = serial(&FujiCompressed::new(bytes).unwrap(), &mut image, region, &TILE);
    (answer, image)
}

/// The same answer and image with 0 to 5 threads, and `done` for each block touched unless the call is refused before.
fn agrees(bytes: &[u8], region: Rect) {
    ENTRIES.into_iter().for_each(|(serial, parallel)| agrees_by(serial, parallel, bytes, region));
}

fn agrees_by(serial: Serial, parallel: Parallel, bytes: &[u8], region: Rect) {
    let want = called(serial, bytes, region, 0xA5A5, 3);
    for threads in 0..6 {
        let mut image = vec![0xA5A5; want.1.len()];
        let done = AtomicUsize::new(0);
        let counted = || {
            done.fetch_add(1, Ordering::Relaxed);
        };
        let opened = FujiCompressed::new(bytes).unwrap();
        let answer = parallel(&opened, threads, &mut image, region, &TILE, &counted);
        assert_eq!(answer, want.0, "{region:?} by {threads}");
        assert!(image == want.1, "{region:?} by {threads}");
        let reads = region.width > 0 && region.height > 0 && is_read(answer);
        let touched = if reads { ((region.x + region.width - 1) / 768 - region.x / 768 + 1) as usize } else { 0 };
        assert_eq!(done.into_inner(), touched, "{region:?} by {threads}");
    }
}

fn is_read(answer: Result<(), Refusal>) -> bool {
    answer.map_or_else(|r| r.number == 14, |()| true)
}

fn regions(width: u32, height: u32) -> Vec<Rect> {
    let columns = [0, 1, 767, 768, 1000, width - 1];
    let mut all = vec![Rect::new(0, 0, width, height), Rect::new(0, 0, 0, height), Rect::new(5, 7, 9, 0), Rect::new(1, 0, width, 1)];
    for x in columns.into_iter().filter(|x| *x < width) {
        for (y, rows) in [(0, height), (5, 2), (6, 7), (height - 1, 1)] {
            all.push(Rect::new(x, y, (width - x).min(800), rows.min(height - y)));
        }
    }
    all
}

#[test]
fn whole_cut_and_damaged_streams() {
    let mut random = Random::new(77);
    for (xtrans, lossy, width) in [(false, false, 768), (true, false, 2280), (false, true, 1560), (true, true, 3072)] {
        let bytes = stream(xtrans, lossy, width, 4, width as u64);
        let mut streams = vec![bytes.clone()];
        let head = bytes.len() / 8;
        for _ in 0..3 {
            let mut cut = bytes.clone();
            cut.truncate(head + random.below((bytes.len() - head) as u64) as usize);
            streams.push(cut);
            let mut damaged = bytes.clone();
            let from = head + random.below((bytes.len() - head) as u64) as usize;
            damaged[from..].iter_mut().take(4000).for_each(|b| *b = 0);
            streams.push(damaged);
        }
        for bytes in &streams {
            for region in regions(width as u32, 24) {
                agrees(bytes, region);
            }
        }
    }
}

#[test]
fn the_whole_picture() {
    let bytes = stream(true, false, 2280, 3, 9);
    let opened = FujiCompressed::new(&bytes).unwrap();
    let (mut want, mut got) = (vec![0; 2280 * 18], vec![0; 2280 * 18]);
    opened.decode(&mut want, 2280, 18, &TILE).unwrap();
    opened.decode_parallel(3, &mut got, 2280, 18, &TILE).unwrap();
    assert!(want == got);
    // refusals 6 and 7, and the image stays
    let before = got.clone();
    assert_eq!(opened.decode_parallel(3, &mut got, 2280, 12, &TILE).unwrap_err().number, 6);
    assert_eq!(opened.decode_parallel(3, &mut got[1..], 2280, 18, &TILE).unwrap_err().number, 7);
    assert!(got == before);
}
