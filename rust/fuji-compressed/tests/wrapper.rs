//! The wrapper on small streams: answers, parts, images, scratch.
use common::pictures::scene;
use common::random::Random;
use common::stream::{Header, encoded, stream};
use fuji_compressed::{ColorTile, FujiCompressed, FujiHeader, Record, Rect, Refusal, Scratch};

const TILE: ColorTile =
    [[0, 1, 0, 1, 0, 1], [1, 2, 1, 2, 1, 2], [0, 1, 0, 1, 0, 1], [1, 2, 1, 2, 1, 2], [0, 1, 0, 1, 0, 1], [1, 2, 1, 2, 1, 2]];
const SPARE: u16 = 0xA5A5;

fn refusal(number: u32, block: usize, line: usize) -> Refusal {
    Refusal { number, block, line, index: 0 }
}

/// Two blocks, the second of 384 columns.
fn small(lossy: bool) -> (Header, Vec<u8>) {
    let header = Header::new(!lossy, false, 14, 1152, 2);
    let rows = if lossy { vec![vec![1, 4], vec![2, 2]] } else { vec![] };
    let mut random = Random::new(7);
    let bytes = encoded(&header, &rows, &mut |_, n, line, p| scene(0, 16383, n, line, p, &mut random));
    (header, bytes)
}

#[test]
fn header_of_marked_case_k() {
    let mut bytes = Header::new(true, false, 14, 768, 1).bytes();
    let header = FujiHeader::parse(&bytes).unwrap();
    let want = FujiHeader {
        lossless: true,
        xtrans: false,
        bits: 14,
        height: 6,
        rounded_width: 768,
        width: 768,
        block_size: 768,
        blocks: 1,
        lines: 1,
    };
    assert_eq!(header, want);
    assert_eq!(FujiHeader::parse(&bytes[..15]), Err(refusal(1, 0, 0)));
    bytes[4] = 13;
    assert_eq!(FujiHeader::parse(&bytes), Err(refusal(2, 0, 0)));
}

#[test]
fn marked_case_l() {
    let bytes = stream(&Header::new(true, false, 14, 768, 1), &[], &[vec![]]);
    let opened = FujiCompressed::new(&bytes[..20]).unwrap();
    assert_eq!(opened.block_ranges(), [(20, 0)]);
    assert_eq!(FujiCompressed::new(&bytes[..19]).unwrap_err(), refusal(3, 0, 0));
    let mut image = vec![SPARE; 4608];
    assert_eq!(opened.decode(&mut image, 768, 6, &TILE), Err(refusal(14, 0, 0)));
    assert!(image.iter().all(|v| *v == SPARE));
}

#[test]
fn width_of_a_block() {
    let (_, bytes) = small(false);
    let header = FujiHeader::parse(&bytes).unwrap();
    assert_eq!([header.block_width(0), header.block_width(1)], [Ok(768), Ok(384)]);
    assert_eq!(header.block_width(2), Err(refusal(5, 0, 0)));
    assert_eq!(header.block_width(u32::MAX), Err(refusal(5, 0, 0)));
    assert_eq!(FujiHeader { bits: 13, ..header }.block_width(0), Err(refusal(2, 0, 0)));
    assert_eq!(FujiHeader { width: 65536 + 1152, ..header }.block_width(0), Err(refusal(2, 0, 0)));
}

#[test]
fn parts_of_a_stream() {
    let (_, bytes) = small(true);
    let opened = FujiCompressed::new(&bytes).unwrap();
    assert_eq!([opened.q_bases(0), opened.q_bases(1)], [Ok(&[1, 4][..]), Ok(&[2, 2][..])]);
    assert_eq!(opened.q_bases(2), Err(refusal(5, 0, 0)));
    let ranges = opened.block_ranges();
    assert_eq!(ranges[0].0, 64);
    assert_eq!(ranges[1].0, 64 + ranges[0].1);
    assert_eq!(ranges[1].0 + ranges[1].1, bytes.len());
    assert_eq!(opened.block(1).unwrap(), &bytes[ranges[1].0..]);
    assert_eq!(opened.block(2), Err(refusal(5, 0, 0)));
    let (_, lossless) = small(false);
    assert_eq!(FujiCompressed::new(&lossless).unwrap().q_bases(0), Ok(&[][..]));
    assert_eq!(FujiCompressed::new(&bytes[..49]).unwrap_err(), refusal(4, 1, 0));
}

#[test]
fn regions_are_parts_of_the_picture() {
    let (header, bytes) = small(true);
    let opened = FujiCompressed::new(&bytes).unwrap();
    let (width, height) = (header.width as usize, header.height as usize);
    let mut whole = vec![0; width * height];
    opened.decode(&mut whole, width as u32, height as u32, &TILE).unwrap();
    for region in [Rect::new(0, 0, 1152, 12), Rect::new(767, 5, 2, 3), Rect::new(1151, 11, 1, 1), Rect::new(3, 1, 900, 6)] {
        let (w, h) = (region.width as usize, region.height as usize);
        let mut image = vec![SPARE; w * h + 5];
        opened.decode_region(&mut image, region, &TILE).unwrap();
        for (y, row) in image[..w * h].chunks(w).enumerate() {
            let from = (region.y as usize + y) * width + region.x as usize;
            assert_eq!(row, &whole[from..from + w]);
        }
        assert_eq!(image[w * h..], [SPARE; 5]);
    }
}

#[test]
fn refused_regions() {
    let (_, bytes) = small(false);
    let opened = FujiCompressed::new(&bytes).unwrap();
    let mut image = vec![SPARE; 100];
    for region in [Rect::new(1152, 0, 1, 1), Rect::new(0, 0, 11, 10), Rect::new(1, 0, u32::MAX, 1), Rect::new(0, 13, 0, 0)] {
        assert_eq!(opened.decode_region(&mut image, region, &TILE), Err(refusal(7, 0, 0)));
    }
    assert_eq!(opened.decode_region(&mut image, Rect::new(1152, 12, 0, 0), &TILE), Ok(()));
    assert_eq!(opened.decode(&mut image, 1152, 6, &TILE), Err(refusal(6, 0, 0)));
    assert!(image.iter().all(|v| *v == SPARE));
}

#[test]
fn truncated_block() {
    let (_, bytes) = small(false);
    let cut = FujiCompressed::new(&bytes).unwrap().block_ranges()[1];
    let opened = FujiCompressed::new(&bytes[..cut.0 + cut.1 / 3]).unwrap();
    let mut image = vec![SPARE; 1152 * 12];
    assert_eq!(opened.decode(&mut image, 1152, 12, &TILE), Err(refusal(14, 1, 0)));
    for row in image.chunks(1152) {
        assert!(row[..768].iter().all(|v| *v != SPARE));
        assert!(row[768..].iter().all(|v| *v == SPARE));
    }
}

#[test]
fn lent_scratch() {
    let (_, bytes) = small(false);
    let opened = FujiCompressed::new(&bytes).unwrap();
    let (mut want, mut got) = (vec![0; 1152 * 12], vec![0; 1152 * 12]);
    opened.decode(&mut want, 1152, 12, &TILE).unwrap();
    let used = 18 * 386;
    let full = Scratch { samples: vec![SPARE; used + 2], records: vec![Record { sum: u32::MAX, n: 0 }; 337] };
    let mut scratch = full.clone();
    opened.decode_with(&mut scratch, &mut got, 1152, 12, &TILE).unwrap();
    assert_eq!(got, want);
    assert!(scratch.samples[..used].iter().all(|v| *v == 0));
    assert!(scratch.records[..336].iter().all(|r| *r == Record { sum: 0, n: 1 }));
    assert_eq!((scratch.samples[used..] == full.samples[used..], scratch.records[336]), (true, full.records[336]));
    for (samples, records) in [(used - 1, 336), (used, 335), (0, 0)] {
        let mut short = Scratch { samples: vec![SPARE; samples], records: vec![Record { sum: 3, n: 9 }; records] };
        let before = short.clone();
        assert_eq!(opened.decode_with(&mut short, &mut got, 1152, 12, &TILE), Err(refusal(10, 0, 0)));
        assert_eq!(opened.decode_region_with(&mut short, &mut got, Rect::new(5, 5, 0, 1), &TILE), Ok(()));
        assert_eq!((short, &got), (before, &want));
    }
}

#[test]
fn refusals_in_words() {
    let named = Refusal { number: 14, block: 0, line: 3, index: 0 };
    assert_eq!(named.to_string(), "refusal 14: block 0, line 3: a line is truncated");
    assert_eq!(refusal(4, 2, 0).to_string(), "refusal 4: block 2: a lossy base row is not whole");
    let error: Box<dyn std::error::Error> = Box::new(refusal(1, 0, 0));
    assert_eq!(error.to_string(), "refusal 1: fewer than 16 bytes of header");
}
