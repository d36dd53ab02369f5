//! Camera files (RAF) around streams, as the tests need them: right ones, and wrong ones.
#![allow(dead_code)] // Each test program uses a part of it.

/// The usual X-Trans tile as a camera stores it: back to front.
pub const STORED: [u8; 36] = [1, 0, 2, 1, 2, 0, 2, 1, 1, 0, 1, 1, 0, 1, 1, 2, 1, 1, 1, 2, 0, 1, 0, 2, 0, 1, 1, 2, 1, 1, 2, 1, 1, 0, 1, 1];

/// How a camera file is made.
#[derive(Clone)]
pub struct Camera {
    /// The raw data's TIFF is big-endian.
    pub big: bool,
    /// There is no TIFF: the stream lies where the raw data begin.
    pub older: bool,
    /// What tag 0xF008 says, if not the stream's length.
    pub length: Option<u32>,
    /// What tags 0xF001 to 0xF003 say, if not what the stream does.
    pub full: Option<[u32; 3]>,
    /// Tag 0x0131, as it is stored.
    pub colours: Option<Vec<u8>>,
    /// The small picture and the metadata lie behind the stream, and the black levels too.
    pub behind: bool,
    pub date: &'static str,
}

impl Default for Camera {
    fn default() -> Camera {
        Camera { big: false, older: false, length: None, full: None, colours: None, behind: false, date: "2026:11:17 09:30:00" }
    }
}

/// What the tests compare, wherever it lies.
pub const BLACK: [u8; 16] = [1, 2, 3, 4, 5, 6, 7, 8, 9, 10, 11, 12, 13, 14, 15, 16];
/// From the raw data's first byte to the stream.
pub const TO_STREAM: usize = 512;

fn big(v: u32) -> [u8; 4] {
    v.to_be_bytes()
}

/// A small picture whose Exif part has make, model and date.
fn jpeg(date: &str) -> Vec<u8> {
    let text = |s: &str| [s.as_bytes(), b"\0"].concat();
    let (make, model, date) = (text("FUJIFILM"), text("X-Test"), text(date));
    let entry = |tag: u16, kind: u16, count: usize, value: usize| {
        [&tag.to_le_bytes()[..], &kind.to_le_bytes(), &(count as u32).to_le_bytes(), &(value as u32).to_le_bytes()].concat()
    };
    let data = 8 + 2 + 3 * 12 + 4;
    let exif = data + make.len() + model.len();
    let tiff = [
        b"II*\0\x08\0\0\0\x03\0".to_vec(),
        entry(0x010F, 2, make.len(), data),
        entry(0x0110, 2, model.len(), data + make.len()),
        entry(0x8769, 4, 1, exif),
        vec![0; 4],
        make,
        model,
        vec![1, 0],
        entry(0x9003, 2, date.len(), exif + 18),
        vec![0; 4],
        date,
    ]
    .concat();
    [&[0xFF, 0xD8, 0xFF, 0xE1][..], &(tiff.len() as u16 + 8).to_be_bytes(), b"Exif\0\0", &tiff, &[0xFF, 0xD9]].concat()
}

/// The directory of metadata.
fn directory(width: u16, height: u16, colours: Option<&[u8]>) -> Vec<u8> {
    let two = |a: u16, b: u16| [a.to_be_bytes(), b.to_be_bytes()].concat();
    let mut entries = vec![
        (0x0100u16, two(height, width)),
        (0x0110, two(6, 12)),
        (0x0111, two(height - 6, width - 24)),
        (0x0121, two(height - 6, width - 24)),
        (0x0130, vec![0x0C; 4]),
    ];
    entries.extend(colours.map(|c| (0x0131, c.to_vec())));
    let mut all = big(entries.len() as u32).to_vec();
    for (tag, value) in entries {
        all.extend(tag.to_be_bytes());
        all.extend((value.len() as u16).to_be_bytes());
        all.extend(value);
    }
    all
}

/// The raw data up to the stream: a TIFF of two directories.
fn raw_head(camera: &Camera, full: [u32; 3], length: u32, black: u32) -> Vec<u8> {
    let two = |v: u16| if camera.big { v.to_be_bytes() } else { v.to_le_bytes() };
    let four = |v: u32| if camera.big { v.to_be_bytes() } else { v.to_le_bytes() };
    let entry = |tag: u16, kind: u16, count: u32, value: u32| [&two(tag)[..], &two(kind), &four(count), &four(value)].concat();
    let mut all = if camera.big { b"MM\0*".to_vec() } else { b"II*\0".to_vec() };
    all.extend(four(8));
    all.extend(two(1));
    all.extend(entry(0xF000, 13, 1, 26));
    all.extend(four(0));
    all.extend(two(6));
    for (tag, value) in [(0xF001, full[0]), (0xF002, full[1]), (0xF003, full[2]), (0xF007, TO_STREAM as u32), (0xF008, length)] {
        all.extend(entry(tag, 4, 1, value));
    }
    all.extend(entry(0xF00A, 4, 4, black));
    all.extend(four(0));
    all.resize(TO_STREAM, 0);
    all
}

/// A camera file around a stream.
pub fn raf(stream: &[u8], camera: &Camera) -> Vec<u8> {
    let two = |at: usize| stream.get(at..at + 2).map_or(0, |b| u16::from_be_bytes([b[0], b[1]]));
    let (height, width, bits) = (two(5), two(9), stream.get(4).copied().unwrap_or(0));
    let (jpeg, directory) = (jpeg(camera.date), directory(width.max(24), height.max(6), camera.colours.as_deref()));
    let front = 160;
    let beside = jpeg.len() + directory.len();
    // Aligned, as cameras do it.
    let raw = if camera.behind { front } else { (front + beside).next_multiple_of(16) };
    let full = camera.full.unwrap_or([width as u32, height as u32, bits as u32]);
    let length = camera.length.unwrap_or(stream.len() as u32);
    let black = if camera.behind { TO_STREAM + stream.len() } else { 200 };
    let mut data = if camera.older { vec![] } else { raw_head(camera, full, length, black as u32) };
    if !camera.behind && !camera.older {
        data[200..216].copy_from_slice(&BLACK);
    }
    data.extend(stream);
    if camera.behind && !camera.older {
        data.extend(BLACK);
    }
    let first = if camera.behind { raw + data.len() } else { front };
    let mut all = b"FUJIFILMCCD-RAW 0201FF129502".to_vec();
    all.extend(b"X-Test");
    all.resize(0x3C, 0);
    all.extend(b"0100");
    all.resize(0x54, 0);
    for v in [first, jpeg.len(), first + jpeg.len(), directory.len(), raw, data.len()] {
        all.extend(big(v as u32));
    }
    all.resize(front, 0);
    if !camera.behind {
        all.extend([&jpeg[..], &directory].concat());
        all.resize(raw, 0);
    }
    all.extend(data);
    if camera.behind {
        all.extend([&jpeg[..], &directory].concat());
    }
    all
}

/// What a camera file has, by a reader of the test's own: the stream, the small picture, the directory and the black
/// levels.
pub struct Parts {
    pub stream: Vec<u8>,
    pub jpeg: Vec<u8>,
    pub directory: Vec<u8>,
    pub black: Vec<u8>,
}

pub fn parts(file: &[u8], big_endian: bool) -> Parts {
    let at = |i: usize| u32::from_be_bytes(file[i..i + 4].try_into().unwrap()) as usize;
    let raw = at(0x64);
    let inner = |i: usize| {
        let four = file[raw + i..raw + i + 4].try_into().unwrap();
        (if big_endian { u32::from_be_bytes(four) } else { u32::from_le_bytes(four) }) as usize
    };
    // The second directory begins at 26; its entries are those of `raw_head`, in this order.
    let value = |n: usize| inner(26 + 2 + 12 * n + 8);
    let (stream, length, black) = (raw + value(3), value(4), raw + value(5));
    assert_eq!(at(0x68), file.len().min(if at(0x54) > raw { at(0x54) } else { file.len() }) - raw, "the raw data's length");
    Parts {
        stream: file[stream..stream + length].to_vec(),
        jpeg: file[at(0x54)..at(0x54) + at(0x58)].to_vec(),
        directory: file[at(0x5C)..at(0x5C) + at(0x60)].to_vec(),
        black: file[black..black + 16].to_vec(),
    }
}

/// The samples that LibRaw reads of a camera file, if it is installed. Debian's version reads lossless ones.
pub fn by_libraw(folder: &std::path::Path, name: &str) -> Option<Vec<u16>> {
    let out = std::process::Command::new("unprocessed_raw").args(["-q", name]).current_dir(folder).output().ok()?;
    let pgm = std::fs::read(folder.join(format!("{name}.pgm")));
    let pgm = pgm.unwrap_or_else(|_| panic!("LibRaw does not read {name}: {}", String::from_utf8_lossy(&out.stdout)));
    // P5, the size, 65535; then big-endian samples.
    let head = pgm.iter().enumerate().filter(|(_, b)| **b == b'\n').nth(2).unwrap().0 + 1;
    Some(pgm[head..].chunks(2).map(|b| u16::from_be_bytes([b[0], b[1]])).collect())
}
