//! Camera files that nobody would write: each is refused or gives a range inside the file, and nothing panics.
use super::*;

fn four(v: u32) -> [u8; 4] {
    v.to_be_bytes()
}

/// A file with a directory of metadata and a big-endian TIFF; its stream is only a beginning.
fn file() -> Vec<u8> {
    let mut all = b"FUJIFILMCCD-RAW 0201FF129502X-Test".to_vec();
    all.resize(0x54, 0);
    for v in [0, 0, 160, 56, 256, 400] {
        all.extend(four(v));
    }
    all.resize(160, 0);
    all.extend(four(3));
    all.extend([0x01, 0x00, 0, 4, 0, 144, 3, 0]);
    all.extend([0x01, 0x10, 0, 4, 0, 6, 0, 12]);
    all.extend([0x01, 0x31, 0, 36]);
    all.extend((0..36).map(|i| (i * 7 % 3) as u8));
    all.resize(256, 0);
    all.extend(b"MM\0*\0\0\0\x08\0\x01\xF0\0\0\x0D\0\0\0\x01\0\0\0\x1A\0\0\0\0");
    all.extend([0, 5]);
    for (tag, value) in [(0xF001u16, 768), (0xF002, 144), (0xF003, 14), (0xF007, 128), (0xF008, 200)] {
        all.extend(tag.to_be_bytes());
        all.extend([0, 4, 0, 0, 0, 1]);
        all.extend(four(value));
    }
    all.resize(256 + 128, 0);
    all.extend([0x49, 0x53, 1, 16, 14, 0, 144, 3, 0, 3, 0, 3, 0, 1, 0, 24]);
    all.resize(656, 0);
    all
}

#[test]
fn what_the_file_says() {
    let file = file();
    let found = read(&file).unwrap();
    assert_eq!((found.stream.clone(), found.model.as_str(), found.taken.clone()), (384..584, "X-Test", None));
    assert_eq!(found.raw_size, Some(Size { width: 768, height: 144 }));
    // A corner without a size is no crop.
    assert_eq!(found.crop, None);
    let tile: Vec<u8> = (0..36).rev().map(|i| (i * 7 % 3) as u8).collect();
    assert_eq!(found.tile.unwrap().as_flattened(), tile);
}

#[test]
fn every_cut_and_every_changed_byte_is_refused_or_stays_inside() {
    let whole = file();
    let inside = |file: &[u8]| {
        if let Ok(found) = read(file) {
            assert!(found.stream.start <= found.stream.end && found.stream.end <= file.len());
            assert_eq!(file[found.stream.start..found.stream.start + 2], STREAM);
            for length in [0, 16, 10_000] {
                if let Ok(new) = found.around(file, 100, length) {
                    assert!(new.head.len() + new.tail.len() <= file.len());
                }
            }
        }
    };
    (0..whole.len()).for_each(|n| inside(&whole[..n]));
    for at in 0..whole.len() {
        for value in [0, 1, 0x49, 0x7F, 0x80, 0xFF] {
            let mut file = whole.clone();
            file[at] = value;
            inside(&file);
            // Two bytes at once, and four.
            let end = (at + 4).min(file.len());
            file[at..end].fill(value);
            inside(&file);
        }
    }
}

#[test]
fn refusals() {
    let whole = file();
    let with = |at: usize, bytes: &[u8]| {
        let mut file = whole.clone();
        file[at..at + bytes.len()].copy_from_slice(bytes);
        read(&file).unwrap_err()
    };
    assert_eq!(with(9, b"x"), Unfit::Spoilt);
    assert_eq!(read(&whole[..0x68]).unwrap_err(), Unfit::Short);
    assert_eq!(with(0x64, &four(0)), Unfit::NoRawData);
    assert_eq!(with(0x64, &four(656)), Unfit::NoRawData);
    assert_eq!(with(0x64, &four(u32::MAX)), Unfit::NoRawData);
    let (first, second) = (Unfit::Directory("the first directory"), Unfit::Directory("the second directory"));
    assert_eq!(with(256 + 4, &four(400)), first);
    assert_eq!(with(256 + 8, &[0xFF, 0xFF]), first);
    assert_eq!(with(256 + 18, &four(u32::MAX)), second);
    assert_eq!(with(256 + 26, &[0xFF, 0xFF]), second);
    // To its own directory, which has no such tag.
    assert_eq!(with(256 + 18, &four(8)), Unfit::NoStream(0xF007));
    assert_eq!(with(256 + 10, &[0xF0, 0x01]), Unfit::NoStream(0xF000));
    // Tag 0xF007 is the fourth entry: two numbers are none, and one past the end leads nowhere.
    let stream = 256 + 28 + 3 * 12;
    assert_eq!(with(stream + 4, &four(2)), Unfit::NoStream(0xF007));
    assert_eq!(with(stream + 8, &four(400)), Unfit::PastEnd(656));
    assert_eq!(with(stream + 8, &four(u32::MAX)), Unfit::PastEnd(256 + u32::MAX as u64));
    // What lies there is no stream; by its length it is samples of 14 bits.
    assert_eq!(with(stream + 8, &four(130)), Unfit::NoSignature(386, [1, 16]));
    let mut plain = whole.clone();
    plain[stream + 8..stream + 12].copy_from_slice(&four(130));
    plain[stream + 20..stream + 24].copy_from_slice(&four(768 * 144 * 7 / 4));
    assert_eq!(read(&plain).unwrap_err(), Unfit::Uncompressed(Some(14)));
}

#[test]
fn files_of_other_makers_by_their_first_bytes() {
    let tiff = |make: &str| {
        let mut all = b"II*\0\x08\0\0\0\x01\0\x0F\x01\x02\0".to_vec();
        all.extend((make.len() as u32 + 1).to_le_bytes());
        all.extend(26u32.to_le_bytes());
        all.extend([0; 4]);
        all.extend(make.bytes());
        all.push(0);
        all
    };
    let named = |file: &[u8]| maker(file).unwrap_or_default();
    assert_eq!(named(b"II*\0\x10\0\0\0CR\x02\0"), "a Canon camera file (CR2)");
    assert_eq!(named(b"\0\0\0\x18ftypcrx \0\0"), "a Canon camera file (CR3)");
    assert_eq!(named(&tiff("NIKON CORPORATION")), "a Nikon camera file (NEF)");
    assert_eq!(named(&tiff("SONY")), "a Sony camera file (ARW)");
    assert_eq!(named(&tiff("Somebody")), "a TIFF file");
    assert_eq!(named(b"IIRO\x08\0\0\0"), "an Olympus camera file (ORF)");
    assert_eq!(named(b"IIU\0\x18\0\0\0"), "a Panasonic camera file (RW2)");
    assert_eq!(named(b"MM\0*\0\0\0\x08\0\x01\xC6\x12\0\x01\0\0\0\x04\x01\x04\0\0\0\0\0\0"), "a camera file of the form DNG");
    assert_eq!(named(b"II*\0\xFF\xFF\xFF\xFF"), "a damaged TIFF file");
    assert_eq!(maker(b"IS\x01\0\x0E"), None);
    assert_eq!(maker(b""), None);
}
