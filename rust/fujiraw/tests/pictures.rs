//! Pictures that the program writes: the tiles, the formats, the preview.
mod folder;

use folder::{Folder, sample, stream, text};
use make_samples::{LINES, WIDTH, light};
use std::path::Path;
use std::process::Command;

fn put_samples(f: &Folder) {
    for name in ["bayer.fcs", "xtrans.fcs"] {
        let file = Path::new(env!("CARGO_MANIFEST_DIR")).join("../../samples").join(name);
        f.put(name, &std::fs::read(file).unwrap());
    }
}

/// How far the farthest sample of a picture of the page is from the page.
fn farthest(raw: &[u8]) -> u16 {
    assert_eq!(raw.len(), 2 * WIDTH as usize * 6 * LINES as usize);
    let samples = raw.chunks(2).map(|b| u16::from_le_bytes([b[0], b[1]]));
    let width = WIDTH as usize;
    samples.enumerate().map(|(i, v)| v.abs_diff(light((i % width) as i64, (i / width) as i64))).max().unwrap()
}

#[test]
fn usual_tile_shows_the_picture_that_the_encoder_had() {
    let f = Folder::new("tiles");
    put_samples(&f);
    // The X-Trans sample is lossy, with base 2.
    for (stream, tile, most) in [("bayer.fcs", "rggb", 0), ("xtrans.fcs", "xtrans", 2)] {
        let said = f.works(&format!("decode -f {stream} usual --format raw"));
        assert_eq!(said, format!("usual: 768 x 144 samples, 14 bits, tile {tile}\n"));
        assert!(farthest(&f.get("usual")) <= most, "{stream}");
        assert!(f.works(&format!("info {stream}")).contains(&format!("\n  tile {tile} (default)\n")));
        f.works(&format!("decode -f {stream} named --format=raw --tile={tile}"));
        assert_eq!(f.get("named"), f.get("usual"));
        f.works(&format!("decode -f {stream} other --format=raw --tile grbg"));
        assert!(farthest(&f.get("other")) > most, "{stream}");
    }
}

#[test]
fn xtrans_picture_without_a_tile_is_the_one_that_its_encoder_had() {
    let f = Folder::new("xtrans");
    // Neighbours have nothing to do with each other, so a shift shows.
    let picture = |x: i64, y: i64| ((x * 7919 + y * 104_729) % 16_381) as u16;
    let lines: Vec<_> = (0..2).map(|n| make_samples::wanted(true, &make_samples::XTRANS, n, picture)).collect();
    let header = common::stream::Header::new(true, true, 14, 768, 2);
    f.put("a.fcs", &common::stream::encoded(&header, &[], &mut |_, n, line, p| lines[n][line][p]));
    let whole: Vec<u8> = (0..12).flat_map(|y| (0..768).flat_map(move |x| picture(x, y).to_le_bytes())).collect();
    f.works("decode -f a.fcs usual --format raw");
    assert!(f.get("usual") == whole);
    f.works("decode -f a.fcs named --format raw --tile xtrans");
    assert!(f.get("named") == whole);
    // Shifted by a column, as it once was.
    f.works("decode -f a.fcs shifted --format raw --tile 121101101121212010101121121101010212");
    assert!(f.get("shifted") != whole);
}

#[test]
fn tiles_by_name_and_by_digits() {
    let f = Folder::new("names");
    f.put("a.fcs", &stream());
    let named =
        [("rggb", ["010101", "121212"]), ("bggr", ["212121", "101010"]), ("grbg", ["101010", "212121"]), ("gbrg", ["121212", "010101"])];
    for (name, rows) in named {
        let digits = rows.concat().repeat(3);
        assert_eq!(f.works(&format!("decode -f a.fcs a --tile {name}")), format!("a: 768 x 12 samples, 12 bits, tile {name}\n"));
        assert_eq!(f.works(&format!("decode -f a.fcs b --tile {digits}")), format!("b: 768 x 12 samples, 12 bits, tile {name}\n"));
        assert_eq!(f.get("a"), f.get("b"));
    }
    let digits = "0".repeat(36);
    assert_eq!(f.works(&format!("decode -f a.fcs a --tile {digits}")), format!("a: 768 x 12 samples, 12 bits, tile {digits}\n"));
}

/// What another reader of PNG says: width, height, depth, colour type, significant bits, and the rows, each after its
/// filter.
const READER: &str = r#"
import struct, sys, zlib
d = open(sys.argv[1], "rb").read()
assert d[:8] == b"\x89PNG\r\n\x1a\n"
at, data, kinds = 8, b"", []
while at < len(d):
    n, = struct.unpack(">I", d[at:at + 4])
    kind, body = d[at + 4:at + 8], d[at + 8:at + 8 + n]
    assert struct.unpack(">I", d[at + 8 + n:at + 12 + n])[0] == zlib.crc32(kind + body)
    kinds.append(kind)
    if kind == b"IHDR": head = struct.unpack(">IIBBBBB", body)
    if kind == b"sBIT": bits = body[0]
    if kind == b"IDAT": data += body
    at += 12 + n
assert kinds[0] == b"IHDR" and kinds[-1] == b"IEND" and kinds.count(b"IEND") == 1
print(*head, bits, zlib.decompress(data).hex())
"#;

fn read_png(f: &Folder, name: &str) -> String {
    let out = Command::new("python3").args(["-c", READER, name]).current_dir(&f.0).output().unwrap();
    assert!(out.status.success(), "{}", text(&out.stderr));
    text(&out.stdout)
}

#[test]
fn png_holds_the_samples() {
    let f = Folder::new("png");
    f.put("a.fcs", &stream());
    f.works("decode -f a.fcs a.png --format png --region 1,2,5,7");
    // 12 bits, before four zeros.
    let rows: String =
        (2..9).map(|y| "00".to_string() + &(1..6).map(|x| format!("{:04x}", sample(x, y) << 4)).collect::<String>()).collect();
    assert_eq!(read_png(&f, "a.png"), format!("5 7 16 0 0 0 0 12 {rows}\n"));
    // A row of more bytes than a stored block holds.
    f.put("wide.fcs", &common::stream::encoded(&common::stream::Header::new(true, false, 16, 768, 1), &[], &mut |_, _, _, _| 65_535));
    f.works("decode -f wide.fcs a.png --format png");
    let row = "00".to_string() + &"ffff".repeat(768);
    assert_eq!(read_png(&f, "a.png"), format!("768 6 16 0 0 0 0 16 {}\n", row.repeat(6)));
}

#[test]
fn preview_is_the_mean_of_each_tile() {
    let f = Folder::new("preview");
    f.put("a.fcs", &stream());
    // Columns 0 to 9: a whole tile, and four columns of the next.
    assert_eq!(f.works("decode -f a.fcs a.pgm --preview --region 0,0,10,8"), "a.pgm: 2 x 2 samples, 12 bits, tile rggb, a small picture\n");
    let mean = |xs: std::ops::Range<usize>, ys: std::ops::Range<usize>| {
        let all: Vec<u64> = ys.flat_map(|y| xs.clone().map(move |x| sample(x, y) as u64)).collect();
        all.iter().sum::<u64>() / all.len() as u64
    };
    let means = [mean(0..6, 0..6), mean(6..10, 0..6), mean(0..6, 6..8), mean(6..10, 6..8)];
    let most = means.iter().max().unwrap();
    let small: Vec<u8> = means.iter().map(|m| (m * 255 / most) as u8).collect();
    assert_eq!(f.get("a.pgm"), [&b"P5\n2 2\n255\n"[..], &small].concat());
    f.works("decode -f a.fcs a.png --preview --format png --region 0,0,10,8");
    let hex: Vec<String> = small.iter().map(|b| format!("{b:02x}")).collect();
    assert_eq!(read_png(&f, "a.png"), format!("2 2 8 0 0 0 0 8 00{}{}00{}{}\n", hex[0], hex[1], hex[2], hex[3]));
}

#[test]
fn windows_give_the_same_picture() {
    let f = Folder::new("windows");
    put_samples(&f);
    for stream in ["bayer.fcs", "xtrans.fcs"] {
        for part in ["", "--region 3,40,700,50"] {
            let said = f.works(&format!("decode -f {stream} a --format raw {part}"));
            assert_eq!(f.works(&format!("decode -f {stream} b --format raw --windowed {part}")), said.replace("a:", "b:"));
            assert!(f.get("a") == f.get("b"), "{stream} {part}");
        }
        // What is truncated is refused in the same words, and writes no file.
        f.put("cut.fcs", &f.get(stream)[..40_000]);
        let refused = f.run("decode cut.fcs c");
        f.fails("decode cut.fcs c --windowed", text(&refused.stderr).trim_end());
        std::fs::remove_file(f.0.join("cut.fcs")).unwrap();
    }
    f.is_wrong("decode bayer.fcs a --windowed=1", "--windowed takes no value");
    f.is_wrong("check bayer.fcs --windowed", "check has no option --windowed");
}

#[test]
fn region_over_several_blocks_is_a_part_of_the_whole() {
    let f = Folder::new("blocks");
    let header = common::stream::Header::new(true, false, 12, 1560, 2);
    f.put("a.fcs", &common::stream::encoded(&header, &[], &mut |b, n, line, p| (1000 * b + 300 * n + 10 * line + p % 7) as u16));
    f.works("decode -f a.fcs whole --format raw --quiet");
    let whole = f.get("whole");
    for (x, y, width, height) in [(0, 0, 1560, 12), (767, 5, 2, 2), (700, 1, 860, 11), (1536, 0, 24, 12), (3, 7, 1, 1)] {
        f.works(&format!("decode -f a.fcs part --format raw --quiet --region {x},{y},{width},{height}"));
        let rows = (y..y + height).map(|y| &whole[2 * (1560 * y + x)..2 * (1560 * y + x + width)]);
        assert_eq!(f.get("part"), rows.collect::<Vec<_>>().concat(), "{x},{y},{width},{height}");
    }
}

#[test]
fn any_number_of_threads_gives_the_same_picture() {
    let f = Folder::new("threads");
    let header = common::stream::Header::new(true, true, 14, 2304, 3);
    let bytes = common::stream::encoded(&header, &[], &mut |b, n, line, p| (1000 * b + 300 * n + 10 * line + p % 7) as u16);
    f.put("a.fcs", &bytes);
    f.works("decode -f a.fcs one --format raw --quiet --threads 1");
    for threads in ["2", "3", "7", "1024", "1 --windowed", "2 --windowed"] {
        f.works(&format!("decode -f a.fcs more --format raw --quiet --threads {threads}"));
        assert_eq!(f.get("one"), f.get("more"), "{threads}");
    }
    // the lowest block that fails is named, however many are read at a time
    let at = 32 + bytes.len() / 6;
    f.put("cut.fcs", &[&bytes[..at], &vec![0; bytes.len() - at]].concat());
    let said = f.run("decode cut.fcs out --threads 1").stderr;
    assert!(text(&said).contains("block 0, line "), "{}", text(&said));
    for threads in ["2", "3", "3 --windowed"] {
        f.fails(&format!("decode cut.fcs out --threads {threads}"), text(&said).trim_end());
    }
    for wrong in ["0", "x", "-1", "1025"] {
        f.is_wrong(&format!("decode a.fcs out --threads={wrong}"), &format!("--threads takes a number from 1 to 1024: not {wrong}"));
    }
}
