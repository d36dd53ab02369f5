//! Camera files: every command takes one, the tile comes from it, and what is wrong with one is said.
mod camera;
mod folder;

use camera::{Camera, STORED, by_libraw, raf};
use common::pictures::scene;
use common::random::Random;
use common::stream::{Header, encoded};
use folder::{Folder, text};

/// A stream of noise and edges: two blocks, the second narrower.
fn made(xtrans: bool, bits: u8, seed: u64) -> Vec<u8> {
    let mut random = Random::new(seed);
    let largest = (1u32 << bits) - 1;
    encoded(&Header::new(true, xtrans, bits, 960, 5), &[], &mut |_, n, line, p| scene(seed, largest, n, line, p, &mut random))
}

fn samples(f: &Folder, name: &str) -> Vec<u16> {
    f.works(&format!("decode {name} - --format raw"));
    let out = f.run(&format!("decode {name} - --format raw")).stdout;
    out.chunks(2).map(|b| u16::from_le_bytes([b[0], b[1]])).collect()
}

/// All forms of one stream.
fn forms(xtrans: bool) -> Vec<(&'static str, Camera)> {
    // LibRaw takes every file with this tag for X-Trans.
    let colours = xtrans.then(|| STORED.to_vec());
    let plain = Camera { colours, ..Camera::default() };
    vec![
        ("little", plain.clone()),
        ("big", Camera { big: true, ..plain.clone() }),
        ("older", Camera { older: true, ..plain.clone() }),
        ("behind", Camera { behind: true, ..plain.clone() }),
        ("unsaid", Camera { length: Some(0), ..plain.clone() }),
        ("longer", Camera { length: Some(u32::MAX), ..plain }),
    ]
}

#[test]
fn every_form_shows_the_stream_s_picture() {
    let f = Folder::new("forms");
    for (xtrans, bits, seed) in [(false, 14, 10), (true, 14, 5), (false, 12, 7), (true, 16, 4)] {
        let stream = made(xtrans, bits, seed);
        f.put("a.fcs", &stream);
        let wanted = samples(&f, "a.fcs");
        for (name, camera) in forms(xtrans) {
            f.put("a.raf", &raf(&stream, &camera));
            assert!(samples(&f, "a.raf") == wanted, "{name}, {bits} bits, X-Trans {xtrans}");
            if let Some(theirs) = (name != "longer").then(|| by_libraw(&f.0, "a.raf")).flatten() {
                assert!(theirs == wanted, "LibRaw, {name}, {bits} bits, X-Trans {xtrans}");
            }
        }
    }
}

#[test]
fn every_command_takes_one() {
    let f = Folder::new("commands");
    let stream = made(false, 14, 3);
    f.put("a.fcs", &stream);
    f.put("a.raf", &raf(&stream, &Camera::default()));
    for command in ["check", "info --blocks", "size", "lamp"] {
        let said = f.works(&format!("{command} a.raf"));
        assert!(said.starts_with("a.raf: "), "{command}: {said}");
    }
    assert_eq!(f.works("compare a.raf a.fcs"), "a.raf and a.fcs show the same picture\n");
    for (command, out) in [("lines", "1"), ("save", "all 2"), ("decode", "")] {
        f.works(&format!("{command} a.raf {out} from_raf --force"));
        f.works(&format!("{command} a.fcs {out} from_stream --force"));
        assert!(f.get("from_raf") == f.get("from_stream"), "{command}");
    }
    // As a header.
    f.works("lines a.fcs 0 set");
    f.works("write a.raf set block");
    f.works("write a.fcs set block2");
    assert!(f.get("block") == f.get("block2"));
    assert_eq!(f.works("size a.raf --samples set"), f.works("size a.fcs --samples set"));
    let mut lossy = stream.clone();
    lossy[2] = 0;
    f.put("lossy.raf", &raf(&lossy, &Camera::default()));
    f.put("plan", b"0\t4\t7\n");
    f.works("plan lossy.raf plan bases");
    assert_eq!(f.get("bases"), [7; 5]);
    // Through standard input too.
    let piped = std::process::Command::new("sh")
        .args(["-c", &format!("cat a.raf | {} check -", env!("CARGO_BIN_EXE_fujiraw"))])
        .current_dir(&f.0)
        .output()
        .unwrap();
    assert!(text(&piped.stdout).starts_with("standard input: tight, "), "{}", text(&piped.stdout));
}

#[test]
fn the_tile_comes_from_the_file() {
    let f = Folder::new("tile");
    let stream = made(true, 14, 2);
    f.put("a.fcs", &stream);
    // Any layout, here one that no camera has: random colours.
    let mut random = Random::new(9);
    let tile: Vec<u8> = (0..36).map(|_| random.below(3) as u8).collect();
    let digits: String = tile.iter().map(u8::to_string).collect();
    let colours: Vec<u8> = tile.iter().rev().copied().collect();
    f.put("a.raf", &raf(&stream, &Camera { colours: Some(colours), ..Camera::default() }));
    f.works(&format!("decode a.fcs wanted.raw --tile {digits}"));
    assert_eq!(f.works("decode a.raf got.raw"), format!("got.raw: 960 x 30 samples, 14 bits, tile {digits}\n"));
    assert!(f.get("got.raw") == f.get("wanted.raw"));
    if let Some(theirs) = by_libraw(&f.0, "a.raf") {
        assert!(theirs == samples(&f, "a.raf"), "LibRaw");
    }
    // Another one that is named wins.
    f.works("decode a.raf named.raw --tile xtrans");
    f.works("decode a.fcs usual.raw");
    assert!(f.get("named.raw") == f.get("usual.raw") && f.get("named.raw") != f.get("got.raw"));
    assert!(f.works("info a.raf").contains(&format!("\n  tile {digits} (from the camera file)\n")));
    // Without the tag, with half of it, and with a colour that is none: the usual one, and a warning.
    let none = "warning: the file names no colours (tag 0x0131): the usual X-Trans tile is taken\n";
    let bad = "warning: the file's colours (tag 0x0131) are not 36 numbers from 0 to 2: they are not used\n";
    for (colours, warning) in [(None, none), (Some(vec![1; 18]), bad), (Some(vec![3; 36]), bad)] {
        f.put("b.raf", &raf(&stream, &Camera { colours, ..Camera::default() }));
        f.works("decode b.raf other.raw -f");
        assert!(f.get("other.raw") == f.get("usual.raw"));
        assert!(f.works("info b.raf").contains(warning));
    }
    // A Bayer stream is RGGB, whatever the tag says.
    let bayer = made(false, 14, 2);
    f.put("c.fcs", &bayer);
    f.put("c.raf", &raf(&bayer, &Camera { colours: Some(STORED.to_vec()), ..Camera::default() }));
    assert!(samples(&f, "c.raf") == samples(&f, "c.fcs"));
    assert!(
        f.works("info c.raf").contains("warning: the file names X-Trans colours (tag 0x0131), but the stream is Bayer: rggb is taken\n")
    );
}

#[test]
fn info_shows_the_camera_and_warns() {
    let f = Folder::new("camera");
    let stream = made(true, 14, 1);
    let camera = Camera { colours: Some(STORED.to_vec()), ..Camera::default() };
    let file = raf(&stream, &camera);
    f.put("a.raf", &file);
    let said = f.works("info a.raf");
    let start = file.len() - stream.len();
    let wanted = format!(
        "a.raf: {} bytes\n  camera file (RAF), X-Test, taken 2026-11-17 09:30:00\n  raw picture 960 x 30\n  crop 936 x 24 at column 12, row 6\n  \
         stream at byte {start}, {} bytes\n  X-Trans, lossless, 14 bits, 960 x 30 samples\n",
        file.len(),
        stream.len()
    );
    assert!(said.starts_with(&wanted), "{said}");
    assert!(!said.contains("warning"), "{said}");
    // LibRaw decodes by the stream where the file says otherwise; so does this.
    let wrong = Camera { full: Some([984, 36, 12]), ..camera.clone() };
    f.put("b.raf", &raf(&stream, &wrong));
    let said = f.works("info b.raf");
    for warning in
        ["width (tag 0xF001) 984, the stream 960", "height (tag 0xF002) 36, the stream 30", "bits (tag 0xF003) 12, the stream 14"]
    {
        assert!(said.contains(&format!("  warning: the file says {warning}: the stream decides\n")), "{said}");
    }
    assert!(samples(&f, "b.raf") == samples(&f, "a.raf"));
    // A size that another reader would take for samples that are not compressed: a wrong picture there, the right one
    // here.
    f.put("c.raf", &raf(&stream, &Camera { length: Some(960 * 30 * 7 / 4), ..camera }));
    assert!(samples(&f, "c.raf") == samples(&f, "a.raf"));
}

#[test]
fn lengths_that_are_too_short_cut_the_stream() {
    let f = Folder::new("short");
    let stream = made(false, 14, 2);
    let short = stream.len() as u32 - 1000;
    f.put("a.raf", &raf(&stream, &Camera { length: Some(short), ..Camera::default() }));
    let cut = "refusal 14: block 1, line 4: a line is truncated";
    f.fails("decode a.raf out", &format!("{cut}; use --partial to write the rows before it"));
    let own = stream.len();
    let said = f.works("info a.raf");
    let warning =
        format!("warning: the file says {short} bytes of stream (tag 0xF008), the stream's own sizes make {own}: it is cut there\n");
    assert!(said.contains(&warning), "{said}");
    // A file that is cut off is damaged.
    let whole = raf(&stream, &Camera::default());
    f.put("b.raf", &whole[..whole.len() - 1000]);
    let said = f.works("info b.raf");
    assert!(
        said.contains(&format!("warning: the file says {own} bytes of stream (tag 0xF008) and has {short}: it is cut off\n")),
        "{said}"
    );
    assert_eq!(f.run("check b.raf").status.code(), Some(4));
}

#[test]
fn what_is_no_compressed_camera_file_is_named() {
    let f = Folder::new("others");
    let plain = Camera { full: Some([768, 12, 14]), length: Some(768 * 12 * 2), ..Camera::default() };
    f.put("plain.raf", &raf(&[7; 768 * 12 * 2], &plain));
    let camera = "this is a Fuji camera file (RAF), ";
    for command in ["info", "decode -f -o out", "check", "tighten -f -o out"] {
        let out = f.run(&format!("{command} plain.raf"));
        let said = text(&out.stdout) + &text(&out.stderr);
        let wanted = format!("{camera}and its samples of 14 bits are not compressed, so there is no stream to read\n");
        assert!(said.ends_with(&wanted), "{command}: {said}");
        assert_eq!(out.status.code(), Some(if command == "check" { 5 } else { 1 }), "{command}");
    }
    // Samples that begin as a stream does are no stream all the same.
    f.put("like.raf", &raf(&[&[0x49, 0x53][..], &[7; 768 * 12 * 2 - 2]].concat(), &plain));
    f.fails("info like.raf", &format!("{camera}and its samples are not compressed, so there is no stream to read"));
    f.put("cr2", b"II*\0\x10\0\0\0CR\x02\0\0\0\0\0");
    f.fails("decode cr2 out", "this is a Canon camera file (CR2), not a Fuji stream");
    f.put("jpeg", b"\xFF\xD8\xFF\xE1\0\0\0\0\0\0\0\0\0\0\0\0");
    f.fails("info jpeg", "this is a JPEG picture, not a Fuji stream");
    let stream = made(false, 14, 2);
    let whole = raf(&stream, &Camera::default());
    f.put("short", &whole[..80]);
    f.fails("info short", &format!("{camera}but it is cut off within its first 108 bytes"));
    f.put("shorter", &whole[..200]);
    f.fails("info shorter", &format!("{camera}but the raw data that it names at byte 100 are not in the file: it is cut off or damaged"));
    let mut spoilt = whole.clone();
    spoilt[10] = b'x';
    f.put("spoilt", &spoilt);
    f.fails("info spoilt", "this begins like a Fuji camera file (RAF), but its 16-byte signature is damaged");
    // The stream's own header decides, and the broken rule is named.
    let mut odd = stream.clone();
    odd[4] = 13;
    f.put("odd.raf", &raf(&odd, &Camera { full: Some([960, 30, 14]), ..Camera::default() }));
    let at = whole.len() - stream.len();
    let rule = "the bits a sample (byte 4) is 13, and must be 12, 14 or 16";
    f.fails("info odd.raf", &format!("the stream at byte {at}: refusal 2: a header rule is broken: {rule}"));
}
