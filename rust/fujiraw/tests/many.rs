//! Many files: folders, sums, objects for other programs, the lamp.
mod camera;
mod folder;

use camera::{Camera, raf};
use common::stream::{Header, encoded};
use folder::{Folder, stream, text};
use std::fs;
use std::process::Command;

/// A folder of sheets, with other things in it: c.raf is damaged, d.fcs is none.
fn archive(name: &str) -> Folder {
    let f = Folder::new(name);
    fs::create_dir_all(f.0.join("in/deep/deeper")).unwrap();
    fs::create_dir_all(f.0.join("out")).unwrap();
    let file = raf(&stream(), &Camera::default());
    f.put("in/b.RAF", &file);
    f.put("in/a.fcs", &stream());
    f.put("in/deep/c.raf", &file[..file.len() - 50]);
    f.put("in/deep/deeper/noending", &stream());
    f.put("in/deep/d.fcs", b"not a stream at all, but so named");
    f.put("in/notes.txt", b"some words about the sheets of this folder");
    f.put("in/.hidden.raf", &file);
    // A link to a folder above is not followed.
    std::os::unix::fs::symlink("..", f.0.join("in/deep/up")).unwrap();
    f
}

const FOUND: [&str; 5] = ["in/a.fcs", "in/b.RAF", "in/deep/c.raf", "in/deep/d.fcs", "in/deep/deeper/noending"];

#[test]
fn folders_are_searched() {
    let f = archive("search");
    let out = f.run("check in --json");
    assert_eq!((out.status.code(), text(&out.stderr)), (Some(5), String::new()));
    let names: Vec<String> = text(&out.stdout).lines().map(|l| l.split('"').nth(3).unwrap().to_string()).collect();
    assert_eq!(names, FOUND);
    let last = text(&f.run("check in").stdout).lines().last().unwrap().to_string();
    assert_eq!(last, "5 sheets: 3 tight, 1 damaged, 1 cannot be read");
    // Quiet: only what is wrong.
    let quiet = text(&f.run("check in -q").stdout);
    let wrong: Vec<&str> = quiet.lines().filter(|l| !l.starts_with("  ")).map(|l| l.split(':').next().unwrap()).collect();
    assert_eq!(wrong, ["in/deep/c.raf", "in/deep/d.fcs"]);
    let said = text(&f.run("info in").stdout);
    assert_eq!(said.lines().filter(|l| l.starts_with("in/")).count(), 4);
    let said = text(&f.run("info in --json").stdout);
    assert_eq!(said.lines().count(), 5);
    fs::create_dir(f.0.join("empty")).unwrap();
    f.fails("info empty", "empty: no camera files or streams (.raf, .fcs) in this folder");
}

#[test]
fn what_comes_of_a_folder_goes_to_a_folder() {
    let f = archive("there");
    for (command, names, ending) in [
        ("decode", ["a", "b", "deep/deeper/noending"], Some("png")),
        ("tighten", ["a.fcs", "b.RAF", "deep/deeper/noending"], None),
        ("copy --base 1", ["a.fcs", "b.RAF", "deep/deeper/noending"], None),
    ] {
        let format = if ending.is_some() { "--format png" } else { "" };
        let out = f.run(&format!("{command} in out {format}"));
        assert_eq!(out.status.code(), Some(1), "{command}");
        let said = text(&out.stderr);
        assert!(said.ends_with("5 files: 3 done, 2 failed\n"), "{said}");
        for name in names {
            let path = ending.map_or(format!("out/{name}"), |e| format!("out/{name}.{e}"));
            assert!(f.0.join(&path).is_file(), "{path}");
        }
        fs::remove_dir_all(f.0.join("out")).unwrap();
        fs::create_dir(f.0.join("out")).unwrap();
    }
    // An output folder inside is not taken for an input.
    fs::create_dir(f.0.join("in/tight")).unwrap();
    f.run("tighten in in/tight");
    let again = f.run("tighten in in/tight -f");
    assert!(text(&again.stderr).ends_with("5 files: 3 done, 2 failed\n"));
    f.is_wrong("tighten in nowhere", "nowhere is not a folder, but in is: create a folder for the output");
    // Two of one name.
    f.is_wrong("tighten in/a.fcs in/deep/../a.fcs out", "two outputs would be written to out/a.fcs");
}

#[test]
fn sizes_of_sheets_and_of_all() {
    let f = archive("sizes");
    // Two blocks of one line, 14 bits, all samples 0: the writer's tests have 848 bytes for such a block; 32 bytes
    // stand before them.
    f.put("zeros.fcs", &encoded(&Header::new(true, false, 14, 1536, 1), &[], &mut |_, _, _, _| 0));
    let bound = 32 + 2 * 32_256;
    let wanted =
        format!("zeros.fcs: as a tight file at most {bound} bytes (64.5 kB), exactly 1728 bytes (1.7 kB), now 1728 bytes (1.7 kB)\n");
    assert_eq!(f.works("size zeros.fcs"), wanted);
    assert_eq!(f.works("size zeros.fcs --at-most"), wanted.replace(", exactly 1728 bytes (1.7 kB)", ""));
    let object = format!("{{\"file\":\"zeros.fcs\",\"bytes\":1728,\"at_most\":{bound},\"exactly\":1728}}\n");
    assert_eq!(f.works("size --json zeros.fcs"), object);
    assert_eq!(f.works("size --json zeros.fcs --at-most"), object.replace("\"exactly\":1728", "\"exactly\":null"));
    // A camera file: what stands beside its stream counts.
    let file = raf(&f.get("zeros.fcs"), &Camera::default());
    f.put("zeros.raf", &file);
    let object = format!("\"bytes\":{},\"at_most\":{},\"exactly\":{}}}\n", file.len(), file.len() - 1728 + bound, file.len());
    assert!(f.works("size --json zeros.raf").ends_with(&object));
    // Two files are two sheets, and then there is a sum.
    let said = f.works("size zeros.fcs zeros.raf");
    let sum = format!("all 2 sheets: as a tight file at most {} bytes ", file.len() - 1728 + 2 * bound);
    assert!(said.lines().count() == 3 && said.lines().last().unwrap().starts_with(&sum), "{said}");
    // What tighten makes is what was said, of a lossy sheet too.
    f.put(
        "lossy.fcs",
        &encoded(&Header::new(false, true, 12, 960, 2), &[vec![2, 3], vec![9, 0]], &mut |b, n, line, p| {
            (90 * b + 40 * n + line * p % 99) as u16
        }),
    );
    f.works("tighten lossy.fcs tight.fcs");
    assert!(f.works("size --json lossy.fcs").ends_with(&format!("\"exactly\":{}}}\n", f.get("tight.fcs").len())));
    // A folder; what cannot be measured is left out, and said.
    let out = f.run("size in");
    assert_eq!(out.status.code(), Some(1));
    assert!(text(&out.stdout).lines().last().unwrap().ends_with(", without 2 that could not be measured"));
    assert_eq!(text(&out.stderr).lines().count(), 2);
    assert_eq!(text(&f.run("size in --json").stdout).lines().filter(|l| l.contains("\"error\":")).count(), 2);
}

#[test]
fn size_of_one_block() {
    let f = Folder::new("block");
    let mut header = [0x49, 0x53, 1, 0, 14, 0, 6, 3, 0, 3, 0, 3, 0, 1, 0, 1];
    f.put("header", &header);
    f.put("zeros", &[0; 2 * 12 * 384]);
    assert_eq!(f.works("size header"), "header: as a tight file at most 32288 bytes (32.3 kB)\n");
    assert_eq!(f.works("size header --samples zeros"), "zeros: one block, exactly 848 bytes\n");
    assert_eq!(f.works("size header --samples zeros --json"), "{\"file\":\"zeros\",\"block_bytes\":848}\n");
    f.works("write header zeros block");
    assert_eq!((f.get("block").len(), f.names()), (848, vec!["block".to_string(), "header".to_string(), "zeros".to_string()]));
    f.put("high", &[&[0, 0, 0, 64], &[0; 2 * 12 * 384 - 4][..]].concat());
    f.put("few", &[0; 2 * 12 * 384 - 2]);
    f.put("half", &[0; 2 * 12 * 384 - 1]);
    f.put("empty", b"");
    f.fails("size empty", "empty: refusal 1: fewer than 16 bytes of header: there are 0");
    f.fails("size zeros", "zeros: refusal 2: a header rule is broken: not a stream: it begins with 00 00, and streams begin with 49 53");
    f.fails("size missing", "missing: cannot read missing: no such file or directory");
    let wanted = "there are 4607, and 4608 are needed (1 line of 12 colour lines of 384)";
    f.fails("size header --samples few", &format!("few: refusal 9: the number of samples is not the block's: {wanted}"));
    f.fails("size header --samples half", "half has half a sample at its end: samples are two bytes each");
    f.fails("size header --samples missing", "cannot read missing: no such file or directory");
    f.fails("size header --samples high", "refusal 11: sample 1: a sample is above the largest: with 14 bits the largest is 16383");
    header[2] = 0;
    f.put("lossy", &header);
    f.fails("size lossy --samples few", "refusal 8: the stream is lossy: the length of a lossy block depends on its bases");
    f.fails("write lossy few out", "refusal 8: the stream is lossy: give its bases with --bases or --plan");
    f.is_wrong("size", "size needs a file or a folder");
    f.is_wrong("size header zeros --samples zeros", "--samples takes one header");
    f.is_wrong("size - --samples -", "standard input is named twice");
    f.is_wrong("size header --quiet", "size has no option --quiet");
}

/// The header's fields, each wrong in its turn: the message names the field, its value and what it may be.
#[test]
fn the_broken_rule_is_named() {
    let f = Folder::new("rules");
    let header = [0x49, 0x53, 1, 0, 14, 0, 144, 3, 0, 3, 0, 3, 0, 1, 0, 24];
    for (at, bytes, says) in [
        (0, &[0x50][..], "not a stream: it begins with 50 53, and streams begin with 49 53"),
        (2, &[2], "the lossless flag (byte 2) is 2, and must be 0 or 1"),
        (3, &[1], "the raw type (byte 3) is 1, and must be 0 (Bayer) or 16 (X-Trans)"),
        (4, &[13], "the bits a sample (byte 4) is 13, and must be 12, 14 or 16"),
        (5, &[0, 145], "the height (bytes 5 to 6) is 145, and must be a multiple of 6, from 6 to 16386"),
        (7, &[3, 1], "the rounded width (bytes 7 to 8) is 769, and must be a multiple of 768, from 768 to 16896"),
        (9, &[3, 1], "the width (bytes 9 to 10) is 769, and must be a multiple of 24, from 768 to 16896"),
        (9, &[3, 24], "the width (bytes 9 to 10) is 792, and must be at most the rounded width, 768, and at most 767 less"),
        (11, &[3, 1], "the block size (bytes 11 to 12) is 769, and must be 768"),
        (13, &[2], "the number of blocks (byte 13) is 2, and must be the rounded width by 768, 1, and at most 16"),
        (14, &[0, 25], "the number of lines (bytes 14 to 15) is 25, and must be the height by 6, 24"),
    ] {
        let mut wrong = header;
        wrong[at..at + bytes.len()].copy_from_slice(bytes);
        f.put("wrong", &[&wrong[..], &[0; 64]].concat());
        f.fails("info wrong", &format!("refusal 2: a header rule is broken: {says}"));
    }
}

#[test]
fn lamp_as_rows() {
    let f = Folder::new("rows");
    let header = Header::new(true, false, 12, 1536, 3);
    // Line 1 has noise, and so more bits.
    let want = |b: usize, n: usize, line: usize, p: usize| if n == 1 { ((p * 7919 + line * 104_729 + b) % 4096) as u16 } else { 100 };
    let whole = encoded(&header, &[], &mut |b, n, line, p| want(b, n, line, p));
    f.put("a,b.raf", &raf(&whole, &Camera::default()));
    let rows = f.works("lamp a,b.raf --csv");
    let lines: Vec<&str> = rows.lines().collect();
    assert_eq!((lines.len(), lines[0]), (3, "file,time,block,verdict,lines,bits,bits_per_line,long_codes"));
    // The same numbers as check's.
    let checked = f.works("check a,b.raf --json");
    let number = |text: &str, name: &str| -> u64 {
        let from = text.find(&format!("\"{name}\":")).unwrap() + name.len() + 3;
        text[from..].split([',', '}']).next().unwrap().parse().unwrap()
    };
    let blocks: Vec<&str> = checked.split("{\"block\":").skip(1).collect();
    let mut sums = vec![];
    for (i, block) in blocks.iter().enumerate() {
        let (bits, long) = (number(block, "bits"), number(block, "long_codes"));
        sums.push((bits, long));
        assert_eq!(lines[i + 1], format!("\"a,b.raf\",2026-11-17 09:30:00,{i},tight,3,{bits},{},{long}", bits / 3));
    }
    // Line by line, and they add up.
    let each = f.works("lamp a,b.raf --csv --lines");
    let each: Vec<Vec<&str>> = each.lines().skip(1).map(|l| l.rsplitn(5, ',').collect()).collect();
    assert_eq!(each.len(), 6);
    for b in 0..2 {
        let of: Vec<(u64, u64)> = (0..3).map(|n| (each[3 * b + n][1].parse().unwrap(), each[3 * b + n][0].parse().unwrap())).collect();
        assert_eq!(of.iter().fold((0, 0), |a, l| (a.0 + l.0, a.1 + l.1)), sums[b]);
        assert!(of[1].0 > 2 * of[0].0 && of[1].0 > of[2].0, "{of:?}");
    }
    // A cut sheet: the lines before.
    f.put("cut.fcs", &whole[..whole.len() / 3]);
    let out = f.run("lamp cut.fcs --csv --lines");
    assert_eq!(out.status.code(), Some(1));
    assert!(text(&out.stderr).contains("cut.fcs: block 1, line 0: a line is truncated"), "{}", text(&out.stderr));
    f.is_wrong("lamp a,b.raf --lines", "--lines needs --csv");
    f.is_wrong("lamp a,b.raf --by size", "--by takes name or time: not size");
}

/// Bits and long codes of each line of a tall sheet, against streams that end after that line.
#[test]
fn bits_of_one_line_alone() {
    let f = Folder::new("alone");
    let want = |n: usize, line: usize, p: usize| ((n * n * 13 + line * 97 + p * (n % 5)) % 16_384) as u16;
    let lines = 23;
    let tall = |lines: u16| encoded(&Header::new(true, false, 14, 768, lines), &[], &mut |_, n, line, p| want(n, line, p));
    f.put("a.fcs", &tall(lines));
    let each = f.works("lamp a.fcs --csv --lines");
    let mut before = (0, 0);
    for (n, row) in each.lines().skip(1).enumerate() {
        f.put("b.fcs", &tall(n as u16 + 1));
        let said = f.works("lamp b.fcs --csv");
        let cells: Vec<&str> = said.lines().nth(1).unwrap().split(',').collect();
        let now: (u64, u64) = (cells[5].parse().unwrap(), cells[7].parse().unwrap());
        assert!(row.ends_with(&format!(",0,{n},{},{}", now.0 - before.0, now.1 - before.1)), "{row}: {now:?} {before:?}");
        before = now;
    }
    assert_eq!(each.lines().count(), 1 + lines as usize);
}

#[test]
fn lamp_as_a_picture() {
    let f = Folder::new("picture");
    fs::create_dir(f.0.join("in")).unwrap();
    for i in 0..30usize {
        let level = |n: usize, p: usize| (1000 + (p * 7919 + n * 31) % (10 + 20 * i)) as u16;
        let sheet = encoded(&Header::new(true, false, 14, 768, 2), &[], &mut |_, n, _, p| level(n, p));
        // Names and times run against each other.
        let date: &'static str = Box::leak(format!("2026:11:{:02} 08:00:00", i % 28 + 1).into_boxed_str());
        f.put(&format!("in/s{:02}&<>.raf", 29 - i), &raf(&sheet, &Camera { date, ..Camera::default() }));
    }
    f.put("in/s40.fcs", b"no stream");
    let out = f.run("lamp in --svg lamp.svg");
    assert_eq!((out.status.code(), text(&out.stdout).as_str()), (Some(1), "lamp.svg: bits a line of 30 sheets\n"));
    let svg = text(&f.get("lamp.svg"));
    assert_eq!((svg.matches("<circle ").count(), svg.matches("<polyline ").count(), svg.matches(">×<title>").count()), (30, 1, 1));
    let first = |svg: &str| svg.split("<circle ").nth(1).unwrap().split("<title>").nth(1).unwrap().split(',').next().unwrap().to_string();
    assert_eq!(first(&svg), "in/s00&amp;&lt;&gt;.raf");
    f.run("lamp in --svg lamp.svg --by time -f");
    assert_eq!(first(&text(&f.get("lamp.svg"))), "in/s01&amp;&lt;&gt;.raf");
    // Another reader takes it for well-formed.
    let reader = "import sys, xml.dom.minidom as m; m.parse(sys.argv[1])";
    let read = Command::new("python3").args(["-c", reader, "lamp.svg"]).current_dir(&f.0).output().unwrap();
    assert!(read.status.success(), "{}", text(&read.stderr));
}

/// Every line of --json is an object that another reader takes, also where names have signs that mean something.
#[test]
fn objects_are_read_by_others() {
    let f = archive("objects");
    let name = "in/odd \"name\" \\ \t\u{1}é.fcs";
    f.put(name, &stream());
    let reader = "import sys, json\nfor l in sys.stdin: print(json.loads(l)['file'])";
    for command in ["info", "info --blocks", "check", "size"] {
        let line = format!("'{}' {command} --json in | python3 -c \"$READER\"", env!("CARGO_BIN_EXE_fujiraw"));
        let out = Command::new("sh").args(["-c", &line]).env("READER", reader).current_dir(&f.0).output().unwrap();
        assert!(out.status.success(), "{}", text(&out.stderr));
        assert!(text(&out.stdout).contains(name), "{command}: {}", text(&out.stdout));
        assert_eq!(text(&out.stdout).lines().count(), 6, "{command}");
    }
}
