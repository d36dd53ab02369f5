//! Outputs: whole or not at all, under one name, whatever happens; and nothing is replaced unasked.
mod folder;

use common::random::Random;
use common::stream::{Header, encoded};
use folder::{Folder, sample, stream, text};
use std::fs::{self, File};
use std::path::Path;
use std::process::{Command, Output, Stdio};
use std::time::{Duration, Instant};

const PROGRAM: &str = env!("CARGO_BIN_EXE_fujiraw");

fn bash(f: &Folder, line: &str) -> Output {
    let path = format!("{}:{}", Path::new(PROGRAM).parent().unwrap().display(), std::env::var("PATH").unwrap());
    Command::new("bash").args(["-c", line]).env("PATH", path).current_dir(&f.0).output().unwrap()
}

#[test]
fn pipes_by_their_names() {
    let f = Folder::new("pipes");
    f.put("a.fcs", &stream());
    f.works("decode a.fcs a.pgm");
    let wanted = f.get("a.pgm");
    for line in [
        "fujiraw decode a.fcs /dev/stdout",
        "fujiraw decode a.fcs /dev/stdout | cat",
        "fujiraw decode a.fcs /dev/fd/1 | cat",
        "fujiraw decode a.fcs /proc/self/fd/1 | cat",
        "fujiraw decode a.fcs /dev/fd/3 3>&1 >/dev/null | cat",
        "fujiraw decode a.fcs >(cat) --quiet | cat",
        "fujiraw decode a.fcs /dev/stdout > out; cat out; rm out",
        "fujiraw decode a.fcs /dev/fd/3 3> out >/dev/null; cat out; rm out",
        "ln -s /dev/stdout link; fujiraw decode a.fcs link | cat; rm link",
        "mkfifo pipe; fujiraw decode a.fcs pipe -q & cat pipe; wait; rm pipe",
    ] {
        let out = bash(&f, line);
        assert_eq!((out.status.code(), text(&out.stderr)), (Some(0), String::new()), "{line}");
        assert!(out.stdout == wanted, "{line}: {} bytes", out.stdout.len());
    }
    assert_eq!(f.names(), ["a.fcs", "a.pgm"]);
    // What was in a file before stays there with >>.
    bash(&f, "echo before > log; fujiraw decode a.fcs /dev/stdout >> log");
    assert!(f.get("log") == [b"before\n", &wanted[..]].concat());
}

#[test]
fn names_of_any_length() {
    let f = Folder::new("long");
    f.put("a.fcs", &stream());
    // 255 bytes are the most that a name may have.
    for length in [250, 255] {
        let name = "n".repeat(length);
        f.works(&format!("decode a.fcs {name} --quiet"));
        f.works(&format!("decode a.fcs {name} --quiet --force"));
        assert!(f.get(&name).starts_with(b"P5\n"));
    }
    let name = "n".repeat(256);
    f.fails(&format!("decode a.fcs {name}"), &format!("cannot write {name}: file name too long"));
}

#[test]
fn nothing_is_replaced_unasked() {
    let f = Folder::new("asked");
    f.put("a.fcs", &stream());
    f.put("states", b"");
    let bases = "--base 1";
    for command in ["decode a.fcs", "tighten a.fcs", &format!("copy {bases} a.fcs"), "lines a.fcs 0", "save a.fcs 0 0", "lamp a.fcs --svg"]
    {
        f.put("old", b"old");
        f.fails(&format!("{command} old"), "cannot write old: it already exists; use --force (-f) to replace it");
        assert_eq!(f.get("old"), b"old");
        for force in ["-f", "--force"] {
            f.put("old", b"old");
            f.works(&format!("{command} old {force}"));
            assert_ne!(f.get("old"), b"old", "{command}");
        }
    }
    // A device is no file that could be lost.
    f.works("decode a.fcs /dev/null -q");
    // The output may stand anywhere.
    f.works("decode -o first.pgm a.fcs");
    f.works("decode --output=second.pgm a.fcs");
    assert!(f.get("first.pgm") == f.get("second.pgm"));
}

#[test]
fn format_follows_the_ending() {
    let f = Folder::new("ending");
    f.put("a.fcs", &stream());
    for (name, begin) in
        [("a.png", &b"\x89PNG"[..]), ("a.PNG", b"\x89PNG"), ("a.pgm", b"P5\n"), ("plain", b"P5\n"), ("a.raw", &2u16.to_le_bytes())]
    {
        f.works(&format!("decode a.fcs {name}"));
        assert!(f.get(name).starts_with(begin), "{name}");
    }
    assert_eq!(f.get("a.raw").len(), 2 * 768 * 12);
    for ending in ["tiff", "jpg", "dng", "raf"] {
        f.is_wrong(
            &format!("decode a.fcs a.{ending}"),
            &format!("decode writes .png, .pgm and .raw, not .{ending}: change the name a.{ending}, or use --format"),
        );
    }
    // Who asks for it gets it.
    f.works("decode a.fcs a.tiff --format pgm");
    f.is_wrong("decode a.fcs small.raw --preview", "a preview is pgm or png");
}

#[test]
fn preview_says_its_own_size() {
    let f = Folder::new("small");
    f.put("a.fcs", &stream());
    assert_eq!(f.works("decode a.fcs a.png --preview"), "a.png: 128 x 2 samples, 12 bits, tile rggb, a small picture\n");
    assert_eq!(f.get("a.png")[16..24], [0, 0, 0, 128, 0, 0, 0, 2]);
}

#[test]
fn part_of_a_truncated_stream() {
    let f = Folder::new("partial");
    let header = Header::new(true, false, 12, 1560, 4);
    let want = |b: usize, n: usize, line: usize, p: usize| (1000 * b + 300 * n + 10 * line + p % 7) as u16;
    let whole = encoded(&header, &[], &mut |b, n, line, p| want(b, n, line, p));
    f.put("a.fcs", &whole);
    f.works("decode a.fcs whole.raw");
    // The second of three blocks is cut, and the third is gone.
    let block = (whole.len() - 32) / 3;
    f.put("cut.fcs", &whole[..32 + block + 2 * block / 3]);
    f.fails("decode cut.fcs out.raw", "refusal 14: block 1, line 2: a line is truncated; use --partial to write the rows before it");
    let out = f.run("decode cut.fcs part.raw --partial");
    assert_eq!(out.status.code(), Some(1));
    assert_eq!(text(&out.stdout), "part.raw: 1560 x 24 samples, 12 bits, tile rggb\n");
    let says = "refusal 14: block 1, line 2: a line is truncated; a partial picture was written, with 0 for what is missing:\n  columns 768 to 1535: rows 0 to \
                11 decoded\n  columns 1536 to 1559: no rows\n";
    assert_eq!(text(&out.stderr), says);
    let (part, whole) = (f.get("part.raw"), f.get("whole.raw"));
    for (i, (a, b)) in part.chunks(2).zip(whole.chunks(2)).enumerate() {
        let (row, column) = (i / 1560, i % 1560);
        let is_there = column < 768 || column < 1536 && row < 12;
        assert_eq!(a, if is_there { b } else { &[0, 0] }, "row {row}, column {column}");
    }
    // Of a whole stream it changes nothing.
    f.works("decode a.fcs same.raw --partial");
    assert!(f.get("same.raw") == whole);
}

/// Drafts that killed runs left are removed by the next one; those of runs that live are not, nor are other files.
#[test]
fn drafts_that_were_left_are_removed() {
    let f = Folder::new("drafts");
    f.put("a.fcs", &stream());
    f.put(".fujiraw-1-0.part", b"left");
    f.put(".fujiraw-2-7.part", b"held");
    f.put(".other.part", b"other");
    f.put("fujiraw-3-0.part", b"shown");
    let held = File::open(f.0.join(".fujiraw-2-7.part")).unwrap();
    held.lock().unwrap();
    f.works("decode a.fcs a.pgm");
    assert_eq!(f.names(), [".fujiraw-2-7.part", ".other.part", "a.fcs", "a.pgm", "fujiraw-3-0.part"]);
    drop(held);
    // A program that another test starts just then has the file too, and so the lock, until it runs.
    while File::open(f.0.join(".fujiraw-2-7.part")).unwrap().try_lock().is_err() {
        std::thread::sleep(Duration::from_millis(5));
    }
    f.works("decode a.fcs a.pgm -f");
    assert_eq!(f.names(), [".other.part", "a.fcs", "a.pgm", "fujiraw-3-0.part"]);
}

/// Killed at any moment, the old file or the new one is there, whole, and the next run leaves nothing else.
#[test]
fn killed_at_random_moments() {
    let f = Folder::new("killed");
    let header = Header::new(true, false, 14, 768, 30);
    f.put("a.fcs", &encoded(&header, &[], &mut |_, n, line, p| (211 * n + 37 * line + p) as u16));
    f.works("tighten a.fcs tight.fcs");
    f.works("decode a.fcs new.raw");
    let (new, old) = (f.get("new.raw"), vec![7; 300_000]);
    let start = Instant::now();
    f.works("decode a.fcs new.raw -f -q");
    let mut usual = start.elapsed().as_micros() as u64;
    let (mut random, mut kept, mut made, mut fresh, mut absent) = (Random::new(2026), 0, 0, 0, 0);
    for turn in 0..300 {
        f.put("out.raw", &old);
        let _ = fs::remove_file(f.0.join("fresh.raw"));
        // Every second one to a name that is not there yet.
        let line: &[&str] =
            if turn % 2 == 0 { &["decode", "a.fcs", "out.raw", "-f", "-q"] } else { &["decode", "a.fcs", "fresh.raw", "-q"] };
        let mut child = Command::new(PROGRAM).args(line).current_dir(&f.0).stdout(Stdio::null()).stderr(Stdio::null()).spawn().unwrap();
        std::thread::sleep(Duration::from_micros(random.below(usual * 3 / 2)));
        let _ = child.kill();
        // About half of the runs shall end by themselves, on a busy machine too: then many are killed near their end.
        let ended = child.wait().unwrap().success();
        usual = if ended { usual * 31 / 32 } else { usual * 33 / 32 + 1 };
        let there = f.get("out.raw");
        assert!(there == old || turn % 2 == 0 && there == new, "turn {turn}: {} bytes", there.len());
        kept += (turn % 2 == 0 && there == old) as usize;
        made += (there == new) as usize;
        match fs::read(f.0.join("fresh.raw")) {
            Ok(bytes) => {
                assert!(bytes == new, "turn {turn}: {} bytes", bytes.len());
                fresh += 1;
            }
            Err(_) => absent += (turn % 2 == 1) as usize,
        }
    }
    println!("replaced: {kept} kept, {made} new; fresh: {absent} absent, {fresh} there");
    assert!(kept > 0 && made > 0 && fresh > 0 && absent > 0, "{kept} {made} {absent} {fresh}");
    f.works("decode a.fcs out.raw -f -q");
    let _ = fs::remove_file(f.0.join("fresh.raw"));
    assert_eq!(f.names(), ["a.fcs", "new.raw", "out.raw", "tight.fcs"]);
}

/// A folder that goes away while the program works, and one that may not be written to.
#[test]
fn folders_that_cannot_be_written_to() {
    let f = Folder::new("gone");
    f.put("a.fcs", &stream());
    f.fails("decode a.fcs none/a.pgm", "cannot write none/a.pgm: no such file or directory");
    f.fails("tighten a.fcs none/a.fcs", "cannot write none/a.fcs: no such file or directory");
    fs::create_dir(f.0.join("going")).unwrap();
    let out = bash(&f, "{ sleep 0.3; cat a.fcs; } | fujiraw decode - going/a.pgm & sleep 0.1; rmdir going; wait $!");
    assert_eq!((out.status.code(), text(&out.stderr).as_str()), (Some(1), "cannot write going/a.pgm: no such file or directory\n"));
    // A disk that is full: 64 kB for the whole system, where a mount is allowed.
    fs::create_dir(f.0.join("disk")).unwrap();
    let mounted = Command::new("mount").args(["-t", "tmpfs", "-o", "size=64k", "none", "disk"]).current_dir(&f.0).output();
    if mounted.is_ok_and(|o| o.status.success()) {
        f.put("disk/old", b"old");
        let wide = encoded(&Header::new(true, false, 14, 768, 30), &[], &mut |_, _, line, p| (37 * line + p) as u16);
        f.put("wide.fcs", &wide);
        let out = f.run("decode wide.fcs disk/old -f");
        let said = (out.status.code(), text(&out.stderr));
        let names = Folder(f.0.join("disk")).names_only();
        let old = f.get("disk/old");
        Command::new("umount").arg("disk").current_dir(&f.0).output().unwrap();
        assert_eq!(said, (Some(1), "cannot write disk/old: no space left on device\n".to_string()));
        assert_eq!((names, old), (vec!["old".to_string()], b"old".to_vec()));
    }
}

#[test]
fn samples_are_those_of_the_stream() {
    let f = Folder::new("samples");
    f.put("a.fcs", &stream());
    f.works("decode a.fcs a.raw");
    let wanted: Vec<u8> = (0..12).flat_map(|y| (0..768).flat_map(move |x| sample(x, y).to_le_bytes())).collect();
    assert!(f.get("a.raw") == wanted);
}
