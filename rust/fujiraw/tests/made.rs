//! Tight masters and lossy copies, of streams and of camera files; comparing files; colour lines.
mod camera;
mod folder;

use camera::{Camera, STORED, by_libraw, parts, raf};
use common::encoder::{How, Spoil, encode_spoilt};
use common::pictures::scene;
use common::random::Random;
use common::stream::{Header, encoded};
use folder::{Folder, text};

fn noisy(header: &Header, rows: &[Vec<u8>], seed: u64) -> Vec<u8> {
    let (mut random, largest) = (Random::new(seed), (1u32 << header.bits) - 1);
    encoded(header, rows, &mut |_, n, line, p| scene(seed, largest, n, line, p, &mut random))
}

/// Two blocks of five lines, the second narrower; in each the first code is long and need not be.
fn loose() -> Vec<u8> {
    let header = Header::new(true, false, 14, 960, 5);
    let block = |b: usize| {
        let mut want = |n, line, p| ((37 * p + 211 * line + 5 * n * p + 1000 * (b + 1)) % 16_384) as u16;
        encode_spoilt(14, false, &[], 5, &mut want, Some(Spoil { from: 0, how: How::Long { zeros: 41, code: 1 } })).bytes
    };
    let stream = common::stream::stream(&header, &[], &[block(0), block(1)]);
    // Bytes that belong to no block.
    [&stream[..], &[9; 40]].concat()
}

fn samples(f: &Folder, name: &str) -> Vec<u16> {
    let out = f.run(&format!("decode {name} - --format raw"));
    assert!(out.status.success(), "{name}: {}", text(&out.stderr));
    out.stdout.chunks(2).map(|b| u16::from_le_bytes([b[0], b[1]])).collect()
}

#[test]
fn tighten_gives_the_tight_stream_of_the_same_picture() {
    let f = Folder::new("tighten");
    f.put("a.fcs", &loose());
    assert_eq!(f.run("check a.fcs").status.code(), Some(3));
    let said = f.works("tighten a.fcs b.fcs");
    let length = f.get("b.fcs").len();
    assert!(said.starts_with(&format!("b.fcs: tight, {length} bytes ")), "{said}");
    assert!(said.ends_with("; verified: all 46080 samples read back the same\n"), "{said}");
    assert!(f.works("check b.fcs").starts_with("b.fcs: tight, "));
    assert!(samples(&f, "a.fcs") == samples(&f, "b.fcs"));
    // Once more changes nothing, and any number of threads gives the same bytes.
    for threads in ["1", "2", "7"] {
        f.works(&format!("tighten b.fcs c.fcs -f --threads {threads}"));
        assert!(f.get("c.fcs") == f.get("b.fcs"), "{threads}");
    }
    assert!(f.works("size a.fcs").contains(&format!(", exactly {length} bytes ")));
    // A lossy stream becomes a lossless one with the samples that it shows.
    let header = Header::new(false, true, 12, 960, 3);
    f.put("lossy.fcs", &noisy(&header, &[vec![3, 0, 9], vec![1, 2, 3]], 6));
    f.works("tighten lossy.fcs d.fcs --quiet");
    assert!(f.works("check d.fcs").starts_with("d.fcs: tight, "));
    assert!(samples(&f, "lossy.fcs") == samples(&f, "d.fcs"));
}

#[test]
fn dry_run_says_what_it_would_take() {
    let f = Folder::new("dry");
    f.put("a.fcs", &loose());
    f.works("tighten a.fcs b.fcs");
    let length = f.get("b.fcs").len();
    let said = f.works("tighten a.fcs c.fcs --dry-run");
    assert!(
        said.starts_with(&format!("a.fcs: as a tight file it would take {length} bytes ")) && said.ends_with("; nothing was written\n"),
        "{said}"
    );
    // Not even a file that is there is in the way.
    f.works("tighten a.fcs b.fcs --dry-run");
    let said = f.works("copy a.fcs c.fcs --base 9 --dry-run");
    f.works("copy a.fcs d.fcs --base 9");
    assert!(said.starts_with(&format!("a.fcs: as a lossy copy it would take {} bytes ", f.get("d.fcs").len())), "{said}");
    assert_eq!(f.names(), ["a.fcs", "b.fcs", "d.fcs"]);
}

#[test]
fn copy_is_within_the_base_of_each_line() {
    let f = Folder::new("copy");
    for (xtrans, tile) in [(false, "rggb"), (true, "xtrans")] {
        f.put("a.fcs", &noisy(&Header::new(true, xtrans, 14, 960, 5), &[], 5));
        f.put("plan", b"3\t3\t40\n0\t2\t1\n4\t4\t0\n");
        let said = f.works("copy a.fcs b.fcs --plan plan -f");
        assert!(
            said.contains("b.fcs: lossy, ") && said.ends_with("coded samples read back within their base, at most 40 away\n"),
            "{said}"
        );
        assert!(f.works("info b.fcs").contains(", bases 0 to 40\n"));
        let (a, b) = (samples(&f, "a.fcs"), samples(&f, "b.fcs"));
        let bases = [1, 1, 1, 40, 0];
        for (i, (a, b)) in a.iter().zip(&b).enumerate() {
            assert!(a.abs_diff(*b) <= bases[i / 960 / 6], "{tile}, row {}, column {}", i / 960, i % 960);
        }
        assert!(a != b);
        // The greatest difference and the first one, as compare finds them.
        let greatest = a.iter().zip(&b).map(|(a, b)| a.abs_diff(*b)).max().unwrap();
        let first = a.iter().zip(&b).position(|(a, b)| a != b).unwrap();
        let count = a.iter().zip(&b).filter(|(a, b)| a != b).count();
        let said = f.run("compare a.fcs b.fcs");
        assert_eq!(said.status.code(), Some(1));
        let (row, column) = (first / 960, first % 960);
        let spot = format!("first at row {row}, column {column}, {} and {}", a[first], b[first]);
        let wanted = format!("a.fcs and b.fcs differ in {count} samples: {spot}; the greatest difference is {greatest}\n");
        assert_eq!(text(&said.stdout), wanted);
        // A base of 0 loses nothing, and a large one gives a smaller file.
        f.works("copy a.fcs c.fcs --base 0 -f");
        assert_eq!(f.works("compare a.fcs c.fcs"), "a.fcs and c.fcs show the same picture\n");
        f.works("copy a.fcs d.fcs --base 255 -f");
        assert!(f.get("d.fcs").len() * 2 < f.get("a.fcs").len());
    }
    f.is_wrong("copy a.fcs x", "copy needs --base N, the same for all lines, or --plan PLAN");
    f.is_wrong("copy a.fcs x --base 256", "a base is a number from 0 to 255: not 256");
    f.is_wrong("copy a.fcs x --base 1 --plan plan", "copy takes --base or --plan, not both");
    f.put("gap", b"0\t3\t1\n");
    f.fails("copy a.fcs x --plan gap", "refusal 20: line 4: no record of the plan holds it");
    f.put("blanks", b"0 4 1\n");
    f.fails(
        "copy a.fcs x --plan blanks",
        "refusal 18: record 1: the plan's record is malformed, runs backwards, passes the last line or has a base above 255: it is \"0 4 1\"; a \
         record is first line, last line and base, separated by tabs, with lines 0 to 4 and bases 0 to 255",
    );
}

/// A camera file stays one: all else is as it was, and other readers open it.
#[test]
fn camera_files_out() {
    let f = Folder::new("out");
    let bayer = loose();
    let xtrans = noisy(&Header::new(true, true, 14, 960, 5), &[], 4);
    let colours = Some(STORED.to_vec());
    for (stream, colours) in [(&bayer, None), (&xtrans, colours)] {
        for (big, behind) in [(false, false), (true, false), (false, true), (true, true)] {
            let camera = Camera { big, behind, colours: colours.clone(), ..Camera::default() };
            let file = raf(stream, &camera);
            f.put("a.raf", &file);
            f.put("a.fcs", stream);
            let before = parts(&file, big);
            assert!(before.stream == *stream);
            for command in ["tighten", "copy --base 255", "copy --base 3"] {
                f.works(&format!("{command} a.raf b.raf -f"));
                f.works(&format!("{command} a.fcs b.fcs -f"));
                let after = f.get("b.raf");
                let now = parts(&after, big);
                assert!(now.stream == f.get("b.fcs"), "{command}");
                assert!(now.jpeg == before.jpeg && now.directory == before.directory && now.black == before.black, "{command}");
                assert_eq!(after.len() + stream.len(), file.len() + now.stream.len(), "{command}");
                assert!(!f.works("info b.raf").contains("warning"), "{command}");
                // All bytes but the numbers that had to change: four of the head, and in the raw data the length and
                // the black levels' offset.
                let raw = u32::from_be_bytes(file[0x64..0x68].try_into().unwrap()) as usize;
                let start = raw + camera::TO_STREAM;
                let may = [0x54..0x6C, raw + 26 + 2 + 4 * 12 + 8..raw + 26 + 2 + 4 * 12 + 12, raw + 96..raw + 100];
                for at in (0..start).filter(|at| !may.iter().any(|m| m.contains(at))) {
                    assert_eq!(file[at], after[at], "{command}: byte {at}");
                }
                if command != "tighten" {
                    continue;
                }
                assert_eq!(f.works("compare a.raf b.raf"), "a.raf and b.raf show the same picture\n");
                let ours = samples(&f, "b.raf");
                if let (Some(before), Some(after)) = (by_libraw(&f.0, "a.raf"), by_libraw(&f.0, "b.raf")) {
                    assert!(before == after && after == ours, "LibRaw");
                }
            }
        }
    }
}

/// The older form, and a length that is not said: what lies behind the stream stays.
#[test]
fn camera_files_without_a_length() {
    let f = Folder::new("older");
    let stream = loose();
    let own = stream.len() - 40;
    let plain = Camera::default();
    for camera in [
        Camera { older: true, behind: true, ..plain.clone() },
        Camera { length: Some(0), ..plain.clone() },
        // Too long a length: the small picture would lie within the stream.
        Camera { length: Some(u32::MAX), behind: true, ..plain },
    ] {
        let file = raf(&stream, &camera);
        f.put("a.raf", &file);
        f.works("tighten a.raf b.raf -f");
        f.put("a.fcs", &stream[..own]);
        f.works("tighten a.fcs b.fcs -f");
        let (after, tight) = (f.get("b.raf"), f.get("b.fcs"));
        let start = file.windows(stream.len()).position(|w| w == stream).unwrap();
        assert!(after[start..start + tight.len()] == tight);
        assert!(after[start + tight.len()..] == file[start + own..]);
        let at = |file: &[u8], i: usize| u32::from_be_bytes(file[i..i + 4].try_into().unwrap()) as usize;
        let jpeg = |file: &[u8]| file[at(file, 0x54)..at(file, 0x54) + at(file, 0x58)].to_vec();
        assert!(jpeg(&after) == jpeg(&file));
        assert_eq!(at(&after, 0x68) + own, at(&file, 0x68) + tight.len());
        assert_eq!(f.works("compare a.raf b.raf"), "a.raf and b.raf show the same picture\n");
    }
}

#[test]
fn what_cannot_be_made_leaves_everything() {
    let f = Folder::new("refused");
    let stream = loose();
    f.put("cut.fcs", &stream[..stream.len() / 4]);
    f.put("old", b"old");
    let cut = "a damaged file is left alone; use fujiraw decode --partial to see what it has";
    for command in ["tighten cut.fcs old -f", "copy cut.fcs old -f --base 2"] {
        let out = f.run(command);
        let said = text(&out.stderr);
        assert_eq!(out.status.code(), Some(1));
        assert!(said.starts_with("refusal 14: block 0, line ") && said.ends_with(&format!(": a line is truncated: {cut}\n")), "{said}");
    }
    f.put("a.fcs", &stream);
    f.fails("tighten a.fcs old", "cannot write old: it already exists; use --force (-f) to replace it");
    f.fails("tighten a.fcs a.fcs -f", "cannot write a.fcs: it is also an input");
    f.fails("tighten missing out", "cannot read missing: no such file or directory");
    assert_eq!(f.get("old"), b"old");
    // To standard output, where nothing can be read back, it is compared before.
    f.works("tighten a.fcs b.fcs");
    assert!(f.run("tighten a.fcs -").stdout == f.get("b.fcs"));
}

#[test]
fn compare_says_whether_pictures_are_the_same() {
    let f = Folder::new("compare");
    let header = Header::new(true, false, 14, 960, 2);
    let with =
        |row: usize, v: u16| encoded(&header, &[], &mut |b, n, line, p| if (b, n, line, p) == (1, 1, 7, 5) { v } else { (row + p) as u16 });
    f.put("a.fcs", &with(9, 3000));
    f.put("b.fcs", &with(9, 3070));
    f.put("c.fcs", &noisy(&Header::new(true, false, 12, 960, 2), &[], 3));
    f.put("d.fcs", &noisy(&Header::new(true, false, 14, 768, 2), &[], 3));
    f.put("cut.fcs", &with(9, 3000)[..200]);
    assert_eq!(f.works("compare a.fcs a.fcs"), "a.fcs and a.fcs show the same picture\n");
    // Green line 7 is the first row of a line; place 5 of it is column 11 in that row, the green one of columns 10
    // and 11.
    let said = f.run("compare a.fcs b.fcs");
    let wanted = "a.fcs and b.fcs differ in 1 sample: first at row 6, column 779, 3000 and 3070; the greatest difference is 70\n";
    assert_eq!((said.status.code(), text(&said.stdout).as_str(), text(&said.stderr).as_str()), (Some(1), wanted, ""));
    let said = f.run("compare a.fcs b.fcs --json");
    let wanted = "{\"a\":\"a.fcs\",\"b\":\"b.fcs\",\"status\":1,\"same\":false,\"differing\":1,\
                  \"first\":{\"row\":6,\"column\":779,\"a\":3000,\"b\":3070},\"greatest\":70}\n";
    assert_eq!(text(&said.stdout), wanted);
    let same = "{\"a\":\"a.fcs\",\"b\":\"a.fcs\",\"status\":0,\"same\":true,\"differing\":0,\"first\":null,\"greatest\":0}\n";
    assert_eq!(f.works("compare a.fcs a.fcs --json"), same);
    for (other, status, says) in [
        ("c.fcs", 1, "a.fcs and c.fcs differ: Bayer, 14 bits, and Bayer, 12 bits\n"),
        ("d.fcs", 1, "a.fcs and d.fcs differ: 960 x 12 samples, and 768 x 12\n"),
    ] {
        let said = f.run(&format!("compare a.fcs {other}"));
        assert_eq!((said.status.code(), text(&said.stdout).as_str()), (Some(status), says));
        let quiet = f.run(&format!("compare a.fcs {other} -q"));
        assert_eq!((quiet.status.code(), quiet.stdout.len() + quiet.stderr.len()), (Some(status), 0));
    }
    for (other, status, says) in [
        ("cut.fcs", 4, "cut.fcs: refusal 14: block 0, line 0: a line is truncated\n"),
        ("missing", 5, "missing: cannot read missing: no such file or directory\n"),
    ] {
        let said = f.run(&format!("compare a.fcs {other}"));
        assert_eq!((said.status.code(), text(&said.stderr).as_str()), (Some(status), says));
        assert_eq!(f.run(&format!("compare a.fcs {other} --json")).status.code(), Some(status));
    }
    f.is_wrong("compare a.fcs", "compare needs two streams or camera files");
}

/// The lines that are handed out are those that the encoder was given, and writing them gives the block again.
#[test]
fn lines_hands_out_what_write_takes() {
    let f = Folder::new("lines");
    let header = Header::new(true, false, 14, 960, 3);
    let sample = |b: usize, n: usize, line: usize, p: usize| ((5000 * b + 700 * n + 90 * line + 3 * p) % 16_384) as u16;
    f.put("a.fcs", &encoded(&header, &[], &mut |b, n, line, p| sample(b, n, line, p)));
    for b in 0..2 {
        f.works(&format!("lines a.fcs {b} set -f"));
        let lines = [2, 3, 4, 7, 8, 9, 10, 11, 12, 15, 16, 17];
        let wanted = (0..3).flat_map(|n| lines.iter().flat_map(move |line| (0..384).map(move |p| sample(b, n, *line, p))));
        assert!(f.get("set") == wanted.flat_map(u16::to_le_bytes).collect::<Vec<u8>>(), "block {b}");
        f.works("write a.fcs set block -f");
        let blocks = common::stream::blocks(&header, &[], &mut |b, n, line, p| sample(b, n, line, p));
        assert!(f.get("block") == blocks[b]);
    }
    // An X-Trans set has its interpolated samples too, and they are what write wants.
    f.put("x.fcs", &noisy(&Header::new(true, true, 14, 768, 3), &[], 2));
    f.works("lines x.fcs 0 set -f");
    f.works("write x.fcs set block -f");
    assert!(f.get("x.fcs").ends_with(&f.get("block")));
    f.fails("lines a.fcs 2 out", "refusal 5: there is no such block: the stream has 2 blocks, counted from 0");
    f.fails("lines a.fcs 18446744073709551615 out", "refusal 5: there is no such block: the stream has 2 blocks, counted from 0");
    f.fails("lines a.fcs 0 set", "cannot write set: it already exists; use --force (-f) to replace it");
    f.is_wrong("lines a.fcs out", "lines needs a stream or camera file, a block and an output");
}
