//! Checking sheets: what each is, its true bits and long codes, and the statuses.
mod camera;
mod folder;

use camera::{Camera, raf};
use common::encoder::{How, Spoil, encode_spoilt};
use common::random::congruential;
use common::stream::{Header, blocks, encoded};
use folder::{Folder, stream, text};

/// What check says of a file, and its status.
fn said(f: &Folder, line: &str) -> (Option<i32>, String) {
    let out = f.run(line);
    assert_eq!(text(&out.stderr), "", "{line}");
    (out.status.code(), text(&out.stdout))
}

fn lossy() -> Vec<u8> {
    encoded(&Header::new(false, false, 12, 768, 1), &[vec![1]], &mut |_, _, _, _| 9)
}

#[test]
fn words_and_statuses() {
    let f = Folder::new("verdicts");
    let header = Header::new(true, false, 12, 1536, 1);
    let blocks = blocks(&header, &[], &mut |_, _, line, p| (line + p) as u16);
    let longer = [&blocks[0][..], &[0; 16]].concat();
    let two = |a: &[u8], b: &[u8]| common::stream::stream(&header, &[], &[a.to_vec(), b.to_vec()]);
    f.put("tight", &two(&blocks[0], &blocks[1]));
    f.put("lossy", &lossy());
    f.put("loose", &two(&longer, &blocks[1]));
    f.put("cut", &two(&longer, &[]));
    f.put("sizes", &two(&longer, &[])[..20]);
    f.put("nothing", b"");
    for (name, status, words, blocks) in [
        ("tight", 0, "tight, ", 0),
        ("lossy", 0, "whole (lossy), ", 0),
        ("loose", 3, "not tight, ", 1),
        ("cut", 4, "damaged, ", 2),
        ("sizes", 4, "damaged: refusal 3: ", 0),
        ("nothing", 5, "cannot be read: refusal 1: ", 0),
        ("missing", 5, "cannot be read: cannot read missing: ", 0),
    ] {
        let (code, text) = said(&f, &format!("check {name}"));
        assert_eq!(code, Some(status), "{name}");
        assert!(text.starts_with(&format!("{name}: {words}")), "{text}");
        assert_eq!(text.lines().skip(1).filter(|l| l.starts_with("  block ")).count(), blocks, "{text}");
        // Quiet: nothing of what is as it should be, all of what is not.
        let (code, quiet) = said(&f, &format!("check -q {name}"));
        assert_eq!((code, quiet), (Some(status), if status == 0 { String::new() } else { text }), "{name}");
    }
    // Several: the greatest status, and a count.
    let (code, text) = said(&f, "check tight lossy loose cut sizes nothing missing");
    let count = "7 sheets: 1 tight, 1 whole (lossy), 1 not tight, 2 damaged, 2 cannot be read";
    assert_eq!((code, text.lines().last()), (Some(5), Some(count)));
    assert_eq!(said(&f, "check tight loose").0, Some(3));
    assert_eq!(said(&f, "check tight loose cut").0, Some(4));
    assert_eq!(said(&f, "check -q tight lossy"), (Some(0), String::new()));
    f.is_wrong("check", "check needs a file or a folder");
    f.is_wrong("check tight --format raw", "check has no option --format");
}

/// Sets by a generator, whose bits and long codes an independent model has counted: 68,619 bits and 25 long codes in
/// the first line, 135,865 and 29 in both; and lossy ones: 104,369 bits and 32 long codes.
#[test]
fn true_bits_and_long_codes_of_every_sheet() {
    let f = Folder::new("counted");
    let filled = [2, 3, 4, 7, 8, 9, 10, 11, 12, 15, 16, 17];
    let made = |header: &Header, rows: &[Vec<u8>], set: &[u16]| {
        encoded(header, rows, &mut |_, n, line, p| set[(12 * n + filled.iter().position(|l| *l == line).unwrap()) * 384 + p])
    };
    let whole = made(&Header::new(true, false, 14, 768, 2), &[], &congruential(2, 1 << 14, 2 * 12 * 384));
    f.put("whole.fcs", &whole);
    assert_eq!(f.works("check whole.fcs"), "whole.fcs: tight, 67932 bits a line, 29 long codes\n");
    // Sixteen bytes too many: not tight, and the numbers are the same.
    let longer = common::stream::stream(&Header::of(&whole).unwrap(), &[], &[[&whole[32..], &[0; 16]].concat()]);
    f.put("loose.fcs", &longer);
    assert!(said(&f, "check loose.fcs").1.starts_with("loose.fcs: not tight, 67932 bits a line, 29 long codes\n"));
    let lossy = made(&Header::new(false, false, 12, 768, 2), &[vec![1, 1]], &congruential(12, 1 << 12, 2 * 12 * 384));
    f.put("lossy.fcs", &lossy);
    assert_eq!(f.works("check lossy.fcs"), "lossy.fcs: whole (lossy), 52184 bits a line, 32 long codes\n");
    let blocks = |said: String| said.lines().rfind(|l| l.starts_with("  block 0: ")).unwrap().to_string();
    assert_eq!(blocks(f.works("check whole.fcs --blocks")), "  block 0: tight, 67932 bits a line, 29 long codes");
    assert_eq!(blocks(f.works("info whole.fcs --blocks")), "  block 0: 67932 bits a line, 29 long codes, tight");
    assert!(!f.works("info whole.fcs").contains("bits a line"));
    f.put("cut.fcs", &whole[..32 + 12_000]);
    let cut = "refusal 14: block 0, line 1: a line is truncated";
    let wanted = format!(
        "cut.fcs: damaged, 68619 bits in the lines that are whole, 25 long codes\n  block 0: damaged, 68619 bits a line, 25 long codes in \
         lines 0 to 0: {cut}\n"
    );
    assert_eq!(said(&f, "check cut.fcs"), (Some(4), wanted));
    assert_eq!(blocks(f.works("info --blocks cut.fcs")), format!("  block 0: 68619 bits a line, 25 long codes, damaged: {cut}"));
    // For other programs.
    let object = "{\"file\":\"whole.fcs\",\"verdict\":\"tight\",\"status\":0,\"model\":null,\"taken\":null,\"lines\":2,\"bits\":135865,\
                  \"bits_per_line\":67932,\"long_codes\":29,\"blocks\":[{\"block\":0,\"verdict\":\"tight\",\"lines\":2,\"bits\":135865,\
                  \"long_codes\":29,\"why\":null}]}\n";
    assert_eq!(f.works("check --json whole.fcs"), object);
    f.put("a.raf", &raf(&whole, &Camera::default()));
    assert!(f.works("check --json a.raf").contains("\"model\":\"X-Test\",\"taken\":\"2026-11-17 09:30:00\",\"lines\":2,\"bits\":135865,"));
    let (code, failed) = said(&f, "check --json missing cut.fcs");
    assert_eq!(code, Some(5));
    let lines: Vec<&str> = failed.lines().collect();
    let missing =
        "{\"file\":\"missing\",\"verdict\":\"unreadable\",\"status\":5,\"error\":\"cannot read missing: no such file or directory\"}";
    assert_eq!((lines.len(), lines[0]), (2, missing));
    let start = "{\"file\":\"cut.fcs\",\"verdict\":\"damaged\",\"status\":4,";
    assert!(lines[1].starts_with(start) && lines[1].contains("\"bits_per_line\":null,"), "{}", lines[1]);
}

/// The spot and the reason of each block that is not tight; a block that is truncated has neither, whatever its codes
/// are.
#[test]
fn the_first_bad_code_is_named() {
    let f = Folder::new("bad");
    let spoilt = |from, zeros, code| {
        let mut want = |n, line, p| ((37 * p + 211 * line + 5 * n * p + 1000) % 16384) as u16;
        encode_spoilt(14, false, &[], 1, &mut want, Some(Spoil { from, how: How::Long { zeros, code } }))
    };
    let all = [spoilt(0, 41, 1), spoilt(0, 42, 10_496), spoilt(0, 41, 16_384), spoilt(0, 41, 10_496)];
    let blocks: Vec<Vec<u8>> = all.iter().map(|b| b.bytes.clone()).collect();
    let cut = blocks[0][..blocks[0].len() / 2].to_vec();
    let header = Header::new(true, false, 14, 768 * 5, 1);
    f.put("a.fcs", &common::stream::stream(&header, &[], &[&blocks[..], &[cut]].concat()));
    let (code, text) = said(&f, "check a.fcs --blocks");
    assert_eq!(code, Some(4));
    let spot = "refusal 15: the block is not tight: line 0, pass 1, colour line 2, position 0, bit 0";
    let numbers = |i: usize| format!("{} bits a line, {} long codes", all[i].used, all[i].long_codes);
    let wanted = [
        format!("  block 0: not tight, {}: {spot}: escape: the code is long, and the short form fits", numbers(0)),
        format!("  block 1: not tight, {}: {spot}: zeros: the code has more zeros than the limit", numbers(1)),
        format!("  block 2: not tight, {}: {spot}: large: the code is 2^bits or more", numbers(2)),
        format!("  block 3: tight, {}", numbers(3)),
        "  block 4: damaged, no whole line: refusal 14: block 4, line 0: a line is truncated".to_string(),
    ];
    assert_eq!(text.lines().skip(1).collect::<Vec<_>>(), wanted);
    // The sheet that is in the repository: 35,026 bits, in the place of 0.
    let escape = std::path::Path::new(env!("CARGO_MANIFEST_DIR")).join("../../samples/escape.fcs");
    f.put("escape.fcs", &std::fs::read(escape).unwrap());
    assert!(said(&f, "check escape.fcs").1.starts_with("escape.fcs: not tight, 35026 bits a line, "));
}

/// Any number of threads says the same, in the same order.
#[test]
fn order_and_numbers_do_not_depend_on_threads() {
    let f = Folder::new("threads");
    let wide = encoded(&Header::new(true, true, 14, 2304, 3), &[], &mut |b, n, line, p| (1000 * b + 300 * n + 10 * line + p % 7) as u16);
    let mut names = vec![];
    for i in 0..24 {
        let name = format!("s{i:02}.fcs");
        match i % 4 {
            0 => f.put(&name, &wide),
            1 => f.put(&name, &stream()),
            2 => f.put(&name, &wide[..wide.len() - 100 * i]),
            _ => f.put(&name, &lossy()),
        }
        names.push(name);
    }
    names.push("missing".to_string());
    let line = format!("check {} --json", names.join(" "));
    let one = said(&f, &format!("{line} --threads 1"));
    assert_eq!(one.1.lines().count(), 25);
    for threads in [2, 3, 16] {
        assert_eq!(said(&f, &format!("{line} --threads {threads}")), one, "{threads}");
    }
}
