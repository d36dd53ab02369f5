//! The program as a user calls it: what it writes, what it says, and its status.
mod folder;

use common::encoder::encode_spoilt;
use common::random::congruential;
use common::sha256::digits;
use common::stream::{Header, encoded};
use folder::{Folder, sample, stream, text};
use std::fs;
use std::path::Path;

fn rectangle(x: usize, y: usize, width: usize, height: usize) -> Vec<u16> {
    (y..y + height).flat_map(|y| (x..x + width).map(move |x| sample(x, y))).collect()
}

fn big(samples: &[u16]) -> Vec<u8> {
    samples.iter().flat_map(|v| v.to_be_bytes()).collect()
}

#[test]
fn whole_picture() {
    let f = Folder::new("whole");
    f.put("a.fcs", &stream());
    assert_eq!(f.works("decode -f a.fcs a.pgm"), "a.pgm: 768 x 12 samples, 12 bits, tile rggb\n");
    assert_eq!(f.get("a.pgm"), [&b"P5\n768 12\n4095\n"[..], &big(&rectangle(0, 0, 768, 12))].concat());
    assert_eq!(f.works("decode -f a.fcs a.raw --format raw --quiet"), "");
    let little: Vec<u8> = rectangle(0, 0, 768, 12).iter().flat_map(|v| v.to_le_bytes()).collect();
    assert_eq!(f.get("a.raw"), little);
    assert_eq!(f.names(), ["a.fcs", "a.pgm", "a.raw"]);
}

#[test]
fn region_and_tile() {
    let f = Folder::new("region");
    f.put("a.fcs", &stream());
    f.works("decode -f --region 766,4,2,3 a.fcs a.pgm");
    assert_eq!(f.get("a.pgm"), [&b"P5\n2 3\n4095\n"[..], &big(&rectangle(766, 4, 2, 3))].concat());
    f.works(&format!("decode -f a.fcs a.pgm --region 5,0,1,6 --tile {}", "2".repeat(36)));
    assert_eq!(f.get("a.pgm"), [&b"P5\n1 6\n4095\n"[..], &big(&[15, 15, 16, 16, 17, 17])].concat());
}

#[test]
fn info_shows_header_and_ranges() {
    let f = Folder::new("info");
    f.put("a.fcs", &stream());
    let header = Header::new(false, true, 14, 792, 1);
    f.put("b.fcs", &encoded(&header, &[vec![3], vec![9]], &mut |_, _, _, _| 5000));
    let said = f.works("info a.fcs b.fcs");
    let length = stream().len();
    assert!(said.contains(&format!("a.fcs: {length} bytes\n  Bayer, lossless, 12 bits, 768 x 12 samples\n")), "{said}");
    assert!(said.contains(&format!("block 0: 768 columns, offset 32, {} bytes\n", length - 32)), "{said}");
    assert!(
        said.contains("  X-Trans, lossy, 14 bits, 792 x 6 samples\n  2 blocks of 768 columns (rounded width 1536), 1 line of six rows\n  tile xtrans (default)\n"),
        "{said}"
    );
    assert!(said.contains("block 1: 24 columns, offset ") && said.contains(", bases 9 to 9\n"), "{said}");
}

#[test]
fn refusals() {
    let f = Folder::new("refusals");
    let whole = stream();
    f.put("empty", b"");
    f.put("text", b"this is a text of more than sixteen bytes");
    f.put("sizes", &whole[..19]);
    f.put("cut", &whole[..whole.len() / 4 * 3]);
    f.put("a.fcs", &whole);
    f.fails("decode empty out", "refusal 1: fewer than 16 bytes of header: there are 0");
    f.fails("info text", "refusal 2: a header rule is broken: not a stream: it begins with 74 68, and streams begin with 49 53");
    f.fails("decode sizes out", "refusal 3: the block sizes are cut short: the stream has 19 bytes, and is cut off before its first block");
    f.fails("decode cut out", "refusal 14: block 0, line 1: a line is truncated; use --partial to write the rows before it");
    let edge = "refusal 7: the region passes the picture's edge, or the image is too short for it: the picture has 768 x 12 samples";
    f.fails("decode a.fcs out --region 700,0,69,1", edge);
    f.fails("decode a.fcs out --region 4294967295,4294967295,4294967295,4294967295", edge);
    // The lines before the truncated one can be had.
    f.works("decode -f cut out --region 0,0,768,6");
}

#[test]
fn files_that_cannot_be_used() {
    let f = Folder::new("files");
    f.put("a.fcs", &stream());
    fs::create_dir(f.0.join("folder")).unwrap();
    f.fails("decode missing out", "cannot read missing: no such file or directory");
    f.fails("info folder", "folder: no camera files or streams (.raf, .fcs) in this folder");
    f.is_wrong("decode folder out", "out is not a folder, but folder is: create a folder for the output");
    f.fails("decode a.fcs none/out", "cannot write none/out: no such file or directory");
    f.fails("decode a.fcs a.fcs", "cannot write a.fcs: it is also an input");
    f.fails("decode a.fcs /dev/full", "cannot write /dev/full: no space left on device");
    assert!(Path::new("/dev/full").exists());
    assert_eq!(f.get("a.fcs"), stream());
}

#[test]
fn refused_stream_leaves_the_old_picture() {
    let f = Folder::new("old");
    f.put("cut", &stream()[..100]);
    f.put("out", b"old");
    f.fails("decode cut out", "cannot write out: it already exists; use --force (-f) to replace it");
    f.fails("decode cut out -f", "refusal 14: block 0, line 0: a line is truncated; use --partial to write the rows before it");
    assert_eq!(f.get("out"), b"old");
}

#[test]
fn several_streams() {
    let f = Folder::new("several");
    f.put("a.fcs", &stream());
    f.put("b.fcs", b"");
    f.put("c.fcs", &stream());
    fs::create_dir(f.0.join("out")).unwrap();
    let said = f.run("decode a.fcs b.fcs c.fcs out --format raw");
    assert_eq!(said.status.code(), Some(1));
    assert_eq!(text(&said.stderr), "b.fcs: refusal 1: fewer than 16 bytes of header: there are 0\n3 files: 2 done, 1 failed\n");
    assert_eq!(Folder(f.0.join("out")).names(), ["a.raw", "c.raw"]);
}

#[test]
fn wrong_usage() {
    let f = Folder::new("usage");
    f.put("a.fcs", &stream());
    f.put("b.fcs", &stream());
    fs::create_dir_all(f.0.join("folder/x")).unwrap();
    f.is_wrong("", "no command is given");
    f.is_wrong("show a.fcs", "unknown command show");
    f.is_wrong("decod a.fcs b", "unknown command decod; did you mean decode?");
    f.is_wrong("decode a.fcs b --formt png", "decode has no option --formt; did you mean --format?");
    f.is_wrong("check a.fcs --qiet", "check has no option --qiet; did you mean --quiet?");
    f.is_wrong("check a.fcs -v", "check has no option -v");
    f.is_wrong("info", "info needs a file or a folder");
    f.is_wrong("decode a.fcs", "decode needs a stream or camera file and an output");
    f.is_wrong("decode a.fcs b.fcs c", "c is not a folder, and there are 2 files to decode");
    f.is_wrong("decode a.fcs folder/../a.fcs folder", "two outputs would be written to folder/a.pgm");
    f.is_wrong("decode a.fcs out --region 1,2,3", "a region is four numbers, X,Y,W,H, with a width and a height: not 1,2,3");
    f.is_wrong("decode a.fcs out --region 1,2,3,0", "a region is four numbers, X,Y,W,H, with a width and a height: not 1,2,3,0");
    f.is_wrong("decode a.fcs out --tile 0123", "a tile is rggb, bggr, grbg, gbrg, xtrans or 36 digits");
    f.is_wrong("decode a.fcs out --tile=RGGB", "a tile is rggb, bggr, grbg, gbrg, xtrans or 36 digits");
    f.is_wrong("decode a.fcs out --format gif", "unknown format gif: use png, pgm or raw");
    f.is_wrong("decode a.fcs out --preview --format raw", "a preview is pgm or png");
    f.is_wrong("decode a.fcs out --preview=small", "--preview takes no value");
    f.is_wrong("decode - - folder", "standard input is named twice");
    f.is_wrong("write - - out", "standard input is named twice");
    f.is_wrong("info - -", "standard input is named twice");
    f.is_wrong("decode a.fcs out --format", "--format needs a value");
    f.is_wrong("decode a.fcs out --speed 3", "decode has no option --speed");
    f.is_wrong("decode a.fcs out --format raw --format pgm", "--format is given twice");
    assert!(f.works("--help").starts_with("usage: fujiraw COMMAND"));
    assert!(f.works("decode -h").starts_with("usage: fujiraw decode IN OUT"));
    assert_eq!(f.works("-V"), f.works("--version"));
}

#[test]
fn write_makes_the_block_of_a_set() {
    let f = Folder::new("write");
    // a set of zeros: Bayer, 12 bits, one line; each code is 0
    f.put("header", &[0x49, 0x53, 1, 0, 12, 0, 6, 3, 0, 3, 0, 3, 0, 1, 0, 1]);
    f.put("samples", &[0; 2 * 12 * 384]);
    let said = f.run("write header samples block");
    assert_eq!((said.status.code(), text(&said.stderr)), (Some(0), String::new()));
    assert!(!f.get("block").is_empty());
    let block = f.get("block");
    assert_eq!(block.len() % 16, 0);
    let stream_of = |block: &[u8]| {
        let mut whole = f.get("header");
        whole.extend((block.len() as u32).to_be_bytes());
        whole.resize(32, 0);
        whole.extend(block);
        whole
    };
    f.put("stream", &stream_of(&block));
    assert_eq!(f.works("check stream"), "stream: tight, 5328 bits a line, 0 long codes\n");
    // all its codes, and a byte too many
    f.put("longer", &stream_of(&[&block[..], &[0]].concat()));
    let said = f.run("check longer");
    assert_eq!(said.status.code(), Some(3));
    let used = encode_spoilt(12, false, &[], 1, &mut |_, _, _| 0, None).used;
    let end = format!("bit {used}: tail: after the last code there must be zero bits up to the next 16 bytes, and no more");
    assert_eq!(
        text(&said.stdout),
        format!(
            "longer: not tight, 5328 bits a line, 0 long codes\n  block 0: not tight, 5328 bits a line, 0 long codes: refusal 15: the block \
             is not tight: {end}\n"
        )
    );
    f.put("few", &[0; 2 * 12 * 384 - 2]);
    f.put("half", &[0; 2 * 12 * 384 - 1]);
    let wanted = "there are 4607, and 4608 are needed (1 line of 12 colour lines of 384)";
    f.fails("write header few out", &format!("refusal 9: the number of samples is not the block's: {wanted}"));
    f.fails("write header half out", "half has half a sample at its end: samples are two bytes each");
    f.fails(
        "write few samples out",
        "refusal 2: a header rule is broken: not a stream: it begins with 00 00, and streams begin with 49 53",
    );
    f.is_wrong("write header samples", "write needs a header, samples and an output");
}

#[test]
fn codes_lists_a_sheet() {
    let f = Folder::new("codes");
    assert_eq!(f.works("codes 12 0 3"), "1\t1\t1\t0\n01\t2\t1\t1\n001\t3\t1\t2\n");
    assert_eq!(f.works("codes 16 1 3"), "10\t2\t2\t0\n11\t2\t3\t1\n010\t3\t2\t2\n011\t3\t3\t3\n");
    assert_eq!(f.works("codes 14 8 8"), "");
    let long = f.works("codes 16 15 16");
    assert_eq!(long.lines().count(), 32_768);
    assert_eq!(long.lines().last(), Some("1111111111111111\t16\t65535\t32767"));
    let refused = "refusal 24: the depth is not 12, 14 or 16, k is above 15, or the length is not 1 to 16";
    for wrong in ["codes 13 0 1", "codes 12 16 16", "codes 12 0 0", "codes 12 0 17"] {
        f.fails(wrong, refused);
    }
    for wrong in ["codes", "codes 12 0", "codes 12 0 3 1", "codes 12 x 3", "codes 12 0 4294967296"] {
        f.is_wrong(wrong, "codes needs three numbers: a depth, a k and a length");
    }
    f.is_wrong("codes 12 -1 3", "codes has no option -1");
    f.is_wrong("codes 12 0 3 --format raw", "codes has no option --format");
}

fn lossless_plan() -> &'static str {
    "refusal 16: the header is lossless: plans are for lossy headers; to make a lossy copy of a lossless stream, use fujiraw copy IN OUT --plan PLAN"
}

#[test]
fn plan_writes_the_bases() {
    let f = Folder::new("plan");
    let samples = Path::new(env!("CARGO_MANIFEST_DIR")).join("../../samples");
    f.works(&format!("plan -f {} {} bases", samples.join("xtrans.fcs").display(), samples.join("plan.txt").display()));
    assert_eq!(f.get("bases"), [vec![6; 4], vec![1; 8], vec![6; 12]].concat());
    // lossy, 14 bits, one block, three lines
    let mut header = [0x49, 0x53, 0, 0, 14, 0, 18, 3, 0, 3, 0, 3, 0, 1, 0, 3];
    f.put("header", &header);
    f.put("fine", b"2\t2\t7\n0\t1\t255\n");
    f.works("plan -f header fine out");
    assert_eq!(f.get("out"), [255, 255, 7]);
    f.put("bad", b"0\t2\t7\n0\t2\n");
    f.put("twice", b"0\t2\t7\n1\t1\t7\n");
    f.put("none", b"0\t1\t7\n");
    f.put("empty", b"");
    let bad = "the plan's record is malformed, runs backwards, passes the last line or has a base above 255";
    let form = "a record is first line, last line and base, separated by tabs, with lines 0 to 2 and bases 0 to 255";
    f.fails("plan header bad out2", &format!("refusal 18: record 2: {bad}: it is \"0\\t2\"; {form}"));
    f.fails("plan header twice out2", "refusal 19: line 1: two records of the plan hold it");
    f.fails("plan header none out2", "refusal 20: line 2: no record of the plan holds it");
    f.fails("plan header empty out2", "refusal 20: line 0: no record of the plan holds it");
    f.fails("plan empty fine out2", "refusal 1: fewer than 16 bytes of header: there are 0");
    f.fails("plan header missing out2", "cannot read missing: no such file or directory");
    f.fails("plan header fine fine", "cannot write fine: it is also an input");
    f.fails("plan header fine header", "cannot write header: it is also an input");
    header[2] = 1;
    f.put("lossless", &header);
    f.fails("plan lossless bad out2", lossless_plan());
    // A refused plan leaves the old bytes.
    f.fails("plan header none out -f", "refusal 20: line 2: no record of the plan holds it");
    assert_eq!(f.get("out"), [255, 255, 7]);
    f.is_wrong("plan header fine", "plan needs a header, a plan and an output");
    f.is_wrong("plan header fine out --format raw", "plan has no option --format");
}

/// A set whose block with bases 1 and 1 an independent model has made: 104,369 bits, 13,056 bytes, 32 long codes.
#[test]
fn write_makes_a_lossy_block() {
    let f = Folder::new("lossy");
    // lossy Bayer, 12 bits, one block, two lines
    let mut header = [0x49, 0x53, 0, 0, 12, 0, 12, 3, 0, 3, 0, 3, 0, 1, 0, 2];
    f.put("header", &header);
    let set = congruential(12, 1 << 12, 2 * 12 * 384);
    f.put("samples", &set.iter().flat_map(|v| v.to_le_bytes()).collect::<Vec<u8>>());
    f.put("bases", &[1, 1]);
    f.put("plan", b"1\t1\t1\n0\t0\t1\n");
    assert_eq!(f.works("write -f header samples block --bases bases"), "");
    f.works("write -f --plan=plan header samples planned");
    let block = f.get("block");
    assert_eq!((block.len(), digits(&block, 24).as_str()), (13_056, "93c0ce37566831ba4b0efd41"));
    assert!(block == f.get("planned"));
    // in a stream with these bases it reads back, each sample within 1
    f.put("stream", &common::stream::stream(&Header::of(&header).unwrap(), &[vec![1, 1]], &[block]));
    let said = f.works("info stream --blocks");
    assert!(said.contains(", bases 1 to 1\n") && said.contains("  block 0: 52184 bits a line, 32 long codes, whole (lossy)\n"), "{said}");
    f.works(&format!("decode -f stream red.raw --format raw --tile {}", "0".repeat(36)));
    let red = f.get("red.raw");
    for (row, line) in [(0, 0), (2, 1), (4, 2), (6, 12), (8, 13), (10, 14)] {
        for p in 0..384 {
            let at = 2 * (768 * row + 2 * p);
            assert!(u16::from_le_bytes([red[at], red[at + 1]]).abs_diff(set[384 * line + p]) <= 1, "{row} {p}");
        }
    }
    f.put("three", &[1; 3]);
    f.put("none", b"");
    f.put("gap", b"0\t0\t1\n");
    f.put("few", &[0; 2 * 24 * 384 - 2]);
    f.put("high", &[&[0, 0, 0, 16], &[0; 2 * 24 * 384 - 4][..]].concat());
    let number = "refusal 17: the number of base bytes is not that of the lines";
    f.fails("write header samples out --bases three", &format!("{number}: there are 3, and 2 are needed"));
    f.fails("write header few out --bases none", &format!("{number}: there are 0, and 2 are needed"));
    let wanted = "there are 9215, and 9216 are needed (2 lines of 12 colour lines of 384)";
    f.fails("write header few out --bases bases", &format!("refusal 9: the number of samples is not the block's: {wanted}"));
    let largest = "with 12 bits the largest is 4095";
    f.fails("write header high out --bases bases", &format!("refusal 11: sample 1: a sample is above the largest: {largest}"));
    f.fails("write header samples out --plan gap", "refusal 20: line 1: no record of the plan holds it");
    f.fails("write header samples out --bases missing", "cannot read missing: no such file or directory");
    f.fails("write header samples bases --bases bases", "cannot write bases: it is also an input");
    f.fails("write header samples plan --plan plan", "cannot write plan: it is also an input");
    header[2] = 1;
    f.put("lossless", &header);
    f.fails(
        "write lossless samples out --bases bases",
        "refusal 16: the header is lossless: a lossless block has no bases; to make a lossy copy of a whole stream, use fujiraw copy",
    );
    f.fails("write lossless samples out --plan plan", lossless_plan());
    f.is_wrong("write header samples out --bases bases --plan plan", "write takes --bases or --plan, not both");
    f.is_wrong("write header - out --bases -", "standard input is named twice");
    f.is_wrong("write header samples out --bases", "--bases needs a value");
    f.is_wrong("write header out --bases bases", "write needs a header, samples and an output");
    f.is_wrong("size header --bases bases", "size has no option --bases");
}
