//! The program tight_report (`./tight-report`), and `bad_code`, which says the same of each block of a stream of any length.
use common::encoder::{Encoded, How, Spoil, encode, encode_spoilt};
use common::stream::{Header, stream};
use fuji_compressed::{Fault, FujiCompressed, Reason};
use std::io::Write;
use std::path::{Path, PathBuf};
use std::process::{Command, Stdio};
use std::thread::sleep;
use std::time::Duration;

const HEADING: &str = "block\tline\tpass\tcolour\tposition\tbit\treason\n";
const MOST: usize = 65_536;

fn root() -> PathBuf {
    Path::new(env!("CARGO_MANIFEST_DIR")).join("../..")
}

/// What the program writes, if its input comes in these pieces.
fn report_on(pieces: &[&[u8]]) -> String {
    let mut program = Command::new(root().join("tight-report")).stdin(Stdio::piped()).stdout(Stdio::piped()).spawn().unwrap();
    let mut input = program.stdin.take().unwrap();
    for (i, piece) in pieces.iter().enumerate() {
        if i > 0 {
            sleep(Duration::from_millis(30));
        }
        // Once it has enough it may stop reading.
        if input.write_all(piece).and_then(|()| input.flush()).is_err() {
            break;
        }
    }
    drop(input);
    let output = program.wait_with_output().unwrap();
    assert!(output.status.success());
    String::from_utf8(output.stdout).unwrap()
}

/// The record of the program, blanks for tabs; empty if the heading stands alone.
fn record(bytes: &[u8]) -> String {
    let said = report_on(&[bytes]);
    let rest = said.strip_prefix(HEADING).unwrap_or_else(|| panic!("no heading: {said:?}"));
    assert!(rest.is_empty() || rest.ends_with('\n') && rest.matches('\n').count() == 1, "{rest:?}");
    rest.trim_end().replace('\t', " ")
}

/// The same by the library, block after block, of the bytes that the program reads.
fn by_library(bytes: &[u8]) -> String {
    let stream = FujiCompressed::new(&bytes[..bytes.len().min(MOST)]).unwrap();
    let blocks = 0..stream.header.blocks as usize;
    let found = blocks.filter_map(|b| stream.bad_code(b).ok().flatten().map(|fault| (b, fault))).next();
    match found {
        None => String::new(),
        Some((b, Fault::Tail { bit })) => format!("{b} {} - - - {bit} tail", stream.header.lines),
        Some((b, Fault::Code { line, pass, colour_line, position, bit, reason })) => {
            let word = match reason {
                Reason::Large => "large",
                Reason::Escape => "escape",
                Reason::Zeros => "zeros",
            };
            format!("{b} {line} {pass} {colour_line} {position} {bit} {word}")
        }
    }
}

fn says(bytes: &[u8], wanted: &str) {
    assert_eq!((record(bytes), by_library(bytes)), (wanted.to_string(), wanted.to_string()));
}

fn header(xtrans: bool, blocks: u16, lines: u16) -> Header {
    Header::new(true, xtrans, 14, 768 * blocks, lines)
}

/// One block as a stream.
fn alone(xtrans: bool, lines: u16, block: &[u8]) -> Vec<u8> {
    stream(&header(xtrans, 1, lines), &[], &[block.to_vec()])
}

/// The picture of the cases whose first code is spoilt.
fn slope(n: usize, line: usize, p: usize) -> u16 {
    ((37 * p + 211 * line + 5 * n * p + 1000) % 16384) as u16
}

/// The picture of the cases whose spoilt code stands further on: every code is known to be large enough.
fn comb(_: usize, _: usize, p: usize) -> u16 {
    if p % 2 == 1 { 3 } else { 9000 }
}

type Picture = fn(usize, usize, usize) -> u16;

fn spoilt(xtrans: bool, lines: usize, picture: Picture, from: usize, zeros: u32, code: u32) -> Encoded {
    let spoil = Some(Spoil { from, how: How::Long { zeros, code } });
    let made = encode_spoilt(14, xtrans, &[], lines, &mut { picture }, spoil);
    assert!(made.spoilt);
    made
}

#[test]
fn example_is_a_file() {
    let block = spoilt(false, 1, slope, 0, 41, 1).bytes;
    let example = std::fs::read(root().join("crates/tight_report/stdin")).unwrap();
    assert_eq!(alone(false, 1, &block), example);
    assert_eq!(std::fs::read(root().join("samples/escape.fcs")).unwrap(), example);
    assert_eq!(report_on(&[&example]), format!("{HEADING}0\t0\t1\t2\t0\t0\tescape\n"));
    assert_eq!(std::fs::read_to_string(root().join("crates/tight_report/stdout")).unwrap(), report_on(&[&example]));
}

#[test]
fn reasons_of_a_first_code() {
    let cases = [
        (42, 1, "0 0 1 2 0 0 escape"),
        (42, 10_496, "0 0 1 2 0 0 zeros"),
        (41, 10_496, ""),
        (41, 10_495, "0 0 1 2 0 0 escape"),
        (41, 16_384, "0 0 1 2 0 0 large"),
        (46, 16_384, "0 0 1 2 0 0 large"),
    ];
    for (zeros, code, wanted) in cases {
        says(&alone(false, 1, &spoilt(false, 1, slope, 0, zeros, code).bytes), wanted);
    }
    // Line 2's even positions are interpolated.
    says(&alone(true, 1, &spoilt(true, 1, slope, 0, 41, 1).bytes), "0 0 1 7 0 0 escape");
}

#[test]
fn spots_of_later_codes() {
    let cases = [
        (1, "0 0 1 7 0 56"),
        (2, "0 0 1 2 2 72"),
        (767, "0 0 1 7 383 11589"),
        (768, "0 0 2 8 0 11604"),
        (4607, "0 0 6 17 383 69511"),
        (4608, "0 1 1 2 0 69526"),
        (9215, "0 1 6 17 383 138591"),
    ];
    for (from, spot) in cases {
        says(&alone(false, 2, &spoilt(false, 2, comb, from, 41, 2).bytes), &format!("{spot} escape"));
    }
}

#[test]
fn tails() {
    let made = encode_spoilt(14, false, &[], 1, &mut |_, _, _| 0, None);
    assert_eq!((made.bytes.len(), made.used), (848, 6660));
    let tail = "0 1 - - - 6660 tail";
    says(&alone(false, 1, &made.bytes), "");
    says(&alone(false, 1, &[&made.bytes[..], &[0; 16]].concat()), tail);
    says(&alone(false, 1, &made.bytes[..833]), tail);
    for bit in [6660, 8 * 848 - 1] {
        let mut bytes = made.bytes.clone();
        bytes[bit / 8] |= 0x80 >> (bit % 8);
        says(&alone(false, 1, &bytes), tail);
    }
    // Bytes after the last block are no part of it.
    says(&[&alone(false, 1, &made.bytes)[..], &[1; 40]].concat(), "");
}

#[test]
fn truncated_blocks_are_passed_over() {
    let bad = spoilt(false, 2, slope, 0, 41, 1).bytes;
    let cut = bad[..bad.len() / 4 * 3].to_vec();
    says(&alone(false, 2, &cut), "");
    says(&alone(false, 2, &[]), "");
    says(&stream(&header(false, 2, 2), &[], &[cut, bad]), "1 0 1 2 0 0 escape");
}

#[test]
fn lowest_of_sixteen_blocks() {
    let zeros = encode(14, false, &[], 1, &mut |_, _, _| 0);
    let mut longer = zeros.clone();
    longer.resize(longer.len() + 16, 0);
    let bad = spoilt(false, 1, comb, 1, 41, 2).bytes;
    assert!(bad.len() > 848);
    for (at, wanted) in [(0, "0 1 - - - 6660 tail"), (1, "1 1 - - - 6660 tail"), (15, "15 1 - - - 6660 tail")] {
        let mut blocks = vec![zeros.clone(); 16];
        blocks[at] = longer.clone();
        says(&stream(&header(false, 16, 1), &[], &blocks), wanted);
        // A later one changes nothing; a lower one does.
        blocks[15] = longer.clone();
        says(&stream(&header(false, 16, 1), &[], &blocks), wanted);
    }
    let mut blocks = vec![zeros.clone(); 16];
    blocks[9] = longer;
    blocks[3] = bad;
    says(&stream(&header(false, 16, 1), &[], &blocks), "3 0 1 7 0 56 escape");
    says(&stream(&header(false, 16, 1), &[], &vec![zeros; 16]), "");
}

/// A stream of two blocks. The first has no one bit, so that it is truncated; it is so long that the second starts at `start`.
fn after_zeros(lines: u16, start: usize, block: &[u8]) -> Vec<u8> {
    let made = stream(&header(false, 2, lines), &[], &[vec![0; start - 32], block.to_vec()]);
    assert_eq!(made.len(), start + block.len());
    made
}

#[test]
fn input_is_cut_before_it_is_opened() {
    let tight = encode(14, false, &[], 1, &mut { slope });
    let longer = [&tight[..], &[0; 16]].concat();
    // 16 bytes too many, the last of which are past byte 65,536: what is left is tight.
    says(&after_zeros(1, MOST - tight.len(), &longer), "");
    // They would be seen one byte earlier.
    assert!(record(&after_zeros(1, MOST - tight.len() - 1, &longer)).ends_with(" tail"));
    // A tight block that loses a code is truncated, and one that is whole stays what it is.
    says(&after_zeros(1, MOST - tight.len() / 2, &tight), "");
    says(&after_zeros(1, MOST - tight.len(), &tight), "");
    // A bad block is found if it ends at byte 65,536, and is truncated if it ends in byte 65,537, where a code is cut.
    let bad = spoilt(false, 1, slope, 0, 41, 1);
    says(&after_zeros(1, MOST - bad.bytes.len(), &bad.bytes), "1 0 1 2 0 0 escape");
    let inside = bad.used / 8;
    says(&after_zeros(1, MOST - inside + 40, &bad.bytes), "");
    assert_eq!(after_zeros(1, MOST - bad.bytes.len(), &bad.bytes).len(), MOST);
    // One byte more than that is no part of it.
    says(&[&after_zeros(1, MOST - bad.bytes.len(), &bad.bytes)[..], &[255]].concat(), "1 0 1 2 0 0 escape");
}

/// A block whose last bits are zeros of a code, so that it reads though they are cut off.
fn ends_in_zeros() -> Encoded {
    let bit = |bytes: &[u8], i: usize| bytes[i / 8] >> (7 - i % 8) & 1;
    let ends = |e: &Encoded| e.used % 8 != 0 && (e.used / 8 * 8..e.used).all(|i| bit(&e.bytes, i) == 0);
    (0..2000)
        .map(|seed| encode_spoilt(14, false, &[], 1, &mut |_, line, p| ((seed * 31 + line * 7 + p * p) % 4096) as u16, None))
        .find(ends)
        .unwrap()
}

#[test]
fn bit_past_the_end() {
    let made = ends_in_zeros();
    let whole = made.used / 8;
    let wanted = format!("1 - - - {} tail", made.used);
    assert!(made.used > 8 * whole);
    says(&alone(false, 1, &made.bytes[..whole]), &format!("0 {wanted}"));
    // The same by the cut.
    says(&after_zeros(1, MOST - whole, &made.bytes), &format!("1 {wanted}"));
}

#[test]
fn refusals() {
    let whole = alone(false, 1, &spoilt(false, 1, slope, 0, 41, 1).bytes);
    for short in [0, 1, 15] {
        assert_eq!(report_on(&[&whole[..short]]), "1\n");
    }
    let mut wrong = whole.clone();
    wrong[4] = 13;
    assert_eq!(report_on(&[&wrong]), "2\n");
    assert_eq!(report_on(&[&whole[..16]]), "3\n");
    assert_eq!(report_on(&[&whole[..19]]), "3\n");
    assert_eq!(report_on(&[&whole[..20]]), HEADING);
    let lossy = stream(&Header::new(false, false, 14, 1536, 2), &[vec![1, 2], vec![3, 4]], &[vec![255; 50], vec![255; 50]]);
    assert_eq!(report_on(&[&lossy]), "8\n");
    assert_eq!(report_on(&[&lossy[..50]]), "8\n");
    assert_eq!(report_on(&[&lossy[..49]]), "4\n");
    assert_eq!(report_on(&[&lossy[..33]]), "4\n");
}

#[test]
fn input_in_pieces() {
    let bytes = alone(false, 2, &spoilt(false, 2, comb, 4608, 41, 2).bytes);
    let wanted = format!("{HEADING}0\t1\t1\t2\t0\t69526\tescape\n");
    assert_eq!(report_on(&[&bytes[..1], &bytes[1..17], &bytes[17..5000], &[], &bytes[5000..]]), wanted);
    let long = [&bytes[..], &vec![7; 70_000]].concat();
    assert_eq!(report_on(&[&long[..65_000], &long[65_000..65_535], &long[65_535..65_536], &long[65_536..]]), wanted);
    assert_eq!(report_on(&[&long]), wanted);
}

#[test]
fn library_takes_streams_of_any_length() {
    let tight = encode(14, false, &[], 2, &mut { comb });
    let bad = spoilt(false, 2, comb, 9215, 41, 2).bytes;
    let bytes = stream(&header(false, 8, 2), &[], &[vec![tight; 7], vec![bad]].concat());
    assert!(bytes.len() > 2 * MOST);
    let stream = FujiCompressed::new(&bytes).unwrap();
    for b in 0..7 {
        assert_eq!(stream.bad_code(b), Ok(None));
    }
    let fault = Fault::Code { line: 1, pass: 6, colour_line: 17, position: 383, bit: 138_591, reason: Reason::Escape };
    assert_eq!(stream.bad_code(7), Ok(Some(fault)));
    assert_eq!(
        fault.to_string(),
        "line 1, pass 6, colour line 17, position 383, bit 138591: escape: the code is long, and the short form fits"
    );
    assert_eq!(stream.bad_code(8).unwrap_err().number, 5);
    assert_eq!(stream.bad_code(usize::MAX).unwrap_err().number, 5);
    let cut = &bytes[..bytes.len() - 5000];
    let refused = FujiCompressed::new(cut).unwrap().bad_code(7).unwrap_err();
    assert_eq!((refused.number, refused.block, refused.line), (14, 7, 1));
}

/// What the program writes to standard output and to standard error, if its standard input is this.
fn said_of(input: Stdio) -> (String, String) {
    let output = Command::new(root().join("tight-report")).stdin(input).output().unwrap();
    (String::from_utf8(output.stdout).unwrap(), String::from_utf8(output.stderr).unwrap())
}

#[test]
fn a_read_that_fails_gives_no_verdict() {
    let (out, err) = said_of(std::fs::File::open(root()).unwrap().into()); // a folder cannot be read
    assert_eq!(out, "");
    assert!(err.contains("cannot be read"), "{err}");
}

#[test]
fn input_that_is_cut_is_said_to_be() {
    let long = root().join("samples/bayer.fcs");
    assert!(std::fs::metadata(&long).unwrap().len() > MOST as u64);
    let (out, err) = said_of(std::fs::File::open(long).unwrap().into());
    assert!(out.starts_with(HEADING), "{out}");
    assert!(err.contains("longer than 65,536 bytes"), "{err}");
    let (_, err) = said_of(std::fs::File::open(root().join("samples/escape.fcs")).unwrap().into());
    assert_eq!(err, "");
}
