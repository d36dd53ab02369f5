//! The examples in Rust, run on the samples.
use std::path::{Path, PathBuf};
use std::process::{Command, Output};

fn samples() -> PathBuf {
    Path::new(env!("CARGO_MANIFEST_DIR")).join("../../samples")
}

/// Cargo builds the examples beside the tests.
fn run(name: &str, words: &[&str]) -> Output {
    let mut program = std::env::current_exe().unwrap();
    program.pop();
    program.pop();
    let program = program.join("examples").join(name);
    assert!(program.exists(), "{} is not built", program.display());
    Command::new(program).current_dir(samples()).args(words).output().unwrap()
}

fn said(name: &str, words: &[&str]) -> String {
    let done = run(name, words);
    assert!(done.status.success(), "{name} {words:?}: {}", String::from_utf8_lossy(&done.stderr));
    String::from_utf8(done.stdout).unwrap()
}

fn place(name: &str) -> String {
    Path::new(env!("CARGO_TARGET_TMPDIR")).join(name).to_str().unwrap().to_string()
}

#[test]
fn decode_and_region_agree() {
    let picture = place("example.pgm");
    said("decode", &["xtrans.fcs", &picture]);
    let bytes = std::fs::read(&picture).unwrap();
    let head = b"P5\n768 144\n16383\n";
    assert!(bytes.starts_with(head) && bytes.len() == head.len() + 2 * 768 * 144);
    let sample = |x: usize, y: usize| {
        let at = head.len() + 2 * (768 * y + x);
        u16::from_be_bytes([bytes[at], bytes[at + 1]])
    };
    let wanted = (0..2).map(|y| (0..3).map(|x| sample(5 + x, 7 + y).to_string()).collect::<Vec<_>>().join(" ") + "\n").collect::<String>();
    assert_eq!(said("region", &["xtrans.fcs", "5", "7", "3", "2"]), wanted);
}

#[test]
fn tighten_twice_is_tighten_once() {
    let (once, twice) = (place("once.fcs"), place("twice.fcs"));
    said("tighten", &["escape.fcs", &once]);
    said("tighten", &[&once, &twice]);
    assert!(std::fs::read(once).unwrap() == std::fs::read(twice).unwrap());
}

#[test]
fn two_cameras_and_resuming() {
    assert!(said("two_cameras", &["bayer.fcs", "xtrans.fcs"]).ends_with("held at the end: 0\n"));
    assert!(said("resume", &["bayer.fcs", "0", "19"]).ends_with("as from the top\n"));
}

#[test]
fn a_refusal_is_an_error() {
    let done = run("resume", &["bayer.fcs", "0", "24"]);
    assert!(!done.status.success() && String::from_utf8_lossy(&done.stderr).contains("number: 21"));
}
