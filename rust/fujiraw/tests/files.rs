//! Files, links, pipes and memory, as the program meets them.
mod folder;

use folder::{Folder, stream, text};
use std::fs::{self, File};
use std::io::Write;
use std::os::unix::fs::{PermissionsExt, symlink};
use std::path::Path;
use std::process::{Command, Output, Stdio};

const PROGRAM: &str = env!("CARGO_BIN_EXE_fujiraw");

/// The program through a shell, which finds it as `fujiraw`.
fn shell(f: &Folder, line: &str) -> Output {
    let path = format!("{}:{}", Path::new(PROGRAM).parent().unwrap().display(), std::env::var("PATH").unwrap());
    Command::new("sh").args(["-c", line]).env("PATH", path).current_dir(&f.0).output().unwrap()
}

fn says(out: &Output) -> (Option<i32>, String) {
    (out.status.code(), text(&out.stderr))
}

#[test]
fn standard_input_and_output() {
    let f = Folder::new("standard");
    f.put("a.fcs", &stream());
    f.works("decode -f a.fcs a.pgm");
    let out = shell(&f, "cat a.fcs | fujiraw decode - -");
    assert_eq!(says(&out), (Some(0), String::new()));
    assert_eq!(out.stdout, f.get("a.pgm"));
    fs::create_dir(f.0.join("out")).unwrap();
    assert_eq!(text(&shell(&f, "fujiraw decode - out < a.fcs").stdout), "out/stdin.pgm: 768 x 12 samples, 12 bits, tile rggb\n");
    assert_eq!(f.get("out/stdin.pgm"), f.get("a.pgm"));
    assert!(text(&shell(&f, "fujiraw info - < a.fcs").stdout).starts_with("standard input: "));
    let checked = text(&shell(&f, "fujiraw check - < a.fcs").stdout);
    assert!(checked.starts_with("standard input: tight, "), "{checked}");
    let empty = "refusal 1: fewer than 16 bytes of header: there are 0\n";
    assert_eq!(says(&shell(&f, "fujiraw info - < /dev/null")), (Some(1), empty.to_string()));
    // A set and a plan.
    f.put("header", &stream()[..16]);
    f.put("samples", &[0; 18_432]);
    f.works("write -f header samples block");
    let out = shell(&f, "fujiraw write header - - < samples");
    assert_eq!(says(&out), (Some(0), String::new()));
    assert_eq!(out.stdout, f.get("block"));
    let out = shell(&f, r"printf '0\t1\t7\n' | fujiraw plan header - -");
    let lossless = "refusal 16: the header is lossless: plans are for lossy headers; to make a lossy copy of a lossless stream, use fujiraw copy IN OUT --plan PLAN\n";
    assert_eq!(says(&out), (Some(1), lossless.to_string()));
}

#[test]
fn full_disk_and_closed_pipe_in_every_command() {
    let f = Folder::new("full");
    f.put("a.fcs", &stream());
    f.put("header", &stream()[..16]);
    f.put("samples", &[0; 18_432]);
    f.put("lossy", &[0x49, 0x53, 0, 0, 14, 0, 6, 3, 0, 3, 0, 3, 0, 1, 0, 1]);
    f.put("plan", b"0\t0\t7\n");
    let commands = [
        "info a.fcs",
        "check a.fcs",
        "decode a.fcs -",
        "decode a.fcs a.pgm -f",
        "tighten a.fcs -",
        "copy a.fcs - --base 1",
        "tighten a.fcs tight -f",
        "compare a.fcs a.fcs",
        "lamp a.fcs",
        "lamp a.fcs --csv --lines",
        "size a.fcs",
        "lines a.fcs 0 -",
        "write header samples -",
        "plan lossy plan -",
        "codes 14 8 9",
        "manual",
        "--help",
        "--version",
    ];
    for command in commands {
        let full = shell(&f, &format!("fujiraw {command} > /dev/full"));
        assert_eq!(says(&full), (Some(1), "cannot write to standard output: no space left on device\n".to_string()), "{command}");
        let mut child =
            Command::new(PROGRAM).args(command.split(' ')).current_dir(&f.0).stdout(Stdio::piped()).stderr(Stdio::piped()).spawn().unwrap();
        drop(child.stdout.take());
        let out = child.wait_with_output().unwrap();
        // It may have written before the pipe was closed.
        let broken = (Some(1), "cannot write to standard output: broken pipe\n".to_string());
        assert!(says(&out) == broken || says(&out) == (Some(0), String::new()), "{command}: {:?}", says(&out));
    }
    for command in ["decode a.fcs /dev/full", "write header samples /dev/full", "plan lossy plan /dev/full"] {
        f.fails(command, "cannot write /dev/full: no space left on device");
    }
}

#[test]
fn pipe_that_is_closed_before_anything_is_written() {
    let f = Folder::new("pipe");
    f.put("a.fcs", &stream());
    // The shell's reader is gone before the stream has come.
    let out = shell(&f, "{ sleep 0.3; cat a.fcs; } | { fujiraw decode - - ; echo $? >&2; } | true");
    assert_eq!(text(&out.stderr), "cannot write to standard output: broken pipe\n1\n");
}

#[test]
fn links_are_followed_and_permissions_stay() {
    let f = Folder::new("links");
    f.put("a.fcs", &stream());
    f.put("real", b"old");
    fs::set_permissions(f.0.join("real"), fs::Permissions::from_mode(0o640)).unwrap();
    symlink("real", f.0.join("link")).unwrap();
    symlink("link", f.0.join("second")).unwrap();
    f.works("decode -f a.fcs second --quiet");
    assert!(fs::symlink_metadata(f.0.join("second")).unwrap().is_symlink() && fs::symlink_metadata(f.0.join("link")).unwrap().is_symlink());
    assert!(f.get("real").starts_with(b"P5\n"));
    assert_eq!(fs::metadata(f.0.join("real")).unwrap().permissions().mode() & 0o777, 0o640);
    // A link to a file that is not there yet, in another folder.
    fs::create_dir(f.0.join("folder")).unwrap();
    symlink("folder/new", f.0.join("ahead")).unwrap();
    f.works("decode -f a.fcs ahead --quiet");
    assert!(fs::symlink_metadata(f.0.join("ahead")).unwrap().is_symlink());
    assert_eq!(f.get("folder/new"), f.get("real"));
    symlink("a.fcs", f.0.join("input")).unwrap();
    f.fails("decode a.fcs input", "cannot write input: it is also an input");
}

#[test]
fn files_that_cannot_be_read_or_written() {
    let f = Folder::new("bad");
    f.put("a.fcs", &stream());
    f.put("empty", b"");
    f.put("locked", b"old");
    fs::set_permissions(f.0.join("locked"), fs::Permissions::from_mode(0o400)).unwrap();
    fs::create_dir(f.0.join("folder")).unwrap();
    // One byte more than any stream has; the file takes no room.
    File::create(f.0.join("large")).unwrap().set_len(73_014_487_872).unwrap();
    for command in ["info", "check"] {
        for (file, says) in [
            ("missing", "cannot read missing: no such file or directory"),
            ("folder", "no camera files or streams (.raf, .fcs) in this folder"),
            ("empty", "refusal 1: fewer than 16 bytes of header: there are 0"),
            ("large", "cannot read large: it is too large, no stream or camera file has more than 73014487871 bytes"),
            // A file that the system does not let be read, even by root.
            ("/proc/self/mem", "cannot read /proc/self/mem: input/output error"),
        ] {
            let out = f.run(&format!("{command} {file}"));
            let said = text(&out.stdout) + &text(&out.stderr);
            assert!(said.ends_with(&format!("{says}\n")) && said.lines().count() == 1, "{command}: {said}");
            assert_eq!(out.status.code(), Some(if command == "check" { 5 } else { 1 }), "{command} {file}");
        }
    }
    f.fails("decode /proc/self/mem out", "cannot read /proc/self/mem: input/output error");
    f.fails("decode large out", "cannot read large: it is too large, no stream or camera file has more than 73014487871 bytes");
    f.fails("decode a.fcs locked", "cannot write locked: it already exists; use --force (-f) to replace it");
    f.fails("decode a.fcs locked -f", "cannot write locked: it is read-only");
    f.fails("decode a.fcs a.fcs", "cannot write a.fcs: it is also an input");
    f.fails("decode a.fcs /proc/none", "cannot write /proc/none: no such file or directory");
    assert_eq!(f.get("locked"), b"old");
}

/// 12288 x 16386 samples, 16 blocks: 403 million bytes of picture.
fn huge(first_block: usize) -> Vec<u8> {
    let mut bytes = vec![0x49, 0x53, 1, 0, 14, 0x40, 0x02, 0x30, 0, 0x30, 0, 3, 0, 16, 0x0A, 0xAB];
    bytes.extend((first_block as u32).to_be_bytes());
    bytes.resize(80, 0);
    bytes.resize(80 + first_block, 0xFF);
    bytes
}

#[test]
fn short_memory_is_an_error_in_words() {
    let f = Folder::new("memory");
    f.put("empty.fcs", &huge(0));
    f.put("some.fcs", &huge(16));
    // 200 MB: enough for the program, not for the picture.
    let with = |line: &str| shell(&f, &format!("ulimit -v 200000; fujiraw {line}"));
    let cut = "refusal 14: block 0, line 0: a line is truncated; use --partial to write the rows before it\n".to_string();
    assert_eq!(says(&with("decode empty.fcs out")), (Some(1), cut.clone()));
    let short = "there is not enough memory for a picture of 12288 x 16386 samples\n";
    assert_eq!(says(&with("decode some.fcs out")), (Some(1), short.to_string()));
    assert!(with("info some.fcs").status.success());
    // With memory it is refused, since its block is cut.
    assert_eq!(says(&f.run("decode some.fcs out")), (Some(1), cut));
    assert_eq!(f.names(), ["empty.fcs", "some.fcs"]);
}

#[test]
fn info_says_what_is_cut_and_what_follows() {
    let f = Folder::new("cut");
    let whole = stream();
    let length = whole.len() - 32;
    f.put("cut", &whole[..whole.len() - 5]);
    assert!(f.works("info cut").ends_with(&format!(
        "  block 0: 768 columns, offset 32, {} bytes of {length}: cut by the stream's end\n  0 bytes after the last block\n",
        length - 5
    )));
    f.put("more", &[&whole[..], &[7; 3]].concat());
    assert!(
        f.works("info more").ends_with(&format!("  block 0: 768 columns, offset 32, {length} bytes\n  3 bytes after the last block\n"))
    );
}

#[test]
fn nothing_is_shown_of_how_far_it_is_without_a_terminal() {
    let f = Folder::new("terminal");
    let mut file = File::create(f.0.join("a.fcs")).unwrap();
    file.write_all(&stream()).unwrap();
    assert_eq!(text(&f.run("decode a.fcs out").stderr), "");
    // `script` gives the program a terminal.
    let seen = |line: &str| text(&shell(&f, &format!("script -qec '{line}' /dev/null < /dev/null")).stdout);
    assert!(seen("fujiraw decode a.fcs out -f").contains("a.fcs: 1 of 1 blocks, "));
    assert!(seen("fujiraw tighten a.fcs out -f").contains("a.fcs: 1 of 1 blocks, "));
    assert!(seen("fujiraw check a.fcs").contains("check: 1 of 1 sheets"));
    assert!(!seen("fujiraw decode a.fcs out --quiet -f").contains("blocks"));
}
