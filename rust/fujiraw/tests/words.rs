//! The help, the manual page, the examples, and the script that answers before anything is built.
mod camera;
mod folder;

use camera::{Camera, raf};
use folder::{Folder, text};
use std::fs;
use std::os::unix::fs::symlink;
use std::path::{Path, PathBuf};
use std::process::{Command, Output};

const PROGRAM: &str = env!("CARGO_BIN_EXE_fujiraw");
const OPTIONS: &str = include_str!("../text/options.txt");

fn root() -> PathBuf {
    Path::new(env!("CARGO_MANIFEST_DIR")).join("../..")
}

fn page(name: &str) -> String {
    fs::read_to_string(root().join(format!("rust/fujiraw/text/{name}.txt"))).unwrap()
}

fn commands() -> Vec<&'static str> {
    OPTIONS.lines().map(|l| l.split_once(':').unwrap().0).collect()
}

fn examples(page: &str) -> Vec<String> {
    let (_, rest) = page.split_once("Examples:\n").unwrap();
    rest.lines().take_while(|l| l.starts_with("  ")).map(|l| l.trim().to_string()).collect()
}

/// A folder with what the examples name.
fn desk(name: &str) -> Folder {
    let f = Folder::new(name);
    for name in ["bayer.fcs", "xtrans.fcs", "escape.fcs", "plan.txt"] {
        fs::copy(root().join("samples").join(name), f.0.join(name)).unwrap();
    }
    let bayer = f.get("bayer.fcs");
    let sheet = raf(&bayer, &Camera::default());
    f.put("sheet.raf", &sheet);
    f.put("cut.fcs", &bayer[..50_000]);
    for folder in ["masters/old", "pictures", "tightened", "copies"] {
        fs::create_dir_all(f.0.join(folder)).unwrap();
    }
    f.put("masters/a.raf", &sheet);
    f.put("masters/b.raf", &raf(&f.get("escape.fcs"), &Camera { date: "2026:11:18 08:00:00", ..Camera::default() }));
    f.put("masters/old/c.raf", &sheet);
    f
}

fn shell(f: &Folder, line: &str) -> Output {
    let path = format!("{}:{}", Path::new(PROGRAM).parent().unwrap().display(), std::env::var("PATH").unwrap());
    Command::new("bash").args(["-c", line]).env("PATH", &path).current_dir(&f.0).output().unwrap()
}

#[test]
fn every_example_of_the_help_runs() {
    for name in commands().into_iter().chain(["help"]) {
        let f = desk(&format!("examples-{name}"));
        for line in examples(&page(name)) {
            // The masters of the example are not all tight, and an output may be there from the line before.
            let found = line.starts_with("fujiraw check masters");
            let out = shell(&f, &line);
            let wanted = if found { Some(3) } else { Some(0) };
            assert_eq!(out.status.code(), wanted, "{line}: {}", text(&out.stderr));
            assert!(out.stderr.is_empty() || line.contains("||"), "{line}: {}", text(&out.stderr));
        }
    }
}

/// The commands of the guide, block after block, each in a folder of its own. A block that is to be shown only is
/// marked as text.
#[test]
fn every_command_of_the_guide_runs() {
    let guide = fs::read_to_string(root().join("docs/USING.md")).unwrap();
    let blocks: Vec<&str> = guide.split("```sh\n").skip(1).map(|b| b.split("```").next().unwrap()).collect();
    assert!(blocks.len() > 8);
    let has_parallel = Command::new("parallel").arg("--version").output().is_ok_and(|o| o.status.success());
    for (i, block) in blocks.into_iter().enumerate() {
        if block.contains("parallel ") && !has_parallel {
            continue;
        }
        let f = desk(&format!("guide-{i}"));
        let out = shell(&f, &format!("set -e -o pipefail\n{block}"));
        assert_eq!(out.status.code(), Some(0), "{block}: {}", text(&out.stderr));
    }
    for name in commands().into_iter().filter(|c| *c != "manual") {
        assert!(guide.contains(&format!("fujiraw {name} ")), "{name} is not in the guide");
    }
}

#[test]
fn every_command_and_option_is_in_the_help_and_in_an_example() {
    let first = page("help");
    for line in OPTIONS.lines() {
        let (command, options) = line.split_once(':').unwrap();
        let page = page(command);
        assert!(first.contains(&format!("\n  {command} ")), "{command}");
        assert!(page.starts_with(&format!("usage: fujiraw {command}")), "{command}");
        let examples = examples(&page);
        assert!(examples.iter().any(|l| l.contains(&format!("fujiraw {command}"))), "{command}");
        let short = |option: &str| match option {
            "--output" => "-o ",
            "--force" => "-f",
            "--quiet" => "-q",
            _ => "no short form",
        };
        for option in options.split_whitespace().map(|o| o.trim_end_matches('=')) {
            let in_help = page
                .lines()
                .any(|l| l.starts_with(&format!("  {option} ")) || l.starts_with(&format!("  {}, {option} ", &short(option)[..2])));
            assert!(in_help, "{command} {option}");
            let shown = examples.iter().any(|l| l.contains(option) || l.contains(short(option)));
            assert!(shown, "{command} {option} is in no example");
        }
    }
}

#[test]
fn manual_page_is_the_help() {
    let made = Command::new(PROGRAM).arg("manual").output().unwrap().stdout;
    let kept = fs::read(root().join("docs/fujiraw.1")).unwrap();
    assert!(made == kept, "docs/fujiraw.1 is another text: ./fujiraw manual > docs/fujiraw.1");
    let manual = text(&kept).replace("\\-", "-").replace("\\e", "\\");
    for name in commands().into_iter().chain(["help"]) {
        for line in page(name).lines() {
            assert!(manual.contains(line.trim_end()), "{line}");
        }
    }
}

/// A copy of the script with its texts and nothing that could be built.
fn script(f: &Folder) -> PathBuf {
    let text = f.0.join("copy/rust/fujiraw/text");
    fs::create_dir_all(&text).unwrap();
    for name in ["fujiraw", "rust/Cargo.toml"] {
        fs::copy(root().join(name), f.0.join("copy").join(name)).unwrap();
    }
    for entry in fs::read_dir(root().join("rust/fujiraw/text")).unwrap().flatten() {
        fs::copy(entry.path(), text.join(entry.file_name())).unwrap();
    }
    f.0.join("copy/fujiraw")
}

fn told(out: Output) -> (Option<i32>, String, String) {
    (out.status.code(), text(&out.stdout), text(&out.stderr))
}

#[test]
fn script_answers_as_the_program_does_without_building() {
    let f = Folder::new("script");
    let script = script(&f);
    symlink(&script, f.0.join("link")).unwrap();
    let mut lines: Vec<String> =
        commands().iter().flat_map(|c| [format!("{c} --help"), format!("help {c}"), format!("{c} a -h")]).collect();
    let more = [
        "",
        "--help",
        "-h",
        "help",
        "help nothing",
        "nothing --help",
        ".* --help",
        "--version",
        "-V",
        "decode -V",
        "show a.fcs",
        "decod a.fcs",
        "tihgten a.fcs",
        "info a --quiet",
        "info a -q",
        "info a --blocks=1",
        "check a --bloks",
        "decode a b --speed 3",
        "decode a b --format",
        "decode a b --formta png",
        "decode a b --quiet --quiet",
        "decode a b --quiet -q",
        "decode a -o",
        "decode a -o b --output c",
        "decode a b --quiet=1",
        "decode a b -f=1",
        "decode a b --tile=1 --tile 2",
        "decode a b -v",
        "codes 1 2 3 --k",
        "codes 1 -2 3",
        "write a b c --bases",
        "write a b c --plan=d --plan e",
    ];
    lines.extend(more.map(str::to_string));
    for line in lines {
        let words: Vec<&str> = line.split_whitespace().collect();
        let by_program = told(Command::new(PROGRAM).args(&words).output().unwrap());
        assert!(by_program.0 == Some(0) || by_program.0 == Some(2), "{line}");
        for name in [&script, &f.0.join("link")] {
            assert_eq!(told(Command::new(name).args(&words).output().unwrap()), by_program, "{line}");
        }
    }
}
