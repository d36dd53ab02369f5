//! Memory, and time with more processors.
mod camera;
mod folder;

use camera::{Camera, STORED, raf};
use common::pictures::scene;
use common::random::Random;
use common::stream::{Header, encoded};
use folder::{Folder, text};
use std::process::Command;
use std::time::Instant;

const PROGRAM: &str = env!("CARGO_BIN_EXE_fujiraw");

fn large(xtrans: bool, width: u16, lines: u16, seed: u64) -> Vec<u8> {
    let mut random = Random::new(seed);
    encoded(&Header::new(true, xtrans, 14, width, lines), &[], &mut |_, n, line, p| scene(seed, 16_383, n, line, p, &mut random))
}

/// The most memory that a run takes, in bytes.
fn most(f: &Folder, line: &str) -> u64 {
    let reader = "import resource, subprocess, sys\nsubprocess.run(sys.argv[1:], stdout=subprocess.DEVNULL, check=True)\n\
                  print(resource.getrusage(resource.RUSAGE_CHILDREN).ru_maxrss)";
    let words = line.split(' ').filter(|w| !w.is_empty());
    let out = Command::new("python3").args(["-c", reader, PROGRAM]).args(words).current_dir(&f.0).output().unwrap();
    assert!(out.status.success(), "{line}: {}", text(&out.stderr));
    1024 * text(&out.stdout).trim().parse::<u64>().unwrap()
}

#[test]
fn memory_is_at_most_the_file_the_picture_and_64_mb() {
    let f = Folder::new("memory-most");
    // Tall enough that a thread for each block would take more.
    let stream = large(true, 4608, 700, 5);
    let file = raf(&stream, &Camera { colours: Some(STORED.to_vec()), ..Camera::default() });
    f.put("a.raf", &file);
    let allowed = file.len() as u64 + 2 * 4608 * 4200 + 64_000_000;
    for command in [
        "check a.raf",
        "decode a.raf a.png -f",
        "decode a.raf b.png --preview -f",
        "tighten a.raf b.raf -f",
        "copy a.raf c.raf --base 3 -f",
        "compare a.raf b.raf",
        "size a.raf",
    ] {
        let used = most(&f, &format!("{command} --threads 16"));
        assert!(used <= allowed, "{command}: {used} of {allowed}");
    }
    // Many sheets are not all in memory.
    let many = ["a.raf"; 12].join(" ");
    let used = most(&f, &format!("check {many} --threads 16"));
    assert!(used <= allowed, "12 sheets: {used} of {allowed}");
}

/// With two processors 200 sheets take about half the time. Run by hand on a machine that does nothing else:
/// cargo test --release -p fujiraw --test resources -- --ignored --nocapture
#[test]
#[ignore = "a timing: it wants two processors with nothing else to do"]
fn two_processors_are_nearly_twice_as_fast() {
    let f = Folder::new("timing");
    for (name, width, lines) in [("small", 768, 60), ("wide", 2304, 60)] {
        let stream = large(false, width, lines, 5);
        std::fs::create_dir(f.0.join(name)).unwrap();
        for i in 0..200 {
            f.put(&format!("{name}/s{i:03}.raf"), &raf(&stream, &Camera::default()));
        }
        let time = |threads: usize| {
            let start = Instant::now();
            f.works(&format!("check {name} --quiet --threads {threads}"));
            start.elapsed().as_secs_f64()
        };
        time(2);
        let best = |threads: usize| (0..5).map(|_| time(threads)).fold(f64::INFINITY, f64::min);
        let (one, two) = (best(1), best(2));
        println!("{name}: 200 sheets of {width} x {}: {one:.3} s with one thread, {two:.3} s with two: {:.2} times", 6 * lines, one / two);
        assert!(one / two >= 1.9, "{name}: {one:.3} s and {two:.3} s");
    }
}
