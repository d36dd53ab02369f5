//! Times the decoding of whole pictures: the original Rust on one thread, and the port through its wrapper with lent scratch. README.md says
//! what is timed.
use common::random::Random;
use common::stream::{Header, encoded};
use fuji_compressed::{
    ColorTile, FujiCompressed, Rect, Scratch, measure_block_with, tighten_parallel, tighten_with, write_block_with, write_lossy_with,
};
use original::fuji_compressed as theirs;
use std::hint::black_box;
use std::time::Instant;

const SEED: u64 = 0x0bad_5eed_0bad_5eed;
const ROUNDS: usize = 31;
const MOST_ROUNDS: usize = 124;
const FEWEST_KEPT: usize = 9;
/// A round is kept if both its Rust runs take at most this, times the fastest Rust run.
const QUIET: f64 = 1.12;
const TILE: ColorTile =
    [[0, 1, 0, 1, 0, 1], [1, 2, 1, 2, 1, 2], [0, 1, 0, 1, 0, 1], [1, 2, 1, 2, 1, 2], [0, 1, 0, 1, 0, 1], [1, 2, 1, 2, 1, 2]];
/// What each of the four even numbers of the noise is below, where BENCH_NOISE does not say: a quiet picture, a usual one, a loud one.
const NOISES: [u64; 3] = [4, 25, 200];
/// The one whose lines for a script have no word for the noise.
const USUAL_NOISE: u64 = 25;
/// Name, X-Trans, lossy.
const KINDS: [(&str, bool, bool); 4] =
    [("bayer-lossless", false, false), ("xtrans-lossless", true, false), ("bayer-lossy", false, true), ("xtrans-lossy", true, true)];

unsafe extern "C" {
    fn clock_gettime(clock: i32, time: *mut [i64; 2]) -> i32;
}

/// The processor time of this thread, in seconds.
fn seconds() -> f64 {
    let mut t = [0i64; 2];
    assert_eq!(unsafe { clock_gettime(3, &mut t) }, 0);
    t[0] as f64 + t[1] as f64 * 1e-9
}

/// A smooth picture, with noise that is the sum of four even ones, each below `noise`.
fn light(n: usize, line: usize, p: usize, noise: u64, random: &mut Random) -> u16 {
    let (x, y) = (p as f64, (6 * n + line) as f64);
    let smooth = 5000.0 + 2000.0 * (x / 45.0).sin() + 1500.0 * (y / 60.0).sin();
    let noise: u64 = (0..4).map(|_| random.below(noise)).sum();
    smooth as u16 + noise as u16
}

struct Picture {
    stream: Vec<u8>,
    width: u32,
    height: u32,
    codes: f64,
}

impl Picture {
    /// 14 bits; lossy with base 2 in every line.
    fn new(blocks: u16, lines: u16, xtrans: bool, lossy: bool, noise: u64) -> Picture {
        let mut random = Random::new(SEED);
        let header = Header::new(!lossy, xtrans, 14, 768 * blocks, lines);
        let rows = if lossy { vec![vec![2; lines as usize]; blocks as usize] } else { vec![] };
        let stream = encoded(&header, &rows, &mut |_, n, line, p| light(n, line, p, noise, &mut random));
        Picture { stream, width: header.width as u32, height: header.height as u32, codes: 4608.0 * blocks as f64 * lines as f64 }
    }

    fn image(&self) -> Vec<u16> {
        vec![0x5a5a; self.width as usize * self.height as usize]
    }

    #[inline(never)]
    fn time_theirs(&self, image: &mut [u16]) -> f64 {
        let start = seconds();
        let stream = theirs::FujiCompressed::new(black_box(&self.stream)).unwrap();
        stream.decode(image, self.width, self.height, &TILE, false).unwrap();
        let time = seconds() - start;
        black_box(image);
        time
    }

    #[inline(never)]
    fn time_ours(&self, image: &mut [u16], scratch: &mut Scratch) -> f64 {
        let start = seconds();
        let stream = FujiCompressed::new(black_box(&self.stream)).unwrap();
        stream.decode_with(scratch, image, self.width, self.height, &TILE).unwrap();
        let time = seconds() - start;
        black_box(image);
        time
    }

    /// The whole picture as a region, in half the samples of scratch.
    #[inline(never)]
    fn time_windowed(&self, image: &mut [u16], windows: &mut Scratch) -> f64 {
        let start = seconds();
        let stream = FujiCompressed::new(black_box(&self.stream)).unwrap();
        stream.decode_region_windowed_with(windows, image, Rect::new(0, 0, self.width, self.height), &TILE).unwrap();
        let time = seconds() - start;
        black_box(image);
        time
    }

    /// The tight reading of the only block.
    fn time_tight(&self, scratch: &mut Scratch) -> f64 {
        let start = seconds();
        FujiCompressed::new(black_box(&self.stream)).unwrap().read_tight_with(scratch, 0).answer.unwrap();
        seconds() - start
    }

    /// The writing of the only block from its set, with its bases if it is lossy.
    fn time_write(&self, set: &[u16], out: &mut [u8], scratch: &mut Scratch) -> f64 {
        let bases = FujiCompressed::new(&self.stream).unwrap().q_bases(0).unwrap();
        let start = seconds();
        let header = black_box(&self.stream[..16]);
        let written = match bases {
            [] => write_block_with(scratch, header, black_box(set), out),
            _ => write_lossy_with(scratch, header, bases, black_box(set), out),
        };
        let length = written.unwrap();
        let time = seconds() - start;
        assert_eq!(out[..length], self.stream[self.stream.len() - length..]);
        time
    }

    /// The measuring of the only block from its set.
    fn time_measure(&self, set: &[u16], scratch: &mut Scratch) -> f64 {
        let start = seconds();
        let length = measure_block_with(scratch, black_box(&self.stream[..16]), black_box(set)).unwrap();
        let time = seconds() - start;
        assert_eq!(length, FujiCompressed::new(&self.stream).unwrap().block(0).unwrap().len());
        time
    }

    /// What `tighten` is lent: an output that suffices, and a set.
    fn for_tighten(&self) -> (Vec<u8>, Vec<u16>) {
        let header = FujiCompressed::new(&self.stream).unwrap().header;
        (vec![0; header.tightened_bound()], vec![0; header.set_size()])
    }

    fn time_tighten(&self, out: &mut [u8], set: &mut [u16], scratch: &mut Scratch) -> f64 {
        let start = seconds();
        black_box(tighten_with(scratch, set, black_box(&self.stream), out).unwrap());
        seconds() - start
    }

    /// The colour lines of the only block.
    fn time_set(&self, set: &mut [u16], scratch: &mut Scratch) -> f64 {
        let start = seconds();
        FujiCompressed::new(black_box(&self.stream)).unwrap().read_set_with(scratch, 0, set).answer.unwrap();
        let time = seconds() - start;
        black_box(set);
        time
    }

    /// Rounds of reading, making the tight stream, reading; all ours.
    fn tighten_against_read(&self) -> Rounds {
        let ((mut out, mut set), mut image, mut scratch) = (self.for_tighten(), self.image(), Scratch::new());
        rounds(|| {
            let before = self.time_ours(&mut image, &mut scratch);
            [before, self.time_tighten(&mut out, &mut set, &mut scratch), self.time_ours(&mut image, &mut scratch)]
        })
    }

    /// Rounds of making the tight stream by one thread, by as many as there are processors, by one; by the clock on the wall.
    fn parallel_tighten(&self) -> Rounds {
        let threads = std::thread::available_parallelism().map_or(1, |n| n.get());
        let (mut out, mut set) = self.for_tighten();
        let mut scratch = Scratch::new();
        let mut serial = || {
            let start = Instant::now();
            black_box(tighten_with(&mut scratch, &mut set, black_box(&self.stream), &mut out).unwrap());
            start.elapsed().as_secs_f64()
        };
        let parallel = || {
            let start = Instant::now();
            black_box(tighten_parallel(threads, black_box(&self.stream), &|| ()).unwrap());
            start.elapsed().as_secs_f64()
        };
        rounds(|| [serial(), parallel(), serial()])
    }

    /// The set that is read from the only block, through tiles of one colour.
    fn set(&self, xtrans: bool) -> Vec<u16> {
        let (width, lines) = (if xtrans { 512 } else { 384 }, self.height as usize / 6);
        let mut set = vec![0; 12 * width * lines];
        let stream = FujiCompressed::new(&self.stream).unwrap();
        for (colour, step, first) in [(0, 2, 0), (1, 1, 3), (2, 2, 9)] {
            let mut image = self.image();
            stream.decode(&mut image, self.width, self.height, &[[colour; 6]; 6]).unwrap();
            for (row, samples) in image.chunks(768).enumerate().filter(|(row, _)| row % step == 0) {
                let to = (12 * (row / 6) + first + row % 6 / step) * width;
                for p in 0..width {
                    set[to + p] = samples[if xtrans { p / 2 * 3 + p % 2 } else { 2 * p }];
                }
            }
        }
        set
    }

    /// The bytes that no block of this picture's lines exceeds.
    fn bound(&self) -> usize {
        self.height as usize / 6 * 2304 * 14
    }

    /// Rounds of reading, writing to an output of so many bytes, reading; all ours.
    fn write_against_read(&self, xtrans: bool, room: usize) -> Rounds {
        let (set, mut image, mut scratch) = (self.set(xtrans), self.image(), Scratch::new());
        let mut out = vec![0; room];
        rounds(|| {
            let before = self.time_ours(&mut image, &mut scratch);
            [before, self.time_write(&set, &mut out, &mut scratch), self.time_ours(&mut image, &mut scratch)]
        })
    }

    /// Rounds of reading, measuring, reading; all ours.
    fn measure_against_read(&self, xtrans: bool) -> Rounds {
        let (set, mut image, mut scratch) = (self.set(xtrans), self.image(), Scratch::new());
        rounds(|| {
            let before = self.time_ours(&mut image, &mut scratch);
            [before, self.time_measure(&set, &mut scratch), self.time_ours(&mut image, &mut scratch)]
        })
    }

    /// Rounds of Rust, ours, Rust.
    fn against_theirs(&self) -> Rounds {
        let (mut want, mut got, mut scratch) = (self.image(), self.image(), Scratch::new());
        self.time_theirs(&mut want);
        self.time_ours(&mut got, &mut scratch);
        assert!(want == got, "the two pictures differ");
        rounds(|| [self.time_theirs(&mut want), self.time_ours(&mut got, &mut scratch), self.time_theirs(&mut want)])
    }

    /// Rounds of Rust, ours, Rust, each by as many threads as there are processors, by the clock on the wall.
    fn parallel_against_theirs(&self) -> Rounds {
        let threads = std::thread::available_parallelism().map_or(1, |n| n.get());
        let (mut want, mut got) = (self.image(), self.image());
        let theirs = |image: &mut [u16]| {
            let start = Instant::now();
            let stream = theirs::FujiCompressed::new(black_box(&self.stream)).unwrap();
            stream.decode(image, self.width, self.height, &TILE, true).unwrap();
            start.elapsed().as_secs_f64()
        };
        let ours = |image: &mut [u16]| {
            let start = Instant::now();
            let stream = FujiCompressed::new(black_box(&self.stream)).unwrap();
            stream.decode_parallel(threads, image, self.width, self.height, &TILE).unwrap();
            start.elapsed().as_secs_f64()
        };
        theirs(&mut want);
        ours(&mut got);
        assert!(want == got, "the two pictures differ");
        rounds(|| [theirs(&mut want), ours(&mut got), theirs(&mut want)])
    }

    /// Rounds of reading, reading in windows, reading; all ours.
    fn windowed_against_read(&self) -> Rounds {
        let (mut want, mut got, mut scratch, mut windows) = (self.image(), self.image(), Scratch::new(), Scratch::windowed());
        self.time_ours(&mut want, &mut scratch);
        self.time_windowed(&mut got, &mut windows);
        assert!(want == got, "the two pictures differ");
        rounds(|| {
            let before = self.time_ours(&mut want, &mut scratch);
            [before, self.time_windowed(&mut got, &mut windows), self.time_ours(&mut want, &mut scratch)]
        })
    }

    /// Rounds of reading the last tenth of the only block's lines from the top, from a stored state, and from the top; all ours.
    fn foot_against_top(&self) -> Rounds {
        let (stream, lines) = (FujiCompressed::new(&self.stream).unwrap(), self.height / 6);
        let first = lines - lines / 10;
        let foot = Rect::new(0, 6 * first, self.width, self.height - 6 * first);
        let (mut state, mut scratch) = (vec![0; stream.header.checkpoint_size()], Scratch::new());
        stream.store_checkpoint(0, first as usize - 1, &mut state).answer.unwrap();
        let mut want = vec![0x5a5a; foot.width as usize * foot.height as usize];
        let mut got = want.clone();
        let top = |image: &mut [u16], scratch: &mut Scratch| {
            let start = seconds();
            FujiCompressed::new(black_box(&self.stream)).unwrap().decode_region_with(scratch, image, foot, &TILE).unwrap();
            seconds() - start
        };
        let on = |image: &mut [u16], scratch: &mut Scratch| {
            let start = seconds();
            let stream = FujiCompressed::new(black_box(&self.stream)).unwrap();
            stream.resume_region_with(scratch, 0, black_box(&state), image, foot, &TILE).answer.unwrap();
            seconds() - start
        };
        top(&mut want, &mut scratch);
        on(&mut got, &mut scratch);
        assert!(want == got, "the two pictures differ");
        rounds(|| [top(&mut want, &mut scratch), on(&mut got, &mut scratch), top(&mut want, &mut scratch)])
    }

    /// Rounds of the ordinary reading, the tight reading, the ordinary reading; all ours.
    fn tight_against_ordinary(&self) -> Rounds {
        let (mut image, mut scratch) = (self.image(), Scratch::new());
        rounds(|| [self.time_ours(&mut image, &mut scratch), self.time_tight(&mut scratch), self.time_ours(&mut image, &mut scratch)])
    }
}

/// The rounds that are kept, how many there were, and the fastest outer and inner run of all of them.
struct Rounds {
    kept: Vec<[f64; 3]>,
    all: usize,
    fastest: [f64; 2],
}

fn rounds(mut round: impl FnMut() -> [f64; 3]) -> Rounds {
    let mut rounds: Vec<[f64; 3]> = vec![];
    loop {
        rounds.extend(std::iter::repeat_with(&mut round).take(ROUNDS));
        let fastest = rounds.iter().map(|r| r[0].min(r[2])).fold(f64::MAX, f64::min);
        let kept: Vec<[f64; 3]> = rounds.iter().filter(|r| r[0].max(r[2]) <= QUIET * fastest).copied().collect();
        if kept.len() >= FEWEST_KEPT || rounds.len() >= MOST_ROUNDS {
            let inner = rounds.iter().map(|r| r[1]).fold(f64::MAX, f64::min);
            return Rounds { kept, all: rounds.len(), fastest: [fastest, inner] };
        }
    }
}

/// The median, with the least and the most.
struct Spread {
    median: f64,
    least: f64,
    most: f64,
}

impl Spread {
    fn of(values: impl Iterator<Item = f64>) -> Spread {
        let mut v: Vec<f64> = values.collect();
        v.sort_by(f64::total_cmp);
        Spread { median: (v[(v.len() - 1) / 2] + v[v.len() / 2]) / 2.0, least: v[0], most: v[v.len() - 1] }
    }
}

impl std::fmt::Display for Spread {
    fn fmt(&self, f: &mut std::fmt::Formatter) -> std::fmt::Result {
        write!(f, "{:.2} ({:.2} to {:.2})", self.median, self.least, self.most)
    }
}

/// Prints what was measured, and gives the ratio. `names` are those of the outer and of the inner runs of a round.
fn measure(name: &str, names: [&str; 2], picture: &Picture, Rounds { kept, all, fastest }: Rounds) -> Option<f64> {
    if kept.is_empty() {
        println!("{name}: no quiet round of {all}");
        return None;
    }
    let ns = 1e9 / picture.codes;
    let outer = Spread::of(kept.iter().map(|r| ns * (r[0] + r[2]) / 2.0));
    let inner = Spread::of(kept.iter().map(|r| ns * r[1]));
    let ratio = Spread::of(kept.iter().map(|r| 2.0 * r[1] / (r[0] + r[2])));
    let bits = 8.0 * picture.stream.len() as f64 / picture.codes;
    println!(
        "{name}: {} {outer} ns a code, {} {inner} ns a code, ratio {ratio}, {} rounds of {all} kept, {bits:.2} bits a code; fastest {:.2} and {:.2}, ratio {:.2}",
        names[0],
        names[1],
        kept.len(),
        ns * fastest[0],
        ns * fastest[1],
        fastest[1] / fastest[0]
    );
    Some(ratio.median)
}

/// The name of a line for a script: that of the kind, and what is not usual about the picture.
fn script_name(kind: &str, part: &str, noise: u64) -> String {
    if noise == USUAL_NOISE { format!("{kind}{part}") } else { format!("{kind}{part}-noise-{noise}") }
}

fn say(name: &str, ratio: Option<f64>) {
    if let Some(ratio) = ratio {
        println!("ratio {name} {ratio:.2}");
    }
}

/// Decodes one block once, or writes or measures it, so that a tool can count the instructions (tools/count.py):
/// KIND NOISE LINES ours|windowed|rust|write|exact|measure|set|tighten. The output of `write` has the bytes that no block exceeds, that of `exact` the block's.
fn count(words: &[String]) {
    let [kind, noise, lines, side] = words else { panic!("count KIND NOISE LINES ours|windowed|rust|write|exact|measure|set|tighten") };
    let (_, xtrans, lossy) = KINDS.into_iter().find(|(name, ..)| name == kind).expect("a kind");
    let picture = Picture::new(1, lines.parse().expect("lines"), xtrans, lossy, noise.parse().expect("a noise"));
    let mut image = picture.image();
    match side.as_str() {
        "ours" => picture.time_ours(&mut image, &mut Scratch::new()),
        "windowed" => picture.time_windowed(&mut image, &mut Scratch::windowed()),
        "rust" => picture.time_theirs(&mut image),
        "write" => picture.time_write(&picture.set(xtrans), &mut vec![0; picture.bound()], &mut Scratch::new()),
        "exact" => {
            let exact = FujiCompressed::new(&picture.stream).unwrap().block(0).unwrap().len();
            picture.time_write(&picture.set(xtrans), &mut vec![0; exact], &mut Scratch::new())
        }
        "measure" => picture.time_measure(&picture.set(xtrans), &mut Scratch::new()),
        "set" => picture.time_set(&mut picture.for_tighten().1, &mut Scratch::new()),
        "tighten" => {
            let (mut out, mut set) = picture.for_tighten();
            picture.time_tighten(&mut out, &mut set, &mut Scratch::new())
        }
        _ => panic!("ours, windowed, rust, write, exact, measure, set or tighten"),
    };
}

/// The pictures of one kind with that noise, and for the usual noise our own entries against our own decoding.
fn measure_kind((name, xtrans, lossy): (&str, bool, bool), blocks: u16, lines: u16, noise: u64) {
    let one = Picture::new(1, 480, xtrans, lossy, noise);
    let title = format!("{name}, noise {noise}, one block of 480 lines");
    say(&script_name(name, "-block", noise), measure(&title, ["rust", "ours"], &one, one.against_theirs()));
    let whole = Picture::new(blocks, lines, xtrans, lossy, noise);
    let title = format!("{name}, noise {noise}, {blocks} blocks of {lines} lines");
    say(&script_name(name, "", noise), measure(&title, ["rust", "ours"], &whole, whole.against_theirs()));
    if noise != USUAL_NOISE {
        return;
    }
    let title = format!("{name}, {blocks} blocks of {lines} lines, in parallel by the clock on the wall");
    say(&format!("parallel-{name}"), measure(&title, ["rust", "ours"], &whole, whole.parallel_against_theirs()));
    let title = format!("{name}, {blocks} blocks of {lines} lines, tighten by the clock on the wall");
    say(&format!("parallel-tighten-{name}"), measure(&title, ["one thread", "in parallel"], &whole, whole.parallel_tighten()));
    let tighten = format!("tighten-{name}");
    say(&tighten, measure(&format!("{tighten}, one block of 480 lines"), ["decode", "tighten"], &one, one.tighten_against_read()));
    let windowed = format!("windowed-{name}");
    let title = format!("{windowed}, one block of 480 lines");
    say(&windowed, measure(&title, ["decode", "decode_region_windowed"], &one, one.windowed_against_read()));
    let tall = Picture::new(1, 2731, xtrans, lossy, noise);
    let foot = format!("foot-{name}");
    let title = format!("{foot}, the last tenth of one block of 2731 lines");
    say(&foot, measure(&title, ["decode_region", "resume_region"], &tall, tall.foot_against_top()));
    let colours = if xtrans { "xtrans" } else { "bayer" };
    let exact = FujiCompressed::new(&one.stream).unwrap().block(0).unwrap().len();
    let (write, short) = (one.write_against_read(xtrans, one.bound()), one.write_against_read(xtrans, exact));
    let entries = if lossy {
        vec![("write-lossy", "write_lossy", write), ("write-lossy-exact", "write_lossy", short)]
    } else {
        let (tight, measured) = (one.tight_against_ordinary(), one.measure_against_read(xtrans));
        vec![
            ("tight", "read_tight", tight),
            ("write", "write_block", write),
            ("write-exact", "write_block", short),
            ("measure", "measure_block", measured),
        ]
    };
    for (entry, function, rounds) in entries {
        let name = format!("{entry}-{colours}");
        say(&name, measure(&format!("{name}, one block of 480 lines"), ["decode", function], &one, rounds));
    }
}

fn main() {
    let words: Vec<String> = std::env::args().skip(1).collect();
    if words.first().is_some_and(|word| word == "count") {
        return count(&words[1..]);
    }
    let size = |i: usize, usual: u16| words.get(i).map_or(usual, |w| w.parse().expect("a number of blocks and a number of lines"));
    let (blocks, lines) = (size(0, 6), size(1, 300));
    let noises = std::env::var("BENCH_NOISE").map_or(NOISES.to_vec(), |n| vec![n.parse().expect("a number for BENCH_NOISE")]);
    println!(
        "images are written over from run to run, and not cleared before; times are processor times of one thread, medians (least to most)"
    );
    for noise in noises {
        for kind in KINDS {
            measure_kind(kind, blocks, lines, noise);
        }
    }
}
