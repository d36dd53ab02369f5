// Writes the answers of the leaves of fuji_compressed.rs to the file that its argument names. The
// layout of the records is in README.md.
use common::random::Random;
use original::opened::leaves::{Given, Tables, k};

const SEED: u64 = 0x0123_4567_89ab_cdef;
const DEPTHS: [u32; 3] = [12, 14, 16];

/// The largest residual size of a code, which bounds the sum of a record that has counted n.
const LARGEST: i64 = 63 << 14;

/// The records, 80 bytes each: twelve words and 32 bytes.
struct Answers(Vec<u8>);

impl Answers {
    fn add(&mut self, kind: u32, words: &[u32], data: &[u8]) {
        let from = self.0.len();
        self.0.extend_from_slice(&kind.to_be_bytes());
        for w in words {
            self.0.extend_from_slice(&w.to_be_bytes());
        }
        assert!(words.len() <= 11 && data.len() <= 32);
        self.0.resize(from + 48, 0);
        self.0.extend_from_slice(data);
        self.0.resize(from + 80, 0);
    }
}

/// The sign in the top bit, and the size.
fn signed(v: i32) -> u32 {
    ((v < 0) as u32) << 31 | v.unsigned_abs()
}

fn bytes(a: u32, b: u32, c: u32, d: u32) -> u32 {
    assert!(a < 256 && b < 256 && c < 256 && d < 256);
    a << 24 | b << 16 | c << 8 | d
}

/// A sum below 2^26 and an n: sums of every length, and those at which k changes.
fn statistics(r: &mut Random) -> (i64, i64) {
    let n = match r.below(4) {
        0 => r.pick(&[1, 2, 32, 33, 63, 64]),
        1 => 64,
        _ => r.within(1, 64),
    };
    let sum = match r.below(4) {
        0 => r.below(4) as i64,
        1 => (n << r.below(17)) + r.within(-1, 1),
        _ => {
            let length = r.below(27);
            r.below(1 << length) as i64
        }
    };
    (sum.max(0), n)
}

fn ks(r: &mut Random, out: &mut Answers) {
    let mut add = |sum: i64, n: i64| {
        if (0..1 << 26).contains(&sum) {
            out.add(1, &[sum as u32, n as u32, k(sum as i32, n as i32)], &[]);
        }
    };
    for n in [1, 2, 3, 31, 32, 33, 63, 64] {
        for e in 0..=20 {
            for more in -1..=1 {
                add((n << e) + more, n);
            }
        }
        add((1 << 26) - 1, n);
    }
    for _ in 0..500 {
        let (sum, n) = statistics(r);
        add(sum, n);
    }
}

/// The differences at which the level of a base may change.
fn thresholds(base: i32) -> [i32; 5] {
    [0, base, 3 * base + 18, 5 * base + 67, 7 * base + 276]
}

fn levels(r: &mut Random, tables: &[Tables; 3], out: &mut Answers) {
    let mut cases = Vec::new();
    for depth in 0..3 {
        for flat in 1..=3 {
            cases.push((depth, flat, flat as i32 - 1));
        }
        for base in [0, 1, 2, 3, 254, 255] {
            cases.push((depth, 0, base));
        }
        for _ in 0..8 {
            cases.push((depth, 0, r.below(256) as i32));
        }
    }
    for (depth, flat, base) in cases {
        let largest = (1 << DEPTHS[depth]) - 1;
        let mut add = |v: i32| {
            let level = tables[depth].level(flat, base as u32, v);
            out.add(2, &[DEPTHS[depth], flat, base as u32, signed(v), signed(level)], &[]);
        };
        for t in thresholds(base) {
            for more in -1..=1 {
                let sign = r.pick(&[-1, 1]);
                add(sign * (t + more));
                if more == 0 && t != 0 {
                    add(-sign * t);
                }
            }
        }
        add(largest);
        add(-largest);
        for _ in 0..6 {
            add(r.within(-largest as i64, largest as i64) as i32);
        }
    }
}

fn numbers(tables: &[Tables; 3], out: &mut Answers) {
    for (depth, t) in DEPTHS.iter().zip(tables) {
        let main = (0..256).map(|base| (0, base));
        for (flat, base) in main.chain((1..=3).map(|flat| (flat, flat - 1))) {
            let n = t.numbers(flat, base);
            let answers = [n.total as u32, n.raw, n.limit as u32, n.start as u32, n.weight as u32];
            assert_eq!(n.base as u32, base);
            out.add(3, &[*depth, flat, base, answers[0], answers[1], answers[2], answers[3], answers[4]], &[]);
        }
    }
}

/// Five neighbours: close to each other, with ties, at the ends, or anything.
fn neighbours(r: &mut Random, largest: i64) -> [u16; 5] {
    let near = r.within(0, largest);
    let step = r.pick(&[1, 2, 3, 7, 17, 18, 67, 276, 1000]);
    let way = r.below(5);
    std::array::from_fn(|_| {
        let v = match way {
            0 => near + r.within(-4, 4),
            1 => near + r.within(-4, 4) * step,
            2 => r.pick(&[0, 1, largest / 2, largest - 1, largest]),
            3 => near + r.pick(&[-step, 0, step]),
            _ => r.within(0, largest),
        };
        v.clamp(0, largest) as u16
    })
}

fn line_base(r: &mut Random) -> u32 {
    match r.below(8) {
        0..=2 => 0,
        3..=5 => r.within(1, 4) as u32,
        6 => 255,
        _ => r.below(256) as u32,
    }
}

fn predictions(r: &mut Random, tables: &[Tables; 3], out: &mut Answers, odd: bool) {
    for _ in 0..900 {
        let depth = r.below(3) as usize;
        let bits = DEPTHS[depth];
        let base = line_base(r);
        let [a, b, c, d, e] = neighbours(r, (1 << bits) - 1);
        let (kind, last, p) =
            if odd { (5, e, tables[depth].odd(base, a, b, c, d, e)) } else { (4, 0, tables[depth].even(base, a, b, c, d)) };
        let given = [bits, base, a as u32, b as u32, c as u32, d as u32, last as u32];
        let answers = [p.prediction as u32, p.table, p.index, p.second as u32];
        out.add(kind, &[&given[..], &answers[..]].concat(), &[]);
    }
}

fn set_bit(data: &mut [u8; 32], at: u64) {
    if at < 256 {
        data[at as usize / 8] |= 0x80 >> (at % 8);
    }
}

/// Zeros from a position on, and a one bit after them.
fn set_run(data: &mut [u8; 32], position: u64, run: u64) {
    for at in position..(position + run).min(256) {
        data[at as usize / 8] &= !(0x80 >> (at % 8));
    }
    set_bit(data, position + run);
}

/// Bytes, and a position in them: several densities of one bits, runs of zeros about as long as the
/// limit or as a window, runs that end near the end of the bytes or go past it.
fn block(r: &mut Random, limit: u64) -> ([u8; 32], u64) {
    let mut data = [0u8; 32];
    let way = r.below(12);
    let one_in = r.pick(&[1, 2, 2, 3, 4, 8, 16, 32, 64]);
    for at in 0..256 {
        if r.chance(one_in) {
            set_bit(&mut data, at);
        }
    }
    let mut position = match r.below(16) {
        0..=2 => r.within(184, 255),
        3 => r.within(240, 272),
        _ => r.within(0, 255),
    } as u64;
    let run = match way {
        0 => limit + r.below(3) - 1,
        1 => r.pick(&[31, 32, 33, 41, 42, 43, 48, 49, 56, 57, 63, 64, 65]),
        2 => r.below(limit),
        3 => r.below(256),
        4 => 256,
        _ => return (data, position),
    };
    if way < 4 && r.chance(2) {
        position = r.below(256 - run.min(255));
    }
    set_run(&mut data, position, run);
    (data, position)
}

fn difference(r: &mut Random, base: i32, largest: i64) -> i32 {
    let size = match r.below(4) {
        0 => r.below(5) as i64,
        1 => r.pick(&thresholds(base)) as i64 + r.within(-1, 1),
        2 => r.pick(&[0, largest]),
        _ => r.within(0, largest),
    };
    (r.pick(&[-1, 1]) * size.clamp(0, largest)) as i32
}

fn samples(r: &mut Random, tables: &[Tables; 3], out: &mut Answers) {
    for _ in 0..3000 {
        let depth = r.below(3) as usize;
        let largest = (1i64 << DEPTHS[depth]) - 1;
        let base = line_base(r);
        let lossy = base > 0 || r.chance(4);
        let (sum, n) = statistics(r);
        // A residual of size 1 near the ends of the range, where samples are clamped or wrapped; or any.
        let close = r.chance(4);
        let sum = sum.min(if close { n } else { n * LARGEST }) as i32;
        // The differences of a flat place, or any.
        let (v1, v2) = if r.chance(3) {
            let size = r.pick(&[0, 1, 2, 3, 4, 5, 5, 6, 6, 6, 7, 7, 7, 8, 8]);
            let first = r.within(0, size as i64) as i32;
            (r.pick(&[-1, 1]) * first, r.pick(&[-1, 1]) * (size - first))
        } else {
            (difference(r, base as i32, largest), difference(r, base as i32, largest))
        };
        let step = 2 * base as i64 + 1;
        let prediction = match r.below(4) {
            _ if close => r.pick(&[0, largest]) + r.within(-step, step),
            0 => r.pick(&[0, 1, largest / 2, largest - 1, largest]),
            1 => r.pick(&[0, largest - 600]) + r.within(0, 600),
            _ => r.within(0, largest),
        };
        let prediction = prediction.clamp(0, largest) as i32;
        let flat = v1.abs() + v2.abs();
        let g = Given { lossy, base, sum, n: n as u32, flat, v1, v2, prediction };
        let (mut data, position) = block(r, tables[depth].numbers(0, base).limit as u64);
        if close {
            set_run(&mut data, position, 1 + r.below(2));
        }
        let s = tables[depth].residual(&data, position, &g);
        let words = [
            bytes(DEPTHS[depth], lossy as u32, base, g.n),
            position as u32,
            flat as u32,
            signed(v1),
            signed(v2),
            prediction as u32,
            sum as u32,
            s.value as u32,
            s.sum as u32,
            bytes(s.overrun as u32, s.n, s.table, s.index),
            s.position as u32,
        ];
        out.add(6, &words, &data);
    }
}

fn main() {
    let name = std::env::args().nth(1).expect("the name of the file to write");
    let tables = DEPTHS.map(Tables::new);
    let mut r = Random::dropping(SEED, 16);
    let mut out = Answers(Vec::new());
    ks(&mut r, &mut out);
    levels(&mut r, &tables, &mut out);
    numbers(&tables, &mut out);
    predictions(&mut r, &tables, &mut out, false);
    predictions(&mut r, &tables, &mut out, true);
    samples(&mut r, &tables, &mut out);
    std::fs::write(&name, &out.0).expect("the file cannot be written");
    for kind in 1..=6u8 {
        println!("kind {kind}: {} records", out.0.chunks(80).filter(|c| c[3] == kind).count());
    }
}
