// Writes what the original's BitPumpMsb answers to random calls to the file that its argument names.
// The layout of the records is in README.md.
use common::random::Random;
use original::bits::{BitPumpMsb, BitRead};

const SEED: u64 = 0x0123_4567_89ab_cdef;
const SEQUENCES: usize = 800;
const CALLS: usize = 24;
const LARGEST_BLOCK: u64 = 40;

/// A count to read: 0 and 32 more often than others.
fn count(random: &mut Random) -> u32 {
    match random.below(8) {
        0 => 0,
        1 => 32,
        _ => random.below(33) as u32,
    }
}

/// A count to skip: now and then one that leaves the block.
fn far(random: &mut Random) -> u32 {
    let most = if random.chance(20) { 5000 } else { 70 };
    random.below(most) as u32
}

fn word(out: &mut Vec<u8>, w: u64) {
    out.extend_from_slice(&u32::try_from(w).unwrap().to_be_bytes());
}

/// One call: its kind, its count, what it answers, and where the pump stands afterwards.
fn call(random: &mut Random, pump: &mut BitPumpMsb, out: &mut Vec<u8>) {
    let kind = 1 + random.below(10);
    let (kind, n, value) = match kind {
        1..=3 => {
            let n = count(random);
            (1, n, pump.peek(n))
        }
        4..=7 => {
            let n = count(random);
            (2, n, pump.get(n))
        }
        8 | 9 => {
            let n = far(random);
            pump.skip(n);
            (3, n, 0)
        }
        _ => {
            pump.align_byte();
            (4, 0, 0)
        }
    };
    word(out, kind);
    word(out, n as u64);
    word(out, value as u64);
    word(out, pump.bit_position());
    word(out, pump.byte_position() as u64);
}

/// A block, a pump at one of its bits or past them, and calls of it.
fn sequence(random: &mut Random, number: usize, out: &mut Vec<u8>) {
    let length = random.below(LARGEST_BLOCK + 1);
    let mut block: Vec<u8> = (0..length).map(|_| random.below(256) as u8).collect();
    let start = if number % 2 == 0 { 0 } else { random.below(8 * length + 100) };
    word(out, length);
    word(out, start);
    let mut pump = if number % 4 == 0 { BitPumpMsb::new(&block) } else { BitPumpMsb::at_bit(&block, start) };
    let mut calls = Vec::new();
    for _ in 0..CALLS {
        call(random, &mut pump, &mut calls);
    }
    block.resize(LARGEST_BLOCK as usize, 0);
    out.extend_from_slice(&block);
    out.extend_from_slice(&calls);
}

fn main() {
    let path = std::env::args().nth(1).expect("the file to write");
    let mut random = Random::new(SEED);
    let mut out = Vec::new();
    for number in 0..SEQUENCES {
        sequence(&mut random, number, &mut out);
    }
    std::fs::write(&path, &out).expect("cannot write the file");
}
