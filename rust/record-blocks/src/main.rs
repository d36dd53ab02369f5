// Makes blocks, has the original read them, and writes both to the file that the argument names. The layout is in README.md.
use common::encoder;
use common::pictures::scene;
use common::random::Random;
use original::opened::blocks::read;

const SEED: u64 = 0x0bad_5eed_0bad_5eed;

fn word(out: &mut Vec<u8>, v: usize) {
    out.extend_from_slice(&(v as u32).to_be_bytes());
}

/// One record: seven words, the bases, the block, and the colour lines of the lines that the original read.
fn record(out: &mut Vec<u8>, bits: u32, xtrans: bool, bases: &[u8], lines: usize, block: &[u8]) {
    let answer = read(block, bases, lines, xtrans, bits);
    for v in [bits as usize, xtrans as usize, lines, bases.len(), block.len(), answer.len()] {
        word(out, v);
    }
    out.extend_from_slice(bases);
    out.extend_from_slice(block);
    for line in &answer {
        for v in line {
            out.extend_from_slice(&v.to_be_bytes());
        }
    }
}

fn main() {
    let mut random = Random::new(SEED);
    let mut out = Vec::new();
    let mut kind = 0;
    for (bits, xtrans) in [(12, false), (14, false), (16, false), (12, true), (14, true), (16, true)] {
        for lossy in [false, true] {
            let lines = 3;
            let row: &[u8] = if xtrans { &[2, 2, 5] } else { &[3, 1, 1] };
            let bases = if lossy { row } else { &[][..] };
            let mut want = |n, line, p| scene(kind, (1 << bits) - 1, n, line, p, &mut random);
            let block = encoder::encode(bits, xtrans, bases, lines, &mut want);
            record(&mut out, bits, xtrans, bases, lines, &block);
            kind += 1;
            if bits != 14 {
                continue;
            }
            // Cut short in the first and in the last line, by a byte, and with zeros in place of its end.
            record(&mut out, bits, xtrans, bases, lines, &block[..block.len() / 5]);
            record(&mut out, bits, xtrans, bases, lines, &block[..block.len() - 1]);
            let mut zeros = block.clone();
            zeros[block.len() * 2 / 5..].fill(0);
            record(&mut out, bits, xtrans, bases, lines, &zeros);
        }
    }
    // Random bytes are codes too.
    for i in 0..4 {
        let bytes: Vec<u8> = (0..9000).map(|_| random.number() as u8).collect();
        let bases = if i % 2 == 0 { &[][..] } else { &[200, 0][..] };
        record(&mut out, 14, i >= 2, bases, 2, &bytes);
    }
    record(&mut out, 14, false, &[], 1, &[]);
    std::fs::write(std::env::args().nth(1).expect("a file to write"), out).unwrap();
}
