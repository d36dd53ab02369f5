//! Pictures to encode: what is wanted of each sample of each colour line.
use crate::random::Random;

/// A picture's sample: smooth, flat, noisy or with hard edges, by its kind.
pub fn scene(kind: u64, largest: u32, n: usize, line: usize, p: usize, random: &mut Random) -> u16 {
    let (x, y) = (p as u64, 6 * n as u64 + line as u64);
    let largest = largest as u64;
    let v = match kind % 5 {
        0 => largest / 4 + (x * 7 + y * 5) % (largest / 2) + random.below(largest / 200 + 1),
        1 => largest / 3 + random.below(3),
        2 => random.below(largest + 1),
        3 => {
            if (x / 16 + y) % 2 == 0 {
                0
            } else {
                largest
            }
        }
        _ => largest / 2 + (x / 9) % 3 + random.below(1 + largest / 1000),
    };
    v.min(largest) as u16
}
