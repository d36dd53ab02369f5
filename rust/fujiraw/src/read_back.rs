//! Whether a stream has the samples of another: all of them, or each coded one within its base.
use crate::memory;
use fuji_compressed::{FujiCompressed, FujiHeader, Scratch};
use std::sync::Mutex;
use std::thread;

/// How like two streams are that are alike.
#[derive(Clone, Copy, Debug, Default, PartialEq, Eq)]
pub struct Likeness {
    /// How many samples were compared, those of hidden columns too.
    pub samples: u64,
    pub farthest: u16,
}

/// Compares the colour lines of two streams of one size, block after block. Without bases all samples must be the
/// same; with bases, one for each line of each block, each sample that has a code must be within that of its line.
pub fn compare(old: &[u8], new: &[u8], bases: Option<&[u8]>, threads: usize) -> Result<Likeness, String> {
    let wrong = |what: String| Err(format!("the new file does not read back as it should: {what}; no output was written"));
    let length = new.len() as u64;
    let (old, new) = match (FujiCompressed::new(old), FujiCompressed::new(new)) {
        (Ok(old), Ok(new)) => (old, new),
        (Err(e), _) | (_, Err(e)) => return wrong(e.to_string()),
    };
    let (a, b) = (old.header, new.header);
    if (FujiHeader { lossless: b.lossless, ..a }) != b || b.lossless != bases.is_none() {
        return wrong("its header is another one".to_string());
    }
    let (next, found) = (Mutex::new(0..a.blocks as usize), Mutex::new(vec![]));
    let work = || {
        let (mut scratch, mut one, mut other) = (Scratch::new(), vec![0; a.set_size()], vec![0; a.set_size()]);
        loop {
            let Some(i) = next.lock().unwrap().next() else { return };
            let first = old.read_set_with(&mut scratch, i, &mut one).answer;
            let read = first.and_then(|()| new.read_set_with(&mut scratch, i, &mut other).answer);
            let lines = a.lines as usize;
            let row = bases.map(|bases| &bases[i * lines..(i + 1) * lines]);
            let like = read.map_err(|e| e.to_string()).and_then(|()| block(&a, &one, &other, row));
            found.lock().unwrap().push(like.map_err(|why| format!("block {i}: {why}")));
        }
    };
    // Each thread has two sets.
    let threads = memory::threads(threads, memory::picture(&a), length, 2 * memory::set(&a)).min(a.blocks as usize);
    thread::scope(|scope| {
        let has_thread = |_| threads > 1 && thread::Builder::new().spawn_scoped(scope, work).is_ok();
        if (0..threads).filter(|i| has_thread(*i)).count() == 0 {
            work();
        }
    });
    let mut all = Likeness::default();
    for like in found.into_inner().unwrap() {
        match like {
            Err(why) => return wrong(why),
            Ok(like) => all = Likeness { samples: all.samples + like.samples, farthest: all.farthest.max(like.farthest) },
        }
    }
    Ok(all)
}

/// Compares two sets.
fn block(h: &FujiHeader, old: &[u16], new: &[u16], bases: Option<&[u8]>) -> Result<Likeness, String> {
    let width = if h.xtrans { 512 } else { 384 };
    let mut all = Likeness::default();
    for (n, (a, b)) in old.chunks(width).zip(new.chunks(width)).enumerate() {
        let (line, rank) = (n / 12, n % 12);
        let base = bases.map(|bases| bases[line] as u16);
        for (p, (a, b)) in a.iter().zip(b).enumerate() {
            if base.is_some() && h.xtrans && is_interpolated(rank, p) {
                continue;
            }
            let far = a.abs_diff(*b);
            if far > base.unwrap_or(0) {
                return Err(format!("line {line}, colour line {}, position {p}: {b} in the place of {a}", COLOUR_LINES[rank]));
            }
            all.farthest = all.farthest.max(far);
            all.samples += 1;
        }
    }
    Ok(all)
}

/// The colour lines of a set, in its order.
const COLOUR_LINES: [usize; 12] = [2, 3, 4, 7, 8, 9, 10, 11, 12, 15, 16, 17];

/// Whether a position of an X-Trans colour line has no code (docs/FORMAT.md).
fn is_interpolated(rank: usize, p: usize) -> bool {
    match COLOUR_LINES[rank] {
        2 | 15 | 9 | 12 => p.is_multiple_of(2),
        3 | 17 => p.is_multiple_of(4),
        16 | 4 => p % 4 == 2,
        _ => false,
    }
}

#[cfg(test)]
mod tests {
    use super::*;
    use fuji_compressed::{lossy_copy_parallel, tighten_parallel};

    fn sample(name: &str) -> Vec<u8> {
        std::fs::read(format!("{}/../../samples/{name}", env!("CARGO_MANIFEST_DIR"))).unwrap()
    }

    #[test]
    fn differences_are_found() {
        for name in ["bayer.fcs", "xtrans.fcs"] {
            let old = sample(name);
            let tight = tighten_parallel(2, &old, &|| ()).unwrap();
            assert_eq!(compare(&old, &tight, None, 2).unwrap().farthest, 0);
            // A lossy copy, and the tight stream of it, are other pictures.
            let copy = lossy_copy_parallel(2, &old, &[4; 24], &|| ()).unwrap();
            let other = tighten_parallel(2, &copy, &|| ()).unwrap();
            let wrong = compare(&old, &other, None, 2).unwrap_err();
            assert!(wrong.contains("does not read back") && wrong.contains("in the place of"), "{wrong}");
            // It is within 4, and so not within 3 everywhere; in one line a smaller base is enough to see it.
            let within = compare(&old, &copy, Some(&[4; 24]), 2).unwrap();
            assert_eq!((within.samples, within.farthest), (24 * 4608, 4), "{name}");
            assert!(compare(&old, &copy, Some(&[3; 24]), 2).is_err());
            let mut one = [4; 24];
            one[17] = 0;
            assert!(compare(&old, &copy, Some(&one), 2).unwrap_err().contains("line 17, "));
        }
    }

    #[test]
    fn other_headers_and_cut_streams_are_refused() {
        let old = sample("bayer.fcs");
        let tight = tighten_parallel(1, &old, &|| ()).unwrap();
        assert!(compare(&old, &tight[..tight.len() - 100], None, 1).unwrap_err().contains("block 0: refusal 14"));
        assert!(compare(&old, &tight[..10], None, 1).unwrap_err().contains("refusal 1"));
        assert!(compare(&old, &sample("escape.fcs"), None, 1).unwrap_err().contains("its header is another one"));
        // Lossless where a lossy one is wanted, and the other way round.
        assert!(compare(&old, &tight, Some(&[0; 24]), 1).is_err());
        let copy = lossy_copy_parallel(1, &old, &[0; 24], &|| ()).unwrap();
        assert!(compare(&old, &copy, None, 1).is_err());
        assert_eq!(compare(&old, &copy, Some(&[0; 24]), 1).unwrap().farthest, 0);
    }
}
