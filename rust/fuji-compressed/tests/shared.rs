//! Two cameras that share 16 quantiser entries: the worked history, word by word; refusal 23 and its order with 14; every other refusal with holds before it; random
//! histories against a model of pairs and their holders; and entries of any words. The functions are called as C calls them.
use common::pictures::scene;
use common::random::Random;
use common::stream::{Header, blocks, encoded, stream};
use fuji_compressed::Record;

mod lent;

use lent::{Buffers, FINE, PATTERN, XTRANS as TILE, ffi, sample_file};

type Words = [u32; 128];

/// An image of so many samples, and scratch of more than is needed.
fn lend(area: usize) -> Buffers {
    Buffers::new(vec![PATTERN; area], 9300, 340)
}

trait Shares {
    fn shared(&mut self, camera: u32, words: &mut Words, d: &[u8], region: [usize; 4]) -> [usize; 4];
    fn alone(&mut self, d: &[u8], region: [usize; 4]) -> [usize; 4];
}

impl Shares for Buffers {
    fn shared(&mut self, camera: u32, words: &mut Words, d: &[u8], [x, y, w, h]: [usize; 4]) -> [usize; 4] {
        let mut refusal = [usize::MAX; 4];
        let (i, s, r) = (&mut self.image, &mut self.samples, &mut self.records);
        let (image, samples, records) = (i.as_mut_ptr(), s.as_mut_ptr(), r.as_mut_ptr());
        let (i, s, r) = (i.len(), s.len(), r.len());
        let (p, n) = (d.as_ptr(), d.len());
        unsafe { ffi::fuji_decode_region_shared(camera, words, p, n, x, y, w, h, &TILE, image, i, samples, s, records, r, &mut refusal) };
        refusal
    }

    fn alone(&mut self, d: &[u8], region: [usize; 4]) -> [usize; 4] {
        self.region(false, d, region, &TILE)
    }
}

/// A Bayer stream of 14 bits with these bases, one block for each row.
fn lossy(bits: u8, rows: &[Vec<u8>]) -> Vec<u8> {
    let header = Header::new(false, false, bits, 768 * rows.len() as u16, rows[0].len() as u16);
    let mut random = Random::new(bits as u64 + 3 * rows[0].len() as u64);
    encoded(&header, rows, &mut |_, n, line, p| scene(1, (1 << bits) - 1, n, line, p, &mut random))
}

fn bases(from: u8, count: u8) -> Vec<u8> {
    (from..from + count).collect()
}

// ---- a model: of each entry its pair, and who holds it

#[derive(Clone, Default, Debug, PartialEq)]
struct Model {
    entries: [(u32, u32, [bool; 2]); 16],
}

impl Model {
    /// Of the worked history: entries in order, by base and holders, at 14 bits.
    fn of(said: &[(u32, &str)]) -> Model {
        let mut model = Model::default();
        for (i, (base, by)) in said.iter().enumerate() {
            model.entries[i] = (14, *base, [by.contains('1'), by.contains('2')]);
        }
        model
    }

    fn take(&mut self, camera: u32, pair: (u32, u32)) -> bool {
        let held = |e: &(u32, u32, [bool; 2])| e.2[0] || e.2[1];
        if let Some(e) = self.entries.iter_mut().find(|e| held(e) && (e.0, e.1) == pair) {
            e.2[camera as usize - 1] = true;
            return true;
        }
        let Some(e) = self.entries.iter_mut().find(|e| !held(e)) else { return false };
        *e = (pair.0, pair.1, [camera == 1, camera == 2]);
        true
    }

    fn end(&mut self, camera: u32) {
        self.entries.iter_mut().for_each(|e| e.2[camera as usize - 1] = false);
    }

    fn holds(&self) -> usize {
        self.entries.iter().map(|e| e.2[0] as usize + e.2[1] as usize).sum()
    }

    /// Held entries are as the words say, with the numbers of their pair; no other is held.
    fn is(&self, words: &Words) -> bool {
        self.entries.iter().zip(words.chunks(8)).all(|(e, w)| {
            if !e.2[0] && !e.2[1] {
                return w[6..] == [0, 0];
            }
            let total = ((1 << e.0) - 1 + 2 * e.1) / (2 * e.1 + 1) + 1;
            let raw = (0..).find(|r| 1u32 << r >= total).unwrap();
            w == [e.0, e.1, 9, total, raw, 4 * e.0 - raw - 1, e.2[0] as u32, e.2[1] as u32]
        })
    }
}

// ---- the worked history

#[test]
fn the_worked_history() {
    let first = lossy(14, &[vec![3, 3, 7, 0]]);
    let (bayer, xtrans) = (sample_file("bayer.fcs"), sample_file("xtrans.fcs"));
    let twenty = lossy(14, &[bases(10, 20)]);
    let sixteen = lossy(14, &[bases(0, 16)]);
    let back = lossy(14, &[bases(0, 16).into_iter().rev().collect()]);
    let seventeen = lossy(14, &[bases(0, 17)]);
    let twelve = lossy(12, &[vec![0]]);
    let two = [(3, "1"), (7, "1")];
    let three = [(3, "1"), (7, "1"), (0, "1")];
    let ten: Vec<(u32, &str)> = three.iter().copied().chain((10..22).map(|b| (b, "2"))).collect();
    let by = |by| (0..16).map(|b| (b, by)).collect::<Vec<(u32, &str)>>();
    let mut zero_shared = by("1");
    zero_shared[0].1 = "12";
    // camera, stream, rows (0: all), answer, entries after, holds
    type Step<'a> = (u32, &'a [u8], usize, [usize; 4], Vec<(u32, &'a str)>, usize);
    let steps: [Step; 14] = [
        (1, &first, 6, FINE, two[..1].to_vec(), 1),
        (1, &first, 18, FINE, two.to_vec(), 2),
        (2, &bayer, 6, FINE, vec![(3, "1"), (7, "1"), (0, "2")], 3),
        (1, &first, 0, FINE, vec![(3, "1"), (7, "1"), (0, "12")], 4),
        (2, &xtrans, 0, FINE, vec![(3, "1"), (7, "1"), (0, "12"), (2, "2")], 5),
        (2, &twenty, 0, [23, 0, 12, 0], three.to_vec(), 3),
        (2, &twenty, 72, FINE, ten.clone(), 15),
        (1, &first, 0, FINE, ten, 15),
        (2, &first[..15], 0, [1, 0, 0, 0], three.to_vec(), 3),
        (1, &sixteen, 0, FINE, by("1"), 16),
        (2, &back, 0, FINE, by("12"), 32),
        (2, &twelve, 0, [23, 0, 0, 0], by("1"), 16),
        (2, &bayer, 0, FINE, zero_shared, 17),
        (1, &seventeen, 0, [23, 0, 16, 0], vec![(0, "2")], 1),
    ];
    let mut words = [0; 128];
    for (i, (camera, d, rows, answer, entries, holds)) in steps.into_iter().enumerate() {
        if i == 9 {
            unsafe { ffi::fuji_end_stream(1, &mut words) };
            assert!(Model::default().is(&words));
        }
        let header = Header::of(d).map_or([6, 768], |h| [h.height as usize, h.width as usize]);
        let region = [0, 0, header[1], if rows == 0 { header[0] } else { rows }];
        let mut b = lend(region[2] * region[3]);
        let mut alone = b.clone();
        assert_eq!(b.shared(camera, &mut words, d, region), answer, "step {i}");
        let model = Model::of(&entries);
        assert!(model.is(&words), "step {i}: {words:?}");
        assert_eq!(model.holds(), holds, "step {i}");
        let want = alone.alone(d, region);
        if answer[0] != 23 {
            assert_eq!(want, answer, "step {i}");
            assert!(b == alone, "step {i}");
            continue;
        }
        // the rows before that line stay, those from it on are as they were, and scratch is cleared
        let shown = 6 * answer[2] * region[2];
        assert!(b.image[..shown] == alone.image[..shown] && b.image[shown..].iter().all(|v| *v == PATTERN), "step {i}");
        assert!(b.scratch_is_cleared(6948), "step {i}");
    }
}

/// A block whose bytes are 0 from the middle on, so that line 1 is truncated, and one that is whole: 23 is the answer all the same.
#[test]
fn no_entry_after_a_truncated_block() {
    let header = Header::new(false, false, 14, 1536, 4);
    let rows = [bases(1, 4), bases(20, 4)];
    let mut random = Random::new(5);
    let mut made = blocks(&header, &rows, &mut |_, n, line, p| scene(1, 16383, n, line, p, &mut random));
    let whole = stream(&header, &rows, &made);
    // line 1 fails wherever a run of zeros begins inside it
    let ends = |k: usize| k * made[0].len() / 100;
    let cut = (1..100).map(ends).find_map(|at| {
        let mut zeroed = made[0].clone();
        zeroed[at..].fill(0);
        let d = stream(&header, &rows, &[zeroed.clone(), made[1].clone()]);
        (lend(1536 * 24).alone(&d, [0, 0, 1536, 24]) == [14, 0, 1, 0]).then_some(zeroed)
    });
    made[0] = cut.unwrap();
    let d = stream(&header, &rows, &made);
    let mut words = [0; 128];
    let others = lossy(14, &[bases(100, 13)]);
    assert_eq!(lend(768 * 78).shared(2, &mut words, &others, [0, 0, 768, 78]), FINE);
    let mut b = lend(1536 * 24);
    assert_eq!(b.shared(1, &mut words, &d, [0, 0, 1536, 24]), [23, 1, 1, 0]);
    assert!(b.scratch_is_cleared(6948));
    let mut right = lend(1536 * 24);
    assert_eq!(right.alone(&whole, [0, 0, 1536, 24]), FINE);
    for (i, v) in b.image.iter().enumerate() {
        assert_eq!(*v, if i / 1536 < 6 { right.image[i] } else { PATTERN }, "entry {i}");
    }
    let mut model = Model::default();
    (100..113).for_each(|q| assert!(model.take(2, (14, q))));
    assert!(model.is(&words));
}

// ---- every other refusal gives back what the camera holds, and an empty region does not

#[test]
fn refusals_give_back() {
    let d = lossy(14, &[vec![3, 5]]);
    let mut held = [0; 128];
    assert_eq!(lend(768 * 12).shared(1, &mut held, &d, [0, 0, 768, 12]), FINE);
    assert_eq!(lend(768 * 12).shared(2, &mut held, &d, [0, 0, 768, 6]), FINE);
    assert!(Model::of(&[(3, "12"), (5, "1")]).is(&held));
    let mut broken = d.clone();
    broken[4] = 13;
    let mut cut = d.clone();
    cut.truncate(48);
    let whole = [0, 0, 768, 12];
    let full = 768 * 12;
    // stream, region, image, samples, records, answer
    type Case<'a> = (&'a [u8], [usize; 4], usize, usize, usize, [usize; 4]);
    let cases: [Case; 8] = [
        (&d[..15], whole, full, 9300, 340, [1, 0, 0, 0]),
        (&broken, whole, full, 9300, 340, [2, 0, 0, 0]),
        (&d[..19], whole, full, 9300, 340, [3, 0, 0, 0]),
        (&d[..33], whole, full, 9300, 340, [4, 0, 0, 0]),
        (&d, [1, 0, 768, 12], full, 9300, 340, [7, 0, 0, 0]),
        (&d, whole, full, 6947, 340, [10, 0, 0, 0]),
        (&d, whole, full, 9300, 335, [10, 0, 0, 0]),
        (&cut, whole, full, 9300, 340, [14, 0, 0, 0]),
    ];
    for (stream, region, image, samples, records, answer) in cases {
        for (camera, left) in [(1, Model::of(&[(3, "2")])), (2, Model::of(&[(3, "1"), (5, "1")]))] {
            let before = Buffers::new(vec![PATTERN; image], samples, records);
            let (mut b, mut alone, mut words) = (before.clone(), before.clone(), held);
            assert_eq!(b.shared(camera, &mut words, stream, region), answer);
            assert_eq!(alone.alone(stream, region), answer);
            assert!(left.is(&words), "camera {camera}, {answer:?}");
            assert!(b == alone && (answer[0] == 14 || b == before), "camera {camera}, {answer:?}");
        }
    }
    let mut words = held;
    assert_eq!(lend(0).shared(1, &mut words, &d, [5, 5, 0, 3]), FINE);
    assert_eq!(words, held);
}

// ---- random histories

/// What the rules of sets say of a call that is not refused before it reads: the answer if it is 23, by how many lines of each block are read.
fn model_call(model: &mut Model, camera: u32, bits: u32, rows: &[Vec<u8>], read: &[usize], [x, y, w, h]: [usize; 4]) -> Option<[usize; 4]> {
    let lines = (y + h).div_ceil(6);
    for b in x / 768..=(x + w - 1) / 768 {
        for n in 0..lines.min(read[b] + 1) {
            let base = rows.get(b).map_or(0, |r| r[n]) as u32;
            if !model.take(camera, (bits, base)) {
                model.end(camera);
                return Some([23, b, n, 0]);
            }
        }
    }
    None
}

#[test]
fn random_histories() {
    let mut random = Random::new(11);
    let mut made = vec![];
    for i in 0..24u64 {
        let (bits, is_lossy) = (random.pick(&[12u8, 14, 16]), i % 6 != 0);
        let header = Header::new(!is_lossy, i % 2 == 0, bits, 768 * (1 + i % 2) as u16, 3);
        let mut row = || (0..3).map(|_| random.below(14) as u8).collect::<Vec<u8>>();
        let rows: Vec<Vec<u8>> = (0..if is_lossy { header.blocks } else { 0 }).map(|_| row()).collect();
        let mut picture = Random::new(i + 1);
        let mut parts = blocks(&header, &rows, &mut |_, n, line, p| scene(i % 3, (1 << bits) - 1, n, line, p, &mut picture));
        if i % 4 == 3 {
            let at = parts[0].len() * random.below(100) as usize / 100;
            parts[0][at..].fill(0);
        }
        let d = stream(&header, &rows, &parts);
        let whole = [0, 0, header.width as usize, 18];
        // the first truncated line of each block, or all three
        let read: Vec<usize> = (0..header.blocks as usize)
            .map(|b| match lend(768 * 18).alone(&d, [768 * b, 0, 768, 18]) {
                [14, at, line, 0] if at == b => line,
                other => {
                    assert_eq!(other, FINE);
                    3
                }
            })
            .collect();
        made.push((bits as u32, rows, d, read, whole));
    }
    let mut tally = [0; 24];
    for _ in 0..20 {
        let (mut model, mut words) = (Model::default(), [0; 128]);
        for _ in 0..100 {
            let camera = 1 + random.below(2) as u32;
            if random.chance(25) {
                unsafe { ffi::fuji_end_stream(camera, &mut words) };
                model.end(camera);
                assert!(model.is(&words));
                continue;
            }
            let (bits, rows, d, read, whole) = &made[random.below(made.len() as u64) as usize];
            let w = 1 + random.below(whole[2] as u64) as usize;
            let x = random.below((whole[2] - w + 1) as u64) as usize;
            let h = 1 + random.below(18) as usize;
            let y = random.below((18 - h + 1) as u64) as usize;
            let region = [x, y, w, h];
            let short = random.chance(20);
            let mut b = lend(if short { w * h - 1 } else { w * h });
            let mut alone = b.clone();
            let got = b.shared(camera, &mut words, d, region);
            tally[got[0]] += 1;
            let out = if short { None } else { model_call(&mut model, camera, *bits, rows, read, region) };
            let want = out.unwrap_or_else(|| alone.alone(d, region));
            assert_eq!(got, want);
            if want != FINE {
                model.end(camera);
            }
            assert!(model.is(&words));
            assert!(out.is_some() || b == alone);
        }
    }
    assert!([0, 7, 14, 23].iter().all(|n| tally[*n] > 20), "{tally:?}");
}

// ---- entries of any words

#[test]
fn any_words() {
    let mut random = Random::new(23);
    let d = lossy(14, &[bases(3, 4)]);
    let region = [0, 0, 768, 24];
    let mut right = lend(768 * 24);
    assert_eq!(right.alone(&d, region), FINE);
    let (mut fine, mut out) = (0, 0);
    for _ in 0..400 {
        let small = random.chance(2);
        let mut words: Words = std::array::from_fn(|i| match (small, i % 8) {
            (true, 0) => 12 + 2 * random.below(3) as u32,
            (true, 1) => random.below(300) as u32,
            _ => random.number() as u32 >> random.below(32),
        });
        let mut b = lend(768 * 24);
        match b.shared(random.number() as u32, &mut words, &d, region) {
            FINE => {
                fine += 1;
                assert!(b == right);
            }
            [23, 0, line, 0] => {
                out += 1;
                let shown = 768 * 6 * line;
                assert!(b.image[..shown] == right.image[..shown] && b.image[shown..].iter().all(|v| *v == PATTERN));
            }
            other => panic!("{other:?}"),
        }
        unsafe { ffi::fuji_end_stream(random.number() as u32, &mut words) };
    }
    assert!(fine > 20 && out > 20, "{fine} and {out}");
}
