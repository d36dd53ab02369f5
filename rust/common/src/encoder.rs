//! Makes blocks for tests: an encoder that follows the rules of the format, lossless (tight codes) or lossy (nearest step).
//! It shares no code with the decoders that it is to try.

/// The numbers of a quantiser.
struct Quantiser {
    base: i32,
    weight: i32,
    total: i32,
    raw: u32,
    limit: i32,
}

impl Quantiser {
    fn new(bits: u32, base: i32, weight: i32) -> Quantiser {
        let largest = (1i32 << bits) - 1;
        let total = (largest + 2 * base) / (2 * base + 1) + 1;
        let mut raw = 0;
        while (1i32 << raw) < total {
            raw += 1;
        }
        Quantiser { base, weight, total, raw, limit: 4 * bits as i32 - raw as i32 - 1 }
    }

    fn level(&self, v: i32) -> i32 {
        let q = self.base;
        let thresholds = [q + 1, 3 * q + 18, 5 * q + 67, 7 * q + 276];
        let size = thresholds.iter().filter(|t| **t <= v.abs()).count() as i32;
        if v < 0 { -size } else { size }
    }

    fn start(&self) -> Record {
        Record { sum: ((self.total + 32) / 64).max(2), n: 1 }
    }
}

#[derive(Clone, Copy)]
struct Record {
    sum: i32,
    n: i32,
}

/// Bits, most significant first.
#[derive(Default)]
struct Bits {
    bytes: Vec<u8>,
    used: usize,
}

impl Bits {
    fn put(&mut self, value: u64, n: u32) {
        for i in (0..n).rev() {
            if self.used % 8 == 0 {
                self.bytes.push(0);
            }
            let last = self.bytes.len() - 1;
            self.bytes[last] |= ((value >> i & 1) as u8) << (7 - self.used % 8);
            self.used += 1;
        }
    }
}

/// The passes of a line: two colour lines, the statistics set, and for each line which even positions are interpolated
/// (bit r: those with p mod 4 = r).
const PASSES: [(usize, usize, usize, u32, u32); 6] =
    [(2, 7, 0, 5, 0), (8, 15, 1, 0, 5), (3, 9, 2, 1, 5), (10, 16, 0, 0, 4), (4, 11, 1, 4, 0), (12, 17, 2, 5, 1)];

struct Encoder<'a> {
    bits: u32,
    width: usize,
    lines: Vec<i32>,
    records: [[[Record; 56]; 2]; 3],
    main: Quantiser,
    flat: [Quantiser; 3],
    out: Bits,
    codes: usize,
    long_codes: usize,
    spoil: Option<Spoil>,
    want: &'a mut dyn FnMut(usize, usize, usize) -> u16,
}

/// A code that is not tight, in the place of the first one from number `from` on that can be made so.
#[derive(Clone, Copy, Debug)]
pub struct Spoil {
    pub from: usize,
    pub how: How,
}

#[derive(Clone, Copy, Debug, PartialEq, Eq)]
pub enum How {
    /// A long code whose value fits a short one.
    Escape,
    /// A long code with a zero more than the limit.
    Zero,
    /// A code of 2^bits.
    Large,
    /// Code 2, long, whatever the code was.
    Two,
    /// This long code, with so many zeros, in the place of code number `from` itself.
    Long { zeros: u32, code: u32 },
}

impl Encoder<'_> {
    fn at(&self, line: usize, place: usize) -> i32 {
        self.lines[line * (self.width + 2) + place]
    }

    /// The prediction and the two differences of position p.
    fn context(&self, line: usize, p: usize) -> (i32, i32, i32) {
        let (rc, rb, rd) = (self.at(line - 1, p), self.at(line - 1, p + 1), self.at(line - 1, p + 2));
        if p % 2 == 0 {
            let rf = self.at(line - 2, p + 1);
            let (f, c, d) = ((rf - rb).abs(), (rc - rb).abs(), (rd - rb).abs());
            let kept = if c > f && c > d {
                rf + rd
            } else if d > f && d > c {
                rf + rc
            } else {
                rc + rd
            };
            return ((kept + 2 * rb) >> 2, rb - rf, rc - rb);
        }
        let (ra, rg) = (self.at(line, p), self.at(line, p + 2));
        let extreme = (rb > rc && rb > rd) || (rb < rc && rb < rd);
        (if extreme { (ra + rg + 2 * rb) >> 2 } else { (ra + rg) >> 1 }, rb - rc, rc - ra)
    }

    /// The code of a residual, with that k.
    fn put_code(&mut self, code: i32, k: u32, limit: i32, raw: u32, spoilt: Option<How>) {
        let zeros = match spoilt {
            None => (code >> k).min(limit),
            Some(How::Zero) => limit + 1,
            Some(How::Long { zeros, .. }) => zeros as i32,
            Some(_) => limit,
        };
        self.long_codes += (zeros >= limit) as usize;
        self.out.put(0, zeros as u32);
        self.out.put(1, 1);
        if zeros < limit { self.out.put((code & ((1 << k) - 1)) as u64, k) } else { self.out.put((code - 1) as u64, raw) }
    }

    fn sample(&mut self, set: usize, n: usize, line: usize, p: usize, interpolated: bool) {
        let (prediction, v1, v2) = self.context(line, p);
        let place = line * (self.width + 2) + p + 1;
        if interpolated {
            self.lines[place] = prediction;
            return;
        }
        let flatness = v1.abs() + v2.abs();
        let choice = (1..=3).find(|i| self.main.base >= *i && flatness <= 4 + i);
        let q = match choice {
            Some(i) => &self.flat[i as usize - 1],
            None => &self.main,
        };
        let gradient = q.weight * q.level(v1) + q.level(v2);
        let index = gradient.unsigned_abs() as usize + choice.map_or(0, |i| 36 + 5 * i as usize);
        let record = self.records[set][p % 2][index];
        let k = (0..15).find(|k| record.n << k >= record.sum.max(1)).unwrap_or(15);
        let largest = (1i32 << self.bits) - 1;
        let wanted = (self.want)(n, line, p) as i32;
        let distance = if gradient < 0 { prediction - wanted } else { wanted - prediction };
        let step = 2 * q.base + 1;
        let mut residual = (distance.abs() + q.base) / step * distance.signum();
        // The shorter way round.
        let half = q.total / 2;
        if residual >= q.total - half {
            residual -= q.total;
        } else if residual < -half {
            residual += q.total;
        }
        let mut code = if residual >= 0 { 2 * residual } else { -2 * residual - 1 };
        let here = |s: &Spoil| match s.how {
            How::Long { .. } => s.from == self.codes,
            _ => s.from <= self.codes && code > 0,
        };
        let spoilt = self.spoil.filter(here).map(|s| s.how);
        if spoilt.is_some() {
            self.spoil = None;
        }
        if let Some(How::Large | How::Two) = spoilt {
            code = if spoilt == Some(How::Two) { 2 } else { 1 << self.bits };
            residual = code / 2;
        }
        if let Some(How::Long { code: long, .. }) = spoilt {
            code = long as i32;
            residual = if code % 2 == 0 { code / 2 } else { -(code + 1) / 2 };
        }
        self.codes += 1;
        let mut value = prediction + if gradient < 0 { -residual } else { residual } * step;
        if value < -q.base {
            value += q.total * step;
        } else if value > largest + q.base {
            value -= q.total * step;
        }
        let (limit, raw) = (q.limit, q.raw);
        self.lines[place] = value.clamp(0, largest);
        let halved = (record.n == 64) as i32;
        self.records[set][p % 2][index] = Record { sum: (record.sum + residual.abs()) >> halved, n: (record.n >> halved) + 1 };
        self.put_code(code, k, limit, raw, spoilt);
    }

    fn pass(&mut self, n: usize, pass: usize, xtrans: bool) {
        let (first, second, set, rule1, rule2) = PASSES[pass];
        let (s, w) = (self.width + 2, self.width);
        for l in [first, second] {
            self.lines[l * s] = self.lines[(l - 1) * s + 1];
            self.lines[l * s + w + 1] = self.lines[(l - 1) * s + w];
        }
        for p in (0..w + 8).step_by(2) {
            if p < w {
                self.sample(set, n, first, p, xtrans && rule1 >> (p % 4) & 1 == 1);
                self.sample(set, n, second, p, xtrans && rule2 >> (p % 4) & 1 == 1);
            }
            if p >= 8 {
                self.sample(set, n, first, p - 7, false);
                self.sample(set, n, second, p - 7, false);
            }
        }
    }

    fn restart(&mut self, from: usize, count: usize, start: Record) {
        for half in self.records.iter_mut().flatten() {
            half[from..from + count].fill(start);
        }
    }
}

/// One block of `lines` lines, lossless if there are no bases, filled up to a multiple of 16 bytes. `want` gives the sample that is wanted
/// of a line's colour line at a position; lossy blocks come near it.
pub fn encode(bits: u32, xtrans: bool, bases: &[u8], lines: usize, want: &mut dyn FnMut(usize, usize, usize) -> u16) -> Vec<u8> {
    encode_spoilt(bits, xtrans, bases, lines, want, None).bytes
}

/// A block, how many bits of it are used, how many of its codes are long, and whether a code was spoilt.
pub struct Encoded {
    pub bytes: Vec<u8>,
    pub used: usize,
    pub long_codes: usize,
    pub spoilt: bool,
}

impl Encoded {
    /// The bytes that have bits of codes, without those that are filling alone.
    pub fn unfilled(&self) -> &[u8] {
        &self.bytes[..self.used.div_ceil(8)]
    }
}

/// The same, with a code that is not tight.
pub fn encode_spoilt(
    bits: u32,
    xtrans: bool,
    bases: &[u8],
    lines: usize,
    want: &mut dyn FnMut(usize, usize, usize) -> u16,
    spoil: Option<Spoil>,
) -> Encoded {
    let width = if xtrans { 512 } else { 384 };
    let flat = [Quantiser::new(bits, 0, 3), Quantiser::new(bits, 1, 3), Quantiser::new(bits, 2, 3)];
    let starts = [flat[0].start(), flat[1].start(), flat[2].start()];
    let zero = Record { sum: 0, n: 1 };
    let mut e = Encoder {
        bits,
        width,
        lines: vec![0; 18 * (width + 2)],
        records: [[[zero; 56]; 2]; 3],
        main: Quantiser::new(bits, 0, 9),
        flat,
        out: Bits::default(),
        codes: 0,
        long_codes: 0,
        spoil,
        want,
    };
    for (i, start) in starts.into_iter().enumerate() {
        e.restart(41 + 5 * i, 5, start);
    }
    for n in 0..lines {
        let base = bases.get(n).copied().unwrap_or(0) as i32;
        if n == 0 || base != e.main.base {
            e.main = Quantiser::new(bits, base, 9);
            let start = e.main.start();
            e.restart(0, 41, start);
        }
        for pass in 0..6 {
            e.pass(n, pass, xtrans);
        }
        let s = width + 2;
        for (from, to) in [(3, 0), (4, 1), (11, 5), (12, 6), (16, 13), (17, 14)] {
            e.lines.copy_within(from * s..(from + 1) * s, to * s);
        }
    }
    let long_codes = e.long_codes;
    let mut bytes = e.out.bytes;
    bytes.resize(bytes.len().next_multiple_of(16), 0);
    Encoded { bytes, used: e.out.used, long_codes, spoilt: spoil.is_some() && e.spoil.is_none() }
}
