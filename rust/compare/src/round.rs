//! A round of calls on generated inputs, each asked of both sides.
use crate::making;
use crate::sides::{Answer, Wanted, ask, decode_ours, decode_theirs, open_ours, open_theirs, ours, same, truncated_place, with_zeros};
use common::random::Random;
use common::stream::Header;
use fuji_compressed::{Camera, ColorTile, FujiCompressed, FujiHeader, Quantisers, Record, Rect, Refusal, Scratch};
use original::fuji_compressed as theirs;
use std::collections::BTreeMap;
use std::fmt::Debug;

/// What is counted: calls of each kind, accepted or by refusal, and listed differences.
#[derive(Default)]
pub struct Tally {
    pub calls: u64,
    answers: BTreeMap<&'static str, BTreeMap<u32, u64>>,
    listed: BTreeMap<&'static str, u64>,
}

impl Tally {
    fn count(&mut self, kind: &'static str, number: u32) {
        self.calls += 1;
        *self.answers.entry(kind).or_default().entry(number).or_default() += 1;
    }

    pub fn print(&self) {
        for (kind, answers) in &self.answers {
            let said = answers.iter().map(|(number, n)| match number {
                0 => format!("{n} accepted"),
                _ => format!("{n} with refusal {number}"),
            });
            println!("{kind}: {}", said.collect::<Vec<_>>().join(", "));
        }
        for (name, n) in &self.listed {
            println!("{name}: {n} calls differ as listed");
        }
    }
}

fn code<T>(answer: &Answer<T>) -> u32 {
    match answer {
        Answer::Refused(number) => *number,
        _ => 0,
    }
}

pub struct Round {
    random: Random,
    scratch: Scratch,
    windows: Scratch,
    entries: Quantisers,
    pub tally: Tally,
}

/// What differs, in words.
pub type Checked = Result<(), String>;

/// Sums are checked in this build, as debug assertions are.
const CHECKED: bool = cfg!(debug_assertions);

/// D-3: the original subtracts the width from the rounded width unchecked, once the rules before that hold.
fn is_wider(bytes: &[u8]) -> bool {
    let Some(h) = Header::of(bytes) else { return false };
    h.signature == 0x4953
        && h.lossless <= 1
        && (6..=0x4002).contains(&h.height)
        && h.height % 6 == 0
        && h.block_size == 0x300
        && (0x300..=0x4200).contains(&h.width)
        && h.width % 24 == 0
        && (0x300..=0x4200).contains(&h.rounded_width)
        && h.rounded_width % 0x300 == 0
        && h.width > h.rounded_width
}

impl Round {
    pub fn new(seed: u64) -> Round {
        Round {
            random: Random::new(seed),
            scratch: Scratch::new(),
            windows: Scratch::windowed(),
            entries: Quantisers::default(),
            tally: Tally::default(),
        }
    }

    /// Calls until there are so many, or one differs.
    pub fn run(&mut self, calls: u64) -> Checked {
        while self.tally.calls < calls {
            for _ in 0..12 {
                self.any_header()?;
            }
            let (header, bytes) = making::ends(&mut self.random);
            self.decode("decode", &bytes, Wanted::Whole(header.width as u32, header.height as u32))?;
            let (header, bytes) = making::whole(&mut self.random);
            self.stream(&header, &bytes)?;
            for _ in 0..4 {
                let damaged = making::damaged(&mut self.random, &header, &bytes);
                self.stream(&header, &damaged)?;
            }
        }
        Ok(())
    }

    fn any_header(&mut self) -> Checked {
        let whole = making::any_header(&mut self.random).bytes();
        let cut = if self.random.chance(20) { self.random.below(16) as usize } else { 16 };
        self.parse(&whole[..cut])
    }

    /// `FujiHeader::parse`, and `block_width` of some blocks.
    fn parse(&mut self, bytes: &[u8]) -> Checked {
        let want = ask(|| theirs::FujiHeader::parse(bytes));
        let got = ours(FujiHeader::parse(bytes));
        self.tally.count("parse", code(&got));
        if CHECKED && is_wider(bytes) {
            return self.is_d3(&want, &got);
        }
        let (Answer::Given(theirs), Answer::Given(mine)) = (&want, &got) else {
            return is(code(&want) == code(&got) && want != Answer::Panicked, || format!("parse of {bytes:?}: {want:?} and {got:?}"));
        };
        is(same(*theirs) == *mine, || format!("parse of {bytes:?}: {want:?} and {got:?}"))?;
        let last = self.random.pick(&[0, mine.blocks - 1, mine.blocks, mine.blocks + 1, u32::MAX - 1]);
        self.block_width(theirs, mine, last)
    }

    fn is_d3<T: PartialEq + Debug, U: PartialEq + Debug>(&mut self, want: &Answer<T>, got: &Answer<U>) -> Checked {
        *self.tally.listed.entry("D-3").or_default() += 1;
        is(*want == Answer::Panicked && *got == Answer::Refused(2), || format!("D-3: {want:?} and {got:?}"))
    }

    /// D-4: past the last block the original says 768, and ours refuses.
    fn block_width(&mut self, theirs: &theirs::FujiHeader, mine: &FujiHeader, i: u32) -> Checked {
        let (want, got) = (theirs.block_width(i), ours(mine.block_width(i)));
        self.tally.count("block_width", code(&got));
        let listed = i >= mine.blocks;
        *self.tally.listed.entry("D-4").or_default() += listed as u64;
        let right = if listed { want == 768 && got == Answer::Refused(5) } else { got == Answer::Given(want) };
        is(right, || format!("width of block {i} of {mine:?}: {want} and {got:?}"))
    }

    /// Opening, the whole picture, and regions.
    fn stream(&mut self, h: &Header, bytes: &[u8]) -> Checked {
        let (want, got) = (open_theirs(bytes), open_ours(bytes));
        self.tally.count("new, ranges and bases", code(&got));
        if CHECKED && is_wider(bytes) {
            return self.is_d3(&want, &got);
        }
        is(want == got, || format!("opening: {want:?} and {got:?}"))?;
        let (width, height) = (h.width as u32, h.height as u32);
        let size = if self.random.chance(10) { (width, height.wrapping_sub(6 * self.random.below(2) as u32)) } else { (width, height) };
        self.decode("decode", bytes, Wanted::Whole(size.0, size.1))?;
        for _ in 0..3 {
            let region = making::region(&mut self.random, width, height);
            self.decode("decode_region", bytes, Wanted::Region(region))?;
        }
        Ok(())
    }

    /// An image that fits, with some samples to spare, or now and then one that is too short. Its contents are arbitrary.
    fn image(&mut self, wanted: Wanted) -> Vec<u16> {
        let region = wanted.region();
        let area = region.width as u64 * region.height as u64;
        let length = match self.random.below(12) {
            0 => area.min(1 << 22).saturating_sub(1 + self.random.below(3)),
            1..=5 => area.min(1 << 22) + self.random.below(50),
            _ => area.min(1 << 22),
        };
        (0..length).map(|i| (i as u16).wrapping_mul(40503)).collect()
    }

    fn decode(&mut self, kind: &'static str, bytes: &[u8], wanted: Wanted) -> Checked {
        let tile = making::tile(&mut self.random);
        let mut theirs = self.image(wanted);
        let before = theirs.clone();
        let mut mine = theirs.clone();
        let want = decode_theirs(bytes, wanted, &tile, &mut theirs);
        self.soil();
        let got = decode_ours(bytes, wanted, &tile, &mut mine, &mut self.scratch);
        self.tally.count(kind, got.map_or_else(|r| r.number, |()| 0));
        is(want == ours(got), || format!("{wanted:?} of {} bytes: {want:?} and {got:?}", bytes.len()))?;
        is(theirs == mine, || format!("{wanted:?} of {} bytes, {got:?}: the images differ", bytes.len()))?;
        if let Wanted::Region(region) = wanted {
            self.shared(bytes, region, &tile, before.clone(), &theirs, got)?;
            self.resumed(bytes, region, &tile, &before, &theirs, got)?;
            self.windowed(bytes, region, &tile, before, theirs, got)?;
        }
        match got {
            Err(refusal) if refusal.number == 14 => {
                let place = truncated_place(bytes, wanted.region());
                is(place == Some((refusal.block, refusal.line)), || format!("{wanted:?}: truncated at {place:?}, and {refusal}"))
            }
            _ => Ok(()),
        }
    }

    /// The same region for one of two cameras that have shared the entries so far: unless it is refused by 23, the original's image, and the same answer.
    fn shared(
        &mut self,
        bytes: &[u8],
        region: Rect,
        tile: &ColorTile,
        before: Vec<u16>,
        theirs: &[u16],
        want: Result<(), Refusal>,
    ) -> Checked {
        let mut mine = before;
        let camera = if self.random.chance(2) { Camera::One } else { Camera::Two };
        let (got, after) = self.entries.decode_region_with(camera, &mut self.scratch, bytes, &mut mine, region, tile);
        self.entries = if self.random.chance(50) { after.end_stream(camera) } else { after };
        self.tally.count("decode_region_shared", got.map_or_else(|r| r.number, |()| 0));
        if got.is_err_and(|r| r.number == 23) {
            return Ok(());
        }
        is(got == want, || format!("{camera:?}, {region:?} of {} bytes: {want:?} and {got:?}", bytes.len()))?;
        is(theirs == mine, || format!("{camera:?}, {region:?} of {} bytes, {got:?}: the images differ", bytes.len()))
    }

    /// A state of a block that the region touches is stored after some line, and gone on from: the original's samples from the next line on, in that block's columns, and its
    /// answer for that block.
    fn resumed(
        &mut self,
        bytes: &[u8],
        region: Rect,
        tile: &ColorTile,
        before: &[u16],
        theirs: &[u16],
        got: Result<(), Refusal>,
    ) -> Checked {
        let is_read = got.is_ok_and(|()| region.width * region.height > 0) || got.is_err_and(|r| r.number == 14);
        let (Ok(stream), true) = (FujiCompressed::new(bytes), is_read) else { return Ok(()) };
        let (first, last) = (region.x / 768, (region.x + region.width - 1) / 768);
        let block = first + self.random.below((last - first + 1) as u64) as u32;
        let line = self.random.below(stream.header.lines as u64 + 1) as u32;
        let Some(state) = self.stored(&stream, bytes, block, line)? else { return Ok(()) };
        let mut mine = before.to_vec();
        let on = stream.resume_region_with(&mut self.scratch, block as usize, &state, &mut mine, region, tile).answer;
        self.tally.count("resume_region", on.map_or_else(|r| r.number, |()| 0));
        let place = truncated_place(bytes, Rect::new(768 * block, region.y, 1, region.height));
        is(on.err().map(|r| (r.block, r.line)) == place, || format!("going on in {region:?} after line {line}: {on:?} and {place:?}"))?;
        let is_filled = |i: u32| {
            let (column, row) = (region.x + i % region.width, region.y + i / region.width);
            i < region.width * region.height && column / 768 == block && row / 6 > line
        };
        let right = (0..mine.len()).all(|i| mine[i] == if is_filled(i as u32) { theirs[i] } else { before[i] });
        is(right, || format!("going on in {region:?} of {} bytes after line {line}: the images differ", bytes.len()))
    }

    /// The state of a block after a line, if the original reads the lines up to it; there may be no such line.
    fn stored(&mut self, stream: &FujiCompressed, bytes: &[u8], block: u32, line: u32) -> Result<Option<Vec<u8>>, String> {
        let mut state = vec![0; stream.header.checkpoint_size()];
        let answer = stream.store_checkpoint_with(&mut self.scratch, block as usize, line as usize, &mut state).answer;
        self.tally.count("store_checkpoint", answer.map_or_else(|r| r.number, |()| 0));
        if line >= stream.header.lines {
            is(answer.is_err_and(|r| r.number == 21), || format!("storing after line {line}: {answer:?}"))?;
            return Ok(None);
        }
        let place = truncated_place(bytes, Rect::new(768 * block, 0, 1, 6 * (line + 1)));
        is(answer.err().map(|r| (r.block, r.line)) == place, || format!("storing after line {line}: {answer:?} and {place:?}"))?;
        Ok(answer.is_ok().then_some(state))
    }

    /// The same region in windows: the same answer, and the original's image but for the rows of truncated lines.
    fn windowed(
        &mut self,
        bytes: &[u8],
        region: Rect,
        tile: &ColorTile,
        before: Vec<u16>,
        theirs: Vec<u16>,
        want: Result<(), Refusal>,
    ) -> Checked {
        let mut mine = before;
        let got = FujiCompressed::new(bytes).and_then(|s| s.decode_region_windowed_with(&mut self.windows, &mut mine, region, tile));
        self.tally.count("decode_region_windowed", got.map_or_else(|r| r.number, |()| 0));
        is(got == want, || format!("windows, {region:?} of {} bytes: {want:?} and {got:?}", bytes.len()))?;
        let cut = got.is_err_and(|r| r.number == 14);
        let image = if cut { with_zeros(bytes, region, theirs) } else { theirs };
        is(image == mine, || format!("windows, {region:?} of {} bytes, {got:?}: the images differ", bytes.len()))
    }

    /// Scratch holds anything before a call.
    fn soil(&mut self) {
        let v = self.random.number();
        let at = self.random.below(Scratch::SAMPLES as u64) as usize;
        self.scratch.samples[at] = v as u16;
        self.windows.samples[at % Scratch::WINDOW_SAMPLES] = v as u16;
        let at = self.random.below(Scratch::RECORDS as u64) as usize;
        self.scratch.records[at] = Record { sum: v as u32, n: (v >> 32) as u32 };
    }
}

fn is(right: bool, words: impl FnOnce() -> String) -> Checked {
    if right { Ok(()) } else { Err(words()) }
}
