//! Whether sheets are tight, whole and readable, and how many bits and long codes they have.
use crate::calls::Check;
use crate::files::{name, print};
use crate::inputs::{self, Input};
use crate::json::{Object, list, quoted};
use crate::pool::{self, Work};
use crate::progress::Progress;
use crate::source::{Fault, Source, Trouble};
use crate::wording::count;
use fuji_compressed::{FujiCompressed, Refusal, Scratch, Totals};
use std::fmt::Write;
use std::process::ExitCode;

/// What a block or a sheet is. A sheet is what its worst block is.
#[derive(Clone, Copy, Debug, PartialEq, Eq, PartialOrd, Ord)]
pub enum Verdict {
    Tight,
    /// Lossy blocks are whole or not; none is tight.
    Lossy,
    NotTight,
    Damaged,
    Unreadable,
}

impl Verdict {
    pub const ALL: [Verdict; 5] = [Verdict::Tight, Verdict::Lossy, Verdict::NotTight, Verdict::Damaged, Verdict::Unreadable];

    pub fn words(self) -> &'static str {
        match self {
            Verdict::Tight => "tight",
            Verdict::Lossy => "whole (lossy)",
            Verdict::NotTight => "not tight",
            Verdict::Damaged => "damaged",
            Verdict::Unreadable => "cannot be read",
        }
    }

    /// The word for other programs.
    pub fn key(self) -> &'static str {
        match self {
            Verdict::Tight => "tight",
            Verdict::Lossy => "lossy",
            Verdict::NotTight => "not-tight",
            Verdict::Damaged => "damaged",
            Verdict::Unreadable => "unreadable",
        }
    }

    pub fn status(self) -> u8 {
        match self {
            Verdict::Tight | Verdict::Lossy => 0,
            Verdict::NotTight => 3,
            Verdict::Damaged => 4,
            Verdict::Unreadable => 5,
        }
    }

    pub fn of(fault: &Fault) -> Verdict {
        match fault.trouble {
            Trouble::Unreadable => Verdict::Unreadable,
            Trouble::Damaged => Verdict::Damaged,
        }
    }
}

/// What was found of a block: all its bits and long codes, or those of the lines before a truncated one.
pub struct Block {
    pub verdict: Verdict,
    pub totals: Totals,
    /// The lines that were counted.
    pub lines: u32,
    pub why: Option<String>,
}

/// Reads a block, tightly if it is lossless. One that is not tight is read once more, so that all its lines are
/// counted.
pub fn block(stream: &FujiCompressed, i: usize, scratch: &mut Scratch) -> Block {
    let h = stream.header;
    let tight = h.lossless.then(|| stream.read_tight_with(scratch, i));
    if let Some(counted) = tight.filter(|c| c.answer.is_ok()) {
        return Block { verdict: Verdict::Tight, totals: counted.totals, lines: h.lines, why: None };
    }
    let counted = stream.read_block_with(scratch, i);
    let totals = counted.totals;
    match (counted.answer, tight.map(|c| c.answer)) {
        (Err(cut), _) => Block { verdict: Verdict::Damaged, totals, lines: cut.line as u32, why: Some(cut.to_string()) },
        (Ok(()), Some(Err(loose))) => Block { verdict: Verdict::NotTight, totals, lines: h.lines, why: Some(why_loose(loose, stream, i)) },
        (Ok(()), _) => Block { verdict: Verdict::Lossy, totals, lines: h.lines, why: None },
    }
}

/// Why a block is not tight: the spot and the reason, as the library finds them.
fn why_loose(refusal: Refusal, stream: &FujiCompressed, block: usize) -> String {
    match stream.bad_code(block) {
        Ok(Some(fault)) => format!("refusal {}: {}: {fault}", refusal.number, refusal.words()),
        _ => refusal.to_string(),
    }
}

/// All of a sheet.
pub struct Sheet {
    pub verdict: Verdict,
    pub lines: u32,
    pub blocks: Vec<Block>,
    pub model: Option<String>,
    pub taken: Option<String>,
}

impl Sheet {
    pub fn of(source: &Source, blocks: Vec<Block>) -> Sheet {
        let verdict = blocks.iter().map(|b| b.verdict).max().unwrap_or(Verdict::Tight);
        let raf = source.raf.as_ref();
        let (model, taken) = (raf.map(|r| r.model.clone()), raf.and_then(|r| r.taken.clone()));
        Sheet { verdict, lines: source.header().lines, blocks, model, taken }
    }

    pub fn totals(&self) -> Totals {
        let sum = |of: fn(&Totals) -> u64| self.blocks.iter().map(|b| of(&b.totals)).sum();
        Totals { bits: sum(|t| t.bits), long_codes: sum(|t| t.long_codes) }
    }

    /// Bits of all blocks together, by the lines of the sheet, rounded down; of a damaged sheet they are none that
    /// could be compared.
    pub fn bits_a_line(&self) -> Option<u64> {
        (self.verdict < Verdict::Damaged).then(|| self.totals().bits / self.lines.max(1) as u64)
    }
}

pub const BLOCK: fn(&Source, usize, &mut Scratch) -> Block = |source, i, scratch| block(&source.stream(), i, scratch);
pub const SHEET: fn(&Source, Vec<Block>) -> Sheet = Sheet::of;

/// How many sheets there are of each verdict.
#[derive(Default)]
struct Count([usize; 5]);

pub fn check(call: &Check) -> Result<ExitCode, String> {
    let inputs = inputs::all(&call.files, None);
    let (mut counts, mut failed) = (Count::default(), None);
    let progress = Progress::new(call.quiet.0, "check".to_string());
    pool::run(&inputs, call.threads, &Work { block: BLOCK, sheet: SHEET }, |input, found| {
        counts.0[found.as_ref().map_or_else(Verdict::of, |sheet| sheet.verdict) as usize] += 1;
        let text = match call.json.0 {
            true => json(input, &found) + "\n",
            false => words(input, &found, call),
        };
        if failed.is_none() {
            progress.clear();
            failed = print(&text).err();
            progress.sheets(counts.0.iter().sum(), inputs.len());
        }
    });
    drop(progress);
    if let Some(why) = failed {
        return Err(why);
    }
    if inputs.len() > 1 && !call.json.0 && !call.quiet.0 {
        print(&counts.summary())?;
    }
    Ok(ExitCode::from(counts.worst().status()))
}

impl Count {
    fn worst(&self) -> Verdict {
        Verdict::ALL.into_iter().rfind(|v| self.0[*v as usize] > 0).unwrap_or(Verdict::Tight)
    }

    fn summary(&self) -> String {
        let each = Verdict::ALL.iter().filter(|v| self.0[**v as usize] > 0).map(|v| format!("{} {}", self.0[*v as usize], v.words()));
        format!("{}: {}\n", count(self.0.iter().sum(), "sheet"), each.collect::<Vec<_>>().join(", "))
    }
}

/// A line for the sheet, and one for each block that is not as it should be; with --blocks for every one.
fn words(input: &Input, found: &Result<Sheet, Fault>, call: &Check) -> String {
    let file = name(&input.path);
    let sheet = match found {
        Err(fault) => return format!("{file}: {}: {}\n", Verdict::of(fault).words(), fault.text),
        Ok(sheet) => sheet,
    };
    if call.quiet.0 && sheet.verdict.status() == 0 {
        return String::new();
    }
    let Totals { bits, long_codes } = sheet.totals();
    let bits = match sheet.bits_a_line() {
        Some(bits) => format!("{bits} bits a line"),
        None => format!("{bits} bits in the lines that are whole"),
    };
    let mut text = format!("{file}: {}, {bits}, {}\n", sheet.verdict.words(), count(long_codes as usize, "long code"));
    for (i, block) in sheet.blocks.iter().enumerate().filter(|(_, b)| call.blocks.0 || b.why.is_some()) {
        let _ = writeln!(text, "  block {i}: {}", block.words(sheet.lines));
    }
    text
}

impl Block {
    /// What it is, what was counted of how many lines, and why it is not as it should be.
    fn words(&self, all: u32) -> String {
        let why = self.why.as_ref().map_or(String::new(), |w| format!(": {w}"));
        let verdict = self.verdict.words();
        if self.lines == 0 {
            return format!("{verdict}, no whole line{why}");
        }
        let bits = self.totals.bits / self.lines as u64;
        let of = if self.lines < all { format!(" in lines 0 to {}", self.lines - 1) } else { String::new() };
        format!("{verdict}, {bits} bits a line, {}{of}{why}", count(self.totals.long_codes as usize, "long code"))
    }
}

/// One object; docs/USING.md says what its fields are.
fn json(input: &Input, found: &Result<Sheet, Fault>) -> String {
    let object = Object::new().text("file", &name(&input.path));
    let verdict = found.as_ref().map_or_else(Verdict::of, |s| s.verdict);
    let object = object.text("verdict", verdict.key()).field("status", verdict.status());
    let sheet = match found {
        Err(fault) => return object.text("error", &fault.text).end(),
        Ok(sheet) => sheet,
    };
    let Totals { bits, long_codes } = sheet.totals();
    let blocks = sheet.blocks.iter().enumerate().map(|(i, b)| {
        let object = Object::new().field("block", i).text("verdict", b.verdict.key());
        let object = object.field("lines", b.lines).field("bits", b.totals.bits).field("long_codes", b.totals.long_codes);
        object.maybe("why", b.why.as_ref().map(|w| quoted(w))).end()
    });
    let blocks = list(blocks);
    object
        .maybe("model", sheet.model.as_ref().map(|m| quoted(m)))
        .maybe("taken", sheet.taken.as_ref().map(|t| quoted(t)))
        .field("lines", sheet.lines)
        .field("bits", bits)
        .maybe("bits_per_line", sheet.bits_a_line())
        .field("long_codes", long_codes)
        .field("blocks", blocks)
        .end()
}
