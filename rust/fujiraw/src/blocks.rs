//! Single blocks: sets of colour lines out of a stream, blocks of such sets, and the bases of lossy ones.
use crate::calls::{Bases, Lines, Plan, Write};
use crate::files::{load, load_samples, name};
use crate::output::Output;
use crate::source::{Source, header_of};
use crate::wording::count;
use fuji_compressed::{FujiHeader, Refusal, measure_block, plan_bases, write_block, write_lossy};
use std::path::Path;

/// Hands out the set of a block, as `write` takes it.
pub fn lines(call: &Lines) -> Result<(), String> {
    let output = Output::new(&[&call.file], &call.out, call.force)?;
    let source = Source::open(&call.file)?;
    let h = source.header();
    let mut set = vec![0; h.set_size()];
    source.stream().read_set(call.block, &mut set).answer.map_err(|e| match e.number {
        5 => format!("{e}: the stream has {}, counted from 0", count(h.blocks as usize, "block")),
        _ => e.to_string(),
    })?;
    output.write(|o| set.chunks(4096).try_for_each(|part| o.write_all(&part.iter().flat_map(|v| v.to_le_bytes()).collect::<Vec<u8>>())))
}

/// Writes the tight block of the samples in a file, or with bases the lossy one.
pub fn write(call: &Write) -> Result<(), String> {
    let read = [Some(call.header.as_path()), Some(call.samples.as_path()), call.bases.as_ref().map(Bases::file)];
    let output = Output::new(&read.into_iter().flatten().collect::<Vec<_>>(), &call.out, call.force)?;
    let (header, parsed) = header_of(&call.header)?;
    let bases = call.bases.as_ref().map(|from| bases_of(&header, &parsed, from)).transpose()?;
    let set = load_samples(&call.samples)?;
    // No block is longer, tight or lossy: a code has at most 4·bits bits.
    let mut block = vec![0; parsed.lines as usize * 2304 * parsed.bits as usize];
    let length = match &bases {
        Some(bases) => write_lossy(&header, bases, &set, &mut block),
        None => write_block(&header, &set, &mut block),
    };
    let length = length.map_err(|e| told(&e, &parsed, set.len(), bases.map_or(0, |b| b.len())))?;
    output.write(|o| o.write_all(&block[..length]))
}

/// A refusal of a writer, with what came and what is wanted.
fn told(refusal: &Refusal, h: &FujiHeader, samples: usize, bases: usize) -> String {
    let width = if h.xtrans { 512 } else { 384 };
    match refusal.number {
        8 => format!("{refusal}: give its bases with --bases or --plan"),
        9 => {
            let lines = count(h.lines as usize, "line");
            format!("{refusal}: there are {samples}, and {} are needed ({lines} of 12 colour lines of {width})", h.set_size())
        }
        11 => format!("{refusal}: with {} bits the largest is {}", h.bits, (1u32 << h.bits) - 1),
        16 => format!("{refusal}: a lossless block has no bases; to make a lossy copy of a whole stream, use fujiraw copy"),
        17 => format!("{refusal}: there are {bases}, and {} are needed", h.lines),
        _ => refusal.to_string(),
    }
}

fn bases_of(header: &[u8], parsed: &FujiHeader, from: &Bases) -> Result<Vec<u8>, String> {
    match from {
        Bases::Bytes(file) => load(file),
        Bases::Plan(file) => planned(header, parsed, file),
    }
}

/// Writes the base bytes of a plan, one for each line of the header.
pub fn plan(call: &Plan) -> Result<(), String> {
    let output = Output::new(&[&call.header, &call.plan], &call.out, call.force)?;
    let (header, parsed) = header_of(&call.header)?;
    let bases = planned(&header, &parsed, &call.plan)?;
    output.write(|o| o.write_all(&bases))
}

/// The bases of a plan in a file.
pub fn planned(header: &[u8], parsed: &FujiHeader, plan: &Path) -> Result<Vec<u8>, String> {
    let text = load(plan)?;
    let mut bases = vec![0; parsed.lines as usize];
    plan_bases(header, &text, &mut bases).map_err(|e| wrong_plan(&e, parsed, &text))?;
    Ok(bases)
}

/// A refusal of a plan, with the record that it names.
fn wrong_plan(refusal: &Refusal, h: &FujiHeader, plan: &[u8]) -> String {
    match refusal.number {
        16 => format!(
            "{refusal}: plans are for lossy headers; to make a lossy copy of a lossless stream, use fujiraw copy IN OUT --plan PLAN"
        ),
        18 => {
            let record = plan.split(|b| *b == b'\n').nth(refusal.index.saturating_sub(1)).unwrap_or_default();
            let record: String = String::from_utf8_lossy(record).chars().take(60).collect();
            let last = h.lines - 1;
            format!(
                "{refusal}: it is {record:?}; a record is first line, last line and base, separated by tabs, with lines 0 to {last} and bases 0 to 255"
            )
        }
        _ => refusal.to_string(),
    }
}

/// The exact length of the tight block of the samples in a file.
pub fn measure(header: &Path, samples: &Path) -> Result<usize, String> {
    let (header, parsed) = header_of(header)?;
    let set = load_samples(samples)?;
    measure_block(&header, &set).map_err(|e| match e.number {
        8 => format!("{e}: the length of a lossy block depends on its bases"),
        9 => told(&e, &parsed, set.len(), 0).replace("refusal 9", &format!("{}: refusal 9", name(samples))),
        _ => told(&e, &parsed, set.len(), 0),
    })
}
