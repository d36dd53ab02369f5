//! A lamp that ages shows as more bits a line: what sheets have, as a list, as rows for other programs, or as a
//! picture.
use crate::calls::{Lamp, Order};
use crate::check::{self, BLOCK, SHEET, Sheet, Verdict};
use crate::files::{name, print};
use crate::inputs::{self, Input};
use crate::output::Output;
use crate::pool::{self, Work};
use crate::source::{Fault, Source};
use crate::svg::{self, Point};
use crate::time;
use crate::wording::count;
use fuji_compressed::{ColorTile, FujiCompressed, Rect, Scratch, Totals};
use std::fmt::Write;
use std::process::ExitCode;

pub fn lamp(call: &Lamp) -> Result<ExitCode, String> {
    let output = match &call.svg {
        Some(out) => Some(Output::new(&call.files.iter().map(|f| f.as_path()).collect::<Vec<_>>(), out, call.force)?),
        None => None,
    };
    let inputs = inputs::all(&call.files, None);
    if call.lines {
        return lines(call, &inputs);
    }
    let mut sheets: Vec<(String, String, Result<Sheet, Fault>)> = vec![];
    pool::run(&inputs, call.threads, &Work { block: BLOCK, sheet: SHEET }, |input, found| {
        sheets.push((name(&input.path), moment(input, &found), found));
    });
    if call.order == Order::Time {
        // Sheets of one moment stay in the order of their names.
        sheets.sort_by(|a, b| a.1.cmp(&b.1));
    }
    for (file, _, found) in &sheets {
        match found {
            Err(fault) => crate::complain(&format!("{file}: {}", fault.text)),
            Ok(sheet) => sheet.blocks.iter().filter(|b| b.verdict == Verdict::Damaged).filter_map(|b| b.why.as_ref()).for_each(|why| {
                crate::complain(&format!("{file}: {why}"));
            }),
        }
    }
    match output {
        Some(output) => chart(call, output, &sheets)?,
        None if call.csv => print(&rows(&sheets))?,
        None => print(&list(&sheets))?,
    }
    let bad = sheets.iter().any(|(.., found)| found.as_ref().map_or(true, |s| s.bits_a_line().is_none()));
    Ok(if bad { ExitCode::FAILURE } else { ExitCode::SUCCESS })
}

/// When a sheet was taken, by its camera, or else when its file was last changed.
fn moment(input: &Input, found: &Result<Sheet, Fault>) -> String {
    let taken = found.as_ref().ok().and_then(|s| s.taken.clone());
    taken.unwrap_or_else(|| time::changed(&input.path).unwrap_or_default())
}

fn list(sheets: &[(String, String, Result<Sheet, Fault>)]) -> String {
    let mut text = String::new();
    for (file, moment, sheet) in sheets.iter().filter_map(|(f, m, s)| Some((f, m, s.as_ref().ok()?))) {
        let long = count(sheet.totals().long_codes as usize, "long code");
        let bits = sheet.bits_a_line().map_or("damaged".to_string(), |b| format!("{b} bits a line"));
        let _ = writeln!(text, "{file}: {moment}, {bits}, {long}");
    }
    text
}

/// A row for each block.
fn rows(sheets: &[(String, String, Result<Sheet, Fault>)]) -> String {
    let mut text = "file,time,block,verdict,lines,bits,bits_per_line,long_codes\n".to_string();
    for (file, moment, sheet) in sheets.iter().filter_map(|(f, m, s)| Some((f, m, s.as_ref().ok()?))) {
        for (i, block) in sheet.blocks.iter().enumerate() {
            let Totals { bits, long_codes } = block.totals;
            let mean = bits / block.lines.max(1) as u64;
            let _ = writeln!(text, "{},{moment},{i},{},{},{bits},{mean},{long_codes}", cell(file), block.verdict.key(), block.lines);
        }
    }
    text
}

/// A name as a cell: in quotes if it has a sign that means something there.
fn cell(text: &str) -> String {
    if text.contains([',', '"', '\n', '\r']) { format!("\"{}\"", text.replace('"', "\"\"")) } else { text.to_string() }
}

fn chart(call: &Lamp, output: Output, sheets: &[(String, String, Result<Sheet, Fault>)]) -> Result<(), String> {
    let points: Vec<Point> = sheets
        .iter()
        .map(|(file, moment, found)| Point {
            name: file.clone(),
            moment: moment.clone(),
            bits: found.as_ref().ok().and_then(check::Sheet::bits_a_line),
        })
        .collect();
    let (quiet, shown) = (call.quiet.0 || output.is_standard(), points.iter().filter(|p| p.bits.is_some()).count());
    let picture = svg::chart(&points, call.order == Order::Time);
    output.write(|o| o.write_all(picture.as_bytes()))?;
    match &call.svg {
        Some(out) if !quiet => print(&format!("{}: bits a line of {}\n", out.display(), count(shown, "sheet"))),
        _ => Ok(()),
    }
}

/// A row for each line of each block.
fn lines(call: &Lamp, inputs: &[Input]) -> Result<ExitCode, String> {
    print("file,time,block,line,bits,long_codes\n")?;
    let block = |source: &Source, i: usize, scratch: &mut Scratch| each_line(&source.stream(), i, scratch);
    let sheet =
        |source: &Source, blocks: Vec<Vec<Totals>>| (source.raf.as_ref().and_then(|r| r.taken.clone()), source.header().lines, blocks);
    let (mut bad, mut failed) = (false, None);
    pool::run(inputs, call.threads, &Work { block, sheet }, |input, found| {
        let (taken, all, blocks) = match found {
            Ok(found) => found,
            Err(fault) => {
                bad = true;
                return crate::complain(&format!("{}: {}", name(&input.path), fault.text));
            }
        };
        let moment = taken.unwrap_or_else(|| time::changed(&input.path).unwrap_or_default());
        let (file, mut text) = (cell(&name(&input.path)), String::new());
        for (i, lines) in blocks.iter().enumerate() {
            if lines.len() < all as usize {
                bad = true;
                crate::complain(&format!("{}: block {i}, line {}: a line is truncated", name(&input.path), lines.len()));
            }
            for (line, Totals { bits, long_codes }) in lines.iter().enumerate() {
                let _ = writeln!(text, "{file},{moment},{i},{line},{bits},{long_codes}");
            }
        }
        failed = failed.take().or(print(&text).err());
    });
    failed.map_or(Ok(if bad { ExitCode::FAILURE } else { ExitCode::SUCCESS }), Err)
}

/// Bits and long codes of each line of a block, up to a truncated one. The library counts the lines of a call
/// together, so a state is stored now and then, and each line is reached from the state before it.
fn each_line(stream: &FujiCompressed, block: usize, scratch: &mut Scratch) -> Vec<Totals> {
    let h = stream.header;
    let (lines, step) = (h.lines as usize, (h.lines as f64).sqrt().ceil() as usize);
    let mut each: Vec<Totals> = vec![];
    let mut state = vec![0; h.checkpoint_size()];
    let (column, tile) = (768 * block as u32, ColorTile::default());
    for from in (0..lines).step_by(step) {
        if from > 0 && stream.store_checkpoint_with(scratch, block, from - 1, &mut state).answer.is_err() {
            return each;
        }
        let mut before = Totals::default();
        for line in from..(from + step).min(lines) {
            let counted = match from {
                0 => stream.store_checkpoint_with(scratch, block, line, &mut state),
                _ => stream.resume_region_with(scratch, block, &state, &mut [0; 6], Rect::new(column, 6 * line as u32, 1, 6), &tile),
            };
            if counted.answer.is_err() {
                return each;
            }
            let Totals { bits, long_codes } = counted.totals;
            each.push(Totals { bits: bits - before.bits, long_codes: long_codes - before.long_codes });
            before = counted.totals;
        }
    }
    each
}
