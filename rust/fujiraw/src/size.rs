//! How much room sheets take as tight files: at most, by their headers alone, and exactly.
use crate::blocks::measure;
use crate::calls::Size;
use crate::files::{is_standard, name, print};
use crate::inputs;
use crate::json::Object;
use crate::memory::{self, Gate};
use crate::pool::{self, Work};
use crate::source::{Source, header_of};
use crate::wording::{both, count};
use fuji_compressed::{FujiHeader, HEADER_SIZE, Refusal, Scratch, measure_block_with};
use std::path::Path;
use std::process::ExitCode;

/// The sizes of a sheet in bytes.
#[derive(Clone, Copy, Default)]
struct Sizes {
    /// Of a header alone there is no file.
    now: Option<u64>,
    at_most: u64,
    exactly: Option<u64>,
}

pub fn size(call: &Size) -> Result<ExitCode, String> {
    if let Some(samples) = &call.samples {
        return of_one_block(call, samples);
    }
    let inputs = inputs::all(&call.files, None);
    let (mut all, mut good, mut failed) = (Sizes { now: Some(0), at_most: 0, exactly: Some(0) }, 0, None);
    let (at_most, gate) = (call.at_most, Gate::new());
    let block = |source: &Source, i: usize, scratch: &mut Scratch| {
        if at_most {
            return Ok(0);
        }
        let _held = gate.take(memory::set(&source.header()));
        length_of(source, i, scratch)
    };
    let sheet = |source: &Source, lengths: Vec<Result<u64, Refusal>>| sizes(source, lengths, at_most);
    pool::run(&inputs, call.threads, &Work { block, sheet }, |input, found| {
        let found = found.map_err(String::from).and_then(|sizes| sizes).or_else(|why| by_header(&input.path, why));
        if let Ok(sizes) = &found {
            all.add(sizes);
            good += 1;
        }
        failed = failed.take().or(tell(call, &name(&input.path), &found).err());
    });
    if let Some(why) = failed {
        return Err(why);
    }
    if inputs.len() > 1 && !call.json.0 {
        let bad = inputs.len() - good;
        let left_out = if bad > 0 { format!(", without {bad} that could not be measured") } else { String::new() };
        print(&format!("{}{left_out}\n", words(&format!("all {}", count(good, "sheet")), &all)))?;
    }
    Ok(if good == inputs.len() { ExitCode::SUCCESS } else { ExitCode::FAILURE })
}

/// The exact size of the one block of these samples.
fn of_one_block(call: &Size, samples: &Path) -> Result<ExitCode, String> {
    let length = measure(&call.files[0], samples)? as u64;
    let text = match call.json.0 {
        true => Object::new().text("file", &name(samples)).field("block_bytes", length).end(),
        false => format!("{}: one block, exactly {}", name(samples), both(length)),
    };
    print(&(text + "\n"))?;
    Ok(ExitCode::SUCCESS)
}

/// A line for a sheet, or why there is none.
fn tell(call: &Size, file: &str, found: &Result<Sizes, String>) -> Result<(), String> {
    match found {
        Ok(sizes) if call.json.0 => print(&(json(file, sizes) + "\n")),
        Ok(sizes) => print(&(words(file, sizes) + "\n")),
        Err(why) if call.json.0 => print(&(Object::new().text("file", file).text("error", why).end() + "\n")),
        Err(why) => {
            crate::complain(&format!("{file}: {why}"));
            Ok(())
        }
    }
}

impl Sizes {
    fn add(&mut self, other: &Sizes) {
        let sum = |a: Option<u64>, b: Option<u64>| Some(a? + b?);
        self.now = sum(self.now, other.now);
        self.at_most += other.at_most;
        self.exactly = sum(self.exactly, other.exactly);
    }
}

/// The length of the tight block of the same colour lines.
fn length_of(source: &Source, i: usize, scratch: &mut Scratch) -> Result<u64, Refusal> {
    let mut set = vec![0; source.header().set_size()];
    source.stream().read_set_with(scratch, i, &mut set).answer?;
    let mut header: Vec<u8> = source.bytes()[..HEADER_SIZE].to_vec();
    // A lossy stream has a tight lossless one with the same samples.
    header[2] = 1;
    measure_block_with(scratch, &header, &set).map(|n| n as u64)
}

fn sizes(source: &Source, lengths: Vec<Result<u64, Refusal>>, at_most: bool) -> Result<Sizes, String> {
    let h = source.header();
    // What a camera file has beside the stream stays.
    let beside = (source.file.len() - source.bytes().len()) as u64;
    let sum: u64 = lengths.into_iter().collect::<Result<Vec<_>, _>>().map_err(|e| e.to_string())?.into_iter().sum();
    let front = FujiHeader { lossless: true, ..h }.front_length() as u64;
    let exactly = (!at_most).then_some(beside + front + sum);
    Ok(Sizes { now: Some(source.file.len() as u64), at_most: beside + h.tightened_bound() as u64, exactly })
}

/// A header by itself has a greatest size all the same.
fn by_header(path: &Path, why: String) -> Result<Sizes, String> {
    let is_header = !is_standard(path) && std::fs::metadata(path).is_ok_and(|m| m.len() == HEADER_SIZE as u64);
    let (_, h) = header_of(path).ok().filter(|_| is_header).ok_or(why)?;
    Ok(Sizes { now: None, at_most: h.tightened_bound() as u64, exactly: None })
}

fn words(file: &str, sizes: &Sizes) -> String {
    let exactly = sizes.exactly.map_or(String::new(), |n| format!(", exactly {}", both(n)));
    let now = sizes.now.map_or(String::new(), |n| format!(", now {}", both(n)));
    format!("{file}: as a tight file at most {}{exactly}{now}", both(sizes.at_most))
}

fn json(file: &str, sizes: &Sizes) -> String {
    let object = Object::new().text("file", file).maybe("bytes", sizes.now);
    object.field("at_most", sizes.at_most).maybe("exactly", sizes.exactly).end()
}
