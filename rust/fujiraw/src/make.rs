//! Tight masters and lossy working copies of streams and camera files. What was written is read back and compared
//! before it gets its name.
use crate::blocks::planned;
use crate::calls::{Kind, Make};
use crate::files::print;
use crate::inputs::Input;
use crate::memory;
use crate::output::Output;
use crate::progress::Progress;
use crate::read_back::{Likeness, compare};
use crate::source::{Source, reread};
use crate::wording::{both, in_words};
use fuji_compressed::{FujiHeader, HEADER_SIZE, Refusal, lossy_copy_parallel, tighten_parallel};
use std::fs::File;
use std::io::Write;
use std::path::Path;
use std::sync::Mutex;

/// What stands before the new stream in the file, and what behind it.
type Around = (Vec<u8>, Vec<u8>);

/// Makes a tight stream or a lossy copy of one file.
pub fn make(call: &Make, input: &Input) -> Result<(), String> {
    let out = call.place.of(input, None);
    let mut read: Vec<&Path> = vec![&input.path];
    if let Kind::Plan(plan) = &call.kind {
        read.push(plan);
    }
    let output = if call.dry.0 { None } else { Some(Output::new(&read, &out, call.place.force)?) };
    let source = Source::open(&input.path)?;
    let bases = bases_of(&source, &call.kind)?;
    let made = made(&source, call, bases.as_deref())?;
    let (head, tail) = around(&source, made.len())?;
    let size = (head.len() + made.len() + tail.len()) as u64;
    let Some(output) = output else {
        let what = if bases.is_some() { "as a lossy copy" } else { "as a tight file" };
        return print(&format!(
            "{}: {what} it would take {}; now it takes {}; nothing was written\n",
            source.name(),
            both(size),
            in_words(source.file.len() as u64)
        ));
    };
    call.place.make_folder(&out)?;
    let to_standard = output.is_standard();
    let likeness = write(output, &out, (head, tail), made, &source, bases.as_deref(), call.threads)?;
    match call.quiet.0 || to_standard {
        true => Ok(()),
        false => print(&said(&out, &source, size, bases.is_some(), &likeness)),
    }
}

/// Writes it all, and compares what is there then with the source. What cannot be read back, as a pipe, is compared
/// before it is written.
fn write(
    output: Output,
    out: &Path,
    (head, tail): Around,
    made: Vec<u8>,
    source: &Source,
    bases: Option<&[u8]>,
    threads: usize,
) -> Result<Likeness, String> {
    let mut likeness = None;
    if !output.can_be_read_back() {
        likeness = Some(compare(source.bytes(), &made, bases, threads)?);
    }
    let put = move |o: &mut dyn Write| {
        o.write_all(&head)?;
        o.write_all(&made)?;
        o.write_all(&tail)
    };
    output.write_and_check(put, |file| {
        let again = reread(file, out)?;
        likeness = Some(compare(source.bytes(), again.bytes(), bases, threads)?);
        Ok(())
    })?;
    likeness.ok_or("nothing was compared".to_string())
}

fn made(source: &Source, call: &Make, bases: Option<&[u8]>) -> Result<Vec<u8>, String> {
    let h = source.header();
    let (progress, done) = (Progress::new(call.quiet.0, source.name()), Mutex::new(0));
    let one_more = || {
        let mut done = done.lock().unwrap();
        *done += 1;
        progress.at(*done, h.blocks as usize, *done * 768 * h.height as usize);
    };
    // What is made is there twice before it is put together; each thread has a set and a block.
    let stream = source.bytes().len() as u64;
    let threads = memory::threads(call.threads, memory::picture(&h), 2 * stream, memory::set(&h) + stream / h.blocks as u64);
    let made = match bases {
        Some(bases) => lossy_copy_parallel(threads, source.bytes(), bases, &one_more),
        None => tighten_parallel(threads, source.bytes(), &one_more),
    };
    made.map_err(|e: Refusal| match e.number {
        14 => format!("{e}: a damaged file is left alone; use fujiraw decode --partial to see what it has"),
        _ => e.to_string(),
    })
}

/// What of a camera file stands around the new stream; nothing if the file is a stream.
fn around(source: &Source, length: usize) -> Result<Around, String> {
    match &source.raf {
        None => Ok((vec![], vec![])),
        Some(raf) => raf.around(&source.file, source.own_length(), length).map(|r| (r.head, r.tail)),
    }
}

/// A base for each line of each block, if the copy is lossy.
fn bases_of(source: &Source, kind: &Kind) -> Result<Option<Vec<u8>>, String> {
    let h = source.header();
    let lines = match kind {
        Kind::Tight => return Ok(None),
        Kind::Base(base) => vec![*base; h.lines as usize],
        Kind::Plan(plan) => {
            // The copy's header is lossy, whatever the source's is.
            let mut header = source.bytes()[..HEADER_SIZE].to_vec();
            header[2] = 0;
            planned(&header, &FujiHeader { lossless: false, ..h }, plan)?
        }
    };
    Ok(Some(lines.repeat(h.blocks as usize)))
}

fn said(out: &Path, source: &Source, size: u64, lossy: bool, likeness: &Likeness) -> String {
    let was = in_words(source.file.len() as u64);
    let samples = likeness.samples;
    let back = match lossy {
        false => format!("verified: all {samples} samples read back the same"),
        true => format!("verified: all {samples} coded samples read back within their base, at most {} away", likeness.farthest),
    };
    let what = if lossy { "lossy" } else { "tight" };
    format!("{}: {what}, {}, it was {was}; {back}\n", out.display(), both(size))
}

impl crate::calls::Place {
    /// The folder that an output goes to, below the one that was named.
    pub fn make_folder(&self, out: &Path) -> Result<(), String> {
        let Some(folder) = out.parent().filter(|f| self.is_folder && !f.exists()) else { return Ok(()) };
        let failed = |e| format!("cannot make the folder {}: {}", folder.display(), crate::files::plain(&e));
        std::fs::create_dir_all(folder).map_err(failed)?;
        // Its name is in the folder above, and so on up to the one that was named.
        let above = folder.ancestors().skip(1).take_while(|f| f.starts_with(&self.out));
        above.for_each(|f| drop(File::open(f).and_then(|f| f.sync_all())));
        Ok(())
    }
}
