//! What a file says of itself: camera, header, and where the blocks lie.
use crate::json::{Object, list, quoted};
use crate::raf::Raf;
use crate::source::{Fault, Source};
use crate::wording::count;
use crate::{check, tile};
use fuji_compressed::{FujiHeader, Scratch};
use std::fmt::Write;

/// In lines; and what is counted of each block, if that is wanted.
pub fn words(source: &Source, read: bool) -> Result<String, String> {
    let (stream, h) = (source.stream(), source.header());
    let mut text = format!("{}: {}\n", source.name(), count(source.file.len(), "byte"));
    if let Some(raf) = &source.raf {
        camera(&mut text, raf);
    }
    let _ = writeln!(text, "  {}, {}, {} bits, {} x {} samples", kind(&h), loss(&h), h.bits, h.width, h.height);
    let (blocks, lines) = (count(h.blocks as usize, "block"), count(h.lines as usize, "line"));
    let _ = writeln!(text, "  {blocks} of {} columns (rounded width {}), {lines} of six rows", h.block_size, h.rounded_width);
    let _ = writeln!(text, "  tile {} {}", tile::name(&source.tile(None)), source.tile_origin());
    let (mut end, mut scratch) = (0, Scratch::new());
    for (i, (offset, length)) in stream.block_ranges().into_iter().enumerate() {
        let columns = h.block_width(i as u32).map_err(|e| e.to_string())?;
        let _ = write!(text, "  block {i}: {columns} columns, offset {offset}, {}", count(length, "byte"));
        let size = source.size_of(i);
        if (length as u64) < size {
            let _ = write!(text, " of {size}: cut by the stream's end");
        }
        if let Some((least, most)) = bases(source, i) {
            let _ = write!(text, ", bases {least} to {most}");
        }
        text.push('\n');
        end = offset + length;
        if read {
            let found = check::block(&stream, i, &mut scratch);
            let bits = found.totals.bits / found.lines.max(1) as u64;
            let why = found.why.map_or(String::new(), |w| format!(": {w}"));
            let long = count(found.totals.long_codes as usize, "long code");
            let _ = writeln!(text, "  block {i}: {bits} bits a line, {long}, {}{why}", found.verdict.words());
        }
    }
    let _ = writeln!(text, "  {} after the last block", count(source.bytes().len() - end, "byte"));
    for warning in source.warnings() {
        let _ = writeln!(text, "  warning: {warning}");
    }
    Ok(text)
}

fn kind(h: &FujiHeader) -> &'static str {
    if h.xtrans { "X-Trans" } else { "Bayer" }
}

fn loss(h: &FujiHeader) -> &'static str {
    if h.lossless { "lossless" } else { "lossy" }
}

fn camera(text: &mut String, raf: &Raf) {
    let taken = raf.taken.as_ref().map_or(String::new(), |t| format!(", taken {t}"));
    let model = if raf.model.is_empty() { "without a model's name" } else { &raf.model };
    let _ = writeln!(text, "  camera file (RAF), {model}{taken}");
    if let Some(size) = raf.raw_size {
        let _ = writeln!(text, "  raw picture {} x {}", size.width, size.height);
    }
    if let Some(crop) = raf.crop {
        let _ = writeln!(text, "  crop {crop}");
    }
    let _ = writeln!(text, "  stream at byte {}, {}", raf.stream.start, count(raf.stream.len(), "byte"));
}

/// The least and the greatest base of a block.
fn bases(source: &Source, block: usize) -> Option<(u8, u8)> {
    let stream = source.stream();
    let row = stream.q_bases(block).ok()?;
    Some((*row.iter().min()?, *row.iter().max()?))
}

/// One object; docs/USING.md says what its fields are.
pub fn json(file: &str, source: &Result<Source, Fault>, read: bool) -> String {
    let object = Object::new().text("file", file);
    let source = match source {
        Ok(source) => source,
        Err(fault) => return object.text("error", &fault.text).end(),
    };
    let h = source.header();
    let object = object.text("form", if source.raf.is_some() { "raf" } else { "stream" }).field("bytes", source.file.len());
    let object = match &source.raf {
        Some(raf) => camera_json(object, raf),
        None => object,
    };
    let object = object.text("kind", if h.xtrans { "xtrans" } else { "bayer" }).field("lossless", h.lossless).field("bits", h.bits);
    let object = object.field("width", h.width).field("height", h.height).field("rounded_width", h.rounded_width);
    let object = object.field("lines", h.lines).text("tile", &tile::name(&source.tile(None)));
    let mut scratch = Scratch::new();
    let ranges = source.stream().block_ranges();
    let blocks = ranges.iter().enumerate().map(|(i, (offset, length))| {
        let object = Object::new().field("block", i).field("offset", offset).field("bytes", length).field("size", source.size_of(i));
        let object = match bases(source, i) {
            Some((least, most)) => object.field("least_base", least).field("greatest_base", most),
            None => object,
        };
        if !read {
            return object.end();
        }
        let found = check::block(&source.stream(), i, &mut scratch);
        let totals = found.totals;
        object.text("verdict", found.verdict.key()).field("bits", totals.bits).field("long_codes", totals.long_codes).end()
    });
    let blocks = list(blocks);
    object.field("blocks", blocks).field("warnings", list(source.warnings().iter().map(|w| quoted(w)))).end()
}

fn camera_json(object: Object, raf: &Raf) -> Object {
    let size = raf.raw_size.map(|s| Object::new().field("width", s.width).field("height", s.height).end());
    let crop =
        raf.crop.map(|c| Object::new().field("left", c.left).field("top", c.top).field("width", c.width).field("height", c.height).end());
    let object = object.text("model", &raf.model).maybe("taken", raf.taken.as_ref().map(|t| quoted(t)));
    let object = object.maybe("raw_size", size).maybe("crop", crop);
    object.field("stream_offset", raf.stream.start).field("stream_bytes", raf.stream.len())
}
