//! Pictures of streams.
use crate::calls::Decode;
use crate::files::print;
use crate::inputs::Input;
use crate::output::Output;
use crate::picture::Picture;
use crate::progress::Progress;
use crate::source::Source;
use crate::{memory, states, tile};
use fuji_compressed::{ColorTile, FujiCompressed, FujiHeader, Rect, Refusal, Scratch};
use std::path::Path;
use std::sync::Mutex;

/// Decodes one file and writes its picture.
pub fn decode(call: &Decode, input: &Input) -> Result<(), String> {
    let out = call.place.of(input, Some(call.look.format));
    let read: Vec<&Path> = [Some(input.path.as_path()), call.from.as_deref()].into_iter().flatten().collect();
    let output = Output::new(&read, &out, call.place.force)?;
    let source = Source::open(&input.path)?;
    let tile = source.tile(call.tile);
    let (picture, refusal) = picture(&source, call, &tile)?;
    call.place.make_folder(&out)?;
    // The picture itself may be on standard output.
    let quiet = call.quiet.0 || output.is_standard();
    let (width, height) = call.look.size(&picture);
    output.write(|o| call.look.write(&picture, o))?;
    if !quiet {
        let small = if call.look.preview { ", a small picture" } else { "" };
        let bits = picture.bits;
        print(&format!("{}: {width} x {height} samples, {bits} bits, tile {}{small}\n", out.display(), tile::name(&tile)))?;
    }
    refusal.map_or(Ok(()), |refusal| Err(what_is_missing(&source, &refusal)))
}

/// The picture, or a region of it; if it may be a part, also why it is no more than that.
fn picture(source: &Source, call: &Decode, tile: &ColorTile) -> Result<(Picture, Option<Refusal>), String> {
    let (stream, h) = (source.stream(), source.header());
    let region = call.region.unwrap_or(Rect::new(0, 0, h.width, h.height));
    if !is_inside(&h, region) {
        return Err(past_the_edge(&stream, region, tile));
    }
    let (first, last) = (region.x / 768, (region.x + region.width - 1) / 768);
    if !call.partial.0 && stream.block(first as usize).is_ok_and(<[u8]>::is_empty) {
        // A block without bytes is truncated in its first line, so a small region of it says what the whole would.
        stream.decode_region(&mut [0], Rect::new(region.x, 0, 1, 1), tile).map_err(truncated)?;
    }
    let mut samples = room(region.width, region.height)?;
    let made = |samples| Picture { width: region.width, height: region.height, bits: h.bits, samples };
    if let Some(from) = &call.from {
        states::decode(&stream, from, &mut samples, region, tile)?;
        return Ok((made(samples), None));
    }
    let (blocks, progress) = ((last + 1 - first) as usize, Progress::new(call.quiet.0, source.name()));
    let done = Mutex::new(0);
    let one_more = || {
        let mut done = done.lock().unwrap();
        *done += 1;
        progress.at(*done, blocks, *done * 768 * region.height as usize);
    };
    let by_threads = match call.windowed.0 {
        true => FujiCompressed::decode_region_windowed_parallel,
        false => FujiCompressed::decode_region_parallel,
    };
    // Each thread has room for a block's columns.
    let threads = memory::threads(call.threads, 0, 0, 2 * region.width.min(768) as u64 * region.height as u64);
    match by_threads(&stream, threads, &mut samples, region, tile, &one_more) {
        Ok(()) => Ok((made(samples), None)),
        Err(refusal) if refusal.number == 14 && call.partial.0 => Ok((made(samples), Some(refusal))),
        Err(refusal) => Err(truncated(refusal)),
    }
}

/// The library says what is wrong with a region; this adds how large the picture is.
fn past_the_edge(stream: &FujiCompressed, region: Rect, tile: &ColorTile) -> String {
    let refusal = stream.decode_region(&mut [], region, tile).err();
    let said = refusal.map_or(String::new(), |r| r.to_string());
    format!("{said}: the picture has {} x {} samples", stream.header.width, stream.header.height)
}

fn truncated(refusal: Refusal) -> String {
    match refusal.number {
        14 => format!("{refusal}; use --partial to write the rows before it"),
        _ => refusal.to_string(),
    }
}

/// Which rows of which blocks are in a picture that is only a part.
fn what_is_missing(source: &Source, refusal: &Refusal) -> String {
    let (stream, mut scratch) = (source.stream(), Scratch::new());
    let mut text = format!("{refusal}; a partial picture was written, with 0 for what is missing:");
    for block in 0..stream.header.blocks as usize {
        let Err(cut) = stream.read_block_with(&mut scratch, block).answer else { continue };
        let rows = match 6 * cut.line {
            0 => "no rows".to_string(),
            rows => format!("rows 0 to {} decoded", rows - 1),
        };
        text += &format!("\n  columns {} to {}: {rows}", 768 * block, (768 * block + 767).min(stream.header.width as usize - 1));
    }
    text
}

/// Samples for a picture, if there is memory for them.
pub fn room(width: u32, height: u32) -> Result<Vec<u16>, String> {
    let (mut samples, length) = (vec![], width as usize * height as usize);
    let short = |_| format!("there is not enough memory for a picture of {width} x {height} samples");
    samples.try_reserve_exact(length).map_err(short)?;
    samples.resize(length, 0);
    Ok(samples)
}

fn is_inside(h: &FujiHeader, region: Rect) -> bool {
    let inside = |from: u32, size: u32, all: u32| from.checked_add(size).is_some_and(|end| end <= all);
    inside(region.x, region.width, h.width) && inside(region.y, region.height, h.height)
}
