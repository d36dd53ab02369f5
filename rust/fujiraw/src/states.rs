//! States of blocks after a line: saved one after the other in a file, and resumed.
use crate::calls::Save;
use crate::files::{load, name};
use crate::output::Output;
use crate::source::Source;
use fuji_compressed::{ColorTile, FujiCompressed, FujiHeader, Rect};
use std::path::Path;

/// Stores the state of one block, or of all blocks, after a line.
pub fn save(call: &Save) -> Result<(), String> {
    let output = Output::new(&[&call.file], &call.out, call.force)?;
    let source = Source::open(&call.file)?;
    let (stream, h) = (source.stream(), source.header());
    let size = h.checkpoint_size();
    let blocks = match call.block {
        None => (0..h.blocks as usize).collect(),
        // The library refuses one that is not there.
        Some(block) => vec![block],
    };
    let mut states = vec![0; size * blocks.len()];
    for (block, state) in blocks.into_iter().zip(states.chunks_mut(size)) {
        stream.store_checkpoint(block, call.line, state).answer.map_err(|e| match e.number {
            5 => format!("{e}: the stream has {}, counted from 0", crate::wording::count(h.blocks as usize, "block")),
            21 => format!("refusal 21: there is no such line: the stream has lines 0 to {}", h.lines - 1),
            _ => e.to_string(),
        })?;
    }
    output.write(|o| o.write_all(&states))
}

/// The block of a state, and the first row that it fills. What is no state at all gets its refusal from the library.
fn head(state: &[u8]) -> Option<(usize, u32)> {
    let [block, line @ ..]: [u8; 3] = *state.get(16..)?.first_chunk()?;
    Some((block as usize, 6 * u16::from_be_bytes(line) as u32))
}

/// Fills a region from the stored states of a file, which has one for each block that the region touches.
pub fn decode(stream: &FujiCompressed, file: &Path, image: &mut [u16], region: Rect, tile: &ColorTile) -> Result<(), String> {
    let states = load(file)?;
    let touched = region.x / 768..=(region.x + region.width - 1) / 768;
    for block in touched.map(|b| b as usize) {
        let state = find(&stream.header, &states, block).ok_or_else(|| format!("{} has no state of block {block}", name(file)))?;
        match head(state) {
            Some((_, row)) if region.y < row => {
                return Err(format!("the state of block {block} goes on from row {row}, and the region begins with row {}", region.y));
            }
            _ => stream.resume_region(block, state, image, region, tile).answer.map_err(|e| e.to_string())?,
        }
    }
    Ok(())
}

/// The state of a block among states that follow each other. A file that holds no whole number of them is handed on
/// as it is.
fn find<'s>(header: &FujiHeader, states: &'s [u8], block: usize) -> Option<&'s [u8]> {
    let size = header.checkpoint_size();
    if states.is_empty() || !states.len().is_multiple_of(size) {
        return Some(states);
    }
    states.chunks(size).find(|s| head(s).is_some_and(|(b, _)| b == block))
}
