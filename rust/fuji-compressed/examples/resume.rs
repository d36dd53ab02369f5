//! Saves the state of a block after a line, resumes from it, and compares with reading from the top: `resume STREAM BLOCK LINE`
use fuji_compressed::{FujiCompressed, Rect};
use std::error::Error;

fn main() -> Result<(), Box<dyn Error>> {
    let words: Vec<String> = std::env::args().skip(1).collect();
    let [from, block, line] = words.as_slice() else { return Err("usage: resume STREAM BLOCK LINE".into()) };
    let (block, line): (usize, usize) = (block.parse()?, line.parse()?);
    let bytes = std::fs::read(from)?;
    let stream = FujiCompressed::new(&bytes)?;
    let h = stream.header;
    let mut state = vec![0; h.checkpoint_size()];
    stream.store_checkpoint(block, line, &mut state).answer?;
    // the rows below that line, in the block's columns
    let top = 6 * (line as u32 + 1);
    let region = Rect::new(768 * block as u32, top, h.block_width(block as u32)?, h.height - top);
    let tile = if h.xtrans { FujiCompressed::XTRANS_TILE } else { FujiCompressed::BAYER_TILE };
    let mut image = vec![0; region.width as usize * region.height as usize];
    stream.resume_region(block, &state, &mut image, region, &tile).answer?;
    let same = image == stream.decoder().region(region).decode()?;
    println!("{} samples from row {top} on, {}", image.len(), if same { "as from the top" } else { "NOT as from the top" });
    if same { Ok(()) } else { Err("resuming gave another picture".into()) }
}
