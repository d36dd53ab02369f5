//! Prints the samples of a region: `region STREAM X Y WIDTH HEIGHT`
use fuji_compressed::{FujiCompressed, Rect};
use std::error::Error;

fn main() -> Result<(), Box<dyn Error>> {
    let words: Vec<String> = std::env::args().skip(1).collect();
    let [from, numbers @ ..] = words.as_slice() else { return Err("usage: region STREAM X Y WIDTH HEIGHT".into()) };
    let numbers = numbers.iter().map(|n| n.parse()).collect::<Result<Vec<u32>, _>>()?;
    let [x, y, width, height] = numbers[..] else { return Err("usage: region STREAM X Y WIDTH HEIGHT".into()) };
    let bytes = std::fs::read(from)?;
    let image = FujiCompressed::new(&bytes)?.decoder().region(Rect::new(x, y, width, height)).decode()?;
    for row in image.chunks(width.max(1) as usize) {
        println!("{}", row.iter().map(u16::to_string).collect::<Vec<_>>().join(" "));
    }
    Ok(())
}
