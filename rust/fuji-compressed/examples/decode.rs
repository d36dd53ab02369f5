//! Decodes a stream to a PGM picture: `decode STREAM PICTURE.pgm`
use fuji_compressed::FujiCompressed;
use std::error::Error;

fn main() -> Result<(), Box<dyn Error>> {
    let names: Vec<String> = std::env::args().skip(1).collect();
    let [from, to] = names.as_slice() else { return Err("usage: decode STREAM PICTURE.pgm".into()) };
    let bytes = std::fs::read(from)?;
    let stream = FujiCompressed::new(&bytes)?;
    let threads = std::thread::available_parallelism().map_or(1, |n| n.get());
    let image = stream.decoder().threads(threads).decode()?;
    let h = stream.header;
    let mut picture = format!("P5\n{} {}\n{}\n", h.width, h.height, (1u32 << h.bits) - 1).into_bytes();
    picture.extend(image.iter().flat_map(|s| s.to_be_bytes()));
    std::fs::write(to, picture)?;
    Ok(())
}
