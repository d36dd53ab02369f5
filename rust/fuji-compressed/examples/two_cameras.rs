//! Reads two streams in turn with shared quantiser entries, and says how many entries are held: `two_cameras STREAM STREAM`
use fuji_compressed::{Camera, FujiCompressed, Quantisers, Rect};
use std::error::Error;

fn main() -> Result<(), Box<dyn Error>> {
    let names: Vec<String> = std::env::args().skip(1).collect();
    let [one, two] = names.as_slice() else { return Err("usage: two_cameras STREAM STREAM".into()) };
    let mut all = Quantisers::default();
    for (camera, name) in [(Camera::One, one), (Camera::Two, two)] {
        let bytes = std::fs::read(name)?;
        let stream = FujiCompressed::new(&bytes)?;
        let h = stream.header;
        let tile = if h.xtrans { FujiCompressed::XTRANS_TILE } else { FujiCompressed::BAYER_TILE };
        let mut image = vec![0; h.width as usize * h.height as usize];
        let (answer, after) = all.decode_region(camera, &bytes, &mut image, Rect::new(0, 0, h.width, h.height), &tile);
        answer?;
        all = after;
        println!("{name}: {} samples; the camera holds {}", image.len(), all.held(camera));
    }
    let all = all.end_stream(Camera::One).end_stream(Camera::Two);
    println!("held at the end: {}", all.held(Camera::One) + all.held(Camera::Two));
    Ok(())
}
