//! Writes the tight stream of a stream, and reads it back first: `tighten STREAM OUT`
use fuji_compressed::{FujiCompressed, tighten_parallel};
use std::error::Error;

fn main() -> Result<(), Box<dyn Error>> {
    let names: Vec<String> = std::env::args().skip(1).collect();
    let [from, to] = names.as_slice() else { return Err("usage: tighten STREAM OUT".into()) };
    let bytes = std::fs::read(from)?;
    let stream = FujiCompressed::new(&bytes)?;
    let made = tighten_parallel(2, &bytes, &|| ())?;
    let master = FujiCompressed::new(&made)?;
    if master.decoder().decode()? != stream.decoder().decode()? {
        return Err("the tight stream shows another picture".into());
    }
    std::fs::write(to, &made)?;
    println!("{} bytes became {}", bytes.len(), made.len());
    Ok(())
}
