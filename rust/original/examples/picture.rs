//! Writes the samples of a stream's picture as the original decodes them, row after row, little-endian: `picture STREAM > SAMPLES`. The tile is RGGB for Bayer
//! and the usual one for X-Trans. python/tests/expected.json has the SHA-256 of what this writes for samples/.
use original::fuji_compressed::FujiCompressed;
use std::io::Write;

fn tile(xtrans: bool) -> [[u8; 6]; 6] {
    let rows = match xtrans {
        true => ["110112", "112110", "201021", "112110", "110112", "021201"],
        false => ["010101", "121212", "010101", "121212", "010101", "121212"],
    };
    rows.map(|row| std::array::from_fn(|i| row.as_bytes()[i] - b'0'))
}

fn main() {
    let name = std::env::args().nth(1).expect("usage: picture STREAM");
    let bytes = std::fs::read(name).expect("the stream cannot be read");
    let stream = FujiCompressed::new(&bytes).expect("the stream does not open");
    let (width, height) = (stream.header.width, stream.header.height);
    let mut image = vec![0u16; (width * height) as usize];
    stream.decode(&mut image, width, height, &tile(stream.header.xtrans), false).expect("the stream does not decode");
    let samples: Vec<u8> = image.iter().flat_map(|s| s.to_le_bytes()).collect();
    eprintln!("{width} {height}");
    std::io::stdout().write_all(&samples).expect("the samples cannot be written");
}
