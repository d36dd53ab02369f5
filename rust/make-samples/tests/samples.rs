//! The streams in the folder samples are what this program makes, and their pictures are the page.
use fuji_compressed::FujiCompressed;
use make_samples::{BAYER, LINES, Tile, WIDTH, XTRANS, light, samples};
use std::path::Path;

fn stream(name: &str) -> Vec<u8> {
    std::fs::read(Path::new(env!("CARGO_MANIFEST_DIR")).join("../../samples").join(name)).unwrap()
}

#[test]
fn files_are_what_is_made() {
    for (name, bytes) in samples() {
        assert!(bytes == stream(name), "samples/{name} is another stream: run make-samples again");
        assert!(bytes.len() < 100_000);
    }
}

/// Each sample is as near to the light as the stream is to be.
fn near(name: &str, tile: &Tile, most: u16) {
    let bytes = stream(name);
    let opened = FujiCompressed::new(&bytes).unwrap();
    let (width, height) = (WIDTH as usize, 6 * LINES as usize);
    let mut image = vec![0; width * height];
    opened.decode(&mut image, width as u32, height as u32, tile).unwrap();
    for (i, sample) in image.iter().enumerate() {
        let want = light((i % width) as i64, (i / width) as i64);
        assert!(sample.abs_diff(want) <= most, "{name}: sample {i} is {sample}, and {want} is wanted");
    }
}

#[test]
fn lossless_picture_is_the_page() {
    near("bayer.fcs", &BAYER, 0);
}

#[test]
fn lossy_picture_is_near_the_page() {
    near("xtrans.fcs", &XTRANS, 2);
}
