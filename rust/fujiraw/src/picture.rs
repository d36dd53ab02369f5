//! Pictures, and the forms in which they are written.
use crate::png;
use std::io::{Result, Write};
use std::path::Path;

pub struct Picture {
    pub width: u32,
    pub height: u32,
    pub bits: u32,
    pub samples: Vec<u16>,
}

#[derive(Clone, Copy, PartialEq, Eq)]
pub enum Format {
    Pgm,
    Png,
    Raw,
}

/// How a picture is to look: whole or small, and in which format.
pub struct Look {
    pub format: Format,
    pub preview: bool,
}

impl Format {
    pub fn of(name: &str) -> Option<Format> {
        match name {
            "pgm" => Some(Format::Pgm),
            "png" => Some(Format::Png),
            "raw" => Some(Format::Raw),
            _ => None,
        }
    }

    /// The format that an output's name asks for: pgm if it has no ending that means a picture.
    pub fn of_ending(out: &Path) -> std::result::Result<Format, String> {
        let ending = out.extension().map(|e| e.to_string_lossy().to_lowercase()).unwrap_or_default();
        let others = [
            "tif", "tiff", "jpg", "jpeg", "jxl", "bmp", "gif", "webp", "avif", "heic", "heif", "ppm", "pnm", "pdf", "dng", "raf", "fcs",
            "exr",
        ];
        if others.contains(&ending.as_str()) {
            return Err(format!("decode writes .png, .pgm and .raw, not .{ending}: change the name {}, or use --format", out.display()));
        }
        Ok(Format::of(&ending).unwrap_or(Format::Pgm))
    }

    pub fn extension(self) -> &'static str {
        match self {
            Format::Pgm => "pgm",
            Format::Png => "png",
            Format::Raw => "raw",
        }
    }
}

impl Look {
    /// The size of what is written of a picture.
    pub fn size(&self, picture: &Picture) -> (u32, u32) {
        if self.preview { small_size(picture) } else { (picture.width, picture.height) }
    }

    pub fn write(&self, picture: &Picture, out: &mut dyn Write) -> Result<()> {
        match (self.preview, self.format) {
            (true, Format::Png) => {
                let (width, height, small) = preview(picture);
                png::write(out, width, height, 8, 8, small.chunks(width as usize).map(<[u8]>::to_vec))
            }
            (true, _) => {
                let (width, height, small) = preview(picture);
                write!(out, "P5\n{width} {height}\n255\n")?;
                out.write_all(&small)
            }
            (false, Format::Pgm) => {
                write!(out, "P5\n{} {}\n{}\n", picture.width, picture.height, (1 << picture.bits) - 1)?;
                // Samples of 16 bits are big-endian there.
                picture.rows().try_for_each(|row| out.write_all(&bytes(row, u16::to_be_bytes)))
            }
            (false, Format::Png) => {
                // A sample's bits come first, so that the largest sample is nearly white.
                let up = 16 - picture.bits;
                let rows = picture.rows().map(|row| bytes(row, |v| (v << up).to_be_bytes()));
                png::write(out, picture.width, picture.height, 16, picture.bits as u8, rows)
            }
            (false, Format::Raw) => picture.rows().try_for_each(|row| out.write_all(&bytes(row, u16::to_le_bytes))),
        }
    }
}

impl Picture {
    fn rows(&self) -> impl Iterator<Item = &[u16]> {
        self.samples.chunks(self.width as usize)
    }
}

fn bytes(row: &[u16], of: impl Fn(u16) -> [u8; 2]) -> Vec<u8> {
    row.iter().flat_map(|v| of(*v)).collect()
}

fn small_size(picture: &Picture) -> (u32, u32) {
    (picture.width.div_ceil(6), picture.height.div_ceil(6))
}

/// The mean of each 6 by 6 samples, at the edges of those that are there, and the brightest mean white: its width,
/// height and samples.
fn preview(picture: &Picture) -> (u32, u32, Vec<u8>) {
    let (width, height) = small_size(picture);
    let mut sums = vec![(0u64, 0u64); width as usize * height as usize];
    for (y, row) in picture.rows().enumerate() {
        for (x, v) in row.iter().enumerate() {
            let (sum, n) = &mut sums[y / 6 * width as usize + x / 6];
            *sum += *v as u64;
            *n += 1;
        }
    }
    let means: Vec<u64> = sums.into_iter().map(|(sum, n)| sum / n).collect();
    let most = means.iter().copied().max().unwrap_or(0).max(1);
    (width, height, means.into_iter().map(|mean| (mean * 255 / most) as u8).collect())
}
