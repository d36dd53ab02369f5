//! The directory of metadata of a camera file: tags with their values in place, big-endian, without types.
use super::bytes::Bytes;
use super::{Crop, Size};
use fuji_compressed::ColorTile;

/// What of it is used. What is missing or malformed is `None`, and a warning where it matters.
#[derive(Default)]
pub struct Metadata {
    pub raw_size: Option<Size>,
    pub crop: Option<Crop>,
    pub tile: Option<ColorTile>,
    pub warnings: Vec<String>,
}

/// A directory of more entries is taken for none, as other readers do.
const MOST: u32 = 255;

impl Metadata {
    pub fn read(file: &[u8]) -> Metadata {
        let mut all = Metadata::default();
        let bytes = Bytes::big(file);
        let Some(start) = bytes.four(0x5C).filter(|at| *at > 0) else { return all };
        match bytes.four(start as u64) {
            Some(count) if count <= MOST => all.take(&bytes, start as u64 + 4, count),
            Some(count) => all.warnings.push(format!("the directory of metadata would have {count} entries: it is not used")),
            None => all.warnings.push("the directory of metadata is not in the file".to_string()),
        }
        all
    }

    fn take(&mut self, bytes: &Bytes, mut at: u64, count: u32) {
        let (mut corner, mut size) = (None, None);
        for _ in 0..count {
            let entry = || Some((bytes.two(at)?, bytes.part(at + 4, bytes.two(at + 2)? as u64)?));
            let Some((tag, value)) = entry() else {
                self.warnings.push("the directory of metadata passes the end of the file".to_string());
                break;
            };
            match tag {
                0x0100 => self.raw_size = two(value).map(|[height, width]| Size { width, height }),
                0x0110 => corner = two(value),
                0x0111 => size = two(value),
                0x0131 => self.take_tile(value),
                _ => {}
            }
            at += 4 + value.len() as u64;
        }
        if let (Some([top, left]), Some([height, width])) = (corner, size) {
            self.crop = Some(Crop { left, top, width, height });
        }
    }

    /// The colours are stored back to front.
    fn take_tile(&mut self, value: &[u8]) {
        let whole: Option<[u8; 36]> = value.try_into().ok().filter(|v: &[u8; 36]| v.iter().all(|c| *c <= 2));
        let Some(mut whole) = whole else {
            self.warnings.push("the file's colours (tag 0x0131) are not 36 numbers from 0 to 2: they are not used".to_string());
            return;
        };
        whole.reverse();
        let mut tile = ColorTile::default();
        tile.as_flattened_mut().copy_from_slice(&whole);
        self.tile = Some(tile);
    }
}

/// Two numbers of two bytes.
fn two(value: &[u8]) -> Option<[u32; 2]> {
    let [a, b, c, d]: [u8; 4] = value.try_into().ok()?;
    Some([u16::from_be_bytes([a, b]) as u32, u16::from_be_bytes([c, d]) as u32])
}
