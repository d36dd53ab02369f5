//! Camera files of Fuji (RAF): where the compressed stream lies in the file's bytes, and what the file says of it.
//! Functions over bytes alone; no number of the file is trusted. docs/USING.md says in words what is read.
mod bytes;
mod directory;
mod makers;
mod replace;
#[cfg(test)]
mod tests;

use bytes::{Bytes, Directory, Tiff, text};
use directory::Metadata;
use fuji_compressed::{ColorTile, FujiHeader};
pub use makers::maker;
use std::fmt;
use std::ops::Range;

const SIGNATURE: &[u8; 16] = b"FUJIFILMCCD-RAW ";
/// The first two bytes of a stream.
const STREAM: [u8; 2] = [0x49, 0x53];

/// A size in samples.
#[derive(Clone, Copy, Debug, PartialEq, Eq)]
pub struct Size {
    pub width: u32,
    pub height: u32,
}

/// The part of the raw picture that the camera shows.
#[derive(Clone, Copy, Debug, PartialEq, Eq)]
pub struct Crop {
    pub left: u32,
    pub top: u32,
    pub width: u32,
    pub height: u32,
}

/// A camera file that has a compressed stream.
#[derive(Debug)]
pub struct Raf {
    /// Where the stream lies: as long as the file says, but not past the file's end.
    pub stream: Range<usize>,
    pub model: String,
    /// When the picture was taken, by the camera's clock: year-month-day hours:minutes:seconds.
    pub taken: Option<String>,
    /// The raw picture's size by the directory of metadata.
    pub raw_size: Option<Size>,
    pub crop: Option<Crop>,
    /// The sensor's colours, of X-Trans sensors alone.
    pub tile: Option<ColorTile>,
    /// What the raw data's own directory says: width, height and bits a sample.
    full: [Option<u32>; 3],
    /// The length that the file names, if it names one.
    named: Option<u32>,
    warnings: Vec<String>,
    fields: replace::Fields,
}

/// Why a camera file has no stream that could be read.
#[derive(Debug, PartialEq, Eq)]
pub enum Unfit {
    Spoilt,
    Short,
    NoRawData,
    Directory(&'static str),
    NoStream(u16),
    PastEnd(u64),
    Uncompressed(Option<u32>),
    NoSignature(u64, [u8; 2]),
}

impl Unfit {
    /// Whether something is missing that the file names.
    pub fn is_cut(&self) -> bool {
        matches!(self, Unfit::Short | Unfit::NoRawData | Unfit::Directory(_) | Unfit::PastEnd(_))
    }
}

impl fmt::Display for Unfit {
    fn fmt(&self, f: &mut fmt::Formatter) -> fmt::Result {
        let camera = "this is a Fuji camera file (RAF), ";
        match self {
            Unfit::Spoilt => write!(f, "this begins like a Fuji camera file (RAF), but its 16-byte signature is damaged"),
            Unfit::Short => write!(f, "{camera}but it is cut off within its first 108 bytes"),
            Unfit::NoRawData => {
                write!(f, "{camera}but the raw data that it names at byte 100 are not in the file: it is cut off or damaged")
            }
            Unfit::Directory(which) => {
                write!(f, "{camera}but {which} of its raw data passes the end of the file: it is cut off or damaged")
            }
            Unfit::NoStream(tag) => write!(f, "{camera}but its raw data have no usable tag 0x{tag:04X}, so that no stream is found"),
            Unfit::PastEnd(at) => write!(f, "{camera}but its stream would begin at byte {at}, past the end of the file: it is cut off"),
            Unfit::Uncompressed(bits) => {
                let bits = bits.map_or(String::new(), |b| format!(" of {b} bits"));
                write!(f, "{camera}and its samples{bits} are not compressed, so there is no stream to read")
            }
            Unfit::NoSignature(at, [a, b]) => {
                write!(f, "{camera}but no stream begins at byte {at}: the bytes there are {a:02X} {b:02X}, and streams begin with 49 53")
            }
        }
    }
}

/// Whether the bytes begin as such a file does; LibRaw goes by the first eight too.
pub fn is_raf(file: &[u8]) -> bool {
    file.starts_with(&SIGNATURE[..8])
}

/// Finds the stream of a camera file.
pub fn read(file: &[u8]) -> Result<Raf, Unfit> {
    if !file.starts_with(SIGNATURE) {
        return Err(Unfit::Spoilt);
    }
    let all = Bytes::big(file);
    let (Some(start), Some(named)) = (all.four(0x64), all.four(0x68)) else { return Err(Unfit::Short) };
    let start = start as u64;
    if start == 0 || all.part(start, 2).is_none() {
        return Err(Unfit::NoRawData);
    }
    let mut fields = replace::Fields::of(file);
    let (data, length_at) = match Tiff::at(file, start) {
        Some(tiff) => raw_data(&tiff, &mut fields)?,
        // The older form: the stream itself. Nobody reads the length at 0x68.
        None => (RawData { at: start, length: None, full: [None; 3] }, None),
    };
    fields.length_at = length_at;
    let begin = all.part(data.at, 2).ok_or(Unfit::PastEnd(data.at))?;
    if begin != STREAM {
        return Err(no_stream(&data, [begin[0], begin[1]], named));
    }
    // Both fit: the first bytes are there.
    let (from, there) = (data.at as usize, file.len() - data.at as usize);
    let length = data.length.filter(|n| *n > 0).map_or(there, |n| there.min(n as usize));
    let metadata = Metadata::read(file);
    let model = all.part(0x1C, 32).map(text).unwrap_or_default();
    Ok(Raf {
        stream: from..from + length,
        model,
        taken: taken(file),
        raw_size: metadata.raw_size,
        crop: metadata.crop,
        tile: metadata.tile,
        full: data.full,
        named: data.length,
        warnings: metadata.warnings,
        fields,
    })
}

/// Where the samples or the stream lie, and what is said of them.
struct RawData {
    at: u64,
    length: Option<u32>,
    full: [Option<u32>; 3],
}

/// Goes through the two directories of the raw data, and gives also where the length stands.
fn raw_data(tiff: &Tiff, fields: &mut replace::Fields) -> Result<(RawData, Option<(u64, bool)>), Unfit> {
    let first = tiff.first().and_then(|offset| tiff.directory(offset)).ok_or(Unfit::Directory("the first directory"))?;
    let second = first.find(0xF000).and_then(|e| tiff.number(e)).ok_or(Unfit::NoStream(0xF000))?;
    let second = tiff.directory(second).ok_or(Unfit::Directory("the second directory"))?;
    let number = |tag: u16| second.find(tag).and_then(|e| tiff.number(e));
    let offset = number(0xF007).ok_or(Unfit::NoStream(0xF007))?;
    let full = [number(0xF001), number(0xF002), number(0xF003)];
    fields.tiff(tiff, &[&first, &second]);
    let length_at = second.find(0xF008).filter(|e| tiff.number(e).is_some() && e.kind == 4).map(|e| (e.at, tiff.bytes.big));
    Ok((RawData { at: tiff.base + offset as u64, length: number(0xF008), full }, length_at))
}

/// Why the bytes that should be a stream are none: most often they are samples.
fn no_stream(data: &RawData, begin: [u8; 2], named: u32) -> Unfit {
    let [width, height, bits] = data.full;
    let length = data.length.unwrap_or(named) as u64;
    let is_plain = |w: u32, h: u32| [12, 14, 16].iter().any(|bits| length.checked_mul(8) == Some(w as u64 * h as u64 * bits));
    match (width, height) {
        (Some(w), Some(h)) if !is_plain(w, h) => Unfit::NoSignature(data.at, begin),
        _ => Unfit::Uncompressed(bits),
    }
}

/// When the picture was taken, by the Exif part of the camera's own small picture.
fn taken(file: &[u8]) -> Option<String> {
    let jpeg = Bytes::big(file).four(0x54)? as u64;
    let tiff = Tiff::at(file, jpeg + 12)?;
    let first = tiff.directory(tiff.first()?)?;
    let exif = |d: &Directory| tiff.directory(tiff.number(d.find(0x8769)?)?);
    let original = exif(&first).and_then(|d| tiff.text(d.find(0x9003)?));
    let text = original.or_else(|| tiff.text(first.find(0x0132)?)).filter(|t| is_date(t))?;
    // Other programs read a date with dashes.
    Some(text.replacen(':', "-", 2))
}

/// 2026:11:17 23:10:05, digits and signs in their places, as cameras write it.
fn is_date(text: &str) -> bool {
    let like = |(a, b): (u8, u8)| if b == b'0' { a.is_ascii_digit() } else { a == b };
    text.len() == 19 && text.bytes().zip(*b"0000:00:00 00:00:00").all(like)
}

impl Raf {
    /// What the file says otherwise than the stream's own header, which decides; `own` is how many bytes the stream's
    /// sizes make.
    pub fn warnings(&self, h: &FujiHeader, own: u64) -> Vec<String> {
        let mut all = self.warnings.clone();
        let mut differs = |what: &str, said: Option<u32>, is: u32| {
            if let Some(said) = said.filter(|said| *said != is) {
                all.push(format!("the file says {what} {said}, the stream {is}: the stream decides"));
            }
        };
        differs("width (tag 0xF001)", self.full[0], h.width);
        differs("height (tag 0xF002)", self.full[1], h.height);
        differs("bits (tag 0xF003)", self.full[2], h.bits);
        differs("raw width (tag 0x0100)", self.raw_size.map(|s| s.width), h.width);
        differs("raw height (tag 0x0100)", self.raw_size.map(|s| s.height), h.height);
        let there = self.stream.len() as u64;
        match self.named.map(u64::from) {
            Some(named) if named > there => {
                all.push(format!("the file says {named} bytes of stream (tag 0xF008) and has {there}: it is cut off"))
            }
            Some(named) if named != 0 && named < own => {
                all.push(format!("the file says {named} bytes of stream (tag 0xF008), the stream's own sizes make {own}: it is cut there"));
            }
            _ => {}
        }
        if let Some(crop) = self.crop.filter(|c| !c.is_inside(h)) {
            all.push(format!("the crop {crop} passes the edge of the stream's {} x {} samples", h.width, h.height));
        }
        match (h.xtrans, self.tile) {
            (true, None) => all.push("the file names no colours (tag 0x0131): the usual X-Trans tile is taken".to_string()),
            (false, Some(_)) => all.push("the file names X-Trans colours (tag 0x0131), but the stream is Bayer: rggb is taken".to_string()),
            _ => {}
        }
        all
    }

    /// Whether the length that the file names is that of samples which are not compressed.
    pub fn has_plain_size(&self) -> bool {
        let [Some(width), Some(height), _] = self.full else { return false };
        let samples = width as u64 * height as u64;
        self.named.is_some_and(|n| [12, 14, 16].iter().any(|bits| samples * bits == 8 * n as u64))
    }
}

impl Crop {
    fn is_inside(&self, h: &FujiHeader) -> bool {
        let inside = |from: u32, size: u32, all: u32| from as u64 + size as u64 <= all as u64;
        inside(self.left, self.width, h.width) && inside(self.top, self.height, h.height)
    }
}

impl fmt::Display for Crop {
    fn fmt(&self, f: &mut fmt::Formatter) -> fmt::Result {
        write!(f, "{} x {} at column {}, row {}", self.width, self.height, self.left, self.top)
    }
}
