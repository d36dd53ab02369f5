//! A stream, by itself or in a camera file.
use crate::files::{load, name};
use crate::header_rules;
use crate::raf::{self, Raf, Unfit};
use crate::tile;
use fuji_compressed::{ColorTile, FujiCompressed, FujiHeader, HEADER_SIZE, Refusal};
use std::fs::File;
use std::io::Read;
use std::ops::Range;
use std::path::{Path, PathBuf};

/// Why a file is of no use.
#[derive(Clone, Copy, Debug, PartialEq, Eq)]
pub enum Trouble {
    /// There is no file, or no stream in it.
    Unreadable,
    /// There is a stream, and it is not whole.
    Damaged,
}

#[derive(Debug)]
pub struct Fault {
    pub trouble: Trouble,
    pub text: String,
}

impl From<Fault> for String {
    fn from(fault: Fault) -> String {
        fault.text
    }
}

impl From<String> for Fault {
    fn from(text: String) -> Fault {
        Fault { trouble: Trouble::Unreadable, text }
    }
}

pub struct Source {
    pub path: PathBuf,
    pub file: Vec<u8>,
    pub raf: Option<Raf>,
    range: Range<usize>,
}

impl Source {
    /// Loads a file and opens its stream.
    pub fn open(path: &Path) -> Result<Source, Fault> {
        Source::of(path, load(path)?)
    }

    /// The same of a file's bytes.
    pub fn of(path: &Path, file: Vec<u8>) -> Result<Source, Fault> {
        let (raf, range) = find(&file)?;
        let stream = &file[range.clone()];
        if let Err(refusal) = FujiCompressed::new(stream) {
            // A camera file whose stream is shorter than a header is cut off.
            let is_cut = refusal.number > 2 || refusal.number == 1 && raf.is_some();
            let trouble = if is_cut { Trouble::Damaged } else { Trouble::Unreadable };
            return Err(Fault { trouble, text: told(&refusal, stream, raf.as_ref()) });
        }
        Ok(Source { path: path.to_path_buf(), file, raf, range })
    }

    pub fn name(&self) -> String {
        name(&self.path)
    }

    pub fn bytes(&self) -> &[u8] {
        &self.file[self.range.clone()]
    }

    pub fn stream(&self) -> FujiCompressed<'_> {
        FujiCompressed::new(self.bytes()).expect("it opened before")
    }

    pub fn header(&self) -> FujiHeader {
        self.stream().header
    }

    /// The tile that was named, or that of the camera file, or the usual one.
    pub fn tile(&self, named: Option<ColorTile>) -> ColorTile {
        let xtrans = self.header().xtrans;
        let own = self.raf.as_ref().and_then(|r| r.tile).filter(|_| xtrans);
        named.or(own).unwrap_or(tile::usual(xtrans))
    }

    /// Where the tile comes from if none is named, in words.
    pub fn tile_origin(&self) -> &'static str {
        match &self.raf {
            Some(raf) if raf.tile.is_some() && self.header().xtrans => "(from the camera file)",
            _ => "(default)",
        }
    }

    /// How many bytes the stream has by its own sizes, whether or not they are there.
    pub fn own_length(&self) -> u64 {
        let ranges = self.stream().block_ranges();
        let front = ranges.first().map_or(0, |(offset, _)| *offset as u64);
        front + (0..ranges.len()).map(|b| self.size_of(b)).sum::<u64>()
    }

    /// The size that the stream names for a block.
    pub fn size_of(&self, block: usize) -> u64 {
        let at = HEADER_SIZE + 4 * block;
        let four = self.bytes().get(at..at + 4).and_then(|s| s.try_into().ok()).unwrap_or_default();
        u32::from_be_bytes(four) as u64
    }

    pub fn warnings(&self) -> Vec<String> {
        self.raf.as_ref().map_or(vec![], |raf| raf.warnings(&self.header(), self.own_length()))
    }
}

/// Where the stream lies in a file.
fn find(file: &[u8]) -> Result<(Option<Raf>, Range<usize>), Fault> {
    if raf::is_raf(file) {
        let found = raf::read(file)
            .map_err(|e| Fault { trouble: if e.is_cut() { Trouble::Damaged } else { Trouble::Unreadable }, text: e.to_string() })?;
        let range = found.stream.clone();
        return Ok((Some(found), range));
    }
    if let Some(other) = raf::maker(file) {
        return Err(Fault::from(format!("this is {other}, not a Fuji stream")));
    }
    Ok((None, 0..file.len()))
}

/// A refusal to open a stream, with what it goes by.
fn told(refusal: &Refusal, stream: &[u8], raf: Option<&Raf>) -> String {
    let there = stream.len();
    let more = match refusal.number {
        1 => format!("there are {there}"),
        2 if raf.is_some_and(Raf::has_plain_size) => return Unfit::Uncompressed(None).to_string(),
        2 => header_rules::broken(stream).unwrap_or_default(),
        _ => format!("the stream has {there} bytes, and is cut off before its first block"),
    };
    let place = raf.map_or(String::new(), |r| format!("the stream at byte {}: ", r.stream.start));
    format!("{place}{refusal}: {more}")
}

/// The first 16 bytes of a stream, or of the one in a camera file, and what they say.
pub fn header_of(path: &Path) -> Result<(Vec<u8>, FujiHeader), String> {
    let file = load(path)?;
    let (raf, range) = find(&file)?;
    let bytes = file[range].iter().copied().take(HEADER_SIZE).collect::<Vec<u8>>();
    let header = FujiHeader::parse(&bytes).map_err(|e| told(&e, &bytes, raf.as_ref()))?;
    Ok((bytes, header))
}

/// The file behind an open one, read again from its beginning.
pub fn reread(file: &mut File, path: &Path) -> Result<Source, String> {
    let mut bytes = vec![];
    file.read_to_end(&mut bytes).map_err(|e| format!("cannot read back {}: {}", path.display(), crate::files::plain(&e)))?;
    Source::of(path, bytes).map_err(String::from)
}
