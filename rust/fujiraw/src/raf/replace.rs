//! A camera file with another stream in the place of its own: all other bytes stay, and the offsets and lengths that
//! this moves are put right.
use super::Raf;
use super::bytes::{Bytes, Directory, Tiff};
use std::ops::Range;

/// A number of four bytes that says where something lies: where the number stands, and from where it counts.
#[derive(Debug)]
struct Offset {
    at: u64,
    big: bool,
    base: u64,
}

/// The numbers of a file that a stream of another length can move.
#[derive(Debug)]
pub struct Fields {
    offsets: Vec<Offset>,
    /// Where the stream's length stands, and its byte order.
    pub length_at: Option<(u64, bool)>,
}

/// What stands before the new stream, and what behind it.
pub struct Replaced {
    pub head: Vec<u8>,
    pub tail: Vec<u8>,
}

impl Fields {
    /// The offsets of the file's own head. Those at 0x78 and 0x80 are there only if the small picture begins behind
    /// them.
    pub fn of(file: &[u8]) -> Fields {
        let jpeg = Bytes::big(file).four(0x54).unwrap_or(0);
        let places = [0x54, 0x5C, 0x64].into_iter().chain([0x78, 0x80].into_iter().filter(|at| *at < jpeg as u64));
        Fields { offsets: places.map(|at| Offset { at, big: true, base: 0 }).collect(), length_at: None }
    }

    /// Those of the raw data's directories.
    pub fn tiff(&mut self, tiff: &Tiff, directories: &[&Directory]) {
        let (base, big) = (tiff.base, tiff.bytes.big);
        let mut add = |at| self.offsets.push(Offset { at, big, base });
        add(base + 4);
        for directory in directories {
            directory.entries.iter().filter(|e| Tiff::is_elsewhere(e) || e.kind == 13 || e.tag == 0xF000).for_each(|e| add(e.at));
            add(directory.next_at);
        }
    }
}

impl Raf {
    /// What is replaced: as many bytes as the file names; if it names none, or if something else of the file lies
    /// among them, as many as the stream's own sizes make.
    fn old(&self, file: &[u8], own: u64) -> Range<usize> {
        let own = self.stream.len().min(usize::try_from(own).unwrap_or(usize::MAX));
        let own = self.stream.start..self.stream.start + own;
        let leads_into = |offset: &Offset| {
            let value = Bytes { all: file, big: offset.big }.four(offset.at).unwrap_or(0);
            let target = offset.base + value as u64;
            value > 0 && own.end as u64 <= target && target < self.stream.end as u64
        };
        match self.named {
            Some(named) if named > 0 && !self.fields.offsets.iter().any(leads_into) => self.stream.clone(),
            _ => own,
        }
    }

    /// The file around a stream of `length` bytes; `own` is how many bytes the sizes of the file's own stream make.
    pub fn around(&self, file: &[u8], own: u64, length: usize) -> Result<Replaced, String> {
        let old = self.old(file, own);
        let mut new = Replaced { head: file[..old.start].to_vec(), tail: file[old.end..].to_vec() };
        for offset in &self.fields.offsets {
            move_offset(&mut new, file, &old, offset, length)?;
        }
        match (self.named, self.fields.length_at) {
            (None | Some(0), _) => {}
            (Some(_), Some((at, big))) => new.put(&old, at, big, length as u64)?,
            (Some(_), None) => return Err("the file's tag 0xF008 has two bytes, and no other length can be put there".to_string()),
        }
        move_end(&mut new, file, &old, length)?;
        Ok(new)
    }
}

/// An offset that leads behind the stream leads to the same bytes again.
fn move_offset(new: &mut Replaced, file: &[u8], old: &Range<usize>, offset: &Offset, length: usize) -> Result<(), String> {
    let value = Bytes { all: file, big: offset.big }.four(offset.at).unwrap_or(0) as u64;
    let target = offset.base + value;
    // What leads past the end of the file is the offset of nothing.
    if value == 0 || target <= old.start as u64 || target > file.len() as u64 {
        return Ok(());
    }
    if target < old.end as u64 {
        return Err(format!("the offset at byte {} leads into the stream: no other stream can be put there", offset.at));
    }
    new.put(old, offset.at, offset.big, value - old.len() as u64 + length as u64)
}

/// The length of all raw data: what they have behind the stream stays. A length that ended within the stream, or past
/// the end of the file, becomes right.
fn move_end(new: &mut Replaced, file: &[u8], old: &Range<usize>, length: usize) -> Result<(), String> {
    let number = |at| Bytes::big(file).four(at).unwrap_or(0) as u64;
    let (start, named) = (number(0x64), number(0x68));
    if named == 0 {
        return Ok(());
    }
    let behind = (start + named).min(file.len() as u64).saturating_sub(old.end as u64);
    new.put(old, 0x68, true, old.start as u64 - start + length as u64 + behind)
}

impl Replaced {
    /// Puts a number where it stood, before or behind the stream.
    fn put(&mut self, old: &Range<usize>, at: u64, big: bool, value: u64) -> Result<(), String> {
        let value = u32::try_from(value).map_err(|_| "the file would pass 4 GiB, and its offsets have 32 bits".to_string())?;
        let bytes = if big { value.to_be_bytes() } else { value.to_le_bytes() };
        let at = at as usize;
        let place = match at.checked_sub(old.end) {
            Some(behind) => self.tail.get_mut(behind..behind + 4),
            None => self.head.get_mut(at..at + 4),
        };
        place.ok_or("a number that has to change lies inside the stream: no other stream can be put there")?.copy_from_slice(&bytes);
        Ok(())
    }
}
