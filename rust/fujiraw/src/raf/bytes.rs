//! Numbers and directories in bytes that nobody vouches for. Positions have 64 bits, and what lies past the end is
//! `None`.

/// Bytes, and the order of the numbers in them.
#[derive(Clone, Copy)]
pub struct Bytes<'b> {
    pub all: &'b [u8],
    pub big: bool,
}

impl<'b> Bytes<'b> {
    pub fn big(all: &'b [u8]) -> Bytes<'b> {
        Bytes { all, big: true }
    }

    pub fn part(&self, at: u64, length: u64) -> Option<&'b [u8]> {
        let (from, to) = (usize::try_from(at).ok()?, usize::try_from(at.checked_add(length)?).ok()?);
        self.all.get(from..to)
    }

    pub fn two(&self, at: u64) -> Option<u16> {
        let two = self.part(at, 2)?.try_into().ok()?;
        Some(if self.big { u16::from_be_bytes(two) } else { u16::from_le_bytes(two) })
    }

    pub fn four(&self, at: u64) -> Option<u32> {
        let four = self.part(at, 4)?.try_into().ok()?;
        Some(if self.big { u32::from_be_bytes(four) } else { u32::from_le_bytes(four) })
    }
}

/// A TIFF inside the bytes. Its offsets count from its own first byte.
#[derive(Clone, Copy)]
pub struct Tiff<'b> {
    pub bytes: Bytes<'b>,
    pub base: u64,
}

/// An entry of a TIFF's directory. `at` is where its value or offset stands, counted from the first of all bytes.
#[derive(Clone, Copy, Debug)]
pub struct Entry {
    pub tag: u16,
    pub kind: u16,
    pub count: u32,
    pub at: u64,
}

/// A directory: its entries, and where the offset of the next one stands.
pub struct Directory {
    pub entries: Vec<Entry>,
    pub next_at: u64,
}

impl Directory {
    pub fn find(&self, tag: u16) -> Option<&Entry> {
        self.entries.iter().find(|e| e.tag == tag)
    }
}

impl<'b> Tiff<'b> {
    /// The TIFF that begins here, in either order, if one does.
    pub fn at(all: &'b [u8], base: u64) -> Option<Tiff<'b>> {
        let big = match Bytes::big(all).part(base, 4)? {
            b"II*\0" => false,
            b"MM\0*" => true,
            _ => return None,
        };
        Some(Tiff { bytes: Bytes { all, big }, base })
    }

    /// The offset of its first directory.
    pub fn first(&self) -> Option<u32> {
        self.bytes.four(self.base.checked_add(4)?)
    }

    /// The directory at an offset, if all its entries are there.
    pub fn directory(&self, offset: u32) -> Option<Directory> {
        let at = self.base.checked_add(offset as u64)?;
        let count = self.bytes.two(at)? as u64;
        // 12 bytes an entry: no sum of these passes 64 bits.
        self.bytes.part(at + 2, 12 * count)?;
        let entries = (0..count).map(|i| self.entry(at + 2 + 12 * i)).collect::<Option<Vec<_>>>()?;
        Some(Directory { entries, next_at: at + 2 + 12 * count })
    }

    fn entry(&self, at: u64) -> Option<Entry> {
        let (tag, kind) = (self.bytes.two(at)?, self.bytes.two(at + 2)?);
        Some(Entry { tag, kind, count: self.bytes.four(at + 4)?, at: at + 8 })
    }

    /// The one number of an entry: a byte pair, four bytes, or the offset of a directory.
    pub fn number(&self, entry: &Entry) -> Option<u32> {
        match (entry.kind, entry.count) {
            (3, 1) => self.bytes.two(entry.at).map(u32::from),
            (4 | 13, 1) => self.bytes.four(entry.at),
            _ => None,
        }
    }

    /// The text of an entry, up to its first zero.
    pub fn text(&self, entry: &Entry) -> Option<String> {
        if entry.kind != 2 || entry.count > 4096 {
            return None;
        }
        let count = entry.count as u64;
        let at = if count <= 4 { entry.at } else { self.base.checked_add(self.bytes.four(entry.at)? as u64)? };
        Some(text(self.bytes.part(at, count)?))
    }

    /// Whether an entry's value lies elsewhere, so that its four bytes are an offset.
    pub fn is_elsewhere(entry: &Entry) -> bool {
        let size = match entry.kind {
            1 | 2 | 6 | 7 => 1,
            3 | 8 => 2,
            4 | 9 | 11 | 13 => 4,
            5 | 10 | 12 => 8,
            _ => return false,
        };
        size * entry.count as u64 > 4
    }
}

/// Text that zeros or blanks fill up. What is no letter, digit or sign becomes a question mark.
pub fn text(bytes: &[u8]) -> String {
    let bytes = bytes.split(|b| *b == 0).next().unwrap_or_default();
    let shown = |b: &u8| if (b' '..=b'~').contains(b) { *b as char } else { '?' };
    bytes.iter().map(shown).collect::<String>().trim().to_string()
}
