//! A picture by several threads, one block's columns each. That this gives the picture rests on a proved statement: a region has the whole picture's
//! samples at its places (crates/theorem_regions/specs/Agreement.antt).
use crate::{ColorTile, FujiCompressed, Rect, Refusal, Result, Scratch};
use std::sync::Mutex;
use std::thread;

/// The columns of a block.
const COLUMNS: u32 = 768;

/// An entry for regions, the scratch that it takes, and how many rows of a truncated line it sets.
#[derive(Clone, Copy)]
struct Entry {
    call: fn(&FujiCompressed, &mut Scratch, &mut [u16], Rect, &ColorTile) -> Result<()>,
    scratch: fn() -> Scratch,
    cut_rows: usize,
}

const PLAIN: Entry = Entry {
    call: |stream, scratch, image, region, tile| stream.decode_region_with(scratch, image, region, tile),
    scratch: Scratch::new,
    cut_rows: 0,
};
const WINDOWED: Entry = Entry {
    call: |stream, scratch, image, region, tile| stream.decode_region_windowed_with(scratch, image, region, tile),
    scratch: Scratch::windowed,
    cut_rows: 6,
};

/// A block's part of the region, and where its rows go.
struct Part<'i> {
    region: Rect,
    rows: Vec<&'i mut [u16]>,
}

impl FujiCompressed<'_> {
    /// `decode` by so many threads, or one if 0 is named. The answer and the image are those of `decode`: all blocks are tried, the lowest that fails is
    /// named, and each keeps the rows before its failing line. Each thread has scratch of its own and room for one block's columns.
    ///
    /// ```
    /// use fuji_compressed::{ColorTile, FujiCompressed, write_block};
    ///
    /// // One line of six rows of Bayer samples, all of them 9.
    /// let header = [0x49, 0x53, 1, 0, 14, 0, 6, 3, 0, 3, 0, 3, 0, 1, 0, 1];
    /// let mut block = [0; 32256];
    /// let length = write_block(&header, &[9; 4608], &mut block)?;
    /// let stream = [&header[..], &(length as u32).to_be_bytes(), &[0; 12], &block[..length]].concat();
    /// let mut image = [0; 768 * 6];
    /// FujiCompressed::new(&stream)?.decode_parallel(4, &mut image, 768, 6, &ColorTile::default())?;
    /// assert!(image == [9; 768 * 6]);
    /// # Ok::<(), fuji_compressed::Refusal>(())
    /// ```
    pub fn decode_parallel(&self, threads: usize, image: &mut [u16], width: u32, height: u32, tile: &ColorTile) -> Result<()> {
        if (width, height) != (self.header.width, self.header.height) {
            return self.decode(image, width, height, tile);
        }
        self.decode_region_parallel(threads, image, Rect::new(0, 0, width, height), tile, &|| ())
    }

    /// `decode_region` by so many threads, in the same way. `done` is called after each block that the region touches.
    pub fn decode_region_parallel(
        &self,
        threads: usize,
        image: &mut [u16],
        region: Rect,
        tile: &ColorTile,
        done: &(dyn Fn() + Sync),
    ) -> Result<()> {
        self.by_threads(PLAIN, threads, image, region, tile, done)
    }

    /// `decode_region_windowed` by so many threads, in the same way.
    pub fn decode_region_windowed_parallel(
        &self,
        threads: usize,
        image: &mut [u16],
        region: Rect,
        tile: &ColorTile,
        done: &(dyn Fn() + Sync),
    ) -> Result<()> {
        self.by_threads(WINDOWED, threads, image, region, tile, done)
    }

    fn by_threads(
        &self,
        entry: Entry,
        threads: usize,
        image: &mut [u16],
        region: Rect,
        tile: &ColorTile,
        done: &(dyn Fn() + Sync),
    ) -> Result<()> {
        let serial = |image: &mut [u16]| (entry.call)(self, &mut (entry.scratch)(), image, region, tile);
        let size = region.width as usize * region.height as usize;
        if size == 0 || image.len() < size || !self.has(region) {
            return serial(image);
        }
        let parts = parts_of(&mut image[..size], region);
        let rooms = rooms(threads.clamp(1, parts.len()), region);
        if rooms.is_empty() {
            // There is no memory for a block's columns, and one thread needs none.
            return serial(image);
        }
        let (rooms, queue, lowest) = (Mutex::new(rooms.into_iter()), Mutex::new(parts.into_iter()), Mutex::new(None));
        let work = || {
            let room = rooms.lock().unwrap().next();
            if let Some(room) = room {
                self.work(entry, room, &queue, &lowest, tile, done);
            }
        };
        let count = rooms.lock().unwrap().len();
        // This thread only waits, if it can: where it works too, a new one may have to share its processor.
        thread::scope(|scope| {
            let has_thread = |_| count > 1 && thread::Builder::new().spawn_scoped(scope, work).is_ok();
            if (0..count).filter(|i| has_thread(*i)).count() == 0 {
                work();
            }
        });
        lowest.into_inner().unwrap().map_or(Ok(()), Err)
    }

    /// Takes parts until none is left.
    fn work<'i>(
        &self,
        entry: Entry,
        mut room: Vec<u16>,
        queue: &Mutex<impl Iterator<Item = Part<'i>>>,
        lowest: &Mutex<Option<Refusal>>,
        tile: &ColorTile,
        done: &(dyn Fn() + Sync),
    ) {
        let mut scratch = (entry.scratch)();
        loop {
            let Some(part) = queue.lock().unwrap().next() else { return };
            let width = part.region.width as usize;
            let columns = &mut room[..width * part.rows.len()];
            let answer = (entry.call)(self, &mut scratch, columns, part.region, tile);
            let rows_before = |line: usize| (6 * line + entry.cut_rows).saturating_sub(part.region.y as usize);
            let set = answer.map_or_else(|r| rows_before(r.line), |()| part.rows.len());
            part.rows.into_iter().zip(columns.chunks(width)).take(set).for_each(|(row, from)| row.copy_from_slice(from));
            if let Err(refusal) = answer {
                let mut lowest = lowest.lock().unwrap();
                *lowest = Some(lowest.map_or(refusal, |l: Refusal| if l.block < refusal.block { l } else { refusal }));
            }
            done();
        }
    }

    fn has(&self, region: Rect) -> bool {
        let inside = |from: u32, size: u32, all: u32| from.checked_add(size).is_some_and(|end| end <= all);
        inside(region.x, region.width, self.header.width) && inside(region.y, region.height, self.header.height)
    }
}

/// The region's part of each block that it touches, with the rows of the image that it fills.
fn parts_of(image: &mut [u16], region: Rect) -> Vec<Part<'_>> {
    let (first, last) = (region.x / COLUMNS, (region.x + region.width - 1) / COLUMNS);
    let mut parts: Vec<Part> = (first..=last)
        .map(|block| {
            let x = region.x.max(COLUMNS * block);
            let end = (region.x + region.width).min(COLUMNS * (block + 1));
            Part { region: Rect::new(x, region.y, end - x, region.height), rows: Vec::with_capacity(region.height as usize) }
        })
        .collect();
    for mut row in image.chunks_mut(region.width as usize) {
        for part in &mut parts {
            let (own, rest) = row.split_at_mut(part.region.width as usize);
            part.rows.push(own);
            row = rest;
        }
    }
    parts
}

/// Room for a block's columns for each thread, or for as many as there is memory for.
fn rooms(threads: usize, region: Rect) -> Vec<Vec<u16>> {
    let size = region.width.min(COLUMNS) as usize * region.height as usize;
    let room = |_| {
        let mut room = vec![];
        room.try_reserve_exact(size).ok()?;
        room.resize(size, 0);
        Some(room)
    };
    (0..threads).map_while(room).collect()
}
