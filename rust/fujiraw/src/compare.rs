//! Whether two files show the same picture.
use crate::calls::Compare;
use crate::check::Verdict;
use crate::files::{name, print};
use crate::json::Object;
use crate::memory;
use crate::source::{Fault, Source, Trouble};
use crate::tile;
use fuji_compressed::{ColorTile, Rect, Scratch};
use std::process::ExitCode;
use std::sync::Mutex;
use std::thread;

/// The first sample that differs, by row and then by column.
#[derive(Clone, Copy, PartialEq, Eq, PartialOrd, Ord)]
struct First {
    row: u32,
    column: u32,
    a: u16,
    b: u16,
}

/// What differs between two pictures of one size.
#[derive(Clone, Copy, Default)]
struct Differences {
    count: u64,
    first: Option<First>,
    greatest: u16,
}

enum Found {
    Compared(Differences),
    /// Another size, depth or tile: they are not compared sample by sample.
    Unlike(String),
}

pub fn compare(call: &Compare) -> Result<ExitCode, String> {
    let found = found(call);
    let status = match &found {
        Ok(Found::Compared(all)) if all.count == 0 => 0,
        Ok(_) => 1,
        Err(fault) => Verdict::of(fault).status(),
    };
    if call.json.0 {
        print(&(json(call, &found, status) + "\n"))?;
        return Ok(ExitCode::from(status));
    }
    match found {
        Err(fault) => crate::complain(&fault.text),
        Ok(found) if !call.quiet.0 => print(&words(call, &found))?,
        Ok(_) => {}
    }
    Ok(ExitCode::from(status))
}

fn found(call: &Compare) -> Result<Found, Fault> {
    let named = |file, fault: Fault| Fault { text: format!("{}: {}", name(file), fault.text), ..fault };
    let [a, b] = [&call.files[0], &call.files[1]].map(|file| Source::open(file).map_err(|e| named(file, e)));
    let (a, b) = (a?, b?);
    let (one, other) = (a.header(), b.header());
    if (one.width, one.height) != (other.width, other.height) {
        return Ok(Found::Unlike(format!("{} x {} samples, and {} x {}", one.width, one.height, other.width, other.height)));
    }
    if (one.bits, one.xtrans) != (other.bits, other.xtrans) {
        let of = |h: &fuji_compressed::FujiHeader| format!("{} {} bits", if h.xtrans { "X-Trans," } else { "Bayer," }, h.bits);
        return Ok(Found::Unlike(format!("{}, and {}", of(&one), of(&other))));
    }
    let (tile, second) = tiles(&a, &b, call.tile);
    if tile != second {
        return Ok(Found::Unlike(format!("tile {}, and tile {}", tile::name(&tile), tile::name(&second))));
    }
    by_blocks([&a, &b], &tile, call.threads).map(Found::Compared)
}

/// A stream by itself has no tile of its own, and takes that of the camera file beside it.
fn tiles(a: &Source, b: &Source, named: Option<ColorTile>) -> (ColorTile, ColorTile) {
    match (&a.raf, &b.raf) {
        (Some(_), None) => (a.tile(named), a.tile(named)),
        (None, Some(_)) => (b.tile(named), b.tile(named)),
        _ => (a.tile(named), b.tile(named)),
    }
}

/// The columns of one block at a time, so that no whole picture is in memory.
fn by_blocks(sources: [&Source; 2], tile: &ColorTile, threads: usize) -> Result<Differences, Fault> {
    let h = sources[0].header();
    let (next, all) = (Mutex::new(0..h.blocks), Mutex::new(Ok(Differences::default())));
    let work = || {
        let mut scratch = Scratch::new();
        loop {
            let Some(block) = next.lock().unwrap().next() else { return };
            let found = block_of(sources, tile, block, &mut scratch);
            let mut all = all.lock().unwrap();
            // Of several faults the lowest block's is told, whichever thread comes first.
            match (&mut *all, found) {
                (Ok(sum), Ok(found)) => sum.add(&found),
                (Err((lowest, _)), Err(_)) if *lowest < block => {}
                (all, Err(fault)) => *all = Err((block, fault)),
                (Err(_), Ok(_)) => {}
            }
        }
    };
    // Each thread has a block's columns of both.
    let second = sources[1].file.len() as u64;
    let threads = memory::threads(threads, memory::picture(&h), second, 4 * 768 * h.height as u64).min(h.blocks as usize);
    thread::scope(|scope| {
        let has_thread = |_| threads > 1 && thread::Builder::new().spawn_scoped(scope, work).is_ok();
        if (0..threads).filter(|i| has_thread(*i)).count() == 0 {
            work();
        }
    });
    all.into_inner().unwrap().map_err(|(_, fault)| fault)
}

fn block_of(sources: [&Source; 2], tile: &ColorTile, block: u32, scratch: &mut Scratch) -> Result<Differences, Fault> {
    let h = sources[0].header();
    let region = Rect::new(768 * block, 0, (h.width - 768 * block).min(768), h.height);
    let mut images = [vec![], vec![]];
    for (source, image) in sources.iter().zip(&mut images) {
        *image = crate::decode::room(region.width, region.height)?;
        let answer = source.stream().decode_region_with(scratch, image, region, tile);
        answer.map_err(|e| Fault { trouble: Trouble::Damaged, text: format!("{}: {e}", source.name()) })?;
    }
    let mut all = Differences::default();
    for (i, (a, b)) in images[0].iter().zip(&images[1]).enumerate().filter(|(_, (a, b))| a != b) {
        let (row, column) = (i as u32 / region.width, region.x + i as u32 % region.width);
        all.count += 1;
        all.first.get_or_insert(First { row, column, a: *a, b: *b });
        all.greatest = all.greatest.max(a.abs_diff(*b));
    }
    Ok(all)
}

impl Differences {
    fn add(&mut self, other: &Differences) {
        self.count += other.count;
        self.first = self.first.into_iter().chain(other.first).min();
        self.greatest = self.greatest.max(other.greatest);
    }
}

fn words(call: &Compare, found: &Found) -> String {
    let both = format!("{} and {}", name(&call.files[0]), name(&call.files[1]));
    match found {
        Found::Unlike(why) => format!("{both} differ: {why}\n"),
        Found::Compared(Differences { first: None, .. }) => format!("{both} show the same picture\n"),
        Found::Compared(Differences { count, first: Some(first), greatest }) => {
            let First { row, column, a, b } = first;
            let samples = crate::wording::count(*count as usize, "sample");
            format!("{both} differ in {samples}: first at row {row}, column {column}, {a} and {b}; the greatest difference is {greatest}\n")
        }
    }
}

/// One object; docs/USING.md says what its fields are.
fn json(call: &Compare, found: &Result<Found, Fault>, status: u8) -> String {
    let object = Object::new().text("a", &name(&call.files[0])).text("b", &name(&call.files[1])).field("status", status);
    match found {
        Err(fault) => object.text("error", &fault.text).end(),
        Ok(Found::Unlike(why)) => object.field("same", false).text("why", why).end(),
        Ok(Found::Compared(all)) => {
            let first =
                all.first.map(|f| Object::new().field("row", f.row).field("column", f.column).field("a", f.a).field("b", f.b).end());
            let object = object.field("same", all.count == 0).field("differing", all.count);
            object.maybe("first", first).field("greatest", all.greatest).end()
        }
    }
}
