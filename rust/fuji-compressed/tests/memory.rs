//! What a decode needs beyond the image, the stream and the lent scratch: no heap, and a small stack.
use common::pictures::scene;
use common::random::Random;
use common::stream::{Header, encoded};
use fuji_compressed::{Camera, ColorTile, FujiCompressed, Quantisers, Record, Rect, Scratch};
use std::alloc::{GlobalAlloc, Layout, System};
use std::cell::Cell;

/// The stack that docs/PERFORMANCE.md states, in bytes, with that of the wrapper.
const STACK: usize = 16 * 1024;
const UNTOUCHED: u8 = 0xA5;

thread_local! {
    static ALLOCATIONS: Cell<u64> = const { Cell::new(0) };
}

struct Counting;

unsafe impl GlobalAlloc for Counting {
    unsafe fn alloc(&self, layout: Layout) -> *mut u8 {
        ALLOCATIONS.with(|n| n.set(n.get() + 1));
        unsafe { System.alloc(layout) }
    }

    unsafe fn dealloc(&self, memory: *mut u8, layout: Layout) {
        unsafe { System.dealloc(memory, layout) }
    }
}

#[global_allocator]
static COUNTING: Counting = Counting;

fn stream(xtrans: bool, lossy: bool) -> Vec<u8> {
    let header = Header::new(!lossy, xtrans, 14, 1536, 2);
    let rows = if lossy { vec![vec![1, 3]; 2] } else { vec![] };
    let mut random = Random::new(3);
    encoded(&header, &rows, &mut |_, n, line, p| scene(0, 16383, n, line, p, &mut random))
}

struct Job {
    bytes: Vec<u8>,
    image: Vec<u16>,
    scratch: Scratch,
    windows: Scratch,
    state: Vec<u8>,
    allocations: u64,
}

/// All entries, with the heap counted.
extern "C" fn decodes(job: &mut Job) {
    let tile = ColorTile::default();
    let before = ALLOCATIONS.with(Cell::get);
    let opened = FujiCompressed::new(&job.bytes).unwrap();
    opened.decode_with(&mut job.scratch, &mut job.image, 1536, 12, &tile).unwrap();
    opened.decode_region_with(&mut job.scratch, &mut job.image, Rect::new(700, 3, 100, 8), &tile).unwrap();
    opened.decode_region_windowed_with(&mut job.windows, &mut job.image, Rect::new(700, 3, 100, 8), &tile).unwrap();
    opened.store_checkpoint_with(&mut job.scratch, 1, 0, &mut job.state).answer.unwrap();
    opened.resume_region_with(&mut job.scratch, 1, &job.state, &mut job.image, Rect::new(700, 3, 100, 8), &tile).answer.unwrap();
    let (scratch, region) = (&mut job.scratch, Rect::new(700, 3, 100, 8));
    Quantisers::default().decode_region_with(Camera::One, scratch, &job.bytes, &mut job.image, region, &tile).0.unwrap();
    job.allocations = ALLOCATIONS.with(Cell::get) - before;
}

/// Runs the job on a stack of its own, and gives how many bytes of it were written.
fn stack_of(job: &mut Job) -> usize {
    let mut stack = vec![[UNTOUCHED; 16]; 1 << 14];
    let end = stack.as_mut_ptr_range().end;
    unsafe {
        std::arch::asm!(
            "mov r12, rsp",
            "mov rsp, {end}",
            "call {work}",
            "mov rsp, r12",
            end = in(reg) end,
            work = in(reg) decodes as extern "C" fn(&mut Job),
            in("rdi") job,
            out("r12") _,
            clobber_abi("C"),
        );
    }
    let untouched = stack.as_flattened().iter().take_while(|b| **b == UNTOUCHED).count();
    16 * stack.len() - untouched
}

#[test]
fn small_stack_and_no_heap() {
    for (xtrans, lossy) in [(false, false), (true, false), (false, true), (true, true)] {
        let bytes = stream(xtrans, lossy);
        let (scratch, windows) = (Scratch::new(), Scratch::windowed());
        let state = vec![0; FujiCompressed::new(&bytes).unwrap().header.checkpoint_size()];
        let mut job = Job { bytes, image: vec![0; 1536 * 12], scratch, windows, state, allocations: u64::MAX };
        let used = stack_of(&mut job);
        println!("X-Trans {xtrans}, lossy {lossy}: {used} bytes of stack, {} allocations", job.allocations);
        assert!(used > 0 && used <= STACK);
        assert_eq!(job.allocations, 0);
        assert!(job.image.iter().any(|v| *v != 0));
    }
}

fn bytes_of(scratch: &Scratch) -> usize {
    2 * scratch.samples.len() + size_of::<Record>() * scratch.records.len()
}

#[test]
fn scratch_in_bytes() {
    assert_eq!(bytes_of(&Scratch::new()), 21_192);
    assert_eq!(bytes_of(&Scratch::windowed()), 11_940);
}

/// The least scratch that windows are not refused with, by the kind of stream, in bytes; a sample less is refused by 10.
#[test]
fn least_scratch_for_windows() {
    for (xtrans, least) in [(false, 9_636), (true, 11_940)] {
        let bytes = stream(xtrans, false);
        let opened = FujiCompressed::new(&bytes).unwrap();
        let mut image = [0; 4];
        let mut answer = |samples: usize| {
            let mut scratch = Scratch { samples: vec![0; samples], records: vec![Record::default(); Scratch::RECORDS] };
            let said = opened.decode_region_windowed_with(&mut scratch, &mut image, Rect::new(0, 0, 2, 2), &ColorTile::default());
            (bytes_of(&scratch), said.map_err(|e| e.number))
        };
        let samples = (least - 8 * Scratch::RECORDS) / 2;
        assert_eq!(answer(samples), (least, Ok(())));
        assert_eq!(answer(samples - 1), (least - 2, Err(10)));
    }
}
