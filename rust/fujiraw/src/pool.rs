//! Many sheets by several threads, a block at a time: also one large sheet keeps all processors busy, and few sheets
//! are in memory.
use crate::inputs::Input;
use crate::source::{Fault, Source};
use fuji_compressed::Scratch;
use std::collections::{BTreeMap, VecDeque};
use std::sync::mpsc::{self, Sender};
use std::sync::{Arc, Condvar, Mutex};
use std::thread;

/// So many bytes of files may be in memory beside the first two.
const ROOM: u64 = 40_000_000;

/// What is done with each block, and then with all that came of a sheet's blocks.
pub struct Work<B, S> {
    pub block: B,
    pub sheet: S,
}

struct Sheet<T> {
    source: Arc<Source>,
    found: Vec<Option<T>>,
    left: usize,
}

struct State<T> {
    /// The next file to load.
    next: usize,
    loading: usize,
    bytes: u64,
    jobs: VecDeque<(usize, usize)>,
    sheets: BTreeMap<usize, Sheet<T>>,
}

struct Shared<'p, T, R, B, S> {
    inputs: &'p [Input],
    work: &'p Work<B, S>,
    state: Mutex<State<T>>,
    changed: Condvar,
    told: Mutex<Sender<(usize, Result<R, Fault>)>>,
}

/// Reads all blocks of all inputs, and hands on what comes of each input, in their order.
pub fn run<T: Send, R: Send, B, S>(inputs: &[Input], threads: usize, work: &Work<B, S>, mut each: impl FnMut(&Input, Result<R, Fault>))
where
    B: Fn(&Source, usize, &mut Scratch) -> T + Sync,
    S: Fn(&Source, Vec<T>) -> R + Sync,
{
    let (tell, hear) = mpsc::channel();
    let state = State { next: 0, loading: 0, bytes: 0, jobs: VecDeque::new(), sheets: BTreeMap::new() };
    let shared = Shared { inputs, work, state: Mutex::new(state), changed: Condvar::new(), told: Mutex::new(tell) };
    let shared = Arc::new(shared);
    thread::scope(|scope| {
        let start = |_: &usize| {
            let shared = shared.clone();
            thread::Builder::new().spawn_scoped(scope, move || shared.go()).is_ok()
        };
        let started = (0..threads).filter(start).count();
        if started == 0 {
            shared.go();
        }
        // The last thread that ends closes the way, and this loop ends.
        drop(shared);
        let (mut waiting, mut next) = (BTreeMap::new(), 0);
        for (i, found) in hear {
            waiting.insert(i, found);
            while let Some(found) = waiting.remove(&next) {
                each(&inputs[next], found);
                next += 1;
            }
        }
    });
}

/// What a file is expected to take; of a pipe nobody knows.
fn size_of(input: &Input) -> u64 {
    std::fs::metadata(&input.path).map_or(0, |there| there.len())
}

enum Next {
    Block(usize, usize),
    /// A file, and how many bytes it is expected to have.
    Load(usize, u64),
    End,
}

impl<T: Send, R: Send, B, S> Shared<'_, T, R, B, S>
where
    B: Fn(&Source, usize, &mut Scratch) -> T + Sync,
    S: Fn(&Source, Vec<T>) -> R + Sync,
{
    fn go(&self) {
        let mut scratch = Scratch::new();
        loop {
            match self.next() {
                Next::Block(i, block) => self.block(i, block, &mut scratch),
                Next::Load(i, size) => self.load(i, size),
                Next::End => return,
            }
        }
    }

    /// Waits until there is something to do, or nothing is left.
    fn next(&self) -> Next {
        let mut state = self.state.lock().unwrap();
        loop {
            if let Some((i, block)) = state.jobs.pop_front() {
                return Next::Block(i, block);
            }
            let size = self.inputs.get(state.next).map(size_of);
            let is_room = |size: u64| state.sheets.len() + state.loading < 2 || state.bytes + size < ROOM;
            if let Some(size) = size.filter(|size| is_room(*size)) {
                state.next += 1;
                state.loading += 1;
                state.bytes += size;
                return Next::Load(state.next - 1, size);
            }
            if state.next == self.inputs.len() && state.loading == 0 {
                return Next::End;
            }
            state = self.changed.wait(state).unwrap();
        }
    }

    fn load(&self, i: usize, size: u64) {
        let input = &self.inputs[i];
        let opened = match &input.broken {
            Some(why) => Err(Fault::from(why.clone())),
            None => Source::open(&input.path),
        };
        let mut state = self.state.lock().unwrap();
        state.loading -= 1;
        state.bytes -= size;
        match opened {
            Ok(source) => {
                let blocks = source.header().blocks as usize;
                state.bytes += source.file.len() as u64;
                state.jobs.extend((0..blocks).map(|b| (i, b)));
                let found = (0..blocks).map(|_| None).collect();
                state.sheets.insert(i, Sheet { source: Arc::new(source), found, left: blocks });
            }
            Err(fault) => self.tell(i, Err(fault)),
        }
        self.changed.notify_all();
    }

    fn block(&self, i: usize, block: usize, scratch: &mut Scratch) {
        let source = self.state.lock().unwrap().sheets[&i].source.clone();
        let found = (self.work.block)(&source, block, scratch);
        let mut state = self.state.lock().unwrap();
        let sheet = state.sheets.get_mut(&i).expect("a sheet stays until its last block is done");
        sheet.found[block] = Some(found);
        sheet.left -= 1;
        if sheet.left > 0 {
            return;
        }
        let sheet = state.sheets.remove(&i).expect("it was there");
        drop(state);
        self.tell(i, Ok((self.work.sheet)(&source, sheet.found.into_iter().flatten().collect())));
        let bytes = source.file.len() as u64;
        drop((source, sheet.source));
        self.state.lock().unwrap().bytes -= bytes;
        self.changed.notify_all();
    }

    fn tell(&self, i: usize, found: Result<R, Fault>) {
        // The other end lives as long as this.
        let _ = self.told.lock().unwrap().send((i, found));
    }
}
