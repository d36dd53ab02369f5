//! How far the work is, on a terminal.
use std::io::{IsTerminal, Write};
use std::time::Instant;

/// A line on the terminal that is written over, or nothing where standard error is no terminal or nothing is to be
/// said.
pub struct Progress {
    shown: bool,
    start: Instant,
    what: String,
}

impl Progress {
    pub fn new(quiet: bool, what: String) -> Progress {
        Progress { shown: !quiet && std::io::stderr().is_terminal(), start: Instant::now(), what }
    }

    /// So many blocks of all are done, and so many samples.
    pub fn at(&self, done: usize, of: usize, samples: usize) {
        if !self.shown {
            return;
        }
        let seconds = self.start.elapsed().as_secs_f64();
        let rate = if seconds > 0.0 { samples as f64 / 1e6 / seconds } else { 0.0 };
        let _ = write!(std::io::stderr(), "\r\x1b[K{}: {done} of {of} blocks, {rate:.1} million samples a second", self.what);
    }

    /// Takes the line away, so that something else can be printed.
    pub fn clear(&self) {
        if self.shown {
            let _ = write!(std::io::stderr(), "\r\x1b[K");
        }
    }

    /// So many sheets of all are done.
    pub fn sheets(&self, done: usize, of: usize) {
        if self.shown {
            let _ = write!(std::io::stderr(), "\r\x1b[K{}: {done} of {of} sheets", self.what);
        }
    }
}

impl Drop for Progress {
    fn drop(&mut self) {
        self.clear();
    }
}
