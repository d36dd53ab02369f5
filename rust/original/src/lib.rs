//! The original's `fuji_compressed.rs`, with `bits.rs`, `types.rs` and `par.rs` below it, unchanged, and stand-ins for what
//! its text lacks: the grid, the error, and `rayon`. `opened` is a copy of the same file with modules appended that reach its private functions.
#![allow(warnings)]

// The original's files name this crate as they find it in their own workspace.
extern crate self as flashraw_core;

include!(concat!(env!("OUT_DIR"), "/modules.rs"));

pub mod error;
mod grid;

pub use error::{Error, Result};
pub use types::Rect;

pub mod par {
    pub use crate::grid::{GridWriter, Tile};
    pub use crate::original_par::*;
    use std::sync::atomic::{AtomicUsize, Ordering};

    /// The original goes through `rayon` here, which is not part of this repository, and else runs one index after the other. In its place as many threads as
    /// there are processors take the next index each.
    pub fn for_each_index<F>(n: usize, parallel: bool, f: F)
    where
        F: Fn(usize) + Sync + Send,
    {
        if !parallel {
            return crate::original_par::for_each_index(n, false, f);
        }
        let threads = std::thread::available_parallelism().map_or(1, |p| p.get());
        let next = AtomicUsize::new(0);
        let work = || {
            loop {
                let i = next.fetch_add(1, Ordering::Relaxed);
                if i >= n {
                    return;
                }
                f(i);
            }
        };
        std::thread::scope(|scope| {
            for _ in 0..threads.min(n) {
                scope.spawn(&work);
            }
        });
    }
}
