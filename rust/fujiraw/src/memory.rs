//! How many threads may work at a time, so that a run takes no more memory than the file, the picture and 64 MB.
use fuji_compressed::FujiHeader;
use std::sync::{Condvar, Mutex};

/// What is left of the 64 MB for the work itself.
const ROOM: u64 = 50_000_000;

#[cfg(target_env = "gnu")]
unsafe extern "C" {
    /// Of the system's own library: how it hands out memory.
    fn mallopt(what: std::ffi::c_int, value: std::ffi::c_int) -> std::ffi::c_int;
}

/// Large buffers are given back to the system as soon as they are freed. If nothing is said, the system's library
/// keeps those of each thread.
pub fn give_back() {
    #[cfg(target_env = "gnu")]
    {
        const FROM_THE_SYSTEM_ABOVE: std::ffi::c_int = -3;
        unsafe { mallopt(FROM_THE_SYSTEM_ABOVE, 1 << 20) };
    }
}

/// The bytes of a picture's samples.
pub fn picture(h: &FujiHeader) -> u64 {
    2 * h.width as u64 * h.height as u64
}

/// The bytes of a set of colour lines.
pub fn set(h: &FujiHeader) -> u64 {
    2 * h.set_size() as u64
}

/// As many threads as are wanted, if each takes `each` bytes and `more` than the room are free, and `used` are not.
pub fn threads(wanted: usize, more: u64, used: u64, each: u64) -> usize {
    let fit = (ROOM + more).saturating_sub(used) / each.max(1);
    wanted.min(usize::try_from(fit).unwrap_or(usize::MAX)).max(1)
}

/// Lets threads pass as long as what they take together fits in the room; one always passes.
pub struct Gate {
    held: Mutex<u64>,
    freed: Condvar,
}

pub struct Held<'g> {
    gate: &'g Gate,
    bytes: u64,
}

impl Gate {
    pub fn new() -> Gate {
        Gate { held: Mutex::new(0), freed: Condvar::new() }
    }

    pub fn take(&self, bytes: u64) -> Held<'_> {
        let held = self.held.lock().unwrap();
        let mut held = self.freed.wait_while(held, |held| *held > 0 && *held + bytes > ROOM).unwrap();
        *held += bytes;
        Held { gate: self, bytes }
    }
}

impl Drop for Held<'_> {
    fn drop(&mut self) {
        *self.gate.held.lock().unwrap() -= self.bytes;
        self.gate.freed.notify_all();
    }
}
