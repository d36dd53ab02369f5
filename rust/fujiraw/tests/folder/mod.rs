//! A folder for the program to work in, and a small stream.
#![allow(dead_code)] // Each test program uses a part of it.
use common::stream::{Header, encoded};
use std::fs;
use std::path::PathBuf;
use std::process::{Command, Output};

/// A folder of the test's own, removed at its end.
pub struct Folder(pub PathBuf);

impl Folder {
    pub fn new(name: &str) -> Folder {
        let path = std::env::temp_dir().join(format!("fujiraw-{name}-{}", std::process::id()));
        fs::create_dir_all(&path).unwrap();
        Folder(path)
    }

    pub fn put(&self, name: &str, bytes: &[u8]) {
        fs::write(self.0.join(name), bytes).unwrap();
    }

    pub fn get(&self, name: &str) -> Vec<u8> {
        fs::read(self.0.join(name)).unwrap()
    }

    /// The names in a folder that belongs to another one, which removes it.
    pub fn names_only(self) -> Vec<String> {
        let names = self.names();
        std::mem::forget(self);
        names
    }

    pub fn names(&self) -> Vec<String> {
        let mut all: Vec<String> = fs::read_dir(&self.0).unwrap().map(|e| e.unwrap().file_name().into_string().unwrap()).collect();
        all.sort();
        all
    }

    pub fn run(&self, line: &str) -> Output {
        let words: Vec<&str> = line.split_whitespace().collect();
        Command::new(env!("CARGO_BIN_EXE_fujiraw")).args(words).current_dir(&self.0).output().unwrap()
    }

    /// Refused or failed, with one line that says so, and no file more.
    pub fn fails(&self, line: &str, says: &str) {
        let before = self.names();
        let out = self.run(line);
        assert_eq!((out.status.code(), text(&out.stderr)), (Some(1), format!("{says}\n")), "{line}");
        assert_eq!((text(&out.stdout), self.names()), (String::new(), before), "{line}");
    }

    pub fn works(&self, line: &str) -> String {
        let out = self.run(line);
        assert_eq!((out.status.code(), text(&out.stderr)), (Some(0), String::new()), "{line}");
        text(&out.stdout)
    }

    pub fn is_wrong(&self, line: &str, says: &str) {
        let before = self.names();
        let out = self.run(line);
        let said = text(&out.stderr);
        assert_eq!((out.status.code(), said.lines().next()), (Some(2), Some(format!("fujiraw: {says}").as_str())), "{line}");
        assert!(said.contains("usage: fujiraw "), "{line}");
        assert_eq!(self.names(), before, "{line}");
    }
}

impl Drop for Folder {
    fn drop(&mut self) {
        let _ = fs::remove_dir_all(&self.0);
    }
}

pub fn text(bytes: &[u8]) -> String {
    String::from_utf8_lossy(bytes).into_owned()
}

/// One block and two lines, 12 bits; every sample of a row's colour line has the same value.
pub fn stream() -> Vec<u8> {
    encoded(&Header::new(true, false, 12, 768, 2), &[], &mut |_, n, line, _| 100 * n as u16 + line as u16)
}

/// The picture's samples by the default tile, RGGB.
pub fn sample(x: usize, y: usize) -> u16 {
    let (n, row) = (y / 6, y % 6);
    let line = match (row % 2, x % 2) {
        (0, 0) => 2 + row / 2,
        (1, 1) => 15 + row / 2,
        _ => 7 + row,
    };
    100 * n as u16 + line as u16
}
