//! Writes the sample streams to the folder that the argument names.
use std::path::PathBuf;

fn main() {
    let folder = PathBuf::from(std::env::args_os().nth(1).expect("a folder to write to"));
    for (name, bytes) in make_samples::samples() {
        std::fs::write(folder.join(name), &bytes).expect("the stream cannot be written");
        println!("{name}: {} bytes", bytes.len());
    }
}
