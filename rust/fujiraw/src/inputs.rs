//! The files that a command is to read: those that are named, and those in folders that are named, however deep.
use crate::raf;
use std::fs::{self, File};
use std::io::Read;
use std::path::{Path, PathBuf};

/// A file to read.
pub struct Input {
    pub path: PathBuf,
    /// What it is called below the folder that was named; of a file that was named itself, its name.
    pub under: PathBuf,
    /// Why it is none: a folder that cannot be read, or that has no camera file or stream.
    pub broken: Option<String>,
}

/// All of them, folders in the order of names. The output's folder is not looked into, so that a second run does not
/// take what the first one made.
pub fn all(named: &[PathBuf], out: Option<&Path>) -> Vec<Input> {
    let out = out.and_then(|o| fs::canonicalize(o).ok());
    let mut list = vec![];
    for path in named {
        if !path.is_dir() {
            let under = if path == Path::new("-") { "stdin".into() } else { path.file_name().unwrap_or_default().into() };
            list.push(Input { path: path.clone(), under, broken: None });
            continue;
        }
        let before = list.len();
        walk(path, Path::new(""), out.as_deref(), &mut list);
        if list.len() == before {
            let broken = Some("no camera files or streams (.raf, .fcs) in this folder".to_string());
            list.push(Input { path: path.clone(), under: PathBuf::new(), broken });
        }
    }
    list
}

fn walk(folder: &Path, under: &Path, out: Option<&Path>, list: &mut Vec<Input>) {
    let mut names = match names(folder) {
        Ok(names) => names,
        Err(e) => {
            let broken = Some(format!("cannot read {}: {}", folder.display(), crate::files::plain(&e)));
            return list.push(Input { path: folder.to_path_buf(), under: under.to_path_buf(), broken });
        }
    };
    names.sort();
    for name in names {
        let (path, below) = (folder.join(&name), under.join(&name));
        // A link to a folder may lead back up.
        if fs::symlink_metadata(&path).is_ok_and(|m| m.is_dir()) {
            if out.is_none_or(|o| fs::canonicalize(&path).is_ok_and(|p| p != o)) {
                walk(&path, &below, out, list);
            }
        } else if path.is_file() && is_wanted(&path) {
            list.push(Input { path, under: below, broken: None });
        }
    }
}

/// The names in a folder that are not hidden.
fn names(folder: &Path) -> std::io::Result<Vec<std::ffi::OsString>> {
    let all: Result<Vec<_>, _> = fs::read_dir(folder)?.map(|e| e.map(|e| e.file_name())).collect();
    Ok(all?.into_iter().filter(|n| !n.as_encoded_bytes().starts_with(b".")).collect())
}

/// By its ending, so that a damaged one is not passed over, or by its first bytes.
fn is_wanted(path: &Path) -> bool {
    let ending = path.extension().map(|e| e.to_string_lossy().to_lowercase());
    if ending.is_some_and(|e| e == "raf" || e == "fcs") {
        return true;
    }
    let mut begin = vec![];
    let read = File::open(path).and_then(|f| f.take(16).read_to_end(&mut begin));
    read.is_ok() && (raf::is_raf(&begin) || fuji_compressed::FujiHeader::parse(&begin).is_ok())
}
