//! What is written goes to its place whole or not at all; what is there is not lost.
use crate::draft::Draft;
use crate::files::{is_standard, plain, to_standard};
use std::fs::{self, File};
use std::io::{self, BufWriter, Seek, Write};
use std::path::{Path, PathBuf};

/// Whether a file that is there may be replaced.
#[derive(Clone, Copy, PartialEq, Eq)]
pub struct Force(pub bool);

/// Where an output goes, after links.
enum Target {
    Standard,
    /// A pipe or a device, or an open file of a process: it is written to as it is.
    Special,
    /// A file, and the one that is there.
    File(PathBuf, Option<fs::Metadata>),
}

/// An output that was looked at before the work begins, so that no long work is in vain.
pub struct Output<'o> {
    out: &'o Path,
    target: Target,
    force: Force,
}

impl<'o> Output<'o> {
    /// Refused are a folder, a file that is read for this, one that is read-only, and one that is there if it may not
    /// be replaced.
    pub fn new(read: &[&Path], out: &'o Path, force: Force) -> Result<Output<'o>, String> {
        let refused = |why: &str| Err(format!("cannot write {}: {why}", out.display()));
        let target = target(out);
        let there = match &target {
            Target::File(_, Some(there)) => there,
            Target::Special if fs::metadata(out).is_ok_and(|m| m.is_dir()) => return refused("it is a folder"),
            _ => return Ok(Output { out, target, force }),
        };
        if there.is_dir() {
            return refused("it is a folder");
        }
        let whole = fs::canonicalize(out);
        if read.iter().any(|file| fs::canonicalize(file).is_ok_and(|f| whole.as_ref().is_ok_and(|t| f == *t))) {
            return refused("it is also an input");
        }
        if !force.0 {
            return refused("it already exists; use --force (-f) to replace it");
        }
        if there.permissions().readonly() {
            return refused("it is read-only");
        }
        Ok(Output { out, target, force })
    }

    pub fn is_standard(&self) -> bool {
        matches!(self.target, Target::Standard)
    }

    /// Whether what was written can be read again before it gets its name.
    pub fn can_be_read_back(&self) -> bool {
        matches!(self.target, Target::File(..))
    }

    pub fn write(self, put: impl FnOnce(&mut dyn Write) -> io::Result<()>) -> Result<(), String> {
        self.write_and_check(put, |_| Ok(()))
    }

    /// The same; a file is handed to `check` before it gets its name, and gets none if that fails.
    pub fn write_and_check(
        self,
        put: impl FnOnce(&mut dyn Write) -> io::Result<()>,
        check: impl FnOnce(&mut File) -> Result<(), String>,
    ) -> Result<(), String> {
        let failed = |e: io::Error| format!("cannot write {}: {}", self.out.display(), plain(&e));
        let (target, there) = match self.target {
            Target::Standard => return to_standard(put),
            Target::Special => return open_special(self.out).and_then(|file| fill(&file, put)).map_err(failed),
            Target::File(target, there) => (target, there),
        };
        let mut draft = Draft::new(target.parent().unwrap_or(Path::new(""))).map_err(failed)?;
        fill(&draft.file, put).map_err(failed)?;
        draft.file.rewind().map_err(failed)?;
        check(&mut draft.file)?;
        if let Some(there) = &there {
            draft.file.set_permissions(there.permissions()).map_err(failed)?;
        }
        draft.publish(&target, self.force.0).map_err(|e| match e.kind() {
            io::ErrorKind::AlreadyExists => {
                format!("cannot write {}: it already exists; use --force (-f) to replace it", self.out.display())
            }
            _ => failed(e),
        })
    }
}

fn fill(file: &File, put: impl FnOnce(&mut dyn Write) -> io::Result<()>) -> io::Result<()> {
    let mut out = BufWriter::new(file);
    put(&mut out)?;
    out.flush()
}

/// An open file of a process that is a plain one is written anew, as other programs do.
fn open_special(out: &Path) -> io::Result<File> {
    let is_file = fs::metadata(out)?.is_file();
    File::options().write(true).truncate(is_file).open(out)
}

fn target(out: &Path) -> Target {
    if is_standard(out) {
        return Target::Standard;
    }
    let mut path = out.to_path_buf();
    // As many links in a row as the system follows.
    for _ in 0..40 {
        if let Some(own) = descriptor(&path) {
            return if own && path.file_name() == Some("1".as_ref()) { Target::Standard } else { Target::Special };
        }
        let Ok(next) = fs::read_link(&path) else { break };
        path = path.parent().unwrap_or(Path::new("")).join(next);
    }
    match fs::metadata(&path) {
        Ok(there) if !there.is_file() && !there.is_dir() => Target::Special,
        there => Target::File(path, there.ok()),
    }
}

/// Whether a path names an open file of a process, as /dev/fd/3 does, and whether that is this process. Such a link
/// leads to no path that could be opened.
fn descriptor(path: &Path) -> Option<bool> {
    let folder = fs::canonicalize(path.parent()?).ok()?;
    if !(folder.starts_with("/proc") && folder.ends_with("fd")) {
        return None;
    }
    Some(fs::canonicalize("/proc/self/fd").is_ok_and(|own| own == folder))
}

#[cfg(test)]
mod tests {
    use super::*;
    use std::io::Read;

    /// A file that is found wrong gets no name, and the old one stays.
    #[test]
    fn what_is_found_wrong_gets_no_name() {
        let folder = std::env::temp_dir().join(format!("fujiraw-output-{}", std::process::id()));
        fs::create_dir_all(&folder).unwrap();
        let (old, new) = (folder.join("old"), folder.join("new"));
        fs::write(&old, b"old").unwrap();
        for out in [&old, &new] {
            let output = Output::new(&[], out, Force(true)).unwrap();
            let told = output.write_and_check(
                |o| o.write_all(b"text"),
                |file| {
                    let mut read = String::new();
                    file.read_to_string(&mut read).unwrap();
                    Err(format!("it has {read}"))
                },
            );
            assert_eq!(told, Err("it has text".to_string()));
        }
        assert_eq!((fs::read(&old).unwrap(), new.exists(), fs::read_dir(&folder).unwrap().count()), (b"old".to_vec(), false, 1));
        Output::new(&[], &new, Force(false)).unwrap().write_and_check(|o| o.write_all(b"text"), |_| Ok(())).unwrap();
        assert_eq!(fs::read(&new).unwrap(), b"text");
        fs::remove_dir_all(&folder).unwrap();
    }
}
