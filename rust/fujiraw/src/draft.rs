//! A file that gets its name when it is whole and on the disk. Until then it has no name, where the system can do
//! that, and else one by which a later run knows what a killed one left.
use std::ffi::{CString, c_char, c_int};
use std::fs::{self, File, OpenOptions, TryLockError};
use std::io;
use std::os::fd::AsRawFd;
use std::os::unix::ffi::OsStrExt;
use std::os::unix::fs::{MetadataExt, OpenOptionsExt};
use std::path::{Path, PathBuf};
use std::sync::atomic::{AtomicUsize, Ordering};

unsafe extern "C" {
    /// Of the system's own library: gives an open file a name. The standard library has no call for it.
    fn linkat(old_folder: c_int, old: *const c_char, new_folder: c_int, new: *const c_char, flags: c_int) -> c_int;
}

/// The flag of `open` for a file without a name (O_TMPFILE), where it is known.
const UNNAMED: Option<i32> = if cfg!(all(target_os = "linux", target_arch = "x86_64")) { Some(0o20_200_000) } else { None };
/// Paths of `linkat` count from the working folder, and links in the old one are followed.
const WORKING_FOLDER: c_int = -100;
const FOLLOW_LINKS: c_int = 0x400;

pub struct Draft {
    /// Locked as long as this run lives, so that no other one takes it for left over.
    pub file: File,
    folder: PathBuf,
    name: Option<PathBuf>,
}

impl Draft {
    /// A new file in a folder. What killed runs left there is removed.
    pub fn new(folder: &Path) -> io::Result<Draft> {
        let folder = if folder.as_os_str().is_empty() { PathBuf::from(".") } else { folder.to_path_buf() };
        sweep(&folder);
        if let Some(file) = unnamed(&folder) {
            // Nobody else can see it yet. Where there are no locks, nothing is swept either.
            let _ = file.try_lock();
            return Ok(Draft { file, folder, name: None });
        }
        let (file, name) = named(&folder)?;
        Ok(Draft { file, folder, name: Some(name) })
    }

    /// Brings the contents to the disk, gives the file its name, and brings the name to the disk. A file that is
    /// there is replaced at once or not at all, if it may be.
    pub fn publish(mut self, target: &Path, replace: bool) -> io::Result<()> {
        self.file.sync_all()?;
        match self.link(target) {
            Err(_) if replace && target.exists() => self.rename(target)?,
            linked => linked?,
        }
        // Some systems cannot sync a folder, and say that the call is not for it.
        File::open(&self.folder)?.sync_all().or_else(|e| if e.kind() == io::ErrorKind::InvalidInput { Ok(()) } else { Err(e) })
    }

    /// A name for the file that is not there yet.
    fn link(&mut self, target: &Path) -> io::Result<()> {
        let Some(part) = self.name.take() else { return link_open(&self.file, target) };
        let linked = match fs::hard_link(&part, target) {
            Ok(()) => fs::remove_file(&part),
            Err(e) if e.kind() == io::ErrorKind::AlreadyExists => Err(e),
            // A system without such links.
            Err(_) if !target.exists() => fs::rename(&part, target),
            Err(e) => Err(e),
        };
        if linked.is_err() {
            self.name = Some(part);
        }
        linked
    }

    /// Takes the place of a file that is there. A file has to have a name for that.
    fn rename(&mut self, target: &Path) -> io::Result<()> {
        let part = match self.name.take() {
            Some(part) => part,
            None => self.link_part()?,
        };
        fs::rename(self.name.insert(part), target)?;
        self.name = None;
        Ok(())
    }

    fn link_part(&self) -> io::Result<PathBuf> {
        loop {
            let part = part_name(&self.folder);
            match link_open(&self.file, &part) {
                Err(e) if e.kind() == io::ErrorKind::AlreadyExists => continue,
                linked => return linked.map(|()| part),
            }
        }
    }
}

impl Drop for Draft {
    fn drop(&mut self) {
        if let Some(part) = &self.name {
            let _ = fs::remove_file(part);
        }
    }
}

fn unnamed(folder: &Path) -> Option<File> {
    // The file is given a name through this folder.
    if !Path::new("/proc/self/fd").exists() {
        return None;
    }
    OpenOptions::new().read(true).write(true).custom_flags(UNNAMED?).open(folder).ok()
}

fn link_open(file: &File, target: &Path) -> io::Result<()> {
    let old = CString::new(format!("/proc/self/fd/{}", file.as_raw_fd()))?;
    let new = CString::new(target.as_os_str().as_bytes())?;
    match unsafe { linkat(WORKING_FOLDER, old.as_ptr(), WORKING_FOLDER, new.as_ptr(), FOLLOW_LINKS) } {
        0 => Ok(()),
        _ => Err(io::Error::last_os_error()),
    }
}

/// Short, whatever the output is called, and no other draft of this run has it.
fn part_name(folder: &Path) -> PathBuf {
    static COUNT: AtomicUsize = AtomicUsize::new(0);
    folder.join(format!(".fujiraw-{}-{}.part", std::process::id(), COUNT.fetch_add(1, Ordering::Relaxed)))
}

fn is_part(name: &str) -> bool {
    name.starts_with(".fujiraw-") && name.ends_with(".part")
}

/// A new locked file with a name.
fn named(folder: &Path) -> io::Result<(File, PathBuf)> {
    loop {
        let part = part_name(folder);
        let file = match OpenOptions::new().read(true).write(true).create_new(true).open(&part) {
            Err(e) if e.kind() == io::ErrorKind::AlreadyExists => continue,
            opened => opened?,
        };
        // Before it was locked another run may have taken it for left over, and removed it. Where there are no locks
        // no run does so.
        let lost = match file.try_lock() {
            Err(TryLockError::WouldBlock) => true,
            Err(TryLockError::Error(_)) => false,
            Ok(()) => !fs::metadata(&part).is_ok_and(|there| file.metadata().is_ok_and(|own| own.ino() == there.ino())),
        };
        if !lost {
            return Ok((file, part));
        }
    }
}

/// Removes drafts that no run holds. What cannot be removed stays.
fn sweep(folder: &Path) {
    let Ok(entries) = fs::read_dir(folder) else { return };
    for entry in entries.flatten().filter(|e| e.file_name().to_str().is_some_and(is_part)) {
        let Ok(file) = File::open(entry.path()) else { continue };
        if file.try_lock().is_ok() {
            let _ = fs::remove_file(entry.path());
        }
    }
}

#[cfg(test)]
mod tests {
    use super::*;
    use std::io::Write;

    fn folder(name: &str) -> PathBuf {
        let path = std::env::temp_dir().join(format!("fujiraw-draft-{name}-{}", std::process::id()));
        fs::create_dir_all(&path).unwrap();
        path
    }

    /// A draft with a name from its beginning, as on systems that know no other.
    fn with_name(folder: &Path) -> Draft {
        let (file, name) = named(folder).unwrap();
        Draft { file, folder: folder.to_path_buf(), name: Some(name) }
    }

    fn names(folder: &Path) -> Vec<String> {
        let mut all: Vec<String> = fs::read_dir(folder).unwrap().map(|e| e.unwrap().file_name().into_string().unwrap()).collect();
        all.sort();
        all
    }

    #[test]
    fn drafts_of_both_kinds_get_their_names() {
        let folder = folder("kinds");
        for new in [(|f| Draft::new(f).unwrap()) as fn(&Path) -> Draft, with_name] {
            let target = folder.join("out");
            let write = |text: &str| {
                let mut draft = new(&folder);
                draft.file.write_all(text.as_bytes()).unwrap();
                draft
            };
            write("one").publish(&target, false).unwrap();
            assert_eq!(write("two").publish(&target, false).unwrap_err().kind(), io::ErrorKind::AlreadyExists);
            assert_eq!(fs::read(&target).unwrap(), b"one");
            write("three").publish(&target, true).unwrap();
            assert_eq!(fs::read(&target).unwrap(), b"three");
            // One that is given up leaves nothing.
            drop(write("four"));
            assert_eq!(names(&folder), ["out"]);
            fs::remove_file(&target).unwrap();
            write("five").publish(&target, true).unwrap();
            assert_eq!(fs::read(&target).unwrap(), b"five");
            fs::remove_file(&target).unwrap();
        }
        fs::remove_dir_all(&folder).unwrap();
    }

    #[test]
    fn a_draft_that_is_held_is_not_swept() {
        let folder = folder("held");
        let draft = with_name(&folder);
        sweep(&folder);
        assert_eq!(names(&folder).len(), 1);
        // A run that is killed closes its files without removing anything.
        let Draft { file, name, .. } = &draft;
        let copy = name.clone().unwrap();
        file.unlock().unwrap();
        sweep(&folder);
        assert!(!copy.exists());
        drop(draft);
        fs::remove_dir_all(&folder).unwrap();
    }
}
