//! Hive files: locked while they are edited, and written whole or not at all.
//!
//! The lock is the system's advisory one (`flock`), by which regtool and the Python binding keep
//! their files too.

use crate::error::{Error, Result, Status};
use std::ffi::OsString;
use std::fs::{self, File, Metadata, OpenOptions, Permissions, TryLockError};
use std::io::{ErrorKind, Read, Seek};
use std::os::unix::fs::{fchown, MetadataExt, OpenOptionsExt, PermissionsExt};
use std::path::{Path, PathBuf};

/// The bits of a mode that are rights, and those by which a program that is run has its file's
/// owner or group.
const MODE_BITS: u32 = 0o7777;

/// Of these, the bits that give a program its file's owner or group, and those that are a group's.
const RUNNER_BITS: u32 = 0o6000;
const GROUP_BITS: u32 = 0o070;

/// The mode of a file that its owner alone may open, and that of one that is made, less what the
/// program takes from all it makes.
const OWN_MODE: u32 = 0o600;
const MADE_MODE: u32 = 0o666;

/// A file that is open and locked, so that one at a time edits it.
pub struct HeldFile {
    path: PathBuf,
    file: File,
}

impl HeldFile {
    /// Opens a file and takes its lock. [`Status::SHARING_VIOLATION`] where somebody else has it,
    /// or just saved the file.
    pub fn open(path: &Path) -> Result<HeldFile> {
        // Links are followed now, so that a save replaces the file and no link to it.
        let path = fs::canonicalize(path)?;
        let file = OpenOptions::new().read(true).write(true).open(&path)?;
        let held = HeldFile { path, file };
        lock(&held.file)?;
        held.check()?;
        Ok(held)
    }

    /// The file's path, without links.
    pub fn path(&self) -> &Path {
        &self.path
    }

    /// The bytes of the file.
    pub fn read(&self) -> Result<Vec<u8>> {
        let mut file = &self.file;
        let mut bytes = Vec::new();
        file.rewind()?;
        file.read_to_end(&mut bytes)?;
        Ok(bytes)
    }

    /// Puts another file in this one's place, with its owner, group and permissions, but without
    /// an access list. After an error the file is as it was.
    pub fn replace(&mut self, write: impl FnOnce(&File) -> Result<()>) -> Result<()> {
        self.check()?;
        // Nobody but its owner may open it before it has the rights of the other.
        let (name, file) = create_beside(&self.path, OWN_MODE)?;
        if let Err(error) = self.fill_and_rename(&name, &file, write) {
            // What is reported is why the file wasn't saved.
            let _ = fs::remove_file(&name);
            return Err(error);
        }
        self.file = file;
        Ok(())
    }

    /// Has the system keep that another file was put in the place of the first.
    pub fn sync_folder(&self) -> Result<()> {
        sync_folder(&self.path)
    }

    fn fill_and_rename(
        &self,
        name: &Path,
        file: &File,
        write: impl FnOnce(&File) -> Result<()>,
    ) -> Result<()> {
        // The lock is taken before the name is, so that nobody comes between two saves.
        lock(file)?;
        permit(file, &self.file.metadata()?)?;
        write(file)?;
        file.sync_all()?;
        Ok(fs::rename(name, &self.path)?)
    }

    /// Tests that the file is a regular one, and that no other took its place since it was opened.
    fn check(&self) -> Result<()> {
        let own = self.file.metadata()?;
        if !own.is_file() {
            return Err(
                std::io::Error::new(ErrorKind::InvalidInput, "it is no regular file").into(),
            );
        }
        let standing = fs::metadata(&self.path)?;
        if (own.dev(), own.ino()) != (standing.dev(), standing.ino()) {
            return Err(Status::SHARING_VIOLATION.into());
        }
        Ok(())
    }
}

/// Makes a file, anew: [`Status::ALREADY_EXISTS`] where one is there.
///
/// It is written under another name, so that no part of it is found at its path, even where the
/// program is killed. After an error there is none. Only where the folder couldn't be synced it
/// stands there.
pub fn make(path: &Path, write: impl FnOnce(&File) -> Result<()>) -> Result<()> {
    // What decides is the move. This saves the writing, and comes before what else is refused.
    if fs::symlink_metadata(path).is_ok() {
        return Err(std::io::Error::from(ErrorKind::AlreadyExists).into());
    }
    let (name, file) = create_beside(path, MADE_MODE)?;
    let made = write(&file)
        .and_then(|()| Ok(file.sync_all()?))
        .and_then(|()| move_to_free(&name, path));
    if let Err(error) = made {
        // What is reported is why the file wasn't made.
        let _ = fs::remove_file(&name);
        return Err(error);
    }
    sync_folder(path)
}

/// Moves a file to a path where nothing is.
fn move_to_free(name: &Path, path: &Path) -> Result<()> {
    match fs::hard_link(name, path) {
        Ok(()) => {
            // The file stands where it should, also if it keeps the other name.
            let _ = fs::remove_file(name);
            Ok(())
        }
        Err(error) if error.kind() == ErrorKind::AlreadyExists => Err(error.into()),
        // Some file systems have no hard links.
        Err(_) => move_over_empty(name, path),
    }
}

/// The same without a link: an empty file takes the path, and the other one its place. A program
/// that is killed between the two leaves the empty one.
fn move_over_empty(name: &Path, path: &Path) -> Result<()> {
    File::create_new(path)?;
    if let Err(error) = fs::rename(name, path) {
        let _ = fs::remove_file(path);
        return Err(error.into());
    }
    Ok(())
}

fn lock(file: &File) -> Result<()> {
    file.try_lock().map_err(|refused| match refused {
        TryLockError::WouldBlock => Status::SHARING_VIOLATION.into(),
        TryLockError::Error(error) => Error::from(error),
    })
}

/// Makes a file beside a path, anew, with a mode.
fn create_beside(path: &Path, mode: u32) -> Result<(PathBuf, File)> {
    let mut number = 0_u64;
    loop {
        let mut name = OsString::from(path);
        name.push(format!(".zugmeled-{number}"));
        match OpenOptions::new()
            .write(true)
            .create_new(true)
            .mode(mode)
            .open(&name)
        {
            Ok(file) => return Ok((name.into(), file)),
            // Whoever left it: it isn't ours to write over.
            Err(error) if error.kind() == ErrorKind::AlreadyExists => number += 1,
            Err(error) => return Err(error.into()),
        }
    }
}

/// Gives a new file what another one has: its owner and group, as far as the system allows it, and
/// its permissions.
fn permit(file: &File, standing: &Metadata) -> Result<()> {
    let others = give_owner(file, standing)?;
    let mode = standing.mode() & MODE_BITS & !others;
    Ok(file.set_permissions(Permissions::from_mode(mode))?)
}

/// Gives a file an owner and a group. The answer are the bits of the mode that would give rights to
/// somebody else.
fn give_owner(file: &File, standing: &Metadata) -> Result<u32> {
    let own = file.metadata()?;
    let is_theirs = (own.uid(), own.gid()) == (standing.uid(), standing.gid());
    if is_theirs || fchown(file, Some(standing.uid()), Some(standing.gid())).is_ok() {
        return Ok(0);
    }
    match fchown(file, None, Some(standing.gid())) {
        Ok(()) => Ok(RUNNER_BITS),
        Err(_) => Ok(RUNNER_BITS | GROUP_BITS),
    }
}

/// Has the system keep the names in the folder of a path.
fn sync_folder(path: &Path) -> Result<()> {
    let folder = match path.parent() {
        Some(folder) if !folder.as_os_str().is_empty() => folder,
        _ => Path::new("."),
    };
    Ok(File::open(folder)?.sync_all()?)
}

#[cfg(test)]
mod tests {
    use super::*;
    use std::env;
    use std::io::Write;
    use std::process;

    /// Begins to write, and fails.
    fn fail(mut file: &File) -> Result<()> {
        file.write_all(b"begun")?;
        Err(Status::NOT_ENOUGH_MEMORY.into())
    }

    fn names(folder: &Path) -> Vec<OsString> {
        let entries = fs::read_dir(folder).unwrap();
        entries.map(|entry| entry.unwrap().file_name()).collect()
    }

    /// A folder of a test's own, which is removed behind it.
    fn in_folder(name: &str, test: impl FnOnce(&Path)) {
        let folder = env::temp_dir().join(format!("zugmeled-{name}-{}", process::id()));
        fs::create_dir(&folder).unwrap();
        test(&folder);
        fs::remove_dir_all(&folder).unwrap();
    }

    #[test]
    fn what_fails_leaves_no_file() {
        in_folder("fails", |folder| {
            let path = folder.join("a");
            let refused = make(&path, fail).unwrap_err();
            assert_eq!(refused.status(), Status::NOT_ENOUGH_MEMORY);
            assert!(names(folder).is_empty());
            fs::write(&path, "before").unwrap();
            let refused = HeldFile::open(&path).unwrap().replace(fail).unwrap_err();
            assert_eq!(refused.status(), Status::NOT_ENOUGH_MEMORY);
            assert_eq!(names(folder), ["a"]);
            assert_eq!(fs::read(&path).unwrap(), b"before");
        });
    }

    #[test]
    fn a_file_takes_its_path_once_it_is_whole() {
        in_folder("whole", |folder| {
            let path = folder.join("a");
            make(&path, |mut file| {
                file.write_all(b"begun")?;
                assert!(!path.exists());
                Ok(file.write_all(b", ended")?)
            })
            .unwrap();
            assert_eq!(fs::read(&path).unwrap(), b"begun, ended");
            assert_eq!(names(folder), ["a"]);
        });
    }

    #[test]
    fn a_file_that_is_there_is_kept() {
        in_folder("there", |folder| {
            let (path, name) = (folder.join("a"), folder.join("b"));
            fs::write(&path, "before").unwrap();
            let refused = make(&path, |_| panic!("nothing is written")).unwrap_err();
            assert_eq!(refused.status(), Status::ALREADY_EXISTS);
            let came = folder.join("c");
            let refused = make(&came, |_| Ok(fs::write(&came, "meanwhile")?)).unwrap_err();
            assert_eq!(refused.status(), Status::ALREADY_EXISTS);
            assert_eq!(fs::read(&came).unwrap(), b"meanwhile");
            fs::remove_file(&came).unwrap();
            assert_eq!(names(folder), ["a"]);
            fs::write(&name, "other").unwrap();
            let refused = move_over_empty(&name, &path).unwrap_err();
            assert_eq!(refused.status(), Status::ALREADY_EXISTS);
            assert_eq!(fs::read(&path).unwrap(), b"before");
        });
    }

    #[test]
    fn without_links_a_file_takes_its_path_too() {
        in_folder("links", |folder| {
            let (path, name) = (folder.join("a"), folder.join("b"));
            fs::write(&name, "whole").unwrap();
            move_over_empty(&name, &path).unwrap();
            assert_eq!(fs::read(&path).unwrap(), b"whole");
            assert_eq!(names(folder), ["a"]);
            let refused = move_over_empty(&name, &folder.join("c")).unwrap_err();
            assert_eq!(refused.status(), Status::FILE_NOT_FOUND);
            assert_eq!(names(folder), ["a"]);
        });
    }
}
