//! Hive files: opened, locked and saved.

use crate::{new_hive, refused};
use std::error::Error;
use std::fs::{self, File, Permissions};
use std::os::unix::fs::{symlink, MetadataExt, PermissionsExt};
use std::path::{Path, PathBuf};
use std::sync::atomic::{AtomicU32, Ordering};
use std::{env, process};
use zugmeled::{Hive, Status};

/// A folder of a test, which is removed with what is in it.
struct Folder(PathBuf);

impl Folder {
    fn new() -> Folder {
        static COUNT: AtomicU32 = AtomicU32::new(0);
        let number = COUNT.fetch_add(1, Ordering::Relaxed);
        let path = env::temp_dir().join(format!("zugmeled-{}-{number}", process::id()));
        fs::create_dir(&path).unwrap();
        Folder(fs::canonicalize(path).unwrap())
    }

    fn path(&self, name: &str) -> PathBuf {
        self.0.join(name)
    }

    /// A hive file with the value "v", which is 1.
    fn hive(&self) -> PathBuf {
        let path = self.path("a.hive");
        let hive = new_hive();
        hive.root().unwrap().set("v", 1_u32).unwrap();
        hive.save_as(&path).unwrap();
        path
    }

    fn names(&self) -> Vec<String> {
        let entries = fs::read_dir(&self.0).unwrap();
        let mut names: Vec<String> = entries
            .map(|entry| entry.unwrap().file_name().into_string().unwrap())
            .collect();
        names.sort();
        names
    }
}

impl Drop for Folder {
    fn drop(&mut self) {
        let _ = fs::remove_dir_all(&self.0);
    }
}

fn v_of(path: &Path) -> u32 {
    let hive = Hive::load(&fs::read(path).unwrap()).unwrap();
    let value = hive.root().unwrap().get("v").unwrap();
    value.unwrap()
}

fn sequence_of(path: &Path) -> u8 {
    fs::read(path).unwrap()[4]
}

#[test]
fn a_file_is_opened_changed_and_saved() {
    let folder = Folder::new();
    let path = folder.hive();
    let hive = Hive::open(&path).unwrap();
    assert_eq!(hive.path(), Some(path.clone()));
    let root = hive.root().unwrap();
    for number in 2..4 {
        root.set("v", number).unwrap();
        assert_eq!(v_of(&path), number - 1);
        hive.save().unwrap();
        assert_eq!(v_of(&path), number);
        assert_eq!(u32::from(sequence_of(&path)), number);
    }
    assert_eq!(folder.names(), ["a.hive"]);
}

#[test]
fn one_at_a_time_edits_a_file() {
    let folder = Folder::new();
    let path = folder.hive();
    let hive = Hive::open(&path).unwrap();
    assert_eq!(refused(Hive::open(&path)), Status::SHARING_VIOLATION);
    hive.save().unwrap();
    assert_eq!(refused(Hive::open(&path)), Status::SHARING_VIOLATION);
    drop(hive);
    Hive::open(&path).unwrap();
}

#[test]
fn a_file_that_another_took_the_place_of_is_left() {
    let folder = Folder::new();
    let path = folder.hive();
    let hive = Hive::open(&path).unwrap();
    fs::remove_file(&path).unwrap();
    fs::write(&path, "another").unwrap();
    assert_eq!(refused(hive.save()), Status::SHARING_VIOLATION);
    assert_eq!(fs::read(&path).unwrap(), b"another");
    fs::remove_file(&path).unwrap();
    assert_eq!(refused(hive.save()), Status::FILE_NOT_FOUND);
    assert!(folder.names().is_empty());
}

#[test]
fn a_save_that_fails_leaves_the_file() {
    let folder = Folder::new();
    // Its name leaves no place for that of the file beside it.
    let path = folder.path(&"n".repeat(250));
    fs::rename(folder.hive(), &path).unwrap();
    let before = fs::read(&path).unwrap();
    let hive = Hive::open(&path).unwrap();
    hive.root().unwrap().set("v", 2_u32).unwrap();
    let error = hive.save().unwrap_err();
    assert_eq!(error.status(), Status::GEN_FAILURE);
    assert!(error.source().is_some());
    assert_eq!(fs::read(&path).unwrap(), before);
    assert_eq!(folder.names().len(), 1);
}

#[test]
fn a_file_that_was_left_beside_is_kept() {
    let folder = Folder::new();
    let path = folder.hive();
    fs::write(folder.path("a.hive.zugmeled-0"), "left").unwrap();
    Hive::open(&path).unwrap().save().unwrap();
    assert_eq!(folder.names(), ["a.hive", "a.hive.zugmeled-0"]);
    assert_eq!(fs::read(folder.path("a.hive.zugmeled-0")).unwrap(), b"left");
}

#[test]
fn permissions_and_owner_are_kept() {
    let folder = Folder::new();
    let path = folder.hive();
    fs::set_permissions(&path, Permissions::from_mode(0o640)).unwrap();
    let before = fs::metadata(&path).unwrap();
    Hive::open(&path).unwrap().save().unwrap();
    let after = fs::metadata(&path).unwrap();
    assert_ne!(before.ino(), after.ino());
    let told = [&before, &after].map(|data| (data.mode(), data.uid(), data.gid()));
    assert_eq!(told[0], told[1]);
}

#[test]
fn a_link_stays_one() {
    let folder = Folder::new();
    let path = folder.hive();
    let link = folder.path("link");
    symlink(&path, &link).unwrap();
    let hive = Hive::open(&link).unwrap();
    assert_eq!(hive.path(), Some(path.clone()));
    hive.root().unwrap().set("v", 2_u32).unwrap();
    hive.save().unwrap();
    assert!(fs::symlink_metadata(&link).unwrap().is_symlink());
    assert_eq!(v_of(&path), 2);
}

#[test]
fn another_file_is_made_anew_alone() {
    let folder = Folder::new();
    let path = folder.hive();
    let before = fs::read(&path).unwrap();
    let hive = new_hive();
    assert_eq!(refused(hive.save_as(&path)), Status::ALREADY_EXISTS);
    assert_eq!(fs::read(&path).unwrap(), before);
    assert_eq!(
        refused(hive.save_as(folder.path("none/a.hive"))),
        Status::FILE_NOT_FOUND
    );
    let error = hive.save().unwrap_err();
    assert_eq!(error.status(), Status::INVALID_HANDLE);
    assert!(error.source().is_none());
}

#[test]
fn a_hive_keeps_its_file_where_another_is_made() {
    let folder = Folder::new();
    let path = folder.hive();
    let hive = Hive::open(&path).unwrap();
    let copy = folder.path("copy.hive");
    hive.save_as(&copy).unwrap();
    assert_eq!(hive.path(), Some(path));
    assert_eq!(v_of(&copy), 1);
    Hive::open(&copy).unwrap();
}

#[test]
fn what_is_no_hive_file_is_refused() {
    let folder = Folder::new();
    assert_eq!(
        refused(Hive::open(folder.path("none"))),
        Status::FILE_NOT_FOUND
    );
    assert_eq!(refused(Hive::open(&folder.0)), Status::ACCESS_DENIED);
    let path = folder.path("no.hive");
    fs::write(&path, "no hive").unwrap();
    let error = Hive::open(&path).unwrap_err();
    assert_eq!(error.status(), Status::NOT_REGISTRY_FILE);
    assert!(error.fault().is_some());
    // No lock is left.
    File::open(&path).unwrap().try_lock().unwrap();
    assert_eq!(refused(Hive::open("/dev/null")), Status::GEN_FAILURE);
}

#[test]
fn an_error_is_told_in_words() {
    let error = Hive::open("none/none.hive").unwrap_err();
    assert_eq!(
        error.to_string(),
        "there is no such key, value or file (status 2)"
    );
    assert!(error.source().unwrap().to_string().contains("os error 2"));
}
