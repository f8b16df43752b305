//! Hive files of the Windows registry: opened, read, changed and saved.
//!
//! The crate calls the library `zugmeled` in your process, and needs nothing else. The calls behave
//! as those of the Win32 registry reference.
//!
//! ```
//! use zugmeled::{Hive, EMPTY_SECURITY};
//!
//! let hive = Hive::new("ROOT", &EMPTY_SECURITY)?;
//! let key = hive.root()?.create(r"Software\Zug")?;
//! key.set("Version", 4_u32)?;
//! key.set("Folders", ["C:\\A", "C:\\B"])?;
//! for value in key.values() {
//!     let (name, value) = value?;
//!     println!("{name} {}", value.kind);
//! }
//! # Ok::<(), zugmeled::Error>(())
//! ```
//!
//! [`Hive`] has makers, files, walks, the journal and notices; [`Key`] has what is done with keys
//! and values. What is refused is an [`Error`] with a [`Status`]. A hive is for one thread at a time,
//! and a [`Mutex`](std::sync::Mutex) shares it. The child of a process with threads may call
//! nothing here before it runs another program.

#![deny(unsafe_code)]

#[cfg(not(unix))]
compile_error!("zugmeled is for Unix: it keeps hive files by `flock` and their permissions");

mod error;
#[allow(unsafe_code)]
mod ffi;
mod file;
mod flags;
mod hive;
mod key;
mod moment;
#[allow(unsafe_code)]
mod raw;
mod value;
mod walk;

pub use error::{Error, Fault, Result, Status};
pub use flags::{Filter, Rights};
pub use hive::{Entries, Hive, Notice, Reason, Session, Watch, EMPTY_SECURITY};
pub use key::{Change, Created, Info, Key, Keys, SubKey, Values};
pub use moment::{Clock, Moment};
pub use value::{Kind, Value};
pub use walk::{Items, KeyRow, KeyWithValues, Step, Walk};

/// The version of the library that was linked: 10,000 a version, 100 a lower one, 1 a patch.
///
/// A hive is made or loaded by a library of this crate's version, or of a lower one that is later.
/// With another that panics.
pub fn library_version() -> u32 {
    ffi::zug_version()
}

/// The README's examples, which are tested.
#[cfg(doctest)]
#[doc = include_str!("../README.md")]
struct Readme;
