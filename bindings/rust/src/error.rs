//! Statuses, and the error that has one.

use crate::ffi;
use std::error;
use std::fmt;
use std::io::{self, ErrorKind};

/// What a call answers that may be refused.
pub type Result<T> = std::result::Result<T, Error>;

/// A status of Win32, by its number.
///
/// Those of the library have a name here, with the ones that files and conversions add.
#[derive(Clone, Copy, Debug, PartialEq, Eq, Hash)]
pub struct Status(pub u32);

impl Status {
    /// 2: there is no such key, value or file.
    pub const FILE_NOT_FOUND: Status = Status(ffi::FILE_NOT_FOUND);
    /// 5: the key lacks the right, or may not be deleted; or the system denies access to a file.
    pub const ACCESS_DENIED: Status = Status(ffi::ACCESS_DENIED);
    /// 6: the handle is invalid. A hive that has no file of its own answers it to a save.
    pub const INVALID_HANDLE: Status = Status(ffi::INVALID_HANDLE);
    /// 8: memory was refused.
    pub const NOT_ENOUGH_MEMORY: Status = Status(ffi::NOT_ENOUGH_MEMORY);
    /// 13: a value's data isn't of the type that was asked for.
    pub const INVALID_DATA: Status = Status(13);
    /// 19: the file system is mounted read-only.
    pub const WRITE_PROTECT: Status = Status(19);
    /// 31: the system refused a file for another reason, which is the error's source.
    pub const GEN_FAILURE: Status = Status(31);
    /// 32: somebody else edits the file, or just saved it.
    pub const SHARING_VIOLATION: Status = Status(32);
    /// 87: a session, a name, a path, rights, data, a descriptor or a filter that no call may have.
    pub const INVALID_PARAMETER: Status = Status(ffi::INVALID_PARAMETER);
    /// 112: the disk is full.
    pub const DISK_FULL: Status = Status(112);
    /// 122: the room is too short for the descriptor. This crate gives enough.
    pub const INSUFFICIENT_BUFFER: Status = Status(ffi::INSUFFICIENT_BUFFER);
    /// 170: keys are open.
    pub const BUSY: Status = Status(ffi::BUSY);
    /// 183: a file of that name is there.
    pub const ALREADY_EXISTS: Status = Status(ffi::ALREADY_EXISTS);
    /// 234: the room is too short for the answer. This crate gives enough.
    pub const MORE_DATA: Status = Status(ffi::MORE_DATA);
    /// 259: no more items are there. This crate answers `None`.
    pub const NO_MORE_ITEMS: Status = Status(ffi::NO_MORE_ITEMS);
    /// 1017: the bytes are no image that is loaded. The error has a [`Fault`].
    pub const NOT_REGISTRY_FILE: Status = Status(ffi::NOT_REGISTRY_FILE);
    /// 1018: the key was deleted.
    pub const KEY_DELETED: Status = Status(ffi::KEY_DELETED);
    /// 1450: a count is at its limit, or the hive has no room.
    pub const NO_SYSTEM_RESOURCES: Status = Status(ffi::NO_SYSTEM_RESOURCES);

    fn words(self) -> &'static str {
        match self {
            Status::FILE_NOT_FOUND => "there is no such key, value or file",
            Status::ACCESS_DENIED => "access is denied",
            Status::INVALID_HANDLE => "the handle is invalid",
            Status::NOT_ENOUGH_MEMORY => "memory was refused",
            Status::INVALID_DATA => "the data is of another type",
            Status::WRITE_PROTECT => "the file system is read-only",
            Status::GEN_FAILURE => "the system refused the file",
            Status::SHARING_VIOLATION => "somebody else edits the file, or just saved it",
            Status::INVALID_PARAMETER => "a parameter is invalid",
            Status::DISK_FULL => "the disk is full",
            Status::INSUFFICIENT_BUFFER => "the room is too short",
            Status::BUSY => "keys are open",
            Status::ALREADY_EXISTS => "it exists already",
            Status::MORE_DATA => "more data is there",
            Status::NO_MORE_ITEMS => "no more items are there",
            Status::NOT_REGISTRY_FILE => "it is no hive that is read",
            Status::KEY_DELETED => "the key was deleted",
            Status::NO_SYSTEM_RESOURCES => "a limit of the registry was met",
            _ => "the call was refused",
        }
    }
}

impl fmt::Display for Status {
    fn fmt(&self, text: &mut fmt::Formatter<'_>) -> fmt::Result {
        write!(text, "{} (status {})", self.words(), self.0)
    }
}

/// The first test of a load that fails, by its number, 2 to 13.
#[derive(Clone, Copy, Debug, PartialEq, Eq, Hash)]
pub struct Fault(pub u8);

impl Fault {
    fn words(self) -> &'static str {
        match self.0 {
            2 => "too short",
            3 => "signature",
            4 => "version",
            5 => "checksum",
            6 => "not written to its end",
            7 => "a bin",
            8 => "a cell",
            9 => "a record",
            10 => "a key below itself",
            11 => "a cell or a name twice",
            12 => "something that isn't supported",
            13 => "a limit",
            _ => "unknown",
        }
    }
}

impl fmt::Display for Fault {
    fn fmt(&self, text: &mut fmt::Formatter<'_>) -> fmt::Result {
        write!(text, "fault {}, {}", self.0, self.words())
    }
}

/// A call was refused. Its status tells why.
///
/// ```
/// # use zugmeled::{Hive, Status, EMPTY_SECURITY};
/// let hive = Hive::new("ROOT", &EMPTY_SECURITY)?;
/// let refused = hive.root()?.open("Software").unwrap_err();
/// assert_eq!(refused.status(), Status::FILE_NOT_FOUND);
/// # Ok::<(), zugmeled::Error>(())
/// ```
#[derive(Debug)]
pub struct Error {
    status: Status,
    fault: Option<Fault>,
    source: Option<io::Error>,
}

impl Error {
    /// The status. What the system refuses has one too.
    pub fn status(&self) -> Status {
        self.status
    }

    /// What is wrong with bytes that aren't loaded: with [`Status::NOT_REGISTRY_FILE`] alone.
    pub fn fault(&self) -> Option<Fault> {
        self.fault
    }
}

impl fmt::Display for Error {
    fn fmt(&self, text: &mut fmt::Formatter<'_>) -> fmt::Result {
        self.status.fmt(text)?;
        match self.fault {
            Some(fault) => write!(text, ": {fault}"),
            None => Ok(()),
        }
    }
}

impl error::Error for Error {
    /// What the system said, where it refused a file.
    fn source(&self) -> Option<&(dyn error::Error + 'static)> {
        self.source.as_ref().map(|source| source as _)
    }
}

impl From<Status> for Error {
    fn from(status: Status) -> Error {
        Error {
            status,
            fault: None,
            source: None,
        }
    }
}

impl From<io::Error> for Error {
    fn from(source: io::Error) -> Error {
        let status = match source.kind() {
            ErrorKind::NotFound => Status::FILE_NOT_FOUND,
            ErrorKind::PermissionDenied | ErrorKind::IsADirectory => Status::ACCESS_DENIED,
            ErrorKind::OutOfMemory => Status::NOT_ENOUGH_MEMORY,
            ErrorKind::ReadOnlyFilesystem => Status::WRITE_PROTECT,
            ErrorKind::StorageFull => Status::DISK_FULL,
            ErrorKind::AlreadyExists => Status::ALREADY_EXISTS,
            _ => Status::GEN_FAILURE,
        };
        Error {
            status,
            fault: None,
            source: Some(source),
        }
    }
}

/// Success, or the error of a status.
pub(crate) fn told(status: u32) -> Result<()> {
    match status {
        ffi::SUCCESS => Ok(()),
        other => Err(Status(other).into()),
    }
}

/// The same of a load, whose fault is 0 with each status but one.
pub(crate) fn loaded(status: u32, fault: u8) -> Result<()> {
    told(status).map_err(|error| Error {
        fault: (fault != 0).then_some(Fault(fault)),
        ..error
    })
}
