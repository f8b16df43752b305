//! Hives, and their sessions.

use crate::error::{Error, Result, Status};
use crate::ffi;
use crate::file::{self, HeldFile};
use crate::flags::Rights;
use crate::key::Key;
use crate::moment::Clock;
use crate::raw::{Asked, Handle, Stamp, Words};
use crate::value::Value;
use crate::walk::{self, Items, KeyRow, KeyWithValues, Walk};
use std::cell::{Cell, RefCell};
use std::fmt;
use std::io::Write;
use std::path::{Path, PathBuf};

/// A security descriptor without owner, group and lists.
pub const EMPTY_SECURITY: [u8; 20] = [
    1, 0, 4, 0x80, 0, 0, 0, 0, 0, 0, 0, 0, 0, 0, 0, 0, 0, 0, 0, 0,
];

/// How much of an image is written at once, in bytes.
const PART: u64 = 1 << 20;

/// A hive in memory: a tree of keys. It is freed when it is dropped, and what wasn't saved is lost
/// then.
///
/// All calls but [`Hive::cut`] borrow it shared, so any number of keys may be open while it changes.
/// It is [`Send`] and not [`Sync`], since the library takes one call at a time. Threads share it in
/// a [`Mutex`](std::sync::Mutex). A key borrows the hive, so it is dropped before the lock is given
/// back.
///
/// ```compile_fail,E0277
/// fn share<T: Sync>() {}
/// share::<zugmeled::Hive>();
/// ```
///
/// ```compile_fail,E0505
/// # use zugmeled::{Hive, EMPTY_SECURITY};
/// let hive = Hive::new("ROOT", &EMPTY_SECURITY).unwrap();
/// let root = hive.root().unwrap();
/// drop(hive);
/// drop(root);
/// ```
pub struct Hive {
    words: Words,
    clock: Cell<Clock>,
    /// The sequence number of the image that the hive was loaded from, or last saved as.
    sequence: Cell<u32>,
    file: RefCell<Option<HeldFile>>,
}

impl Hive {
    /// Makes a hive of one root, with a name and a security descriptor of 1 to 65,535 bytes, which
    /// is kept as it is. It has no file.
    ///
    /// # Errors
    /// [`Status::INVALID_PARAMETER`] where no key may have the name, or the descriptor is empty or
    /// too long; [`Status::NOT_ENOUGH_MEMORY`].
    pub fn new(root_name: &str, security: &[u8]) -> Result<Hive> {
        Hive::with_clock(root_name, security, Clock::System)
    }

    /// The same with another clock, which tells the moment of the root's making too.
    ///
    /// # Errors
    /// As of [`Hive::new`].
    pub fn with_clock(root_name: &str, security: &[u8], clock: Clock) -> Result<Hive> {
        let words = Words::new(root_name.as_bytes(), security, clock.moment().0)?;
        Ok(Hive::of(words, 0, clock, None))
    }

    /// Loads a hive from the image at the front of some bytes. It has no file.
    ///
    /// With [`std::fs::read`] a file is read that isn't to be saved, and needs no lock.
    ///
    /// # Errors
    /// [`Status::NOT_REGISTRY_FILE`], with the [`Fault`](crate::Fault), where they are no image
    /// that is loaded; [`Status::NOT_ENOUGH_MEMORY`].
    pub fn load(bytes: &[u8]) -> Result<Hive> {
        let words = Words::load(bytes)?;
        Ok(Hive::of(words, sequence_of(bytes), Clock::System, None))
    }

    /// Loads the hive of a file, and keeps the file's lock until the hive is dropped.
    ///
    /// # Errors
    /// [`Status::SHARING_VIOLATION`] where somebody else edits the file. As of [`Hive::load`]; or
    /// what the system says of the file, such as [`Status::FILE_NOT_FOUND`] and
    /// [`Status::ACCESS_DENIED`].
    pub fn open(path: impl AsRef<Path>) -> Result<Hive> {
        let file = HeldFile::open(path.as_ref())?;
        let bytes = file.read()?;
        let words = Words::load(&bytes)?;
        Ok(Hive::of(
            words,
            sequence_of(&bytes),
            Clock::System,
            Some(file),
        ))
    }

    /// The file that [`Hive::save`] writes, if the hive has one. Links on its path were followed.
    pub fn path(&self) -> Option<PathBuf> {
        self.file
            .borrow()
            .as_ref()
            .map(|file| file.path().to_path_buf())
    }

    /// Sets the clock that tells the moment of all later calls.
    pub fn set_clock(&self, clock: Clock) {
        self.clock.set(clock);
    }

    /// Opens the root in session 0, with all rights.
    ///
    /// # Errors
    /// As of [`Session::root`].
    pub fn root(&self) -> Result<Key<'_>> {
        self.first_session().root(Rights::ALL)
    }

    /// A session, 0 to 63. It needs no start.
    ///
    /// # Errors
    /// [`Status::INVALID_PARAMETER`] where the number is 64 or above.
    pub fn session(&self, number: u8) -> Result<Session<'_>> {
        if u32::from(number) < ffi::SESSIONS_LIMIT {
            Ok(Session { hive: self, number })
        } else {
            Err(Status::INVALID_PARAMETER.into())
        }
    }

    /// What there is to tell of the key at the end of a path from the root. The empty path is the
    /// root's own.
    ///
    /// It opens no key, and neither do [`Hive::subkeys`], [`Hive::values`] and [`Hive::walk`]. So
    /// they need no rights, and no entry of the journal comes of them.
    ///
    /// ```
    /// # use zugmeled::{Hive, EMPTY_SECURITY};
    /// let hive = Hive::new("ROOT", &EMPTY_SECURITY)?;
    /// hive.root()?.create(r"Software\Zug")?;
    /// let row = hive.look("SOFTWARE")?;
    /// assert_eq!((row.name.as_str(), row.subkeys), ("Software", 1));
    /// # Ok::<(), zugmeled::Error>(())
    /// ```
    ///
    /// # Errors
    /// [`Status::FILE_NOT_FOUND`] where there is none; [`Status::INVALID_PARAMETER`] for what is no
    /// path.
    pub fn look(&self, path: &str) -> Result<KeyRow> {
        walk::look(&self.words, path)
    }

    /// Goes through the subkeys of the key at the end of a path, in the order of their names.
    ///
    /// Up to 256 are asked for at once, by the index of the first. Where subkeys are made or
    /// deleted meanwhile, one may be passed over, come twice or be gone: collect them first, then.
    ///
    /// ```
    /// # use zugmeled::{Hive, Result, EMPTY_SECURITY};
    /// let hive = Hive::new("ROOT", &EMPTY_SECURITY)?;
    /// hive.root()?.create(r"Software\Zug")?;
    /// hive.root()?.create(r"Software\Another")?;
    /// let names: Vec<String> = hive
    ///     .subkeys("Software")
    ///     .map(|row| Ok(row?.name))
    ///     .collect::<Result<_>>()?;
    /// assert_eq!(names, ["Another", "Zug"]);
    /// # Ok::<(), zugmeled::Error>(())
    /// ```
    ///
    /// # Errors
    /// An item is [`Status::FILE_NOT_FOUND`] where there is no such key, or it was deleted
    /// meanwhile; [`Status::INVALID_PARAMETER`] for what is no path. Behind an error nothing comes.
    pub fn subkeys(&self, path: &str) -> Items<'_, KeyRow> {
        Items::subkeys(self, path)
    }

    /// Goes through the values of the key at the end of a path with their names, in the order in
    /// which these were added.
    ///
    /// They are asked for as those of [`Hive::subkeys`] are.
    ///
    /// ```
    /// # use zugmeled::{Hive, EMPTY_SECURITY};
    /// let hive = Hive::new("ROOT", &EMPTY_SECURITY)?;
    /// hive.root()?.create(r"Software\Zug")?.set("Version", 4_u32)?;
    /// for value in hive.values(r"Software\Zug") {
    ///     let (name, value) = value?;
    ///     assert_eq!((name.as_str(), u32::try_from(&value)?), ("Version", 4));
    /// }
    /// # Ok::<(), zugmeled::Error>(())
    /// ```
    ///
    /// # Errors
    /// As of [`Hive::subkeys`]; [`Status::NOT_ENOUGH_MEMORY`].
    pub fn values(&self, path: &str) -> Items<'_, (String, Value)> {
        Items::values(self, path)
    }

    /// Goes through the subkeys of the key at the end of a path, each with its values and their
    /// names: by one call of the library for many of them.
    ///
    /// They are asked for as those of [`Hive::subkeys`] are.
    ///
    /// ```
    /// # use zugmeled::{Hive, EMPTY_SECURITY};
    /// let hive = Hive::new("ROOT", &EMPTY_SECURITY)?;
    /// hive.root()?.create(r"Services\Tcpip")?.set("Start", 1_u32)?;
    /// for service in hive.subkeys_with_values("Services") {
    ///     let (row, values) = service?;
    ///     assert_eq!((row.name.as_str(), values[0].0.as_str()), ("Tcpip", "Start"));
    /// }
    /// # Ok::<(), zugmeled::Error>(())
    /// ```
    ///
    /// # Errors
    /// As of [`Hive::subkeys`]; [`Status::NOT_ENOUGH_MEMORY`].
    pub fn subkeys_with_values(&self, path: &str) -> Items<'_, KeyWithValues> {
        Items::subkeys_with_values(self, path)
    }

    /// Goes through the key at the end of a path and all keys below it, each before its subkeys, in
    /// the order of names. Paths are from the root.
    ///
    /// A key is asked when the walk comes to it. So what is changed below it meanwhile is told as it
    /// is then, and a key that was deleted is passed over. [`Walk::skip_subkeys`] leaves out what is
    /// below a key.
    ///
    /// ```
    /// # use zugmeled::{Hive, EMPTY_SECURITY};
    /// let hive = Hive::new("ROOT", &EMPTY_SECURITY)?;
    /// hive.root()?.create(r"Software\Zug")?.set("Version", 4_u32)?;
    /// for step in hive.walk("") {
    ///     let step = step?;
    ///     println!("{} has {} values", step.path, step.values.len());
    /// }
    /// # Ok::<(), zugmeled::Error>(())
    /// ```
    ///
    /// # Errors
    /// The first item is [`Status::FILE_NOT_FOUND`] where there is no such key, and
    /// [`Status::INVALID_PARAMETER`] for what is no path; each may be
    /// [`Status::NOT_ENOUGH_MEMORY`]. Behind an error nothing comes.
    pub fn walk(&self, path: &str) -> Walk<'_> {
        Walk::of(self, path)
    }

    /// Takes the notices that came to session 0, each once, until no more are there.
    pub fn notices(&self) -> impl Iterator<Item = Notice> + '_ {
        self.first_session().notices()
    }

    /// The numbers of the journal.
    ///
    /// Each change that is accepted is an entry, also that a key is opened or dropped. It stays in
    /// memory: some 200 bytes and what was given. Entries and open keys have at most 16,777,216
    /// together; then changes are refused with [`Status::NO_SYSTEM_RESOURCES`] until the journal is
    /// cut.
    pub fn entries(&self) -> Entries {
        let (made, kept) = self.words.entries().unwrap_or_default();
        Entries { made, kept }
    }

    /// Frees the journal's entries, and tells how many. Keys, and notices that weren't taken, stay;
    /// the numbers go on.
    ///
    /// No key may be open, which the exclusive borrow tells when the program is compiled.
    ///
    /// # Errors
    /// [`Status::BUSY`] where a key was forgotten by [`std::mem::forget`];
    /// [`Status::NO_SYSTEM_RESOURCES`] where the hive has had more than 10^18 entries.
    pub fn cut(&mut self) -> Result<u64> {
        self.words.cut()
    }

    /// The bytes of a hive file: this hive's, with the clock's moment and the next sequence number.
    ///
    /// # Errors
    /// [`Status::NOT_ENOUGH_MEMORY`].
    pub fn image(&self) -> Result<Vec<u8>> {
        let (size, stamp) = self.stamp()?;
        let mut image = zeros(size)?;
        self.words.image_part(&stamp, 0, &mut image)?;
        Ok(image)
    }

    /// Writes the bytes of [`Hive::image`], without having all of them in memory, and flushes the
    /// writer.
    ///
    /// # Errors
    /// What the writer says; [`Status::INVALID_PARAMETER`] where the writer changes the hive;
    /// [`Status::NOT_ENOUGH_MEMORY`].
    pub fn write_image(&self, mut writer: impl Write) -> Result<()> {
        let (size, stamp) = self.stamp()?;
        let mut room = zeros(size.min(PART))?;
        let mut offset = 0;
        while offset < size {
            let length = (size - offset).min(PART);
            // It fits, since the room has as many bytes.
            let part = &mut room[..length as usize];
            self.words.image_part(&stamp, offset, part)?;
            writer.write_all(part)?;
            offset += length;
        }
        // A writer that is dropped with bytes in it has nobody to tell that they weren't written.
        Ok(writer.flush()?)
    }

    /// Saves the hive to its own file: another one is written beside it, synced, and put in its
    /// place, with its owner, group and permissions, but without an access list: what the mode gives
    /// the group then is the group's. The lock is kept.
    ///
    /// # Errors
    /// [`Status::INVALID_HANDLE`] where the hive has no file; [`Status::SHARING_VIOLATION`] where
    /// another file took its place; what the system says. The file is as it was then; only where
    /// the folder couldn't be synced the new one stands there.
    pub fn save(&self) -> Result<()> {
        let mut file = self.file.borrow_mut();
        let file = file.as_mut().ok_or(Status::INVALID_HANDLE)?;
        file.replace(|file| self.write_image(file))?;
        self.sequence.set(self.next_sequence());
        file.sync_folder()
    }

    /// Makes another file with the hive. The hive keeps its own, if it has one.
    ///
    /// The file is written beside its path under another name, and takes its own once it is whole.
    ///
    /// # Errors
    /// [`Status::ALREADY_EXISTS`] where one is there; what the system says. No file is made then;
    /// only where the folder couldn't be synced it stands there.
    pub fn save_as(&self, path: impl AsRef<Path>) -> Result<()> {
        file::make(path.as_ref(), |file| self.write_image(file))
    }

    pub(crate) fn words(&self) -> &Words {
        &self.words
    }

    pub(crate) fn moment(&self) -> u64 {
        self.clock.get().moment().0
    }

    fn of(words: Words, sequence: u32, clock: Clock, file: Option<HeldFile>) -> Hive {
        Hive {
            words,
            clock: Cell::new(clock),
            sequence: Cell::new(sequence),
            file: RefCell::new(file),
        }
    }

    fn first_session(&self) -> Session<'_> {
        Session {
            hive: self,
            number: 0,
        }
    }

    /// The image's size, and what its parts have in common.
    fn stamp(&self) -> Result<(u64, Stamp)> {
        let (size, entries) = self.words.image_size()?;
        let stamp = Stamp {
            moment: self.moment(),
            sequence: self.next_sequence(),
            entries,
        };
        Ok((size, stamp))
    }

    fn next_sequence(&self) -> u32 {
        self.sequence.get().wrapping_add(1)
    }
}

impl fmt::Debug for Hive {
    fn fmt(&self, text: &mut fmt::Formatter<'_>) -> fmt::Result {
        text.debug_struct("Hive")
            .field("path", &self.path())
            .finish_non_exhaustive()
    }
}

/// The numbers of a journal.
#[derive(Clone, Copy, Debug, PartialEq, Eq)]
pub struct Entries {
    /// How many entries the hive has had.
    pub made: u64,
    /// How many of them the journal keeps.
    pub kept: u64,
}

/// A session of a hive. Keys and notices are of use to their session alone, and each session has
/// limits of its own: 16,384 open keys, and 4,096 watches.
#[derive(Clone, Copy, Debug)]
pub struct Session<'hive> {
    hive: &'hive Hive,
    number: u8,
}

impl<'hive> Session<'hive> {
    /// Opens the root.
    ///
    /// # Errors
    /// [`Status::INVALID_PARAMETER`] for rights that there aren't; [`Status::NO_SYSTEM_RESOURCES`]
    /// where the session has 16,384 keys open, or the journal is full;
    /// [`Status::NOT_ENOUGH_MEMORY`].
    pub fn root(self, rights: Rights) -> Result<Key<'hive>> {
        let moment = self.hive.moment();
        let handle = self.hive.words.open_root(self.number, moment, rights.0)?;
        Ok(Key::of(self.hive, handle))
    }

    /// Whether the root would be opened now. Nothing is changed.
    ///
    /// # Errors
    /// As of [`Session::root`], but for want of memory.
    pub fn check_root(self, rights: Rights) -> Result<()> {
        let asked = Asked {
            change: ffi::OPEN_ROOT,
            text: &[],
            number: rights.0,
            bytes: &[],
            subtree: false,
        };
        // This change has no handle, and its number is passed over.
        let nothing = Handle {
            session: self.number,
            number: 0,
        };
        self.hive.words.cause(nothing, self.hive.moment(), &asked)
    }

    /// Takes the session's next notice. `None` where none is there.
    pub fn take_notice(self) -> Option<Notice> {
        // No status but that no notice is there can come, since the hive and the session are there.
        let (watch, entry, reason) = self.hive.words.take_notice(self.number).ok()?;
        Some(Notice {
            watch: Watch(watch),
            entry,
            reason: Reason::of(reason),
        })
    }

    /// Takes the notices that came, each once, until no more are there.
    pub fn notices(self) -> impl Iterator<Item = Notice> + 'hive {
        std::iter::from_fn(move || self.take_notice())
    }
}

/// What names a notice that was asked for: a number that no other has in the hive.
#[derive(Clone, Copy, Debug, PartialEq, Eq, PartialOrd, Ord, Hash)]
pub struct Watch(pub u64);

/// That a watch ended.
#[derive(Clone, Copy, Debug, PartialEq, Eq)]
pub struct Notice {
    /// What [`Key::notify`] told.
    pub watch: Watch,
    /// The number of the entry that ended it.
    pub entry: u64,
    /// Why it ended.
    pub reason: Reason,
}

/// Why a watch ended.
#[derive(Clone, Copy, Debug, PartialEq, Eq)]
pub enum Reason {
    /// There was a change that was waited for.
    Matched,
    /// The key was deleted.
    Gone,
    /// The key by which the notice was asked for was dropped.
    Closed,
}

impl Reason {
    fn of(reason: u32) -> Reason {
        match reason {
            ffi::GONE => Reason::Gone,
            ffi::CLOSED => Reason::Closed,
            _ => Reason::Matched,
        }
    }
}

/// A room of zeros, or the status that memory was refused.
pub(crate) fn zeros(length: u64) -> Result<Vec<u8>> {
    let refused = || Error::from(Status::NOT_ENOUGH_MEMORY);
    let length = usize::try_from(length).map_err(|_| refused())?;
    let mut room = Vec::new();
    room.try_reserve_exact(length).map_err(|_| refused())?;
    room.resize(length, 0);
    Ok(room)
}

/// The sequence number of an image that was loaded: its second word.
fn sequence_of(image: &[u8]) -> u32 {
    let word = image.get(4..8).and_then(|word| word.try_into().ok());
    word.map_or(0, u32::from_le_bytes)
}
