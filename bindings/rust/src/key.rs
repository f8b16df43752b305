//! Keys that are open, and loops over what is in them.

use crate::error::{told, Error, Result, Status};
use crate::ffi;
use crate::flags::{Filter, Rights};
use crate::hive::{zeros, Hive, Watch};
use crate::moment::Moment;
use crate::raw::{Answer, Asked, Handle, Words};
use crate::value::{Kind, Value};
use std::fmt;
use std::iter::FusedIterator;

/// How many bytes a question is asked with first. More are given where they aren't enough.
const FIRST_ROOM: usize = 1024;

/// A key that is open, with the rights that it was opened with. It is closed when it is dropped.
///
/// Key and value names are ASCII. Their case is kept, and makes no difference. A path is up to 512
/// names, joined by a backslash; the empty path is the key's own. A name or path that no key may
/// have is [`Status::INVALID_PARAMETER`].
///
/// A key that was deleted answers [`Status::KEY_DELETED`] to all calls, even where one was made
/// again under its name. A change may answer [`Status::NO_SYSTEM_RESOURCES`], where a limit is met,
/// or the hive or its journal is full. A call that is refused changes nothing. Each call but
/// [`Key::info`] and [`Key::keys`] may be [`Status::NOT_ENOUGH_MEMORY`].
pub struct Key<'hive> {
    hive: &'hive Hive,
    handle: Handle,
}

impl<'hive> Key<'hive> {
    pub(crate) fn of(hive: &'hive Hive, handle: Handle) -> Key<'hive> {
        Key { hive, handle }
    }

    /// Opens a key below this one, with all rights. No right of this key is needed.
    ///
    /// # Errors
    /// [`Status::FILE_NOT_FOUND`] where there is none; as of
    /// [`Session::root`](crate::Session::root).
    pub fn open(&self, path: &str) -> Result<Key<'hive>> {
        self.open_with(path, Rights::ALL)
    }

    /// The same with other rights.
    ///
    /// # Errors
    /// As of [`Key::open`].
    pub fn open_with(&self, path: &str, rights: Rights) -> Result<Key<'hive>> {
        let handle = self
            .words()
            .open_key(self.handle, self.now(), path.as_bytes(), rights.0)?;
        Ok(Key::of(self.hive, handle))
    }

    /// Opens a key below this one, with all rights, and makes those of the path that are missing,
    /// at most 32. They have their parent's security descriptor.
    ///
    /// # Errors
    /// [`Status::NO_SYSTEM_RESOURCES`] where too many are missing, a path is too deep, a key has
    /// 60,000 subkeys or the hive is full; as of [`Session::root`](crate::Session::root).
    pub fn create(&self, path: &str) -> Result<Key<'hive>> {
        self.create_with(path, Rights::ALL, &[])
            .map(|created| created.key)
    }

    /// The same with other rights. The last key, if it is made, has the security descriptor, of at
    /// most 65,535 bytes; an empty one is its parent's.
    ///
    /// # Errors
    /// As of [`Key::create`]; [`Status::INVALID_PARAMETER`] where the descriptor is too long.
    pub fn create_with(
        &self,
        path: &str,
        rights: Rights,
        security: &[u8],
    ) -> Result<Created<'hive>> {
        let path = path.as_bytes();
        let (handle, disposition) =
            self.words()
                .create_key(self.handle, self.now(), path, rights.0, security)?;
        let key = Key::of(self.hive, handle);
        Ok(Created {
            key,
            is_new: disposition == ffi::CREATED,
        })
    }

    /// Sets a value, of whatever a [`Value`] is made from. The empty name is the default value's.
    ///
    /// # Errors
    /// As of [`Key::set_bytes`].
    pub fn set(&self, name: &str, value: impl Into<Value>) -> Result<()> {
        let value = value.into();
        self.set_bytes(name, value.kind, &value.bytes)
    }

    /// Sets a value to a type, and data of at most 1,048,576 bytes, as they are.
    ///
    /// # Errors
    /// [`Status::ACCESS_DENIED`] without [`Rights::SET_VALUE`]; [`Status::INVALID_PARAMETER`] where
    /// the data is too long; [`Status::NO_SYSTEM_RESOURCES`] where the key has 16,384 values, or
    /// the hive is full.
    pub fn set_bytes(&self, name: &str, kind: Kind, bytes: &[u8]) -> Result<()> {
        self.words()
            .set_value(self.handle, self.now(), name.as_bytes(), kind.0, bytes)
    }

    /// A value as a number, a text, texts or bytes. `None` where there is none of that name.
    ///
    /// ```
    /// # use zugmeled::{Hive, EMPTY_SECURITY};
    /// let hive = Hive::new("ROOT", &EMPTY_SECURITY)?;
    /// let root = hive.root()?;
    /// root.set("Version", 4_u32)?;
    /// assert_eq!(root.get::<u32>("Version")?, Some(4));
    /// assert_eq!(root.get::<String>("Owner")?, None);
    /// # Ok::<(), zugmeled::Error>(())
    /// ```
    ///
    /// # Errors
    /// [`Status::INVALID_DATA`] where the value isn't of that type; [`Status::ACCESS_DENIED`]
    /// without [`Rights::QUERY_VALUE`].
    pub fn get<T>(&self, name: &str) -> Result<Option<T>>
    where
        T: for<'value> TryFrom<&'value Value, Error = Error>,
    {
        match self.value(name) {
            Ok(value) => T::try_from(&value).map(Some),
            Err(error) if error.status() == Status::FILE_NOT_FOUND => Ok(None),
            Err(error) => Err(error),
        }
    }

    /// A value, as it is.
    ///
    /// # Errors
    /// [`Status::FILE_NOT_FOUND`] where there is none of that name; [`Status::ACCESS_DENIED`]
    /// without [`Rights::QUERY_VALUE`].
    pub fn value(&self, name: &str) -> Result<Value> {
        let (kind, bytes) = with_room(ffi::MORE_DATA, |room| {
            self.words().query_value(self.handle, name.as_bytes(), room)
        })?;
        Ok(Value { kind, bytes })
    }

    /// A value's type, and the size of its data in bytes.
    ///
    /// # Errors
    /// As of [`Key::value`].
    pub fn value_size(&self, name: &str) -> Result<(Kind, u32)> {
        // A room without bytes asks for the type and the size alone.
        let answer = self
            .words()
            .query_value(self.handle, name.as_bytes(), &mut []);
        told(answer.status)?;
        Ok((Kind(answer.kind), answer.size))
    }

    /// Deletes a value.
    ///
    /// # Errors
    /// [`Status::FILE_NOT_FOUND`] where there is none of that name; [`Status::ACCESS_DENIED`]
    /// without [`Rights::SET_VALUE`].
    pub fn delete_value(&self, name: &str) -> Result<()> {
        self.words()
            .delete_value(self.handle, self.now(), name.as_bytes())
    }

    /// Deletes a key below this one, with its values.
    ///
    /// # Errors
    /// [`Status::FILE_NOT_FOUND`] where there is none; [`Status::ACCESS_DENIED`] where it has
    /// subkeys, or is marked as not to be deleted; [`Status::INVALID_PARAMETER`] for the empty
    /// path.
    pub fn delete(&self, path: &str) -> Result<()> {
        self.words()
            .delete_key(self.handle, self.now(), path.as_bytes())
    }

    /// Deletes a key below this one with all keys below it. With the empty path this key stays,
    /// without subkeys and values.
    ///
    /// # Errors
    /// [`Status::FILE_NOT_FOUND`] where there is none; [`Status::ACCESS_DENIED`] without
    /// [`Rights::DELETE`], [`Rights::ENUMERATE_SUB_KEYS`] and [`Rights::QUERY_VALUE`], with the
    /// empty path also without [`Rights::SET_VALUE`], or where a key is marked as not to be
    /// deleted.
    pub fn delete_tree(&self, path: &str) -> Result<()> {
        self.words()
            .delete_tree(self.handle, self.now(), path.as_bytes())
    }

    /// Goes through the subkeys, in the order of their names.
    ///
    /// Each step asks for the next index. Where subkeys are made or deleted meanwhile, one may be
    /// passed over or come twice: collect them first, then.
    ///
    /// # Errors
    /// An item is [`Status::ACCESS_DENIED`] without [`Rights::ENUMERATE_SUB_KEYS`]. Behind an error
    /// nothing comes.
    pub fn keys(&self) -> Keys<'_, 'hive> {
        Keys {
            key: self,
            next: Some(0),
        }
    }

    /// Goes through the values with their names, in the order in which these were added.
    ///
    /// Each step asks for the next index, as [`Key::keys`] does.
    ///
    /// # Errors
    /// An item is [`Status::ACCESS_DENIED`] without [`Rights::QUERY_VALUE`]. Behind an error
    /// nothing comes.
    pub fn values(&self) -> Values<'_, 'hive> {
        Values {
            key: self,
            next: Some(0),
            name_room: Vec::new(),
        }
    }

    /// The key's numbers.
    ///
    /// # Errors
    /// [`Status::ACCESS_DENIED`] without [`Rights::QUERY_VALUE`].
    pub fn info(&self) -> Result<Info> {
        let info = self.words().query_info(self.handle)?;
        Ok(Info {
            subkeys: info.subkeys,
            longest_key: info.longest_key,
            values: info.values,
            longest_value: info.longest_value,
            largest: info.largest,
            security: info.security,
            time: Moment(info.time),
        })
    }

    /// The key's security descriptor, as it is.
    ///
    /// # Errors
    /// [`Status::ACCESS_DENIED`] without [`Rights::READ_CONTROL`].
    pub fn security(&self) -> Result<Vec<u8>> {
        let ask = |room: &mut [u8]| self.words().get_security(self.handle, room);
        with_room(ffi::INSUFFICIENT_BUFFER, ask).map(|(_, descriptor)| descriptor)
    }

    /// Gives the key a security descriptor of 1 to 65,535 bytes, which is kept as it is.
    ///
    /// # Errors
    /// [`Status::ACCESS_DENIED`] without [`Rights::WRITE_DAC`]; [`Status::INVALID_PARAMETER`] where
    /// it is empty or too long.
    pub fn set_security(&self, security: &[u8]) -> Result<()> {
        self.words().set_security(self.handle, self.now(), security)
    }

    /// Asks for one notice of the next change of the kinds that a filter names, with `subtree` also
    /// of a key below this one.
    ///
    /// It comes by [`Hive::notices`], or by the notices of the key's session. The watch ends with
    /// the key: keep it.
    ///
    /// # Errors
    /// [`Status::ACCESS_DENIED`] without [`Rights::NOTIFY`]; [`Status::INVALID_PARAMETER`] for a
    /// filter that there isn't; [`Status::NO_SYSTEM_RESOURCES`] where the session waits for 4,096
    /// notices.
    pub fn notify(&self, filter: Filter, subtree: bool) -> Result<Watch> {
        self.words()
            .notify(self.handle, self.now(), filter.0, subtree)
            .map(Watch)
    }

    /// Whether a change would be accepted now. Nothing is changed.
    ///
    /// # Errors
    /// What the change would meet, but for want of memory, or of room in the hive.
    pub fn check(&self, change: Change<'_>) -> Result<()> {
        self.words().cause(self.handle, self.now(), &change.asked())
    }

    fn words(&self) -> &'hive Words {
        self.hive.words()
    }

    fn now(&self) -> u64 {
        self.hive.moment()
    }

    /// `None` where no subkey has the index.
    fn subkey_at(&self, index: u32) -> Result<Option<SubKey>> {
        let mut room = [0; ffi::KEY_NAME_LIMIT as usize];
        let found = self.words().enum_key(self.handle, index, &mut room);
        let found = unless_past(found)?;
        Ok(found.map(|(size, time)| SubKey {
            name: name(&room, size),
            time: Moment(time),
        }))
    }

    /// `None` where no value has the index. The room has place for each name.
    fn value_at(&self, index: u32, name_room: &mut [u8]) -> Result<Option<(String, Value)>> {
        let mut name_size = 0;
        let found = with_room(ffi::MORE_DATA, |room| {
            let (size, answer) = self.words().enum_value(self.handle, index, name_room, room);
            name_size = size;
            answer
        });
        let found = unless_past(found)?;
        Ok(found.map(|(kind, bytes)| (name(name_room, name_size), Value { kind, bytes })))
    }
}

impl Drop for Key<'_> {
    fn drop(&mut self) {
        // A close is only refused where there is no such handle, and this key has its own.
        let _ = self.words().close(self.handle, self.now());
    }
}

impl fmt::Debug for Key<'_> {
    fn fmt(&self, text: &mut fmt::Formatter<'_>) -> fmt::Result {
        text.debug_struct("Key")
            .field("session", &self.handle.session)
            .field("handle", &self.handle.number)
            .finish_non_exhaustive()
    }
}

/// A key that was made or was there.
#[derive(Debug)]
pub struct Created<'hive> {
    /// The key, which is open.
    pub key: Key<'hive>,
    /// Whether a key of the path was made.
    pub is_new: bool,
}

/// A key's numbers.
#[derive(Clone, Copy, Debug, PartialEq, Eq)]
pub struct Info {
    /// How many subkeys there are.
    pub subkeys: u32,
    /// The longest of their names, in bytes.
    pub longest_key: u32,
    /// How many values there are.
    pub values: u32,
    /// The longest of their names, in bytes.
    pub longest_value: u32,
    /// The largest of their data, in bytes.
    pub largest: u32,
    /// The size of the security descriptor, in bytes.
    pub security: u32,
    /// When the key was last written.
    pub time: Moment,
}

/// A change by a key, for [`Key::check`]. Each is what the function of its name takes.
#[derive(Clone, Copy, Debug)]
#[allow(missing_docs)]
pub enum Change<'a> {
    /// [`Key::open_with`].
    Open { path: &'a str, rights: Rights },
    /// [`Key::create_with`].
    Create {
        path: &'a str,
        rights: Rights,
        security: &'a [u8],
    },
    /// [`Key::set_bytes`].
    Set {
        name: &'a str,
        kind: Kind,
        bytes: &'a [u8],
    },
    /// [`Key::delete_value`].
    DeleteValue { name: &'a str },
    /// [`Key::delete`].
    Delete { path: &'a str },
    /// [`Key::delete_tree`].
    DeleteTree { path: &'a str },
    /// [`Key::set_security`].
    SetSecurity { security: &'a [u8] },
    /// [`Key::notify`].
    Notify { filter: Filter, subtree: bool },
}

impl<'a> Change<'a> {
    fn asked(self) -> Asked<'a> {
        let of = |change, text: &'a str, number, bytes| Asked {
            change,
            text: text.as_bytes(),
            number,
            bytes,
            subtree: false,
        };
        match self {
            Change::Open { path, rights } => of(ffi::OPEN_KEY, path, rights.0, &[]),
            Change::Create {
                path,
                rights,
                security,
            } => of(ffi::CREATE_KEY, path, rights.0, security),
            Change::Set { name, kind, bytes } => of(ffi::SET, name, kind.0, bytes),
            Change::DeleteValue { name } => of(ffi::DELETE_VALUE, name, 0, &[]),
            Change::Delete { path } => of(ffi::DELETE_KEY, path, 0, &[]),
            Change::DeleteTree { path } => of(ffi::DELETE_TREE, path, 0, &[]),
            Change::SetSecurity { security } => of(ffi::SET_SECURITY, "", 0, security),
            Change::Notify { filter, subtree } => Asked {
                subtree,
                ..of(ffi::NOTIFY_CHANGE, "", filter.0, &[])
            },
        }
    }
}

/// A subkey in a loop. It isn't open.
#[derive(Clone, Debug, PartialEq, Eq)]
pub struct SubKey {
    /// Its name, as it was given.
    pub name: String,
    /// When it was last written.
    pub time: Moment,
}

/// A loop over subkeys: [`Key::keys`].
#[derive(Debug)]
pub struct Keys<'key, 'hive> {
    key: &'key Key<'hive>,
    /// The index that is asked for next, if one is.
    next: Option<u32>,
}

impl Iterator for Keys<'_, '_> {
    type Item = Result<SubKey>;

    fn next(&mut self) -> Option<Result<SubKey>> {
        let index = self.next.take()?;
        let found = self.key.subkey_at(index);
        self.next = following(index, &found);
        found.transpose()
    }
}

impl FusedIterator for Keys<'_, '_> {}

/// A loop over values: [`Key::values`].
#[derive(Debug)]
pub struct Values<'key, 'hive> {
    key: &'key Key<'hive>,
    /// The index that is asked for next, if one is.
    next: Option<u32>,
    name_room: Vec<u8>,
}

impl Iterator for Values<'_, '_> {
    type Item = Result<(String, Value)>;

    fn next(&mut self) -> Option<Result<(String, Value)>> {
        let index = self.next.take()?;
        let found = self.value_at(index);
        self.next = following(index, &found);
        found.transpose()
    }
}

impl Values<'_, '_> {
    fn value_at(&mut self, index: u32) -> Result<Option<(String, Value)>> {
        // The library tells neither which room is too short nor the name's size. So each name
        // finds place.
        if self.name_room.is_empty() {
            self.name_room = zeros(ffi::VALUE_NAME_LIMIT.into())?;
        }
        self.key.value_at(index, &mut self.name_room)
    }
}

impl FusedIterator for Values<'_, '_> {}

/// The index behind one that was found.
fn following<T>(index: u32, found: &Result<Option<T>>) -> Option<u32> {
    match found {
        Ok(Some(_)) => index.checked_add(1),
        _ => None,
    }
}

/// `None` in place of the status that no item has the index.
fn unless_past<T>(found: Result<T>) -> Result<Option<T>> {
    match found {
        Err(error) if error.status() == Status::NO_MORE_ITEMS => Ok(None),
        found => found.map(Some),
    }
}

/// Asks a question that fills a room, and once more with room enough where the first was too short.
/// That has a status of its own.
fn with_room(short: u32, mut ask: impl FnMut(&mut [u8]) -> Answer) -> Result<(Kind, Vec<u8>)> {
    let mut first = [0; FIRST_ROOM];
    let answer = ask(&mut first);
    if answer.status != short {
        told(answer.status)?;
        return Ok((Kind(answer.kind), first[..answer.size as usize].to_vec()));
    }
    let mut room = zeros(u64::from(answer.size))?;
    let answer = ask(&mut room);
    told(answer.status)?;
    room.truncate(answer.size as usize);
    Ok((Kind(answer.kind), room))
}

/// The name at the front of a room. It is ASCII, as all names of a hive are.
pub(crate) fn name(room: &[u8], size: u32) -> String {
    room[..size as usize]
        .iter()
        .copied()
        .map(char::from)
        .collect()
}
