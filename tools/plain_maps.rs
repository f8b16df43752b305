//! Plain maps that do the work of a hive for one session: what a program would keep that has no hive's bytes. Keys, handles and a journal
//! stand in vectors and maps.
//!
//! They answer as a hive does where paths have one name, no value is removed, no descriptor is given, and no mask, limit or room is out of
//! range; the rest they refuse by 87. A caller lends each call, as a program lends it to the library for C, and what is kept is copied.

// What is kept and answered is part of the work, also where nobody looks at it.
#![allow(dead_code)]

use crate::ffi::{ACCESS_DENIED, FILE_NOT_FOUND, INVALID_HANDLE, INVALID_PARAMETER, KEY_DELETED, SUCCESS};
use crate::ffi::{CREATED, KEY_NAME_LIMIT, OPENED, QUERY_VALUE, SET_VALUE, VALUE_NAME_LIMIT};
use std::collections::{BTreeMap, HashMap};

/// A call that is journaled once it is accepted.
#[derive(Clone)]
pub enum Change {
    OpenRoot { mask: u32 },
    OpenKey { handle: u64, path: Vec<u8>, mask: u32 },
    CreateKey { handle: u64, path: Vec<u8>, mask: u32, descriptor: Vec<u8> },
    SetValue { handle: u64, name: Vec<u8>, kind: u32, data: Vec<u8> },
    DeleteKey { handle: u64, path: Vec<u8> },
    SetSecurity { handle: u64, descriptor: Vec<u8> },
    Notify { handle: u64, filter: u32 },
    Close { handle: u64 },
}

/// A call that only asks.
pub enum Query {
    Value { handle: u64, name: Vec<u8> },
    Info { handle: u64 },
    Subkey { handle: u64, index: u32 },
    Security { handle: u64 },
}

/// A call, made ready.
pub enum Call {
    Change(Change),
    Query(Query),
}

/// What a change is answered.
#[derive(Clone, Copy)]
pub struct Reply {
    pub status: u32,
    pub number: Option<u64>,
    pub handle: Option<u64>,
    pub disposition: Option<u32>,
}

/// What a question is answered; the data of a value stand in the caller's room.
pub enum Answer {
    Value { kind: u32, size: u32 },
    Info { subkeys: u32, longest_key: u32, values: u32, longest_value: u32, largest: u32, time: u64 },
}

struct Value {
    name: Vec<u8>,
    kind: u32,
    data: Vec<u8>,
}

/// A key: its name as given, where its subkeys stand by their folded names, its values in the order in which they came, and its last write
/// time.
struct Key {
    name: Vec<u8>,
    children: BTreeMap<Vec<u8>, usize>,
    values: Vec<Value>,
    moment: u64,
}

impl Key {
    fn new(name: &[u8], moment: u64) -> Key {
        Key { name: name.to_vec(), children: BTreeMap::new(), values: Vec::new(), moment }
    }

    fn value(&self, name: &[u8]) -> Option<&Value> {
        self.values.iter().find(|value| value.name.eq_ignore_ascii_case(name))
    }

    /// Sets a value; one that is new comes last.
    fn set(&mut self, name: &[u8], kind: u32, data: &[u8]) {
        let data = data.to_vec();
        match self.values.iter_mut().find(|value| value.name.eq_ignore_ascii_case(name)) {
            Some(value) => (value.kind, value.data) = (kind, data),
            None => self.values.push(Value { name: name.to_vec(), kind, data }),
        }
    }

    /// What the key has, by one walk over its subkeys and one over its values.
    fn info(&self) -> Answer {
        Answer::Info {
            subkeys: self.children.len() as u32,
            longest_key: self.children.keys().map(Vec::len).max().unwrap_or(0) as u32,
            values: self.values.len() as u32,
            longest_value: self.values.iter().map(|value| value.name.len()).max().unwrap_or(0) as u32,
            largest: self.values.iter().map(|value| value.data.len()).max().unwrap_or(0) as u32,
            time: self.moment,
        }
    }
}

/// An open handle: where its key stands, and its rights.
#[derive(Clone, Copy)]
struct Handle {
    key: usize,
    mask: u32,
}

/// What an accepted change came to: the handle that it opens, and whether a key was made.
#[derive(Default)]
struct Made {
    opened: Option<Handle>,
    disposition: Option<u32>,
}

/// An accepted change with its reply.
struct Entry {
    number: u64,
    session: u8,
    moment: u64,
    change: Change,
    reply: Reply,
}

/// Keys, handles and a journal, of one session.
pub struct PlainMaps {
    keys: Vec<Option<Key>>,
    handles: HashMap<u64, Handle>,
    journal: Vec<Entry>,
}

impl PlainMaps {
    /// The root, without values.
    pub fn new() -> PlainMaps {
        PlainMaps { keys: vec![Some(Key::new(b"ROOT", 0))], handles: HashMap::new(), journal: Vec::new() }
    }

    /// How many entries the journal has.
    pub fn entries(&self) -> u64 {
        self.journal.len() as u64
    }

    /// Answers a change. An accepted one is the journal's next entry, and a handle that it opens has that entry's number.
    pub fn apply(&mut self, moment: u64, change: &Change) -> Reply {
        let number = self.entries();
        let made = match self.make(moment, change) {
            Ok(made) => made,
            Err(status) => return Reply { status, number: None, handle: None, disposition: None },
        };
        let handle = made.opened.map(|_| number);
        let reply = Reply { status: SUCCESS, number: Some(number), handle, disposition: made.disposition };
        if let Some(opened) = made.opened {
            self.handles.insert(number, opened);
        }
        self.journal.push(Entry { number, session: 0, moment, change: change.clone(), reply });
        reply
    }

    /// Answers a question for a value, whose data find room, or for what a key has; or the refusal's status.
    pub fn read(&self, query: &Query, room: &mut [u8]) -> Result<Answer, u32> {
        match query {
            Query::Value { handle, name } => {
                let (key, _) = self.opened(*handle, name, QUERY_VALUE)?;
                let value = key.value(name).ok_or(FILE_NOT_FOUND)?;
                let size = value.data.len();
                room.get_mut(..size).ok_or(INVALID_PARAMETER)?.copy_from_slice(&value.data);
                Ok(Answer::Value { kind: value.kind, size: size as u32 })
            }
            Query::Info { handle } => Ok(self.look(*handle)?.0.info()),
            Query::Subkey { .. } | Query::Security { .. } => Err(INVALID_PARAMETER),
        }
    }

    /// Makes a change of keys and handles, but for a handle that it opens; or answers the refusal's status.
    fn make(&mut self, moment: u64, change: &Change) -> Result<Made, u32> {
        match change {
            Change::OpenRoot { mask } => Ok(Made { opened: Some(Handle { key: 0, mask: *mask }), disposition: None }),
            Change::OpenKey { handle, path, mask } => self.open(*handle, path, *mask),
            Change::CreateKey { handle, path, mask, descriptor } if descriptor.is_empty() => self.create(moment, *handle, path, *mask),
            Change::SetValue { handle, name, kind, data } => self.set(moment, *handle, name, *kind, data),
            Change::DeleteKey { handle, path } => self.delete(moment, *handle, path),
            Change::Close { handle } => self.handles.remove(handle).map(|_| Made::default()).ok_or(INVALID_HANDLE),
            Change::CreateKey { .. } | Change::SetSecurity { .. } | Change::Notify { .. } => Err(INVALID_PARAMETER),
        }
    }

    /// The key that a handle leads to, and the handle.
    fn look(&self, handle: u64) -> Result<(&Key, Handle), u32> {
        let opened = *self.handles.get(&handle).ok_or(INVALID_HANDLE)?;
        let key = self.keys[opened.key].as_ref().ok_or(KEY_DELETED)?;
        Ok((key, opened))
    }

    /// The same, for a call on a value that wants a right.
    fn opened(&self, handle: u64, name: &[u8], right: u32) -> Result<(&Key, Handle), u32> {
        let (key, opened) = self.look(handle)?;
        if !is_value_name(name) {
            return Err(INVALID_PARAMETER);
        }
        if opened.mask & right == 0 {
            return Err(ACCESS_DENIED);
        }
        Ok((key, opened))
    }

    /// Where the key stands that a handle leads to, and where its subkey of a folded name does.
    fn find(&self, handle: u64, name: &[u8]) -> Result<(usize, Option<usize>), u32> {
        let (key, opened) = self.look(handle)?;
        if !is_key_name(name) {
            return Err(INVALID_PARAMETER);
        }
        Ok((opened.key, key.children.get(name).copied()))
    }

    fn open(&self, handle: u64, path: &[u8], mask: u32) -> Result<Made, u32> {
        let (_, child) = self.find(handle, &path.to_ascii_uppercase())?;
        let key = child.ok_or(FILE_NOT_FOUND)?;
        Ok(Made { opened: Some(Handle { key, mask }), disposition: None })
    }

    fn create(&mut self, moment: u64, handle: u64, path: &[u8], mask: u32) -> Result<Made, u32> {
        let name = path.to_ascii_uppercase();
        let (above, child) = self.find(handle, &name)?;
        if let Some(key) = child {
            return Ok(Made { opened: Some(Handle { key, mask }), disposition: Some(OPENED) });
        }
        let key = self.keys.len();
        self.keys.push(Some(Key::new(path, moment)));
        if let Some(parent) = &mut self.keys[above] {
            parent.children.insert(name, key);
            parent.moment = moment;
        }
        Ok(Made { opened: Some(Handle { key, mask }), disposition: Some(CREATED) })
    }

    fn set(&mut self, moment: u64, handle: u64, name: &[u8], kind: u32, data: &[u8]) -> Result<Made, u32> {
        let place = self.opened(handle, name, SET_VALUE)?.1.key;
        if let Some(key) = &mut self.keys[place] {
            key.set(name, kind, data);
            key.moment = moment;
        }
        Ok(Made::default())
    }

    fn delete(&mut self, moment: u64, handle: u64, path: &[u8]) -> Result<Made, u32> {
        let name = path.to_ascii_uppercase();
        let (above, child) = self.find(handle, &name)?;
        let place = child.ok_or(FILE_NOT_FOUND)?;
        if self.keys[place].as_ref().is_some_and(|key| !key.children.is_empty()) {
            return Err(ACCESS_DENIED);
        }
        if let Some(parent) = &mut self.keys[above] {
            parent.children.remove(&name);
            parent.moment = moment;
        }
        self.keys[place] = None;
        Ok(Made::default())
    }
}

fn is_key_name(name: &[u8]) -> bool {
    (1..=KEY_NAME_LIMIT as usize).contains(&name.len()) && name.iter().all(|byte| (0x01..=0x7F).contains(byte) && *byte != b'\\')
}

fn is_value_name(name: &[u8]) -> bool {
    name.len() <= VALUE_NAME_LIMIT as usize && name.iter().all(|byte| (0x01..=0x7F).contains(byte))
}
