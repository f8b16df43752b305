//! Keys and values by their paths from the root: many by one call, without a handle, and so without
//! an entry of the journal.

use crate::error::{Error, Result, Status};
use crate::ffi;
use crate::hive::{zeros, Hive};
use crate::key::name;
use crate::moment::Moment;
use crate::raw::Words;
use crate::value::{Kind, Value};
use std::fmt;
use std::iter::FusedIterator;
use std::mem;
use std::vec;

/// How many items a call tells at most.
const ROWS: usize = 256;

/// How many bytes of names and data a call has room for at first. A key's name always finds room.
const FIRST_ROOM: usize = 16 << 10;

/// What makes a loop of calls: some items of the key at the end of a path, from an index on. There
/// are none where no item has the index.
type ItemsFrom<T> = fn(&mut Rooms, &Words, path: &[u8], index: u32) -> Result<Vec<T>>;

/// A key, as it stands among others. It isn't open.
#[derive(Clone, Debug, PartialEq, Eq)]
pub struct KeyRow {
    /// Its name, as it was given.
    pub name: String,
    /// When it was last written.
    pub time: Moment,
    /// How many subkeys it has.
    pub subkeys: u32,
    /// How many values it has.
    pub values: u32,
    /// Its marks: 8 that it may not be deleted; others stand in its key node's flags.
    pub marks: u32,
}

/// A key that a walk came to.
#[derive(Clone, Debug, PartialEq, Eq)]
pub struct Step {
    /// Its path from the root.
    pub path: String,
    /// Its subkeys, in the order of their names.
    pub subkeys: Vec<KeyRow>,
    /// Its values with their names, in the order in which these were added.
    pub values: Vec<(String, Value)>,
}

/// A subkey with its values, each with its name, in the order in which these were added.
pub type KeyWithValues = (KeyRow, Vec<(String, Value)>);

/// A loop over subkeys or values: [`Hive::subkeys`], [`Hive::values`], [`Hive::subkeys_with_values`].
pub struct Items<'hive, T> {
    hive: &'hive Hive,
    path: String,
    rooms: Rooms,
    items_from: ItemsFrom<T>,
    /// Those that were asked for, and weren't handed out yet.
    told: vec::IntoIter<T>,
    /// The index that is asked for next, if one is.
    next: Option<u32>,
}

impl<'hive> Items<'hive, KeyRow> {
    pub(crate) fn subkeys(hive: &'hive Hive, path: &str) -> Items<'hive, KeyRow> {
        Items::of(hive, path, Rooms::subkeys_from)
    }
}

impl<'hive> Items<'hive, (String, Value)> {
    pub(crate) fn values(hive: &'hive Hive, path: &str) -> Items<'hive, (String, Value)> {
        Items::of(hive, path, Rooms::values_from)
    }
}

impl<'hive> Items<'hive, KeyWithValues> {
    pub(crate) fn subkeys_with_values(
        hive: &'hive Hive,
        path: &str,
    ) -> Items<'hive, KeyWithValues> {
        Items::of(hive, path, Rooms::subkeys_with_values_from)
    }
}

impl<'hive, T> Items<'hive, T> {
    fn of(hive: &'hive Hive, path: &str, items_from: ItemsFrom<T>) -> Items<'hive, T> {
        Items {
            hive,
            path: path.to_string(),
            rooms: Rooms::new(),
            items_from,
            told: Vec::new().into_iter(),
            next: Some(0),
        }
    }

    /// Asks for the items from an index on.
    fn ask(&mut self, index: u32) -> Result<()> {
        let path = self.path.as_bytes();
        let items = (self.items_from)(&mut self.rooms, self.hive.words(), path, index)?;
        // It is no more than the key's items, which are few enough.
        self.next = (!items.is_empty()).then_some(index + items.len() as u32);
        self.told = items.into_iter();
        Ok(())
    }
}

impl<T> Iterator for Items<'_, T> {
    type Item = Result<T>;

    fn next(&mut self) -> Option<Result<T>> {
        if self.told.len() == 0 {
            let index = self.next.take()?;
            if let Err(error) = self.ask(index) {
                return Some(Err(error));
            }
        }
        self.told.next().map(Ok)
    }
}

impl<T> FusedIterator for Items<'_, T> {}

impl<T> fmt::Debug for Items<'_, T> {
    fn fmt(&self, text: &mut fmt::Formatter<'_>) -> fmt::Result {
        text.debug_struct("Items")
            .field("path", &self.path)
            .finish_non_exhaustive()
    }
}

/// A loop over a key and all keys below it: [`Hive::walk`].
pub struct Walk<'hive> {
    hive: &'hive Hive,
    rooms: Rooms,
    /// The paths that are still to be gone to, the next one last.
    left: Vec<String>,
    /// How many of them aren't of the last step's subkeys.
    others: usize,
    is_begun: bool,
}

impl<'hive> Walk<'hive> {
    pub(crate) fn of(hive: &'hive Hive, path: &str) -> Walk<'hive> {
        Walk {
            hive,
            rooms: Rooms::new(),
            left: vec![path.to_string()],
            others: 1,
            is_begun: false,
        }
    }

    /// Doesn't go to the subkeys of the last step's key. Before the first step nothing happens.
    ///
    /// ```
    /// # use zugmeled::{Hive, EMPTY_SECURITY};
    /// # let hive = Hive::new("ROOT", &EMPTY_SECURITY)?;
    /// # hive.root()?.create(r"A\B\C")?;
    /// # hive.root()?.create("D")?;
    /// let mut paths = Vec::new();
    /// let mut walk = hive.walk("");
    /// while let Some(step) = walk.next() {
    ///     let step = step?;
    ///     if step.path == "A" {
    ///         walk.skip_subkeys();
    ///     }
    ///     paths.push(step.path);
    /// }
    /// assert_eq!(paths, ["", "A", "D"]);
    /// # Ok::<(), zugmeled::Error>(())
    /// ```
    pub fn skip_subkeys(&mut self) {
        self.left.truncate(self.others);
    }

    fn step(&mut self, path: String) -> Result<Step> {
        let (rooms, words, at) = (&mut self.rooms, self.hive.words(), path.as_bytes());
        // The key's own numbers spare a call that would tell that there are no more. They don't
        // change between these calls, since no other code runs.
        let key = words.key_at(at, &mut rooms.room)?;
        let subkeys = rooms.first(key.subkeys, Rooms::subkeys_from, words, at)?;
        let values = rooms.first(key.values, Rooms::values_from, words, at)?;
        self.others = self.left.len();
        let below = subkeys.iter().rev().map(|row| joined(&path, &row.name));
        self.left.extend(below);
        Ok(Step {
            path,
            subkeys,
            values,
        })
    }
}

impl Iterator for Walk<'_> {
    type Item = Result<Step>;

    fn next(&mut self) -> Option<Result<Step>> {
        loop {
            let path = self.left.pop()?;
            let is_below = mem::replace(&mut self.is_begun, true);
            match self.step(path) {
                // The key was deleted since its parent was asked.
                Err(error) if is_below && error.status() == Status::FILE_NOT_FOUND => {}
                Err(error) => {
                    self.left.clear();
                    return Some(Err(error));
                }
                step => return Some(step),
            }
        }
    }
}

impl FusedIterator for Walk<'_> {}

impl fmt::Debug for Walk<'_> {
    fn fmt(&self, text: &mut fmt::Formatter<'_>) -> fmt::Result {
        text.debug_struct("Walk")
            .field("left", &self.left)
            .finish_non_exhaustive()
    }
}

/// The key at the end of a path.
pub(crate) fn look(words: &Words, path: &str) -> Result<KeyRow> {
    let mut room = vec![0; FIRST_ROOM];
    let row = words.key_at(path.as_bytes(), &mut room)?;
    Ok(key_row(&row, &room))
}

/// What the library fills with keys and values, over and over.
struct Rooms {
    keys: Vec<ffi::Subkey>,
    values: Vec<ffi::Value>,
    room: Vec<u8>,
}

impl Rooms {
    fn new() -> Rooms {
        Rooms {
            keys: vec![ffi::Subkey::default(); ROWS],
            values: vec![ffi::Value::default(); ROWS],
            room: vec![0; FIRST_ROOM],
        }
    }

    fn subkeys_from(&mut self, words: &Words, path: &[u8], index: u32) -> Result<Vec<KeyRow>> {
        let count = words.subkeys_at(path, index, &mut self.keys, &mut self.room);
        let mut rest = &self.room[..];
        let rows = &self.keys[..count_of(count)?];
        Ok(rows
            .iter()
            .map(|row| key_row(row, taken(&mut rest, row.name_size)))
            .collect())
    }

    fn values_from(
        &mut self,
        words: &Words,
        path: &[u8],
        index: u32,
    ) -> Result<Vec<(String, Value)>> {
        let count = loop {
            let count = words.values_at(path, index, &mut self.values, &mut self.room);
            if !count.as_ref().is_err_and(is_short) {
                break count_of(count)?;
            }
            self.grow()?;
        };
        let mut rest = &self.room[..];
        let rows = &self.values[..count];
        Ok(rows.iter().map(|row| value_row(row, &mut rest)).collect())
    }

    fn subkeys_with_values_from(
        &mut self,
        words: &Words,
        path: &[u8],
        index: u32,
    ) -> Result<Vec<KeyWithValues>> {
        let (keys, values, room) = (&mut self.keys, &mut self.values, &mut self.room);
        let count = words.subkeys_with_values_at(path, index, keys, values, room);
        if count.as_ref().is_err_and(is_short) {
            return self.first_with_values(words, path, index);
        }
        let mut rest = &self.room[..];
        let mut values = self.values.iter();
        let keys = &self.keys[..count_of(count)?];
        Ok(keys
            .iter()
            .map(|row| {
                let key = key_row(row, taken(&mut rest, row.name_size));
                let own = values.by_ref().take(row.values as usize);
                (key, own.map(|row| value_row(row, &mut rest)).collect())
            })
            .collect())
    }

    /// The subkey at an index, which has no place with all its values at once. No other code runs
    /// between these calls.
    fn first_with_values(
        &mut self,
        words: &Words,
        path: &[u8],
        index: u32,
    ) -> Result<Vec<KeyWithValues>> {
        words.subkeys_at(path, index, &mut self.keys[..1], &mut self.room)?;
        let key = key_row(&self.keys[0], &self.room);
        let mut below = path.to_vec();
        if !below.is_empty() {
            below.push(b'\\');
        }
        below.extend(key.name.as_bytes());
        let values = self.first(key.values, Rooms::values_from, words, &below)?;
        Ok(vec![(key, values)])
    }

    /// Makes place for the first value. Its row tells what it needs; twice as much as there was may
    /// spare the next growth.
    fn grow(&mut self) -> Result<()> {
        let first = &self.values[0];
        let needed = u64::from(first.name_size) + u64::from(first.size);
        self.room = zeros(needed.max(2 * self.room.len() as u64))?;
        Ok(())
    }

    /// As many items as a key has.
    fn first<T>(
        &mut self,
        count: u32,
        items_from: ItemsFrom<T>,
        words: &Words,
        path: &[u8],
    ) -> Result<Vec<T>> {
        let mut found = Vec::new();
        while (found.len() as u32) < count {
            let more = items_from(self, words, path, found.len() as u32)?;
            if more.is_empty() {
                break;
            }
            found.extend(more);
        }
        Ok(found)
    }
}

/// How many items were told: none where no item has the index.
fn count_of(count: Result<u32>) -> Result<usize> {
    match count {
        Err(error) if error.status() == Status::NO_MORE_ITEMS => Ok(0),
        count => count.map(|count| count as usize),
    }
}

fn is_short(error: &Error) -> bool {
    error.status() == Status::MORE_DATA
}

/// A key that was told, with its name at the front of a room.
fn key_row(row: &ffi::Subkey, room: &[u8]) -> KeyRow {
    KeyRow {
        name: name(room, row.name_size),
        time: Moment(row.time),
        subkeys: row.subkeys,
        values: row.values,
        marks: row.marks,
    }
}

/// A value that was told, with its name at the front of what is left of a room, and its data behind
/// that.
fn value_row(row: &ffi::Value, rest: &mut &[u8]) -> (String, Value) {
    let name = name(taken(rest, row.name_size), row.name_size);
    (name, Value::new(Kind(row.kind), taken(rest, row.size)))
}

/// Takes bytes off the front.
fn taken<'a>(rest: &mut &'a [u8], size: u32) -> &'a [u8] {
    let (front, behind) = rest.split_at(size as usize);
    *rest = behind;
    front
}

fn joined(path: &str, name: &str) -> String {
    if path.is_empty() {
        name.to_string()
    } else {
        format!("{path}\\{name}")
    }
}
