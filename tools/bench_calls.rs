//! Times calls of the library for C, beside the same on plain maps and beside the same library at another size.
//!
//!     bench_calls maps|sizes|watches     of each row of a subject: how many visits took how many nanoseconds, on both sides
//!     bench_calls tree|cut|rounds        of hives alone: what memory they have is looked at from outside, at the lines that are printed
//!     bench_calls --small                of all rows, with six keys and visits at most: how many entries both sides have then; and of hives
//!                                        alone, with few keys and calls: how many entries are cut, and how large an image is
//!
//! A row is a step on the keys of a place. Both sides make the calls of 100 visits by turns, in one process; they are made ready before the
//! clock starts, and lent to both. Each has to be answered 0 by both, and a small run has to leave the entries that stand in the row: else
//! the status is 1. tools/bench compiles this with the library, and makes means and ratios of what it prints.
#[path = "../bindings/rust/src/ffi.rs"]
mod ffi;
mod plain_maps;

use ffi::{ALL_ACCESS, BINARY, DATA_LIMIT, DESCRIPTOR_LIMIT, FILTER_LAST_SET, HiveWords, SUCCESS};
use plain_maps::{Call, Change, PlainMaps, Query};
use std::hint::black_box;
use std::process::ExitCode;
use std::time::{Duration, Instant};

/// How many keys are visited between two readings of the clock. A session is to have so many more handles than a place has.
const BATCH: u32 = 100;

/// How many keys are visited where nothing else is said.
const VISITS: u32 = 32_000;

/// How large a place is at most, and how many keys are visited, in a small run.
const SMALL: u32 = 6;

/// By it the numbers of keys are mixed. As many in a row as there are keys visit each once.
const PRIME: u64 = 48_271;

/// How many keys are below a parent, and in a list of subkeys that were made in the order of their names.
const EACH: u32 = 250;

/// About as many keys as a session has handles, beside those of their parents and those that are opened once more.
const MANY: u32 = 16_128;

/// Few keys.
const FEW: u32 = 16;

/// How many bytes a value has where nothing else is said, and how many it may have.
const SIZE: usize = 24;
const LARGEST: usize = DATA_LIMIT as usize;

/// How many bytes an image has before its bins.
const BASE_BLOCK: usize = 4_096;

/// How many sessions watch.
const SESSIONS: u8 = 64;

/// The handle of the root, which is opened first.
const ROOT: u64 = 0;

const MOMENT: u64 = 1;

// ---- Both sides

/// What answers calls. The number of a handle is that of the entry that opened it.
trait Stage {
    /// How many entries it has had.
    fn entries(&mut self) -> u64;

    /// Answers a call of a session by its status.
    fn answer(&mut self, session: u8, call: &Call) -> u32;

    /// Makes a change that has to be accepted. Answers the number of its entry.
    fn change(&mut self, session: u8, change: Change) -> Result<u64, String> {
        let entry = self.entries();
        match self.answer(session, &Call::Change(change)) {
            SUCCESS => Ok(entry),
            status => Err(format!("a change before the clock starts is answered {status}")),
        }
    }
}

/// A hive of the library, of one root, and the room for what it answers.
struct Hive {
    words: HiveWords,
    room: Vec<u8>,
}

impl Hive {
    fn new() -> Result<Hive, String> {
        let mut words = HiveWords { holds: 0, at: std::ptr::null_mut() };
        let (name, descriptor) = (b"ROOT", [1]);
        // SAFETY: the words are all zero, and both texts are there.
        match unsafe { ffi::zug_hive_new(&mut words, name.as_ptr(), name.len(), descriptor.as_ptr(), descriptor.len(), 0) } {
            SUCCESS => Ok(Hive { words, room: room() }),
            status => Err(format!("a hive isn't made: {status}")),
        }
    }

    fn apply(&mut self, session: u8, change: &Change) -> u32 {
        let (hive, mut number, mut disposition) = (&mut self.words, 0, 0);
        // SAFETY: the words hold a hive, and each pointer is that of bytes that are as many as is said.
        unsafe {
            match change {
                Change::OpenRoot { mask } => ffi::zug_open_root(hive, session, MOMENT, *mask, &mut number),
                Change::OpenKey { handle, path, mask } => {
                    ffi::zug_open_key(hive, session, MOMENT, *handle, path.as_ptr(), path.len(), *mask, &mut number)
                }
                Change::CreateKey { handle, path, mask, descriptor: text } => ffi::zug_create_key(
                    hive, session, MOMENT, *handle, path.as_ptr(), path.len(), *mask, text.as_ptr(), text.len(), &mut number, &mut disposition,
                ),
                Change::SetValue { handle, name, kind, data } => {
                    ffi::zug_set_value(hive, session, MOMENT, *handle, name.as_ptr(), name.len(), *kind, data.as_ptr(), data.len())
                }
                Change::DeleteKey { handle, path } => ffi::zug_delete_key(hive, session, MOMENT, *handle, path.as_ptr(), path.len()),
                Change::SetSecurity { handle, descriptor } => {
                    ffi::zug_set_security(hive, session, MOMENT, *handle, descriptor.as_ptr(), descriptor.len())
                }
                Change::Notify { handle, filter } => ffi::zug_notify(hive, session, MOMENT, *handle, *filter, false, &mut number),
                Change::Close { handle } => ffi::zug_close(hive, session, MOMENT, *handle),
            }
        }
    }

    fn read(&mut self, session: u8, query: &Query) -> u32 {
        let (hive, room, length) = (&mut self.words, self.room.as_mut_ptr(), self.room.len());
        let (mut kind, mut size, mut time, mut info) = (0, 0, 0, ffi::Info::default());
        // SAFETY: as in `apply`; the room is the hive's alone.
        unsafe {
            match query {
                Query::Value { handle, name } => {
                    ffi::zug_query_value(hive, session, *handle, name.as_ptr(), name.len(), room, length, &mut kind, &mut size)
                }
                Query::Info { handle } => ffi::zug_query_info(hive, session, *handle, &mut info),
                Query::Subkey { handle, index } => ffi::zug_enum_key(hive, session, *handle, *index, room, length, &mut size, &mut time),
                Query::Security { handle } => ffi::zug_get_security(hive, session, *handle, room, length, &mut size),
            }
        }
    }
}

impl Drop for Hive {
    fn drop(&mut self) {
        // SAFETY: nothing else has these words.
        unsafe { ffi::zug_hive_close(&mut self.words) }
    }
}

impl Stage for Hive {
    fn entries(&mut self) -> u64 {
        let (mut entries, mut kept) = (0, 0);
        // SAFETY: as in `apply`. The words hold a hive, so the status is 0.
        unsafe { ffi::zug_entries(&mut self.words, &mut entries, &mut kept) };
        entries
    }

    fn answer(&mut self, session: u8, call: &Call) -> u32 {
        match call {
            Call::Change(change) => self.apply(session, change),
            Call::Query(query) => self.read(session, query),
        }
    }
}

/// Plain maps, and the room for what they answer. They know one session alone.
struct Maps {
    maps: PlainMaps,
    room: Vec<u8>,
}

impl Stage for Maps {
    fn entries(&mut self) -> u64 {
        self.maps.entries()
    }

    fn answer(&mut self, _session: u8, call: &Call) -> u32 {
        match call {
            Call::Change(change) => self.maps.apply(MOMENT, change).status,
            // Nothing of an answer is left out because nobody looks at it.
            Call::Query(query) => match black_box(self.maps.read(query, &mut self.room)) {
                Ok(_) => SUCCESS,
                Err(status) => status,
            },
        }
    }
}

/// Room for each answer of a row.
fn room() -> Vec<u8> {
    vec![0; DESCRIPTOR_LIMIT as usize]
}

// ---- Calls

fn open_root() -> Change {
    Change::OpenRoot { mask: ALL_ACCESS }
}

fn create(handle: u64, path: String, descriptor: Vec<u8>) -> Change {
    Change::CreateKey { handle, path: path.into_bytes(), mask: ALL_ACCESS, descriptor }
}

fn open(handle: u64, path: String) -> Change {
    Change::OpenKey { handle, path: path.into_bytes(), mask: ALL_ACCESS }
}

/// Sets the value of a number to so many bytes.
fn set(handle: u64, value: u32, size: usize) -> Change {
    Change::SetValue { handle, name: value_name(value), kind: BINARY, data: vec![7; size] }
}

/// Asks to be told of a value that is set.
fn watch(handle: u64) -> Change {
    Change::Notify { handle, filter: FILTER_LAST_SET }
}

fn value_name(value: u32) -> Vec<u8> {
    format!("Value{value}").into_bytes()
}

/// The descriptor of a number. Those of two numbers differ only at their ends.
fn descriptor(number: u32) -> Vec<u8> {
    format!("Descriptor of each key {number}").into_bytes()
}

/// The name of a key that is there before the clock starts. The order of these names is that of the numbers.
fn key_name(key: u32) -> String {
    format!("Key{key:08}")
}

/// The name of a parent, or of a key that a timed call makes or deletes. The order of these names isn't that of the numbers.
fn mixed_name(key: u32) -> String {
    format!("{:08X}", key.wrapping_mul(2_654_435_769))
}

// ---- Places: what is there before the clock starts

/// What is there, of a size that a place says.
#[derive(Clone, Copy, PartialEq)]
enum Scene {
    /// The parents of so many keys that are still to be made. Each has an open handle.
    Parents,
    /// So many keys with a value each, below parents. Each key and parent has an open handle.
    Keys,
    /// So many keys with a value and an open handle each, each below the one before.
    Chain,
    /// The root has so many subkeys.
    Subkeys,
    /// The root has subkeys in so many lists, each of one subkey but for the last three.
    SparseLists,
    /// The root has so many values.
    Values,
    /// So many keys with a descriptor and an open handle each.
    Descriptors,
    /// 64 keys, of which each has so many watches of a session of its own, and half as many others, with open handles.
    Watched,
    /// The same after the watches ended, since the handles that watched were closed.
    Ended,
    /// A key with so many watches.
    WatchedKey,
}

#[derive(Clone, Copy)]
struct Place {
    scene: Scene,
    size: u32,
}

impl Place {
    fn small(self) -> Place {
        Place { size: self.size.min(SMALL), ..self }
    }

    /// How many keys or values can be visited.
    fn keys(self) -> u32 {
        match self.scene {
            Scene::Watched | Scene::Ended => self.size / 2,
            _ => self.size,
        }
    }

    /// How many keys are made right below the root first. The handle of each is its number and 1.
    fn parents(self) -> u32 {
        match self.scene {
            Scene::Parents | Scene::Keys => self.size / EACH + 1,
            Scene::Watched | Scene::Ended => self.keys(),
            Scene::WatchedKey => 1,
            _ => 0,
        }
    }

    /// The handle of a key's parent.
    fn parent(self, key: u32) -> u64 {
        match self.scene {
            Scene::Parents | Scene::Keys => 1 + u64::from(key / EACH),
            Scene::Chain => (2 * u64::from(key)).saturating_sub(1),
            _ => ROOT,
        }
    }

    /// The open handle of a key, or of the one key that has all values; of a chain that of the last key.
    fn handle(self, key: u32) -> u64 {
        match self.scene {
            Scene::Keys => 1 + u64::from(self.parents()) + 2 * u64::from(key),
            Scene::Chain => self.parent(self.size),
            Scene::Descriptors | Scene::Watched | Scene::Ended => 1 + u64::from(key),
            Scene::WatchedKey => 1,
            _ => ROOT,
        }
    }

    /// The number of the value that a key's number stands for.
    fn value(self, key: u32) -> u32 {
        if self.scene == Scene::Values { key } else { 0 }
    }

    /// Opens the root and makes what is there.
    fn fill(self, stage: &mut impl Stage) -> Result<(), String> {
        stage.change(0, open_root())?;
        for parent in 0..self.parents() {
            stage.change(0, create(ROOT, mixed_name(parent), Vec::new()))?;
        }
        match self.scene {
            Scene::Watched | Scene::Ended => (0..SESSIONS).try_for_each(|session| self.watch_by(stage, session)),
            _ => (0..self.size).try_for_each(|key| self.fill_one(stage, key)),
        }
    }

    fn fill_one(self, stage: &mut impl Stage, key: u32) -> Result<(), String> {
        match self.scene {
            Scene::Parents | Scene::Watched | Scene::Ended => {}
            Scene::Keys | Scene::Chain => {
                let handle = stage.change(0, create(self.parent(key), key_name(key), Vec::new()))?;
                stage.change(0, set(handle, 0, SIZE))?;
            }
            Scene::Subkeys => make_closed(stage, key)?,
            Scene::SparseLists => fill_list(stage, key)?,
            Scene::Values => {
                stage.change(0, set(ROOT, key, SIZE))?;
            }
            Scene::Descriptors => {
                stage.change(0, create(ROOT, format!("Group{}\\Key{key}", key / EACH), descriptor(key)))?;
            }
            Scene::WatchedKey => {
                stage.change(0, watch(1))?;
            }
        }
        Ok(())
    }

    /// Lets a session watch a key of its own. Where the watches are to end, its handle is closed.
    fn watch_by(self, stage: &mut impl Stage, session: u8) -> Result<(), String> {
        let root = stage.change(session, open_root())?;
        let handle = stage.change(session, create(root, format!("Watched{session}"), Vec::new()))?;
        for _watch in 0..self.size {
            stage.change(session, watch(handle))?;
        }
        if self.scene == Scene::Ended {
            stage.change(session, Change::Close { handle })?;
        }
        Ok(())
    }
}

/// Makes a subkey of the root.
fn make_closed(stage: &mut impl Stage, key: u32) -> Result<(), String> {
    let handle = stage.change(0, create(ROOT, key_name(key), Vec::new()))?;
    stage.change(0, Change::Close { handle })?;
    Ok(())
}

/// Makes the subkeys of one more list, and deletes those of the third one before but the first. No more subkeys come into that one.
fn fill_list(stage: &mut impl Stage, list: u32) -> Result<(), String> {
    for key in 0..EACH {
        make_closed(stage, list * EACH + key)?;
    }
    let Some(before) = list.checked_sub(3) else {
        return Ok(());
    };
    for key in 1..EACH {
        let path = key_name(before * EACH + key).into_bytes();
        stage.change(0, Change::DeleteKey { handle: ROOT, path })?;
    }
    Ok(())
}

// ---- Steps: what is timed

/// What is done to each of some keys.
#[derive(Clone, Copy, PartialEq)]
enum Step {
    /// Makes another key beside it with three values, and closes that: five calls.
    Make,
    /// Deletes such a key.
    Delete,
    /// Opens it by its parent.
    Open,
    /// Opens it by its own handle.
    OpenSame,
    /// Closes the handle that was opened.
    Close,
    /// Asks for a value.
    Query,
    /// Sets a value, to as many bytes as it has.
    Set,
    /// Sets a value to as many bytes as it may have.
    SetLargest,
    /// Asks what it has.
    QueryInfo,
    /// Asks for the subkey of the root whose index is the key's number.
    EnumKey,
    /// Sets the root's descriptor to the one that it has.
    SetSecurity,
    /// Asks for its descriptor.
    GetSecurity,
}

impl Step {
    /// What is done before, while no time is taken.
    fn before(self) -> Option<Step> {
        match self {
            Step::Close => Some(Step::Open),
            Step::Delete => Some(Step::Make),
            _ => None,
        }
    }

    /// What is done after, while no time is taken.
    fn after(self) -> Option<Step> {
        match self {
            Step::Open | Step::OpenSame => Some(Step::Close),
            _ => None,
        }
    }

    /// The calls for these keys. Where they open handles, or close those that were opened, these are numbered from the first one.
    fn calls(self, place: Place, keys: &[u32], first: u64) -> Vec<Call> {
        let mut calls = Vec::new();
        for key in keys {
            let opened = first + calls.len() as u64;
            match self {
                Step::Make => push_make(&mut calls, place.parent(*key), *key, opened),
                _ => calls.push(self.call(place, *key, opened)),
            }
        }
        calls
    }

    fn call(self, place: Place, key: u32, opened: u64) -> Call {
        let handle = place.handle(key);
        match self {
            Step::Query => Call::Query(Query::Value { handle, name: value_name(place.value(key)) }),
            Step::QueryInfo => Call::Query(Query::Info { handle }),
            Step::EnumKey => Call::Query(Query::Subkey { handle, index: key }),
            Step::GetSecurity => Call::Query(Query::Security { handle }),
            Step::Open => Call::Change(open(place.parent(key), key_name(key))),
            Step::OpenSame => Call::Change(open(handle, String::new())),
            Step::Set => Call::Change(set(handle, place.value(key), SIZE)),
            Step::SetLargest => Call::Change(set(handle, place.value(key), LARGEST)),
            Step::Delete => Call::Change(Change::DeleteKey { handle: place.parent(key), path: mixed_name(key).into_bytes() }),
            Step::SetSecurity => Call::Change(Change::SetSecurity { handle: ROOT, descriptor: descriptor(key) }),
            Step::Make | Step::Close => Call::Change(Change::Close { handle: opened }),
        }
    }
}

/// The five calls that make a key whose handle has a number.
fn push_make(calls: &mut Vec<Call>, above: u64, key: u32, handle: u64) {
    calls.push(Call::Change(create(above, mixed_name(key), Vec::new())));
    calls.extend((0..3).map(|value| Call::Change(set(handle, value, SIZE))));
    calls.push(Call::Change(Change::Close { handle }));
}

// ---- Rows

/// What is done, and where.
#[derive(Clone, Copy)]
struct Row {
    what: &'static str,
    step: Step,
    place: Place,
    /// The hive that stands beside; `None`: plain maps with the same keys.
    other: Option<Place>,
    /// Among how many keys of the place those are chosen that are visited.
    among: u32,
    visits: u32,
    /// How many entries both sides have after a small run.
    entries: [u64; 2],
}

/// How long calls took, and the status of each.
struct Played {
    time: Duration,
    statuses: Vec<u32>,
}

impl Row {
    /// A row beside plain maps.
    fn new(what: &'static str, step: Step, scene: Scene, size: u32, entries: [u64; 2]) -> Row {
        let place = Place { scene, size };
        Row { what, step, place, other: None, among: place.keys(), visits: VISITS, entries }
    }

    /// The row beside another hive.
    fn beside(self, scene: Scene, size: u32) -> Row {
        Row { other: Some(Place { scene, size }), ..self }
    }

    /// The row that visits the first keys alone.
    fn among(self, among: u32) -> Row {
        Row { among, ..self }
    }

    /// The row with so many visits.
    fn visits(self, visits: u32) -> Row {
        Row { visits, ..self }
    }

    fn small(self) -> Row {
        Row { place: self.place.small(), other: self.other.map(Place::small), visits: self.visits.min(SMALL), ..self }
    }

    /// Does the row, and prints what it took.
    fn measure(self) -> Result<(), String> {
        let (times, _) = self.run()?;
        let [ours, beside] = times.map(|time| time.as_nanos());
        let other = self.other.map_or("plain maps".to_string(), |place| format!("at {}", place.size));
        println!("{}, {}: {} visits in {ours} ns, {other} {} visits in {beside} ns", self.what, self.place.size, self.visits, self.visits);
        Ok(())
    }

    /// Does the row with few keys, and prints how many entries both sides have then.
    fn check(self) -> Result<(), String> {
        let row = self.small();
        let (_, entries) = row.run()?;
        println!("{}: {} visits, {} entries, {} beside", row.what, row.visits, entries[0], entries[1]);
        if entries == row.entries { Ok(()) } else { Err(format!("{}: wanted are {:?} entries", row.what, row.entries)) }
    }

    /// Does the row on both sides. Answers how long that took, and how many entries there are then.
    fn run(self) -> Result<([Duration; 2], [u64; 2]), String> {
        let told = match self.other {
            Some(place) => self.run_beside(place, Hive::new()?),
            None => self.run_beside(self.place, Maps { maps: PlainMaps::new(), room: room() }),
        };
        told.map_err(|why| format!("{}: {why}", self.what))
    }

    /// Fills both sides, and makes the calls on each, a batch at a time.
    fn run_beside(self, other: Place, mut beside: impl Stage) -> Result<([Duration; 2], [u64; 2]), String> {
        let mut ours = Hive::new()?;
        self.place.fill(&mut ours)?;
        other.fill(&mut beside)?;
        let mut times = [Duration::ZERO; 2];
        for first in (0..self.visits).step_by(BATCH as usize) {
            let played = [self.play(&mut ours, self.place, first), self.play(&mut beside, other, first)];
            compare(&played)?;
            times[0] += played[0].time;
            times[1] += played[1].time;
        }
        Ok((times, [ours.entries(), beside.entries()]))
    }

    /// Makes the calls of a batch on one side. They are made ready before the clock starts.
    fn play(self, stage: &mut impl Stage, place: Place, first: u32) -> Played {
        let keys = self.keys(place, first);
        let entries = stage.entries();
        let mut statuses = Vec::new();
        let mut play = |step: Step| {
            let calls = step.calls(place, &keys, entries);
            statuses.reserve(calls.len());
            let start = Instant::now();
            statuses.extend(calls.iter().map(|call| stage.answer(0, call)));
            start.elapsed()
        };
        if let Some(before) = self.step.before() {
            play(before);
        }
        let time = play(self.step);
        if let Some(after) = self.step.after() {
            play(after);
        }
        Played { time, statuses }
    }

    /// The keys that a batch visits: all of them in an order of chance, over and over.
    fn keys(self, place: Place, first: u32) -> Vec<u32> {
        let among = u64::from(self.among.min(place.keys()));
        let last = self.visits.min(first + BATCH);
        (first..last).map(|index| (u64::from(index) * PRIME % among) as u32).collect()
    }
}

/// Whether both sides answered 0 to each call.
fn compare(played: &[Played; 2]) -> Result<(), String> {
    let [ours, beside] = played.each_ref().map(|side| &side.statuses);
    if ours.len() != beside.len() {
        return Err(format!("{} calls, and beside {}", ours.len(), beside.len()));
    }
    match ours.iter().zip(beside).position(|both| both != (&SUCCESS, &SUCCESS)) {
        Some(at) => Err(format!("call {at} of a batch is answered {}, and beside {}", ours[at], beside[at])),
        None => Ok(()),
    }
}

/// Calls beside plain maps.
fn beside_maps() -> Vec<Row> {
    use {Scene::*, Step::*};
    vec![
        Row::new("five calls make a key", Make, Parents, 100_000, [32, 32]).visits(100_000),
        Row::new("Close", Close, Keys, MANY, [26, 26]),
        Row::new("QueryValue", Query, Keys, MANY, [14, 14]),
        Row::new("SetValue", Set, Keys, MANY, [20, 20]),
        Row::new("OpenKey", Open, Keys, MANY, [26, 26]),
        Row::new("DeleteKey", Delete, Keys, MANY, [50, 50]),
        Row::new("QueryValue", Query, Keys, FEW, [14, 14]),
        Row::new("SetValue", Set, Keys, FEW, [20, 20]),
        Row::new("QueryInfo, subkeys", QueryInfo, Subkeys, 499, [13, 13]),
        Row::new("QueryInfo, values", QueryInfo, Values, 1_000, [7, 7]),
        Row::new("SetValue among values", Set, Values, 16_384, [13, 13]).visits(2_000),
        Row::new("SetValue of 1 MiB", SetLargest, Values, 1, [8, 8]).visits(50),
    ]
}

/// Calls at two sizes.
fn at_two_sizes() -> Vec<Row> {
    use {Scene::*, Step::*};
    vec![
        Row::new("QueryValue of 16 keys", Query, Keys, MANY, [14, 14]).beside(Keys, FEW).among(FEW),
        Row::new("QueryValue of all keys", Query, Keys, MANY, [14, 14]).beside(Keys, FEW),
        Row::new("QueryInfo of all keys", QueryInfo, Keys, MANY, [14, 14]).beside(Keys, FEW),
        Row::new("OpenKey of all keys", Open, Keys, MANY, [26, 26]).beside(Keys, FEW),
        Row::new("QueryValue, depth", Query, Chain, 500, [13, 3]).beside(Chain, 1),
        Row::new("OpenKey of the empty path, depth", OpenSame, Chain, 500, [25, 15]).beside(Chain, 1),
        Row::new("OpenKey among subkeys", Open, Subkeys, 60_000, [25, 25]).beside(Subkeys, 500),
        Row::new("SetSecurity, one of ten", SetSecurity, Descriptors, 10_000, [13, 13]).beside(Descriptors, 10).among(10),
        Row::new("SetSecurity, any", SetSecurity, Descriptors, 10_000, [13, 13]).beside(Descriptors, 10),
        Row::new("GetSecurity, any", GetSecurity, Descriptors, 10_000, [7, 7]).beside(Descriptors, 10),
        Row::new("EnumKey, lists of one", EnumKey, SparseLists, 2_364, [3_748, 13]).beside(Subkeys, 2_364),
    ]
}

/// Sets beside pending watches, and calls that end them.
fn with_watches() -> Vec<Row> {
    use {Scene::*, Step::*};
    vec![
        Row::new("SetValue by one handle", Set, Watched, 4_096, [522, 586]).beside(Ended, 4_096).among(1),
        Row::new("SetValue by all handles", Set, Watched, 4_096, [522, 586]).beside(Ended, 4_096),
        Row::new("SetValue that ends watches", Set, WatchedKey, 4_096, [9, 4]).beside(WatchedKey, 1).visits(1),
    ]
}

// ---- Hives alone

fn must(status: u32) -> Result<(), String> {
    match status {
        SUCCESS => Ok(()),
        _ => Err(format!("a call is answered {status}")),
    }
}

impl Hive {
    /// A hive without room for answers: only its own memory is looked at.
    fn alone() -> Result<Hive, String> {
        let mut hive = Hive::new()?;
        hive.room = Vec::new();
        Ok(hive)
    }

    /// Opens the root. Answers the handle.
    fn root(&mut self) -> Result<u64, String> {
        self.change(0, open_root())
    }

    /// Begins the journal anew. Answers how many entries it had.
    fn cut(&mut self) -> Result<u64, String> {
        let mut cut = 0;
        // SAFETY: as in `apply`.
        must(unsafe { ffi::zug_hive_cut(&mut self.words, &mut cut) })?;
        Ok(cut)
    }

    /// How many bytes the hive's image has, and how many entries the hive has had.
    fn image_size(&mut self) -> Result<(usize, u64), String> {
        let (mut size, mut entries) = (0, 0);
        // SAFETY: as in `apply`.
        must(unsafe { ffi::zug_image_size(&mut self.words, &mut size, &mut entries) })?;
        Ok((size as usize, entries))
    }

    /// The hive's image.
    fn image(&mut self) -> Result<Vec<u8>, String> {
        let (size, entries) = self.image_size()?;
        let mut image = vec![0; size];
        // SAFETY: as in `apply`.
        must(unsafe { ffi::zug_image_part(&mut self.words, MOMENT, 1, entries, 0, image.as_mut_ptr(), image.len()) })?;
        Ok(image)
    }

    /// Sets a value of the root so many times, by a handle that is closed then.
    fn set_often(&mut self, changes: u32) -> Result<(), String> {
        let root = self.root()?;
        let set = set(root, 0, 4);
        for _ in 0..changes {
            must(self.apply(0, &set))?;
        }
        must(self.apply(0, &Change::Close { handle: root }))
    }

    /// Makes keys below the parent of a number, with a value each of less data than a page has.
    fn make_keys(&mut self, parent: u32) -> Result<(), String> {
        let root = self.root()?;
        for key in 0..EACH {
            let path = format!("{}\\{}", key_name(parent), key_name(key));
            let key = self.change(0, create(root, path, Vec::new()))?;
            must(self.apply(0, &set(key, 0, 1_000)))?;
            must(self.apply(0, &Change::Close { handle: key }))?;
        }
        must(self.apply(0, &Change::Close { handle: root }))
    }
}

/// Makes a hive of keys with a value each, whose journal begins anew behind each parent, and tells how many bytes its bins have.
fn fill_tree(parents: u32) -> Result<(), String> {
    let mut hive = Hive::alone()?;
    for parent in 0..parents {
        hive.make_keys(parent)?;
        hive.cut()?;
    }
    let (size, _) = hive.image_size()?;
    println!("tree of {} keys: {} bytes of bins", parents * EACH, size - BASE_BLOCK);
    Ok(())
}

/// Cuts a hive's journal behind one change, and behind many. Answers how many entries were cut.
fn cut_behind(changes: u32) -> Result<[u64; 2], String> {
    let mut hive = Hive::alone()?;
    let mut cuts = [0; 2];
    for (cut, changes) in cuts.iter_mut().zip([1, changes]) {
        hive.set_often(changes)?;
        *cut = hive.cut()?;
        println!("cut behind {changes} changes: {cut} entries");
    }
    Ok(cuts)
}

/// Makes rounds of changes, behind each of which the image is taken and the journal cut. Answers how many entries were cut last, and how many
/// bytes the image had.
fn make_rounds(rounds: u32, changes: u32) -> Result<(u64, usize), String> {
    let mut hive = Hive::alone()?;
    let mut last = (0, 0);
    for round in 0..rounds {
        hive.set_often(changes)?;
        let size = hive.image()?.len();
        last = (hive.cut()?, size);
        println!("round {round}: {} entries, an image of {size} bytes", last.0);
    }
    Ok(last)
}

/// What `--small` does with hives alone. A round has a set for each change, and opens and closes the root. The image has its base block and
/// one bin of a page.
fn check_hives() -> Result<(), String> {
    let each = u64::from(SMALL) + 2;
    fill_tree(2)?;
    match (cut_behind(SMALL)?, make_rounds(2, SMALL)?) {
        (cuts, last) if cuts == [3, each] && last == (each, 2 * BASE_BLOCK) => Ok(()),
        (cuts, last) => Err(format!("{cuts:?} entries were cut, and behind rounds {last:?}")),
    }
}

fn run(word: &str) -> Result<(), String> {
    match word {
        "tree" => fill_tree(720),
        "cut" => cut_behind(1_000_000).map(drop),
        "rounds" => make_rounds(100, 200_000).map(drop),
        "maps" => beside_maps().into_iter().try_for_each(Row::measure),
        "sizes" => at_two_sizes().into_iter().try_for_each(Row::measure),
        "watches" => with_watches().into_iter().try_for_each(Row::measure),
        "--small" => [beside_maps(), at_two_sizes(), with_watches()].into_iter().flatten().try_for_each(Row::check).and_then(|()| check_hives()),
        _ => Err("the words are: maps, sizes, watches, tree, cut, rounds, --small".to_string()),
    }
}

fn main() -> ExitCode {
    match run(&std::env::args().nth(1).unwrap_or_default()) {
        Ok(()) => ExitCode::SUCCESS,
        Err(why) => {
            eprintln!("bench_calls: {why}");
            ExitCode::FAILURE
        }
    }
}
