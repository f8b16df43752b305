//! Keys that are made on plain maps, with a journal: what a key made by a script of `regtool run` is measured beside, without the script. The
//! calls are made ready before the clock starts.
//!
//!     plain_keys KEYS     the processor's nanoseconds of a key with three values, whose handle is closed again
use std::collections::{BTreeMap, HashMap};
#[allow(dead_code)]
enum Change { Create(u64, Vec<u8>), Set(u64, Vec<u8>, Vec<u8>), Close(u64) }
#[derive(Default)]
struct Key { children: BTreeMap<Vec<u8>, usize>, values: Vec<(Vec<u8>, Vec<u8>)> }
fn nanos() -> u64 {
    let told = std::fs::read_to_string("/proc/self/schedstat").unwrap();
    told.split(' ').next().unwrap().parse().unwrap()
}
fn main() {
    let keys: u64 = std::env::args().nth(1).unwrap().parse().unwrap();
    let mut changes = Vec::new();
    for parent in 0..keys / 250 { changes.push(Change::Create(0, format!("Parent{parent}").into_bytes())); }
    let mut handle = keys / 250 + 1;
    for key in 0..keys {
        changes.push(Change::Create(key / 250 + 1, format!("Key{key}").into_bytes()));
        for value in 0..3 { changes.push(Change::Set(handle, format!("Value{value}").into_bytes(), vec![7; 24])); }
        changes.push(Change::Close(handle));
        handle += 5;
    }
    let (mut store, mut handles, mut journal) = (vec![Key::default()], HashMap::from([(0, 0)]), Vec::new());
    let start = nanos();
    for (entry, change) in changes.into_iter().enumerate() {
        match &change {
            Change::Create(above, name) => {
                let folded: Vec<u8> = name.iter().map(|byte| byte.to_ascii_uppercase()).collect();
                let place = store.len();
                store[handles[above]].children.insert(folded, place);
                store.push(Key::default());
                handles.insert(entry as u64 + 1, place);
            }
            Change::Set(handle, name, data) => {
                let values = &mut store[handles[handle]].values;
                match values.iter_mut().find(|value| value.0.eq_ignore_ascii_case(name)) {
                    Some(value) => value.1 = data.clone(),
                    None => values.push((name.clone(), data.clone())),
                }
            }
            Change::Close(handle) => { handles.remove(handle); }
        }
        journal.push(change);
    }
    println!("{}", (nanos() - start) / keys);
}
