//! Threads that ask for a value or set it, by turns on one of some trees: what sessions of reg_bench are measured beside. A tree is plain
//! maps under one lock, with a journal.
//!
//!     plain_sessions questions|changes SESSIONS TREES CALLS     how many calls are answered a second, of so many of each session
use std::collections::HashMap;
use std::sync::Mutex;
use std::time::Instant;
#[derive(Clone)]
enum Call { Query(u64, Vec<u8>), Set(u64, Vec<u8>, u32, Vec<u8>) }
#[allow(dead_code)]
struct Entry { session: usize, moment: u64, call: Call }
#[allow(dead_code)]
enum Done { Value(u32, Vec<u8>), Entry(u64) }
struct Value { name: Vec<u8>, kind: u32, data: Vec<u8> }
struct Tree { keys: Vec<Vec<Value>>, handles: HashMap<u64, usize>, journal: Vec<Entry> }
#[repr(align(128))]
struct Locked(Mutex<Tree>);
impl Tree {
    fn new(handles: u64) -> Tree {
        let value = Value { name: b"Value0".to_vec(), kind: 3, data: vec![7; 4] };
        Tree { keys: vec![vec![value]], handles: (0..handles).map(|handle| (handle, 0)).collect(), journal: Vec::new() }
    }
    fn find(&mut self, handle: u64, name: &[u8]) -> &mut Value {
        let values = &mut self.keys[self.handles[&handle]];
        values.iter_mut().find(|value| value.name.eq_ignore_ascii_case(name)).unwrap()
    }
}
fn answer(tree: &Mutex<Tree>, session: usize, call: &Call) -> Done {
    match call {
        Call::Query(handle, name) => {
            let mut tree = tree.lock().unwrap();
            let value = tree.find(*handle, name);
            Done::Value(value.kind, value.data.clone())
        }
        Call::Set(handle, name, kind, data) => {
            let entry = Entry { session, moment: 1, call: call.clone() };
            let mut tree = tree.lock().unwrap();
            let value = tree.find(*handle, name);
            value.kind = *kind;
            value.data.clone_from(data);
            tree.journal.push(entry);
            Done::Entry(tree.journal.len() as u64 - 1)
        }
    }
}
fn main() {
    let words: Vec<String> = std::env::args().collect();
    let (sessions, trees, calls) = (words[2].parse().unwrap(), words[3].parse().unwrap(), words[4].parse().unwrap());
    let trees: Vec<Locked> = (0..trees).map(|_| Locked(Mutex::new(Tree::new(sessions)))).collect();
    let name = b"Value0".to_vec();
    let works: Vec<Vec<Call>> = (0..sessions).map(|handle| (0..calls).map(|_| match words[1].as_str() {
        "questions" => Call::Query(handle, name.clone()),
        _ => Call::Set(handle, name.clone(), 3, vec![7; 4]),
    }).collect()).collect();
    let mut outcomes: Vec<Vec<Done>> = works.iter().map(|work| Vec::with_capacity(work.len())).collect();
    let start = Instant::now();
    std::thread::scope(|scope| {
        for (session, (work, done)) in works.iter().zip(&mut outcomes).enumerate() {
            let tree = &trees[session % trees.len()].0;
            scope.spawn(move || done.extend(work.iter().map(|call| answer(tree, session, call))));
        }
    });
    let nanos = start.elapsed().as_nanos();
    println!("{}", outcomes.iter().map(Vec::len).sum::<usize>() as u128 * 1_000_000_000 / nanos);
}
