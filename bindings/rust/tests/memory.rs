//! Memory that is refused to the library: each call answers so and changes nothing, and succeeds
//! once enough is granted. Names and data have more than 16 bytes: fewer need no memory.
//!
//! The library calls `malloc` and `realloc`, which stand here. Rust's own memory comes by `calloc`,
//! and is never refused.
#![cfg(target_env = "gnu")]

use std::alloc::{GlobalAlloc, Layout, System};
use std::cell::Cell;
use std::ffi::c_void;
use std::ptr;
use zugmeled::{Change, Filter, Hive, Key, Kind, Result, Rights, Status, EMPTY_SECURITY};

const KEY: &str = "key of many letters";
const BELOW: &str = "key of many letters\\below";
const VALUE: &str = "value of many letters";
const TEXT: &str = "text of many letters";

thread_local! {
    /// How many requests of this thread are granted before all others are refused.
    static GRANTED: Cell<usize> = const { Cell::new(usize::MAX) };
}

unsafe extern "C" {
    fn __libc_malloc(size: usize) -> *mut c_void;
    fn __libc_realloc(block: *mut c_void, size: usize) -> *mut c_void;
}

fn is_refused() -> bool {
    match GRANTED.get() {
        usize::MAX => false,
        0 => true,
        granted => {
            GRANTED.set(granted - 1);
            false
        }
    }
}

#[no_mangle]
extern "C" fn malloc(size: usize) -> *mut c_void {
    if is_refused() {
        return ptr::null_mut();
    }
    // SAFETY: it is the system's own malloc.
    unsafe { __libc_malloc(size) }
}

/// # Safety
/// As of the system's own realloc.
#[no_mangle]
unsafe extern "C" fn realloc(block: *mut c_void, size: usize) -> *mut c_void {
    if is_refused() {
        return ptr::null_mut();
    }
    // SAFETY: what is owed is the same.
    unsafe { __libc_realloc(block, size) }
}

struct Unrefused;

#[global_allocator]
static UNREFUSED: Unrefused = Unrefused;

// SAFETY: memory of zeros is memory. A realloc is made of these two.
unsafe impl GlobalAlloc for Unrefused {
    unsafe fn alloc(&self, layout: Layout) -> *mut u8 {
        // SAFETY: what is owed is the same.
        unsafe { System.alloc_zeroed(layout) }
    }

    unsafe fn dealloc(&self, block: *mut u8, layout: Layout) {
        // SAFETY: the system gave the block.
        unsafe { System.dealloc(block, layout) }
    }
}

/// Calls with one more request granted each time, until it succeeds. It is refused at least once.
fn until_granted<T>(call: impl Fn() -> Result<T>) -> T {
    for granted in 0.. {
        GRANTED.set(granted);
        let answer = call();
        GRANTED.set(usize::MAX);
        match answer {
            Ok(answer) => {
                assert!(granted > 0, "no memory was asked for");
                return answer;
            }
            Err(error) => assert_eq!(error.status(), Status::NOT_ENOUGH_MEMORY),
        }
    }
    unreachable!()
}

/// The same of a call that takes memory only now and then: it is made until it does.
fn until_refused<T>(call: impl Fn() -> Result<T>) {
    let mut answers = Vec::with_capacity(4096);
    GRANTED.set(0);
    let refused = (0..4096).find_map(|_| call().map(|answer| answers.push(answer)).err());
    GRANTED.set(usize::MAX);
    assert_eq!(refused.unwrap().status(), Status::NOT_ENOUGH_MEMORY);
}

fn with_root(test: impl FnOnce(&Key<'_>)) {
    let hive = Hive::new("ROOT", &EMPTY_SECURITY).unwrap();
    let root = hive.root().unwrap();
    test(&root);
}

#[test]
fn makers_are_refused() {
    let hive = until_granted(|| Hive::new("ROOT", &EMPTY_SECURITY));
    let image = hive.image().unwrap();
    let loaded = until_granted(|| Hive::load(&image));
    loaded.root().unwrap();
}

#[test]
fn changes_are_refused() {
    with_root(|root| {
        until_granted(|| root.create_with(BELOW, Rights::ALL, b"own, of many bytes"));
        until_granted(|| root.open(KEY));
        until_granted(|| root.set(VALUE, TEXT));
        until_granted(|| root.set_security(b"third, of many bytes"));
        until_granted(|| root.delete_value(VALUE));
        until_granted(|| root.delete(BELOW));
        until_granted(|| root.delete_tree(KEY));
        until_granted(|| {
            root.check(Change::Set {
                name: VALUE,
                kind: Kind::BINARY,
                bytes: TEXT.as_bytes(),
            })
        });
    });
}

#[test]
fn questions_are_refused() {
    with_root(|root| {
        root.create(KEY).unwrap();
        root.set(VALUE, TEXT).unwrap();
        until_granted(|| root.value(VALUE));
        until_granted(|| root.get::<String>(VALUE));
        until_granted(|| root.values().collect::<Result<Vec<_>>>());
        until_granted(|| root.security());
    });
}

#[test]
fn questions_into_the_room_given_need_no_memory() {
    let hive = Hive::new("ROOT", &EMPTY_SECURITY).unwrap();
    let root = hive.root().unwrap();
    root.create("k\\below").unwrap();
    root.set("large", vec![1; 100_000]).unwrap();
    GRANTED.set(0);
    let value = root.value("large");
    let keys = root.keys().collect::<Result<Vec<_>>>();
    let looked = hive.look("k");
    let subkeys = hive.subkeys("k").collect::<Result<Vec<_>>>();
    let values = hive.values("").collect::<Result<Vec<_>>>();
    let steps = hive.walk("").collect::<Result<Vec<_>>>();
    GRANTED.set(usize::MAX);
    assert_eq!(value.unwrap().bytes.len(), 100_000);
    assert_eq!(keys.unwrap().len(), 1);
    assert_eq!(looked.unwrap().subkeys, 1);
    assert_eq!(subkeys.unwrap().len(), 1);
    assert_eq!(values.unwrap().len(), 1);
    assert_eq!(steps.unwrap().len(), 3);
}

#[test]
fn handles_and_watches_are_refused() {
    let hive = Hive::new("ROOT", &EMPTY_SECURITY).unwrap();
    let root = hive.root().unwrap();
    until_refused(|| hive.root());
    until_refused(|| root.notify(Filter::NAME, true));
}

#[test]
fn a_drop_needs_no_memory() {
    let mut hive = Hive::new("ROOT", &EMPTY_SECURITY).unwrap();
    let root = hive.root().unwrap();
    GRANTED.set(0);
    drop(root);
    GRANTED.set(usize::MAX);
    hive.cut().unwrap();
}
