//! Counts at their limit, and handles that are closed by a drop.

use crate::{new_hive, refused};
use zugmeled::{Filter, Key, Kind, Rights, Status};

#[test]
fn a_drop_closes_its_handle() {
    let hive = new_hive();
    let root = hive.root().unwrap();
    let made = hive.entries().made;
    drop(root.open("").unwrap());
    // The opening and the close.
    assert_eq!(hive.entries().made, made + 2);
    for _ in 0..2 * 16_384 {
        root.open("").unwrap();
    }
}

#[test]
fn no_handle_is_left_where_a_call_is_refused() {
    let mut hive = new_hive();
    let root = hive.root().unwrap();
    root.create("k").unwrap();
    assert_eq!(refused(root.open("none")), Status::FILE_NOT_FOUND);
    assert_eq!(
        refused(root.open_with("k", Rights(0x100))),
        Status::INVALID_PARAMETER
    );
    root.keys().next().unwrap().unwrap();
    drop(root);
    hive.cut().unwrap();
}

#[test]
fn a_session_has_16_384_handles() {
    let hive = new_hive();
    let session = hive.session(1).unwrap();
    let mut keys: Vec<Key<'_>> = (0..16_384)
        .map(|_| session.root(Rights::NOTIFY).unwrap())
        .collect();
    assert_eq!(
        refused(session.root(Rights::ALL)),
        Status::NO_SYSTEM_RESOURCES
    );
    assert_eq!(
        refused(session.check_root(Rights::ALL)),
        Status::NO_SYSTEM_RESOURCES
    );
    assert_eq!(refused(keys[0].open("")), Status::NO_SYSTEM_RESOURCES);
    assert_eq!(refused(keys[0].create("k")), Status::NO_SYSTEM_RESOURCES);
    hive.root().unwrap();
    keys.pop();
    session.root(Rights::ALL).unwrap();
}

#[test]
fn a_session_has_4_096_watches() {
    let hive = new_hive();
    let root = hive.root().unwrap();
    let key = root.open("").unwrap();
    for _ in 0..4_096 {
        key.notify(Filter::LAST_SET, false).unwrap();
    }
    assert_eq!(
        refused(key.notify(Filter::LAST_SET, false)),
        Status::NO_SYSTEM_RESOURCES
    );
    drop(key);
    assert_eq!(hive.notices().count(), 4_096);
    root.notify(Filter::LAST_SET, false).unwrap();
}

#[test]
fn a_key_has_16_384_values() {
    let hive = new_hive();
    let root = hive.root().unwrap();
    for number in 0..16_384 {
        root.set_bytes(&number.to_string(), Kind::NONE, &[])
            .unwrap();
    }
    assert_eq!(
        refused(root.set("more", 1_u32)),
        Status::NO_SYSTEM_RESOURCES
    );
    assert_eq!(root.values().count(), 16_384);
}
