//! Keys opened, made, listed and deleted.

use crate::{new_hive, poor, refused, MOMENT};
use zugmeled::{
    Change, Clock, Created, Filter, Info, Key, Kind, Moment, Rights, Status, SubKey, EMPTY_SECURITY,
};

#[test]
fn a_path_is_made_and_opened_in_any_case() {
    let hive = new_hive();
    let root = hive.root().unwrap();
    root.create("Soft\\Zug").unwrap().set("v", 1_u32).unwrap();
    assert_eq!(
        root.open("SOFT\\zug").unwrap().get::<u32>("V").unwrap(),
        Some(1)
    );
    assert_eq!(root.open("").unwrap().info().unwrap().subkeys, 1);
}

#[test]
fn what_cant_be_opened_is_refused() {
    let hive = new_hive();
    let root = hive.root().unwrap();
    assert_eq!(refused(root.open("none")), Status::FILE_NOT_FOUND);
    assert_eq!(refused(root.open("a\\\\b")), Status::INVALID_PARAMETER);
    assert_eq!(refused(root.open("\u{e4}")), Status::INVALID_PARAMETER);
    assert_eq!(refused(root.open("a\0b")), Status::INVALID_PARAMETER);
    assert_eq!(
        refused(root.open_with("", Rights(0x100))),
        Status::INVALID_PARAMETER
    );
}

#[test]
fn what_cant_be_made_is_refused() {
    let hive = new_hive();
    let root = hive.root().unwrap();
    assert_eq!(refused(root.create("\\")), Status::INVALID_PARAMETER);
    let long = root.create_with("k", Rights::ALL, &[0; 65_536]);
    assert_eq!(refused(long), Status::INVALID_PARAMETER);
    let rights = root.create_with("k", Rights(0x100), &[]);
    assert_eq!(refused(rights), Status::INVALID_PARAMETER);
    assert_eq!(
        refused(root.create(&path_of(33))),
        Status::NO_SYSTEM_RESOURCES
    );
    root.create(&path_of(32)).unwrap();
}

fn path_of(names: usize) -> String {
    vec!["k"; names].join("\\")
}

#[test]
fn a_key_tells_whether_it_was_made() {
    let hive = new_hive();
    let root = hive.root().unwrap();
    let make = || root.create_with("a\\b", Rights::ALL, b"own").unwrap();
    let Created { key, is_new } = make();
    assert!(is_new);
    assert_eq!(key.security().unwrap(), b"own");
    assert_eq!(root.open("a").unwrap().security().unwrap(), EMPTY_SECURITY);
    assert!(!make().is_new);
}

#[test]
fn subkeys_come_in_the_order_of_their_names() {
    let hive = new_hive();
    let root = hive.root().unwrap();
    hive.set_clock(Clock::At(Moment(5)));
    for name in ["b", "C", "a", &"n".repeat(255)] {
        root.create(name).unwrap();
    }
    let found: Vec<SubKey> = root.keys().collect::<Result<_, _>>().unwrap();
    let names: Vec<&str> = found.iter().map(|key| key.name.as_str()).collect();
    assert_eq!(names, ["a", "b", "C", &"n".repeat(255)]);
    assert!(found.iter().all(|key| key.time == Moment(5)));
}

#[test]
fn a_loop_over_nothing_is_over() {
    let hive = new_hive();
    let root = hive.root().unwrap();
    let mut keys = root.keys();
    assert!(keys.next().is_none());
    root.create("k").unwrap();
    assert!(keys.next().is_none());
}

#[test]
fn a_loop_is_over_behind_an_error() {
    let hive = new_hive();
    let poor = poor(&hive.root().unwrap());
    let mut keys = poor.keys();
    assert_eq!(refused(keys.next().unwrap()), Status::ACCESS_DENIED);
    assert!(keys.next().is_none());
    let mut values = poor.values();
    assert_eq!(refused(values.next().unwrap()), Status::ACCESS_DENIED);
    assert!(values.next().is_none());
}

#[test]
fn several_keys_are_open_while_the_hive_changes() {
    let hive = new_hive();
    let root = hive.root().unwrap();
    let first = root.create("a").unwrap();
    let second = root.open("A").unwrap();
    let below = second.create("b").unwrap();
    first.set("v", 1_u32).unwrap();
    below.set("v", 2_u32).unwrap();
    assert_eq!(second.get::<u32>("v").unwrap(), Some(1));
    assert_eq!(first.keys().count(), 1);
}

#[test]
fn a_key_tells_its_numbers() {
    let hive = new_hive();
    let root = hive.root().unwrap();
    root.create("abc").unwrap();
    root.set("name", "text").unwrap();
    let expected = Info {
        subkeys: 1,
        longest_key: 3,
        values: 1,
        longest_value: 4,
        largest: 10,
        security: 20,
        time: MOMENT,
    };
    assert_eq!(root.info().unwrap(), expected);
    assert_eq!(refused(poor(&root).info()), Status::ACCESS_DENIED);
}

#[test]
fn a_security_descriptor_is_kept_as_it_is() {
    let hive = new_hive();
    let root = hive.root().unwrap();
    for security in [vec![1], vec![2; 1024], vec![3; 1025], vec![4; 65_535]] {
        root.set_security(&security).unwrap();
        assert_eq!(root.security().unwrap(), security);
    }
    assert_eq!(refused(root.set_security(&[])), Status::INVALID_PARAMETER);
    assert_eq!(
        refused(root.set_security(&[0; 65_536])),
        Status::INVALID_PARAMETER
    );
    assert_eq!(refused(poor(&root).security()), Status::ACCESS_DENIED);
    assert_eq!(
        refused(poor(&root).set_security(&[1])),
        Status::ACCESS_DENIED
    );
}

#[test]
fn a_key_is_deleted_without_subkeys_alone() {
    let hive = new_hive();
    let root = hive.root().unwrap();
    root.create("a\\b").unwrap();
    assert_eq!(refused(root.delete("a")), Status::ACCESS_DENIED);
    assert_eq!(refused(root.delete("")), Status::INVALID_PARAMETER);
    assert_eq!(refused(root.delete("none")), Status::FILE_NOT_FOUND);
    root.delete("a\\b").unwrap();
    root.delete("a").unwrap();
    assert_eq!(refused(root.open("a")), Status::FILE_NOT_FOUND);
}

#[test]
fn a_tree_is_deleted_whole() {
    let hive = new_hive();
    let root = hive.root().unwrap();
    root.create("a\\b\\c").unwrap();
    root.set("v", 1_u32).unwrap();
    assert_eq!(refused(poor(&root).delete_tree("a")), Status::ACCESS_DENIED);
    assert_eq!(refused(root.delete_tree("\\")), Status::INVALID_PARAMETER);
    assert_eq!(refused(root.delete_tree("none")), Status::FILE_NOT_FOUND);
    root.delete_tree("a\\b").unwrap();
    assert_eq!(root.open("a").unwrap().info().unwrap().subkeys, 0);
    root.delete_tree("").unwrap();
    let info = root.info().unwrap();
    assert_eq!((info.subkeys, info.values), (0, 0));
}

#[test]
fn a_deleted_key_answers_so_to_each_call() {
    let hive = new_hive();
    let root = hive.root().unwrap();
    let key = root.create("gone").unwrap();
    root.delete("gone").unwrap();
    root.create("gone").unwrap();
    for status in statuses_of_all_calls(&key) {
        assert_eq!(status, Status::KEY_DELETED);
    }
    drop(key);
    assert_eq!(root.keys().count(), 1);
}

fn statuses_of_all_calls(key: &Key<'_>) -> [Status; 17] {
    [
        refused(key.open("k")),
        refused(key.open_with("k", Rights::READ)),
        refused(key.create("k")),
        refused(key.create_with("k", Rights::ALL, b"own")),
        refused(key.set("v", 1_u32)),
        refused(key.get::<u32>("v")),
        refused(key.value("v")),
        refused(key.value_size("v")),
        refused(key.delete_value("v")),
        refused(key.delete("k")),
        refused(key.delete_tree("k")),
        refused(key.keys().next().unwrap()),
        refused(key.values().next().unwrap()),
        refused(key.info()),
        refused(key.security()),
        refused(key.set_security(b"own")),
        refused(key.notify(Filter::NAME, true)),
    ]
}

#[test]
fn a_change_is_checked_without_being_made() {
    let hive = new_hive();
    let root = hive.root().unwrap();
    root.create("a\\b").unwrap();
    root.set("v", 1_u32).unwrap();
    let entries = hive.entries();
    for change in accepted() {
        root.check(change)
            .unwrap_or_else(|error| panic!("{change:?}: {error}"));
    }
    for (change, status) in refusals() {
        assert_eq!(refused(root.check(change)), status, "{change:?}");
    }
    assert_eq!(hive.entries(), entries);
    let set = Change::Set {
        name: "v",
        kind: Kind::NONE,
        bytes: &[],
    };
    assert_eq!(refused(poor(&root).check(set)), Status::ACCESS_DENIED);
}

fn accepted() -> [Change<'static>; 8] {
    [
        Change::Open {
            path: "a",
            rights: Rights::ALL,
        },
        Change::Create {
            path: "new",
            rights: Rights::ALL,
            security: &[],
        },
        Change::Set {
            name: "v",
            kind: Kind::BINARY,
            bytes: b"bytes",
        },
        Change::DeleteValue { name: "v" },
        Change::Delete { path: "a\\b" },
        Change::DeleteTree { path: "a" },
        Change::SetSecurity { security: &[1] },
        Change::Notify {
            filter: Filter::NAME,
            subtree: true,
        },
    ]
}

fn refusals() -> [(Change<'static>, Status); 8] {
    const LONG: &[u8] = &[0; 65_536];
    [
        (
            Change::Open {
                path: "none",
                rights: Rights::ALL,
            },
            Status::FILE_NOT_FOUND,
        ),
        (
            Change::Create {
                path: "new",
                rights: Rights::ALL,
                security: LONG,
            },
            Status::INVALID_PARAMETER,
        ),
        (
            Change::Set {
                name: "\u{e4}",
                kind: Kind::BINARY,
                bytes: &[],
            },
            Status::INVALID_PARAMETER,
        ),
        (Change::DeleteValue { name: "none" }, Status::FILE_NOT_FOUND),
        (Change::Delete { path: "a" }, Status::ACCESS_DENIED),
        (Change::DeleteTree { path: "none" }, Status::FILE_NOT_FOUND),
        (
            Change::SetSecurity { security: &[] },
            Status::INVALID_PARAMETER,
        ),
        (
            Change::Notify {
                filter: Filter(16),
                subtree: false,
            },
            Status::INVALID_PARAMETER,
        ),
    ]
}

#[test]
fn rights_are_joined() {
    assert_eq!(
        Rights::READ,
        Rights::QUERY_VALUE | Rights::ENUMERATE_SUB_KEYS | Rights::NOTIFY | Rights::READ_CONTROL
    );
    let rest = Rights::SET_VALUE | Rights::CREATE_SUB_KEY | Rights::CREATE_LINK | Rights::DELETE;
    assert_eq!(
        Rights::ALL,
        Rights::READ | rest | Rights::WRITE_DAC | Rights::WRITE_OWNER
    );
    let hive = new_hive();
    let key = hive.root().unwrap().open_with("", Rights::READ).unwrap();
    assert_eq!(key.keys().count(), 0);
    assert_eq!(refused(key.set("v", 1_u32)), Status::ACCESS_DENIED);
}
