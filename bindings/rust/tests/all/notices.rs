//! Notices, and why they come.

use crate::{new_hive, poor, refused};
use zugmeled::{Filter, Notice, Reason, Rights, Status};

#[test]
fn a_change_that_is_waited_for_brings_one_notice() {
    let hive = new_hive();
    let root = hive.root().unwrap();
    let below = root.create("below").unwrap();
    let watch = root.notify(Filter::LAST_SET | Filter::NAME, true).unwrap();
    assert_eq!(hive.notices().count(), 0);
    let entry = hive.entries().made;
    below.set("v", 1_u32).unwrap();
    below.set("v", 2_u32).unwrap();
    let notices: Vec<Notice> = hive.notices().collect();
    assert_eq!(
        notices,
        [Notice {
            watch,
            entry,
            reason: Reason::Matched
        }]
    );
    assert_eq!(hive.notices().count(), 0);
}

#[test]
fn a_change_of_another_kind_or_place_brings_none() {
    let hive = new_hive();
    let root = hive.root().unwrap();
    let below = root.create("below").unwrap();
    root.notify(Filter::LAST_SET, false).unwrap();
    below.set("v", 1_u32).unwrap();
    root.create("other").unwrap();
    root.set_security(&[1]).unwrap();
    assert_eq!(hive.notices().count(), 0);
}

#[test]
fn each_kind_of_change_is_waited_for() {
    let hive = new_hive();
    let root = hive.root().unwrap();
    root.notify(Filter::SECURITY | Filter::THREAD_AGNOSTIC, false)
        .unwrap();
    root.notify(Filter::ATTRIBUTES, false).unwrap();
    root.set_security(&[1]).unwrap();
    assert_eq!(hive.notices().count(), 2);
    root.notify(Filter::NAME, false).unwrap();
    root.create("k").unwrap();
    assert_eq!(hive.notices().count(), 1);
}

#[test]
fn a_watch_ends_with_its_key() {
    let hive = new_hive();
    let root = hive.root().unwrap();
    let key = root.create("k").unwrap();
    let watch = key.notify(Filter::LAST_SET, false).unwrap();
    root.delete("k").unwrap();
    let notice = hive.notices().next().unwrap();
    assert_eq!((notice.watch, notice.reason), (watch, Reason::Gone));
    let key = root.create("k").unwrap();
    let watch = key.notify(Filter::LAST_SET, false).unwrap();
    drop(key);
    let notice = hive.notices().next().unwrap();
    assert_eq!((notice.watch, notice.reason), (watch, Reason::Closed));
}

#[test]
fn a_session_has_its_own_notices() {
    let hive = new_hive();
    let other = hive.session(5).unwrap();
    let seen = other.root(Rights::NOTIFY).unwrap();
    let watch = seen.notify(Filter::LAST_SET, false).unwrap();
    hive.root().unwrap().set("v", 1_u32).unwrap();
    assert_eq!(hive.notices().count(), 0);
    assert_eq!(other.take_notice().unwrap().watch, watch);
    assert_eq!(other.take_notice(), None);
    assert_eq!(other.notices().count(), 0);
}

#[test]
fn what_cant_be_waited_for_is_refused() {
    let hive = new_hive();
    let root = hive.root().unwrap();
    assert_eq!(
        refused(poor(&root).notify(Filter::NAME, false)),
        Status::ACCESS_DENIED
    );
    for filter in [Filter(0), Filter(16), Filter::THREAD_AGNOSTIC] {
        assert_eq!(
            refused(root.notify(filter, false)),
            Status::INVALID_PARAMETER
        );
    }
}
