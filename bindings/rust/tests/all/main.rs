//! Tests of the whole crate, but for memory that is refused.

mod files;
mod header;
mod hives;
mod keys;
mod limits;
mod moments;
mod notices;
mod random;
mod threads;
mod values;
mod walks;

use std::fmt::Debug;
use zugmeled::{Clock, Hive, Key, Moment, Result, Rights, Status, EMPTY_SECURITY};

const MOMENT: Moment = Moment(133_000_000_000_000_000);

/// A hive whose clock stands.
fn new_hive() -> Hive {
    Hive::with_clock("ROOT", &EMPTY_SECURITY, Clock::At(MOMENT)).unwrap()
}

/// The status of a call that is refused.
fn refused<T: Debug>(result: Result<T>) -> Status {
    result.unwrap_err().status()
}

/// The same key without a right.
fn poor<'hive>(key: &Key<'hive>) -> Key<'hive> {
    key.open_with("", Rights::NONE).unwrap()
}
