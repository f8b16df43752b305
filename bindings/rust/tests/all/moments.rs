//! Moments and the system's times.

use std::time::{Duration, SystemTime, UNIX_EPOCH};
use zugmeled::{Clock, Moment};

const TICKS_TO_1970: u64 = 116_444_736_000_000_000;

#[test]
fn a_moment_counts_from_1601() {
    assert_eq!(Moment::from(UNIX_EPOCH), Moment(TICKS_TO_1970));
    let time = UNIX_EPOCH + Duration::new(3, 1_299);
    assert_eq!(Moment::from(time), Moment(TICKS_TO_1970 + 30_000_012));
    let before = UNIX_EPOCH - Duration::from_secs(1);
    assert_eq!(Moment::from(before), Moment(TICKS_TO_1970 - 10_000_000));
}

#[test]
fn a_time_without_a_moment_has_the_nearest() {
    let long = Duration::from_secs(1 << 41);
    assert_eq!(Moment::from(UNIX_EPOCH - long), Moment(0));
    assert_eq!(Moment::from(UNIX_EPOCH + long), Moment(u64::MAX));
}

#[test]
fn a_moment_is_a_time_again() {
    for ticks in [
        0,
        1,
        TICKS_TO_1970 - 1,
        TICKS_TO_1970,
        TICKS_TO_1970 + 12_345_678,
        u64::MAX,
    ] {
        let time = Moment(ticks).to_system_time().unwrap();
        assert_eq!(Moment::from(time), Moment(ticks));
    }
}

#[test]
fn now_is_between_what_was_and_what_will_be() {
    let before = SystemTime::now() - Duration::from_micros(1);
    let now = Moment::now().to_system_time().unwrap();
    assert!(before < now && now <= SystemTime::now());
    assert_eq!(Clock::default(), Clock::System);
}
