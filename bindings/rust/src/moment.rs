//! Moments, and the clock of a hive.

use std::time::{Duration, SystemTime, UNIX_EPOCH};

const TICKS_PER_SECOND: u64 = 10_000_000;
const NANOSECONDS_PER_TICK: u32 = 100;

/// From 1601 to 1970.
const TICKS_TO_1970: u64 = 116_444_736_000_000_000;

/// A moment: units of 100 ns since 1601, in UTC.
#[derive(Clone, Copy, Debug, Default, PartialEq, Eq, PartialOrd, Ord, Hash)]
pub struct Moment(pub u64);

impl Moment {
    /// The system clock's moment.
    pub fn now() -> Moment {
        SystemTime::now().into()
    }

    /// The moment as the system has it. `None` where it is too late for that.
    pub fn to_system_time(self) -> Option<SystemTime> {
        match self.0.checked_sub(TICKS_TO_1970) {
            Some(after) => UNIX_EPOCH.checked_add(duration(after)),
            None => UNIX_EPOCH.checked_sub(duration(TICKS_TO_1970 - self.0)),
        }
    }
}

impl From<SystemTime> for Moment {
    /// A time before 1601 is the first moment, and one that is too late the last.
    fn from(time: SystemTime) -> Moment {
        Moment(match time.duration_since(UNIX_EPOCH) {
            Ok(after) => TICKS_TO_1970.saturating_add(ticks(after)),
            Err(before) => TICKS_TO_1970.saturating_sub(ticks(before.duration())),
        })
    }
}

/// What tells a hive the moment of each call.
#[derive(Clone, Copy, Debug, Default, PartialEq, Eq)]
pub enum Clock {
    /// The system's clock.
    #[default]
    System,
    /// A clock that stands at a moment. An emulator sets it anew as its own time goes on; equal
    /// calls make equal images.
    At(Moment),
}

impl Clock {
    pub(crate) fn moment(self) -> Moment {
        match self {
            Clock::System => Moment::now(),
            Clock::At(moment) => moment,
        }
    }
}

fn duration(ticks: u64) -> Duration {
    // Below 10^9, since there are fewer ticks than a second has.
    let nanoseconds = (ticks % TICKS_PER_SECOND) as u32 * NANOSECONDS_PER_TICK;
    Duration::new(ticks / TICKS_PER_SECOND, nanoseconds)
}

fn ticks(duration: Duration) -> u64 {
    let within_second = u64::from(duration.subsec_nanos() / NANOSECONDS_PER_TICK);
    duration
        .as_secs()
        .saturating_mul(TICKS_PER_SECOND)
        .saturating_add(within_second)
}
