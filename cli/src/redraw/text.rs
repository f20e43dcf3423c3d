//! A reference text as it was at one moment.

use super::folder::{Folder, Opened};
use crate::system::{self, Version};
use crate::texts::{READ_LIMIT, read_start};
use std::ffi::CStr;
use std::io;
use std::thread;
use std::time::{Duration, SystemTime, UNIX_EPOCH};

/// The system counts a file's times in pieces of up to 10 ms, and sets them at the start of a write. After
/// this long a write that was under way is over, and another one sets another time.
const TIME_TO_SETTLE: Duration = Duration::from_millis(20);
/// The same on file systems that count in whole seconds or in pairs of them.
const SECONDS_TO_SETTLE: Duration = Duration::from_millis(2_020);

/// Reads a text, and fails where it was changed meanwhile.
pub fn read(folder: &Folder, name: &CStr) -> io::Result<Vec<u8>> {
    let Opened { file, status } = folder.open_regular(name)?;
    let now = SystemTime::now();
    match time_to_wait(&status.version, folder.opened(), now) {
        Some(time) => thread::sleep(time),
        None => return Err(io::Error::other("it was changed during the run")),
    }
    let bytes = read_start(&file, READ_LIMIT)?;
    match system::status(&file)?.version == status.version {
        true => Ok(bytes),
        false => Err(io::Error::other("it was changed while it was read")),
    }
}

/// How long a text's times take to settle. There is no answer where they count in seconds and it was changed
/// since the folder was opened: whoever changes many would hold the run up for seconds each.
fn time_to_wait(version: &Version, opened: SystemTime, now: SystemTime) -> Option<Duration> {
    // The time of a change of status, which every write sets too, cannot be set by anybody.
    let (seconds, nanoseconds) = version.changed;
    // One before 1970 or after this moment needs no waiting: a change sets another one.
    let Ok(seconds) = u64::try_from(seconds) else {
        return Some(Duration::ZERO);
    };
    let last = UNIX_EPOCH.checked_add(Duration::new(seconds, nanoseconds));
    let Some(age) = last.and_then(|last| now.duration_since(last).ok()) else {
        return Some(Duration::ZERO);
    };
    if nanoseconds != 0 {
        return Some(TIME_TO_SETTLE.saturating_sub(age));
    }
    let open = now.duration_since(opened).unwrap_or_default();
    let settled = age >= SECONDS_TO_SETTLE;
    (settled || age + SECONDS_TO_SETTLE >= open).then(|| SECONDS_TO_SETTLE.saturating_sub(age))
}

#[cfg(test)]
mod tests {
    use super::{SECONDS_TO_SETTLE, TIME_TO_SETTLE, time_to_wait};
    use crate::system::Version;
    use std::time::{Duration, UNIX_EPOCH};

    /// A text of these times, looked at 1,000.5 s after 1970 in a folder that was opened so long before.
    fn wait(changed: (i64, u32), modified: (i64, u32), open: u64) -> Option<Duration> {
        let now = UNIX_EPOCH + Duration::from_millis(1_000_500);
        let version = Version {
            size: 0,
            modified,
            changed,
        };
        time_to_wait(&version, now - Duration::from_millis(open), now)
    }

    #[test]
    fn times_settle() {
        let zero = Some(Duration::ZERO);
        let at = |nanoseconds| wait((1_000, nanoseconds), (7, 0), 60_000);
        assert_eq!(at(500_000_000), Some(TIME_TO_SETTLE));
        assert_eq!(at(495_000_000), Some(Duration::from_millis(15)));
        assert_eq!(at(480_000_000), zero);
        assert_eq!(at(500_000_001), zero);
        assert_eq!(wait((-1, 5), (-1, 5), 0), zero);
        assert_eq!(wait((7, 5), (i64::MAX, 0), 0), zero);
        let future = wait((1_000, 500_000_000), (i64::MAX, 0), 0);
        assert_eq!(future, Some(TIME_TO_SETTLE));
    }

    #[test]
    fn whole_seconds_settle_or_are_a_failure() {
        let at = |seconds, open| wait((seconds, 0), (7, 9), open);
        let rest = |age| SECONDS_TO_SETTLE.checked_sub(Duration::from_millis(age));
        assert_eq!(at(1_000, 0), rest(500));
        assert_eq!(at(999, 0), rest(1_500));
        assert_eq!(at(1_000, 2_520), rest(500));
        assert_eq!(at(1_000, 2_521), None);
        for open in [0, 60_000] {
            assert_eq!(at(998, open), Some(Duration::ZERO));
            assert_eq!(at(1_001, open), Some(Duration::ZERO));
        }
    }
}
