//! A laser head's frames.
use crate::raw;
use crate::refusal::{count, value, Refusal, Unread};

/// Where the data begins in a frame.
const LASER_DATA: usize = 5;

/// A laser head's frame: two command bytes and the part of the caller's frame that holds the data.
#[derive(Clone, Copy, Debug, PartialEq, Eq)]
pub struct LaserFrame<'a> {
    /// The command.
    pub command: [u8; 2],
    /// The data, 0 to 99 bytes.
    pub data: &'a [u8],
}

/// Reads a laser head's frame: `BadShape`, then `BadCheck`.
///
/// ```
/// let frame = jeulgopae::read_laser(b"/020D0059.").unwrap();
/// assert_eq!((frame.command, frame.data), (*b"0D", &b"00"[..]));
/// ```
pub fn read_laser(frame: &[u8]) -> Result<LaserFrame<'_>, Refusal> {
    // SAFETY: the slice is valid for its length, and nothing is written.
    let said = value(unsafe { raw::jeulgopae_laser_read(frame.as_ptr(), frame.len()) })?;
    // 65536 × first + 256 × second + count.
    let [_, first, second, n] = said.to_be_bytes();
    let data = frame
        .get(LASER_DATA..)
        .and_then(|rest| rest.get(..n.into()));
    Ok(LaserFrame {
        command: [first, second],
        data: data.unwrap_or_default(),
    })
}

/// Writes a laser head's frame with at most 99 bytes of data into the first bytes of a room of at least 118; later bytes stay. Gives its
/// length; `SmallRoom`, then `NoRequest` for more data.
///
/// ```
/// let mut room = [0u8; jeulgopae::REQUEST_ROOM];
/// let n = jeulgopae::write_laser(*b"0D", b"00", &mut room).unwrap();
/// assert_eq!(&room[..n], b"/020D0059.");
/// ```
pub fn write_laser(command: [u8; 2], data: &[u8], room: &mut [u8]) -> Result<usize, Refusal> {
    let [first, second] = command;
    // SAFETY: slices are valid for their lengths; the room is borrowed alone, so it doesn't overlap the data.
    count(unsafe {
        raw::jeulgopae_laser_write(
            first,
            second,
            data.as_ptr(),
            data.len(),
            room.as_mut_ptr(),
            room.len(),
        )
    })
}

/// The distance that a laser head's frame tells, in hundredths of a millimetre: `BadShape`, `BadCheck`, or `NotThis` for a good frame that
/// tells none, with the place of the digit or of the closing NUL that is wrong.
///
/// ```
/// use jeulgopae::{laser_distance, Refusal, Unread};
/// assert_eq!(laser_distance(b"/060D12345\x006C."), Ok(12_345));
/// assert_eq!(laser_distance(b"/060D123456C."), Err(Unread::Refused(Refusal::BadShape)));
/// assert_eq!(laser_distance(b"/060D12 45\x007F."), Err(Unread::NotThis { place: 7 }));
/// ```
pub fn laser_distance(frame: &[u8]) -> Result<u32, Unread> {
    // SAFETY: the slice is valid for its length, and nothing is written.
    let answer = unsafe { raw::jeulgopae_laser_distance(frame.as_ptr(), frame.len()) };
    value(answer).map_err(|_| Unread::of(answer))
}
