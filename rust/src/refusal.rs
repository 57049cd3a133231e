//! Why a call gave nothing, by the numbers of the scope.
use crate::raw::NOT_THIS;
use core::fmt;

/// Why a call gave no length and no value. Every lent slice is then as it was.
#[derive(Clone, Copy, Debug, PartialEq, Eq, Hash)]
#[non_exhaustive]
pub enum Refusal {
    /// 1: over 65,536 words, not one attribute a word, or an attribute above 3.
    BadTable,
    /// 2: a station outside 1 to 99 (MEWTOCOL) or 1 to 247 (Modbus).
    BadStation,
    /// 3: the room for the answer is too small.
    SmallRoom,
    /// 5: a number or an address that the conversion doesn't take.
    OutOfRange,
    /// 6: the bit count's frames differ in length, or are over 256 bytes.
    BadLengths,
    /// 10: a frame whose shape is wrong.
    BadShape,
    /// 11: a frame whose check is wrong.
    BadCheck,
    /// 12: a frame for, or from, another station.
    OtherStation,
    /// 14: what was asked can't be a request.
    NoRequest,
    /// 20: a catalogue file that is malformed.
    BadFile,
    /// 21: a catalogue file with a group on a fifth level.
    TooDeep,
    /// 22: a catalogue file with two runs that meet along one chain, or with an address beyond the attributes.
    RunsMeet,
    /// 23: a catalogue file in which a name stands twice.
    NameTwice,
    /// 24: a catalogue file without the name that was asked for.
    NoSuchName,
    /// A number that this version of the crate has no name for: the archive is of another one.
    Other(u32),
}

impl Refusal {
    /// The number of the refusal in the scope's table.
    ///
    /// ```
    /// assert_eq!(jeulgopae::Refusal::OutOfRange.number(), 5);
    /// ```
    pub const fn number(self) -> u32 {
        match self {
            Refusal::BadTable => 1,
            Refusal::BadStation => 2,
            Refusal::SmallRoom => 3,
            Refusal::OutOfRange => 5,
            Refusal::BadLengths => 6,
            Refusal::BadShape => 10,
            Refusal::BadCheck => 11,
            Refusal::OtherStation => 12,
            Refusal::NoRequest => 14,
            Refusal::BadFile => 20,
            Refusal::TooDeep => 21,
            Refusal::RunsMeet => 22,
            Refusal::NameTwice => 23,
            Refusal::NoSuchName => 24,
            Refusal::Other(number) => number,
        }
    }

    /// Whether the caller has to mend something: what it lent or asked can't be, whatever the frame. Otherwise the frame, or the file, is the reason.
    ///
    /// ```
    /// use jeulgopae::{read_laser, Ask, Form, Refusal, REQUEST_ROOM};
    /// let cut = read_laser(b"/060D123456C.").unwrap_err();
    /// assert!(cut == Refusal::BadShape && !cut.is_own_mistake());
    /// let wrong = Ask::ReadWords(107, 105).write(1, Form::Ordinary, &mut [0; REQUEST_ROOM]).unwrap_err();
    /// assert!(wrong == Refusal::NoRequest && wrong.is_own_mistake());
    /// ```
    pub const fn is_own_mistake(self) -> bool {
        match self {
            Refusal::BadTable
            | Refusal::BadStation
            | Refusal::SmallRoom
            | Refusal::OutOfRange
            | Refusal::BadLengths
            | Refusal::NoRequest => true,
            Refusal::BadShape
            | Refusal::BadCheck
            | Refusal::OtherStation
            | Refusal::BadFile
            | Refusal::TooDeep
            | Refusal::RunsMeet
            | Refusal::NameTwice
            | Refusal::NoSuchName
            | Refusal::Other(_) => false,
        }
    }

    pub(crate) const fn of(answer: i32) -> Refusal {
        match answer.unsigned_abs() {
            1 => Refusal::BadTable,
            2 => Refusal::BadStation,
            3 => Refusal::SmallRoom,
            5 => Refusal::OutOfRange,
            6 => Refusal::BadLengths,
            10 => Refusal::BadShape,
            11 => Refusal::BadCheck,
            12 => Refusal::OtherStation,
            14 => Refusal::NoRequest,
            20 => Refusal::BadFile,
            21 => Refusal::TooDeep,
            22 => Refusal::RunsMeet,
            23 => Refusal::NameTwice,
            24 => Refusal::NoSuchName,
            number => Refusal::Other(number),
        }
    }
}

impl fmt::Display for Refusal {
    fn fmt(&self, f: &mut fmt::Formatter<'_>) -> fmt::Result {
        let text = match self {
            Refusal::BadTable => "the table can't be",
            Refusal::BadStation => "the station can't be",
            Refusal::SmallRoom => "the room is too small",
            Refusal::OutOfRange => "the number is out of range",
            Refusal::BadLengths => "the frames can't be compared",
            Refusal::BadShape => "the frame's shape is wrong",
            Refusal::BadCheck => "the frame's check is wrong",
            Refusal::OtherStation => "the frame is another station's",
            Refusal::NoRequest => "this can't be a request",
            Refusal::BadFile => "the file is malformed",
            Refusal::TooDeep => "a group of the file is on a fifth level",
            Refusal::RunsMeet => "two runs of the file meet, or one goes beyond the attributes",
            Refusal::NameTwice => "a name stands twice in the file",
            Refusal::NoSuchName => "the file has no such name",
            Refusal::Other(_) => "a refusal of another version",
        };
        write!(f, "{text} ({})", self.number())
    }
}

impl core::error::Error for Refusal {}

/// Why a host's reader gave nothing of a frame.
///
/// ```
/// use jeulgopae::{Ask, Form, Refusal, Unread};
/// let ask = Ask::ReadWords(105, 107);
/// let frame = b"%01$RD3G12FFFF000061\r";
/// let Err(Unread::NotThis { place }) = ask.read(1, Form::Ordinary, frame) else { panic!() };
/// assert_eq!((place, frame.get(place)), (7, Some(&b'G')));
/// // Another command's reply: no single character is wrong.
/// let frame = b"%01$RC120\r";
/// let Err(Unread::NotThis { place }) = ask.read(1, Form::Ordinary, frame) else { panic!() };
/// assert_eq!((place, frame.get(place)), (10, None));
/// assert_eq!(ask.read(2, Form::Ordinary, frame), Err(Unread::Refused(Refusal::OtherStation)));
/// ```
#[derive(Clone, Copy, Debug, PartialEq, Eq, Hash)]
pub enum Unread {
    /// 13: a good frame, but not a reply to what was asked, or one that tells no distance.
    NotThis {
        /// Where length, letters and command are right, the first character that its position doesn't allow, counted from 0 in the whole
        /// frame. Otherwise no single character is wrong, and it is the frame's length.
        place: usize,
    },
    /// Any other refusal.
    Refused(Refusal),
}

impl Unread {
    /// The number of the refusal in the scope's table.
    ///
    /// ```
    /// use jeulgopae::{Refusal, Unread};
    /// assert_eq!(Unread::NotThis { place: 7 }.number(), 13);
    /// assert_eq!(Unread::Refused(Refusal::BadCheck).number(), 11);
    /// ```
    pub const fn number(self) -> u32 {
        match self {
            Unread::NotThis { .. } => 13,
            Unread::Refused(refusal) => refusal.number(),
        }
    }

    /// Whether the caller has to mend something: what it asked can't be, whatever the frame. Otherwise the frame is the reason.
    ///
    /// ```
    /// use jeulgopae::{Ask, Form};
    /// let late = Ask::ReadWords(105, 107).read(1, Form::Ordinary, b"%01$RC120\r").unwrap_err();
    /// assert!(!late.is_own_mistake());
    /// let wrong = Ask::ReadWords(107, 105).read(1, Form::Ordinary, b"%01$RC120\r").unwrap_err();
    /// assert!(wrong.is_own_mistake());
    /// ```
    pub const fn is_own_mistake(self) -> bool {
        match self {
            Unread::NotThis { .. } => false,
            Unread::Refused(refusal) => refusal.is_own_mistake(),
        }
    }

    pub(crate) fn of(answer: i32) -> Unread {
        match NOT_THIS.checked_sub(answer).map(usize::try_from) {
            Some(Ok(place)) => Unread::NotThis { place },
            _ => Unread::Refused(Refusal::of(answer)),
        }
    }
}

impl From<Refusal> for Unread {
    fn from(refusal: Refusal) -> Unread {
        Unread::Refused(refusal)
    }
}

impl fmt::Display for Unread {
    fn fmt(&self, f: &mut fmt::Formatter<'_>) -> fmt::Result {
        match self {
            Unread::NotThis { place } => {
                write!(f, "the frame is no reply to this (13, at {place})")
            }
            Unread::Refused(refusal) => refusal.fmt(f),
        }
    }
}

impl core::error::Error for Unread {}

/// An answer of the C face: a value from 0 on, a refusal below.
pub(crate) fn value(answer: i32) -> Result<u32, Refusal> {
    u32::try_from(answer).map_err(|_| Refusal::of(answer))
}

/// An answer that is a length.
pub(crate) fn count(answer: i32) -> Result<usize, Refusal> {
    usize::try_from(answer).map_err(|_| Refusal::of(answer))
}

#[cfg(test)]
mod tests {
    use super::*;

    #[test]
    fn every_answer_below_0_is_some_refusal() {
        let at = |place| Unread::NotThis { place };
        assert_eq!(Unread::of(-130_007), at(7));
        assert_eq!(Unread::of(-130_000), at(0));
        assert_eq!(Unread::of(-129_999), Refusal::Other(129_999).into());
        assert_eq!(Unread::of(-1000), Refusal::Other(1000).into());
        assert_eq!(Unread::of(-11), Refusal::BadCheck.into());
        assert_eq!(Unread::of(i32::MIN), at(2_147_353_648));
        // Before 0.5 an archive had 13 without a place.
        assert_eq!(Unread::of(-13), Refusal::Other(13).into());
        assert_eq!(Refusal::of(i32::MIN), Refusal::Other(2_147_483_648));
    }
}
