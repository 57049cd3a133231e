//! Two masters on one table: whether the order of their frames can matter.
use crate::raw;
use crate::station::{Attribute, Profile};

/// How a line's frames are written.
#[derive(Clone, Copy, Debug, PartialEq, Eq, Hash)]
pub enum Format {
    /// MEWTOCOL-COM, in either form.
    Mewtocol,
    /// Modbus RTU.
    Rtu,
    /// Modbus ASCII.
    Ascii,
}

impl Format {
    const fn number(self) -> u32 {
        match self {
            Format::Mewtocol => 0,
            Format::Rtu => 1,
            Format::Ascii => 2,
        }
    }
}

/// A frame as a station hears it: its format, the station's own number, and the frame.
#[derive(Clone, Copy, Debug, PartialEq, Eq)]
pub struct Heard<'a> {
    /// How the frame is written.
    pub format: Format,
    /// The station that hears it.
    pub own: u32,
    /// The frame.
    pub frame: &'a [u8],
}

/// A bit of a word of the table.
#[derive(Clone, Copy, Debug, PartialEq, Eq, PartialOrd, Ord, Hash)]
pub struct Cell {
    /// The word.
    pub word: usize,
    /// The bit of it, 0 to 15.
    pub bit: u8,
}

/// The first cell that one of two frames may write and the other may read or write; `None` where there is none, and then both orders leave
/// the same words and give each frame the same answer and reply. That is proved for any two frames in any two formats, function 08 excepted.
///
/// ```
/// use jeulgopae::{meeting, Attribute, Cell, Format, Heard, Profile};
/// let attributes = [Attribute::READ_WRITE; 136];
/// let set = |frame| Heard { format: Format::Mewtocol, own: 1, frame };
/// // Two contacts of one relay word, and a coil beside the first.
/// let (r1030, r1031) = (set(b"%01#WCSR1030121\r"), set(b"%01#WCSR1031120\r"));
/// let coil = Heard { format: Format::Rtu, own: 1, frame: &[0x01, 0x05, 0x00, 0xD1, 0xFF, 0x00, 0xDC, 0x03] };
/// assert_eq!(meeting(&attributes, Profile::None, r1030, r1031), None);
/// assert_eq!(meeting(&attributes, Profile::None, r1030, coil), None);
/// assert_eq!(meeting(&attributes, Profile::None, r1031, coil), Some(Cell { word: 133, bit: 1 }));
/// ```
pub fn meeting(
    attributes: &[Attribute],
    profile: Profile,
    one: Heard<'_>,
    other: Heard<'_>,
) -> Option<Cell> {
    // SAFETY: slices are valid for their lengths, and none is written; an Attribute is laid out as its byte.
    let answer = unsafe {
        raw::jeulgopae_meeting(
            attributes.as_ptr().cast(),
            attributes.len(),
            profile.number(),
            one.format.number(),
            one.own,
            one.frame.as_ptr(),
            one.frame.len(),
            other.format.number(),
            other.own,
            other.frame.as_ptr(),
            other.frame.len(),
        )
    };
    let cell = usize::try_from(answer).ok()?;
    Some(Cell {
        word: cell / 16,
        bit: (cell % 16) as u8,
    })
}
