//! The three stations, what they are lent, and the head that they stand for.
use crate::raw;
use crate::refusal::{count, Refusal};
use core::ops::BitOr;

/// What may be done with a word of the table. It is one byte, as the C face has it.
///
/// ```
/// use jeulgopae::Attribute;
/// let mut attributes = [Attribute::HOLE; 200];
/// attributes[100..130].fill(Attribute::READ);
/// attributes[133] = Attribute::READ | Attribute::WRITE;
/// assert_eq!(attributes[133], Attribute::READ_WRITE);
/// ```
#[derive(Clone, Copy, Debug, Default, PartialEq, Eq, Hash)]
#[repr(transparent)]
pub struct Attribute(u8);

impl Attribute {
    /// 0: nothing; the word is not there.
    pub const HOLE: Attribute = Attribute(0);
    /// 1: it may be read.
    pub const READ: Attribute = Attribute(1);
    /// 2: it may be written.
    pub const WRITE: Attribute = Attribute(2);
    /// 3: both.
    pub const READ_WRITE: Attribute = Attribute(3);

    /// The attribute of a number, 0 to 3.
    pub const fn from_number(number: u8) -> Option<Attribute> {
        if number <= 3 {
            Some(Attribute(number))
        } else {
            None
        }
    }

    /// Its number, 0 to 3.
    pub const fn number(self) -> u8 {
        self.0
    }

    /// Whether the word may be read.
    pub const fn may_read(self) -> bool {
        self.0 & 1 != 0
    }

    /// Whether the word may be written.
    pub const fn may_write(self) -> bool {
        self.0 & 2 != 0
    }
}

impl BitOr for Attribute {
    type Output = Attribute;

    fn bitor(self, other: Attribute) -> Attribute {
        Attribute(self.0 | other.0)
    }
}

/// What a head takes besides what the attributes grant: a write that would leave one of its registers out of range, or that names one
/// register of a pair and not the other, is refused whole. Reads, contacts, coils and every other register go by the attributes alone.
///
/// ```
/// use jeulgopae::{Answer, Attribute, Profile, Station, STATION_ROOM};
/// let (mut words, attributes, mut room) = ([0u16; 134], [Attribute::READ_WRITE; 134], [0u8; STATION_ROOM]);
/// let mut write = |profile, frame| {
///     let answer = Station::Mewtocol.answer(&mut words, &attributes, profile, 1, frame, &mut room);
///     answer.unwrap().reply().unwrap().to_vec()
/// };
/// // 950,000 and one more.
/// assert_eq!(write(Profile::HlG2Mm50, b"%01#WDD0010000101F07E0E0020\r"), b"%01$WD13\r");
/// assert_eq!(write(Profile::HlG2Mm50, b"%01#WDD0010000101F17E0E0021\r"), b"%01!6102\r");
/// assert_eq!(write(Profile::None, b"%01#WDD0010000101F17E0E0021\r"), b"%01$WD13\r");
/// ```
#[derive(Clone, Copy, Debug, Default, PartialEq, Eq, Hash)]
#[non_exhaustive]
pub enum Profile {
    /// Nothing is limited.
    #[default]
    None,
    /// HL-G2, 50 mm type: words 100 and 101, and 102 and 103, are signed numbers of -950,000 to 950,000, the lower 16 bits first; 53 and 55
    /// take 0, 57 takes 1 to 4, and 70 takes 0 to 2.
    HlG2Mm50,
}

impl Profile {
    pub(crate) const fn number(self) -> u32 {
        match self {
            Profile::None => 0,
            Profile::HlG2Mm50 => 1,
        }
    }
}

/// What a station makes of a frame.
#[derive(Clone, Copy, Debug, PartialEq, Eq)]
#[non_exhaustive]
pub enum Answer<'a> {
    /// These bytes go on the line: the first ones of the room.
    Reply(&'a [u8]),
    /// Nothing goes on the line: the frame was for all stations, and was carried out. The words are as it leaves them.
    CarriedOut,
    /// Nothing goes on the line, for this reason; words and room are as before.
    Silence(Refusal),
}

impl<'a> Answer<'a> {
    /// What goes on the line, if anything does.
    pub const fn reply(self) -> Option<&'a [u8]> {
        match self {
            Answer::Reply(bytes) => Some(bytes),
            Answer::CarriedOut | Answer::Silence(_) => None,
        }
    }
}

/// What a Modbus line brought. One record belongs to the host for each line; it starts with all five at 0, and every Modbus call, RTU or
/// ASCII, counts in it. Each count stops at FFFFh.
///
/// An own mistake and a frame of `BadShape` count nothing. A master reads the counts and sets them to 0 with function 08: a frame counts
/// before it is answered, so 0B and 0E show the frame that asks, and a clear leaves all five at 0, its own frame included.
///
/// ```
/// use jeulgopae::{Answer, Counters, Profile, Station, STATION_ROOM};
/// let (mut counters, mut room) = (Counters::default(), [0u8; STATION_ROOM]);
/// let mut hear = |frame: &[u8]| {
///     let answer = Station::Ascii(&mut counters).answer(&mut [], &[], Profile::None, 1, frame, &mut room);
///     answer.unwrap().reply().map(<[u8]>::to_vec)
/// };
/// assert_eq!(hear(b":010300850001FF\r\n"), None); // a wrong check
/// assert_eq!(hear(b":0108000C0000EB\r\n").unwrap(), b":0108000C0001EA\r\n");
/// assert_eq!(counters, Counters { bus: 1, damaged: 1, own: 1, ..Counters::default() });
/// ```
#[derive(Clone, Copy, Debug, Default, PartialEq, Eq)]
#[repr(C)]
pub struct Counters {
    /// 0B: frames with a right check, whatever station they are for.
    pub bus: u16,
    /// 0C: frames with a wrong check.
    pub damaged: u16,
    /// 0D: exceptions that went out.
    pub exceptions: u16,
    /// 0E: frames to this station or to 0.
    pub own: u16,
    /// 0F: frames to 0, whatever became of them.
    pub unanswered: u16,
}

/// The three stations. Those of Modbus are lent the counters of their line.
#[derive(Debug, PartialEq, Eq)]
pub enum Station<'a> {
    /// MEWTOCOL-COM, stations 1 to 99.
    Mewtocol,
    /// Modbus RTU, stations 1 to 247.
    Rtu(&'a mut Counters),
    /// Modbus ASCII, stations 1 to 247.
    Ascii(&'a mut Counters),
}

impl Station<'_> {
    /// Answers one whole frame at station `own`; `attributes[k]` says what may be done with `words[k]`, and the profile what a head takes
    /// of that.
    ///
    /// The reply stands in the first bytes of the room; later bytes stay. An `Err` is the caller's own mistake and doesn't depend on the
    /// frame: `BadTable`, `BadStation` and `SmallRoom` (under 2,048 bytes for MEWTOCOL, 513 for Modbus), in this order. A frame that is not to be answered, by `BadShape`,
    /// `BadCheck` or `OtherStation`, is `Silence`; one for all stations (0 in Modbus, `FF` in MEWTOCOL) that is a write and would have got a
    /// good reply is `CarriedOut`.
    ///
    /// ```
    /// use jeulgopae::{Answer, Attribute, Counters, Profile, Refusal, Station, STATION_ROOM};
    /// let profile = Profile::None;
    /// let (mut words, attributes, mut room) = ([0u16; 134], [Attribute::READ_WRITE; 134], [0u8; STATION_ROOM]);
    /// let mut counters = Counters::default();
    /// words[133] = 1;
    /// let frame = [0x01, 0x03, 0x00, 0x85, 0x00, 0x01, 0x95, 0xE3];
    /// let answer = Station::Rtu(&mut counters).answer(&mut words, &attributes, profile, 1, &frame, &mut room);
    /// assert_eq!(answer, Ok(Answer::Reply(&[0x01, 0x03, 0x02, 0x00, 0x01, 0x79, 0x84])));
    /// assert_eq!((counters.bus, counters.own), (1, 1));
    /// let frame = [0x01, 0x08, 0x00, 0x0B, 0x00, 0x00, 0x91, 0xC9];
    /// let answer = Station::Rtu(&mut counters).answer(&mut words, &attributes, profile, 1, &frame, &mut room);
    /// assert_eq!(answer, Ok(Answer::Reply(&[0x01, 0x08, 0x00, 0x0B, 0x00, 0x02, 0x10, 0x08])));
    /// let answer = Station::Ascii(&mut counters).answer(&mut words, &attributes, profile, 1, b":01030085000177\r\n", &mut room);
    /// assert_eq!(answer, Ok(Answer::Silence(Refusal::BadCheck)));
    /// let answer = Station::Ascii(&mut counters).answer(&mut words, &attributes, profile, 0, b":01030085000177\r\n", &mut room);
    /// assert_eq!(answer, Err(Refusal::BadStation));
    /// let answer = Station::Mewtocol.answer(&mut words, &attributes, profile, 1, b"%FF#WDD0000500005341255\r", &mut room);
    /// assert_eq!((answer, words[5]), (Ok(Answer::CarriedOut), 0x1234));
    /// ```
    pub fn answer<'r>(
        self,
        words: &mut [u16],
        attributes: &[Attribute],
        profile: Profile,
        own: u32,
        frame: &[u8],
        room: &'r mut [u8],
    ) -> Result<Answer<'r>, Refusal> {
        let (w, w_count) = (words.as_mut_ptr(), words.len());
        let (a, a_count) = (attributes.as_ptr().cast(), attributes.len());
        let profile = profile.number();
        let (f, f_count) = (frame.as_ptr(), frame.len());
        let (r, r_count) = (room.as_mut_ptr(), room.len());
        // SAFETY: slices are valid for their lengths; the two that are written and the counters are borrowed alone, so they overlap none
        // of the others; an Attribute is laid out as its byte, and Counters as the header's struct.
        let answer = unsafe {
            match self {
                Station::Mewtocol => raw::jeulgopae_mewtocol_station(
                    w, w_count, a, a_count, profile, own, f, f_count, r, r_count,
                ),
                Station::Rtu(counters) => raw::jeulgopae_rtu_station(
                    w, w_count, a, a_count, profile, own, f, f_count, r, r_count, counters,
                ),
                Station::Ascii(counters) => raw::jeulgopae_ascii_station(
                    w, w_count, a, a_count, profile, own, f, f_count, r, r_count, counters,
                ),
            }
        };
        if answer == raw::CARRIED_OUT {
            return Ok(Answer::CarriedOut);
        }
        match count(answer) {
            Ok(n) => Ok(Answer::Reply(room.get(..n).unwrap_or_default())),
            Err(refusal) if refusal.is_own_mistake() => Err(refusal),
            Err(refusal) => Ok(Answer::Silence(refusal)),
        }
    }
}
