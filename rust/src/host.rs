//! The MEWTOCOL host: what is asked, written as a request, and the reply to it, read.
use crate::raw;
use crate::refusal::{count, Refusal, Unread};
use core::fmt;
use core::iter::FusedIterator;
use core::str::FromStr;

/// Where the data of a reply begins in its frame.
const REPLY_DATA: usize = 6;
/// How the C face tells a station's error reply: from here for error 00h down to FFh.
const ERROR_REPLY: i32 = -256;

/// A contact: a relay word of 0 to 999 and one of its bits. The C face has it as one number, 16 × relay word + bit.
///
/// ```
/// use jeulgopae::Contact;
/// let contact = Contact::new(103, 0).unwrap();
/// assert_eq!(Contact::named("R1030"), Some(contact));
/// assert_eq!("R1030".parse(), Ok(contact));
/// assert_eq!((contact.relay_word(), contact.bit()), (103, 0));
/// assert_eq!(Contact::named("R103G"), None);
/// ```
#[derive(Clone, Copy, Debug, PartialEq, Eq, PartialOrd, Ord, Hash)]
#[repr(transparent)]
pub struct Contact(u32);

/// A name that is no contact's: `R`, three decimal digits for the relay word, an upper-case hex digit for the bit.
#[derive(Clone, Copy, Debug, PartialEq, Eq, Hash)]
pub struct NotAContact;

const fn digit(character: u8) -> Option<u8> {
    match character {
        b'0'..=b'9' => Some(character.wrapping_sub(b'0')),
        b'A'..=b'F' => Some(character.wrapping_sub(b'A').wrapping_add(10)),
        _ => None,
    }
}

impl Contact {
    /// Bit 0 to 15 of relay word 0 to 999.
    pub const fn new(relay_word: u16, bit: u8) -> Option<Contact> {
        if relay_word <= 999 && bit <= 15 {
            Some(Contact(((relay_word as u32) << 4) | bit as u32))
        } else {
            None
        }
    }

    /// The contact of a name: R1030 is bit 0 of relay word 103.
    pub const fn named(name: &str) -> Option<Contact> {
        let [b'R', a @ b'0'..=b'9', b @ b'0'..=b'9', c @ b'0'..=b'9', bit] = *name.as_bytes()
        else {
            return None;
        };
        match (digit(a), digit(b), digit(c), digit(bit)) {
            (Some(a), Some(b), Some(c), Some(bit)) => {
                let hundreds = (a as u16).wrapping_mul(100);
                let tens = (b as u16).wrapping_mul(10);
                Contact::new(hundreds.wrapping_add(tens).wrapping_add(c as u16), bit)
            }
            _ => None,
        }
    }

    /// The relay word, 0 to 999.
    pub const fn relay_word(self) -> u16 {
        (self.0 >> 4) as u16
    }

    /// The bit, 0 to 15.
    pub const fn bit(self) -> u8 {
        (self.0 & 15) as u8
    }
}

impl FromStr for Contact {
    type Err = NotAContact;

    fn from_str(name: &str) -> Result<Contact, NotAContact> {
        Contact::named(name).ok_or(NotAContact)
    }
}

impl fmt::Display for Contact {
    fn fmt(&self, f: &mut fmt::Formatter<'_>) -> fmt::Result {
        write!(f, "R{:03}{:X}", self.relay_word(), self.bit())
    }
}

impl fmt::Display for NotAContact {
    fn fmt(&self, f: &mut fmt::Formatter<'_>) -> fmt::Result {
        f.write_str("a contact is R, three decimal digits and an upper-case hex digit")
    }
}

impl core::error::Error for NotAContact {}

/// A form of MEWTOCOL frame, in request and reply alike.
#[derive(Clone, Copy, Debug, PartialEq, Eq, Hash, Default)]
pub enum Form {
    /// `%`: at most 118 characters, 27 words read and 24 written.
    #[default]
    Ordinary,
    /// `<`: at most 2,048 characters, 509 words read and 507 written.
    Expanded,
}

impl Form {
    const fn number(self) -> u32 {
        match self {
            Form::Ordinary => 0,
            Form::Expanded => 1,
        }
    }
}

/// What a MEWTOCOL host asks.
#[derive(Clone, Copy, Debug, PartialEq, Eq)]
pub enum Ask<'a> {
    /// RCS or RCP: one to eight contacts. A list of one is sent as RCS, a longer one as RCP.
    ReadContacts(&'a [Contact]),
    /// RCC: relay words from start to end, at most 27, in the expanded form 509.
    ReadRelays(u32, u32),
    /// WCS: a contact and its value.
    WriteContact(Contact, bool),
    /// WCP: one to eight contacts, and as many values.
    WriteContacts(&'a [Contact], &'a [bool]),
    /// WCC: relay words from start to end, at most 24, in the expanded form 507, and as many words.
    WriteRelays(u32, u32, &'a [u16]),
    /// RD: data registers from start to end, at most 27, in the expanded form 509.
    ReadWords(u32, u32),
    /// WD: data registers from start to end, at most 24, in the expanded form 507, and as many words.
    WriteWords(u32, u32, &'a [u16]),
    /// SD: data registers from start to end, all set to one word.
    FillWords(u32, u32, u16),
}

/// An asking as the C face takes it.
#[derive(Default)]
struct Parts<'a> {
    command: u32,
    first: u32,
    second: u32,
    value: u32,
    contacts: &'a [Contact],
    values: &'a [bool],
    words: &'a [u16],
}

impl<'a> Parts<'a> {
    fn range(command: u32, first: u32, second: u32, words: &'a [u16]) -> Parts<'a> {
        Parts {
            command,
            first,
            second,
            words,
            ..Parts::default()
        }
    }

    fn list(command: u32, contacts: &'a [Contact], values: &'a [bool]) -> Parts<'a> {
        Parts {
            command,
            contacts,
            values,
            ..Parts::default()
        }
    }

    fn one(command: u32, contact: Contact, value: bool) -> Parts<'a> {
        Parts {
            command,
            first: contact.0,
            value: value.into(),
            ..Parts::default()
        }
    }
}

impl<'a> Ask<'a> {
    fn parts(self) -> Parts<'a> {
        match self {
            Ask::ReadContacts(contacts) => Parts::list(1, contacts, &[]),
            Ask::ReadRelays(first, last) => Parts::range(2, first, last, &[]),
            Ask::WriteContact(contact, value) => Parts::one(3, contact, value),
            Ask::WriteContacts(contacts, values) => Parts::list(4, contacts, values),
            Ask::WriteRelays(first, last, words) => Parts::range(5, first, last, words),
            Ask::ReadWords(first, last) => Parts::range(6, first, last, &[]),
            Ask::WriteWords(first, last, words) => Parts::range(7, first, last, words),
            Ask::FillWords(first, last, word) => Parts {
                value: word.into(),
                ..Parts::range(8, first, last, &[])
            },
        }
    }

    /// Writes the request to a station of 1 to 99 into the first bytes of a room of at least 118, in the expanded form 2,048; later
    /// bytes stay. Gives its length, or, in this order, `BadStation`, `SmallRoom` or `NoRequest`.
    ///
    /// ```
    /// use jeulgopae::{Ask, Form, EXPANDED_ROOM, REQUEST_ROOM};
    /// let mut room = [0u8; REQUEST_ROOM];
    /// let n = Ask::ReadWords(105, 107).write(1, Form::Ordinary, &mut room).unwrap();
    /// assert_eq!(&room[..n], b"%01#RDD001050010757\r");
    /// let contacts = ["R1030", "R1010"].map(|name| name.parse().unwrap());
    /// let n = Ask::ReadContacts(&contacts[..1]).write(1, Form::Ordinary, &mut room).unwrap();
    /// assert_eq!(&room[..n], b"%01#RCSR103015\r");
    /// let n = Ask::ReadContacts(&contacts).write(1, Form::Ordinary, &mut room).unwrap();
    /// assert_eq!(&room[..n], b"%01#RCP2R1030R101076\r");
    /// let mut room = [0u8; EXPANDED_ROOM];
    /// let n = Ask::ReadWords(105, 107).write(1, Form::Expanded, &mut room).unwrap();
    /// assert_eq!(&room[..n], b"<01#RDD00105001074E\r");
    /// ```
    pub fn write(self, station: u32, form: Form, room: &mut [u8]) -> Result<usize, Refusal> {
        let p = self.parts();
        // SAFETY: slices are valid for their lengths; the room is borrowed alone, so it overlaps none of the others; a Contact is laid
        // out as its number, a bool as a byte of 0 or 1.
        count(unsafe {
            raw::jeulgopae_mewtocol_write(
                station,
                form.number(),
                p.command,
                p.first,
                p.second,
                p.value,
                p.contacts.as_ptr().cast(),
                p.contacts.len(),
                p.values.as_ptr().cast(),
                p.values.len(),
                p.words.as_ptr(),
                p.words.len(),
                room.as_mut_ptr(),
                room.len(),
            )
        })
    }

    /// Reads the reply to this asking from a station. In this order: `BadStation`, `NoRequest`, `BadShape`, `BadCheck`, `OtherStation`; and
    /// `NotThis`, with the place of a wrong character, or the frame's length for a reply in the other form.
    ///
    /// ```
    /// use jeulgopae::{Ask, Form, Reply, Unread};
    /// let Ok(Reply::Data(data)) = Ask::ReadWords(105, 107).read(1, Form::Ordinary, b"%01$RD3412FFFF000012\r") else { panic!() };
    /// assert!(data.words().eq([0x1234, 0xFFFF, 0x0000]));
    /// assert_eq!((data.word(0), data.word(3)), (Some(0x1234), None));
    /// assert_eq!(Ask::ReadWords(105, 107).read(1, Form::Ordinary, b"%01!6605\r"), Ok(Reply::Error(0x66)));
    /// assert_eq!(Ask::ReadWords(105, 107).read(1, Form::Ordinary, b"%01$RD3G12FFFF000061\r"), Err(Unread::NotThis { place: 7 }));
    /// ```
    pub fn read(self, station: u32, form: Form, frame: &[u8]) -> Result<Reply<'_>, Unread> {
        let p = self.parts();
        // SAFETY: slices are valid for their lengths, and nothing is written; a Contact is laid out as its number, a bool as a byte of
        // 0 or 1.
        let answer = unsafe {
            raw::jeulgopae_mewtocol_read(
                station,
                form.number(),
                p.command,
                p.first,
                p.second,
                p.value,
                p.contacts.as_ptr().cast(),
                p.contacts.len(),
                p.values.as_ptr().cast(),
                p.values.len(),
                p.words.as_ptr(),
                p.words.len(),
                frame.as_ptr(),
                frame.len(),
            )
        };
        if let Ok(error) = u8::try_from(ERROR_REPLY.wrapping_sub(answer)) {
            return Ok(Reply::Error(error));
        }
        let n = count(answer).map_err(|_| Unread::of(answer))?;
        let data = frame.get(REPLY_DATA..).and_then(|rest| rest.get(..n));
        Ok(Reply::Data(Data(data.unwrap_or_default())))
    }
}

/// What a reply says.
#[derive(Clone, Copy, Debug, PartialEq, Eq)]
#[non_exhaustive]
pub enum Reply<'a> {
    /// The data of a good reply; empty for the reply to a write.
    Data(Data<'a>),
    /// The station's error number.
    Error(u8),
}

/// The data of a good reply: the part of the caller's frame that holds it.
#[derive(Clone, Copy, Debug, PartialEq, Eq)]
pub struct Data<'a>(&'a [u8]);

impl<'a> Data<'a> {
    /// The characters.
    pub const fn bytes(self) -> &'a [u8] {
        self.0
    }

    /// Word i, where there is one.
    pub fn word(self, i: u32) -> Option<u16> {
        // SAFETY: the slice is valid for its length, and nothing is written.
        u16::try_from(unsafe { raw::jeulgopae_data_word(self.0.as_ptr(), self.0.len(), i) }).ok()
    }

    /// Contact i, where there is one.
    pub fn contact(self, i: usize) -> Option<bool> {
        // SAFETY: the slice is valid for its length, and nothing is written.
        match unsafe { raw::jeulgopae_data_contact(self.0.as_ptr(), self.0.len(), i) } {
            0 => Some(false),
            1 => Some(true),
            _ => None,
        }
    }

    /// The words of the reply to a read of words.
    pub const fn words(self) -> Words<'a> {
        Words {
            data: self,
            next: 0,
        }
    }

    /// The contacts of the reply to a read of contacts.
    ///
    /// ```
    /// use jeulgopae::{Ask, Contact, Form, Reply};
    /// let contacts = ["R1000", "R1030", "R105F"].map(|name| name.parse::<Contact>().unwrap());
    /// let Ok(Reply::Data(data)) = Ask::ReadContacts(&contacts).read(1, Form::Ordinary, b"%01$RC10121\r") else { panic!() };
    /// assert!(data.contacts().eq([true, false, true]));
    /// ```
    pub const fn contacts(self) -> Contacts<'a> {
        Contacts {
            data: self,
            next: 0,
        }
    }
}

/// The words of a reply, in order.
#[derive(Clone, Debug)]
pub struct Words<'a> {
    data: Data<'a>,
    next: u32,
}

impl Iterator for Words<'_> {
    type Item = u16;

    fn next(&mut self) -> Option<u16> {
        let word = self.data.word(self.next)?;
        self.next = self.next.saturating_add(1);
        Some(word)
    }
}

impl FusedIterator for Words<'_> {}

/// The contacts of a reply, in order.
#[derive(Clone, Debug)]
pub struct Contacts<'a> {
    data: Data<'a>,
    next: usize,
}

impl Iterator for Contacts<'_> {
    type Item = bool;

    fn next(&mut self) -> Option<bool> {
        let contact = self.data.contact(self.next)?;
        self.next = self.next.saturating_add(1);
        Some(contact)
    }
}

impl FusedIterator for Contacts<'_> {}
