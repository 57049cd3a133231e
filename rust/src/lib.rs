//! A proved protocol engine for bench tools that read distance sensors, from Rust: stations that answer MEWTOCOL-COM and Modbus frames
//! over one register table, a MEWTOCOL host, a laser head's frames, and the attributes of a table from a catalogue file.
//!
//! Every function takes any input, keeps no state, allocates nothing and never panics. What was proved, and what has to be believed,
//! is in the repository's `docs/CLAIMS.md`. The slices of Rust are what the C face asks of its callers, so this crate is safe to use.
//! It wants nothing of the standard library.
//!
//! ```
//! use jeulgopae::{Answer, Attribute, Profile, Station, STATION_ROOM};
//!
//! let mut words = [0u16; 200];
//! words[105] = 0x1234;
//! words[106] = 0xFFFF;
//! let attributes = [Attribute::READ_WRITE; 200];
//! let mut room = [0u8; STATION_ROOM];
//! let frame = b"%01#RDD001050010757\r";
//! let answer = Station::Mewtocol.answer(&mut words, &attributes, Profile::None, 1, frame, &mut room);
//! assert_eq!(answer, Ok(Answer::Reply(b"%01$RD3412FFFF000012\r")));
//! ```
//!
//! A call that can't be carried out gives a [`Refusal`]. At a station, `Err` is the caller's own mistake, and a frame that is not
//! answered is [`Answer::Silence`]: `if let Answer::Reply(bytes) = station.answer(…)? { line.write_all(bytes)? }` is a whole station.
//! A host's readers give an [`Unread`], which says where a frame that is no reply is wrong.
#![no_std]
#![warn(missing_docs)]
#![deny(clippy::undocumented_unsafe_blocks)]
// What could panic, as far as clippy can see it.
#![deny(
    clippy::arithmetic_side_effects,
    clippy::expect_used,
    clippy::indexing_slicing,
    clippy::panic,
    clippy::unreachable,
    clippy::unwrap_used
)]

mod catalogue;
mod host;
mod laser;
mod masters;
mod numbers;
mod raw;
mod refusal;
mod station;

pub use catalogue::fill_attributes;
pub use host::{Ask, Contact, Contacts, Data, Form, NotAContact, Reply, Words};
pub use laser::{laser_distance, read_laser, write_laser, LaserFrame};
pub use masters::{meeting, Cell, Format, Heard};
pub use numbers::{
    bits_differing, crc, pair_value, pair_words, CoilAddress, CoilNumber, FrameAddress,
    RegisterNumber,
};
pub use refusal::{Refusal, Unread};
pub use station::{Answer, Attribute, Counters, Profile, Station};

/// The version of this crate, which is the library's.
pub const VERSION: &str = env!("CARGO_PKG_VERSION");
/// Words in a table, at most.
pub const TABLE_LIMIT: usize = 65536;
/// Bytes of room that a MEWTOCOL station asks for, in either form; enough at every station.
pub const STATION_ROOM: usize = 2048;
/// Bytes of room that a Modbus station asks for.
pub const MODBUS_ROOM: usize = 513;
/// Bytes of room that the writers ask for: the laser head's, and MEWTOCOL's for the ordinary form.
pub const REQUEST_ROOM: usize = 118;
/// Bytes of room that the MEWTOCOL writer asks for in the expanded form.
pub const EXPANDED_ROOM: usize = 2048;
/// Bytes of a catalogue file, at most.
pub const FILE_LIMIT: usize = 65535;
