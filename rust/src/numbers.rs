//! Catalogue numbers and frame addresses; two registers as one signed number; frames compared, and their CRC.
use crate::raw;
use crate::refusal::{value, Refusal};

/// A holding register's number as the catalogue prints it. It and an address are kept apart; only the conversion turns one into the other.
///
/// ```
/// use jeulgopae::{FrameAddress, RegisterNumber};
/// assert_eq!(RegisterNumber(400134).address(), Ok(FrameAddress(133)));
/// ```
#[derive(Clone, Copy, Debug, PartialEq, Eq, PartialOrd, Ord, Hash)]
pub struct RegisterNumber(pub u32);

/// A register's address as a frame carries it.
#[derive(Clone, Copy, Debug, PartialEq, Eq, PartialOrd, Ord, Hash)]
pub struct FrameAddress(pub u32);

/// A coil's number as the catalogue prints it.
#[derive(Clone, Copy, Debug, PartialEq, Eq, PartialOrd, Ord, Hash)]
pub struct CoilNumber(pub u32);

/// A coil's address as a frame carries it.
#[derive(Clone, Copy, Debug, PartialEq, Eq, PartialOrd, Ord, Hash)]
pub struct CoilAddress(pub u32);

impl RegisterNumber {
    /// 400001 to 465536 have addresses 0 to 65,535.
    pub fn address(self) -> Result<FrameAddress, Refusal> {
        // SAFETY: any number may be passed, and no memory is.
        value(unsafe { raw::jeulgopae_register_address(self.0) }).map(FrameAddress)
    }
}

impl FrameAddress {
    /// 0 to 65,535 have numbers 400001 to 465536.
    pub fn number(self) -> Result<RegisterNumber, Refusal> {
        // SAFETY: any number may be passed, and no memory is.
        value(unsafe { raw::jeulgopae_register_number(self.0) }).map(RegisterNumber)
    }
}

impl CoilNumber {
    /// 000161 to 000256 have addresses 160 to 255.
    pub fn address(self) -> Result<CoilAddress, Refusal> {
        // SAFETY: any number may be passed, and no memory is.
        value(unsafe { raw::jeulgopae_coil_address(self.0) }).map(CoilAddress)
    }
}

impl CoilAddress {
    /// 160 to 255 have numbers 000161 to 000256.
    pub fn number(self) -> Result<CoilNumber, Refusal> {
        // SAFETY: any number may be passed, and no memory is.
        value(unsafe { raw::jeulgopae_coil_number(self.0) }).map(CoilNumber)
    }
}

/// The number that two words hold, the lower 16 bits in the lower register: every pair is some `i32`.
///
/// ```
/// use jeulgopae::pair_value;
/// assert_eq!(pair_value(0x7EF0, 0x000E), 950_000);
/// assert_eq!((pair_value(0, 0), pair_value(0xFFFF, 0xFFFF)), (0, -1));
/// assert_eq!((pair_value(0xFFFF, 0x7FFF), pair_value(0, 0x8000)), (i32::MAX, i32::MIN));
/// ```
pub fn pair_value(low: u16, high: u16) -> i32 {
    // SAFETY: any words may be passed, and no memory is.
    unsafe { raw::jeulgopae_pair_value(low, high) }
}

/// The two words of a number from -950,000 to 950,000, the lower 16 bits first; else `NoRequest`.
///
/// ```
/// use jeulgopae::{pair_words, Refusal};
/// assert_eq!(pair_words(-950_000), Ok((0x8110, 0xFFF1)));
/// assert_eq!(pair_words(950_001), Err(Refusal::NoRequest));
/// ```
pub fn pair_words(number: i32) -> Result<(u16, u16), Refusal> {
    // SAFETY: any number may be passed, and no memory is.
    let low = value(unsafe { raw::jeulgopae_pair_low(number) })?;
    // SAFETY: the same.
    let high = value(unsafe { raw::jeulgopae_pair_high(number) })?;
    Ok((low as u16, high as u16))
}

/// In how many bits two frames of one length, at most 256 bytes, differ; else `BadLengths`.
///
/// ```
/// assert_eq!(jeulgopae::bits_differing(b"F", b"f"), Ok(1));
/// ```
pub fn bits_differing(a: &[u8], b: &[u8]) -> Result<u32, Refusal> {
    // SAFETY: slices are valid for their lengths, and nothing is written.
    value(unsafe { raw::jeulgopae_bits_differing(a.as_ptr(), a.len(), b.as_ptr(), b.len()) })
}

/// The CRC-16 of RTU over some bytes; on the line its low byte goes first.
///
/// ```
/// assert_eq!(jeulgopae::crc(b"123456789"), 0x4B37);
/// ```
pub fn crc(bytes: &[u8]) -> u16 {
    // SAFETY: the slice is valid for its length, and nothing is written.
    (unsafe { raw::jeulgopae_crc(bytes.as_ptr(), bytes.len()) }) as u16
}
