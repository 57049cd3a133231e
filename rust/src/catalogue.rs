//! The attributes of a table from a catalogue file.
use crate::raw;
use crate::refusal::{value, Refusal};
use crate::station::Attribute;

/// Fills the attributes of a table from a catalogue file: those of the group that has the name and of every group around it, and
/// [`Attribute::HOLE`] elsewhere. The name is compared byte for byte, blanks at its end included. What the attributes were is not looked
/// at. A refusal leaves them: `BadTable` for more than a table has words, then `BadFile`, `TooDeep`, `RunsMeet`, `NameTwice` or
/// `NoSuchName`, each over the whole file before the next.
///
/// ```
/// use jeulgopae::{fill_attributes, Attribute, Refusal};
/// // A group `A` with a run of two registers from address 5 on, and in it a group `B`.
/// let file = b"\x03\x00\x13\x01\x00\x01A\x02\x00\x05\x00\x05\x00\x02\x03\x03\x00\x04\x01\x00\x01B";
/// let mut attributes = [Attribute::READ; 8];
/// assert_eq!(fill_attributes(file, b"B", &mut attributes), Ok(()));
/// assert_eq!(attributes[4..7], [Attribute::HOLE, Attribute::READ_WRITE, Attribute::READ_WRITE]);
/// assert_eq!(fill_attributes(file, b"B ", &mut attributes), Err(Refusal::NoSuchName));
/// ```
pub fn fill_attributes(
    file: &[u8],
    name: &[u8],
    attributes: &mut [Attribute],
) -> Result<(), Refusal> {
    // SAFETY: slices are valid for their lengths, and what is written overlaps nothing. An attribute is one byte, and every byte that is
    // written is 0 to 3, as the library promises.
    value(unsafe {
        raw::jeulgopae_catalogue_fill(
            file.as_ptr(),
            file.len(),
            name.as_ptr(),
            name.len(),
            attributes.as_mut_ptr().cast(),
            attributes.len(),
        )
    })
    .map(|_| ())
}
