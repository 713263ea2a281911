//! Capture texts and sub-second texts.
use crate::answer::{told, Refusal};
use crate::key::{Key, Moment};
use crate::raw;

/// Reads the capture text that is that part of the block. The hour may be two digits, a blank and a digit, or one digit;
/// the length counts the NUL. Or 11, 12, 10.
///
/// ```
/// use pannuqreik::{read_text, Refusal};
/// assert_eq!(read_text(b"2024:06:15 9:58:07\0", 0, 19)?.hour, 9);
/// assert_eq!(read_text(b"2024:06:15  9:58:07\0", 0, 20), read_text(b"2024:06:15 09:58:07\0", 0, 20));
/// assert_eq!(read_text(b"    :  :     :  :  \0", 0, 20), Err(Refusal::Unknown));
/// assert_eq!(read_text(b"2100:02:29 10:00:00\0", 0, 20), Err(Refusal::Text));
/// assert_eq!(read_text(b"2024:06:15 9:58:07\0", 1, 19), Err(Refusal::Beyond));
/// # Ok::<(), Refusal>(())
/// ```
pub fn read_text(block: &[u8], place: usize, length: usize) -> Result<Moment, Refusal> {
    let mut f = [0; 6];
    let said = raw::read_text(block, place, length, &mut f);
    let [year, month, day, hour, minute, second] = f;
    told(said, Moment { year, month, day, hour, minute, second })
}

/// Writes the two-digit form of the key's date and time, 20 bytes with its NUL, at a place of the buffer; every other byte
/// stays. Or 11.
///
/// ```
/// use pannuqreik::{write_text, Key};
/// let mut buffer = *b"<....................>";
/// write_text(&mut buffer, 1, Key::new(0x7E86_7A7A_1C00_4065)?)?;
/// assert_eq!(&buffer, b"<2024:06:15 09:58:07\0>");
/// # Ok::<(), pannuqreik::Refusal>(())
/// ```
pub fn write_text(buffer: &mut [u8], place: usize, key: Key) -> Result<(), Refusal> {
    told(raw::write_text(buffer, place, key.number()), ())
}

/// Reads the sub-second text that is that part of the block: one or two digits and a NUL, or nothing. Or 11, 10.
///
/// ```
/// use pannuqreik::{read_sub_second, Refusal};
/// assert_eq!(read_sub_second(b"07\0", 0, 3), Ok(7));
/// assert_eq!(read_sub_second(b"5\0", 0, 2), Ok(5));
/// assert_eq!(read_sub_second(b"", 0, 0), Ok(0));
/// assert_eq!(read_sub_second(b"123\0", 0, 4), Err(Refusal::Text));
/// ```
pub fn read_sub_second(block: &[u8], place: usize, length: usize) -> Result<u64, Refusal> {
    let mut hundredths = 0;
    let said = raw::read_sub_second(block, place, length, &mut hundredths);
    told(said, hundredths)
}
