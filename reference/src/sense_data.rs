//! Sense data in fixed format, as docs/CONSOLE.md lays it out under "The field pointer".

use crate::answer::Sense;

/// The bytes of the sense data.
pub const SENSE_DATA_BYTES: usize = 18;

const CURRENT_INFORMATION: u8 = 0x70;
/// Of the sense key specific bytes: they hold something, a pointer into the data that the command sent, to no bit.
const SKSV: u8 = 0x80;

/// The sense data of an answer that has this sense, and the faulty byte where it tells one.
pub fn fixed([key, asc, ascq]: Sense, faulty_byte: Option<u16>) -> [u8; SENSE_DATA_BYTES] {
    let mut data = [0; SENSE_DATA_BYTES];
    data[0] = CURRENT_INFORMATION;
    data[2] = key;
    data[7] = (SENSE_DATA_BYTES - 8) as u8;
    data[12] = asc;
    data[13] = ascq;
    if let Some(byte) = faulty_byte {
        data[15] = SKSV;
        data[16..].copy_from_slice(&byte.to_be_bytes());
    }
    data
}
