//! Numbers of one to three bytes, and readings filed as numbers.

use super::refusal::Refusal;

/// Each byte carries this many bits of the number, the least first.
const GROUP_BITS: u32 = 7;
const GROUP_MASK: u32 = (1 << GROUP_BITS) - 1;
/// Set on every byte of a number but the last.
const MORE: u8 = 1 << GROUP_BITS;
const LONGEST: usize = 3;

/// Takes a number off the front of the bytes; tells how many bytes it took.
pub fn read_number(bytes: &[u8]) -> Result<(u16, usize), Refusal> {
    let mut number = 0;
    for index in 0..LONGEST {
        let &byte = bytes.get(index).ok_or(Refusal::EndsInsideNumber)?;
        number |= (u32::from(byte) & GROUP_MASK) << (GROUP_BITS * index as u32);
        if byte & MORE == 0 {
            let number = u16::try_from(number).map_err(|_| Refusal::NumberTooLarge)?;
            return Ok((number, index + 1));
        }
    }
    Err(Refusal::NumberTooLong)
}

/// The fewest bytes that hold the number.
pub fn number_length(number: u16) -> usize {
    match u32::from(number) >> GROUP_BITS {
        0 => 1,
        high if high <= GROUP_MASK => 2,
        _ => LONGEST,
    }
}

/// Writes the number at the front of the bytes; tells how many bytes it took.
pub fn write_number(number: u16, bytes: &mut [u8]) -> Result<usize, Refusal> {
    let length = number_length(number);
    let place = bytes.get_mut(..length).ok_or(Refusal::TooFewBytes)?;
    let mut rest = u32::from(number);
    for byte in place.iter_mut() {
        *byte = (rest & GROUP_MASK) as u8 | MORE;
        rest >>= GROUP_BITS;
    }
    place[length - 1] &= !MORE;
    Ok(length)
}

/// Files x as 2x, or as -2x - 1 where it is negative.
pub fn file_reading(reading: i16) -> u16 {
    ((reading << 1) ^ (reading >> (i16::BITS - 1))) as u16
}

pub fn unfile_reading(filed: u16) -> i16 {
    (filed >> 1) as i16 ^ -((filed & 1) as i16)
}

#[cfg(test)]
mod tests {
    use super::*;

    #[test]
    fn numbers_of_the_table() {
        assert_eq!(read_number(&[0x05]), Ok((5, 1)));
        assert_eq!(read_number(&[0x80, 0x01]), Ok((128, 2)));
        assert_eq!(read_number(&[0xFF, 0xFF, 0x03]), Ok((65_535, 3)));
        assert_eq!(read_number(&[0x80, 0x00]), Ok((0, 2)));
        assert_eq!(read_number(&[0x80, 0x80, 0x00, 0x07]), Ok((0, 3)));
    }

    #[test]
    fn refused_numbers() {
        assert_eq!(read_number(&[]), Err(Refusal::EndsInsideNumber));
        assert_eq!(read_number(&[0x80, 0x80]), Err(Refusal::EndsInsideNumber));
        assert_eq!(
            read_number(&[0x80, 0x80, 0x80]),
            Err(Refusal::NumberTooLong)
        );
        assert_eq!(
            read_number(&[0xFF, 0xFF, 0xFF]),
            Err(Refusal::NumberTooLong)
        );
        assert_eq!(
            read_number(&[0x80, 0x80, 0x04]),
            Err(Refusal::NumberTooLarge)
        );
    }

    #[test]
    fn fewest_bytes() {
        for (number, length) in [(127, 1), (128, 2), (16_383, 2), (16_384, 3)] {
            assert_eq!(number_length(number), length);
        }
        for number in 0..=u16::MAX {
            let mut bytes = [0; LONGEST];
            let length = write_number(number, &mut bytes).unwrap();
            assert_eq!(read_number(&bytes[..length]), Ok((number, length)));
        }
    }

    #[test]
    fn no_room_to_write() {
        let mut bytes = [0xAA; 2];
        assert_eq!(write_number(16_384, &mut bytes), Err(Refusal::TooFewBytes));
        assert_eq!(bytes, [0xAA; 2]);
    }

    #[test]
    fn filed_readings() {
        for (reading, filed) in [(0, 0), (-1, 1), (1, 2), (-2, 3), (2, 4)] {
            assert_eq!(file_reading(reading), filed);
        }
        assert_eq!(file_reading(i16::MIN), u16::MAX);
        for reading in i16::MIN..=i16::MAX {
            assert_eq!(unfile_reading(file_reading(reading)), reading);
        }
    }
}
