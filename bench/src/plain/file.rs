//! Reading and writing system files.

use super::numbers::{file_reading, number_length, read_number, unfile_reading, write_number};
use super::refusal::Refusal;
use super::stored::{
    HEADER_WORDS, MOST_CHANNELS, MOST_MOVES, MOST_STATES, layout_words, row_words, word_of_reading,
};
use super::system::System;

/// The first number of a file that is wrong.
#[derive(Clone, Copy, Debug, PartialEq, Eq)]
pub struct ReadFault {
    pub refusal: Refusal,
    /// The byte where the number begins.
    pub place: usize,
    /// The state in whose row the number stands, 0 at n and c.
    pub state: u16,
}

/// A file that was read whole: its numbers as words, without the unused ones.
#[derive(Clone, Debug)]
pub struct SystemFile {
    states: usize,
    channels: usize,
    rows: Vec<u16>,
    end: usize,
}

/// Takes numbers off the bytes and remembers where the last one began.
struct Reader<'a> {
    bytes: &'a [u8],
    next: usize,
    begun: usize,
    state: u16,
}

impl Reader<'_> {
    fn fault(&self, refusal: Refusal) -> ReadFault {
        ReadFault {
            refusal,
            place: self.begun,
            state: self.state,
        }
    }

    fn number(&mut self) -> Result<u16, ReadFault> {
        self.begun = self.next;
        let rest = self.bytes.get(self.begun..).unwrap_or_default();
        // Most numbers of a file are states and moves of one byte.
        let (number, length) = match rest {
            &[byte, ..] if byte.is_ascii() => (u16::from(byte), 1),
            _ => read_number(rest).map_err(|refusal| self.fault(refusal))?,
        };
        self.next += length;
        Ok(number)
    }

    /// A number of 1 to the given most.
    fn count(&mut self, most: usize, refusal: Refusal) -> Result<usize, ReadFault> {
        let count = usize::from(self.number()?);
        if (1..=most).contains(&count) {
            Ok(count)
        } else {
            Err(self.fault(refusal))
        }
    }
}

/// Reads the system file that begins at a byte place, for a memory in which
/// `room` words are free.
pub fn read_system(bytes: &[u8], place: usize, room: usize) -> Result<SystemFile, ReadFault> {
    let mut reader = Reader {
        bytes,
        next: place,
        begun: place,
        state: 0,
    };
    let states = reader.count(MOST_STATES, Refusal::BadStates)?;
    let channels = reader.count(MOST_CHANNELS, Refusal::BadChannels)?;
    if room < layout_words(states, channels) {
        return Err(reader.fault(Refusal::MemoryTooShort));
    }
    // No file has more numbers than bytes.
    let most_numbers = layout_words(states, channels) - HEADER_WORDS;
    let mut rows = Vec::with_capacity(most_numbers.min(bytes.len()));
    for state in 0..states {
        reader.state = state as u16;
        for _ in 0..channels {
            rows.push(word_of_reading(unfile_reading(reader.number()?)));
        }
        let controller = reader.count(MOST_MOVES, Refusal::BadMoves)?;
        let environment = reader.count(MOST_MOVES, Refusal::BadMoves)?;
        rows.extend([controller as u16, environment as u16]);
        for _ in 0..controller * environment {
            let next = reader.number()?;
            if usize::from(next) >= states {
                return Err(reader.fault(Refusal::BadNextState));
            }
            rows.push(next);
        }
    }
    Ok(SystemFile {
        states,
        channels,
        rows,
        end: reader.next,
    })
}

impl SystemFile {
    pub fn states(&self) -> usize {
        self.states
    }

    pub fn channels(&self) -> usize {
        self.channels
    }

    /// The byte place behind the file.
    pub fn end(&self) -> usize {
        self.end
    }

    /// How many words the system takes.
    pub fn words(&self) -> usize {
        layout_words(self.states, self.channels)
    }

    /// Lays out the system from a word place on.
    ///
    /// # Panics
    ///
    /// If fewer words are free there than the file was read for.
    pub fn lay_out(&self, words: &mut [u16], place: usize) {
        let words = &mut words[place..place + self.words()];
        let (header, rows) = words.split_at_mut(HEADER_WORDS);
        header.copy_from_slice(&[self.states as u16, self.channels as u16]);
        let mut numbers = self.rows.as_slice();
        for row in rows.chunks_exact_mut(row_words(self.channels)) {
            let (fixed, rest) = numbers.split_at(self.channels + 2);
            row[..fixed.len()].copy_from_slice(fixed);
            let controller = usize::from(fixed[self.channels]);
            let environment = usize::from(fixed[self.channels + 1]);
            let (used, rest) = rest.split_at(controller * environment);
            numbers = rest;
            let next = &mut row[fixed.len()..];
            for (answers, used) in next
                .chunks_exact_mut(MOST_MOVES)
                .zip(used.chunks_exact(environment))
            {
                answers[..environment].copy_from_slice(used);
                answers[environment..].fill(0);
            }
            next[controller * MOST_MOVES..].fill(0);
        }
    }
}

/// Gives the numbers of a system's file to `take`, in their order.
fn numbers_of<S: System>(system: &S, mut take: impl FnMut(u16)) {
    take(system.states());
    take(u16::from(system.channels()));
    for state in 0..system.states() {
        for channel in 0..system.channels() {
            take(file_reading(system.reading(state, channel)));
        }
        let controller = system.controller_moves(state);
        let environment = system.environment_moves(state);
        take(controller);
        take(environment);
        for own in 0..controller {
            for other in 0..environment {
                take(system.next(state, own, other));
            }
        }
    }
}

/// Writes the file of a system; tells how many bytes it takes.
pub fn write_system<S: System>(system: &S, bytes: &mut [u8]) -> Result<usize, Refusal> {
    let most_moves = MOST_MOVES as u16;
    if usize::from(system.states()) > MOST_STATES {
        return Err(Refusal::BadStates);
    }
    if usize::from(system.channels()) > MOST_CHANNELS {
        return Err(Refusal::BadChannels);
    }
    let too_many = |state| {
        system.controller_moves(state) > most_moves || system.environment_moves(state) > most_moves
    };
    if (0..system.states()).any(too_many) {
        return Err(Refusal::BadMoves);
    }
    let mut length = 0;
    numbers_of(system, |number| length += number_length(number));
    let bytes = bytes.get_mut(..length).ok_or(Refusal::TooFewBytes)?;
    let mut place = 0;
    numbers_of(system, |number| {
        place += write_number(number, &mut bytes[place..]).expect("the length was counted before");
    });
    Ok(length)
}

#[cfg(test)]
mod tests {
    use super::super::layers::{Buffer, Joint};
    use super::super::stored::Stored;
    use super::*;

    const SAMPLE: [u8; 15] = [
        0x02, 0x02, 0x0A, 0x01, 0x02, 0x01, 0x00, 0x01, 0x13, 0x80, 0x7D, 0x01, 0x02, 0x01, 0x00,
    ];
    const UNTOUCHED: u16 = 0xABCD;

    fn refused(bytes: &[u8], place: usize, room: usize) -> (u8, usize, u16) {
        let fault = read_system(bytes, place, room).unwrap_err();
        (fault.refusal.number(), fault.place, fault.state)
    }

    #[test]
    fn the_sample_is_read() {
        let file = read_system(&SAMPLE, 0, layout_words(2, 2)).unwrap();
        assert_eq!(file.end(), SAMPLE.len());
        let place = 3;
        let mut words = vec![UNTOUCHED; layout_words(2, 2) + 5];
        file.lay_out(&mut words, place);
        assert!(words[..place].iter().all(|&word| word == UNTOUCHED));
        let behind = place + layout_words(2, 2);
        assert!(words[behind..].iter().all(|&word| word == UNTOUCHED));

        let mut laid_out = vec![0; layout_words(2, 2)];
        laid_out[..2].copy_from_slice(&[2, 2]);
        laid_out[2..6].copy_from_slice(&[32_768 + 5, 32_768 - 1, 2, 1]);
        laid_out[6 + 16] = 1;
        let second = 2 + row_words(2);
        laid_out[second..second + 4].copy_from_slice(&[32_768 - 10, 32_768 + 8_000, 1, 2]);
        laid_out[second + 4] = 1;
        assert_eq!(words[place..behind], laid_out);

        let stored = Stored::over(&words[place..]);
        assert_eq!(stored.words(), laid_out.len());
        assert_eq!((stored.reading(0, 0), stored.reading(0, 1)), (5, -1));
        assert_eq!((stored.reading(1, 0), stored.reading(1, 1)), (-10, 8_000));
        assert_eq!((stored.next(0, 0, 0), stored.next(0, 1, 0)), (0, 1));
        assert_eq!((stored.next(1, 0, 0), stored.next(1, 0, 1)), (1, 0));
    }

    #[test]
    fn the_sample_is_written() {
        let mut words = vec![0; layout_words(2, 2)];
        read_system(&SAMPLE, 0, words.len())
            .unwrap()
            .lay_out(&mut words, 0);
        let mut bytes = [0; SAMPLE.len()];
        assert_eq!(
            write_system(&Stored::over(&words), &mut bytes),
            Ok(SAMPLE.len())
        );
        assert_eq!(bytes, SAMPLE);
        let mut short = [0xAA; SAMPLE.len() - 1];
        assert_eq!(
            write_system(&Stored::over(&words), &mut short),
            Err(Refusal::TooFewBytes)
        );
        assert_eq!(short, [0xAA; SAMPLE.len() - 1]);
    }

    #[test]
    fn refused_files() {
        let room = layout_words(2, 2);
        assert_eq!(refused(&[], 0, room), (15, 0, 0));
        assert_eq!(refused(&SAMPLE, 40, room), (15, 40, 0));
        assert_eq!(refused(&SAMPLE[..10], 0, room), (15, 9, 1));
        assert_eq!(refused(&SAMPLE, 0, room - 1), (20, 1, 0));
        assert_eq!(refused(&SAMPLE, 0, 0), (20, 1, 0));
        for (place, byte, refusal, state) in [
            (0, 0, 18, 0),
            (1, 9, 19, 0),
            (4, 17, 21, 0),
            (5, 0, 21, 0),
            (7, 2, 22, 0),
            (11, 0, 21, 1),
            (14, 2, 22, 1),
        ] {
            let mut bytes = SAMPLE;
            bytes[place] = byte;
            assert_eq!(refused(&bytes, 0, room), (refusal, place, state));
        }
        let mut long = SAMPLE;
        long[10] = 0x80;
        long[11] = 0x80;
        assert_eq!(refused(&long, 0, room), (16, 9, 1));
        long[11] = 0x04;
        assert_eq!(refused(&long, 0, room), (17, 9, 1));
        // n is tested before c is read, and c before the room.
        assert_eq!(refused(&[0x00], 0, 0), (18, 0, 0));
        assert_eq!(refused(&[0x02], 0, 0), (15, 1, 0));
        assert_eq!(refused(&[0x02, 0x00], 0, 0), (19, 1, 0));
    }

    #[test]
    fn writing_refuses_in_order() {
        let full = Buffer { capacity: 255 };
        let two = Joint {
            first: full,
            second: Buffer { capacity: 0 },
        };
        let nine_moves = Joint {
            first: Buffer { capacity: 1 },
            second: Buffer { capacity: 1 },
        };
        let eighty_one = Joint {
            first: nine_moves,
            second: nine_moves,
        };
        let wide = Joint {
            first: eighty_one,
            second: eighty_one,
        };
        let nine_channels = Joint {
            first: wide,
            second: Buffer { capacity: 0 },
        };
        assert_eq!(
            write_system(
                &Joint {
                    first: two,
                    second: nine_moves
                },
                &mut []
            ),
            Err(Refusal::BadStates)
        );
        assert_eq!(
            write_system(&nine_channels, &mut []),
            Err(Refusal::BadChannels)
        );
        assert_eq!(write_system(&eighty_one, &mut []), Err(Refusal::BadMoves));
        assert_eq!(write_system(&two, &mut []), Err(Refusal::TooFewBytes));
    }
}
