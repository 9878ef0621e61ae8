//! Systems in 16-bit words: the layout, its check, and the system over it.

use super::refusal::Refusal;
use super::system::System;

pub const MOST_STATES: usize = 256;
pub const MOST_CHANNELS: usize = 8;
/// The most moves that a side has at a state.
pub const MOST_MOVES: usize = 16;

/// The words of n and c.
pub const HEADER_WORDS: usize = 2;
/// The words of p and q, behind the readings of a row.
const COUNT_WORDS: usize = 2;
const NEXT_WORDS: usize = MOST_MOVES * MOST_MOVES;

const RESTING_WORDS: usize = layout_words(1, 1);

/// One state, one channel that shows 0, one move each, next state 0.
static RESTING: [u16; RESTING_WORDS] = {
    let mut words = [0; RESTING_WORDS];
    words[0] = 1;
    words[1] = 1;
    words[HEADER_WORDS] = word_of_reading(0);
    words[HEADER_WORDS + 1] = 1;
    words[HEADER_WORDS + 2] = 1;
    words
};

/// How many words the row of a state takes.
pub const fn row_words(channels: usize) -> usize {
    channels + COUNT_WORDS + NEXT_WORDS
}

/// How many words a system takes.
pub const fn layout_words(states: usize, channels: usize) -> usize {
    HEADER_WORDS + states * row_words(channels)
}

/// Readings are stored with 32,768 added, which turns the sign bit over.
pub const fn word_of_reading(reading: i16) -> u16 {
    (reading as u16) ^ (1 << (u16::BITS - 1))
}

const fn reading_of_word(word: u16) -> i16 {
    (word ^ (1 << (u16::BITS - 1))) as i16
}

/// Tells how many words the layout at the front of the words takes.
pub fn check_layout(words: &[u16]) -> Result<usize, Refusal> {
    let &[states, channels, ..] = words else {
        return Err(Refusal::MemoryTooShort);
    };
    let (states, channels) = (usize::from(states), usize::from(channels));
    if !(1..=MOST_STATES).contains(&states) {
        return Err(Refusal::BadStates);
    }
    if !(1..=MOST_CHANNELS).contains(&channels) {
        return Err(Refusal::BadChannels);
    }
    let length = layout_words(states, channels);
    let rows = words
        .get(HEADER_WORDS..length)
        .ok_or(Refusal::MemoryTooShort)?;
    for row in rows.chunks_exact(row_words(channels)) {
        let (counts, next) = row[channels..].split_at(COUNT_WORDS);
        let (controller, environment) = (usize::from(counts[0]), usize::from(counts[1]));
        let in_range = 1..=MOST_MOVES;
        if !in_range.contains(&controller) || !in_range.contains(&environment) {
            return Err(Refusal::BadMoves);
        }
        for answers in next.chunks_exact(MOST_MOVES).take(controller) {
            let used = &answers[..environment];
            if used.iter().any(|&state| usize::from(state) >= states) {
                return Err(Refusal::BadNextState);
            }
        }
    }
    Ok(length)
}

/// A system that lies in words.
#[derive(Clone, Copy, Debug)]
pub struct Stored<'a> {
    rows: &'a [u16],
    row_words: usize,
    states: u16,
    channels: u8,
}

impl<'a> Stored<'a> {
    /// The system at the front of the words, or the refusal of the layout check.
    pub fn test(words: &'a [u16]) -> Result<Self, Refusal> {
        let length = check_layout(words)?;
        Ok(Self::over_checked(&words[..length]))
    }

    /// The system at the front of the words, or the resting system where the
    /// layout check refuses them.
    pub fn over(words: &'a [u16]) -> Self {
        Self::test(words).unwrap_or_else(|_| Self::over_checked(&RESTING))
    }

    fn over_checked(words: &'a [u16]) -> Self {
        let channels = words[1];
        Stored {
            rows: &words[HEADER_WORDS..],
            row_words: row_words(usize::from(channels)),
            states: words[0],
            channels: channels as u8,
        }
    }

    /// How many words the system takes.
    pub fn words(&self) -> usize {
        HEADER_WORDS + self.rows.len()
    }

    fn row(&self, state: u16) -> Option<&'a [u16]> {
        let start = usize::from(state) * self.row_words;
        self.rows.get(start..start + self.row_words)
    }
}

impl System for Stored<'_> {
    fn states(&self) -> u16 {
        self.states
    }

    fn channels(&self) -> u8 {
        self.channels
    }

    fn reading(&self, state: u16, channel: u8) -> i16 {
        match self.row(state) {
            Some(row) if channel < self.channels => reading_of_word(row[usize::from(channel)]),
            _ => 0,
        }
    }

    fn controller_moves(&self, state: u16) -> u16 {
        self.row(state)
            .map_or(0, |row| row[usize::from(self.channels)])
    }

    fn environment_moves(&self, state: u16) -> u16 {
        self.row(state)
            .map_or(0, |row| row[usize::from(self.channels) + 1])
    }

    fn next(&self, state: u16, controller: u16, environment: u16) -> u16 {
        let Some(row) = self.row(state) else {
            return 0;
        };
        let (counts, next) = row[usize::from(self.channels)..].split_at(COUNT_WORDS);
        if controller < counts[0] && environment < counts[1] {
            next[usize::from(controller) * MOST_MOVES + usize::from(environment)]
        } else {
            0
        }
    }
}

#[cfg(test)]
mod tests {
    use super::*;

    /// Two states that lead to each other, one channel, one move each.
    fn two_states() -> Vec<u16> {
        let mut words = vec![0; layout_words(2, 1)];
        words[0] = 2;
        words[1] = 1;
        for (state, row) in words[HEADER_WORDS..]
            .chunks_exact_mut(row_words(1))
            .enumerate()
        {
            row[0] = word_of_reading(state as i16);
            row[1] = 1;
            row[2] = 1;
            row[3] = 1 - state as u16;
        }
        words
    }

    #[test]
    fn sizes_of_the_layout() {
        assert_eq!(layout_words(MOST_STATES, MOST_CHANNELS), 68_098);
        assert_eq!(layout_words(1, 1), 2 + 259);
        assert_eq!(word_of_reading(0), 32_768);
        assert_eq!(word_of_reading(i16::MIN), 0);
    }

    #[test]
    fn the_resting_system() {
        assert_eq!(RESTING[..5], [1, 1, 32_768, 1, 1]);
        assert!(RESTING[5..].iter().all(|&word| word == 0));
        assert_eq!(RESTING[5..].len(), 256);
        let resting = Stored::over(&[]);
        assert_eq!((resting.states(), resting.channels()), (1, 1));
        assert_eq!(resting.reading(0, 0), 0);
        assert_eq!(resting.controller_moves(0), 1);
        assert_eq!(resting.environment_moves(0), 1);
        assert_eq!(resting.next(0, 0, 0), 0);
    }

    #[test]
    fn the_layout_check_refuses_in_order() {
        assert_eq!(check_layout(&[1]), Err(Refusal::MemoryTooShort));
        assert_eq!(check_layout(&[0, 0]), Err(Refusal::BadStates));
        assert_eq!(check_layout(&[257, 9]), Err(Refusal::BadStates));
        assert_eq!(check_layout(&[256, 9]), Err(Refusal::BadChannels));
        assert_eq!(check_layout(&[256, 8]), Err(Refusal::MemoryTooShort));

        let words = two_states();
        assert_eq!(check_layout(&words), Ok(words.len()));
        let second = HEADER_WORDS + row_words(1);
        for (place, word, refusal) in [
            (HEADER_WORDS + 1, 0, Refusal::BadMoves),
            (HEADER_WORDS + 2, 17, Refusal::BadMoves),
            (HEADER_WORDS + 3, 2, Refusal::BadNextState),
            (second + 1, 17, Refusal::BadMoves),
            (second + 3, 2, Refusal::BadNextState),
        ] {
            let mut words = words.clone();
            words[place] = word;
            assert_eq!(check_layout(&words), Err(refusal));
        }
        let mut unused = words.clone();
        unused[HEADER_WORDS + 4] = 2;
        unused.push(9);
        assert_eq!(check_layout(&unused), Ok(words.len()));
        let mut both = words;
        both[HEADER_WORDS + 3] = 2;
        both[second + 1] = 0;
        assert_eq!(check_layout(&both), Err(Refusal::BadNextState));
    }

    #[test]
    fn out_of_range_questions_are_answered_0() {
        let words = two_states();
        let stored = Stored::over(&words);
        assert_eq!(stored.next(0, 0, 0), 1);
        assert_eq!(stored.next(0, 1, 0), 0);
        assert_eq!(stored.next(0, 0, 1), 0);
        assert_eq!(stored.next(2, 0, 0), 0);
        assert_eq!(stored.reading(1, 0), 1);
        assert_eq!(stored.reading(1, 1), 0);
        assert_eq!(stored.reading(2, 0), 0);
        assert_eq!(stored.controller_moves(2), 0);
        assert_eq!(stored.environment_moves(2), 0);
    }
}
