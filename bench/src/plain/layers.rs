//! Systems that need no words of their own: buffers, joints and code lists.

use super::refusal::Refusal;
use super::system::System;

/// Records that wait to be sent, counted by the states.
#[derive(Clone, Copy, Debug)]
pub struct Buffer {
    pub capacity: u8,
}

impl Buffer {
    const WAIT: u16 = 0;
    const TAKE: u16 = 1;
    const SEND: u16 = 2;
    const CONTROLLER_MOVES: u16 = 3;
    const RADIO_UP: u16 = 0;
    const ENVIRONMENT_MOVES: u16 = 2;

    fn has(&self, state: u16) -> bool {
        state <= u16::from(self.capacity)
    }
}

impl System for Buffer {
    fn states(&self) -> u16 {
        u16::from(self.capacity) + 1
    }

    fn channels(&self) -> u8 {
        1
    }

    fn reading(&self, state: u16, channel: u8) -> i16 {
        if self.has(state) && channel == 0 {
            state as i16
        } else {
            0
        }
    }

    fn controller_moves(&self, state: u16) -> u16 {
        if self.has(state) {
            Self::CONTROLLER_MOVES
        } else {
            0
        }
    }

    fn environment_moves(&self, state: u16) -> u16 {
        if self.has(state) {
            Self::ENVIRONMENT_MOVES
        } else {
            0
        }
    }

    fn next(&self, state: u16, controller: u16, environment: u16) -> u16 {
        if !self.has(state) || environment >= Self::ENVIRONMENT_MOVES {
            return 0;
        }
        match controller {
            Self::TAKE => u16::from(self.capacity).min(state + 1),
            Self::SEND if environment == Self::RADIO_UP => state.saturating_sub(1),
            Self::WAIT | Self::SEND => state,
            _ => 0,
        }
    }
}

/// Two systems side by side.
#[derive(Clone, Copy, Debug)]
pub struct Joint<A, B> {
    pub first: A,
    pub second: B,
}

impl<A: System, B: System> Joint<A, B> {
    /// The states of the first and of the second.
    fn split(&self, state: u16) -> Option<(u16, u16)> {
        let second = self.second.states();
        (state < self.states()).then(|| (state / second, state % second))
    }
}

impl<A: System, B: System> System for Joint<A, B> {
    fn states(&self) -> u16 {
        self.first.states().saturating_mul(self.second.states())
    }

    fn channels(&self) -> u8 {
        self.first.channels().saturating_add(self.second.channels())
    }

    fn reading(&self, state: u16, channel: u8) -> i16 {
        let Some((first, second)) = self.split(state) else {
            return 0;
        };
        if channel >= self.channels() {
            return 0;
        }
        match channel.checked_sub(self.first.channels()) {
            None => self.first.reading(first, channel),
            Some(channel) => self.second.reading(second, channel),
        }
    }

    fn controller_moves(&self, state: u16) -> u16 {
        self.split(state).map_or(0, |(first, second)| {
            self.first
                .controller_moves(first)
                .saturating_mul(self.second.controller_moves(second))
        })
    }

    fn environment_moves(&self, state: u16) -> u16 {
        self.split(state).map_or(0, |(first, second)| {
            self.first
                .environment_moves(first)
                .saturating_mul(self.second.environment_moves(second))
        })
    }

    fn next(&self, state: u16, controller: u16, environment: u16) -> u16 {
        let Some((first, second)) = self.split(state) else {
            return 0;
        };
        let controllers = self.second.controller_moves(second);
        let environments = self.second.environment_moves(second);
        let in_range = |number: u16, first: u16, second: u16| number < first.saturating_mul(second);
        if !in_range(controller, self.first.controller_moves(first), controllers)
            || !in_range(
                environment,
                self.first.environment_moves(first),
                environments,
            )
        {
            return 0;
        }
        let first = self
            .first
            .next(first, controller / controllers, environment / environments);
        let second = self
            .second
            .next(second, controller % controllers, environment % environments);
        let next = u32::from(first) * u32::from(self.second.states()) + u32::from(second);
        // A joint of more than 65,535 states stops at its last one.
        next.min(u32::from(self.states() - 1)) as u16
    }
}

/// The codes that one channel is translated by.
#[derive(Clone, Debug)]
pub struct CodeList {
    channel: u8,
    cut: i16,
    entries: Vec<(i16, i16)>,
}

impl CodeList {
    pub const MOST_ENTRIES: usize = 8;

    pub fn new(channel: u8, cut: i16) -> Self {
        CodeList {
            channel,
            cut,
            entries: Vec::with_capacity(Self::MOST_ENTRIES),
        }
    }

    pub fn add(&mut self, from: i16, to: i16) -> Result<(), Refusal> {
        if self.entries.len() == Self::MOST_ENTRIES {
            return Err(Refusal::CodeListFull);
        }
        self.entries.push((from, to));
        Ok(())
    }

    /// The cut is applied to what the entries made of the reading.
    fn translate(&self, reading: i16) -> i16 {
        let coded = self
            .entries
            .iter()
            .find(|&&(from, _)| from == reading)
            .map_or(reading, |&(_, to)| to);
        if coded >= self.cut { 0 } else { coded }
    }
}

/// A code list over a system.
#[derive(Clone, Debug)]
pub struct Coded<S> {
    pub below: S,
    pub codes: CodeList,
}

impl<S: System> System for Coded<S> {
    fn states(&self) -> u16 {
        self.below.states()
    }

    fn channels(&self) -> u8 {
        self.below.channels()
    }

    fn reading(&self, state: u16, channel: u8) -> i16 {
        let reading = self.below.reading(state, channel);
        let in_range = state < self.states() && channel < self.channels();
        if channel == self.codes.channel && in_range {
            self.codes.translate(reading)
        } else {
            reading
        }
    }

    fn controller_moves(&self, state: u16) -> u16 {
        self.below.controller_moves(state)
    }

    fn environment_moves(&self, state: u16) -> u16 {
        self.below.environment_moves(state)
    }

    fn next(&self, state: u16, controller: u16, environment: u16) -> u16 {
        self.below.next(state, controller, environment)
    }
}

#[cfg(test)]
mod tests {
    use super::*;

    const FULL: Buffer = Buffer { capacity: 255 };

    #[test]
    fn a_buffer_takes_and_sends() {
        let buffer = Buffer { capacity: 2 };
        assert_eq!((buffer.states(), buffer.channels()), (3, 1));
        assert_eq!((buffer.next(1, 1, 0), buffer.next(2, 1, 1)), (2, 2));
        assert_eq!((buffer.next(1, 2, 0), buffer.next(0, 2, 0)), (0, 0));
        assert_eq!((buffer.next(1, 2, 1), buffer.next(1, 0, 0)), (1, 1));
        assert_eq!(buffer.reading(2, 0), 2);
        assert_eq!((buffer.reading(3, 0), buffer.reading(2, 1)), (0, 0));
        assert_eq!(
            (buffer.controller_moves(3), buffer.environment_moves(3)),
            (0, 0)
        );
        assert_eq!((buffer.next(3, 0, 0), buffer.next(1, 3, 0)), (0, 0));
        assert_eq!(buffer.next(1, 0, 2), 0);
    }

    #[test]
    fn a_joint_splits_states_moves_and_channels() {
        let joint = Joint {
            first: Buffer { capacity: 1 },
            second: Buffer { capacity: 2 },
        };
        assert_eq!((joint.states(), joint.channels()), (6, 2));
        assert_eq!(
            (joint.controller_moves(5), joint.environment_moves(5)),
            (9, 4)
        );
        assert_eq!((joint.reading(5, 0), joint.reading(5, 1)), (1, 2));
        // The first sends with the radio down, the second with the radio up.
        assert_eq!(joint.next(5, 2 * 3 + 2, 2), 4);
        assert_eq!((joint.next(5, 9, 0), joint.next(5, 0, 4)), (0, 0));
        assert_eq!((joint.next(6, 0, 0), joint.reading(6, 0)), (0, 0));
        assert_eq!(joint.reading(5, 2), 0);
    }

    #[test]
    fn a_joint_stops_at_its_bounds() {
        let joint = Joint {
            first: FULL,
            second: FULL,
        };
        assert_eq!(joint.states(), u16::MAX);
        // Both take: from (255, 254) to (255, 255), which has no number.
        let last = u16::MAX - 1;
        assert_eq!(joint.next(last, 4, 0), last);
        assert_eq!(joint.next(u16::MAX, 4, 0), 0);

        let mut moves: Box<dyn System> = Box::new(FULL);
        for _ in 0..4 {
            moves = Box::new(Joint {
                first: Joint {
                    first: FULL,
                    second: FULL,
                },
                second: Joint {
                    first: FULL,
                    second: moves,
                },
            });
        }
        // 3 and 2 to the power 13, of which the first has no number.
        assert_eq!(moves.controller_moves(0), u16::MAX);
        assert_eq!(moves.environment_moves(0), 1 << 13);
        assert_eq!(moves.next(0, u16::MAX, 0), 0);
    }

    #[test]
    fn a_code_list_translates_and_cuts() {
        let mut codes = CodeList::new(0, 5);
        codes.add(1, 3).unwrap();
        codes.add(1, 4).unwrap();
        codes.add(2, 9).unwrap();
        let coded = Coded {
            below: Buffer { capacity: 9 },
            codes,
        };
        let shown: Vec<i16> = (0..=10).map(|state| coded.reading(state, 0)).collect();
        assert_eq!(shown, [0, 3, 0, 3, 4, 0, 0, 0, 0, 0, 0]);
        assert_eq!(coded.next(3, 1, 0), 4);
    }

    #[test]
    fn out_of_range_is_never_translated() {
        let mut codes = CodeList::new(0, i16::MAX);
        codes.add(0, 7).unwrap();
        let coded = Coded {
            below: Buffer { capacity: 1 },
            codes,
        };
        assert_eq!((coded.reading(0, 0), coded.reading(2, 0)), (7, 0));
        assert_eq!(coded.reading(0, 1), 0);

        let mut absent = CodeList::new(1, 0);
        absent.add(0, 7).unwrap();
        let coded = Coded {
            below: Buffer { capacity: 1 },
            codes: absent,
        };
        assert_eq!((coded.reading(1, 0), coded.reading(1, 1)), (1, 0));
    }

    #[test]
    fn a_code_list_holds_8_entries() {
        let mut codes = CodeList::new(0, 0);
        for from in 0..8 {
            assert_eq!(codes.add(from, 0), Ok(()));
        }
        assert_eq!(codes.add(8, 0), Err(Refusal::CodeListFull));
    }
}
