//! Drawn systems, files and tables, the same in every run.

pub mod exchange;

/// A small generator of numbers (SplitMix64).
pub struct Dice {
    state: u64,
}

impl Dice {
    pub fn new(seed: u64) -> Self {
        Dice { state: seed }
    }

    fn roll(&mut self) -> u64 {
        self.state = self.state.wrapping_add(0x9E37_79B9_7F4A_7C15);
        let mut mixed = self.state;
        mixed = (mixed ^ (mixed >> 30)).wrapping_mul(0xBF58_476D_1CE4_E5B9);
        mixed = (mixed ^ (mixed >> 27)).wrapping_mul(0x94D0_49BB_1331_11EB);
        mixed ^ (mixed >> 31)
    }

    /// A number from 0 on, below the bound.
    pub fn below(&mut self, bound: usize) -> usize {
        (self.roll() % bound as u64) as usize
    }

    pub fn between(&mut self, least: usize, most: usize) -> usize {
        least + self.below(most - least + 1)
    }

    /// True once in so many times.
    pub fn once_in(&mut self, times: usize) -> bool {
        self.below(times) == 0
    }

    pub fn pick<T: Copy>(&mut self, from: &[T]) -> T {
        from[self.below(from.len())]
    }
}

/// A system as it is drawn, before it is filed.
#[derive(Clone, Debug, PartialEq, Eq)]
pub struct Draft {
    pub channels: usize,
    pub states: Vec<DraftState>,
}

#[derive(Clone, Debug, PartialEq, Eq)]
pub struct DraftState {
    pub readings: Vec<i16>,
    pub controller: usize,
    pub environment: usize,
    /// The next states, the environment's moves running fastest.
    pub next: Vec<usize>,
}

/// How large a drawn system is, and what its channels can show.
#[derive(Clone, Copy, Debug)]
pub struct Shape<'a> {
    pub states: usize,
    pub channels: usize,
    pub controller: usize,
    pub environment: usize,
    pub readings: &'a [i16],
}

/// A system of just this shape.
pub fn random(dice: &mut Dice, shape: Shape) -> Draft {
    let moves = shape.controller * shape.environment;
    let states = (0..shape.states)
        .map(|_| DraftState {
            readings: draw_many(shape.channels, || dice.pick(shape.readings)),
            controller: shape.controller,
            environment: shape.environment,
            next: draw_many(moves, || dice.below(shape.states)),
        })
        .collect();
    Draft {
        channels: shape.channels,
        states,
    }
}

/// A system of at most this shape, with moves drawn for each state.
pub fn random_up_to(dice: &mut Dice, most: Shape) -> Draft {
    let count = dice.between(1, most.states);
    let states = (0..count)
        .map(|_| {
            let controller = dice.between(1, most.controller);
            let environment = dice.between(1, most.environment);
            DraftState {
                readings: draw_many(most.channels, || dice.pick(most.readings)),
                controller,
                environment,
                next: draw_many(controller * environment, || dice.below(count)),
            }
        })
        .collect();
    Draft {
        channels: most.channels,
        states,
    }
}

fn draw_many<T>(count: usize, mut draw: impl FnMut() -> T) -> Vec<T> {
    (0..count).map(|_| draw()).collect()
}

/// A copy in which a few things may differ.
pub fn near_copy(dice: &mut Dice, original: &Draft, readings: &[i16]) -> Draft {
    let mut copy = original.clone();
    for _ in 0..dice.below(3) {
        let count = copy.states.len();
        let changed = dice.below(count);
        let state = &mut copy.states[changed];
        match dice.below(5) {
            0 => {
                let channel = dice.below(copy.channels);
                state.readings[channel] = dice.pick(readings);
            }
            1 => {
                let place = dice.below(state.next.len());
                state.next[place] = dice.below(count);
            }
            2 => {
                // One more move of the controller.
                let more = draw_many(state.environment, || dice.below(count));
                state.next.extend(more);
                state.controller += 1;
            }
            3 if state.controller > 1 => {
                state.controller -= 1;
                state.next.truncate(state.controller * state.environment);
            }
            // A twin that some move leads to in place of the state.
            _ => {
                let twin = copy.states[changed].clone();
                copy.states.push(twin);
                for state in &mut copy.states {
                    for next in &mut state.next {
                        if *next == changed && dice.once_in(2) {
                            *next = count;
                        }
                    }
                }
            }
        }
    }
    copy
}

/// A chain: every move leads to the state behind, and the last state keeps to
/// itself. It alone shows `last`; the others show 0.
pub fn chain(states: usize, controller: usize, environment: usize, last: i16) -> Draft {
    let states = (0..states)
        .map(|state| {
            let behind = (state + 1).min(states - 1);
            DraftState {
                readings: vec![if state == behind { last } else { 0 }],
                controller,
                environment,
                next: vec![behind; controller * environment],
            }
        })
        .collect();
    Draft {
        channels: 1,
        states,
    }
}

impl Draft {
    /// The numbers of the file, in their order.
    fn numbers(&self) -> Vec<u32> {
        let mut numbers = vec![self.states.len() as u32, self.channels as u32];
        for state in &self.states {
            for &reading in &state.readings {
                let reading = i32::from(reading);
                let filed = if reading < 0 {
                    -2 * reading - 1
                } else {
                    2 * reading
                };
                numbers.push(filed as u32);
            }
            numbers.extend([state.controller as u32, state.environment as u32]);
            numbers.extend(state.next.iter().map(|&next| next as u32));
        }
        numbers
    }

    pub fn file(&self) -> Vec<u8> {
        let mut bytes = Vec::new();
        for number in self.numbers() {
            encode(number, 1, &mut bytes);
        }
        bytes
    }

    /// The file with some numbers in more bytes than they need.
    pub fn padded_file(&self, dice: &mut Dice) -> Vec<u8> {
        let mut bytes = Vec::new();
        for number in self.numbers() {
            let least = if dice.once_in(4) {
                dice.between(1, 3)
            } else {
                1
            };
            encode(number, least, &mut bytes);
        }
        bytes
    }
}

/// How many values the seven bits of a byte have.
const GROUP: u32 = 128;

/// Encodes a number in at least so many bytes.
fn encode(mut number: u32, least: usize, bytes: &mut Vec<u8>) {
    let mut written = 1;
    while number >= GROUP || written < least {
        bytes.push((GROUP + number % GROUP) as u8);
        number /= GROUP;
        written += 1;
    }
    bytes.push(number as u8);
}

/// A file that may be cut, changed in a byte, or have a number out of range.
pub fn damaged_file(dice: &mut Dice, draft: &Draft) -> Vec<u8> {
    let mut bytes = draft.padded_file(dice);
    match dice.below(3) {
        0 => bytes.truncate(dice.below(bytes.len() + 1)),
        1 => {
            let place = dice.below(bytes.len());
            bytes[place] = dice.below(256) as u8;
        }
        _ => {
            let mut numbers = draft.numbers();
            let count = draft.states.len() as u32;
            // The head of the file is hit more often than by chance.
            let reach = if dice.once_in(3) {
                numbers.len().min(6)
            } else {
                numbers.len()
            };
            let place = dice.below(reach);
            numbers[place] = dice.pick(&[0, 9, 17, count, 257, 65_535, 65_536, 2_000_000]);
            bytes.clear();
            for number in numbers {
                encode(number, 1, &mut bytes);
            }
        }
    }
    bytes
}

/// Changes an entry of a table, in a way that a certificate check should see
/// or in one that it should not mind.
pub fn damage_table(dice: &mut Dice, table: &mut [u32]) {
    let place = dice.below(table.len());
    let other = table[dice.below(table.len())];
    let entry = table[place];
    table[place] = match dice.below(7) {
        0 => 0,
        1 => other,
        2 => entry.wrapping_add(1),
        3 => entry.saturating_sub(1),
        4 => u32::MAX,
        5 => 1,
        _ => dice.between(1, table.len()) as u32,
    };
}
