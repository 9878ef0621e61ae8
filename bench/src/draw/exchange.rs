//! Drawn exchanges of every kind, and drawn calls on their dockets.

use super::{Dice, Draft, Shape, chain, near_copy, random, random_up_to};
use crate::implementation::{
    Answer, Call, Cause, Codes, Exchange, Layer, Likeness, Pair, Proposal,
};

/// The entries that a code list has room for.
const MOST_CODES: usize = 8;

fn likeness(dice: &mut Dice) -> (Likeness, &'static [i16]) {
    match dice.below(4) {
        0 => (tolerances(dice), &[0, 1, 2, 5, -1, 1_001]),
        1 => {
            let channel = dice.below(3) as u8;
            let readings = &[-20, 0, 1, 10, 11, 50, 51, 900, 1_400, 1_401];
            (Likeness::SeaState(channel), readings)
        }
        2 => (Likeness::Exact, &[0, 1, 2]),
        _ => (Likeness::Exact, &[0, 1]),
    }
}

fn codes(dice: &mut Dice, readings: &[i16]) -> Codes {
    let most = dice.below(4);
    so_many_codes(dice, readings, most)
}

fn so_many_codes(dice: &mut Dice, readings: &[i16], count: usize) -> Codes {
    let mut entries = Vec::new();
    for _ in 0..count {
        entries.push((dice.pick(readings), dice.pick(readings)));
    }
    Codes {
        channel: dice.below(3) as u8,
        cut: dice.pick(&[i16::MIN, 0, 2, 3, 1_000, i16::MAX]),
        entries,
    }
}

fn file_of(draft: &Draft) -> Layer {
    Layer::File(draft.file())
}

fn file(dice: &mut Dice, most: Shape) -> Layer {
    file_of(&random_up_to(dice, most))
}

/// A layer that is a few levels deep.
fn layer(dice: &mut Dice, most: Shape, depth: usize) -> Layer {
    match dice.below(if depth == 0 { 3 } else { 7 }) {
        0 => Layer::Buffer(dice.below(3) as u8),
        1 | 2 => file(dice, most),
        3 | 4 => {
            let below = layer(dice, most, depth - 1);
            let codes = codes(dice, most.readings);
            Layer::coded(below, codes)
        }
        _ => {
            let first = layer(dice, most, depth - 1);
            Layer::joint(first, layer(dice, most, depth - 1))
        }
    }
}

/// Two files, small ones or chains, often near copies of each other.
fn two_files(dice: &mut Dice, small: Shape) -> (Layer, Layer) {
    match dice.below(5) {
        0 => (file(dice, small), file(dice, small)),
        1 => {
            let shape = Shape {
                environment: dice.between(1, 2),
                ..small
            };
            (file_of(&random(dice, shape)), file_of(&random(dice, shape)))
        }
        2 | 3 => {
            let old = random_up_to(dice, small);
            let new = near_copy(dice, &old, small.readings);
            (file_of(&old), file_of(&new))
        }
        _ => {
            let mut side = || {
                let (states, moves) = (dice.between(1, 9), dice.between(1, 3));
                let last = dice.pick(small.readings);
                file_of(&chain(states, moves, dice.between(1, 3), last))
            };
            (side(), side())
        }
    }
}

/// An exchange of two files by tolerances.
pub fn of_files(dice: &mut Dice) -> Exchange {
    let small = Shape {
        states: if dice.once_in(20) { 20 } else { 4 },
        channels: dice.pick(&[1, 1, 2, 3, 8]),
        controller: 3,
        environment: 3,
        readings: &[0, 1, 2, 5, -1, 1_001],
    };
    let (old, new) = two_files(dice, small);
    let likeness = if dice.once_in(3) {
        Likeness::Exact
    } else {
        tolerances(dice)
    };
    Exchange { old, new, likeness }
}

fn tolerances(dice: &mut Dice) -> Likeness {
    Likeness::Within([(); 8].map(|()| dice.pick(&[0, 1, 4, 1_000])))
}

/// An exchange of two files under one code list, which is full or has more
/// entries than it has room for. Then a tolerance may be too wide as well.
pub fn of_codes(dice: &mut Dice) -> Exchange {
    let Exchange {
        old,
        new,
        mut likeness,
    } = of_files(dice);
    let count = dice.between(MOST_CODES, MOST_CODES + 2);
    let codes = so_many_codes(dice, &[0, 1, 2, 5, -1, 1_001], count);
    if count > MOST_CODES && dice.once_in(2) {
        likeness = Likeness::Within([1_001; 8]);
    }
    Exchange {
        old: Layer::coded(old, codes.clone()),
        new: Layer::coded(new, codes),
        likeness,
    }
}

/// A joint of two files, now and then one that is too large for a docket.
fn joint_of_files(dice: &mut Dice, tiny: Shape) -> Layer {
    let part = match dice.below(20) {
        0 => Shape { states: 17, ..tiny },
        1 => Shape {
            controller: 5,
            ..tiny
        },
        2 => Shape {
            environment: 5,
            ..tiny
        },
        3 => Shape {
            channels: 5,
            ..tiny
        },
        _ => return Layer::joint(file(dice, tiny), file(dice, tiny)),
    };
    let mut file = || file_of(&random(dice, part));
    Layer::joint(file(), file())
}

pub fn exchange(dice: &mut Dice) -> Exchange {
    let (likeness, readings) = likeness(dice);
    let small = Shape {
        states: 6,
        channels: dice.between(1, 2),
        controller: 3,
        environment: 3,
        readings,
    };
    let tiny = Shape {
        states: 3,
        channels: 1,
        controller: 2,
        environment: 2,
        readings,
    };
    let (old, new) = match dice.below(13) {
        0..=4 => two_files(dice, small),
        5 => {
            let mut side = || {
                let buffer = Layer::Buffer(dice.below(7) as u8);
                if dice.once_in(2) {
                    let codes = codes(dice, readings);
                    Layer::coded(buffer, codes)
                } else {
                    buffer
                }
            };
            (side(), side())
        }
        6 => {
            // The same parts the other way round, or with one part changed.
            let (first, second) = (random_up_to(dice, tiny), random_up_to(dice, tiny));
            let changed = near_copy(dice, &second, readings);
            let old = Layer::joint(file_of(&first), file_of(&second));
            let new = if dice.once_in(3) {
                Layer::joint(file_of(&second), file_of(&first))
            } else {
                Layer::joint(file_of(&first), file_of(&changed))
            };
            (old, new)
        }
        7 | 11 => {
            let draft = random_up_to(dice, small);
            let shared = dice.once_in(2).then(|| codes(dice, readings));
            let mut side = || {
                let copy = near_copy(dice, &draft, readings);
                let codes = shared.clone().unwrap_or_else(|| codes(dice, readings));
                Layer::coded(file_of(&copy), codes)
            };
            (side(), side())
        }
        8 => (layer(dice, tiny, 2), layer(dice, tiny, 2)),
        12 => (joint_of_files(dice, tiny), joint_of_files(dice, tiny)),
        // Many of the others are refused.
        9 => {
            let large = Layer::joint(
                Layer::Buffer(dice.between(14, 17) as u8),
                Layer::Buffer(dice.between(13, 16) as u8),
            );
            let other = layer(dice, tiny, 3);
            if dice.once_in(2) {
                (large, other)
            } else {
                (other, large)
            }
        }
        _ => {
            // With 9 moves and more, and sometimes 9 channels.
            let part = Shape {
                channels: dice.pick(&[1, 1, 7]),
                ..tiny
            };
            let mut side = || {
                let mut buffer = || Layer::Buffer(dice.below(2) as u8);
                let joint = Layer::joint(buffer(), buffer());
                Layer::joint(joint, file(dice, part))
            };
            (side(), side())
        }
    };
    Exchange { old, new, likeness }
}

fn proposal(dice: &mut Dice, sizes: (usize, usize)) -> Proposal {
    let (old, new) = sizes;
    Proposal {
        pair: Pair {
            old: dice.below(old + 1) as u16,
            new: dice.below(new + 1) as u16,
        },
        cause: if dice.once_in(3) {
            Cause::Sight
        } else {
            Cause::Move(dice.below(4) as u16)
        },
    }
}

pub fn proposals(dice: &mut Dice, sizes: (usize, usize)) -> Vec<Proposal> {
    let count = if dice.once_in(2) { 0 } else { dice.below(12) };
    (0..count).map(|_| proposal(dice, sizes)).collect()
}

pub fn call(dice: &mut Dice, sizes: (usize, usize), before: Option<&Answer>) -> Call {
    // A loose pair that a settle check names may be struck next.
    if let Some(&Answer::Loose(pair, cause)) = before
        && dice.once_in(2)
    {
        return Call::Strike(Proposal { pair, cause });
    }
    match dice.below(8) {
        _ if before.is_none() && dice.once_in(2) => Call::Open,
        0 => Call::Open,
        1 => Call::Sweep(dice.pick(&[0, 1, 2, 5, u16::MAX])),
        2 | 3 => Call::Settle,
        _ => Call::Strike(proposal(dice, sizes)),
    }
}
