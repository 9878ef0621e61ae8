//! What the game between an old and a new system is played on.

use super::likeness::Likeness;
use super::refusal::Refusal;
use super::stored::{MOST_CHANNELS, MOST_MOVES, MOST_STATES};
use super::system::System;

/// An old state and a new state.
#[derive(Clone, Copy, Debug, PartialEq, Eq)]
pub struct Pair {
    pub old: u16,
    pub new: u16,
}

/// What the game asks of the two systems.
pub trait Arena {
    fn old_states(&self) -> u16;
    fn new_states(&self) -> u16;
    fn comparable(&self) -> bool;
    fn alike(&self, pair: Pair) -> bool;
    fn old_controller_moves(&self, state: u16) -> u16;
    fn old_environment_moves(&self, state: u16) -> u16;
    fn new_controller_moves(&self, state: u16) -> u16;
    fn new_environment_moves(&self, state: u16) -> u16;
    fn old_next(&self, state: u16, controller: u16, environment: u16) -> u16;
    fn new_next(&self, state: u16, controller: u16, environment: u16) -> u16;

    fn pairs(&self) -> usize {
        usize::from(self.old_states()) * usize::from(self.new_states())
    }
}

/// Two systems and a likeness.
pub struct Exchange<'a, O, N, L> {
    pub old: &'a O,
    pub new: &'a N,
    pub likeness: &'a L,
}

impl<O: System, N: System, L: Likeness> Arena for Exchange<'_, O, N, L> {
    fn old_states(&self) -> u16 {
        self.old.states()
    }

    fn new_states(&self) -> u16 {
        self.new.states()
    }

    fn comparable(&self) -> bool {
        let channels = self.old.channels();
        channels == self.new.channels() && usize::from(channels) <= MOST_CHANNELS
    }

    fn alike(&self, pair: Pair) -> bool {
        (0..self.old.channels()).all(|channel| {
            let old = self.old.reading(pair.old, channel);
            let new = self.new.reading(pair.new, channel);
            self.likeness.alike(channel, old, new)
        })
    }

    fn old_controller_moves(&self, state: u16) -> u16 {
        self.old.controller_moves(state)
    }

    fn old_environment_moves(&self, state: u16) -> u16 {
        self.old.environment_moves(state)
    }

    fn new_controller_moves(&self, state: u16) -> u16 {
        self.new.controller_moves(state)
    }

    fn new_environment_moves(&self, state: u16) -> u16 {
        self.new.environment_moves(state)
    }

    fn old_next(&self, state: u16, controller: u16, environment: u16) -> u16 {
        self.old.next(state, controller, environment)
    }

    fn new_next(&self, state: u16, controller: u16, environment: u16) -> u16 {
        self.new.next(state, controller, environment)
    }
}

/// What every call on a docket asks of the arena and the length of the table.
pub fn check_lent<A: Arena>(arena: &A, table: usize) -> Result<(), Refusal> {
    if !arena.comparable() {
        return Err(Refusal::ChannelsDiffer);
    }
    let too_many = |moves: u16| usize::from(moves) > MOST_MOVES;
    let old_too_many = (0..arena.old_states()).any(|state| {
        too_many(arena.old_controller_moves(state)) || too_many(arena.old_environment_moves(state))
    });
    let new_too_many = (0..arena.new_states()).any(|state| {
        too_many(arena.new_controller_moves(state)) || too_many(arena.new_environment_moves(state))
    });
    if old_too_many || new_too_many {
        return Err(Refusal::TooManyMoves);
    }
    if table < arena.pairs() {
        return Err(Refusal::TableTooShort);
    }
    Ok(())
}

/// The refusal that an opening would give.
pub fn check_opening<A: Arena>(arena: &A, table: usize) -> Result<(), Refusal> {
    let too_large = |states: u16| usize::from(states) > MOST_STATES;
    if too_large(arena.old_states()) || too_large(arena.new_states()) {
        return Err(Refusal::TooManyStates);
    }
    check_lent(arena, table)
}
