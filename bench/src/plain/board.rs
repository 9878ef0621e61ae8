//! An arena gathered into plain memory, and the test of its pairs.
//!
//! A visit of all pairs asks for the same moves again and again, through
//! however many layers. A board asks for each of them once.

use super::arena::{Arena, Pair};
use super::stored::MOST_MOVES;

/// The moves that one state offers, and where in a table they lead: an old
/// state's to the places of rows, a new state's to columns.
#[derive(Clone, Debug)]
pub struct StateMoves {
    controller: usize,
    environment: usize,
    leads_to: [[u16; MOST_MOVES]; MOST_MOVES],
}

impl StateMoves {
    fn gather(controller: u16, environment: u16, leads_to: impl Fn(u16, u16) -> u16) -> Self {
        let mut moves = StateMoves {
            controller: controller.into(),
            environment: environment.into(),
            leads_to: Default::default(),
        };
        for (own, answers) in (0..controller).zip(&mut moves.leads_to) {
            for (other, answer) in (0..environment).zip(answers) {
                *answer = leads_to(own, other);
            }
        }
        moves
    }

    /// With at most 256 states a side, the place of the last row is below
    /// 65,536.
    pub fn of_old<A: Arena>(arena: &A, state: u16) -> Self {
        let columns = arena.new_states();
        Self::gather(
            arena.old_controller_moves(state),
            arena.old_environment_moves(state),
            |own, other| arena.old_next(state, own, other) * columns,
        )
    }

    pub fn of_new<A: Arena>(arena: &A, state: u16) -> Self {
        Self::gather(
            arena.new_controller_moves(state),
            arena.new_environment_moves(state),
            |own, other| arena.new_next(state, own, other),
        )
    }

    /// Where each answer of the environment to the controller's move leads.
    fn answers(&self, controller: usize) -> &[u16] {
        &self.leads_to[controller][..self.environment]
    }
}

/// The two states of a pair.
#[derive(Clone, Copy)]
pub struct Visit<'a> {
    pub old: &'a StateMoves,
    pub new: &'a StateMoves,
}

impl Visit<'_> {
    /// Does the move of the old controller refute the pair, if the entries
    /// for which `stands` holds are those of standing pairs?
    pub fn refutes(&self, table: &[u32], controller: usize, stands: impl Fn(u32) -> bool) -> bool {
        let rows = self.old.answers(controller);
        let spoils = |&column: &u16| {
            !rows
                .iter()
                .any(|&row| stands(table[usize::from(row) + usize::from(column)]))
        };
        (0..self.new.controller).all(|reply| self.new.answers(reply).iter().any(spoils))
    }

    /// The least move that refutes the pair.
    pub fn least_refuting(&self, table: &[u32], stands: impl Fn(u32) -> bool) -> Option<u16> {
        (0..self.old.controller)
            .find(|&controller| self.refutes(table, controller, &stands))
            .map(|controller| controller as u16)
    }
}

/// All that is asked of an arena in a visit of its pairs.
pub struct Board {
    old: Vec<StateMoves>,
    new: Vec<StateMoves>,
    /// By the places of the pairs.
    alike: Vec<bool>,
}

impl Board {
    /// Gathers an arena that has at most 16 moves a side.
    pub fn gather<A: Arena>(arena: &A) -> Self {
        let (old, new) = (arena.old_states(), arena.new_states());
        let mut alike = Vec::with_capacity(arena.pairs());
        for old in 0..old {
            alike.extend((0..new).map(|new| arena.alike(Pair { old, new })));
        }
        Board {
            old: (0..old)
                .map(|state| StateMoves::of_old(arena, state))
                .collect(),
            new: (0..new)
                .map(|state| StateMoves::of_new(arena, state))
                .collect(),
            alike,
        }
    }

    pub fn pairs(&self) -> usize {
        self.alike.len()
    }

    /// Whether the pair at the place is alike.
    pub fn alike(&self, place: usize) -> bool {
        self.alike[place]
    }

    /// The visits of all pairs, in the order of their places.
    pub fn visits(&self) -> impl Iterator<Item = Visit<'_>> {
        self.old
            .iter()
            .flat_map(|old| self.new.iter().map(move |new| Visit { old, new }))
    }

    /// The pair at the place.
    pub fn pair(&self, place: usize) -> Pair {
        Pair {
            old: (place / self.new.len()) as u16,
            new: (place % self.new.len()) as u16,
        }
    }
}
