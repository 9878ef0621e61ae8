//! The docket, which records strikes.

use super::arena::{Arena, Pair, check_lent, check_opening};
use super::board::{Board, StateMoves, Visit};
use super::refusal::Refusal;

/// The entry of a standing pair.
pub const STANDING: u32 = 0;

/// The budget of each sweep of a decision.
const FULL_BUDGET: u16 = u16::MAX;

pub fn stands(entry: u32) -> bool {
    entry == STANDING
}

/// Whether an entry stands where entries of `from` and above, `from` being 1
/// or more, are taken for standing as well.
pub fn stands_from(from: u32) -> impl Fn(u32) -> bool {
    // One comparison: the entry of a standing pair wraps round to the largest.
    move |entry| entry.wrapping_sub(1) >= from - 1
}

#[derive(Clone, Copy, Debug, PartialEq, Eq)]
pub enum Cause {
    Sight,
    Move(u16),
}

/// A strike that someone proposes.
#[derive(Clone, Copy, Debug, PartialEq, Eq)]
pub struct Proposal {
    pub pair: Pair,
    pub cause: Cause,
}

#[derive(Clone, Copy, Debug, PartialEq, Eq)]
pub enum Settlement {
    /// No pair is loose; so many stand.
    Settled(u32),
    /// The first loose pair, with the cause for which a sweep would strike it.
    Loose(Pair, Cause),
}

#[derive(Clone, Debug, PartialEq, Eq)]
pub struct Decision {
    pub answers: Vec<Result<u32, Refusal>>,
    pub swept: u32,
    pub standing: u32,
    pub replaces: bool,
}

/// The sizes that it was opened for, and the strikes granted since.
#[derive(Clone, Debug, Default, PartialEq, Eq)]
pub struct Docket {
    sizes: Option<(u16, u16)>,
    count: u32,
}

/// Why the pair that is visited cannot be kept, if so.
fn cause_to_strike(visit: Visit, alike: bool, table: &[u32]) -> Option<Cause> {
    if alike {
        visit.least_refuting(table, stands).map(Cause::Move)
    } else {
        Some(Cause::Sight)
    }
}

/// The number of standing pairs, or the place of the first loose one with the
/// cause to strike it.
fn first_loose(board: &Board, table: &[u32]) -> Result<u32, (usize, Cause)> {
    let mut standing = 0;
    for (place, visit) in board.visits().enumerate() {
        if stands(table[place]) {
            if let Some(cause) = cause_to_strike(visit, board.alike(place), table) {
                return Err((place, cause));
            }
            standing += 1;
        }
    }
    Ok(standing)
}

impl Docket {
    /// A docket that was never opened.
    pub fn new() -> Self {
        Self::default()
    }

    pub fn open<A: Arena>(&mut self, arena: &A, table: &mut [u32]) -> Result<u32, Refusal> {
        check_opening(arena, table.len())?;
        table[..arena.pairs()].fill(STANDING);
        self.sizes = Some((arena.old_states(), arena.new_states()));
        self.count = 0;
        Ok(arena.pairs() as u32)
    }

    /// The refusals of every call after the opening.
    fn check_call<A: Arena>(&self, arena: &A, table: &[u32]) -> Result<(), Refusal> {
        let sizes = self.sizes.ok_or(Refusal::DocketClosed)?;
        if sizes != (arena.old_states(), arena.new_states()) {
            return Err(Refusal::OtherSizes);
        }
        check_lent(arena, table.len())
    }

    pub fn strike<A: Arena>(
        &mut self,
        arena: &A,
        table: &mut [u32],
        proposal: Proposal,
    ) -> Result<u32, Refusal> {
        self.check_call(arena, table)?;
        let Proposal { pair, cause } = proposal;
        if pair.old >= arena.old_states() || pair.new >= arena.new_states() {
            return Err(Refusal::NoSuchPair);
        }
        let columns = usize::from(arena.new_states());
        let place = usize::from(pair.old) * columns + usize::from(pair.new);
        if !stands(table[place]) {
            return Err(Refusal::StruckAlready);
        }
        match cause {
            Cause::Sight if arena.alike(pair) => return Err(Refusal::PairAlike),
            Cause::Sight => {}
            Cause::Move(controller) if controller >= arena.old_controller_moves(pair.old) => {
                return Err(Refusal::NoSuchMove);
            }
            Cause::Move(controller) => {
                let visit = Visit {
                    old: &StateMoves::of_old(arena, pair.old),
                    new: &StateMoves::of_new(arena, pair.new),
                };
                if !visit.refutes(table, controller.into(), stands) {
                    return Err(Refusal::MoveDoesNotRefute);
                }
            }
        }
        if self.count as usize == arena.pairs() {
            return Err(Refusal::AllStrikesGranted);
        }
        self.count += 1;
        table[place] = self.count;
        Ok(self.count)
    }

    pub fn sweep<A: Arena>(
        &mut self,
        arena: &A,
        table: &mut [u32],
        budget: u16,
    ) -> Result<u16, Refusal> {
        self.check_call(arena, table)?;
        Ok(self.sweep_board(&Board::gather(arena), table, budget))
    }

    fn sweep_board(&mut self, board: &Board, table: &mut [u32], budget: u16) -> u16 {
        let most = board.pairs() as u32;
        let mut made = 0;
        for (place, visit) in board.visits().enumerate() {
            if made == budget || self.count == most {
                break;
            }
            if stands(table[place]) && cause_to_strike(visit, board.alike(place), table).is_some() {
                self.count += 1;
                table[place] = self.count;
                made += 1;
            }
        }
        made
    }

    pub fn settle<A: Arena>(&self, arena: &A, table: &[u32]) -> Result<Settlement, Refusal> {
        self.check_call(arena, table)?;
        let board = Board::gather(arena);
        Ok(match first_loose(&board, table) {
            Ok(standing) => Settlement::Settled(standing),
            Err((place, cause)) => Settlement::Loose(board.pair(place), cause),
        })
    }

    /// An opening, the proposals, sweeps until one makes no strike, a settle
    /// check.
    pub fn decide<A: Arena>(
        &mut self,
        arena: &A,
        table: &mut [u32],
        proposals: &[Proposal],
    ) -> Result<Decision, Refusal> {
        self.open(arena, table)?;
        let answers = proposals
            .iter()
            .map(|&proposal| self.strike(arena, table, proposal))
            .collect();
        let board = Board::gather(arena);
        let mut swept = 0;
        loop {
            let made = self.sweep_board(&board, table, FULL_BUDGET);
            if made == 0 {
                break;
            }
            swept += u32::from(made);
        }
        let standing =
            first_loose(&board, table).expect("a sweep that made no strike found no loose pair");
        Ok(Decision {
            answers,
            swept,
            standing,
            replaces: stands(table[0]),
        })
    }
}

#[cfg(test)]
mod tests {
    use super::super::arena::Exchange;
    use super::super::layers::{Buffer, Joint};
    use super::super::likeness::Exact;
    use super::super::system::System;
    use super::*;

    /// An entry behind the pairs, which belongs to the caller.
    const BEHIND: u32 = 77;

    fn arena<'a, O: System, N: System>(old: &'a O, new: &'a N) -> Exchange<'a, O, N, Exact> {
        Exchange {
            old,
            new,
            likeness: &Exact,
        }
    }

    fn buffer(capacity: u8) -> Buffer {
        Buffer { capacity }
    }

    fn joint<A, B>(first: A, second: B) -> Joint<A, B> {
        Joint { first, second }
    }

    fn strike(old: u16, new: u16, cause: Cause) -> Proposal {
        Proposal {
            pair: Pair { old, new },
            cause,
        }
    }

    #[test]
    fn sweeps_of_buffers() {
        let (old, new) = (buffer(2), buffer(1));
        let arena = arena(&old, &new);
        let mut table = [5, 5, 5, 5, 5, 5, BEHIND];
        let mut docket = Docket::new();
        assert_eq!(docket.open(&arena, &mut table), Ok(6));
        assert_eq!(table, [0, 0, 0, 0, 0, 0, BEHIND]);
        for made in [4, 1, 1, 0] {
            assert_eq!(docket.sweep(&arena, &mut table, FULL_BUDGET), Ok(made));
        }
        assert_eq!(table, [6, 1, 2, 5, 3, 4, BEHIND]);
        assert_eq!(docket.settle(&arena, &table), Ok(Settlement::Settled(0)));
    }

    #[test]
    fn an_exchange_of_buffers() {
        let (old, new) = (buffer(1), buffer(2));
        let mut table = [BEHIND; 6];
        let decision = Docket::new().decide(&arena(&old, &new), &mut table, &[]);
        assert_eq!(
            decision,
            Ok(Decision {
                answers: vec![],
                swept: 4,
                standing: 2,
                replaces: true
            })
        );
    }

    #[test]
    fn budgets_and_settling() {
        let (old, new) = (buffer(2), buffer(1));
        let arena = arena(&old, &new);
        let mut table = [0; 6];
        let mut docket = Docket::new();
        docket.open(&arena, &mut table).unwrap();
        assert_eq!(docket.sweep(&arena, &mut table, 0), Ok(0));
        assert_eq!(
            docket.settle(&arena, &table),
            Ok(Settlement::Loose(Pair { old: 0, new: 1 }, Cause::Sight))
        );
        assert_eq!(docket.sweep(&arena, &mut table, 3), Ok(3));
        assert_eq!(table, [0, 1, 2, 0, 3, 0]);
        assert_eq!(docket.sweep(&arena, &mut table, 1), Ok(1));
        assert_eq!(table, [0, 1, 2, 0, 3, 4]);
        // From (1, 1) the old buffer can take, to where only (2, .) is left.
        let loose = Settlement::Loose(Pair { old: 1, new: 1 }, Cause::Move(1));
        assert_eq!(docket.settle(&arena, &table), Ok(loose));
        let proposal = strike(1, 1, Cause::Move(1));
        assert_eq!(docket.strike(&arena, &mut table, proposal), Ok(5));
    }

    #[test]
    fn openings_refused_in_order() {
        let large = joint(buffer(255), buffer(1));
        let moves = joint(joint(buffer(1), buffer(1)), buffer(1));
        let pair = buffer(1);
        let mut docket = Docket::new();
        assert_eq!(
            docket.open(&arena(&large, &pair), &mut []),
            Err(Refusal::TooManyStates)
        );
        assert_eq!(
            docket.open(&arena(&pair, &moves), &mut []),
            Err(Refusal::ChannelsDiffer)
        );
        assert_eq!(
            docket.open(&arena(&moves, &moves), &mut []),
            Err(Refusal::TooManyMoves)
        );
        let mut short = [1; 3];
        assert_eq!(
            docket.open(&arena(&pair, &pair), &mut short),
            Err(Refusal::TableTooShort)
        );
        assert_eq!(short, [1; 3]);
        assert_eq!(docket, Docket::new());
    }

    #[test]
    fn calls_refused_in_order() {
        let (old, new) = (buffer(2), buffer(1));
        let (zero, mut table) = (buffer(0), [0; 6]);
        let mut docket = Docket::new();
        let bad = strike(9, 9, Cause::Sight);
        assert_eq!(
            docket.strike(&arena(&old, &new), &mut [], bad),
            Err(Refusal::DocketClosed)
        );
        assert_eq!(
            docket.sweep(&arena(&old, &new), &mut [], 1),
            Err(Refusal::DocketClosed)
        );
        docket.open(&arena(&old, &new), &mut table).unwrap();

        assert_eq!(
            docket.settle(&arena(&new, &old), &[]),
            Err(Refusal::OtherSizes)
        );
        // The same sizes, with a channel more, and with 27 moves.
        let wider = joint(buffer(2), zero);
        assert_eq!(
            docket.settle(&arena(&wider, &new), &[]),
            Err(Refusal::ChannelsDiffer)
        );
        let (old_moves, new_moves) = (joint(wider, zero), joint(joint(buffer(1), zero), zero));
        assert_eq!(
            docket.sweep(&arena(&old_moves, &new_moves), &mut [], 1),
            Err(Refusal::TooManyMoves)
        );
        assert_eq!(
            docket.strike(&arena(&old, &new), &mut [0; 5], bad),
            Err(Refusal::TableTooShort)
        );
    }

    #[test]
    fn strikes_refused_in_order() {
        let (old, new) = (buffer(2), buffer(1));
        let arena = arena(&old, &new);
        let mut table = [0; 6];
        let mut docket = Docket::new();
        docket.open(&arena, &mut table).unwrap();
        for (proposal, answer) in [
            (strike(3, 0, Cause::Sight), Err(Refusal::NoSuchPair)),
            (strike(0, 2, Cause::Move(9)), Err(Refusal::NoSuchPair)),
            (strike(2, 0, Cause::Sight), Ok(1)),
            (strike(2, 0, Cause::Move(9)), Err(Refusal::StruckAlready)),
            (strike(1, 1, Cause::Move(3)), Err(Refusal::NoSuchMove)),
            (strike(1, 1, Cause::Sight), Err(Refusal::PairAlike)),
            (
                strike(1, 1, Cause::Move(1)),
                Err(Refusal::MoveDoesNotRefute),
            ),
            (strike(2, 1, Cause::Sight), Ok(2)),
            (strike(1, 1, Cause::Move(1)), Ok(3)),
        ] {
            assert_eq!(docket.strike(&arena, &mut table, proposal), answer);
        }
        assert_eq!(table, [0, 0, 0, 3, 1, 2]);
    }

    #[test]
    fn no_more_strikes_than_pairs() {
        let (old, new) = (buffer(2), buffer(1));
        let arena = arena(&old, &new);
        let mut table = [0; 6];
        let mut docket = Docket::new();
        docket.decide(&arena, &mut table, &[]).unwrap();
        let mut other = [0; 6];
        let unlike = strike(0, 1, Cause::Sight);
        assert_eq!(
            docket.strike(&arena, &mut other, unlike),
            Err(Refusal::AllStrikesGranted)
        );
        assert_eq!(
            docket.strike(&arena, &mut other, strike(0, 0, Cause::Sight)),
            Err(Refusal::PairAlike)
        );
        assert_eq!(docket.sweep(&arena, &mut other, FULL_BUDGET), Ok(0));
        assert_eq!(other, [0; 6]);
    }

    #[test]
    fn a_refused_decision_leaves_docket_and_table() {
        let (old, new) = (buffer(2), buffer(1));
        let mut docket = Docket::new();
        docket.open(&arena(&old, &new), &mut [0; 6]).unwrap();
        let before = docket.clone();
        let mut short = [BEHIND; 5];
        let refused = docket.decide(&arena(&old, &new), &mut short, &[]);
        assert_eq!(refused, Err(Refusal::TableTooShort));
        assert_eq!((docket, short), (before, [BEHIND; 5]));
    }
}
