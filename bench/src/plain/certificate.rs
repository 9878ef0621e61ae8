//! Tables that show by themselves which pairs cannot stand, and ranks.

use super::arena::{Arena, Pair, check_opening};
use super::board::Board;
use super::docket::{STANDING, stands, stands_from};
use super::refusal::Refusal;

/// What an accepted certificate shows.
#[derive(Clone, Copy, Debug, PartialEq, Eq)]
pub struct Accepted {
    pub standing: u32,
    pub replaces: bool,
}

#[derive(Clone, Copy, Debug, PartialEq, Eq)]
pub enum CertificateFault {
    /// The check was refused.
    Refused(Refusal),
    /// The first pair out of order.
    OutOfOrder(Refusal, Pair),
}

pub fn check_certificate<A: Arena>(arena: &A, table: &[u32]) -> Result<Accepted, CertificateFault> {
    check_opening(arena, table.len()).map_err(CertificateFault::Refused)?;
    let board = Board::gather(arena);
    let mut standing = 0;
    for (place, visit) in board.visits().enumerate() {
        let entry = table[place];
        let alike = board.alike(place);
        let out_of_order = |refusal| CertificateFault::OutOfOrder(refusal, board.pair(place));
        if stands(entry) {
            if !alike || visit.least_refuting(table, stands).is_some() {
                return Err(out_of_order(Refusal::StandingOutOfOrder));
            }
            standing += 1;
        } else if alike {
            // A pair may lean only on pairs with smaller entries.
            if visit.least_refuting(table, stands_from(entry)).is_none() {
                return Err(out_of_order(Refusal::StruckOutOfOrder));
            }
        }
    }
    Ok(Accepted {
        standing,
        replaces: stands(table[0]),
    })
}

/// The rank of unlike pairs.
const RANK_OF_SIGHT: u32 = 1;

/// Writes the ranks over the table and tells the highest, 0 if there is none.
pub fn rank<A: Arena>(arena: &A, table: &mut [u32]) -> Result<u32, Refusal> {
    check_opening(arena, table.len())?;
    let board = Board::gather(arena);
    let mut highest = 0;
    for (place, entry) in table[..board.pairs()].iter_mut().enumerate() {
        if board.alike(place) {
            *entry = STANDING;
        } else {
            *entry = RANK_OF_SIGHT;
            highest = RANK_OF_SIGHT;
        }
    }
    for round in RANK_OF_SIGHT + 1.. {
        // Pairs ranked in this round count from the next one on.
        let mut added = false;
        for (place, visit) in board.visits().enumerate() {
            if stands(table[place]) && visit.least_refuting(table, stands_from(round)).is_some() {
                table[place] = round;
                added = true;
            }
        }
        if !added {
            break;
        }
        highest = round;
    }
    Ok(highest)
}

#[cfg(test)]
mod tests {
    use super::super::arena::Exchange;
    use super::super::layers::Buffer;
    use super::super::likeness::Exact;
    use super::*;

    /// A buffer of capacity 2 against one of capacity 1.
    const BUFFERS: Exchange<Buffer, Buffer, Exact> = Exchange {
        old: &Buffer { capacity: 2 },
        new: &Buffer { capacity: 1 },
        likeness: &Exact,
    };

    const ALL_STRUCK: Accepted = Accepted {
        standing: 0,
        replaces: false,
    };

    fn out_of_order(refusal: Refusal, old: u16, new: u16) -> Result<Accepted, CertificateFault> {
        Err(CertificateFault::OutOfOrder(refusal, Pair { old, new }))
    }

    #[test]
    fn ranks_of_buffers() {
        let mut table = [9; 7];
        assert_eq!(rank(&BUFFERS, &mut table), Ok(3));
        assert_eq!(table, [3, 1, 1, 2, 1, 1, 9]);
    }

    #[test]
    fn no_rank_at_all() {
        let buffer = Buffer { capacity: 0 };
        let alone = Exchange {
            old: &buffer,
            new: &buffer,
            likeness: &Exact,
        };
        let mut table = [9];
        assert_eq!(rank(&alone, &mut table), Ok(0));
        assert_eq!(table, [0]);
    }

    #[test]
    fn certificates_of_buffers() {
        for table in [[6, 1, 2, 5, 3, 4], [3, 1, 1, 2, 1, 1]] {
            assert_eq!(check_certificate(&BUFFERS, &table), Ok(ALL_STRUCK));
        }
        for (table, fault) in [
            // Two pairs that lean on each other's equal entries.
            (
                [3, 1, 1, 3, 1, 1],
                out_of_order(Refusal::StruckOutOfOrder, 0, 0),
            ),
            // Entry 1 leans on nothing.
            (
                [3, 1, 1, 1, 1, 1],
                out_of_order(Refusal::StruckOutOfOrder, 1, 1),
            ),
            // The pair that stands last is unlike, but (1, 1) leaned on it.
            (
                [3, 1, 1, 2, 1, 0],
                out_of_order(Refusal::StruckOutOfOrder, 1, 1),
            ),
            (
                [0, 1, 1, 2, 1, 1],
                out_of_order(Refusal::StandingOutOfOrder, 0, 0),
            ),
            (
                [3, 0, 1, 2, 1, 1],
                out_of_order(Refusal::StandingOutOfOrder, 0, 1),
            ),
        ] {
            assert_eq!(check_certificate(&BUFFERS, &table), fault);
        }
    }

    #[test]
    fn the_largest_entry_is_struck() {
        let largest = [u32::MAX, 1, 1, u32::MAX - 1, 1, 1];
        assert_eq!(check_certificate(&BUFFERS, &largest), Ok(ALL_STRUCK));
    }

    #[test]
    fn refused_checks() {
        let refused = Err(CertificateFault::Refused(Refusal::TableTooShort));
        assert_eq!(check_certificate(&BUFFERS, &[0; 5]), refused);
        assert_eq!(rank(&BUFFERS, &mut [0; 5]), Err(Refusal::TableTooShort));
    }
}
