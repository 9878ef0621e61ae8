//! Exchanges of two files, each call with all the memory that it is lent:
//! granted, and with whatever can be wrong with files, memory and tolerances.

use super::counts::Counts;
use super::{UNTOUCHED_BEHIND, UNTOUCHED_WORD, name_of};
use crate::draw::{Dice, exchange};
use crate::implementation::{Accepted, Exchange, Failure, Implementation, Layer, Likeness, Memory};
use crate::naive::{self, Game, Rooms};

/// Tolerances that are refused, and one that is just granted.
const WIDE_TOLERANCES: [u16; 3] = [1_001, 32_768, u16::MAX];
const MOST_TOLERANCE: u16 = 1_000;
/// Bytes that are 0, one above the most moves, and on either side of the bound
/// for the last byte of a number.
const TELLING_BYTES: [u8; 5] = [0, 17, 0x7F, 0x80, 0xFF];

/// What a call is lent, and how it is left.
#[derive(Clone, PartialEq, Eq)]
struct Lent {
    old_words: Vec<u16>,
    new_words: Vec<u16>,
    table: Vec<u32>,
}

impl Lent {
    fn memory(&mut self) -> Memory<'_> {
        Memory {
            old_words: &mut self.old_words,
            new_words: &mut self.new_words,
            table: &mut self.table,
        }
    }
}

/// An exchange of two files, any of which may be damaged, and the memory for
/// the calls on it.
#[derive(Clone, Debug)]
struct Case {
    old: Vec<u8>,
    new: Vec<u8>,
    tolerances: [u16; 8],
    rooms: Rooms,
}

impl Case {
    /// The case of a whole exchange, with just the memory that it wants.
    fn whole(exchange: &Exchange) -> Self {
        let (Layer::File(old), Layer::File(new)) = (&exchange.old, &exchange.new) else {
            panic!("both sides have to be files");
        };
        let (old_draft, new_draft) = (naive::draft(&exchange.old), naive::draft(&exchange.new));
        Case {
            old: old.clone(),
            new: new.clone(),
            tolerances: match exchange.likeness {
                Likeness::Within(tolerances) => tolerances,
                Likeness::Exact => [0; 8],
                Likeness::SeaState(_) => panic!("the likeness has to have tolerances"),
            },
            rooms: Rooms {
                old_words: naive::words(&old_draft).len(),
                new_words: naive::words(&new_draft).len(),
                table: old_draft.states.len() * new_draft.states.len(),
            },
        }
    }

    fn exchange(&self) -> Exchange {
        Exchange {
            old: Layer::File(self.old.clone()),
            new: Layer::File(self.new.clone()),
            likeness: Likeness::Within(self.tolerances),
        }
    }

    /// Memory that shows whether it was changed, and a drawn table.
    fn lent(&self, dice: &mut Dice) -> Lent {
        let most_entry = dice.between(0, 3);
        Lent {
            old_words: vec![UNTOUCHED_WORD; self.rooms.old_words],
            new_words: vec![UNTOUCHED_WORD; self.rooms.new_words],
            table: (0..self.rooms.table)
                .map(|_| dice.between(0, most_entry) as u32)
                .collect(),
        }
    }
}

/// Compares the calls on drawn exchanges of two files, damaged in one way
/// after the other.
pub fn compare_damaged(implementation: &dyn Implementation, dice: &mut Dice, counts: &mut Counts) {
    let whole = Case::whole(&exchange::of_files(dice));
    let mut compare = |case: &Case, dice: &mut Dice| {
        compare_case(implementation, case, dice, counts);
    };
    compare(&whole, dice);
    for case in with_more_room(&whole) {
        compare(&case, dice);
    }
    for case in with_less_room(&whole) {
        compare(&case, dice);
    }
    for case in with_wide_tolerances(&whole, dice) {
        compare(&case, dice);
    }
    for case in with_damaged_files(&whole, dice) {
        compare(&case, dice);
    }
}

/// Compares the calls on a drawn exchange with any number of faults at once.
pub fn compare_faults(implementation: &dyn Implementation, dice: &mut Dice, counts: &mut Counts) {
    let mut case = Case::whole(&exchange::of_files(dice));
    if dice.once_in(4) {
        // Another new type, which may have other channels.
        let other = Case::whole(&exchange::of_files(dice));
        case.new = other.new;
        case.rooms.new_words = other.rooms.new_words;
    }
    if dice.once_in(4) {
        for tolerance in &mut case.tolerances {
            if dice.once_in(3) {
                *tolerance = dice.pick(&WIDE_TOLERANCES);
            }
        }
    }
    for file in [&mut case.old, &mut case.new] {
        if dice.once_in(4) {
            let place = dice.below(file.len());
            file[place] = dice.below(256) as u8;
        }
        if dice.once_in(8) {
            file.truncate(dice.below(file.len() + 1));
        }
    }
    let rooms = &mut case.rooms;
    for room in [&mut rooms.old_words, &mut rooms.new_words, &mut rooms.table] {
        match dice.below(8) {
            0 => *room -= 1,
            1 => *room = dice.below(*room),
            2 => *room += UNTOUCHED_BEHIND,
            _ => (),
        }
    }
    compare_case(implementation, &case, dice, counts);
}

fn with_more_room(whole: &Case) -> Vec<Case> {
    let mut case = whole.clone();
    case.rooms.old_words += UNTOUCHED_BEHIND;
    case.rooms.new_words += UNTOUCHED_BEHIND;
    case.rooms.table += UNTOUCHED_BEHIND;
    let mut behind = case.clone();
    behind.old.push(u8::MAX);
    behind.new.extend([0; UNTOUCHED_BEHIND]);
    vec![case, behind]
}

fn with_less_room(whole: &Case) -> Vec<Case> {
    let less = |room: usize| [0, 1, room / 2, room - 1].map(|less| less.min(room - 1));
    let mut cases = Vec::new();
    for room in less(whole.rooms.old_words) {
        let mut case = whole.clone();
        case.rooms.old_words = room;
        cases.push(case);
    }
    for room in less(whole.rooms.new_words) {
        let mut case = whole.clone();
        case.rooms.new_words = room;
        cases.push(case.clone());
        case.rooms.old_words -= 1;
        cases.push(case);
    }
    for room in less(whole.rooms.table) {
        let mut case = whole.clone();
        case.rooms.table = room;
        cases.push(case);
    }
    cases
}

/// A tolerance too wide on each channel alone, then on several at once and
/// with everything else refused as well.
fn with_wide_tolerances(whole: &Case, dice: &mut Dice) -> Vec<Case> {
    let mut cases = Vec::new();
    for channel in 0..whole.tolerances.len() {
        let mut case = whole.clone();
        case.tolerances[channel] = MOST_TOLERANCE;
        cases.push(case.clone());
        case.tolerances[channel] = dice.pick(&WIDE_TOLERANCES);
        cases.push(case.clone());
        for tolerance in &mut case.tolerances[channel..] {
            if dice.once_in(2) {
                *tolerance = dice.pick(&WIDE_TOLERANCES);
            }
        }
        case.old.clear();
        case.new.clear();
        case.rooms.table = 0;
        cases.push(case);
    }
    cases
}

/// The files cut before each byte, and damaged at each byte.
fn with_damaged_files(whole: &Case, dice: &mut Dice) -> Vec<Case> {
    let mut cases = Vec::new();
    let mut damage = |file: &[u8], with: &dyn Fn(Vec<u8>) -> Case| {
        for place in 0..file.len() {
            cases.push(with(file[..place].to_vec()));
            for byte in [dice.below(256) as u8, dice.pick(&TELLING_BYTES)] {
                let mut damaged = file.to_vec();
                damaged[place] = byte;
                cases.push(with(damaged));
            }
        }
    };
    damage(&whole.old, &|old| Case {
        old,
        ..whole.clone()
    });
    damage(&whole.new, &|new| Case {
        new,
        ..whole.clone()
    });
    cases
}

fn compare_case(
    implementation: &dyn Implementation,
    case: &Case,
    dice: &mut Dice,
    counts: &mut Counts,
) {
    let before = case.lent(dice);
    let exchange = case.exchange();
    let mut trial = Trial {
        implementation,
        exchange: &exchange,
        before,
        counts,
    };
    match naive::opening(&exchange, case.rooms) {
        Ok((old, new)) => {
            let mut laid_out = trial.before.clone();
            put(&naive::words(&old), &mut laid_out.old_words);
            put(&naive::words(&new), &mut laid_out.new_words);
            let game = Game::of(old, new, exchange.likeness.clone());
            trial.compare_granted(&game, &laid_out);
        }
        Err(failure) => trial.compare_refused(failure),
    }
}

/// Puts the values in front.
fn put<T: Copy>(values: &[T], into: &mut [T]) {
    into[..values.len()].copy_from_slice(values);
}

struct Trial<'a> {
    implementation: &'a dyn Implementation,
    exchange: &'a Exchange,
    before: Lent,
    counts: &'a mut Counts,
}

impl Trial<'_> {
    /// Compares the calls on files where each is refused in the same way.
    fn compare_refused(&mut self, failure: Failure) {
        let (implementation, exchange) = (self.implementation, self.exchange);
        self.refused_call("decide", failure, |lent| {
            implementation
                .decide(exchange, &[], &mut lent.memory())
                .err()
        });
        self.refused_call("rank", failure, |lent| {
            implementation.rank(exchange, &mut lent.memory()).err()
        });
    }

    fn refused_call(
        &mut self,
        call: &str,
        failure: Failure,
        make: impl FnOnce(&mut Lent) -> Option<Failure>,
    ) {
        let mut lent = self.before.clone();
        let given = make(&mut lent);
        let exchange = self.exchange;
        let tell = || format!("{call} on {exchange:?}: {given:?} for {failure:?}");
        let what = format!("calls, {}", name_of(&failure));
        self.counts.note(what, given == Some(failure), tell);
        let tell = || format!("{call} on {exchange:?}, which is refused, changes memory");
        self.counts
            .note("memory of refused calls", lent == self.before, tell);
    }

    /// Compares the calls on files where each is granted, and checks of the
    /// drawn table, of the docket's and of the ranks over the words that then
    /// hold the systems.
    fn compare_granted(&mut self, game: &Game, laid_out: &Lent) {
        let (implementation, exchange) = (self.implementation, self.exchange);
        let (decision, strikes) = game.decide(&[]);
        let verdict = if decision.replaces {
            "calls, decide, replaces"
        } else {
            "calls, decide, differs"
        };
        let mut decided = laid_out.clone();
        put(&strikes, &mut decided.table);
        self.granted_call(verdict, Ok(decision), &decided, |lent| {
            implementation.decide(exchange, &[], &mut lent.memory())
        });

        let ranks = game.ranks();
        let highest = ranks.iter().copied().max().unwrap_or(0);
        let mut ranked = laid_out.clone();
        put(&ranks, &mut ranked.table);
        self.granted_call("calls, rank", Ok(highest), &ranked, |lent| {
            implementation.rank(exchange, &mut lent.memory())
        });

        for after in [laid_out, &decided, &ranked] {
            self.before.table.clone_from(&after.table);
            let expected: Result<Accepted, Failure> = game.check(&after.table);
            let what = match &expected {
                Ok(_) => "calls, check accepts".into(),
                Err(failure) => format!("calls, {}", name_of(failure)),
            };
            self.granted_call(&what, expected, after, |lent| {
                implementation.check(exchange, &mut lent.memory())
            });
        }
    }

    fn granted_call<T: PartialEq + std::fmt::Debug>(
        &mut self,
        what: &str,
        expected: T,
        after: &Lent,
        make: impl FnOnce(&mut Lent) -> T,
    ) {
        let mut lent = self.before.clone();
        let given = make(&mut lent);
        let exchange = self.exchange;
        let tell = || format!("{exchange:?}: {given:?} for {expected:?}");
        self.counts.note(what, given == expected, tell);
        let tell = || {
            format!(
                "{what} of {exchange:?}: {:?} for {:?}",
                lent.table, after.table
            )
        };
        self.counts.note(
            "entries, also behind the pairs",
            lent.table == after.table,
            tell,
        );
        let words = lent.old_words == after.old_words && lent.new_words == after.new_words;
        let tell = || format!("{what} of {exchange:?}: other words than those of the files");
        self.counts
            .note("words, also behind the systems", words, tell);
    }
}
