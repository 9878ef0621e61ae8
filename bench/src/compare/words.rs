//! Exchanges of two stored systems: granted, and with whatever can be wrong
//! with words, tolerances and tables.

use super::counts::Counts;
use super::{UNTOUCHED_BEHIND, damage_words, name_of};
use crate::draw::{Dice, exchange};
use crate::implementation::{Failure, Implementation, Likeness, StoredExchange};
use crate::naive::{self, Game};

/// Tolerances that are refused.
const WIDE_TOLERANCES: [u16; 3] = [1_001, 32_768, u16::MAX];

/// What the calls are lent, and how they leave it.
#[derive(Clone, Debug, PartialEq, Eq)]
struct Lent {
    old_words: Vec<u16>,
    new_words: Vec<u16>,
    tolerances: [u16; 8],
    table: Vec<u32>,
}

impl Lent {
    /// A drawn exchange of two files, read into words, with a drawn table that
    /// has just room for it.
    fn draw(dice: &mut Dice) -> Self {
        let exchange = exchange::of_files(dice);
        let (old, new) = (naive::draft(&exchange.old), naive::draft(&exchange.new));
        let most_entry = dice.between(0, 3);
        let pairs = old.states.len() * new.states.len();
        Lent {
            old_words: naive::words(&old),
            new_words: naive::words(&new),
            tolerances: match exchange.likeness {
                Likeness::Within(tolerances) => tolerances,
                Likeness::Exact => [0; 8],
                Likeness::SeaState(_) => panic!("the likeness has to have tolerances"),
            },
            table: (0..pairs)
                .map(|_| dice.between(0, most_entry) as u32)
                .collect(),
        }
    }

    fn damage(&mut self, dice: &mut Dice) {
        if dice.once_in(8) {
            // Another new type, which may have other channels.
            self.new_words = Lent::draw(dice).new_words;
        }
        if dice.once_in(8) {
            for tolerance in &mut self.tolerances {
                if dice.once_in(3) {
                    *tolerance = dice.pick(&WIDE_TOLERANCES);
                }
            }
        }
        for words in [&mut self.old_words, &mut self.new_words] {
            if dice.once_in(3) {
                damage_words(dice, words);
            }
        }
        match dice.below(8) {
            0 => self.table.truncate(dice.below(self.table.len())),
            1 | 2 => self.table.extend([7; UNTOUCHED_BEHIND]),
            _ => (),
        }
    }
}

/// Compares the three calls on words with any number of faults at once.
pub fn compare_words(implementation: &dyn Implementation, dice: &mut Dice, counts: &mut Counts) {
    let mut before = Lent::draw(dice);
    before.damage(dice);
    let exchange = StoredExchange {
        old_words: &before.old_words,
        new_words: &before.new_words,
        tolerances: before.tolerances,
    };
    let opening = naive::opening_of_words(exchange, before.table.len());
    let mut trial = Trial {
        implementation,
        before,
        counts,
    };
    match opening {
        Ok((old, new)) => {
            let likeness = Likeness::Within(trial.before.tolerances);
            trial.compare_granted(&Game::of(old, new, likeness));
        }
        Err(failure) => trial.compare_refused(failure),
    }
}

struct Trial<'a> {
    implementation: &'a dyn Implementation,
    before: Lent,
    counts: &'a mut Counts,
}

impl Trial<'_> {
    fn compare_refused(&mut self, failure: Failure) {
        let implementation = self.implementation;
        let what = format!("words, {}", name_of(&failure));
        let table = self.before.table.clone();
        self.call(&what, &Some(failure), &table, |exchange, table| {
            implementation.decide_words(exchange, table).err()
        });
        self.call(&what, &Some(failure), &table, |exchange, table| {
            implementation.check_words(exchange, table).err()
        });
        self.call(&what, &Some(failure), &table, |exchange, table| {
            implementation.rank_words(exchange, table).err()
        });
    }

    /// Compares the calls where each is granted, and checks of the drawn table,
    /// of the docket's and of the ranks.
    fn compare_granted(&mut self, game: &Game) {
        let implementation = self.implementation;
        let drawn = self.before.table.clone();
        let behind = &drawn[game.pairs()..];

        let (decision, strikes) = game.decide(&[]);
        let decided = [&strikes[..], behind].concat();
        let what = if decision.replaces {
            "words, decide, replaces"
        } else {
            "words, decide, differs"
        };
        self.call(what, &Ok(decision), &decided, |exchange, table| {
            implementation.decide_words(exchange, table)
        });

        let ranks = game.ranks();
        let ranked = [&ranks[..], behind].concat();
        let highest = ranks.iter().copied().max().unwrap_or(0);
        self.call("words, rank", &Ok(highest), &ranked, |exchange, table| {
            implementation.rank_words(exchange, table)
        });

        for table in [&drawn, &decided, &ranked] {
            self.before.table.clone_from(table);
            let expected = game.check(table);
            let what = match &expected {
                Ok(_) => "words, check accepts".into(),
                Err(failure) => format!("words, {}", name_of(failure)),
            };
            self.call(&what, &expected, table, |exchange, table| {
                implementation.check_words(exchange, table)
            });
        }
    }

    /// Compares what a call answers, and all that it was lent.
    fn call<T: PartialEq + std::fmt::Debug>(
        &mut self,
        what: &str,
        expected: &T,
        table_after: &[u32],
        make: impl FnOnce(StoredExchange, &mut [u32]) -> T,
    ) {
        let mut lent = self.before.clone();
        let exchange = StoredExchange {
            old_words: &lent.old_words,
            new_words: &lent.new_words,
            tolerances: lent.tolerances,
        };
        let given = make(exchange, &mut lent.table);
        let before = &self.before;
        let tell = || format!("{before:?}: {given:?} for {expected:?}");
        self.counts.note(what, given == *expected, tell);
        let tell = || format!("{what} of {before:?}: {:?} for {table_after:?}", lent.table);
        let agrees = lent.table == table_after;
        self.counts.note("entries of calls on words", agrees, tell);
        let untouched = lent.old_words == before.old_words
            && lent.new_words == before.new_words
            && lent.tolerances == before.tolerances;
        let tell = || format!("{what} of {before:?} changes what it is to read");
        self.counts.note("words of calls on words", untouched, tell);
    }
}
