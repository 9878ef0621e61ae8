//! Compares an implementation with the answers by definition.

mod counts;
mod lent;
mod words;

use crate::draw::{Dice, Shape, damage_table, damaged_file, exchange, random_up_to};
use crate::implementation::{
    Answer, Cause, Decision, Exchange, Extra, Failure, Implementation, Layer, Likeness, Memory,
    Read, Refusal,
};
use crate::naive::{self, Game, Relation};
use crate::progress;
use counts::Counts;

const SEED: u64 = 20;
const EXCHANGES: usize = 10_000;
/// Exchanges under a code list that is full, or has too many entries.
const CODE_LISTS: usize = 1_000;
const FILES: usize = 20_000;
/// Exchanges of two files that are damaged at every byte and in other ways.
const DAMAGED_EXCHANGES: usize = 1_000;
/// Exchanges of two files with several faults at once.
const FAULTY_EXCHANGES: usize = 50_000;
/// Stored systems whose words are damaged.
const STORED_SYSTEMS: usize = 5_000;
/// Exchanges of two stored systems, with several faults at once.
const STORED_EXCHANGES: usize = 50_000;
const PROGRESS_EVERY: usize = 250;
/// Damaged tables for each exchange.
const DAMAGED_TABLES: usize = 6;
/// The most calls of a run.
const MOST_CALLS: usize = 20;

/// Bytes, words and entries that no call may change.
const UNTOUCHED_BYTE: u8 = 0xAA;
const UNTOUCHED_WORD: u16 = 0xA5C3;
const UNTOUCHED_ENTRY: u32 = 0xDEAD_BEEF;
const UNTOUCHED_BEHIND: usize = 3;
/// The refusal of a write for which there are too few bytes.
const NO_ROOM: Refusal = 23;

fn show_progress(name: &str, what: &str, done: usize, of: usize) {
    if done.is_multiple_of(PROGRESS_EVERY) || done == of {
        progress::show(format_args!("{name}, {what}: {done} of {of}  "));
    }
    if done == of {
        progress::end();
    }
}

/// A comparison that is made many times, on something drawn anew each time.
type Comparison = fn(&dyn Implementation, &mut Dice, &mut Counts);

const COMPARISONS: [(&str, usize, Comparison); 7] = [
    ("files", FILES, compare_file),
    ("stored systems", STORED_SYSTEMS, compare_stored),
    ("exchanges", EXCHANGES, compare_exchange),
    ("full code lists", CODE_LISTS, compare_codes),
    (
        "damaged exchanges",
        DAMAGED_EXCHANGES,
        lent::compare_damaged,
    ),
    ("faulty exchanges", FAULTY_EXCHANGES, lent::compare_faults),
    ("stored exchanges", STORED_EXCHANGES, words::compare_words),
];

/// Compares on drawn files and exchanges, up to the first that is answered
/// otherwise; tells whether all agreed.
pub fn compare(implementation: &dyn Implementation) -> bool {
    let mut counts = Counts::default();
    for (what, times, comparison) in COMPARISONS {
        let mut dice = Dice::new(SEED);
        for done in 1..=times {
            comparison(implementation, &mut dice, &mut counts);
            if !counts.agree() {
                eprintln!(
                    "{}: stopped at {done} of {times} {what}",
                    implementation.name()
                );
                break;
            }
            show_progress(implementation.name(), what, done, times);
        }
    }
    counts.print(implementation.name());
    counts.agree()
}

fn compare_file(implementation: &dyn Implementation, dice: &mut Dice, counts: &mut Counts) {
    let readings = [0, 1, -1, 63, 64, -65, 8_000, i16::MAX, i16::MIN];
    let most = Shape {
        states: if dice.once_in(20) { 200 } else { 5 },
        channels: dice.between(1, 8),
        controller: dice.pick(&[1, 3, 16]),
        environment: dice.pick(&[1, 3, 16]),
        readings: &readings,
    };
    let draft = random_up_to(dice, most);
    let whole = dice.once_in(3);
    let file = if whole {
        draft.padded_file(dice)
    } else {
        damaged_file(dice, &draft)
    };

    // The file stands behind other bytes, and its system behind other words.
    let front = dice.below(4);
    let bytes = [vec![0x80; front], file, vec![0x80; dice.below(2)]].concat();
    let place = if dice.once_in(50) {
        bytes.len() + dice.below(3)
    } else {
        front
    };
    let word_place = dice.below(4);
    let wanted = naive::words(&draft).len();
    let room = match dice.below(6) {
        0 => wanted - 1,
        1 => dice.below(wanted),
        2 => wanted + 2,
        _ => wanted,
    };
    let before = vec![UNTOUCHED_WORD; word_place + room];
    let mut words = before.clone();
    // A word place past the end leaves no word.
    let (word_place, room) = if dice.once_in(50) {
        (words.len() + dice.between(0, 2), 0)
    } else {
        (word_place, room)
    };

    let answer = implementation.read(&bytes, place, &mut words, word_place);
    let expected = naive::read(&bytes, place, room);
    let tell = || format!("{bytes:02x?} at {place}: {answer:?} for {expected:?}");
    match &expected {
        Ok((read, end)) => {
            let mut laid_out = before.clone();
            let system = naive::words(read);
            laid_out[word_place..word_place + system.len()].copy_from_slice(&system);
            let expected = Read {
                words: system.len(),
                end: *end,
            };
            counts.note("files read", answer == Ok(expected), tell);
            counts.note("words of files read", words == laid_out, tell);

            let layer = Layer::File(bytes[place..*end].to_vec());
            compare_write(implementation, &layer, dice, counts);
        }
        Err(fault) => {
            let what = format!("files refused with {:>2}", fault.refusal);
            counts.note(what, answer == Err(*fault), tell);
            counts.note("words of files refused", words == before, tell);
        }
    }
}

/// Compares the files that are written of words, which may be damaged, cut or
/// have others behind them.
fn compare_stored(implementation: &dyn Implementation, dice: &mut Dice, counts: &mut Counts) {
    let most = Shape {
        states: 6,
        channels: dice.between(1, 8),
        controller: dice.pick(&[1, 3, 16]),
        environment: dice.pick(&[1, 3, 16]),
        readings: &[0, 1, -1, 8_192, i16::MAX, i16::MIN],
    };
    let mut words = naive::words(&random_up_to(dice, most));
    damage_words(dice, &mut words);
    let expected = naive::stored(&words).file();
    let (bytes_before, room) = draw_room(dice, expected.len());
    let mut bytes = bytes_before.clone();
    let written = implementation.write_stored(&words, &mut bytes);
    let tell = || format!("{words:?} into {room} bytes: {written:?}, {bytes:02x?}");
    if room < expected.len() {
        let agrees = written == Err(NO_ROOM) && bytes == bytes_before;
        counts.note("stored systems refused with 23", agrees, tell);
    } else {
        let (file, behind) = bytes.split_at(expected.len());
        let agrees = written == Ok(expected.len())
            && file == expected
            && behind.iter().all(|&byte| byte == UNTOUCHED_BYTE);
        counts.note("stored systems written", agrees, tell);
    }
}

/// Cuts the words, puts others behind them, changes one, or leaves them.
fn damage_words(dice: &mut Dice, words: &mut Vec<u16>) {
    match dice.below(4) {
        0 => words.truncate(dice.below(words.len() + 1)),
        1 => words.extend([UNTOUCHED_WORD; UNTOUCHED_BEHIND]),
        2 => {
            // Some words are used by no pair of moves.
            let reach = words.len().min(dice.pick(&[4, 40, usize::MAX]));
            let place = dice.below(reach);
            words[place] = dice.pick(&[0, 1, 5, 9, 17, 257, UNTOUCHED_WORD]);
        }
        _ => (),
    }
}

/// Bytes for a file of the length: some more, just enough, or too few.
fn draw_room(dice: &mut Dice, length: usize) -> (Vec<u8>, usize) {
    let room = match dice.below(3) {
        0 => length + UNTOUCHED_BEHIND,
        1 => length,
        _ => dice.below(length + 1),
    };
    (vec![UNTOUCHED_BYTE; room], room)
}

/// Compares the file that is written of a layer's system.
fn compare_write(
    implementation: &dyn Implementation,
    layer: &Layer,
    dice: &mut Dice,
    counts: &mut Counts,
) {
    if !implementation.offers_writing(layer) {
        counts.pass_over("files of layers");
        return;
    }
    let draft = naive::draft(layer);
    let length = naive::write(&draft, usize::MAX).map_or(0, |bytes| bytes.len());
    let (before, room) = draw_room(dice, length);
    let mut bytes = before.clone();
    let mut words = vec![0; words_wanted(layer)];
    let written = implementation.write(layer, &mut words, &mut bytes);

    let expected = naive::write(&draft, room);
    let mut expected_bytes = before;
    let (what, expected) = match expected {
        Ok(file) => {
            expected_bytes[..file.len()].copy_from_slice(&file);
            ("files written".into(), Ok(file.len()))
        }
        Err(refusal) => (format!("writing refused with {refusal}"), Err(refusal)),
    };
    let agrees = written == expected && bytes == expected_bytes;
    let tell = || format!("{layer:?}: {written:?} for {expected:?}, {bytes:02x?}");
    counts.note(what, agrees, tell);
}

fn words_wanted(layer: &Layer) -> usize {
    match layer {
        Layer::File(_) => naive::words(&naive::draft(layer)).len(),
        Layer::Buffer(_) => 0,
        Layer::Joint(first, second) => words_wanted(first) + words_wanted(second),
        Layer::Coded(below, _) => words_wanted(below),
    }
}

/// The refusal, as the counts name it.
fn name_of(failure: &Failure) -> String {
    match failure {
        Failure::Codes(refusal) => format!("codes refused with {refusal}"),
        Failure::Tolerance(refusal, _) => format!("tolerance refused with {refusal}"),
        Failure::OldFile(fault) => format!("old file refused with {}", fault.refusal),
        Failure::NewFile(fault) => format!("new file refused with {}", fault.refusal),
        Failure::OldWords(refusal) => format!("old words refused with {refusal}"),
        Failure::NewWords(refusal) => format!("new words refused with {refusal}"),
        Failure::Refused(refusal) => format!("exchange refused with  {refusal}"),
        Failure::OutOfOrder(refusal, _) => format!("pair out of order, {refusal}"),
    }
}

/// An exchange with the memory that it wants, under comparison.
struct Trial<'a> {
    implementation: &'a dyn Implementation,
    exchange: &'a Exchange,
    game: Game,
    old_words: Vec<u16>,
    new_words: Vec<u16>,
    table: Vec<u32>,
}

/// What an exchange is made of.
fn sort_of(exchange: &Exchange) -> String {
    let sides = match (&exchange.old, &exchange.new) {
        (Layer::File(_), Layer::File(_)) => "files",
        (Layer::Joint(..), Layer::Joint(..)) => "joints",
        (Layer::Coded(..), Layer::Coded(..)) => "code lists",
        (Layer::Buffer(_), Layer::Buffer(_)) => "buffers",
        _ => "different layers",
    };
    let likeness = match exchange.likeness {
        Likeness::Exact => "equality",
        Likeness::Within(_) => "tolerances",
        Likeness::SeaState(_) => "sea state",
    };
    format!("exchanges of {sides} by {likeness}")
}

fn compare_exchange(implementation: &dyn Implementation, dice: &mut Dice, counts: &mut Counts) {
    let exchange = &exchange::exchange(dice);
    compare_write(implementation, &exchange.old, dice, counts);
    compare_write(implementation, &exchange.new, dice, counts);
    if !implementation.offers_exchange(exchange) {
        counts.pass_over(sort_of(exchange));
        return;
    }
    let mut trial = Trial::new(implementation, exchange);
    if implementation.offers(Extra::Runs) {
        trial.compare_run(dice, counts);
    } else {
        counts.pass_over("runs");
    }
    match trial.game.refused() {
        Some(refusal) => {
            let failure = Failure::Refused(refusal);
            let agrees = trial.compare_refused(failure, trial.game.pairs(), counts);
            counts.note(sort_of(exchange), agrees, String::new);
        }
        None => trial.compare_granted(dice, counts),
    }
}

/// Compares on a code list that is full, or has too many entries.
fn compare_codes(implementation: &dyn Implementation, dice: &mut Dice, counts: &mut Counts) {
    let exchange = &exchange::of_codes(dice);
    if !implementation.offers_exchange(exchange) {
        counts.pass_over(sort_of(exchange));
        return;
    }
    let mut trial = Trial::new(implementation, exchange);
    match (naive::codes_fault(exchange), trial.game.refused()) {
        (Some(refusal), _) => {
            // The table may be too short as well.
            let length = trial.game.pairs() - dice.below(2);
            trial.compare_refused(Failure::Codes(refusal), length, counts);
        }
        (None, Some(refusal)) => {
            trial.compare_refused(Failure::Refused(refusal), trial.game.pairs(), counts);
        }
        (None, None) => trial.compare_granted(dice, counts),
    }
}

impl<'a> Trial<'a> {
    fn new(implementation: &'a dyn Implementation, exchange: &'a Exchange) -> Self {
        Trial {
            implementation,
            exchange,
            game: Game::new(exchange),
            old_words: vec![0; words_wanted(&exchange.old)],
            new_words: vec![0; words_wanted(&exchange.new)],
            table: Vec::new(),
        }
    }
}

impl Trial<'_> {
    /// Compares every call on an exchange that is granted, and the refusal for
    /// want of an entry.
    fn compare_granted(&mut self, dice: &mut Dice, counts: &mut Counts) {
        self.compare_refused(Failure::Refused(4), self.game.pairs() - 1, counts);
        let largest = self.game.largest();
        self.compare_decision(&largest, dice, counts);
        self.compare_certificate("certificates of the docket", &largest, counts);
        self.compare_damaged(&largest, dice, counts);
        self.compare_rank(counts);
        self.compare_certificate("certificates of ranks", &largest, counts);
        self.compare_damaged(&largest, dice, counts);
    }

    fn memory(&mut self) -> Memory<'_> {
        Memory {
            old_words: &mut self.old_words,
            new_words: &mut self.new_words,
            table: &mut self.table,
        }
    }

    /// Compares a run that begins with a closed docket and any table, which
    /// may be too short.
    fn compare_run(&mut self, dice: &mut Dice, counts: &mut Counts) {
        let length = self.game.pairs() + dice.below(3) - usize::from(dice.once_in(8));
        self.table = (0..length).map(|_| dice.below(3) as u32).collect();
        let mut expected_table = self.table.clone();
        let mut count = None;
        let mut calls = Vec::new();
        let mut expected = Vec::new();
        for _ in 0..dice.below(MOST_CALLS + 1) {
            let call = exchange::call(dice, self.game.states(), expected.last());
            expected.push(self.game.call(&mut count, &mut expected_table, &call));
            calls.push(call);
        }
        let answers = self
            .implementation
            .run(self.exchange, &calls, &mut self.memory());

        let given = answers.as_deref().unwrap_or_default();
        for (place, expected) in expected.iter().enumerate() {
            let what = match expected {
                Answer::Opened(_) => "opened".into(),
                Answer::Struck(_) => "struck".into(),
                Answer::Swept(_) => "swept".into(),
                Answer::Settled(_) => "settled".into(),
                Answer::Loose(_, Cause::Sight) => "loose for sight".into(),
                Answer::Loose(_, Cause::Move(_)) => "loose for a move".into(),
                Answer::Refused(refusal) => format!("refused with {refusal:>2}"),
            };
            let agrees = given.get(place) == Some(expected);
            counts.note(format!("calls of runs, {what}"), agrees, String::new);
        }
        let agrees = answers.as_ref() == Ok(&expected);
        let exchange = self.exchange;
        let tell = || format!("{exchange:?} with {calls:?}: {answers:?} for {expected:?}");
        counts.note("runs", agrees, tell);
        counts.note("tables of runs", self.table == expected_table, tell);
    }

    /// Compares calls that are all refused, on a table of the given length;
    /// tells whether they agreed.
    fn compare_refused(&mut self, failure: Failure, length: usize, counts: &mut Counts) -> bool {
        let (implementation, exchange) = (self.implementation, self.exchange);
        self.table = vec![UNTOUCHED_ENTRY; length];
        let mut memory = self.memory();
        let decided = implementation.decide(exchange, &[], &mut memory);
        let checked = implementation.check(exchange, &mut memory);
        let ranked = implementation.rank(exchange, &mut memory);
        let untouched = self.table.iter().all(|&entry| entry == UNTOUCHED_ENTRY);

        let agrees = decided == Err(failure) && checked == Err(failure) && ranked == Err(failure);
        let tell = || format!("{exchange:?}: {decided:?}, {checked:?}, {ranked:?}");
        counts.note(name_of(&failure), agrees, tell);
        counts.note("tables of refused exchanges", untouched, tell);
        agrees && untouched
    }

    /// Compares a decision, and leaves its table.
    fn compare_decision(&mut self, largest: &Relation, dice: &mut Dice, counts: &mut Counts) {
        let pairs = self.game.pairs();
        self.table = vec![UNTOUCHED_ENTRY; pairs + UNTOUCHED_BEHIND];
        let mut proposals = exchange::proposals(dice, self.game.states());
        if !self.implementation.offers(Extra::Proposals) {
            proposals.clear();
            counts.pass_over("answers to proposals");
        }
        let (expected, expected_table) = self.game.decide(&proposals);
        let decided = self
            .implementation
            .decide(self.exchange, &proposals, &mut self.memory());

        let exchange = self.exchange;
        let tell = || format!("{exchange:?} with {proposals:?}: {decided:?} for {expected:?}");
        counts.note(sort_of(exchange), decided.as_ref() == Ok(&expected), tell);
        let replaces = largest.contains(&(0, 0));
        let standing = largest.len() as u32;
        let agrees = |test: &dyn Fn(&Decision) -> bool| decided.as_ref().is_ok_and(test);
        let verdict = if replaces { "replaces" } else { "differs" };
        counts.note(
            format!("verdicts, {verdict}"),
            agrees(&|given| given.replaces == replaces),
            tell,
        );
        counts.note(
            "numbers standing",
            agrees(&|given| given.standing == standing),
            tell,
        );
        counts.note(
            "strikes made",
            agrees(&|given| given.swept == expected.swept),
            tell,
        );
        if self.implementation.offers(Extra::Proposals) {
            counts.note(
                "answers to proposals",
                agrees(&|given| given.answers == expected.answers),
                tell,
            );
        }
        counts.note(
            "pairs standing or struck",
            self.standing_pairs() == *largest,
            tell,
        );
        counts.note(
            "entries of the docket",
            self.table[..pairs] == expected_table,
            tell,
        );
        counts.note("entries behind the pairs", self.behind_is_untouched(), tell);
    }

    /// Compares the check of the table as a certificate.
    fn compare_certificate(&mut self, what: &str, largest: &Relation, counts: &mut Counts) {
        let expected = self.game.check(&self.table);
        let checked = self.implementation.check(self.exchange, &mut self.memory());

        let (exchange, table) = (self.exchange, &self.table);
        let tell = || format!("{exchange:?} with {table:?}: {checked:?} for {expected:?}");
        let outcome = match expected {
            Err(Failure::OutOfOrder(refusal, _)) => format!("refused with {refusal:>2}"),
            _ => "accepted".into(),
        };
        counts.note(format!("{what}, {outcome}"), checked == expected, tell);
        if checked.is_ok() {
            let agrees = self.standing_pairs() == *largest;
            counts.note("pairs of accepted tables", agrees, tell);
        }
    }

    /// Compares the check of damaged copies of the table.
    fn compare_damaged(&mut self, largest: &Relation, dice: &mut Dice, counts: &mut Counts) {
        let pairs = self.game.pairs();
        let whole = self.table.clone();
        for _ in 0..DAMAGED_TABLES {
            for _ in 0..dice.between(1, 2) {
                damage_table(dice, &mut self.table[..pairs]);
            }
            self.compare_certificate("damaged tables", largest, counts);
            self.table.clone_from(&whole);
        }
    }

    /// Compares the ranks, and leaves their table.
    fn compare_rank(&mut self, counts: &mut Counts) {
        let ranked = self.implementation.rank(self.exchange, &mut self.memory());
        let ranks = &self.table[..self.game.pairs()];
        let exchange = self.exchange;
        let tell = || format!("{exchange:?}: {ranked:?} with {ranks:?}");
        let highest = ranks.iter().copied().max().unwrap_or(0);
        let height = if highest > 2 { "above 2" } else { "0 to 2" };
        let agrees = ranked == Ok(highest);
        counts.note(format!("highest ranks, {height}"), agrees, tell);
        let solved = self.game.solves_rank_rule(ranks);
        counts.note("rank tables by the rule", solved, tell);
        counts.note("entries behind the ranks", self.behind_is_untouched(), tell);
    }

    fn behind_is_untouched(&self) -> bool {
        let behind = &self.table[self.game.pairs()..];
        behind.iter().all(|&entry| entry == UNTOUCHED_ENTRY)
    }

    fn standing_pairs(&self) -> Relation {
        let (_, new) = self.game.states();
        (0..self.game.pairs())
            .filter(|&place| self.table[place] == 0)
            .map(|place| (place / new, place % new))
            .collect()
    }
}
