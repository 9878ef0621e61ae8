//! Times implementations beside each other, on large exchanges and files.

use std::fmt::Debug;
use std::hint::black_box;
use std::time::{Duration, Instant};

use crate::draw::{Dice, Draft, Shape, chain, random};
use crate::implementation::{Codes, Exchange, Implementation, Layer, Likeness, Memory};
use crate::progress;

const SEED: u64 = 180;

/// Rounds of a line: as many as fit into its time, within these bounds.
const LINE_TIME: Duration = Duration::from_millis(2_400);
const FEWEST_ROUNDS: usize = 9;
const MOST_ROUNDS: usize = 201;

/// The words of the largest stored system.
const MOST_WORDS: usize = 68_098;
const MOST_PAIRS: usize = 256 * 256;
/// A side is made of two stored systems at most.
const SIDE_WORDS: usize = 2 * MOST_WORDS;

/// A line of the table: what was timed, and what came of it.
pub struct Line {
    pub name: String,
    pub rounds: usize,
    /// The times of each implementation, where it offers the call.
    pub times: Vec<Option<Times>>,
    pub result: String,
}

impl Line {
    /// The least time of the last implementation, in that of the first.
    pub fn ratio(&self) -> Option<f64> {
        let first = (*self.times.first()?)?;
        let last = (*self.times.last()?)?;
        (self.times.len() > 1).then(|| last.least.as_secs_f64() / first.least.as_secs_f64())
    }
}

/// How long a call took over the rounds of its line.
#[derive(Clone, Copy)]
pub struct Times {
    pub median: Duration,
    pub least: Duration,
}

impl Times {
    fn of(mut rounds: Vec<Duration>) -> Self {
        rounds.sort();
        Times {
            median: rounds[rounds.len() / 2],
            least: rounds[0],
        }
    }
}

fn file_of(draft: &Draft) -> Layer {
    Layer::File(draft.file())
}

/// The exchanges that are timed.
fn exchanges() -> Vec<(&'static str, Exchange)> {
    const TWO_READINGS: &[i16] = &[0, 1];
    const CHAIN: usize = 180;
    const CHAIN_MOVES: usize = 12;
    let mut dice = Dice::new(SEED);
    let exact = |old: Layer, new: Layer| Exchange {
        old,
        new,
        likeness: Likeness::Exact,
    };
    let shape = Shape {
        states: CHAIN,
        channels: 1,
        controller: CHAIN_MOVES,
        environment: CHAIN_MOVES,
        readings: TWO_READINGS,
    };
    let largest = Shape {
        states: 256,
        controller: 16,
        environment: 16,
        ..shape
    };
    // Joints of these have the shape above, with a channel more.
    let first_part = Shape {
        states: 15,
        controller: 4,
        environment: 3,
        ..shape
    };
    let second_part = Shape {
        states: 12,
        controller: 3,
        environment: 4,
        ..shape
    };
    let codes = |cut| Codes {
        channel: 0,
        cut,
        entries: (2..10).map(|from| (from, from - 2)).collect(),
    };
    let level = chain(CHAIN, CHAIN_MOVES, CHAIN_MOVES, 0);
    let ended = chain(CHAIN, CHAIN_MOVES, CHAIN_MOVES, 1);
    let mut random_file = |shape| file_of(&random(&mut dice, shape));
    let (old, new) = (random_file(shape), random_file(shape));
    vec![
        (
            "chain of 180, last differs",
            exact(file_of(&level), file_of(&ended)),
        ),
        (
            "chain of 180, nothing differs",
            exact(file_of(&level), file_of(&level)),
        ),
        ("random, 180 states", exact(old.clone(), new.clone())),
        (
            "random, 256 states",
            exact(random_file(largest), random_file(largest)),
        ),
        (
            "joints, 15 x 12 states",
            exact(
                Layer::joint(random_file(first_part), random_file(second_part)),
                Layer::joint(random_file(first_part), random_file(second_part)),
            ),
        ),
        (
            "code lists, 180 states",
            exact(
                Layer::coded(old, codes(i16::MAX)),
                Layer::coded(new, codes(i16::MAX)),
            ),
        ),
        (
            "code lists, chain, last differs",
            exact(
                Layer::coded(file_of(&level), codes(i16::MAX)),
                Layer::coded(file_of(&ended), codes(i16::MAX)),
            ),
        ),
    ]
}

/// A file of the largest size.
fn largest_file() -> Vec<u8> {
    let shape = Shape {
        states: 256,
        channels: 8,
        controller: 16,
        environment: 16,
        readings: &[i16::MIN, i16::MAX, 8_192],
    };
    random(&mut Dice::new(SEED), shape).file()
}

/// An implementation with memory of its own.
struct Desk<'a> {
    implementation: &'a dyn Implementation,
    old_words: Vec<u16>,
    new_words: Vec<u16>,
    table: Vec<u32>,
    bytes: Vec<u8>,
}

impl<'a> Desk<'a> {
    fn new(implementation: &'a dyn Implementation) -> Self {
        Desk {
            implementation,
            old_words: vec![0; SIDE_WORDS],
            new_words: vec![0; SIDE_WORDS],
            table: vec![0; MOST_PAIRS],
            bytes: Vec::new(),
        }
    }

    fn clear(&mut self) {
        let implementation = self.implementation;
        *self = Desk::new(implementation);
    }

    fn memory(&mut self) -> Memory<'_> {
        Memory {
            old_words: &mut self.old_words,
            new_words: &mut self.new_words,
            table: &mut self.table,
        }
    }

    fn holds_the_same(&self, other: &Desk) -> bool {
        self.old_words == other.old_words
            && self.new_words == other.new_words
            && self.table == other.table
            && self.bytes == other.bytes
    }
}

/// The implementations that are timed, and the lines up to now.
struct Timing<'a> {
    desks: Vec<Desk<'a>>,
    lines: Vec<Line>,
}

impl Timing<'_> {
    fn clear(&mut self) {
        for desk in &mut self.desks {
            desk.clear();
        }
    }

    /// Times one call of the implementations that offer it. All are called in
    /// each round, in changing order, so that they see the same machine. What
    /// they answer and leave has to be the same.
    fn time_line<T: PartialEq + Debug>(
        &mut self,
        name: &str,
        offers: impl Fn(&dyn Implementation) -> bool,
        call: impl Fn(&mut Desk) -> T,
        tell: impl FnOnce(&T) -> String,
    ) {
        let number = self.lines.len() + 1;
        let mut offering: Vec<(usize, &mut Desk)> = (self.desks.iter_mut().enumerate())
            .filter(|(_, desk)| offers(desk.implementation))
            .collect();

        // A call of each tells what it answers, and how many rounds fit.
        let show_progress = |done: String| {
            progress::show(format_args!("line {number:>2}, {name:<45} {done:>18} "));
        };
        show_progress(String::new());
        let start = Instant::now();
        let answers: Vec<T> = offering.iter_mut().map(|(_, desk)| call(desk)).collect();
        let rounds = rounds_that_fit(start.elapsed());

        let mut times = vec![Vec::new(); offering.len()];
        for round in 0..rounds {
            show_progress(format!("{round} of {rounds} rounds"));
            time_round(&mut offering, &mut times, round, &call);
        }

        assert_same(name, &offering, &answers);
        let offered: Vec<usize> = offering.iter().map(|(index, _)| *index).collect();
        let mut line = Line {
            name: name.into(),
            rounds,
            times: vec![None; self.desks.len()],
            result: answers.first().map_or("-".into(), tell),
        };
        for (index, times) in offered.into_iter().zip(times) {
            line.times[index] = Some(Times::of(times));
        }
        self.lines.push(line);
    }

    fn time_files(&mut self) {
        self.clear();
        let file = largest_file();
        let length = file.len();
        for desk in &mut self.desks {
            desk.bytes = vec![0; length];
        }
        let any = |_: &dyn Implementation| true;
        let size = |length: usize| format!("{length} bytes");
        self.time_line(
            "reading the largest file",
            any,
            |desk| {
                let words = &mut desk.old_words;
                let read = desk.implementation.read(&file, 0, words, 0);
                read.expect("the largest file is read").end
            },
            |&end| size(end),
        );
        self.time_line(
            "writing the largest file",
            any,
            |desk| {
                let bytes = &mut desk.bytes;
                let written = desk.implementation.write_stored(&desk.old_words, bytes);
                written.expect("the largest system is written")
            },
            |&written| size(written),
        );
        let layer = Layer::File(file);
        self.time_line(
            "reading and writing the largest file",
            any,
            |desk| {
                let (words, bytes) = (&mut desk.old_words, &mut desk.bytes);
                let written = desk.implementation.write(&layer, words, bytes);
                written.expect("the largest system is written")
            },
            |&written| size(written),
        );
        let Layer::File(file) = layer else {
            unreachable!("the layer is a file")
        };
        assert!(
            self.desks.iter().all(|desk| desk.bytes == file),
            "what is written is the file that was read"
        );
    }

    fn time_exchange(&mut self, name: &str, exchange: &Exchange) {
        self.clear();
        let offers = |offering: &dyn Implementation| offering.offers_exchange(exchange);
        self.time_line(
            &format!("{name}: decide"),
            offers,
            |desk| {
                let implementation = desk.implementation;
                let decided = implementation.decide(exchange, &[], &mut desk.memory());
                decided.expect("the exchange is granted")
            },
            |decision| {
                let verdict = if decision.replaces {
                    "replaces"
                } else {
                    "differs"
                };
                let (swept, standing) = (decision.swept, decision.standing);
                format!("{verdict}, {swept} struck, {standing} stand")
            },
        );
        self.time_line(
            &format!("{name}: check"),
            offers,
            |desk| {
                let implementation = desk.implementation;
                let checked = implementation.check(exchange, &mut desk.memory());
                checked.expect("the docket's table is a certificate")
            },
            |accepted| format!("accepted, {} stand", accepted.standing),
        );
        self.time_line(
            &format!("{name}: rank"),
            offers,
            |desk| {
                let implementation = desk.implementation;
                let ranked = implementation.rank(exchange, &mut desk.memory());
                ranked.expect("the exchange is granted")
            },
            |highest| format!("highest {highest}"),
        );
    }
}

/// Times a call of each. The one that is called first changes by the round.
fn time_round<T>(
    offering: &mut [(usize, &mut Desk)],
    times: &mut [Vec<Duration>],
    round: usize,
    call: impl Fn(&mut Desk) -> T,
) {
    for turn in 0..offering.len() {
        let which = (round + turn) % offering.len();
        let start = Instant::now();
        black_box(call(offering[which].1));
        times[which].push(start.elapsed());
    }
}

fn rounds_that_fit(round: Duration) -> usize {
    let fitting = LINE_TIME.as_nanos() / round.as_nanos().max(1);
    (fitting as usize).clamp(FEWEST_ROUNDS, MOST_ROUNDS)
}

/// Stops with what differs, if anything does.
fn assert_same<T: PartialEq + Debug>(name: &str, offering: &[(usize, &mut Desk)], answers: &[T]) {
    let Some(((_, first), others)) = offering.split_first() else {
        return;
    };
    for ((_, other), answer) in others.iter().zip(&answers[1..]) {
        let (one, two) = (first.implementation.name(), other.implementation.name());
        assert_eq!(&answers[0], answer, "{name}: {one} and {two} answer this");
        assert!(
            first.holds_the_same(other),
            "{name}: {one} and {two} leave other memory"
        );
    }
}

/// Times the files, and the exchanges whose names begin with `prefix`.
pub fn time(implementations: &[&dyn Implementation], prefix: &str) -> Vec<Line> {
    let mut timing = Timing {
        desks: implementations
            .iter()
            .map(|&each| Desk::new(each))
            .collect(),
        lines: Vec::new(),
    };
    timing.time_files();
    for (name, exchange) in exchanges() {
        if name.starts_with(prefix) {
            timing.time_exchange(name, &exchange);
        }
    }
    progress::end();
    timing.lines
}
