//! The proved library through its C interface, `include/cunaweho.h`. It takes
//! exchanges of two files or stored systems by tolerances, without proposals,
//! and writes stored systems. With the feature `layered` a second library, which is there for
//! this comparison only, takes joints of two files and code lists over a file.

#[cfg(feature = "layered")]
use crate::implementation::Codes;
use crate::implementation::{
    Accepted, Answer, Call, Decision, Exchange, Extra, Failure, Implementation, Layer, Likeness,
    Memory, Pair, Proposal, Read, ReadFault, Refusal, StoredExchange,
};

/// Values of `enum cunaweho_item`, and the one that `crates/layered` has beside
/// them.
mod item {
    pub const NOTHING: u8 = 0;
    pub const TOLERANCES: u8 = 1;
    pub const OLD_FILE: u8 = 2;
    pub const NEW_FILE: u8 = 3;
    pub const EXCHANGE: u8 = 4;
    pub const PAIR: u8 = 5;
    pub const FILE: u8 = 6;
    pub const SYSTEM: u8 = 7;
    pub const OLD_WORDS: u8 = 8;
    pub const NEW_WORDS: u8 = 9;
    pub const CODES: u8 = 10;
}

/// The number that stands in place of a refusal's where a call is granted.
const GRANTED: u8 = 0;

const CHANNELS: usize = 8;

/// `struct cunaweho_refusal`.
#[repr(C)]
#[derive(Clone, Copy, Debug, Default, PartialEq, Eq)]
struct Outcome {
    number: u8,
    item: u8,
    state: u16,
    new_state: u16,
    place: usize,
}

/// `struct cunaweho_tolerances`.
#[repr(C)]
struct Tolerances {
    channels: [u16; CHANNELS],
}

/// `struct cunaweho_read`.
#[repr(C)]
#[derive(Clone, Copy, Debug)]
struct ReadAnswer {
    refusal: Outcome,
    words: usize,
    end: usize,
}

/// `struct cunaweho_written`.
#[repr(C)]
#[derive(Clone, Copy, Debug)]
struct WrittenAnswer {
    refusal: Outcome,
    bytes: usize,
}

/// `struct cunaweho_decision`.
#[repr(C)]
#[derive(Clone, Copy, Debug)]
struct DecisionAnswer {
    refusal: Outcome,
    swept: u32,
    standing: u32,
    replaces: bool,
}

/// `struct cunaweho_certificate`.
#[repr(C)]
#[derive(Clone, Copy, Debug)]
struct CertificateAnswer {
    refusal: Outcome,
    standing: u32,
    replaces: bool,
}

/// `struct cunaweho_ranks`.
#[repr(C)]
#[derive(Clone, Copy, Debug)]
struct RanksAnswer {
    refusal: Outcome,
    highest: u32,
}

#[link(name = "host", kind = "static")]
unsafe extern "C" {
    fn cunaweho_read_system(
        bytes: *const u8,
        bytes_len: usize,
        place: usize,
        words: *mut u16,
        words_len: usize,
        at: usize,
    ) -> ReadAnswer;

    fn cunaweho_write_system(
        words: *const u16,
        words_len: usize,
        bytes: *mut u8,
        bytes_len: usize,
    ) -> WrittenAnswer;

    fn cunaweho_decide(
        old_file: *const u8,
        old_file_len: usize,
        new_file: *const u8,
        new_file_len: usize,
        tolerances: *const Tolerances,
        old_words: *mut u16,
        old_words_len: usize,
        new_words: *mut u16,
        new_words_len: usize,
        table: *mut u32,
        table_len: usize,
    ) -> DecisionAnswer;

    fn cunaweho_rank(
        old_file: *const u8,
        old_file_len: usize,
        new_file: *const u8,
        new_file_len: usize,
        tolerances: *const Tolerances,
        old_words: *mut u16,
        old_words_len: usize,
        new_words: *mut u16,
        new_words_len: usize,
        table: *mut u32,
        table_len: usize,
    ) -> RanksAnswer;

    fn cunaweho_decide_words(
        old_words: *const u16,
        old_words_len: usize,
        new_words: *const u16,
        new_words_len: usize,
        tolerances: *const Tolerances,
        table: *mut u32,
        table_len: usize,
    ) -> DecisionAnswer;

    fn cunaweho_check(
        old_words: *const u16,
        old_words_len: usize,
        new_words: *const u16,
        new_words_len: usize,
        tolerances: *const Tolerances,
        table: *const u32,
        table_len: usize,
    ) -> CertificateAnswer;

    fn cunaweho_rank_words(
        old_words: *const u16,
        old_words_len: usize,
        new_words: *const u16,
        new_words_len: usize,
        tolerances: *const Tolerances,
        table: *mut u32,
        table_len: usize,
    ) -> RanksAnswer;
}

/// `Code` of `crates/layered`.
#[cfg(feature = "layered")]
#[repr(C)]
struct Code {
    from: i16,
    to: i16,
}

// The calls over joints of two stored systems and over code lists, which lie in
// words. Both sides have the same code list.
#[cfg(feature = "layered")]
#[link(name = "layered", kind = "static")]
unsafe extern "C" {
    fn layered_decide_joints(
        tolerances: *const Tolerances,
        first_old: *const u16,
        first_old_len: usize,
        second_old: *const u16,
        second_old_len: usize,
        first_new: *const u16,
        first_new_len: usize,
        second_new: *const u16,
        second_new_len: usize,
        table: *mut u32,
        table_len: usize,
    ) -> DecisionAnswer;

    fn layered_check_joints(
        tolerances: *const Tolerances,
        first_old: *const u16,
        first_old_len: usize,
        second_old: *const u16,
        second_old_len: usize,
        first_new: *const u16,
        first_new_len: usize,
        second_new: *const u16,
        second_new_len: usize,
        table: *const u32,
        table_len: usize,
    ) -> CertificateAnswer;

    fn layered_rank_joints(
        tolerances: *const Tolerances,
        first_old: *const u16,
        first_old_len: usize,
        second_old: *const u16,
        second_old_len: usize,
        first_new: *const u16,
        first_new_len: usize,
        second_new: *const u16,
        second_new_len: usize,
        table: *mut u32,
        table_len: usize,
    ) -> RanksAnswer;

    fn layered_decide_coded(
        tolerances: *const Tolerances,
        old_words: *const u16,
        old_words_len: usize,
        new_words: *const u16,
        new_words_len: usize,
        codes: *const Code,
        codes_len: usize,
        channel: u8,
        cut: i16,
        table: *mut u32,
        table_len: usize,
    ) -> DecisionAnswer;

    fn layered_check_coded(
        tolerances: *const Tolerances,
        old_words: *const u16,
        old_words_len: usize,
        new_words: *const u16,
        new_words_len: usize,
        codes: *const Code,
        codes_len: usize,
        channel: u8,
        cut: i16,
        table: *const u32,
        table_len: usize,
    ) -> CertificateAnswer;

    fn layered_rank_coded(
        tolerances: *const Tolerances,
        old_words: *const u16,
        old_words_len: usize,
        new_words: *const u16,
        new_words_len: usize,
        codes: *const Code,
        codes_len: usize,
        channel: u8,
        cut: i16,
        table: *mut u32,
        table_len: usize,
    ) -> RanksAnswer;
}

/// The sides of an exchange that the libraries take.
enum Sides<'a> {
    Files(&'a [u8], &'a [u8]),
    #[cfg(feature = "layered")]
    Layers(Layers<'a>),
}

/// The sides of an exchange that `layered` takes.
#[cfg(feature = "layered")]
enum Layers<'a> {
    Joints([&'a [u8]; 2], [&'a [u8]; 2]),
    Coded(&'a [u8], &'a [u8], &'a Codes),
}

impl<'a> Sides<'a> {
    fn of(exchange: &'a Exchange) -> Option<Self> {
        match (&exchange.old, &exchange.new) {
            (Layer::File(old), Layer::File(new)) => Some(Sides::Files(old, new)),
            #[cfg(feature = "layered")]
            (Layer::Joint(first_old, second_old), Layer::Joint(first_new, second_new)) => {
                let old = [file_of(first_old)?, file_of(second_old)?];
                let new = [file_of(first_new)?, file_of(second_new)?];
                Some(Sides::Layers(Layers::Joints(old, new)))
            }
            #[cfg(feature = "layered")]
            (Layer::Coded(old, codes), Layer::Coded(new, others)) if codes == others => {
                let (old, new) = (file_of(old)?, file_of(new)?);
                Some(Sides::Layers(Layers::Coded(old, new, codes)))
            }
            _ => None,
        }
    }
}

#[cfg(feature = "layered")]
fn file_of(layer: &Layer) -> Option<&[u8]> {
    match layer {
        Layer::File(bytes) => Some(bytes),
        _ => None,
    }
}

fn tolerances_of(likeness: &Likeness) -> Option<Tolerances> {
    match *likeness {
        Likeness::Exact => Some(Tolerances {
            channels: [0; CHANNELS],
        }),
        Likeness::Within(channels) => Some(Tolerances { channels }),
        Likeness::SeaState(_) => None,
    }
}

/// The sides and the tolerances of an exchange that is offered.
fn lent(exchange: &Exchange) -> (Sides<'_>, Tolerances) {
    Sides::of(exchange)
        .zip(tolerances_of(&exchange.likeness))
        .expect("only exchanges that are offered are asked for")
}

/// Reads two files one behind the other; tells the words of each.
#[cfg(feature = "layered")]
fn read_both<'w>(
    files: [&[u8]; 2],
    words: &'w mut [u16],
) -> Result<(&'w [u16], &'w [u16]), ReadFault> {
    let first = Proved.read(files[0], 0, words, 0)?.words;
    Proved.read(files[1], 0, words, first)?;
    Ok(words.split_at(first))
}

/// Makes a call on two files.
macro_rules! call_files {
    ($call:ident, $old:expr, $new:expr, $tolerances:expr, $memory:expr) => {{
        let (old, new): (&[u8], &[u8]) = ($old, $new);
        let (old_words, new_words) = (&mut *$memory.old_words, &mut *$memory.new_words);
        let table = &mut *$memory.table;
        // SAFETY: each pointer is that of a slice or reference that is
        // borrowed up to the end of the call, with the slice's length; those
        // that are written through are of slices that are borrowed mutably, so
        // that nothing overlaps them.
        unsafe {
            $call(
                old.as_ptr(),
                old.len(),
                new.as_ptr(),
                new.len(),
                &$tolerances,
                old_words.as_mut_ptr(),
                old_words.len(),
                new_words.as_mut_ptr(),
                new_words.len(),
                table.as_mut_ptr(),
                table.len(),
            )
        }
    }};
}

/// Makes a call on words. `$pointer` gives the pointer of the table.
macro_rules! call_words {
    ($call:ident, $exchange:expr, $table:expr, $pointer:ident) => {{
        let (exchange, table) = ($exchange, $table);
        let tolerances = Tolerances {
            channels: exchange.tolerances,
        };
        // SAFETY: as above.
        unsafe {
            $call(
                exchange.old_words.as_ptr(),
                exchange.old_words.len(),
                exchange.new_words.as_ptr(),
                exchange.new_words.len(),
                &tolerances,
                table.$pointer(),
                table.len(),
            )
        }
    }};
}

/// Makes a call on joints or code lists. `$pointer` gives the pointer of the
/// table.
#[cfg(feature = "layered")]
macro_rules! call_layers {
    ($joints:ident, $coded:ident, $layers:expr, $tolerances:expr, $memory:expr, $pointer:ident) => {{
        let (old_words, new_words) = (&mut *$memory.old_words, &mut *$memory.new_words);
        let table = &mut *$memory.table;
        match $layers {
            Layers::Joints(old, new) => {
                let old = read_both(old, old_words).map_err(Failure::OldFile)?;
                let new = read_both(new, new_words).map_err(Failure::NewFile)?;
                // SAFETY: as above.
                unsafe {
                    $joints(
                        &$tolerances,
                        old.0.as_ptr(),
                        old.0.len(),
                        old.1.as_ptr(),
                        old.1.len(),
                        new.0.as_ptr(),
                        new.0.len(),
                        new.1.as_ptr(),
                        new.1.len(),
                        table.$pointer(),
                        table.len(),
                    )
                }
            }
            Layers::Coded(old, new, codes) => {
                Proved
                    .read(old, 0, old_words, 0)
                    .map_err(Failure::OldFile)?;
                Proved
                    .read(new, 0, new_words, 0)
                    .map_err(Failure::NewFile)?;
                let code = |&(from, to): &(i16, i16)| Code { from, to };
                let entries: Vec<Code> = codes.entries.iter().map(code).collect();
                // SAFETY: as above.
                unsafe {
                    $coded(
                        &$tolerances,
                        old_words.as_ptr(),
                        old_words.len(),
                        new_words.as_ptr(),
                        new_words.len(),
                        entries.as_ptr(),
                        entries.len(),
                        codes.channel,
                        codes.cut,
                        table.$pointer(),
                        table.len(),
                    )
                }
            }
        }
    }};
}

impl Outcome {
    /// What the call says of itself. `rest_is_zero` tells whether the other
    /// fields of the answer are 0.
    ///
    /// # Panics
    ///
    /// If fields are set that the interface says are 0.
    fn granted(self, rest_is_zero: bool) -> Result<(), Outcome> {
        if self.number == GRANTED {
            let nothing = Outcome {
                item: item::NOTHING,
                ..Outcome::default()
            };
            assert_eq!(self, nothing, "the refusal of a call that is granted");
            Ok(())
        } else {
            assert!(rest_is_zero, "{self:?} comes with more than a refusal");
            Err(self)
        }
    }

    /// The refusal of a number in a file.
    fn in_file(self, item: u8) -> ReadFault {
        let expected = Outcome {
            item,
            new_state: 0,
            ..self
        };
        assert_eq!(self, expected, "the refusal of a file");
        ReadFault {
            refusal: self.number,
            place: self.place,
            state: self.state,
        }
    }

    /// The refusal, if no item of it is told but what it is.
    fn whole(self, item: u8) -> Refusal {
        let expected = Outcome {
            number: self.number,
            item,
            ..Outcome::default()
        };
        assert_eq!(self, expected, "a refusal without a place");
        self.number
    }

    fn of_tolerance(self) -> Failure {
        let expected = Outcome {
            number: self.number,
            item: item::TOLERANCES,
            place: self.place,
            ..Outcome::default()
        };
        assert_eq!(self, expected, "the refusal of a tolerance");
        let channel = u8::try_from(self.place).expect("the place of a tolerance is its channel");
        Failure::Tolerance(self.number, channel)
    }

    fn of_pair(self) -> Failure {
        let expected = Outcome { place: 0, ..self };
        assert_eq!(self, expected, "the refusal of a pair");
        let pair = Pair {
            old: self.state,
            new: self.new_state,
        };
        Failure::OutOfOrder(self.number, pair)
    }

    /// Why a call on an exchange is refused.
    fn of_exchange(self) -> Failure {
        match self.item {
            item::TOLERANCES => self.of_tolerance(),
            item::OLD_FILE => Failure::OldFile(self.in_file(item::OLD_FILE)),
            item::NEW_FILE => Failure::NewFile(self.in_file(item::NEW_FILE)),
            item::OLD_WORDS => Failure::OldWords(self.whole(item::OLD_WORDS)),
            item::NEW_WORDS => Failure::NewWords(self.whole(item::NEW_WORDS)),
            item::EXCHANGE => Failure::Refused(self.whole(item::EXCHANGE)),
            item::PAIR => self.of_pair(),
            item::CODES => Failure::Codes(self.whole(item::CODES)),
            _ => panic!("{self:?} has no item of an exchange"),
        }
    }
}

impl DecisionAnswer {
    fn told(self) -> Result<Decision, Failure> {
        let rest_is_zero = self.swept == 0 && self.standing == 0 && !self.replaces;
        self.refusal
            .granted(rest_is_zero)
            .map_err(Outcome::of_exchange)?;
        Ok(Decision {
            answers: Vec::new(),
            swept: self.swept,
            standing: self.standing,
            replaces: self.replaces,
        })
    }
}

impl CertificateAnswer {
    fn told(self) -> Result<Accepted, Failure> {
        let rest_is_zero = self.standing == 0 && !self.replaces;
        self.refusal
            .granted(rest_is_zero)
            .map_err(Outcome::of_exchange)?;
        Ok(Accepted {
            standing: self.standing,
            replaces: self.replaces,
        })
    }
}

impl RanksAnswer {
    fn told(self) -> Result<u32, Failure> {
        self.refusal
            .granted(self.highest == 0)
            .map_err(Outcome::of_exchange)?;
        Ok(self.highest)
    }
}

pub struct Proved;

impl Implementation for Proved {
    fn name(&self) -> &str {
        "proved"
    }

    fn offers_writing(&self, layer: &Layer) -> bool {
        matches!(layer, Layer::File(_))
    }

    fn offers_exchange(&self, exchange: &Exchange) -> bool {
        Sides::of(exchange).is_some() && tolerances_of(&exchange.likeness).is_some()
    }

    fn offers(&self, extra: Extra) -> bool {
        match extra {
            Extra::Proposals | Extra::Runs => false,
        }
    }

    fn read(
        &self,
        bytes: &[u8],
        place: usize,
        words: &mut [u16],
        word_place: usize,
    ) -> Result<Read, ReadFault> {
        // SAFETY: both pointers are those of slices that are borrowed up to the
        // end of the call, with the slices' lengths; the words are borrowed
        // mutably.
        let answer = unsafe {
            cunaweho_read_system(
                bytes.as_ptr(),
                bytes.len(),
                place,
                words.as_mut_ptr(),
                words.len(),
                word_place,
            )
        };
        answer
            .refusal
            .granted(answer.words == 0 && answer.end == 0)
            .map_err(|outcome| outcome.in_file(item::FILE))?;
        Ok(Read {
            words: answer.words,
            end: answer.end,
        })
    }

    fn write_stored(&self, words: &[u16], bytes: &mut [u8]) -> Result<usize, Refusal> {
        // SAFETY: both pointers are those of slices that are borrowed up to the
        // end of the call, with the slices' lengths; the bytes are borrowed
        // mutably.
        let answer = unsafe {
            cunaweho_write_system(words.as_ptr(), words.len(), bytes.as_mut_ptr(), bytes.len())
        };
        answer
            .refusal
            .granted(answer.bytes == 0)
            .map_err(|outcome| outcome.whole(item::SYSTEM))?;
        Ok(answer.bytes)
    }

    fn write(&self, layer: &Layer, words: &mut [u16], bytes: &mut [u8]) -> Result<usize, Refusal> {
        let Layer::File(file) = layer else {
            unreachable!("only layers that are offered are asked for");
        };
        self.read(file, 0, words, 0).expect("the file is whole");
        self.write_stored(words, bytes)
    }

    fn decide(
        &self,
        exchange: &Exchange,
        proposals: &[Proposal],
        memory: &mut Memory,
    ) -> Result<Decision, Failure> {
        assert!(proposals.is_empty(), "proposals are not offered");
        let (sides, tolerances) = lent(exchange);
        let answer = match sides {
            Sides::Files(old, new) => call_files!(cunaweho_decide, old, new, tolerances, memory),
            #[cfg(feature = "layered")]
            Sides::Layers(layers) => call_layers!(
                layered_decide_joints,
                layered_decide_coded,
                layers,
                tolerances,
                memory,
                as_mut_ptr
            ),
        };
        answer.told()
    }

    fn run(&self, _: &Exchange, _: &[Call], _: &mut Memory) -> Result<Vec<Answer>, Failure> {
        unreachable!("runs are not offered")
    }

    fn check(&self, exchange: &Exchange, memory: &mut Memory) -> Result<Accepted, Failure> {
        let (sides, tolerances) = lent(exchange);
        match sides {
            Sides::Files(old, new) => {
                self.read(old, 0, memory.old_words, 0)
                    .map_err(Failure::OldFile)?;
                self.read(new, 0, memory.new_words, 0)
                    .map_err(Failure::NewFile)?;
                let stored = StoredExchange {
                    old_words: memory.old_words,
                    new_words: memory.new_words,
                    tolerances: tolerances.channels,
                };
                self.check_words(stored, memory.table)
            }
            #[cfg(feature = "layered")]
            Sides::Layers(layers) => call_layers!(
                layered_check_joints,
                layered_check_coded,
                layers,
                tolerances,
                memory,
                as_ptr
            )
            .told(),
        }
    }

    fn rank(&self, exchange: &Exchange, memory: &mut Memory) -> Result<u32, Failure> {
        let (sides, tolerances) = lent(exchange);
        let answer = match sides {
            Sides::Files(old, new) => call_files!(cunaweho_rank, old, new, tolerances, memory),
            #[cfg(feature = "layered")]
            Sides::Layers(layers) => call_layers!(
                layered_rank_joints,
                layered_rank_coded,
                layers,
                tolerances,
                memory,
                as_mut_ptr
            ),
        };
        answer.told()
    }

    fn decide_words(
        &self,
        exchange: StoredExchange,
        table: &mut [u32],
    ) -> Result<Decision, Failure> {
        call_words!(cunaweho_decide_words, exchange, table, as_mut_ptr).told()
    }

    fn check_words(&self, exchange: StoredExchange, table: &[u32]) -> Result<Accepted, Failure> {
        call_words!(cunaweho_check, exchange, table, as_ptr).told()
    }

    fn rank_words(&self, exchange: StoredExchange, table: &mut [u32]) -> Result<u32, Failure> {
        call_words!(cunaweho_rank_words, exchange, table, as_mut_ptr).told()
    }
}
