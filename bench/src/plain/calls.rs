//! The plain implementation behind the calls that all implementations offer.

use super::arena::{Arena, Exchange as PlainExchange, Pair as PlainPair};
use super::certificate::{Accepted as PlainAccepted, CertificateFault, check_certificate, rank};
use super::docket::{
    Cause as PlainCause, Decision as PlainDecision, Docket, Proposal as PlainProposal, Settlement,
};
use super::file::{ReadFault as PlainReadFault, SystemFile, read_system, write_system};
use super::layers::{Buffer, CodeList, Coded, Joint};
use super::likeness::{Exact, SeaState, Within};
use super::refusal::Refusal as PlainRefusal;
use super::stored::Stored;
use super::system::System;
use crate::implementation::{
    Accepted, Answer, Call, Cause, Codes, Decision, Exchange, Extra, Failure, Implementation,
    Layer, Likeness, Memory, Pair, Proposal, Read, ReadFault, Refusal, StoredExchange,
};

pub struct Plain;

impl From<PlainReadFault> for ReadFault {
    fn from(fault: PlainReadFault) -> Self {
        ReadFault {
            refusal: fault.refusal.number(),
            place: fault.place,
            state: fault.state,
        }
    }
}

impl From<PlainPair> for Pair {
    fn from(PlainPair { old, new }: PlainPair) -> Self {
        Pair { old, new }
    }
}

impl From<PlainRefusal> for Failure {
    fn from(refusal: PlainRefusal) -> Self {
        Failure::Refused(refusal.number())
    }
}

impl From<CertificateFault> for Failure {
    fn from(fault: CertificateFault) -> Self {
        match fault {
            CertificateFault::Refused(refusal) => refusal.into(),
            CertificateFault::OutOfOrder(refusal, pair) => {
                Failure::OutOfOrder(refusal.number(), pair.into())
            }
        }
    }
}

impl From<PlainDecision> for Decision {
    fn from(decision: PlainDecision) -> Self {
        let number = |answer: Result<u32, PlainRefusal>| answer.map_err(PlainRefusal::number);
        Decision {
            answers: decision.answers.into_iter().map(number).collect(),
            swept: decision.swept,
            standing: decision.standing,
            replaces: decision.replaces,
        }
    }
}

impl From<PlainAccepted> for Accepted {
    fn from(PlainAccepted { standing, replaces }: PlainAccepted) -> Self {
        Accepted { standing, replaces }
    }
}

impl From<Cause> for PlainCause {
    fn from(cause: Cause) -> Self {
        match cause {
            Cause::Sight => PlainCause::Sight,
            Cause::Move(controller) => PlainCause::Move(controller),
        }
    }
}

impl From<PlainCause> for Cause {
    fn from(cause: PlainCause) -> Self {
        match cause {
            PlainCause::Sight => Cause::Sight,
            PlainCause::Move(controller) => Cause::Move(controller),
        }
    }
}

impl From<&Proposal> for PlainProposal {
    fn from(&Proposal { pair, cause }: &Proposal) -> Self {
        PlainProposal {
            pair: PlainPair {
                old: pair.old,
                new: pair.new,
            },
            cause: cause.into(),
        }
    }
}

fn call<A: Arena>(docket: &mut Docket, arena: &A, table: &mut [u32], call: &Call) -> Answer {
    let answer = match call {
        Call::Open => docket.open(arena, table).map(Answer::Opened),
        Call::Strike(proposal) => docket
            .strike(arena, table, proposal.into())
            .map(Answer::Struck),
        &Call::Sweep(budget) => docket.sweep(arena, table, budget).map(Answer::Swept),
        Call::Settle => docket
            .settle(arena, table)
            .map(|settlement| match settlement {
                Settlement::Settled(standing) => Answer::Settled(standing),
                Settlement::Loose(pair, cause) => Answer::Loose(pair.into(), cause.into()),
            }),
    };
    answer.unwrap_or_else(|refusal| Answer::Refused(refusal.number()))
}

/// Reads the files of a layer, for so many words; the systems are to lie there
/// one behind the other.
fn read_files(layer: &Layer, room: usize, files: &mut Vec<SystemFile>) -> Result<(), ReadFault> {
    match layer {
        Layer::File(bytes) => {
            let taken: usize = files.iter().map(SystemFile::words).sum();
            files.push(read_system(bytes, 0, room - taken)?);
            Ok(())
        }
        Layer::Buffer(_) => Ok(()),
        Layer::Joint(first, second) => {
            read_files(first, room, files)?;
            read_files(second, room, files)
        }
        Layer::Coded(below, _) => read_files(below, room, files),
    }
}

/// Lays out the systems of the files one behind the other.
fn lay_out(files: &[SystemFile], words: &mut [u16]) {
    let mut place = 0;
    for file in files {
        file.lay_out(words, place);
        place += file.words();
    }
}

/// The files of both sides, read and not laid out yet.
struct Sides {
    old: Vec<SystemFile>,
    new: Vec<SystemFile>,
}

impl Sides {
    /// Tests the code lists and the tolerances, and reads the files of both
    /// sides.
    fn read(exchange: &Exchange, memory: &Memory) -> Result<Self, Failure> {
        check_codes(&exchange.old)?;
        check_codes(&exchange.new)?;
        check_tolerances(&exchange.likeness)?;
        let (mut old, mut new) = (Vec::new(), Vec::new());
        read_files(&exchange.old, memory.old_words.len(), &mut old).map_err(Failure::OldFile)?;
        read_files(&exchange.new, memory.new_words.len(), &mut new).map_err(Failure::NewFile)?;
        Ok(Sides { old, new })
    }

    /// The refusals of an opening, for an exchange of two files.
    fn check_opening(&self, exchange: &Exchange, entries: usize) -> Result<(), Failure> {
        if let (Layer::File(_), Layer::File(_)) = (&exchange.old, &exchange.new) {
            let (old, new) = (&self.old[0], &self.new[0]);
            if old.channels() != new.channels() {
                return Err(PlainRefusal::ChannelsDiffer.into());
            }
            if entries < old.states() * new.states() {
                return Err(PlainRefusal::TableTooShort.into());
            }
        }
        Ok(())
    }

    fn lay_out(&self, memory: &mut Memory) {
        lay_out(&self.old, memory.old_words);
        lay_out(&self.new, memory.new_words);
    }
}

fn check_codes(layer: &Layer) -> Result<(), Failure> {
    match layer {
        Layer::File(_) | Layer::Buffer(_) => Ok(()),
        Layer::Joint(first, second) => {
            check_codes(first)?;
            check_codes(second)
        }
        Layer::Coded(below, codes) => {
            code_list(codes).map_err(|refusal| Failure::Codes(refusal.number()))?;
            check_codes(below)
        }
    }
}

fn check_tolerances(likeness: &Likeness) -> Result<(), Failure> {
    let Likeness::Within(tolerances) = likeness else {
        return Ok(());
    };
    match (0..)
        .zip(tolerances)
        .find(|(_, most)| **most > Within::MOST_TOLERANCE)
    {
        Some((channel, _)) => {
            let refusal = PlainRefusal::ToleranceTooLarge.number();
            Err(Failure::Tolerance(refusal, channel))
        }
        None => Ok(()),
    }
}

/// Reads both sides into the memory for calls that begin with an opening.
fn prepare(exchange: &Exchange, memory: &mut Memory) -> Result<(), Failure> {
    let sides = Sides::read(exchange, memory)?;
    sides.check_opening(exchange, memory.table.len())?;
    sides.lay_out(memory);
    Ok(())
}

/// Takes the next stored system off the words.
fn take_stored<'a>(words: &mut &'a [u16]) -> Stored<'a> {
    let stored = Stored::over(words);
    *words = &words[stored.words()..];
    stored
}

fn code_list(codes: &Codes) -> Result<CodeList, PlainRefusal> {
    let mut list = CodeList::new(codes.channel, codes.cut);
    for &(from, to) in &codes.entries {
        list.add(from, to)?;
    }
    Ok(list)
}

/// A code list that was tested before.
fn tested_code_list(codes: &Codes) -> CodeList {
    code_list(codes).expect("a code list has at most 8 entries")
}

/// A layer of any depth, over the words of its files.
fn build<'a>(layer: &Layer, words: &mut &'a [u16]) -> Box<dyn System + 'a> {
    match layer {
        Layer::File(_) => Box::new(take_stored(words)),
        &Layer::Buffer(capacity) => Box::new(Buffer { capacity }),
        Layer::Joint(first, second) => Box::new(Joint {
            first: build(first, words),
            second: build(second, words),
        }),
        Layer::Coded(below, codes) => Box::new(Coded {
            below: build(below, words),
            codes: tested_code_list(codes),
        }),
    }
}

/// Evaluates the body with the layer's system. The usual shapes keep their
/// own types, so that calls to them can be inlined.
macro_rules! with_system {
    ($layer:expr, $words:expr, |$system:ident| $body:expr) => {{
        let mut words: &[u16] = $words;
        match $layer {
            Layer::File(_) => {
                let $system = take_stored(&mut words);
                $body
            }
            Layer::Joint(first, second)
                if matches!((&**first, &**second), (Layer::File(_), Layer::File(_))) =>
            {
                let $system = Joint {
                    first: take_stored(&mut words),
                    second: take_stored(&mut words),
                };
                $body
            }
            Layer::Coded(below, codes) if matches!(&**below, Layer::File(_)) => {
                let $system = Coded {
                    below: take_stored(&mut words),
                    codes: tested_code_list(codes),
                };
                $body
            }
            layer => {
                let $system = build(layer, &mut words);
                $body
            }
        }
    }};
}

macro_rules! with_likeness {
    ($likeness:expr, |$like:ident| $body:expr) => {
        match $likeness {
            Likeness::Exact => {
                let $like = Exact;
                $body
            }
            Likeness::Within(tolerances) => {
                let mut $like = Within::default();
                for (channel, &tolerance) in (0..).zip(tolerances) {
                    $like
                        .set(channel, tolerance)
                        .expect("a tolerance is at most 1,000");
                }
                $body
            }
            &Likeness::SeaState(channel) => {
                let $like = SeaState { channel };
                $body
            }
        }
    };
}

/// Evaluates the body with the arena of the exchange of stored systems, which
/// is tested before.
macro_rules! with_stored {
    ($exchange:expr, |$arena:ident| $body:expr) => {{
        let exchange: &StoredExchange = $exchange;
        let tolerances = Likeness::Within(exchange.tolerances);
        check_tolerances(&tolerances)?;
        let old = Stored::test(exchange.old_words)
            .map_err(|refusal| Failure::OldWords(refusal.number()))?;
        let new = Stored::test(exchange.new_words)
            .map_err(|refusal| Failure::NewWords(refusal.number()))?;
        with_likeness!(&tolerances, |likeness| {
            let $arena = PlainExchange {
                old: &old,
                new: &new,
                likeness: &likeness,
            };
            $body
        })
    }};
}

/// Evaluates the body with the arena of the exchange, whose systems have been
/// laid out.
macro_rules! with_arena {
    ($exchange:expr, $memory:expr, |$arena:ident| $body:expr) => {{
        with_system!(&$exchange.old, $memory.old_words, |old| {
            with_system!(&$exchange.new, $memory.new_words, |new| {
                with_likeness!(&$exchange.likeness, |likeness| {
                    let $arena = PlainExchange {
                        old: &old,
                        new: &new,
                        likeness: &likeness,
                    };
                    $body
                })
            })
        })
    }};
}

impl Implementation for Plain {
    fn name(&self) -> &str {
        "plain"
    }

    fn offers_writing(&self, _: &Layer) -> bool {
        true
    }

    fn offers_exchange(&self, _: &Exchange) -> bool {
        true
    }

    fn offers(&self, _: Extra) -> bool {
        true
    }

    fn read(
        &self,
        bytes: &[u8],
        place: usize,
        words: &mut [u16],
        word_place: usize,
    ) -> Result<Read, ReadFault> {
        let room = words.len().saturating_sub(word_place);
        let file = read_system(bytes, place, room)?;
        file.lay_out(words, word_place);
        Ok(Read {
            words: file.words(),
            end: file.end(),
        })
    }

    fn write_stored(&self, words: &[u16], bytes: &mut [u8]) -> Result<usize, Refusal> {
        write_system(&Stored::over(words), bytes).map_err(PlainRefusal::number)
    }

    fn write(&self, layer: &Layer, words: &mut [u16], bytes: &mut [u8]) -> Result<usize, Refusal> {
        let mut files = Vec::new();
        read_files(layer, words.len(), &mut files).expect("the layer's files are whole");
        lay_out(&files, words);
        with_system!(layer, words, |system| write_system(&system, bytes))
            .map_err(PlainRefusal::number)
    }

    fn decide(
        &self,
        exchange: &Exchange,
        proposals: &[Proposal],
        memory: &mut Memory,
    ) -> Result<Decision, Failure> {
        prepare(exchange, memory)?;
        let proposals: Vec<PlainProposal> = proposals.iter().map(Into::into).collect();
        let decision = with_arena!(exchange, memory, |arena| {
            Docket::new().decide(&arena, memory.table, &proposals)
        })?;
        Ok(decision.into())
    }

    fn run(
        &self,
        exchange: &Exchange,
        calls: &[Call],
        memory: &mut Memory,
    ) -> Result<Vec<Answer>, Failure> {
        Sides::read(exchange, memory)?.lay_out(memory);
        Ok(with_arena!(exchange, memory, |arena| {
            let mut docket = Docket::new();
            calls
                .iter()
                .map(|made| call(&mut docket, &arena, memory.table, made))
                .collect()
        }))
    }

    fn check(&self, exchange: &Exchange, memory: &mut Memory) -> Result<Accepted, Failure> {
        prepare(exchange, memory)?;
        let accepted = with_arena!(exchange, memory, |arena| {
            check_certificate(&arena, memory.table)
        })?;
        Ok(accepted.into())
    }

    fn rank(&self, exchange: &Exchange, memory: &mut Memory) -> Result<u32, Failure> {
        prepare(exchange, memory)?;
        Ok(with_arena!(exchange, memory, |arena| {
            rank(&arena, memory.table)
        })?)
    }

    fn decide_words(
        &self,
        exchange: StoredExchange,
        table: &mut [u32],
    ) -> Result<Decision, Failure> {
        let decision = with_stored!(&exchange, |arena| Docket::new().decide(&arena, table, &[]))?;
        Ok(decision.into())
    }

    fn check_words(&self, exchange: StoredExchange, table: &[u32]) -> Result<Accepted, Failure> {
        let accepted = with_stored!(&exchange, |arena| check_certificate(&arena, table))?;
        Ok(accepted.into())
    }

    fn rank_words(&self, exchange: StoredExchange, table: &mut [u32]) -> Result<u32, Failure> {
        Ok(with_stored!(&exchange, |arena| rank(&arena, table))?)
    }
}
