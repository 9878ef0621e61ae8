//! The answers by their definitions, without regard to speed. Refusals are
//! given by their numbers in `REFUSALS`.

use std::collections::BTreeSet;

use crate::draw::{Draft, DraftState};
use crate::implementation::{
    Accepted, Answer, Call, Cause, Codes, Decision, Exchange, Failure, Layer, Likeness, Pair,
    Proposal, ReadFault, Refusal, StoredExchange,
};

const MOST_STATES: usize = 256;
const MOST_CHANNELS: usize = 8;
const MOST_MOVES: usize = 16;
const MOST_CODES: usize = 8;
const NEXT_WORDS: usize = MOST_MOVES * MOST_MOVES;
const MOST_TOLERANCE: u16 = 1_000;
/// What is added to a reading where it is stored.
const READING_OFFSET: i32 = 32_768;

/// How many values the seven bits of a byte have; a byte of this or above is
/// not the last of its number.
const GROUP: usize = 128;

/// Takes a number off the bytes at a place; tells the place behind it.
fn number_at(bytes: &[u8], place: usize) -> Result<(usize, usize), Refusal> {
    let byte = |index: usize| bytes.get(place + index).copied().map(usize::from);
    let first = byte(0).ok_or(15)?;
    if first < GROUP {
        return Ok((first, place + 1));
    }
    let second = byte(1).ok_or(15)?;
    if second < GROUP {
        return Ok((first - GROUP + GROUP * second, place + 2));
    }
    let third = byte(2).ok_or(15)?;
    if third >= GROUP {
        return Err(16);
    }
    let number = first - GROUP + GROUP * (second - GROUP) + GROUP * GROUP * third;
    if number > u16::MAX.into() {
        return Err(17);
    }
    Ok((number, place + 3))
}

/// Reads a system file from a byte place on for so many free words; tells
/// the byte place behind it.
pub fn read(bytes: &[u8], place: usize, room: usize) -> Result<(Draft, usize), ReadFault> {
    let mut place = place;
    let mut take = |state: usize, wrong: &dyn Fn(usize) -> Option<Refusal>| {
        let fault = |refusal| ReadFault {
            refusal,
            place,
            state: state as u16,
        };
        let (number, behind) = number_at(bytes, place).map_err(fault)?;
        if let Some(refusal) = wrong(number) {
            return Err(fault(refusal));
        }
        place = behind;
        Ok(number)
    };
    let outside = |number: usize, most: usize| number < 1 || number > most;
    let count = take(0, &|number| outside(number, MOST_STATES).then_some(18))?;
    let channels = take(0, &|number| {
        if outside(number, MOST_CHANNELS) {
            Some(19)
        } else if room < 2 + count * (number + 2 + NEXT_WORDS) {
            Some(20)
        } else {
            None
        }
    })?;
    let mut states = Vec::new();
    for state in 0..count {
        let mut readings = Vec::new();
        for _ in 0..channels {
            let filed = take(state, &|_| None)? as i32;
            let reading = if filed % 2 == 0 {
                filed / 2
            } else {
                -(filed + 1) / 2
            };
            readings.push(reading as i16);
        }
        let controller = take(state, &|number| outside(number, MOST_MOVES).then_some(21))?;
        let environment = take(state, &|number| outside(number, MOST_MOVES).then_some(21))?;
        let mut next = Vec::new();
        for _ in 0..controller * environment {
            next.push(take(state, &|number| (number >= count).then_some(22))?);
        }
        states.push(DraftState {
            readings,
            controller,
            environment,
            next,
        });
    }
    Ok((Draft { channels, states }, place))
}

/// The words of a stored system.
pub fn words(draft: &Draft) -> Vec<u16> {
    let mut words = vec![draft.states.len() as u16, draft.channels as u16];
    for state in &draft.states {
        for &reading in &state.readings {
            words.push((i32::from(reading) + READING_OFFSET) as u16);
        }
        words.extend([state.controller as u16, state.environment as u16]);
        let mut next = [0; NEXT_WORDS];
        for controller in 0..state.controller {
            for environment in 0..state.environment {
                next[controller * MOST_MOVES + environment] =
                    state.next[controller * state.environment + environment] as u16;
            }
        }
        words.extend(next);
    }
    words
}

/// The system that stands at the front of the words, or the refusal of their
/// layout.
fn laid_out(words: &[u16]) -> Result<Draft, Refusal> {
    let within = |word: u16, most: usize, refusal: Refusal| {
        let word = usize::from(word);
        (1..=most).contains(&word).then_some(word).ok_or(refusal)
    };
    let &[count, channels, ..] = words else {
        return Err(20);
    };
    let count = within(count, MOST_STATES, 18)?;
    let channels = within(channels, MOST_CHANNELS, 19)?;
    let row = channels + 2 + NEXT_WORDS;
    let rows = words.get(2..2 + count * row).ok_or(20)?;
    let mut states = Vec::new();
    for row in rows.chunks(row) {
        let reading = |&word: &u16| (i32::from(word) - READING_OFFSET) as i16;
        let controller = within(row[channels], MOST_MOVES, 21)?;
        let environment = within(row[channels + 1], MOST_MOVES, 21)?;
        let mut next = Vec::new();
        for own in 0..controller {
            for other in 0..environment {
                let state = usize::from(row[channels + 2 + own * MOST_MOVES + other]);
                next.push((state < count).then_some(state).ok_or(22)?);
            }
        }
        states.push(DraftState {
            readings: row[..channels].iter().map(reading).collect(),
            controller,
            environment,
            next,
        });
    }
    Ok(Draft { channels, states })
}

fn resting() -> Draft {
    let state = DraftState {
        readings: vec![0],
        controller: 1,
        environment: 1,
        next: vec![0],
    };
    Draft {
        channels: 1,
        states: vec![state],
    }
}

/// The system at the front of the words, or the resting system.
pub fn stored(words: &[u16]) -> Draft {
    laid_out(words).unwrap_or_else(|_| resting())
}

/// How many words and entries a call on an exchange is lent.
#[derive(Clone, Copy, Debug)]
pub struct Rooms {
    pub old_words: usize,
    pub new_words: usize,
    pub table: usize,
}

/// The systems of an exchange of two files, or why every call on it is
/// refused.
pub fn opening(exchange: &Exchange, rooms: Rooms) -> Result<(Draft, Draft), Failure> {
    let (Layer::File(old), Layer::File(new)) = (&exchange.old, &exchange.new) else {
        panic!("both sides have to be files");
    };
    if let Likeness::Within(tolerances) = exchange.likeness {
        mild(tolerances)?;
    }
    let (old, _) = read(old, 0, rooms.old_words).map_err(Failure::OldFile)?;
    let (new, _) = read(new, 0, rooms.new_words).map_err(Failure::NewFile)?;
    together(old, new, rooms.table)
}

/// The systems of an exchange of stored systems, or why every call on it is
/// refused.
pub fn opening_of_words(
    exchange: StoredExchange,
    entries: usize,
) -> Result<(Draft, Draft), Failure> {
    mild(exchange.tolerances)?;
    let old = laid_out(exchange.old_words).map_err(Failure::OldWords)?;
    let new = laid_out(exchange.new_words).map_err(Failure::NewWords)?;
    together(old, new, entries)
}

/// Refuses the first tolerance that is too wide.
fn mild(tolerances: [u16; 8]) -> Result<(), Failure> {
    for (channel, most) in tolerances.into_iter().enumerate() {
        if most > MOST_TOLERANCE {
            return Err(Failure::Tolerance(27, channel as u8));
        }
    }
    Ok(())
}

/// Both systems, if they and a table of so many entries serve together.
fn together(old: Draft, new: Draft, entries: usize) -> Result<(Draft, Draft), Failure> {
    if old.channels != new.channels {
        return Err(Failure::Refused(2));
    }
    if entries < old.states.len() * new.states.len() {
        return Err(Failure::Refused(4));
    }
    Ok((old, new))
}

fn buffer(capacity: usize) -> Draft {
    let states = (0..=capacity)
        .map(|held| {
            let wait = held;
            let take = (held + 1).min(capacity);
            let send = if held == 0 { 0 } else { held - 1 };
            DraftState {
                readings: vec![held as i16],
                controller: 3,
                environment: 2,
                next: vec![wait, wait, take, take, send, held],
            }
        })
        .collect();
    Draft {
        channels: 1,
        states,
    }
}

fn joint(first: &Draft, second: &Draft) -> Draft {
    let mut states = Vec::new();
    for u in &first.states {
        for v in &second.states {
            let mut next = Vec::new();
            for own in 0..u.controller * v.controller {
                for other in 0..u.environment * v.environment {
                    let u_place = own / v.controller * u.environment + other / v.environment;
                    let v_place = own % v.controller * v.environment + other % v.environment;
                    next.push(u.next[u_place] * second.states.len() + v.next[v_place]);
                }
            }
            states.push(DraftState {
                readings: [u.readings.as_slice(), &v.readings].concat(),
                controller: u.controller * v.controller,
                environment: u.environment * v.environment,
                next,
            });
        }
    }
    Draft {
        channels: first.channels + second.channels,
        states,
    }
}

fn coded(below: &Draft, codes: &Codes) -> Draft {
    let mut draft = below.clone();
    let channel = usize::from(codes.channel);
    if channel < draft.channels {
        for state in &mut draft.states {
            let reading = &mut state.readings[channel];
            for &(from, to) in &codes.entries {
                if *reading == from {
                    *reading = to;
                    break;
                }
            }
            if *reading >= codes.cut {
                *reading = 0;
            }
        }
    }
    draft
}

/// The refusal of a code list that has no room for its entries.
pub fn codes_fault(exchange: &Exchange) -> Option<Refusal> {
    fn has_too_many_codes(layer: &Layer) -> bool {
        match layer {
            Layer::File(_) | Layer::Buffer(_) => false,
            Layer::Joint(first, second) => has_too_many_codes(first) || has_too_many_codes(second),
            Layer::Coded(below, codes) => {
                codes.entries.len() > MOST_CODES || has_too_many_codes(below)
            }
        }
    }
    let sides = [&exchange.old, &exchange.new];
    sides.into_iter().any(has_too_many_codes).then_some(26)
}

fn has_too_many_moves(state: &DraftState) -> bool {
    state.controller > MOST_MOVES || state.environment > MOST_MOVES
}

/// Writes the system into so much room.
pub fn write(draft: &Draft, room: usize) -> Result<Vec<u8>, Refusal> {
    if draft.states.len() > MOST_STATES {
        return Err(18);
    }
    if draft.channels > MOST_CHANNELS {
        return Err(19);
    }
    let mut states = draft.states.iter();
    if states.any(has_too_many_moves) {
        return Err(21);
    }
    let bytes = draft.file();
    if bytes.len() > room {
        return Err(23);
    }
    Ok(bytes)
}

/// The system that a layer of whole files means. It has to be small enough
/// that no bound is reached.
pub fn draft(layer: &Layer) -> Draft {
    match layer {
        Layer::File(bytes) => read(bytes, 0, usize::MAX).expect("the file is whole").0,
        &Layer::Buffer(capacity) => buffer(capacity.into()),
        Layer::Joint(first, second) => joint(&draft(first), &draft(second)),
        Layer::Coded(below, codes) => coded(&draft(below), codes),
    }
}

fn sea_class(height: i16) -> usize {
    match height {
        ..=0 => 0,
        1..=10 => 1,
        11..=50 => 2,
        51..=125 => 3,
        126..=250 => 4,
        251..=400 => 5,
        401..=600 => 6,
        601..=900 => 7,
        901..=1_400 => 8,
        _ => 9,
    }
}

fn alike(likeness: &Likeness, channel: usize, old: i16, new: i16) -> bool {
    match likeness {
        Likeness::Exact => old == new,
        Likeness::Within(tolerances) => {
            let apart = (i32::from(old) - i32::from(new)).abs();
            apart <= tolerances.get(channel).map_or(0, |&most| i32::from(most))
        }
        &Likeness::SeaState(named) if usize::from(named) == channel => {
            sea_class(old) == sea_class(new)
        }
        Likeness::SeaState(_) => old == new,
    }
}

/// Pairs of an old and a new state.
pub type Relation = BTreeSet<(usize, usize)>;

/// An exchange of two whole systems.
pub struct Game {
    old: Draft,
    new: Draft,
    likeness: Likeness,
}

impl Game {
    pub fn new(exchange: &Exchange) -> Self {
        Self::of(
            draft(&exchange.old),
            draft(&exchange.new),
            exchange.likeness.clone(),
        )
    }

    pub fn of(old: Draft, new: Draft, likeness: Likeness) -> Self {
        Game { old, new, likeness }
    }

    /// The numbers of old and of new states.
    pub fn states(&self) -> (usize, usize) {
        (self.old.states.len(), self.new.states.len())
    }

    pub fn pairs(&self) -> usize {
        self.old.states.len() * self.new.states.len()
    }

    fn all_pairs(&self) -> impl Iterator<Item = (usize, usize)> + use<> {
        let (old, new) = (self.old.states.len(), self.new.states.len());
        (0..old).flat_map(move |w| (0..new).map(move |v| (w, v)))
    }

    fn place(&self, (w, v): (usize, usize)) -> usize {
        w * self.new.states.len() + v
    }

    /// The refusal of an opening, with a table that is long enough.
    pub fn refused(&self) -> Option<Refusal> {
        let sides = [&self.old, &self.new];
        if sides.iter().any(|side| side.states.len() > MOST_STATES) {
            return Some(1);
        }
        if self.old.channels != self.new.channels || self.old.channels > MOST_CHANNELS {
            return Some(2);
        }
        let mut states = sides.iter().flat_map(|side| &side.states);
        if states.any(has_too_many_moves) {
            return Some(3);
        }
        None
    }

    fn alike(&self, (w, v): (usize, usize)) -> bool {
        let old = &self.old.states[w].readings;
        let new = &self.new.states[v].readings;
        (0..self.old.channels)
            .all(|channel| alike(&self.likeness, channel, old[channel], new[channel]))
    }

    /// Has the new controller a reply to the move that keeps to the pairs for
    /// which `kept` holds?
    fn answered(
        &self,
        (w, v): (usize, usize),
        own: usize,
        kept: &dyn Fn((usize, usize)) -> bool,
    ) -> bool {
        let (old, new) = (&self.old.states[w], &self.new.states[v]);
        (0..new.controller).any(|reply| {
            (0..new.environment).all(|new_answer| {
                (0..old.environment).any(|old_answer| {
                    kept((
                        old.next[own * old.environment + old_answer],
                        new.next[reply * new.environment + new_answer],
                    ))
                })
            })
        })
    }

    /// The largest alternating simulation: all pairs that are alike, less
    /// those that the new controller cannot keep up, until it keeps up all.
    pub fn largest(&self) -> Relation {
        let mut relation: Relation = self.all_pairs().filter(|&pair| self.alike(pair)).collect();
        loop {
            let kept_up: Relation = relation
                .iter()
                .copied()
                .filter(|&(w, v)| {
                    (0..self.old.states[w].controller)
                        .all(|own| self.answered((w, v), own, &|pair| relation.contains(&pair)))
                })
                .collect();
            if kept_up == relation {
                return relation;
            }
            relation = kept_up;
        }
    }

    /// The first move that refutes the pair while the entries for which
    /// `struck` holds are those of struck pairs.
    fn refuting(
        &self,
        table: &[u32],
        pair: (usize, usize),
        struck: &dyn Fn(u32) -> bool,
    ) -> Option<usize> {
        (0..self.old.states[pair.0].controller)
            .find(|&own| !self.answered(pair, own, &|other| !struck(table[self.place(other)])))
    }

    /// The ranks, round by round.
    pub fn ranks(&self) -> Vec<u32> {
        let rank_of_sight = |pair| u32::from(!self.alike(pair));
        let mut table: Vec<u32> = self.all_pairs().map(rank_of_sight).collect();
        for k in 2.. {
            let struck = |entry| (1..k).contains(&entry);
            let added: Vec<_> = self
                .all_pairs()
                .filter(|&pair| table[self.place(pair)] == 0)
                .filter(|&pair| self.refuting(&table, pair, &struck).is_some())
                .collect();
            if added.is_empty() {
                break;
            }
            for pair in added {
                table[self.place(pair)] = k;
            }
        }
        table
    }

    /// Does the table solve the rank rule?
    pub fn solves_rank_rule(&self, table: &[u32]) -> bool {
        let highest = table[..self.pairs()].iter().copied().max().unwrap_or(0);
        self.all_pairs().all(|pair| {
            let wanted = if self.alike(pair) {
                // Above the highest entry the struck pairs no longer change.
                (2..=highest.saturating_add(1).max(2))
                    .find(|&k| {
                        let struck = |entry| (1..k).contains(&entry);
                        self.refuting(table, pair, &struck).is_some()
                    })
                    .unwrap_or(0)
            } else {
                1
            };
            table[self.place(pair)] == wanted
        })
    }

    fn loose(&self, table: &[u32], pair: (usize, usize)) -> Option<Cause> {
        if !self.alike(pair) {
            return Some(Cause::Sight);
        }
        self.refuting(table, pair, &|entry| entry > 0)
            .map(|own| Cause::Move(own as u16))
    }

    pub fn check(&self, table: &[u32]) -> Result<Accepted, Failure> {
        for pair in self.all_pairs() {
            let entry = table[self.place(pair)];
            if entry == 0 {
                if self.loose(table, pair).is_some() {
                    return Err(Failure::OutOfOrder(14, named(pair)));
                }
            } else {
                let struck = |other: u32| other > 0 && other < entry;
                if self.alike(pair) && self.refuting(table, pair, &struck).is_none() {
                    return Err(Failure::OutOfOrder(13, named(pair)));
                }
            }
        }
        let pairs = &table[..self.pairs()];
        Ok(Accepted {
            standing: pairs.iter().filter(|&&entry| entry == 0).count() as u32,
            replaces: pairs[0] == 0,
        })
    }

    fn strike(&self, table: &[u32], proposal: &Proposal) -> Result<(), Refusal> {
        let pair = (
            usize::from(proposal.pair.old),
            usize::from(proposal.pair.new),
        );
        let (old, new) = self.states();
        if pair.0 >= old || pair.1 >= new {
            return Err(7);
        }
        if table[self.place(pair)] != 0 {
            return Err(8);
        }
        match proposal.cause {
            Cause::Sight if self.alike(pair) => Err(10),
            Cause::Sight => Ok(()),
            Cause::Move(own) if usize::from(own) >= self.old.states[pair.0].controller => Err(9),
            Cause::Move(own) => {
                let kept = |other| table[self.place(other)] == 0;
                if self.answered(pair, own.into(), &kept) {
                    Err(11)
                } else {
                    Ok(())
                }
            }
        }
    }

    /// Makes a call, from where the calls before it left the docket's count,
    /// which a closed docket has not, and the table.
    pub fn call(&self, count: &mut Option<u32>, table: &mut [u32], call: &Call) -> Answer {
        if *call == Call::Open {
            if let Some(refusal) = self.refused() {
                return Answer::Refused(refusal);
            }
            if table.len() < self.pairs() {
                return Answer::Refused(4);
            }
            table[..self.pairs()].fill(0);
            *count = Some(0);
            return Answer::Opened(self.pairs() as u32);
        }
        let Some(count) = count else {
            return Answer::Refused(5);
        };
        match call {
            Call::Open => unreachable!("an opening was answered above"),
            Call::Strike(proposal) => match self.strike(table, proposal) {
                Ok(()) => {
                    let pair = (proposal.pair.old.into(), proposal.pair.new.into());
                    *count += 1;
                    table[self.place(pair)] = *count;
                    Answer::Struck(*count)
                }
                Err(refusal) => Answer::Refused(refusal),
            },
            &Call::Sweep(budget) => {
                let mut made = 0;
                for pair in self.all_pairs() {
                    let place = self.place(pair);
                    if made < budget && table[place] == 0 && self.loose(table, pair).is_some() {
                        *count += 1;
                        table[place] = *count;
                        made += 1;
                    }
                }
                Answer::Swept(made)
            }
            Call::Settle => {
                let mut standing = 0;
                for pair in self.all_pairs() {
                    if table[self.place(pair)] == 0 {
                        if let Some(cause) = self.loose(table, pair) {
                            return Answer::Loose(named(pair), cause);
                        }
                        standing += 1;
                    }
                }
                Answer::Settled(standing)
            }
        }
    }

    /// The decision, and the table that it leaves. The exchange has to be one
    /// that is not refused.
    pub fn decide(&self, proposals: &[Proposal]) -> (Decision, Vec<u32>) {
        let mut count = None;
        let mut table = vec![0; self.pairs()];
        self.call(&mut count, &mut table, &Call::Open);
        let mut answers = Vec::new();
        for &proposal in proposals {
            let answer = self.call(&mut count, &mut table, &Call::Strike(proposal));
            answers.push(match answer {
                Answer::Struck(entry) => Ok(entry),
                Answer::Refused(refusal) => Err(refusal),
                other => unreachable!("a strike is not answered {other:?}"),
            });
        }
        let mut swept = 0;
        while let Answer::Swept(made) = self.call(&mut count, &mut table, &Call::Sweep(u16::MAX)) {
            if made == 0 {
                break;
            }
            swept += u32::from(made);
        }
        let decision = Decision {
            answers,
            swept,
            standing: table.iter().filter(|&&entry| entry == 0).count() as u32,
            replaces: table[0] == 0,
        };
        (decision, table)
    }
}

fn named((old, new): (usize, usize)) -> Pair {
    Pair {
        old: old as u16,
        new: new as u16,
    }
}
