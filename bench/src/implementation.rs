//! The calls of an implementation, so that several can be compared and timed
//! beside each other. Adding one is one file with an `impl Implementation`, and
//! its name in `main`. One that does not offer every call says which.

/// One side of an exchange, over the files that it is made from.
#[derive(Clone, Debug)]
pub enum Layer {
    File(Vec<u8>),
    Buffer(u8),
    Joint(Box<Layer>, Box<Layer>),
    Coded(Box<Layer>, Codes),
}

impl Layer {
    pub fn joint(first: Layer, second: Layer) -> Layer {
        Layer::Joint(Box::new(first), Box::new(second))
    }

    pub fn coded(below: Layer, codes: Codes) -> Layer {
        Layer::Coded(Box::new(below), codes)
    }
}

/// A code list on a channel: entries (from, to), and a cut. Calls refuse more
/// than eight entries.
#[derive(Clone, Debug, PartialEq, Eq)]
pub struct Codes {
    pub channel: u8,
    pub cut: i16,
    pub entries: Vec<(i16, i16)>,
}

#[derive(Clone, Debug)]
pub enum Likeness {
    Exact,
    /// The tolerances of the channels from 0 on.
    Within([u16; 8]),
    /// The channel whose heights are compared by class.
    SeaState(u8),
}

#[derive(Clone, Debug)]
pub struct Exchange {
    pub old: Layer,
    pub new: Layer,
    pub likeness: Likeness,
}

/// Words that hold an old system and a new one, and the tolerances of the
/// channels from 0 on.
#[derive(Clone, Copy, Debug)]
pub struct StoredExchange<'a> {
    pub old_words: &'a [u16],
    pub new_words: &'a [u16],
    pub tolerances: [u16; 8],
}

/// The memory that a call is lent.
pub struct Memory<'a> {
    /// Holds the systems of the old side's files, one behind the other.
    pub old_words: &'a mut [u16],
    /// Holds those of the new side.
    pub new_words: &'a mut [u16],
    pub table: &'a mut [u32],
}

/// The number of a refusal.
pub type Refusal = u8;

#[derive(Clone, Copy, Debug, PartialEq, Eq)]
pub struct Pair {
    pub old: u16,
    pub new: u16,
}

#[derive(Clone, Copy, Debug, PartialEq, Eq)]
pub enum Cause {
    Sight,
    Move(u16),
}

#[derive(Clone, Copy, Debug, PartialEq, Eq)]
pub struct Proposal {
    pub pair: Pair,
    pub cause: Cause,
}

/// A call on a docket.
#[derive(Clone, Copy, Debug, PartialEq, Eq)]
pub enum Call {
    Open,
    Strike(Proposal),
    /// A sweep with its budget.
    Sweep(u16),
    Settle,
}

#[derive(Clone, Copy, Debug, PartialEq, Eq)]
pub enum Answer {
    /// The number of pairs.
    Opened(u32),
    /// The entry of the pair.
    Struck(u32),
    /// How many strikes the sweep made.
    Swept(u16),
    /// How many pairs stand.
    Settled(u32),
    /// The first loose pair, and the cause to strike it.
    Loose(Pair, Cause),
    Refused(Refusal),
}

/// What a file was read to.
#[derive(Clone, Copy, Debug, PartialEq, Eq)]
pub struct Read {
    /// How many words the system takes.
    pub words: usize,
    /// The byte place behind the file.
    pub end: usize,
}

#[derive(Clone, Copy, Debug, PartialEq, Eq)]
pub struct ReadFault {
    pub refusal: Refusal,
    pub place: usize,
    pub state: u16,
}

#[derive(Clone, Debug, PartialEq, Eq)]
pub struct Decision {
    pub answers: Vec<Result<u32, Refusal>>,
    pub swept: u32,
    pub standing: u32,
    pub replaces: bool,
}

#[derive(Clone, Copy, Debug, PartialEq, Eq)]
pub struct Accepted {
    pub standing: u32,
    pub replaces: bool,
}

/// Why a call on an exchange gives no result.
#[derive(Clone, Copy, Debug, PartialEq, Eq)]
pub enum Failure {
    /// A code list has no room for its entries.
    Codes(Refusal),
    /// The first channel whose tolerance is refused.
    Tolerance(Refusal, u8),
    OldFile(ReadFault),
    NewFile(ReadFault),
    /// The words of the old system do not have the layout.
    OldWords(Refusal),
    NewWords(Refusal),
    /// The two systems do not go together, or the table does not serve.
    Refused(Refusal),
    /// The first pair of a certificate that is out of order.
    OutOfOrder(Refusal, Pair),
}

/// Calls that do not belong to every implementation.
#[derive(Clone, Copy, Debug, PartialEq, Eq)]
pub enum Extra {
    /// Strikes that are proposed to a decision.
    Proposals,
    /// Calls on a docket, one by one.
    Runs,
}

/// Where both sides of an exchange are files, a decision or ranking that is
/// refused leaves all memory as it was. Words behind the systems and entries
/// behind the pairs are never touched. A check lays out the files first.
pub trait Implementation {
    fn name(&self) -> &str;

    /// Whether the systems of such layers can be written.
    fn offers_writing(&self, layer: &Layer) -> bool;

    /// Whether such an exchange can be decided, checked and ranked.
    fn offers_exchange(&self, exchange: &Exchange) -> bool;

    fn offers(&self, extra: Extra) -> bool;

    /// Reads the file at a byte place into the words from a word place on.
    fn read(
        &self,
        bytes: &[u8],
        place: usize,
        words: &mut [u16],
        word_place: usize,
    ) -> Result<Read, ReadFault>;

    /// Writes the file of the system at the front of the words, the resting
    /// system where they have no layout; tells how many bytes it takes.
    fn write_stored(&self, words: &[u16], bytes: &mut [u8]) -> Result<usize, Refusal>;

    /// Reads the layer's files, which have to be whole and to fit, into the
    /// words, and writes the file of the layer's system; tells how many bytes
    /// it takes.
    fn write(&self, layer: &Layer, words: &mut [u16], bytes: &mut [u8]) -> Result<usize, Refusal>;

    fn decide(
        &self,
        exchange: &Exchange,
        proposals: &[Proposal],
        memory: &mut Memory,
    ) -> Result<Decision, Failure>;

    /// Makes the calls on a docket that is closed at first and on the table as
    /// it is.
    fn run(
        &self,
        exchange: &Exchange,
        calls: &[Call],
        memory: &mut Memory,
    ) -> Result<Vec<Answer>, Failure>;

    /// Checks the table as a certificate.
    fn check(&self, exchange: &Exchange, memory: &mut Memory) -> Result<Accepted, Failure>;

    /// Writes the ranks into the table; tells the highest.
    fn rank(&self, exchange: &Exchange, memory: &mut Memory) -> Result<u32, Failure>;

    /// Decides an exchange of stored systems. A call that is refused leaves the
    /// table as it was.
    fn decide_words(
        &self,
        exchange: StoredExchange,
        table: &mut [u32],
    ) -> Result<Decision, Failure>;

    fn check_words(&self, exchange: StoredExchange, table: &[u32]) -> Result<Accepted, Failure>;

    fn rank_words(&self, exchange: StoredExchange, table: &mut [u32]) -> Result<u32, Failure>;
}
