//! The numbered reasons for which a call is refused.

/// Why a call is refused; the discriminants are the numbers of `REFUSALS`.
#[derive(Clone, Copy, Debug, PartialEq, Eq)]
#[repr(u8)]
pub enum Refusal {
    TooManyStates = 1,
    ChannelsDiffer = 2,
    TooManyMoves = 3,
    TableTooShort = 4,
    DocketClosed = 5,
    OtherSizes = 6,
    NoSuchPair = 7,
    StruckAlready = 8,
    NoSuchMove = 9,
    PairAlike = 10,
    MoveDoesNotRefute = 11,
    AllStrikesGranted = 12,
    StruckOutOfOrder = 13,
    StandingOutOfOrder = 14,
    EndsInsideNumber = 15,
    NumberTooLong = 16,
    NumberTooLarge = 17,
    BadStates = 18,
    BadChannels = 19,
    MemoryTooShort = 20,
    BadMoves = 21,
    BadNextState = 22,
    TooFewBytes = 23,
    CodeListFull = 26,
    ToleranceTooLarge = 27,
}

impl Refusal {
    pub fn number(self) -> u8 {
        self as u8
    }
}
