//! Answers by number.

/// Why a line is refused. The discriminant is the number printed.
#[derive(Clone, Copy, Debug, PartialEq, Eq)]
#[repr(u8)]
pub enum Refusal {
    IllFormed = 1,
    CodeInTable = 2,
    TableFull = 3,
    PartyUnknown = 4,
    NotABank = 5,
    OutOfRange = 6,
    SenderIsReceiver = 7,
    OverTheTop = 8,
    BankBelowLtk = 9,
    BankLpo = 10,
    BranchLtk = 11,
    BranchLpo = 12,
    DayNotLater = 13,
    IdInBook = 14,
    NoHeadBank = 15,
    IdMalformed = 16,
    DayWrong = 17,
    MomentNotLater = 18,
    TypeUnknown = 19,
    NotABranchOfSender = 20,
    NoIdFound = 21,
    BookFull = 22,
    Blocked = 25,
    BankMarked = 26,
}

/// Accepted, or the first check that failed.
pub type Answer = Result<(), Refusal>;

/// Block of an id which no account has.
pub const BLOCK_ID_UNKNOWN: u8 = 23;
/// Block of an account the sender may not ask for.
pub const BLOCK_NO_RIGHT: u8 = 24;

/// The number that stands for an answer.
pub fn number(answer: Answer) -> u8 {
    match answer {
        Ok(()) => 0,
        Err(refusal) => refusal as u8,
    }
}

/// Refuses unless the condition holds.
pub fn require(condition: bool, refusal: Refusal) -> Answer {
    if condition {
        Ok(())
    } else {
        Err(refusal)
    }
}
