//! The letters that block an account.

use crate::command::Transfer;

/// In the order of their bits, in which reports show them too.
#[derive(Clone, Copy, Debug, PartialEq, Eq, PartialOrd, Ord)]
pub enum Letter {
    /// No payment sent.
    A,
    /// No payment received.
    B,
    /// As B, except from the marked central bank and its branches.
    N,
    /// No credit sent.
    S,
    /// As A.
    R,
}

impl Letter {
    pub const ALL: [Letter; 5] = [Letter::A, Letter::B, Letter::N, Letter::S, Letter::R];

    fn bit(self) -> u8 {
        1 << self as u8
    }

    pub fn character(self) -> u8 {
        match self {
            Letter::A => b'A',
            Letter::B => b'B',
            Letter::N => b'N',
            Letter::S => b'S',
            Letter::R => b'R',
        }
    }
}

/// The letters that are set, a bit each.
#[derive(Clone, Copy, Debug, Default, PartialEq, Eq)]
pub struct Letters {
    bits: u8,
}

impl Letters {
    /// Bits 0 to 4 are letters; no higher bit may be set.
    pub fn from_byte(bits: u8) -> Option<Letters> {
        (bits < 1 << Letter::ALL.len()).then_some(Letters { bits })
    }

    pub fn has(self, letter: Letter) -> bool {
        self.bits & letter.bit() != 0
    }

    pub fn is_empty(self) -> bool {
        self.bits == 0
    }

    pub fn count(self) -> u8 {
        self.bits.count_ones() as u8
    }

    pub fn iter(self) -> impl Iterator<Item = Letter> {
        let letters = Letter::ALL.into_iter();
        letters.filter(move |&letter| self.has(letter))
    }

    /// These and the others.
    pub fn with(self, others: Letters) -> Letters {
        let bits = self.bits | others.bits;
        Letters { bits }
    }

    /// Whether they block a payment that is sent.
    pub fn block_sending(self, transfer: Transfer) -> bool {
        let is_credit = transfer == Transfer::Credit;
        self.has(Letter::A) || self.has(Letter::R) || is_credit && self.has(Letter::S)
    }

    /// Whether they block a payment that is received.
    pub fn block_receiving(self, is_from_central: bool) -> bool {
        self.has(Letter::B) || self.has(Letter::N) && !is_from_central
    }
}
