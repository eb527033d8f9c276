//! Payments beside which one letter stands alone, so that nothing else can
//! have blocked them.

use std::fmt;

use crate::account::Account;
use crate::ledger::Ledger;
use crate::letters::{Letter, Letters};

/// On whom the letter stands.
#[derive(Clone, Copy, Debug, PartialEq, Eq, PartialOrd, Ord)]
pub enum Holder {
    Sender,
    SendersBank,
    Receiver,
    ReceiversBank,
}

/// Who sends, as far as N on the receiver's side goes by it.
#[derive(Clone, Copy, Debug, PartialEq, Eq, PartialOrd, Ord)]
pub enum Origin {
    NoneMarked,
    Stranger,
    MarkedBank,
    BranchOfMarked,
}

#[derive(Clone, Copy, Debug, PartialEq, Eq, PartialOrd, Ord)]
pub struct Case {
    pub letter: Letter,
    pub holder: Holder,
    /// Told where the letter is N on the receiver's side.
    pub origin: Option<Origin>,
}

impl Case {
    pub fn all() -> Vec<Case> {
        let holders = [
            Holder::Sender,
            Holder::SendersBank,
            Holder::Receiver,
            Holder::ReceiversBank,
        ];
        let origins = [
            Origin::NoneMarked,
            Origin::Stranger,
            Origin::MarkedBank,
            Origin::BranchOfMarked,
        ];
        let mut cases = Vec::new();
        for letter in Letter::ALL {
            for holder in holders {
                let all = origins.map(|origin| Case::new(letter, holder, origin));
                cases.extend(all);
            }
        }
        // Those without an origin came four times.
        cases.dedup();
        cases
    }

    fn new(letter: Letter, holder: Holder, origin: Origin) -> Case {
        let is_received = matches!(holder, Holder::Receiver | Holder::ReceiversBank);
        let is_told = letter == Letter::N && is_received;
        Case {
            letter,
            holder,
            origin: is_told.then_some(origin),
        }
    }

    /// The case of a payment between two parties; nothing if a party is
    /// unknown or not one letter alone stands.
    pub fn of(ledger: &Ledger, sender: u32, receiver: u32) -> Option<Case> {
        let sender = ledger.account(sender)?;
        let receiver = ledger.account(receiver)?;
        let holders = [
            (Holder::Sender, Some(sender)),
            (Holder::SendersBank, ledger.owner_of(sender)),
            (Holder::Receiver, Some(receiver)),
            (Holder::ReceiversBank, ledger.owner_of(receiver)),
        ];
        let mut standing = Vec::new();
        for (holder, account) in holders {
            let letters = account.map_or(Letters::default(), |account| account.letters);
            standing.extend(letters.iter().map(|letter| (letter, holder)));
        }
        let [(letter, holder)] = standing[..] else {
            return None;
        };
        Some(Case::new(letter, holder, origin_of(ledger, sender)))
    }
}

fn origin_of(ledger: &Ledger, sender: &Account) -> Origin {
    let is_marked = |account: &Account| {
        let marked = ledger.central_bank();
        marked.is_some_and(|bank| bank.code == account.code)
    };
    if ledger.central_bank().is_none() {
        Origin::NoneMarked
    } else if is_marked(sender) {
        Origin::MarkedBank
    } else if ledger.owner_of(sender).is_some_and(is_marked) {
        Origin::BranchOfMarked
    } else {
        Origin::Stranger
    }
}

impl fmt::Display for Case {
    fn fmt(&self, out: &mut fmt::Formatter) -> fmt::Result {
        let holder = match self.holder {
            Holder::Sender => "sender",
            Holder::SendersBank => "sender's bank",
            Holder::Receiver => "receiver",
            Holder::ReceiversBank => "receiver's bank",
        };
        let origin = match self.origin {
            None => "",
            Some(Origin::NoneMarked) => ", no bank marked",
            Some(Origin::Stranger) => ", from a stranger",
            Some(Origin::MarkedBank) => ", from the marked bank",
            Some(Origin::BranchOfMarked) => ", from a branch of the marked bank",
        };
        write!(out, "{:?} on the {holder}{origin}", self.letter)
    }
}
