//! Payments inside one group and out of it, by what the limits of the payer's
//! bank say of them, whether or not they are asked.

use std::fmt;

use crate::account::{Account, TOP_VALUE};
use crate::command::{Command, Transfer};
use crate::ledger::Ledger;

/// From the sender to the receiver, whoever pays.
#[derive(Clone, Copy, Debug, PartialEq, Eq, PartialOrd, Ord)]
pub enum Way {
    BranchToSister,
    BranchToItsBank,
    BankToItsBranch,
    BankToBank,
    BankToStranger,
    BranchToOtherBank,
    BranchToStranger,
}

impl Way {
    const ALL: [Way; 7] = [
        Way::BranchToSister,
        Way::BranchToItsBank,
        Way::BankToItsBranch,
        Way::BankToBank,
        Way::BankToStranger,
        Way::BranchToOtherBank,
        Way::BranchToStranger,
    ];

    fn between(ledger: &Ledger, sender: &Account, receiver: &Account) -> Way {
        let is_inside = bank_of(ledger, sender).code == bank_of(ledger, receiver).code;
        match (sender.is_bank(), receiver.is_bank()) {
            (false, false) if is_inside => Way::BranchToSister,
            (false, true) if is_inside => Way::BranchToItsBank,
            (true, false) if is_inside => Way::BankToItsBranch,
            (true, true) => Way::BankToBank,
            (true, false) => Way::BankToStranger,
            (false, true) => Way::BranchToOtherBank,
            (false, false) => Way::BranchToStranger,
        }
    }

    /// Whether the two share one bank.
    pub fn is_inside(self) -> bool {
        matches!(
            self,
            Way::BranchToSister | Way::BranchToItsBank | Way::BankToItsBranch
        )
    }
}

/// What the limits of the payer's bank say.
#[derive(Clone, Copy, Debug, PartialEq, Eq, PartialOrd, Ord)]
pub enum Verdict {
    Passes,
    /// The bank has less than the amount.
    BelowZero,
    BelowLtk,
    /// Of a credit alone.
    OverLpo,
}

impl Verdict {
    fn of(bank: &Account, transfer: Transfer, amount: i64) -> Verdict {
        if bank.state() < amount {
            Verdict::BelowZero
        } else if !bank.may_fall_by(amount) {
            Verdict::BelowLtk
        } else if transfer == Transfer::Credit && !bank.may_send_credit(amount) {
            Verdict::OverLpo
        } else {
            Verdict::Passes
        }
    }
}

#[derive(Clone, Copy, Debug, PartialEq, Eq, PartialOrd, Ord)]
pub struct Case {
    pub way: Way,
    pub transfer: Transfer,
    pub verdict: Verdict,
}

impl Case {
    pub fn all() -> Vec<Case> {
        let each = [
            (Transfer::Credit, Verdict::Passes),
            (Transfer::Credit, Verdict::BelowZero),
            (Transfer::Credit, Verdict::BelowLtk),
            (Transfer::Credit, Verdict::OverLpo),
            (Transfer::Debit, Verdict::Passes),
            (Transfer::Debit, Verdict::BelowZero),
            (Transfer::Debit, Verdict::BelowLtk),
        ];
        let of_way = |way| {
            each.map(|(transfer, verdict)| Case {
                way,
                transfer,
                verdict,
            })
        };
        Way::ALL.into_iter().flat_map(of_way).collect()
    }

    /// The case of a payment as the ledger stands when it comes; nothing of
    /// any other command, or if a check before the letters refuses it.
    pub fn of(ledger: &Ledger, command: &Command) -> Option<Case> {
        let Command::Payment {
            transfer,
            sender,
            receiver,
            amount,
        } = *command
        else {
            return None;
        };
        let is_amount = (1..=TOP_VALUE).contains(&amount);
        if sender == receiver || !is_amount {
            return None;
        }
        let sender = ledger.account(sender)?;
        let receiver = ledger.account(receiver)?;
        let payer = match transfer {
            Transfer::Credit => sender,
            Transfer::Debit => receiver,
        };
        Some(Case {
            way: Way::between(ledger, sender, receiver),
            transfer,
            verdict: Verdict::of(bank_of(ledger, payer), transfer, amount),
        })
    }

    /// The answers that lists must reach: inside all but 9 and 10 that such a
    /// payment may get, outside those that the bank's limits make.
    pub fn numbers(self) -> &'static [usize] {
        use Transfer::{Credit, Debit};
        match (self.way, self.transfer) {
            (Way::BranchToSister | Way::BranchToItsBank, Credit) => &[0, 8, 11, 12, 25],
            (Way::BranchToSister | Way::BankToItsBranch, Debit) => &[0, 8, 11, 25],
            (Way::BankToItsBranch, Credit) | (Way::BranchToItsBank, Debit) => &[0, 8, 25],
            _ => match self.verdict {
                Verdict::Passes => &[0],
                Verdict::BelowZero | Verdict::BelowLtk => &[9],
                Verdict::OverLpo => &[10],
            },
        }
    }
}

/// The bank behind an account.
fn bank_of<'a>(ledger: &'a Ledger, account: &'a Account) -> &'a Account {
    ledger.owner_of(account).unwrap_or(account)
}

impl fmt::Display for Case {
    fn fmt(&self, out: &mut fmt::Formatter) -> fmt::Result {
        let way = match self.way {
            Way::BranchToSister => "branch to its sister",
            Way::BranchToItsBank => "branch to its bank",
            Way::BankToItsBranch => "bank to its branch",
            Way::BankToBank => "bank to another bank",
            Way::BankToStranger => "bank to another's branch",
            Way::BranchToOtherBank => "branch to another bank",
            Way::BranchToStranger => "branch to another's branch",
        };
        let transfer = match self.transfer {
            Transfer::Credit => "credit",
            Transfer::Debit => "debit",
        };
        let verdict = match self.verdict {
            Verdict::Passes => "within the bank's limits",
            Verdict::BelowZero => "bank below 0",
            Verdict::BelowLtk => "bank below LTK",
            Verdict::OverLpo => "over the bank's LPO",
        };
        write!(out, "{way}, {transfer}, {verdict}")
    }
}
