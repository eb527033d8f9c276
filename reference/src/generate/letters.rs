//! Frames of letters and of the mark, and payments that meet them.

use super::scenario::Scenario;
use crate::write::{self, A, B, CREDIT, DEBIT, N, R, S};

impl Scenario {
    /// Letters for an account, or the end of those that stand.
    pub fn letters(&mut self) -> Vec<u8> {
        let blocked = self.account(|account| !account.letters.is_empty());
        let party = self.party();
        let cleared = self.cleared;
        if self.random.percent(cleared) {
            return write::letters(blocked.unwrap_or(party), 0);
        }
        let bits = self.bits();
        match blocked {
            Some(code) if self.random.percent(25) => write::letters(code, bits),
            _ => write::letters(party, bits),
        }
    }

    /// Mostly one letter.
    fn bits(&mut self) -> u8 {
        match self.random.below(10) {
            0 => A | B | N | S | R,
            1..4 => self.random.below(32) as u8,
            _ => self.letter(),
        }
    }

    pub fn letter(&mut self) -> u8 {
        self.random.pick(&[A, B, N, N, S, R])
    }

    /// The mark for a bank, often for the one that has it.
    pub fn mark(&mut self) -> Vec<u8> {
        match (self.marked(), self.random.below(10)) {
            (Some(code), 0..4) => write::mark(code),
            (_, 4) => write::mark(self.party()),
            _ => write::mark(self.bank_code()),
        }
    }

    /// Code of the bank that is marked.
    fn marked(&self) -> Option<u32> {
        self.ledger.central_bank().map(|bank| bank.code)
    }

    /// A letter on an account, payments that it may stop, and mostly its end.
    pub fn blocking(&mut self) {
        let code = if self.random.percent(50) {
            self.head_bank()
        } else {
            self.party()
        };
        let letter = self.letter();
        self.put(&write::letters(code, letter));
        for _ in 0..2 + self.random.below(6) {
            let frame = self.payment_beside(code);
            self.put(&frame);
        }
        if self.random.percent(90) {
            self.put(&write::letters(code, 0));
        }
    }

    /// A small payment to or from the account or one of its branches, the
    /// other party often the marked bank or one of its branches.
    fn payment_beside(&mut self, code: u32) -> Vec<u8> {
        let one = self.in_group(code);
        let other = match self.marked() {
            Some(marked) if self.random.percent(50) => self.in_group(marked),
            _ => self.party(),
        };
        let transfer = self.random.pick(&[CREDIT, DEBIT]);
        let amount = self.random.between(1, 100);
        if self.random.percent(50) {
            write::payment(transfer, one, other, amount)
        } else {
            write::payment(transfer, other, one, amount)
        }
    }

    /// The account itself, or as often one of its branches.
    pub fn in_group(&mut self, code: u32) -> u32 {
        match self.branches_of(code)[..] {
            ref branches @ [_, ..] if self.random.percent(50) => self.random.pick(branches),
            _ => code,
        }
    }
}
