//! Payments inside one group while the limits of its bank let little out.

use super::scenario::Scenario;
use crate::account::{ICDT, TOP_VALUE};
use crate::write::{self, CREDIT, DEBIT};

impl Scenario {
    /// Tight limits or an empty account of a bank, payments inside its group
    /// and some out of it, and mostly the end of the limits.
    pub fn tight_group(&mut self) {
        let bank = self.head_bank();
        let frame = self.tightening(bank);
        self.put(&frame);
        let blocked = self.random.percent(15).then(|| self.in_group(bank));
        if let Some(code) = blocked {
            let letter = self.letter();
            self.put(&write::letters(code, letter));
        }
        for _ in 0..4 + self.random.below(8) {
            let frame = self.payment_in_group(bank);
            self.put(&frame);
        }
        if let Some(code) = blocked {
            self.put(&write::letters(code, 0));
        }
        if self.random.percent(80) {
            self.put(&write::bank_limits(bank, 0, 0));
        }
    }

    /// A withdrawal of all, or limits at or past what the bank has and sent.
    fn tightening(&mut self, bank: u32) -> Vec<u8> {
        let (state, icdt) = match self.known(bank) {
            Some(bank) => (bank.state(), bank.turnovers[ICDT]),
            None => (0, 0),
        };
        let near = state.min(TOP_VALUE) - self.random.between(0, 100);
        match self.random.below(6) {
            0 => write::withdrawal(bank, state),
            1 => write::bank_limits(bank, near.max(0), 0),
            2 => write::bank_limits(bank, TOP_VALUE, 0),
            3 => write::bank_limits(bank, 0, icdt + self.random.between(1, 100)),
            4 => write::bank_limits(bank, 0, -1),
            _ => write::bank_limits(bank, TOP_VALUE, -1),
        }
    }

    /// The sender in the group, and mostly the receiver too.
    fn payment_in_group(&mut self, bank: u32) -> Vec<u8> {
        let sender = self.in_group(bank);
        let mut receiver = self.in_group(bank);
        if receiver == sender || self.random.percent(20) {
            receiver = self.party();
        }
        let transfer = self.random.pick(&[CREDIT, DEBIT]);
        self.payment_between(transfer, sender, receiver)
    }
}
