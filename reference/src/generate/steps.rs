//! Frames about accounts, payments and days.

use super::scenario::Scenario;
use crate::account::{Account, Limit, ICDT, IDDT, LPO, LTK, RCDT, RDDT};
use crate::account::{TOP_TOTAL, TOP_TURNOVER, TOP_VALUE};
use crate::write::{self, CREDIT, DEBIT};

/// Values at and past the edges of amounts and limits.
pub const EDGES: [i64; 14] = [
    0,
    1,
    -1,
    TOP_VALUE - 1,
    TOP_VALUE,
    TOP_VALUE + 1,
    -TOP_VALUE + 1,
    -TOP_VALUE,
    -TOP_VALUE - 1,
    TOP_TURNOVER,
    i64::MAX,
    i64::MIN,
    i64::MIN + 1,
    1 << 32,
];

impl Scenario {
    pub fn bank(&mut self) -> Vec<u8> {
        let code = self.opened_code();
        write::bank(code)
    }

    pub fn branch(&mut self) -> Vec<u8> {
        let code = self.opened_code();
        let owner = if self.flawed() {
            code
        } else {
            self.bank_code()
        };
        let methods = [(); 2].map(|()| self.random.below(4) as u8);
        write::branch(code, owner, methods)
    }

    /// A code to be opened: mostly a new one.
    fn opened_code(&mut self) -> u32 {
        let alike = self.alike;
        if self.flawed() {
            self.party()
        } else if self.random.percent(alike) {
            (0..6).fold(0, |code, _| 10 * code + self.random.below(2) as u32)
        } else {
            self.new_code()
        }
    }

    /// Mostly the code of some account.
    pub fn party(&mut self) -> u32 {
        let known = self.account(|_| true);
        self.or_new(known)
    }

    /// Mostly the code of a bank.
    pub fn bank_code(&mut self) -> u32 {
        if self.flawed() {
            return self.party();
        }
        let bank = self.account(Account::is_bank);
        self.or_new(bank)
    }

    /// The code given, or seldom one that no account has.
    pub fn or_new(&mut self, code: Option<u32>) -> u32 {
        let flawed = self.flawed();
        match code {
            Some(code) if !flawed => code,
            _ => self.new_code(),
        }
    }

    pub fn funding(&mut self) -> Vec<u8> {
        let code = self.bank_code();
        let banks = self.ledger.accounts().iter().filter(|bank| bank.is_bank());
        let total: i64 = banks.map(Account::state).sum();
        let amount = self.amount_near(TOP_TOTAL - total);
        write::funding(code, amount)
    }

    pub fn withdrawal(&mut self) -> Vec<u8> {
        let code = self.bank_code();
        let room = self.known(code).map_or(1, room_above_ltk);
        let amount = self.amount_near(room);
        write::withdrawal(code, amount)
    }

    pub fn bank_limits(&mut self) -> Vec<u8> {
        let code = self.bank_code();
        let (state, icdt) = match self.known(code) {
            Some(bank) => (bank.state(), bank.turnovers[ICDT]),
            None => (0, 0),
        };
        let ltk = match self.random.below(10) {
            0..6 => 0,
            6..8 => state - self.random.between(-2, 1_000),
            8 => self.random.between(0, TOP_VALUE),
            _ => self.random.pick(&EDGES),
        };
        let lpo = match self.random.below(10) {
            0..6 => 0,
            6..8 => icdt + self.random.between(-2, 1_000),
            8 => self.random.between(-1, TOP_VALUE),
            _ => self.random.pick(&EDGES),
        };
        write::bank_limits(code, ltk, lpo)
    }

    pub fn payment(&mut self) -> Vec<u8> {
        let sender = self.party();
        let mut receiver = self.party();
        if receiver == sender && !self.flawed() {
            receiver = self.party();
        }
        let transfer = self.random.pick(&[CREDIT, CREDIT, DEBIT]);
        self.payment_between(transfer, sender, receiver)
    }

    /// Of an amount near what some limit or turnover allows.
    pub fn payment_between(&mut self, transfer: u8, sender: u32, receiver: u32) -> Vec<u8> {
        let rooms = self.rooms(transfer, sender, receiver);
        let room = self.random.pick(&rooms);
        let amount = self.amount_near(room);
        write::payment(transfer, sender, receiver, amount)
    }

    /// How much each limit and each turnover concerned would still allow.
    fn rooms(&self, transfer: u8, sender: u32, receiver: u32) -> Vec<i64> {
        let (payer, sent, received) = match transfer {
            CREDIT => (sender, ICDT, RCDT),
            _ => (receiver, IDDT, RDDT),
        };
        let mut rooms = vec![1];
        if let Some(account) = self.known(payer) {
            for account in [account, self.bank_behind(account)] {
                rooms.push(room_above_ltk(account));
                rooms.push(room_under_lpo(account));
            }
        }
        for (code, turnover) in [(sender, sent), (receiver, received)] {
            if let Some(account) = self.known(code) {
                let bank = self.bank_behind(account);
                rooms.push(TOP_TURNOVER - account.turnovers[turnover]);
                rooms.push(TOP_TURNOVER - bank.turnovers[turnover]);
            }
        }
        rooms
    }

    /// An amount, often just inside or outside the room.
    fn amount_near(&mut self, room: i64) -> i64 {
        let large = self.large;
        if self.random.percent(large) {
            return TOP_VALUE;
        }
        match self.random.below(20) {
            0..6 if (0..=TOP_VALUE).contains(&room) => room + self.random.between(-1, 1),
            6..8 => self.random.between(1, TOP_VALUE),
            8 if self.flawed() => self.random.pick(&EDGES),
            9 if self.flawed() => self.random.next() as i64,
            _ => self.random.between(1, 100),
        }
    }

    /// Mostly the next day.
    pub fn day_opening(&mut self) -> Vec<u8> {
        let day = self.ledger.day();
        let day = match self.random.below(20) {
            0 => day,
            1 => day.saturating_sub(1),
            2 => day.saturating_add(2),
            3 => day.saturating_add(self.random.below(1_000) as u32),
            4 => self.random.below(10) as u32,
            5 if self.left() < 100 => u32::MAX - self.random.below(3) as u32,
            6 if self.left() < 100 => self.random.next() as u32,
            _ => day.saturating_add(1),
        };
        write::day_opening(day)
    }
}

fn room_above_ltk(account: &Account) -> i64 {
    match account.limits[LTK] {
        Limit::Value(ltk) => account.state() - ltk,
        Limit::Closed => 1,
    }
}

fn room_under_lpo(account: &Account) -> i64 {
    match account.limits[LPO] {
        Limit::Value(lpo) => lpo - account.turnovers[ICDT],
        Limit::Closed => 1,
    }
}
