//! A list in the making, and the ledger it leads to.

use super::random::Random;
use crate::account::Account;
use crate::book::Id;
use crate::ledger::Ledger;
use crate::write;

/// The last second of a day.
pub const LAST_SECOND: u32 = 86_399;

pub struct Scenario {
    pub random: Random,
    /// Where the lines written so far lead, so that the next come close to
    /// the rules' edges.
    pub ledger: Ledger,
    /// Ids written so far, accepted or not.
    pub ids: Vec<Id>,
    /// The second of the last message written for the open day.
    pub second: u32,
    /// How many fields in a hundred are meant to be wrong.
    pub flaws: usize,
    /// How many amounts in a hundred are the highest.
    pub large: usize,
    /// How many new codes in a hundred have no digits but 0 and 1.
    pub alike: usize,
    /// How many frames of letters in a hundred take letters off.
    pub cleared: usize,
    list: Vec<u8>,
    answer: Vec<u8>,
    lines: usize,
    wanted: usize,
}

impl Scenario {
    pub fn new(seed: u64, wanted: usize) -> Scenario {
        Scenario {
            random: Random::new(seed),
            ledger: Ledger::new(),
            ids: Vec::new(),
            second: 0,
            flaws: 6,
            large: 5,
            alike: 0,
            cleared: 70,
            list: Vec::new(),
            answer: Vec::new(),
            lines: 0,
            wanted,
        }
    }

    pub fn is_done(&self) -> bool {
        self.lines >= self.wanted
    }

    /// How many lines are still wanted.
    pub fn left(&self) -> usize {
        self.wanted - self.lines
    }

    pub fn lines(&self) -> usize {
        self.lines
    }

    pub fn list(self) -> Vec<u8> {
        self.list
    }

    /// Takes the end of the last line away.
    pub fn drop_last_end(&mut self) {
        self.list.pop();
    }

    /// Writes a frame; gives whether it is accepted.
    pub fn put(&mut self, frame: &[u8]) -> bool {
        self.put_line(&write::line(frame))
    }

    /// Writes any line without its end. Nothing is written once the list is done.
    pub fn put_line(&mut self, line: &[u8]) -> bool {
        if self.is_done() {
            return false;
        }
        let day = self.ledger.day();
        self.answer.clear();
        self.ledger.line(line, &mut self.answer);
        self.list.extend_from_slice(line);
        self.list.push(b'\n');
        self.lines += 1;
        if self.ledger.day() != day {
            self.second = 0;
        }
        self.answer.starts_with(b"00")
    }

    pub fn flawed(&mut self) -> bool {
        let flaws = self.flaws;
        self.random.percent(flaws)
    }

    /// Code of a random account that fits.
    pub fn account(&mut self, fits: impl Fn(&Account) -> bool) -> Option<u32> {
        let fitting: Vec<u32> = self
            .ledger
            .accounts()
            .iter()
            .filter(|account| fits(account))
            .map(|account| account.code)
            .collect();
        (!fitting.is_empty()).then(|| self.random.pick(&fitting))
    }

    /// The account of a code, if there is one.
    pub fn known(&self, code: u32) -> Option<&Account> {
        self.ledger.account(code)
    }

    /// The bank behind an account.
    pub fn bank_behind<'a>(&'a self, account: &'a Account) -> &'a Account {
        match account.owner {
            Some(owner) => &self.ledger.accounts()[owner],
            None => account,
        }
    }

    /// Codes of a bank's branches.
    pub fn branches_of(&self, bank: u32) -> Vec<u32> {
        let accounts = self.ledger.accounts();
        let owner = accounts.iter().position(|account| account.code == bank);
        accounts
            .iter()
            .filter(|account| account.owner.is_some() && account.owner == owner)
            .map(|account| account.code)
            .collect()
    }

    /// A code that no account has.
    pub fn new_code(&mut self) -> u32 {
        loop {
            let code = self.random.below(1_000_000) as u32;
            if self.known(code).is_none() {
                return code;
            }
        }
    }

    /// A second later than that of the last message, as long as there is one.
    pub fn later_second(&mut self) -> u32 {
        self.second = (self.second + 1).min(LAST_SECOND);
        self.second
    }

    /// 32 random digits, the first of them not 0.
    pub fn new_id(&mut self) -> Id {
        let mut id = [0; 32];
        for digit in &mut id {
            *digit = b'0' + self.random.below(10) as u8;
        }
        id[0] = b'1' + self.random.below(9) as u8;
        self.ids.push(id);
        id
    }
}
