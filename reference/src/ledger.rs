//! The ledger: the table of accounts, the open day and the book.

use crate::account::{Account, Limit, Method, ICDT, IDDT, LPO, LTK, RCDT, RDDT};
use crate::account::{TOP_TOTAL, TOP_VALUE};
use crate::answer::{number, require, Answer, Refusal};
use crate::book::Book;
use crate::command::{Command, Transfer};
use crate::frame::{self, LONGEST_FRAME};
use crate::letters::Letters;
use crate::report;

pub const MOST_ACCOUNTS: usize = 64;

const CODES: usize = 1_000_000;
const NO_PLACE: u8 = u8::MAX;

pub struct Ledger {
    /// The accounts in table order.
    pub(crate) accounts: Vec<Account>,
    /// For each code its place in the table.
    places: Box<[u8]>,
    /// Place of the bank marked as the central bank.
    central: Option<usize>,
    pub(crate) day: u32,
    pub(crate) book: Book,
    /// The report of the query or search just accepted.
    pub(crate) report: Vec<u8>,
}

impl Default for Ledger {
    fn default() -> Ledger {
        Ledger::new()
    }
}

impl Ledger {
    pub fn new() -> Ledger {
        Ledger {
            accounts: Vec::with_capacity(MOST_ACCOUNTS),
            places: vec![NO_PLACE; CODES].into_boxed_slice(),
            central: None,
            day: 0,
            book: Book::default(),
            report: Vec::with_capacity(report::LONGEST_REPORT),
        }
    }

    /// Plays one line, given without its end, and appends the answer line.
    pub fn line(&mut self, line: &[u8], out: &mut Vec<u8>) {
        self.report.clear();
        let mut buffer = [0; LONGEST_FRAME];
        let answer = match frame::decode(line, &mut buffer).and_then(Command::read) {
            Some(command) => self.play(&command),
            None => Err(Refusal::IllFormed),
        };
        let number = number(answer);
        out.extend([b'0' + number / 10, b'0' + number % 10]);
        frame::encode(&self.report, out);
        out.push(b'\n');
    }

    pub fn accounts(&self) -> &[Account] {
        &self.accounts
    }

    /// The account of a code, if there is one.
    pub fn account(&self, code: u32) -> Option<&Account> {
        let place = self.find(code).ok()?;
        Some(&self.accounts[place])
    }

    /// The bank that owns a branch.
    pub fn owner_of(&self, account: &Account) -> Option<&Account> {
        account.owner.map(|owner| &self.accounts[owner])
    }

    /// The bank marked as the central bank.
    pub fn central_bank(&self) -> Option<&Account> {
        self.central.map(|place| &self.accounts[place])
    }

    pub fn day(&self) -> u32 {
        self.day
    }

    pub fn book(&self) -> &Book {
        &self.book
    }

    fn play(&mut self, command: &Command) -> Answer {
        match *command {
            Command::Bank { code } => self.open_bank(code),
            Command::Branch {
                code,
                owner,
                methods,
            } => self.open_branch(code, owner, methods),
            Command::Funding { code, amount } => self.fund(code, amount),
            Command::Withdrawal { code, amount } => self.withdraw(code, amount),
            Command::BankLimits { code, ltk, lpo } => self.set_bank_limits(code, ltk, lpo),
            Command::Payment {
                transfer,
                sender,
                receiver,
                amount,
            } => self.pay(transfer, sender, receiver, amount),
            Command::Change { ref header, items } => self.change(header, items),
            Command::Deletion {
                ref header,
                account,
                kind,
            } => self.delete(header, account, kind),
            Command::Query { ref header, ids } => self.query(header, ids),
            Command::DayOpening { day } => self.open_day(day),
            Command::Search {
                ref header,
                ref conditions,
            } => self.search(header, conditions),
            Command::Letters { code, letters } => self.set_letters(code, letters),
            Command::Mark { code } => self.mark(code),
        }
    }

    /// The place of a party in the table.
    pub(crate) fn find(&self, code: u32) -> Result<usize, Refusal> {
        match self.places[code as usize] {
            NO_PLACE => Err(Refusal::PartyUnknown),
            place => Ok(usize::from(place)),
        }
    }

    /// The place of a party that must be a bank.
    fn find_bank(&self, code: u32) -> Result<usize, Refusal> {
        let place = self.find(code)?;
        require(self.accounts[place].is_bank(), Refusal::NotABank)?;
        Ok(place)
    }

    /// The place of the bank behind an account: its owner, or itself.
    fn bank_of(&self, place: usize) -> usize {
        self.accounts[place].owner.unwrap_or(place)
    }

    fn open_bank(&mut self, code: u32) -> Answer {
        require(self.find(code).is_err(), Refusal::CodeInTable)?;
        self.join(Account::bank(code))
    }

    fn open_branch(&mut self, code: u32, owner: u32, methods: [Method; 2]) -> Answer {
        require(self.find(code).is_err(), Refusal::CodeInTable)?;
        let owner = self.find_bank(owner)?;
        self.join(Account::branch(code, owner, methods))
    }

    fn join(&mut self, account: Account) -> Answer {
        let place = self.accounts.len();
        require(place < MOST_ACCOUNTS, Refusal::TableFull)?;
        self.places[account.code as usize] = place as u8;
        self.accounts.push(account);
        Ok(())
    }

    fn fund(&mut self, code: u32, amount: i64) -> Answer {
        let bank = self.find_bank(code)?;
        require_amount(amount)?;
        let total = self.total_of_banks() + i128::from(amount);
        require(total <= i128::from(TOP_TOTAL), Refusal::OverTheTop)?;
        self.accounts[bank].start += amount;
        Ok(())
    }

    /// All banks' states together.
    fn total_of_banks(&self) -> i128 {
        let banks = self.accounts.iter().filter(|account| account.is_bank());
        banks.map(|bank| i128::from(bank.state())).sum()
    }

    fn withdraw(&mut self, code: u32, amount: i64) -> Answer {
        let place = self.find_bank(code)?;
        require_amount(amount)?;
        let bank = &mut self.accounts[place];
        require(bank.may_fall_by(amount), Refusal::BankBelowLtk)?;
        bank.start -= amount;
        Ok(())
    }

    fn set_bank_limits(&mut self, code: u32, ltk: i64, lpo: i64) -> Answer {
        let bank = self.find_bank(code)?;
        let in_range = (0..=TOP_VALUE).contains(&ltk) && is_limit(lpo);
        require(in_range, Refusal::OutOfRange)?;
        self.accounts[bank].limits[LTK] = Limit::Value(ltk);
        self.accounts[bank].limits[LPO] = Limit::Value(lpo);
        Ok(())
    }

    fn pay(&mut self, transfer: Transfer, sender: u32, receiver: u32, amount: i64) -> Answer {
        let sender = self.find(sender)?;
        let receiver = self.find(receiver)?;
        require(sender != receiver, Refusal::SenderIsReceiver)?;
        require_amount(amount)?;
        self.check_letters(transfer, sender, receiver)?;
        let (payer, sent, received) = match transfer {
            Transfer::Credit => (sender, ICDT, RCDT),
            Transfer::Debit => (receiver, IDDT, RDDT),
        };
        if !self.share_bank(sender, receiver) {
            self.check_bank(transfer, payer, amount)?;
        }
        self.check_branch(transfer, payer, amount)?;

        let sides = [(sender, sent), (receiver, received)];
        let has_room = |&(place, turnover): &(usize, usize)| {
            self.accounts[place].has_room(turnover, amount)
                && self.accounts[self.bank_of(place)].has_room(turnover, amount)
        };
        require(sides.iter().all(has_room), Refusal::OverTheTop)?;
        for (place, turnover) in sides {
            self.accounts[place].turnovers[turnover] += amount;
            if let Some(owner) = self.accounts[place].owner {
                self.accounts[owner].turnovers[turnover] += amount;
            }
        }
        Ok(())
    }

    /// Sender and receiver are those that the payment names, whoever pays.
    fn check_letters(&self, transfer: Transfer, sender: usize, receiver: usize) -> Answer {
        let is_from_central = self.central == Some(self.bank_of(sender));
        let is_blocked = self.letters_over(sender).block_sending(transfer)
            || self.letters_over(receiver).block_receiving(is_from_central);
        require(!is_blocked, Refusal::Blocked)
    }

    /// The letters that hold for an account: its own and its bank's.
    fn letters_over(&self, place: usize) -> Letters {
        let bank = &self.accounts[self.bank_of(place)];
        self.accounts[place].letters.with(bank.letters)
    }

    /// Whether one bank stands behind both, so that it loses nothing by a
    /// payment between them.
    fn share_bank(&self, one: usize, other: usize) -> bool {
        self.bank_of(one) == self.bank_of(other)
    }

    /// The limits of the payer's bank.
    fn check_bank(&self, transfer: Transfer, payer: usize, amount: i64) -> Answer {
        let bank = &self.accounts[self.bank_of(payer)];
        require(bank.may_fall_by(amount), Refusal::BankBelowLtk)?;
        if transfer == Transfer::Credit {
            require(bank.may_send_credit(amount), Refusal::BankLpo)?;
        }
        Ok(())
    }

    /// The limits of the payer itself, if it is a branch.
    fn check_branch(&self, transfer: Transfer, payer: usize, amount: i64) -> Answer {
        let payer = &self.accounts[payer];
        if payer.is_bank() {
            return Ok(());
        }
        require(payer.may_fall_by(amount), Refusal::BranchLtk)?;
        if transfer == Transfer::Credit {
            require(payer.may_send_credit(amount), Refusal::BranchLpo)?;
        }
        Ok(())
    }

    fn open_day(&mut self, day: u32) -> Answer {
        require(day > self.day, Refusal::DayNotLater)?;
        self.accounts.iter_mut().for_each(Account::open_day);
        self.book.leave_before(self.day);
        self.day = day;
        Ok(())
    }

    /// Sets all five letters anew.
    fn set_letters(&mut self, code: u32, letters: Letters) -> Answer {
        let place = self.find(code)?;
        self.accounts[place].letters = letters;
        Ok(())
    }

    /// Marks the central bank; a mark is never taken off.
    fn mark(&mut self, code: u32) -> Answer {
        let bank = self.find_bank(code)?;
        require(self.central.is_none(), Refusal::BankMarked)?;
        self.central = Some(bank);
        Ok(())
    }
}

/// Whether a value may stand as a limit of a branch, or as a bank's LPO.
pub(crate) fn is_limit(value: i64) -> bool {
    (-TOP_VALUE..=TOP_VALUE).contains(&value)
}

fn require_amount(amount: i64) -> Answer {
    require((1..=TOP_VALUE).contains(&amount), Refusal::OutOfRange)
}
