//! Messages: change, deletion, query and search.

use crate::account::{Limit, Moment, LPO, LTK};
use crate::answer::{require, Answer, Refusal, BLOCK_ID_UNKNOWN, BLOCK_NO_RIGHT};
use crate::command::{split_item, AccountId, Condition, Header, Item, MOST_ITEMS};
use crate::frame;
use crate::ledger::{is_limit, Ledger};
use crate::report;
use crate::write;

/// One item of a change or deletion, with its names looked up.
#[derive(Clone, Copy, Default)]
struct Named {
    /// Place of the branch, if the id names a branch of the sender.
    branch: Option<usize>,
    /// Place of the limit, if the type is one.
    limit: Option<usize>,
    value: i64,
}

impl Ledger {
    pub(crate) fn change(&mut self, header: &Header, items: &[Item]) -> Answer {
        let sender = self.check_head_bank(header)?;
        let mut named = [Named::default(); MOST_ITEMS];
        for (named, item) in named.iter_mut().zip(items) {
            let (account, kind, value) = split_item(item);
            *named = self.look_up(sender, account, kind, value);
        }
        let named = &named[..items.len()];

        self.check_named(header.moment, named)?;
        let in_range = named.iter().all(|item| is_limit(item.value));
        require(in_range, Refusal::OutOfRange)?;
        self.enter(header)?;
        for item in named {
            if let (Some(branch), Some(limit)) = (item.branch, item.limit) {
                self.accounts[branch].limits[limit] = Limit::Value(item.value);
                self.accounts[branch].moment = Some(header.moment);
            }
        }
        Ok(())
    }

    pub(crate) fn delete(&mut self, header: &Header, account: &AccountId, kind: u8) -> Answer {
        let sender = self.check_head_bank(header)?;
        let named = self.look_up(sender, account, kind, 0);
        self.check_named(header.moment, &[named])?;
        self.enter(header)?;
        if let (Some(branch), Some(limit)) = (named.branch, named.limit) {
            self.accounts[branch].delete_limit(limit);
            self.accounts[branch].moment = Some(header.moment);
        }
        Ok(())
    }

    pub(crate) fn query(&mut self, header: &Header, ids: &[AccountId]) -> Answer {
        let sender = self.find(header.sender)?;
        self.check_id_unused(header)?;
        self.check_header(header)?;
        let is_found = |id: &AccountId| self.find_account(id).is_some();
        require(ids.iter().any(is_found), Refusal::NoIdFound)?;
        self.enter(header)?;
        self.write_report(sender, ids);
        Ok(())
    }

    pub(crate) fn search(&mut self, header: &Header, conditions: &[Condition]) -> Answer {
        let sender = self.find(header.sender)?;
        self.check_id_unused(header)?;
        self.check_header(header)?;
        let selected = self.select(conditions);
        require(!selected.is_empty(), Refusal::NoIdFound)?;
        self.enter(header)?;
        self.write_accounts(sender, &selected);
        Ok(())
    }

    /// Places of the accounts that meet at least one condition, in table order.
    fn select(&self, conditions: &[Condition]) -> Vec<usize> {
        let is_selected = |&place: &usize| {
            let id = write::account_id(self.accounts[place].code);
            conditions.iter().any(|condition| condition.holds_of(&id))
        };
        (0..self.accounts.len()).filter(is_selected).collect()
    }

    /// The checks of a change's or deletion's header; gives the sender's place.
    fn check_head_bank(&self, header: &Header) -> Result<usize, Refusal> {
        let sender = self.find(header.sender)?;
        self.check_id_unused(header)?;
        require(self.is_head_bank(sender), Refusal::NoHeadBank)?;
        self.check_header(header)?;
        Ok(sender)
    }

    fn check_id_unused(&self, header: &Header) -> Answer {
        require(!self.book.holds(&header.id), Refusal::IdInBook)
    }

    /// A head bank is a bank with at least one branch.
    fn is_head_bank(&self, place: usize) -> bool {
        let mut accounts = self.accounts.iter();
        accounts.any(|account| account.owner == Some(place))
    }

    fn check_header(&self, header: &Header) -> Answer {
        let is_id = header.id[0] != b'0' && header.id.iter().all(u8::is_ascii_digit);
        require(is_id, Refusal::IdMalformed)?;
        let day = header.moment.day;
        let is_day = day == self.day || Some(day) == self.day.checked_sub(1);
        require(is_day, Refusal::DayWrong)
    }

    fn look_up(&self, sender: usize, account: &AccountId, kind: u8, value: i64) -> Named {
        let is_own = |&place: &usize| self.accounts[place].owner == Some(sender);
        Named {
            branch: self.find_account(account).filter(is_own),
            limit: match kind {
                1 => Some(LTK),
                2 => Some(LPO),
                _ => None,
            },
            value,
        }
    }

    fn find_account(&self, id: &AccountId) -> Option<usize> {
        frame::code_of_account_id(id).and_then(|code| self.find(code).ok())
    }

    /// Each check runs over all items before the next begins.
    fn check_named(&self, moment: Moment, items: &[Named]) -> Answer {
        let is_later = |branch: usize| {
            let earlier = self.accounts[branch].moment;
            earlier.is_none_or(|earlier| moment > earlier)
        };
        let all_later = items.iter().all(|item| item.branch.is_none_or(is_later));
        require(all_later, Refusal::MomentNotLater)?;
        let all_limits = items.iter().all(|item| item.limit.is_some());
        require(all_limits, Refusal::TypeUnknown)?;
        let all_branches = items.iter().all(|item| item.branch.is_some());
        require(all_branches, Refusal::NotABranchOfSender)
    }

    /// The last check of a message: its id goes into the book, if there is room.
    fn enter(&mut self, header: &Header) -> Answer {
        require(!self.book.is_full(), Refusal::BookFull)?;
        self.book.add(header.id, self.day);
        Ok(())
    }

    fn write_report(&mut self, sender: usize, ids: &[AccountId]) {
        let mut report = std::mem::take(&mut self.report);
        report.push(ids.len() as u8);
        for id in ids {
            match self.find_account(id) {
                None => report.push(BLOCK_ID_UNKNOWN),
                Some(place) if !self.may_ask(sender, place) => report.push(BLOCK_NO_RIGHT),
                Some(place) => report::write_block(&self.accounts[place], &mut report),
            }
        }
        self.report = report;
    }

    fn write_accounts(&mut self, sender: usize, selected: &[usize]) {
        let mut report = std::mem::take(&mut self.report);
        report.push(selected.len() as u8);
        for &place in selected {
            if self.may_ask(sender, place) {
                report::write_account(&self.accounts[place], &mut report);
            } else {
                report.push(BLOCK_NO_RIGHT);
            }
        }
        self.report = report;
    }

    /// A party may ask for its own account, a bank for its branches' too.
    fn may_ask(&self, sender: usize, place: usize) -> bool {
        sender == place || self.accounts[place].owner == Some(sender)
    }
}
