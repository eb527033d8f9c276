//! Frames of messages.

use super::scenario::{Scenario, LAST_SECOND};
use super::steps::EDGES;
use crate::account::{Account, Moment, ICDT, TOP_VALUE};
use crate::book::Id;
use crate::command::{AccountId, Header, ACCOUNT_ID, MOST_CONDITIONS, MOST_ITEMS};
use crate::write::{self, ChangeItem, Sought, CONTAINS, EQUAL, LACKS, LPO_TYPE, LTK_TYPE};

/// Ids out of so many last ones are written again.
const RECENT: usize = 1_500;

impl Scenario {
    pub fn change(&mut self) -> Vec<u8> {
        let sender = self.head_bank();
        let header = self.header(sender);
        let branches = self.branches_of(sender);
        let mut items: Vec<ChangeItem> = (0..self.count())
            .map(|_| self.item(sender, &branches))
            .collect();
        if self.random.percent(20) {
            self.spoil(&mut items, sender);
        }
        write::change(&header, &items)
    }

    /// A change of as many items as there may be, with nothing wrong on purpose.
    pub fn full_change(&mut self) -> Vec<u8> {
        let sender = self.head_bank();
        let header = self.fresh_header(sender);
        let branches = self.branches_of(sender);
        let items = [(); MOST_ITEMS].map(|()| self.item(sender, &branches));
        write::change(&header, &items)
    }

    pub fn deletion(&mut self) -> Vec<u8> {
        let sender = self.head_bank();
        let header = self.header(sender);
        let branches = self.branches_of(sender);
        let mut items = [self.item(sender, &branches)];
        if self.random.percent(15) {
            self.spoil(&mut items, sender);
        }
        let [item] = items;
        write::deletion(&header, &item.account, item.kind)
    }

    pub fn query(&mut self) -> Vec<u8> {
        let sender = self.party();
        let header = self.header(sender);
        let mut visible = self.branches_of(sender);
        visible.push(sender);
        let only_strange = self.random.percent(5);
        let ids: Vec<AccountId> = (0..self.count())
            .map(|_| match self.random.below(10) {
                _ if only_strange => self.strange_account_id(),
                0 => self.strange_account_id(),
                1 | 2 => write::account_id(self.party()),
                _ => write::account_id(self.random.pick(&visible)),
            })
            .collect();
        write::query(&header, &ids)
    }

    pub fn search(&mut self) -> Vec<u8> {
        let sender = if self.random.percent(50) {
            self.head_bank()
        } else {
            self.party()
        };
        let header = self.header(sender);
        let mode = self.random.pick(&[EQUAL, CONTAINS, LACKS]);
        let one_mode = self.random.percent(30);
        let only_strange = self.random.percent(10);
        let conditions: Vec<Sought> = (0..self.condition_count())
            .map(|_| {
                let mode = match self.random.below(4) {
                    _ if one_mode => mode,
                    0 => EQUAL,
                    1 => LACKS,
                    _ => CONTAINS,
                };
                let text = self.text(mode, only_strange);
                Sought { mode, text }
            })
            .collect();
        write::search(&header, &conditions)
    }

    fn condition_count(&mut self) -> usize {
        if self.random.percent(60) {
            1 + self.random.below(2)
        } else {
            1 + self.random.below(MOST_CONDITIONS)
        }
    }

    /// A text that often stands in an id, or hardly ever does.
    fn text(&mut self, mode: u8, is_strange: bool) -> Vec<u8> {
        let id = if is_strange || self.random.percent(10) {
            self.strange_account_id()
        } else {
            write::account_id(self.party())
        };
        if mode == EQUAL {
            return id.into();
        }
        let begin = self.random.below(ACCOUNT_ID);
        let end = begin + 1 + self.random.below(ACCOUNT_ID - begin);
        match self.random.below(16) {
            _ if is_strange => self.strange_text(),
            0 => id.into(),
            // The last places, and those before the last.
            1 | 2 => id[begin..].into(),
            3 => id[begin..ACCOUNT_ID - 1]
                .iter()
                .chain(b"1")
                .copied()
                .collect(),
            // From the end on to the beginning.
            4 => [&id[begin..], &id[..begin]].concat(),
            5 => [&id[ACCOUNT_ID - 1..], b"1"].concat(),
            6 => id[..end].into(),
            7 => self.strange_text(),
            8 | 9 => (0..1 + self.random.below(3))
                .map(|_| self.digit())
                .collect(),
            10 => (0..1 + self.random.below(6))
                .map(|_| b'0' + self.random.below(2) as u8)
                .collect(),
            11 => {
                let mut text = id[begin..end].to_vec();
                let place = self.random.below(text.len());
                text[place] = self.digit();
                text
            }
            _ => id[begin..end].into(),
        }
    }

    fn digit(&mut self) -> u8 {
        b'0' + self.random.below(10) as u8
    }

    /// Any bytes.
    fn strange_text(&mut self) -> Vec<u8> {
        let length = 1 + self.random.below(ACCOUNT_ID);
        let mut text: Vec<u8> = (0..length).map(|_| self.random.byte()).collect();
        if self.random.percent(30) {
            text.fill(self.random.pick(b"\x00\n\xffuU"));
        }
        text
    }

    /// Mostly a bank with branches.
    pub fn head_bank(&mut self) -> u32 {
        if self.flawed() {
            return self.party();
        }
        let branch = self.account(|account| !account.is_bank());
        let owner = branch.and_then(|code| Some(self.bank_behind(self.known(code)?).code));
        self.or_new(owner)
    }

    /// Of items or ids: often few.
    fn count(&mut self) -> usize {
        if self.random.percent(60) {
            1 + self.random.below(3)
        } else {
            1 + self.random.below(MOST_ITEMS)
        }
    }

    fn header(&mut self, sender: u32) -> Header {
        Header {
            sender,
            id: self.id(),
            moment: self.moment(sender),
        }
    }

    /// A header with nothing wrong, later than all before.
    pub fn fresh_header(&mut self, sender: u32) -> Header {
        let day = self.ledger.day();
        let second = self.later_second();
        Header {
            sender,
            id: self.new_id(),
            moment: Moment { day, second },
        }
    }

    fn id(&mut self) -> Id {
        if self.ids.is_empty() || !self.random.percent(2 * self.flaws) {
            return self.new_id();
        }
        let recent = self.ids.len().saturating_sub(RECENT);
        let mut id = self.random.pick(&self.ids[recent..]);
        let place = self.random.below(id.len());
        match self.random.below(8) {
            0..4 => {}
            4 => id[place] = b'1' + self.random.below(9) as u8,
            5 => id[place] = self.random.byte(),
            6 => id[place] = self.random.pick(b"/:aA \0"),
            _ => id[0] = b'0',
        }
        id
    }

    /// Mostly later than all before; else near the open day or a branch's moment.
    fn moment(&mut self, sender: u32) -> Moment {
        let day = self.ledger.day();
        if !self.random.percent(2 * self.flaws) {
            let second = self.later_second();
            return Moment { day, second };
        }
        let branches = self.branches_of(sender);
        let branch = (!branches.is_empty()).then(|| self.random.pick(&branches));
        let earlier = branch.and_then(|code| self.known(code)?.moment);
        if let (Some(Moment { day, second }), true) = (earlier, self.random.percent(40)) {
            let step = self.random.below(3) as u32;
            let second = (second + step).saturating_sub(1).min(LAST_SECOND);
            return Moment { day, second };
        }
        let day = match self.random.below(10) {
            0..5 => day.wrapping_sub(1),
            5 => day.wrapping_sub(2),
            6 => day.wrapping_add(1),
            7 => self.random.pick(&[0, u32::MAX, 1 << 31]),
            8 => self.random.next() as u32,
            _ => day,
        };
        let second = match self.random.below(4) {
            0 => self.second,
            1 => self.random.pick(&[0, LAST_SECOND]),
            _ => self.random.below(LAST_SECOND as usize) as u32,
        };
        Moment { day, second }
    }

    /// A good item, as far as the sender has branches.
    fn item(&mut self, sender: u32, branches: &[u32]) -> ChangeItem {
        let code = match branches {
            [] => sender,
            branches => self.random.pick(branches),
        };
        let (state, icdt) = match self.known(code) {
            Some(account) => (account.state(), account.turnovers[ICDT]),
            None => (0, 0),
        };
        let kind = self.random.pick(&[LTK_TYPE, LPO_TYPE]);
        let near = if kind == LTK_TYPE { state } else { icdt };
        let value = match self.random.below(12) {
            0..4 if kind == LTK_TYPE => self.random.between(-1_000, -1),
            0..4 => self.random.between(0, 1_000),
            4 | 5 => near + self.random.between(-1, 1),
            6 => self.random.pick(&[TOP_VALUE, -TOP_VALUE]),
            7 => self.random.between(-TOP_VALUE, TOP_VALUE),
            8 | 9 => 0,
            10 => -1,
            _ => near - self.random.between(0, 1_000_000),
        };
        ChangeItem {
            account: write::account_id(code),
            kind,
            value: value.clamp(-TOP_VALUE, TOP_VALUE),
        }
    }

    /// Makes one or two fields of the items wrong.
    fn spoil(&mut self, items: &mut [ChangeItem], sender: u32) {
        for _ in 0..1 + self.random.below(2) {
            let place = self.random.below(items.len());
            let item = &mut items[place];
            match self.random.below(8) {
                0 | 1 => item.kind = self.random.pick(&[0, 3, 255, 2, b'1']),
                2 => item.account = write::account_id(sender),
                3 => item.account = write::account_id(self.party()),
                4 | 5 => item.account = self.strange_account_id(),
                6 => item.value = self.random.next() as i64,
                _ => item.value = self.random.pick(&EDGES),
            }
        }
    }

    /// An account id that is wrong somewhere, or of an unknown code.
    fn strange_account_id(&mut self) -> AccountId {
        let code = match self.account(|_: &Account| true) {
            Some(code) => code,
            None => self.new_code(),
        };
        let mut id = write::account_id(code);
        let place = self.random.below(id.len());
        match self.random.below(6) {
            0 => return write::account_id_in(b"2UAH", code),
            1 => return write::account_id_in(b"1USD", code),
            2 => return write::account_id(self.new_code()),
            3 => id[place] = self.random.byte(),
            4 => id[place] = id[place].wrapping_add(1),
            _ => id[place] ^= 0x20,
        }
        id
    }
}
