//! Accounts, their turnovers and their limits.

use crate::letters::Letters;

/// The highest amount, and the highest limit on either side of 0.
pub const TOP_VALUE: i64 = 1_000_000_000_000_000;
/// The highest turnover.
pub const TOP_TURNOVER: i64 = 100 * TOP_VALUE;
/// The highest sum of all banks' states.
pub const TOP_TOTAL: i64 = 1_000 * TOP_VALUE;

/// The four day turnovers, as places in an account's record.
pub const ICDT: usize = 0;
pub const RCDT: usize = 1;
pub const IDDT: usize = 2;
pub const RDDT: usize = 3;

/// The two limits, as places in an account's record.
pub const LTK: usize = 0;
pub const LPO: usize = 1;

/// A limit is a value or closed; a bank's limits are never closed.
#[derive(Clone, Copy, Debug, PartialEq, Eq)]
pub enum Limit {
    Value(i64),
    Closed,
}

/// What the morning does to a limit of a branch.
#[derive(Clone, Copy, Debug, PartialEq, Eq)]
pub enum Method {
    Keep,
    Zero,
    Close,
    Adjust,
}

impl Method {
    pub fn from_byte(byte: u8) -> Option<Method> {
        match byte {
            0 => Some(Method::Keep),
            1 => Some(Method::Zero),
            2 => Some(Method::Close),
            3 => Some(Method::Adjust),
            _ => None,
        }
    }

    /// The limit after the morning; `used` is what adjusting takes from it.
    fn morning(self, limit: Limit, used: i64) -> Limit {
        let Limit::Value(value) = limit else {
            return Limit::Closed;
        };
        match self {
            Method::Keep => limit,
            Method::Zero => Limit::Value(0),
            Method::Close => Limit::Closed,
            Method::Adjust => Limit::Value((value - used).clamp(-TOP_VALUE, TOP_VALUE)),
        }
    }
}

/// When a limit message was created: day, then second.
#[derive(Clone, Copy, Debug, PartialEq, Eq, PartialOrd, Ord)]
pub struct Moment {
    pub day: u32,
    pub second: u32,
}

/// One record of the table: a bank account (TKR) or a branch account (TRF).
///
/// All sums fit: turnovers stay at or below 10^17, a bank's state between 0
/// and 10^18, so a start value never leaves ±2 * 10^18.
#[derive(Clone, Debug)]
pub struct Account {
    pub code: u32,
    /// Place of the owning bank in the table; none for a bank.
    pub owner: Option<usize>,
    /// Start value; always 0 for a branch.
    pub start: i64,
    pub turnovers: [i64; 4],
    pub limits: [Limit; 2],
    pub methods: [Method; 2],
    /// Moment of the last accepted change or deletion naming this branch.
    pub moment: Option<Moment>,
    /// The letters set on this account itself.
    pub letters: Letters,
}

impl Account {
    pub fn bank(code: u32) -> Account {
        Account {
            code,
            owner: None,
            start: 0,
            turnovers: [0; 4],
            limits: [Limit::Value(0); 2],
            methods: [Method::Keep; 2],
            moment: None,
            letters: Letters::default(),
        }
    }

    pub fn branch(code: u32, owner: usize, methods: [Method; 2]) -> Account {
        Account {
            owner: Some(owner),
            methods,
            ..Account::bank(code)
        }
    }

    pub fn is_bank(&self) -> bool {
        self.owner.is_none()
    }

    pub fn day_balance(&self) -> i64 {
        let [icdt, rcdt, iddt, rddt] = self.turnovers;
        iddt + rcdt - icdt - rddt
    }

    pub fn state(&self) -> i64 {
        self.start + self.day_balance()
    }

    /// Whether LTK lets this account pay the amount.
    pub fn may_fall_by(&self, amount: i64) -> bool {
        match self.limits[LTK] {
            Limit::Closed => false,
            Limit::Value(lowest) => self.state() - amount >= lowest,
        }
    }

    /// Whether LPO lets this account send a credit of the amount.
    pub fn may_send_credit(&self, amount: i64) -> bool {
        match self.limits[LPO] {
            Limit::Closed => false,
            Limit::Value(0) => true,
            Limit::Value(cap) => cap > 0 && self.turnovers[ICDT] + amount <= cap,
        }
    }

    /// Whether a turnover may rise by the amount.
    pub fn has_room(&self, turnover: usize, amount: i64) -> bool {
        self.turnovers[turnover] + amount <= TOP_TURNOVER
    }

    /// Makes a limit 0; a closed one stays closed.
    pub fn delete_limit(&mut self, limit: usize) {
        if self.limits[limit] != Limit::Closed {
            self.limits[limit] = Limit::Value(0);
        }
    }

    /// Carries the account into the next day.
    pub fn open_day(&mut self) {
        let day_balance = self.day_balance();
        if self.is_bank() {
            self.start += day_balance;
        } else {
            let used = [day_balance, self.turnovers[ICDT]];
            for place in [LTK, LPO] {
                self.limits[place] = self.methods[place].morning(self.limits[place], used[place]);
            }
        }
        self.turnovers = [0; 4];
    }
}
