//! Commands, as read from the bytes of a frame.

use crate::account::{Method, Moment};
use crate::book::Id;
use crate::frame;
use crate::letters::Letters;

/// The header of a message.
#[derive(Clone, Copy, Debug)]
pub struct Header {
    pub sender: u32,
    pub id: Id,
    pub moment: Moment,
}

#[derive(Clone, Copy, Debug, PartialEq, Eq, PartialOrd, Ord)]
pub enum Transfer {
    Credit,
    Debit,
}

/// Characters of an account id.
pub const ACCOUNT_ID: usize = 10;
pub type AccountId = [u8; ACCOUNT_ID];
/// One item of a change: account id, type, value.
pub type Item = [u8; 19];

pub const MOST_ITEMS: usize = 16;
pub const MOST_CONDITIONS: usize = 8;
const LAST_SECOND: u32 = 86_399;

/// What a condition of a search says of its text and an account's id.
#[derive(Clone, Copy, Debug, PartialEq, Eq)]
pub enum Mode {
    Equal,
    Contains,
    Lacks,
}

impl Mode {
    fn from_byte(byte: u8) -> Option<Mode> {
        match byte {
            1 => Some(Mode::Equal),
            2 => Some(Mode::Contains),
            3 => Some(Mode::Lacks),
            _ => None,
        }
    }

    /// Whether a text may be so long.
    fn takes(self, length: usize) -> bool {
        match self {
            Mode::Equal => length == ACCOUNT_ID,
            Mode::Contains | Mode::Lacks => (1..=ACCOUNT_ID).contains(&length),
        }
    }
}

/// One condition of a search; the text is any bytes.
#[derive(Clone, Copy, Debug)]
pub struct Condition<'a> {
    pub mode: Mode,
    pub text: &'a [u8],
}

impl Condition<'_> {
    /// Whether an account of this id meets the condition.
    pub fn holds_of(&self, id: &AccountId) -> bool {
        match self.mode {
            Mode::Equal => id == self.text,
            Mode::Contains => stands_in(self.text, id),
            Mode::Lacks => !stands_in(self.text, id),
        }
    }
}

/// Whether the text stands in the id, wherever it begins.
fn stands_in(text: &[u8], id: &AccountId) -> bool {
    id.windows(text.len()).any(|part| part == text)
}

#[derive(Debug)]
pub enum Command<'a> {
    Bank {
        code: u32,
    },
    Branch {
        code: u32,
        owner: u32,
        methods: [Method; 2],
    },
    Funding {
        code: u32,
        amount: i64,
    },
    Withdrawal {
        code: u32,
        amount: i64,
    },
    BankLimits {
        code: u32,
        ltk: i64,
        lpo: i64,
    },
    Payment {
        transfer: Transfer,
        sender: u32,
        receiver: u32,
        amount: i64,
    },
    Change {
        header: Header,
        items: &'a [Item],
    },
    Deletion {
        header: Header,
        account: &'a AccountId,
        kind: u8,
    },
    Query {
        header: Header,
        ids: &'a [AccountId],
    },
    DayOpening {
        day: u32,
    },
    Search {
        header: Header,
        conditions: Vec<Condition<'a>>,
    },
    Letters {
        code: u32,
        letters: Letters,
    },
    Mark {
        code: u32,
    },
}

impl<'a> Command<'a> {
    /// Reads a frame, or nothing if it is ill-formed.
    pub fn read(frame: &'a [u8]) -> Option<Command<'a>> {
        let mut fields = Fields { rest: frame };
        let [kind] = *fields.take()?;
        let command = match kind {
            0x01 => Command::Bank {
                code: fields.code()?,
            },
            0x02 => Command::Branch {
                code: fields.code()?,
                owner: fields.code()?,
                methods: [fields.method()?, fields.method()?],
            },
            0x03 => Command::Funding {
                code: fields.code()?,
                amount: fields.money()?,
            },
            0x04 => Command::Withdrawal {
                code: fields.code()?,
                amount: fields.money()?,
            },
            0x05 => Command::BankLimits {
                code: fields.code()?,
                ltk: fields.money()?,
                lpo: fields.money()?,
            },
            0x06 => Command::Payment {
                transfer: fields.transfer()?,
                sender: fields.code()?,
                receiver: fields.code()?,
                amount: fields.money()?,
            },
            0x07 => Command::Change {
                header: fields.header()?,
                items: fields.list()?,
            },
            0x08 => Command::Deletion {
                header: fields.header()?,
                account: fields.take()?,
                kind: fields.byte()?,
            },
            0x09 => Command::Query {
                header: fields.header()?,
                ids: fields.list()?,
            },
            0x0a => Command::DayOpening {
                day: fields.whole()?,
            },
            0x0b => Command::Search {
                header: fields.header()?,
                conditions: fields.conditions()?,
            },
            0x0c => Command::Letters {
                code: fields.code()?,
                letters: fields.letters()?,
            },
            0x13 => Command::Mark {
                code: fields.code()?,
            },
            _ => return None,
        };
        fields.rest.is_empty().then_some(command)
    }
}

/// The parts of an item: account id, type, value.
pub fn split_item(item: &Item) -> (&AccountId, u8, i64) {
    let mut fields = Fields { rest: item };
    let parts = (fields.take(), fields.byte(), fields.money());
    match parts {
        (Some(account), Some(kind), Some(value)) => (account, kind, value),
        _ => unreachable!("an item has a fixed length"),
    }
}

/// The fields of a frame not read yet.
struct Fields<'a> {
    rest: &'a [u8],
}

impl<'a> Fields<'a> {
    fn take<const N: usize>(&mut self) -> Option<&'a [u8; N]> {
        let (field, rest) = self.rest.split_first_chunk()?;
        self.rest = rest;
        Some(field)
    }

    fn byte(&mut self) -> Option<u8> {
        self.take().map(|&[byte]| byte)
    }

    fn whole(&mut self) -> Option<u32> {
        self.take().copied().map(u32::from_be_bytes)
    }

    fn money(&mut self) -> Option<i64> {
        self.take().copied().map(i64::from_be_bytes)
    }

    fn code(&mut self) -> Option<u32> {
        self.take().and_then(frame::code)
    }

    fn method(&mut self) -> Option<Method> {
        self.byte().and_then(Method::from_byte)
    }

    fn letters(&mut self) -> Option<Letters> {
        self.byte().and_then(Letters::from_byte)
    }

    fn transfer(&mut self) -> Option<Transfer> {
        match self.byte()? {
            0 => Some(Transfer::Credit),
            1 => Some(Transfer::Debit),
            _ => None,
        }
    }

    fn header(&mut self) -> Option<Header> {
        let sender = self.code()?;
        let id = *self.take()?;
        let day = self.whole()?;
        let second = self.whole()?;
        (second <= LAST_SECOND).then_some(Header {
            sender,
            id,
            moment: Moment { day, second },
        })
    }

    /// A count of 1 to 16 and exactly so many elements, up to the frame's end.
    fn list<const N: usize>(&mut self) -> Option<&'a [[u8; N]]> {
        let count = usize::from(self.byte()?);
        let (elements, surplus) = self.rest.as_chunks();
        if !(1..=MOST_ITEMS).contains(&count) || elements.len() != count || !surplus.is_empty() {
            return None;
        }
        self.rest = surplus;
        Some(elements)
    }

    /// A count of 1 to 8 and so many conditions, each as long as it says.
    fn conditions(&mut self) -> Option<Vec<Condition<'a>>> {
        let count = usize::from(self.byte()?);
        if !(1..=MOST_CONDITIONS).contains(&count) {
            return None;
        }
        (0..count).map(|_| self.condition()).collect()
    }

    /// Mode, length and that much text.
    fn condition(&mut self) -> Option<Condition<'a>> {
        let mode = self.byte().and_then(Mode::from_byte)?;
        let length = usize::from(self.byte()?);
        if !mode.takes(length) {
            return None;
        }
        let (text, rest) = self.rest.split_at_checked(length)?;
        self.rest = rest;
        Some(Condition { mode, text })
    }
}
