//! One list of lines that shows every answer, every example of the table of
//! answers and every marked figure on a single fresh ledger.

mod answers;
mod figures;
mod fillings;
mod groups;
mod letters;
mod messages;
mod searches;

use crate::account::Moment;
use crate::command::{AccountId, Header};
use crate::write::{self, ChangeItem};

/// One line, what it stands for, and what it must be answered.
pub struct Example {
    pub what: &'static str,
    pub line: Vec<u8>,
    pub answer: u8,
    /// The report of an accepted query or search, where the example is about it.
    pub report: Option<Vec<u8>>,
}

/// All examples in the order of play.
pub fn all() -> Vec<Example> {
    let parts = [
        answers::first_steps(),
        fillings::total_of_banks(),
        answers::ill_formed(),
        searches::ill_formed(),
        letters::ill_formed(),
        answers::accounts(),
        answers::payments(),
        messages::refusals(),
        figures::payments(),
        figures::reports(),
        figures::morning(),
        messages::ids_over_days(),
        searches::reports(),
        searches::refusals(),
        letters::each_letter(),
        letters::set_anew(),
        letters::order(),
        letters::central_bank(),
        letters::next_day(),
        fillings::turnover(),
        fillings::book(),
        groups::nothing_in_the_bank(),
        groups::limits_of_branches(),
        groups::state_of_the_bank(),
        groups::lpo_of_the_bank(),
        groups::letters_inside(),
        groups::each_answer(),
        groups::turnover(),
        groups::next_day(),
        groups::first_bank(),
        fillings::table(),
    ];
    parts.into_iter().flatten().collect()
}

/// The examples as one list; its last line lacks its end.
pub fn list() -> Vec<u8> {
    let lines: Vec<Vec<u8>> = all().into_iter().map(|example| example.line).collect();
    lines.join(&b'\n')
}

/// The head bank of most examples.
const HEAD: u32 = 888_888;
/// A head bank with little money and one branch.
const POOR: u32 = 777_777;
const POOR_BRANCH: u32 = 777_001;
/// A bank with ample funds and without branches.
const RICH: u32 = 900_000;
/// A code that nobody has.
const NOBODY: u32 = 111_111;

fn example(answer: u8, what: &'static str, frame: Vec<u8>) -> Example {
    raw(answer, what, write::line(&frame))
}

/// A line given as it stands.
fn raw(answer: u8, what: &'static str, line: Vec<u8>) -> Example {
    Example {
        what,
        line,
        answer,
        report: None,
    }
}

/// A query or search that is accepted with these blocks.
fn shows(what: &'static str, frame: Vec<u8>, blocks: &[Block]) -> Example {
    let mut report = vec![blocks.len() as u8];
    for block in blocks {
        block.write(&mut report);
    }
    Example {
        report: Some(report),
        ..example(0, what, frame)
    }
}

/// A header: sender, number of the id, day and second.
fn header(sender: u32, id: u32, day: u32, second: u32) -> Header {
    Header {
        sender,
        id: numbered_id(id),
        moment: Moment { day, second },
    }
}

/// 32 digits, the first of them 1, the last ones the number.
fn numbered_id(number: u32) -> [u8; 32] {
    let mut id = [b'0'; 32];
    id[0] = b'1';
    id[26..].copy_from_slice(&write::digits(number));
    id
}

fn item(branch: u32, kind: u8, value: i64) -> ChangeItem {
    item_of(write::account_id(branch), kind, value)
}

fn item_of(account: AccountId, kind: u8, value: i64) -> ChangeItem {
    ChangeItem {
        account,
        kind,
        value,
    }
}

/// A query for the accounts of these codes.
fn query_of(header: Header, codes: &[u32]) -> Vec<u8> {
    let ids: Vec<AccountId> = codes.iter().map(|&code| write::account_id(code)).collect();
    write::query(&header, &ids)
}

/// What a report says of one limit.
enum Shown {
    Closed,
    Idle(i64),
    /// Limit, used, left, percent.
    InUse(i64, i64, i64, u16),
}

/// What a report says of one id.
enum Block {
    Number(u8),
    Limits(Shown, Shown),
    /// Of a search: code, state, turnovers, letters.
    Account(u32, i64, [i64; 4], &'static str),
}

impl Block {
    fn write(&self, report: &mut Vec<u8>) {
        match self {
            Block::Number(number) => report.push(*number),
            Block::Limits(ltk, lpo) => {
                report.push(0);
                ltk.write(report);
                lpo.write(report);
            }
            Block::Account(code, state, turnovers, letters) => {
                report.push(0);
                report.extend(write::account_id(*code));
                report.extend(state.to_be_bytes());
                report.extend(turnovers.iter().flat_map(|turnover| turnover.to_be_bytes()));
                report.push(letters.len() as u8);
                report.extend(letters.bytes());
            }
        }
    }
}

impl Shown {
    fn write(&self, report: &mut Vec<u8>) {
        let (closed, value, mark, used, left, percent) = match *self {
            Shown::Closed => (1, 0, 0, 0, 0, 0),
            Shown::Idle(value) => (0, value, 0, 0, 0, 0),
            Shown::InUse(value, used, left, percent) => (0, value, 1, used, left, percent),
        };
        report.push(closed);
        report.extend(i64::to_be_bytes(value));
        report.push(mark);
        report.extend(i64::to_be_bytes(used));
        report.extend(i64::to_be_bytes(left));
        report.extend(u16::to_be_bytes(percent));
    }
}
