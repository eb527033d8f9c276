//! Frames from commands. Nothing is checked, so that ill-formed frames can be
//! written too.

use crate::account::Moment;
use crate::command::{AccountId, Header};
use crate::frame::encode;

pub const CREDIT: u8 = 0;
pub const DEBIT: u8 = 1;

/// Type of the limits in items.
pub const LTK_TYPE: u8 = 1;
pub const LPO_TYPE: u8 = 2;

/// Modes of a search's conditions.
pub const EQUAL: u8 = 1;
pub const CONTAINS: u8 = 2;
pub const LACKS: u8 = 3;

/// The letters, as bits.
pub const A: u8 = 1;
pub const B: u8 = 2;
pub const N: u8 = 4;
pub const S: u8 = 8;
pub const R: u8 = 16;

/// One item of a change.
#[derive(Clone, Copy, Debug)]
pub struct ChangeItem {
    pub account: AccountId,
    pub kind: u8,
    pub value: i64,
}

/// One condition of a search.
#[derive(Clone, Debug)]
pub struct Sought {
    pub mode: u8,
    pub text: Vec<u8>,
}

pub fn bank(code: u32) -> Vec<u8> {
    frame(0x01, &[&digits(code)])
}

pub fn branch(code: u32, owner: u32, methods: [u8; 2]) -> Vec<u8> {
    frame(0x02, &[&digits(code), &digits(owner), &methods])
}

pub fn funding(code: u32, amount: i64) -> Vec<u8> {
    frame(0x03, &[&digits(code), &amount.to_be_bytes()])
}

pub fn withdrawal(code: u32, amount: i64) -> Vec<u8> {
    frame(0x04, &[&digits(code), &amount.to_be_bytes()])
}

pub fn bank_limits(code: u32, ltk: i64, lpo: i64) -> Vec<u8> {
    let fields: [&[u8]; 3] = [&digits(code), &ltk.to_be_bytes(), &lpo.to_be_bytes()];
    frame(0x05, &fields)
}

pub fn payment(transfer: u8, sender: u32, receiver: u32, amount: i64) -> Vec<u8> {
    let (sender, receiver) = (digits(sender), digits(receiver));
    let fields: [&[u8]; 4] = [&[transfer], &sender, &receiver, &amount.to_be_bytes()];
    frame(0x06, &fields)
}

pub fn change(header: &Header, items: &[ChangeItem]) -> Vec<u8> {
    let mut bytes = message(0x07, header);
    bytes.push(items.len() as u8);
    for item in items {
        bytes.extend(item.account);
        bytes.push(item.kind);
        bytes.extend(item.value.to_be_bytes());
    }
    bytes
}

pub fn deletion(header: &Header, account: &AccountId, kind: u8) -> Vec<u8> {
    let mut bytes = message(0x08, header);
    bytes.extend(account);
    bytes.push(kind);
    bytes
}

pub fn query(header: &Header, ids: &[AccountId]) -> Vec<u8> {
    let mut bytes = message(0x09, header);
    bytes.push(ids.len() as u8);
    bytes.extend(ids.iter().flatten());
    bytes
}

pub fn day_opening(day: u32) -> Vec<u8> {
    frame(0x0a, &[&day.to_be_bytes()])
}

pub fn search(header: &Header, conditions: &[Sought]) -> Vec<u8> {
    let mut bytes = message(0x0b, header);
    bytes.push(conditions.len() as u8);
    for condition in conditions {
        bytes.push(condition.mode);
        bytes.push(condition.text.len() as u8);
        bytes.extend(&condition.text);
    }
    bytes
}

pub fn letters(code: u32, bits: u8) -> Vec<u8> {
    frame(0x0c, &[&digits(code), &[bits]])
}

pub fn mark(code: u32) -> Vec<u8> {
    frame(0x13, &[&digits(code)])
}

/// The frame as a line, without its end.
pub fn line(frame: &[u8]) -> Vec<u8> {
    let mut line = Vec::with_capacity(2 * frame.len());
    encode(frame, &mut line);
    line
}

/// Six digits of a code.
pub fn digits(code: u32) -> [u8; 6] {
    let mut rest = code;
    let mut digits = [b'0'; 6];
    for digit in digits.iter_mut().rev() {
        *digit += (rest % 10) as u8;
        rest /= 10;
    }
    digits
}

pub fn account_id(code: u32) -> AccountId {
    account_id_in(b"1UAH", code)
}

/// An account id with any four characters in front.
pub fn account_id_in(prefix: &[u8; 4], code: u32) -> AccountId {
    let mut id = [0; 10];
    id[..4].copy_from_slice(prefix);
    id[4..].copy_from_slice(&digits(code));
    id
}

fn frame(kind: u8, fields: &[&[u8]]) -> Vec<u8> {
    let mut bytes = vec![kind];
    bytes.extend(fields.concat());
    bytes
}

fn message(kind: u8, header: &Header) -> Vec<u8> {
    let Moment { day, second } = header.moment;
    let sender = digits(header.sender);
    let fields: [&[u8]; 4] = [
        &sender,
        &header.id,
        &day.to_be_bytes(),
        &second.to_be_bytes(),
    ];
    frame(kind, &fields)
}
