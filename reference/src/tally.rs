//! What lists reach: how often each answer and each block number occurs, how
//! often in the later kinds, what a letter does to payments, and what payments
//! get inside one group and out of it.

use std::collections::BTreeMap;

use crate::answer::{Refusal, BLOCK_ID_UNKNOWN, BLOCK_NO_RIGHT};
use crate::command::{Command, Transfer};
use crate::frame::{decode, LONGEST_FRAME};
use crate::ledger::Ledger;
use crate::letters::Letter;
use crate::lone_letter::Case;
use crate::one_group;
use crate::report::{ACCOUNT_BLOCK, LIMITS_BLOCK};

/// Answers 0 to 22, blocks 23 and 24, answers 25 and 26.
const NUMBERS: usize = 27;
const ACCEPTED: usize = 0;
const BLOCKED: usize = Refusal::Blocked as usize;
const BANK_MARKED: usize = Refusal::BankMarked as usize;

/// A kind that is counted by itself.
struct Kind {
    name: &'static str,
    /// How its lines begin.
    digits: &'static [u8],
    /// The answers that it may get, and its block without an account.
    numbers: &'static [usize],
}

const KINDS: [Kind; 3] = [
    Kind {
        name: "search",
        digits: b"0b",
        numbers: &[0, 1, 4, 14, 16, 17, 21, 22, 24],
    },
    Kind {
        name: "letters",
        digits: b"0c",
        numbers: &[0, 1, 4],
    },
    Kind {
        name: "mark",
        digits: b"13",
        numbers: &[0, 1, 4, 5, 26],
    },
];
/// The search's place among them.
const SEARCH: usize = 0;

/// How many payments were accepted and how many blocked; credits, then debits.
#[derive(Clone, Copy, Debug, Default)]
pub struct Fate {
    pub accepted: [u64; 2],
    pub blocked: [u64; 2],
}

#[derive(Clone, Default)]
pub struct Tally {
    lines: u64,
    counts: [u64; NUMBERS],
    kinds: [[u64; NUMBERS]; KINDS.len()],
    /// Accounts in the reports of searches, by how many letters they show.
    shown: [u64; 1 + Letter::ALL.len()],
    /// Refusals to mark the marked bank again, and to mark another.
    marked_again: [u64; 2],
    fates: BTreeMap<Case, Fate>,
    /// Payments by the number they got.
    groups: BTreeMap<one_group::Case, [u64; NUMBERS]>,
}

impl Tally {
    /// Plays a list on a fresh ledger and counts each of its lines.
    pub fn count(&mut self, list: &[u8]) {
        let mut ledger = Ledger::new();
        let mut answer = Vec::new();
        for line in list.split_inclusive(|&byte| byte == b'\n') {
            let line = line.strip_suffix(b"\n").unwrap_or(line);
            let mut buffer = [0; LONGEST_FRAME];
            let command = decode(line, &mut buffer).and_then(Command::read);
            // The bank's limits speak before the payment moves anything.
            let group = command
                .as_ref()
                .and_then(|command| one_group::Case::of(&ledger, command));
            answer.clear();
            ledger.line(line, &mut answer);
            let number = self.count_answer(line, &answer);
            if let Some(case) = group {
                self.groups.entry(case).or_default()[number] += 1;
            }
            if let Some(command) = command {
                self.count_command(&command, number, &ledger);
            }
        }
    }

    /// Counts a line's answer and report; gives the answer's number.
    fn count_answer(&mut self, line: &[u8], answer: &[u8]) -> usize {
        let (&[tens, ones], report) = answer.split_first_chunk().expect("each line is answered");
        let kind = KINDS.iter().position(|kind| line.starts_with(kind.digits));
        let number = usize::from(tens - b'0') * 10 + usize::from(ones - b'0');
        self.lines += 1;
        self.add(kind, number);
        self.count_blocks(kind, report);
        number
    }

    /// Counts a command by its answer and by where it has led.
    fn count_command(&mut self, command: &Command, number: usize, ledger: &Ledger) {
        match *command {
            Command::Payment {
                transfer,
                sender,
                receiver,
                ..
            } => self.count_payment(transfer, Case::of(ledger, sender, receiver), number),
            Command::Mark { code } if number == BANK_MARKED => {
                let marked = ledger.central_bank();
                let is_other = marked.is_none_or(|bank| bank.code != code);
                self.marked_again[usize::from(is_other)] += 1;
            }
            _ => {}
        }
    }

    fn add(&mut self, kind: Option<usize>, number: usize) {
        self.counts[number] += 1;
        if let Some(kind) = kind {
            self.kinds[kind][number] += 1;
        }
    }

    /// Walks the blocks of a report in digits.
    fn count_blocks(&mut self, kind: Option<usize>, digits: &[u8]) {
        let (pairs, _) = digits.as_chunks();
        let mut blocks = pairs.get(1..).unwrap_or_default();
        while let Some(number) = blocks.first().map(value) {
            let length = match number {
                BLOCK_ID_UNKNOWN | BLOCK_NO_RIGHT => {
                    self.add(kind, usize::from(number));
                    1
                }
                _ if kind == Some(SEARCH) => {
                    let letters = blocks.get(ACCOUNT_BLOCK - 1).map_or(0, value);
                    self.shown[usize::from(letters)] += 1;
                    ACCOUNT_BLOCK + usize::from(letters)
                }
                _ => LIMITS_BLOCK,
            };
            blocks = blocks.get(length..).unwrap_or_default();
        }
    }

    fn count_payment(&mut self, transfer: Transfer, case: Option<Case>, number: usize) {
        let Some(case) = case else {
            return;
        };
        let fate = self.fates.entry(case).or_default();
        match number {
            ACCEPTED => fate.accepted[transfer as usize] += 1,
            BLOCKED => fate.blocked[transfer as usize] += 1,
            _ => {}
        }
    }

    pub fn is_complete(&self) -> bool {
        let is_reached = |&count: &u64| count > 0;
        let mut kinds = self.kinds();
        let mut fates = self.fates();
        let mut groups = self.groups();
        self.counts.iter().all(is_reached)
            && kinds.all(|(_, _, count)| count > 0)
            && self.shown.iter().all(is_reached)
            && self.marked_again.iter().all(is_reached)
            && fates.all(|(_, fate)| fate.is_reached())
            && groups.all(|(_, _, count)| count > 0)
    }

    pub fn lines(&self) -> u64 {
        self.lines
    }

    /// Each number with its count.
    pub fn counts(&self) -> impl Iterator<Item = (usize, u64)> + '_ {
        self.counts.iter().copied().enumerate()
    }

    /// The name of each later kind, each number it may show, and its count.
    pub fn kinds(&self) -> impl Iterator<Item = (&'static str, usize, u64)> + '_ {
        KINDS.iter().zip(&self.kinds).flat_map(|(kind, counts)| {
            let numbers = kind.numbers.iter();
            numbers.map(|&number| (kind.name, number, counts[number]))
        })
    }

    /// How many accounts the reports of searches show with 0, 1 and so on up
    /// to 5 letters.
    pub fn shown(&self) -> &[u64] {
        &self.shown
    }

    /// Refusals to mark the marked bank again, and to mark another.
    pub fn marked_again(&self) -> [u64; 2] {
        self.marked_again
    }

    /// What became of payments in each case.
    pub fn fates(&self) -> impl Iterator<Item = (Case, Fate)> + '_ {
        let fate_of = |case: &Case| self.fates.get(case).copied().unwrap_or_default();
        let cases = Case::all().into_iter();
        cases.map(move |case| (case, fate_of(&case)))
    }

    /// Each case of a payment inside one group or out of it, each number that
    /// must be reached, and its count.
    pub fn groups(&self) -> impl Iterator<Item = (one_group::Case, usize, u64)> + '_ {
        let cases = one_group::Case::all().into_iter();
        cases.flat_map(move |case| {
            let numbers = case.numbers().iter();
            numbers.map(move |&number| (case, number, self.count_in(case, number)))
        })
    }

    /// How many payments of the case got the number.
    pub fn count_in(&self, case: one_group::Case, number: usize) -> u64 {
        self.groups.get(&case).map_or(0, |counts| counts[number])
    }
}

impl Fate {
    /// Whether there were credits and debits.
    pub fn is_reached(&self) -> bool {
        let mut counts = self.accepted.iter().zip(&self.blocked);
        counts.all(|(accepted, blocked)| accepted + blocked > 0)
    }
}

fn value(digits: &[u8; 2]) -> u8 {
    let digits = std::str::from_utf8(digits).unwrap_or_default();
    u8::from_str_radix(digits, 16).unwrap_or_default()
}
