//! Blocking letters and the marked bank, on days 9 and 10. Every payment here
//! is of 1, unless its amount is the point.

use super::searches::{contains, equal};
use super::{example, header, query_of, raw, shows, Block, Example, Shown};
use super::{HEAD, NOBODY, POOR, POOR_BRANCH, RICH};
use crate::account::TOP_VALUE;
use crate::write::{bank_limits, day_opening, funding, letters, line, mark, payment};
use crate::write::{search, withdrawal, Sought, A, B, CREDIT, DEBIT, N, R, S};

/// The branch that has most of the letters, and another of the same bank.
const BRANCH: u32 = 888_001;
const SISTER: u32 = 888_002;
const ALL: u8 = A | B | N | S | R;

/// Letters, and what they answer while no bank is marked: to a credit sent, a
/// debit sent, a credit received and a debit received.
const EACH: [(&str, u8, [u8; 4]); 7] = [
    ("A: nothing sent", A, [25, 25, 0, 0]),
    ("B: nothing received", B, [0, 0, 25, 25]),
    ("N: nothing received", N, [0, 0, 25, 25]),
    ("S: no credit sent", S, [25, 0, 0, 0]),
    ("R: nothing sent", R, [25, 25, 0, 0]),
    ("all five", ALL, [25; 4]),
    ("no letter", 0, [0; 4]),
];

fn credit(sender: u32, receiver: u32) -> Vec<u8> {
    payment(CREDIT, sender, receiver, 1)
}

fn debit(sender: u32, receiver: u32) -> Vec<u8> {
    payment(DEBIT, sender, receiver, 1)
}

fn set(what: &'static str, code: u32, bits: u8) -> Example {
    example(0, what, letters(code, bits))
}

/// What a party sends to 900000 and receives from it.
fn dealings(party: u32, [one, two, three, four]: [u8; 4]) -> [Example; 4] {
    [
        example(one, "a credit sent", credit(party, RICH)),
        example(two, "a debit sent", debit(party, RICH)),
        example(three, "a credit received", credit(RICH, party)),
        example(four, "a debit received", debit(RICH, party)),
    ]
}

/// Each way in which the two kinds are ill-formed; none changes anything.
pub fn ill_formed() -> Vec<Example> {
    let refused = |what, frame: &[u8]| raw(1, what, line(frame));
    let longer = |frame: Vec<u8>, byte| [frame, vec![byte]].concat();
    let of_kind = |kind| {
        let mut frame = mark(HEAD);
        frame[0] = kind;
        frame
    };
    vec![
        raw(1, "kind of letters alone", b"0c".to_vec()),
        raw(1, "letters as short as a day", b"0c00000001".to_vec()),
        refused("letters without their byte", &letters(HEAD, A)[..7]),
        refused("letters and a byte more", &longer(letters(HEAD, A), 0)),
        refused("bit 5", &letters(HEAD, 0x20)),
        refused("bit 6", &letters(HEAD, 0x40)),
        refused("bit 7", &letters(HEAD, 0x80)),
        refused("bit 5 beside all letters", &letters(HEAD, 0x3f)),
        refused("all bits", &letters(HEAD, 0xff)),
        refused("a letter itself", &letters(HEAD, b'A')),
        refused("1 before 4", &letters(NOBODY, 0x20)),
        raw(1, "letters of no code", b"0c38383838382f00".to_vec()),
        raw(1, "kind of the mark alone", b"13".to_vec()),
        refused("a mark one digit short", &mark(HEAD)[..6]),
        refused("a mark and a byte more", &longer(mark(HEAD), 0)),
        raw(1, "a mark of no code", b"133a3838383838".to_vec()),
        refused("kind 0d, decimal 13", &of_kind(0x0d)),
        refused("kind 12", &of_kind(0x12)),
        refused("kind 14", &of_kind(0x14)),
    ]
}

/// On a branch, on its bank and on the branch alone; no bank is marked.
pub fn each_letter() -> Vec<Example> {
    let mut examples = Vec::new();
    for (what, bits, answers) in EACH {
        examples.push(set(what, BRANCH, bits));
        examples.extend(dealings(BRANCH, answers));
    }
    for (what, bits, answers) in EACH {
        examples.push(set(what, HEAD, bits));
        examples.extend(dealings(HEAD, answers));
        examples.extend(dealings(BRANCH, answers));
    }
    examples.push(set("all five on the branch", BRANCH, ALL));
    examples.extend(dealings(HEAD, [0; 4]));
    examples.extend(dealings(SISTER, [0; 4]));
    examples
}

/// Letters are set anew, hold inside one group, and stop payments alone.
pub fn set_anew() -> Vec<Example> {
    let mut examples = vec![set("A", BRANCH, A), set("S in place of A", BRANCH, S)];
    examples.extend(dealings(BRANCH, [25, 0, 0, 0]));
    examples.extend([
        set("A on the bank too", HEAD, A),
        set("none on the branch", BRANCH, 0),
        example(25, "the bank's holds", credit(BRANCH, RICH)),
        set("none on the bank", HEAD, 0),
        example(0, "no letter is left", credit(BRANCH, RICH)),
        set("S on the bank", HEAD, S),
        example(25, "25 inside one group", credit(BRANCH, SISTER)),
        example(0, "a debit inside one group", debit(BRANCH, SISTER)),
        set("N on the bank", HEAD, N),
        example(25, "N inside one group", credit(BRANCH, SISTER)),
        set("all five on the bank", HEAD, ALL),
        example(0, "a withdrawal is no payment", withdrawal(HEAD, 1)),
        example(0, "nor is a funding", funding(HEAD, 1)),
        set("none on the bank", HEAD, 0),
        set("B on the sister", SISTER, B),
        example(25, "B inside one group", credit(BRANCH, SISTER)),
        example(25, "B from its bank", debit(HEAD, SISTER)),
        example(0, "B, sent to a branch", credit(SISTER, BRANCH)),
        set("none on the sister", SISTER, 0),
    ]);
    examples
}

/// 25 comes behind 4, 7 and 6, and before 9 and all that follow.
pub fn order() -> Vec<Example> {
    let pay = |amount| payment(CREDIT, POOR, RICH, amount);
    let be_debited = |amount| payment(DEBIT, RICH, POOR, amount);
    vec![
        example(4, "letters of 111111", letters(NOBODY, A)),
        example(4, "no letter of 111111", letters(NOBODY, 0)),
        set("A and B", POOR, A | B),
        example(4, "4 before 25", credit(POOR, NOBODY)),
        example(4, "4 before 25, received", debit(NOBODY, POOR)),
        example(7, "7 before 25", credit(POOR, POOR)),
        example(6, "6 before 25", pay(0)),
        example(6, "6 before 25, received", be_debited(TOP_VALUE + 1)),
        example(25, "25 before 9, 100 of 99", pay(100)),
        example(25, "25 before 9, received", be_debited(100)),
        set("no letter", POOR, 0),
        example(9, "9 without A", pay(100)),
        example(9, "9 without B", be_debited(100)),
        example(0, "LPO -1", bank_limits(POOR, 0, -1)),
        set("S", POOR, S),
        example(25, "25 before 10", pay(1)),
        set("no letter", POOR, 0),
        example(10, "10 without S", pay(1)),
        example(0, "LPO 0", bank_limits(POOR, 0, 0)),
        set("B, LTK closed", 888_012, B),
        example(25, "25 before 11", debit(RICH, 888_012)),
        set("no letter", 888_012, 0),
        example(11, "11 without B", debit(RICH, 888_012)),
        set("R, LPO -1", 888_003, R),
        example(25, "25 before 12", credit(888_003, RICH)),
        set("no letter", 888_003, 0),
        example(12, "12 without R", credit(888_003, RICH)),
    ]
}

/// N, and 777777 marked as the central bank.
pub fn central_bank() -> Vec<Example> {
    let mut examples = vec![
        set("N on the branch", BRANCH, N),
        example(25, "no bank is marked", credit(POOR, BRANCH)),
        example(25, "from a branch of it", debit(POOR_BRANCH, BRANCH)),
        example(4, "mark 111111", mark(NOBODY)),
        example(5, "mark a branch", mark(POOR_BRANCH)),
        example(0, "mark 777777", mark(POOR)),
        example(26, "26: mark it again", mark(POOR)),
        example(26, "26: mark another bank", mark(RICH)),
        example(4, "4 before 26", mark(NOBODY)),
        example(5, "5 before 26", mark(BRANCH)),
    ];
    examples.extend(from_each(BRANCH));
    examples.extend([
        example(25, "from its own bank", credit(HEAD, BRANCH)),
        example(25, "from its sister", debit(SISTER, BRANCH)),
        set("B and N", BRANCH, B | N),
        example(25, "B from the marked bank", credit(POOR, BRANCH)),
        example(25, "B from a branch of it", debit(POOR_BRANCH, BRANCH)),
        set("no letter", BRANCH, 0),
        set("N on the bank", HEAD, N),
    ]);
    examples.extend(from_each(HEAD));
    examples.extend(from_each(BRANCH));
    examples.extend([
        example(25, "from its sister", credit(SISTER, BRANCH)),
        set("A on the marked bank", POOR, A),
        example(25, "A on the sender", credit(POOR, HEAD)),
        example(25, "A on the sender's bank", debit(POOR_BRANCH, BRANCH)),
        set("N on the marked bank", POOR, N),
        example(0, "from its own branch", credit(POOR_BRANCH, POOR)),
        example(0, "to its own branch", credit(POOR, POOR_BRANCH)),
        example(25, "from a stranger", credit(RICH, POOR)),
        example(25, "to its branch", debit(HEAD, POOR_BRANCH)),
        set("no letter", POOR, 0),
    ]);
    examples
}

/// A credit and a debit from each sender that N tells apart.
fn from_each(receiver: u32) -> Vec<Example> {
    let senders = [
        (0, "from the marked bank", POOR),
        (0, "from a branch of it", POOR_BRANCH),
        (25, "from a stranger", RICH),
    ];
    let both = |(answer, what, sender)| {
        [credit(sender, receiver), debit(sender, receiver)]
            .map(|frame| example(answer, what, frame))
    };
    senders.into_iter().flat_map(both).collect()
}

fn search_by(sender: u32, id: u32, conditions: &[Sought]) -> Vec<u8> {
    search(&header(sender, id, 10, 0), conditions)
}

/// Letters and mark stay over the night, and a search shows the letters.
pub fn next_day() -> Vec<Example> {
    let still = |code, letters| Block::Account(code, 0, [0; 4], letters);
    let no_right = || Block::Number(24);
    let head = Block::Account(HEAD, 999_712, [0; 4], "S");
    let branch = || still(BRANCH, "N");
    let mut group = vec![head, branch(), still(SISTER, ""), still(888_003, "ABNSR")];
    group.extend([still(888_004, "A"), still(888_005, "B")]);
    group.extend([still(888_006, "R"), still(888_007, "BR")]);
    group.extend((888_008..=888_013).map(|code| still(code, "")));
    let mut seen_by_branch = vec![no_right(), branch()];
    seen_by_branch.extend((0..12).map(|_| no_right()));
    vec![
        set("S on the bank", HEAD, S),
        set("N", BRANCH, N),
        set("all five", 888_003, ALL),
        set("A", 888_004, A),
        set("B", 888_005, B),
        set("R", 888_006, R),
        set("B and R", 888_007, B | R),
        example(0, "day 10", day_opening(10)),
        shows(
            "each account its own letters",
            search_by(HEAD, 700, &[equal(HEAD), contains(b"8880")]),
            &group,
        ),
        shows(
            "a branch its own",
            search_by(BRANCH, 701, &[contains(b"888")]),
            &seen_by_branch,
        ),
        shows(
            "no right, no letters",
            search_by(POOR, 702, &[equal(888_003)]),
            &[no_right()],
        ),
        shows(
            "a query shows no letters",
            query_of(header(HEAD, 703, 10, 0), &[888_003]),
            &[Block::Limits(
                Shown::InUse(-100, 0, 100, 0),
                Shown::Idle(-1),
            )],
        ),
        example(25, "S stays", credit(HEAD, RICH)),
        example(25, "for its branches too", credit(SISTER, RICH)),
        example(25, "N stays", debit(RICH, BRANCH)),
        example(26, "no other mark comes", mark(HEAD)),
        example(0, "the mark stays", credit(POOR, BRANCH)),
        set("none on the bank", HEAD, 0),
        example(0, "a credit again", credit(HEAD, RICH)),
    ]
}
