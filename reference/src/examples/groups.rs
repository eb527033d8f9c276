//! Money inside one group, on days 14 to 19; its bank has little or nothing.

use super::searches::contains;
use super::{example, header, item, query_of, shows, Block, Example, Shown};
use super::{HEAD, RICH};
use crate::account::{TOP_TURNOVER, TOP_VALUE};
use crate::command::Header;
use crate::write::{bank, bank_limits, branch, change, day_opening, funding, letters, payment};
use crate::write::{search, withdrawal, A, B, CREDIT, DEBIT, LPO_TYPE, LTK_TYPE, N, S};

/// The bank that these examples are about. In the morning the limits of one
/// branch are adjusted and those of the other closed.
const BANK: u32 = 555_555;
const BRANCH: u32 = 555_001;
const SISTER: u32 = 555_002;
/// Another bank that has nothing at first, and its branch.
const OTHER: u32 = 666_666;
const OTHER_BRANCH: u32 = 666_001;

/// A bank and two branches of it.
struct Group {
    bank: u32,
    branch: u32,
    sister: u32,
}

const GROUP: Group = Group {
    bank: BANK,
    branch: BRANCH,
    sister: SISTER,
};
/// The group of the bank that was opened first.
const FIRST: Group = Group {
    bank: HEAD,
    branch: 888_002,
    sister: 888_009,
};

/// LTK and LPO of the bank that would refuse, and at last those that would not
/// as long as the bank has money.
const LIMITS: [(&str, i64, i64); 4] = [
    ("bank LTK 10^15", TOP_VALUE, 0),
    ("bank LPO -1", 0, -1),
    ("bank LTK 10^15, LPO -10^15", TOP_VALUE, -TOP_VALUE),
    ("bank LTK 0, LPO 0", 0, 0),
];

fn credit(sender: u32, receiver: u32, amount: i64) -> Vec<u8> {
    payment(CREDIT, sender, receiver, amount)
}

fn debit(sender: u32, receiver: u32, amount: i64) -> Vec<u8> {
    payment(DEBIT, sender, receiver, amount)
}

impl Group {
    /// Each way of paying inside the group. The branch pays three times, its
    /// sister once and the bank twice; accepted, they leave all states as
    /// they were and raise each turnover of the bank three times.
    fn inside(&self, amount: i64, answers: [u8; 6]) -> [Example; 6] {
        let Group {
            bank,
            branch,
            sister,
        } = *self;
        let [one, two, three, four, five, six] = answers;
        [
            example(one, "branch to sister", credit(branch, sister, amount)),
            example(two, "branch to its bank", credit(branch, bank, amount)),
            example(three, "bank debits branch", debit(bank, branch, amount)),
            example(four, "branch debits sister", debit(branch, sister, amount)),
            example(five, "bank to its branch", credit(bank, branch, amount)),
            example(six, "branch debits its bank", debit(branch, bank, amount)),
        ]
    }

    /// 1 from the bank and from its branch, to a bank and to a branch of
    /// another one: what the credits get, and what the debits.
    fn outside(&self, credits: u8, debits: u8) -> Vec<Example> {
        let mut examples = Vec::new();
        for payer in [self.bank, self.branch] {
            for other in [RICH, OTHER_BRANCH] {
                examples.extend([
                    example(credits, "a credit outside", credit(payer, other, 1)),
                    example(debits, "a debit outside", debit(other, payer, 1)),
                ]);
            }
        }
        examples
    }

    fn limits(&self, what: &'static str, ltk: i64, lpo: i64) -> Example {
        example(0, what, bank_limits(self.bank, ltk, lpo))
    }

    /// 1 in each way inside under each pair of limits, then 43, where the bank
    /// has 42: the answers are the same each time.
    fn under_each_limit(&self, answers: [u8; 6]) -> Vec<Example> {
        let mut examples = Vec::new();
        for (what, ltk, lpo) in LIMITS {
            examples.push(self.limits(what, ltk, lpo));
            examples.extend(self.inside(1, answers));
        }
        examples.extend(self.inside(43, answers));
        examples
    }
}

/// Sets LTK and LPO of both branches.
fn limits_of_both(header: &Header, ltk: i64, lpo: i64) -> Vec<u8> {
    let items = [BRANCH, SISTER]
        .map(|code| [item(code, LTK_TYPE, ltk), item(code, LPO_TYPE, lpo)])
        .concat();
    change(header, &items)
}

/// Limits that let both branches pay.
fn room_for_both(id: u32, day: u32) -> Example {
    let frame = limits_of_both(&header(BANK, id, day, 0), -100, 0);
    example(0, "both branches LTK -100, LPO 0", frame)
}

/// What a search shows of the bank and its two branches.
fn shown(what: &'static str, id: u32, day: u32, states: [(i64, [i64; 4]); 3]) -> Example {
    let [bank, branch, sister] = states;
    let parties = [(BANK, bank), (BRANCH, branch), (SISTER, sister)];
    let blocks =
        parties.map(|(code, (state, turnovers))| Block::Account(code, state, turnovers, ""));
    let frame = search(&header(BANK, id, day, 0), &[contains(b"555")]);
    shows(what, frame, &blocks)
}

/// Day 14: the state of the bank is 0.
pub fn nothing_in_the_bank() -> Vec<Example> {
    let other_limits = change(
        &header(OTHER, 801, 14, 0),
        &[item(OTHER_BRANCH, LTK_TYPE, -100)],
    );
    let mut examples = vec![
        example(0, "bank 555555", bank(BANK)),
        example(0, "its branch", branch(BRANCH, BANK, [3, 3])),
        example(0, "another branch", branch(SISTER, BANK, [2, 2])),
        example(0, "bank 666666", bank(OTHER)),
        example(0, "its branch", branch(OTHER_BRANCH, OTHER, [0, 0])),
    ];
    examples.extend(GROUP.inside(1, [11, 11, 11, 11, 0, 0]));
    examples.extend([
        example(
            0,
            "the branch pays on what it got",
            credit(BRANCH, SISTER, 2),
        ),
        example(11, "and no more", credit(BRANCH, SISTER, 1)),
        example(9, "the bank has nothing", credit(SISTER, RICH, 2)),
        example(0, "2 back", debit(BANK, SISTER, 2)),
        room_for_both(800, 14),
        example(0, "branch of 666666 LTK -100", other_limits),
        example(11, "LTK -100, pay 101", credit(BRANCH, SISTER, 101)),
        example(11, "be debited 101", debit(BANK, BRANCH, 101)),
        example(0, "LTK -100, pay 100", credit(BRANCH, SISTER, 100)),
        example(11, "pay 1 more", credit(BRANCH, BANK, 1)),
        example(0, "the sister is debited 100", debit(BRANCH, SISTER, 100)),
    ]);
    examples.extend(GROUP.inside(30, [0; 6]));
    examples.extend([
        example(0, "and 7 more", credit(BRANCH, SISTER, 7)),
        shown(
            "both turnovers of the bank rose, its state is 0",
            802,
            14,
            [
                (0, [200, 200, 193, 193]),
                (-7, [169, 31, 161, 30]),
                (7, [0, 139, 0, 132]),
            ],
        ),
        example(9, "withdraw 1 of 0", withdrawal(BANK, 1)),
    ]);
    examples.extend(GROUP.outside(9, 9));
    examples.extend([
        example(9, "bank to bank, both have nothing", credit(BANK, OTHER, 1)),
        example(9, "branch to the other bank", credit(BRANCH, OTHER, 1)),
        example(9, "the other branch here", credit(OTHER_BRANCH, BRANCH, 1)),
        example(9, "debited from here", debit(BRANCH, OTHER_BRANCH, 1)),
        example(0, "inside its own group", credit(OTHER_BRANCH, OTHER, 1)),
    ]);
    for (what, ltk, lpo) in LIMITS {
        examples.push(GROUP.limits(what, ltk, lpo));
        examples.extend(GROUP.inside(1, [0; 6]));
        examples.extend(GROUP.outside(9, 9));
    }
    examples
}

/// Day 15: limits of branches, adjusted or closed in the morning.
pub fn limits_of_branches() -> Vec<Example> {
    let set = |id, second, items: &[_]| change(&header(BANK, id, 15, second), items);
    let mut examples = vec![
        example(0, "day 15", day_opening(15)),
        shows(
            "payments inside count: -100 less -7, 0 less 177; closed",
            query_of(header(BANK, 810, 15, 0), &[BRANCH, SISTER]),
            &[
                Block::Limits(Shown::InUse(-93, 0, 93, 0), Shown::Idle(-177)),
                Block::Limits(Shown::Closed, Shown::Closed),
            ],
        ),
    ];
    examples.extend(GROUP.inside(1, [12, 12, 0, 11, 0, 0]));
    examples.extend([
        example(11, "LTK closed, to a sister", credit(SISTER, BRANCH, 1)),
        example(11, "LTK closed, to its bank", credit(SISTER, BANK, 1)),
        example(11, "LTK closed, debited", debit(BANK, SISTER, 1)),
        example(0, "LTK closed, paid by its bank", credit(BANK, SISTER, 1)),
        example(
            0,
            "LTK -100 in place of closed",
            set(811, 1, &[item(SISTER, LTK_TYPE, -100)]),
        ),
        example(12, "LPO closed, to a sister", credit(SISTER, BRANCH, 1)),
        example(11, "11 before 12", credit(SISTER, BRANCH, 102)),
        example(0, "LPO closed, debited", debit(BANK, SISTER, 1)),
        example(
            0,
            "LPO 5 in place of closed",
            set(812, 2, &[item(SISTER, LPO_TYPE, 5)]),
        ),
        example(12, "LPO 5, pay 6", credit(SISTER, BRANCH, 6)),
        example(0, "LPO 5, pay 5", credit(SISTER, BANK, 5)),
        example(12, "LPO 5, pay 1 more", credit(SISTER, BRANCH, 1)),
        example(0, "LPO 5, be debited 6", debit(BRANCH, SISTER, 6)),
        example(9, "9 outside before 12", credit(SISTER, RICH, 1)),
    ]);
    examples
}

/// Day 16: a payment inside leaves the bank what it has.
pub fn state_of_the_bank() -> Vec<Example> {
    let mut examples = vec![
        example(0, "day 16", day_opening(16)),
        room_for_both(820, 16),
        example(0, "bank state 50", credit(RICH, BANK, 50)),
        example(9, "bank state 50, pay 51", credit(BRANCH, RICH, 51)),
        example(9, "be debited 51", debit(RICH, BRANCH, 51)),
        example(9, "the bank itself", credit(BANK, OTHER_BRANCH, 51)),
        example(0, "51 to a sister", credit(BRANCH, SISTER, 51)),
        example(0, "51 debited from the bank", debit(BRANCH, BANK, 51)),
        example(0, "51 to a branch", credit(BANK, BRANCH, 51)),
        shown(
            "bank state still 50",
            821,
            16,
            [
                (50, [102, 152, 51, 51]),
                (51, [51, 51, 51, 0]),
                (51, [0, 51, 0, 0]),
            ],
        ),
        example(9, "withdraw 51 of 50", withdrawal(BANK, 51)),
        example(0, "withdraw 50 of 50", withdrawal(BANK, 50)),
        example(9, "branch state 51, bank state 0", credit(BRANCH, RICH, 1)),
        example(9, "be debited 1", debit(OTHER_BRANCH, BRANCH, 1)),
        example(0, "51 to its bank", credit(BRANCH, BANK, 51)),
        example(9, "which has still nothing", credit(BANK, RICH, 1)),
        example(0, "fund 50", funding(BANK, 50)),
        GROUP.limits("LTK 50, as the state", 50, 0),
    ];
    examples.extend(GROUP.inside(33, [0; 6]));
    examples.extend(GROUP.outside(9, 9));
    examples.extend([
        GROUP.limits("LTK 49", 49, 0),
        example(9, "LTK 49, pay 2 of 50", credit(BRANCH, RICH, 2)),
        example(0, "LTK 49, pay 1 of 50", credit(BRANCH, RICH, 1)),
        example(9, "LTK 49, pay 1 more", credit(BRANCH, RICH, 1)),
        example(0, "LTK 49, 1 to a sister", credit(BRANCH, SISTER, 1)),
        GROUP.limits("limits back to 0", 0, 0),
        example(9, "withdraw 50 of 49", withdrawal(BANK, 50)),
    ]);
    examples
}

/// Day 17: LPO of the bank, which has 49. Credits inside are not held back by
/// it, but count.
pub fn lpo_of_the_bank() -> Vec<Example> {
    let mut examples = vec![
        example(0, "day 17", day_opening(17)),
        room_for_both(830, 17),
        GROUP.limits("LPO 5", 0, 5),
        example(10, "LPO 5, pay 6", credit(BRANCH, RICH, 6)),
        example(10, "the bank itself", credit(BANK, OTHER_BRANCH, 6)),
        example(0, "LPO 5, 5 to a sister", credit(BRANCH, SISTER, 5)),
        example(10, "they count: 1 more outside", credit(BRANCH, RICH, 1)),
        example(10, "for the bank alike", credit(BANK, OTHER, 1)),
        example(0, "a debit outside", debit(RICH, BRANCH, 1)),
        example(0, "6 to a branch", credit(BANK, BRANCH, 6)),
        GROUP.limits("LPO 12, ICDT 11", 0, 12),
        example(10, "LPO 12, pay 2", credit(BRANCH, RICH, 2)),
        example(0, "LPO 12, pay 1", credit(BRANCH, RICH, 1)),
        example(10, "LPO 12, pay 1 more", credit(BRANCH, RICH, 1)),
        example(0, "1 to its bank", credit(BRANCH, BANK, 1)),
        GROUP.limits("LPO -1", 0, -1),
    ];
    examples.extend(GROUP.inside(1, [0; 6]));
    examples.extend(GROUP.outside(10, 0));
    examples.extend([
        GROUP.limits("LPO 0", 0, 0),
        example(0, "no cap outside", credit(BRANCH, RICH, 1)),
        shown(
            "bank state 42",
            831,
            17,
            [(42, [17, 15, 3, 8]), (-5, [10, 7, 2, 4]), (5, [0, 6, 0, 1])],
        ),
    ]);
    examples
}

/// Day 17: letters hold inside, whatever the bank's limits are.
pub fn letters_inside() -> Vec<Example> {
    let set = |what, code, bits| example(0, what, letters(code, bits));
    let mut examples = vec![
        GROUP.limits("LTK 10^15, LPO -1", TOP_VALUE, -1),
        set("A on the branch", BRANCH, A),
        example(25, "25 before 11 inside", credit(BRANCH, SISTER, 96)),
        set("B on the branch", BRANCH, B),
        example(25, "received", debit(BANK, BRANCH, 96)),
        set("no letter", BRANCH, 0),
        example(11, "11 without A", credit(BRANCH, SISTER, 96)),
        example(11, "11 without B", debit(BANK, BRANCH, 96)),
    ];
    let on_bank = [
        ("B on the bank", B, [25; 6]),
        ("N on the bank", N, [25; 6]),
        ("S on the bank", S, [25, 25, 0, 0, 25, 0]),
        ("no letter", 0, [0; 6]),
    ];
    for (what, bits, answers) in on_bank {
        examples.push(set(what, BANK, bits));
        examples.extend(GROUP.inside(1, answers));
    }
    examples
}

/// Day 17: what a payment inside gets, it gets whatever its bank has.
pub fn each_answer() -> Vec<Example> {
    let at = |second| header(BANK, 832 + second, 17, second);
    let each = [
        (
            "both branches LTK 10^15",
            limits_of_both(&at(1), TOP_VALUE, 0),
            [11, 11, 11, 11, 0, 0],
        ),
        (
            "both branches LTK -10^15, LPO -1",
            limits_of_both(&at(2), -TOP_VALUE, -1),
            [12, 12, 0, 0, 0, 0],
        ),
        ("A on the bank", letters(BANK, A), [25; 6]),
        ("no letter", letters(BANK, 0), [12, 12, 0, 0, 0, 0]),
        (
            "both branches LPO 0",
            limits_of_both(&at(3), -TOP_VALUE, 0),
            [0; 6],
        ),
    ];
    let mut examples = Vec::new();
    for (what, frame, answers) in each {
        examples.push(example(0, what, frame));
        examples.extend(GROUP.under_each_limit(answers));
    }
    examples
}

/// Day 18: payments inside bring the turnovers of a bank with 42 to 10^17.
pub fn turnover() -> Vec<Example> {
    let mut examples = vec![
        example(0, "day 18", day_opening(18)),
        room_for_both(840, 18),
        example(0, "ICDT 1", credit(BANK, RICH, 1)),
    ];
    let credits = (0..99).map(|_| credit(BANK, BRANCH, TOP_VALUE));
    examples.extend(credits.map(|frame| example(0, "10^15 to a branch", frame)));
    examples.extend([
        example(8, "ICDT over 10^17", credit(BANK, BRANCH, TOP_VALUE)),
        example(0, "ICDT 10^17", credit(BANK, BRANCH, TOP_VALUE - 1)),
    ]);
    examples.extend(GROUP.inside(1, [8, 8, 0, 0, 8, 0]));
    let no_credit = change(&header(BANK, 841, 18, 1), &[item(SISTER, LPO_TYPE, -1)]);
    examples.extend([
        example(11, "11 before 8", credit(SISTER, BRANCH, 101)),
        example(0, "sister LPO -1", no_credit),
        example(12, "12 before 8", credit(SISTER, BRANCH, 1)),
        example(9, "9 outside before 8", credit(BRANCH, RICH, 42)),
        example(8, "8 outside", credit(BRANCH, RICH, 41)),
        example(0, "RCDT 10^17", credit(RICH, BANK, 1)),
        example(8, "RCDT over 10^17", credit(RICH, BANK, 1)),
    ]);
    let debits = (0..99).map(|_| debit(BRANCH, BANK, TOP_VALUE));
    examples.extend(debits.map(|frame| example(0, "10^15 debited from the bank", frame)));
    examples.extend([
        example(8, "IDDT over 10^17", debit(BRANCH, BANK, TOP_VALUE - 2)),
        example(0, "IDDT 10^17", debit(BRANCH, BANK, TOP_VALUE - 3)),
        shown(
            "all four at 10^17, bank state 42",
            842,
            18,
            [
                (42, [TOP_TURNOVER; 4]),
                (
                    2 * TOP_TURNOVER - 3,
                    [0, TOP_TURNOVER - 1, TOP_TURNOVER - 1, 1],
                ),
                (-1, [0, 0, 0, 1]),
            ],
        ),
    ]);
    examples.extend(GROUP.under_each_limit([8; 6]));
    examples
}

/// Day 19: the bank has what it had.
pub fn next_day() -> Vec<Example> {
    vec![
        example(0, "day 19", day_opening(19)),
        shows(
            "-100 less the day balance is cut; closed",
            query_of(header(BANK, 850, 19, 0), &[BRANCH, SISTER]),
            &[
                Block::Limits(Shown::InUse(-TOP_VALUE, 0, TOP_VALUE, 0), Shown::Idle(0)),
                Block::Limits(Shown::Closed, Shown::Closed),
            ],
        ),
        example(0, "10^15 to its bank", credit(BRANCH, BANK, TOP_VALUE)),
        example(11, "1 more to its bank", credit(BRANCH, BANK, 1)),
        example(11, "1 more debited", debit(SISTER, BRANCH, 1)),
        example(9, "bank state 42, pay 43", credit(BANK, RICH, 43)),
        example(9, "withdraw 43 of 42", withdrawal(BANK, 43)),
        example(0, "withdraw 42 of 42", withdrawal(BANK, 42)),
        shown(
            "bank state 0",
            851,
            19,
            [
                (0, [TOP_VALUE, TOP_VALUE, 0, 0]),
                (-TOP_VALUE, [TOP_VALUE, 0, 0, 0]),
                (0, [0; 4]),
            ],
        ),
    ]
}

/// Day 19: the group of the bank that was opened first, and money from it.
pub fn first_bank() -> Vec<Example> {
    let mut examples = vec![FIRST.limits("888888 LTK 10^15, LPO -1", TOP_VALUE, -1)];
    examples.extend(FIRST.inside(1, [0; 6]));
    examples.extend(FIRST.outside(9, 9));
    examples.push(FIRST.limits("LPO -1", 0, -1));
    examples.extend(FIRST.inside(1, [0; 6]));
    examples.extend(FIRST.outside(10, 0));
    examples.extend([
        FIRST.limits("limits back to 0", 0, 0),
        example(
            0,
            "to a branch of a bank with nothing",
            credit(FIRST.branch, BRANCH, 1),
        ),
        example(0, "to that bank", credit(FIRST.bank, BANK, 1)),
        example(9, "3 back, where 2 came", credit(BANK, FIRST.branch, 3)),
        example(0, "2 back", debit(FIRST.branch, BANK, 2)),
    ]);
    examples
}
