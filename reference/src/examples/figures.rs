//! The marked figures, each on a branch of its own, on days 7 and 8.

use super::{example, header, item, query_of, shows, Block, Example, Shown};
use super::{HEAD, POOR, POOR_BRANCH, RICH};
use crate::account::TOP_VALUE;
use crate::write::{account_id, change, day_opening, deletion, payment};
use crate::write::{CREDIT, DEBIT, LPO_TYPE, LTK_TYPE};

fn credit(sender: u32, receiver: u32, amount: i64) -> Vec<u8> {
    payment(CREDIT, sender, receiver, amount)
}

/// Sets a limit of a branch on day 7.
fn limit(id: u32, branch: u32, kind: u8, value: i64) -> Vec<u8> {
    change(&header(HEAD, id, 7, id), &[item(branch, kind, value)])
}

/// Sets LTK -100 and an LPO of a branch on day 7.
fn limits(id: u32, branch: u32, lpo: i64) -> Vec<u8> {
    let items = [item(branch, LTK_TYPE, -100), item(branch, LPO_TYPE, lpo)];
    change(&header(HEAD, id, 7, id), &items)
}

fn query(id: u32, day: u32, branches: &[u32]) -> Vec<u8> {
    query_of(header(HEAD, id, day, 0), branches)
}

pub fn payments() -> Vec<Example> {
    let poor = header(POOR, 103, 7, 103);
    let poor_items = [item(POOR_BRANCH, LTK_TYPE, -100)];
    vec![
        example(0, "LTK -100, LPO 0", limits(100, 888_001, 0)),
        example(
            11,
            "● 11: LTK -100, pay 101 from 0",
            credit(888_001, RICH, 101),
        ),
        example(0, "● pay 100", credit(888_001, RICH, 100)),
        example(11, "pay 1 more", credit(888_001, RICH, 1)),
        example(0, "LTK -100, LPO 50", limits(101, 888_002, 50)),
        example(12, "● LPO 50, pay 51", credit(888_002, RICH, 51)),
        example(0, "● LPO 50, pay 50", credit(888_002, RICH, 50)),
        example(12, "LPO 50, pay 1 more", credit(888_002, RICH, 1)),
        example(11, "11 before 12", credit(888_002, RICH, 51)),
        example(0, "LTK -100, LPO -1", limits(102, 888_003, -1)),
        example(12, "● 12: LPO -1, pay 1", credit(888_003, RICH, 1)),
        example(
            0,
            "● LPO -1, debited 100",
            payment(DEBIT, RICH, 888_003, 100),
        ),
        example(
            11,
            "LPO -1, debited 1 more",
            payment(DEBIT, RICH, 888_003, 1),
        ),
        example(0, "bank state 99", credit(RICH, POOR, 99)),
        example(0, "its branch LTK -100", change(&poor, &poor_items)),
        example(
            9,
            "● bank state 99, pay 101",
            credit(POOR_BRANCH, RICH, 101),
        ),
        example(9, "bank state 99, pay 100", credit(POOR_BRANCH, RICH, 100)),
        example(0, "bank state 99, pay 99", credit(POOR_BRANCH, RICH, 99)),
        example(9, "bank state 0, pay 1", credit(POOR_BRANCH, RICH, 1)),
        example(0, "99 back", credit(RICH, POOR_BRANCH, 99)),
        example(11, "inside one group no 9", credit(POOR_BRANCH, POOR, 101)),
        example(
            0,
            "bank state 99, pay it 100",
            credit(POOR_BRANCH, POOR, 100),
        ),
    ]
}

pub fn reports() -> Vec<Example> {
    let in_use = |used, left, percent| {
        [Block::Limits(
            Shown::InUse(-100, used, left, percent),
            Shown::Idle(0),
        )]
    };
    vec![
        example(0, "LTK -100, LPO 0", limits(110, 888_004, 0)),
        example(0, "state -30", credit(888_004, RICH, 30)),
        shows(
            "● state -30: -30, 70, 3000",
            query(111, 7, &[888_004]),
            &in_use(-30, 70, 3_000),
        ),
        example(0, "LTK -200", limit(112, 888_004, LTK_TYPE, -200)),
        example(0, "state -130", credit(888_004, RICH, 100)),
        example(0, "LTK -100", limit(113, 888_004, LTK_TYPE, -100)),
        shows(
            "● state -130: -100, 0, 10000",
            query(114, 7, &[888_004]),
            &in_use(-100, 0, 10_000),
        ),
        example(0, "state 20", credit(RICH, 888_004, 150)),
        shows(
            "● state 20: 0, 120, 0",
            query(115, 7, &[888_004]),
            &in_use(0, 120, 0),
        ),
        example(0, "LTK -100, LPO 3", limits(116, 888_005, 3)),
        example(0, "ICDT 1", credit(888_005, RICH, 1)),
        shows(
            "● LPO 3, ICDT 1: 1, 2, 3333",
            query(117, 7, &[888_005]),
            &[Block::Limits(
                Shown::InUse(-100, -1, 99, 100),
                Shown::InUse(3, 1, 2, 3_333),
            )],
        ),
        example(0, "ICDT 3", credit(888_005, RICH, 2)),
        example(0, "LPO 2 under ICDT 3", limit(120, 888_005, LPO_TYPE, 2)),
        shows(
            "used is at most LPO",
            query(121, 7, &[888_005]),
            &[Block::Limits(
                Shown::InUse(-100, -3, 97, 300),
                Shown::InUse(2, 2, 0, 10_000),
            )],
        ),
    ]
}

/// Day 7 ends. The methods of 888006 and on are 33, 33, 22, 11, 02, 33, 23, 33.
pub fn morning() -> Vec<Example> {
    let pair = |id, branch, ltk, lpo| {
        let items = [item(branch, LTK_TYPE, ltk), item(branch, LPO_TYPE, lpo)];
        change(&header(HEAD, id, 7, id), &items)
    };
    let day_8 = |id, second, kind, value| {
        change(&header(HEAD, id, 8, second), &[item(888_008, kind, value)])
    };
    let seen = [
        888_006, 888_007, 888_008, 888_009, 888_010, 888_011, 888_013,
    ];
    let deleted = deletion(&header(HEAD, 304, 8, 7), &account_id(888_008), LTK_TYPE);
    vec![
        example(0, "LTK -100, LPO 100", limits(130, 888_006, 100)),
        example(0, "ICDT 40", credit(888_006, RICH, 40)),
        example(0, "balance -30", credit(RICH, 888_006, 10)),
        example(0, "LTK -100, LPO 0", limits(131, 888_007, 0)),
        example(0, "ICDT 40", credit(888_007, RICH, 40)),
        example(0, "to be closed", limits(132, 888_008, 5)),
        example(0, "to be set to 0", limits(133, 888_009, 5)),
        example(0, "LTK kept, LPO to be closed", limits(134, 888_010, 5)),
        example(0, "balance 1, ICDT 40", credit(RICH, 888_011, 41)),
        example(0, "balance 1, ICDT 40", credit(888_011, RICH, 40)),
        example(
            0,
            "lowest limits",
            pair(135, 888_011, -TOP_VALUE, -TOP_VALUE),
        ),
        example(0, "LTK -100, LPO 0", limits(136, 888_013, 0)),
        example(0, "balance -1, ICDT 1", credit(888_013, RICH, 1)),
        example(
            0,
            "highest limits",
            pair(137, 888_013, TOP_VALUE, TOP_VALUE),
        ),
        example(0, "day 8 on day 7", day_opening(8)),
        shows(
            "● adjust: -70 and 60; -60 and ● -40; closed; 0; kept and closed; cut",
            query(300, 8, &seen),
            &[
                Block::Limits(Shown::InUse(-70, 0, 70, 0), Shown::InUse(60, 0, 60, 0)),
                Block::Limits(Shown::InUse(-60, 0, 60, 0), Shown::Idle(-40)),
                Block::Limits(Shown::Closed, Shown::Closed),
                Block::Limits(Shown::Idle(0), Shown::Idle(0)),
                Block::Limits(Shown::InUse(-100, 0, 100, 0), Shown::Closed),
                Block::Limits(
                    Shown::InUse(-TOP_VALUE, 0, TOP_VALUE, 0),
                    Shown::Idle(-TOP_VALUE),
                ),
                Block::Limits(
                    Shown::Idle(TOP_VALUE),
                    Shown::InUse(TOP_VALUE - 1, 0, TOP_VALUE - 1, 0),
                ),
            ],
        ),
        example(11, "LTK closed", credit(888_008, RICH, 1)),
        example(11, "LTK closed, debit", payment(DEBIT, RICH, 888_008, 1)),
        example(12, "LPO closed", credit(888_010, RICH, 1)),
        example(0, "LPO closed, debit", payment(DEBIT, RICH, 888_010, 1)),
        example(12, "LPO -40 after adjusting", credit(888_007, RICH, 1)),
        example(0, "a closed limit is deleted", deleted),
        shows(
            "● closed, deleted: closed",
            query(305, 8, &[888_008]),
            &[Block::Limits(Shown::Closed, Shown::Closed)],
        ),
        example(0, "changed to -100", day_8(306, 100, LTK_TYPE, -100)),
        shows(
            "● closed, changed to -100: -100",
            query(307, 8, &[888_008]),
            &[Block::Limits(Shown::InUse(-100, 0, 100, 0), Shown::Closed)],
        ),
        example(12, "LTK open, LPO still closed", credit(888_008, RICH, 1)),
    ]
}
