//! Limit messages on days 7, 8 and 9.

use super::{
    example, header, item, item_of, query_of, raw, shows, Block, Example, Shown, HEAD, NOBODY,
    POOR, POOR_BRANCH, RICH,
};
use crate::account::TOP_VALUE;
use crate::book::Id;
use crate::command::Header;
use crate::write::{account_id, account_id_in, change, day_opening, deletion, line, query};
use crate::write::{ChangeItem, LPO_TYPE, LTK_TYPE};

/// The branch that the messages here are about.
const BRANCH: u32 = 888_012;

fn changed_to(ltk: i64) -> [ChangeItem; 1] {
    [item(BRANCH, LTK_TYPE, ltk)]
}

fn with_id(id: Id) -> Header {
    Header {
        id,
        ..header(HEAD, 0, 7, 50)
    }
}

/// Refusals on day 7, in the order of the checks.
pub fn refusals() -> Vec<Example> {
    let branch_id = account_id(BRANCH);
    let at = |id, second| header(HEAD, id, 7, second);
    let letter = with_id(*b"1000000000000000000000000000000x");
    let zero_first = with_id(*b"01234567890123456789012345678901");
    let one = changed_to(-1);
    let full = change(&at(14, 60), &[item(BRANCH, LTK_TYPE, -7); 16]);
    let longer = |surplus| [line(&full), vec![b'0'; surplus]].concat();
    vec![
        example(4, "sender unknown", change(&header(NOBODY, 1, 7, 50), &one)),
        example(0, "a change", change(&at(1, 50), &changed_to(-100))),
        example(14, "14: same id again", change(&at(1, 51), &one)),
        example(14, "14 before 15", change(&header(RICH, 1, 7, 51), &one)),
        example(14, "14 in a query", query_of(at(1, 51), &[HEAD])),
        example(
            15,
            "15: a branch sends 07",
            change(&header(BRANCH, 2, 7, 51), &one),
        ),
        example(
            15,
            "a bank without branches",
            change(&header(RICH, 2, 7, 51), &one),
        ),
        example(
            15,
            "a branch sends 08",
            deletion(&header(BRANCH, 2, 7, 51), &branch_id, 1),
        ),
        example(16, "16: id begins with 0", change(&zero_first, &one)),
        example(16, "id with a letter", query(&letter, &[branch_id])),
        example(
            16,
            "16 before 17",
            change(
                &Header {
                    moment: header(HEAD, 0, 5, 0).moment,
                    ..letter
                },
                &one,
            ),
        ),
        example(
            17,
            "17: day 5 on day 7 ●",
            change(&header(HEAD, 2, 5, 51), &one),
        ),
        example(
            17,
            "day 8 on day 7 ●",
            change(&header(HEAD, 2, 8, 51), &one),
        ),
        example(
            17,
            "day 5 in a query ●",
            query_of(header(HEAD, 2, 5, 51), &[HEAD]),
        ),
        example(
            17,
            "day 8 in a deletion ●",
            deletion(&header(HEAD, 2, 8, 51), &branch_id, 1),
        ),
        example(
            0,
            "day 6 on day 7 ●",
            query_of(header(HEAD, 2, 6, 0), &[HEAD]),
        ),
        example(
            0,
            "day 6, no earlier moment ●",
            change(&header(HEAD, 3, 6, 86_399), &[item(888_001, 1, -5)]),
        ),
        example(18, "18: same second", change(&at(4, 50), &one)),
        example(
            18,
            "earlier second",
            deletion(&at(4, 49), &branch_id, LTK_TYPE),
        ),
        example(
            18,
            "later second, earlier day",
            change(&header(HEAD, 4, 6, 51), &one),
        ),
        example(
            18,
            "18 in the last item, before 19",
            change(&at(4, 50), &[item(HEAD, 3, 0), one[0]]),
        ),
        example(19, "19: type 3", change(&at(4, 51), &[item(BRANCH, 3, 0)])),
        example(19, "type 0", deletion(&at(4, 51), &branch_id, 0)),
        example(19, "type 255", deletion(&at(4, 51), &branch_id, 255)),
        example(
            19,
            "19 in the last item, before 20",
            change(&at(4, 51), &[item(HEAD, 1, 0), item(BRANCH, 3, 0)]),
        ),
        example(
            20,
            "20: sender's own id",
            change(&at(4, 51), &[item(HEAD, 1, 0)]),
        ),
        example(
            20,
            "own id in an old second",
            change(&at(4, 0), &[item(HEAD, 1, 0)]),
        ),
        example(
            20,
            "branch of another bank",
            deletion(&at(4, 51), &account_id(POOR_BRANCH), 1),
        ),
        example(20, "unknown id", change(&at(4, 51), &[item(NOBODY, 1, 0)])),
        example(
            20,
            "`1USD`",
            change(&at(4, 51), &[item_of(account_id_in(b"1USD", BRANCH), 1, 0)]),
        ),
        example(
            20,
            "code of no digits",
            deletion(&at(4, 51), b"1UAH88801x", 1),
        ),
        example(
            20,
            "20 in the last item, before 6",
            change(&at(4, 51), &[item(BRANCH, 1, i64::MAX), item(HEAD, 1, 0)]),
        ),
        example(
            6,
            "value over 10^15, good item first",
            change(&at(4, 51), &[one[0], item(BRANCH, 2, TOP_VALUE + 1)]),
        ),
        example(
            6,
            "value under -10^15",
            change(&at(4, 51), &[item(BRANCH, 1, -TOP_VALUE - 1)]),
        ),
        shows(
            "refused: nothing changed",
            query_of(at(4, 0), &[BRANCH]),
            &[Block::Limits(Shown::InUse(-100, 0, 100, 0), Shown::Idle(0))],
        ),
        example(
            0,
            "later item wins, type LPO",
            change(
                &at(5, 51),
                &[
                    item(BRANCH, LPO_TYPE, -TOP_VALUE),
                    item(BRANCH, LTK_TYPE, -TOP_VALUE),
                    item(BRANCH, LPO_TYPE, TOP_VALUE),
                ],
            ),
        ),
        shows(
            "repeats are kept",
            query_of(at(6, 0), &[BRANCH, BRANCH]),
            &[
                Block::Limits(
                    Shown::InUse(-TOP_VALUE, 0, TOP_VALUE, 0),
                    Shown::InUse(TOP_VALUE, 10, TOP_VALUE - 10, 0),
                ),
                Block::Limits(
                    Shown::InUse(-TOP_VALUE, 0, TOP_VALUE, 0),
                    Shown::InUse(TOP_VALUE, 10, TOP_VALUE - 10, 0),
                ),
            ],
        ),
        example(
            0,
            "deletion makes LTK 0",
            deletion(&at(7, 52), &branch_id, LTK_TYPE),
        ),
        example(18, "a deletion has a moment", change(&at(8, 52), &one)),
        example(
            0,
            "deletion makes LPO 0",
            deletion(&at(8, 53), &branch_id, LPO_TYPE),
        ),
        shows(
            "both deleted, asked by the branch itself",
            query_of(header(BRANCH, 9, 7, 0), &[BRANCH]),
            &[Block::Limits(Shown::Idle(0), Shown::Idle(0))],
        ),
        example(
            21,
            "21: only `2UAH888888`",
            query(&at(10, 0), &[account_id_in(b"2UAH", HEAD)]),
        ),
        example(
            21,
            "two unknown ids",
            query(&at(10, 0), &[account_id(NOBODY), *b"1UAH88888x"]),
        ),
        shows(
            "23: `1USD888888` beside a known id",
            query(
                &at(10, 0),
                &[account_id_in(b"1USD", HEAD), account_id(HEAD)],
            ),
            &[
                Block::Number(23),
                Block::Limits(Shown::Idle(0), Shown::Idle(0)),
            ],
        ),
        shows(
            "24: branch asks for its bank",
            query_of(header(BRANCH, 11, 7, 0), &[HEAD]),
            &[Block::Number(24)],
        ),
        shows(
            "no right to another branch, another bank, its branch",
            query_of(
                header(BRANCH, 12, 7, 0),
                &[888_001, POOR, POOR_BRANCH, NOBODY],
            ),
            &[
                Block::Number(24),
                Block::Number(24),
                Block::Number(24),
                Block::Number(23),
            ],
        ),
        example(
            4,
            "unknown party asks",
            query_of(header(NOBODY, 13, 7, 0), &[HEAD]),
        ),
        example(0, "16 ids", query_of(at(13, 0), &[HEAD; 16])),
        raw(1, "16 items and a digit more", longer(1)),
        raw(1, "16 items and a byte more", longer(2)),
        raw(1, "16 items and one item more", longer(38)),
        raw(1, "16 items and far more", longer(5_000)),
        example(0, "16 items", full),
    ]
}

/// An id stays in the book for the day it was accepted and the next.
pub fn ids_over_days() -> Vec<Example> {
    vec![
        example(
            14,
            "id of day 7 on day 8",
            query_of(header(HEAD, 1, 8, 0), &[HEAD]),
        ),
        example(0, "day 9", day_opening(9)),
        example(
            0,
            "id of day 7 on day 9",
            query_of(header(HEAD, 1, 9, 0), &[HEAD]),
        ),
        example(
            18,
            "moments stay",
            change(&header(HEAD, 500, 8, 99), &[item(888_008, LTK_TYPE, 0)]),
        ),
        example(
            14,
            "an id accepted on day 8",
            query_of(header(HEAD, 300, 9, 0), &[HEAD]),
        ),
    ]
}
