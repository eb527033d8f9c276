//! Searches on day 9, where 17 accounts stand: 888888, 900000, 777777, 777001
//! and 888001 to 888013, in this order.

use super::{example, header, query_of, raw, shows, Block, Example};
use super::{HEAD, NOBODY, POOR, POOR_BRANCH, RICH};
use crate::command::Header;
use crate::write::{account_id, line, payment, search, Sought};
use crate::write::{CONTAINS, CREDIT, DEBIT, EQUAL, LACKS};

/// The branch that pays and is paid here.
const BRANCH: u32 = 888_001;

fn sought(mode: u8, text: &[u8]) -> Sought {
    Sought {
        mode,
        text: text.into(),
    }
}

pub fn equal(code: u32) -> Sought {
    sought(EQUAL, &account_id(code))
}

pub fn contains(text: &[u8]) -> Sought {
    sought(CONTAINS, text)
}

fn lacks(text: &[u8]) -> Sought {
    sought(LACKS, text)
}

fn search_by(sender: u32, id: u32, conditions: &[Sought]) -> Vec<u8> {
    search(&header(sender, id, 9, 0), conditions)
}

/// An account without turnovers and letters.
fn still(code: u32, state: i64) -> Block {
    Block::Account(code, state, [0; 4], "")
}

fn no_right() -> Block {
    Block::Number(24)
}

/// Each way in which a search is ill-formed; none of them changes anything.
pub fn ill_formed() -> Vec<Example> {
    let on = |header: Header, conditions: &[Sought]| search(&header, conditions);
    let of = |conditions: &[Sought]| on(header(HEAD, 1, 0, 0), conditions);
    let one = of(&[contains(b"888")]);
    let ten = of(&[equal(HEAD)]);
    let refused = |what, frame: Vec<u8>| raw(1, what, line(&frame));
    let wrong = |what, place: usize, byte| {
        let mut frame = one.clone();
        frame[place] = byte;
        refused(what, frame)
    };
    vec![
        raw(1, "kind of a search alone", b"0b".to_vec()),
        refused("header alone", one[..47].into()),
        refused("no condition", of(&[])),
        refused("9 conditions", of(&vec![contains(b"8"); 9])),
        wrong("count 0 and a condition", 47, 0),
        wrong("count 2 and one condition", 47, 2),
        wrong("count 255", 47, 255),
        refused("count and no condition", one[..48].into()),
        refused("mode and no length", one[..49].into()),
        refused("length and no text", one[..50].into()),
        refused("text a byte short", one[..52].into()),
        refused("text a byte long", [&one[..], b"8"].concat()),
        refused("a condition more", [&one[..], &one[48..]].concat()),
        refused("mode 0", of(&[sought(0, b"888")])),
        refused("mode 0 and ten", of(&[sought(0, &account_id(HEAD))])),
        refused("mode 4", of(&[sought(4, b"888")])),
        refused("mode 255", of(&[sought(255, &account_id(HEAD))])),
        refused("contains of length 0", of(&[contains(b"")])),
        refused("lacks of length 0", of(&[lacks(b"")])),
        refused("contains of length 11", of(&[contains(b"1UAH8888888")])),
        refused("lacks of length 11", of(&[lacks(b"1UAH8888888")])),
        wrong("length 255", 49, 255),
        refused("equal of length 9", of(&[sought(EQUAL, b"1UAH88888")])),
        refused("equal of length 6", of(&[sought(EQUAL, b"888888")])),
        refused("equal of length 1", of(&[sought(EQUAL, b"1")])),
        refused("equal of length 11", of(&[sought(EQUAL, b"1UAH8888888")])),
        refused("equal of length 0", of(&[sought(EQUAL, b"")])),
        refused("equal, text a byte short", ten[..59].into()),
        refused("equal, text a byte long", [&ten[..], b"8"].concat()),
        refused(
            "equal of length 9 behind a good condition",
            of(&[contains(b"888"), sought(EQUAL, b"1UAH88888")]),
        ),
        wrong("sender no digits", 6, b'x'),
        refused(
            "search in second 86,400",
            on(header(HEAD, 1, 0, 86_400), &[contains(b"888")]),
        ),
    ]
}

/// What is selected and what is shown of it.
pub fn reports() -> Vec<Example> {
    let paid = |transfer, sender, receiver, amount| {
        example(
            0,
            "to and from",
            payment(transfer, sender, receiver, amount),
        )
    };
    let branch = || Block::Account(BRANCH, 13, [20, 30, 7, 4], "");
    let head = || Block::Account(HEAD, 999_709, [20, 30, 7, 4], "");
    let rich = || Block::Account(RICH, 999_999_999_999_000_192, [30, 20, 4, 7], "");
    let poor = || still(POOR, 99);
    let poor_branch = || still(POOR_BRANCH, 0);
    let found = |what, id, sender, conditions: &[Sought], blocks: &[Block]| {
        shows(what, search_by(sender, id, conditions), blocks)
    };
    let not_found =
        |what, conditions: &[Sought]| example(21, what, search_by(HEAD, 699, conditions));
    let strangers = |count| (0..count).map(|_| no_right());
    let mut eight = vec![contains(b"x"); 7];
    eight.push(contains(b"13"));
    vec![
        paid(CREDIT, RICH, BRANCH, 30),
        paid(CREDIT, BRANCH, RICH, 20),
        paid(DEBIT, BRANCH, RICH, 7),
        paid(DEBIT, RICH, BRANCH, 4),
        found("equal: its own", 600, HEAD, &[equal(HEAD)], &[head()]),
        found(
            "equal: its branch",
            601,
            HEAD,
            &[equal(BRANCH)],
            &[branch()],
        ),
        found(
            "equal: a stranger",
            602,
            HEAD,
            &[equal(POOR)],
            &[no_right()],
        ),
        found(
            "a branch its own",
            603,
            BRANCH,
            &[equal(BRANCH)],
            &[branch()],
        ),
        found(
            "a branch its bank",
            604,
            BRANCH,
            &[equal(HEAD)],
            &[no_right()],
        ),
        not_found("21: equal, nobody has it", &[equal(NOBODY)]),
        not_found("equal: `2UAH888888`", &[sought(EQUAL, b"2UAH888888")]),
        found(
            "contains",
            605,
            POOR,
            &[contains(b"777")],
            &[poor(), poor_branch()],
        ),
        found(
            "contains at the first place",
            606,
            RICH,
            &[contains(b"1UAH9")],
            &[rich()],
        ),
        found(
            "contains at the last place",
            607,
            POOR,
            &[contains(b"001")],
            &[poor_branch(), no_right()],
        ),
        found(
            "the last place alone",
            608,
            HEAD,
            &[contains(b"9")],
            &[no_right(), still(888_009, 0)],
        ),
        found(
            "contains all ten",
            609,
            HEAD,
            &[contains(b"1UAH888001")],
            &[branch()],
        ),
        found(
            "a part of it stands before it",
            610,
            HEAD,
            &[contains(b"88001")],
            &[branch()],
        ),
        found(
            "not from the end to the beginning",
            611,
            HEAD,
            &[contains(b"11")],
            &[still(888_011, 0)],
        ),
        not_found("past the end", &[contains(b"80011")]),
        not_found("ten others", &[contains(b"1UAH888014")]),
        found(
            "lacks",
            612,
            RICH,
            &[lacks(b"8")],
            &[rich(), no_right(), no_right()],
        ),
        found(
            "lacks all ten",
            613,
            POOR,
            &[lacks(b"1UAH888888")],
            &[no_right(), poor(), poor_branch()]
                .into_iter()
                .chain(strangers(13))
                .collect::<Vec<Block>>(),
        ),
        not_found("lacks what all have", &[lacks(b"1UAH")]),
        not_found("lacks one character", &[lacks(b"1")]),
        not_found(
            "bytes of no text",
            &[contains(b"\x00"), contains(b"\xff\n\x80")],
        ),
        not_found("a byte 00 behind a part", &[contains(b"888\x00")]),
        not_found("lowercase", &[contains(b"uah")]),
        found(
            "lacks bytes of no text: all",
            614,
            RICH,
            &[lacks(b"\xff\x00\n")],
            &[no_right(), rich()]
                .into_iter()
                .chain(strangers(15))
                .collect::<Vec<Block>>(),
        ),
        found(
            "met twice and three times, shown once",
            615,
            POOR,
            &[
                contains(b"77"),
                contains(b"7001"),
                equal(POOR_BRANCH),
                contains(b"77"),
            ],
            &[poor(), poor_branch()],
        ),
        found(
            "in table order",
            616,
            POOR,
            &[equal(888_002), equal(POOR_BRANCH), equal(RICH)],
            &[no_right(), poor_branch(), no_right()],
        ),
        found(
            "contains or lacks",
            617,
            HEAD,
            &[contains(b"012"), lacks(b"88")],
            &[no_right(), no_right(), no_right(), still(888_012, 0)],
        ),
        found(
            "the second condition alone",
            618,
            POOR,
            &[equal(NOBODY), contains(b"7777")],
            &[poor()],
        ),
        found(
            "the last of eight alone",
            619,
            HEAD,
            &eight,
            &[still(888_013, 0)],
        ),
        found(
            "none of them its own",
            620,
            RICH,
            &[contains(b"777")],
            &[no_right(), no_right()],
        ),
    ]
}

/// Refusals in the order of the checks.
pub fn refusals() -> Vec<Example> {
    let all = [contains(b"1UAH")];
    let none = [contains(b"x")];
    let on =
        |sender, id, day, conditions: &[Sought]| search(&header(sender, id, day, 0), conditions);
    let with_id = |id: &[u8; 32], day| {
        let header = Header {
            id: *id,
            ..header(HEAD, 0, day, 0)
        };
        search(&header, &all)
    };
    vec![
        example(4, "unknown party searches", search_by(NOBODY, 650, &all)),
        example(4, "4 before 14", search_by(NOBODY, 600, &all)),
        example(14, "id of a search again", search_by(HEAD, 600, &all)),
        example(
            14,
            "and in a query",
            query_of(header(HEAD, 600, 9, 0), &[HEAD]),
        ),
        example(14, "id of a query in a search", search_by(HEAD, 1, &all)),
        example(14, "14 before 17", on(HEAD, 600, 7, &all)),
        example(
            16,
            "id begins with 0",
            with_id(b"01234567890123456789012345678901", 9),
        ),
        example(
            16,
            "16 before 17",
            with_id(b"1000000000000000000000000000000x", 7),
        ),
        example(17, "day 7 on day 9", on(HEAD, 650, 7, &all)),
        example(17, "day 10 on day 9", on(HEAD, 650, 10, &all)),
        example(17, "17 before 21", on(HEAD, 650, 7, &none)),
        example(21, "no account selected", search_by(HEAD, 650, &none)),
        example(0, "refused: its id is free, day 8", on(HEAD, 650, 8, &all)),
    ]
}
