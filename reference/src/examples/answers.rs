//! Lines, accounts and payments.

use super::{example, header, item, query_of, raw, Example, HEAD, NOBODY, POOR, POOR_BRANCH, RICH};
use crate::account::TOP_VALUE;
use crate::write::{
    bank, bank_limits, branch, change, day_opening, deletion, funding, line, payment, withdrawal,
    CREDIT, DEBIT,
};

/// The example of the program's description, taken a few steps further.
pub fn first_steps() -> Vec<Example> {
    let asked_on = |day: u32| query_of(header(HEAD, 900 + day % 10, day, 0), &[HEAD]);
    vec![
        example(0, "bank opened", bank(HEAD)),
        example(0, "1,000 funded", funding(HEAD, 1_000)),
        example(9, "9: withdraw 1,001 of 1,000", withdrawal(HEAD, 1_001)),
        example(0, "withdraw 1,000 of 1,000", withdrawal(HEAD, 1_000)),
        example(9, "withdraw 1 of 0", withdrawal(HEAD, 1)),
        example(0, "day 0 on day 0", asked_on(0)),
        example(17, "no day is one less than 0", asked_on(u32::MAX)),
        example(17, "day 1 on day 0", asked_on(1)),
    ]
}

/// Each kind of ill-formed line; none of them changes anything.
pub fn ill_formed() -> Vec<Example> {
    let change_of = |items: usize| change(&header(HEAD, 1, 0, 0), &vec![item(1, 1, 0); items]);
    let query_for = |ids: usize| query_of(header(HEAD, 1, 0, 0), &vec![HEAD; ids]);
    let late = header(HEAD, 1, 0, 86_400);
    vec![
        raw(1, "1: empty line", Vec::new()),
        raw(1, "uppercase digits", b"0A00000001".to_vec()),
        raw(1, "one digit", b"0".to_vec()),
        raw(1, "odd number of digits", b"0a0000001".to_vec()),
        raw(1, "line ended by 0d 0a", b"0a00000001\r".to_vec()),
        raw(1, "space in front", b" 0a00000001".to_vec()),
        raw(1, "spaces for digits", b"0a000000 1".to_vec()),
        raw(1, "bytes of no text", b"\x00\xff\x80\x7f".to_vec()),
        raw(1, "longer than any frame", vec![b'0'; 706]),
        raw(1, "far longer", vec![b'a'; 5_000]),
        raw(1, "unknown kind 00", b"00".to_vec()),
        raw(1, "unknown kind 0d", b"0d00000001".to_vec()),
        raw(1, "a search as short as a day", b"0b00000001".to_vec()),
        raw(1, "unknown kind ff", b"ff".to_vec()),
        raw(1, "kind alone", b"01".to_vec()),
        raw(1, "day of 3 bytes", b"0a000001".to_vec()),
        raw(1, "day of 5 bytes", b"0a0000000001".to_vec()),
        raw(1, "code with a letter", b"0138383838383a".to_vec()),
        raw(1, "code too short", b"013838383838".to_vec()),
        raw(1, "code too long", b"0138383838383838".to_vec()),
        raw(1, "LTK method 4", line(&branch(NOBODY, HEAD, [4, 0]))),
        raw(1, "LPO method 255", line(&branch(NOBODY, HEAD, [0, 255]))),
        raw(1, "payment byte 2", line(&payment(2, HEAD, RICH, 1))),
        raw(1, "change in second 86,400", line(&change(&late, &[]))),
        raw(
            1,
            "deletion in second 86,400",
            line(&deletion(&late, b"1UAH888001", 1)),
        ),
        raw(1, "query in second 86,400", line(&query_of(late, &[HEAD]))),
        raw(1, "change of no item", line(&change_of(0))),
        raw(1, "change of 17 items", line(&change_of(17))),
        raw(1, "query for no id", line(&query_for(0))),
        raw(1, "query for 17 ids", line(&query_for(17))),
        raw(1, "query one id short", line(&query_for(2)[..58])),
        raw(
            1,
            "query one byte long",
            line(&[query_for(1), vec![0]].concat()),
        ),
    ]
}

pub fn accounts() -> Vec<Example> {
    let mut examples = vec![
        example(2, "2: bank 888888 twice", bank(HEAD)),
        example(0, "bank 777777", bank(POOR)),
        example(0, "its branch", branch(POOR_BRANCH, POOR, [0, 0])),
        example(2, "branch as bank again", bank(POOR_BRANCH)),
        example(2, "2 before 4", branch(HEAD, NOBODY, [0, 0])),
        example(4, "4: fund 111111", funding(NOBODY, 1)),
        example(4, "4 before 6", withdrawal(NOBODY, 0)),
        example(4, "limits of 111111", bank_limits(NOBODY, 0, 0)),
        example(4, "owner unknown", branch(NOBODY, 222_222, [0, 0])),
        example(4, "owner of itself", branch(NOBODY, NOBODY, [0, 0])),
        example(5, "5: fund a branch", funding(POOR_BRANCH, 1)),
        example(5, "5 before 6", withdrawal(POOR_BRANCH, 0)),
        example(5, "limits of a branch", bank_limits(POOR_BRANCH, 0, 0)),
        example(5, "owner a branch", branch(NOBODY, POOR_BRANCH, [0, 0])),
        example(6, "fund 0", funding(HEAD, 0)),
        example(6, "fund -1", funding(HEAD, -1)),
        example(6, "fund over 10^15", funding(HEAD, TOP_VALUE + 1)),
        example(6, "fund the lowest", funding(HEAD, i64::MIN)),
        example(6, "withdraw the highest", withdrawal(HEAD, i64::MAX)),
        example(6, "bank LTK -1", bank_limits(HEAD, -1, 0)),
        example(6, "LTK over 10^15", bank_limits(HEAD, TOP_VALUE + 1, 0)),
        example(6, "LPO over 10^15", bank_limits(HEAD, 0, TOP_VALUE + 1)),
        example(6, "LPO under -10^15", bank_limits(HEAD, 0, -TOP_VALUE - 1)),
        example(0, "highest limits", bank_limits(HEAD, TOP_VALUE, TOP_VALUE)),
        example(0, "lowest limits", bank_limits(HEAD, 0, -TOP_VALUE)),
        example(0, "limits back to 0", bank_limits(HEAD, 0, 0)),
        example(0, "day 7 on day 0", day_opening(7)),
        example(13, "13: day 7 on day 7", day_opening(7)),
        example(13, "day 6 on day 7", day_opening(6)),
    ];
    examples.extend(branches_of_head());
    examples
}

/// Branches with the morning methods that the figures need.
fn branches_of_head() -> Vec<Example> {
    let methods: [[u8; 2]; 13] = [
        [0, 0],
        [0, 0],
        [0, 0],
        [0, 0],
        [0, 0],
        [3, 3],
        [3, 3],
        [2, 2],
        [1, 1],
        [0, 2],
        [3, 3],
        [2, 3],
        [3, 3],
    ];
    (888_001..)
        .zip(methods)
        .map(|(code, methods)| example(0, "branch of 888888", branch(code, HEAD, methods)))
        .collect()
}

/// Payments between banks. 888888 starts at 0, 900000 holds 10^18.
pub fn payments() -> Vec<Example> {
    let credit = |sender, receiver, amount| payment(CREDIT, sender, receiver, amount);
    let debit = |sender, receiver, amount| payment(DEBIT, sender, receiver, amount);
    vec![
        example(4, "sender unknown", credit(NOBODY, HEAD, 1)),
        example(4, "receiver unknown", debit(HEAD, NOBODY, 1)),
        example(4, "4 before 7", credit(NOBODY, NOBODY, 1)),
        example(7, "7: 888888 to itself", credit(HEAD, HEAD, 1)),
        example(7, "7 before 6", debit(HEAD, HEAD, 0)),
        example(6, "6: pay 0", credit(RICH, HEAD, 0)),
        example(6, "pay -1", debit(HEAD, RICH, -1)),
        example(6, "pay over 10^15", credit(RICH, HEAD, TOP_VALUE + 1)),
        example(6, "6 before 9", credit(HEAD, RICH, TOP_VALUE + 1)),
        example(9, "pay 1 of 0", credit(HEAD, RICH, 1)),
        example(9, "be debited 1 of 0", debit(RICH, HEAD, 1)),
        example(0, "the receiver of a debit pays", debit(HEAD, RICH, 6)),
        example(0, "LPO 5", bank_limits(HEAD, 0, 5)),
        example(10, "10: LPO 5, pay 6", credit(HEAD, RICH, 6)),
        example(0, "LPO 5, be debited 6", debit(RICH, HEAD, 6)),
        example(9, "9 before 10", credit(HEAD, RICH, 6)),
        example(0, "6 back", credit(RICH, HEAD, 6)),
        example(0, "LPO 5, pay 5", credit(HEAD, RICH, 5)),
        example(10, "LPO 5, pay 1 more", credit(HEAD, RICH, 1)),
        example(0, "LPO -1", bank_limits(HEAD, 0, -1)),
        example(10, "LPO -1, pay 1", credit(HEAD, RICH, 1)),
        example(0, "LTK 1, LPO 0", bank_limits(HEAD, 1, 0)),
        example(9, "LTK 1, pay 1 of 1", credit(HEAD, RICH, 1)),
        example(0, "LTK 0, LPO 0", bank_limits(HEAD, 0, 0)),
        example(0, "LPO 0 is no cap", credit(HEAD, RICH, 1)),
        example(0, "ample funds for 888888", credit(RICH, HEAD, 1_000_000)),
        example(0, "10 to a branch", credit(HEAD, 888_012, 10)),
        example(0, "branch LTK 0, pay 10", credit(888_012, HEAD, 10)),
        example(11, "branch LTK 0, pay 1", credit(888_012, HEAD, 1)),
        example(11, "be debited 1", debit(HEAD, 888_012, 1)),
        example(6, "highest amount", credit(RICH, HEAD, i64::MAX)),
        example(6, "lowest amount", debit(HEAD, RICH, i64::MIN)),
    ]
}
