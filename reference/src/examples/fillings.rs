//! The tops: total of all banks, turnover, book and table.

use super::{example, header, item, query_of, Example};
use super::{HEAD, NOBODY, POOR, POOR_BRANCH, RICH};
use crate::account::TOP_VALUE;
use crate::book;
use crate::ledger::MOST_ACCOUNTS;
use crate::write::{account_id, bank, branch, change, day_opening, deletion, funding, letters};
use crate::write::{payment, search, withdrawal, Sought, CONTAINS, CREDIT, DEBIT, LACKS, S};

/// All states together reach 10^18.
pub fn total_of_banks() -> Vec<Example> {
    let opening = [example(0, "bank 900000", bank(RICH))];
    let fundings = (0..1_000).map(|_| example(0, "funding of 10^15", funding(RICH, TOP_VALUE)));
    let top = [
        example(8, "8: 1,001st funding of 10^15", funding(RICH, TOP_VALUE)),
        example(8, "funding of another bank by 1", funding(HEAD, 1)),
        example(0, "withdraw 1", withdrawal(RICH, 1)),
        example(8, "fund 2", funding(HEAD, 2)),
        example(0, "fund 1", funding(RICH, 1)),
        example(8, "fund 1 more", funding(RICH, 1)),
        example(6, "6 before 8", funding(RICH, 0)),
    ];
    opening.into_iter().chain(fundings).chain(top).collect()
}

/// A day's turnover reaches 10^17. 900000 has sent no credit on day 10, and
/// 777777 received none.
pub fn turnover() -> Vec<Example> {
    let pay = |amount| payment(CREDIT, RICH, POOR, amount);
    let payments = (0..100).map(|_| example(0, "payment of 10^15", pay(TOP_VALUE)));
    let top = [
        example(8, "ICDT and RCDT over 10^17", pay(1)),
        example(8, "ICDT over 10^17", payment(CREDIT, RICH, HEAD, 1)),
        example(8, "RCDT over 10^17", payment(CREDIT, HEAD, POOR, 1)),
        example(0, "S on 900000", letters(RICH, S)),
        example(25, "25 before 8", pay(1)),
        example(0, "no letter", letters(RICH, 0)),
        example(11, "11 before 8", payment(CREDIT, 888_012, POOR, 1)),
        example(8, "RCDT inside", payment(CREDIT, POOR, POOR_BRANCH, 1)),
        example(8, "to the bank", payment(CREDIT, POOR_BRANCH, POOR, 1)),
        example(0, "a debit inside", payment(DEBIT, POOR_BRANCH, POOR, 1)),
        example(0, "a debit", payment(DEBIT, POOR, RICH, TOP_VALUE)),
        example(0, "credits the other way", payment(CREDIT, POOR, RICH, 1)),
        example(0, "day 11", day_opening(11)),
        example(0, "turnovers are 0 again", pay(1)),
    ];
    payments.chain(top).collect()
}

/// The book is empty when day 12 opens: its last id was accepted on day 10.
pub fn book() -> Vec<Example> {
    let ask = |id: u32, day: u32| query_of(header(HEAD, id, day, 0), &[HEAD]);
    let seek = |id: u32, mode: u8| {
        let text = b"1UAH".to_vec();
        search(&header(HEAD, id, 12, 0), &[Sought { mode, text }])
    };
    let queries = (1_000..).take(book::PLACES);
    let last = 999 + book::PLACES as u32;
    let new = last + 1;
    let items = [item(888_001, 1, 0)];
    let opening = [example(0, "day 12", day_opening(12))];
    let fillings = queries.map(|id| example(0, "one more id on day 12", ask(id, 12)));
    let top = [
        example(22, "22: 1,025th id in a day", ask(new, 12)),
        example(22, "a change", change(&header(HEAD, new, 12, 0), &items)),
        example(
            22,
            "a deletion",
            deletion(&header(HEAD, new, 12, 0), &account_id(888_001), 1),
        ),
        example(22, "a search", seek(new, CONTAINS)),
        example(14, "14 before 22", ask(last, 12)),
        example(14, "14 before 22 in a search", seek(last, CONTAINS)),
        example(
            21,
            "21 before 22",
            query_of(header(HEAD, new, 12, 0), &[NOBODY]),
        ),
        example(21, "21 before 22 in a search", seek(new, LACKS)),
        example(0, "day 13", day_opening(13)),
        example(22, "the ids of day 12 stay", ask(new, 13)),
        example(0, "day 14", day_opening(14)),
        example(0, "the ids of day 12 left", ask(new, 14)),
    ];
    opening.into_iter().chain(fillings).chain(top).collect()
}

/// 22 accounts stand; the table is filled with banks on day 19.
pub fn table() -> Vec<Example> {
    const STANDING: usize = 22;
    let banks = (100_000..).take(MOST_ACCOUNTS - STANDING);
    let last = 99_999 + (MOST_ACCOUNTS - STANDING) as u32;
    let seek_all = |sender: u32, id: u32| {
        let (mode, text) = (LACKS, b"x".to_vec());
        search(&header(sender, id, 19, 0), &[Sought { mode, text }])
    };
    let openings = banks.map(|code| example(0, "one more bank", bank(code)));
    let top = [
        example(3, "3: 65th account", bank(200_000)),
        example(3, "65th account a branch", branch(200_000, HEAD, [0, 0])),
        example(2, "2 before 3", bank(HEAD)),
        example(4, "4 before 3", branch(200_000, 200_001, [0, 0])),
        example(5, "5 before 3", branch(200_000, 888_001, [0, 0])),
        example(0, "888888 finds 64 accounts", seek_all(HEAD, 3_000)),
        example(0, "the last account finds them", seek_all(last, 3_001)),
        example(0, "last line, without its end", day_opening(20)),
    ];
    openings.chain(top).collect()
}
