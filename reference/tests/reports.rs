//! Report bytes, written out by hand.

use reference::account::Moment;
use reference::command::Header;
use reference::write::{
    account_id, bank, branch, change, day_opening, funding, letters, line, payment, query, search,
    ChangeItem, Sought, A, B, CONTAINS, CREDIT, DEBIT, EQUAL, LACKS, LPO_TYPE, LTK_TYPE, N, R, S,
};
use reference::Ledger;

const BANK: u32 = 888_888;
const BRANCH: u32 = 888_001;

/// A limit of 0: open, value, not in use, used, left, percent.
const ZERO: &str = "00 0000000000000000 00 0000000000000000 0000000000000000 0000";
const CLOSED: &str = "01 0000000000000000 00 0000000000000000 0000000000000000 0000";

fn play(ledger: &mut Ledger, frame: &[u8]) -> String {
    let mut out = Vec::new();
    ledger.line(&line(frame), &mut out);
    String::from_utf8(out).unwrap()
}

/// The answer line without the spaces that make it readable.
fn answer(parts: &[&str]) -> String {
    parts.concat().replace(' ', "") + "\n"
}

/// A header of day 0; the second also numbers the id.
fn header(sender: u32, second: u8) -> Header {
    let mut id = [b'1'; 32];
    id[31] = b'0' + second;
    let second = u32::from(second);
    let moment = Moment { day: 0, second };
    Header { sender, id, moment }
}

fn sought(mode: u8, text: &[u8]) -> Sought {
    let text = text.to_vec();
    Sought { mode, text }
}

/// A bank with 1,000 and a branch with the limits given.
fn group(ltk: i64, lpo: i64, methods: [u8; 2]) -> Ledger {
    let mut ledger = Ledger::new();
    let account = account_id(BRANCH);
    let items = [(LTK_TYPE, ltk), (LPO_TYPE, lpo)].map(|(kind, value)| ChangeItem {
        account,
        kind,
        value,
    });
    let frames = [
        bank(BANK),
        branch(BRANCH, BANK, methods),
        funding(BANK, 1_000),
        change(&header(BANK, 1), &items),
    ];
    for frame in frames {
        assert_eq!(play(&mut ledger, &frame), "00\n");
    }
    ledger
}

#[test]
fn a_fresh_bank_has_limits_of_0() {
    let mut ledger = Ledger::new();
    play(&mut ledger, &bank(BANK));
    let asked = query(&header(BANK, 1), &[account_id(BANK)]);
    assert_eq!(
        play(&mut ledger, &asked),
        answer(&["00 01", "00", ZERO, ZERO])
    );
}

#[test]
fn used_limits_show_used_left_and_percent() {
    let mut ledger = group(-100, 70, [0, 0]);
    play(&mut ledger, &payment(CREDIT, BRANCH, BANK, 30));
    let asked = query(&header(BANK, 2), &[account_id(BRANCH), account_id(BANK)]);
    let ltk = "00 ffffffffffffff9c 01 ffffffffffffffe2 0000000000000046 0bb8";
    let lpo = "00 0000000000000046 01 000000000000001e 0000000000000028 10bd";
    let expected = answer(&["00 02", "00", ltk, lpo, "00", ZERO, ZERO]);
    assert_eq!(play(&mut ledger, &asked), expected);
}

#[test]
fn limits_not_in_use_show_their_value_only() {
    let mut ledger = group(1, -1, [0, 0]);
    let asked = query(&header(BRANCH, 2), &[account_id(BRANCH)]);
    let ltk = "00 0000000000000001 00 0000000000000000 0000000000000000 0000";
    let lpo = "00 ffffffffffffffff 00 0000000000000000 0000000000000000 0000";
    assert_eq!(
        play(&mut ledger, &asked),
        answer(&["00 01", "00", ltk, lpo])
    );
}

#[test]
fn the_highest_percent_needs_more_than_64_bits() {
    let mut ledger = group(-1_000_000_000_000_000, 1_000_000_000_000_000, [0, 0]);
    play(&mut ledger, &funding(BANK, 1_000_000_000_000_000));
    let paid = payment(CREDIT, BRANCH, BANK, 1_000_000_000_000_000);
    assert_eq!(play(&mut ledger, &paid), "00\n");
    let asked = query(&header(BANK, 2), &[account_id(BRANCH)]);
    let ltk = "00 fffc72815b398000 01 fffc72815b398000 0000000000000000 2710";
    let lpo = "00 00038d7ea4c68000 01 00038d7ea4c68000 0000000000000000 2710";
    assert_eq!(
        play(&mut ledger, &asked),
        answer(&["00 01", "00", ltk, lpo])
    );
}

#[test]
fn closed_limits_and_numbers_alone() {
    let mut ledger = group(-100, 5, [2, 2]);
    assert_eq!(play(&mut ledger, &day_opening(1)), "00\n");
    let ids = [*b"1USD888888", account_id(BRANCH), account_id(BANK)];
    let asked = query(&header(BRANCH, 2), &ids);
    let expected = answer(&["00 03", "17", "00", CLOSED, CLOSED, "18"]);
    assert_eq!(play(&mut ledger, &asked), expected);
}

#[test]
fn a_refused_query_has_no_report() {
    let mut ledger = group(0, 0, [0, 0]);
    let asked = query(&header(BANK, 2), &[*b"2UAH888888"]);
    assert_eq!(play(&mut ledger, &asked), "21\n");
}

#[test]
fn a_search_shows_id_state_turnovers_and_letters() {
    let mut ledger = group(-100, 70, [0, 0]);
    play(&mut ledger, &bank(777_777));
    play(&mut ledger, &payment(CREDIT, BRANCH, BANK, 30));
    play(&mut ledger, &payment(DEBIT, 777_777, BRANCH, 5));
    play(&mut ledger, &letters(BRANCH, R | S | N));
    play(&mut ledger, &letters(777_777, A));
    let conditions = [sought(CONTAINS, b"8001"), sought(LACKS, b"8001")];
    let asked = search(&header(BANK, 2), &conditions);
    let bank = [
        "00 31554148383838383838",
        "00000000000003e3 000000000000001e 000000000000001e 0000000000000000 0000000000000005",
        "00",
    ];
    let branch = [
        "00 31554148383838303031",
        "ffffffffffffffdd 000000000000001e 0000000000000000 0000000000000000 0000000000000005",
        "03 4e5352",
    ];
    let expected = answer(&["00 03", &bank.concat(), &branch.concat(), "18"]);
    assert_eq!(play(&mut ledger, &asked), expected);
}

#[test]
fn a_branch_sees_itself_alone() {
    let mut ledger = group(0, 0, [0, 0]);
    let asked = search(&header(BRANCH, 2), &[sought(LACKS, b"\0")]);
    let branch = "00 31554148383838303031";
    let zeros = "0000000000000000".repeat(5);
    assert_eq!(
        play(&mut ledger, &asked),
        answer(&["00 02", "18", branch, &zeros, "00"])
    );
}

#[test]
fn each_account_shows_its_own_letters_in_their_order() {
    let mut ledger = group(0, 0, [0, 0]);
    let zeros = "0000000000000000".repeat(5);
    let start = ["00000000000003e8", &"0000000000000000".repeat(4)].concat();
    let shown = [
        (0, "00"),
        (A, "01 41"),
        (B, "01 42"),
        (N, "01 4e"),
        (S, "01 53"),
        (R, "01 52"),
        (B | S | R, "03 42 53 52"),
        (A | B | N | S | R, "05 41 42 4e 53 52"),
    ];
    for (second, (bits, tail)) in (2..).zip(shown) {
        assert_eq!(play(&mut ledger, &letters(BANK, bits)), "00\n");
        assert_eq!(play(&mut ledger, &letters(BRANCH, 31 - bits)), "00\n");
        let asked = search(&header(BANK, second), &[sought(EQUAL, b"1UAH888888")]);
        let expected = answer(&["00 01", "00 31554148383838383838", &start, tail]);
        assert_eq!(play(&mut ledger, &asked), expected);
    }
    assert_eq!(play(&mut ledger, &letters(BRANCH, S)), "00\n");
    let asked = search(&header(BRANCH, 0), &[sought(CONTAINS, b"888")]);
    let branch = "00 31554148383838303031";
    let expected = answer(&["00 02", "18", branch, &zeros, "01 53"]);
    assert_eq!(play(&mut ledger, &asked), expected);
}

#[test]
fn a_query_shows_no_letters() {
    let mut ledger = group(0, 0, [0, 0]);
    play(&mut ledger, &letters(BANK, A | B | N | S | R));
    let asked = query(&header(BANK, 2), &[account_id(BANK)]);
    let expected = answer(&["00 01", "00", ZERO, ZERO]);
    assert_eq!(play(&mut ledger, &asked), expected);
}

#[test]
fn a_search_changes_no_account() {
    let mut ledger = group(-100, 70, [0, 0]);
    let before = format!("{:?}", ledger.accounts());
    let asked = search(&header(BANK, 2), &[sought(CONTAINS, b"1")]);
    assert!(play(&mut ledger, &asked).starts_with("0002"));
    assert_eq!(format!("{:?}", ledger.accounts()), before);
    assert_eq!(ledger.book().len(), 2);
    assert_eq!(play(&mut ledger, &asked), "14\n");
}

#[test]
fn a_refused_search_has_no_report() {
    let mut ledger = group(0, 0, [0, 0]);
    let asked = search(&header(BANK, 2), &[sought(EQUAL, b"2UAH888888")]);
    assert_eq!(play(&mut ledger, &asked), "21\n");
    assert_eq!(ledger.book().len(), 1);
}

#[test]
fn the_longest_report_has_64_accounts_with_five_letters() {
    let mut ledger = Ledger::new();
    play(&mut ledger, &bank(BANK));
    for code in 0..63 {
        assert_eq!(play(&mut ledger, &branch(code, BANK, [0, 0])), "00\n");
    }
    for code in (0..63).chain([BANK]) {
        assert_eq!(play(&mut ledger, &letters(code, 31)), "00\n");
    }
    let asked = search(&header(BANK, 1), &[sought(CONTAINS, b"1UAH")]);
    let said = play(&mut ledger, &asked);
    assert!(said.starts_with("0040"));
    assert_eq!(said.len(), 2 + 2 * 3_649 + 1);
}
