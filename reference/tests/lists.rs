//! Random lists are the same for the same seed and go deep.

use reference::command::{Command, Condition, Mode, Transfer};
use reference::frame::{decode, LONGEST_FRAME};
use reference::generate::{generate, Workload};
use reference::letters::Letter;
use reference::lone_letter::{Case, Holder, Origin};
use reference::one_group::{self, Verdict};
use reference::stream::answers;
use reference::tally::Tally;

/// Seeds that choose each profile six times.
const SEEDS: u64 = 60;

fn lines_in(text: &[u8]) -> usize {
    text.split_inclusive(|&byte| byte == b'\n').count()
}

fn lines_of(text: &[u8]) -> impl Iterator<Item = &[u8]> {
    text.split(|&byte| byte == b'\n')
}

fn accepted(list: &[u8]) -> u64 {
    let mut tally = Tally::default();
    tally.count(list);
    let accepted = tally.counts().next();
    accepted.map_or(0, |(_, count)| count)
}

#[test]
fn the_same_seed_gives_the_same_list() {
    let workloads = [
        Workload::All,
        Workload::Payments,
        Workload::Mix,
        Workload::Search,
    ];
    for workload in workloads {
        let list = generate(5, 500, workload);
        assert_eq!(list, generate(5, 500, workload));
        assert_ne!(list, generate(6, 500, workload));
        assert_eq!(lines_in(&list), 500);
    }
}

#[test]
fn payments_are_mostly_accepted() {
    assert!(accepted(&generate(1, 5_000, Workload::Payments)) > 4_700);
}

#[test]
fn the_mix_is_mostly_accepted() {
    assert!(accepted(&generate(1, 20_000, Workload::Mix)) > 16_000);
}

#[test]
fn searches_are_all_accepted() {
    let list = generate(1, 5_000, Workload::Search);
    assert_eq!(accepted(&list), 5_000);
    let is_search = |line: &&[u8]| line.starts_with(b"0b");
    assert!(lines_of(&list).filter(is_search).count() > 4_800);
}

/// What the lists of all profiles reach.
fn reached() -> Tally {
    let mut tally = Tally::default();
    for seed in 0..SEEDS {
        tally.count(&generate(seed, 3_000, Workload::All));
    }
    tally
}

/// What the paper says of a payment beside which one letter stands.
fn blocks(case: Case, transfer: Transfer) -> bool {
    let is_sent = matches!(case.holder, Holder::Sender | Holder::SendersBank);
    match case.letter {
        Letter::A | Letter::R => is_sent,
        Letter::S => is_sent && transfer == Transfer::Credit,
        Letter::B => !is_sent,
        Letter::N => matches!(case.origin, Some(Origin::NoneMarked | Origin::Stranger)),
    }
}

#[test]
fn the_profiles_reach_everything() {
    let tally = reached();
    for (number, count) in tally.counts() {
        assert!(count > 0, "{number}");
    }
    for (kind, number, count) in tally.kinds() {
        assert!(count > 0, "{kind}: {number}");
    }
    for (case, fate) in tally.fates() {
        for transfer in [Transfer::Credit, Transfer::Debit] {
            let [accepted, blocked] =
                [fate.accepted, fate.blocked].map(|counts| counts[transfer as usize]);
            let is_blocked = blocks(case, transfer);
            assert_eq!(accepted == 0, is_blocked, "{case}, {transfer:?}");
            assert_eq!(blocked > 0, is_blocked, "{case}, {transfer:?}");
        }
    }
    for (case, number, count) in tally.groups() {
        assert!(count > 0, "{case}: {number}");
    }
    assert!(tally.is_complete());
}

/// What the paper says of a payment that the limits of the payer's bank are
/// against: 9 or 10 if it leaves the group, unless letters stop it before.
#[test]
fn limits_of_a_bank_hold_outside_alone() {
    let tally = reached();
    for case in one_group::Case::all() {
        let count = |number| tally.count_in(case, number);
        let refused = match case.verdict {
            _ if case.way.is_inside() => None,
            Verdict::Passes => None,
            Verdict::BelowZero | Verdict::BelowLtk => Some(9),
            Verdict::OverLpo => Some(10),
        };
        for number in [9, 10] {
            assert_eq!(count(number) > 0, refused == Some(number), "{case}");
        }
        assert_eq!(count(0) == 0, refused.is_some(), "{case}");
    }
}

#[test]
fn letters_block_less_than_is_accepted() {
    let (mut accepted, mut blocked) = (0, 0);
    for seed in 0..SEEDS / 6 {
        let list = generate(seed, 3_000, Workload::All);
        for (line, answer) in lines_of(&list).zip(lines_of(&answers(&list))) {
            let is_payment = line.starts_with(b"06");
            accepted += u32::from(is_payment && answer == b"00");
            blocked += u32::from(is_payment && answer == b"25");
        }
    }
    assert!(accepted > 2 * blocked, "{accepted}, {blocked}");
}

/// The mode of a search's conditions, if all have the same.
fn one_mode(line: &[u8]) -> Option<Mode> {
    let mut buffer = [0; LONGEST_FRAME];
    let Command::Search { conditions, .. } = Command::read(decode(line, &mut buffer)?)? else {
        return None;
    };
    let mode = conditions[0].mode;
    let is_same = |condition: &Condition| condition.mode == mode;
    conditions.iter().all(is_same).then_some(mode)
}

#[test]
fn each_mode_by_itself_selects_or_not() {
    let mut reached = Vec::new();
    for seed in 0..16 {
        let list = generate(seed, 3_000, Workload::All);
        for (line, answer) in lines_of(&list).zip(lines_of(&answers(&list))) {
            if let (Some(mode), [b'0', b'0', ..] | b"21") = (one_mode(line), answer) {
                reached.push((mode, answer[0]));
            }
        }
    }
    for mode in [Mode::Equal, Mode::Contains, Mode::Lacks] {
        assert!(reached.contains(&(mode, b'0')), "{mode:?}");
        assert!(reached.contains(&(mode, b'2')), "{mode:?}");
    }
}
