//! Payments inside one group and out of it, and what banks hold.

use reference::account::{Account, Moment};
use reference::command::{Command, Header};
use reference::frame::{decode, LONGEST_FRAME};
use reference::generate::{generate, Workload};
use reference::one_group::{Case, Verdict};
use reference::write::{
    account_id, bank, bank_limits, branch, change, funding, line, payment, ChangeItem, CREDIT,
    DEBIT, LPO_TYPE, LTK_TYPE,
};
use reference::Ledger;

/// Two banks, each with two branches; the first digit of a code tells which.
const BANKS: [u32; 2] = [100_000, 200_000];
const PARTIES: [u32; 6] = [100_000, 100_001, 100_002, 200_000, 200_001, 200_002];

fn is_inside(sender: u32, receiver: u32) -> bool {
    sender / 100_000 == receiver / 100_000
}

fn play(ledger: &mut Ledger, line: &[u8]) -> String {
    let mut out = Vec::new();
    ledger.line(line, &mut out);
    String::from_utf8(out).unwrap()
}

/// Both groups with the money of each bank, and LTK and LPO of the banks and
/// of the branches.
fn two_groups(money: i64, of_banks: [i64; 2], of_branches: [i64; 2]) -> Ledger {
    let [ltk, lpo] = of_branches;
    let mut frames = Vec::new();
    for (digit, code) in (b'1'..).zip(BANKS) {
        let branches = [code + 1, code + 2];
        let items = branches.map(|branch| {
            [(LTK_TYPE, ltk), (LPO_TYPE, lpo)].map(|(kind, value)| ChangeItem {
                account: account_id(branch),
                kind,
                value,
            })
        });
        let header = Header {
            sender: code,
            id: [digit; 32],
            moment: Moment { day: 0, second: 0 },
        };
        frames.push(bank(code));
        frames.extend(branches.map(|owned| branch(owned, code, [0, 0])));
        frames.push(change(&header, &items.concat()));
        frames.push(bank_limits(code, of_banks[0], of_banks[1]));
        if money > 0 {
            frames.push(funding(code, money));
        }
    }
    let mut ledger = Ledger::new();
    for frame in frames {
        assert_eq!(play(&mut ledger, &line(&frame)), "00\n");
    }
    ledger
}

/// Every payment of an amount between two parties, each in two fresh groups.
fn each_payment(
    fresh: impl Fn() -> Ledger,
    amount: i64,
    answer: impl Fn(u8, u32, u32) -> &'static str,
) {
    for sender in PARTIES {
        for receiver in PARTIES {
            for transfer in [CREDIT, DEBIT] {
                let frame = payment(transfer, sender, receiver, amount);
                let expected = if sender == receiver {
                    "07"
                } else {
                    answer(transfer, sender, receiver)
                };
                let answer = play(&mut fresh(), &line(&frame));
                let place = format!("{transfer}, {sender} to {receiver}");
                assert_eq!(answer.trim_end(), expected, "{place}");
            }
        }
    }
}

#[test]
fn a_bank_at_its_ltk_stops_nothing_inside() {
    for (money, ltk) in [(0, 0), (1_000, 1_000), (0, 1_000)] {
        let fresh = || two_groups(money, [ltk, 0], [-100, 0]);
        each_payment(fresh, 1, |_, sender, receiver| {
            if is_inside(sender, receiver) {
                "00"
            } else {
                "09"
            }
        });
    }
}

#[test]
fn lpo_of_a_bank_stops_no_credit_inside() {
    for lpo in [-1, 5] {
        let fresh = || two_groups(1_000, [0, lpo], [-100, 0]);
        each_payment(fresh, 6, |transfer, sender, receiver| {
            if transfer == CREDIT && !is_inside(sender, receiver) {
                "10"
            } else {
                "00"
            }
        });
    }
}

#[test]
fn limits_of_branches_remain_inside() {
    let fresh = || two_groups(0, [0, 0], [-100, -1]);
    each_payment(fresh, 101, |transfer, sender, receiver| {
        let payer = if transfer == CREDIT { sender } else { receiver };
        match is_inside(sender, receiver) {
            false => "09",
            true if BANKS.contains(&payer) => "00",
            true => "11",
        }
    });
    each_payment(fresh, 100, |transfer, sender, receiver| {
        match is_inside(sender, receiver) {
            false => "09",
            true if transfer == CREDIT && !BANKS.contains(&sender) => "12",
            true => "00",
        }
    });
}

#[test]
fn a_payment_inside_is_booked_on_both_sides_of_the_bank() {
    let [bank, branch, sister] = [0, 1, 2];
    let booked = |transfer, sender, receiver| {
        let mut ledger = two_groups(0, [1_000, -1], [-100, 0]);
        let frame = payment(transfer, PARTIES[sender], PARTIES[receiver], 7);
        assert_eq!(play(&mut ledger, &line(&frame)), "00\n");
        [bank, branch, sister].map(|place| ledger.accounts()[place].turnovers)
    };
    let none = [0; 4];
    let credit = [7, 7, 0, 0];
    let debit = [0, 0, 7, 7];
    let expected = [
        (CREDIT, branch, sister, [credit, [7, 0, 0, 0], [0, 7, 0, 0]]),
        (CREDIT, branch, bank, [credit, [7, 0, 0, 0], none]),
        (CREDIT, bank, sister, [credit, none, [0, 7, 0, 0]]),
        (DEBIT, branch, sister, [debit, [0, 0, 7, 0], [0, 0, 0, 7]]),
        (DEBIT, branch, bank, [debit, [0, 0, 7, 0], none]),
        (DEBIT, bank, sister, [debit, none, [0, 0, 0, 7]]),
    ];
    for (transfer, sender, receiver, turnovers) in expected {
        assert_eq!(booked(transfer, sender, receiver), turnovers);
    }
}

/// What an accepted line brings to all banks together, or takes from them.
fn money_in(command: &Option<Command>) -> i64 {
    match *command {
        Some(Command::Funding { amount, .. }) => amount,
        Some(Command::Withdrawal { amount, .. }) => -amount,
        _ => 0,
    }
}

fn states_of_banks(ledger: &Ledger) -> Vec<i64> {
    let banks = ledger.accounts().iter().filter(|account| account.is_bank());
    banks.map(Account::state).collect()
}

/// Also that payments inside which the bank's limits would have refused are
/// among those played, and leave all banks as they were.
#[test]
fn banks_hold_what_came_in_and_none_is_below_0() {
    let mut skipped = 0;
    for seed in 0..20 {
        let mut ledger = Ledger::new();
        let mut money = 0;
        let list = generate(seed, 3_000, Workload::All);
        for line in list.split(|&byte| byte == b'\n') {
            let mut buffer = [0; LONGEST_FRAME];
            let command = decode(line, &mut buffer).and_then(Command::read);
            let case = command
                .as_ref()
                .and_then(|command| Case::of(&ledger, command));
            let before = states_of_banks(&ledger);
            let is_accepted = play(&mut ledger, line).starts_with("00");
            let states = states_of_banks(&ledger);
            if is_accepted {
                money += money_in(&command);
            }
            assert!(states.iter().all(|&state| state >= 0), "seed {seed}");
            assert_eq!(states.iter().sum::<i64>(), money, "seed {seed}");
            if let Some(Case { way, verdict, .. }) = case {
                if way.is_inside() {
                    assert_eq!(states, before, "seed {seed}");
                    skipped += u32::from(is_accepted && verdict != Verdict::Passes);
                }
            }
        }
    }
    assert!(skipped > 500, "{skipped}");
}
