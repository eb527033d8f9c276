//! The profiles of workload `all`: each brings the ledger to other edges.

use super::scenario::Scenario;
use crate::account::{Account, TOP_VALUE};
use crate::write::{self, ChangeItem, LPO_TYPE, LTK_TYPE};

/// Kinds of frames.
const KINDS: usize = 13;
/// The place of the search among them.
const SEARCH: usize = 10;

/// How often, relative to each other, the kinds of lines come.
struct Weights {
    bank: usize,
    branch: usize,
    funding: usize,
    withdrawal: usize,
    bank_limits: usize,
    payment: usize,
    change: usize,
    deletion: usize,
    query: usize,
    day_opening: usize,
    search: usize,
    letters: usize,
    mark: usize,
    /// A letter, payments that meet it, and its end.
    blocking: usize,
    /// A bank that lets little out, and payments inside its group.
    tight_group: usize,
    damaged: usize,
    noise: usize,
}

pub struct Profile {
    pub name: &'static str,
    /// Banks and branches opened in the beginning.
    banks: usize,
    branches: usize,
    /// Fundings of 10^15 for each bank in the beginning.
    fundings: usize,
    flaws: usize,
    large: usize,
    alike: usize,
    cleared: usize,
    weights: Weights,
}

const GENERAL: Profile = Profile {
    name: "general",
    banks: 4,
    branches: 8,
    fundings: 1,
    flaws: 6,
    large: 3,
    alike: 0,
    cleared: 70,
    weights: Weights {
        bank: 10,
        branch: 20,
        funding: 50,
        withdrawal: 40,
        bank_limits: 40,
        payment: 500,
        change: 140,
        deletion: 50,
        query: 100,
        day_opening: 20,
        search: 80,
        letters: 10,
        mark: 1,
        blocking: 5,
        tight_group: 5,
        damaged: 30,
        noise: 10,
    },
};

static PROFILES: [Profile; 10] = [
    GENERAL,
    Profile {
        name: "full table",
        banks: 20,
        branches: 40,
        flaws: 10,
        weights: Weights {
            bank: 60,
            branch: 100,
            ..GENERAL.weights
        },
        ..GENERAL
    },
    Profile {
        name: "full book",
        banks: 3,
        branches: 6,
        flaws: 2,
        weights: Weights {
            bank: 1,
            branch: 1,
            payment: 50,
            change: 250,
            deletion: 100,
            query: 400,
            day_opening: 0,
            search: 400,
            ..GENERAL.weights
        },
        ..GENERAL
    },
    Profile {
        name: "turnover top",
        banks: 2,
        branches: 2,
        fundings: 20,
        flaws: 2,
        large: 75,
        weights: Weights {
            bank: 1,
            branch: 1,
            withdrawal: 1,
            bank_limits: 2,
            payment: 1_500,
            change: 40,
            deletion: 5,
            day_opening: 2,
            ..GENERAL.weights
        },
        ..GENERAL
    },
    Profile {
        name: "total top",
        banks: 4,
        branches: 2,
        fundings: 240,
        flaws: 4,
        large: 30,
        weights: Weights {
            funding: 500,
            withdrawal: 200,
            payment: 200,
            ..GENERAL.weights
        },
        ..GENERAL
    },
    Profile {
        name: "messages",
        banks: 3,
        branches: 12,
        flaws: 8,
        weights: Weights {
            payment: 140,
            change: 340,
            deletion: 140,
            query: 240,
            day_opening: 40,
            search: 140,
            ..GENERAL.weights
        },
        ..GENERAL
    },
    Profile {
        name: "searches",
        banks: 2,
        branches: 60,
        alike: 60,
        cleared: 40,
        weights: Weights {
            payment: 300,
            day_opening: 40,
            search: 700,
            letters: 60,
            ..GENERAL.weights
        },
        ..GENERAL
    },
    Profile {
        name: "letters",
        banks: 4,
        branches: 8,
        weights: Weights {
            bank: 2,
            branch: 4,
            letters: 40,
            mark: 4,
            blocking: 150,
            ..GENERAL.weights
        },
        ..GENERAL
    },
    Profile {
        name: "groups",
        banks: 2,
        branches: 4,
        flaws: 2,
        large: 60,
        weights: Weights {
            bank: 1,
            branch: 1,
            payment: 100,
            change: 10,
            deletion: 60,
            query: 10,
            day_opening: 1,
            search: 40,
            tight_group: 400,
            ..GENERAL.weights
        },
        ..GENERAL
    },
    Profile {
        name: "garbage",
        flaws: 20,
        weights: Weights {
            damaged: 700,
            noise: 400,
            ..GENERAL.weights
        },
        ..GENERAL
    },
];

pub fn of_seed(seed: u64) -> &'static Profile {
    &PROFILES[(seed % PROFILES.len() as u64) as usize]
}

pub fn play(scenario: &mut Scenario, seed: u64) {
    let profile = of_seed(seed);
    scenario.flaws = profile.flaws;
    scenario.large = profile.large;
    scenario.alike = profile.alike;
    scenario.cleared = profile.cleared;
    begin(scenario, profile);
    while !scenario.is_done() {
        step(scenario, &profile.weights);
    }
    if scenario.lines() > 0 && scenario.random.percent(50) {
        scenario.drop_last_end();
    }
}

/// Opens accounts, brings money and gives most branches room to pay.
fn begin(scenario: &mut Scenario, profile: &Profile) {
    for _ in 0..profile.banks {
        let frame = scenario.bank();
        scenario.put(&frame);
    }
    for _ in 0..profile.branches {
        let frame = scenario.branch();
        scenario.put(&frame);
    }
    let banks: Vec<u32> = codes(scenario, Account::is_bank);
    for &code in &banks {
        for _ in 0..profile.fundings {
            scenario.put(&write::funding(code, TOP_VALUE));
        }
        open_limits(scenario, code);
    }
}

fn codes(scenario: &Scenario, fits: impl Fn(&Account) -> bool) -> Vec<u32> {
    let accounts = scenario.ledger.accounts().iter();
    let fitting = accounts.filter(|account| fits(account));
    fitting.map(|account| account.code).collect()
}

/// One change for the first branches of a bank.
fn open_limits(scenario: &mut Scenario, bank: u32) {
    let branches = scenario.branches_of(bank);
    let mut items = Vec::new();
    for code in branches.into_iter().take(8) {
        let ltk = scenario.random.pick(&[-100, -10_000, -TOP_VALUE]);
        let lpo = scenario.random.pick(&[0, 0, 50, 10_000, TOP_VALUE]);
        for (kind, value) in [(LTK_TYPE, ltk), (LPO_TYPE, lpo)] {
            let account = write::account_id(code);
            items.push(ChangeItem {
                account,
                kind,
                value,
            });
        }
    }
    if !items.is_empty() {
        let header = scenario.fresh_header(bank);
        scenario.put(&write::change(&header, &items));
    }
}

fn step(scenario: &mut Scenario, weights: &Weights) {
    // A full book is worth staying at, but not for long.
    if scenario.ledger.book().is_full() && scenario.random.percent(2) {
        let frame = scenario.day_opening();
        scenario.put(&frame);
        return;
    }
    let roll = scenario.random.weighted(&[
        weights.damaged,
        weights.noise,
        weights.blocking,
        weights.tight_group,
        weights.bank,
        weights.branch,
        weights.funding,
        weights.withdrawal,
        weights.bank_limits,
        weights.payment,
        weights.change,
        weights.deletion,
        weights.query,
        weights.day_opening,
        weights.search,
        weights.letters,
        weights.mark,
    ]);
    match roll {
        0 => {
            // A search can be ill-formed in the most ways.
            let kind = scenario.random.below(KINDS + 4);
            let frame = frame_of(scenario, if kind < KINDS { kind } else { SEARCH });
            let line = scenario.damaged(frame);
            scenario.put_line(&line);
        }
        1 => {
            let line = scenario.noise();
            scenario.put_line(&line);
        }
        2 => scenario.blocking(),
        3 => scenario.tight_group(),
        kind => {
            let frame = frame_of(scenario, kind - 4);
            scenario.put(&frame);
        }
    }
}

/// A plausible frame; the kinds in the order of their bytes.
fn frame_of(scenario: &mut Scenario, kind: usize) -> Vec<u8> {
    match kind {
        0 => scenario.bank(),
        1 => scenario.branch(),
        2 => scenario.funding(),
        3 => scenario.withdrawal(),
        4 => scenario.bank_limits(),
        5 => scenario.payment(),
        6 => scenario.change(),
        7 => scenario.deletion(),
        8 => scenario.query(),
        9 => scenario.day_opening(),
        SEARCH => scenario.search(),
        11 => scenario.letters(),
        _ => scenario.mark(),
    }
}
