//! Workloads as a system would see them: 16 banks with 3 branches each.

use super::random::Random;
use super::scenario::Scenario;
use crate::account::{Account, TOP_VALUE};
use crate::command::{AccountId, MOST_CONDITIONS, MOST_ITEMS};
use crate::write::{self, ChangeItem, Sought, CONTAINS, CREDIT, DEBIT, EQUAL, LACKS};
use crate::write::{LPO_TYPE, LTK_TYPE};

const BANKS: usize = 16;
const BRANCHES_PER_BANK: usize = 3;
const LINES_PER_DAY: usize = 900;
/// The book has places for the ids of two days.
const SEARCHES_PER_DAY: usize = 500;
const COMMON_AMOUNT: i64 = 1_000_000;

/// How many lines in a hundred are meant to be refused.
const REFUSED: usize = 2;

/// Payments only, mostly accepted.
pub fn payments(scenario: &mut Scenario) {
    let parties = begin(scenario, &[0]);
    while !scenario.is_done() {
        pay(scenario, &parties);
    }
}

/// Payments, limit messages, fundings, bank limits and days.
pub fn mix(scenario: &mut Scenario) {
    let parties = begin(scenario, &[0, 0, 0, 1, 2, 3]);
    let banks: Vec<u32> = parties.iter().map(|group| group[0]).collect();
    while !scenario.is_done() {
        if scenario.lines().is_multiple_of(LINES_PER_DAY) {
            let day = scenario.ledger.day() + 1;
            scenario.put(&write::day_opening(day));
        }
        match scenario.random.below(100) {
            0..8 => change(scenario, &parties),
            8..10 => delete(scenario, &parties),
            10..15 => query(scenario, &parties),
            15..18 => move_money(scenario, &banks),
            18 => set_bank_limits(scenario, &banks),
            _ => pay(scenario, &parties),
        }
    }
}

/// Searches, all accepted, and a day opening now and then.
pub fn searches(scenario: &mut Scenario) {
    let parties = begin(scenario, &[0]);
    while !scenario.is_done() {
        let day = scenario.ledger.day() + 1;
        scenario.put(&write::day_opening(day));
        for _ in 0..SEARCHES_PER_DAY {
            search(scenario, &parties);
        }
    }
}

/// A bank and its branches.
type Group = [u32; 1 + BRANCHES_PER_BANK];

/// Opens, funds and sets limits; morning methods are picked from those given.
fn begin(scenario: &mut Scenario, methods: &[u8]) -> Vec<Group> {
    let mut groups = Vec::with_capacity(BANKS);
    for _ in 0..BANKS {
        let bank = scenario.new_code();
        scenario.put(&write::bank(bank));
        groups.push([bank; 1 + BRANCHES_PER_BANK]);
    }
    for group in &mut groups {
        let [bank, branches @ ..] = group;
        for branch in branches {
            *branch = scenario.new_code();
            let methods = [(); 2].map(|()| scenario.random.pick(methods));
            scenario.put(&write::branch(*branch, *bank, methods));
        }
    }
    for group in &groups {
        scenario.put(&write::funding(group[0], TOP_VALUE / 10));
        let items: Vec<ChangeItem> = group[1..].iter().flat_map(|&code| room(code)).collect();
        let header = scenario.fresh_header(group[0]);
        scenario.put(&write::change(&header, &items));
    }
    groups
}

/// Generous limits for a branch.
fn room(branch: u32) -> [ChangeItem; 2] {
    let account = write::account_id(branch);
    [(LTK_TYPE, -TOP_VALUE / 100), (LPO_TYPE, TOP_VALUE)].map(|(kind, value)| ChangeItem {
        account,
        kind,
        value,
    })
}

fn pay(scenario: &mut Scenario, groups: &[Group]) {
    let random = &mut scenario.random;
    let sender = pick_party(random, groups);
    let mut receiver = pick_party(random, groups);
    while receiver == sender {
        receiver = pick_party(random, groups);
    }
    let mut amount = random.between(1, COMMON_AMOUNT);
    if random.percent(REFUSED) {
        match random.below(4) {
            0 => amount = 0,
            1 => amount = TOP_VALUE,
            2 => receiver = sender,
            _ => receiver = random.below(1_000_000) as u32,
        }
    }
    let transfer = random.pick(&[CREDIT, CREDIT, DEBIT]);
    scenario.put(&write::payment(transfer, sender, receiver, amount));
}

fn pick_party(random: &mut Random, groups: &[Group]) -> u32 {
    let group = random.pick(groups);
    random.pick(&group)
}

/// Sets 1 to 16 limits of a bank's branches, mostly with room to pay.
fn change(scenario: &mut Scenario, groups: &[Group]) {
    let [bank, branches @ ..] = scenario.random.pick(groups);
    let header = scenario.fresh_header(bank);
    let random = &mut scenario.random;
    let count = 1 + random.below(MOST_ITEMS);
    let mut items = Vec::with_capacity(count);
    while items.len() < count {
        let [mut ltk, mut lpo] = room(random.pick(&branches));
        ltk.value = -random.between(TOP_VALUE / 1_000, TOP_VALUE / 10);
        lpo.value = random.pick(&[0, TOP_VALUE, TOP_VALUE / 10]);
        items.extend([ltk, lpo]);
    }
    items.truncate(count);
    if random.percent(REFUSED) {
        items[count - 1].kind = 3;
    }
    scenario.put(&write::change(&header, &items));
}

fn delete(scenario: &mut Scenario, groups: &[Group]) {
    let [bank, branches @ ..] = scenario.random.pick(groups);
    let header = scenario.fresh_header(bank);
    let branch = scenario.random.pick(&branches);
    let kind = scenario.random.pick(&[LTK_TYPE, LPO_TYPE, LPO_TYPE]);
    scenario.put(&write::deletion(&header, &write::account_id(branch), kind));
}

/// A bank asks for its group, or a branch for itself; some ids are strange.
fn query(scenario: &mut Scenario, groups: &[Group]) {
    let group = scenario.random.pick(groups);
    let sender = scenario.random.pick(&group);
    let header = scenario.fresh_header(sender);
    let is_bank = sender == group[0];
    let count = 1 + scenario.random.below(MOST_ITEMS);
    let ids: Vec<AccountId> = (0..count)
        .map(|_| match scenario.random.below(20) {
            0 => write::account_id_in(b"1USD", sender),
            1 => write::account_id(pick_party(&mut scenario.random, groups)),
            _ if is_bank => write::account_id(scenario.random.pick(&group)),
            _ => write::account_id(sender),
        })
        .collect();
    scenario.put(&write::query(&header, &ids));
}

/// Eight conditions, of which the last alone holds of many accounts, so that
/// most texts are looked for in most ids.
fn search(scenario: &mut Scenario, groups: &[Group]) {
    let group = scenario.random.pick(groups);
    let sender = scenario.random.pick(&group);
    let header = scenario.fresh_header(sender);
    let mut conditions: Vec<Sought> = (1..MOST_CONDITIONS)
        .map(|_| seldom_met(&mut scenario.random))
        .collect();
    // Not 1, which stands in every id.
    let digit = b'2' + scenario.random.below(8) as u8;
    let [bank, ..] = group.map(write::account_id);
    conditions.push(match scenario.random.below(3) {
        0 => sought(CONTAINS, &bank[6..]),
        1 => sought(CONTAINS, &[digit]),
        _ => sought(LACKS, &[digit]),
    });
    scenario.put(&write::search(&header, &conditions));
}

/// A condition that hardly any account meets.
fn seldom_met(random: &mut Random) -> Sought {
    let id = write::account_id(random.below(1_000_000) as u32);
    let begin = random.below(6);
    match random.below(4) {
        0 => sought(EQUAL, &id),
        1 => sought(LACKS, &id[random.below(4)..4]),
        _ => sought(CONTAINS, &id[begin..begin + 5]),
    }
}

fn sought(mode: u8, text: &[u8]) -> Sought {
    let text = text.to_vec();
    Sought { mode, text }
}

fn move_money(scenario: &mut Scenario, banks: &[u32]) {
    let bank = scenario.random.pick(banks);
    let amount = scenario.random.between(1, 100 * COMMON_AMOUNT);
    let frame = if scenario.random.percent(50) {
        write::funding(bank, amount)
    } else {
        write::withdrawal(bank, amount)
    };
    scenario.put(&frame);
}

fn set_bank_limits(scenario: &mut Scenario, banks: &[u32]) {
    let bank = scenario.random.pick(banks);
    let state = scenario.known(bank).map_or(0, Account::state);
    let ltk = scenario.random.between(0, state.clamp(0, TOP_VALUE) / 2);
    let lpo = scenario.random.pick(&[0, TOP_VALUE]);
    scenario.put(&write::bank_limits(bank, ltk, lpo));
}
