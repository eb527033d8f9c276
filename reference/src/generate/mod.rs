//! Random lists of lines, the same for the same seed.

mod damage;
mod groups;
mod letters;
mod messages;
mod profiles;
mod random;
mod scenario;
mod steady;
mod steps;

use scenario::Scenario;

#[derive(Clone, Copy, Debug, PartialEq, Eq)]
pub enum Workload {
    /// Everything, adversarially; the seed chooses the profile.
    All,
    /// Payments between 64 accounts.
    Payments,
    /// Payments, limit messages, fundings and days as a system would see them.
    Mix,
    /// Searches of eight conditions over 64 accounts.
    Search,
}

impl Workload {
    pub fn named(name: &str) -> Option<Workload> {
        match name {
            "all" => Some(Workload::All),
            "payments" => Some(Workload::Payments),
            "mix" => Some(Workload::Mix),
            "search" => Some(Workload::Search),
            _ => None,
        }
    }
}

/// Makes a list of so many lines.
pub fn generate(seed: u64, lines: usize, workload: Workload) -> Vec<u8> {
    let mut scenario = Scenario::new(seed, lines);
    match workload {
        Workload::All => profiles::play(&mut scenario, seed),
        Workload::Payments => steady::payments(&mut scenario),
        Workload::Mix => steady::mix(&mut scenario),
        Workload::Search => steady::searches(&mut scenario),
    }
    scenario.list()
}

/// The name of the profile that a seed chooses in workload `all`.
pub fn profile_of(seed: u64) -> &'static str {
    profiles::of_seed(seed).name
}
