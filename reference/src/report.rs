//! Blocks of a query's report, and of a search's.

use crate::account::{Account, Limit, ICDT, LPO, LTK};
use crate::ledger::MOST_ACCOUNTS;
use crate::letters::Letter;
use crate::write;

/// Bytes of the block of an account in a query's report: 0 and two limits.
pub const LIMITS_BLOCK: usize = 57;
/// The same in a search's up to the letters: 0, id, state, four turnovers and
/// the number of letters.
pub const ACCOUNT_BLOCK: usize = 52;
/// A count and the blocks of all accounts, all letters set; 16 blocks of a
/// query are fewer bytes.
pub const LONGEST_REPORT: usize = 1 + MOST_ACCOUNTS * (ACCOUNT_BLOCK + Letter::ALL.len());

/// How far a limit in use is used.
struct Use {
    used: i64,
    left: i64,
    /// In hundredths, rounded down.
    percent: u16,
}

impl Use {
    fn new(limit: i64, used: i64, left: i64) -> Use {
        // 10,000 times 10^15 is more than 64 signed bits hold.
        let percent = 10_000 * i128::from(used).abs() / i128::from(limit).abs();
        Use {
            used,
            left,
            percent: percent as u16,
        }
    }
}

/// Appends the block of an account: 0, then LTK, then LPO.
pub fn write_block(account: &Account, report: &mut Vec<u8>) {
    report.push(0);
    write_limit(account.limits[LTK], report, |ltk| {
        use_of_ltk(ltk, account.state())
    });
    write_limit(account.limits[LPO], report, |lpo| {
        use_of_lpo(lpo, account.turnovers[ICDT])
    });
}

/// Appends the block of an account that was searched for.
pub fn write_account(account: &Account, report: &mut Vec<u8>) {
    report.push(0);
    report.extend(write::account_id(account.code));
    report.extend(account.state().to_be_bytes());
    for turnover in account.turnovers {
        report.extend(turnover.to_be_bytes());
    }
    report.push(account.letters.count());
    report.extend(account.letters.iter().map(Letter::character));
}

fn write_limit(limit: Limit, report: &mut Vec<u8>, use_of: impl Fn(i64) -> Option<Use>) {
    let (closed, value, in_use) = match limit {
        Limit::Closed => (1, 0, None),
        Limit::Value(value) => (0, value, use_of(value)),
    };
    let mark = u8::from(in_use.is_some());
    let Use {
        used,
        left,
        percent,
    } = in_use.unwrap_or(Use {
        used: 0,
        left: 0,
        percent: 0,
    });
    report.push(closed);
    report.extend(value.to_be_bytes());
    report.push(mark);
    report.extend(used.to_be_bytes());
    report.extend(left.to_be_bytes());
    report.extend(percent.to_be_bytes());
}

/// LTK is in use below 0.
fn use_of_ltk(ltk: i64, state: i64) -> Option<Use> {
    (ltk < 0).then(|| Use::new(ltk, state.clamp(ltk, 0), (state - ltk).max(0)))
}

/// LPO is in use above 0.
fn use_of_lpo(lpo: i64, icdt: i64) -> Option<Use> {
    let used = icdt.min(lpo);
    (lpo > 0).then(|| Use::new(lpo, used, lpo - used))
}
