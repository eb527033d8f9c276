//! Prints a random list of lines: seed, number of lines, workload.

use std::env;
use std::io::{self, Write};
use std::process::ExitCode;

use reference::generate::{generate, Workload};

fn main() -> ExitCode {
    let arguments: Vec<String> = env::args().skip(1).collect();
    let Some((seed, lines, workload)) = read(&arguments) else {
        eprintln!("usage: generate SEED LINES all|payments|mix|search");
        return ExitCode::from(2);
    };
    // Nobody is left to tell when the output fails.
    let _ = io::stdout().write_all(&generate(seed, lines, workload));
    ExitCode::SUCCESS
}

fn read(arguments: &[String]) -> Option<(u64, usize, Workload)> {
    let [seed, lines, workload] = arguments else {
        return None;
    };
    Some((
        seed.parse().ok()?,
        lines.parse().ok()?,
        Workload::named(workload)?,
    ))
}
