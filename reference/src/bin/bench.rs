//! Measures a program beside others on a workload: the time on the processor, since the clock tells little on a machine that is shared.

use std::env;
use std::fs::{self, File};
use std::io;
use std::path::{Path, PathBuf};
use std::process::{self, Command, ExitCode, Stdio};
use std::thread;
use std::time::Duration;

use reference::generate::{generate, Workload};

const SEED: u64 = 1;
const USAGE: &str = "usage: bench LINES ROUNDS payments|mix|search PROGRAM OTHER..";

struct Arguments {
    lines: usize,
    rounds: usize,
    name: String,
    workload: Workload,
    programs: Vec<PathBuf>,
}

fn main() -> ExitCode {
    let arguments: Vec<String> = env::args().skip(1).collect();
    let Some(arguments) = read(&arguments) else {
        eprintln!("{USAGE}");
        return ExitCode::from(2);
    };
    match run(&arguments) {
        Ok(()) => ExitCode::SUCCESS,
        Err(error) => {
            eprintln!("bench: {error}");
            ExitCode::FAILURE
        }
    }
}

fn read(arguments: &[String]) -> Option<Arguments> {
    let [lines, rounds, name, programs @ ..] = arguments else {
        return None;
    };
    let number = |text: &String| text.parse().ok().filter(|&number| number > 0);
    if programs.len() < 2 {
        return None;
    }
    Some(Arguments {
        lines: number(lines)?,
        rounds: number(rounds)?,
        name: name.clone(),
        workload: Workload::named(name)?,
        programs: programs.iter().map(PathBuf::from).collect(),
    })
}

fn run(arguments: &Arguments) -> io::Result<()> {
    let file = env::temp_dir().join(format!("bench-{}", process::id()));
    fs::write(&file, generate(SEED, arguments.lines, arguments.workload))?;
    let measured = measure(arguments, &file);
    fs::remove_file(&file)?;
    print(arguments, &measured?);
    Ok(())
}

fn print(arguments: &Arguments, least: &[Duration]) {
    let (name, lines, rounds) = (&arguments.name, arguments.lines, arguments.rounds);
    println!("{name}: {lines} lines, processor time, least of {rounds} rounds");
    for (program, &time) in arguments.programs.iter().zip(least) {
        let milliseconds = 1e3 * time.as_secs_f64();
        let per_line = 1e9 * time.as_secs_f64() / lines as f64;
        let ratio = least[0].as_secs_f64() / time.as_secs_f64();
        let program = program.display();
        println!(
            "  {milliseconds:8.2} ms  {per_line:6.1} ns a line  first / this {ratio:.3}  {program}"
        );
    }
}

/// The least time of each program, run in turn.
fn measure(arguments: &Arguments, input: &Path) -> io::Result<Vec<Duration>> {
    let mut least = vec![Duration::MAX; arguments.programs.len()];
    for _ in 0..arguments.rounds {
        for (least, program) in least.iter_mut().zip(&arguments.programs) {
            *least = time(program, input)?.min(*least);
        }
    }
    Ok(least)
}

/// The time on the processor, user and system, of one run from the file to nowhere.
fn time(program: &Path, input: &Path) -> io::Result<Duration> {
    let mut command = Command::new(program);
    command.stdin(File::open(input)?).stdout(Stdio::null());
    let mut child = command.spawn()?;
    let time = time_of(child.id());
    let status = child.wait()?;
    if !status.success() {
        let text = format!("{} ended with {status}", program.display());
        return Err(io::Error::other(text));
    }
    time
}

/// As Linux keeps it of a program that has ended and is not waited for yet: before its end the count lags behind.
fn time_of(id: u32) -> io::Result<Duration> {
    while !has_ended(&fs::read_to_string(format!("/proc/{id}/stat"))?) {
        thread::sleep(Duration::from_millis(1));
    }
    let text = fs::read_to_string(format!("/proc/{id}/schedstat"))?;
    let nanoseconds = text.split_whitespace().next().and_then(|n| n.parse().ok());
    nanoseconds
        .map(Duration::from_nanos)
        .ok_or_else(|| io::Error::other("no time on the processor is told here"))
}

/// The state stands behind the name, which is in brackets.
fn has_ended(stat: &str) -> bool {
    stat.rsplit_once(')')
        .is_some_and(|(_, rest)| rest.trim_start().starts_with('Z'))
}
