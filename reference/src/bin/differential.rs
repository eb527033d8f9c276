//! Plays random lists through the reference and a program under test and
//! compares the answers byte for byte.

use std::env;
use std::io::{Read, Write};
use std::process::{Child, Command, ExitCode, Stdio};
use std::sync::mpsc;
use std::thread;
use std::time::{Duration, Instant};

use reference::generate::{generate, profile_of, Workload};
use reference::lone_letter::Case;
use reference::stream;
use reference::tally::{Fate, Tally};

/// How long the program may take for one list.
const PATIENCE: Duration = Duration::from_secs(120);

const USAGE: &str = "usage: differential PROGRAM LINES SEEDS|SECONDSs [FIRST_SEED]
for example: differential ./tally 3000 70, or: differential ./tally 3000 60s";

struct Arguments {
    program: String,
    lines: usize,
    budget: Budget,
    first: u64,
}

enum Budget {
    Seeds(u64),
    Time(Duration),
}

fn main() -> ExitCode {
    let arguments: Vec<String> = env::args().skip(1).collect();
    let Some(arguments) = read(&arguments) else {
        eprintln!("{USAGE}");
        return ExitCode::from(2);
    };
    let summary = run(&arguments);
    summary.print();
    if summary.failed() == 0 {
        ExitCode::SUCCESS
    } else {
        ExitCode::FAILURE
    }
}

fn read(arguments: &[String]) -> Option<Arguments> {
    let (program, lines, budget, first) = match arguments {
        [program, lines, budget] => (program, lines, budget, "0"),
        [program, lines, budget, first] => (program, lines, budget, first.as_str()),
        _ => return None,
    };
    let budget = match budget.strip_suffix('s') {
        Some(seconds) => Budget::Time(Duration::from_secs(seconds.parse().ok()?)),
        None => Budget::Seeds(budget.parse().ok()?),
    };
    Some(Arguments {
        program: program.clone(),
        lines: lines.parse().ok()?,
        budget,
        first: first.parse().ok()?,
    })
}

#[derive(Default)]
struct Summary {
    lists: u64,
    differing: u64,
    tally: Tally,
}

impl Summary {
    /// Lists that differ, and one more if something was never reached.
    fn failed(&self) -> u64 {
        self.differing + u64::from(!self.tally.is_complete())
    }

    fn print(&self) {
        let tally = &self.tally;
        println!("{} lines compared in {} lists", tally.lines(), self.lists);
        for (number, count) in tally.counts() {
            println!("{} {number:2}: {count}", name(number));
        }
        for (kind, number, count) in tally.kinds() {
            println!("{kind}, {} {number:2}: {count}", name(number));
        }
        for (letters, count) in tally.shown().iter().enumerate() {
            println!("search, accounts shown with {letters} letters: {count}");
        }
        let [same, other] = tally.marked_again();
        println!("mark, answer 26 to the marked bank: {same}, to another: {other}");
        for (case, fate) in tally.fates() {
            print_fate(case, fate);
        }
        for (case, number, count) in tally.groups() {
            println!("{case}, {} {number:2}: {count}", name(number));
        }
        if !tally.is_complete() {
            println!("not every answer, block and case was reached");
        }
        let tests = self.lists + 1;
        println!("{} passed, {} failed", tests - self.failed(), self.failed());
    }
}

fn name(number: usize) -> &'static str {
    match number {
        23 | 24 => "block",
        _ => "answer",
    }
}

fn print_fate(case: Case, fate: Fate) {
    let Fate { accepted, blocked } = fate;
    println!(
        "{case}: credits {} accepted, {} blocked; debits {} accepted, {} blocked",
        accepted[0], blocked[0], accepted[1], blocked[1]
    );
}

/// Plays list after list until the budget is spent or a list differs.
fn run(arguments: &Arguments) -> Summary {
    let begin = Instant::now();
    let mut summary = Summary::default();
    for seed in arguments.first.. {
        let is_spent = match arguments.budget {
            Budget::Seeds(seeds) => summary.lists >= seeds,
            Budget::Time(time) => begin.elapsed() >= time,
        };
        if is_spent {
            break;
        }
        let list = generate(seed, arguments.lines, Workload::All);
        let expected = stream::answers(&list);
        summary.lists += 1;
        summary.tally.count(&list);
        if let Err(difference) = compare(&arguments.program, &list, &expected) {
            println!("seed {seed} ({}): {difference}", profile_of(seed));
            summary.differing += 1;
            break;
        }
    }
    summary
}

fn compare(program: &str, list: &[u8], expected: &[u8]) -> Result<(), String> {
    let answers = answers_of(program, list)?;
    if answers == expected {
        return Ok(());
    }
    Err(first_difference(list, expected, &answers))
}

/// What the program prints for the list.
fn answers_of(program: &str, list: &[u8]) -> Result<Vec<u8>, String> {
    let mut child = Command::new(program)
        .stdin(Stdio::piped())
        .stdout(Stdio::piped())
        .spawn()
        .map_err(|error| format!("{program} cannot be started: {error}"))?;
    let answers = exchange(&mut child, list);
    if answers.is_none() {
        // It may have ended by itself just now.
        let _ = child.kill();
    }
    let status = child.wait().map_err(|error| error.to_string())?;
    let answers = answers.ok_or(format!("no end of output within {PATIENCE:?}"))?;
    if status.success() {
        Ok(answers)
    } else {
        Err(format!("the program ended with {status}"))
    }
}

/// Writes on one thread and reads on another; nothing if patience runs out.
fn exchange(child: &mut Child, list: &[u8]) -> Option<Vec<u8>> {
    let mut input = child.stdin.take()?;
    let mut output = child.stdout.take()?;
    let list = list.to_vec();
    // A program that stops reading is noticed by its answers.
    thread::spawn(move || input.write_all(&list));
    let (sender, receiver) = mpsc::channel();
    thread::spawn(move || {
        let mut answers = Vec::new();
        let read = output.read_to_end(&mut answers);
        sender.send(read.map(|_| answers))
    });
    receiver.recv_timeout(PATIENCE).ok()?.ok()
}

/// The lines of a text; the last one may lack its end.
fn lines_of(text: &[u8]) -> impl Iterator<Item = &[u8]> {
    text.split_inclusive(|&byte| byte == b'\n')
        .map(|line| line.strip_suffix(b"\n").unwrap_or(line))
}

fn first_difference(list: &[u8], expected: &[u8], answers: &[u8]) -> String {
    let mut answers = lines_of(answers);
    for (number, (line, expected)) in lines_of(list).zip(lines_of(expected)).enumerate() {
        let answer = answers.next();
        if answer != Some(expected) {
            return format!(
                "line {}\nline:      {}\nreference: {}\nprogram:   {}",
                number + 1,
                text(line),
                text(expected),
                answer.map_or("(no answer)".into(), text),
            );
        }
    }
    match answers.next() {
        Some(answer) => format!("one answer too many: {}", text(answer)),
        None => "the last answer lacks its end".into(),
    }
}

fn text(bytes: &[u8]) -> String {
    bytes.escape_ascii().to_string()
}
