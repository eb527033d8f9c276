//! Lines in, answers out.

use std::io::{self, BufRead, ErrorKind, Read, Write};

use crate::frame::LONGEST_LINE;
use crate::ledger::Ledger;

const CHUNK: usize = 1 << 18;

/// Plays all lines of the input on a fresh ledger, chunk by chunk.
pub fn play(mut input: impl Read, mut output: impl Write) -> io::Result<()> {
    let mut player = Player::default();
    let mut chunk = vec![0; CHUNK];
    loop {
        let length = match input.read(&mut chunk) {
            Ok(length) => length,
            Err(error) if error.kind() == ErrorKind::Interrupted => continue,
            Err(error) => return Err(error),
        };
        if length == 0 {
            break;
        }
        player.chunk(&chunk[..length])?;
        output.write_all(&player.answers)?;
        player.answers.clear();
    }
    player.end();
    output.write_all(&player.answers)?;
    output.flush()
}

/// Plays a whole list and gives all answers.
pub fn answers(list: &[u8]) -> Vec<u8> {
    let mut out = Vec::new();
    play(list, &mut out).expect("memory takes all bytes");
    out
}

#[derive(Default)]
struct Player {
    ledger: Ledger,
    answers: Vec<u8>,
    /// The beginning of a line whose end has not come yet. Of a line longer
    /// than any frame only so much is kept as shows it to be too long.
    begun: Vec<u8>,
}

impl Player {
    fn chunk(&mut self, mut rest: &[u8]) -> io::Result<()> {
        while !rest.is_empty() {
            let from = rest;
            let length = rest.skip_until(b'\n')?;
            match from[..length].strip_suffix(b"\n") {
                None => self.begin(from),
                Some(line) if self.begun.is_empty() => self.ledger.line(line, &mut self.answers),
                Some(line) => {
                    self.begin(line);
                    self.end();
                }
            }
        }
        Ok(())
    }

    fn begin(&mut self, part: &[u8]) {
        let room = LONGEST_LINE + 1 - self.begun.len();
        self.begun.extend_from_slice(&part[..part.len().min(room)]);
    }

    /// Plays the line begun, if there is one.
    fn end(&mut self) {
        if !self.begun.is_empty() {
            self.ledger.line(&self.begun, &mut self.answers);
            self.begun.clear();
        }
    }
}
