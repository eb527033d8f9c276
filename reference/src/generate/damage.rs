//! Lines that are no frames, or hardly so.

use super::scenario::Scenario;
use crate::frame::LONGEST_LINE;
use crate::write::{self, EQUAL};

/// Where each part of a message stands.
const SECOND: usize = 43;
const COUNT: usize = 47;
/// Where a search's first condition begins.
const CONDITIONS: usize = 48;
/// Where the byte of the letters stands.
const LETTERS: usize = 7;

/// Each kind with the length of a frame of it.
const KINDS: [(u8, usize); 13] = [
    (0x01, 7),
    (0x02, 15),
    (0x03, 15),
    (0x04, 15),
    (0x05, 23),
    (0x06, 22),
    (0x07, 67),
    (0x08, 58),
    (0x09, 58),
    (0x0a, 5),
    (0x0b, 60),
    (0x0c, 8),
    (0x13, 7),
];

impl Scenario {
    /// A line made from a good frame by one damage.
    pub fn damaged(&mut self, mut frame: Vec<u8>) -> Vec<u8> {
        if self.random.percent(3) {
            return self.full_change_and_more();
        }
        if self.random.percent(50) {
            self.damage_frame(&mut frame);
            return write::line(&frame);
        }
        let mut line = write::line(&frame);
        self.damage_line(&mut line);
        line
    }

    fn damage_frame(&mut self, frame: &mut Vec<u8>) {
        match self.random.below(8) {
            0 => frame[0] = self.random.pick(&[0, 0x0d, 0x10, 0x12, 0x14, 0xff]),
            1 => (frame[0], _) = self.random.pick(&KINDS),
            2 => frame.push(self.random.byte()),
            3 => frame.truncate(self.random.below(frame.len() + 1)),
            4 => frame.extend(frame.clone()),
            _ => self.damage_field(frame),
        }
    }

    /// Makes a field wrong that the frame's kind has.
    fn damage_field(&mut self, frame: &mut Vec<u8>) {
        let kind = frame[0];
        let codes: &[usize] = match kind {
            0x02 => &[1, 7],
            0x06 => &[2, 8],
            0x0a => &[],
            _ => &[1],
        };
        if !codes.is_empty() && self.random.percent(40) {
            let digit = self.random.pick(codes) + self.random.below(6);
            frame[digit] = self.random.pick(b"/:aF \x00\x01\xb8");
            return;
        }
        let wrong = |frame: &mut [u8], place: usize, value: u8| {
            if let Some(byte) = frame.get_mut(place) {
                *byte = value;
            }
        };
        match kind {
            0x02 => {
                let method = 13 + self.random.below(2);
                wrong(frame, method, self.random.pick(&[4, 5, 0x31, 255]));
            }
            0x06 => wrong(frame, 1, self.random.pick(&[2, 3, 0x30, 255])),
            0x07 | 0x09 if self.random.percent(50) => {
                let count = frame[COUNT];
                let counts = [0, 17, 255, count.wrapping_sub(1), count + 1, count + 16];
                frame[COUNT] = self.random.pick(&counts);
            }
            0x0b if self.random.percent(75) => self.damage_conditions(frame),
            0x07..=0x09 | 0x0b => {
                let second: u32 = self.random.pick(&[86_400, 86_401, 1 << 24, u32::MAX]);
                frame[SECOND..SECOND + 4].copy_from_slice(&second.to_be_bytes());
            }
            // Bits 5 to 7, beside the letters or alone.
            0x0c => {
                let bits = self.random.pick(&[0, frame[LETTERS]]);
                let higher = self.random.pick(&[0x20, 0x40, 0x80, 0xe0]);
                frame[LETTERS] = bits | higher;
            }
            _ => wrong(frame, 1, 0x2f),
        }
    }

    /// Makes the count, a mode or a length of a search wrong.
    fn damage_conditions(&mut self, frame: &mut Vec<u8>) {
        let count = frame[COUNT];
        let mut place = CONDITIONS;
        for _ in 0..self.random.below(count.into()) {
            place += 2 + usize::from(frame[place + 1]);
        }
        let length = frame[place + 1];
        let text = place + 2..place + 2 + usize::from(length);
        match self.random.below(9) {
            0 => {
                let counts = [0, 9, 255, count - 1, count + 1, count + 8];
                frame[COUNT] = self.random.pick(&counts);
            }
            1 => frame[place] = self.random.pick(&[0, 4, b'1', 255]),
            2 => frame[place] = self.random.pick(&[1, 2, 3]),
            3 => {
                let lengths = [0, 11, 255, length - 1, length + 1, length + 8];
                frame[place + 1] = self.random.pick(&lengths);
            }
            // The length fits the text, but not the mode.
            4 => {
                frame[place] = EQUAL;
                frame[place + 1] = length - 1;
                frame.remove(text.start);
            }
            5 => {
                frame[place + 1] = length + 1;
                frame.insert(text.end, self.random.byte());
            }
            6 => {
                frame[place + 1] = 0;
                frame.drain(text);
            }
            7 => {
                frame[COUNT] = 0;
                frame.truncate(CONDITIONS);
            }
            // Nine conditions, or one more than the count says.
            _ => {
                let one: Vec<u8> = frame[place..text.end].into();
                let times = self.random.pick(&[1, 9 - count]);
                (0..times).for_each(|_| frame.extend(&one));
                frame[COUNT] = self.random.pick(&[count, count + times]);
            }
        }
    }

    fn damage_line(&mut self, line: &mut Vec<u8>) {
        let place = self.random.below(line.len());
        match self.random.below(12) {
            0 => line.clear(),
            1 => line.make_ascii_uppercase(),
            2 => {
                line.remove(place);
            }
            3 => line.insert(place, b'0'),
            4 => line[place] = self.no_end(),
            5 => line[place] = self.random.pick(b"gG/:@`ABCDEF \t\0"),
            6 => line.push(b'\r'),
            7 => line.push(b' '),
            8 => line.insert(0, b' '),
            9 => line.splice(0..0, *b"0x").for_each(drop),
            10 => {
                let surplus = self.random.below(6);
                line.resize(LONGEST_LINE - 2 + surplus, b'0');
            }
            _ => {
                let length = match self.random.below(20) {
                    0 => 200_000,
                    _ => 1_000 + self.random.below(9_000),
                };
                line.resize(length, b'a');
            }
        }
    }

    /// The longest frame, good by itself, with more digits behind it.
    fn full_change_and_more(&mut self) -> Vec<u8> {
        let mut line = write::line(&self.full_change());
        let surplus = match self.random.below(6) {
            0 => 1,
            1 => 2,
            2 => 38,
            3 | 4 => self.random.below(2_000),
            _ => 300_000,
        };
        line.resize(line.len() + surplus, b'0');
        line
    }

    /// Bytes or digits without any plan.
    pub fn noise(&mut self) -> Vec<u8> {
        let length = match self.random.below(10) {
            0 => 0,
            1..9 => self.random.below(60),
            _ => self.random.below(1_500),
        };
        match self.random.below(3) {
            0 => (0..length).map(|_| self.no_end()).collect(),
            1 => (0..length)
                .map(|_| self.random.pick(b"0123456789abcdef"))
                .collect(),
            _ => self.random_frame(),
        }
    }

    /// A frame of right kind and length with random bytes in it.
    fn random_frame(&mut self) -> Vec<u8> {
        let (kind, length) = self.random.pick(&KINDS);
        let mut frame: Vec<u8> = (0..length).map(|_| self.random.byte()).collect();
        frame[0] = kind;
        if self.random.percent(50) {
            let first_code = if kind == 0x06 { 2 } else { 1 };
            let digits = if kind == 0x0c { 6 } else { 12 };
            for byte in frame.iter_mut().skip(first_code).take(digits) {
                *byte = b'0' + *byte % 10;
            }
        }
        write::line(&frame)
    }

    /// Any byte but the end of a line.
    fn no_end(&mut self) -> u8 {
        match self.random.byte() {
            b'\n' => b'\r',
            byte => byte,
        }
    }
}
