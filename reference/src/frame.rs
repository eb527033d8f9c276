//! Lines of hexadecimal digits, and the bytes of a frame.

/// The longest frame: a change of 16 items.
pub const LONGEST_FRAME: usize = 352;
/// The longest line that can hold a frame, without its end.
pub const LONGEST_LINE: usize = 2 * LONGEST_FRAME;

const DIGITS: &[u8; 16] = b"0123456789abcdef";
const NO_DIGIT: u8 = 0xff;

/// The value of each lowercase digit, and `NO_DIGIT` for all other bytes.
const VALUES: [u8; 256] = {
    let mut values = [NO_DIGIT; 256];
    let mut value = 0;
    while value < 16 {
        values[DIGITS[value] as usize] = value as u8;
        value += 1;
    }
    values
};

/// Reads the bytes of a line, or nothing if it is no line of a frame.
pub fn decode<'a>(line: &[u8], buffer: &'a mut [u8; LONGEST_FRAME]) -> Option<&'a [u8]> {
    let (pairs, odd) = line.as_chunks::<2>();
    if !odd.is_empty() {
        return None;
    }
    let frame = buffer.get_mut(..pairs.len())?;
    let mut seen = 0;
    for (byte, &[high, low]) in frame.iter_mut().zip(pairs) {
        let (high, low) = (VALUES[usize::from(high)], VALUES[usize::from(low)]);
        seen |= high | low;
        *byte = high << 4 | low;
    }
    (seen != NO_DIGIT).then_some(frame)
}

/// Appends the bytes in lowercase digits.
pub fn encode(bytes: &[u8], out: &mut Vec<u8>) {
    let begin = out.len();
    out.resize(begin + 2 * bytes.len(), 0);
    let (pairs, _) = out[begin..].as_chunks_mut::<2>();
    for (pair, byte) in pairs.iter_mut().zip(bytes) {
        *pair = [byte >> 4, byte & 15].map(|value| DIGITS[usize::from(value)]);
    }
}

/// The value of six digits.
pub fn code(digits: &[u8; 6]) -> Option<u32> {
    digits.iter().try_fold(0, |code, digit| {
        digit
            .is_ascii_digit()
            .then(|| 10 * code + u32::from(digit - b'0'))
    })
}

/// The code in an account id, if the id is `1`, `UAH`, code.
pub fn code_of_account_id(id: &[u8; 10]) -> Option<u32> {
    match id {
        [b'1', b'U', b'A', b'H', digits @ ..] => code(digits),
        _ => None,
    }
}
