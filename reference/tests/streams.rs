//! Lines in and answers out.

use std::io::{self, Read, Write};

use reference::stream::{answers, play};

#[test]
fn the_example_of_the_program() {
    let list = b"01383838383838\n0338383838383800000000000003e8\n0438383838383800000000000003e9";
    assert_eq!(answers(list), b"00\n00\n09\n");
}

#[test]
fn empty_input_has_no_line() {
    assert_eq!(answers(b""), b"");
}

#[test]
fn the_last_end_opens_no_line() {
    assert_eq!(answers(b"\n"), b"01\n");
    assert_eq!(answers(b"0a00000001\n"), b"00\n");
    assert_eq!(answers(b"0a00000001\n\n"), b"00\n01\n");
}

#[test]
fn the_last_line_may_lack_its_end() {
    assert_eq!(answers(b"\n0a00000001"), b"01\n00\n");
}

#[test]
fn endless_lines_are_ill_formed() {
    let mut list = vec![b'0'; 5_000_000];
    list.extend(b"\n0a00000001\n");
    list.extend(vec![b'a'; 1_000_000]);
    assert_eq!(answers(&list), b"01\n00\n01\n");
}

/// Gives one byte at a time.
struct Slow<'a>(&'a [u8]);

impl Read for Slow<'_> {
    fn read(&mut self, buffer: &mut [u8]) -> io::Result<usize> {
        let length = buffer.len().min(1);
        self.0.read(&mut buffer[..length])
    }
}

#[test]
fn chunks_may_be_cut_anywhere() {
    let list = reference::examples::list();
    let mut out = Vec::new();
    play(Slow(&list), &mut out).unwrap();
    assert_eq!(out, answers(&list));
}

/// Takes nothing.
struct Shut;

impl Write for Shut {
    fn write(&mut self, _: &[u8]) -> io::Result<usize> {
        Err(io::ErrorKind::BrokenPipe.into())
    }

    fn flush(&mut self) -> io::Result<()> {
        Ok(())
    }
}

#[test]
fn failing_output_stops_the_play() {
    assert!(play(io::repeat(b'\n'), Shut).is_err());
}
