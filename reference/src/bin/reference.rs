//! Reads lines from standard input and prints the answer to each.

use std::io;

fn main() {
    // Nobody is left to tell when the output fails.
    let _ = reference::stream::play(io::stdin().lock(), io::stdout().lock());
}
