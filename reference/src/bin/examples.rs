//! Prints the list of examples. The table itself, with the name of each
//! example, stands in the library under `examples`.

use std::io::{self, Write};

fn main() {
    // Nobody is left to tell when the output fails.
    let _ = io::stdout().write_all(&reference::examples::list());
}
