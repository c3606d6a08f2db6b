//! Plays the tape on standard input, at most 65,536 bytes of it, on a new machine; then prints the
//! Location Counter and the status.

use reference::generate::{LONGEST_TAPE, PLACES, TRACE_PLACES};
use reference::{Machine, Queue, Silent, Store};
use std::io::{self, Read, Write};

fn main() -> io::Result<()> {
    let mut tape = Vec::new();
    io::stdin()
        .lock()
        .take(LONGEST_TAPE as u64)
        .read_to_end(&mut tape)?;
    let mut machine = Machine::make(Store::zeros(PLACES), Silent);
    let mut trace = Queue::new(TRACE_PLACES);
    // A tape fault is not reported; what was obeyed before it stands.
    let _ = machine.play(&tape, &mut trace);
    io::stdout().write_all(machine.printed_text().as_bytes())
}
