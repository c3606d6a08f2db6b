//! Writes tapes, and the outcome that each is to have, for a comparison with another emulator.
//!
//! `differential N TAPES LINES` makes the directed tapes and N random ones for the silent bus, and
//! the directed tapes and a quarter as many random ones for devices. To the file TAPES it writes
//! each tape: behind an `S` for the silent bus; behind a `D` and the bytes that wait for the
//! teletype for devices. The bytes and the tape stand each behind their length, 4 bytes, the more
//! significant first. To the file LINES it writes the line of its outcome. It prints the number of
//! tapes.

use reference::generate::trials;
use std::fs::File;
use std::io::{self, BufWriter, Write};
use std::process::ExitCode;

fn main() -> ExitCode {
    let arguments: Vec<String> = std::env::args().skip(1).collect();
    let [count, tapes, lines] = arguments.as_slice() else {
        return usage();
    };
    let Ok(count) = count.parse() else {
        return usage();
    };
    match write_files(count, tapes, lines) {
        Ok(written) => {
            println!("{written} tapes");
            ExitCode::SUCCESS
        }
        Err(error) => {
            eprintln!("differential: {error}");
            ExitCode::FAILURE
        }
    }
}

fn usage() -> ExitCode {
    eprintln!("differential N TAPES LINES");
    ExitCode::FAILURE
}

fn write_files(count: u64, tapes_file: &str, lines_file: &str) -> io::Result<usize> {
    let mut tapes_out = BufWriter::new(File::create(tapes_file)?);
    let mut lines_out = BufWriter::new(File::create(lines_file)?);
    let mut written = 0;
    for trial in trials(count) {
        tapes_out.write_all(&trial.bytes())?;
        writeln!(lines_out, "{}", trial.line())?;
        written += 1;
    }
    tapes_out.flush()?;
    lines_out.flush()?;
    Ok(written)
}
