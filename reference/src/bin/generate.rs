//! Makes the directed tapes and so many random ones for the silent bus, the directed tapes and a
//! quarter as many random ones for devices, and plays them.
//!
//! `generate N` prints the number of tapes. With `--digest` it prints the digest of all lines too,
//! with `--lines` every line, with `--tapes` every tape in hexadecimal, with its kind and the bytes
//! that wait before it, as differential writes it.

use reference::generate::{trials, Digest};
use std::io::{self, BufWriter, Write};
use std::process::ExitCode;

/// What is to be printed.
struct Request {
    count: u64,
    digest: bool,
    lines: bool,
    tapes: bool,
}

fn main() -> ExitCode {
    let Some(request) = request(std::env::args().skip(1)) else {
        eprintln!("generate N [--digest] [--lines] [--tapes]");
        return ExitCode::FAILURE;
    };
    match answer(&request) {
        Ok(()) => ExitCode::SUCCESS,
        Err(error) => {
            eprintln!("generate: {error}");
            ExitCode::FAILURE
        }
    }
}

fn request(arguments: impl Iterator<Item = String>) -> Option<Request> {
    let mut request = Request {
        count: 0,
        digest: false,
        lines: false,
        tapes: false,
    };
    for argument in arguments {
        match argument.as_str() {
            "--digest" => request.digest = true,
            "--lines" => request.lines = true,
            "--tapes" => request.tapes = true,
            number => request.count = number.parse().ok()?,
        }
    }
    Some(request)
}

fn answer(request: &Request) -> io::Result<()> {
    let mut output = BufWriter::new(io::stdout().lock());
    let mut digest = Digest::new();
    let mut count = 0;
    for trial in trials(request.count) {
        count += 1;
        if request.tapes {
            writeln!(output, "{}", hexadecimal(&trial.bytes()))?;
        }
        if request.digest || request.lines {
            let line = trial.line();
            digest.take_line(&line);
            if request.lines {
                writeln!(output, "{line}")?;
            }
        }
    }
    writeln!(output, "tapes {count}")?;
    if request.digest {
        writeln!(output, "digest {:016X}", digest.0)?;
    }
    output.flush()
}

fn hexadecimal(bytes: &[u8]) -> String {
    bytes.iter().map(|byte| format!("{byte:02X}")).collect()
}
