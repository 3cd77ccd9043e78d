//! A recording of one edition as one of the other, on standard output:
//!
//!     convert2 --to 1.3 --type E [--type 7=F] [--type ABC=F] .. [--edition NAME] [RECORDING] > OTHER
//!     convert2 --to 1.3.b [--edition NAME] [RECORDING] > OTHER
//!
//! What was done is told on standard error. Wrong words have status 2, and what cannot be read or written status 1.
#![forbid(unsafe_code)]

use second::command::{status, Failure, Input, Output};
use second::convert::{convert_recording, Words};
use std::ffi::OsString;
use std::process::ExitCode;

const NAME: &str = "convert2";

fn main() -> ExitCode {
    status(NAME, run())
}

/// "Nothing is written before the recording has been read to its end, and nothing at all where it cannot be. Standard
/// error tells how many Symbol Updates were rewritten, and how many packets were passed on unread or barred."
fn run() -> Result<(), Failure> {
    let words: Vec<OsString> = std::env::args_os().skip(1).collect();
    let words = Words::read(&words).map_err(Failure::Words)?;
    let mut input = Input::open(words.file.as_ref()).map_err(Failure::Other)?;
    let mut output = Output::beside(&input).map_err(Failure::Other)?;
    let mut recording = input.read().map_err(Failure::Other)?;
    let counts = convert_recording(&words.asked, &mut recording)
        .map_err(|number| Failure::Other(format!("refused with {number}")))?;
    output.write(&recording).map_err(Failure::Other)?;
    eprintln!(
        "{NAME}: {} Symbol Updates rewritten, {} packets passed on unread, {} packets barred",
        counts.updates, counts.unread, counts.barred
    );
    Ok(())
}
