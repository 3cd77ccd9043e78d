//! A text as a recording, on standard output (docs/TEXT.md):
//!
//!     compose2 [--edition NAME] [TEXT] > RECORDING
//!
//! How many records and packets there are is told on standard error, or the first wrong line, with status 1. Wrong
//! words have status 2, and what cannot be read or written status 1.
#![forbid(unsafe_code)]

use second::command::{edition_of, status, Failure, Input, Output};
use second::text::compose;
use std::ffi::OsString;
use std::process::ExitCode;

const NAME: &str = "compose2";

fn main() -> ExitCode {
    status(NAME, run())
}

/// "Nothing is written before it was read to its end, and nothing at all where a line is wrong".
fn run() -> Result<(), Failure> {
    let words: Vec<OsString> = std::env::args_os().skip(1).collect();
    let (edition, words) = edition_of(words).map_err(Failure::Words)?;
    if words.len() > 1
        || words
            .iter()
            .any(|word| word.to_string_lossy().starts_with("--"))
    {
        return Err(Failure::Words(
            "compose2 [--edition NAME] [TEXT]".to_string(),
        ));
    }
    let mut input = Input::open(words.first()).map_err(Failure::Other)?;
    let mut output = Output::beside(&input).map_err(Failure::Other)?;
    let text = input.read().map_err(Failure::Other)?;
    let composed = compose(edition, &text).map_err(|line| Failure::Other(line.to_string()))?;
    output.write(&composed.recording).map_err(Failure::Other)?;
    eprintln!(
        "{NAME}: {} records, {} packets",
        composed.records, composed.packets
    );
    Ok(())
}
