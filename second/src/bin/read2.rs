//! A recording as text, on standard output (docs/TEXT.md):
//!
//!     read2 [--edition NAME] [--hex] [RECORDING] > TEXT
//!
//! `--hex` adds the bytes of bad packets. Wrong words have status 2, and what cannot be read or written status 1.
#![forbid(unsafe_code)]

use second::command::{edition_of, status, Failure, Input, Output};
use second::text::text_of_recording;
use std::ffi::OsString;
use std::process::ExitCode;

const NAME: &str = "read2";

fn main() -> ExitCode {
    status(NAME, run())
}

/// "Nothing is written before it was read to its end".
fn run() -> Result<(), Failure> {
    let words: Vec<OsString> = std::env::args_os().skip(1).collect();
    let (edition, mut words) = edition_of(words).map_err(Failure::Words)?;
    let hex = words.iter().position(|word| word == "--hex");
    if let Some(place) = hex {
        words.remove(place);
    }
    if words.len() > 1
        || words
            .iter()
            .any(|word| word.to_string_lossy().starts_with("--"))
    {
        return Err(Failure::Words(
            "read2 [--edition NAME] [--hex] [RECORDING]".to_string(),
        ));
    }
    let mut input = Input::open(words.first()).map_err(Failure::Other)?;
    let mut output = Output::beside(&input).map_err(Failure::Other)?;
    let recording = input.read().map_err(Failure::Other)?;
    let text = text_of_recording(edition, &recording, hex.is_some());
    output.write(text.as_bytes()).map_err(Failure::Other)
}
