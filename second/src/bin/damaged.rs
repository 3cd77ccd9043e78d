//! A text on standard input, damaged at places that a seed draws, on standard output: `damaged 17 < TEXT | compose2`.
#![forbid(unsafe_code)]

use second::command::{over_arguments, Input};
use second::morning::damaged_text;
use std::process::ExitCode;

fn main() -> ExitCode {
    over_arguments("damaged", |_, arguments| {
        let seed = match arguments {
            [word] => word.to_str().and_then(|text| text.parse().ok()),
            _ => None,
        };
        let seed = seed.ok_or("one argument, the seed, a number from 0 to 2^64 - 1")?;
        Ok(damaged_text(seed, &Input::open(None)?.read()?))
    })
}
