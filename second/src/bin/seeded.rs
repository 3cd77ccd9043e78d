//! The recording of a seed on standard output: `seeded 17 | sheet2`. With `--edition 1.3` its Symbol Updates have
//! a Security Type: `seeded --edition 1.3 17 | sheet2 --edition 1.3`.
#![forbid(unsafe_code)]

use second::command::over_arguments;
use second::morning::drawn_recording;
use std::process::ExitCode;

fn main() -> ExitCode {
    over_arguments("seeded", |edition, arguments| {
        let seed = match arguments {
            [word] => word.to_str().and_then(|text| text.parse().ok()),
            _ => None,
        };
        let seed = seed.ok_or("one argument, the seed, a number from 0 to 2^64 - 1")?;
        Ok(drawn_recording(edition, seed))
    })
}
