//! What a recording makes a receiver say: from standard input, or from the file named as the only
//! argument. `--edition 1.3` before or behind it chooses that edition. The lines are those of
//! `second::answers`.
#![forbid(unsafe_code)]

fn main() -> std::process::ExitCode {
    second::command::over_recording("answers", second::answers::answers_of_recording)
}
