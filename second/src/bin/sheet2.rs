//! The sheet of a recording: from standard input, or from the file named as the only argument. `--edition 1.3`
//! before or behind it chooses that edition.
#![forbid(unsafe_code)]

fn main() -> std::process::ExitCode {
    second::command::over_recording("sheet2", second::sheet::sheet_of_recording)
}
