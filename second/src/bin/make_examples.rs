//! Writes the recordings and sheets of `examples/` again, into the folder named as the only
//! argument (`examples` if none is). The bytes are the same on every run.
#![forbid(unsafe_code)]

use second::edition::Edition;
use second::examples::{long_recording, morning_recording, MORNING_SHEET};
use second::sheet::sheet_of_recording;
use std::path::PathBuf;
use std::process::ExitCode;

fn main() -> ExitCode {
    match run() {
        Ok(()) => ExitCode::SUCCESS,
        Err(text) => {
            eprintln!("make_examples: {text}");
            ExitCode::FAILURE
        }
    }
}

fn run() -> Result<(), String> {
    let arguments: Vec<_> = std::env::args_os().skip(1).collect();
    let folder = match arguments.len() {
        0 => PathBuf::from("examples"),
        1 => PathBuf::from(&arguments[0]),
        _ => return Err("at most one argument, the folder".to_string()),
    };
    let refused = |number| format!("refused with {number}");
    let edition = Edition::V1_3b;
    let morning = morning_recording();
    if sheet_of_recording(edition, &morning).map_err(refused)? != MORNING_SHEET.as_bytes() {
        return Err("the example does not give document 01's sheet".to_string());
    }
    let long = long_recording();
    let long_sheet = sheet_of_recording(edition, &long).map_err(refused)?;
    std::fs::create_dir_all(&folder).map_err(|error| error.to_string())?;
    for (name, bytes) in [
        ("morning.rec", morning.as_slice()),
        ("morning.sheet", MORNING_SHEET.as_bytes()),
        ("long.rec", long.as_slice()),
        ("long.sheet", long_sheet.as_slice()),
    ] {
        std::fs::write(folder.join(name), bytes).map_err(|error| format!("{name}: {error}"))?;
        println!("{name}: {} bytes", bytes.len());
    }
    Ok(())
}
