//! What the programs over a recording share: the edition, by `--edition` and its name; a recording from standard
//! input, or from the file named as the only other argument, made into text on standard output; and a recording made
//! into another one.

use crate::edition::Edition;
use std::ffi::OsString;
use std::fs::{File, Metadata};
use std::io::{Read, Seek, SeekFrom, Write};
use std::os::fd::AsFd;
use std::os::unix::fs::MetadataExt;
use std::process::ExitCode;

/// Why a program prints nothing.
pub enum Failure {
    /// Wrong words, as of an edition that there is not: status 2.
    Words(String),
    /// Anything else: status 1.
    Other(String),
}

/// What a program makes of a recording in an edition, or the number that it refuses with.
pub type Made = fn(Edition, &[u8]) -> Result<Vec<u8>, u8>;

/// Runs one such program. Errors go to standard error under its name, and nothing is printed then.
pub fn over_recording(name: &str, made: Made) -> ExitCode {
    over_arguments(name, |edition, arguments| {
        let recording = recording(arguments)?;
        made(edition, &recording).map_err(|number| format!("refused with {number}"))
    })
}

/// Runs a program that makes text, or a recording, of an edition and its other arguments.
pub fn over_arguments(
    name: &str,
    made: impl FnOnce(Edition, &[OsString]) -> Result<Vec<u8>, String>,
) -> ExitCode {
    status(name, run(made))
}

/// What went wrong is told, and with which status the program ends.
pub fn status(name: &str, ended: Result<(), Failure>) -> ExitCode {
    let (text, status) = match ended {
        Ok(()) => return ExitCode::SUCCESS,
        Err(Failure::Words(text)) => (text, ExitCode::from(2)),
        Err(Failure::Other(text)) => (text, ExitCode::FAILURE),
    };
    eprintln!("{name}: {text}");
    status
}

fn run(made: impl FnOnce(Edition, &[OsString]) -> Result<Vec<u8>, String>) -> Result<(), Failure> {
    let words: Vec<OsString> = std::env::args_os().skip(1).collect();
    let (edition, arguments) = edition_of(words).map_err(Failure::Words)?;
    let text = made(edition, &arguments).map_err(Failure::Other)?;
    let mut out = std::io::stdout().lock();
    out.write_all(&text)
        .and_then(|()| out.flush())
        .map_err(|error| Failure::Other(format!("standard output: {error}")))
}

/// The edition that the words name, before or behind the others, and the others. None named is 1.3.b.
pub fn edition_of(words: Vec<OsString>) -> Result<(Edition, Vec<OsString>), String> {
    let mut edition = None;
    let mut others = Vec::new();
    let mut words = words.into_iter();
    while let Some(word) = words.next() {
        if word != "--edition" {
            others.push(word);
            continue;
        }
        let name = words.next().unwrap_or_default();
        let name = name.to_string_lossy();
        let Some(named) = Edition::named(&name) else {
            return Err(format!("no edition {name:?}: it is 1.3, 1.3.a or 1.3.b"));
        };
        if edition.replace(named).is_some() {
            return Err("one edition, and not two".to_string());
        }
    }
    Ok((edition.unwrap_or_default(), others))
}

fn recording(arguments: &[OsString]) -> Result<Vec<u8>, String> {
    match arguments {
        [] => Input::open(None)?.read(),
        [name] => Input::open(Some(name))?.read(),
        _ => Err("at most one name of a recording".to_string()),
    }
}

/// What a recording is read from.
pub struct Input {
    file: File,
    name: String,
}

impl Input {
    /// The file of this name, or standard input.
    pub fn open(name: Option<&OsString>) -> Result<Input, String> {
        let (file, name) = match name {
            None => (
                std::io::stdin()
                    .as_fd()
                    .try_clone_to_owned()
                    .map(File::from),
                "standard input".to_string(),
            ),
            Some(name) => (File::open(name), name.to_string_lossy().into_owned()),
        };
        match file {
            Ok(file) => Ok(Input { file, name }),
            Err(error) => Err(format!("{name}: {error}")),
        }
    }

    /// All of it. A read error is not the end of a recording.
    pub fn read(&mut self) -> Result<Vec<u8>, String> {
        let mut bytes = Vec::new();
        match self.file.read_to_end(&mut bytes) {
            Ok(_) => Ok(bytes),
            Err(error) => Err(format!("{}: {error}", self.name)),
        }
    }
}

/// Standard output for another recording.
pub struct Output {
    file: File,
    before: Metadata,
}

impl Output {
    /// docs/CONVERT.md: "a file is not written over itself".
    pub fn beside(input: &Input) -> Result<Output, String> {
        let file = std::io::stdout().as_fd().try_clone_to_owned();
        let file = file.map(File::from).map_err(cannot_write)?;
        let before = file.metadata().map_err(cannot_write)?;
        let read = input.file.metadata();
        let read = read.map_err(|error| format!("{}: {error}", input.name))?;
        if before.is_file() && (before.dev(), before.ino()) == (read.dev(), read.ino()) {
            return Err(format!("{}: standard output is the same file", input.name));
        }
        Ok(Output { file, before })
    }

    /// "Where the output cannot be written whole it is said, with status 1, and a file is cut back to what it was".
    pub fn write(&mut self, bytes: &[u8]) -> Result<(), String> {
        let begun = self.file.stream_position();
        let written = self.file.write_all(bytes);
        if let (Err(_), true, Ok(begun)) = (&written, self.before.is_file(), begun) {
            // What cannot be cut back either stays: that the output is not whole is said in any case.
            let _ = self.file.set_len(self.before.len());
            let _ = self.file.seek(SeekFrom::Start(begun));
        }
        written.map_err(cannot_write)
    }
}

fn cannot_write(error: std::io::Error) -> String {
    format!("standard output: {error}")
}
