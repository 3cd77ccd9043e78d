//! The programs as they are run.

mod common;
use common::{example_file, example_path, V1_3b};
use second::examples::{morning_recording, MORNING_SHEET};
use std::fs::File;
use std::path::PathBuf;
use std::process::{Command, Output, Stdio};

fn sheet2(input: Stdio, arguments: &[PathBuf]) -> Output {
    Command::new(env!("CARGO_BIN_EXE_sheet2"))
        .args(arguments)
        .stdin(input)
        .output()
        .unwrap()
}

#[test]
fn sheet2_reads_standard_input_or_a_file() {
    for name in ["morning", "long", "flags", "nanoseconds", "offsets"] {
        let wanted = example_file(&format!("{name}.sheet"));
        let path = example_path(&format!("{name}.rec"));
        let piped = sheet2(File::open(&path).unwrap().into(), &[]);
        assert!(piped.status.success() && piped.stdout == wanted);
        let named = sheet2(Stdio::null(), &[path]);
        assert!(named.status.success() && named.stdout == wanted);
    }
}

/// The sheets of the morning of both editions, and of document 01's example as a recording of 1.3, as
/// tools/editions.py states them. Read in 1.3.b, the example comes to document 01's sheet.
#[test]
fn sheet2_in_each_edition() {
    for (name, edition, stated) in [
        ("editions", "1.3", "editions.1.3"),
        ("editions", "1.3.a", "editions.1.3.b"),
        ("editions", "1.3.b", "editions.1.3.b"),
        ("morning-1.3", "1.3", "morning-1.3"),
        ("morning-1.3", "1.3.a", "morning"),
        ("morning-1.3", "1.3.b", "morning"),
    ] {
        let wanted = example_file(&format!("{stated}.sheet"));
        let path = example_path(&format!("{name}.rec"));
        let words = ["--edition".into(), edition.into()];
        let piped = sheet2(File::open(&path).unwrap().into(), &words);
        assert!(piped.status.success() && piped.stdout == wanted);
        let named = sheet2(Stdio::null(), &[&words[..], &[path]].concat());
        assert!(named.status.success() && named.stdout == wanted);
    }
}

#[test]
fn a_read_error_prints_no_sheet() {
    let folder = PathBuf::from(env!("CARGO_MANIFEST_DIR"));
    let outputs = [
        sheet2(Stdio::null(), &[example_path("no.rec")]),
        sheet2(Stdio::null(), &[folder.clone()]),
        sheet2(File::open(&folder).unwrap().into(), &[]),
        sheet2(
            Stdio::null(),
            &[example_path("long.rec"), example_path("long.rec")],
        ),
    ];
    for output in outputs {
        assert!(!output.status.success());
        assert!(output.stdout.is_empty());
        assert!(!output.stderr.is_empty());
    }
}

#[test]
fn make_examples_and_seeded_write_the_same_bytes_again() {
    let folder = PathBuf::from(env!("CARGO_TARGET_TMPDIR")).join("examples");
    let made = Command::new(env!("CARGO_BIN_EXE_make_examples"))
        .arg(&folder)
        .output()
        .unwrap();
    assert!(made.status.success());
    for name in ["morning.rec", "morning.sheet", "long.rec", "long.sheet"] {
        let written = std::fs::read(folder.join(name)).unwrap();
        assert!(written == example_file(name), "{name}");
    }
    assert!(std::fs::read(folder.join("morning.rec")).unwrap() == morning_recording());
    assert!(std::fs::read(folder.join("morning.sheet")).unwrap() == MORNING_SHEET.as_bytes());
    let seeded = Command::new(env!("CARGO_BIN_EXE_seeded"))
        .arg("17")
        .output()
        .unwrap();
    assert!(seeded.status.success());
    assert!(seeded.stdout == second::morning::drawn_recording(V1_3b, 17));
}
