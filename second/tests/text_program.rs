//! The words of `compose2` and `read2`, and what they read and write (docs/TEXT.md, "The commands").

mod common;
use common::{example_file, example_path, vectors, V1_3b, EDITIONS, V1_3};
use second::morning::damaged_text;
use second::text::{compose, text_of_recording};
use std::fs::{File, OpenOptions};
use std::path::{Path, PathBuf};
use std::process::{Command, Output, Stdio};

fn run(program: &str, words: &[&str], input: Stdio, output: Stdio) -> Output {
    Command::new(program)
        .args(words)
        .stdin(input)
        .stdout(output)
        .output()
        .unwrap()
}

fn compose2(words: &[&str], input: Stdio) -> Output {
    run(env!("CARGO_BIN_EXE_compose2"), words, input, Stdio::piped())
}

fn read2(words: &[&str], input: Stdio) -> Output {
    run(env!("CARGO_BIN_EXE_read2"), words, input, Stdio::piped())
}

fn path_of(name: &str) -> String {
    example_path(name).to_str().unwrap().to_string()
}

fn open(path: impl AsRef<Path>) -> Stdio {
    File::open(path).unwrap().into()
}

/// A file of a test's own, with these bytes.
fn own_file(name: &str, bytes: &[u8]) -> PathBuf {
    let path = Path::new(env!("CARGO_TARGET_TMPDIR")).join(name);
    std::fs::write(&path, bytes).unwrap();
    path
}

fn said(output: &Output) -> String {
    String::from_utf8(output.stderr.clone()).unwrap()
}

/// From a file and from standard input, in both editions: what is read is composed again.
#[test]
fn a_recording_read_and_composed() {
    for (name, words, told) in [
        ("morning.rec", &[][..], "5 records, 1 packets"),
        (
            "morning.rec",
            &["--edition", "1.3.b"],
            "5 records, 1 packets",
        ),
        (
            "morning-1.3.rec",
            &["--edition", "1.3"],
            "5 records, 1 packets",
        ),
        (
            "morning-7-F.rec",
            &["--edition", "1.3"],
            "5 records, 1 packets",
        ),
        (
            "morning-7-F.rec",
            &["--edition", "1.3.a"],
            "5 records, 1 packets",
        ),
    ] {
        let path = path_of(name);
        let named = read2(&[words, &[&path]].concat(), Stdio::null());
        let piped = read2(words, open(&path));
        for output in [&named, &piped] {
            assert_eq!(
                (output.status.code(), said(output)),
                (Some(0), String::new())
            );
        }
        assert_eq!(named.stdout, piped.stdout);
        let text = own_file(&format!("{}-{name}.txt", words.join("")), &named.stdout);
        let before = [&[text.to_str().unwrap()], words].concat();
        for output in [
            compose2(&before, Stdio::null()),
            compose2(words, open(&text)),
        ] {
            assert_eq!(output.status.code(), Some(0), "{words:?}");
            assert!(output.stdout == example_file(name), "{words:?}");
            assert_eq!(said(&output), format!("compose2: {told}\n"));
        }
    }
}

/// What the library's functions make is what the programs write, with `--hex` before or behind the others too.
#[test]
fn the_vectors_by_the_programs() {
    let packets = own_file("vectors.rec", &vectors(&["stdin"]));
    let path = packets.to_str().unwrap();
    let bytes = std::fs::read(&packets).unwrap();
    for (edition, name) in [(V1_3b, "1.3.a"), (V1_3, "1.3")] {
        for (words, hexadecimal) in [
            (vec!["--edition", name, path], false),
            (vec!["--hex", "--edition", name, path], true),
            (vec![path, "--edition", name, "--hex"], true),
        ] {
            let output = read2(&words, Stdio::null());
            assert_eq!(output.status.code(), Some(0));
            let text = text_of_recording(edition, &bytes, hexadecimal);
            assert!(output.stdout == text.as_bytes(), "{words:?}");
            let composed = compose(edition, text.as_bytes()).unwrap();
            let text = own_file(&format!("vectors-{name}.txt"), &output.stdout);
            let output = compose2(&["--edition", name], open(text));
            assert!(output.stdout == composed.recording);
            let (records, packets) = (composed.records, composed.packets);
            let told = format!("compose2: {records} records, {packets} packets\n");
            assert_eq!(said(&output), told);
        }
    }
}

/// A wrong line is told with status 1, and nothing is written.
#[test]
fn a_wrong_line_writes_nothing() {
    let text = text_of_recording(V1_3b, &example_file("long.rec"), false);
    let mut wrong = 0;
    for seed in 0..30 {
        let damaged = damaged_text(seed, text.as_bytes());
        let path = own_file("damaged.txt", &damaged);
        let output = compose2(&[], open(path));
        match compose(V1_3b, &damaged) {
            Ok(composed) => {
                assert_eq!(output.status.code(), Some(0));
                assert!(output.stdout == composed.recording);
            }
            Err(line) => {
                assert_eq!(output.status.code(), Some(1));
                assert!(output.stdout.is_empty());
                assert_eq!(said(&output), format!("compose2: {line}\n"));
                wrong += 1;
            }
        }
    }
    assert!(wrong > 10, "{wrong}");
    let path = own_file(
        "price.txt",
        b"1 time second=0\n\n2 modify symbol=7 order=1 size=1 price=0\n",
    );
    let output = compose2(&[path.to_str().unwrap()], Stdio::null());
    let told = "compose2: line 3, column 40: expected a price in dollars, 0.000001 to 1000000000.000000, with at most six places\n";
    assert_eq!(said(&output), told);
    assert_eq!((output.status.code(), output.stdout), (Some(1), vec![]));
}

/// A text is of an edition as a recording is.
#[test]
fn a_text_of_the_other_edition() {
    let path = own_file("typed.txt", b"1 update symbol=7 ticker=ABC type=F\n");
    let path = path.to_str().unwrap();
    let output = compose2(&["--edition", "1.3", path], Stdio::null());
    assert_eq!((output.status.code(), output.stdout.len()), (Some(0), 54));
    let output = compose2(&[path], Stdio::null());
    assert_eq!((output.status.code(), output.stdout.len()), (Some(1), 0));
    assert!(said(&output).starts_with("compose2: line 1, column 30: expected "));
}

/// Texts of nothing give recordings of nothing, and the other way round.
#[test]
fn nothing_of_nothing() {
    let output = compose2(&[], Stdio::null());
    assert_eq!((output.status.code(), output.stdout.len()), (Some(0), 0));
    assert_eq!(said(&output), "compose2: 0 records, 0 packets\n");
    for words in [&[][..], &["--hex"]] {
        let output = read2(words, Stdio::null());
        assert_eq!((output.status.code(), output.stdout.len()), (Some(0), 0));
    }
    for edition in EDITIONS {
        assert_eq!(text_of_recording(edition, &[], true), "");
    }
}

/// Wrong words have status 2, and what cannot be read status 1; nothing is written then.
#[test]
fn the_programs_refuse() {
    let folder = env!("CARGO_MANIFEST_DIR");
    for (program, name, others) in [
        (
            env!("CARGO_BIN_EXE_compose2"),
            "compose2: ",
            vec![vec!["--hex"], vec!["--hex", "a"]],
        ),
        (
            env!("CARGO_BIN_EXE_read2"),
            "read2: ",
            vec![vec!["--hex", "--hex"], vec!["--hex=1"]],
        ),
    ] {
        let mut wrong = vec![
            vec!["--edition"],
            vec!["--edition", "1.2"],
            vec!["--edition", "1.3", "--edition", "1.3"],
            vec!["a", "b"],
            vec!["--"],
            vec!["--other"],
        ];
        wrong.extend(others);
        for words in wrong {
            let output = run(
                program,
                &words,
                open(path_of("morning.rec")),
                Stdio::piped(),
            );
            assert_eq!(output.status.code(), Some(2), "{words:?}");
            assert!(output.stdout.is_empty() && said(&output).starts_with(name));
        }
        for (words, input) in [
            (vec!["no.rec"], Stdio::null()),
            (vec![folder], Stdio::null()),
            (vec![], open(folder)),
        ] {
            let output = run(program, &words, input, Stdio::piped());
            assert_eq!(output.status.code(), Some(1), "{words:?}");
            assert!(output.stdout.is_empty() && said(&output).starts_with(name));
        }
    }
}

/// A file is not written over itself, and where the output cannot be written whole it is said.
#[test]
fn outputs_that_are_not_written() {
    for (program, bytes) in [
        (
            env!("CARGO_BIN_EXE_compose2"),
            &b"1 time second=09:30:00\n"[..],
        ),
        (env!("CARGO_BIN_EXE_read2"), &example_file("morning.rec")),
    ] {
        let path = own_file("over-itself", bytes);
        let out = OpenOptions::new().append(true).open(&path).unwrap();
        let output = run(
            program,
            &[path.to_str().unwrap()],
            Stdio::null(),
            out.into(),
        );
        assert_eq!(output.status.code(), Some(1));
        assert!(std::fs::read(&path).unwrap() == bytes);
        let full = Path::new("/dev/full");
        if full.exists() {
            let out = OpenOptions::new().write(true).open(full).unwrap();
            let output = run(program, &[], open(&path), out.into());
            assert_eq!(output.status.code(), Some(1));
            assert!(said(&output).contains(": standard output: "));
        }
    }
}
