//! The words of `convert2`, and what it reads and writes (docs/CONVERT.md, "The command").

mod common;
use common::{example_file, example_path, Edition, V1_3b, V1_3};
use second::convert::*;
use std::ffi::OsString;
use std::fs::{File, OpenOptions};
use std::path::{Path, PathBuf};
use std::process::{Command, Output, Stdio};

fn asked(from: Edition, to: Edition, kind: u8, others: Vec<u8>) -> Asked {
    Asked {
        from,
        to,
        kind,
        others,
    }
}

// Words.

fn read_words(words: &[&str]) -> Result<Words, String> {
    let words: Vec<OsString> = words.iter().map(OsString::from).collect();
    Words::read(&words)
}

/// "For 1.3, `--type` with a letter is the type of all symbols .. with a name, `=` and a letter is an exception."
#[test]
fn words_that_ask() {
    let older = |kind, others| asked(V1_3b, V1_3, kind, others);
    let seven = by_id(7, b'F').to_vec();
    let abc = by_ticker(b"ABC        ", b'F').to_vec();
    let several = [
        by_id(4_294_967_295, b'E'),
        by_id(0, b'F'),
        by_ticker(b"ABCDEFGHIJK", b'F'),
        by_ticker(b"E          ", b'E'),
        by_ticker(b"A=B        ", b'F'),
        by_ticker(b"=          ", b'F'),
        by_ticker(b"!~         ", b'E'),
        by_ticker(b"7A         ", b'E'),
        by_ticker(b"-7         ", b'E'),
    ];
    let many = "4294967295=E 0=F ABCDEFGHIJK=F E=E A=B=F ==F !~=E 7A=E -7=E";
    let many = format!("--to 1.3 --type F --type {}", many.replace(' ', " --type "));
    for (words, wanted, file) in [
        ("--to 1.3 --type E", older(b'E', vec![]), None),
        (
            "a.rec --type F --to 1.3",
            older(b'F', vec![]),
            Some("a.rec"),
        ),
        ("--to 1.3.b", asked(V1_3, V1_3b, 0, vec![]), None),
        (
            "--to 1.3.a b.rec",
            asked(V1_3, V1_3b, 0, vec![]),
            Some("b.rec"),
        ),
        (
            "--to 1.3 --edition 1.3 --type E",
            asked(V1_3, V1_3, b'E', vec![]),
            None,
        ),
        (
            "--edition 1.3.a --type E c.rec --to 1.3",
            older(b'E', vec![]),
            Some("c.rec"),
        ),
        (
            "--edition 1.3.b --to 1.3.a",
            asked(V1_3b, V1_3b, 0, vec![]),
            None,
        ),
        (
            "--to 1.3 --type 7=F --type E",
            older(b'E', seven.clone()),
            None,
        ),
        (
            "--to 1.3 --type 00000000007=F --type E",
            older(b'E', seven.clone()),
            None,
        ),
        (
            "--to 1.3 --type E --type ABC=F --type 7=F",
            older(b'E', [abc, seven].concat()),
            None,
        ),
        (&many, older(b'F', several.concat()), None),
    ] {
        let wanted = Words {
            asked: wanted,
            file: file.map(OsString::from),
        };
        let told = read_words(&words.split(' ').collect::<Vec<_>>());
        assert_eq!(wanted.asked.judged(), Ok(()), "{words}");
        assert_eq!(told, Ok(wanted), "{words}");
    }
    // As many exceptions as there may be, and one more.
    let mut words = "--to 1.3 --type E".to_string();
    for id in 0..1_000 {
        words.push_str(&format!(" --type {id}=F"));
    }
    let told = read_words(&words.split(' ').collect::<Vec<_>>());
    assert_eq!(told.unwrap().asked.others.len(), 13_000);
    words.push_str(" --type ABC=F");
    assert!(read_words(&words.split(' ').collect::<Vec<_>>()).is_err());
}

/// What must not be asked, in words.
fn wrong_words() -> Vec<Vec<&'static str>> {
    let mut all = Vec::new();
    for line in [
        "",
        "--to",
        "--to 1.2",
        "--to 1.3.c",
        "--to --type",
        "--type E",
        "--edition 1.3",
        "--edition 1.3.b a.rec",
        // A type of all symbols, once.
        "--to 1.3",
        "--to 1.3 --type",
        "--to 1.3 --type 7=F",
        "--to 1.3 --type E --type F",
        "--to 1.3 --type E --type E",
        // A name of more than eleven bytes.
        "--to 1.3 --type E --type 000000000007=F",
        // No letter, or no name.
        "--to 1.3 --type e",
        "--to 1.3 --type G",
        "--to 1.3 --type EE",
        "--to 1.3 --type 69",
        "--to 1.3 --type E --type 7",
        "--to 1.3 --type E --type 7=",
        "--to 1.3 --type E --type 7=f",
        "--to 1.3 --type E --type 7=EF",
        "--to 1.3 --type E --type =F",
        "--to 1.3 --type E --type F=7",
        "--to 1.3 --type E --type 7=F=",
        "--to 1.3 --type E --type 4294967296=F",
        "--to 1.3 --type E --type 18446744073709551623=F",
        "--to 1.3 --type E --type ABCDEFGHIJKL=F",
        "--to 1.3 --type E --type \u{c4}=F",
        "--to 1.3 --type E --type A\u{7f}=F",
        // The same name twice.
        "--to 1.3 --type E --type 7=F --type 7=F",
        "--to 1.3 --type E --type 7=F --type 007=E",
        "--to 1.3 --type E --type ABC=F --type 7=E --type ABC=E",
        // Types for 1.3.b, good or not.
        "--to 1.3.b --type E",
        "--to 1.3.a --type E",
        "--to 1.3.b --type 7=F",
        "--to 1.3.b --type x",
        // Two of what is one, and what there is not.
        "--to 1.3.b --to 1.3.b",
        "--to 1.3.b --to 1.3 --type E",
        "--to 1.3.b --edition",
        "--to 1.3.b --edition 1.4",
        "--to 1.3.b --edition 1.3 --edition 1.3",
        "--to 1.3.b a.rec b.rec",
        "--to 1.3.b --types",
        "--to 1.3.b -",
        "--to 1.3.b --to=1.3",
    ] {
        all.push(line.split(' ').filter(|word| !word.is_empty()).collect());
    }
    all.push(vec!["--to", "1.3.b", ""]);
    all.push(vec!["--to", ""]);
    all.push(vec!["--to", "1.3", "--type", ""]);
    all.push(vec!["--to", "1.3", "--type", "E", "--type", "A B=F"]);
    all.push(vec!["--to", "1.3", "--type", "E", "--type", "ABC =F"]);
    all.push(vec!["--to", "1.3", "--type", "E", "--type", " 7=F"]);
    all
}

#[test]
fn words_that_are_wrong() {
    for words in wrong_words() {
        let told = read_words(&words);
        assert!(told.is_err_and(|text| !text.is_empty()), "{words:?}");
    }
}

// The program.

fn convert2(words: &[&str], input: Stdio, output: Stdio) -> Output {
    Command::new(env!("CARGO_BIN_EXE_convert2"))
        .args(words)
        .stdin(input)
        .stdout(output)
        .output()
        .unwrap()
}

fn path_of(name: &str) -> String {
    example_path(name).to_str().unwrap().to_string()
}

/// A file of a test's own, with these bytes.
fn own_file(name: &str, bytes: &[u8]) -> PathBuf {
    let path = Path::new(env!("CARGO_TARGET_TMPDIR")).join(name);
    std::fs::write(&path, bytes).unwrap();
    path
}

/// From a file and from standard input, with the counts on standard error as one line.
#[test]
fn the_program_writes_what_tools_convert_py_states() {
    for (words, name, wanted, told) in [
        (
            "--to 1.3.b",
            "editions.rec",
            "editions-to-1.3.b.rec",
            [12, 5, 5],
        ),
        (
            "--edition 1.3 --to 1.3.a",
            "editions.rec",
            "editions-to-1.3.b.rec",
            [12, 5, 5],
        ),
        (
            "--to 1.3 --type E --type 7=F",
            "morning.rec",
            "morning-7-F.rec",
            [1, 0, 0],
        ),
        (
            "--type ABC=F --to 1.3 --type E --edition 1.3.a",
            "morning.rec",
            "morning-7-F.rec",
            [1, 0, 0],
        ),
        (
            "--to 1.3 --type E",
            "morning.rec",
            "morning-1.3.rec",
            [1, 0, 0],
        ),
        ("--to 1.3.b", "morning-7-F.rec", "morning.rec", [1, 0, 0]),
        ("--to 1.3.b", "morning-1.3.rec", "morning.rec", [1, 0, 0]),
    ] {
        let words: Vec<&str> = words.split(' ').collect();
        let path = path_of(name);
        let named = convert2(
            &[&words[..], &[&path]].concat(),
            Stdio::null(),
            Stdio::piped(),
        );
        let piped = convert2(&words, File::open(&path).unwrap().into(), Stdio::piped());
        let [updates, unread, barred] = told;
        let told = format!(
            "convert2: {updates} Symbol Updates rewritten, {unread} packets passed on unread, {barred} packets barred\n"
        );
        for output in [named, piped] {
            assert_eq!(output.status.code(), Some(0), "{words:?}");
            assert!(output.stdout == example_file(wanted), "{words:?}");
            assert_eq!(String::from_utf8(output.stderr).unwrap(), told);
        }
    }
}

#[test]
fn the_program_on_long_and_cut_recordings() {
    for (bytes, name) in [
        (example_file("long.rec"), "long.rec"),
        (vec![], "empty.rec"),
    ] {
        for cut in [0, 1] {
            let first = &bytes[..bytes.len().saturating_sub(cut)];
            let path = own_file(&format!("{cut}-{name}"), first);
            let mut wanted = first.to_vec();
            convert_piece(&asked(V1_3b, V1_3, b'F', vec![]), &mut wanted).unwrap();
            let words = ["--to", "1.3", "--type", "F", path.to_str().unwrap()];
            let output = convert2(&words, Stdio::null(), Stdio::piped());
            assert_eq!(output.status.code(), Some(0));
            assert!(output.stdout == wanted);
            assert!(bytes.is_empty() || output.stdout != first);
        }
    }
}

/// Wrong words have status 2, and what cannot be read status 1; nothing is written then.
#[test]
fn the_program_refuses() {
    for words in wrong_words() {
        let output = convert2(
            &words,
            File::open(path_of("morning.rec")).unwrap().into(),
            Stdio::piped(),
        );
        assert_eq!(output.status.code(), Some(2), "{words:?}");
        assert!(output.stdout.is_empty(), "{words:?}");
        assert!(output.stderr.starts_with(b"convert2: "), "{words:?}");
    }
    let folder = env!("CARGO_MANIFEST_DIR");
    for (words, input) in [
        (vec!["--to", "1.3.b", "no.rec"], Stdio::null()),
        (vec!["--to", "1.3.b", folder], Stdio::null()),
        (vec!["--to", "1.3.b"], File::open(folder).unwrap().into()),
    ] {
        let output = convert2(&words, input, Stdio::piped());
        assert_eq!(output.status.code(), Some(1), "{words:?}");
        assert!(output.stdout.is_empty(), "{words:?}");
        assert!(output.stderr.starts_with(b"convert2: "), "{words:?}");
    }
}

/// "a file is not written over itself": by its own name, by another one, and through standard input.
#[test]
fn a_file_is_not_written_over_itself() {
    let bytes = example_file("morning.rec");
    let path = own_file("itself.rec", &bytes);
    let link = path.with_file_name("itself-linked.rec");
    let _ = std::fs::remove_file(&link);
    std::fs::hard_link(&path, &link).unwrap();
    let words = ["--to", "1.3", "--type", "E"];
    let write = || OpenOptions::new().write(true).open(&path).unwrap();
    let append = || OpenOptions::new().append(true).open(&path).unwrap();
    for out in [write(), append(), write(), append()] {
        let same = [&words[..], &[path.to_str().unwrap()]].concat();
        let linked = [&words[..], &[link.to_str().unwrap()]].concat();
        let clone = || Stdio::from(out.try_clone().unwrap());
        for output in [
            convert2(&same, Stdio::null(), clone()),
            convert2(&linked, Stdio::null(), clone()),
            convert2(&words, File::open(&path).unwrap().into(), clone()),
        ] {
            assert_eq!(output.status.code(), Some(1));
            assert!(output.stderr.starts_with(b"convert2: "));
        }
    }
    assert!(std::fs::read(&path).unwrap() == bytes);
    // Another file, with bytes in it, is written behind them.
    let other = own_file("beside.rec", b"front");
    let out = OpenOptions::new().append(true).open(&other).unwrap();
    let output = convert2(&words, File::open(&path).unwrap().into(), out.into());
    assert_eq!(output.status.code(), Some(0));
    let wanted = [b"front", &example_file("morning-1.3.rec")[..]].concat();
    assert!(std::fs::read(&other).unwrap() == wanted);
    // What is no file may be both.
    let null = || {
        OpenOptions::new()
            .read(true)
            .write(true)
            .open("/dev/null")
            .unwrap()
    };
    let output = convert2(&words, null().into(), null().into());
    assert_eq!(output.status.code(), Some(0));
}

/// "Where the output cannot be written whole it is said, with status 1, and a file is cut back to what it was".
#[test]
fn an_output_that_cannot_be_written() {
    let full = Path::new("/dev/full");
    if full.exists() {
        let out = OpenOptions::new().write(true).open(full).unwrap();
        let path = path_of("morning-1.3.rec");
        let output = convert2(&["--to", "1.3.b", &path], Stdio::null(), out.into());
        assert_eq!(output.status.code(), Some(1));
        let told = String::from_utf8(output.stderr).unwrap();
        assert!(told.starts_with("convert2: standard output: "), "{told}");
        assert_eq!(told.lines().count(), 1);
    }
    // A limit of some blocks for the files that a shell's program writes: the long recording does not fit.
    for front in ["", "front"] {
        let path = own_file("limited.rec", front.as_bytes());
        let script = "trap '' XFSZ; ulimit -f 8 && exec \"$0\" --to 1.3 --type E \"$1\" >>\"$2\"";
        let output = Command::new("sh")
            .args(["-c", script, env!("CARGO_BIN_EXE_convert2")])
            .args([path_of("long.rec").as_ref(), path.as_os_str()])
            .output()
            .unwrap();
        assert_eq!(output.status.code(), Some(1), "{output:?}");
        assert!(output.stderr.starts_with(b"convert2: standard output: "));
        assert!(std::fs::read(&path).unwrap() == front.as_bytes());
    }
}
