//! A morning as text: every row of docs/TEXT.md, by bytes that are written out here.

mod common;
use common::written::{record, recording};
use common::{all_seeds, example_file, example_recordings, seeds, vectors};
use common::{Edition, V1_3b, EDITIONS, V1_3};
use second::morning::{damaged_text, drawn_recording, good_body_of, Dice};
use second::packet::{read_packet, TYPES_AND_LENGTHS};
use second::reading::message_name;
use second::text::Expected::*;
use second::text::*;

/// A line of each message with all that has to be written, its type, and its body in 1.3.b: the table's bytes one
/// behind the other.
const SHORTEST: [(&str, &str); 11] = [
    ("1 time second=34200", "31 98850000"),
    (
        "1 update symbol=7 ticker=ABC",
        "01 00000000 07000000 4142432020202020202020 00 4e 00 6400 30393a33303a3030 31363a30303a3030 48",
    ),
    ("1 state status=S", "53 00000000 446f4d312e332020 01 53"),
    ("1 status symbol=7 trading=2", "04 00000000 07000000 02 03 4e"),
    ("1 clear symbol=7", "05 00000000 07000000"),
    (
        "1 add symbol=7 order=500 side=B price=10 size=100",
        "14 00000000 07000000 f401000000000000 42 8096980000000000 64000000 20202020",
    ),
    (
        "1 modify symbol=7 order=500 price=10 size=100",
        "15 00000000 07000000 f401000000000000 8096980000000000 64000000 00",
    ),
    (
        "1 delete symbol=7 order=500",
        "17 00000000 07000000 f401000000000000",
    ),
    (
        "1 execution symbol=7 order=500 trade=900 price=10 size=100",
        "18 00000000 07000000 f401000000000000 8403000000000000 8096980000000000 64000000 00",
    ),
    (
        "1 trade symbol=7 trade=900 price=10 size=100",
        "0a 00000000 07000000 8403000000000000 00 8096980000000000 64000000 00",
    ),
    (
        "1 cancel symbol=7 trade=900 price=10 size=100",
        "0b 00000000 07000000 8403000000000000 00 8096980000000000 64000000",
    ),
];

/// Each row of the page's table: the message's name, the key, where its bytes start, how many they are, a value that is
/// not its default, and that value's bytes. Byte 20 of a Symbol Update stands below, by edition.
const ROWS: [(&str, &str, usize, usize, &str, &str); 59] = [
    ("time", "second", 1, 4, "23:59:58", "7e510100"),
    ("update", "nanoseconds", 1, 4, "1001", "e9030000"),
    ("update", "symbol", 5, 4, "16909060", "04030201"),
    (
        "update",
        "ticker",
        9,
        11,
        "ABCDEFGHIJK",
        "4142434445464748494a4b",
    ),
    ("update", "test", 21, 1, "Y", "59"),
    ("update", "reserved22", 22, 1, "255", "ff"),
    ("update", "lot", 23, 2, "513", "0102"),
    ("update", "opening", 25, 8, "1", "3120202020202020"),
    ("update", "closing", 33, 8, "23:59:59", "32333a35393a3539"),
    ("update", "market", 41, 1, "Z", "5a"),
    ("state", "nanoseconds", 1, 4, "999999999", "ffc99a3b"),
    ("state", "version", 5, 8, "DoM1.0", "446f4d312e302020"),
    ("state", "session", 13, 1, "2", "02"),
    ("state", "status", 14, 1, "C", "43"),
    ("status", "nanoseconds", 1, 4, "1", "01000000"),
    ("status", "symbol", 5, 4, "8", "08000000"),
    ("status", "trading", 9, 1, "5", "05"),
    ("status", "market", 10, 1, "4", "04"),
    ("status", "short", 11, 1, "Y", "59"),
    ("clear", "nanoseconds", 1, 4, "2", "02000000"),
    ("clear", "symbol", 5, 4, "4294967295", "ffffffff"),
    ("add", "nanoseconds", 1, 4, "3", "03000000"),
    ("add", "symbol", 5, 4, "0", "00000000"),
    (
        "add",
        "order",
        9,
        8,
        "18446744073709551615",
        "ffffffffffffffff",
    ),
    ("add", "side", 17, 1, "S", "53"),
    ("add", "price", 18, 8, "10.020000", "a0e4980000000000"),
    ("add", "size", 26, 4, "4294967295", "ffffffff"),
    ("add", "attributable", 30, 4, "RTAL", "5254414c"),
    ("modify", "nanoseconds", 1, 4, "4", "04000000"),
    ("modify", "symbol", 5, 4, "9", "09000000"),
    ("modify", "order", 9, 8, "501", "f501000000000000"),
    ("modify", "price", 17, 8, "0.000001", "0100000000000000"),
    ("modify", "size", 25, 4, "1", "01000000"),
    ("modify", "flags", 29, 1, "129", "81"),
    ("delete", "nanoseconds", 1, 4, "5", "05000000"),
    ("delete", "symbol", 5, 4, "10", "0a000000"),
    (
        "delete",
        "order",
        9,
        8,
        "72623859790382856",
        "0807060504030201",
    ),
    ("execution", "nanoseconds", 1, 4, "6", "06000000"),
    ("execution", "symbol", 5, 4, "11", "0b000000"),
    ("execution", "order", 9, 8, "502", "f601000000000000"),
    ("execution", "trade", 17, 8, "901", "8503000000000000"),
    (
        "execution",
        "price",
        25,
        8,
        "1000000000.000000",
        "0080c6a47e8d0300",
    ),
    ("execution", "size", 33, 4, "2", "02000000"),
    ("execution", "flags", 37, 1, "3", "03"),
    ("trade", "nanoseconds", 1, 4, "7", "07000000"),
    ("trade", "symbol", 5, 4, "12", "0c000000"),
    ("trade", "trade", 9, 8, "902", "8603000000000000"),
    ("trade", "correction", 17, 1, "1", "01"),
    ("trade", "price", 18, 8, "0.999999", "3f420f0000000000"),
    ("trade", "size", 26, 4, "3", "03000000"),
    ("trade", "flags", 30, 1, "1", "01"),
    ("cancel", "nanoseconds", 1, 4, "8", "08000000"),
    ("cancel", "symbol", 5, 4, "13", "0d000000"),
    ("cancel", "trade", 9, 8, "903", "8703000000000000"),
    ("cancel", "correction", 17, 1, "255", "ff"),
    ("cancel", "price", 18, 8, "1.000000", "40420f0000000000"),
    ("cancel", "size", 26, 4, "4", "04000000"),
    // bytes that are no letters
    (
        "update",
        "opening",
        25,
        8,
        "0x2020202020202020",
        "2020202020202020",
    ),
    (
        "update",
        "ticker",
        9,
        11,
        "0x2020202020202020202020",
        "2020202020202020202020",
    ),
];

/// Which keys have to be written, in the order of the page.
const HAVE_TO: [(&str, &[&str]); 11] = [
    ("time", &["second"]),
    ("update", &["symbol", "ticker"]),
    ("state", &["status"]),
    ("status", &["symbol", "trading"]),
    ("clear", &["symbol"]),
    ("add", &["symbol", "order", "side", "price", "size"]),
    ("modify", &["symbol", "order", "price", "size"]),
    ("delete", &["symbol", "order"]),
    ("execution", &["symbol", "order", "trade", "price", "size"]),
    ("trade", &["symbol", "trade", "price", "size"]),
    ("cancel", &["symbol", "trade", "price", "size"]),
];

fn bytes(hexadecimal: &str) -> Vec<u8> {
    let digits: Vec<u32> = hexadecimal.chars().filter_map(|c| c.to_digit(16)).collect();
    digits
        .chunks(2)
        .map(|pair| (16 * pair[0] + pair[1]) as u8)
        .collect()
}

/// The number and the body of a line that must be a record.
fn read(edition: Edition, line: &str) -> (u64, Vec<u8>) {
    match read_line(edition, line.as_bytes()) {
        Ok(Line::Record { number, body }) => (number, body),
        other => panic!("{line:?}: {other:?}"),
    }
}

/// A line that must be wrong there.
fn is_wrong(edition: Edition, line: impl AsRef<[u8]>, column: usize, expected: Expected) {
    let line = line.as_ref();
    let told = read_line(edition, line);
    let shown = String::from_utf8_lossy(line);
    assert_eq!(told, Err(Wrong { column, expected }), "{shown:?}");
}

fn shortest(name: &str) -> (&'static str, Vec<u8>) {
    let of = |(line, _): &&(&str, &str)| line.split(' ').nth(1) == Some(name);
    let (line, body) = SHORTEST.iter().find(of).expect(name);
    (line, bytes(body))
}

/// The shortest line of a message with this field, or with another value of it.
fn with_field(name: &str, key: &str, value: &str) -> String {
    let (line, _) = shortest(name);
    let mut words: Vec<String> = line.split(' ').map(String::from).collect();
    let front = format!("{key}=");
    words.retain(|word| !word.starts_with(&front));
    words.push(format!("{front}{value}"));
    words.join(" ")
}

/// The first column of a piece of a line.
fn column_of(line: &str, piece: &str) -> usize {
    line.find(piece).expect(piece) + 1
}

fn composed(edition: Edition, text: impl AsRef<[u8]>) -> Vec<u8> {
    compose(edition, text.as_ref())
        .expect("a good text")
        .recording
}

/// A text that must have a wrong line.
fn wrong_line(text: impl AsRef<[u8]>, line: usize, column: usize, expected: Expected) {
    let wrong = Wrong { column, expected };
    let told = compose(V1_3b, text.as_ref());
    assert_eq!(told, Err(WrongLine { line, wrong }));
}

// The page's example.

const MORNING: &str = "\
# Document 01's example: numbers 1 to 5, in one packet.
1 time second=09:30:00
2 update symbol=7 ticker=ABC
3 add symbol=7 order=500 side=B price=10.000000 size=100
4 add symbol=7 order=501 side=S price=10.020000 size=200
5 add symbol=7 order=502 side=B price=10.000000 size=50
";

#[test]
fn the_example_of_the_page() {
    let page = example_file("../docs/TEXT.md");
    let page = String::from_utf8(page).unwrap();
    let indented = MORNING.lines().map(|line| format!("    {line}\n"));
    assert!(page.contains(&indented.collect::<String>()));
    let told = compose(V1_3b, MORNING.as_bytes()).unwrap();
    assert_eq!(told.recording, example_file("morning.rec"));
    assert_eq!((told.records, told.packets), (5, 1));
    // In 1.3 what is left out is type E.
    assert_eq!(composed(V1_3, MORNING), example_file("morning-1.3.rec"));
    let (_, lines) = MORNING.split_once('\n').unwrap();
    for (edition, name) in [(V1_3b, "morning.rec"), (V1_3, "morning-1.3.rec")] {
        assert_eq!(
            text_of_recording(edition, &example_file(name), false),
            lines
        );
    }
    let funds = lines.replace("ticker=ABC", "ticker=ABC type=F");
    assert_eq!(
        text_of_recording(V1_3, &example_file("morning-7-F.rec"), false),
        funds
    );
    assert_eq!(composed(V1_3, funds), example_file("morning-7-F.rec"));
}

// Messages.

#[test]
fn each_message_by_what_has_to_be_written() {
    for (line, body) in SHORTEST {
        assert_eq!(read(V1_3b, line), (1, bytes(body)), "{line}");
        // In 1.3 byte 20 of a Symbol Update is E where it is left out.
        let mut typed = bytes(body);
        if line.contains("update") {
            typed[20] = b'E';
        }
        assert_eq!(read(V1_3, line), (1, typed.clone()), "{line}");
        // Written again it is as short, in the writer's own forms.
        let again = line
            .replace("price=10", "price=10.000000")
            .replace("34200", "09:30:00");
        assert_eq!(line_of(V1_3b, 1, &bytes(body)), again);
        assert_eq!(line_of(V1_3, 1, &typed), again);
    }
    let lengths: Vec<(u8, usize)> = SHORTEST
        .iter()
        .map(|(_, body)| (bytes(body)[0], bytes(body).len()))
        .collect();
    assert_eq!(lengths, TYPES_AND_LENGTHS);
}

#[test]
fn each_field_in_its_bytes() {
    for edition in EDITIONS {
        for (name, key, at, width, value, wanted) in ROWS {
            let (_, mut body) = shortest(name);
            if name == "update" && edition == V1_3 {
                body[20] = b'E';
            }
            let wanted = bytes(wanted);
            assert_eq!(wanted.len(), width);
            body[at..at + width].copy_from_slice(&wanted);
            let line = with_field(name, key, value);
            assert_eq!(read(edition, &line), (1, body.clone()), "{line}");
            let again = line_of(edition, 1, &body);
            assert!(
                format!("{again} ").contains(&format!(" {key}={value} ")),
                "{again}"
            );
            assert_eq!(read(edition, &again), (1, body), "{again}");
        }
    }
    // Each field but byte 20 is among them, in each message.
    for (name, kind) in NAMES {
        for field in fields(V1_3b, kind)
            .iter()
            .filter(|field| field.at != 20 || name != "update")
        {
            let rows = ROWS
                .iter()
                .filter(|row| (row.0, row.1) == (name, field.key));
            assert!(rows.count() >= 1, "{name} {}", field.key);
        }
    }
}

/// The table of the page, row by row: name, message, key, bytes, form, left out.
#[test]
fn the_table_of_the_page() {
    let page = String::from_utf8(example_file("../docs/TEXT.md")).unwrap();
    let (_, table) = page.split_once("## Messages\n").unwrap();
    let (table, _) = table.split_once("\n## Forms\n").unwrap();
    let rows: Vec<Vec<&str>> = table
        .lines()
        .filter(|line| line.starts_with('|'))
        .map(|line| line.trim_matches('|').split('|').map(str::trim).collect())
        .collect();
    assert_eq!(
        rows[0],
        ["Name", "Message", "Key", "Bytes", "Form", "Left out"]
    );
    for edition in EDITIONS {
        let (mut kind, mut names) = (0, Vec::new());
        let mut told: Vec<(u8, Field)> = Vec::new();
        for row in &rows[2..] {
            let [name, message, key, span, form, left_out] = row[..] else {
                panic!("{row:?}");
            };
            if !name.is_empty() {
                let known = NAMES.iter().find(|(known, _)| format!("`{known}`") == name);
                kind = known.expect(name).1;
                names.push(kind);
                assert_eq!(message_name(kind), message);
            }
            let (key, editions) = key[1..].split_once('`').unwrap();
            match editions {
                ", in 1.3 alone" if edition != V1_3 => continue,
                ", in 1.3.a and 1.3.b" if edition != V1_3b => continue,
                "" | ", in 1.3 alone" | ", in 1.3.a and 1.3.b" => {}
                other => panic!("{other}"),
            }
            let (first, last) = span.split_once('-').unwrap_or((span, span));
            let (first, last): (usize, usize) = (first.parse().unwrap(), last.parse().unwrap());
            let width = last - first + 1;
            let left_out = match (form, left_out) {
                (_, "has to be written") => None,
                ("text", "spaces") => Some(vec![b' '; width]),
                ("text", letters) => {
                    let mut bytes = letters.trim_matches('`').as_bytes().to_vec();
                    bytes.resize(width, b' ');
                    Some(bytes)
                }
                (_, number) => Some(number.parse::<u64>().unwrap().to_le_bytes()[..width].to_vec()),
            };
            let form = match form {
                "number" => Form::Number,
                "price" => Form::Price,
                "clock" => Form::Clock,
                "text" => Form::Text,
                other => panic!("{other}"),
            };
            let left_out: Option<&'static [u8]> = left_out.map(|bytes| &*bytes.leak());
            let key: &'static str = key.to_string().leak();
            told.push((
                kind,
                Field {
                    key,
                    at: first,
                    bytes: width,
                    form,
                    left_out,
                },
            ));
        }
        assert_eq!(names, NAMES.map(|(_, kind)| kind));
        let of_program = |(_, kind): (&str, u8)| {
            fields(edition, kind)
                .into_iter()
                .map(move |field| (kind, field))
        };
        assert_eq!(
            told,
            NAMES.into_iter().flat_map(of_program).collect::<Vec<_>>()
        );
        assert_eq!(told.len(), 58);
    }
}

fn place(name: &str) -> usize {
    NAMES
        .iter()
        .position(|(known, _)| *known == name)
        .expect(name)
}

/// "`type`, in 1.3 alone" and "`reserved20`, in 1.3.a and 1.3.b".
#[test]
fn byte_20_by_edition() {
    let (line, mut body) = shortest("update");
    for byte in 0..=255 {
        body[20] = byte;
        let reserved = format!("{line} reserved20={byte}");
        assert_eq!(read(V1_3b, &reserved), (1, body.clone()));
        let wanted = if byte == 0 { line } else { &reserved };
        assert_eq!(line_of(V1_3b, 1, &body), wanted);
        is_wrong(V1_3, &reserved, line.len() + 2, Key);
        let typed = format!("{line} type=0x{byte:02x}");
        is_wrong(V1_3b, &typed, line.len() + 2, Key);
        if b"EF".contains(&byte) {
            assert_eq!(read(V1_3, &typed), (1, body.clone()));
        } else {
            is_wrong(V1_3, &typed, line.len() + 7, InRange("type"));
        }
    }
    for (word, byte, wanted) in [
        ("", b'E', ""),
        (" type=E", b'E', ""),
        (" type=F", b'F', " type=F"),
    ] {
        body[20] = byte;
        assert_eq!(read(V1_3, &format!("{line}{word}")), (1, body.clone()));
        assert_eq!(line_of(V1_3, 1, &body), format!("{line}{wanted}"));
    }
    // The fields of the other messages are the same in both.
    for (kind, _) in TYPES_AND_LENGTHS {
        assert_eq!(fields(V1_3, kind) == fields(V1_3b, kind), kind != 1);
    }
}

/// "A field without a default has to be written", and of several the first of the table is told.
#[test]
fn what_has_to_be_written() {
    for edition in EDITIONS {
        for (name, keys) in HAVE_TO {
            let (line, _) = shortest(name);
            let bare = format!("1 {name}");
            is_wrong(edition, &bare, bare.len() + 1, ThisKey(keys[0]));
            let commented = format!("1 {name} # {line}\t ");
            is_wrong(edition, &commented, commented.len() + 1, ThisKey(keys[0]));
            for key in keys {
                let words = line
                    .split(' ')
                    .filter(|word| !word.starts_with(&format!("{key}=")));
                let without = words.collect::<Vec<&str>>().join(" ");
                assert_ne!(without, line);
                is_wrong(edition, &without, without.len() + 1, ThisKey(key));
                let blanks = format!(" {without} \r");
                is_wrong(edition, &blanks, blanks.len() + 1, ThisKey(key));
            }
            // All but the last have a later one missing too.
            for (missing, key) in keys.iter().enumerate() {
                let front = line
                    .split(' ')
                    .take(2 + missing)
                    .collect::<Vec<&str>>()
                    .join(" ");
                is_wrong(edition, &front, front.len() + 1, ThisKey(key));
            }
            let of_table = fields(edition, bytes(SHORTEST[place(name)].1)[0]);
            let needed = of_table.iter().filter(|field| field.left_out.is_none());
            assert_eq!(needed.map(|field| field.key).collect::<Vec<&str>>(), *keys);
        }
    }
}

/// Each default is what a field has that is left out, and is not written; so is none of another field.
#[test]
fn defaults_are_left_out() {
    let defaults = [
        ("update", "nanoseconds", "0"),
        ("update", "reserved20", "0"),
        ("update", "test", "N"),
        ("update", "reserved22", "0"),
        ("update", "lot", "100"),
        ("update", "opening", "09:30:00"),
        ("update", "closing", "16:00:00"),
        ("update", "market", "H"),
        ("state", "nanoseconds", "0"),
        ("state", "version", "DoM1.3"),
        ("state", "version", "0x446F4d312e332020"),
        ("state", "session", "1"),
        ("status", "nanoseconds", "0"),
        ("status", "market", "3"),
        ("status", "short", "N"),
        ("clear", "nanoseconds", "0"),
        ("add", "nanoseconds", "0"),
        ("add", "attributable", "0x20202020"),
        ("modify", "nanoseconds", "0"),
        ("modify", "flags", "0"),
        ("delete", "nanoseconds", "00000000000000"),
        ("execution", "nanoseconds", "0"),
        ("execution", "flags", "000"),
        ("trade", "nanoseconds", "0"),
        ("trade", "correction", "0"),
        ("trade", "flags", "0"),
        ("cancel", "nanoseconds", "0"),
        ("cancel", "correction", "0"),
    ];
    for (name, key, value) in defaults {
        let (line, body) = shortest(name);
        assert_eq!(
            read(V1_3b, &with_field(name, key, value)),
            (1, body.clone())
        );
        let again = line_of(V1_3b, 1, &body);
        assert!(!again.contains(key), "{again}");
        assert_eq!(again.split(' ').count(), line.split(' ').count());
    }
    let count = |edition| {
        let all = TYPES_AND_LENGTHS
            .iter()
            .flat_map(|(kind, _)| fields(edition, *kind));
        all.filter(|field| field.left_out.is_some()).count()
    };
    assert_eq!(
        (count(V1_3b), count(V1_3)),
        (defaults.len() - 1, defaults.len() - 1)
    );
}

/// The fields of a message fill its body, in the order of the table.
#[test]
fn fields_fill_the_body() {
    for edition in EDITIONS {
        for (kind, length) in TYPES_AND_LENGTHS {
            let mut at = 1;
            for field in fields(edition, kind) {
                assert_eq!(field.at, at, "{}", field.key);
                at += field.bytes;
                assert!(field
                    .left_out
                    .is_none_or(|bytes| bytes.len() == field.bytes));
            }
            assert_eq!(at, length);
        }
        assert!(fields(edition, 0).is_empty());
    }
}

/// "its fields in any order"; they are written in the order of the table.
#[test]
fn fields_in_any_order() {
    let words = [
        "symbol=7",
        "order=500",
        "side=B",
        "price=10.000000",
        "size=100",
        "nanoseconds=5",
        "attributable=AB",
    ];
    let mut dice = Dice::new(1);
    let written =
        "9 add nanoseconds=5 symbol=7 order=500 side=B price=10.000000 size=100 attributable=AB";
    let wanted = read(V1_3b, written);
    for _ in 0..200 {
        let mut words = words;
        dice.shuffle(&mut words);
        let line = format!("9 add {}", words.join(" "));
        assert_eq!(read(V1_3b, &line), wanted, "{line}");
        assert_eq!(line_of(V1_3b, 9, &wanted.1), written);
    }
}

// Forms.

/// A value of a field that must be read as this, and one that must not be read.
fn value(name: &str, key: &str, value: &str) -> Result<Vec<u8>, Wrong> {
    let line = with_field(name, key, value);
    let field = fields(V1_3b, bytes(SHORTEST[place(name)].1)[0]);
    let field = *field.iter().find(|field| field.key == key).expect(key);
    match read_line(V1_3b, line.as_bytes()) {
        Ok(Line::Record { body, .. }) => Ok(body[field.at..field.at + field.bytes].to_vec()),
        Err(wrong) => {
            let column = line.len() - value.len() + 1;
            assert_eq!(wrong.column, column, "{line}");
            Err(wrong)
        }
        other => panic!("{line}: {other:?}"),
    }
}

fn has_not_the_form(name: &str, key: &str, values: &[&str], form: Form, width: usize) {
    for one in values {
        let told = value(name, key, one).expect_err(one);
        assert_eq!(told.expected, Value(form, width), "{key}={one}");
    }
}

#[test]
fn numbers_up_to_what_their_bytes_hold() {
    for (name, key, width) in [
        ("modify", "flags", 1),
        ("update", "lot", 2),
        ("clear", "symbol", 4),
        ("add", "size", 4),
        ("delete", "order", 8),
        ("trade", "trade", 8),
    ] {
        let most = u64::MAX >> (64 - 8 * width);
        let zeros = format!("{}{most}", "0".repeat(3_000));
        for (text, number) in [
            ("1".to_string(), 1),
            ("007".to_string(), 7),
            (most.to_string(), most),
            ((most - 1).to_string(), most - 1),
            (zeros, most),
        ] {
            let wanted = number.to_le_bytes()[..width].to_vec();
            assert_eq!(value(name, key, &text), Ok(wanted), "{key}");
        }
        let above = (u128::from(most) + 1).to_string();
        let far = (u128::from(most) * 10 + 9).to_string();
        let longer = "9".repeat(500);
        let wrong = [
            above.as_str(),
            &far,
            &longer,
            "",
            "-1",
            "+1",
            "1.0",
            "1,000",
            "0x1",
            "1a",
            "a",
            "=1",
            "1=",
            "1#",
            "\u{661}",
            "1_0",
            "1e3",
        ];
        has_not_the_form(name, key, &wrong, Form::Number, width);
    }
    // The page's four limits.
    for (name, key, most) in [
        ("status", "trading", "255"),
        ("update", "lot", "65535"),
        ("modify", "symbol", "4294967295"),
        ("add", "order", "18446744073709551615"),
    ] {
        assert!(value(name, key, most).is_ok());
        let above = (most.parse::<u128>().unwrap() + 1).to_string();
        assert!(value(name, key, &above).is_err());
    }
}

#[test]
fn prices_in_dollars() {
    for (text, millionths) in [
        ("10", 10_000_000),
        ("10.02", 10_020_000),
        ("10.020000", 10_020_000),
        ("0.000001", 1),
        ("0000.1", 100_000),
        ("00010.000010", 10_000_010),
        ("1.5", 1_500_000),
        ("1000000000", 1_000_000_000_000_000),
        ("1000000000.000000", 1_000_000_000_000_000),
        ("1000000000.0", 1_000_000_000_000_000),
        ("999999999.999999", 999_999_999_999_999),
        ("0000000000000000000000001", 1_000_000),
    ] {
        for (name, _) in HAVE_TO.iter().filter(|(_, keys)| keys.contains(&"price")) {
            let wanted = u64::to_le_bytes(millionths).to_vec();
            assert_eq!(value(name, "price", text), Ok(wanted), "{text}");
        }
    }
    let wrong = [
        "",
        ".",
        "10.",
        ".5",
        "10.0000000",
        "10.1234567",
        "1000000001",
        "1000000001.0",
        "99999999999999999999999",
        "1.2.3",
        "1..2",
        "-1",
        "+1",
        "1,5",
        "$1",
        "0x10",
        "1e3",
        "10.00000a",
        "a.5",
        "10.-1",
        "10.+1",
    ];
    has_not_the_form("add", "price", &wrong, Form::Price, 8);
    // Of the form, but out of range.
    for text in [
        "0",
        "0.0",
        "0.000000",
        "0000",
        "1000000000.000001",
        "1000000000.999999",
        "1000000000.1",
    ] {
        let told = value("trade", "price", text).expect_err(text);
        assert_eq!(told.expected, InRange("price"), "{text}");
    }
}

#[test]
fn clocks_and_other_seconds() {
    for (text, second) in [
        ("00:00:00", 0),
        ("00:00:59", 59),
        ("00:59:00", 59 * 60),
        ("09:30:00", 34_200),
        ("12:34:56", 45_296),
        ("23:59:59", 86_399),
        ("0", 0),
        ("34200", 34_200),
        ("0000000034200", 34_200),
        ("86399", 86_399),
        ("86400", 86_400),
        ("12345678", 12_345_678),
        ("4294967295", u32::MAX),
    ] {
        let wanted = u32::to_le_bytes(second).to_vec();
        assert_eq!(value("time", "second", text), Ok(wanted), "{text}");
    }
    let wrong = [
        "",
        "24:00:00",
        "23:60:00",
        "23:59:60",
        "9:30:00",
        "09:30",
        "09:30:0",
        "09:30:000",
        "09-30-00",
        "09:30:00:",
        ":9:30:00",
        "0a:30:00",
        "09:3a:00",
        "09:30:0a",
        "09.30.00",
        "+9:30:00",
        "4294967296",
        "99999999999",
        "-1",
        "10.0",
        "0x10",
        "09:30:00#",
    ];
    has_not_the_form("time", "second", &wrong, Form::Clock, 4);
    // How they are written.
    for second in [
        0,
        1,
        59,
        60,
        3_599,
        3_600,
        34_200,
        43_199,
        43_200,
        86_399,
        86_400,
        86_401,
        u32::MAX,
    ] {
        let body = [&[49][..], &second.to_le_bytes()].concat();
        let (h, m, s) = (second / 3_600, second / 60 % 60, second % 60);
        let clock = format!(
            "1 time second={}{}:{}{}:{}{}",
            h / 10,
            h % 10,
            m / 10,
            m % 10,
            s / 10,
            s % 10
        );
        let wanted = if second < 86_400 {
            clock
        } else {
            format!("1 time second={second}")
        };
        assert_eq!(line_of(V1_3b, 1, &body), wanted);
    }
}

#[test]
fn text_of_so_many_bytes() {
    for (name, key, width) in [
        ("update", "ticker", 11),
        ("update", "opening", 8),
        ("update", "closing", 8),
        ("state", "version", 8),
        ("add", "attributable", 4),
        ("state", "status", 1),
        ("status", "short", 1),
    ] {
        // Letters, with spaces behind them.
        for length in 1..=width {
            let letters: String = "!~#=0xAz9:."[..length].to_string();
            let mut wanted = letters.as_bytes().to_vec();
            wanted.resize(width, b' ');
            assert_eq!(value(name, key, &letters), Ok(wanted), "{key}");
        }
        // Hexadecimal digits of any bytes, in both cases.
        for byte in [0, 10, 32, 33, 126, 127, 171, 255] {
            let lower = format!("0x{}", format!("{byte:02x}").repeat(width));
            let upper = format!("0x{}", format!("{byte:02X}").repeat(width));
            assert_eq!(value(name, key, &lower), Ok(vec![byte; width]), "{lower}");
            assert_eq!(value(name, key, &upper), Ok(vec![byte; width]), "{upper}");
        }
        let longer = "A".repeat(width + 1);
        let most = "A".repeat(2 * width + 2);
        let digits = "41".repeat(width);
        let (fewer, more) = (format!("0x{}", &digits[1..]), format!("0x{digits}4"));
        let (capital, none) = (format!("0X{digits}"), format!("0x{}g", &digits[1..]));
        let signed = format!("0x+{}", &digits[1..]);
        let wrong = [
            "", &longer, &most, &more, &capital, &none, &signed, "\u{7f}", "\u{e9}", "\0",
            "A\u{7f}",
        ];
        has_not_the_form(name, key, &wrong, Form::Text, width);
        has_not_the_form(name, key, &[&fewer], Form::Text, width);
    }
    // "`0x` and its digits are longer than the field": these are text.
    for (text, wanted) in [
        ("0x41", "0x41       "),
        ("0x", "0x         "),
        ("0x414243444", "0x414243444"),
    ] {
        assert_eq!(
            value("update", "ticker", text),
            Ok(wanted.as_bytes().to_vec())
        );
    }
    // A side is judged behind its form.
    assert_eq!(value("add", "side", "0x53"), Ok(vec![b'S']));
    assert_eq!(
        value("add", "side", "X").map_err(|wrong| wrong.expected),
        Err(InRange("side"))
    );
    has_not_the_form("add", "side", &["BS", "0x5", "0x533"], Form::Text, 1);
}

#[test]
fn how_text_is_written() {
    for (ticker, wanted) in [
        (b"ABC        ", "ABC"),
        (b"ABCDEFGHIJK", "ABCDEFGHIJK"),
        (b"!~         ", "!~"),
        (b"#=#=       ", "#=#="),
        (b"0x41       ", "0x41"),
        (b"           ", "0x2020202020202020202020"),
        (b" ABC       ", "0x2041424320202020202020"),
        (b"A B        ", "0x4120422020202020202020"),
        (b"ABC\0\0\0\0\0\0\0\0", "0x4142430000000000000000"),
        (b"ABC       \0", "0x4142432020202020202000"),
        (b"ABC\x7f       ", "0x4142437f20202020202020"),
        (b"AB\n        ", "0x41420a2020202020202020"),
        (b"AB\xc3\xa9       ", "0x4142c3a920202020202020"),
        (
            b"\xff\xfe\xfd\xfc\xfb\xfa\xab\xcd\xef\x1f\x20",
            "0xfffefdfcfbfaabcdef1f20",
        ),
    ] {
        let (_, mut body) = shortest("update");
        body[9..20].copy_from_slice(ticker);
        let line = line_of(V1_3b, 1, &body);
        assert_eq!(line, format!("1 update symbol=7 ticker={wanted}"));
        assert_eq!(read(V1_3b, &line), (1, body));
    }
    // One byte: each of the 256.
    for byte in 0..=255u8 {
        let (_, mut body) = shortest("state");
        body[14] = byte;
        let line = line_of(V1_3b, 1, &body);
        let wanted = match byte {
            33..=126 => (byte as char).to_string(),
            _ => format!("0x{byte:02x}"),
        };
        assert_eq!(line, format!("1 state status={wanted}"));
        assert_eq!(read(V1_3b, &line), (1, body));
    }
    // Spaces are an Add's default and no default of an opening.
    let (_, mut body) = shortest("update");
    body[25..33].copy_from_slice(b"        ");
    assert_eq!(
        line_of(V1_3b, 1, &body),
        "1 update symbol=7 ticker=ABC opening=0x2020202020202020"
    );
}

// Lines.

#[test]
fn blank_lines_and_comments() {
    for line in ["", " ", "\t", "\r", " \t\r \r\t", &" ".repeat(4_096)] {
        assert_eq!(
            read_line(V1_3b, line.as_bytes()),
            Ok(Line::Blank),
            "{line:?}"
        );
    }
    let long = format!("#{}", "x".repeat(4_095));
    for line in [
        "#",
        " #",
        "\t\r#",
        "##",
        "# 1 time second=1",
        "#1 time",
        "  # \u{e9}\0",
        &long,
    ] {
        assert_eq!(
            read_line(V1_3b, line.as_bytes()),
            Ok(Line::Comment),
            "{line:?}"
        );
    }
    assert_eq!(read_line(V1_3b, b"#\xff\xfe"), Ok(Line::Comment));
    // Only these three are blanks, and no other byte begins a comment.
    for byte in (0..=255).filter(|byte| ![9, 13, 32, b'#'].contains(byte)) {
        match byte {
            b'1'..=b'9' => is_wrong(V1_3b, [byte], 2, Name),
            _ => is_wrong(V1_3b, [byte], 1, SequenceNumber),
        }
    }
}

#[test]
fn blanks_between_words_and_comments_behind() {
    let wanted = read(V1_3b, "1 clear symbol=7");
    for line in [
        " 1 clear symbol=7",
        "1  clear   symbol=7",
        "\t1\tclear\tsymbol=7\t",
        "1 clear symbol=7\r",
        "\r1\rclear\rsymbol=7\r",
        "1 clear symbol=7 #",
        "1 clear symbol=7 # nanoseconds=5",
        "1 clear symbol=7\t#symbol=8",
        "1 clear symbol=7 # # \u{e9} \0",
        "0000000001 clear symbol=007",
    ] {
        assert_eq!(read(V1_3b, line), wanted, "{line:?}");
    }
    // "inside a word `#` is a byte like any other"
    is_wrong(V1_3b, "1 clear symbol=7#", 16, Value(Form::Number, 4));
    is_wrong(V1_3b, "1 clear# symbol=7", 3, Name);
    is_wrong(V1_3b, "1# clear symbol=7", 1, SequenceNumber);
    is_wrong(V1_3b, "1 clear symbol#=7", 9, Key);
    let (_, body) = read(V1_3b, "1 update symbol=7 ticker=#A#");
    assert_eq!(body[9..20], *b"#A#        ");
    // A value may have more `=`.
    let (_, body) = read(V1_3b, "1 update symbol=7 ticker==A=B=");
    assert_eq!(body[9..20], *b"=A=B=      ");
}

#[test]
fn sequence_numbers() {
    for (word, number) in [
        ("1", 1),
        ("999999999999", 999_999_999_999),
        ("1000000000000", 1_000_000_000_000),
        ("000000000000000000000000000012", 12),
    ] {
        assert_eq!(read(V1_3b, &format!("{word} time second=0")).0, number);
        let body = [49, 0, 0, 0, 0];
        assert_eq!(
            line_of(V1_3b, number, &body),
            format!("{number} time second=00:00:00")
        );
    }
    for word in [
        "0",
        "00",
        "1000000000001",
        "18446744073709551617",
        "-1",
        "+1",
        "1.0",
        "one",
        "=",
        "1=1",
        "0x1",
        "time",
        "\u{661}",
    ] {
        for (front, column) in [("", 1), ("  \t", 4)] {
            is_wrong(
                V1_3b,
                format!("{front}{word} time second=0"),
                column,
                SequenceNumber,
            );
            is_wrong(V1_3b, format!("{front}{word}"), column, SequenceNumber);
        }
    }
}

// What is wrong, by the page's table.

#[test]
fn a_name_is_missing_or_none() {
    for (line, column) in [
        ("1", 2),
        ("1 ", 3),
        (" 1\t\r", 5),
        ("1 # time", 9),
        ("1 #", 4),
        ("12345", 6),
    ] {
        is_wrong(V1_3b, line, column, Name);
    }
    for word in [
        "tim",
        "times",
        "Time",
        "ADD",
        "second=1",
        "49",
        "time=",
        "=",
        "add\u{7f}",
        "t\0ime",
    ] {
        is_wrong(V1_3b, format!("1 {word} second=1"), 3, Name);
        is_wrong(V1_3b, format!("7  \t{word}"), 5, Name);
    }
    // A name that is missing is told at the end, one that is none at its own place.
    is_wrong(V1_3b, "1  addx  # ", 4, Name);
}

#[test]
fn words_that_are_no_key() {
    let line = "1 clear symbol=7";
    for word in [
        "symbo=7",
        "symbols=7",
        "Symbol=7",
        "symbol",
        "=7",
        "=",
        "order=1",
        "size=1",
        "second=1",
        "7",
        "clear",
        "nanoseconds",
        "sy\0bol=7",
    ] {
        for edition in EDITIONS {
            is_wrong(edition, format!("{line} {word}"), line.len() + 2, Key);
            is_wrong(edition, format!("1 clear {word} symbol=7"), 9, Key);
        }
    }
    // The keys of other messages, in every message.
    let mut keys: Vec<&str> = ROWS
        .iter()
        .map(|row| row.1)
        .chain(["type", "reserved20"])
        .collect();
    keys.sort();
    keys.dedup();
    assert_eq!(keys.len(), 25);
    let mut told = 0;
    for edition in EDITIONS {
        for (line, body) in SHORTEST {
            let known = fields(edition, bytes(body)[0]);
            for key in &keys {
                if known.iter().all(|field| field.key != *key) {
                    is_wrong(edition, format!("{line} {key}=1"), line.len() + 2, Key);
                    told += 1;
                }
            }
        }
    }
    // 25 keys in 11 messages and 2 editions, without the 58 fields of each.
    assert_eq!(told, 2 * (25 * 11 - 58));
}

#[test]
fn keys_that_stood_before() {
    for (line, _) in SHORTEST {
        for word in line.split(' ').skip(2) {
            let (key, _) = word.split_once('=').unwrap();
            // By the same value, another one, and one that has not the form.
            for again in [word.to_string(), format!("{key}=1"), format!("{key}=")] {
                is_wrong(V1_3b, format!("{line} {again}"), line.len() + 2, OtherKey);
            }
        }
    }
    is_wrong(
        V1_3b,
        "1 clear nanoseconds=0 symbol=7 nanoseconds=0",
        32,
        OtherKey,
    );
    is_wrong(V1_3b, "1 clear nanoseconds=0 nanoseconds=0", 23, OtherKey);
}

#[test]
fn fields_out_of_range() {
    let bad = [
        (
            "nanoseconds",
            "1000000000",
            &[
                "update",
                "state",
                "status",
                "clear",
                "add",
                "modify",
                "delete",
                "execution",
                "trade",
                "cancel",
            ][..],
        ),
        ("nanoseconds", "4294967295", &["update", "clear", "cancel"]),
        ("side", "X", &["add"]),
        ("side", "b", &["add"]),
        ("side", "0x00", &["add"]),
        (
            "price",
            "0",
            &["add", "modify", "execution", "trade", "cancel"],
        ),
        (
            "price",
            "1000000000.000001",
            &["add", "modify", "execution", "trade", "cancel"],
        ),
        (
            "size",
            "0",
            &["add", "modify", "execution", "trade", "cancel"],
        ),
        ("test", "X", &["update"]),
        ("test", "0x20", &["update"]),
        ("market", "D", &["update"]),
        ("market", "h", &["update"]),
        ("type", "G", &["update"]),
        ("type", "e", &["update"]),
    ];
    for (key, value, names) in bad {
        for name in names {
            let edition = if key == "type" { V1_3 } else { V1_3b };
            let line = with_field(name, key, value);
            is_wrong(edition, &line, line.len() - value.len() + 1, InRange(key));
            let behind = format!("\t{line}  # {value}");
            is_wrong(edition, &behind, line.len() - value.len() + 2, InRange(key));
        }
    }
    // What is not judged may be anything: a trading status' market too.
    for line in [
        "1 status symbol=0 trading=255 market=0 short=0xff",
        "1 status symbol=0 trading=0 market=255",
    ] {
        read(V1_3b, line);
    }
    for (byte, good) in (0..=255u8).map(|byte| (byte, b"ABCHIJKLMNPQUVWXYZ".contains(&byte))) {
        let line = format!("1 update symbol=7 ticker=A market=0x{byte:02x}");
        assert_eq!(read_line(V1_3b, line.as_bytes()).is_ok(), good, "{line}");
    }
}

/// "a field is out of range: the first by its place in the body", in whichever order they stand in the line.
#[test]
fn the_first_of_several_out_of_range() {
    let words = [
        "symbol=7",
        "order=1",
        "size=0",
        "price=0",
        "side=X",
        "nanoseconds=1000000000",
    ];
    let mut dice = Dice::new(2);
    for _ in 0..100 {
        let mut words = words;
        dice.shuffle(&mut words);
        let line = format!("1 add {}", words.join(" "));
        is_wrong(
            V1_3b,
            &line,
            column_of(&line, "nanoseconds=") + 12,
            InRange("nanoseconds"),
        );
        let line = line.replace("1000000000", "999999999");
        is_wrong(V1_3b, &line, column_of(&line, "side=") + 5, InRange("side"));
        let line = line.replace("side=X", "side=S");
        is_wrong(
            V1_3b,
            &line,
            column_of(&line, "price=") + 6,
            InRange("price"),
        );
        let line = line.replace("price=0", "price=1");
        is_wrong(V1_3b, &line, column_of(&line, "size=") + 5, InRange("size"));
        read(V1_3b, &line.replace("size=0", "size=1"));
    }
    let line = "1 update market=D test=X type=G nanoseconds=1000000000 ticker=A symbol=7";
    is_wrong(
        V1_3,
        line,
        column_of(line, "1000000000"),
        InRange("nanoseconds"),
    );
    let line = line.replace("1000000000", "0");
    is_wrong(V1_3, &line, column_of(&line, "type=") + 5, InRange("type"));
    let line = line.replace("type=G", "type=F");
    is_wrong(V1_3, &line, column_of(&line, "test=") + 5, InRange("test"));
    let line = line.replace("test=X", "test=Y");
    is_wrong(
        V1_3,
        &line,
        column_of(&line, "market=") + 7,
        InRange("market"),
    );
}

/// "It is the first of these": each fault of a line in front of all that come behind it in the page's table, wherever
/// they stand in the line.
#[test]
fn what_is_told_first() {
    let long = " ".repeat(5_000);
    // Too long, before a bad number, a name, a key, a value, a missing key, a range.
    for line in ["0 addx foo", "# ", "", "1 clear symbol=7", "1 add side=X"] {
        is_wrong(V1_3b, format!("{line}{long}"), 4_097, ShorterLine);
    }
    is_wrong(V1_3b, "0 addx foo", 1, SequenceNumber);
    is_wrong(V1_3b, "1 addx foo price=a", 3, Name);
    // Word by word from the left, whatever is wrong with each.
    is_wrong(V1_3b, "1 clear foo=1 symbol=a", 9, Key);
    is_wrong(V1_3b, "1 clear symbol=a foo=1", 16, Value(Form::Number, 4));
    is_wrong(V1_3b, "1 clear symbol=7 symbol=a foo", 18, OtherKey);
    is_wrong(
        V1_3b,
        "1 clear symbol=a symbol=7",
        16,
        Value(Form::Number, 4),
    );
    is_wrong(V1_3b, "1 clear symbol=7 foo symbol=7", 18, Key);
    is_wrong(V1_3b, "1 add size=0 size=0 foo", 14, OtherKey);
    // All words before a key that is missing, and that before a range.
    is_wrong(V1_3b, "1 clear nanoseconds=a", 21, Value(Form::Number, 4));
    is_wrong(
        V1_3b,
        "1 clear nanoseconds=1000000000",
        31,
        ThisKey("symbol"),
    );
    is_wrong(
        V1_3b,
        "1 add symbol=7 order=1 side=X price=0 size=0 foo",
        46,
        Key,
    );
    is_wrong(
        V1_3b,
        "1 add symbol=7 order=1 side=X price=0",
        38,
        ThisKey("size"),
    );
    is_wrong(
        V1_3b,
        "1 add symbol=7 order=1 side=X price=0 size=0",
        29,
        InRange("side"),
    );
    is_wrong(
        V1_3b,
        "1 add symbol=7 order=1 side=X price=1000000001 size=0",
        37,
        Value(Form::Price, 8),
    );
    // A value that has not the form is told where it begins, one behind the line's end where it is empty.
    is_wrong(V1_3b, "1 clear symbol=", 16, Value(Form::Number, 4));
    is_wrong(V1_3b, "1 clear symbol= ", 16, Value(Form::Number, 4));
}

/// Columns count bytes, and of a line alone.
#[test]
fn columns_count_bytes() {
    is_wrong(
        V1_3b,
        "\t\t1\r clear\tsymbol=\u{e9}",
        19,
        Value(Form::Number, 4),
    );
    is_wrong(
        V1_3b,
        "1 update ticker=\u{e9} symbol=7",
        17,
        Value(Form::Text, 11),
    );
    is_wrong(V1_3b, "1 update ticker=AB symbol=7 \u{e9}=1", 29, Key);
    is_wrong(
        V1_3b,
        "1 update ticker=AB # \u{e9}\u{e9} ",
        27,
        ThisKey("symbol"),
    );
    wrong_line(
        "1 time second=0\n\n# a\n  2 time\n",
        4,
        9,
        ThisKey("second"),
    );
}

/// "A line has at most 4,096 bytes, the line feed not counted", whatever it is; "a line of more than 4,096 bytes is
/// wrong at column 4,097".
#[test]
fn the_longest_line() {
    for line in ["1 clear symbol=7", "# comment", "", "1 clear symbol=7 #"] {
        for fill in [" ", "\t", "\r"] {
            let most = format!("{line}{}", fill.repeat(4_096 - line.len()));
            assert!(read_line(V1_3b, most.as_bytes()).is_ok());
            is_wrong(V1_3b, format!("{most}{fill}"), 4_097, ShorterLine);
        }
    }
    // A line that is only filled by its own value.
    let front = "1 clear symbol=";
    let most = format!("{front}{}7", "0".repeat(4_096 - front.len() - 1));
    assert_eq!(read(V1_3b, &most), read(V1_3b, "1 clear symbol=7"));
    wrong_line(format!("\n{most}7\n"), 2, 4_097, ShorterLine);
    // With and without a line feed, and by each line alone.
    let text = format!("{most}\n{most}\n");
    assert_eq!(composed(V1_3b, &text), composed(V1_3b, text.trim_end()));
    let comment = "#".repeat(4_097);
    wrong_line(&comment, 1, 4_097, ShorterLine);
    wrong_line(format!("# a\n{comment}\n0\n"), 2, 4_097, ShorterLine);
    wrong_line(format!("0\n{comment}\n"), 1, 1, SequenceNumber);
    is_wrong(V1_3b, [0; 70_000], 4_097, ShorterLine);
}

// Texts.

/// A System Time of this number, as a record.
fn time(number: u64) -> Vec<u8> {
    record(number, &bytes("31 98850000"))
}

fn clear(number: u64) -> Vec<u8> {
    record(number, &bytes("05 00000000 07000000"))
}

const TIME: &str = "time second=09:30:00";

#[test]
fn lines_and_line_feeds() {
    let one = recording(&[time(1)]);
    for text in [
        "1 time second=34200",
        "1 time second=34200\n",
        "1 time second=34200\r\n",
        "\n\n1 time second=34200\n\n\n",
    ] {
        assert_eq!(composed(V1_3b, text), one, "{text:?}");
    }
    for text in ["", "\n", "\n\n", "# a", "# a\n", " \t\r\n#\n", "#\n\n#\n"] {
        assert_eq!(
            compose(V1_3b, text.as_bytes()),
            Ok(Composed::default()),
            "{text:?}"
        );
    }
    // A carriage return alone ends no line, and other bytes are no line feeds.
    wrong_line("1 clear symbol=7\r2 clear symbol=7\n", 1, 18, Key);
    wrong_line("1 clear symbol=7\u{b}\n", 1, 16, Value(Form::Number, 4));
    wrong_line("1 clear symbol=7\0", 1, 16, Value(Form::Number, 4));
}

/// "the records of the lines before it, up to the blank line before that, are one packet"
#[test]
fn packets_by_blank_lines() {
    let three = [time(1), time(2), time(3)];
    let lines = [1, 2, 3].map(|number| format!("{number} {TIME}\n"));
    let [a, b, c] = &lines;
    for (text, packets) in [
        (format!("{a}{b}{c}"), vec![three.concat()]),
        (
            format!("{a}\n{b}{c}"),
            vec![three[0].clone(), three[1..].concat()],
        ),
        (
            format!("{a}{b} \t\r\n{c}"),
            vec![three[..2].concat(), three[2].clone()],
        ),
        (format!("{a}\n{b}\n{c}"), three.to_vec()),
        (
            format!("\n\n\n{a}\n\n \n{b}\n\t\n\n{c}\n\n\n"),
            three.to_vec(),
        ),
        // Comments end no packet.
        (
            format!("#\n{a}# a\n  # b\n{b}#\n{c}#"),
            vec![three.concat()],
        ),
        (
            format!("{a}#\n\n#\n\n#\n{b}{c}"),
            vec![three[0].clone(), three[1..].concat()],
        ),
        // A line of a comment behind blanks is no blank line.
        (format!("{a} \t # \n{b}{c}"), vec![three.concat()]),
    ] {
        let told = compose(V1_3b, text.as_bytes()).unwrap();
        assert_eq!(told.recording, recording(&packets), "{text:?}");
        assert_eq!((told.records, told.packets), (3, packets.len()), "{text:?}");
    }
}

/// "The line whose record would make it longer is wrong": at column 1, "after everything else".
#[test]
fn a_packet_of_1_500_bytes() {
    let times = |count: u64| {
        (1..=count)
            .map(|number| format!("{number} {TIME}\n"))
            .collect::<String>()
    };
    let packet: Vec<u8> = (1..=100).flat_map(time).collect();
    assert_eq!(packet.len(), 1_500);
    assert_eq!(
        composed(V1_3b, times(100)),
        recording(std::slice::from_ref(&packet))
    );
    wrong_line(times(101), 101, 1, BlankLine);
    wrong_line(
        format!("{}   101 {TIME} # a\n", times(100)),
        101,
        1,
        BlankLine,
    );
    // Comments do not help, and a blank line does.
    wrong_line(
        format!("{}#\n#\n101 {TIME}\n", times(100)),
        103,
        1,
        BlankLine,
    );
    let two = format!("{}\n101 {TIME}\n", times(100));
    assert_eq!(
        composed(V1_3b, two),
        recording(&[packet.clone(), time(101)])
    );
    // Behind everything else that is wrong with the line.
    for (line, column, expected) in [
        ("0 time second=1", 1, SequenceNumber),
        ("1 times", 3, Name),
        ("1 time second=1 a", 17, Key),
        ("1 time", 7, ThisKey("second")),
        (
            "1 clear symbol=7 nanoseconds=1000000000",
            30,
            InRange("nanoseconds"),
        ),
    ] {
        wrong_line(format!("{}{line}\n", times(100)), 101, column, expected);
    }
    let long = " ".repeat(4_090);
    wrong_line(
        format!("{}1 time second=1{long}\n", times(100)),
        101,
        4_097,
        ShorterLine,
    );
    // Blank lines and comments of any number are good there.
    assert_eq!(
        composed(V1_3b, format!("{}# a\n\n\n", times(100))),
        recording(&[packet])
    );
    // Each message, as the record that just has room, and as the one that has a byte too few.
    for (line, body) in SHORTEST {
        let length = 10 + bytes(body).len();
        for end in [1_500, 1_501] {
            // Good records of so many bytes: 15 by System Time, 19 by Symbol Clear.
            let clears = (0..15)
                .find(|clears| (end - length - 19 * clears) % 15 == 0)
                .unwrap();
            let front = "1 clear symbol=7\n".repeat(clears)
                + &times(((end - length - 19 * clears) / 15) as u64);
            let text = format!("{front}{line}\n");
            if end == 1_500 {
                let told = composed(V1_3b, &text);
                assert_eq!(told[..2], 1_500u16.to_le_bytes());
                assert_eq!(told.len(), 1_502);
                assert!(read_packet(V1_3b, &told[2..]).is_ok());
            } else {
                wrong_line(&text, text.lines().count(), 1, BlankLine);
            }
        }
    }
}

/// The first wrong line is told, whatever stands behind it.
#[test]
fn the_first_wrong_line() {
    wrong_line("1 time second=0\n2 time\n0\n", 2, 7, ThisKey("second"));
    wrong_line("\n\n\r\n# 0\n0", 5, 1, SequenceNumber);
    wrong_line(format!("1 {TIME}\n\n1 {TIME} a\n\n0\n"), 3, 24, Key);
    for (text, wanted) in [
        ("0\n", "line 1, column 1: expected a sequence number, 1 to 1000000000000"),
        ("1 time\n", "line 1, column 7: expected second= and its value"),
        ("1 time second=1 second=1", "line 1, column 17: expected a key that is not there yet"),
        (
            "\n\n3 add symbol=7 order=500 side=B size=100 price=1.1234567",
            "line 3, column 48: expected a price in dollars, 0.000001 to 1000000000.000000, with at most six places",
        ),
        ("1 clear symbol=a", "line 1, column 16: expected a number up to 4294967295"),
    ] {
        assert_eq!(compose(V1_3b, text.as_bytes()).unwrap_err().to_string(), wanted);
    }
}

/// No body that the reader of the edition refuses is composed, and every one that it takes can be: numbers repeat and
/// fall as they like.
#[test]
fn numbers_in_any_order() {
    let text = format!("9 {TIME}\n3 clear symbol=7\n3 clear symbol=7\n1000000000000 {TIME}\n");
    let wanted = recording(&[[time(9), clear(3), clear(3), time(1_000_000_000_000)].concat()]);
    assert_eq!(composed(V1_3b, text), wanted);
}

// What is written.

#[test]
fn a_recording_as_text() {
    let good = [time(1), clear(2)].concat();
    let price = {
        let (_, mut body) = shortest("add");
        body[18..26].fill(0);
        [time(1), record(2, &body)].concat()
    };
    let told = "# packet 3: refused 4 at 43: record 2, Add Order, price\n";
    let packets = [good.clone(), vec![], price.clone(), time(5)];
    let text = format!("1 {TIME}\n2 clear symbol=7\n\n# packet 2: refused 1\n\n{told}\n5 {TIME}\n");
    let all = recording(&packets);
    assert_eq!(text_of_recording(V1_3b, &all, false), text);
    // With the bytes of bad packets, of which an empty one has none.
    let hexadecimal = "\
# 01 00 00 00 00 00 00 00 05 00 31 98 85 00 00 02 00 00 00 00 00 00 00 22 00 14 00 00 00 00 07 00
# 00 00 f4 01 00 00 00 00 00 00 42 00 00 00 00 00 00 00 00 64 00 00 00 20 20 20 20
";
    let shown = text.replace(told, &format!("{told}{hexadecimal}"));
    assert_eq!(text_of_recording(V1_3b, &all, true), shown);
    // Composed, the bad packets are left out.
    let kept = recording(&[good, time(5)]);
    assert_eq!(composed(V1_3b, text), kept);
    assert_eq!(composed(V1_3b, shown), kept);
    assert_eq!(text_of_recording(V1_3b, &[], true), "");
}

/// A bad packet that is the first one, and one of every number.
#[test]
fn bad_packets_by_their_place() {
    let packets = [
        vec![1, 0, 255],
        time(1),
        vec![0; 1_501],
        record(0, &[49, 0, 0, 0, 0]),
        record(1, &[2]),
    ];
    let text = format!(
        "# packet 1: refused 2 at 0: record 1, unfinished header\n# 01 00 ff\n\n1 {TIME}\n\n# packet 3: refused 1\n{}\n\
         # packet 4: refused 5 at 0: record 1, sequence number\n# 00 00 00 00 00 00 00 00 05 00 31 00 00 00 00\n\n\
         # packet 5: refused 3 at 10: record 1, unknown type\n# 01 00 00 00 00 00 00 00 01 00 02\n",
        // 46 lines of 32 bytes and one of 29
        format!("#{}\n", " 00".repeat(32)).repeat(46) + &format!("#{}\n", " 00".repeat(29))
    );
    let all = recording(&packets);
    assert_eq!(text_of_recording(V1_3b, &all, true), text);
    let told: String = text
        .lines()
        .filter(|line| !line.starts_with("# 0"))
        .map(|line| format!("{line}\n"))
        .collect();
    assert_eq!(
        text_of_recording(V1_3b, &all, false),
        told.replace(&format!("#{}\n", " 00".repeat(32)), "")
    );
    // Lines of 32 bytes, no more and no fewer.
    for (length, lines) in [
        (1, 1),
        (31, 1),
        (32, 1),
        (33, 2),
        (64, 2),
        (65, 3),
        (65_535, 2_048),
    ] {
        let text = text_of_recording(V1_3b, &recording(&[vec![255; length]]), true);
        assert_eq!(text.lines().count(), 1 + lines, "{length}");
        assert_eq!(text.matches(" ff").count(), length);
        assert!(text
            .lines()
            .skip(1)
            .all(|line| line.len() <= 1 + 3 * 32 && line.starts_with("# ff")));
    }
}

/// In 1.3 a Symbol Update without a type makes its packet bad.
#[test]
fn a_recording_of_the_other_edition() {
    let all = example_file("morning.rec");
    let told = "# packet 1: refused 4 at 45: record 2, Symbol Update, security type\n";
    assert_eq!(text_of_recording(V1_3, &all, false), told);
    let all = example_file("morning-1.3.rec");
    let text = text_of_recording(V1_3b, &all, false);
    assert!(
        text.contains("\n2 update symbol=7 ticker=ABC reserved20=69\n"),
        "{text}"
    );
    assert_eq!(composed(V1_3b, text), all);
}

/// "A packet that the recording cuts off is a comment too", behind a blank line where it is not the first.
#[test]
fn a_recording_that_is_cut() {
    let whole = recording(&[time(1), clear(2), time(3)]);
    let lines = [
        format!("1 {TIME}\n"),
        "\n2 clear symbol=7\n".to_string(),
        format!("\n3 {TIME}\n"),
    ];
    for length in 0..=whole.len() {
        let packets = [17, 17 + 21, whole.len()]
            .iter()
            .filter(|end| **end <= length)
            .count();
        let mut wanted = lines[..packets].concat();
        if ![0, 17, 17 + 21, whole.len()].contains(&length) {
            wanted += [
                "# cut: the recording ends inside packet 1\n",
                "\n# cut: the recording ends inside packet 2\n",
                "\n# cut: the recording ends inside packet 3\n",
            ][packets];
        }
        for hexadecimal in [false, true] {
            assert_eq!(
                text_of_recording(V1_3b, &whole[..length], hexadecimal),
                wanted,
                "{length}"
            );
        }
        let told = compose(V1_3b, wanted.as_bytes()).unwrap();
        assert_eq!(told.packets, packets);
        assert!(whole.starts_with(&told.recording));
    }
    // Behind a bad packet too.
    let bad = [recording(&[vec![]]), vec![9]].concat();
    let wanted = "# packet 1: refused 1\n\n# cut: the recording ends inside packet 2\n";
    assert_eq!(text_of_recording(V1_3b, &bad, true), wanted);
}

// Round trips.

/// The packets of a recording that is not cut, and of one that is those before the cut.
fn packets_of(recording: &[u8]) -> Vec<&[u8]> {
    let mut packets = Vec::new();
    let mut rest = recording;
    while rest.len() >= 2 {
        let length = usize::from(rest[0]) + 256 * usize::from(rest[1]);
        if rest.len() < 2 + length {
            break;
        }
        packets.push(&rest[2..2 + length]);
        rest = &rest[2 + length..];
    }
    packets
}

/// Reading and composing gives the good packets again, which are how many of all; and reading them the same lines.
fn there_and_back(edition: Edition, all: &[u8]) -> (usize, usize) {
    let text = text_of_recording(edition, all, true);
    let packets = packets_of(all);
    let good: Vec<Vec<u8>> = packets
        .iter()
        .filter(|packet| read_packet(edition, packet).is_ok())
        .map(|packet| packet.to_vec())
        .collect();
    let told = compose(edition, text.as_bytes()).expect("what is written is read");
    assert!(told.recording == recording(&good));
    let records: usize = good
        .iter()
        .map(|packet| read_packet(edition, packet).unwrap().len())
        .sum();
    assert_eq!((told.records, told.packets), (records, good.len()));
    // Without comments, and the blank lines that they leave, it is the text of the good packets.
    let again = text_of_recording(edition, &told.recording, true);
    let lines = |text: &str| {
        let lines = text
            .lines()
            .filter(|line| !line.starts_with('#') && !line.is_empty());
        lines.map(String::from).collect::<Vec<String>>()
    };
    assert!(lines(&again) == lines(&text));
    assert!(!again.contains('#') || lines(&again).iter().any(|line| line.contains('#')));
    (good.len(), packets.len())
}

/// "For a recording without bad packets, reading and composing gives the same bytes again."
#[test]
fn the_vectors_there_and_back() {
    let packets = vectors(&["stdin"]);
    let (in_1_3, all) = there_and_back(V1_3, &packets);
    let (in_1_3_b, _) = there_and_back(V1_3b, &packets);
    assert_eq!(all, 7_978);
    assert!(in_1_3 > 600 && in_1_3_b > in_1_3, "{in_1_3} and {in_1_3_b}");
}

#[test]
fn the_examples_there_and_back() {
    for name in example_recordings() {
        for edition in EDITIONS {
            there_and_back(edition, &example_file(&name));
        }
    }
}

#[test]
fn seeded_recordings_there_and_back() {
    let (mut whole, mut good) = (0, 0);
    for seed in seeds(40) {
        for written in EDITIONS {
            let all = drawn_recording(written, seed);
            for edition in EDITIONS {
                let (kept, packets) = there_and_back(edition, &all);
                let text = text_of_recording(edition, &all, false);
                if kept == packets && !text.lines().any(|line| line.starts_with("# cut")) {
                    assert!(composed(edition, &text) == all, "seed {seed}");
                    whole += 1;
                }
                good += kept;
            }
        }
    }
    assert!(
        !all_seeds() || (whole > 20 && good > 1_000),
        "{whole} whole, {good} good"
    );
}

/// Every body that the reader takes has a line, and the line gives it back.
#[test]
fn any_body_there_and_back() {
    let mut dice = Dice::new(3);
    for edition in EDITIONS {
        for (kind, _) in TYPES_AND_LENGTHS {
            for turn in 0..300 {
                let body = good_body_of(edition, &mut dice, kind);
                let number = if turn % 2 == 0 {
                    turn + 1
                } else {
                    dice.between(1, 1_000_000_000_000)
                };
                let line = line_of(edition, number, &body);
                assert_eq!(read(edition, &line), (number, body), "{line}");
                // It is as short as it can be: no word can be left out.
                let words: Vec<&str> = line.split(' ').collect();
                for place in 2..words.len() {
                    let mut fewer = words.clone();
                    fewer.remove(place);
                    let told = read_line(edition, fewer.join(" ").as_bytes());
                    assert_ne!(told, read_line(edition, line.as_bytes()), "{line}");
                }
                assert!(line.is_ascii() && line.len() <= MOST_LINE_BYTES);
            }
        }
    }
}

/// A damaged text is a recording of good packets, or wrong at a line that it has and a column of that line, or right
/// behind it; and what stands before that line is good.
#[test]
fn damaged_texts() {
    let mut told = [0; 3];
    let mut kinds = std::collections::BTreeSet::new();
    let mut texts = Vec::new();
    for seed in 0..12 {
        let edition = EDITIONS[seed % 2];
        let all = drawn_recording(edition, seed as u64);
        let text = text_of_recording(edition, &all, seed % 3 == 0);
        let before = composed(edition, &text);
        texts.push((edition, text, before));
    }
    for seed in seeds(400) {
        let (edition, text, before) = &texts[(seed % 12) as usize];
        let edition = *edition;
        let damaged = damaged_text(seed, text.as_bytes());
        assert!(damaged == damaged_text(seed, text.as_bytes()));
        match compose(edition, &damaged) {
            Ok(composed) => {
                for packet in packets_of(&composed.recording) {
                    assert!(read_packet(edition, packet).is_ok(), "seed {seed}");
                }
                let (good, packets) = there_and_back(edition, &composed.recording);
                assert_eq!((good, packets), (composed.packets, composed.packets));
                told[usize::from(composed.recording != *before)] += 1;
            }
            Err(WrongLine { line, wrong }) => {
                told[2] += 1;
                kinds.insert(
                    format!("{:?}", wrong.expected)
                        .split('(')
                        .next()
                        .unwrap()
                        .to_string(),
                );
                let lines: Vec<&[u8]> = damaged.split(|byte| *byte == b'\n').collect();
                assert!((1..=lines.len()).contains(&line), "seed {seed}");
                let length = lines[line - 1].len();
                assert!((1..=length + 1).contains(&wrong.column), "seed {seed}");
                let front = lines[..line - 1].join(&b'\n');
                assert!(compose(edition, &front).is_ok(), "seed {seed}");
                let own = read_line(edition, lines[line - 1]);
                assert_eq!(own.is_err(), wrong.expected != BlankLine, "seed {seed}");
            }
        }
    }
    if all_seeds() {
        assert!(told.iter().all(|count| *count > 20), "{told:?}");
        assert_eq!(kinds.len(), 9, "{kinds:?}");
    }
}
