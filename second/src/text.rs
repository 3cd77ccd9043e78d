//! A morning as text (docs/TEXT.md): the line of a record, a line read, a whole text composed into a recording, and
//! a recording printed as text. Words in quotation marks are that page's.

use crate::edition::{Edition, BYTE_20};
use crate::packet::*;
use crate::reading::refused;
use std::fmt;

/// "A line has at most 4,096 bytes, the line feed not counted."
pub const MOST_LINE_BYTES: usize = 4_096;
/// Price: "dollars, one or more digits of a number up to 1,000,000,000"
pub const MOST_DOLLARS: u64 = 1_000_000_000;
/// "A second below 86,400 is written so".
pub const SECONDS_OF_A_DAY: u64 = 86_400;
/// "comments of up to 32 bytes a line"
const HEX_BYTES_A_LINE: usize = 32;

/// The form of a field's value.
#[derive(Clone, Copy, Debug, PartialEq, Eq)]
pub enum Form {
    Number,
    Price,
    Clock,
    Text,
}

/// A row of the table of messages.
#[derive(Clone, Copy, Debug, PartialEq, Eq)]
pub struct Field {
    pub key: &'static str,
    /// Where its bytes start in the body.
    pub at: usize,
    pub bytes: usize,
    pub form: Form,
    /// Its bytes where it is left out. "A field without a default has to be written."
    pub left_out: Option<&'static [u8]>,
}

/// The messages by their names, in the order of the page.
pub const NAMES: [(&str, u8); 11] = [
    ("time", SYSTEM_TIME),
    ("update", SYMBOL_UPDATE),
    ("state", SYSTEM_STATE),
    ("status", TRADING_STATUS),
    ("clear", SYMBOL_CLEAR),
    ("add", ADD_ORDER),
    ("modify", MODIFY_ORDER),
    ("delete", DELETE_ORDER),
    ("execution", ORDER_EXECUTION),
    ("trade", TRADE),
    ("cancel", TRADE_CANCEL),
];

/// The name of a message by its type.
pub fn name_of(kind: u8) -> &'static str {
    for (name, known) in NAMES {
        if known == kind {
            return name;
        }
    }
    panic!("there is no type {kind}")
}

/// The type of the message that a word names.
fn kind_named(word: &[u8]) -> Option<u8> {
    for (name, kind) in NAMES {
        if name.as_bytes() == word {
            return Some(kind);
        }
    }
    None
}

const fn field(
    key: &'static str,
    first: usize,
    last: usize,
    form: Form,
    left_out: Option<&'static [u8]>,
) -> Field {
    Field {
        key,
        at: first,
        bytes: last - first + 1,
        form,
        left_out,
    }
}

/// The fields of a message in the order of the page, which is that of their places. There are none of a type that is
/// no message's.
pub fn fields(edition: Edition, kind: u8) -> Vec<Field> {
    use Form::{Clock, Number, Price, Text};
    let nanoseconds = field("nanoseconds", 1, 4, Number, Some(&[0; 4]));
    let symbol = field("symbol", 5, 8, Number, None);
    let order = field("order", 9, 16, Number, None);
    match kind {
        SYSTEM_TIME => vec![field("second", 1, 4, Clock, None)],
        SYMBOL_UPDATE => vec![
            nanoseconds,
            symbol,
            field("ticker", 9, 19, Text, None),
            // "`type`, in 1.3 alone", and "`reserved20`, in 1.3.a and 1.3.b"
            match edition.has_security_type() {
                true => field("type", BYTE_20, BYTE_20, Text, Some(b"E")),
                false => field("reserved20", BYTE_20, BYTE_20, Number, Some(&[0])),
            },
            field("test", 21, 21, Text, Some(b"N")),
            field("reserved22", 22, 22, Number, Some(&[0])),
            field("lot", 23, 24, Number, Some(&[100, 0])),
            field("opening", 25, 32, Text, Some(b"09:30:00")),
            field("closing", 33, 40, Text, Some(b"16:00:00")),
            field("market", 41, 41, Text, Some(b"H")),
        ],
        SYSTEM_STATE => vec![
            nanoseconds,
            // "`DoM1.3` has two more"
            field("version", 5, 12, Text, Some(b"DoM1.3  ")),
            field("session", 13, 13, Number, Some(&[1])),
            field("status", 14, 14, Text, None),
        ],
        TRADING_STATUS => vec![
            nanoseconds,
            symbol,
            field("trading", 9, 9, Number, None),
            field("market", 10, 10, Number, Some(&[3])),
            field("short", 11, 11, Text, Some(b"N")),
        ],
        SYMBOL_CLEAR => vec![nanoseconds, symbol],
        ADD_ORDER => vec![
            nanoseconds,
            symbol,
            order,
            field("side", 17, 17, Text, None),
            field("price", 18, 25, Price, None),
            field("size", 26, 29, Number, None),
            field("attributable", 30, 33, Text, Some(b"    ")),
        ],
        MODIFY_ORDER => vec![
            nanoseconds,
            symbol,
            order,
            field("price", 17, 24, Price, None),
            field("size", 25, 28, Number, None),
            field("flags", 29, 29, Number, Some(&[0])),
        ],
        DELETE_ORDER => vec![nanoseconds, symbol, order],
        ORDER_EXECUTION => vec![
            nanoseconds,
            symbol,
            order,
            field("trade", 17, 24, Number, None),
            field("price", 25, 32, Price, None),
            field("size", 33, 36, Number, None),
            field("flags", 37, 37, Number, Some(&[0])),
        ],
        TRADE => vec![
            nanoseconds,
            symbol,
            field("trade", 9, 16, Number, None),
            field("correction", 17, 17, Number, Some(&[0])),
            field("price", 18, 25, Price, None),
            field("size", 26, 29, Number, None),
            field("flags", 30, 30, Number, Some(&[0])),
        ],
        TRADE_CANCEL => vec![
            nanoseconds,
            symbol,
            field("trade", 9, 16, Number, None),
            field("correction", 17, 17, Number, Some(&[0])),
            field("price", 18, 25, Price, None),
            field("size", 26, 29, Number, None),
        ],
        _ => vec![],
    }
}

// Writing.

/// "its number, a space, the name, and for each field in the order of the table, but those that may be left out and
/// have their default, a space, the key, `=` and the value." The body is a good one of the edition.
pub fn line_of(edition: Edition, number: u64, body: &[u8]) -> String {
    let mut line = format!("{number} {}", name_of(body[0]));
    for field in fields(edition, body[0]) {
        let bytes = &body[field.at..field.at + field.bytes];
        if field.left_out != Some(bytes) {
            line.push_str(&format!(" {}={}", field.key, written(field.form, bytes)));
        }
    }
    line
}

/// The bytes of a field as a value.
fn written(form: Form, bytes: &[u8]) -> String {
    match form {
        // "It is written without" zeros in front.
        Form::Number => little(bytes).to_string(),
        // "It is written with six places."
        Form::Price => {
            let millionths = little(bytes);
            format!("{}.{:06}", millionths / 1_000_000, millionths % 1_000_000)
        }
        // "A second below 86,400 is written so, any other as a number."
        Form::Clock => match little(bytes) {
            second @ 0..SECONDS_OF_A_DAY => {
                let (hours, minutes) = (second / 3_600, second / 60 % 60);
                format!("{hours:02}:{minutes:02}:{:02}", second % 60)
            }
            second => second.to_string(),
        },
        // "as text where the field's bytes, without the spaces at their end, are one byte or more and each from 33 to
        // 126; else as `0x` and 2 w digits of lower case"
        Form::Text => {
            let mut letters = bytes;
            while let [front @ .., b' '] = letters {
                letters = front;
            }
            if !letters.is_empty() && letters.iter().all(|byte| (33..=126).contains(byte)) {
                return letters.iter().map(|byte| *byte as char).collect();
            }
            let digits = bytes.iter().map(|byte| format!("{byte:02x}"));
            format!("0x{}", digits.collect::<String>())
        }
    }
}

/// The lines of a packet, each with its line feed: its records, or the comment that tells why it is bad. `place` is
/// "which packet of the recording it is, from 1".
pub fn lines_of_packet(edition: Edition, place: usize, packet: &[u8]) -> String {
    match read_packet(edition, packet) {
        Err(refusal) => format!("# packet {place}: {}\n", refused(edition, packet, refusal)),
        Ok(records) => {
            let lines = records.iter();
            let lines = lines.map(|record| line_of(edition, record.number, record.body) + "\n");
            lines.collect()
        }
    }
}

/// "`--hex` adds its bytes, as comments of up to 32 bytes a line in two digits each, separated by spaces".
fn hex_lines(packet: &[u8]) -> String {
    let mut lines = String::new();
    for part in packet.chunks(HEX_BYTES_A_LINE) {
        lines.push('#');
        for byte in part {
            lines.push_str(&format!(" {byte:02x}"));
        }
        lines.push('\n');
    }
    lines
}

/// A recording as text. "A blank line stands before every packet but the first, be it good, bad or cut."
pub fn text_of_recording(edition: Edition, recording: &[u8], hex: bool) -> String {
    let mut text = String::new();
    let (mut rest, mut place) = (recording, 1);
    while !rest.is_empty() {
        if place > 1 {
            text.push('\n');
        }
        let Some(packet) = first_packet(rest) else {
            text.push_str(&format!(
                "# cut: the recording ends inside packet {place}\n"
            ));
            return text;
        };
        text.push_str(&lines_of_packet(edition, place, packet));
        if hex && read_packet(edition, packet).is_err() {
            text.push_str(&hex_lines(packet));
        }
        rest = &rest[2 + packet.len()..];
        place += 1;
    }
    text
}

/// The packet in front of the rest of a recording, behind its length; none where the recording ends inside it.
fn first_packet(rest: &[u8]) -> Option<&[u8]> {
    let length = little(rest.get(..2)?) as usize;
    rest.get(2..2 + length)
}

// Reading.

/// What a line stands for.
#[derive(Clone, Debug, PartialEq, Eq)]
pub enum Line {
    Blank,
    Comment,
    Record { number: u64, body: Vec<u8> },
}

/// What was expected where a line is wrong.
#[derive(Clone, Copy, Debug, PartialEq, Eq)]
pub enum Expected {
    SequenceNumber,
    Name,
    Key,
    /// A key that is not there yet.
    OtherKey,
    /// A value of this form, for a field of so many bytes.
    Value(Form, usize),
    /// This key, whose field has to be written.
    ThisKey(&'static str),
    /// A value in range of the field with this key.
    InRange(&'static str),
    /// A line of at most 4,096 bytes.
    ShorterLine,
    /// A blank line before this one: its record has no room in the packet.
    BlankLine,
}

/// Where a line is wrong: the column, "from 1 and counted in bytes", and what was expected there.
#[derive(Clone, Copy, Debug, PartialEq, Eq)]
pub struct Wrong {
    pub column: usize,
    pub expected: Expected,
}

fn wrong<T>(column: usize, expected: Expected) -> Result<T, Wrong> {
    Err(Wrong { column, expected })
}

/// "Spaces (32), tabs (9) and carriage returns (13) are blanks".
fn is_blank(byte: u8) -> bool {
    matches!(byte, 32 | 9 | 13)
}

/// The words of a line, each with its column. "what stands between blanks is a word. A word that begins with `#` (35)
/// begins a comment": it is the last one here, as far as the line's end.
fn words_of(line: &[u8]) -> Vec<(usize, &[u8])> {
    let mut words = Vec::new();
    let mut at = 0;
    while at < line.len() {
        if is_blank(line[at]) {
            at += 1;
            continue;
        }
        let start = at;
        if line[start] == b'#' {
            words.push((start + 1, &line[start..]));
            break;
        }
        while at < line.len() && !is_blank(line[at]) {
            at += 1;
        }
        words.push((start + 1, &line[start..at]));
    }
    words
}

/// A line without its line feed, or what is wrong with it: "the first of these", in the order of the page's table. A
/// line that is too long "is told before anything else".
pub fn read_line(edition: Edition, line: &[u8]) -> Result<Line, Wrong> {
    if line.len() > MOST_LINE_BYTES {
        return wrong(MOST_LINE_BYTES + 1, Expected::ShorterLine);
    }
    let mut words = words_of(line);
    if words.is_empty() {
        return Ok(Line::Blank);
    }
    let commented = words.last().is_some_and(|(_, word)| word[0] == b'#');
    if commented {
        words.pop();
    }
    if words.is_empty() {
        return Ok(Line::Comment);
    }
    // "the column one more than the line has bytes, blanks and comments included"
    let behind = line.len() + 1;

    let (column, word) = words[0];
    let number = match number_up_to(LAST_NUMBER, word) {
        Some(number) if number >= 1 => number,
        _ => return wrong(column, Expected::SequenceNumber),
    };
    let Some((column, word)) = words.get(1) else {
        return wrong(behind, Expected::Name);
    };
    let Some(kind) = kind_named(word) else {
        return wrong(*column, Expected::Name);
    };
    let (body, columns) = read_fields(edition, kind, &words[2..], behind)?;
    match read_body(edition, &body) {
        Ok(_) => Ok(Line::Record { number, body }),
        // "a field is out of range: the first by its place in the body", which is the one that the reader tells.
        Err(refusal) => {
            let at_fault = |(field, _): &&(Field, usize)| Some(field.at) == refusal.offset;
            let given = columns.iter().find(at_fault);
            // A default is in range, so the field was given.
            let (field, column) = given.expect("a field that was given");
            wrong(*column, Expected::InRange(field.key))
        }
    }
}

/// The body of a message whose fields are these words, and the column of each value that was given.
#[allow(clippy::type_complexity)] // a body and where its values stood
fn read_fields(
    edition: Edition,
    kind: u8,
    words: &[(usize, &[u8])],
    behind: usize,
) -> Result<(Vec<u8>, Vec<(Field, usize)>), Wrong> {
    let fields = fields(edition, kind);
    let length = length_of_type(kind).expect("a message");
    let mut body = vec![0; length];
    body[0] = kind;
    let mut given: Vec<(Field, usize)> = Vec::new();
    for (column, word) in words {
        // "The key of a word is what stands before its first `=`, the value what stands behind it".
        let Some(equals) = word.iter().position(|byte| *byte == b'=') else {
            return wrong(*column, Expected::Key);
        };
        let (key, value) = (&word[..equals], &word[equals + 1..]);
        let known = fields.iter().find(|field| field.key.as_bytes() == key);
        let Some(field) = known else {
            return wrong(*column, Expected::Key);
        };
        // "Each key is written at most once."
        if given.iter().any(|(other, _)| other == field) {
            return wrong(*column, Expected::OtherKey);
        }
        let column = column + equals + 1;
        let Some(bytes) = read_value(field, value) else {
            return wrong(column, Expected::Value(field.form, field.bytes));
        };
        body[field.at..field.at + field.bytes].copy_from_slice(&bytes);
        given.push((*field, column));
    }
    for field in &fields {
        if given.iter().any(|(other, _)| other == field) {
            continue;
        }
        let Some(bytes) = field.left_out else {
            return wrong(behind, Expected::ThisKey(field.key));
        };
        body[field.at..field.at + field.bytes].copy_from_slice(bytes);
    }
    Ok((body, given))
}

/// The bytes of a field that has this value, or none where it has not the field's form.
fn read_value(field: &Field, value: &[u8]) -> Option<Vec<u8>> {
    let most = u64::MAX >> (64 - 8 * field.bytes.min(8));
    let number = match field.form {
        Form::Text => return read_text(field.bytes, value),
        Form::Number => number_up_to(most, value)?,
        Form::Price => read_price(value)?,
        Form::Clock => read_clock(value).or_else(|| number_up_to(most, value))?,
    };
    Some(number.to_le_bytes()[..field.bytes].to_vec())
}

/// Number: "one or more digits, of any number that the field's bytes can hold .. Zeros may stand in front."
fn number_up_to(most: u64, word: &[u8]) -> Option<u64> {
    if word.is_empty() {
        return None;
    }
    let mut number: u64 = 0;
    for byte in word {
        if !byte.is_ascii_digit() {
            return None;
        }
        number = number
            .checked_mul(10)?
            .checked_add(u64::from(byte - b'0'))?;
    }
    (number <= most).then_some(number)
}

/// Price: "dollars, one or more digits of a number up to 1,000,000,000, and, if wanted, a full stop and one to six
/// digits more". In millionths.
fn read_price(value: &[u8]) -> Option<u64> {
    let (dollars, places) = match value.iter().position(|byte| *byte == b'.') {
        None => (value, &b"0"[..]),
        Some(stop) => (&value[..stop], &value[stop + 1..]),
    };
    if places.len() > 6 {
        return None;
    }
    let mut millionths = number_up_to(999_999, places)?;
    for _ in places.len()..6 {
        millionths *= 10;
    }
    Some(number_up_to(MOST_DOLLARS, dollars)? * 1_000_000 + millionths)
}

/// Clock: "eight bytes, hours, minutes and seconds in two digits each with colons between them, from `00:00:00` to
/// `23:59:59`, for as many seconds".
fn read_clock(value: &[u8]) -> Option<u64> {
    if value.len() != 8 || value[2] != b':' || value[5] != b':' {
        return None;
    }
    let hours = number_up_to(23, &value[..2])?;
    let minutes = number_up_to(59, &value[3..5])?;
    let seconds = number_up_to(59, &value[6..])?;
    Some(hours * 3_600 + minutes * 60 + seconds)
}

/// Text of a field of w bytes: "either one to w bytes, each from 33 to 126, with spaces (32) behind them in the
/// recording; or `0x` and exactly two hexadecimal digits for each of the w bytes, of any letter case".
fn read_text(width: usize, value: &[u8]) -> Option<Vec<u8>> {
    if (1..=width).contains(&value.len()) {
        if !value.iter().all(|byte| (33..=126).contains(byte)) {
            return None;
        }
        let mut bytes = value.to_vec();
        bytes.resize(width, b' ');
        return Some(bytes);
    }
    let digits = value.strip_prefix(b"0x")?;
    if digits.len() != 2 * width {
        return None;
    }
    let mut bytes = Vec::new();
    for pair in digits.chunks(2) {
        let high = (pair[0] as char).to_digit(16)?;
        let low = (pair[1] as char).to_digit(16)?;
        bytes.push((16 * high + low) as u8);
    }
    Some(bytes)
}

/// A recording that a text was made into, and what is told of it.
#[derive(Clone, Debug, Default, PartialEq, Eq)]
pub struct Composed {
    pub recording: Vec<u8>,
    pub records: usize,
    pub packets: usize,
}

/// The first wrong line of a text, by its number from 1.
#[derive(Clone, Copy, Debug, PartialEq, Eq)]
pub struct WrongLine {
    pub line: usize,
    pub wrong: Wrong,
}

/// "A text is lines of bytes, each ended by a line feed (10); the last one may do without."
fn lines_of(text: &[u8]) -> Vec<&[u8]> {
    let mut lines: Vec<&[u8]> = text.split(|byte| *byte == 10).collect();
    // Behind the last line feed, or in a text of no bytes, there is no line.
    if lines.last().is_some_and(|line| line.is_empty()) {
        lines.pop();
    }
    lines
}

/// A text as a recording, or its first wrong line.
pub fn compose(edition: Edition, text: &[u8]) -> Result<Composed, WrongLine> {
    let mut composed = Composed::default();
    let mut packet = Vec::new();
    for (place, line) in lines_of(text).into_iter().enumerate() {
        let at_line = |wrong| WrongLine {
            line: place + 1,
            wrong,
        };
        match read_line(edition, line).map_err(at_line)? {
            Line::Comment => {}
            // "It ends the packet .. More blank lines do nothing".
            Line::Blank => composed.end_packet(&mut packet),
            Line::Record { number, body } => {
                // "A packet has at most 1,500 bytes (a record has 10 and its message's length)."
                if packet.len() + HEADER_BYTES + body.len() > MOST_PACKET_BYTES {
                    return wrong(1, Expected::BlankLine).map_err(at_line);
                }
                packet.extend(number.to_le_bytes());
                packet.extend((body.len() as u16).to_le_bytes());
                packet.extend(body);
                composed.records += 1;
            }
        }
    }
    // "the end of the text ends the last packet"
    composed.end_packet(&mut packet);
    Ok(composed)
}

impl Composed {
    /// The packet so far behind the recording, and none so far. "So a packet is never empty."
    fn end_packet(&mut self, packet: &mut Vec<u8>) {
        if packet.is_empty() {
            return;
        }
        self.recording.extend((packet.len() as u16).to_le_bytes());
        self.recording.append(packet);
        self.packets += 1;
    }
}

// What is told of a wrong line.

impl fmt::Display for WrongLine {
    fn fmt(&self, text: &mut fmt::Formatter) -> fmt::Result {
        let (line, column) = (self.line, self.wrong.column);
        write!(
            text,
            "line {line}, column {column}: expected {}",
            self.wrong.expected
        )
    }
}

impl fmt::Display for Expected {
    fn fmt(&self, text: &mut fmt::Formatter) -> fmt::Result {
        match self {
            Expected::SequenceNumber => write!(text, "a sequence number, 1 to {LAST_NUMBER}"),
            Expected::Name => {
                let names: Vec<&str> = NAMES.iter().map(|(name, _)| *name).collect();
                write!(text, "a name: {}", names.join(", "))
            }
            Expected::Key => write!(text, "a key of this message, = and its value"),
            Expected::OtherKey => write!(text, "a key that is not there yet"),
            Expected::Value(Form::Number, bytes) => {
                write!(text, "a number up to {}", u64::MAX >> (64 - 8 * bytes))
            }
            Expected::Value(Form::Price, _) | Expected::InRange("price") => write!(
                text,
                "a price in dollars, 0.000001 to 1000000000.000000, with at most six places"
            ),
            Expected::Value(Form::Clock, _) => write!(
                text,
                "a second as 09:30:00, 00:00:00 to 23:59:59, or a number up to {}",
                u32::MAX
            ),
            Expected::Value(Form::Text, bytes) => write!(
                text,
                "1 to {bytes} characters, or 0x and {} hexadecimal digits",
                2 * bytes
            ),
            Expected::ThisKey(key) => write!(text, "{key}= and its value"),
            Expected::InRange(key) => write!(text, "a value of {key} that is in range"),
            Expected::ShorterLine => {
                write!(
                    text,
                    "the line's end: it has at most {MOST_LINE_BYTES} bytes"
                )
            }
            Expected::BlankLine => write!(
                text,
                "a blank line before this one: a packet has at most {MOST_PACKET_BYTES} bytes"
            ),
        }
    }
}
