//! A recording of one edition as one of the other (docs/CONVERT.md): a packet, a piece of a recording and a whole
//! recording, each in place, and the words that ask for it.

use crate::edition::{Edition, BYTE_20};
use crate::packet::{little, read_packet, Refusal, HEADER_BYTES, SYMBOL_UPDATE};
use std::ffi::OsString;

/// "exceptions in lent memory, 13 bytes each: by which name it is (0: the symbol ID; 1: the ticker), the name in 11
/// bytes (of an ID the first four of them, little-endian; of a ticker all eleven, with its trailing spaces), and the
/// type"
pub const EXCEPTION_BYTES: usize = 13;
pub const BY_ID: u8 = 0;
pub const BY_TICKER: u8 = 1;
const TYPE_OF_EXCEPTION: usize = 12;

/// "and so are more than 1,000 exceptions"
pub const MOST_EXCEPTIONS: usize = 1_000;

/// "In memory of 65,537 bytes there is always a whole packet": a length, and the longest packet.
pub const ALWAYS_A_PACKET: usize = LENGTH_BYTES + 65_535;
const LENGTH_BYTES: usize = 2;

/// An exception by symbol ID.
pub fn by_id(symbol: u32, kind: u8) -> [u8; EXCEPTION_BYTES] {
    let mut exception = [0; EXCEPTION_BYTES];
    exception[0] = BY_ID;
    exception[1..5].copy_from_slice(&symbol.to_le_bytes());
    exception[TYPE_OF_EXCEPTION] = kind;
    exception
}

/// An exception by ticker.
pub fn by_ticker(ticker: &[u8; 11], kind: u8) -> [u8; EXCEPTION_BYTES] {
    let mut exception = [0; EXCEPTION_BYTES];
    exception[0] = BY_TICKER;
    exception[1..12].copy_from_slice(ticker);
    exception[TYPE_OF_EXCEPTION] = kind;
    exception
}

/// "The edition `from` of what is converted, the edition `to` that it becomes (any of the two, also the same one
/// twice), and, for 1.3, the types".
#[derive(Clone, Debug, PartialEq, Eq)]
pub struct Asked {
    pub from: Edition,
    pub to: Edition,
    /// "a byte, the Security Type of every symbol that no exception names"
    pub kind: u8,
    /// Exceptions, one behind the other.
    pub others: Vec<u8>,
}

impl Asked {
    /// "It is judged before anything else: 6, where `others` is not whole exceptions (none is whole); then 4, where the
    /// edition `to` is 1.3 and `type`, or the type of any exception, is neither `E` nor `F`, whether a symbol has it or
    /// not. Where `to` is 1.3.b no type is judged or used."
    pub fn judged(&self) -> Result<(), u8> {
        if self.others.len() % EXCEPTION_BYTES != 0 {
            return Err(6);
        }
        let mut kinds = vec![self.kind];
        for exception in self.others.chunks(EXCEPTION_BYTES) {
            kinds.push(exception[TYPE_OF_EXCEPTION]);
        }
        let good = |kind: &u8| *kind == b'E' || *kind == b'F';
        match self.to.has_security_type() && !kinds.iter().all(good) {
            true => Err(4),
            false => Ok(()),
        }
    }

    /// "The first that names a symbol counts." None where it has the type of all others.
    pub fn exception_of(&self, update: &[u8]) -> Option<&[u8]> {
        let mut exceptions = self.others.chunks(EXCEPTION_BYTES);
        exceptions.find(|exception| names(exception, update))
    }

    /// What a Symbol Update gets: "byte 20 of the body of each Symbol Update (a body whose type is 1) becomes, in 1.3,
    /// the type asked for; in 1.3.b, 0."
    fn byte_20(&self, update: &[u8]) -> u8 {
        match (self.to, self.exception_of(update)) {
            (Edition::V1_3b, _) => 0,
            (Edition::V1_3, Some(exception)) => exception[TYPE_OF_EXCEPTION],
            (Edition::V1_3, None) => self.kind,
        }
    }
}

/// Whether an exception names the symbol of a Symbol Update, whose bytes 5 to 8 are its ID and 9 to 19 its ticker. "An
/// exception whose first byte is neither 0 nor 1 names none."
fn names(exception: &[u8], update: &[u8]) -> bool {
    match exception[0] {
        BY_ID => exception[1..5] == update[5..9],
        BY_TICKER => exception[1..12] == update[9..20],
        _ => false,
    }
}

/// A packet: what is asked for is judged, by a number alone; then "A packet is refused as the reader of the edition
/// `from` refuses it, by number and offset (1; 2, 5, 3, 4), and keeps every byte. A good one is rewritten in place".
/// "The answer is how many Symbol Updates it has, whether their byte changed or not."
pub fn convert(asked: &Asked, packet: &mut [u8]) -> Result<u64, Refusal> {
    asked.judged().map_err(Refusal::alone)?;
    rewrite(asked, packet)
}

/// "Nothing else changes: not its length, numbers, order of records or any other byte."
fn rewrite(asked: &Asked, packet: &mut [u8]) -> Result<u64, Refusal> {
    let mut updates = Vec::new();
    let mut body_at = HEADER_BYTES;
    for record in read_packet(asked.from, packet)? {
        if record.body[0] == SYMBOL_UPDATE {
            updates.push((body_at + BYTE_20, asked.byte_20(record.body)));
        }
        body_at += record.body.len() + HEADER_BYTES;
    }
    for (at, byte) in &updates {
        packet[*at] = *byte;
    }
    Ok(updates.len() as u64)
}

/// What came of a piece.
#[derive(Clone, Copy, Debug, Default, PartialEq, Eq)]
pub struct Counts {
    /// "how many bytes those packets have with their lengths, so that the caller hands on as many"
    pub bytes: u64,
    /// Symbol Updates of packets that were rewritten.
    pub updates: u64,
    /// Packets passed on unread.
    pub unread: u64,
    pub barred: u64,
}

impl Counts {
    pub fn add(&mut self, other: &Counts) {
        self.bytes += other.bytes;
        self.updates += other.updates;
        self.unread += other.unread;
        self.barred += other.barred;
    }
}

/// "A piece's whole packets, from its front, are taken one by one, of any length up to 65,535; what follows the last
/// whole packet stays as it is, and so do the two length bytes of each packet." Refused for what is asked for alone.
pub fn convert_piece(asked: &Asked, piece: &mut [u8]) -> Result<Counts, u8> {
    asked.judged()?;
    let mut counts = Counts::default();
    let mut start = 0;
    while let Some(end) = end_of_packet(piece, start) {
        convert_one(asked, &mut piece[start + LENGTH_BYTES..end], &mut counts);
        start = end;
    }
    counts.bytes = start as u64;
    Ok(counts)
}

/// Where the packet ends whose length starts here, if all of it is there.
fn end_of_packet(piece: &[u8], start: usize) -> Option<usize> {
    let length = piece.get(start..start + LENGTH_BYTES)?;
    let end = start + LENGTH_BYTES + little(length) as usize;
    (end <= piece.len()).then_some(end)
}

/// Each packet of a recording is "rewritten, where the reader of `from` takes it"; "else passed on unread, where the
/// reader of `to` refuses it too: as it is, and counted; else barred, and counted: the byte behind the one at fault is
/// made 0."
fn convert_one(asked: &Asked, packet: &mut [u8], counts: &mut Counts) {
    let refusal = match rewrite(asked, packet) {
        Ok(updates) => {
            counts.updates += updates;
            return;
        }
        Err(refusal) => refusal,
    };
    if read_packet(asked.to, packet).is_err() {
        counts.unread += 1;
        return;
    }
    // "a Symbol Update without a letter in byte 20 is refused by 1.3 with 4, at that byte, and 1.3.b takes it": nothing
    // else is taken by one edition alone, and 21 more bytes of that body lie behind it.
    let at = refusal.offset.expect("4 has an offset");
    packet[at + 1] = 0;
    counts.barred += 1;
}

/// A whole recording, as a caller with memory of 65,537 bytes converts it. "A piece that ends inside a length or a
/// packet, at the end of a recording, is handed on as it is: a recording that is cut stays cut." The bytes counted are
/// those of whole packets.
pub fn convert_recording(asked: &Asked, recording: &mut [u8]) -> Result<Counts, u8> {
    let mut counts = Counts::default();
    loop {
        let start = counts.bytes as usize;
        let end = recording.len().min(start + ALWAYS_A_PACKET);
        let done = convert_piece(asked, &mut recording[start..end])?;
        counts.add(&done);
        if done.bytes == 0 {
            return Ok(counts);
        }
    }
}

/// The words of the command: what is asked for, and the file that is named, if one is.
#[derive(Clone, Debug, PartialEq, Eq)]
pub struct Words {
    pub asked: Asked,
    pub file: Option<OsString>,
}

/// What a word behind `--type` says.
enum Typed {
    /// "with a letter is the type of all symbols"
    All(u8),
    /// "with a name, `=` and a letter is an exception"
    One([u8; EXCEPTION_BYTES]),
}

impl Words {
    /// The words in any order, or what is wrong with them.
    pub fn read(words: &[OsString]) -> Result<Words, String> {
        let (mut to, mut from, mut kind, mut file) = (None, None, None, None);
        let mut exceptions: Vec<[u8; EXCEPTION_BYTES]> = Vec::new();
        let mut typed = false;
        let mut left = words.iter();
        while let Some(word) = left.next() {
            match word.to_str() {
                Some("--to") => once(&mut to, edition(left.next())?, "edition behind --to")?,
                Some("--edition") => {
                    once(&mut from, edition(left.next())?, "edition behind --edition")?
                }
                Some("--type") => {
                    typed = true;
                    match type_word(left.next())? {
                        Typed::All(letter) => once(&mut kind, letter, "type of all symbols")?,
                        Typed::One(exception) => add_exception(&mut exceptions, exception)?,
                    }
                }
                _ if word.is_empty() || word.as_encoded_bytes().starts_with(b"-") => {
                    return Err(format!("unknown word {word:?}"));
                }
                _ => once(&mut file, word.clone(), "name of a recording")?,
            }
        }
        let to = to.ok_or("no edition is wanted: --to 1.3, 1.3.a or 1.3.b")?;
        // "For 1.3, `--type` with a letter .. must be there once"; a wrong word are "types for 1.3.b".
        let kind = match (to.has_security_type(), typed) {
            (true, _) => kind.ok_or("no type of all symbols: --type E or --type F")?,
            (false, true) => return Err("types are of 1.3 alone".to_string()),
            (false, false) => 0,
        };
        Ok(Words {
            asked: Asked {
                // "`--edition` names the edition of the recording, the other one where it is not named."
                from: from.unwrap_or(to.other()),
                to,
                kind,
                others: exceptions.concat(),
            },
            file,
        })
    }
}

/// What may be told once.
fn once<T>(place: &mut Option<T>, value: T, what: &str) -> Result<(), String> {
    match place.replace(value) {
        None => Ok(()),
        Some(_) => Err(format!("one {what}, and not two")),
    }
}

/// "`--to` names the edition that is wanted: 1.3, 1.3.a or 1.3.b."
fn edition(word: Option<&OsString>) -> Result<Edition, String> {
    let name = word.map_or("".into(), |word| word.to_string_lossy());
    Edition::named(&name).ok_or(format!("no edition {name:?}: it is 1.3, 1.3.a or 1.3.b"))
}

/// A letter, or a name, `=` and a letter. A ticker may have a `=` of its own, so that the last one counts.
fn type_word(word: Option<&OsString>) -> Result<Typed, String> {
    let word = word.map_or("".into(), |word| word.to_string_lossy());
    let (name, letter) = match word.rsplit_once('=') {
        None => (None, &*word),
        Some((name, letter)) => (Some(name), letter),
    };
    let letter = match letter {
        "E" => b'E',
        "F" => b'F',
        _ => {
            return Err(format!(
                "no type {word:?}: it is E or F, or NAME=E or NAME=F"
            ))
        }
    };
    match name {
        None => Ok(Typed::All(letter)),
        Some(name) => exception(name, letter).map(Typed::One),
    }
}

/// "A name has 1 to 11 bytes from 33 to 126. A name of digits alone is a symbol ID, from 0 to 4294967295; any other is a
/// ticker, with spaces behind it in the recording."
fn exception(name: &str, letter: u8) -> Result<[u8; EXCEPTION_BYTES], String> {
    let bytes = name.as_bytes();
    if !(1..=11).contains(&bytes.len()) || !bytes.iter().all(|byte| (33..=126).contains(byte)) {
        return Err(format!("no name {name:?}: 1 to 11 bytes from 33 to 126"));
    }
    if bytes.iter().all(u8::is_ascii_digit) {
        return match name.parse() {
            Ok(symbol) => Ok(by_id(symbol, letter)),
            Err(_) => Err(format!("no symbol ID {name}: the largest is 4294967295")),
        };
    }
    let mut ticker = [b' '; 11];
    ticker[..bytes.len()].copy_from_slice(bytes);
    Ok(by_ticker(&ticker, letter))
}

/// "the same name twice is a wrong word, and so are more than 1,000 exceptions"
fn add_exception(
    exceptions: &mut Vec<[u8; EXCEPTION_BYTES]>,
    exception: [u8; EXCEPTION_BYTES],
) -> Result<(), String> {
    let name = &exception[..TYPE_OF_EXCEPTION];
    if exceptions.iter().any(|known| known.starts_with(name)) {
        return Err("a name that has a type already".to_string());
    }
    if exceptions.len() == MOST_EXCEPTIONS {
        return Err(format!("more than {MOST_EXCEPTIONS} exceptions"));
    }
    exceptions.push(exception);
    Ok(())
}
