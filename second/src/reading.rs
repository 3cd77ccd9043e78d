//! A packet as `read` prints it: the fields of its records, or its refusal with the record, the message and
//! the field at fault, by the names of docs/MESSAGES.md. `tools/vectors.py` states the same text.

use crate::edition::{Edition, BYTE_20};
use crate::packet::*;

/// A field by its message's type, the offset of its first byte, and its name.
pub type JudgedField = (u8, usize, &'static str);

const SECURITY_TYPE: JudgedField = (SYMBOL_UPDATE, BYTE_20, "security type");

/// "Which fields are judged" of docs/MESSAGES.md: type, offset of the first byte, name. `packet` has the
/// ranges and offsets that decide; this is to show faults by, and to make them. The security type is judged
/// in 1.3 alone (request 10).
pub const JUDGED_FIELDS: [JudgedField; 24] = [
    (SYMBOL_UPDATE, 1, "nanoseconds"),
    SECURITY_TYPE,
    (SYMBOL_UPDATE, 21, "test indicator"),
    (SYMBOL_UPDATE, 41, "market"),
    (SYSTEM_STATE, 1, "nanoseconds"),
    (TRADING_STATUS, 1, "nanoseconds"),
    (SYMBOL_CLEAR, 1, "nanoseconds"),
    (ADD_ORDER, 1, "nanoseconds"),
    (ADD_ORDER, 17, "side"),
    (ADD_ORDER, 18, "price"),
    (ADD_ORDER, 26, "size"),
    (MODIFY_ORDER, 1, "nanoseconds"),
    (MODIFY_ORDER, 17, "price"),
    (MODIFY_ORDER, 25, "size"),
    (DELETE_ORDER, 1, "nanoseconds"),
    (ORDER_EXECUTION, 1, "nanoseconds"),
    (ORDER_EXECUTION, 25, "price"),
    (ORDER_EXECUTION, 33, "size"),
    (TRADE, 1, "nanoseconds"),
    (TRADE, 18, "price"),
    (TRADE, 26, "size"),
    (TRADE_CANCEL, 1, "nanoseconds"),
    (TRADE_CANCEL, 18, "price"),
    (TRADE_CANCEL, 26, "size"),
];

/// Those that an edition judges.
pub fn judged_fields(edition: Edition) -> Vec<JudgedField> {
    let judges = |field: &JudgedField| *field != SECURITY_TYPE || edition.has_security_type();
    JUDGED_FIELDS.into_iter().filter(judges).collect()
}

/// The name of a message by its type.
pub fn message_name(kind: u8) -> &'static str {
    match kind {
        SYSTEM_TIME => "System Time",
        SYMBOL_UPDATE => "Symbol Update",
        SYSTEM_STATE => "System State",
        TRADING_STATUS => "Security Trading Status",
        SYMBOL_CLEAR => "Symbol Clear",
        ADD_ORDER => "Add Order",
        MODIFY_ORDER => "Modify Order",
        DELETE_ORDER => "Delete Order",
        ORDER_EXECUTION => "Order Execution",
        TRADE => "Trade",
        TRADE_CANCEL => "Trade Cancel",
        _ => panic!("there is no type {kind}"),
    }
}

/// What is wrong with the record that its packet is refused for.
#[derive(Clone, Copy, Debug, PartialEq, Eq)]
pub enum Fault {
    /// 2
    UnfinishedHeader,
    /// 2
    BodyPastTheEnd,
    /// 5
    SequenceNumber,
    /// 3
    EmptyBody,
    /// 3
    UnknownType,
    /// 3, of this type
    WrongLength(u8),
    /// 4, by its place in `JUDGED_FIELDS`
    Field(usize),
}

impl Fault {
    /// The fault behind a record's refusal: what is left of the packet from that record on tells which.
    fn of(refusal: Refusal, rest: &[u8]) -> Fault {
        match refusal.number {
            2 if rest.len() < HEADER_BYTES => Fault::UnfinishedHeader,
            2 => Fault::BodyPastTheEnd,
            5 => Fault::SequenceNumber,
            3 if rest[8..10] == [0, 0] => Fault::EmptyBody,
            3 if length_of_type(rest[HEADER_BYTES]).is_none() => Fault::UnknownType,
            3 => Fault::WrongLength(rest[HEADER_BYTES]),
            _ => {
                let told = |(kind, at, _): &(u8, usize, &str)| {
                    *kind == rest[HEADER_BYTES] && Some(HEADER_BYTES + at) == refusal.offset
                };
                let place = JUDGED_FIELDS.iter().position(told);
                Fault::Field(place.expect("4 is told of a judged field"))
            }
        }
    }

    fn words(self) -> String {
        match self {
            Fault::UnfinishedHeader => "unfinished header".to_string(),
            Fault::BodyPastTheEnd => "body past the end".to_string(),
            Fault::SequenceNumber => "sequence number".to_string(),
            Fault::EmptyBody => "empty body".to_string(),
            Fault::UnknownType => "unknown type".to_string(),
            Fault::WrongLength(kind) => format!("{}, wrong length", message_name(kind)),
            Fault::Field(place) => {
                let (kind, _, field) = JUDGED_FIELDS[place];
                format!("{}, {field}", message_name(kind))
            }
        }
    }
}

/// The first bad record of a packet: its place, counted from 1, the bytes from its start on, and its fault.
/// None where all are good; the length of the packet (1) is not looked at.
pub fn first_fault(edition: Edition, packet: &[u8]) -> Option<(usize, &[u8], Fault)> {
    let (mut rest, mut count) = (packet, 1);
    while !rest.is_empty() {
        match read_record(edition, rest) {
            Err(refusal) => return Some((count, rest, Fault::of(refusal, rest))),
            Ok(record) => rest = &rest[HEADER_BYTES + record.body.len()..],
        }
        count += 1;
    }
    None
}

/// The lines of a packet: `records K` and each record's number, type and fields; or one line of its refusal,
/// as `refused 1` or `refused 4 at 28: record 1, Add Order, price`.
pub fn lines_of_packet(edition: Edition, packet: &[u8]) -> String {
    match read_packet(edition, packet) {
        Err(refusal) => refused_line(edition, packet, refusal),
        Ok(records) => {
            let mut text = format!("records {}\n", records.len());
            for record in records {
                let mut words = vec![record.number.to_string()];
                for field in printed_fields(&record.message) {
                    words.push(field.to_string());
                }
                text.push_str(&words.join(" "));
                text.push('\n');
            }
            text
        }
    }
}

fn refused_line(edition: Edition, packet: &[u8], refusal: Refusal) -> String {
    refused(edition, packet, refusal) + "\n"
}

/// A refused packet as a text of a morning tells it, behind the packet's place: `refused 1`, or
/// `refused 4 at 28: record 1, Add Order, price`.
pub fn refused(edition: Edition, packet: &[u8], refusal: Refusal) -> String {
    match first_fault(edition, packet) {
        Some((record, _, fault)) if refusal.offset.is_some() => {
            format!("refused {refusal}: record {record}, {}", fault.words())
        }
        _ => format!("refused {refusal}"),
    }
}

/// The type and the fields of a message as they are printed, in the order of their places: its numbers, and the
/// letters of the two that have some, byte by byte.
fn printed_fields(message: &Message) -> Vec<u64> {
    let spell = |bytes: &[u8]| bytes.iter().map(|byte| *byte as u64).collect::<Vec<u64>>();
    let numbers = message.numbers();
    match *message {
        Message::SymbolUpdate(update) => [
            numbers[..2].to_vec(),
            spell(&update.ticker),
            update.security_type.into_iter().map(u64::from).collect(),
            numbers[2..3].to_vec(),
            spell(&update.opening),
            spell(&update.closing),
            numbers[3..4].to_vec(),
        ]
        .concat(),
        Message::SystemState { version, .. } => [
            numbers[..2].to_vec(),
            spell(&version),
            numbers[2..].to_vec(),
        ]
        .concat(),
        _ => numbers,
    }
}
