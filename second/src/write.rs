//! Writing recordings (request 4, docs/WRITE.md): a message from its fields, a record behind a packet so far, and a
//! packet behind a recording so far, in lent memory. A refusal writes nothing.

use crate::edition::Edition;
use crate::packet::*;

/// Where the text has byte 20 of a Symbol Update, where that byte is reserved.
pub const TEXT_BYTE_20: usize = 27;

/// "A message as eight numbers and 28 bytes": its type, its numbers and zeros; "what is no number, then zeros".
#[derive(Clone, Copy, Debug, Default, PartialEq, Eq)]
pub struct Fields {
    pub numbers: [u64; 8],
    pub text: [u8; 28],
}

/// A field of a body, by where it stands among a message's numbers or in its text.
#[derive(Clone, Copy, Debug, PartialEq, Eq)]
pub enum Part {
    /// The number at this place, in so many bytes.
    Number(usize, usize),
    /// The text from this place on, so many bytes.
    Text(usize, usize),
}

/// The fields of a message behind its type byte, in the order and the widths of docs/MESSAGES.md. There are none of a
/// type that is no message's.
pub fn parts(edition: Edition, kind: u8) -> Vec<Part> {
    use Part::{Number, Text};
    // "in 1.3 the Security Type (byte 20; 0 in 1.3.b)" among the numbers, "and at 27 byte 20 where it is reserved"
    let byte_20 = match edition.has_security_type() {
        true => Number(4, 1),
        false => Text(TEXT_BYTE_20, 1),
    };
    let (nanoseconds, symbol) = (Number(1, 4), Number(2, 4));
    match kind {
        SYSTEM_TIME => vec![Number(1, 4)],
        SYMBOL_UPDATE => vec![
            Number(5, 4), // nanoseconds
            Number(1, 4), // symbol
            Text(0, 11),  // ticker
            byte_20,
            Number(6, 1), // test indicator
            Number(7, 1), // byte 22
            Number(2, 2), // lot
            Text(11, 8),  // opening
            Text(19, 8),  // closing
            Number(3, 1), // market
        ],
        // version, session, status
        SYSTEM_STATE => vec![nanoseconds, Text(0, 8), Number(2, 1), Number(3, 1)],
        // trading status, market, short sale restriction
        TRADING_STATUS => vec![
            nanoseconds,
            symbol,
            Number(3, 1),
            Number(4, 1),
            Number(5, 1),
        ],
        SYMBOL_CLEAR => vec![nanoseconds, symbol],
        ADD_ORDER => vec![
            nanoseconds,
            symbol,
            Number(3, 8), // order
            Number(4, 1), // side
            Number(5, 8), // price
            Number(6, 4), // size
            Number(7, 4), // attributable ID
        ],
        MODIFY_ORDER => vec![
            nanoseconds,
            symbol,
            Number(3, 8), // order
            Number(4, 8), // price
            Number(5, 4), // size
            Number(6, 1), // flags
        ],
        // order
        DELETE_ORDER => vec![nanoseconds, symbol, Number(3, 8)],
        ORDER_EXECUTION => vec![
            nanoseconds,
            symbol,
            Number(3, 8), // order
            Number(4, 8), // trade
            Number(5, 8), // price
            Number(6, 4), // size
            Number(7, 1), // flags
        ],
        TRADE => vec![
            nanoseconds,
            symbol,
            Number(3, 8), // trade
            Number(4, 1), // correction
            Number(5, 8), // price
            Number(6, 4), // size
            Number(7, 1), // flags
        ],
        TRADE_CANCEL => vec![
            nanoseconds,
            symbol,
            Number(3, 8), // trade
            Number(4, 1), // correction
            Number(5, 8), // price
            Number(6, 4), // size
        ],
        _ => vec![],
    }
}

impl Fields {
    /// "Reading fills all eight numbers and all 28 bytes."
    pub fn of(message: &Message) -> Fields {
        let mut fields = Fields::default();
        let numbers = match message {
            // Its numbers do not stand in the order of the body.
            Message::SymbolUpdate(update) => vec![
                SYMBOL_UPDATE.into(),
                update.symbol.into(),
                update.lot.into(),
                update.market.into(),
                update.security_type.unwrap_or(0).into(),
                update.nanoseconds.into(),
                update.test.into(),
                update.reserved22.into(),
            ],
            other => other.numbers(),
        };
        fields.numbers[..numbers.len()].copy_from_slice(&numbers);
        match message {
            Message::SymbolUpdate(update) => {
                fields.text[..11].copy_from_slice(&update.ticker);
                fields.text[11..19].copy_from_slice(&update.opening);
                fields.text[19..27].copy_from_slice(&update.closing);
                fields.text[TEXT_BYTE_20] = update.reserved20.unwrap_or(0);
            }
            Message::SystemState { version, .. } => fields.text[..8].copy_from_slice(version),
            _ => {}
        }
        fields
    }

    /// A body, refused with 3 or 4 as the reader of the edition refuses it, or its fields.
    pub fn read(edition: Edition, body: &[u8]) -> Result<Fields, Refusal> {
        read_body(edition, body).map(|message| Fields::of(&message))
    }

    /// "a first number that is no message's type" is none.
    pub fn kind(&self) -> Option<u8> {
        let kind = u8::try_from(self.numbers[0]).ok()?;
        length_of_type(kind).map(|_| kind)
    }

    /// A body, refused with 3 or 4: "The ranges are those of reading, in the edition that is given".
    pub fn body(&self, edition: Edition) -> Result<Vec<u8>, u8> {
        let body = self.laid_out(edition)?;
        read_body(edition, &body).map_err(|refusal| refusal.number)?;
        Ok(body)
    }

    /// "its type byte, then every field in its own width, numbers little-endian", in their ranges or not. "A number that
    /// its field cannot hold (a side of 300, a lot of 65,536) is refused with 4, and a first number that is no message's
    /// type with 3."
    pub fn laid_out(&self, edition: Edition) -> Result<Vec<u8>, u8> {
        let kind = self.kind().ok_or(3)?;
        let mut body = vec![kind];
        for part in parts(edition, kind) {
            match part {
                Part::Number(place, bytes) => {
                    let number = self.numbers[place].to_le_bytes();
                    if number[bytes..].iter().any(|byte| *byte != 0) {
                        return Err(4);
                    }
                    body.extend_from_slice(&number[..bytes]);
                }
                Part::Text(at, bytes) => body.extend_from_slice(&self.text[at..at + bytes]),
            }
        }
        Ok(body)
    }

    /// What reading gives back of these, if they can be written: "Writing looks only at those that the message has in
    /// the edition", and all else is read as 0.
    pub fn kept(&self, edition: Edition) -> Fields {
        let mut kept = Fields::default();
        kept.numbers[0] = self.numbers[0];
        for part in self.kind().map_or(vec![], |kind| parts(edition, kind)) {
            match part {
                Part::Number(place, _) => kept.numbers[place] = self.numbers[place],
                Part::Text(at, bytes) => {
                    kept.text[at..at + bytes].copy_from_slice(&self.text[at..at + bytes]);
                }
            }
        }
        kept
    }
}

/// A record from a number and a message's fields, behind the packet so far, which is the first `used` bytes of the
/// memory: the packet's new length. Refused by 32, by the packet so far, and then by 5, 3, 4, 1, 32.
pub fn append(
    edition: Edition,
    memory: &mut [u8],
    used: usize,
    number: u64,
    fields: &Fields,
) -> Result<usize, Refusal> {
    judge_so_far(edition, memory, used)?;
    judge_number(number)?;
    let body = fields.body(edition).map_err(Refusal::alone)?;
    put_record(memory, used, number, &body)
}

/// The same of a message that is given as the bytes of its body.
pub fn append_body(
    edition: Edition,
    memory: &mut [u8],
    used: usize,
    number: u64,
    body: &[u8],
) -> Result<usize, Refusal> {
    judge_so_far(edition, memory, used)?;
    judge_number(number)?;
    read_body(edition, body).map_err(|refusal| Refusal::alone(refusal.number))?;
    put_record(memory, used, number, body)
}

/// "a packet so far, which is empty or else first refused as reading refuses it; a length so far beyond the memory is 32
/// before all else."
fn judge_so_far(edition: Edition, memory: &[u8], used: usize) -> Result<(), Refusal> {
    if used > memory.len() {
        return Err(Refusal::alone(32));
    }
    if used > 0 {
        read_packet(edition, &memory[..used])?;
    }
    Ok(())
}

/// 5: "the sequence number is 0 or above 10^12"
fn judge_number(number: u64) -> Result<(), Refusal> {
    match number {
        1..=LAST_NUMBER => Ok(()),
        _ => Err(Refusal::alone(5)),
    }
}

/// "The number, the body's length and the body are written behind the packet so far, and the answer is the packet's new
/// length. Bytes behind the record stay as they were." 1 and 32 come last.
fn put_record(memory: &mut [u8], used: usize, number: u64, body: &[u8]) -> Result<usize, Refusal> {
    let length = used + HEADER_BYTES + body.len();
    if length > MOST_PACKET_BYTES {
        return Err(Refusal::alone(1));
    }
    let mut record = number.to_le_bytes().to_vec();
    record.extend_from_slice(&(body.len() as u16).to_le_bytes());
    record.extend_from_slice(body);
    put(memory, used, &record)
}

/// A packet, behind its length, behind the recording so far, which is "not looked at": the recording's new length.
/// Refused by 32, by the packet (1; 2, 5, 3, 4), and then by 32.
pub fn append_packet(
    edition: Edition,
    memory: &mut [u8],
    used: usize,
    packet: &[u8],
) -> Result<usize, Refusal> {
    if used > memory.len() {
        return Err(Refusal::alone(32));
    }
    read_packet(edition, packet)?;
    let mut bytes = (packet.len() as u16).to_le_bytes().to_vec();
    bytes.extend_from_slice(packet);
    put(memory, used, &bytes)
}

/// Bytes behind what is used, or 32 where they do not fit: where they end.
fn put(memory: &mut [u8], used: usize, bytes: &[u8]) -> Result<usize, Refusal> {
    let end = used + bytes.len();
    match memory.get_mut(used..end) {
        None => Err(Refusal::alone(32)),
        Some(place) => {
            place.copy_from_slice(bytes);
            Ok(end)
        }
    }
}
