//! The proved library, called through its C boundary (`include/rimeheath.h`).
//!
//! `lent` has its sixteen calls as they are, over memory that the caller lends; `Proved` is a receiver
//! with tables of its own, and answers in Rust's forms. All unsafe code of this crate is in `lent`.

use crate::convert::{self, Asked};
use crate::edition::Edition;
use crate::index::INDEX_NUMBERS;
use crate::packet::{Refusal, Side};
use crate::receiver::{Answer, SHELF_BYTES};
use crate::tables::{ENTRY_BYTES, ROW_NUMBERS};
use crate::write::Fields;

/// Enough for any sheet ("1,500,000 bytes always hold it whole").
pub const SHEET_BYTES: usize = 1_500_000;

/// The sixteen calls. Each answers 0 or the number of a refusal, but for `cut`, which answers whether it
/// is so, and takes any lengths and any bytes. The four that read packets, records and bodies, the one that
/// converts a packet and the two that write answer 32 bits: the offset of a refusal stands above its number
/// (`taken_apart`).
///
/// What the header asks of its callers beyond the types of C holds for all of them by Rust's types:
/// a slice's pointer is never null and points to as many elements as its length says, an array
/// reference to as many as its type says, and a `&mut` overlaps nothing else that is lent.
pub mod lent {
    use std::ffi::c_uchar;

    /// Next, second, stop, and the edition's number: 1 is 1.3, and any other 1.3.a and 1.3.b.
    pub type State = [u64; 4];
    /// The state's four; bytes held, bytes to pass over, bad packets; records by 10 to 14; number and offset
    /// of the last refused packet.
    pub type Stream = [u64; 14];

    extern "C" {
        fn rimeheath_start(
            edition: u64,
            orders: *mut u64,
            orders_len: usize,
            symbols: *mut c_uchar,
            symbols_len: usize,
            shelf: *mut c_uchar,
            shelf_len: usize,
            index: *mut u64,
            index_len: usize,
            state: *mut State,
        ) -> u8;
        fn rimeheath_receive(
            orders: *mut u64,
            orders_len: usize,
            symbols: *mut c_uchar,
            symbols_len: usize,
            shelf: *mut c_uchar,
            shelf_len: usize,
            index: *mut u64,
            index_len: usize,
            state: *mut State,
            packet: *const c_uchar,
            packet_len: usize,
            account: *mut [u64; 9],
        ) -> u32;
        fn rimeheath_ladder(
            orders: *const u64,
            orders_len: usize,
            symbols: *const c_uchar,
            symbols_len: usize,
            symbol: u32,
            sell: bool,
            run: *mut u64,
            run_len: usize,
            levels: *mut [u64; 1],
        ) -> u8;
        fn rimeheath_spread(
            orders: *const u64,
            orders_len: usize,
            symbols: *const c_uchar,
            symbols_len: usize,
            symbol: u32,
            answer: *mut [u64; 2],
        ) -> u8;
        fn rimeheath_counts(
            orders: *const u64,
            orders_len: usize,
            symbols: *const c_uchar,
            symbols_len: usize,
            counts: *mut [u64; 2],
        ) -> u8;
        fn rimeheath_packet(
            edition: u64,
            packet: *const c_uchar,
            packet_len: usize,
            records: *mut [u64; 1],
        ) -> u32;
        fn rimeheath_record(
            edition: u64,
            rest: *const c_uchar,
            rest_len: usize,
            head: *mut [u64; 2],
        ) -> u32;
        fn rimeheath_body(
            edition: u64,
            body: *const c_uchar,
            body_len: usize,
            fields: *mut [u64; 8],
            text: *mut [c_uchar; 28],
        ) -> u32;
        fn rimeheath_append(
            edition: u64,
            memory: *mut c_uchar,
            memory_len: usize,
            used: usize,
            number: u64,
            fields: *const [u64; 8],
            text: *const [c_uchar; 28],
            length: *mut [u64; 1],
        ) -> u32;
        fn rimeheath_append_packet(
            edition: u64,
            memory: *mut c_uchar,
            memory_len: usize,
            used: usize,
            packet: *const c_uchar,
            packet_len: usize,
            length: *mut [u64; 1],
        ) -> u32;
        fn rimeheath_sheet(
            text: *mut c_uchar,
            text_len: usize,
            orders: *const u64,
            orders_len: usize,
            symbols: *const c_uchar,
            symbols_len: usize,
            state: *const State,
            bad: u64,
            cut: bool,
            length: *mut [u64; 1],
        ) -> u8;
        fn rimeheath_open(state: *const State, stream: *mut Stream) -> u8;
        fn rimeheath_feed(
            orders: *mut u64,
            orders_len: usize,
            symbols: *mut c_uchar,
            symbols_len: usize,
            shelf: *mut c_uchar,
            shelf_len: usize,
            index: *mut u64,
            index_len: usize,
            hold: *mut c_uchar,
            hold_len: usize,
            stream: *mut Stream,
            chunk: *const c_uchar,
            chunk_len: usize,
        ) -> u8;
        fn rimeheath_cut(stream: *const Stream) -> bool;
        fn rimeheath_convert(
            from: u64,
            to: u64,
            kind: c_uchar,
            others: *const c_uchar,
            others_len: usize,
            packet: *mut c_uchar,
            packet_len: usize,
            updates: *mut [u64; 1],
        ) -> u32;
        fn rimeheath_convert_piece(
            from: u64,
            to: u64,
            kind: c_uchar,
            others: *const c_uchar,
            others_len: usize,
            piece: *mut c_uchar,
            piece_len: usize,
            counts: *mut [u64; 4],
        ) -> u8;
    }

    pub fn start(
        edition: u64,
        orders: &mut [u64],
        symbols: &mut [u8],
        shelf: &mut [u8],
        index: &mut [u64],
        state: &mut State,
    ) -> u8 {
        // SAFETY: each pointer comes with its own slice's length, and the five `&mut` are apart.
        unsafe {
            rimeheath_start(
                edition,
                orders.as_mut_ptr(),
                orders.len(),
                symbols.as_mut_ptr(),
                symbols.len(),
                shelf.as_mut_ptr(),
                shelf.len(),
                index.as_mut_ptr(),
                index.len(),
                state,
            )
        }
    }

    pub fn receive(
        orders: &mut [u64],
        symbols: &mut [u8],
        shelf: &mut [u8],
        index: &mut [u64],
        state: &mut State,
        packet: &[u8],
        account: &mut [u64; 9],
    ) -> u32 {
        // SAFETY: each pointer comes with its own slice's length; the six `&mut` are apart from
        // each other and from the packet, which is only read.
        unsafe {
            rimeheath_receive(
                orders.as_mut_ptr(),
                orders.len(),
                symbols.as_mut_ptr(),
                symbols.len(),
                shelf.as_mut_ptr(),
                shelf.len(),
                index.as_mut_ptr(),
                index.len(),
                state,
                packet.as_ptr(),
                packet.len(),
                account,
            )
        }
    }

    pub fn ladder(
        orders: &[u64],
        symbols: &[u8],
        symbol: u32,
        sell: bool,
        run: &mut [u64],
        levels: &mut [u64; 1],
    ) -> u8 {
        // SAFETY: each pointer comes with its own slice's length; the tables are only read, and the
        // two `&mut` are apart from them and from each other.
        unsafe {
            rimeheath_ladder(
                orders.as_ptr(),
                orders.len(),
                symbols.as_ptr(),
                symbols.len(),
                symbol,
                sell,
                run.as_mut_ptr(),
                run.len(),
                levels,
            )
        }
    }

    pub fn spread(orders: &[u64], symbols: &[u8], symbol: u32, answer: &mut [u64; 2]) -> u8 {
        // SAFETY: each pointer comes with its own slice's length; the tables are only read, and the
        // `&mut` is apart from them.
        unsafe {
            rimeheath_spread(
                orders.as_ptr(),
                orders.len(),
                symbols.as_ptr(),
                symbols.len(),
                symbol,
                answer,
            )
        }
    }

    pub fn counts(orders: &[u64], symbols: &[u8], counts: &mut [u64; 2]) -> u8 {
        // SAFETY: each pointer comes with its own slice's length; the tables are only read, and the
        // `&mut` is apart from them.
        unsafe {
            rimeheath_counts(
                orders.as_ptr(),
                orders.len(),
                symbols.as_ptr(),
                symbols.len(),
                counts,
            )
        }
    }

    pub fn packet(edition: u64, packet: &[u8], records: &mut [u64; 1]) -> u32 {
        // SAFETY: the pointer comes with its slice's length and is only read; the `&mut` is apart.
        unsafe { rimeheath_packet(edition, packet.as_ptr(), packet.len(), records) }
    }

    pub fn record(edition: u64, rest: &[u8], head: &mut [u64; 2]) -> u32 {
        // SAFETY: the pointer comes with its slice's length and is only read; the `&mut` is apart.
        unsafe { rimeheath_record(edition, rest.as_ptr(), rest.len(), head) }
    }

    pub fn body(edition: u64, body: &[u8], fields: &mut [u64; 8], text: &mut [u8; 28]) -> u32 {
        // SAFETY: the pointer comes with its slice's length and is only read; the two `&mut` are apart
        // from it and from each other.
        unsafe { rimeheath_body(edition, body.as_ptr(), body.len(), fields, text) }
    }

    pub fn append(
        edition: u64,
        memory: &mut [u8],
        used: usize,
        number: u64,
        fields: &[u64; 8],
        text: &[u8; 28],
        length: &mut [u64; 1],
    ) -> u32 {
        // SAFETY: the memory's pointer comes with its slice's length, beyond which `used` may be; numbers
        // and text are only read, and the two `&mut` are apart from them and from each other.
        unsafe {
            rimeheath_append(
                edition,
                memory.as_mut_ptr(),
                memory.len(),
                used,
                number,
                fields,
                text,
                length,
            )
        }
    }

    pub fn append_packet(
        edition: u64,
        memory: &mut [u8],
        used: usize,
        packet: &[u8],
        length: &mut [u64; 1],
    ) -> u32 {
        // SAFETY: each pointer comes with its own slice's length, beyond which `used` may be; the packet is
        // only read, and the two `&mut` are apart from it and from each other.
        unsafe {
            rimeheath_append_packet(
                edition,
                memory.as_mut_ptr(),
                memory.len(),
                used,
                packet.as_ptr(),
                packet.len(),
                length,
            )
        }
    }

    pub fn sheet(
        text: &mut [u8],
        orders: &[u64],
        symbols: &[u8],
        state: &State,
        bad: u64,
        cut: bool,
        length: &mut [u64; 1],
    ) -> u8 {
        // SAFETY: each pointer comes with its own slice's length; tables and state are only read,
        // and the two `&mut` are apart from them and from each other.
        unsafe {
            rimeheath_sheet(
                text.as_mut_ptr(),
                text.len(),
                orders.as_ptr(),
                orders.len(),
                symbols.as_ptr(),
                symbols.len(),
                state,
                bad,
                cut,
                length,
            )
        }
    }

    pub fn open(state: &State, stream: &mut Stream) -> u8 {
        // SAFETY: the state is only read; the `&mut` is apart from it.
        unsafe { rimeheath_open(state, stream) }
    }

    pub fn feed(
        orders: &mut [u64],
        symbols: &mut [u8],
        shelf: &mut [u8],
        index: &mut [u64],
        hold: &mut [u8],
        stream: &mut Stream,
        chunk: &[u8],
    ) -> u8 {
        // SAFETY: each pointer comes with its own slice's length; the six `&mut` are apart from
        // each other and from the chunk, which is only read.
        unsafe {
            rimeheath_feed(
                orders.as_mut_ptr(),
                orders.len(),
                symbols.as_mut_ptr(),
                symbols.len(),
                shelf.as_mut_ptr(),
                shelf.len(),
                index.as_mut_ptr(),
                index.len(),
                hold.as_mut_ptr(),
                hold.len(),
                stream,
                chunk.as_ptr(),
                chunk.len(),
            )
        }
    }

    pub fn cut(stream: &Stream) -> bool {
        // SAFETY: the stream is only read.
        unsafe { rimeheath_cut(stream) }
    }

    pub fn convert(
        from: u64,
        to: u64,
        kind: u8,
        others: &[u8],
        packet: &mut [u8],
        updates: &mut [u64; 1],
    ) -> u32 {
        // SAFETY: each pointer comes with its own slice's length; the exceptions are only read, and
        // the two `&mut` are apart from them and from each other.
        unsafe {
            rimeheath_convert(
                from,
                to,
                kind,
                others.as_ptr(),
                others.len(),
                packet.as_mut_ptr(),
                packet.len(),
                updates,
            )
        }
    }

    pub fn convert_piece(
        from: u64,
        to: u64,
        kind: u8,
        others: &[u8],
        piece: &mut [u8],
        counts: &mut [u64; 4],
    ) -> u8 {
        // SAFETY: each pointer comes with its own slice's length; the exceptions are only read, and
        // the two `&mut` are apart from them and from each other.
        unsafe {
            rimeheath_convert_piece(
                from,
                to,
                kind,
                others.as_ptr(),
                others.len(),
                piece.as_mut_ptr(),
                piece.len(),
                counts,
            )
        }
    }
}

/// The number and the offset of a 32-bit answer: "answer = number + 256 * offset".
pub fn taken_apart(answer: u32) -> (u8, usize) {
    ((answer % 256) as u8, (answer / 256) as usize)
}

/// An answer of 8 or 32 bits; 0 is no refusal. The offset belongs to 2 to 5. Beside any other number it must
/// be 0, and it is told where it is not.
fn refused(answer: impl Into<u32>) -> Result<(), Refusal> {
    match taken_apart(answer.into()) {
        (0, 0) => Ok(()),
        (number @ (1 | 6..), 0) => Err(Refusal::alone(number)),
        (number, offset) => Err(Refusal::at(number, offset)),
    }
}

/// The eleven messages with the numbers and the text of a good body, as the header lists them.
#[derive(Clone, Copy, Debug, PartialEq, Eq)]
pub enum Body {
    SystemTime {
        second: u64,
    },
    SymbolUpdate {
        symbol: u64,
        lot: u64,
        market: u64,
        /// Of 1.3 alone, else 0.
        security_type: u64,
        nanoseconds: u64,
        test: u64,
        reserved22: u64,
        ticker: [u8; 11],
        opening: [u8; 8],
        closing: [u8; 8],
        /// Byte 20 where it is reserved; in 1.3 it is 0.
        reserved20: u8,
    },
    SystemState {
        nanoseconds: u64,
        session: u64,
        status: u64,
        version: [u8; 8],
    },
    TradingStatus {
        nanoseconds: u64,
        symbol: u64,
        trading: u64,
        market: u64,
        short_sale: u64,
    },
    SymbolClear {
        nanoseconds: u64,
        symbol: u64,
    },
    AddOrder {
        nanoseconds: u64,
        symbol: u64,
        order: u64,
        side: u64,
        price: u64,
        size: u64,
        attributable: u64,
    },
    ModifyOrder {
        nanoseconds: u64,
        symbol: u64,
        order: u64,
        price: u64,
        size: u64,
        flags: u64,
    },
    DeleteOrder {
        nanoseconds: u64,
        symbol: u64,
        order: u64,
    },
    OrderExecution {
        nanoseconds: u64,
        symbol: u64,
        order: u64,
        trade: u64,
        price: u64,
        size: u64,
        flags: u64,
    },
    Trade {
        nanoseconds: u64,
        symbol: u64,
        trade: u64,
        correction: u64,
        price: u64,
        size: u64,
        flags: u64,
    },
    TradeCancel {
        nanoseconds: u64,
        symbol: u64,
        trade: u64,
        correction: u64,
        price: u64,
        size: u64,
    },
}

impl Body {
    /// The message that the type decides; none for a type that no good body has.
    pub fn of(fields: &Fields) -> Option<Body> {
        let [kind, a, b, c, d, e, f, g] = fields.numbers;
        Some(match kind {
            49 => Body::SystemTime { second: a },
            1 => Body::SymbolUpdate {
                symbol: a,
                lot: b,
                market: c,
                security_type: d,
                nanoseconds: e,
                test: f,
                reserved22: g,
                ticker: letters(&fields.text, 0),
                opening: letters(&fields.text, 11),
                closing: letters(&fields.text, 19),
                reserved20: fields.text[27],
            },
            83 => Body::SystemState {
                nanoseconds: a,
                session: b,
                status: c,
                version: letters(&fields.text, 0),
            },
            4 => Body::TradingStatus {
                nanoseconds: a,
                symbol: b,
                trading: c,
                market: d,
                short_sale: e,
            },
            5 => Body::SymbolClear {
                nanoseconds: a,
                symbol: b,
            },
            20 => Body::AddOrder {
                nanoseconds: a,
                symbol: b,
                order: c,
                side: d,
                price: e,
                size: f,
                attributable: g,
            },
            21 => Body::ModifyOrder {
                nanoseconds: a,
                symbol: b,
                order: c,
                price: d,
                size: e,
                flags: f,
            },
            23 => Body::DeleteOrder {
                nanoseconds: a,
                symbol: b,
                order: c,
            },
            24 => Body::OrderExecution {
                nanoseconds: a,
                symbol: b,
                order: c,
                trade: d,
                price: e,
                size: f,
                flags: g,
            },
            10 => Body::Trade {
                nanoseconds: a,
                symbol: b,
                trade: c,
                correction: d,
                price: e,
                size: f,
                flags: g,
            },
            11 => Body::TradeCancel {
                nanoseconds: a,
                symbol: b,
                trade: c,
                correction: d,
                price: e,
                size: f,
            },
            _ => return None,
        })
    }
}

/// So many bytes of a text from this one on.
fn letters<const N: usize>(text: &[u8; 28], at: usize) -> [u8; N] {
    let mut letters = [0; N];
    letters.copy_from_slice(&text[at..at + N]);
    letters
}

/// The first record of what is left of a packet: its number and its body's length.
#[derive(Clone, Copy, Debug, PartialEq, Eq)]
pub struct Head {
    pub number: u64,
    pub length: u64,
}

/// Live orders and used entries.
#[derive(Clone, Copy, Debug, PartialEq, Eq)]
pub struct Counts {
    pub orders: u64,
    pub symbols: u64,
}

/// How many records a packet has.
pub fn packet(edition: Edition, packet: &[u8]) -> Result<u64, Refusal> {
    let mut records = [0];
    refused(lent::packet(edition.number(), packet, &mut records))?;
    Ok(records[0])
}

pub fn record(edition: Edition, rest: &[u8]) -> Result<Head, Refusal> {
    let mut head = [0; 2];
    refused(lent::record(edition.number(), rest, &mut head))?;
    Ok(Head {
        number: head[0],
        length: head[1],
    })
}

pub fn body(edition: Edition, body: &[u8]) -> Result<Fields, Refusal> {
    let mut fields = Fields::default();
    let Fields { numbers, text } = &mut fields;
    refused(lent::body(edition.number(), body, numbers, text))?;
    Ok(fields)
}

/// A record behind a packet so far: the packet's new length. What the writer itself refuses has no offset, which the
/// boundary tells as 0: 5 at 0 is the packet's where it is refused so by itself, and else the number's.
pub fn append(
    edition: Edition,
    memory: &mut [u8],
    used: usize,
    number: u64,
    fields: &Fields,
) -> Result<usize, Refusal> {
    let so_far = match memory.get(..used) {
        None | Some([]) => None,
        Some(so_far) => packet(edition, so_far).err(),
    };
    let Fields { numbers, text } = fields;
    let (edition, mut length) = (edition.number(), [0]);
    let answer = lent::append(edition, memory, used, number, numbers, text, &mut length);
    match refused(answer) {
        Ok(()) => Ok(length[0] as usize),
        Err(refusal) if Some(refusal) == so_far => Err(refusal),
        Err(Refusal {
            number: number @ 3..=5,
            offset: Some(0),
        }) => Err(Refusal::alone(number)),
        Err(refusal) => Err(refusal),
    }
}

/// A packet behind a recording so far: the recording's new length.
pub fn append_packet(
    edition: Edition,
    memory: &mut [u8],
    used: usize,
    packet: &[u8],
) -> Result<usize, Refusal> {
    let mut length = [0];
    let answer = lent::append_packet(edition.number(), memory, used, packet, &mut length);
    refused(answer)?;
    Ok(length[0] as usize)
}

/// A packet of one edition made one of another, in place: how many Symbol Updates it has. A field of a packet lies behind
/// a header and a type byte, so that 4 with the offset 0 is of the types that are asked for, and stands alone.
pub fn convert(asked: &Asked, packet: &mut [u8]) -> Result<u64, Refusal> {
    let (from, to) = (asked.from.number(), asked.to.number());
    let mut updates = [0];
    let answer = lent::convert(from, to, asked.kind, &asked.others, packet, &mut updates);
    match refused(answer) {
        Ok(()) => Ok(updates[0]),
        Err(refusal) if refusal == Refusal::at(4, 0) => Err(Refusal::alone(4)),
        Err(refusal) => Err(refusal),
    }
}

/// A piece of a recording, in place, or 6 or 4.
pub fn convert_piece(asked: &Asked, piece: &mut [u8]) -> Result<convert::Counts, u8> {
    let (from, to) = (asked.from.number(), asked.to.number());
    let mut counts = [0; 4];
    let answer = lent::convert_piece(from, to, asked.kind, &asked.others, piece, &mut counts);
    match (answer, counts) {
        (0, [bytes, updates, unread, barred]) => Ok(convert::Counts {
            bytes,
            updates,
            unread,
            barred,
        }),
        (number, _) => Err(number),
    }
}

/// A receiver of the proved library with its tables, which may be altered at will between calls:
/// a call refuses what it cannot take.
#[derive(Clone, Debug, PartialEq, Eq)]
pub struct Proved {
    pub orders: Vec<u64>,
    pub symbols: Vec<u8>,
    pub shelf: Vec<u8>,
    /// Empty: the tables are scanned (request 9).
    pub index: Vec<u64>,
    pub state: lent::State,
}

impl Proved {
    /// A started receiver of an edition, of so many rows and entries and with no index, or 6.
    pub fn new(edition: Edition, rows: usize, entries: usize) -> Result<Proved, Refusal> {
        Proved::started(edition, rows, entries, 0)
    }

    /// The same with an index.
    pub fn with_index(edition: Edition, rows: usize, entries: usize) -> Result<Proved, Refusal> {
        Proved::started(edition, rows, entries, INDEX_NUMBERS)
    }

    fn started(
        edition: Edition,
        rows: usize,
        entries: usize,
        index: usize,
    ) -> Result<Proved, Refusal> {
        let mut receiver = Proved {
            orders: vec![0; rows * ROW_NUMBERS],
            symbols: vec![0; entries * ENTRY_BYTES],
            shelf: vec![0; SHELF_BYTES],
            index: vec![0; index],
            state: [0; 4],
        };
        receiver.start(edition)?;
        Ok(receiver)
    }

    pub fn start(&mut self, edition: Edition) -> Result<(), Refusal> {
        refused(lent::start(
            edition.number(),
            &mut self.orders,
            &mut self.symbols,
            &mut self.shelf,
            &mut self.index,
            &mut self.state,
        ))
    }

    pub fn receive(&mut self, packet: &[u8]) -> Result<Answer, Refusal> {
        let mut account = [0; 9];
        refused(lent::receive(
            &mut self.orders,
            &mut self.symbols,
            &mut self.shelf,
            &mut self.index,
            &mut self.state,
            packet,
            &mut account,
        ))?;
        let [taken, old, too_far, repeats, differing, next, applied, highest, stop] = account;
        Ok(Answer {
            taken,
            old,
            too_far,
            repeats,
            differing,
            next,
            applied,
            highest,
            stop: stop as u8, // 0 or 20 to 27
        })
    }

    /// The number of all levels; those that fit are in the run.
    pub fn ladder(&self, symbol: u32, side: Side, run: &mut [u64]) -> Result<u64, Refusal> {
        let mut levels = [0];
        let sell = side == Side::Sell;
        let (orders, symbols) = (&self.orders, &self.symbols);
        refused(lent::ladder(
            orders,
            symbols,
            symbol,
            sell,
            run,
            &mut levels,
        ))?;
        Ok(levels[0])
    }

    pub fn spread(&self, symbol: u32) -> Result<Option<i64>, Refusal> {
        let mut answer = [0; 2];
        let (orders, symbols) = (&self.orders, &self.symbols);
        refused(lent::spread(orders, symbols, symbol, &mut answer))?;
        Ok((answer[0] == 1).then_some(answer[1] as i64))
    }

    pub fn counts(&self) -> Result<Counts, Refusal> {
        let mut counts = [0; 2];
        refused(lent::counts(&self.orders, &self.symbols, &mut counts))?;
        Ok(Counts {
            orders: counts[0],
            symbols: counts[1],
        })
    }

    /// The whole sheet.
    pub fn sheet(&self, bad: u64, cut: bool) -> Result<Vec<u8>, Refusal> {
        let mut text = vec![0; SHEET_BYTES];
        let mut length = [0];
        refused(lent::sheet(
            &mut text,
            &self.orders,
            &self.symbols,
            &self.state,
            bad,
            cut,
            &mut length,
        ))?;
        text.truncate(length[0] as usize);
        Ok(text)
    }
}
