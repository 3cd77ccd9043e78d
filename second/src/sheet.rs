//! The sheet, and recordings played into a receiver at full capacities.

use crate::desk::Desk;
use crate::edition::Edition;
use crate::packet::{little, Refusal, Side};
use crate::receiver::{next_fits, Answer, State};
use crate::tables::*;
use crate::views::{ladder, live_orders, spread, used_entries};

/// "up to ten levels a side"
pub const SHEET_LEVELS: usize = 10;

/// The sheet's bytes: "key=value lines in a fixed order, each ended by one line feed". It is lent two
/// tables and a next number, and refuses either by 6, whose line in document 01 excepts no call. It goes by the
/// edition of the state (request 10).
pub fn sheet(
    state: State,
    orders: &[u64],
    symbols: &[u8],
    bad: u64,
    whole: bool,
) -> Result<Vec<u8>, u8> {
    if !next_fits(state.next) {
        return Err(6);
    }
    let order_count = live_orders(orders)?;
    let symbol_count = used_entries(symbols)?;
    let mut text = Vec::new();
    line(&mut text, "recording", if whole { "whole" } else { "cut" });
    line(&mut text, "bad", &bad.to_string());
    line(&mut text, "next", &state.next.to_string());
    line(&mut text, "stop", &state.stop.to_string());
    line(&mut text, "second", &state.second.to_string());
    line(&mut text, "symbols", &symbol_count.to_string());
    line(&mut text, "orders", &order_count.to_string());
    // "symbols in table order"
    for place in 0..entries_in(symbols) {
        let entry = entry(symbols, place);
        if entry_is_used(entry) {
            symbol_block(&mut text, state.edition, entry, orders, symbols)?;
        }
    }
    Ok(text)
}

fn symbol_block(
    text: &mut Vec<u8>,
    edition: Edition,
    entry: &[u8],
    orders: &[u64],
    symbols: &[u8],
) -> Result<(), u8> {
    let symbol = symbol_of_entry(entry);
    line(text, "symbol", &symbol.to_string());
    line(text, "ticker", &shown_ticker(&entry[9..20]));
    // Request 10: "Only the 1.3 sheet shows it, as `type=` after `ticker=`."
    if let Some(kind) = edition.security_type(entry) {
        line(text, "type", &shown(kind).to_string());
    }
    line(text, "lot", &little(&entry[23..25]).to_string());
    match spread(orders, symbols, symbol)? {
        Some(spread) => line(text, "spread", &spread.to_string()),
        None => line(text, "spread", "none"),
    }
    // "bids first"
    for (key, side) in [("bid", Side::Buy), ("ask", Side::Sell)] {
        let mut run = [0; 3 * SHEET_LEVELS];
        let levels = ladder(orders, symbols, symbol, side, &mut run)? as usize;
        for place in 0..levels.min(SHEET_LEVELS) {
            let level = &run[place * 3..place * 3 + 3];
            line(
                text,
                key,
                &format!("{} {} {}", level[0], level[1], level[2]),
            );
        }
    }
    Ok(())
}

fn line(text: &mut Vec<u8>, key: &str, value: &str) {
    text.extend_from_slice(key.as_bytes());
    text.push(b'=');
    text.extend_from_slice(value.as_bytes());
    text.push(b'\n');
}

/// "bytes outside 32 to 126 shown as a full stop"
fn shown(byte: u8) -> char {
    match byte {
        32..=126 => byte as char,
        _ => '.',
    }
}

/// "trailing spaces of tickers dropped, other bytes outside 32 to 126 shown as a full stop"
fn shown_ticker(ticker: &[u8]) -> String {
    let mut end = ticker.len();
    while end > 0 && ticker[end - 1] == b' ' {
        end -= 1;
    }
    ticker[..end].iter().map(|byte| shown(*byte)).collect()
}

/// A receiver with a recording played into it.
#[derive(Clone, Debug, PartialEq, Eq)]
pub struct Played {
    pub desk: Desk,
    pub bad: u64,
    pub whole: bool,
}

/// "packets each behind a 2-byte length": the whole packets in order, and whether the recording
/// ends behind a packet. "a recording that ends inside a length or packet gives `recording=cut`,
/// and that last piece is dropped, not bad."
pub fn packets_of(recording: &[u8]) -> (Vec<&[u8]>, bool) {
    let mut packets = Vec::new();
    let mut at = 0;
    while at < recording.len() {
        let left = recording.len() - at;
        if left < 2 {
            return (packets, false);
        }
        let length = little(&recording[at..at + 2]) as usize;
        if length > left - 2 {
            return (packets, false);
        }
        packets.push(&recording[at + 2..at + 2 + length]);
        at += 2 + length;
    }
    (packets, true)
}

/// "It uses full capacities. A refused packet is counted as bad and passed over".
pub fn play(edition: Edition, recording: &[u8]) -> Played {
    play_telling(edition, recording, |_| ())
}

/// The same, with what `receive` answers to each whole packet told in order.
pub fn play_telling(
    edition: Edition,
    recording: &[u8],
    mut tell: impl FnMut(Result<Answer, Refusal>),
) -> Played {
    let mut desk = Desk::full(edition);
    let mut bad = 0;
    let (packets, whole) = packets_of(recording);
    for packet in packets {
        let answer = desk.give(packet);
        bad += u64::from(answer.is_err());
        tell(answer);
    }
    Played { desk, bad, whole }
}

/// The sheet of a recording, read in an edition.
pub fn sheet_of_recording(edition: Edition, recording: &[u8]) -> Result<Vec<u8>, u8> {
    let Played { desk, bad, whole } = play(edition, recording);
    sheet(desk.state, &desk.orders, &desk.symbols, bad, whole)
}
