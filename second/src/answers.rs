//! Everything that a recording makes a receiver say, as lines of decimal numbers: each packet's
//! answer, then the second, both tables and the books in them. Another program that plays the same
//! recording must come to the same bytes.

use crate::desk::Desk;
use crate::edition::Edition;
use crate::packet::{Refusal, Side};
use crate::receiver::Answer;
use crate::sheet::play_telling;
use crate::tables::*;
use crate::views::{ladder, spread};
use std::fmt::Display;

/// The lines of a recording played from a start at full capacities. A cut last piece gives none.
/// They have the same form in each edition.
pub fn answers_of_recording(edition: Edition, recording: &[u8]) -> Result<Vec<u8>, u8> {
    let mut text = Vec::new();
    let desk = play_telling(edition, recording, |answer| packet_line(&mut text, answer)).desk;
    line(&mut text, "second", &[desk.state.second]);
    table_lines(&mut text, &desk);
    for place in 0..entries_in(&desk.symbols) {
        let entry = entry(&desk.symbols, place);
        if entry_is_used(entry) {
            book_lines(&mut text, &desk, symbol_of_entry(entry))?;
        }
    }
    Ok(text)
}

/// `refused R`, for 2 to 5 `refused R at O`, or the five counts (10 to 14), next, applied, highest and stop.
fn packet_line(text: &mut Vec<u8>, answer: Result<Answer, Refusal>) {
    match answer {
        Err(refusal) => line(text, "refused", &[refusal]),
        Ok(answer) => line(
            text,
            "",
            &[
                answer.taken,
                answer.old,
                answer.too_far,
                answer.repeats,
                answer.differing,
                answer.next,
                answer.applied,
                answer.highest,
                u64::from(answer.stop),
            ],
        ),
    }
}

/// Each row that is not free and each entry that is not free, behind its place from 0.
fn table_lines(text: &mut Vec<u8>, desk: &Desk) {
    for place in 0..rows_in(&desk.orders) {
        let row = row(&desk.orders, place);
        if !row_is_free(row) {
            line(text, &format!("row {place}"), row);
        }
    }
    for place in 0..entries_in(&desk.symbols) {
        let entry = entry(&desk.symbols, place);
        if !entry_is_free(entry) {
            line(text, &format!("entry {place}"), entry);
        }
    }
}

/// A symbol's numbers of levels and its spread, then all its levels, bids first.
fn book_lines(text: &mut Vec<u8>, desk: &Desk, symbol: u32) -> Result<(), u8> {
    let bids = all_levels(desk, symbol, Side::Buy)?;
    let offers = all_levels(desk, symbol, Side::Sell)?;
    let spread = match spread(&desk.orders, &desk.symbols, symbol)? {
        Some(spread) => spread.to_string(),
        None => "none".to_string(),
    };
    let numbers = [
        symbol.to_string(),
        (bids.len() / 3).to_string(),
        (offers.len() / 3).to_string(),
        spread,
    ];
    line(text, "symbol", &numbers);
    for (word, run) in [("bid", bids), ("ask", offers)] {
        for level in run.chunks_exact(3) {
            line(text, word, level);
        }
    }
    Ok(())
}

/// All levels of a side from the best. There are no more levels than rows, so the run is enough.
fn all_levels(desk: &Desk, symbol: u32, side: Side) -> Result<Vec<u64>, u8> {
    let mut run = vec![0; 3 * rows_in(&desk.orders)];
    let levels = ladder(&desk.orders, &desk.symbols, symbol, side, &mut run)?;
    run.truncate(3 * levels as usize);
    Ok(run)
}

/// A word, if there is one, and numbers, one space between any two.
fn line<T: Display>(text: &mut Vec<u8>, word: &str, numbers: &[T]) {
    let mut parts = Vec::new();
    if !word.is_empty() {
        parts.push(word.to_string());
    }
    for number in numbers {
        parts.push(number.to_string());
    }
    text.extend_from_slice(parts.join(" ").as_bytes());
    text.push(b'\n');
}
