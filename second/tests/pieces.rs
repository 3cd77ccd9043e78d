//! Recordings in pieces cut anywhere (request 13), against the same recordings played whole. Run one
//! seed again with SECOND_SEED=number.

mod common;
use common::*;
use second::examples::*;
use second::morning::*;
use second::packet::{read_packet, LAST_NUMBER};
use second::sheet::{play_telling, Played};
use second::stream::{Stream, LEAST_HOLD};

/// A receiver with a stream over it.
#[derive(Clone, Debug, PartialEq)]
struct Fed {
    desk: Desk,
    stream: Stream,
    hold: Vec<u8>,
}

impl Fed {
    fn new(desk: Desk) -> Fed {
        Fed {
            desk,
            stream: Stream::default(),
            hold: vec![7; LEAST_HOLD],
        }
    }

    fn feed(&mut self, chunk: &[u8]) -> Result<(), u8> {
        self.stream.feed(&mut self.desk, &mut self.hold, chunk)
    }

    /// A chunk that must be taken.
    fn takes(&mut self, chunk: &[u8]) {
        assert_eq!(self.feed(chunk), Ok(()));
    }

    /// A chunk that must be refused with 6, and change nothing.
    fn refuses(&mut self, chunk: &[u8]) {
        let before = self.clone();
        assert_eq!(self.feed(chunk), Err(6));
        assert_eq!(*self, before);
    }

    /// What is held, with zeros behind it.
    fn holds(&self, bytes: &[u8]) {
        let mut wanted = bytes.to_vec();
        wanted.resize(self.hold.len(), 0);
        assert_eq!(self.stream.held, bytes.len() as u64);
        assert_eq!(self.hold, wanted);
    }
}

/// The recording's receiver and totals, as it plays whole in an edition.
fn whole(edition: Edition, bytes: &[u8]) -> (Played, [u64; 5]) {
    let mut totals = [0; 5];
    let played = play_telling(edition, bytes, |answer| {
        if let Ok(answer) = answer {
            for (total, count) in totals.iter_mut().zip(answer.counts()) {
                *total += count;
            }
        }
    });
    (played, totals)
}

/// Comes to what the whole recording does.
fn is_as_whole(fed: &Fed, wanted: &(Played, [u64; 5])) {
    let (played, totals) = wanted;
    assert_eq!(fed.desk, played.desk);
    assert_eq!((fed.stream.bad, fed.stream.totals), (played.bad, *totals));
    assert_eq!(fed.stream.is_cut(), !played.whole);
}

#[test]
fn the_example_cut_in_every_place() {
    let bytes = morning_recording();
    let wanted = whole(V1_3b, &bytes);
    for first in 0..=bytes.len() {
        let mut fed = Fed::new(Desk::full(V1_3b));
        fed.takes(&bytes[..first]);
        fed.takes(&[]);
        assert_eq!(fed.stream.is_cut(), first != 0 && first != bytes.len());
        fed.takes(&bytes[first..]);
        is_as_whole(&fed, &wanted);
        fed.holds(&[]);
    }
    let mut fed = Fed::new(Desk::full(V1_3b));
    for place in 1..bytes.len() {
        fed.takes(&bytes[place - 1..place]);
        fed.holds(&bytes[..place]);
    }
    fed.takes(&bytes[bytes.len() - 1..]);
    is_as_whole(&fed, &wanted);
}

#[test]
fn seeded_recordings_in_odd_pieces() {
    let mut cuts = 0;
    for seed in seeds(60) {
        let mut dice = Dice::new(seed);
        let edition = dice.pick(&EDITIONS);
        let bytes = drawn_recording(edition, seed);
        let mut fed = Fed::new(Desk::full(edition));
        let mut rest = bytes.as_slice();
        while !rest.is_empty() {
            let most = dice.pick(&[1, 3, 40, 2_000]);
            let length = dice.below(most + 1).min(rest.len() as u64);
            let (chunk, behind) = rest.split_at(length as usize);
            fed.takes(chunk);
            rest = behind;
        }
        is_as_whole(&fed, &whole(edition, &bytes));
        cuts += u64::from(fed.stream.is_cut());
    }
    assert!(!all_seeds() || cuts > 5, "{cuts} were cut");
}

#[test]
fn too_long_a_packet_is_bad_when_its_last_byte_has_come() {
    for length in [1_501, 2_000, 65_535] {
        let bytes = recording(&[vec![1; length]]);
        let mut fed = Fed::new(Desk::full(V1_3b));
        fed.takes(&bytes[..2]);
        fed.holds(&[]);
        assert_eq!(fed.stream.to_pass, length as u64);
        fed.takes(&bytes[2..bytes.len() - 1]);
        assert_eq!((fed.stream.bad, fed.stream.is_cut()), (0, true));
        fed.takes(&bytes[bytes.len() - 1..]);
        assert_eq!((fed.stream.bad, fed.stream.is_cut()), (1, false));
        fed.takes(&morning_recording());
        assert_eq!(fed.desk.state.next, 6);
    }
    // 1,500 bytes are held.
    let bytes = recording(&[vec![1; 1_500]]);
    let mut fed = Fed::new(Desk::full(V1_3b));
    fed.takes(&bytes[..1_501]);
    fed.holds(&bytes[..1_501]);
    fed.takes(&bytes[1_501..]);
    assert_eq!((fed.stream.bad, fed.stream.is_cut()), (1, false));
    // And a packet of no bytes is bad as soon as its length has come.
    fed.takes(&[0, 0, 0]);
    assert_eq!(fed.stream.bad, 2);
    fed.holds(&[0]);
    assert!(fed.stream.is_cut());
}

#[test]
fn six() {
    let bytes = morning_recording();
    for chunk in [&bytes[..0], &bytes[..1], &bytes[..]] {
        let mut fed = Fed::new(Desk::new(V1_3b, 2, 2));
        fed.hold.pop();
        fed.refuses(chunk);
        let mut fed = Fed::new(Desk::new(V1_3b, 2, 2));
        fed.stream.held = LEAST_HOLD as u64 + 1;
        fed.refuses(chunk);
        fed.hold.push(7);
        fed.takes(&[]);
        for next in [0, LAST_NUMBER + 2] {
            let mut fed = Fed::new(Desk::new(V1_3b, 2, 2));
            fed.desk.state.next = next;
            fed.refuses(chunk);
        }
        let mut fed = Fed::new(Desk::new(V1_3b, 2, 2));
        fed.desk.orders.pop();
        fed.refuses(chunk);
        let mut fed = Fed::new(Desk::new(V1_3b, 2, 2));
        fed.desk.symbols.pop();
        fed.refuses(chunk);
        let mut fed = Fed::new(Desk::new(V1_3b, 2, 2));
        fed.desk.shelf.pop();
        fed.refuses(chunk);
    }
}

/// What a caller altered: the same step over what is found.
#[test]
fn altered_streams() {
    // Held bytes that are a packet already: the next byte ends it and goes with what lies behind.
    let packet = packet(&[(1, time(5))]);
    let mut fed = Fed::new(Desk::new(V1_3b, 2, 2));
    let held = [recording(&[packet]), vec![9, 9]].concat();
    fed.hold[..held.len()].copy_from_slice(&held);
    fed.stream.held = held.len() as u64;
    fed.takes(&[]);
    fed.holds(&held);
    fed.takes(&[9]);
    fed.holds(&[]);
    assert_eq!((fed.desk.state.next, fed.desk.state.second), (2, 5));
    // A length above 1,500 in front: what is held is dropped and the whole length passed over.
    let mut fed = Fed::new(Desk::new(V1_3b, 2, 2));
    fed.hold[..2].copy_from_slice(&2_000_u16.to_le_bytes());
    fed.stream.held = 900;
    fed.takes(&[9]);
    fed.holds(&[]);
    assert_eq!(fed.stream.to_pass, 2_000);
    // Both: those to pass over come first, and what is held counts again behind them.
    let mut fed = Fed::new(Desk::new(V1_3b, 2, 2));
    fed.takes(&[15]);
    fed.stream.to_pass = 3;
    fed.takes(&[1, 2, 3]);
    fed.holds(&[15]);
    assert_eq!(fed.stream.bad, 1);
    fed.takes(&[0]);
    fed.holds(&[15, 0]);
    // Counts stay at the largest number.
    let mut fed = Fed::new(Desk::new(V1_3b, 2, 2));
    fed.stream.bad = u64::MAX;
    fed.stream.totals = [u64::MAX; 5];
    fed.takes(&[0, 0]);
    fed.takes(&recording(&[second::morning::packet(&[
        (1, time(5)),
        (1, time(5)),
    ])]));
    assert_eq!(fed.stream.bad, u64::MAX);
    assert_eq!(fed.stream.totals, [u64::MAX; 5]);
    assert_eq!(fed.desk.state.next, 2);
}

/// "repacking the records of accepted packets, in their order, into other good packets changes no
/// table"
#[test]
fn repacked_records() {
    for seed in seeds(40) {
        let edition = EDITIONS[(seed % 2) as usize];
        let mut records = Vec::new();
        let bytes = drawn_recording(edition, seed);
        for packet in second::sheet::packets_of(&bytes).0 {
            for record in read_packet(edition, packet).unwrap_or_default() {
                records.push((record.number, record.body.to_vec()));
            }
        }
        let wanted = whole(edition, &bytes);
        for packets in [
            packed(&records),
            records.iter().map(|(n, body)| record(*n, body)).collect(),
        ] {
            let mut fed = Fed::new(Desk::full(edition));
            fed.takes(&recording(&packets));
            assert_eq!(fed.desk, wanted.0.desk, "seed {seed}");
            assert_eq!(fed.stream.totals, wanted.1, "seed {seed}");
            assert_eq!(fed.stream.bad, 0, "seed {seed}");
        }
    }
}
