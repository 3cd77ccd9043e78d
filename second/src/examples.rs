//! The recordings in `examples/` of 1.3.b: document 01's whole example, and a long one.

use crate::desk::Desk;
use crate::edition::Edition;
use crate::morning::*;
use crate::packet::{little, read_packet};
use crate::receiver::{highest_number, slot, slot_number};
use crate::tables::{MOST_ENTRIES, SHEET_ROWS};

const EDITION: Edition = Edition::V1_3b;

/// Document 01's example: "second 34200; symbol 7, ABC, lot 100; buy 500 at 10.000000 for 100;
/// sell 501 at 10.020000 for 200; buy 502 at 10.000000 for 50".
pub fn example_list() -> Vec<Vec<u8>> {
    vec![
        system_time(34_200),
        symbol_update(0, 7, b"ABC        ", 100),
        add_order(0, 7, 500, b'B', 10_000_000, 100),
        add_order(0, 7, 501, b'S', 10_020_000, 200),
        add_order(0, 7, 502, b'B', 10_000_000, 50),
    ]
}

/// The example, "for numbers 1 to 5", in one packet.
pub fn morning_recording() -> Vec<u8> {
    recording(&packed(&numbered(&example_list(), 1, 5)))
}

/// Document 01's sheet of it, byte for byte.
pub const MORNING_SHEET: &str = "recording=whole
bad=0
next=6
stop=0
second=34200
symbols=1
orders=3
symbol=7
ticker=ABC
lot=100
spread=20000
bid=10000000 150 2
ask=10020000 200 1
";

const ABC: u32 = 7;
const CROSSED: u32 = 12;
const NO_ORDERS: u32 = 37;
const ONLY_BIDS: u32 = 38;

/// The symbols of the long recording in the order of their first use: ID, ticker, lot.
const SYMBOLS: [(u32, &[u8; 11], u16); 12] = [
    (ABC, b"ABC        ", 100),
    (CROSSED, b"BRK B      ", 10),
    (0, b"ZERO       ", 100),
    (u32::MAX, b"ABCDEFGHIJK", 1),
    (31, b"NUL\0       ", 100),
    (32, b"PAD      \0 ", 100),
    (33, b"\xc4\x9f\x7f\x1f~!     ", 65_535),
    (34, b"           ", 0),
    (35, b" LEAD      ", 100),
    (36, b"A.B\tC      ", 100),
    (NO_ORDERS, b"EMPTY      ", 100),
    (ONLY_BIDS, b"BIDS       ", 100),
];

/// The long recording's messages. The last but twenty breaks rule 24, so the receiver stops there.
pub fn long_list() -> Vec<Vec<u8>> {
    let mut maker = ListMaker::new(
        20_230_925,
        ListSettings {
            rows: SHEET_ROWS,
            entries: MOST_ENTRIES,
            symbols: 1,
            orders: 260,
            levels: 8,
            ..ListSettings::default()
        },
    );
    // The ordinary traffic is in the ten symbols that are not kept for a special book.
    maker.symbol_ids = SYMBOLS[..10].iter().map(|symbol| symbol.0).collect();

    must_push(&mut maker, system_state(0, b"DoM1.3  ", 1, b'S'));
    must_push(&mut maker, system_time(34_200));
    for (symbol, ticker, lot) in SYMBOLS {
        must_push(&mut maker, symbol_update(1, symbol, ticker, lot));
    }
    for (symbol, _, _) in SYMBOLS {
        must_push(&mut maker, trading_status(2, symbol, &[2, 3, b'N']));
    }
    while maker.list.len() < 1_250 {
        maker.push_ordinary();
    }

    // Whatever the traffic made of the tickers, the sheet shows these.
    for (symbol, ticker, lot) in SYMBOLS {
        must_push(&mut maker, symbol_update(3, symbol, ticker, lot));
    }
    // More than ten levels on each side of ABC, with queues of two and three at every third.
    must_push(&mut maker, symbol_clear(4, ABC));
    for level in 0..13 {
        for copy in 0..1 + level % 3 {
            let order = 900_000 + level * 10 + copy;
            let bid = 10_000_000 - level * 10_000;
            must_push(&mut maker, add_order(5, ABC, order, b'B', bid, 100));
            let offer = 10_020_000 + level * 10_000;
            must_push(
                &mut maker,
                add_order(6, ABC, order + 1_000, b'S', offer, 200),
            );
        }
    }
    // Kept its place at another price; lost its place; went by execution; went and came back.
    must_push(&mut maker, modify_order(7, ABC, 900_041, 9_950_000, 70, 0));
    must_push(&mut maker, modify_order(8, ABC, 900_010, 9_990_000, 100, 1));
    must_push(
        &mut maker,
        order_execution(9, ABC, 900_000, 77, 10_000_000, 100, 1),
    );
    must_push(
        &mut maker,
        add_order(10, ABC, 900_000, b'B', 10_000_000, 60),
    );
    must_push(
        &mut maker,
        order_execution(11, ABC, 901_000, 78, 10_020_000, 50, 3),
    );
    must_push(&mut maker, delete_order(12, ABC, 900_020));
    must_push(
        &mut maker,
        add_order(13, ABC, 900_020, b'S', 10_030_000, 40),
    );
    // A crossed book, a symbol without orders, one with bids alone.
    must_push(&mut maker, symbol_clear(14, CROSSED));
    must_push(
        &mut maker,
        add_order(15, CROSSED, 910_000, b'B', 10_020_000, 300),
    );
    must_push(
        &mut maker,
        add_order(16, CROSSED, 910_001, b'S', 10_000_000, 400),
    );
    must_push(&mut maker, add_order(17, NO_ORDERS, 920_000, b'S', 1, 1));
    must_push(&mut maker, symbol_clear(18, NO_ORDERS));
    must_push(
        &mut maker,
        add_order(19, ONLY_BIDS, 930_000, b'B', 1_000_000_000_000_000, 5),
    );
    must_push(&mut maker, system_time(36_000));
    // 101 of 100 shares, and then messages that nobody can apply any more.
    maker
        .list
        .push(order_execution(20, ABC, 900_010, 79, 9_990_000, 101, 1));
    for order in 940_000..940_020 {
        must_push(&mut maker, add_order(21, ABC, order, b'B', 9_000_000, 1));
    }
    maker.list
}

fn must_push(maker: &mut ListMaker, body: Vec<u8>) {
    assert!(maker.push(body), "a message of the long list breaks a rule");
}

/// A receiver that writes down each packet that it is given.
struct Writer {
    desk: Desk,
    packets: Vec<Vec<u8>>,
}

impl Writer {
    fn give(&mut self, packet: Vec<u8>) {
        let _ = self.desk.give(&packet); // bad packets are among them
        self.packets.push(packet);
    }
}

/// The long recording's packets: lines A and B with losses, repeats and late copies, gap fills
/// where they are missed, differing copies of what lies on the shelf, and bad packets, among them
/// some with the tap fault of request 6.
pub fn long_packets() -> Vec<Vec<u8>> {
    let list = long_list();
    let settings = DeliverySettings {
        records: 12,
        lost: 60,
        repeated: 60,
        delayed: 80,
        delay: 30,
        shuffled: 150,
        differing: 0,
        far: 30,
        bad: 0,
        fill: false,
    };
    let mut dice = Dice::new(93_000);
    let mut writer = Writer {
        desk: Desk::full(EDITION),
        packets: Vec::new(),
    };
    let mut missed = (0, 0); // a next number, and for how many packets it has been missed
    for (place, mut packet) in delivery(EDITION, 43, &list, settings)
        .into_iter()
        .enumerate()
    {
        if place % 60 == 24 {
            packet = with_tap_fault(EDITION, &packet);
        }
        writer.give(packet);
        let next = writer.desk.state.next;
        if dice.chance(120) {
            if let Some(number) = shelved_number(&mut dice, &writer.desk.shelf, next) {
                let slot = slot(&writer.desk.shelf, number);
                let length = little(&slot[8..10]) as usize;
                let copy = differing_copy(EDITION, dice.bits(), &slot[10..10 + length]);
                writer.give(record(number, &copy));
            }
        }
        if place % 12 == 5 {
            let refusal = 1 + (place / 12 % 5) as u8;
            writer.give(bad_packet(EDITION, dice.bits(), &list, refusal));
        }
        missed = if missed.0 == next {
            (next, missed.1 + 1)
        } else {
            (next, 0)
        };
        if missed.1 >= 12
            && writer.desk.state.stop == 0
            && highest_number(&writer.desk.shelf) > next
        {
            gap_fill(&mut writer, &list);
            missed.1 = 0;
        }
    }
    // A packet of 0 bytes, one of 1,501, and what is still missing.
    writer.give(Vec::new());
    let mut long = Vec::new();
    while long.len() < 1_501 {
        long.extend_from_slice(&record(1, &list[0]));
    }
    long.truncate(1_501);
    writer.give(long);
    while writer.desk.state.stop == 0 && writer.desk.state.next <= list.len() as u64 {
        gap_fill(&mut writer, &list);
    }
    assert!(writer.packets.iter().all(|packet| packet.len() <= 65_535));
    writer.packets
}

/// A number on the shelf that is neither next nor gone.
fn shelved_number(dice: &mut Dice, shelf: &[u8], next: u64) -> Option<u64> {
    let mut numbers = Vec::new();
    for number in next + 1..next + 64 {
        if slot_number(slot(shelf, number)) == number {
            numbers.push(number);
        }
    }
    if numbers.is_empty() {
        return None;
    }
    Some(dice.pick(&numbers))
}

/// The messages from next to the first that is on the shelf, eight at most.
fn gap_fill(writer: &mut Writer, list: &[Vec<u8>]) {
    let next = writer.desk.state.next;
    let mut most = 1;
    while most < 8 && slot_number(slot(&writer.desk.shelf, next + most)) == 0 {
        most += 1;
    }
    let records = numbered(list, next as usize, most as usize);
    let packet = packet(&records);
    assert!(read_packet(EDITION, &packet).is_ok());
    writer.give(packet);
}

pub fn long_recording() -> Vec<u8> {
    recording(&long_packets())
}
