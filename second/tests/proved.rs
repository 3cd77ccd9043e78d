//! The safe calls over the proved library: document 01's example through all of them, each refusal,
//! and each message in Rust's form.
#![cfg(linked)]

mod common;
use common::*;
use second::examples::{example_list, morning_recording, MORNING_SHEET};
use second::index::{INDEX_NUMBERS, USED};
use second::morning::*;
use second::packet::{Refusal, Side, HIGHEST_PRICE};
use second::proved::{self, lent, taken_apart, Body, Counts, Head, Proved};
use second::stream::LEAST_HOLD;
use second::traffic::{in_packets, Traffic};

fn example() -> (Proved, Vec<u8>) {
    let packet = packet(&numbered(&example_list(), 1, 5));
    (
        Proved::new(V1_3b, 10, 4).expect("sizes in the limits"),
        packet,
    )
}

#[test]
fn the_example_through_every_call() {
    let (mut receiver, packet) = example();
    assert_eq!(proved::packet(V1_3b, &packet), Ok(5));
    let head = Head {
        number: 1,
        length: 5,
    };
    assert_eq!(proved::record(V1_3b, &packet), Ok(head));
    let answer = receiver.receive(&packet).expect("a good packet");
    assert_eq!(answer.counts(), [5, 0, 0, 0, 0]);
    assert_eq!((answer.next, answer.applied, answer.stop), (6, 5, 0));
    let (orders, symbols) = (3, 1);
    assert_eq!(receiver.counts(), Ok(Counts { orders, symbols }));
    assert_eq!(receiver.spread(7), Ok(Some(20_000)));
    let mut run = [9; 4];
    assert_eq!(receiver.ladder(7, Side::Buy, &mut run), Ok(1));
    assert_eq!(run, [10_000_000, 150, 2, 9]);
    assert_eq!(receiver.sheet(0, false), Ok(MORNING_SHEET.into()));
    receiver.start(V1_3b).expect("sizes in the limits");
    assert_eq!(receiver, example().0);
    assert_eq!(receiver.counts().map(|counts| counts.orders), Ok(0));
}

#[test]
fn each_refusal() {
    let (mut receiver, packet) = example();
    assert_eq!(Proved::new(V1_3b, 0, 4), Err(Refusal::alone(6)));
    assert_eq!(receiver.receive(&[]), Err(Refusal::alone(1)));
    assert_eq!(receiver.receive(&packet[..9]), Err(Refusal::at(2, 0)));
    let numberless = record(0, &time(1));
    assert_eq!(receiver.receive(&numberless), Err(Refusal::at(5, 0)));
    let typeless = record(1, &[0]);
    assert_eq!(receiver.receive(&typeless), Err(Refusal::at(3, 10)));
    let free = record(1, &buy(7, 500, 0, 100));
    assert_eq!(receiver.receive(&free), Err(Refusal::at(4, 28)));
    assert_eq!(receiver.spread(7), Err(Refusal::alone(30)));
    assert_eq!(receiver, example().0);
}

/// The calls that answer 32 bits: the offset stands above the number's 8, and 0, 1 and 6 have none.
#[test]
fn numbers_and_offsets_in_one_answer() {
    for (answer, number, offset) in [
        (0, 0, 0),
        (1, 1, 0),
        (2, 2, 0),
        (256 + 4, 4, 1),
        (65_535, 255, 255),
        (256 * 1_500 + 3, 3, 1_500),
        (u32::MAX, 255, 16_777_215),
    ] {
        assert_eq!(taken_apart(answer), (number, offset));
    }
    let (mut receiver, packet) = example();
    // 94 System Times of 15 bytes, two Modifies of 40, and a header that announces an empty body.
    let mut longest = Vec::new();
    for number in 1..=94 {
        longest.extend(record(number, &time(1)));
    }
    for number in 95..=96 {
        longest.extend(record(number, &modify(7, 500, 1, 1, 1)));
    }
    longest.extend(record(97, &[]));
    let bad = record(1, &buy(7, 500, 0, 100));
    for (bytes, answer) in [
        (&packet[..], 0),
        (&[], 1),
        (&packet[..9], 2),
        (&longest, 256 * 1_500 + 3),
        (&bad, 256 * 28 + 4),
        (&[0; 10], 5),
    ] {
        assert_eq!(lent::packet(0, bytes, &mut [0]), answer);
        let Proved {
            orders,
            symbols,
            shelf,
            index,
            state,
        } = &mut receiver;
        let received = lent::receive(orders, symbols, shelf, index, state, bytes, &mut [0; 9]);
        assert_eq!(received, answer);
        // 6 comes before all of them.
        let received = lent::receive(&mut [], symbols, shelf, index, state, bytes, &mut [0; 9]);
        assert_eq!(received, 6);
    }
    assert_eq!(lent::record(0, &[], &mut [0; 2]), 2);
    assert_eq!(
        lent::record(0, &longest[1_490..], &mut [0; 2]),
        256 * 10 + 3
    );
    assert_eq!(lent::record(0, &bad, &mut [0; 2]), 256 * 28 + 4);
    let body = |body: &[u8]| lent::body(0, body, &mut [0; 8], &mut [0; 28]);
    assert_eq!(body(&[]), 3);
    assert_eq!(body(&bad[10..]), 256 * 18 + 4);
    assert_eq!(body(&time(1)), 0);
}

/// A book that is crossed has a negative spread (P9), and one with an empty side has none.
#[test]
fn spreads_of_either_sign() {
    let mut receiver = Proved::new(V1_3b, 10, 4).expect("sizes in the limits");
    let list = [
        update(7),
        buy(7, 1, 10_020_000, 1),
        sell(7, 2, 10_000_000, 1),
    ];
    for (place, body) in list.iter().enumerate() {
        let answer = receiver.receive(&record(place as u64 + 1, body));
        assert_eq!(answer.map(|answer| answer.applied), Ok(1));
        let wanted = (place == 2).then_some(-20_000);
        assert_eq!(receiver.spread(7), Ok(wanted));
    }
}

/// Every row with the most shares at one price, and books as wide as prices allow.
#[test]
fn the_largest_sums_and_the_widest_spreads() {
    let mut receiver = Proved::new(V1_3b, 16_000, 1).expect("sizes in the limits");
    let answer = receiver.receive(&record(1, &update(7)));
    assert_eq!(answer.map(|answer| answer.applied), Ok(1));
    let most = u64::from(u32::MAX);
    for (order, row) in receiver.orders.chunks_mut(5).enumerate() {
        row.copy_from_slice(&[order as u64, 14, HIGHEST_PRICE, most, 1]);
    }
    let mut run = [9; 4];
    assert_eq!(receiver.ladder(7, Side::Buy, &mut run), Ok(1));
    assert_eq!(run, [HIGHEST_PRICE, 16_000 * most, 16_000, 9]);
    let widest = HIGHEST_PRICE as i64 - 1;
    receiver.orders[..5].copy_from_slice(&[0, 15, 1, most, 1]);
    assert_eq!(receiver.spread(7), Ok(Some(-widest)));
    for row in receiver.orders.chunks_mut(5) {
        row[2] = if row[1] == 14 { 1 } else { HIGHEST_PRICE };
    }
    assert_eq!(receiver.spread(7), Ok(Some(widest)));
}

/// Request 9: with an index the example comes to the same answers, tables and sheet, and to the index that the second
/// program's model has; in packets and in pieces.
#[test]
fn the_example_with_an_index() {
    let (_, packet) = example();
    let mut receiver = Proved::with_index(V1_3b, 10, 4).expect("sizes in the limits");
    let mut desk = Desk::with_index(V1_3b, 10, 4);
    assert!(receiver.index == desk.index, "a start makes it");
    assert_eq!(receiver.receive(&packet), desk.give(&packet));
    assert_eq!(receiver.sheet(0, false), Ok(MORNING_SHEET.into()));
    assert!(receiver.index == desk.index && receiver.index[USED] == 3);
    let bytes = morning_recording();
    for first in 0..=bytes.len() {
        let mut fed = Proved::with_index(V1_3b, 10, 4).expect("sizes in the limits");
        let (mut stream, mut hold) = ([9; 14], [9; LEAST_HOLD]);
        assert_eq!(lent::open(&fed.state, &mut stream), 0);
        for chunk in [&bytes[..first], &bytes[first..]] {
            assert_eq!(feed(&mut fed, &mut hold, &mut stream, chunk), 0);
        }
        fed.state.copy_from_slice(&stream[..4]);
        assert!(fed == receiver, "cut at {first}");
    }
}

/// None and 49,403 numbers are an index; any other length is 6 at a start, in receiving and in pieces, and nothing
/// changes.
#[test]
fn sizes_of_the_index() {
    let (_, packet) = example();
    for length in [0, 1, 2, 32_768, 49_402, 49_403, 49_404, 98_806] {
        let mut receiver = Proved::with_index(V1_3b, 10, 4).expect("sizes in the limits");
        receiver.index.resize(length, 0);
        let good = [0, INDEX_NUMBERS].contains(&length);
        let before = receiver.clone();
        let (mut stream, mut hold) = ([1, 0, 0, 0, 0, 0, 0, 0, 0, 0, 0, 0, 0, 0], [9; LEAST_HOLD]);
        let fed = feed(&mut receiver, &mut hold, &mut stream, &morning_recording());
        assert_eq!(fed, if good { 0 } else { 6 }, "{length}");
        if !good {
            assert_eq!(receiver.receive(&packet), Err(Refusal::alone(6)));
            assert_eq!(receiver.start(V1_3b), Err(Refusal::alone(6)));
            assert!(receiver == before && hold == [9; LEAST_HOLD], "{length}");
        }
        let refused = receiver.start(V1_3b).is_err();
        assert_eq!(refused, !good, "{length}");
    }
}

/// 16,000 live orders with each engine, and one more: 25.
#[test]
fn sixteen_thousand_orders() {
    let mut traffic = Traffic::new(1, 16_000);
    let packets = in_packets(&traffic.opening(), 40);
    let mut scanning = Proved::new(V1_3b, 16_000, 40).expect("sizes in the limits");
    let mut indexed = Proved::with_index(V1_3b, 16_000, 40).expect("sizes in the limits");
    for packet in &packets {
        assert_eq!(scanning.receive(packet), indexed.receive(packet));
    }
    assert!(scanning.orders == indexed.orders && scanning.symbols == indexed.symbols);
    assert_eq!(indexed.counts().map(|counts| counts.orders), Ok(16_000));
    let one_more = record(indexed.state[0], &buy(7, 1, 10_000_000, 100));
    for receiver in [&mut scanning, &mut indexed] {
        let answer = receiver.receive(&one_more).expect("a good packet");
        assert_eq!((answer.applied, answer.stop), (0, 25));
    }
    assert!(scanning.orders == indexed.orders);
    let wide = Proved::new(V1_3b, 16_001, 40);
    assert_eq!(wide.map(|_| ()), Err(Refusal::alone(6)));
}

/// The example's recording cut in every place, through the calls for streams.
#[test]
fn the_example_in_pieces() {
    let bytes = morning_recording();
    for first in 0..=bytes.len() {
        let (mut receiver, _) = example();
        let mut stream = [9; 14];
        assert_eq!(lent::open(&receiver.state, &mut stream), 0);
        assert_eq!(stream, [1, 0, 0, 0, 0, 0, 0, 0, 0, 0, 0, 0, 0, 0]);
        let mut hold = [9; LEAST_HOLD];
        let inside = first != 0 && first != bytes.len();
        for (chunk, cut) in [(&bytes[..first], inside), (&bytes[first..], false)] {
            let number = feed(&mut receiver, &mut hold, &mut stream, chunk);
            assert_eq!((number, lent::cut(&stream)), (0, cut), "cut at {first}");
        }
        assert_eq!(stream, [6, 34_200, 0, 0, 0, 0, 0, 5, 0, 0, 0, 0, 0, 0]);
        assert_eq!(hold, [0; LEAST_HOLD]);
        receiver.state.copy_from_slice(&stream[..4]);
        assert_eq!(receiver.sheet(0, false), Ok(MORNING_SHEET.into()));
    }
}

/// Too little memory for a packet is 6, and nothing changes.
#[test]
fn a_refused_piece() {
    let (mut receiver, _) = example();
    let mut stream = [1, 0, 0, 0, 0, 0, 0, 0, 0, 0, 0, 0, 4, 28];
    let mut hold = [9; LEAST_HOLD - 1];
    let bytes = morning_recording();
    assert_eq!(feed(&mut receiver, &mut hold, &mut stream, &bytes), 6);
    assert_eq!(receiver, example().0);
    assert_eq!(stream, [1, 0, 0, 0, 0, 0, 0, 0, 0, 0, 0, 0, 4, 28]);
    assert_eq!(hold, [9; LEAST_HOLD - 1]);
}

fn feed(receiver: &mut Proved, hold: &mut [u8], stream: &mut lent::Stream, chunk: &[u8]) -> u8 {
    let Proved {
        orders,
        symbols,
        shelf,
        index,
        ..
    } = receiver;
    lent::feed(orders, symbols, shelf, index, hold, stream, chunk)
}

fn message(body: &[u8]) -> Body {
    let fields = proved::body(V1_3b, body).expect("a good body");
    Body::of(&fields).expect("a known type")
}

#[test]
fn messages_of_the_book() {
    let add = Body::AddOrder {
        nanoseconds: 1,
        symbol: 2,
        order: 3,
        side: b'S'.into(),
        price: 4,
        size: 5,
        attributable: u32::from_le_bytes(*b"    ").into(),
    };
    assert_eq!(message(&add_order(1, 2, 3, b'S', 4, 5)), add);
    // All eight bits as they came, although seven of them are undefined (request 2).
    for flags in 0..=255 {
        let modify = Body::ModifyOrder {
            nanoseconds: 1,
            symbol: 2,
            order: 3,
            price: 4,
            size: 5,
            flags: flags.into(),
        };
        assert_eq!(message(&modify_order(1, 2, 3, 4, 5, flags)), modify);
    }
    let delete = Body::DeleteOrder {
        nanoseconds: 1,
        symbol: 2,
        order: 3,
    };
    assert_eq!(message(&delete_order(1, 2, 3)), delete);
    let execution = Body::OrderExecution {
        nanoseconds: 1,
        symbol: 2,
        order: 3,
        trade: 4,
        price: 5,
        size: 6,
        flags: 7,
    };
    assert_eq!(message(&order_execution(1, 2, 3, 4, 5, 6, 7)), execution);
    let clear = Body::SymbolClear {
        nanoseconds: 1,
        symbol: 2,
    };
    assert_eq!(message(&symbol_clear(1, 2)), clear);
    assert_eq!(message(&time(9)), Body::SystemTime { second: 9 });
}

#[test]
fn messages_beside_the_book() {
    let wanted = |security_type: u8, reserved20: u8| Body::SymbolUpdate {
        symbol: 7,
        lot: 100,
        market: b'H'.into(),
        security_type: security_type.into(),
        nanoseconds: 0,
        test: b'N'.into(),
        reserved22: 0,
        ticker: *b"ABC        ",
        opening: *b"09:30:00",
        closing: *b"16:00:00",
        reserved20,
    };
    let mut body = common::update(7);
    assert_eq!(message(&body), wanted(0, 0));
    assert_eq!(proved::body(V1_3, &body), Err(Refusal::at(4, 20)));
    body[20] = b'F';
    let fields = proved::body(V1_3, &body).expect("a good body");
    assert_eq!(Body::of(&fields), Some(wanted(b'F', 0)));
    assert_eq!(message(&body), wanted(0, b'F'));
    let state = Body::SystemState {
        nanoseconds: 1,
        session: 2,
        status: b'S'.into(),
        version: *b"DoM1.3  ",
    };
    assert_eq!(message(&system_state(1, b"DoM1.3  ", 2, b'S')), state);
    let status = Body::TradingStatus {
        nanoseconds: 1,
        symbol: 2,
        trading: 3,
        market: 4,
        short_sale: 5,
    };
    assert_eq!(message(&trading_status(1, 2, &[3, 4, 5])), status);
    let traded = Body::Trade {
        nanoseconds: 1,
        symbol: 2,
        trade: 3,
        correction: 4,
        price: 5,
        size: 6,
        flags: 7,
    };
    assert_eq!(message(&trade(1, 2, 3, 4, 5, 6, 7)), traded);
    let cancel = Body::TradeCancel {
        nanoseconds: 1,
        symbol: 2,
        trade: 3,
        correction: 4,
        price: 5,
        size: 6,
    };
    assert_eq!(message(&trade_cancel(1, 2, 3, 4, 5, 6)), cancel);
}
