//! Request 2: the undefined bits of a Modify's flags, 1 to 7. They are no error and reach no table; the
//! shelf keeps them as they came, and two copies that differ in them alone are differing copies.

mod common;
use common::*;
use second::morning::*;
use second::packet::{read_body, MODIFY_ORDER};
use second::receiver::filled_slot;

/// A Modify of the example's order 500, which has rank 3, with these flags.
fn of_500(flags: u8) -> Vec<u8> {
    modify(7, 500, 10_010_000, 70, flags)
}

/// The row of 500 after that Modify under this number.
fn row_of_500(flags: u8, number: u64) -> [u64; 5] {
    let rank = match flags & 1 {
        1 => number,
        _ => 3,
    };
    [500, 14, 10_010_000, 70, rank]
}

/// The example with a Modify of these flags on the shelf, number 7 behind the missing 6.
fn shelved(flags: u8) -> Desk {
    let mut desk = Desk::example();
    let answer = desk.records(&[(7, of_500(flags))]);
    assert_eq!(answer.counts(), [1, 0, 0, 0, 0]);
    assert_eq!((answer.next, answer.highest), (6, 7));
    desk
}

#[test]
fn every_flag_byte_applies_and_bit_0_alone_tells_what_comes_of_it() {
    let mut plain = [Desk::example(), Desk::example()];
    for (flags, desk) in plain.iter_mut().enumerate() {
        desk.next(of_500(flags as u8));
    }
    assert_ne!(plain[0].orders, plain[1].orders);
    for flags in 0..=255 {
        let mut desk = Desk::example();
        let answer = desk.next(of_500(flags));
        assert_eq!(answer.counts(), [1, 0, 0, 0, 0], "flags {flags}");
        assert_eq!((answer.next, answer.applied, answer.stop), (7, 1, 0));
        assert_eq!(desk.row(0), row_of_500(flags, 6), "flags {flags}");
        // Every byte of both tables and the shelf, and the state with the second.
        assert_eq!(desk, plain[usize::from(flags % 2)], "flags {flags}");
    }
}

/// The recording of request 2, which "was refused with 4".
#[test]
fn a_packet_with_bit_3_set_is_accepted_and_its_neighbours_are_taken() {
    for flags in [8, 9] {
        let mut desk = Desk::example();
        let answer = desk.records(&[
            (6, time(34_201)),
            (7, of_500(flags)),
            (8, buy(7, 503, 10_010_000, 10)),
        ]);
        assert_eq!(answer.counts(), [3, 0, 0, 0, 0]);
        assert_eq!((answer.next, answer.applied, answer.stop), (9, 3, 0));
        assert_eq!(desk.state.second, 34_201);
        assert_eq!(desk.row(0), row_of_500(flags, 7));
        assert_eq!(desk.row(3), [503, 14, 10_010_000, 10, 8]);
    }
}

/// The other fields of a Modify are judged as before, whatever its flags.
#[test]
fn price_and_size_are_judged_beside_any_flags() {
    for flags in 0..=255 {
        let mut desk = Desk::example();
        desk.refuses(4, &record(6, &modify(7, 500, 0, 70, flags)));
        desk.refuses(4, &record(6, &modify(7, 500, 10_010_000, 0, flags)));
    }
}

#[test]
fn the_shelf_keeps_the_flags_as_they_came() {
    for flags in 0..=255 {
        let mut desk = shelved(flags);
        let body = of_500(flags);
        assert_eq!(desk.slot(7), filled_slot(7, &body));
        assert_eq!(desk.slot(7)[10 + FLAGS_OF_MODIFY], flags);
        assert_eq!(desk.records(&[(6, time(1))]).applied, 2);
        assert_eq!(desk.row(0), row_of_500(flags, 7));
        assert_eq!(desk.slot(7), [0; 74]);
    }
}

/// Any two of the 256 flag bytes: alike in all bits is a repeat, all else differs, and the first stays.
#[test]
fn copies_on_the_shelf_are_alike_in_all_bits_or_differ() {
    for first in 0..=255 {
        let mut desk = shelved(first);
        let before = desk.clone();
        for other in 0..=255 {
            let wanted = match first == other {
                true => [0, 0, 0, 1, 0],
                false => [0, 0, 0, 0, 1],
            };
            let answer = desk.records(&[(7, of_500(other))]);
            assert_eq!(answer.counts(), wanted, "{first}, then {other}");
            assert_eq!(desk, before, "{first}, then {other}");
        }
    }
}

/// Bit 5 alone, from the shelf to the book and beyond, in packets of one record to all six.
#[test]
fn two_copies_that_differ_in_bit_5_alone() {
    for flags in 0..=255 {
        let (first, other) = (of_500(flags), of_500(flags ^ 32));
        let told = [
            (10, (7, first.clone())),
            (14, (7, other.clone())),
            (13, (7, first.clone())),
            (10, (6, time(1))),
            (11, (7, first)),
            (11, (7, other)),
        ];
        for most in 1..=told.len() {
            let mut desk = Desk::example();
            for part in told.chunks(most) {
                let mut wanted = [0; 5];
                for (answer, _) in part {
                    wanted[answer - 10] += 1;
                }
                let records: Vec<_> = part.iter().map(|(_, record)| record.clone()).collect();
                assert_eq!(desk.records(&records).counts(), wanted, "flags {flags}");
            }
            assert_eq!((desk.state.next, desk.state.stop), (8, 0));
            assert_eq!(desk.row(0), row_of_500(flags, 7));
        }
    }
}

/// Copies of next's own number: the first is applied at once, so that the others in its packet are old.
#[test]
fn copies_of_next_in_one_packet_are_old() {
    for flags in 0..=255 {
        let mut desk = Desk::example();
        let copies = [flags, flags ^ 32, flags].map(|flags| (6, of_500(flags)));
        assert_eq!(desk.records(&copies).counts(), [1, 2, 0, 0, 0]);
        assert_eq!(desk.row(0), row_of_500(flags, 6));
    }
}

/// Which of two copies was applied shows in the rank where they differ in bit 0 as well.
#[test]
fn the_first_is_applied_and_not_the_copy_that_differs() {
    for flags in 0..=255 {
        let mut desk = shelved(flags);
        let answer = desk.records(&[(7, of_500(flags ^ 33)), (6, time(1))]);
        assert_eq!(answer.counts(), [1, 0, 0, 0, 1]);
        assert_eq!(answer.applied, 2);
        assert_eq!(desk.row(0), row_of_500(flags, 7));
    }
}

/// A Modify that breaks a rule breaks it with any flags, and waits with them as they came.
#[test]
fn a_stopped_modify_keeps_its_flags() {
    for flags in 0..=255 {
        for (rule, body) in [
            (20, modify(9, 500, 1, 1, flags)),
            (22, modify(7, 999, 1, 1, flags)),
        ] {
            let mut desk = Desk::example();
            let answer = desk.next(body.clone());
            assert_eq!((answer.taken, answer.applied, answer.stop), (1, 0, rule));
            assert_eq!(desk.slot(6), filled_slot(6, &body));
            let mut other = body.clone();
            other[FLAGS_OF_MODIFY] ^= 32;
            let answer = desk.records(&[(6, body.clone()), (6, other)]);
            assert_eq!(answer.counts(), [0, 0, 0, 1, 1]);
            assert_eq!(answer.stop, rule);
            assert_eq!(desk.slot(6), filled_slot(6, &body));
        }
    }
}

/// A list and the same list with its undefined bits cleared, delivered alike: the same answers, tables
/// and state after each packet.
#[test]
fn undefined_bits_of_a_delivery_reach_no_table() {
    let mut cleared_bits = 0;
    for seed in seeds(150) {
        let mut dice = Dice::new(seed);
        let settings = ListSettings::drawn(&mut dice);
        let list = list(dice.bits(), settings);
        let mut plain = list.clone();
        for body in &mut plain {
            if body[0] == MODIFY_ORDER {
                cleared_bits += u64::from((body[FLAGS_OF_MODIFY] >> 1).count_ones());
                body[FLAGS_OF_MODIFY] &= 1;
            }
        }
        let (how, seed_of_packets) = (true_delivery(dice.bits()), dice.bits());
        let packets = delivery(V1_3b, seed_of_packets, &list, how);
        let plain_packets = delivery(V1_3b, seed_of_packets, &plain, how);
        assert_eq!(packets.len(), plain_packets.len(), "seed {seed}");
        let mut desk = Desk::new(V1_3b, settings.rows, settings.entries);
        let mut plain_desk = desk.clone();
        for (packet, plain_packet) in packets.iter().zip(&plain_packets) {
            let answer = desk.give(packet);
            assert_eq!(answer, plain_desk.give(plain_packet), "seed {seed}");
            assert_eq!(desk.orders, plain_desk.orders, "seed {seed}");
            assert_eq!(desk.symbols, plain_desk.symbols, "seed {seed}");
            assert_eq!(desk.state, plain_desk.state, "seed {seed}");
        }
    }
    if all_seeds() {
        assert!(cleared_bits > 1_000, "{cleared_bits}");
    }
}

// What the generators make.

/// The flags of a list's Modifies are any byte.
#[test]
fn modifies_of_seeded_lists_carry_every_flag_byte() {
    let mut seen = [0; 256];
    for seed in seeds(60) {
        let settings = ListSettings {
            messages: 200,
            ..ListSettings::default()
        };
        for body in list(seed, settings) {
            if body[0] == MODIFY_ORDER {
                seen[usize::from(body[FLAGS_OF_MODIFY])] += 1;
            }
        }
    }
    if all_seeds() {
        assert!(seen.iter().all(|count| *count > 0), "{seen:?}");
    }
}

/// A body that is made bad is so by its price or size, never by its flags.
#[test]
fn no_body_is_made_bad_by_its_flags() {
    let mut modifies = 0;
    for seed in seeds(2_000) {
        let (mut body, refusal) = told_body(V1_3b, seed, 4);
        if body[0] == MODIFY_ORDER {
            modifies += 1;
            for flags in 0..=255 {
                body[FLAGS_OF_MODIFY] = flags;
                assert_eq!(
                    read_body(V1_3b, &body),
                    Err(refusal),
                    "seed {seed}, flags {flags}"
                );
            }
        }
    }
    if all_seeds() {
        assert!(modifies > 100, "{modifies}");
    }
}

/// Of a Modify, one differing copy in four differs in undefined bits alone, and each of the seven does.
#[test]
fn differing_copies_by_undefined_bits_alone() {
    let (mut alone, mut bits) = (0, 0);
    for seed in seeds(2_000) {
        let body = of_500(Dice::new(seed ^ 0xF1A6).bits() as u8);
        let copy = differing_copy(V1_3b, seed, &body);
        assert_ne!(copy, body, "seed {seed}");
        assert!(read_body(V1_3b, &copy).is_ok(), "seed {seed}");
        if differ_in_undefined_bits_alone(&copy, &body) {
            alone += 1;
            bits |= copy[FLAGS_OF_MODIFY] ^ body[FLAGS_OF_MODIFY];
        }
    }
    if all_seeds() {
        assert!((400..600).contains(&alone), "{alone}");
        assert_eq!(bits, 0b1111_1110);
    }
}

#[test]
fn what_differs_in_undefined_bits_alone() {
    let body = of_500(0b0010_0001);
    for flags in 0..=255 {
        let alone = flags & 1 == 1 && flags != 0b0010_0001;
        assert_eq!(differ_in_undefined_bits_alone(&body, &of_500(flags)), alone);
    }
    // Another field as well, another length, and the same byte of another message: a size's highest.
    let mut other = of_500(1);
    other[1] = 9;
    assert!(!differ_in_undefined_bits_alone(&body, &other));
    let longer = [of_500(1), vec![0]].concat();
    assert!(!differ_in_undefined_bits_alone(&body, &longer));
    let [one, other] = [0x100_0000, 0x300_0000].map(|size| trade_cancel(0, 7, 1, 0, 1, size));
    assert!(!differ_in_undefined_bits_alone(&one, &other));
    assert!(!differ_in_undefined_bits_alone(&[], &body));
}
