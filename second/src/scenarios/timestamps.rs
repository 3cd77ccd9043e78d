//! Timestamps around their limit (request 6), in each of the eleven messages, in packets and on the shelf.
//! What must come of each is told here, so that a slip of both programs shows too.

use super::{comes_to, Outcome};
use crate::edition::Edition;
use crate::examples::example_list;
use crate::morning::*;
use crate::packet::*;
use crate::receiver::*;
use crate::twins::Twins;

/// The number behind document 01's example, which every trial begins with.
const NEXT: u64 = 6;

/// Each kind of message, with its Timestamp around the limit, as the next message and on the shelf.
pub(super) fn timestamps(dice: &mut Dice, twins: &mut Twins) -> Outcome {
    let mut kinds = TYPES_AND_LENGTHS;
    dice.shuffle(&mut kinds);
    for (kind, _) in kinds {
        let nanoseconds = around_the_limit(dice);
        next_message(dice, twins, kind, nanoseconds)?;
        on_the_shelf(dice, twins, kind, nanoseconds)?;
        twins.views(dice)?;
    }
    Ok(())
}

fn around_the_limit(dice: &mut Dice) -> u32 {
    match dice.below(4) {
        0 => good_nanoseconds(dice),
        1 => LAST_NANOSECOND,
        _ => bad_nanoseconds(dice),
    }
}

/// "The largest good value is 999,999,999, in every message that carries the field": not in System Time.
fn good(kind: u8, nanoseconds: u32) -> bool {
    kind == SYSTEM_TIME || nanoseconds <= 999_999_999
}

/// A message that the example can apply. A Symbol Update opens and closes at any bytes, which are no
/// Timestamps.
fn of_the_example(edition: Edition, dice: &mut Dice, kind: u8, nanoseconds: u32) -> Vec<u8> {
    let told = Told {
        nanoseconds,
        symbol: 7,
        order: if kind == ADD_ORDER { 503 } else { 500 },
        price: 10_000_000,
        size: 100,
    };
    let mut body = body_telling(edition, dice, kind, told);
    if kind == SYMBOL_UPDATE {
        body[25..41].fill_with(|| dice.bits() as u8);
    }
    body
}

/// The next message, alone or among good ones. Where it is bad, its packet is refused whole and leaves a
/// gap, behind which messages wait until a true copy comes.
fn next_message(dice: &mut Dice, twins: &mut Twins, kind: u8, nanoseconds: u32) -> Outcome {
    example(twins)?;
    let body = of_the_example(twins.edition(), dice, kind, nanoseconds);
    let mut records = vec![(NEXT, body.clone())];
    let behind = dice.below(3);
    for place in 1..=behind {
        records.push((NEXT + place, system_time(place as u32)));
    }
    if dice.chance(300) {
        dice.shuffle(&mut records);
    }
    let all = NEXT + 1 + behind;
    if good(kind, nanoseconds) {
        return comes_to(twins, &packet(&records), Ok((all, 0)));
    }
    // Each System Time before it takes 15 bytes; its own Timestamp lies behind 10 of header and its type.
    let before = records.iter().take_while(|(number, _)| *number != NEXT);
    let told = Refusal::at(4, 15 * before.count() + 11);
    comes_to(twins, &packet(&records), Err(told))?;
    comes_to(twins, &record(all, &system_time(9)), Ok((NEXT, 0)))?;
    for (number, body) in &mut records {
        if *number == NEXT {
            set_timestamp(body, good_nanoseconds(dice));
        }
    }
    comes_to(twins, &packet(&records), Ok((all + 1, 0)))
}

/// A good message on the shelf, behind the missing next one, whose Timestamp the caller alters. What is
/// bad there stops the work when its turn comes (27), and what is good is applied.
fn on_the_shelf(dice: &mut Dice, twins: &mut Twins, kind: u8, nanoseconds: u32) -> Outcome {
    example(twins)?;
    let earlier = good_nanoseconds(dice);
    let body = of_the_example(twins.edition(), dice, kind, earlier);
    let shelved = packet(&[(NEXT + 1, body), (NEXT + 2, system_time(2))]);
    comes_to(twins, &shelved, Ok((NEXT, 0)))?;
    twins.alter(|desk| {
        let slot = slot_mut(&mut desk.shelf, NEXT + 1);
        set_timestamp(&mut slot[10..], nanoseconds);
    });
    let wanted = match good(kind, nanoseconds) {
        true => (NEXT + 3, 0),
        false => (NEXT + 1, 27),
    };
    comes_to(twins, &record(NEXT, &system_time(1)), Ok(wanted))
}

/// The example, numbers 1 to 5, in small tables.
fn example(twins: &mut Twins) -> Outcome {
    twins.restart(4, 2)?;
    let list = all_written_in(twins.edition(), example_list());
    let opening = packet(&numbered(&list, 1, 5));
    comes_to(twins, &opening, Ok((NEXT, 0)))
}
