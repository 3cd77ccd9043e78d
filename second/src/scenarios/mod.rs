//! What the proved library and the second program are both given: named scenarios, each a function
//! of its seed alone, the edition of its receivers too. A scenario makes calls of `Twins`, which compares.

mod callers;
mod conversions;
mod editions;
mod indexes;
mod mornings;
mod offsets;
mod packets;
mod pieces;
mod timestamps;
mod writings;

use crate::edition::Edition;
use crate::morning::Dice;
use crate::packet::Refusal;
use crate::twins::{Difference, Tally, Twins};

type Outcome = Result<(), Difference>;

/// A named generator, and how often its name is drawn.
pub struct Scenario {
    pub name: &'static str,
    pub weight: u64,
    run: fn(&mut Dice, &mut Twins) -> Outcome,
}

const fn scenario(
    name: &'static str,
    weight: u64,
    run: fn(&mut Dice, &mut Twins) -> Outcome,
) -> Scenario {
    Scenario { name, weight, run }
}

pub const SCENARIOS: [Scenario; 27] = [
    scenario("morning", 60, mornings::morning),
    scenario("rules", 60, mornings::rules),
    scenario("small-tables", 50, mornings::small_tables),
    scenario("full-tables", 8, mornings::full_tables),
    scenario("filling", 1, mornings::filling),
    scenario("returning-ids", 50, mornings::returning_ids),
    scenario("window", 50, mornings::window),
    scenario("shelved-stop", 30, mornings::shelved_stop),
    scenario("altered", 100, callers::altered),
    scenario("spoiled", 40, callers::spoiled),
    scenario("edges", 60, callers::edges),
    scenario("sizes", 40, callers::sizes),
    scenario("largest", 20, callers::largest),
    scenario("refused", 50, packets::refused),
    scenario("garbage", 30, packets::garbage),
    scenario("timestamps", 20, timestamps::timestamps),
    scenario("offsets", 20, offsets::offsets),
    scenario("editions", 30, editions::editions),
    scenario("converted", 22, conversions::converted),
    scenario("written", 15, writings::written),
    scenario("pieces", 40, pieces::pieces),
    scenario("long-pieces", 1, pieces::long_pieces),
    scenario("altered-index", 80, indexes::altered_index),
    scenario("colliding-ids", 40, indexes::colliding_ids),
    scenario("sharing-hints", 20, indexes::sharing_hints),
    scenario("built-anew", 1, indexes::built_anew),
    scenario("16,000-orders", 1, indexes::sixteen_thousand),
];

/// What came of a seed.
pub struct Ran {
    pub name: &'static str,
    pub tally: Tally,
    pub difference: Option<Difference>,
}

/// The scenario of a seed.
pub fn run(seed: u64) -> Ran {
    let mut dice = Dice::new(seed);
    let scenario = drawn(&mut dice);
    let mut twins = Twins::new();
    twins.start_number = edition_number(&mut dice);
    let difference = (scenario.run)(&mut dice, &mut twins)
        .and_then(|()| twins.views(&mut dice))
        .and_then(|()| twins.sheet(&mut dice))
        .and_then(|()| twins.end())
        .err();
    Ran {
        name: scenario.name,
        tally: twins.tally,
        difference,
    }
}

/// The name that a seed draws.
pub fn name_of(seed: u64) -> &'static str {
    drawn(&mut Dice::new(seed)).name
}

fn drawn(dice: &mut Dice) -> &'static Scenario {
    let mut left = dice.below(SCENARIOS.iter().map(|scenario| scenario.weight).sum());
    for scenario in &SCENARIOS {
        if left < scenario.weight {
            return scenario;
        }
        left -= scenario.weight;
    }
    &SCENARIOS[0]
}

/// An edition's number, or another one.
fn edition_number(dice: &mut Dice) -> u64 {
    match dice.below(8) {
        0..=3 => Edition::V1_3.number(),
        4..=6 => Edition::V1_3b.number(),
        _ => other_number(dice),
    }
}

/// Neither 0 nor 1: such as are 1 in their low bits, and any.
fn other_number(dice: &mut Dice) -> u64 {
    match dice.below(3) {
        0 => dice.between(2, 9),
        1 => dice.pick(&[1 + (1 << 8), 1 + (1 << 32), 1 + (1 << 63), 1 << 8, u64::MAX]),
        _ => dice.bits() | 2,
    }
}

/// One packet to both, and now and then their views and sheets.
fn give(dice: &mut Dice, twins: &mut Twins, packet: &[u8]) -> Outcome {
    let _ = twins.receive(packet)?;
    // Large tables make long sheets: fewer of them.
    let small = twins.second().orders.len() <= 500;
    if dice.chance(if small { 250 } else { 30 }) {
        twins.views(dice)?;
    }
    if dice.chance(if small { 100 } else { 2 }) {
        twins.sheet(dice)?;
    }
    Ok(())
}

/// A packet that must come to this next number and stop, or to this refusal.
fn comes_to(twins: &mut Twins, packet: &[u8], wanted: Result<(u64, u8), Refusal>) -> Outcome {
    let answer = twins.receive(packet)?;
    if answer.map(|answer| (answer.next, answer.stop)) == wanted {
        return Ok(());
    }
    Err(format!("both: {answer:?}, and {wanted:?} is told"))
}

fn give_all(dice: &mut Dice, twins: &mut Twins, packets: &[Vec<u8>]) -> Outcome {
    for packet in packets {
        give(dice, twins, packet)?;
    }
    Ok(())
}
