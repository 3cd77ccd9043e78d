//! Order and symbol IDs that meet in an index (request 9): chosen against its first slots, tags and hints.

use super::Dice;
use crate::index::{first_slot, tag, HINT_NUMBERS};

/// Any ID whose search begins at this slot.
pub fn order_at_slot(dice: &mut Dice, slot: usize) -> u64 {
    loop {
        let order = dice.bits();
        if first_slot(order) == slot {
            return order;
        }
    }
}

/// Further IDs with the same first slot and other tags: both halves of an ID are added up for the slot.
pub fn orders_of_slot(order: u64, count: usize) -> Vec<u64> {
    let (high, low) = (order >> 32, order % (1 << 32));
    let mut orders = Vec::new();
    for step in 1..=count as u64 {
        let (high, low) = (
            (high + step) % (1 << 32),
            low.wrapping_sub(step) % (1 << 32),
        );
        orders.push((high << 32) + low);
    }
    orders.retain(|other| first_slot(*other) == first_slot(order));
    orders
}

/// All IDs with an ID's tag, which differ from it by multiples of 2^47, and with its first slot; itself included.
pub fn orders_of_slot_and_tag(order: u64) -> Vec<u64> {
    let below = order % (1 << 47);
    let all = (0..1 << 17).map(|high| (high << 47) + below);
    all.filter(|other| first_slot(*other) == first_slot(order) && tag(*other) == tag(order))
        .collect()
}

/// All IDs with an ID's tag that stand at another first slot: some of them.
pub fn orders_of_tag(dice: &mut Dice, order: u64, count: usize) -> Vec<u64> {
    let below = order % (1 << 47);
    (0..count)
        .map(|_| (dice.below(1 << 17) << 47) + below)
        .collect()
}

/// IDs that meet in every way, around a slot that is most often near the last one.
pub fn colliding_orders(dice: &mut Dice) -> Vec<u64> {
    let slot = dice.pick(&[32_767, 32_767, 32_766, 32_760, 0, 1, 20_251]);
    let first = order_at_slot(dice, slot);
    let mut orders = orders_of_slot_and_tag(first);
    let (count, tags) = (dice.below(12) as usize, dice.below(4) as usize);
    orders.extend(orders_of_slot(first, count));
    orders.extend(orders_of_tag(dice, first, tags));
    let neighbour = order_at_slot(dice, (slot + 1) % 32_768);
    orders.extend(orders_of_slot_and_tag(neighbour));
    orders.sort();
    orders.dedup();
    dice.shuffle(&mut orders);
    orders
}

/// Symbols that share a hint.
pub fn symbols_of_hint(dice: &mut Dice, count: usize) -> Vec<u32> {
    let first = dice.below(HINT_NUMBERS as u64) as u32;
    let mut symbols = Vec::new();
    while symbols.len() < count {
        let symbol = first + dice.below(1 << 18) as u32 * HINT_NUMBERS as u32;
        if !symbols.contains(&symbol) {
            symbols.push(symbol);
        }
    }
    symbols
}

#[cfg(test)]
mod tests {
    use super::*;

    #[test]
    fn orders_meet_as_they_were_chosen() {
        // By hand: 500, and what differs from it by 34,542, 82,807 and 117,349 times 2^47.
        let all = [0, 34_542, 82_807, 117_349].map(|high: u64| (high << 47) + 500);
        assert_eq!(orders_of_slot_and_tag(500), all);
        let others = orders_of_slot(1 << 40, 9);
        assert_eq!(others.len(), 9);
        assert!(others.iter().all(|other| tag(*other) != tag(1 << 40)));
        let mut dice = Dice::new(1);
        assert_eq!(first_slot(order_at_slot(&mut dice, 32_767)), 32_767);
        let symbols = symbols_of_hint(&mut dice, 5);
        assert!(symbols
            .iter()
            .all(|symbol| symbol % 16_384 == symbols[0] % 16_384));
        for seed in 0..50 {
            assert!(colliding_orders(&mut Dice::new(seed)).len() >= 4);
        }
    }
}
