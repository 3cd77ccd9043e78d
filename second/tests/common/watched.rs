//! Demand 3 over seeded lists and deliveries, of any receiver and of each edition (request 10: "Demands 2 and 3
//! are read per edition, for a run that keeps the one chosen"): after each accepted packet the tables
//! and the second are those of the list's first k messages; what was answered is applied or named; two
//! receivers agree. The second program's book is the list's meaning.

use super::{all_seeds, seeds, well_formed, Desk, Edition, Reference};
use second::morning::*;
use second::packet::{read_packet, Refusal};
#[cfg(linked)]
use second::proved::Proved;
use second::receiver::{Answer, State};
use std::fmt::Debug;

/// The three that demand 3 speaks of: order table, symbol table and second.
pub type Three = (Vec<u64>, Vec<u8>, u64);

pub trait Receiver: Clone + Debug + PartialEq {
    /// Started in an edition, with these capacities.
    fn started(edition: Edition, rows: usize, entries: usize) -> Self;
    /// The same with an index.
    fn with_an_index(edition: Edition, rows: usize, entries: usize) -> Self;
    /// A packet's answer, or its refusal.
    fn hear(&mut self, packet: &[u8]) -> Result<Answer, Refusal>;
    fn state(&self) -> State;
    fn three(&self) -> Three;
}

impl Receiver for Desk {
    fn started(edition: Edition, rows: usize, entries: usize) -> Desk {
        Desk::new(edition, rows, entries)
    }

    fn with_an_index(edition: Edition, rows: usize, entries: usize) -> Desk {
        Desk::with_index(edition, rows, entries)
    }

    fn hear(&mut self, packet: &[u8]) -> Result<Answer, Refusal> {
        self.give(packet)
    }

    fn state(&self) -> State {
        self.state
    }

    fn three(&self) -> Three {
        (self.orders.clone(), self.symbols.clone(), self.state.second)
    }
}

/// The same receiver with an index (request 9: "Both give the same answers and the same tables on every run from a
/// start that leaves tables and index to them").
#[derive(Clone, Debug, PartialEq)]
pub struct Indexed<R>(pub R);

impl<R: Receiver> Receiver for Indexed<R> {
    fn started(edition: Edition, rows: usize, entries: usize) -> Self {
        Indexed(R::with_an_index(edition, rows, entries))
    }

    fn with_an_index(edition: Edition, rows: usize, entries: usize) -> Self {
        Self::started(edition, rows, entries)
    }

    fn hear(&mut self, packet: &[u8]) -> Result<Answer, Refusal> {
        self.0.hear(packet)
    }

    fn state(&self) -> State {
        self.0.state()
    }

    fn three(&self) -> Three {
        self.0.three()
    }
}

#[cfg(linked)]
impl Receiver for Proved {
    fn started(edition: Edition, rows: usize, entries: usize) -> Proved {
        Proved::new(edition, rows, entries).expect("capacities in the limits")
    }

    fn with_an_index(edition: Edition, rows: usize, entries: usize) -> Proved {
        Proved::with_index(edition, rows, entries).expect("capacities in the limits")
    }

    fn hear(&mut self, packet: &[u8]) -> Result<Answer, Refusal> {
        self.receive(packet)
    }

    fn state(&self) -> State {
        let [next, second, stop, edition] = self.state;
        assert!(edition < 2, "0 or 1 from a start on");
        State {
            next,
            second,
            stop: u8::try_from(stop).expect("0 or 20 to 27"),
            edition: Edition::of_number(edition),
        }
    }

    fn three(&self) -> Three {
        (self.orders.clone(), self.symbols.clone(), self.state[1])
    }
}

/// A receiver watched through a delivery of true copies.
struct Watched<'a, R> {
    seed: u64,
    receiver: R,
    /// The same records one to a packet, so that each record's answer is seen.
    shadow: R,
    reference: Reference<'a>,
    answered: Vec<bool>,
    /// The three after each k that the receiver reported.
    seen: Vec<Option<Three>>,
}

impl<'a, R: Receiver> Watched<'a, R> {
    fn new(seed: u64, list: &'a [Vec<u8>], settings: ListSettings) -> Watched<'a, R> {
        assert!(well_formed(settings.edition, list), "seed {seed}");
        let receiver = R::started(settings.edition, settings.rows, settings.entries);
        Watched {
            seed,
            shadow: receiver.clone(),
            receiver,
            reference: Reference::new(settings.edition, list, settings.rows, settings.entries),
            answered: vec![false; list.len() + 1],
            seen: vec![None; list.len() + 1],
        }
    }

    fn give(&mut self, packet: &[u8]) {
        let before = self.receiver.clone();
        match self.receiver.hear(packet) {
            Err(refusal) => {
                let seed = self.seed;
                let wanted = read_packet(self.reference.edition, packet);
                assert_eq!(wanted, Err(refusal), "seed {seed}");
                assert_eq!(self.receiver, before, "seed {seed}");
            }
            Ok(answer) => {
                self.is_made_of_the_first(before.state().next, &answer);
                self.note_answers(packet, &answer);
                self.is_applied_or_named(&answer);
            }
        }
    }

    /// The first half: the three are made by the list's first k messages, no more and no less.
    fn is_made_of_the_first(&mut self, next_before: u64, answer: &Answer) {
        let seed = self.seed;
        let state = self.receiver.state();
        assert_eq!(answer.next, state.next, "seed {seed}");
        assert_eq!(state.edition, self.reference.edition, "seed {seed}");
        assert_eq!(answer.applied, answer.next - next_before, "seed {seed}");
        let k = answer.next - 1;
        self.reference.go_to(k);
        let three = self.receiver.three();
        assert_eq!(three.0, self.reference.orders, "seed {seed}");
        assert_eq!(three.1, self.reference.symbols, "seed {seed}");
        assert_eq!(three.2, self.reference.second, "seed {seed}");
        self.seen[k as usize] = Some(three);
    }

    /// Each record's own answer, which must add up to the packet's.
    fn note_answers(&mut self, packet: &[u8], answer: &Answer) {
        let seed = self.seed;
        let mut sums = [0; 5];
        for one in read_packet(self.reference.edition, packet).expect("an accepted packet") {
            let alone = record(one.number, one.body);
            let answered = self.shadow.hear(&alone).expect("a good record");
            for (sum, count) in sums.iter_mut().zip(answered.counts()) {
                *sum += count;
            }
            assert_eq!(
                answered.differing, 0,
                "seed {seed}: true copies never differ"
            );
            self.answered[one.number as usize] |= answered.too_far == 0;
        }
        assert_eq!(sums, answer.counts(), "seed {seed}");
        assert_eq!(self.shadow, self.receiver, "seed {seed}");
    }

    /// The second half: what was answered up to j is applied, or message k + 1 is named.
    fn is_applied_or_named(&self, answer: &Answer) {
        let seed = self.seed;
        let mut j = 0;
        while self.answered.get(j as usize + 1) == Some(&true) {
            j += 1;
        }
        let rule = self.reference.rule_of_next();
        let named = answer.stop != 0 && Some(answer.stop) == rule;
        assert!(answer.next > j || named, "seed {seed}");
        // A stop is never told of a message that the list can apply.
        assert!(answer.stop == 0 || named, "seed {seed}");
    }

    /// Two receivers on one list with equal k agree in the three. Answers how often they met.
    fn agrees_with(&self, other: &Watched<R>) -> u64 {
        let mut met = 0;
        for (mine, other) in self.seen.iter().zip(&other.seen) {
            if let (Some(mine), Some(other)) = (mine, other) {
                assert_eq!(mine, other, "seed {}", self.seed);
                met += 1;
            }
        }
        met
    }

    /// Reached the list's end, or names the first message that the list can't apply.
    fn is_done(&self) -> bool {
        self.reference.k == self.reference.list.len() as u64
            || self.reference.rule_of_next() == Some(self.receiver.state().stop)
    }
}

pub fn deliveries_of_true_copies<R: Receiver>(edition: Edition, count: u64) {
    let mut stops = [0; 28];
    let (mut whole, mut met, mut kinds) = (0, 0, [0; 256]);
    for seed in seeds(count) {
        let mut dice = Dice::new(seed);
        let settings = ListSettings::drawn(&mut dice).of(edition);
        let list = list(dice.bits(), settings);
        let mut pair: Vec<Watched<R>> = Vec::new();
        for _ in 0..2 {
            let how = true_delivery(dice.bits());
            let mut watched: Watched<R> = Watched::new(seed, &list, settings);
            for packet in delivery(edition, dice.bits(), &list, how) {
                watched.give(&packet);
            }
            if how.fill {
                assert!(watched.is_done(), "seed {seed}");
                whole += 1;
            }
            stops[watched.receiver.state().stop as usize] += 1;
            for entry in watched.receiver.three().1.chunks(42) {
                kinds[usize::from(entry[20])] += u64::from(entry[0] == 1);
            }
            pair.push(watched);
        }
        met += pair[0].agrees_with(&pair[1]);
    }
    if all_seeds() {
        assert!(whole > count / 3, "{whole} were filled");
        assert!(met > count, "the two receivers met {met} times");
        assert!(stops[20..=26].iter().all(|count| *count > 3), "{stops:?}");
        assert_eq!(stops[27], 0);
        // Entries end with both Security Types; from 1.3.a on with other bytes there too, and in 1.3 with none.
        let letters = [kinds[usize::from(b'E')], kinds[usize::from(b'F')]];
        assert!(letters.iter().all(|letter| *letter > count), "{letters:?}");
        let others: u64 = kinds.iter().sum::<u64>() - letters.iter().sum::<u64>();
        assert_eq!(others == 0, edition.has_security_type());
    }
}

/// No line, no order: any numbers in any packets, near the next number or far from it.
pub fn records_shuffled_at_will<R: Receiver>(edition: Edition, count: u64) {
    let mut done = 0;
    for seed in seeds(count) {
        let mut dice = Dice::new(seed ^ 0x5EED);
        let settings = ListSettings::drawn(&mut dice).of(edition);
        let list = list(dice.bits(), settings);
        let mut watched: Watched<R> = Watched::new(seed, &list, settings);
        for _ in 0..300 {
            let next = watched.receiver.state().next;
            watched.give(&near_or_far(&mut dice, &list, next));
            if watched.is_done() && dice.below(10) == 0 {
                break;
            }
        }
        done += u64::from(watched.is_done());
    }
    assert!(!all_seeds() || done > count / 2, "{done} came to an end");
}

fn near_or_far(dice: &mut Dice, list: &[Vec<u8>], next: u64) -> Vec<u8> {
    let mut records = Vec::new();
    for _ in 0..dice.between(1, 20) {
        let number = match dice.below(8) {
            0 => dice.between(1, list.len() as u64),
            1 => dice.between(next.saturating_sub(5), next + 70),
            _ => dice.between(next, next + 6),
        };
        let number = number.clamp(1, list.len() as u64);
        records.push((number, list[number as usize - 1].clone()));
    }
    packet(&records)
}

/// Lists in tables of full capacity, to the last row and entry.
pub fn full_capacities<R: Receiver>(edition: Edition, count: u64) {
    for seed in seeds(count) {
        let mut dice = Dice::new(seed);
        let settings = ListSettings::filling(25 + (seed % 2) as u8).of(edition);
        let list = list(dice.bits(), settings);
        let mut how = true_delivery(dice.bits());
        how.records = how.records.max(12);
        how.fill = true;
        let mut watched: Watched<R> = Watched::new(seed, &list, settings);
        for packet in delivery(edition, dice.bits(), &list, how) {
            watched.give(&packet);
        }
        let state = watched.receiver.state();
        assert_eq!(state.next, 2_651, "seed {seed}");
        assert_eq!(state.stop, settings.ending, "seed {seed}");
        assert_eq!(watched.reference.rule_of_next(), Some(settings.ending));
        let (orders, symbols, _) = watched.receiver.three();
        assert_eq!(second::views::live_orders(&orders), Ok(1_600));
        assert_eq!(second::views::used_entries(&symbols), Ok(1_000));
    }
}
