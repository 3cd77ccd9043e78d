//! Seeded mornings to compare programs with. Everything is a function of a seed and a few settings,
//! so that a failing seed can be run again. All chances are in 1,000.
//!
//! `dice` is what is drawn from, `messages` has bodies, records, packets and recordings, `lists` makes
//! lists of well-formed messages, `delivery` their packets, `faults` bad packets, `conversions` what the
//! other edition is made of, `writings` what a writer is given, `texts` damages mornings as text, and `damage` alters
//! tables, shelves and states.

mod collisions;
mod conversions;
mod damage;
mod delivery;
mod dice;
mod faults;
mod lists;
mod messages;
mod texts;
mod writings;

pub use collisions::*;
pub use conversions::*;
pub use damage::*;
pub use delivery::*;
pub use dice::Dice;
pub use faults::*;
pub use lists::*;
pub use messages::*;
pub use texts::*;
pub use writings::*;

#[cfg(test)]
mod tests {
    use super::*;
    use crate::edition::EDITIONS;

    #[test]
    fn a_seed_gives_the_same_bytes_again() {
        for edition in EDITIONS {
            assert_eq!(drawn_recording(edition, 3), drawn_recording(edition, 3));
            assert_ne!(drawn_recording(edition, 3), drawn_recording(edition, 4));
        }
        assert_eq!(case(3, 500), case(3, 500));
        assert_ne!(case(3, 500), case(4, 500));
    }
}
