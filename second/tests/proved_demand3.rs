//! Demand 3 of the proved library, in each edition and with both engines (request 9), as the second program's book has its meaning. Run one
//! seed again with SECOND_SEED=number.
#![cfg(linked)]

mod common;
use common::watched::{self, Indexed};
use common::EDITIONS;
use second::proved::Proved;

#[test]
fn deliveries_of_true_copies() {
    for edition in EDITIONS {
        watched::deliveries_of_true_copies::<Proved>(edition, 400);
        watched::deliveries_of_true_copies::<Indexed<Proved>>(edition, 200);
    }
}

#[test]
fn records_shuffled_at_will() {
    for edition in EDITIONS {
        watched::records_shuffled_at_will::<Proved>(edition, 150);
        watched::records_shuffled_at_will::<Indexed<Proved>>(edition, 60);
    }
}

#[test]
fn full_capacities() {
    for edition in EDITIONS {
        watched::full_capacities::<Proved>(edition, 2);
        watched::full_capacities::<Indexed<Proved>>(edition, 2);
    }
}
