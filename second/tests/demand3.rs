//! Demand 3 of the second program, in each edition, by scans and through an index (request 9). Run one seed again with SECOND_SEED=number.

mod common;
use common::watched::{self, Indexed};
use common::{Desk, EDITIONS};

#[test]
fn deliveries_of_true_copies() {
    for edition in EDITIONS {
        watched::deliveries_of_true_copies::<Desk>(edition, 500);
        watched::deliveries_of_true_copies::<Indexed<Desk>>(edition, 200);
    }
}

#[test]
fn records_shuffled_at_will() {
    for edition in EDITIONS {
        watched::records_shuffled_at_will::<Desk>(edition, 150);
        watched::records_shuffled_at_will::<Indexed<Desk>>(edition, 60);
    }
}

#[test]
fn full_capacities() {
    for edition in EDITIONS {
        watched::full_capacities::<Desk>(edition, 4);
        watched::full_capacities::<Indexed<Desk>>(edition, 2);
    }
}
