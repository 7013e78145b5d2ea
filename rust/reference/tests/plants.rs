//! The check of a plant (document 02, N10): worked by hand, against 002's Table 1 on
//! axioms as written, and against judging.

use comparison::plants::{every, fixed, models};
use comparison::suites::report;
use comparison::Reference;

#[test]
fn worked_plants() {
    fixed::worked(&Reference);
}

#[test]
fn limits() {
    fixed::most_individuals(&Reference);
    fixed::most_connections(&Reference);
    fixed::any_individual_breaks(&Reference);
    fixed::any_pair_breaks(&Reference);
}

#[test]
fn against_table_1() {
    let tally = models::against_table_1(&Reference);
    report("plants against Table 1 and judging", &tally);
}

#[test]
fn every_plant_of_few_individuals() {
    let every = every::few_individuals(&Reference);
    report("every plant of one to three individuals", &every);
}
