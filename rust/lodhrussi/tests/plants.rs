//! The check of a plant, against the independent reference and 002's Table 1.

mod product;

use comparison::plants::{every, fixed, models, suites};
use comparison::suites::report;
use product::Product;

#[test]
fn worked_plants() {
    fixed::worked(&Product);
}

#[test]
fn limits() {
    fixed::most_individuals(&Product);
    fixed::any_individual_breaks(&Product);
    fixed::any_pair_breaks(&Product);
}

#[test]
fn most_connections() {
    fixed::most_connections(&Product);
}

#[test]
fn made_up_plants() {
    let tally = suites::made_up_plants(&Product);
    report("plants of sheets with c + L up to 7", &tally);
}

#[test]
fn large_sheets() {
    let tally = suites::large_sheets(&Product);
    report("plants of sheets with c + L of 8 to 12", &tally);
}

#[test]
fn large_plants() {
    let tally = suites::large_plants(&Product);
    report("plants of more than 128 items", &tally);
}

#[test]
fn faulty_plants() {
    let tally = suites::faulty_plants(&Product);
    report("plants with a known fault", &tally);
}

#[test]
fn damaged_plants() {
    let tally = suites::damaged_plants(&Product);
    report("damaged plants", &tally);
}

#[test]
fn faulty_sheets() {
    let tally = suites::faulty_sheets(&Product);
    report("plants of damaged sheets", &tally);
}

#[test]
fn against_table_1() {
    let tally = models::against_table_1(&Product);
    report("plants against Table 1 and judging", &tally);
}

#[test]
fn every_plant_of_few_items() {
    let every = every::few_individuals(&Product);
    report("every plant of one to three items", &every);
}
