//! The plain engine against the independent reference.

use bench::plain;
use comparison::suites::{self, report};
use comparison::Judging;
use reference::{Judgement, Refusal, Strike};

struct Plain;

impl Judging for Plain {
    fn open(&self, sheet: &[u8], set: &mut [u64]) -> Result<u64, Refusal> {
        plain::open(sheet, set)
    }

    fn strike(&self, sheet: &[u8], set: &mut [u64], number: u64) -> Result<Strike, Refusal> {
        plain::strike(sheet, set, number)
    }

    fn settle(&self, sheet: &[u8], set: &mut [u64]) -> Result<u64, Refusal> {
        plain::settle(sheet, set)
    }

    fn judge(&self, sheet: &[u8], set: &mut [u64]) -> Result<Judgement, Refusal> {
        plain::judge(sheet, set)
    }
}

#[test]
fn worked_sheets() {
    suites::worked_numbers(&Plain);
    report("plain, worked sheets", &suites::worked_dominoes(&Plain));
}

#[test]
fn claims_alike() {
    suites::judged_claims(&Plain);
}

#[test]
fn small_sheets() {
    report("plain, c + L up to 7", &suites::small_dominoes(&Plain));
}

#[test]
fn large_sheets() {
    report("plain, c + L of 8 and 9", &suites::large_dominoes(&Plain));
}
