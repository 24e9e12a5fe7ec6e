//! Checks a stored counterexample: that it refutes the statement under its
//! changed law, and that the document's law is not refuted by it.

use super::text::Stored;
use crate::law::Law;

/// What is wrong with a stored counterexample; empty if nothing is.
pub fn faults(stored: &Stored) -> Vec<String> {
    let Stored { law, part, case } = stored;
    let mut faults = Vec::new();
    let mut need = |true_so_far: bool, what: &str| {
        if !true_so_far {
            faults.push(what.to_string());
        }
    };
    need(*law != Law::Document, "it names no change");
    need(case.table == case.least_table(*law), "the table is not the least one under the change");
    need(case.supposed(*law), "under the change the case is not as supposed");
    need(case.false_parts(*law).contains(part), "under the change the part is not false");
    if *law == Law::PartnerNotAmbientDiffers {
        need(case.supposed(Law::Document), "under the document's law the case is not as supposed");
        need(case.false_parts(Law::Document).is_empty(), "under the document's law a part is false");
    } else {
        need(!case.accepted(Law::Document), "under the document's law the table is accepted");
    }
    faults
}
