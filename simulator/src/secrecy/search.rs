//! The search for counterexamples, under the document's law or a changed one.

use super::{answer, on_sheet, pairs, shrink, Case, Event};
use crate::law::Law;
use crate::random::Random;
use crate::record::{Itinerary, Kind, Record};
use crate::table::sheet;

/// What a search went through; a search that did nothing would prove nothing.
#[derive(Clone, Copy, Debug, Default)]
pub struct Tally {
    pub drawn: usize,
    pub supposed: usize,
    /// Supposed cases in which x and y differ, by more than clients, and by clients of hidden records.
    pub different: usize,
    pub by_clients: usize,
    pub steps: usize,
    /// Steps done by an actor on the sheet, and by one off it in x or y.
    pub shown_done: usize,
    pub hidden_done: usize,
    /// Copies done in x or y, and those by which suspect ambients came to be.
    pub copies: usize,
    pub suspects_copied: usize,
    /// Supposed cases with copies at whose end the sheets differ, which the statement allows.
    pub apart: usize,
    pub false_cases: usize,
}

impl Tally {
    pub fn line(&self) -> String {
        format!(
            "{} drawn, {} as supposed, {} of them different, {} by clients, {} steps, {} done by shown and {} by hidden actors, {} copies, {} of suspects, {} sheets apart behind them, {} false",
            self.drawn,
            self.supposed,
            self.different,
            self.by_clients,
            self.steps,
            self.shown_done,
            self.hidden_done,
            self.copies,
            self.suspects_copied,
            self.apart,
            self.false_cases
        )
    }

    fn note(&mut self, law: Law, case: &Case) {
        self.supposed += 1;
        self.different += usize::from(case.x.without_clients() != case.y.without_clients());
        let differ =
            |(x, y): (&Record, &Record)| x.kind != Kind::Gone && y.kind != Kind::Gone && x.client != y.client;
        self.by_clients += usize::from(case.x.records.iter().zip(&case.y.records).any(differ));
        let (mut x, mut y) = (case.x.clone(), case.y.clone());
        for &event in &case.events {
            let shown = on_sheet(&x, &case.table, event.number());
            let before = [suspects(case, &x), suspects(case, &y)];
            let done = [answer(law, &mut x, event), answer(law, &mut y, event)].contains(&0);
            match event {
                Event::Step(..) => {
                    self.steps += 1;
                    self.shown_done += usize::from(done && shown);
                    self.hidden_done += usize::from(done && !shown);
                }
                Event::Copy(_) => {
                    self.copies += usize::from(done);
                    self.suspects_copied += usize::from(before != [suspects(case, &x), suspects(case, &y)]);
                }
            }
        }
        self.apart += usize::from(sheet(&x, &case.table) != sheet(&y, &case.table));
    }
}

/// How many suspect ambients there are.
fn suspects(case: &Case, itinerary: &Itinerary) -> usize {
    let suspect = |record: &&Record| record.kind == Kind::Ambient && case.table.suspect(record.label);
    itinerary.records.iter().filter(suspect).count()
}

/// What draws a case that may be supposed.
pub type Draw = fn(&mut Random, Law) -> Option<Case>;

/// Draws that many pairs; gives the smallest counterexample, shrunk, if any.
pub fn search(law: Law, draw: Draw, seed: u64, count: u64) -> (Option<Case>, Tally) {
    let mut random = Random::new(seed);
    // Clients are drawn by themselves, so that all else is drawn as it would be without them.
    let mut clients = Random::new(!seed);
    let mut tally = Tally::default();
    let mut best: Option<Case> = None;
    for _ in 0..count {
        tally.drawn += 1;
        let Some(mut case) = draw(&mut random, law) else { continue };
        pairs::give_clients(&mut clients, &mut case);
        tally.note(law, &case);
        if case.false_parts(law).is_empty() {
            continue;
        }
        tally.false_cases += 1;
        if tally.false_cases > shrink::MOST {
            continue;
        }
        let small = shrink::shrink(law, &case);
        if best.as_ref().is_none_or(|best| shrink::size(&small) < shrink::size(best)) {
            best = Some(small);
        }
    }
    (best, tally)
}
