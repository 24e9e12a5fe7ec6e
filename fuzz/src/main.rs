//! Differential fuzzing: every call of the library against the simulator.

use fuzz::buffers::{hex, Buffer, Buffers, Overlap, MEMBERS};
use fuzz::calls::{enter, enter_safely, simulate, Answer, Call};
use fuzz::draw::Case;
use fuzz::families::{Family, FAMILIES};
use fuzz::options::{Options, USAGE};
use fuzz::rooms::Rooms;
use fuzz::sets;
use fuzz::tally::Tally;
use simulator::random::Random;
use std::process::ExitCode;
use std::time::Instant;

const CALLS_A_CASE: u64 = 20;

struct Fuzzer {
    options: Options,
    random: Random,
    rooms: Rooms,
    tally: Tally,
}

impl Fuzzer {
    /// Makes the call on both sides; leaves the buffers as after it, or says what differs.
    fn compare(
        &mut self,
        call: Call,
        lent: &mut Buffers,
        overlap: Option<Overlap>,
    ) -> Result<Answer, String> {
        let noise = self.random.next();
        let mut expected = lent.clone();
        let wanted = simulate(call, &mut expected);
        self.rooms.load(lent, overlap, noise);
        // A spoilt room is no slice.
        let safely = noise >> 62 == 0 && self.options.lending.spoilt.is_none();
        let got = if safely { enter_safely(call, &mut self.rooms) } else { enter(call, &mut self.rooms) };
        let mut found = self.rooms.differences(&expected);
        if got != wanted {
            found.push(format!("the answer is {got:?}\n  not {wanted:?}"));
        }
        if found.is_empty() {
            *lent = expected;
            return Ok(got);
        }
        let inputs = Buffer::ALL.map(|buffer| format!("{} {}\n", buffer.name(), hex(lent.get(buffer))));
        Err(format!("{call:?}, {overlap:?}\n{}{}", inputs.concat(), found.join("\n")))
    }

    fn draw_call(&mut self, case: &Case, first: bool) -> Call {
        let Some(only) = self.options.only else { return case.next_call(&mut self.random, first) };
        loop {
            let call = case.next_call(&mut self.random, false);
            if call.name() == only {
                return call;
            }
        }
    }

    /// That many calls on a case, each on what the last one left.
    fn fuzz_case(&mut self, mut case: Case, calls: u64) -> Result<(), String> {
        self.tally.add_case();
        for place in 0..calls {
            case.disturb(&mut self.random);
            let call = self.draw_call(&case, place == 0);
            if call == Call::Moves {
                case.fit_list(&mut self.random);
            }
            let overlap = case.overlapping(call);
            let places = if call == Call::Join { case.fit_set(&mut self.random, overlap) } else { 0 };
            let seen = case.family.is_seen_by(call, &case.buffers, overlap);
            if self.options.trace {
                eprintln!("{}: {call:?}, {overlap:?}", case.family.name());
            }
            let answer = self.compare(call, &mut case.buffers, overlap)?;
            self.tally.add(call, &answer, &case.buffers);
            if seen {
                self.tally.add_seen(case.family, &answer);
            }
            sets::rotate(&mut case.buffers, MEMBERS.len() - places);
        }
        Ok(())
    }

    /// The first cases are one of each family, so that a short run meets all of them.
    fn fuzz(&mut self) -> Result<(), String> {
        let mut left = self.options.calls;
        let mut firsts = FAMILIES.iter().map(|(family, _)| *family);
        while left > 0 {
            let family = firsts.next().unwrap_or_else(|| Family::draw(&mut self.random));
            let case = Case::draw(&mut self.random, family);
            let calls = left.min(CALLS_A_CASE);
            self.fuzz_case(case, calls).map_err(|difference| {
                format!("a case after {} calls: {difference}", self.options.calls - left)
            })?;
            left -= calls;
        }
        Ok(())
    }
}

fn main() -> ExitCode {
    let words: Vec<String> = std::env::args().skip(1).collect();
    let Some(options) = Options::read(&words) else {
        eprintln!("{USAGE}");
        return ExitCode::from(2);
    };
    let start = Instant::now();
    let (random, rooms) = (Random::new(options.seed), Rooms::new(options.lending));
    let mut fuzzer = Fuzzer { options, random, rooms, tally: Tally::default() };
    let outcome = fuzzer.fuzz();
    fuzzer.tally.print();
    if let Err(difference) = outcome {
        println!("DIFFERENCE in {difference}");
        return ExitCode::FAILURE;
    }
    let missing = fuzzer.tally.missing();
    if !missing.is_empty() {
        println!("NEVER MET: {}", missing.join(", "));
        return ExitCode::FAILURE;
    }
    println!("{} calls, no difference, {:.1} s", fuzzer.options.calls, start.elapsed().as_secs_f64());
    ExitCode::SUCCESS
}
