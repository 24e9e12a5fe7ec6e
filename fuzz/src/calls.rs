//! A call of the simulator, of the library's entry, and of the safe wrapper.

use crate::buffers::{Buffer, Buffers, Overlap};
use crate::rooms::Rooms;
use birnsket::raw;
use birnsket::{Refusal, Verdict};

#[derive(Clone, Copy, Debug, PartialEq, Eq)]
pub enum Call {
    Validate,
    Climb(u16),
    Sheet,
    Step(u16, u16),
    Copy(u16),
    Moves,
    Run,
    Check,
    Join,
    Make,
    Verdict,
    Exposed,
    Row(u8),
    Screen,
}

impl Call {
    pub fn name(self) -> &'static str {
        match self {
            Call::Validate => "validate",
            Call::Climb(_) => "climb",
            Call::Sheet => "sheet",
            Call::Step(..) => "step",
            Call::Copy(_) => "copy",
            Call::Moves => "moves",
            Call::Run => "run",
            Call::Check => "check",
            Call::Join => "join",
            Call::Make => "make",
            Call::Verdict => "verdict",
            Call::Exposed => "exposed",
            Call::Row(_) => "row",
            Call::Screen => "screen",
        }
    }
}

impl Call {
    /// The buffers that it is lent, and whether it may write them.
    pub fn lent(self) -> &'static [(Buffer, bool)] {
        use Buffer::*;
        match self {
            Call::Validate => &[(Itinerary, false)],
            Call::Climb(_) => &[(Itinerary, false), (Policy, false)],
            Call::Sheet => &[(Itinerary, false), (Table, false), (Sheet, true)],
            Call::Step(..) | Call::Copy(_) => &[(Itinerary, true)],
            Call::Moves => &[(Itinerary, false), (List, true)],
            Call::Run => &[(Itinerary, true), (Script, false), (Answers, true)],
            Call::Check | Call::Verdict | Call::Exposed => {
                &[(Itinerary, false), (Policy, false), (Table, false)]
            }
            Call::Join => &[
                (Itinerary, false),
                (Second, false),
                (Third, false),
                (Fourth, false),
                (Policy, false),
                (Table, false),
                (Joined, true),
            ],
            Call::Make => &[(Itinerary, false), (Policy, false), (Table, true)],
            Call::Row(_) => &[(Table, false)],
            Call::Screen => &[(Itinerary, true), (Policy, false), (Script, false), (Answers, true)],
        }
    }

    pub fn is_lent(self, buffer: Buffer) -> bool {
        self.lent().iter().any(|&(lent, _)| lent == buffer)
    }

    /// Whether it only reads both.
    pub fn reads_both(self, overlap: Overlap) -> bool {
        [overlap.inner, overlap.outer].iter().all(|&buffer| self.lent().contains(&(buffer, false)))
    }
}

/// Number, record, and the fields of the call's result in their order; then zeros.
pub type Answer = [u32; 9];

fn answer(fields: &[u32]) -> Answer {
    let mut answer = [0; 9];
    answer[..fields.len()].copy_from_slice(fields);
    answer
}

/// The simulator's call.
pub fn simulate(call: Call, lent: &mut Buffers) -> Answer {
    let Buffers { itinerary, policy, table, script, answers, sheet, list, second, third, fourth, joined } =
        lent;
    let result = match call {
        Call::Validate => simulator::validate(itinerary),
        Call::Climb(number) => simulator::climb(itinerary, policy, number),
        Call::Sheet => simulator::sheet(itinerary, table, sheet),
        Call::Step(actor, partner) => simulator::step(itinerary, actor, partner),
        Call::Copy(number) => simulator::copy(itinerary, number),
        Call::Moves => simulator::moves(itinerary, list),
        Call::Run => simulator::run(itinerary, script, answers),
        Call::Check => simulator::check(itinerary, policy, table),
        Call::Join => simulator::join([itinerary, second, third, fourth], policy, table, joined),
        Call::Make => simulator::maker(itinerary, policy, table),
        Call::Verdict => simulator::verdict(itinerary, policy, table),
        Call::Exposed => simulator::exposed(itinerary, policy, table),
        Call::Row(label) => simulator::row(table, u16::from(label)),
        Call::Screen => simulator::screen(itinerary, policy, script, answers),
    };
    let (number, record) = (u32::from(result.number), u32::from(result.record));
    let [v0, v1, v2, v3, v4, v5] = result.values;
    match call {
        // The simulator's screen gives verdict and label in one value.
        Call::Screen => answer(&[number, record, v0 / 256, v0 % 256, v1, v2, v3, v4, v5]),
        _ => answer(&[number, record, v0, v1, v2, v3, v4, v5]),
    }
}

/// The entry, lent pointer and length of each buffer named and then the other arguments; its answer, by the fields
/// named after number and record.
macro_rules! enter {
    ($entry:ident($($buffer:expr),+ $(; $($number:expr),+)?) -> $($field:ident),*) => {{
        let result = unsafe { raw::$entry($($buffer.start, $buffer.length),+ $(, $($number),+)?) };
        answer(&[result.number, result.record, $(result.$field),*])
    }};
}

/// The library's entry. The rooms are apart and live through the call, and only buffers
/// that the call doesn't write overlap, so that the caller's duties are kept.
pub fn enter(call: Call, lent: &mut Rooms) -> Answer {
    let [it, policy, table, script, answers, sheet, list, second, third, fourth, joined] =
        Buffer::ALL.map(|buffer| lent.part(buffer));
    match call {
        Call::Validate => enter!(hub_validate(it) -> records),
        Call::Climb(number) => enter!(hub_climb(it, policy; number) -> label, boundary),
        Call::Sheet => enter!(hub_sheet(it, table, sheet) ->),
        Call::Step(actor, partner) => enter!(hub_step(it; actor, partner) ->),
        Call::Copy(number) => enter!(hub_copy(it; number) -> copied),
        Call::Moves => enter!(hub_moves(it, list) -> done, no_capability, inactive, unfit),
        Call::Run => enter!(hub_run(it, script, answers) -> ins, outs, opens),
        Call::Check => enter!(hub_check(it, policy, table) ->),
        Call::Join => enter!(hub_join(it, second, third, fourth, policy, table, joined) ->),
        Call::Make => enter!(hub_make(it, policy, table) -> bits),
        Call::Verdict => enter!(hub_verdict(it, policy, table) -> verdict, label),
        Call::Exposed => enter!(hub_exposed(it, policy, table) -> exposed),
        Call::Row(label) => enter!(hub_row(table; label) -> offset, length),
        Call::Screen => enter!(hub_screen(it, policy, script, answers)
            -> verdict, label, bits, ins, outs, opens, records),
    }
}

/// The same through the safe wrapper. Each slice is made for the one call.
pub fn enter_safely(call: Call, lent: &mut Rooms) -> Answer {
    let [it, policy, table, script, answers, sheet, list, second, third, fourth, joined] =
        Buffer::ALL.map(|buffer| lent.part(buffer));
    let done = match call {
        Call::Validate => birnsket::validate(unsafe { it.shared() }).map(|count| vec![count]),
        Call::Climb(number) => unsafe { birnsket::climb(it.shared(), policy.shared(), number) }
            .map(|above| vec![u32::from(above.label), u32::from(above.boundary)]),
        Call::Sheet => {
            unsafe { birnsket::sheet(it.shared(), table.shared(), sheet.unique()) }.map(|()| vec![])
        }
        Call::Step(actor, partner) => birnsket::step(unsafe { it.unique() }, actor, partner).map(|()| vec![]),
        Call::Copy(number) => birnsket::copy(unsafe { it.unique() }, number).map(|copied| vec![copied]),
        Call::Moves => unsafe { birnsket::moves(it.shared(), list.unique()) }
            .map(|m| vec![m.done, m.no_capability, m.inactive, m.unfit]),
        Call::Run => unsafe { birnsket::run(it.unique(), script.shared(), answers.unique()) }
            .map(|c| vec![c.ins, c.outs, c.opens]),
        Call::Check => {
            unsafe { birnsket::check(it.shared(), policy.shared(), table.shared()) }.map(|()| vec![])
        }
        Call::Join => {
            let members = [it, second, third, fourth].map(|member| unsafe { member.shared() });
            unsafe { birnsket::join(members, policy.shared(), table.shared(), joined.unique()) }
                .map(|()| vec![])
        }
        Call::Make => {
            unsafe { birnsket::make(it.shared(), policy.shared(), table.unique()) }.map(|bits| vec![bits])
        }
        Call::Verdict => unsafe { birnsket::verdict(it.shared(), policy.shared(), table.shared()) }
            .map(|v| code(v).to_vec()),
        Call::Exposed => unsafe { birnsket::exposed(it.shared(), policy.shared(), table.shared()) }
            .map(|yes| vec![u32::from(yes)]),
        Call::Row(label) => Ok(part(unsafe { table.shared() }, label)),
        Call::Screen => {
            let (it, answers) = unsafe { (it.unique(), answers.unique()) };
            birnsket::screen(it, unsafe { policy.shared() }, unsafe { script.shared() }, answers).map(shown)
        }
    };
    packed(done)
}

fn code(verdict: Verdict) -> [u32; 2] {
    match verdict {
        Verdict::Exposed(label) => [1, u32::from(label)],
        Verdict::Hinted(label) => [2, u32::from(label)],
        Verdict::Sealed => [3, 0],
    }
}

/// Offset and length of a label's part of the table.
fn part(table: &[u8], label: u8) -> Vec<u32> {
    let row = birnsket::row(table, label);
    vec![(row.as_ptr() as usize - table.as_ptr() as usize) as u32, row.len() as u32]
}

fn shown(screen: birnsket::Screen) -> Vec<u32> {
    let ([verdict, label], counts) = (code(screen.verdict), screen.counts);
    vec![verdict, label, screen.bits, counts.ins, counts.outs, counts.opens, screen.records]
}

fn packed(done: Result<Vec<u32>, Refusal>) -> Answer {
    match done {
        Ok(values) => answer(&[&[0, 0], &values[..]].concat()),
        Err(Refusal { number, record }) => answer(&[number, record]),
    }
}
