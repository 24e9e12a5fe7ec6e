//! Safe calls of the bench hub's ambient screen, a library that is proved.
//!
//! Each function lends its slices to an entry of libbirnsket.a. A refused call
//! leaves every slice as it was. The formats, the causes, their order, and what the
//! slices hold afterwards are in include/birnsket.h; [`Refusal::cause`] has a
//! number's cause in words. The functions need no allocator and no operating
//! system, but the archive is for x86-64 with the System V calling convention only,
//! and a call needs 32 KiB of stack: on a target without a guard page below its
//! stack, see to that room yourself.
//!
//! Examples here use an itinerary of two ambients, label 2 in label 1, and an out
//! capability in the inner one; label 1 is a boundary and label 2 high.

#![no_std]

#[cfg(not(target_arch = "x86_64"))]
compile_error!("libbirnsket.a is for x86-64 with the System V calling convention");

#[cfg(test)]
extern crate std;

mod answers;
pub mod raw;

#[cfg(test)]
mod tests;

use answers::done;
pub use answers::{Above, Counts, Refusal, Screen, Tally, Verdict};

pub const POLICY_LENGTH: usize = 64;
pub const TABLE_LENGTH: usize = 1544;
/// No list of moves is longer: those of n records have at most n * n bytes.
pub const LONGEST_LIST: usize = 1048576;

// Every block below but the first is sound for one reason: the pointers and lengths
// are those of live slices, and the borrows keep written ones apart from all others.

/// The version of the archive that is linked: major * 65536 + minor * 256 + patch.
///
/// ```
/// assert_eq!(birnsket::version() >> 16, birnsket::raw::HUB_VERSION >> 16);
/// ```
pub fn version() -> u32 {
    // It is lent nothing.
    unsafe { raw::hub_version() }
}

/// The number of records, gone ones counted.
///
/// Refuses with 1 (length), or, with the record's number in `record`, 2 (form), 3
/// (label), 4 (name), 5 (parent) or 6 (a climb that doesn't reach the environment).
///
/// ```
/// use birnsket::{validate, Refusal};
///
/// assert_eq!(validate(&[1, 1, 0, 0, 0, 0, 0, 0, 1, 2, 1, 0, 1, 0, 0, 0]), Ok(2));
/// // A record that is its own parent.
/// assert_eq!(validate(&[1, 1, 0, 0, 1, 0, 0, 0]), Err(Refusal { number: 6, record: 1 }));
/// // Client 999, the last one, and 1,000.
/// assert_eq!(validate(&[1, 1, 0, 0, 0, 0, 0xe7, 3]), Ok(1));
/// assert_eq!(validate(&[1, 1, 0, 0, 0, 0, 0xe8, 3]), Err(Refusal { number: 2, record: 1 }));
/// ```
pub fn validate(itinerary: &[u8]) -> Result<u32, Refusal> {
    let result = unsafe { raw::hub_validate(itinerary.as_ptr(), itinerary.len()) };
    done(result.number, result.record)?;
    Ok(result.records)
}

/// What stands above a record: its container, and the nearest boundary ambient; zeros
/// for number 0, over the count or a gone record.
///
/// Refuses with 1 to 6, as [`validate`]; 7 (length or a byte of the policy).
///
/// ```
/// use birnsket::{climb, Above, Refusal};
///
/// let itinerary =
///     [1, 1, 0, 0, 0, 0, 0, 0, 1, 2, 1, 0, 1, 0, 0, 0, 3, 64, 0, 0, 2, 0, 0, 0];
/// let mut policy = [0; birnsket::POLICY_LENGTH];
/// (policy[1], policy[2]) = (2, 1);
/// // The capability stands in label 2; above that is record 1, a boundary.
/// assert_eq!(climb(&itinerary, &policy, 3), Ok(Above { label: 2, boundary: 1 }));
/// // A record is not above itself, and there is no record 4.
/// assert_eq!(climb(&itinerary, &policy, 1), Ok(Above { label: 0, boundary: 0 }));
/// assert_eq!(climb(&itinerary, &policy, 4), Ok(Above { label: 0, boundary: 0 }));
/// assert_eq!(climb(&itinerary, &[], 3), Err(Refusal { number: 7, record: 0 }));
/// ```
pub fn climb(itinerary: &[u8], policy: &[u8], number: u16) -> Result<Above, Refusal> {
    let result =
        unsafe { raw::hub_climb(itinerary.as_ptr(), itinerary.len(), policy.as_ptr(), policy.len(), number) };
    done(result.number, result.record)?;
    // A container is at most 63, a record's number at most 1,024.
    Ok(Above { label: result.label as u8, boundary: result.boundary as u16 })
}

/// Writes the observer's sheet: each record that is neither hidden nor gone as in the
/// itinerary, zeros for each other. Whether the table holds is not looked at.
///
/// Refuses with 1 to 6, as [`validate`]; 8 (length or form of the table); 14 (a sheet
/// not as long as the itinerary).
///
/// ```
/// let itinerary = [1, 1, 0, 0, 0, 0, 0, 0, 1, 2, 1, 0, 1, 0, 0, 0];
/// let (mut policy, mut table) = ([0; birnsket::POLICY_LENGTH], [0; birnsket::TABLE_LENGTH]);
/// (policy[1], policy[2]) = (2, 1);
/// birnsket::make(&itinerary, &policy, &mut table)?;
/// let mut sheet = [0; 16];
/// birnsket::sheet(&itinerary, &table, &mut sheet)?;
/// assert_eq!((&sheet[..8], &sheet[8..]), (&itinerary[..8], &[0; 8][..]));
/// # Ok::<(), birnsket::Refusal>(())
/// ```
pub fn sheet(itinerary: &[u8], table: &[u8], sheet: &mut [u8]) -> Result<(), Refusal> {
    let result = unsafe {
        raw::hub_sheet(
            itinerary.as_ptr(),
            itinerary.len(),
            table.as_ptr(),
            table.len(),
            sheet.as_mut_ptr(),
            sheet.len(),
        )
    };
    done(result.number, result.record)
}

/// Does one step in the itinerary.
///
/// Refuses with 1 to 6, as [`validate`]; 10 (actor 0, over the count, or no
/// capability); 11 (actor inactive, or in/out without an ambient as parent); 12
/// (partner unfit).
///
/// ```
/// use birnsket::{step, Refusal};
///
/// let mut itinerary =
///     [1, 1, 0, 0, 0, 0, 0, 0, 1, 2, 1, 0, 1, 0, 0, 0, 3, 64, 0, 0, 2, 0, 0, 0];
/// assert_eq!(step(&mut itinerary, 3, 1), Ok(()));
/// // The capability is used up, and record 2 stands in the environment.
/// assert_eq!(itinerary[12..], [0; 12]);
/// assert_eq!(step(&mut itinerary, 3, 1), Err(Refusal { number: 10, record: 0 }));
/// ```
pub fn step(itinerary: &mut [u8], actor: u16, partner: u16) -> Result<(), Refusal> {
    let result = unsafe { raw::hub_step(itinerary.as_mut_ptr(), itinerary.len(), actor, partner) };
    done(result.number, result.record)
}

/// Does the steps of a script in order and writes an answer for each: 0, 10, 11 or
/// 12. A step that is refused changes nothing, and the run goes on.
///
/// Refuses with 1 to 6, as [`validate`]; 13 (a script of no whole steps or over 1,024
/// of them, or answers that aren't one byte a step).
///
/// ```
/// let mut itinerary =
///     [1, 1, 0, 0, 0, 0, 0, 0, 1, 2, 1, 0, 1, 0, 0, 0, 3, 64, 0, 0, 2, 0, 0, 0];
/// let (script, mut answers) = ([3, 0, 1, 0, 3, 0, 1, 0], [0; 2]);
/// let counts = birnsket::run(&mut itinerary, &script, &mut answers)?;
/// assert_eq!((counts.ins, counts.outs, counts.opens), (0, 1, 0));
/// assert_eq!(answers, [0, 10]);
/// # Ok::<(), birnsket::Refusal>(())
/// ```
pub fn run(itinerary: &mut [u8], script: &[u8], answers: &mut [u8]) -> Result<Counts, Refusal> {
    let result = unsafe {
        raw::hub_run(
            itinerary.as_mut_ptr(),
            itinerary.len(),
            script.as_ptr(),
            script.len(),
            answers.as_mut_ptr(),
            answers.len(),
        )
    };
    done(result.number, result.record)?;
    Ok(Counts { ins: result.ins, outs: result.outs, opens: result.opens })
}

/// Copies all records beneath a copier, the k-th of them by number into the k-th gone
/// record by number, and returns how many there are. Parents among the copies follow the
/// copies; copies of the copier's own children get its parent.
///
/// Refuses with 1 to 6, as [`validate`]; 17 (a number that is no active copier); 18
/// (fewer gone records than records beneath the copier).
///
/// ```
/// use birnsket::{copy, step, Refusal};
///
/// // A copier in an ambient, and beneath it an ambient with an out capability.
/// let mut itinerary = [0; 48];
/// itinerary[..16].copy_from_slice(&[1, 1, 0, 0, 0, 0, 0, 0, 5, 0, 0, 0, 1, 0, 0, 0]);
/// itinerary[16..32].copy_from_slice(&[1, 2, 1, 0, 2, 0, 0, 0, 3, 64, 0, 0, 3, 0, 0, 0]);
/// assert_eq!(step(&mut itinerary, 4, 1), Err(Refusal { number: 11, record: 0 }));
/// assert_eq!(copy(&mut itinerary, 2), Ok(2));
/// assert_eq!(itinerary[32..], [1, 2, 1, 0, 1, 0, 0, 0, 3, 64, 0, 0, 5, 0, 0, 0]);
/// // The copy's out can act. It is gone then, and two are to be copied.
/// assert_eq!(step(&mut itinerary, 6, 1), Ok(()));
/// assert_eq!(copy(&mut itinerary, 2), Err(Refusal { number: 18, record: 0 }));
/// ```
pub fn copy(itinerary: &mut [u8], number: u16) -> Result<u32, Refusal> {
    let result = unsafe { raw::hub_copy(itinerary.as_mut_ptr(), itinerary.len(), number) };
    done(result.number, result.record)?;
    Ok(result.copied)
}

/// Lists each pair of actor and partner whose step would be done, by actor and then by
/// partner, four bytes each as in a script, and counts all pairs by what they would
/// answer. The bytes of `list` behind the list stay as they were.
///
/// Refuses with 1 to 6, as [`validate`]; 15 (a `list` shorter than the list). As many
/// bytes as the record count times itself suffice.
///
/// ```
/// use birnsket::{moves, Tally, Refusal};
///
/// let itinerary =
///     [1, 1, 0, 0, 0, 0, 0, 0, 1, 2, 1, 0, 1, 0, 0, 0, 3, 64, 0, 0, 2, 0, 0, 0];
/// let mut list = [7; 9];
/// // The capability may take record 2 out of record 1, and can do nothing else.
/// let tally = Tally { done: 1, no_capability: 6, inactive: 0, unfit: 2 };
/// assert_eq!(moves(&itinerary, &mut list), Ok(tally));
/// assert_eq!(list, [3, 0, 1, 0, 7, 7, 7, 7, 7]);
/// let refusal = Refusal { number: 15, record: 0 };
/// assert_eq!(moves(&itinerary, &mut []), Err(refusal));
/// ```
pub fn moves(itinerary: &[u8], list: &mut [u8]) -> Result<Tally, Refusal> {
    let result =
        unsafe { raw::hub_moves(itinerary.as_ptr(), itinerary.len(), list.as_mut_ptr(), list.len()) };
    done(result.number, result.record)?;
    Ok(Tally {
        done: result.done,
        no_capability: result.no_capability,
        inactive: result.inactive,
        unfit: result.unfit,
    })
}

/// Checks that the table holds.
///
/// Refuses with 1 to 6, as [`validate`]; 7 (length or a byte of the policy); 8 (length
/// or form of the table); 9 (the table doesn't hold).
///
/// ```
/// use birnsket::{check, Refusal, POLICY_LENGTH, TABLE_LENGTH};
///
/// let itinerary = [1, 1, 0, 0, 0, 0, 0, 0];
/// let (policy, table) = ([0; POLICY_LENGTH], [0; TABLE_LENGTH]);
/// assert_eq!(check(&[], &policy, &table), Ok(()));
/// // The table doesn't have label 1 in the environment.
/// assert_eq!(check(&itinerary, &policy, &table), Err(Refusal { number: 9, record: 0 }));
/// ```
pub fn check(itinerary: &[u8], policy: &[u8], table: &[u8]) -> Result<(), Refusal> {
    let result = unsafe {
        raw::hub_check(
            itinerary.as_ptr(),
            itinerary.len(),
            policy.as_ptr(),
            policy.len(),
            table.as_ptr(),
            table.len(),
        )
    };
    done(result.number, result.record)
}

/// Joins four itineraries, an unused place being one of no bytes: their records one after
/// another, with the earlier record count added to each parent that isn't 0. Writes them
/// if the table holds for what they are joined.
///
/// Refuses with 1 to 6, as [`validate`], of the first member, then of the second, the
/// third and the fourth, the record counted within its member; 16 (more than 1,024
/// records together, or a buffer not of the joined length); 7, 8 and 9, as [`check`].
///
/// ```
/// use birnsket::{join, make, Refusal, POLICY_LENGTH, TABLE_LENGTH};
///
/// let inner = [1, 1, 0, 0, 0, 0, 0, 0, 1, 2, 1, 0, 1, 0, 0, 0];
/// let (policy, mut table) = ([0; POLICY_LENGTH], [0; TABLE_LENGTH]);
/// make(&inner, &policy, &mut table)?;
/// // The same itinerary twice; the second one's numbers come behind the first's.
/// let mut joined = [7; 32];
/// join([&inner, &[], &inner, &[]], &policy, &table, &mut joined)?;
/// assert_eq!((&joined[..16], &joined[16..24]), (&inner[..], &inner[..8]));
/// assert_eq!(joined[24..], [1, 2, 1, 0, 3, 0, 0, 0]);
/// let refusal = Refusal { number: 16, record: 0 };
/// assert_eq!(join([&inner, &[], &[], &[]], &policy, &table, &mut joined), Err(refusal));
/// # Ok::<(), Refusal>(())
/// ```
pub fn join(members: [&[u8]; 4], policy: &[u8], table: &[u8], joined: &mut [u8]) -> Result<(), Refusal> {
    let [first, second, third, fourth] = members;
    let result = unsafe {
        raw::hub_join(
            first.as_ptr(),
            first.len(),
            second.as_ptr(),
            second.len(),
            third.as_ptr(),
            third.len(),
            fourth.as_ptr(),
            fourth.len(),
            policy.as_ptr(),
            policy.len(),
            table.as_ptr(),
            table.len(),
            joined.as_mut_ptr(),
            joined.len(),
        )
    };
    done(result.number, result.record)
}

/// Writes the least table that holds and returns how many of its bits are one. What
/// the table had before makes no difference.
///
/// Refuses with 1 to 6, as [`validate`]; 7 (length or a byte of the policy); 8 (length
/// of the table).
///
/// ```
/// let itinerary = [1, 1, 0, 0, 0, 0, 0, 0, 1, 2, 1, 0, 1, 0, 0, 0];
/// let (mut policy, mut table) = ([0; birnsket::POLICY_LENGTH], [0; birnsket::TABLE_LENGTH]);
/// (policy[1], policy[2]) = (2, 1);
/// assert_eq!(birnsket::make(&itinerary, &policy, &mut table), Ok(5));
/// assert_eq!(birnsket::check(&itinerary, &policy, &table), Ok(()));
/// ```
pub fn make(itinerary: &[u8], policy: &[u8], table: &mut [u8]) -> Result<u32, Refusal> {
    let result = unsafe {
        raw::hub_make(
            itinerary.as_ptr(),
            itinerary.len(),
            policy.as_ptr(),
            policy.len(),
            table.as_mut_ptr(),
            table.len(),
        )
    };
    done(result.number, result.record)?;
    Ok(result.bits)
}

/// Checks the table and gives the verdict by it.
///
/// Refuses with 1 to 6, as [`validate`]; 7, 8 and 9, as [`check`].
///
/// ```
/// use birnsket::{make, verdict, Verdict, POLICY_LENGTH, TABLE_LENGTH};
///
/// let itinerary =
///     [1, 1, 0, 0, 0, 0, 0, 0, 1, 2, 1, 0, 1, 0, 0, 0, 3, 64, 0, 0, 2, 0, 0, 0];
/// let (mut policy, mut table) = ([0; POLICY_LENGTH], [0; TABLE_LENGTH]);
/// (policy[1], policy[2]) = (2, 1);
/// make(&itinerary, &policy, &mut table)?;
/// assert_eq!(verdict(&itinerary, &policy, &table), Ok(Verdict::Exposed(2)));
/// // Without the capability label 2 stays where it is.
/// make(&itinerary[..16], &policy, &mut table)?;
/// assert_eq!(verdict(&itinerary[..16], &policy, &table), Ok(Verdict::Sealed));
/// # Ok::<(), birnsket::Refusal>(())
/// ```
pub fn verdict(itinerary: &[u8], policy: &[u8], table: &[u8]) -> Result<Verdict, Refusal> {
    let result = unsafe {
        raw::hub_verdict(
            itinerary.as_ptr(),
            itinerary.len(),
            policy.as_ptr(),
            policy.len(),
            table.as_ptr(),
            table.len(),
        )
    };
    done(result.number, result.record)?;
    Ok(Verdict::of(result.verdict, result.label))
}

/// Checks the table and says whether the verdict by it is exposed, looking no further
/// than the first high label. Hinted and sealed are both no.
///
/// Refuses with 1 to 6, as [`validate`]; 7, 8 and 9, as [`check`].
///
/// ```
/// use birnsket::{exposed, make, Refusal, POLICY_LENGTH, TABLE_LENGTH};
///
/// let itinerary =
///     [1, 1, 0, 0, 0, 0, 0, 0, 1, 2, 1, 0, 1, 0, 0, 0, 3, 64, 0, 0, 2, 0, 0, 0];
/// let (mut policy, mut table) = ([0; POLICY_LENGTH], [0; TABLE_LENGTH]);
/// (policy[1], policy[2]) = (2, 1);
/// make(&itinerary, &policy, &mut table)?;
/// assert_eq!(exposed(&itinerary, &policy, &table), Ok(true));
/// // Without the capability label 2 stays where it is.
/// make(&itinerary[..16], &policy, &mut table)?;
/// assert_eq!(exposed(&itinerary[..16], &policy, &table), Ok(false));
/// // That table doesn't hold with it.
/// let refusal = Refusal { number: 9, record: 0 };
/// assert_eq!(exposed(&itinerary, &policy, &table), Err(refusal));
/// # Ok::<(), birnsket::Refusal>(())
/// ```
pub fn exposed(itinerary: &[u8], policy: &[u8], table: &[u8]) -> Result<bool, Refusal> {
    let result = unsafe {
        raw::hub_exposed(
            itinerary.as_ptr(),
            itinerary.len(),
            policy.as_ptr(),
            policy.len(),
            table.as_ptr(),
            table.len(),
        )
    };
    done(result.number, result.record)?;
    Ok(result.exposed == 1)
}

/// The row of a label as that very part of the table; the empty part for a label
/// over 63 or a table of another length. It never refuses.
///
/// ```
/// let mut table = [0; birnsket::TABLE_LENGTH];
/// table[16] = 4;
/// assert_eq!(birnsket::row(&table, 1)[0], 4);
/// assert_eq!(birnsket::row(&table, 64), []);
/// ```
pub fn row(table: &[u8], label: u8) -> &[u8] {
    let result = unsafe { raw::hub_row(table.as_ptr(), table.len(), label) };
    let start = result.offset as usize;
    &table[start..start + result.length as usize]
}

/// Makes the least table for itself, gives the verdict by it, then runs the script as
/// [`run`] does.
///
/// Refuses with 1 to 6, as [`validate`]; 7 (length or a byte of the policy); 13, as
/// [`run`].
///
/// ```
/// use birnsket::{screen, Verdict, POLICY_LENGTH};
///
/// let mut itinerary =
///     [1, 1, 0, 0, 0, 0, 0, 0, 1, 2, 1, 0, 1, 0, 0, 0, 3, 64, 0, 0, 2, 0, 0, 0];
/// let mut policy = [0; POLICY_LENGTH];
/// (policy[1], policy[2]) = (2, 1);
/// let (script, mut answers) = ([3, 0, 1, 0], [7]);
/// let shown = screen(&mut itinerary, &policy, &script, &mut answers)?;
/// assert_eq!((shown.verdict, shown.bits), (Verdict::Exposed(2), 7));
/// assert_eq!((shown.counts.outs, shown.records, answers), (1, 2, [0]));
/// # Ok::<(), birnsket::Refusal>(())
/// ```
pub fn screen(
    itinerary: &mut [u8],
    policy: &[u8],
    script: &[u8],
    answers: &mut [u8],
) -> Result<Screen, Refusal> {
    let result = unsafe {
        raw::hub_screen(
            itinerary.as_mut_ptr(),
            itinerary.len(),
            policy.as_ptr(),
            policy.len(),
            script.as_ptr(),
            script.len(),
            answers.as_mut_ptr(),
            answers.len(),
        )
    };
    done(result.number, result.record)?;
    Ok(Screen {
        verdict: Verdict::of(result.verdict, result.label),
        bits: result.bits,
        counts: Counts { ins: result.ins, outs: result.outs, opens: result.opens },
        records: result.records,
    })
}
