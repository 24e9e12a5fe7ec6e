//! What a call answers.

/// The most values that one call hands back (the screen has six).
pub const VALUES: usize = 6;

/// Values of a call that was done; places that a call does not use are 0.
pub type Values = [u32; VALUES];

/// The number of a refusal's cause and the record it names, 0 if it names none.
#[derive(Clone, Copy, Debug, PartialEq, Eq)]
pub struct Refusal {
    pub number: u8,
    pub record: u16,
}

/// A call inside the library: its values, or why it was refused.
pub type Outcome = Result<Values, Refusal>;

/// A call as its caller sees it: number 0 means done.
#[derive(Clone, Copy, Debug, PartialEq, Eq)]
pub struct Answer {
    pub number: u8,
    pub record: u16,
    pub values: Values,
}

impl From<Outcome> for Answer {
    fn from(outcome: Outcome) -> Answer {
        match outcome {
            Ok(values) => Answer { number: 0, record: 0, values },
            Err(Refusal { number, record }) => Answer { number, record, values: [0; VALUES] },
        }
    }
}

/// A refusal that names no record.
pub fn refuse<T>(number: u8) -> Result<T, Refusal> {
    Err(Refusal { number, record: 0 })
}

/// Pads the values of a call that was done.
pub fn values(used: &[u32]) -> Values {
    let mut all = [0; VALUES];
    all[..used.len()].copy_from_slice(used);
    all
}
