//! The library's algorithms in safe Rust, with the same answers.

mod closure;
mod copy;
mod itinerary;
mod join;
mod moves;
mod sheet;
pub mod skipping;
mod steps;
mod tables;

pub use copy::copy;
pub use itinerary::{climb, validate};
pub use join::join;
pub use moves::{moves, same_names};
pub use sheet::sheet;
pub use steps::{run, step};
pub use tables::{check, exposed, make, passes, verdict};

use birnsket::Refusal;

/// A refusal that names no record.
fn refuse<T>(number: u32) -> Result<T, Refusal> {
    Err(Refusal { number, record: 0 })
}
