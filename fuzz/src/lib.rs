//! What the two programs share: drawing cases, lending buffers, calls and their counts.

pub mod buffers;
pub mod calls;
pub mod copiers;
pub mod draw;
pub mod families;
pub mod memory;
pub mod options;
pub mod overlaps;
pub mod rings;
pub mod rooms;
pub mod sets;
pub mod tally;
