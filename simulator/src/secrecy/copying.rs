//! Pairs with copiers, of which some are hidden, and lists in which copies stand.

use super::pairs::{draw_mix, drawn};
use super::Case;
use crate::generate::trees::Mix;
use crate::law::Law;
use crate::random::Random;

/// The mix of a pair, with copiers and gone records for their copies.
pub(super) fn with_copiers(random: &mut Random, mix: Mix) -> Mix {
    Mix { copiers: random.pick(&[10, 20, 35]), gone: random.pick(&[15, 30, 45]), ..mix }
}

/// A case that may be supposed, without clients, or none if the draw did not work out. Its list is without copies in
/// some of the cases.
pub fn draw(random: &mut Random, law: Law) -> Option<Case> {
    let mix = draw_mix(random);
    let mix = with_copiers(random, mix);
    drawn(random, law, &mix)
}
