//! How often a block is damaged, and how.

use crate::random::Random;

/// The sorts of damage to be done, out of so many. Mostly one; else several of
/// one sort, so that a fault has several places, or of any sorts, so that there
/// are several kinds of fault.
pub fn damages(random: &mut Random, sorts: usize) -> Vec<usize> {
    let first = random.below(sorts);
    let mut damages = vec![first];
    if random.chance(35) {
        let alike = random.chance(50);
        for _ in 0..random.within(1, 3) {
            damages.push(if alike { first } else { random.below(sorts) });
        }
    }
    damages
}
