//! Cases that are counted out, and made in every run: they go before the random ones.

use crate::random::Random;

/// A maker of cases or of inputs, by their number.
pub type Maker<T> = fn(u64, &mut Random) -> T;

/// Makers whose cases are counted out, each with how many it makes.
pub type CountedOut<T> = [(u64, Maker<T>)];

/// How many are counted out.
pub fn count_of<T>(counted_out: &CountedOut<T>) -> u64 {
    counted_out.iter().map(|(count, _)| count).sum()
}

/// The one with this number: first those that are counted out, then those of the other maker.
pub fn made<T>(counted_out: &CountedOut<T>, then: Maker<T>, i: u64, random: &mut Random) -> T {
    let mut left = i;
    for (count, maker) in counted_out {
        if left < *count {
            return maker(left, random);
        }
        left -= count;
    }
    then(left, random)
}
