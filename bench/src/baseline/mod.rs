//! The same calls by hand, as plain Rust would have them, in two ways that differ in what takes long: the normal form,
//! the search for minimal hitting sets and that for sets that share no drive. A refusal is its number.

pub mod exchange;
pub mod plain;
pub mod runs;
pub mod tables;
pub mod tuned;
mod tuned_search;
pub mod verdicts;

pub type Answer<T> = Result<T, u64>;

/// What each baseline does in its own way.
pub trait Method {
    /// Without repeats and without each set that holds another, by mask.
    fn normal(sets: &[u64]) -> Vec<u64>;

    /// The minimal hitting sets, in any order; none where there are more than `most`.
    fn minimal_hitting_sets(sets: &[u64], most: usize) -> Option<Vec<u64>>;

    /// Puts cores into their order.
    fn sort_cores(cores: &mut [u64]);

    /// The first k positions, not falling, whose sets share none of the n drives, a byte each with the first lowest;
    /// none where any k sets share one.
    fn disjoint(k: u8, n: u8, table: &[u64]) -> Option<u64>;
}

/// Plain algorithms: a branching looks at each set, a verdict at each choice of sets.
pub struct Plain;

/// Algorithms tuned for speed.
pub struct Tuned;

/// The drives of a mask, each as a mask, the lowest first.
pub fn bits(mut mask: u64) -> impl Iterator<Item = u64> {
    std::iter::from_fn(move || {
        let lowest = mask & mask.wrapping_neg();
        mask ^= lowest;
        (lowest != 0).then_some(lowest)
    })
}

pub fn place(drive: u64) -> usize {
    drive.trailing_zeros() as usize
}
