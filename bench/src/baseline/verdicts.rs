//! The verdict on k.

use super::tables::accept;
use super::{Answer, Method};

/// 0 for a yes, and for a no the positions, one byte each, the first lowest.
pub fn verdict<M: Method>(k: u8, n: u8, sets: &[u64]) -> Answer<u64> {
    if !(2..=4).contains(&k) {
        return Err(12);
    }
    let table = accept::<M>(n, sets)?.sets;
    if n <= k {
        return Err(33);
    }
    Ok(M::disjoint(k, n, &table).unwrap_or(0))
}
