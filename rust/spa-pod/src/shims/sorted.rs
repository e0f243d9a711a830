//! Sets and maps in order, whose growth may be refused for want of memory, as that of Rust's trees can't be.
//!
//! What is put in lies in sorted runs, each at least twice as long as the next: so n insertions take n log n steps in all, and a
//! look-up takes at most (log n)².
use super::memory::{AllocError, VecRoom};
use alloc::vec::Vec;

/// A map in the order of its keys.
pub struct BTreeMap<K, V> {
    runs: Vec<Vec<(K, V)>>,
}

impl<K: Ord, V> BTreeMap<K, V> {
    /// No pairs.
    pub const fn new() -> BTreeMap<K, V> {
        BTreeMap { runs: Vec::new() }
    }

    /// The value of this key.
    pub fn get(&self, key: &K) -> Option<&V> {
        let found = |run: &'_ Vec<(K, V)>| run.binary_search_by(|(k, _)| k.cmp(key)).ok();
        let run = self.runs.iter().find(|run| found(run).is_some())?;
        found(run).map(|at| &run[at].1)
    }

    /// Puts a value under this key; the answer is the one that stood there.
    pub fn try_insert(&mut self, key: K, value: V) -> Result<Option<V>, AllocError> {
        for run in &mut self.runs {
            if let Ok(at) = run.binary_search_by(|(k, _)| k.cmp(&key)) {
                return Ok(Some(core::mem::replace(&mut run[at].1, value)));
            }
        }
        // The lengths of the runs at the end that are joined with the new pair into one.
        let (mut joined, mut kept) = (1, self.runs.len());
        while kept > 0 && self.runs[kept - 1].len() < 2 * joined {
            kept -= 1;
            joined += self.runs[kept].len();
        }
        let mut run = Vec::with_room(joined)?;
        self.runs.make_room(1)?;
        for shorter in self.runs.drain(kept..) {
            run.extend(shorter);
        }
        run.push((key, value));
        // Stable sorts take memory; keys stand once, so this one keeps what matters.
        run.sort_unstable_by(|(a, _), (b, _)| a.cmp(b));
        self.runs.push(run);
        Ok(None)
    }
}

/// A set in order.
pub struct BTreeSet<T> {
    map: BTreeMap<T, ()>,
}

impl<T: Ord> BTreeSet<T> {
    /// The empty set.
    pub const fn new() -> BTreeSet<T> {
        BTreeSet { map: BTreeMap::new() }
    }

    /// Whether it has this element.
    pub fn contains(&self, x: &T) -> bool {
        self.map.get(x).is_some()
    }

    /// Adds an element; the answer is whether it is new.
    pub fn try_insert(&mut self, x: T) -> Result<bool, AllocError> {
        Ok(self.map.try_insert(x, ())?.is_none())
    }
}

#[cfg(test)]
mod tests {
    use super::{BTreeMap, BTreeSet};

    #[test]
    fn keys_have_their_last_values() {
        let mut ours = BTreeMap::new();
        let mut theirs = std::collections::BTreeMap::new();
        // A linear congruential generator, whose low bits repeat soon: so many keys come twice.
        let mut x: u32 = 1;
        for round in 0..3000 {
            x = x.wrapping_mul(1664525).wrapping_add(1013904223);
            let key = x >> 21;
            assert_eq!(ours.try_insert(key, round), Ok(theirs.insert(key, round)));
        }
        for key in 0..2100 {
            assert_eq!(ours.get(&key), theirs.get(&key));
        }
        assert!(ours.runs.windows(2).all(|two| two[0].len() >= 2 * two[1].len()));
    }

    #[test]
    fn a_set_has_what_was_put_in() {
        let mut set = BTreeSet::new();
        assert_eq!([3, 1, 3].map(|x| set.try_insert(x)), [Ok(true), Ok(true), Ok(false)]);
        assert_eq!([1, 2, 3].map(|x| set.contains(&x)), [true, false, true]);
    }
}
