//! Positions of entries by their keys.

use crate::memory::OutOfMemory;
use std::hash::{BuildHasher, Hash, RandomState};

/// So many entries at most are looked through one by one.
const FEW: usize = 8;

/// A slot without an entry.
const NONE: u32 = u32::MAX;

/// The positions of entries by the hashes of their keys, which it does not keep: a table with open addressing. Of equal
/// keys the first is found.
#[derive(Clone, Debug)]
pub(crate) struct Index {
    /// As many as a power of two, at least twice the entries; none for few entries.
    slots: Vec<u32>,
    state: Option<RandomState>,
}

impl Default for Index {
    fn default() -> Self {
        Index::FEW
    }
}

impl Index {
    /// An index of few entries.
    pub(crate) const FEW: Index = Index {
        slots: Vec::new(),
        state: None,
    };

    /// The index of so many entries, whose keys a function gives.
    pub(crate) fn of<K: Hash>(count: usize, key: impl Fn(usize) -> K) -> Result<Self, OutOfMemory> {
        if count <= FEW {
            return Ok(Index::FEW);
        }
        // no position is `NONE`
        if u32::try_from(count).is_err() {
            return Err(OutOfMemory);
        }
        let room = (2 * count).next_power_of_two();
        let mut slots = Vec::new();
        slots.try_reserve_exact(room)?;
        slots.resize(room, NONE);
        let state = RandomState::new();
        for position in 0..count {
            let mut at = first_slot(&state, &key(position), room);
            while slots[at] != NONE {
                at = (at + 1) % room;
            }
            slots[at] = position as u32;
        }
        Ok(Index {
            slots,
            state: Some(state),
        })
    }

    /// The position of a key among `count` entries. `is_at` says whether it is the key of the entry at a position.
    pub(crate) fn find<Q: Hash + ?Sized>(
        &self,
        key: &Q,
        count: usize,
        is_at: impl Fn(usize) -> bool,
    ) -> Option<usize> {
        let Some(state) = &self.state else {
            return (0..count).find(|position| is_at(*position));
        };
        let room = self.slots.len();
        let mut at = first_slot(state, key, room);
        while self.slots[at] != NONE {
            let position = self.slots[at] as usize;
            if is_at(position) {
                return Some(position);
            }
            at = (at + 1) % room;
        }
        None
    }
}

/// Where the search for a key begins among so many slots.
fn first_slot<Q: Hash + ?Sized>(state: &RandomState, key: &Q, room: usize) -> usize {
    state.hash_one(key) as usize & (room - 1)
}

#[cfg(test)]
mod tests {
    use super::Index;

    #[test]
    fn first_of_equal_keys() {
        for count in [0, 1, 8, 9, 1_000] {
            let keys: Vec<usize> = (0..count).map(|number| number / 3).collect();
            let index = Index::of(count, |position| keys[position]).expect("memory");
            let find = |key: usize| index.find(&key, count, |position| keys[position] == key);
            for key in 0..count.div_ceil(3) {
                assert_eq!(find(key), Some(3 * key));
            }
            assert_eq!(find(count), None);
        }
    }
}
