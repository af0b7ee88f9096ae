//! Sets that keep their order.

use crate::memory::OutOfMemory;
use crate::ordered_map::{Keys, Lookup, OrderedMap};
use std::fmt::{self, Debug, Formatter};
use std::hash::Hash;
use std::iter;
use std::vec;

/// A set that keeps its members in order. A look-up takes as long in a long set as in a short one.
///
/// A set is asked by a borrowed member, as an [`OrderedMap`] by a key.
///
/// [`ComponentWorld::new`](crate::ComponentWorld::new) has an example.
#[derive(Clone)]
pub struct OrderedSet<T> {
    members: OrderedMap<T, ()>,
}

impl<T> OrderedSet<T> {
    /// The members in order.
    pub fn iter(&self) -> Keys<'_, T, ()> {
        self.members.keys()
    }

    /// How many members there are.
    #[must_use]
    pub fn len(&self) -> usize {
        self.members.len()
    }

    /// Whether there is none.
    #[must_use]
    pub fn is_empty(&self) -> bool {
        self.members.is_empty()
    }

    /// Whether there is this member.
    #[must_use]
    pub fn contains<Q: Lookup<T> + ?Sized>(&self, member: &Q) -> bool {
        self.members.contains_key(member)
    }

    /// The member that is this one.
    #[must_use]
    pub fn get<Q: Lookup<T> + ?Sized>(&self, member: &Q) -> Option<&T> {
        Some(self.get_full(member)?.1)
    }

    /// The position of a member, and the member.
    #[must_use]
    pub fn get_full<Q: Lookup<T> + ?Sized>(&self, member: &Q) -> Option<(usize, &T)> {
        let (position, member, ()) = self.members.get_full(member)?;
        Some((position, member))
    }

    /// The member at a position, from 0 on.
    #[must_use]
    pub fn get_index(&self, position: usize) -> Option<&T> {
        Some(self.members.get_index(position)?.0)
    }

    /// The position of a member.
    #[must_use]
    pub fn get_index_of<Q: Lookup<T> + ?Sized>(&self, member: &Q) -> Option<usize> {
        self.members.get_index_of(member)
    }

    /// The first member.
    #[must_use]
    pub fn first(&self) -> Option<&T> {
        Some(self.members.first()?.0)
    }

    /// The last member.
    #[must_use]
    pub fn last(&self) -> Option<&T> {
        Some(self.members.last()?.0)
    }
}

impl<T: Hash> OrderedSet<T> {
    /// The set of these members. Of equal ones the first is found.
    pub(crate) fn of(members: Vec<T>) -> Result<Self, OutOfMemory> {
        let mut entries = Vec::new();
        entries.try_reserve_exact(members.len())?;
        entries.extend(members.into_iter().map(|member| (member, ())));
        let members = OrderedMap::of(entries)?;
        Ok(OrderedSet { members })
    }
}

impl<T> Default for OrderedSet<T> {
    fn default() -> Self {
        OrderedSet {
            members: OrderedMap::EMPTY,
        }
    }
}

impl<T: PartialEq> PartialEq for OrderedSet<T> {
    /// Whether both have the same members in the same order.
    fn eq(&self, other: &Self) -> bool {
        self.members == other.members
    }
}

impl<T: Eq> Eq for OrderedSet<T> {}

impl<T: Debug> Debug for OrderedSet<T> {
    fn fmt(&self, f: &mut Formatter<'_>) -> fmt::Result {
        f.debug_set().entries(self).finish()
    }
}

impl<'a, T> IntoIterator for &'a OrderedSet<T> {
    type Item = &'a T;
    type IntoIter = Keys<'a, T, ()>;

    fn into_iter(self) -> Keys<'a, T, ()> {
        self.iter()
    }
}

impl<T> IntoIterator for OrderedSet<T> {
    type Item = T;
    type IntoIter = iter::Map<vec::IntoIter<(T, ())>, fn((T, ())) -> T>;

    fn into_iter(self) -> Self::IntoIter {
        self.members.into_iter().map(|(member, ())| member)
    }
}

#[cfg(test)]
mod tests {
    use super::OrderedSet;
    use crate::ids::TypeId;

    #[test]
    fn members_in_order() {
        for count in [0, 1, 100] {
            let members: Vec<TypeId> = (0..count).rev().map(TypeId).collect();
            let set = OrderedSet::of(members.clone()).expect("memory");
            assert_eq!((set.len(), set.is_empty()), (members.len(), count == 0));
            assert!(set.iter().eq(&members) && (&set).into_iter().rev().eq(members.iter().rev()));
            assert_eq!((set.first(), set.last()), (members.first(), members.last()));
            for (position, member) in members.iter().enumerate() {
                assert!(set.contains(member));
                assert_eq!(set.get(member), Some(member));
                assert_eq!(set.get_full(member), Some((position, member)));
                assert_eq!(set.get_index_of(member), Some(position));
                assert_eq!(set.get_index(position), Some(member));
            }
            assert!(!set.contains(&TypeId(count)));
            assert_eq!(set.get_full(&TypeId(count)), None);
            assert_eq!(set.get_index(members.len()), None);
            assert!(set.clone().into_iter().eq(members));
        }
        let set = OrderedSet::of(vec![TypeId(2), TypeId(1)]).expect("memory");
        assert_eq!(format!("{set:?}"), "{TypeId(2), TypeId(1)}");
        assert_ne!(set, OrderedSet::default());
    }
}
