//! Maps that keep their order.

use crate::ids::{AbiVariant, InterfaceId, TypeId, WorldKey};
use crate::index::Index;
use crate::memory::OutOfMemory;
use std::fmt::{self, Debug, Formatter};
use std::hash::Hash;
use std::iter::FusedIterator;
use std::{ops, slice, vec};

/// A key by which a map with keys `K` can be asked: a key of the map, or what it is without owning it. It hashes as the
/// key does. Other crates can't implement it.
///
/// [`ComponentWorld::new`](crate::ComponentWorld::new) has an example.
pub trait Lookup<K: ?Sized>: Hash + Sealed<K> {
    /// Whether it is this key.
    fn is(&self, key: &K) -> bool;
}

/// A trait that other crates can't implement.
mod sealed {
    pub trait Sealed<K: ?Sized> {}
}

use sealed::Sealed;

impl Sealed<String> for str {}
impl Sealed<String> for String {}
impl Sealed<Option<String>> for Option<&str> {}
impl Sealed<Option<String>> for Option<String> {}
impl Sealed<(String, AbiVariant)> for (&str, AbiVariant) {}
impl Sealed<(String, AbiVariant)> for (String, AbiVariant) {}
impl Sealed<InterfaceId> for InterfaceId {}
impl Sealed<TypeId> for TypeId {}
impl Sealed<WorldKey> for WorldKey {}
impl Sealed<u32> for u32 {}

impl Lookup<String> for str {
    fn is(&self, key: &String) -> bool {
        self == key
    }
}

impl Lookup<String> for String {
    fn is(&self, key: &String) -> bool {
        self == key
    }
}

impl Lookup<Option<String>> for Option<&str> {
    fn is(&self, key: &Option<String>) -> bool {
        *self == key.as_deref()
    }
}

impl Lookup<Option<String>> for Option<String> {
    fn is(&self, key: &Option<String>) -> bool {
        self == key
    }
}

impl Lookup<(String, AbiVariant)> for (&str, AbiVariant) {
    fn is(&self, key: &(String, AbiVariant)) -> bool {
        self.0 == key.0 && self.1 == key.1
    }
}

impl Lookup<(String, AbiVariant)> for (String, AbiVariant) {
    fn is(&self, key: &(String, AbiVariant)) -> bool {
        self == key
    }
}

impl Lookup<WorldKey> for WorldKey {
    fn is(&self, key: &WorldKey) -> bool {
        self == key
    }
}

impl Lookup<InterfaceId> for InterfaceId {
    fn is(&self, key: &InterfaceId) -> bool {
        self == key
    }
}

impl Lookup<TypeId> for TypeId {
    fn is(&self, key: &TypeId) -> bool {
        self == key
    }
}

impl Lookup<u32> for u32 {
    fn is(&self, key: &u32) -> bool {
        self == key
    }
}

/// A map that keeps its entries in order. A look-up takes as long in a long map as in a short one.
///
/// A map is asked by a borrowed key: by `"name"` where keys are texts, by `&Some("name")` or `&None` where they are
/// texts or nothing, and by `&("name", abi)` where they are names with an [`AbiVariant`].
///
/// [`ComponentWorld::new`](crate::ComponentWorld::new) has an example.
#[derive(Clone)]
pub struct OrderedMap<K, V> {
    entries: Vec<(K, V)>,
    index: Index,
}

impl<K, V> OrderedMap<K, V> {
    /// The empty map.
    pub(crate) const EMPTY: Self = OrderedMap {
        entries: Vec::new(),
        index: Index::FEW,
    };

    /// The entries in order.
    pub fn iter(&self) -> Iter<'_, K, V> {
        Iter {
            entries: self.entries.iter(),
        }
    }

    /// The keys in order.
    pub fn keys(&self) -> Keys<'_, K, V> {
        Keys {
            entries: self.entries.iter(),
        }
    }

    /// The values in the order of their keys.
    #[must_use]
    pub fn values(&self) -> impl ExactSizeIterator<Item = &V> + DoubleEndedIterator {
        self.entries.iter().map(|(_, value)| value)
    }

    /// How many entries there are.
    #[must_use]
    pub fn len(&self) -> usize {
        self.entries.len()
    }

    /// Whether there is none.
    #[must_use]
    pub fn is_empty(&self) -> bool {
        self.entries.is_empty()
    }

    /// The key and the value at a position, from 0 on.
    #[must_use]
    pub fn get_index(&self, position: usize) -> Option<(&K, &V)> {
        self.entries.get(position).map(|(key, value)| (key, value))
    }

    /// The first key and its value.
    #[must_use]
    pub fn first(&self) -> Option<(&K, &V)> {
        self.get_index(0)
    }

    /// The last key and its value.
    #[must_use]
    pub fn last(&self) -> Option<(&K, &V)> {
        self.entries.last().map(|(key, value)| (key, value))
    }

    /// The position of a key.
    #[must_use]
    pub fn get_index_of<Q: Lookup<K> + ?Sized>(&self, key: &Q) -> Option<usize> {
        let is_at = |position: usize| key.is(&self.entries[position].0);
        self.index.find(key, self.entries.len(), is_at)
    }

    /// The position of a key, the key and its value.
    #[must_use]
    pub fn get_full<Q: Lookup<K> + ?Sized>(&self, key: &Q) -> Option<(usize, &K, &V)> {
        let position = self.get_index_of(key)?;
        let (key, value) = &self.entries[position];
        Some((position, key, value))
    }

    /// The value under a key.
    #[must_use]
    pub fn get<Q: Lookup<K> + ?Sized>(&self, key: &Q) -> Option<&V> {
        Some(&self.entries[self.get_index_of(key)?].1)
    }

    /// Whether there is a value under a key.
    #[must_use]
    pub fn contains_key<Q: Lookup<K> + ?Sized>(&self, key: &Q) -> bool {
        self.get_index_of(key).is_some()
    }
}

impl<K: Hash, V> OrderedMap<K, V> {
    /// The map of these entries. Of equal keys the first is found.
    pub(crate) fn of(entries: Vec<(K, V)>) -> Result<Self, OutOfMemory> {
        let index = Index::of(entries.len(), |position| &entries[position].0)?;
        Ok(OrderedMap { entries, index })
    }
}

impl<K, V> Default for OrderedMap<K, V> {
    fn default() -> Self {
        OrderedMap::EMPTY
    }
}

impl<K: PartialEq, V: PartialEq> PartialEq for OrderedMap<K, V> {
    fn eq(&self, other: &Self) -> bool {
        self.entries == other.entries
    }
}

impl<K: Eq, V: Eq> Eq for OrderedMap<K, V> {}

impl<K: Debug, V: Debug> Debug for OrderedMap<K, V> {
    fn fmt(&self, f: &mut Formatter<'_>) -> fmt::Result {
        f.debug_map().entries(self).finish()
    }
}

impl<K, V, Q: Lookup<K> + ?Sized> ops::Index<&Q> for OrderedMap<K, V> {
    type Output = V;

    /// The value under a key.
    ///
    /// # Panics
    ///
    /// There is none.
    fn index(&self, key: &Q) -> &V {
        self.get(key).expect("a key of the map")
    }
}

/// The entries of an [`OrderedMap`] in order.
///
/// [`ComponentWorld::new`](crate::ComponentWorld::new) has an example.
#[derive(Debug)]
#[must_use = "iterators do nothing unless they are gone through"]
pub struct Iter<'a, K, V> {
    entries: slice::Iter<'a, (K, V)>,
}

impl<K, V> Clone for Iter<'_, K, V> {
    fn clone(&self) -> Self {
        Iter {
            entries: self.entries.clone(),
        }
    }
}

impl<'a, K, V> Iterator for Iter<'a, K, V> {
    type Item = (&'a K, &'a V);

    fn next(&mut self) -> Option<Self::Item> {
        self.entries.next().map(|(key, value)| (key, value))
    }

    fn size_hint(&self) -> (usize, Option<usize>) {
        self.entries.size_hint()
    }
}

impl<K, V> DoubleEndedIterator for Iter<'_, K, V> {
    fn next_back(&mut self) -> Option<Self::Item> {
        self.entries.next_back().map(|(key, value)| (key, value))
    }
}

impl<K, V> ExactSizeIterator for Iter<'_, K, V> {}

impl<K, V> FusedIterator for Iter<'_, K, V> {}

/// The keys of an [`OrderedMap`], or the members of an [`OrderedSet`](crate::OrderedSet), in order.
#[derive(Debug)]
#[must_use = "iterators do nothing unless they are gone through"]
pub struct Keys<'a, K, V> {
    entries: slice::Iter<'a, (K, V)>,
}

impl<K, V> Clone for Keys<'_, K, V> {
    fn clone(&self) -> Self {
        Keys {
            entries: self.entries.clone(),
        }
    }
}

impl<'a, K, V> Iterator for Keys<'a, K, V> {
    type Item = &'a K;

    fn next(&mut self) -> Option<&'a K> {
        self.entries.next().map(|(key, _)| key)
    }

    fn size_hint(&self) -> (usize, Option<usize>) {
        self.entries.size_hint()
    }
}

impl<K, V> DoubleEndedIterator for Keys<'_, K, V> {
    fn next_back(&mut self) -> Option<Self::Item> {
        self.entries.next_back().map(|(key, _)| key)
    }
}

impl<K, V> ExactSizeIterator for Keys<'_, K, V> {}

impl<K, V> FusedIterator for Keys<'_, K, V> {}

impl<'a, K, V> IntoIterator for &'a OrderedMap<K, V> {
    type Item = (&'a K, &'a V);
    type IntoIter = Iter<'a, K, V>;

    fn into_iter(self) -> Iter<'a, K, V> {
        self.iter()
    }
}

impl<K, V> IntoIterator for OrderedMap<K, V> {
    type Item = (K, V);
    type IntoIter = vec::IntoIter<(K, V)>;

    fn into_iter(self) -> vec::IntoIter<(K, V)> {
        self.entries.into_iter()
    }
}

#[cfg(test)]
mod tests {
    use super::OrderedMap;
    use crate::ids::AbiVariant;

    /// Long enough to be looked up by hashes.
    const COUNT: usize = 100;

    #[test]
    fn keys_by_what_they_are() {
        let names = (0..COUNT).map(|number| (format!("name {number}"), number));
        let map = OrderedMap::of(names.collect()).expect("memory");
        assert_eq!(map.get("name 7"), Some(&7));
        assert_eq!(map.get(&"name 7".to_owned()), Some(&7));
        assert_eq!(map["name 99"], 99);
        assert!(!map.contains_key("name 100"));
        let abi = AbiVariant::GuestImport;
        let functions = (0..COUNT).map(|number| ((format!("f{number}"), abi), number));
        let map = OrderedMap::of(functions.collect()).expect("memory");
        assert_eq!(map.get(&("f9", abi)), Some(&9));
        assert_eq!(map.get(&("f9", AbiVariant::GuestImportAsync)), None);
        let optional = (0..COUNT).map(|number| (Some(format!("{number}")), number));
        let all = std::iter::once((None, COUNT)).chain(optional);
        let map = OrderedMap::of(all.collect()).expect("memory");
        assert_eq!(map.get(&None::<&str>), Some(&COUNT));
        assert_eq!(map.get(&Some("99")), Some(&99));
        assert_eq!(map.get(&Some("name".to_owned())), None);
    }

    #[test]
    fn order() {
        let entries = vec![("b".to_owned(), 1), ("a".to_owned(), 2)];
        let map = OrderedMap::of(entries.clone()).expect("memory");
        assert_eq!(map.keys().collect::<Vec<_>>(), ["b", "a"]);
        assert_eq!(map.values().rev().collect::<Vec<_>>(), [&2, &1]);
        let (b, a) = (&entries[0], &entries[1]);
        assert_eq!(map.first(), Some((&b.0, &b.1)));
        assert_eq!(map.last(), Some((&a.0, &a.1)));
        assert_eq!(map.get_full("a"), Some((1, &a.0, &a.1)));
        assert_eq!(map.get_full("c"), None);
        let empty = OrderedMap::<String, i32>::default();
        assert_eq!((empty.first(), empty.last()), (None, None));
        assert_eq!(format!("{map:?}"), "{\"b\": 1, \"a\": 2}");
        let mut borrowed = Vec::new();
        for (name, number) in &map {
            borrowed.push((name.clone(), *number));
        }
        assert_eq!(borrowed, entries);
        assert_eq!(map.into_iter().collect::<Vec<_>>(), entries);
    }
}
