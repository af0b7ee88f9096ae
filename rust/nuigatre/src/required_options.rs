//! The canonical options of lowered functions.

use crate::json::Value;
use crate::read::{Read, Unread};
use std::fmt::{self, Debug, Display, Formatter};
use std::ops::{BitAnd, BitAndAssign, BitOr, BitOrAssign, Sub, SubAssign};

/// Which canonical options a lowered function needs: a set, with the operators of sets. Its text has their names, as
/// `MEMORY | ASYNC`.
///
/// [`ComponentWorld::new`](crate::ComponentWorld::new) has an example.
#[derive(Clone, Copy, Default, PartialEq, Eq, PartialOrd, Ord, Hash)]
pub struct RequiredOptions(u32);

impl RequiredOptions {
    /// A memory.
    pub const MEMORY: RequiredOptions = RequiredOptions(1);
    /// A realloc.
    pub const REALLOC: RequiredOptions = RequiredOptions(2);
    /// How strings are encoded.
    pub const STRING_ENCODING: RequiredOptions = RequiredOptions(4);
    /// The function is called asynchronously.
    pub const ASYNC: RequiredOptions = RequiredOptions(8);

    /// All options with their names.
    const NAMED: [(&'static str, RequiredOptions); 4] = [
        ("MEMORY", RequiredOptions::MEMORY),
        ("REALLOC", RequiredOptions::REALLOC),
        ("STRING_ENCODING", RequiredOptions::STRING_ENCODING),
        ("ASYNC", RequiredOptions::ASYNC),
    ];

    /// No option.
    #[must_use]
    pub const fn empty() -> RequiredOptions {
        RequiredOptions(0)
    }

    /// All options.
    #[must_use]
    pub const fn all() -> RequiredOptions {
        RequiredOptions(15)
    }

    /// The set of these bits; `None` where one of them is of no option.
    #[must_use]
    pub const fn from_bits(bits: u32) -> Option<RequiredOptions> {
        if bits & !RequiredOptions::all().0 == 0 {
            Some(RequiredOptions(bits))
        } else {
            None
        }
    }

    /// The set of those of these bits that are of options.
    #[must_use]
    pub const fn from_bits_truncate(bits: u32) -> RequiredOptions {
        RequiredOptions(bits & RequiredOptions::all().0)
    }

    /// The set as bits: memory is 1, realloc 2, the encoding of strings 4, async 8.
    #[must_use]
    pub const fn bits(self) -> u32 {
        self.0
    }

    /// Whether all of these are in the set.
    #[must_use]
    pub const fn contains(self, others: RequiredOptions) -> bool {
        self.0 & others.0 == others.0
    }

    /// Whether one of these is in the set.
    #[must_use]
    pub const fn intersects(self, others: RequiredOptions) -> bool {
        self.0 & others.0 != 0
    }

    /// Whether the set is empty.
    #[must_use]
    pub const fn is_empty(self) -> bool {
        self.0 == 0
    }

    /// Adds options.
    pub fn insert(&mut self, others: RequiredOptions) {
        *self |= others;
    }

    /// Takes options away.
    pub fn remove(&mut self, others: RequiredOptions) {
        *self -= others;
    }

    /// The options of the set, one by one.
    pub fn iter(self) -> impl Iterator<Item = RequiredOptions> {
        self.iter_names().map(|it| it.1)
    }

    /// The options of the set with their names, one by one.
    pub fn iter_names(self) -> impl Iterator<Item = (&'static str, RequiredOptions)> {
        let named = RequiredOptions::NAMED.into_iter();
        named.filter(move |it| self.contains(it.1))
    }
}

impl BitOr for RequiredOptions {
    type Output = RequiredOptions;

    /// The options that are in one of two sets, or in both.
    fn bitor(self, others: RequiredOptions) -> RequiredOptions {
        RequiredOptions(self.0 | others.0)
    }
}

impl BitAnd for RequiredOptions {
    type Output = RequiredOptions;

    /// The options that are in both sets.
    fn bitand(self, others: RequiredOptions) -> RequiredOptions {
        RequiredOptions(self.0 & others.0)
    }
}

impl Sub for RequiredOptions {
    type Output = RequiredOptions;

    /// The options that are in the first set and not in the second.
    fn sub(self, others: RequiredOptions) -> RequiredOptions {
        RequiredOptions(self.0 & !others.0)
    }
}

impl BitOrAssign for RequiredOptions {
    fn bitor_assign(&mut self, others: RequiredOptions) {
        *self = *self | others;
    }
}

impl BitAndAssign for RequiredOptions {
    fn bitand_assign(&mut self, others: RequiredOptions) {
        *self = *self & others;
    }
}

impl SubAssign for RequiredOptions {
    fn sub_assign(&mut self, others: RequiredOptions) {
        *self = *self - others;
    }
}

impl FromIterator<RequiredOptions> for RequiredOptions {
    fn from_iter<I: IntoIterator<Item = RequiredOptions>>(sets: I) -> Self {
        sets.into_iter()
            .fold(RequiredOptions::empty(), BitOr::bitor)
    }
}

impl Extend<RequiredOptions> for RequiredOptions {
    fn extend<I: IntoIterator<Item = RequiredOptions>>(&mut self, sets: I) {
        sets.into_iter().for_each(|set| *self |= set);
    }
}

impl Display for RequiredOptions {
    fn fmt(&self, f: &mut Formatter<'_>) -> fmt::Result {
        for (position, (name, _)) in self.iter_names().enumerate() {
            let separator = if position == 0 { "" } else { " | " };
            write!(f, "{separator}{name}")?;
        }
        Ok(())
    }
}

impl Debug for RequiredOptions {
    /// As `RequiredOptions(MEMORY | ASYNC)`; `RequiredOptions(0x0)` of none.
    fn fmt(&self, f: &mut Formatter<'_>) -> fmt::Result {
        if self.is_empty() {
            return f.write_str("RequiredOptions(0x0)");
        }
        write!(f, "RequiredOptions({self})")
    }
}

impl Read for RequiredOptions {
    fn read(value: &Value<'_>) -> Result<Self, Unread> {
        RequiredOptions::from_bits(u32::read(value)?).ok_or(Unread::Unknown)
    }
}

#[cfg(test)]
mod tests {
    use super::RequiredOptions as Options;

    #[test]
    fn sets() {
        let mut set = Options::MEMORY | Options::ASYNC;
        assert_eq!(set.bits(), 9);
        assert_eq!(Options::from_bits(9), Some(set));
        assert_eq!(Options::from_bits(16), None);
        assert_eq!(Options::from_bits_truncate(25), set);
        assert!(set.contains(Options::ASYNC) && !set.contains(Options::REALLOC | Options::ASYNC));
        assert!(set.intersects(Options::REALLOC | Options::ASYNC));
        assert_eq!(
            format!("{set} {set:?}"),
            "MEMORY | ASYNC RequiredOptions(MEMORY | ASYNC)"
        );
        assert_eq!(
            set.iter().collect::<Vec<_>>(),
            [Options::MEMORY, Options::ASYNC]
        );
        assert_eq!(set.iter().collect::<Options>(), set);
        set |= Options::REALLOC;
        set -= Options::MEMORY;
        assert_eq!(set & Options::all(), Options::REALLOC | Options::ASYNC);
        set.remove(set);
        assert_eq!(
            (set, format!("{set}{set:?}")),
            (Options::empty(), "RequiredOptions(0x0)".into())
        );
        set.insert(Options::all());
        assert_eq!(set.iter_names().map(|it| it.0).last(), Some("ASYNC"));
        assert_eq!(Options::default(), Options::empty());
    }
}
