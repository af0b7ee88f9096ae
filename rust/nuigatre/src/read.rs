//! Values out of the JSON that the archive writes.

use crate::error::Error;
use crate::json::Value;
use crate::memory::{OutOfMemory, string};
use crate::ordered_map::OrderedMap;
use crate::ordered_set::OrderedSet;
use std::fmt::{self, Display, Formatter};
use std::hash::Hash;

/// Why a value is not read.
#[derive(Clone, Copy, Debug, PartialEq, Eq)]
pub(crate) enum Unread {
    /// An allocation failed.
    Memory,
    /// It is not what the archive writes.
    Unknown,
}

impl From<OutOfMemory> for Unread {
    fn from(_: OutOfMemory) -> Self {
        Unread::Memory
    }
}

impl From<Unread> for Error {
    fn from(unread: Unread) -> Self {
        match unread {
            Unread::Memory => Error::Memory,
            Unread::Unknown => Error::OtherVersion,
        }
    }
}

/// A type whose values are read from JSON values.
pub(crate) trait Read: Sized {
    fn read(value: &Value<'_>) -> Result<Self, Unread>;
}

impl Read for bool {
    fn read(value: &Value<'_>) -> Result<Self, Unread> {
        match value {
            Value::Bool(truth) => Ok(*truth),
            _ => Err(Unread::Unknown),
        }
    }
}

impl Read for u64 {
    fn read(value: &Value<'_>) -> Result<Self, Unread> {
        match value {
            Value::Number(number) => Ok(*number),
            _ => Err(Unread::Unknown),
        }
    }
}

impl Read for u32 {
    fn read(value: &Value<'_>) -> Result<Self, Unread> {
        u64::read(value)?.try_into().map_err(|_| Unread::Unknown)
    }
}

impl Read for u8 {
    fn read(value: &Value<'_>) -> Result<Self, Unread> {
        u64::read(value)?.try_into().map_err(|_| Unread::Unknown)
    }
}

impl Read for usize {
    fn read(value: &Value<'_>) -> Result<Self, Unread> {
        u64::read(value)?.try_into().map_err(|_| Unread::Unknown)
    }
}

impl Read for String {
    fn read(value: &Value<'_>) -> Result<Self, Unread> {
        Ok(string(value.as_str()?)?)
    }
}

impl<T: Read> Read for Vec<T> {
    fn read(value: &Value<'_>) -> Result<Self, Unread> {
        items(value.as_array()?, T::read)
    }
}

/// Each value by a function, in order.
fn items<T>(
    values: &[Value<'_>],
    read: impl Fn(&Value<'_>) -> Result<T, Unread>,
) -> Result<Vec<T>, Unread> {
    let mut items = Vec::new();
    items
        .try_reserve_exact(values.len())
        .map_err(OutOfMemory::from)?;
    for value in values {
        items.push(read(value)?);
    }
    Ok(items)
}

/// The value of this name, among all that a type has with their names.
pub(crate) fn of_name<T: Copy>(name: &str, all: &[(&str, T)]) -> Result<T, Unread> {
    let found = all.iter().find(|it| it.0 == name);
    found.map(|it| it.1).ok_or(Unread::Unknown)
}

/// Writes the name of a value, which is among all that its type has with their names.
pub(crate) fn show<T: PartialEq>(
    value: &T,
    all: &[(&str, T)],
    f: &mut Formatter<'_>,
) -> fmt::Result {
    let found = all.iter().find(|it| it.1 == *value);
    f.pad(found.map_or("", |it| it.0))
}

/// A name in backquotes, in which each character that is not printed is escaped: names are those of modules and of worlds.
pub(crate) struct Backquoted<'a>(pub(crate) &'a str);

impl Display for Backquoted<'_> {
    fn fmt(&self, f: &mut Formatter<'_>) -> fmt::Result {
        f.write_str("`")?;
        for letter in self.0.chars() {
            match letter {
                '"' | '\'' | '\\' => write!(f, "{letter}")?,
                letter => write!(f, "{}", letter.escape_debug())?,
            }
        }
        f.write_str("`")
    }
}

/// The member of this name of an object.
pub(crate) fn member<T: Read>(object: &Value<'_>, name: &str) -> Result<T, Unread> {
    T::read(object.get(name)?)
}

/// The member of this name of an object; `None` for null.
pub(crate) fn optional_member<T: Read>(
    object: &Value<'_>,
    name: &str,
) -> Result<Option<T>, Unread> {
    optional(object.get(name)?)
}

/// A value; `None` for null.
pub(crate) fn optional<T: Read>(value: &Value<'_>) -> Result<Option<T>, Unread> {
    match value {
        Value::Null => Ok(None),
        value => Ok(Some(T::read(value)?)),
    }
}

/// The items of the list that is the member of this name of an object, each by a function.
pub(crate) fn list<T>(
    object: &Value<'_>,
    name: &str,
    read: impl Fn(&Value<'_>) -> Result<T, Unread>,
) -> Result<Vec<T>, Unread> {
    items(object.get(name)?.as_array()?, read)
}

/// The map of the list that is the member of this name of an object, each entry by a function.
pub(crate) fn map<K: Hash, V>(
    object: &Value<'_>,
    name: &str,
    read: impl Fn(&Value<'_>) -> Result<(K, V), Unread>,
) -> Result<OrderedMap<K, V>, Unread> {
    Ok(OrderedMap::of(list(object, name, read)?)?)
}

/// The set of the list that is the member of this name of an object.
pub(crate) fn set<T: Read + Hash>(object: &Value<'_>, name: &str) -> Result<OrderedSet<T>, Unread> {
    Ok(OrderedSet::of(member(object, name)?)?)
}
