//! Types of component functions.

use crate::ids::TypeId;
use crate::json::Value;
use crate::read::{Read, Unread, of_name, show};
use std::fmt::{self, Display, Formatter};

/// A type of the resolved worlds. Its text is as `u32`, or as `type 3` of one that they define. These are all: another one is
/// a new version of this crate.
///
/// [`ComponentWorld::new`](crate::ComponentWorld::new) has an example.
#[derive(Clone, Copy, Debug, PartialEq, Eq, Hash)]
#[allow(missing_docs)]
pub enum Type {
    Bool,
    U8,
    U16,
    U32,
    U64,
    S8,
    S16,
    S32,
    S64,
    F32,
    F64,
    Char,
    String,
    ErrorContext,
    /// One that the worlds define.
    Id(TypeId),
}

impl Read for Type {
    fn read(value: &Value<'_>) -> Result<Self, Unread> {
        let Ok(name) = value.as_str() else {
            return Ok(Type::Id(TypeId::read(value)?));
        };
        of_name(name, &PLAIN)
    }
}

/// The types that are not defined by worlds.
const PLAIN: [(&str, Type); 14] = [
    ("bool", Type::Bool),
    ("u8", Type::U8),
    ("u16", Type::U16),
    ("u32", Type::U32),
    ("u64", Type::U64),
    ("s8", Type::S8),
    ("s16", Type::S16),
    ("s32", Type::S32),
    ("s64", Type::S64),
    ("f32", Type::F32),
    ("f64", Type::F64),
    ("char", Type::Char),
    ("string", Type::String),
    ("error-context", Type::ErrorContext),
];

impl Display for Type {
    fn fmt(&self, f: &mut Formatter<'_>) -> fmt::Result {
        match self {
            Type::Id(id) => write!(f, "{id}"),
            plain => show(plain, &PLAIN, f),
        }
    }
}
