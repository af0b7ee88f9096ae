//! Resolved worlds.

use crate::compact::compact;
use crate::encoder::ComponentEncoder;
use crate::error::Error;
use crate::ffi::{self, Answered};
use crate::ids::TypeId;
use crate::json::{Reader, Value, is_one_value};
use crate::memory::{fitted_text, push};
use crate::read::{Unread, optional};
use crate::wit_types::Type;
use crate::world::ComponentWorld;
use crate::world_error::{WorldFault, not_json};
use std::str::FromStr;

/// Resolved worlds that were read once, for the encoding of many components: worlds, interfaces, types and packages.
///
/// ```no_run
/// use nuigatre::{ComponentEncoder, ComponentWorld, Resolved};
/// use std::fs;
///
/// let worlds: Resolved = fs::read_to_string("worlds.json")?.parse()?;
/// for file in ["one.wasm", "two.wasm"] {
///     let module = fs::read(file)?;
///     let encoder = ComponentEncoder::new(&worlds, "wasi:cli/command", &module);
///     let world = ComponentWorld::new(&encoder)?;
/// }
/// # Ok::<(), Box<dyn std::error::Error>>(())
/// ```
#[derive(Clone, Debug, PartialEq, Eq)]
pub struct Resolved {
    json: String,
    /// The types that futures and streams carry, by their ids, in order; those that carry nothing are not there.
    payloads: Vec<(TypeId, Type)>,
}

impl Resolved {
    /// Reads worlds from JSON, the serde form of wit-parser's `Resolve`, which `serde_json::to_string(&resolve)` makes,
    /// and `wasm-tools component wit --json` prints. A text that no component can be encoded by is refused here, but for
    /// [`WorldFault::PackageRange`].
    ///
    /// # Errors
    ///
    /// - `World`: the text is not what it has to be ([`WorldFault::Json`]), or what it says is not well-formed
    ///   ([`WorldFault::Resolve`]).
    /// - `Memory`: an allocation failed.
    /// - `OtherVersion`: the library is of another version than this crate.
    pub fn new(json: &str) -> Result<Self, Error> {
        check(json)?;
        let json = compact(json)?;
        Ok(Resolved {
            payloads: payloads(&json)?,
            json: fitted_text(json),
        })
    }

    /// The worlds as JSON: what was read, without spaces between its pieces, and without docs.
    #[must_use]
    pub fn as_json(&self) -> &str {
        &self.json
    }

    /// The type that the future or the stream of this id carries, if there is one and it carries something.
    pub(crate) fn payload(&self, id: TypeId) -> Option<Type> {
        let position = self.payloads.binary_search_by_key(&id, |it| it.0).ok()?;
        Some(self.payloads[position].1)
    }
}

/// The worlds that a component is encoded for one of.
///
/// [`Resolved`](crate::Resolved) has an example.
#[derive(Clone, Copy, Debug)]
#[non_exhaustive]
pub enum Worlds<'a> {
    /// As JSON, which each call reads: the serde form of wit-parser's `Resolve`.
    Json(&'a str),
    /// Read before.
    Resolved(&'a Resolved),
}

impl<'a> From<&'a str> for Worlds<'a> {
    fn from(json: &'a str) -> Self {
        Worlds::Json(json)
    }
}

impl<'a> From<&'a String> for Worlds<'a> {
    fn from(json: &'a String) -> Self {
        Worlds::Json(json)
    }
}

impl<'a> From<&'a Resolved> for Worlds<'a> {
    fn from(resolved: &'a Resolved) -> Self {
        Worlds::Resolved(resolved)
    }
}

impl<'a> Worlds<'a> {
    /// The worlds as a text that is one value of a message, whatever else that has.
    pub(crate) fn json(self) -> Result<&'a str, Error> {
        match self {
            Worlds::Json(json) if is_one_value(json) => Ok(json),
            Worlds::Json(json) => Err(not_one_value(json)),
            Worlds::Resolved(resolved) => Ok(&resolved.json),
        }
    }

    /// The worlds as they were passed.
    pub(crate) fn text(self) -> &'a str {
        match self {
            Worlds::Json(json) => json,
            Worlds::Resolved(resolved) => &resolved.json,
        }
    }
}

/// How many bytes a first buffer has for what is said of a text.
const ROOM: usize = 1024;

/// Why a text is not one value of JSON, by a call to which it is the message.
fn not_one_value(json: &str) -> Error {
    match ffi::world(json.as_bytes(), b"", ROOM) {
        Ok(Answered::Fault(fault)) => not_json(&fault).map_or_else(Error::from, Error::World),
        Ok(_) => Error::OtherVersion,
        Err(error) => error,
    }
}

impl FromStr for Resolved {
    type Err = Error;

    /// [`Resolved::new`].
    fn from_str(json: &str) -> Result<Self, Error> {
        Resolved::new(json)
    }
}

/// Checks worlds, by a call without a module: it refuses the worlds, or else the module.
fn check(json: &str) -> Result<(), Error> {
    let encoder = ComponentEncoder::new(json, 0, b"");
    match ComponentWorld::new(&encoder) {
        Err(Error::World(error)) => match error.fault() {
            WorldFault::Dedupe(_) => Ok(()),
            _ => Err(Error::World(error)),
        },
        Err(error) => Err(error),
        Ok(_) => Err(Error::OtherVersion),
    }
}

/// The types that futures and streams carry, by their ids.
fn payloads(json: &str) -> Result<Vec<(TypeId, Type)>, Unread> {
    let (mut payloads, mut ids) = (Vec::new(), 0..);
    Reader::new(json).members(|reader, name| match &*name {
        "types" => reader.elements(|reader| {
            let id = TypeId(ids.next().ok_or(Unread::Unknown)?);
            if let Some(payload) = payload_of(reader)? {
                push(&mut payloads, (id, payload))?;
            }
            Ok(())
        }),
        _ => reader.skip(),
    })?;
    Ok(payloads)
}

/// The type that a future or a stream carries.
fn payload_of(reader: &mut Reader<'_>) -> Result<Option<Type>, Unread> {
    let mut payload = None;
    reader.members(|reader, name| match (&*name, reader.peek()) {
        ("kind", Some(b'{')) => reader.members(|reader, kind| {
            let value = reader.raw()?;
            if matches!(&*kind, "future" | "stream") {
                payload = optional(&Value::parse(value)?)?;
            }
            Ok(())
        }),
        _ => reader.skip(),
    })?;
    Ok(payload)
}
