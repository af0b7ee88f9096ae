//! Why a component imports what it does, and what has to go for that to go.

use crate::encoder::{ComponentEncoder, MainOrAdapter};
use crate::error::Error;
use crate::ffi::{self, Answered};
use crate::json::Value;
use crate::read::{Read, Unread, list, member, of_name, optional_member};
use crate::world_error::world_error;

/// Of which kind the imports of an interface are, by what has to go for the component not to import it.
///
/// [`ComponentWorld::new`](crate::ComponentWorld::new) has an example.
#[derive(Clone, Copy, Debug, PartialEq, Eq, Hash)]
#[non_exhaustive]
pub enum ImportedKind {
    /// The main module imports something of it itself.
    Main,
    /// Adapters import it for exports that the main module imports: it goes with these.
    Goes,
    /// It is imported for its types alone.
    Types,
    /// A library imports it, or an adapter for an export that is required whatever the main module imports.
    Stays,
}

const KINDS: [(&str, ImportedKind); 4] = [
    ("main", ImportedKind::Main),
    ("goes", ImportedKind::Goes),
    ("types", ImportedKind::Types),
    ("stays", ImportedKind::Stays),
];

/// An interface of which a component imports something.
///
/// [`ComponentWorld::new`](crate::ComponentWorld::new) has an example.
#[derive(Clone, Debug, PartialEq, Eq, Hash)]
#[non_exhaustive]
pub struct ImportedPart {
    /// The name that it has outside of the world; `$root` for what is the world's own.
    pub interface: String,
    /// Its kind, by what has to go for it to go.
    pub kind: ImportedKind,
    /// The modules that import something of it: the main module, and then adapters and libraries.
    pub modules: Vec<ImportingModule>,
}

/// A module that imports something of an interface.
///
/// [`ComponentWorld::new`](crate::ComponentWorld::new) has an example.
#[derive(Clone, Debug, PartialEq, Eq, Hash)]
#[non_exhaustive]
pub struct ImportingModule {
    /// The module.
    pub module: MainOrAdapter,
    /// How many of its imports are of the interface.
    pub imports: usize,
    /// Of the main module the functions that name one of them, by their indices, with the names that its name section gives
    /// them, if it does.
    pub by: Vec<(u32, Option<String>)>,
    /// Of an adapter its exports that lead to one of them, and that the main module imports.
    pub exports: Vec<String>,
    /// Those that are required whatever the main module imports.
    pub stays: Vec<String>,
    /// How many of its functions are live for these exports alone.
    pub functions: usize,
    /// How many bytes their bodies have.
    pub bytes: usize,
}

/// How many bytes a first buffer has.
const ROOM: usize = 1 << 16;

impl ComponentEncoder<'_> {
    /// Why the component imports what a key asks about: the paths through its main module and its adapters that lead there, as
    /// the JSON that `wcplan --why KEY --json` prints, in a line. No plan is made, so a component that has none has its paths
    /// all the same.
    ///
    /// The key is `all`; `$root`, for what is the world's own; or an interface, a package, or a function or a type of the world
    /// itself, with its version or without.
    ///
    /// # Errors
    ///
    /// - `World`: there is no component's world, as of [`ComponentWorld::new`](crate::ComponentWorld::new); or
    ///   [`UnknownImport`](crate::WorldFault::UnknownImport), if the world imports nothing that the key asks about: the place of
    ///   the error has what it imports.
    /// - `Memory`: an allocation failed.
    /// - `OtherVersion`: the library is of another version than this crate.
    pub fn paths_to_json(&self, key: &str) -> Result<String, Error> {
        let (message, modules) = self.question()?;
        let answer = ffi::component_paths(message.as_bytes(), &modules, key, ROOM)?;
        self.text_of(answer)
    }

    /// The imported parts: of each interface what the component imports, and what has to go for it to go. First come those that
    /// the main module imports itself, then those that go with exports of adapters, then those that are imported for their types
    /// alone, and last those that stay; among these the ones with which most bytes go come first.
    ///
    /// # Errors
    ///
    /// - `World`: there is no component's world, as of [`ComponentWorld::new`](crate::ComponentWorld::new).
    /// - `Memory`: an allocation failed.
    /// - `OtherVersion`: the library is of another version than this crate.
    pub fn imported_parts(&self) -> Result<Vec<ImportedPart>, Error> {
        let (message, modules) = self.question()?;
        let answer = ffi::component_imports(message.as_bytes(), &modules, ROOM)?;
        let text = self.text_of(answer)?;
        Ok(member(&Value::parse(&text)?, "imports")?)
    }

    /// The text of an answer.
    fn text_of(&self, answer: Answered) -> Result<String, Error> {
        match answer {
            Answered::Bytes { bytes, .. } => {
                String::from_utf8(bytes).map_err(|_| Error::OtherVersion)
            }
            Answered::Same | Answered::BadArgument => Err(Error::OtherVersion),
            Answered::Fault(fault) => Err(Error::World(world_error(&fault, self)?)),
        }
    }
}

impl Read for ImportedPart {
    fn read(value: &Value<'_>) -> Result<Self, Unread> {
        Ok(ImportedPart {
            interface: member(value, "interface")?,
            kind: of_name(value.get("kind")?.as_str()?, &KINDS)?,
            modules: member(value, "modules")?,
        })
    }
}

impl Read for ImportingModule {
    fn read(value: &Value<'_>) -> Result<Self, Unread> {
        let imports = member(value, "imports")?;
        Ok(match optional_member(value, "adapter")? {
            None => ImportingModule {
                module: MainOrAdapter::Main,
                imports,
                by: list(value, "by", |it| {
                    Ok((member(it, "index")?, optional_member(it, "name")?))
                })?,
                exports: Vec::new(),
                stays: Vec::new(),
                functions: 0,
                bytes: 0,
            },
            Some(adapter) => ImportingModule {
                module: MainOrAdapter::Adapter(adapter),
                imports,
                by: Vec::new(),
                exports: member(value, "exports")?,
                stays: member(value, "stays")?,
                functions: member(value, "functions")?,
                bytes: member(value, "bytes")?,
            },
        })
    }
}
