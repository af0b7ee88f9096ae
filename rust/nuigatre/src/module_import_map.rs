//! Distinct names for the imports of a module.

use crate::error::Error;
use crate::faults::dedupe_error;
use crate::ffi::{self, Answered};
use crate::index::Index;
use crate::memory::{OutOfMemory, fitted};
use crate::renames::read_renames;
use std::borrow::Cow;

/// A renamed import.
///
/// [The crate](crate) has an example.
#[derive(Clone, Debug, PartialEq, Eq, Hash)]
#[non_exhaustive]
pub struct Rename {
    /// The name of its module, which stays the same.
    pub module: String,
    /// Its name before.
    pub original: String,
    /// Its name now.
    pub name: String,
}

/// The original names of renamed imports.
///
/// [The crate](crate) has an example.
#[derive(Clone, Debug)]
pub struct ModuleImportMap {
    renames: Vec<Rename>,
    /// By the names of modules and the new names.
    index: Index,
}

impl PartialEq for ModuleImportMap {
    fn eq(&self, other: &Self) -> bool {
        self.renames == other.renames
    }
}

impl Eq for ModuleImportMap {}

/// How many bytes more than the module a first buffer has at most. What is not written to costs nothing.
const MORE: usize = 1 << 22;

impl ModuleImportMap {
    /// Renames the imports of a module so that no two share a module and a name: from the first to the last, each that
    /// was there before gets ` [v2]`, or the next free number, after its name. Where no import repeats the bytes are
    /// the same and there is no map; so it is for every component.
    ///
    /// # Errors
    ///
    /// - `Dedupe`: the bytes are no component, and can't be cut into sections or have a malformed import section; or a
    ///   section would become too large. The error has [a place](Error::place), if bytes are wrong.
    /// - `Memory`: an allocation failed.
    /// - `OtherVersion`: the library is of another version than this crate.
    pub fn new(wasm: Cow<'_, [u8]>) -> Result<(Cow<'_, [u8]>, Option<Self>), Error> {
        // a short import may become four times as long, and its rename is as long again
        let room = wasm.len() + (7 * wasm.len()).min(MORE) + 64;
        match ffi::dedupe(&wasm, room)? {
            Answered::Bytes {
                mut bytes,
                module_length,
            } => {
                let renames = read_renames(bytes.get(module_length..).unwrap_or_default())?;
                bytes.truncate(module_length);
                let map = ModuleImportMap::of(renames)?;
                Ok((Cow::Owned(fitted(bytes)), Some(map)))
            }
            Answered::Same => Ok((wasm, None)),
            Answered::BadArgument => Err(Error::OtherVersion),
            Answered::Fault(fault) => Err(Error::Dedupe(dedupe_error(&fault)?)),
        }
    }

    pub(crate) fn of(renames: Vec<Rename>) -> Result<Self, OutOfMemory> {
        let key = |position: usize| -> (&str, &str) {
            let rename: &Rename = &renames[position];
            (&rename.module, &rename.name)
        };
        let index = Index::of(renames.len(), key)?;
        Ok(ModuleImportMap { renames, index })
    }

    /// The original name of the import of this module and name in the renamed module; `None` where it was not renamed.
    #[must_use]
    pub fn original_name(&self, module: &str, name: &str) -> Option<&str> {
        let is_at = |position: usize| {
            let rename = &self.renames[position];
            rename.module == module && rename.name == name
        };
        let count = self.renames.len();
        let position = self.index.find(&(module, name), count, is_at)?;
        Some(&self.renames[position].original)
    }

    /// The renamed imports, one at least, in the order of the module's imports.
    #[must_use]
    pub fn renames(&self) -> &[Rename] {
        &self.renames
    }

    /// The renames, one by one.
    pub fn iter(&self) -> std::slice::Iter<'_, Rename> {
        self.renames.iter()
    }
}

impl<'a> IntoIterator for &'a ModuleImportMap {
    type Item = &'a Rename;
    type IntoIter = std::slice::Iter<'a, Rename>;

    fn into_iter(self) -> Self::IntoIter {
        self.renames.iter()
    }
}
