//! The plan of a component: what each function that its core modules import needs.

use crate::encoder::{ComponentEncoder, MainOrAdapter};
use crate::error::Error;
use crate::ffi::{self, Answered};
use crate::ids::AbiVariant;
use crate::imports::Import;
use crate::index::Index;
use crate::json::Value;
use crate::memory::OutOfMemory;
use crate::read::{Read, Unread, member, optional_member};
use crate::world::ComponentWorld;
use crate::world_error::world_error;
use std::fmt::{self, Display, Formatter};
use std::{iter, slice, str, vec};

/// How many bytes of a first buffer are for each byte of the message.
const PER_BYTE: usize = 2;

/// A use of a function that core modules import, with what it needs. Its text is the line that the program `wcplan`
/// prints.
///
/// [`ComponentWorld::new`](crate::ComponentWorld::new) has an example.
#[derive(Clone, Debug, PartialEq, Eq, Hash)]
#[non_exhaustive]
pub struct Use {
    /// The module that imports it.
    pub module: MainOrAdapter,
    /// The name that its interface has outside of the world; `None` for a function of the world itself.
    pub interface: Option<String>,
    /// Its name.
    pub name: String,
    /// How it is called.
    pub abi: AbiVariant,
    /// Its index among the functions that others stand in for until there is a memory; `None` where it is lowered before
    /// its module is instantiated.
    pub slot: Option<u32>,
    /// The export of its module that makes room for its results; `None` where it needs none.
    pub realloc: Option<String>,
}

/// The functions that the core modules of a component import, each once, with what it needs: those of the main module, and
/// then those of each adapter.
///
/// [`ComponentWorld::new`](crate::ComponentWorld::new) has an example.
#[derive(Clone, Debug)]
pub struct Plan {
    uses: Vec<Use>,
    index: Index,
}

impl PartialEq for Plan {
    fn eq(&self, other: &Self) -> bool {
        self.uses == other.uses
    }
}

impl Eq for Plan {}

/// The key of a function: the name of its adapter, the name that its interface has, its own, and how it is called.
type Call<'a> = (Option<&'a str>, Option<&'a str>, &'a str, AbiVariant);

impl Plan {
    /// The plan of the component whose world [`ComponentWorld::new`](crate::ComponentWorld::new) makes of the same.
    ///
    /// # Errors
    ///
    /// - `World`: the world is refused; or a function needs a memory or a realloc, and none is there
    ///   ([`WorldFault::Plan`](crate::WorldFault::Plan)).
    /// - `Memory`: an allocation failed.
    /// - `OtherVersion`: the library is of another version than this crate.
    pub fn new(encoder: &ComponentEncoder<'_>) -> Result<Self, Error> {
        let (message, modules) = encoder.question()?;
        let room = PER_BYTE * message.len() + 4096;
        match ffi::plan(message.as_bytes(), &modules, room)? {
            Answered::Bytes { bytes, .. } => Ok(read_plan(&bytes)?),
            Answered::Same | Answered::BadArgument => Err(Error::OtherVersion),
            Answered::Fault(fault) => Err(Error::World(world_error(&fault, encoder)?)),
        }
    }
}

impl Plan {
    pub(crate) fn of_uses(uses: Vec<Use>) -> Result<Self, OutOfMemory> {
        let index = Index::of(uses.len(), |position: usize| uses[position].call())?;
        Ok(Plan { uses, index })
    }

    /// The functions, in the order of the modules and of their imports.
    #[must_use]
    pub fn uses(&self) -> &[Use] {
        &self.uses
    }

    /// The uses, one by one.
    pub fn iter(&self) -> slice::Iter<'_, Use> {
        self.uses.iter()
    }

    /// The use that an import of a module is, by the world that the plan is of: `module` is the name of the adapter, or
    /// `None` for the main module. `None` where the import is no function that the world imports.
    #[must_use]
    pub fn of(
        &self,
        world: &ComponentWorld,
        module: Option<&str>,
        import: &Import,
    ) -> Option<&Use> {
        let call: Call<'_> = match import {
            Import::WorldFunc(_, name, abi) => (module, None, name, *abi),
            Import::InterfaceFunc(key, _, name, abi) => {
                (module, Some(world.imported(key)?.0), name, *abi)
            }
            _ => return None,
        };
        let is_at = |position: usize| self.uses[position].call() == call;
        let position = self.index.find(&call, self.uses.len(), is_at)?;
        self.uses.get(position)
    }

    /// The imports that have a use, by the world that the plan is of: those of the main module in order, and then those of each
    /// adapter. Several may have the same use.
    pub fn imports<'a>(
        &'a self,
        world: &'a ComponentWorld,
    ) -> impl Iterator<Item = UsedImport<'a>> {
        let adapters = world.adapters.iter();
        let adapters = adapters.map(|(name, adapter)| (Some(name.as_str()), &adapter.info));
        let modules = iter::once((None, &world.info)).chain(adapters);
        modules.flat_map(move |(adapter, of)| {
            of.imports
                .imports()
                .filter_map(move |(module, name, import)| {
                    Some(UsedImport {
                        adapter,
                        module,
                        name,
                        import,
                        used: self.of(world, adapter, import)?,
                    })
                })
        })
    }
}

/// An import that has a use.
///
/// [`ComponentWorld::new`](crate::ComponentWorld::new) has an example.
#[derive(Clone, Copy, Debug, PartialEq, Eq)]
#[non_exhaustive]
pub struct UsedImport<'a> {
    /// The adapter that imports it; `None` for the main module.
    pub adapter: Option<&'a str>,
    /// The name of the module that it is imported from.
    pub module: &'a str,
    /// Its name there.
    pub name: &'a str,
    /// The function.
    pub import: &'a Import,
    /// Its needs.
    pub used: &'a Use,
}

impl Use {
    fn call(&self) -> Call<'_> {
        let module = match &self.module {
            MainOrAdapter::Main => None,
            MainOrAdapter::Adapter(name) => Some(name.as_str()),
        };
        (module, self.interface.as_deref(), &self.name, self.abi)
    }
}

impl Display for Use {
    fn fmt(&self, f: &mut Formatter<'_>) -> fmt::Result {
        let interface = self.interface.as_deref().unwrap_or("$root");
        let is_async = self.abi == AbiVariant::GuestImportAsync;
        let abi = if is_async { "async" } else { "sync" };
        write!(f, "{} {interface} {} {abi} slot ", self.module, self.name)?;
        match self.slot {
            Some(slot) => write!(f, "{slot}")?,
            None => f.write_str("-")?,
        }
        write!(f, " realloc {}", self.realloc.as_deref().unwrap_or("-"))
    }
}

impl<'a> IntoIterator for &'a Plan {
    type Item = &'a Use;
    type IntoIter = slice::Iter<'a, Use>;

    fn into_iter(self) -> slice::Iter<'a, Use> {
        self.uses.iter()
    }
}

impl IntoIterator for Plan {
    type Item = Use;
    type IntoIter = vec::IntoIter<Use>;

    fn into_iter(self) -> vec::IntoIter<Use> {
        self.uses.into_iter()
    }
}

/// The plan of this text, which the archive wrote.
fn read_plan(text: &[u8]) -> Result<Plan, Unread> {
    let value = Value::parse(str::from_utf8(text).map_err(|_| Unread::Unknown)?)?;
    Ok(Plan::of_uses(Vec::read(&value)?)?)
}

impl Read for Use {
    fn read(value: &Value<'_>) -> Result<Self, Unread> {
        Ok(Use {
            module: member(value, "module")?,
            interface: optional_member(value, "interface")?,
            name: member(value, "name")?,
            abi: member(value, "abi")?,
            slot: optional_member(value, "slot")?,
            realloc: optional_member(value, "realloc")?,
        })
    }
}
