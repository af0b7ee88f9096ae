//! Exports of core modules, and look-ups among them. The names are those of `wit-component`.

use crate::core_types::MemoryType;
use crate::ids::{AbiVariant, InterfaceId, TypeId, WorldKey};
use crate::index::Index;
use crate::json::Value;
use crate::ordered_map::{Iter, OrderedMap};
use crate::read::{Read, Unread, map, member};
use std::iter::FusedIterator;

/// The meaning of an export of a core module, by its name. These are all: another one is a new version of this crate.
///
/// [`ComponentWorld::new`](crate::ComponentWorld::new) has an example.
#[derive(Clone, Debug, PartialEq, Eq, Hash)]
#[allow(missing_docs)]
pub enum Export {
    WorldFunc(WorldKey, String, AbiVariant),
    WorldFuncPostReturn(WorldKey),
    InterfaceFunc(WorldKey, InterfaceId, String, AbiVariant),
    InterfaceFuncPostReturn(WorldKey, String),
    ResourceDtor(TypeId),
    Memory(MemoryType),
    GeneralPurposeRealloc,
    GeneralPurposeExportRealloc,
    GeneralPurposeImportRealloc,
    Initialize,
    ReallocForAdapter,
    WorldFuncCallback(WorldKey),
    InterfaceFuncCallback(WorldKey, String),
    IndirectFunctionTable,
    WasmTaskHook,
}

impl Read for Export {
    fn read(value: &Value<'_>) -> Result<Self, Unread> {
        Ok(match value.kind()? {
            "world-func" => Export::WorldFunc(
                member(value, "key")?,
                member(value, "name")?,
                member(value, "abi")?,
            ),
            "world-func-post-return" => Export::WorldFuncPostReturn(member(value, "key")?),
            "interface-func" => Export::InterfaceFunc(
                member(value, "key")?,
                member(value, "interface")?,
                member(value, "name")?,
                member(value, "abi")?,
            ),
            "interface-func-post-return" => {
                Export::InterfaceFuncPostReturn(member(value, "key")?, member(value, "name")?)
            }
            "resource-dtor" => Export::ResourceDtor(member(value, "type")?),
            "memory" => Export::Memory(member(value, "type")?),
            "general-purpose-realloc" => Export::GeneralPurposeRealloc,
            "general-purpose-export-realloc" => Export::GeneralPurposeExportRealloc,
            "general-purpose-import-realloc" => Export::GeneralPurposeImportRealloc,
            "initialize" => Export::Initialize,
            "realloc-for-adapter" => Export::ReallocForAdapter,
            "world-func-callback" => Export::WorldFuncCallback(member(value, "key")?),
            "interface-func-callback" => {
                Export::InterfaceFuncCallback(member(value, "key")?, member(value, "name")?)
            }
            "indirect-function-table" => Export::IndirectFunctionTable,
            "wasm-task-hook" => Export::WasmTaskHook,
            _ => return Err(Unread::Unknown),
        })
    }
}

/// The key by which an export is looked up. The name of a function is left out where the key is that of the function.
#[derive(Clone, Copy, PartialEq, Eq, Hash)]
enum Role<'a> {
    Function(&'a WorldKey, &'a str),
    PostReturn(&'a WorldKey, Option<&'a str>),
    Callback(&'a WorldKey, Option<&'a str>),
    Memory,
    Other(&'a Export),
}

impl Role<'_> {
    fn of(export: &Export) -> Role<'_> {
        match export {
            Export::WorldFunc(key, name, _) | Export::InterfaceFunc(key, _, name, _) => {
                Role::Function(key, name)
            }
            Export::WorldFuncPostReturn(key) => Role::PostReturn(key, None),
            Export::InterfaceFuncPostReturn(key, name) => Role::PostReturn(key, Some(name)),
            Export::WorldFuncCallback(key) => Role::Callback(key, None),
            Export::InterfaceFuncCallback(key, name) => Role::Callback(key, Some(name)),
            Export::Memory(_) => Role::Memory,
            other => Role::Other(other),
        }
    }
}

/// The exports of a core module, by their names, in order. Of what is looked up, the first is found.
///
/// [`ComponentWorld::new`](crate::ComponentWorld::new) has an example.
#[derive(Clone, Debug, Default)]
pub struct ExportMap {
    names: OrderedMap<String, Export>,
    roles: Index,
}

impl PartialEq for ExportMap {
    fn eq(&self, other: &Self) -> bool {
        self.names == other.names
    }
}

impl Eq for ExportMap {}

impl ExportMap {
    pub(crate) fn read(value: &Value<'_>, name: &str) -> Result<Self, Unread> {
        let names: OrderedMap<String, Export> = map(value, name, |entry| {
            Ok((member(entry, "name")?, member(entry, "export")?))
        })?;
        let role = |position| names.get_index(position).map(|it| Role::of(it.1));
        let roles = Index::of(names.len(), role)?;
        Ok(ExportMap { names, roles })
    }

    /// All exports by their names, in order.
    #[must_use]
    pub fn exports(&self) -> &OrderedMap<String, Export> {
        &self.names
    }

    /// All exports with their names, in order.
    pub fn iter(&self) -> Exports<'_> {
        Exports {
            names: self.names.iter(),
        }
    }

    /// The meaning of the export of this name.
    #[must_use]
    pub fn get(&self, name: &str) -> Option<&Export> {
        self.names.get(name)
    }

    /// The position of the first export with a role.
    fn position(&self, role: Role<'_>) -> Option<usize> {
        let at = |position| self.names.get_index(position).map(|it| Role::of(it.1));
        let is_at = |position| at(position) == Some(role);
        self.roles.find(&Some(role), self.names.len(), is_at)
    }

    /// The first export with a role.
    fn first(&self, role: Role<'_>) -> Option<(&str, &Export)> {
        let (name, export) = self.names.get_index(self.position(role)?)?;
        Some((name, export))
    }

    fn name(&self, role: Role<'_>) -> Option<&str> {
        Some(self.first(role)?.0)
    }

    /// The name of the first export with one of two roles.
    fn name_of_either(&self, one: Role<'_>, other: Role<'_>) -> Option<&str> {
        let positions = [self.position(one), self.position(other)];
        let position = positions.into_iter().flatten().min()?;
        Some(self.names.get_index(position)?.0)
    }

    fn own_or_general(&self, own: &Export) -> Option<&str> {
        self.name(Role::Other(own))
            .or_else(|| self.general_purpose_realloc())
    }

    /// The name of what runs after a function has returned: of the world, of this key, or of this name of the interface
    /// of the key.
    #[must_use]
    pub fn post_return(&self, key: &WorldKey, func: &str) -> Option<&str> {
        self.name_of_either(
            Role::PostReturn(key, None),
            Role::PostReturn(key, Some(func)),
        )
    }

    /// The name of the callback of a function: of the world, of this key, or of this name of the interface of the key.
    #[must_use]
    pub fn callback(&self, key: &WorldKey, func: &str) -> Option<&str> {
        self.name_of_either(Role::Callback(key, None), Role::Callback(key, Some(func)))
    }

    /// How the function of this name, under this key, is lifted.
    #[must_use]
    pub fn abi(&self, key: &WorldKey, func: &str) -> Option<AbiVariant> {
        match self.first(Role::Function(key, func))?.1 {
            Export::WorldFunc(_, _, abi) | Export::InterfaceFunc(_, _, _, abi) => Some(*abi),
            _ => None,
        }
    }

    /// The name of the realloc for all purposes that have none of their own.
    #[must_use]
    pub fn general_purpose_realloc(&self) -> Option<&str> {
        self.name(Role::Other(&Export::GeneralPurposeRealloc))
    }

    /// The name of the realloc for the parameters of exports, else of that for all purposes. The function makes no
    /// difference.
    #[must_use]
    pub fn export_realloc_for(&self, _key: &WorldKey, _func: &str) -> Option<&str> {
        self.own_or_general(&Export::GeneralPurposeExportRealloc)
    }

    /// The name of the realloc for the results of imports, else of that for all purposes.
    #[must_use]
    pub fn import_realloc_fallback(&self) -> Option<&str> {
        self.own_or_general(&Export::GeneralPurposeImportRealloc)
    }

    /// As the method before. The function makes no difference.
    #[must_use]
    pub fn import_realloc_for(&self, _interface: Option<InterfaceId>, _func: &str) -> Option<&str> {
        self.import_realloc_fallback()
    }

    /// The name of the realloc for adapters, else of that for all purposes.
    #[must_use]
    pub fn realloc_to_import_into_adapter(&self) -> Option<&str> {
        self.own_or_general(&Export::ReallocForAdapter)
    }

    /// The name and the type of the memory.
    #[must_use]
    pub fn memory(&self) -> Option<(&str, MemoryType)> {
        match self.first(Role::Memory)? {
            (name, Export::Memory(ty)) => Some((name, *ty)),
            _ => None,
        }
    }

    /// The name of the table of functions.
    #[must_use]
    pub fn indirect_function_table(&self) -> Option<&str> {
        self.name(Role::Other(&Export::IndirectFunctionTable))
    }

    /// The name of what is called as tasks begin and end.
    #[must_use]
    pub fn wasm_task_hook(&self) -> Option<&str> {
        self.name(Role::Other(&Export::WasmTaskHook))
    }

    /// The name of what is called before all others.
    #[must_use]
    pub fn initialize(&self) -> Option<&str> {
        self.name(Role::Other(&Export::Initialize))
    }

    /// The name of the destructor of a resource.
    #[must_use]
    pub fn resource_dtor(&self, ty: TypeId) -> Option<&str> {
        self.name(Role::Other(&Export::ResourceDtor(ty)))
    }

    /// The names of the reallocs that a canonical option can name, in order. A realloc for adapters is none.
    pub fn reallocs(&self) -> impl Iterator<Item = &str> {
        let reallocs = self.iter().filter(|(_, export)| {
            matches!(
                export,
                Export::GeneralPurposeRealloc
                    | Export::GeneralPurposeExportRealloc
                    | Export::GeneralPurposeImportRealloc
            )
        });
        reallocs.map(|(name, _)| name)
    }
}

/// The exports of an [`ExportMap`] with their names, in order.
///
/// [`ComponentWorld::new`](crate::ComponentWorld::new) has an example.
#[derive(Clone, Debug)]
#[must_use = "iterators do nothing unless they are gone through"]
pub struct Exports<'a> {
    names: Iter<'a, String, Export>,
}

impl<'a> Iterator for Exports<'a> {
    type Item = (&'a str, &'a Export);

    fn next(&mut self) -> Option<Self::Item> {
        self.names.next().map(|(name, export)| (&**name, export))
    }

    fn size_hint(&self) -> (usize, Option<usize>) {
        self.names.size_hint()
    }
}

impl DoubleEndedIterator for Exports<'_> {
    fn next_back(&mut self) -> Option<Self::Item> {
        let (name, export) = self.names.next_back()?;
        Some((name, export))
    }
}

impl ExactSizeIterator for Exports<'_> {}

impl FusedIterator for Exports<'_> {}

impl<'a> IntoIterator for &'a ExportMap {
    type Item = (&'a str, &'a Export);
    type IntoIter = Exports<'a>;

    fn into_iter(self) -> Exports<'a> {
        self.iter()
    }
}
