//! The world of a component.

use crate::built_ins::BuiltIns;
use crate::core_types::WasmSignature;
use crate::encoder::{ComponentEncoder, LibraryInfo};
use crate::error::Error;
use crate::exports::{Export, ExportMap};
use crate::ffi::{self, Answered};
use crate::ids::{AbiVariant, InterfaceId, TypeId, WorldKey};
use crate::imports::{Import, ImportMap};
use crate::json::Value;
use crate::memory::{concat, fitted, push};
use crate::module_import_map::{ModuleImportMap, Rename};
use crate::ordered_map::OrderedMap;
use crate::ordered_set::OrderedSet;
use crate::plan::Plan;
use crate::read::{Read, Unread, list, map, member, optional_member, set};
use crate::required_options::RequiredOptions;
use crate::world_error::world_error;
use std::str;

/// The imports and exports of a core module.
///
/// [`ComponentWorld::new`](crate::ComponentWorld::new) has an example.
#[derive(Clone, Debug, Default, PartialEq, Eq)]
#[non_exhaustive]
pub struct ValidatedModule {
    /// Its imports.
    pub imports: ImportMap,
    /// Its exports.
    pub exports: ExportMap,
}

/// An adapter or a library, as a component has it.
///
/// [`ComponentWorld::new`](crate::ComponentWorld::new) has an example.
#[derive(Clone, Debug, PartialEq, Eq)]
#[non_exhaustive]
pub struct WorldAdapter {
    /// The bytes: of a library its own; of an adapter those that it is trimmed to.
    pub wasm: Vec<u8>,
    /// The imports and exports of these bytes.
    pub info: ValidatedModule,
    /// How it is instantiated, if it is a library.
    pub library_info: Option<LibraryInfo>,
}

/// How an import of a core module is met. These are all: another one is a new version of this crate.
///
/// [`ComponentWorld::new`](crate::ComponentWorld::new) has an example.
#[derive(Clone, Debug, PartialEq, Eq)]
pub enum Lowering {
    /// The function is lowered before the core module is instantiated.
    Direct {
        /// Its options.
        options: RequiredOptions,
    },
    /// A function of this signature stands in for the lowered one.
    Indirect {
        /// The signature.
        sig: WasmSignature,
        /// The options of the lowered function.
        options: RequiredOptions,
    },
    /// The function drops a resource of this type.
    ResourceDrop(TypeId),
}

/// The imports of core modules from an interface, or of the functions and types that the world itself imports.
///
/// [`ComponentWorld::new`](crate::ComponentWorld::new) has an example.
#[derive(Clone, Debug, PartialEq, Eq)]
#[non_exhaustive]
pub struct ImportedInterface {
    /// The imported functions, by their names and by how they are called.
    pub lowerings: OrderedMap<(String, AbiVariant), Lowering>,
    /// The interface; `None` for the world itself.
    pub interface: Option<InterfaceId>,
    /// The interface that the import implements.
    pub implements: Option<InterfaceId>,
    /// The name that the import has outside of the world.
    pub external_id: Option<String>,
}

/// All that a component encoder has to know of modules before it encodes them.
///
/// [`ComponentWorld::new`](crate::ComponentWorld::new) has an example.
#[derive(Clone, Debug, PartialEq, Eq)]
#[non_exhaustive]
pub struct ComponentWorld {
    /// The main module, in which repeated imports are renamed.
    pub module: Vec<u8>,
    /// The original names of its renamed imports; `None` where none was renamed.
    pub module_import_map: Option<ModuleImportMap>,
    /// The imports and exports of the main module.
    pub info: ValidatedModule,
    /// The adapters that are needed, and the libraries, by their names.
    pub adapters: OrderedMap<String, WorldAdapter>,
    /// How imports are met: those of each interface that the world imports under its name, and under `None` those of
    /// the functions and types that the world itself imports.
    pub import_map: OrderedMap<Option<String>, ImportedInterface>,
    /// The live types of imports, by the interfaces that own them.
    pub live_type_imports: OrderedMap<InterfaceId, OrderedSet<TypeId>>,
    /// For each interface that the world exports, the exported interfaces that it uses, in the order of its exports.
    pub exports_used: OrderedMap<InterfaceId, OrderedSet<InterfaceId>>,
    /// The positions in `import_map` of the interfaces that are imported under their own ids.
    own_ids: OrderedMap<InterfaceId, usize>,
    /// Of the keys of what modules export, which exports it: 0 for the main module, and then each adapter.
    exporters: OrderedMap<WorldKey, usize>,
    /// The built-ins that modules import, with their types and needs.
    pub(crate) built_ins: BuiltIns,
}

impl ComponentWorld {
    /// The world of a component, made of what an encoder has: its main module is validated; adapters that are needed
    /// are validated, trimmed to what is wanted of them, and validated again; libraries are validated alone. The options
    /// of lowered functions are those that their parameters and results need, unless the encoder has others
    /// ([`ComponentEncoder::import_options`]).
    ///
    /// ```no_run
    /// use nuigatre::{Adapter, ComponentEncoder, ComponentWorld};
    /// use std::fs;
    ///
    /// let worlds = fs::read_to_string("worlds.json")?;
    /// let (module, adapter) = (fs::read("main.wasm")?, fs::read("adapter.wasm")?);
    /// let mut encoder = ComponentEncoder::new(&worlds, "wasi:cli/command", &module);
    /// let mut adapter = Adapter::new("wasi_snapshot_preview1", &adapter);
    /// adapter.required_exports.push("wasi:cli/run");
    /// encoder.adapters.push(adapter);
    /// let world = ComponentWorld::new(&encoder)?;
    /// for (module, name, import) in world.info.imports.imports() {
    ///     println!("{module} {name}: {:?}", world.lowering(import));
    /// }
    /// # Ok::<(), Box<dyn std::error::Error>>(())
    /// ```
    ///
    /// # Errors
    ///
    /// - `World`: the worlds, or a module, are refused. The error has a text, with the path to what is wrong in the JSON,
    ///   and [a place](Error::place) in the module.
    /// - `Memory`: an allocation failed.
    /// - `OtherVersion`: the library is of another version than this crate.
    pub fn new(encoder: &ComponentEncoder<'_>) -> Result<Self, Error> {
        Ok(made(encoder, ffi::world, |_| Ok(()))?.0)
    }

    /// The world of a component, as of [`ComponentWorld::new`], and its plan, as of [`Plan::new`], made once: it takes hardly
    /// longer than a world alone.
    ///
    /// # Errors
    ///
    /// As of [`Plan::new`]: there is no world where there is no plan of it.
    pub fn with_plan(encoder: &ComponentEncoder<'_>) -> Result<(Self, Plan), Error> {
        made(encoder, ffi::planned_world, |record| {
            Ok(Plan::of_uses(member(record, "plan")?)?)
        })
    }

    /// The imports of core modules from the interface that the world imports under a key, and the name of that.
    #[must_use]
    pub fn imported(&self, key: &WorldKey) -> Option<(&str, &ImportedInterface)> {
        let position = match key {
            WorldKey::Name(name) => self.import_map.get_index_of(&Some(name.as_str()))?,
            WorldKey::Interface(id) => *self.own_ids.get(id)?,
        };
        let (name, imported) = self.import_map.get_index(position)?;
        Some((name.as_deref()?, imported))
    }

    /// The module whose functions are exported under a key of the world: the name of the adapter, or `None` for the main
    /// module, and what it imports and exports. Where several modules export functions under the key, the first of them.
    #[must_use]
    pub fn exported(&self, key: &WorldKey) -> Option<(Option<&str>, &ValidatedModule)> {
        match self.exporters.get(key)?.checked_sub(1) {
            None => Some((None, &self.info)),
            Some(position) => {
                let (name, adapter) = self.adapters.get_index(position)?;
                Some((Some(name), &adapter.info))
            }
        }
    }

    /// The names of the exports for which the adapter of this name was trimmed: of the functions that the main module imports
    /// from it, and then of the exports that it has for the component; each name once. Of a library, which is not trimmed, the
    /// same. With these names [`gc::why`](crate::gc::why) says, of the bytes that the encoder has, why the adapter needs its
    /// imports. `None` where the component has no such adapter.
    pub fn required_exports(&self, adapter: &str) -> Option<impl Iterator<Item = &str>> {
        let imported = self.info.imports.required_from_adapter(adapter);
        let exports = self.adapters.get(adapter)?.info.exports.iter();
        let others = exports.filter(move |it| !imported.contains_key(it.0));
        Some(
            imported
                .keys()
                .map(String::as_str)
                .chain(others.map(|it| it.0)),
        )
    }

    /// How an import of a core module is met; `None` where it is met by nothing that the world imports.
    #[must_use]
    pub fn lowering(&self, import: &Import) -> Option<&Lowering> {
        let of_world = || Some(&self.import_map.get(&None::<&str>)?.lowerings);
        let of_interface = |key| Some(&self.imported(key)?.1.lowerings);
        match import {
            Import::WorldFunc(_, name, abi) => of_world()?.get(&(name.as_str(), *abi)),
            Import::InterfaceFunc(key, _, name, abi) => {
                of_interface(key)?.get(&(name.as_str(), *abi))
            }
            Import::ImportedResourceDrop(key, interface, ty) => {
                let lowerings = match interface {
                    Some(_) => of_interface(key)?,
                    None => of_world()?,
                };
                let mut drops = lowerings.values();
                drops.find(|lowering| **lowering == Lowering::ResourceDrop(*ty))
            }
            _ => None,
        }
    }

    /// Whether tasks can use slot 1 of their context: whether the main module or an adapter imports what starts a
    /// thread, or reads or writes that slot.
    #[must_use]
    pub fn can_use_context_slot_1(&self) -> bool {
        let adapters = self.adapters.values().map(|adapter| &adapter.info);
        let mut modules = std::iter::once(&self.info).chain(adapters);
        modules.any(|module| module.imports.imports().any(|it| uses_slot_1(it.2)))
    }
}

/// Whether an import starts a thread, or reads or writes slot 1 of a task's context.
fn uses_slot_1(import: &Import) -> bool {
    match import {
        Import::ThreadNewIndirect => true,
        Import::ContextGet { slot, .. } | Import::ContextSet { slot, .. } => *slot == 1,
        _ => false,
    }
}

/// A call of the archive that answers modules and a record.
type Call = fn(&[u8], &[u8], usize) -> Result<Answered, Error>;

/// The results of a call for an encoder: the world, and what else is read of its record.
fn made<T>(
    encoder: &ComponentEncoder<'_>,
    call: Call,
    more: impl FnOnce(&Value<'_>) -> Result<T, Unread>,
) -> Result<(ComponentWorld, T), Error> {
    let (message, modules) = encoder.question()?;
    let room = ffi::room_for_world(&message, &modules);
    match call(message.as_bytes(), &modules, room)? {
        Answered::Bytes {
            bytes,
            module_length,
        } => {
            let (mut world, more) = read_world(bytes, module_length, more)?;
            let adapters = world.adapters.values().map(|adapter| &adapter.info);
            let modules = std::iter::once(&world.info).chain(adapters);
            world.built_ins = BuiltIns::of(encoder, modules)?;
            Ok((world, more))
        }
        Answered::Same | Answered::BadArgument => Err(Error::OtherVersion),
        Answered::Fault(fault) => Err(Error::World(world_error(&fault, encoder)?)),
    }
}

/// The world of an answer, and what else is read of its record: modules are the first so many bytes, and then comes the
/// record.
fn read_world<T>(
    mut bytes: Vec<u8>,
    module_length: usize,
    more: impl FnOnce(&Value<'_>) -> Result<T, Unread>,
) -> Result<(ComponentWorld, T), Unread> {
    let (modules, record) = bytes
        .split_at_checked(module_length)
        .ok_or(Unread::Unknown)?;
    let value = Value::parse(str::from_utf8(record).map_err(|_| Unread::Unknown)?)?;
    let lengths: Vec<usize> = list(&value, "adapters", |adapter| member(adapter, "length"))?;
    let main = lengths
        .iter()
        .try_fold(modules.len(), |rest, length| rest.checked_sub(*length))
        .ok_or(Unread::Unknown)?;
    let mut rest = &modules[main..];
    let mut adapters = Vec::new();
    for (adapter, length) in value.get("adapters")?.as_array()?.iter().zip(lengths) {
        let (wasm, others) = rest.split_at(length);
        rest = others;
        push(
            &mut adapters,
            (member(adapter, "name")?, read_adapter(adapter, wasm)?),
        )?;
    }
    let import_map = map(&value, "import_map", |entry| {
        Ok((optional_member(entry, "name")?, Read::read(entry)?))
    })?;
    let info: ValidatedModule = member(&value, "info")?;
    let adapters = OrderedMap::of(adapters)?;
    let mut world = ComponentWorld {
        module: Vec::new(),
        built_ins: BuiltIns::default(),
        exporters: exporters(&info, &adapters)?,
        own_ids: own_ids(&import_map)?,
        import_map,
        module_import_map: read_renames(&value)?,
        info,
        adapters,
        live_type_imports: map(&value, "live_type_imports", |entry| {
            Ok((member(entry, "interface")?, set(entry, "types")?))
        })?,
        exports_used: map(&value, "exports_used", |entry| {
            Ok((member(entry, "interface")?, set(entry, "uses")?))
        })?,
    };
    let more = more(&value)?;
    bytes.truncate(main);
    world.module = fitted(bytes);
    Ok((world, more))
}

/// The positions of interfaces that are imported under their own ids. Plain names have no colon.
fn own_ids(
    import_map: &OrderedMap<Option<String>, ImportedInterface>,
) -> Result<OrderedMap<InterfaceId, usize>, Unread> {
    let mut ids = Vec::new();
    for (position, (name, imported)) in import_map.iter().enumerate() {
        let is_own = name.as_deref().is_some_and(|name| name.contains(':'));
        if let Some(id) = imported.interface.filter(|_| is_own) {
            push(&mut ids, (id, position))?;
        }
    }
    Ok(OrderedMap::of(ids)?)
}

/// Of the keys of functions that modules export, which module exports them: 0 for the main module, and then each adapter.
fn exporters(
    info: &ValidatedModule,
    adapters: &OrderedMap<String, WorldAdapter>,
) -> Result<OrderedMap<WorldKey, usize>, Unread> {
    let modules = std::iter::once(info).chain(adapters.values().map(|adapter| &adapter.info));
    let mut exporters = Vec::new();
    for (position, module) in modules.enumerate() {
        let mut last = None;
        for export in module.exports.exports().values() {
            let key = match export {
                Export::WorldFunc(key, ..) | Export::InterfaceFunc(key, ..) => key,
                _ => continue,
            };
            if last != Some(key) {
                push(&mut exporters, (key.try_clone()?, position))?;
                last = Some(key);
            }
        }
    }
    Ok(OrderedMap::of(exporters)?)
}

/// The renamed imports of the main module, if there are some.
fn read_renames(value: &Value<'_>) -> Result<Option<ModuleImportMap>, Unread> {
    let renames: Vec<Rename> = member(value, "renames")?;
    if renames.is_empty() {
        return Ok(None);
    }
    Ok(Some(ModuleImportMap::of(renames)?))
}

fn read_adapter(value: &Value<'_>, wasm: &[u8]) -> Result<WorldAdapter, Unread> {
    Ok(WorldAdapter {
        wasm: concat([wasm].into_iter())?,
        info: member(value, "info")?,
        library_info: optional_member(value, "library_info")?,
    })
}

impl Read for ValidatedModule {
    fn read(value: &Value<'_>) -> Result<Self, Unread> {
        Ok(ValidatedModule {
            imports: ImportMap::read(value, "imports")?,
            exports: ExportMap::read(value, "exports")?,
        })
    }
}

impl Read for Rename {
    fn read(value: &Value<'_>) -> Result<Self, Unread> {
        Ok(Rename {
            module: member(value, "module")?,
            original: member(value, "original")?,
            name: member(value, "name")?,
        })
    }
}

impl Read for Lowering {
    fn read(value: &Value<'_>) -> Result<Self, Unread> {
        Ok(match value.kind()? {
            "direct" => Lowering::Direct {
                options: member(value, "options")?,
            },
            "indirect" => Lowering::Indirect {
                sig: member(value, "sig")?,
                options: member(value, "options")?,
            },
            "resource-drop" => Lowering::ResourceDrop(member(value, "type")?),
            _ => return Err(Unread::Unknown),
        })
    }
}

impl Read for ImportedInterface {
    fn read(value: &Value<'_>) -> Result<Self, Unread> {
        let lowerings = map(value, "lowerings", |entry| {
            let key = (member(entry, "name")?, member(entry, "abi")?);
            Ok((key, member(entry, "lowering")?))
        })?;
        Ok(ImportedInterface {
            lowerings,
            interface: optional_member(value, "interface")?,
            implements: optional_member(value, "implements")?,
            external_id: optional_member(value, "external_id")?,
        })
    }
}
