//! Imports of core modules, and look-ups among them. The names are those of `wit-component`.

use crate::core_types::{ExportKind, FuncType, MemoryType, ValType};
use crate::encoder::{Item, MainOrAdapter};
use crate::ids::{AbiVariant, InterfaceId, StringEncoding, TypeId, WorldKey};
use crate::index::Index;
use crate::json::Value;
use crate::memory::{push, string};
use crate::ordered_map::OrderedMap;
use crate::read::{Read, Unread, map, member, optional_member};
use crate::resolved::Resolved;
use crate::wit_types::Type;

/// The future or stream type that a built-in is for.
///
/// [`ComponentWorld::new`](crate::ComponentWorld::new) has an example.
#[derive(Clone, Debug, PartialEq, Eq, Hash)]
pub enum PayloadType {
    /// A future or stream type, and the name of a function that has it in a parameter or in its result.
    Type {
        /// The type.
        id: TypeId,
        /// The function.
        function: String,
    },
    /// A `future` without a payload.
    UnitFuture,
    /// A `stream` without a payload.
    UnitStream,
}

/// The future or stream that a built-in is for, and the function by which the built-in's name picks it.
///
/// [`ComponentWorld::new`](crate::ComponentWorld::new) has an example.
#[derive(Clone, Debug, PartialEq, Eq, Hash)]
#[non_exhaustive]
pub struct PayloadInfo {
    /// The name of the import, without `[async-lower]`.
    pub name: String,
    /// The future or stream type.
    pub ty: PayloadType,
    /// The key of the function's interface, or `name` if it is a function of the world itself.
    pub key: WorldKey,
    /// The function's interface, if it has one.
    pub interface: Option<InterfaceId>,
    /// Whether the function is imported; else it is exported.
    pub imported: bool,
}

impl PayloadInfo {
    /// The type of what the future or the stream carries, by the worlds that the component was encoded for; `None` where
    /// it carries nothing.
    #[must_use]
    pub fn payload(&self, resolve: &Resolved) -> Option<Type> {
        match &self.ty {
            PayloadType::Type { id, .. } => resolve.payload(*id),
            PayloadType::UnitFuture | PayloadType::UnitStream => None,
        }
    }
}

/// The meaning of an import of a core module, by its name. Fields are in the order of `wit-component`'s; the function
/// of `ExportedTaskReturn` is there by its name. These are all: another one is a new version of this crate.
///
/// [`ComponentWorld::new`](crate::ComponentWorld::new) has an example.
#[derive(Clone, Debug, PartialEq, Eq, Hash)]
#[allow(missing_docs)]
pub enum Import {
    WorldFunc(WorldKey, String, AbiVariant),
    InterfaceFunc(WorldKey, InterfaceId, String, AbiVariant),
    ImportedResourceDrop(WorldKey, Option<InterfaceId>, TypeId),
    ExportedResourceDrop(WorldKey, TypeId),
    ExportedResourceNew(WorldKey, TypeId),
    ExportedResourceRep(WorldKey, TypeId),
    AdapterExport {
        adapter: String,
        func: String,
        ty: FuncType,
    },
    MainModuleMemory(MemoryType),
    MainModuleExport {
        name: String,
        kind: ExportKind,
    },
    Item(Item),
    ExportedTaskReturn(WorldKey, Option<InterfaceId>, String),
    ExportedTaskCancel,
    ContextGet {
        ty: ValType,
        slot: u32,
    },
    ContextSet {
        ty: ValType,
        slot: u32,
    },
    TlsBaseGet {
        ty: ValType,
    },
    TlsBaseSet {
        ty: ValType,
    },
    ErrorContextNew {
        encoding: StringEncoding,
    },
    ErrorContextDebugMessage {
        encoding: StringEncoding,
    },
    ErrorContextDrop,
    BackpressureInc,
    BackpressureDec,
    WaitableSetNew,
    WaitableSetWait,
    WaitableSetPoll,
    WaitableSetDrop,
    WaitableJoin,
    SubtaskDrop,
    SubtaskCancel {
        async_: bool,
    },
    ThreadIndex,
    ThreadNewIndirect,
    ThreadResumeLater,
    ThreadSuspend,
    ThreadYield,
    ThreadSuspendThenResume,
    ThreadYieldThenResume,
    ThreadSuspendThenPromote,
    ThreadYieldThenPromote,
    StreamNew(PayloadInfo),
    StreamRead {
        async_: bool,
        info: PayloadInfo,
    },
    StreamWrite {
        async_: bool,
        info: PayloadInfo,
    },
    StreamForward(PayloadInfo),
    StreamCancelRead {
        info: PayloadInfo,
        async_: bool,
    },
    StreamCancelWrite {
        info: PayloadInfo,
        async_: bool,
    },
    StreamDropReadable(PayloadInfo),
    StreamDropWritable(PayloadInfo),
    FutureNew(PayloadInfo),
    FutureRead {
        async_: bool,
        info: PayloadInfo,
    },
    FutureWrite {
        async_: bool,
        info: PayloadInfo,
    },
    FutureForward(PayloadInfo),
    FutureCancelRead {
        info: PayloadInfo,
        async_: bool,
    },
    FutureCancelWrite {
        info: PayloadInfo,
        async_: bool,
    },
    FutureDropReadable(PayloadInfo),
    FutureDropWritable(PayloadInfo),
}

impl Read for PayloadType {
    fn read(value: &Value<'_>) -> Result<Self, Unread> {
        Ok(match value.kind()? {
            "typed" => PayloadType::Type {
                id: member(value, "type")?,
                function: member(value, "function")?,
            },
            "unit-future" => PayloadType::UnitFuture,
            "unit-stream" => PayloadType::UnitStream,
            _ => return Err(Unread::Unknown),
        })
    }
}

impl Read for PayloadInfo {
    fn read(value: &Value<'_>) -> Result<Self, Unread> {
        Ok(PayloadInfo {
            name: member(value, "name")?,
            ty: member(value, "type")?,
            key: member(value, "key")?,
            interface: optional_member(value, "interface")?,
            imported: member(value, "imported")?,
        })
    }
}

/// A built-in of futures and streams, of this kind.
fn async_value(kind: &str, value: &Value<'_>) -> Result<Import, Unread> {
    let info: PayloadInfo = member(value, "payload")?;
    let async_ = member(value, "async")?;
    Ok(match kind {
        "stream-new" => Import::StreamNew(info),
        "stream-read" => Import::StreamRead { async_, info },
        "stream-write" => Import::StreamWrite { async_, info },
        "stream-forward" => Import::StreamForward(info),
        "stream-cancel-read" => Import::StreamCancelRead { info, async_ },
        "stream-cancel-write" => Import::StreamCancelWrite { info, async_ },
        "stream-drop-readable" => Import::StreamDropReadable(info),
        "stream-drop-writable" => Import::StreamDropWritable(info),
        "future-new" => Import::FutureNew(info),
        "future-read" => Import::FutureRead { async_, info },
        "future-write" => Import::FutureWrite { async_, info },
        "future-forward" => Import::FutureForward(info),
        "future-cancel-read" => Import::FutureCancelRead { info, async_ },
        "future-cancel-write" => Import::FutureCancelWrite { info, async_ },
        "future-drop-readable" => Import::FutureDropReadable(info),
        "future-drop-writable" => Import::FutureDropWritable(info),
        _ => return Err(Unread::Unknown),
    })
}

/// An import without fields, of this kind.
fn plain(kind: &str) -> Option<Import> {
    Some(match kind {
        "exported-task-cancel" => Import::ExportedTaskCancel,
        "error-context-drop" => Import::ErrorContextDrop,
        "backpressure-inc" => Import::BackpressureInc,
        "backpressure-dec" => Import::BackpressureDec,
        "waitable-set-new" => Import::WaitableSetNew,
        "waitable-set-wait" => Import::WaitableSetWait,
        "waitable-set-poll" => Import::WaitableSetPoll,
        "waitable-set-drop" => Import::WaitableSetDrop,
        "waitable-join" => Import::WaitableJoin,
        "subtask-drop" => Import::SubtaskDrop,
        "thread-index" => Import::ThreadIndex,
        "thread-new-indirect" => Import::ThreadNewIndirect,
        "thread-resume-later" => Import::ThreadResumeLater,
        "thread-suspend" => Import::ThreadSuspend,
        "thread-yield" => Import::ThreadYield,
        "thread-suspend-then-resume" => Import::ThreadSuspendThenResume,
        "thread-yield-then-resume" => Import::ThreadYieldThenResume,
        "thread-suspend-then-promote" => Import::ThreadSuspendThenPromote,
        "thread-yield-then-promote" => Import::ThreadYieldThenPromote,
        _ => return None,
    })
}

/// A built-in with a type, an encoding or a flag, if it is of this kind.
fn with_field(kind: &str, value: &Value<'_>) -> Result<Option<Import>, Unread> {
    Ok(Some(match kind {
        "context-get" => Import::ContextGet {
            ty: member(value, "type")?,
            slot: member(value, "slot")?,
        },
        "context-set" => Import::ContextSet {
            ty: member(value, "type")?,
            slot: member(value, "slot")?,
        },
        "tls-base-get" => Import::TlsBaseGet {
            ty: member(value, "type")?,
        },
        "tls-base-set" => Import::TlsBaseSet {
            ty: member(value, "type")?,
        },
        "error-context-new" => Import::ErrorContextNew {
            encoding: member(value, "encoding")?,
        },
        "error-context-debug-message" => Import::ErrorContextDebugMessage {
            encoding: member(value, "encoding")?,
        },
        "subtask-cancel" => Import::SubtaskCancel {
            async_: member(value, "async")?,
        },
        _ => return Ok(None),
    }))
}

/// An import of the world, of the main module, of an adapter or of a resource, of this kind.
fn of_component(kind: &str, value: &Value<'_>) -> Result<Import, Unread> {
    Ok(match kind {
        "world-func" => Import::WorldFunc(
            member(value, "key")?,
            member(value, "name")?,
            member(value, "abi")?,
        ),
        "interface-func" => Import::InterfaceFunc(
            member(value, "key")?,
            member(value, "interface")?,
            member(value, "name")?,
            member(value, "abi")?,
        ),
        "imported-resource-drop" => Import::ImportedResourceDrop(
            member(value, "key")?,
            optional_member(value, "interface")?,
            member(value, "type")?,
        ),
        "exported-resource-drop" => {
            Import::ExportedResourceDrop(member(value, "key")?, member(value, "type")?)
        }
        "exported-resource-new" => {
            Import::ExportedResourceNew(member(value, "key")?, member(value, "type")?)
        }
        "exported-resource-rep" => {
            Import::ExportedResourceRep(member(value, "key")?, member(value, "type")?)
        }
        "adapter-export" => Import::AdapterExport {
            adapter: member(value, "adapter")?,
            func: member(value, "func")?,
            ty: member(value, "type")?,
        },
        "main-module-memory" => Import::MainModuleMemory(member(value, "type")?),
        "main-module-export" => Import::MainModuleExport {
            name: member(value, "name")?,
            kind: member(value, "export_kind")?,
        },
        "item" => Import::Item(member(value, "item")?),
        "exported-task-return" => Import::ExportedTaskReturn(
            member(value, "key")?,
            optional_member(value, "interface")?,
            member(value, "function")?,
        ),
        _ => return Err(Unread::Unknown),
    })
}

impl Read for Import {
    fn read(value: &Value<'_>) -> Result<Self, Unread> {
        let kind = value.kind()?;
        if value.find("payload").is_some() {
            return async_value(kind, value);
        }
        if let Some(import) = plain(kind) {
            return Ok(import);
        }
        match with_field(kind, value)? {
            Some(import) => Ok(import),
            None => of_component(kind, value),
        }
    }
}

/// The imports from a module: a module of the component, all of it, or single imports by their names.
///
/// [`ComponentWorld::new`](crate::ComponentWorld::new) has an example.
#[derive(Clone, Debug, PartialEq, Eq)]
pub enum ImportInstance {
    /// All of a module.
    Whole(MainOrAdapter),
    /// Single imports.
    Names(OrderedMap<String, Import>),
}

impl Read for ImportInstance {
    fn read(value: &Value<'_>) -> Result<Self, Unread> {
        Ok(match value.kind()? {
            "whole" => ImportInstance::Whole(member(value, "which")?),
            "names" => ImportInstance::Names(map(value, "names", |entry| {
                Ok((member(entry, "name")?, member(entry, "import")?))
            })?),
            _ => return Err(Unread::Unknown),
        })
    }
}

/// The imports of a core module, by the names of the modules that they are imported from.
///
/// [`ComponentWorld::new`](crate::ComponentWorld::new) has an example.
#[derive(Clone, Debug, Default, PartialEq, Eq)]
pub struct ImportMap {
    modules: OrderedMap<String, ImportInstance>,
    /// Of each of these modules the functions that are imported from it as from an adapter.
    required: Vec<OrderedMap<String, FuncType>>,
}

/// The functions of an adapter among these imports: of each name the first.
fn required(imports: &OrderedMap<String, Import>) -> Result<OrderedMap<String, FuncType>, Unread> {
    let functions = || {
        imports.values().filter_map(|import| match import {
            Import::AdapterExport { func, ty, .. } => Some((func, ty)),
            _ => None,
        })
    };
    let mut all = Vec::new();
    for function in functions() {
        push(&mut all, function)?;
    }
    let first = Index::of(all.len(), |position| all[position].0)?;
    let is_first = |position: &usize| {
        let name = all[*position].0;
        first.find(name, all.len(), |at| all[at].0 == name) == Some(*position)
    };
    let mut required = Vec::new();
    for position in (0..all.len()).filter(is_first) {
        let (name, ty) = all[position];
        push(&mut required, (string(name)?, ty.try_clone()?))?;
    }
    Ok(OrderedMap::of(required)?)
}

impl ImportMap {
    pub(crate) fn read(value: &Value<'_>, name: &str) -> Result<Self, Unread> {
        let modules: OrderedMap<String, ImportInstance> = map(value, name, |entry| {
            Ok((member(entry, "module")?, member(entry, "instance")?))
        })?;
        let mut all = Vec::new();
        for instance in modules.values() {
            let functions = match instance {
                ImportInstance::Names(imports) => required(imports)?,
                ImportInstance::Whole(_) => OrderedMap::EMPTY,
            };
            push(&mut all, functions)?;
        }
        Ok(ImportMap {
            modules,
            required: all,
        })
    }

    /// The record of each module, in the order of their first imports.
    #[must_use]
    pub fn modules(&self) -> &OrderedMap<String, ImportInstance> {
        &self.modules
    }

    /// The single imports, each by its module and its name: module by module, and of each module in order.
    pub fn imports(&self) -> impl Iterator<Item = (&str, &str, &Import)> {
        self.modules.iter().flat_map(|(module, instance)| {
            let names = match instance {
                ImportInstance::Names(names) => Some(names),
                ImportInstance::Whole(_) => None,
            };
            let names = names.into_iter().flatten();
            names.map(|(name, import)| (module.as_str(), name.as_str(), import))
        })
    }

    /// The import of this name from this module, if it is a single one.
    #[must_use]
    pub fn get(&self, module: &str, name: &str) -> Option<&Import> {
        match self.modules.get(module)? {
            ImportInstance::Names(names) => names.get(name),
            ImportInstance::Whole(_) => None,
        }
    }

    /// The functions that are imported from the adapter of this name, with their types: of each name the first.
    #[must_use]
    pub fn required_from_adapter(&self, name: &str) -> &OrderedMap<String, FuncType> {
        static NONE: OrderedMap<String, FuncType> = OrderedMap::EMPTY;
        let position = self.modules.get_index_of(name);
        position.map_or(&NONE, |position| &self.required[position])
    }

    /// The type of the memory, if the main module's memory is imported.
    #[must_use]
    pub fn imported_memory(&self) -> Option<MemoryType> {
        self.imports().find_map(|(_, _, import)| match import {
            Import::MainModuleMemory(ty) => Some(*ty),
            _ => None,
        })
    }
}
