//! What an encoder does with modules' imports and exports, with maps and sets, written as over `wit-component`'s own. A `match`
//! has no arm for others: it compiles only while it has all variants.

use crate::replacement::Ids;
use crate::wit_parser;
use nuigatre::{
    AbiVariant, ComponentEncoder, ComponentWorld, Export, ExportKind, ExportMap, FuncType, Import,
    ImportInstance, ImportMap, ImportOptions, Instance, InterfaceId, Item, ItemType, LibraryInfo,
    Lowering, MainOrAdapter, MemoryType, ModuleImportMap, OrderedMap, OrderedSet, PayloadInfo,
    PayloadType, RequiredOptions, Resolved, Type, TypeId, ValType, ValidatedModule, WasmSignature,
    WasmType, WorldAdapter, WorldKey, gc, paths, scan, validate_adapter_module, validate_module,
};
use std::borrow::Cow;
use std::collections::{HashMap, HashSet};
use std::error::Error;

/// The type that an import is about, as `ComponentWorld::add_live_imports` finds it there.
pub fn type_of(import: &Import) -> Option<TypeId> {
    match import {
        Import::WorldFunc(_, _, _)
        | Import::InterfaceFunc(_, _, _, _)
        | Import::AdapterExport { .. }
        | Import::MainModuleMemory(_)
        | Import::MainModuleExport { .. }
        | Import::Item(_)
        | Import::ExportedTaskReturn(..)
        | Import::ExportedTaskCancel
        | Import::ContextGet { .. }
        | Import::ContextSet { .. }
        | Import::TlsBaseGet { .. }
        | Import::TlsBaseSet { .. }
        | Import::ErrorContextNew { .. }
        | Import::ErrorContextDebugMessage { .. }
        | Import::ErrorContextDrop
        | Import::BackpressureInc
        | Import::BackpressureDec
        | Import::WaitableSetNew
        | Import::WaitableSetWait
        | Import::WaitableSetPoll
        | Import::WaitableSetDrop
        | Import::WaitableJoin
        | Import::SubtaskDrop
        | Import::SubtaskCancel { .. }
        | Import::ThreadIndex
        | Import::ThreadNewIndirect
        | Import::ThreadResumeLater
        | Import::ThreadSuspend
        | Import::ThreadYield
        | Import::ThreadSuspendThenResume
        | Import::ThreadYieldThenResume
        | Import::ThreadSuspendThenPromote
        | Import::ThreadYieldThenPromote => None,
        Import::ImportedResourceDrop(_, _, ty)
        | Import::ExportedResourceDrop(_, ty)
        | Import::ExportedResourceNew(_, ty)
        | Import::ExportedResourceRep(_, ty) => Some(*ty),

        // what has no flag, and then what is synchronous or asynchronous
        Import::StreamNew(info)
        | Import::StreamForward(info)
        | Import::StreamDropReadable(info)
        | Import::StreamDropWritable(info)
        | Import::FutureNew(info)
        | Import::FutureForward(info)
        | Import::FutureDropReadable(info)
        | Import::FutureDropWritable(info)
        | Import::StreamRead { info, async_: _ }
        | Import::StreamCancelRead { info, async_: _ }
        | Import::StreamWrite { info, async_: _ }
        | Import::StreamCancelWrite { info, async_: _ }
        | Import::FutureRead { info, async_: _ }
        | Import::FutureCancelRead { info, async_: _ }
        | Import::FutureWrite { info, async_: _ }
        | Import::FutureCancelWrite { info, async_: _ } => match info.ty {
            PayloadType::Type { id, .. } => Some(id),
            PayloadType::UnitFuture | PayloadType::UnitStream => None,
        },
    }
}

/// How a function is called, as wit-parser has it.
pub fn abi(abi: AbiVariant) -> wit_parser::AbiVariant {
    match abi {
        AbiVariant::GuestImport => wit_parser::AbiVariant::GuestImport,
        AbiVariant::GuestExport => wit_parser::AbiVariant::GuestExport,
        AbiVariant::GuestImportAsync => wit_parser::AbiVariant::GuestImportAsync,
        AbiVariant::GuestExportAsync => wit_parser::AbiVariant::GuestExportAsync,
        AbiVariant::GuestExportAsyncStackful => wit_parser::AbiVariant::GuestExportAsyncStackful,
    }
}

/// A type of the worlds, as wit-parser has it.
pub fn ty(ty: Type, ids: &Ids) -> wit_parser::Type {
    match ty {
        Type::Bool => wit_parser::Type::Bool,
        Type::U8 => wit_parser::Type::U8,
        Type::U16 => wit_parser::Type::U16,
        Type::U32 => wit_parser::Type::U32,
        Type::U64 => wit_parser::Type::U64,
        Type::S8 => wit_parser::Type::S8,
        Type::S16 => wit_parser::Type::S16,
        Type::S32 => wit_parser::Type::S32,
        Type::S64 => wit_parser::Type::S64,
        Type::F32 => wit_parser::Type::F32,
        Type::F64 => wit_parser::Type::F64,
        Type::Char => wit_parser::Type::Char,
        Type::String => wit_parser::Type::String,
        Type::ErrorContext => wit_parser::Type::ErrorContext,
        Type::Id(id) => wit_parser::Type::Id(ids.ty(id)),
    }
}

/// The parameters of a signature, as wit-parser has them, and its core type.
pub fn signature(sig: &WasmSignature) -> (Vec<wit_parser::WasmType>, FuncType) {
    let param = |ty: &WasmType| match ty {
        WasmType::I32 => wit_parser::WasmType::I32,
        WasmType::I64 => wit_parser::WasmType::I64,
        WasmType::F32 => wit_parser::WasmType::F32,
        WasmType::F64 => wit_parser::WasmType::F64,
        WasmType::Pointer => wit_parser::WasmType::Pointer,
        WasmType::PointerOrI64 => wit_parser::WasmType::PointerOrI64,
        WasmType::Length => wit_parser::WasmType::Length,
    };
    (sig.params.iter().map(param).collect(), FuncType::from(sig))
}

/// The byte of a number's type in the binary format, as an encoder writes a core type.
pub fn code(ty: ValType) -> Option<u8> {
    match ty {
        ValType::I32 => Some(0x7f),
        ValType::I64 => Some(0x7e),
        ValType::F32 => Some(0x7d),
        ValType::F64 => Some(0x7c),
        _ => None,
    }
}

/// A library that gets a function of the main module under another name.
pub fn library(name: &str) -> LibraryInfo {
    let item = Item {
        alias: "f".to_owned(),
        kind: ExportKind::Func,
        which: MainOrAdapter::Main,
        name: name.to_owned(),
    };
    LibraryInfo {
        instantiate_after_shims: true,
        arguments: vec![("env".to_owned(), Instance::Items(vec![item]))],
    }
}

/// What a future or a stream carries, if an import makes one, and whether it is one without a payload.
pub fn payload(import: &Import, resolve: &Resolved) -> Option<(Option<Type>, bool)> {
    let info: &PayloadInfo = match import {
        Import::FutureNew(info) | Import::StreamNew(info) => info,
        _ => return None,
    };
    let is_unit = matches!(info.ty, PayloadType::UnitFuture | PayloadType::UnitStream);
    Some((info.payload(resolve), is_unit))
}

/// The main module of an encoder: renamed, and validated with the map of that.
pub fn validated(
    parts: &ComponentEncoder<'_>,
) -> Result<(ValidatedModule, Option<ModuleImportMap>), nuigatre::Error> {
    let (module, map) = ModuleImportMap::new(Cow::Borrowed(parts.module))?;
    let info = validate_module(parts, &module, map.as_ref())?;
    Ok((info, map))
}

/// The name that an import had before repeated ones were renamed.
pub fn original<'a>(map: Option<&'a ModuleImportMap>, module: &str, name: &'a str) -> &'a str {
    map.and_then(|map| map.original_name(module, name))
        .unwrap_or(name)
}

/// How an export is lifted, if it is a function of the world.
pub fn lifted(export: &Export) -> Option<AbiVariant> {
    match export {
        Export::WorldFunc(_, _, abi) | Export::InterfaceFunc(_, _, _, abi) => Some(*abi),
        Export::WorldFuncPostReturn(_)
        | Export::InterfaceFuncPostReturn(_, _)
        | Export::ResourceDtor(_)
        | Export::Memory(_)
        | Export::GeneralPurposeRealloc
        | Export::GeneralPurposeExportRealloc
        | Export::GeneralPurposeImportRealloc
        | Export::Initialize
        | Export::ReallocForAdapter
        | Export::WorldFuncCallback(_)
        | Export::InterfaceFuncCallback(_, _)
        | Export::IndirectFunctionTable
        | Export::WasmTaskHook => None,
    }
}

/// The options of a lowering; of the drop of a resource there are none.
pub fn options(lowering: &Lowering) -> RequiredOptions {
    match lowering {
        Lowering::Direct { options } => *options,
        Lowering::Indirect { sig: _, options } => *options,
        Lowering::ResourceDrop(_) => RequiredOptions::empty(),
    }
}

/// The names that a module imports singly, and the modules that it gets as a whole.
pub fn instances(imports: &ImportMap) -> (Vec<(&str, &str)>, Vec<&MainOrAdapter>) {
    let (mut names, mut wholes) = (Vec::new(), Vec::new());
    for (module, instance) in imports.modules() {
        match instance {
            ImportInstance::Whole(which) => wholes.push(which),
            ImportInstance::Names(imports) => {
                names.extend(
                    imports
                        .iter()
                        .map(|(name, _)| (module.as_str(), name.as_str())),
                );
            }
        }
    }
    (names, wholes)
}

/// All exports, as `ExportMap::iter` lists them.
pub fn exports(exports: &ExportMap) -> Vec<(&str, &Export)> {
    exports.iter().collect()
}

/// What a function that is lifted needs of the exports: how it is lifted, its realloc, and what is called after it.
pub fn of_function<'a>(
    exports: &'a ExportMap,
    key: &WorldKey,
    func: &str,
) -> (Option<AbiVariant>, [Option<&'a str>; 3]) {
    let names = [
        exports.export_realloc_for(key, func),
        exports.post_return(key, func),
        exports.callback(key, func),
    ];
    (exports.abi(key, func), names)
}

/// What a function that is lowered needs of them, and the shim and the adapters.
pub fn of_module<'a>(
    exports: &'a ExportMap,
    interface: Option<InterfaceId>,
    func: &str,
    resource: TypeId,
) -> (Option<(&'a str, MemoryType)>, [Option<&'a str>; 8], usize) {
    let names = [
        exports.import_realloc_for(interface, func),
        exports.import_realloc_fallback(),
        exports.realloc_to_import_into_adapter(),
        exports.general_purpose_realloc(),
        exports.indirect_function_table(),
        exports.wasm_task_hook(),
        exports.initialize(),
        exports.resource_dtor(resource),
    ];
    (exports.memory(), names, exports.reallocs().count())
}

/// The adapter of a name, with its position, and whether it is the first one, and the last.
pub fn adapter<'a>(
    world: &'a ComponentWorld,
    name: &str,
) -> Option<(usize, &'a WorldAdapter, bool, bool)> {
    let (position, _, adapter) = world.adapters.get_full(name)?;
    let [is_first, is_last] =
        [world.adapters.first(), world.adapters.last()].map(|it| it.is_some_and(|it| it.0 == name));
    Some((position, adapter, is_first, is_last))
}

/// The entries of a map that is used up.
pub fn owned(adapters: OrderedMap<String, WorldAdapter>) -> Vec<(String, Vec<u8>)> {
    let mut owned = Vec::new();
    for (name, adapter) in adapters {
        owned.push((name, adapter.wasm));
    }
    owned
}

/// How a function is lowered: its interface and it are asked for by their names, and an interface by its position too.
pub fn lowering<'a>(
    world: &'a ComponentWorld,
    interface: &str,
    name: &str,
    abi: AbiVariant,
) -> Option<(&'a Lowering, bool)> {
    let imported = world.import_map.get(&Some(interface))?;
    let (first, _) = world.import_map.get_index(0)?;
    let is_first = first.as_deref() == Some(interface);
    Some((imported.lowerings.get(&(name, abi))?, is_first))
}

/// The members of a set, in order, with the first and the last.
pub fn members<T: Copy>(set: &OrderedSet<T>) -> (Vec<T>, Option<T>, Option<T>) {
    let mut members = Vec::new();
    for member in set {
        members.push(*member);
    }
    (members, set.first().copied(), set.last().copied())
}

/// The types that interfaces import, and the interfaces that exported ones use, each asked for alone.
pub fn uses(
    world: &ComponentWorld,
    interface: InterfaceId,
    ty: TypeId,
    other: InterfaceId,
) -> (bool, bool) {
    let types = world.live_type_imports.get(&interface);
    let used = world.exports_used.get(&interface);
    (
        types.is_some_and(|types| types.contains(&ty)),
        used.is_some_and(|used| used.contains(&other)),
    )
}

/// An adapter, trimmed as there: validated, trimmed to what is required of it, and validated again.
pub fn trimmed(
    parts: &ComponentEncoder<'_>,
    wasm: &[u8],
    required_by_import: &HashMap<String, FuncType>,
    required_exports: &[&str],
    realloc: Option<&str>,
) -> Result<(Vec<u8>, ValidatedModule), Box<dyn Error>> {
    let info = validate_adapter_module(parts, wasm, required_by_import, required_exports, None)?;
    let mut required: HashSet<String> = required_by_import.keys().cloned().collect();
    required.extend(info.exports.iter().map(|(name, _)| name.to_owned()));
    let page_size_log2 = info
        .imports
        .imported_memory()
        .and_then(|ty| ty.page_size_log2);
    let wasm = gc::run(wasm, &required, realloc, page_size_log2.unwrap_or(16))?;
    let info = validate_adapter_module(parts, &wasm, required_by_import, required_exports, None)?;
    Ok((wasm, info))
}

/// What is private there: the options of the functions that a module exports, and for what an adapter was trimmed.
pub fn lifted_options(
    world: &ComponentWorld,
    parts: &ComponentEncoder<'_>,
) -> Result<Vec<(String, RequiredOptions)>, nuigatre::Error> {
    let options = world.export_options(parts)?;
    let exports = world.info.exports.iter();
    let lifted = exports.filter_map(|(name, export)| Some((name.to_owned(), options.get(export)?)));
    Ok(lifted.collect())
}

/// The world where the functions of a name are lowered with other options.
pub fn with_options<'a>(
    parts: &ComponentEncoder<'a>,
    name: &'a str,
    options: RequiredOptions,
) -> Result<ComponentWorld, nuigatre::Error> {
    let mut parts = parts.clone();
    parts.import_options.push(ImportOptions::new(name, options));
    ComponentWorld::new(&parts)
}

/// Why an adapter imports the first of its imports: a required export, and the functions from there on, by their names.
pub fn chain(
    wasm: &[u8],
    required: &[&str],
) -> Result<Option<(String, Vec<String>)>, nuigatre::Error> {
    let (module, chains) = (scan(wasm)?, gc::why(wasm, required)?);
    let Some(chain) = chains.of_import(0)? else {
        return Ok(None);
    };
    let name = |item: &gc::ItemIndex| module.name_of(*item).map(str::to_owned);
    let items = chain.items.iter();
    let items = items.map(|item| name(item).unwrap_or_else(|| item.to_string()));
    Ok(Some((chain.export, items.collect())))
}

/// Where the paths begin that lead to a module's imports, and their imports.
pub fn begun(wasm: &[u8]) -> Result<Vec<(String, String)>, nuigatre::Error> {
    let paths = paths(wasm, &[], &[])?;
    Ok(paths
        .into_iter()
        .map(|path| (path.root.to_string(), path.name))
        .collect())
}

/// What threads share, and what `anyhow` takes for an error: not called, but compiled.
pub fn are_shared(resolved: Resolved, world: ComponentWorld, error: nuigatre::Error) {
    fn is_shared<T: Send + Sync + 'static>(_: T) {}
    fn is_error<T: Error + Send + Sync + 'static>(_: T) {}
    is_shared(resolved);
    is_shared(world);
    is_error(error);
}

/// Why a component imports what it does.
pub fn explained(
    world: &ComponentWorld,
    parts: &ComponentEncoder<'_>,
) -> Result<Vec<(String, Vec<String>)>, nuigatre::Error> {
    let ways = world.ways(parts)?;
    let mut explained = Vec::new();
    for (number, import) in ways.imports().iter().enumerate() {
        let steps = ways
            .steps(number)?
            .iter()
            .map(ToString::to_string)
            .collect();
        explained.push((import.function.to_owned(), steps));
    }
    Ok(explained)
}

/// The functions that a module imports.
pub fn imported_functions(wasm: &[u8]) -> Result<Vec<(String, String, FuncType)>, nuigatre::Error> {
    let imports = scan(wasm)?.imports.into_iter();
    let functions = imports.filter_map(|import| match import.ty {
        ItemType::Func(ty) => Some((import.module, import.name, ty)),
        ItemType::Table(_) | ItemType::Memory(_) | ItemType::Global(_) => None,
    });
    Ok(functions.collect())
}
