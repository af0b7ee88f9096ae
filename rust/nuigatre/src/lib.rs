//! Core WebAssembly modules made ready to be parts of a component: repeated imports renamed
//! ([`ModuleImportMap`]), adapters trimmed to what is used of them ([`gc::run`]), and all of that for the world of a
//! component and its plan ([`ComponentWorld`], [`Plan`]), by resolved worlds as JSON, which may be read once for many
//! components ([`Resolved`]). One module may be validated alone ([`validate_module`], [`validate_adapter_module`]), and an
//! adapter asked why it imports what it does ([`gc::why`]). Any module's imports and exports are listed by [`scan`](fn@scan),
//! and why it imports them is answered by [`paths`](fn@paths). The shim that a component needs is listed too
//! ([`ComponentWorld::table`]). The names are those of the Rust crate `wit-component`, and so is what they do. An error says
//! what it is about ([`Error::place`]), which is its source.
//! A component is asked why it imports what it does by [`ComponentWorld::ways`] and [`ComponentEncoder::paths_to_json`], and what
//! has to go for it not to by [`ComponentEncoder::imported_parts`].
//!
//! The work is done by `libnuigatre.a`, whose functions are proved: each ends on all bytes, and answers what its
//! contract says. This crate is the way there, and is tested: a heap, the calls, and the reading of their answers. It
//! has no dependency but the standard library. Calls may run on several threads at once, and keep nothing but the seed of
//! their maps, which the first trim, world or plan draws for the process.
//!
//! No call ends the process or panics: where an allocation fails, the library's or this crate's, the answer is
//! [`Error::Memory`]. (A library that was compiled without its proof stops the process where it is wrong. The seed is of
//! `RandomState`, which panics where the system gives no random bytes.) A thread that calls [`ModuleImportMap::new`],
//! [`gc::run`], [`gc::why`] or [`scan`](fn@scan) needs a stack of 32 KB; for the other calls it needs one of 256 KB, whatever
//! the input. That is more than twice what any of them was measured to take.
//!
//! ```
//! use nuigatre::{ModuleImportMap, gc};
//! use std::borrow::Cow;
//!
//! // a module that imports the function `f` of the module `a` twice
//! let module = b"\0asm\x01\0\0\0\x01\x04\x01\x60\0\0\x02\x0d\x02\x01a\x01f\0\0\x01a\x01f\0\0";
//! let (renamed, map) = ModuleImportMap::new(Cow::Borrowed(module))?;
//! let map = map.expect("an import repeats");
//! assert_eq!(map.original_name("a", "f [v2]"), Some("f"));
//! assert!(renamed.ends_with(b"\x01a\x01f\0\0\x01a\x06f [v2]\0\0"));
//!
//! // an adapter of two functions, exported as `a` and `b`, without the first
//! let adapter = b"\0asm\x01\0\0\0\x01\x04\x01\x60\0\0\x03\x03\x02\0\0\x07\x09\x02\x01a\0\0\x01b\0\x01\x0a\x07\x02\x02\0\x0b\x02\0\x0b";
//! let trimmed = gc::run(adapter, ["b"], None, 16)?;
//! assert!(trimmed.len() < adapter.len());
//! # Ok::<(), nuigatre::Error>(())
//! ```
#![deny(unsafe_code)]
#![warn(missing_docs)]

mod binary;
mod built_ins;
mod compact;
mod component_paths;
mod core_types;
mod encoder;
mod error;
mod export_options;
mod exports;
mod faults;
#[allow(unsafe_code)]
mod ffi;
pub mod gc;
#[allow(unsafe_code)]
mod heap;
mod ids;
mod imports;
mod index;
mod json;
mod memory;
mod module_import_map;
mod ordered_map;
mod ordered_set;
mod originals;
mod paths;
mod place;
mod plan;
mod read;
mod refused;
mod renames;
mod required_options;
mod resolved;
mod scan;
mod shapes;
mod table;
mod validation;
mod ways;
mod wit_types;
mod world;
mod world_error;

#[cfg(test)]
#[allow(unsafe_code)]
mod allocation_tests;

/// The example of the README is compiled with the tests.
#[cfg(doctest)]
#[doc = include_str!("../README.md")]
struct Readme;

/// Whether the library that is linked is the one that is proved. One that is compiled without its proof does the same, but
/// stops the process where it is wrong, and is slower; the build script warns of it only where this crate is built for
/// itself or as a path dependency.
#[must_use]
pub fn is_proved() -> bool {
    ffi::is_proved()
}

pub use component_paths::{ImportedKind, ImportedPart, ImportingModule};
pub use core_types::{
    ExportKind, FuncType, GlobalType, MemoryType, TableType, ValType, WasmSignature, WasmType,
};
pub use encoder::{
    Adapter, ComponentEncoder, ImportOptions, Instance, Item, LibraryInfo, MainOrAdapter, World,
};
pub use error::Error;
pub use export_options::ExportOptions;
pub use exports::{Export, ExportMap, Exports};
pub use faults::{DedupeError, DedupeFault, GcFault, ReadError, ReadFault, TrimError};
pub use ids::{AbiVariant, InterfaceId, StringEncoding, TypeId, WorldKey};
pub use imports::{Import, ImportInstance, ImportMap, PayloadInfo, PayloadType};
pub use module_import_map::{ModuleImportMap, Rename};
pub use ordered_map::{Iter, Keys, Lookup, OrderedMap};
pub use ordered_set::OrderedSet;
pub use paths::{ImportPath, PathItem, PathItemKind, PathRoot, paths};
pub use place::{Place, Subject, TypeDifference};
pub use plan::{Plan, Use, UsedImport};
pub use refused::Refused;
pub use required_options::RequiredOptions;
pub use resolved::{Resolved, Worlds};
pub use scan::{ItemType, Scan, ScannedExport, ScannedImport, scan};
pub use table::{Filler, Slot, Table};
pub use validation::{validate_adapter_module, validate_module};
pub use ways::{WayStep, Ways, WorldImport};
pub use wit_types::Type;
pub use world::{ComponentWorld, ImportedInterface, Lowering, ValidatedModule, WorldAdapter};
pub use world_error::{
    AdapterModuleDidNotExport, EncoderFault, JsonFault, PlanFault, Problem, ResolveFault,
    ValidateError, ValidateFault, WorldError, WorldFault,
};
