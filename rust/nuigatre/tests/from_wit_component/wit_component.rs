//! A stand-in for the private fields of an encoder in the crate `wit-component`, whose lists and sets are vectors here.

use crate::wit_parser::{Resolve, WorldId, WorldKey};
use nuigatre::LibraryInfo;

pub struct ComponentEncoder {
    pub module: Vec<u8>,
    pub metadata: Metadata,
    pub main_module_exports: Vec<WorldKey>,
    pub adapters: Vec<(String, Adapter)>,
    pub reject_legacy_names: bool,
    pub realloc_via_memory_grow: bool,
}

pub struct Metadata {
    pub resolve: Resolve,
    pub world: WorldId,
}

pub struct Adapter {
    pub wasm: Vec<u8>,
    pub required_exports: Vec<WorldKey>,
    pub library_info: Option<LibraryInfo>,
}
