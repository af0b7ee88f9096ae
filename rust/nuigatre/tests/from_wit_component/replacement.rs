//! The code of the page, in which each of its blocks stands as it is there.

use crate::{wit_component, wit_parser};
use nuigatre::{
    Adapter, AdapterModuleDidNotExport, ComponentEncoder, ComponentWorld, Import, InterfaceId,
    Lowering, Resolved, TypeId, ValidatedModule, WorldKey, validate_adapter_module,
    validate_module,
};
use std::error::Error;

/// The crate `serde_json`.
mod serde_json {
    use std::convert::Infallible;

    pub fn to_string(resolve: &crate::wit_parser::Resolve) -> Result<String, Infallible> {
        Ok(resolve.serialized())
    }
}

/// The worlds of a `Resolve`, read once for any number of components.
pub fn resolved(resolve: &wit_parser::Resolve) -> Result<Resolved, Box<dyn Error>> {
    Ok(Resolved::new(&serde_json::to_string(resolve)?)?)
}

/// A key by which an export is asked for.
pub fn asked_key(key: &wit_parser::WorldKey) -> String {
    match key {
        wit_parser::WorldKey::Name(name) => name.clone(),
        wit_parser::WorldKey::Interface(id) => format!("interface-{}", id.index()),
    }
}

/// The ids of a `Resolve`, by their indices.
pub struct Ids {
    interfaces: Vec<wit_parser::InterfaceId>,
    types: Vec<wit_parser::TypeId>,
}

impl Ids {
    pub fn of(resolve: &wit_parser::Resolve) -> Self {
        Ids {
            interfaces: resolve.interfaces.iter().map(|it| it.0).collect(),
            types: resolve.types.iter().map(|it| it.0).collect(),
        }
    }
}

impl Ids {
    pub fn interface(&self, id: InterfaceId) -> wit_parser::InterfaceId {
        self.interfaces[id.0 as usize]
    }

    pub fn ty(&self, id: TypeId) -> wit_parser::TypeId {
        self.types[id.0 as usize]
    }

    pub fn key(&self, key: &WorldKey) -> wit_parser::WorldKey {
        match key {
            WorldKey::Name(name) => wit_parser::WorldKey::Name(name.clone()),
            WorldKey::Interface(id) => wit_parser::WorldKey::Interface(self.interface(*id)),
        }
    }
}

/// In the place of `ComponentWorld::new(encoder)`.
pub fn component_world(
    encoder: &wit_component::ComponentEncoder,
    resolved: &Resolved,
) -> Result<ComponentWorld, nuigatre::Error> {
    let keys = |of: &[wit_parser::WorldKey]| of.iter().map(asked_key).collect::<Vec<_>>();
    let main = keys(&encoder.main_module_exports);
    let adapters = encoder.adapters.iter();
    let adapters: Vec<_> = adapters
        .map(|(name, adapter)| (name, adapter, keys(&adapter.required_exports)))
        .collect();

    let world = encoder.metadata.world.index() as u32;
    let mut parts = ComponentEncoder::new(resolved, world, &encoder.module);
    parts.main_module_exports = Some(main.iter().map(String::as_str).collect());
    for (name, adapter, keys) in &adapters {
        let mut part = Adapter::new(name, &adapter.wasm);
        part.required_exports = keys.iter().map(String::as_str).collect();
        part.library_info = adapter.library_info.clone();
        parts.adapters.push(part);
    }
    parts.reject_legacy_names = encoder.reject_legacy_names;
    parts.realloc_via_memory_grow = encoder.realloc_via_memory_grow;
    ComponentWorld::new(&parts)
}

/// What a function of an interface that a module imports is lowered to: the interface, and whether it needs a shim.
pub fn lowered(
    world: &ComponentWorld,
    ids: &Ids,
    import: &Import,
) -> Option<(wit_parser::InterfaceId, bool)> {
    let Import::InterfaceFunc(key, id, name, abi) = import else {
        return None;
    };
    // `import_map[&Some(resolve.name_world_key(key))]` there
    let (_, imported) = world.imported(key)?;
    let is_indirect = match &imported.lowerings[&(name.as_str(), *abi)] {
        Lowering::Direct { .. } | Lowering::ResourceDrop(_) => false,
        Lowering::Indirect { .. } => true,
    };
    Some((ids.interface(*id), is_indirect))
}

/// The interface that an exported one has a type from: that of the exports if it is among them, else that of the imports.
pub fn is_of_exports(world: &ComponentWorld, exported: InterfaceId, owner: InterfaceId) -> bool {
    owner == exported || world.exports_used[&exported].contains(&owner)
}

/// The types that a component has to import of an interface, in order.
pub fn live_types(
    world: &ComponentWorld,
    ids: &Ids,
    interface: InterfaceId,
) -> Vec<wit_parser::TypeId> {
    let types = world.live_type_imports.get(&interface);
    types.into_iter().flatten().map(|id| ids.ty(*id)).collect()
}

/// The function that an adapter lacks, if an error is about that.
pub fn lacking(error: &nuigatre::Error) -> Option<&AdapterModuleDidNotExport> {
    error.source()?.downcast_ref()
}

/// The main module of an encoder alone, and an adapter by what that imports from it.
pub fn alone(
    parts: &ComponentEncoder<'_>,
    adapter: &Adapter<'_>,
) -> Result<(ValidatedModule, ValidatedModule), nuigatre::Error> {
    let main = validate_module(parts, parts.module, None)?;
    let adapted = validate_adapter_module(
        parts,
        adapter.wasm,
        main.imports.required_from_adapter(adapter.name),
        &adapter.required_exports,
        adapter.library_info.as_ref(),
    )?;
    Ok((main, adapted))
}
