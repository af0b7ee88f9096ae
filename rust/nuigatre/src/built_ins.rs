//! The built-ins that core modules import, as the worlds have them: of which type they are, and what they need.

use crate::core_types::{FuncType, Signature};
use crate::encoder::{ComponentEncoder, World};
use crate::ids::{InterfaceId, TypeId, WorldKey};
use crate::imports::{Import, PayloadInfo, PayloadType};
use crate::json::{Reader, Value};
use crate::memory::{collect, push, string};
use crate::read::{Read, Unread, optional};
use crate::required_options::RequiredOptions;
use crate::shapes::{Function, Shape, Types, read_function, read_member};
use crate::world::ValidatedModule;

/// A function whose result a module returns by `task.return`: its interface and its name, or the key of a function of the
/// world itself.
pub(crate) type Returning<'a> = (Option<InterfaceId>, &'a str);

/// `task.return` of a function.
#[derive(Clone, Debug, PartialEq, Eq)]
struct Return {
    interface: Option<InterfaceId>,
    name: String,
    ty: FuncType,
    options: RequiredOptions,
}

/// The needs of a future or a stream.
#[derive(Clone, Copy, Debug, PartialEq, Eq)]
struct Payload {
    id: TypeId,
    /// So that what it carries is read from a core module.
    lifting: RequiredOptions,
    /// So that it is written to one.
    lowering: RequiredOptions,
}

impl Return {
    /// That of this function, which the worlds have to have.
    fn of(
        (interface, name): Returning<'_>,
        function: Option<Function>,
        types: &mut Types,
    ) -> Result<Self, Unread> {
        let function = function.ok_or(Unread::Unknown)?;
        let params = types.shape_of_all(&function.params)?;
        let (ty, options) = Shape::task_return(&params, &types.shape(function.result)?)?;
        Ok(Return {
            interface,
            name: string(name)?,
            ty,
            options,
        })
    }
}

impl Payload {
    fn of(id: TypeId, types: &mut Types) -> Result<Self, Unread> {
        let payload = types.payload(id)?;
        let shape = types.shape(payload)?;
        Ok(Payload {
            id,
            lifting: shape.lifting(),
            lowering: shape.lowering(),
        })
    }
}

/// The built-ins that modules import, with their types and needs.
#[derive(Clone, Debug, Default, PartialEq, Eq)]
pub(crate) struct BuiltIns {
    /// In the order of interfaces and names.
    returns: Vec<Return>,
    /// In the order of ids.
    payloads: Vec<Payload>,
}

impl BuiltIns {
    /// Those of the modules of an encoder's world. The worlds are looked into only where there are such built-ins.
    pub(crate) fn of<'a>(
        encoder: &ComponentEncoder<'_>,
        modules: impl Iterator<Item = &'a ValidatedModule>,
    ) -> Result<Self, Unread> {
        let (mut returning, mut payloads) = (Vec::new(), Vec::new());
        for module in modules {
            for (_, _, import) in module.imports.imports() {
                if let Some(function) = returned(import) {
                    push(&mut returning, function)?;
                } else if let Some(id) = transferred(import).and_then(|it| typed(it.0)) {
                    push(&mut payloads, id)?;
                }
            }
        }
        if returning.is_empty() && payloads.is_empty() {
            return Ok(BuiltIns::default());
        }
        returning.sort_unstable();
        returning.dedup();
        payloads.sort_unstable();
        payloads.dedup();
        let (mut types, functions) = read_worlds(encoder, &returning)?;
        let returns = returning.iter().zip(functions);
        let returns = returns.map(|(of, function)| Return::of(*of, function, &mut types));
        let returns = all(returns)?;
        let payloads = payloads.iter().map(|id| Payload::of(*id, &mut types));
        Ok(BuiltIns {
            returns,
            payloads: all(payloads)?,
        })
    }

    /// The type and the options of an import that is a built-in with a slot in a shim.
    pub(crate) fn needs(&self, import: &Import) -> Option<(Signature<'_>, RequiredOptions)> {
        let memory = RequiredOptions::MEMORY;
        let texts = memory | RequiredOptions::STRING_ENCODING;
        Some(match import {
            Import::ExportedTaskReturn(..) => {
                let found = self.task_return(import)?;
                (Signature::Own(&found.ty), found.options)
            }
            Import::StreamRead { .. } | Import::StreamWrite { .. } => {
                (Signature::Words(3, 1), memory | self.transfer(import)?)
            }
            Import::FutureRead { .. } | Import::FutureWrite { .. } => {
                (Signature::Words(2, 1), memory | self.transfer(import)?)
            }
            Import::WaitableSetWait | Import::WaitableSetPoll => (Signature::Words(2, 1), memory),
            Import::ErrorContextNew { .. } => (Signature::Words(2, 1), texts),
            Import::ErrorContextDebugMessage { .. } => {
                (Signature::Words(2, 0), texts | RequiredOptions::REALLOC)
            }
            Import::ThreadNewIndirect => (Signature::Words(2, 1), RequiredOptions::empty()),
            _ => return None,
        })
    }

    /// `task.return` where it needs options.
    fn task_return(&self, import: &Import) -> Option<&Return> {
        let function = returned(import)?;
        let key = |it: &Return| function.cmp(&(it.interface, &it.name)).reverse();
        let found = self.returns.binary_search_by(key).ok()?;
        let found = &self.returns[found];
        (!found.options.is_empty()).then_some(found)
    }

    /// The options by which a future or a stream is read or written, but for the memory.
    fn transfer(&self, import: &Import) -> Option<RequiredOptions> {
        let (info, is_read, is_async) = transferred(import)?;
        let mut options = RequiredOptions::empty();
        if let Some(id) = typed(info) {
            let found = self.payloads.binary_search_by_key(&id, |it| it.id).ok()?;
            let payload = self.payloads[found];
            options = if is_read {
                payload.lowering
            } else {
                payload.lifting
            };
        }
        if is_async {
            options |= RequiredOptions::ASYNC;
        }
        Some(options)
    }
}

/// The function of an import that is its `task.return`.
fn returned(import: &Import) -> Option<Returning<'_>> {
    match import {
        Import::ExportedTaskReturn(_, Some(interface), name) => Some((Some(*interface), name)),
        Import::ExportedTaskReturn(WorldKey::Name(key), None, _) => Some((None, key)),
        _ => None,
    }
}

/// The future or stream that an import reads or writes, whether it reads, and whether asynchronously.
fn transferred(import: &Import) -> Option<(&PayloadInfo, bool, bool)> {
    match import {
        Import::StreamRead { info, async_ } | Import::FutureRead { info, async_ } => {
            Some((info, true, *async_))
        }
        Import::StreamWrite { info, async_ } | Import::FutureWrite { info, async_ } => {
            Some((info, false, *async_))
        }
        _ => None,
    }
}

fn typed(info: &PayloadInfo) -> Option<TypeId> {
    match &info.ty {
        PayloadType::Type { id, .. } => Some(*id),
        PayloadType::UnitFuture | PayloadType::UnitStream => None,
    }
}

/// All items, or the first fault.
pub(crate) fn all<T>(items: impl Iterator<Item = Result<T, Unread>>) -> Result<Vec<T>, Unread> {
    let mut found = Vec::new();
    for item in items {
        push(&mut found, item?)?;
    }
    Ok(found)
}

/// The types of the worlds, and these functions, which are passed in order.
pub(crate) fn read_worlds(
    encoder: &ComponentEncoder<'_>,
    returning: &[Returning<'_>],
) -> Result<(Types, Vec<Option<Function>>), Unread> {
    let json = encoder.resolve.text();
    // functions of the world itself come first
    let world = match (returning.first(), encoder.world) {
        (Some((None, _)), World::Index(index)) => Some(index as usize),
        (Some((None, _)), World::Name(name)) => Some(world_named(json, name)?),
        _ => None,
    };
    let mut types = None;
    let mut wanted = Wanted {
        returning,
        functions: collect(returning.iter().map(|_| None))?,
    };
    Reader::new(json).members(|reader, name| {
        match &*name {
            "types" => types = Some(Types::read(reader)?),
            "interfaces" => each(reader, |reader, at| wanted.read_interface(reader, at))?,
            "worlds" => each(reader, |reader, at| {
                if Some(at) == world {
                    wanted.read_exports(reader)
                } else {
                    reader.skip()
                }
            })?,
            _ => reader.skip()?,
        }
        Ok(())
    })?;
    Ok((types.ok_or(Unread::Unknown)?, wanted.functions))
}

/// Functions that are looked for, in order, and those that are found.
struct Wanted<'a> {
    returning: &'a [Returning<'a>],
    functions: Vec<Option<Function>>,
}

impl Wanted<'_> {
    /// Reads a function, if it is wanted.
    fn read(&mut self, function: Returning<'_>, reader: &mut Reader<'_>) -> Result<(), Unread> {
        match self.returning.binary_search(&function) {
            Ok(at) => self.functions[at] = Some(read_function(reader)?),
            Err(_) => reader.skip()?,
        }
        Ok(())
    }

    /// Reads the functions of the interface at an index.
    fn read_interface(&mut self, reader: &mut Reader<'_>, at: usize) -> Result<(), Unread> {
        let id = InterfaceId(u32::try_from(at).map_err(|_| Unread::Unknown)?);
        let functions = |reader: &mut Reader<'_>| {
            reader.members(|reader, name| self.read((Some(id), &name), reader))
        };
        read_member(reader, "functions", functions).map(drop)
    }

    /// Reads the functions that a world exports.
    fn read_exports(&mut self, reader: &mut Reader<'_>) -> Result<(), Unread> {
        let exports = |reader: &mut Reader<'_>| {
            reader.members(|reader, key| {
                let function = |reader: &mut Reader<'_>| self.read((None, &key), reader);
                read_member(reader, "function", function).map(drop)
            })
        };
        read_member(reader, "exports", exports).map(drop)
    }
}

/// Goes through the items of an array, each by a function, which is passed its position.
pub(crate) fn each(
    reader: &mut Reader<'_>,
    mut item: impl FnMut(&mut Reader<'_>, usize) -> Result<(), Unread>,
) -> Result<(), Unread> {
    let mut at = 0..;
    reader.elements(|reader| item(reader, at.next().ok_or(Unread::Unknown)?))
}

/// The position of the world that a name is of: the one of this full name or, if there is none, of this short name.
pub(crate) fn world_named(json: &str, wanted: &str) -> Result<usize, Unread> {
    let (worlds, packages) = read_names(json)?;
    let name_of = |package: Option<u32>| packages.get(package? as usize);
    let mut full = worlds.iter().map(|(world, package)| {
        let (id, version) = id_and_version(name_of(*package)?);
        let rest = wanted.strip_prefix(id)?.strip_prefix('/')?;
        Some(rest.strip_prefix(&**world)? == version)
    });
    let mut short = worlds.iter().map(|(world, package)| {
        let id = name_of(*package).map(|name| id_and_version(name).0);
        let rest = id.and_then(|id| wanted.strip_prefix(id)?.strip_prefix('/'));
        wanted == world || rest.is_some_and(|rest| rest == world)
    });
    let found = full.position(|is_named| is_named == Some(true));
    let found = found.or_else(|| short.position(|is_named| is_named));
    found.ok_or(Unread::Unknown)
}

/// The names of worlds, each with its package, and those of packages.
type Names = (Vec<(String, Option<u32>)>, Vec<String>);

fn read_names(json: &str) -> Result<Names, Unread> {
    let (mut worlds, mut packages) = (Vec::new(), Vec::new());
    let text = |reader: &mut Reader<'_>| String::read(&Value::parse(reader.raw()?)?);
    Reader::new(json).members(|reader, name| match &*name {
        "worlds" => reader.elements(|reader| {
            let (mut name, mut package) = (None, None);
            reader.members(|reader, member| {
                match &*member {
                    "name" => name = Some(text(reader)?),
                    "package" => package = optional(&Value::parse(reader.raw()?)?)?,
                    _ => reader.skip()?,
                }
                Ok(())
            })?;
            Ok(push(&mut worlds, (name.ok_or(Unread::Unknown)?, package))?)
        }),
        "packages" => reader.elements(|reader| {
            let name = read_member(reader, "name", text)?;
            Ok(push(&mut packages, name.ok_or(Unread::Unknown)?)?)
        }),
        _ => reader.skip(),
    })?;
    Ok((worlds, packages))
}

/// The name of a package without its version, and `@` and its version, if it has one.
pub(crate) fn id_and_version(name: &str) -> (&str, &str) {
    name.split_at(name.find('@').unwrap_or(name.len()))
}
