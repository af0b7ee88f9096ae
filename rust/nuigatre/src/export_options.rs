//! The canonical options of the functions that core modules export.

use crate::built_ins::{Returning, all, read_worlds};
use crate::encoder::ComponentEncoder;
use crate::error::Error;
use crate::exports::Export;
use crate::ids::{AbiVariant, InterfaceId, WorldKey};
use crate::memory::{push, string};
use crate::read::Unread;
use crate::required_options::RequiredOptions;
use crate::shapes::Shape;
use crate::world::ComponentWorld;

/// The canonical options that the functions which a component's modules export need where they are lifted, as
/// [`ComponentWorld::export_options`] finds them.
///
/// [`ComponentWorld::new`](crate::ComponentWorld::new) has an example.
#[derive(Clone, Debug, PartialEq, Eq)]
pub struct ExportOptions {
    /// In the order of interfaces and names.
    functions: Vec<Lifted>,
}

/// A function, by its interface and its name, or by the key of a function of the world itself; and what it needs where it is
/// lifted synchronously.
#[derive(Clone, Debug, PartialEq, Eq)]
struct Lifted {
    interface: Option<InterfaceId>,
    name: String,
    options: RequiredOptions,
}

impl ExportOptions {
    /// The options of an export, if it is a function of the world: [`MEMORY`](RequiredOptions::MEMORY), if parameters or the
    /// result are passed in memory, or have a string or a list; [`REALLOC`](RequiredOptions::REALLOC), if that goes for the
    /// parameters; [`STRING_ENCODING`](RequiredOptions::STRING_ENCODING), if one of them has a string; and
    /// [`ASYNC`](RequiredOptions::ASYNC), if it is lifted asynchronously. Its memory and its encoding are those of its
    /// `task.return` in [`ComponentWorld::table`].
    #[must_use]
    pub fn get(&self, export: &Export) -> Option<RequiredOptions> {
        let (function, abi) = lifted(export)?;
        let key = |it: &Lifted| function.cmp(&(it.interface, &it.name)).reverse();
        let found = self.functions.binary_search_by(key).ok()?;
        let is_async = matches!(
            abi,
            AbiVariant::GuestExportAsync | AbiVariant::GuestExportAsyncStackful
        );
        let called = if is_async {
            RequiredOptions::ASYNC
        } else {
            RequiredOptions::empty()
        };
        Some(self.functions[found].options | called)
    }
}

impl ComponentWorld {
    /// The canonical options of all functions that its modules export for the component. The encoder is the one that the world
    /// was made of; its worlds are read again.
    ///
    /// # Errors
    ///
    /// - `Memory`: an allocation failed.
    /// - `OtherVersion`: the encoder is another one, whose worlds lack a function.
    pub fn export_options(&self, encoder: &ComponentEncoder<'_>) -> Result<ExportOptions, Error> {
        let adapters = self.adapters.values().map(|adapter| &adapter.info);
        let modules = std::iter::once(&self.info).chain(adapters);
        let mut wanted = Vec::new();
        for export in modules.flat_map(|module| module.exports.exports().values()) {
            if let Some((function, _)) = lifted(export) {
                push(&mut wanted, function)?;
            }
        }
        wanted.sort_unstable();
        wanted.dedup();
        Ok(options_of(encoder, &wanted)?)
    }
}

/// The options of these functions, which are in order.
fn options_of(
    encoder: &ComponentEncoder<'_>,
    wanted: &[Returning<'_>],
) -> Result<ExportOptions, Unread> {
    let (mut types, functions) = read_worlds(encoder, wanted)?;
    let functions = wanted.iter().zip(functions).map(|(of, function)| {
        let function = function.ok_or(Unread::Unknown)?;
        let params = types.shape_of_all(&function.params)?;
        Ok(Lifted {
            interface: of.0,
            name: string(of.1)?,
            options: Shape::lifted(&params, &types.shape(function.result)?),
        })
    });
    Ok(ExportOptions {
        functions: all(functions)?,
    })
}

/// The function that an export is, and how it is lifted.
fn lifted(export: &Export) -> Option<(Returning<'_>, AbiVariant)> {
    match export {
        Export::WorldFunc(WorldKey::Name(key), _, abi) => Some(((None, key), *abi)),
        Export::InterfaceFunc(_, interface, name, abi) => Some(((Some(*interface), name), *abi)),
        _ => None,
    }
}
