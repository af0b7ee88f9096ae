//! Why a component imports what it does.

use crate::encoder::{ComponentEncoder, MainOrAdapter};
use crate::error::Error;
use crate::gc::{self, Chain, Chains, ItemIndex};
use crate::imports::{Import, PayloadInfo, PayloadType};
use crate::index::Index;
use crate::memory::{push, string};
use crate::scan::{Scan, scan};
use crate::world::{ComponentWorld, ValidatedModule};
use std::fmt::{self, Display, Formatter, Write};
use std::iter::Peekable;

/// An import of a core module that comes from the world: a function, the drop of a resource, or a built-in for a future or a
/// stream of an imported function.
///
/// [`ComponentWorld::ways`](crate::ComponentWorld::ways) has an example.
#[derive(Clone, Copy, Debug, PartialEq, Eq, Hash)]
#[non_exhaustive]
pub struct WorldImport<'a> {
    /// The adapter or the library that imports it; `None` for the main module.
    pub adapter: Option<&'a str>,
    /// The name that its interface has outside of the world; `None` for what is the world's own.
    pub interface: Option<&'a str>,
    /// The function's name; of a drop and of a built-in that of the import.
    pub function: &'a str,
    /// The name of the module that it is imported from.
    pub module: &'a str,
    /// Its name there.
    pub name: &'a str,
}

/// A step of the path to an import. Its text is the line that the program `wcplan` prints, but a name that Rust mangled stays so.
///
/// [`ComponentWorld::ways`](crate::ComponentWorld::ways) has an example.
#[derive(Clone, Debug, PartialEq, Eq, Hash)]
#[non_exhaustive]
pub enum WayStep {
    /// A module imports something: of the world, or the main module of an adapter.
    #[non_exhaustive]
    Import {
        /// The module that imports it.
        by: MainOrAdapter,
        /// The name of the module that it is imported from.
        module: String,
        /// Its name there.
        name: String,
    },
    /// An adapter exports something.
    #[non_exhaustive]
    Export {
        /// The adapter.
        adapter: String,
        /// The export's name.
        name: String,
    },
    /// An item of the adapter, which the step before names.
    #[non_exhaustive]
    Item {
        /// The item, in the adapter as the encoder has it.
        item: ItemIndex,
        /// The name of a function, if the adapter has one for it.
        name: Option<String>,
    },
}

/// Why a component imports what it does, as [`ComponentWorld::ways`] finds it. It is linear in the modules; the path to one
/// import at a time is taken from it.
///
/// [`ComponentWorld::ways`](crate::ComponentWorld::ways) has an example.
#[derive(Clone, Debug)]
pub struct Ways<'a> {
    world: &'a ComponentWorld,
    imports: Vec<WorldImport<'a>>,
    /// Of each import the position of its adapter in the world; 0 for those of the main module.
    adapters: Vec<usize>,
    /// Each adapter of the world, but for libraries.
    searched: Vec<Option<Searched>>,
}

/// An adapter that was searched: what leads to its imports, and their names.
#[derive(Clone, Debug)]
struct Searched {
    scan: Scan,
    /// From the exports that the component has to have whatever the main module imports, if there are any.
    always: Option<Chains>,
    /// From all that are required.
    chains: Chains,
    /// The positions of imports by the names of their modules and their own.
    numbers: Index,
}

impl Searched {
    fn of<'a>(
        wasm: &[u8],
        mut always: Peekable<impl Iterator<Item = &'a str>>,
        required: impl Iterator<Item = &'a str>,
    ) -> Result<Self, Error> {
        let (chains, scan) = (gc::why(wasm, required)?, scan(wasm)?);
        let numbers = Index::of(scan.imports.len(), |number| names(&scan, number))?;
        let always = match always.peek() {
            Some(_) => Some(gc::why(wasm, always)?),
            None => None,
        };
        Ok(Searched {
            scan,
            always,
            chains,
            numbers,
        })
    }

    fn number(&self, import: WorldImport<'_>) -> Option<usize> {
        let wanted = (import.module, import.name);
        let is_at = |number| names(&self.scan, number) == wanted;
        self.numbers.find(&wanted, self.scan.imports.len(), is_at)
    }

    /// The path to the import of a position, and whether it begins at an export that is always needed.
    fn chain(&self, position: usize) -> Result<Option<(Chain, bool)>, Error> {
        if let Some(always) = &self.always {
            if let Some(chain) = always.of_import(position)? {
                return Ok(Some((chain, true)));
            }
        }
        Ok(self.chains.of_import(position)?.map(|chain| (chain, false)))
    }
}

/// The names of the import of a number.
fn names(scan: &Scan, number: usize) -> (&str, &str) {
    let import = &scan.imports[number];
    (&import.module, &import.name)
}

impl ComponentWorld {
    /// Why the modules of the component import what they do of the world: the main module by itself, and an adapter for what is
    /// required of it ([`ComponentWorld::required_exports`]). The encoder is the one that the world was made of. What the
    /// component imports for its types alone is in `live_type_imports`.
    ///
    /// ```no_run
    /// # use nuigatre::{ComponentEncoder, ComponentWorld, Error};
    /// # fn of(encoder: &ComponentEncoder<'_>) -> Result<(), Error> {
    /// let world = ComponentWorld::new(encoder)?;
    /// let ways = world.ways(encoder)?;
    /// for (number, import) in ways.imports().iter().enumerate() {
    ///     println!("{} {}", import.interface.unwrap_or("$root"), import.function);
    ///     for step in ways.steps(number)? {
    ///         println!("  {step}"); // main imports old-notes length_of
    ///     }
    /// }
    /// # Ok(())
    /// # }
    /// ```
    ///
    /// # Errors
    ///
    /// - `Trim`: an adapter can't be searched. None that could be trimmed is known to have such a fault.
    /// - `Memory`: an allocation failed.
    /// - `OtherVersion`: the library is of another version than this crate, or the encoder is another one, without an adapter.
    pub fn ways<'a>(&'a self, encoder: &ComponentEncoder<'_>) -> Result<Ways<'a>, Error> {
        let given = &encoder.adapters;
        let index = Index::of(given.len(), |position| given[position].name)?;
        let mut searched = Vec::new();
        for (name, adapter) in &self.adapters {
            let is_it = |position: usize| given[position].name == name;
            let found = index.find(name.as_str(), given.len(), is_it);
            let wasm = given[found.ok_or(Error::OtherVersion)?].wasm;
            let required = self.required_exports(name).ok_or(Error::OtherVersion)?;
            let always = adapter.info.exports.iter().map(|it| it.0).peekable();
            let of_adapter = match adapter.library_info {
                None => Some(Searched::of(wasm, always, required)?),
                Some(_) => None,
            };
            push(&mut searched, of_adapter)?;
        }
        let mut ways = Ways {
            world: self,
            imports: Vec::new(),
            adapters: Vec::new(),
            searched,
        };
        ways.add(0, None, &self.info)?;
        for (position, (name, adapter)) in self.adapters.iter().enumerate() {
            ways.add(position, Some(name), &adapter.info)?;
        }
        Ok(ways)
    }

    /// The interface and the function of an import that comes from the world, whose name in its module this is.
    fn asked<'a>(
        &'a self,
        import: &'a Import,
        name: &'a str,
    ) -> Option<(Option<&'a str>, &'a str)> {
        let interface = |key| Some(self.imported(key)?.0);
        match import {
            Import::WorldFunc(_, function, _) => Some((None, function)),
            Import::InterfaceFunc(key, _, function, _) => Some((interface(key), function)),
            Import::ImportedResourceDrop(_, None, _) => Some((None, name)),
            Import::ImportedResourceDrop(key, Some(_), _) => Some((interface(key), name)),
            import => {
                let info = payload(import).filter(|info| info.imported)?;
                match (&info.ty, info.interface) {
                    (PayloadType::Type { .. }, None) => Some((None, name)),
                    (PayloadType::Type { .. }, Some(_)) => Some((interface(&info.key), name)),
                    (PayloadType::UnitFuture | PayloadType::UnitStream, _) => None,
                }
            }
        }
    }
}

/// The future or the stream that a built-in is for.
fn payload(import: &Import) -> Option<&PayloadInfo> {
    match import {
        Import::StreamNew(info)
        | Import::StreamRead { info, .. }
        | Import::StreamWrite { info, .. }
        | Import::StreamForward(info)
        | Import::StreamCancelRead { info, .. }
        | Import::StreamCancelWrite { info, .. }
        | Import::StreamDropReadable(info)
        | Import::StreamDropWritable(info)
        | Import::FutureNew(info)
        | Import::FutureRead { info, .. }
        | Import::FutureWrite { info, .. }
        | Import::FutureForward(info)
        | Import::FutureCancelRead { info, .. }
        | Import::FutureCancelWrite { info, .. }
        | Import::FutureDropReadable(info)
        | Import::FutureDropWritable(info) => Some(info),
        _ => None,
    }
}

impl<'a> Ways<'a> {
    /// Appends the imports of a module that come from the world.
    fn add(
        &mut self,
        position: usize,
        adapter: Option<&'a str>,
        info: &'a ValidatedModule,
    ) -> Result<(), Error> {
        for (module, name, import) in info.imports.imports() {
            if let Some((interface, function)) = self.world.asked(import, name) {
                let import = WorldImport {
                    adapter,
                    interface,
                    function,
                    module,
                    name,
                };
                push(&mut self.imports, import)?;
                push(&mut self.adapters, position)?;
            }
        }
        Ok(())
    }

    /// The imports of modules that come from the world: those of the main module in order, and then those of each adapter and
    /// each library. What two modules import is there twice.
    #[must_use]
    pub fn imports(&self) -> &[WorldImport<'a>] {
        &self.imports
    }

    /// The path to the import of this number, whose last step it is; without a step where there are fewer. That to an import of
    /// an adapter begins at an export: one that the component has to have whatever the main module imports, or, if none of these
    /// leads there, one that the main module imports, as the first step says. Items lead from there to the import, which is the
    /// last of them, each naming the next, by the shortest way in the adapter before it is trimmed ([`gc::why`]).
    ///
    /// # Errors
    ///
    /// - `Memory`: an allocation failed.
    /// - `OtherVersion`: the library is of another version than this crate.
    pub fn steps(&self, number: usize) -> Result<Vec<WayStep>, Error> {
        let mut steps = Vec::new();
        let Some(import) = self.imports.get(number) else {
            return Ok(steps);
        };
        if let Some(adapter) = import.adapter {
            self.put_chain(number, adapter, &mut steps)?;
        }
        push(
            &mut steps,
            imported(import.adapter, import.module, import.name)?,
        )?;
        Ok(steps)
    }

    /// Appends the steps before the import of a number.
    fn put_chain(
        &self,
        number: usize,
        adapter: &str,
        steps: &mut Vec<WayStep>,
    ) -> Result<(), Error> {
        let Some(searched) = &self.searched[self.adapters[number]] else {
            return Ok(());
        };
        let position = searched.number(self.imports[number]);
        let chain = match position {
            Some(position) => searched.chain(position)?,
            None => None,
        };
        let Some((chain, is_always)) = chain else {
            return Ok(());
        };
        if !is_always {
            push(steps, imported(None, adapter, &chain.export)?)?;
        }
        let export = WayStep::Export {
            adapter: string(adapter)?,
            name: chain.export,
        };
        push(steps, export)?;
        for item in chain.items {
            let name = searched.scan.name_of(item).map(string).transpose()?;
            push(steps, WayStep::Item { item, name })?;
        }
        Ok(())
    }
}

/// The step by which a module imports something.
fn imported(adapter: Option<&str>, module: &str, name: &str) -> Result<WayStep, Error> {
    let by = match adapter {
        None => MainOrAdapter::Main,
        Some(adapter) => MainOrAdapter::Adapter(string(adapter)?),
    };
    Ok(WayStep::Import {
        by,
        module: string(module)?,
        name: string(name)?,
    })
}

/// A name in which each character that is not printed is escaped. It ends its line.
struct Shown<'a>(&'a str);

/// As the name before, but each blank is escaped too, so that a line has one reading.
struct Word<'a>(&'a str);

impl Display for Shown<'_> {
    fn fmt(&self, f: &mut Formatter<'_>) -> fmt::Result {
        self.0.chars().try_for_each(|letter| match letter {
            '"' | '\'' => f.write_char(letter),
            letter => write!(f, "{}", letter.escape_debug()),
        })
    }
}

impl Display for Word<'_> {
    fn fmt(&self, f: &mut Formatter<'_>) -> fmt::Result {
        for (position, word) in self.0.split(' ').enumerate() {
            let blank = if position == 0 { "" } else { "\\u{20}" };
            write!(f, "{blank}{}", Shown(word))?;
        }
        Ok(())
    }
}

impl Display for WayStep {
    fn fmt(&self, f: &mut Formatter<'_>) -> fmt::Result {
        match self {
            WayStep::Import { by, module, name } => {
                match by {
                    MainOrAdapter::Main => f.write_str("main")?,
                    MainOrAdapter::Adapter(adapter) => write!(f, "adapter {}", Word(adapter))?,
                }
                write!(f, " imports {} {}", Word(module), Word(name))
            }
            WayStep::Export { adapter, name } => {
                write!(f, "adapter {} exports {}", Word(adapter), Word(name))
            }
            WayStep::Item { item, name } => match name {
                Some(name) => write!(f, "{item} {}", Shown(name)),
                None => write!(f, "{item}"),
            },
        }
    }
}
