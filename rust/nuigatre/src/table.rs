//! The table of a shim: functions that stand in for others until all modules are instantiated.

use crate::core_types::{FuncType, Signature};
use crate::error::Error;
use crate::exports::Export;
use crate::ids::AbiVariant;
use crate::imports::Import;
use crate::index::Index;
use crate::memory::{OutOfMemory, push};
use crate::required_options::RequiredOptions;
use crate::world::{ComponentWorld, Lowering, ValidatedModule};
use std::fmt::{self, Display, Formatter};

/// The function that a slot of a shim's table is filled with once there is a memory.
///
/// [`ComponentWorld::new`](crate::ComponentWorld::new) has an example.
#[derive(Clone, Copy, Debug, PartialEq, Eq, Hash)]
#[non_exhaustive]
pub enum Filler<'a> {
    /// An export of an adapter.
    Adapter {
        /// The adapter.
        adapter: &'a str,
        /// The export.
        function: &'a str,
    },
    /// A function that the world imports, lowered for the module that imports it.
    #[non_exhaustive]
    Lowered {
        /// The adapter that imports it; `None` for the main module.
        module: Option<&'a str>,
        /// The name that its interface has outside of the world; `None` for a function of the world itself.
        interface: Option<&'a str>,
        /// Its name.
        name: &'a str,
        /// How it is called.
        abi: AbiVariant,
        /// The canonical options that it needs.
        options: RequiredOptions,
    },
    /// A built-in that needs a memory or the main module's table of functions: `task.return`, what reads or writes a future or
    /// a stream, what waits for a waitable set or polls it, what makes an error context or reads its message, what makes a
    /// thread.
    #[non_exhaustive]
    BuiltIn {
        /// The adapter that imports it; `None` for the main module. `None` too where all modules have one: of waitable sets,
        /// and of new error contexts.
        module: Option<&'a str>,
        /// The import: of several that it stands in for, the first.
        import: &'a Import,
        /// The canonical options that it needs.
        options: RequiredOptions,
    },
    /// The destructor of a resource that the world exports.
    Destructor {
        /// The adapter that exports it; `None` for the main module.
        module: Option<&'a str>,
        /// The export.
        function: &'a str,
    },
}

impl Filler<'_> {
    /// The canonical options that a function of the world or a built-in needs; none of an export of a module.
    #[must_use]
    pub fn options(self) -> RequiredOptions {
        match self {
            Filler::Lowered { options, .. } | Filler::BuiltIn { options, .. } => options,
            Filler::Adapter { .. } | Filler::Destructor { .. } => RequiredOptions::empty(),
        }
    }
}

/// A function of a shim. Its text is a name for it, as `wit-component` has them: `adapt-MODULE-NAME` and
/// `indirect-MODULE-NAME` by the first import that it stands in for, `task-return-FUNCTION`, `dtor-EXPORT`, and the like.
///
/// [`ComponentWorld::new`](crate::ComponentWorld::new) has an example.
#[derive(Clone, Debug, PartialEq, Eq, Hash)]
#[non_exhaustive]
pub struct Slot<'a> {
    /// The module and the name of the first import that it stands in for; `None` of a destructor.
    pub import: Option<(&'a str, &'a str)>,
    /// Its core type, where memories have 32 bits.
    pub ty: FuncType,
    /// The function that fills it.
    pub filler: Filler<'a>,
}

impl<'a> Slot<'a> {
    fn try_clone(&self) -> Result<Slot<'a>, OutOfMemory> {
        Ok(Slot {
            ty: self.ty.try_clone()?,
            ..*self
        })
    }
}

impl Display for Slot<'_> {
    fn fmt(&self, f: &mut Formatter<'_>) -> fmt::Result {
        let (module, name) = self.import.unwrap_or_default();
        match self.filler {
            Filler::Adapter { .. } => write!(f, "adapt-{module}-{name}"),
            Filler::Lowered { .. } => write!(f, "indirect-{module}-{name}"),
            Filler::Destructor { function, .. } => write!(f, "dtor-{function}"),
            Filler::BuiltIn { import, .. } => match import {
                Import::ExportedTaskReturn(_, _, function) => write!(f, "task-return-{function}"),
                Import::WaitableSetWait => f.write_str("waitable-set.wait"),
                Import::WaitableSetPoll => f.write_str("waitable-set.poll"),
                Import::ErrorContextNew { .. } => f.write_str("error-new"),
                Import::ErrorContextDebugMessage { .. } => f.write_str("error-debug-message"),
                Import::ThreadNewIndirect => f.write_str("thread.new-indirect"),
                // what reads or writes a future or a stream
                _ => write!(f, "{module}-{name}"),
            },
        }
    }
}

/// The slots of a shim's table, in the order in which a component of `wit-component` has them.
///
/// [`ComponentWorld::new`](crate::ComponentWorld::new) has an example.
#[derive(Clone, Debug)]
pub struct Table<'a> {
    slots: Vec<Slot<'a>>,
    index: Index,
}

impl<'a> Table<'a> {
    /// The slots in order.
    #[must_use]
    pub fn slots(&self) -> &[Slot<'a>] {
        &self.slots
    }

    /// The number of the slot that is filled with this, if there is one: that of [`ComponentWorld::filler`] of an import.
    #[must_use]
    pub fn number_of(&self, filler: Filler<'_>) -> Option<usize> {
        let is_at = |position: usize| self.slots[position].filler == filler;
        self.index.find(&filler, self.slots.len(), is_at)
    }

    fn of(slots: Vec<Slot<'a>>) -> Result<Self, OutOfMemory> {
        let index = Index::of(slots.len(), |position: usize| slots[position].filler)?;
        Ok(Table { slots, index })
    }
}

impl ComponentWorld {
    /// The table of the shim that the component needs. First comes what the main module needs: what its imports do, in their
    /// order, and then the destructors that it exports; after that, what each adapter and each library does. A slot is for
    ///
    /// - a function of an adapter;
    /// - a function of the world that is lowered indirectly, for each module that imports it;
    /// - a built-in that needs a memory, or the main module's table of functions ([`Filler::BuiltIn`]);
    /// - the destructor of a resource.
    ///
    /// Of the functions of the world it is proved which ones are lowered indirectly, and with what options and signature: these
    /// have the slots of [`Plan`](crate::Plan), in the same order. All else is tested: order, types and options are those in
    /// components of `wit-component` 0.246. There one slot is for both ways to read a future or a stream, synchronously and
    /// asynchronously, or to write it; here each has its own. Where the main module imports its memory, nothing waits for that,
    /// and the reallocs that such a component's shim has are not in the table.
    ///
    /// # Errors
    ///
    /// - `Memory`: an allocation failed.
    pub fn table(&self) -> Result<Table<'_>, Error> {
        let mut all = Vec::new();
        self.put_slots(None, &self.info, &mut all)?;
        for (name, adapter) in &self.adapters {
            self.put_slots(Some(name), &adapter.info, &mut all)?;
        }
        let all = Table::of(all)?;
        let is_first =
            |position: usize| all.number_of(all.slots[position].filler) == Some(position);
        let mut first = Vec::new();
        for position in (0..all.slots.len()).filter(|position| is_first(*position)) {
            push(&mut first, all.slots[position].try_clone()?)?;
        }
        Ok(Table::of(first)?)
    }

    /// The entry of the table behind an import of a module: `module` is the name of the adapter, or `None` for the main
    /// module. `None` where the import needs no slot.
    #[must_use]
    pub fn filler<'a>(&'a self, module: Option<&'a str>, import: &'a Import) -> Option<Filler<'a>> {
        Some(self.behind(module, import)?.0)
    }

    /// As the method before, with its core type.
    fn behind<'a>(&'a self, module: Option<&'a str>, import: &'a Import) -> Option<Behind<'a>> {
        match import {
            Import::AdapterExport { adapter, func, ty } => {
                let function = func;
                Some((Filler::Adapter { adapter, function }, Signature::Own(ty)))
            }
            Import::WorldFunc(_, name, abi) => self.lowered(module, import, (None, name, *abi)),
            Import::InterfaceFunc(key, _, name, abi) => {
                self.lowered(module, import, (Some(self.imported(key)?.0), name, *abi))
            }
            _ => self.built_in(module, import),
        }
    }

    /// The entry of a function of the world: the name of its interface, its own, and how it is called.
    fn lowered<'a>(
        &'a self,
        module: Option<&'a str>,
        import: &Import,
        (interface, name, abi): (Option<&'a str>, &'a str, AbiVariant),
    ) -> Option<Behind<'a>> {
        let Lowering::Indirect { sig, options } = self.lowering(import)? else {
            return None;
        };
        let filler = Filler::Lowered {
            module,
            interface,
            name,
            abi,
            options: *options,
        };
        Some((filler, Signature::Lowered(sig)))
    }

    /// The entry of a built-in.
    fn built_in<'a>(&'a self, module: Option<&'a str>, import: &'a Import) -> Option<Behind<'a>> {
        let (signature, options) = self.built_ins.needs(import)?;
        let has_memory = self.info.imports.imported_memory().is_some();
        if has_memory && !matches!(import, Import::ThreadNewIndirect) {
            return None;
        }
        let is_shared = matches!(
            import,
            Import::WaitableSetWait | Import::WaitableSetPoll | Import::ErrorContextNew { .. }
        );
        let filler = Filler::BuiltIn {
            module: module.filter(|_| !is_shared),
            import,
            options,
        };
        Some((filler, signature))
    }

    /// Appends a slot for each import that needs one, and for each destructor.
    fn put_slots<'a>(
        &'a self,
        name: Option<&'a str>,
        module: &'a ValidatedModule,
        slots: &mut Vec<Slot<'a>>,
    ) -> Result<(), OutOfMemory> {
        for (from, field, import) in module.imports.imports() {
            if let Some((filler, signature)) = self.behind(name, import) {
                let slot = Slot {
                    import: Some((from, field)),
                    ty: signature.func_type()?,
                    filler,
                };
                push(slots, slot)?;
            }
        }
        for (function, export) in &module.exports {
            if let Export::ResourceDtor(_) = export {
                let module = name;
                let slot = Slot {
                    import: None,
                    ty: Signature::Words(1, 0).func_type()?,
                    filler: Filler::Destructor { module, function },
                };
                push(slots, slot)?;
            }
        }
        Ok(())
    }
}

/// The function that a slot is filled with, and its core type.
type Behind<'a> = (Filler<'a>, Signature<'a>);
