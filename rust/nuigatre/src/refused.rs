//! A fault, and what it is about.

use crate::memory::{Held, OutOfMemory};
use crate::place::{Place, Shown};
use std::error;
use std::fmt::{self, Debug, Display, Formatter};

/// Why something is refused. Its text is that of the fault. Its source is [the place](Refused::place), or an
/// [`AdapterModuleDidNotExport`](crate::AdapterModuleDidNotExport) if the fault is that.
#[derive(Clone, PartialEq, Eq)]
pub struct Refused<F> {
    fault: F,
    place: Held<Place>,
}

impl<F> Refused<F> {
    pub(crate) fn new(fault: F, place: Option<Place>) -> Result<Self, OutOfMemory> {
        Ok(Refused {
            fault,
            place: Held::of(place)?,
        })
    }

    /// The fault, and the place if there is one.
    pub(crate) fn into_parts(self) -> (F, Option<Place>) {
        (self.fault, self.place.into_option())
    }

    /// The fault.
    #[must_use]
    pub fn fault(&self) -> &F {
        &self.fault
    }

    /// The place of the fault, if it has one.
    ///
    /// Of renaming and of trimming:
    ///
    /// - of `Read` the byte at which the module stops to be right;
    /// - of [`UnsupportedSection`](crate::GcFault::UnsupportedSection) the section, and of
    ///   [`LiveBody`](crate::GcFault::LiveBody) the body of a function and, where one is at fault, its operator.
    ///
    /// Of a component:
    ///
    /// - of [`Dedupe`](crate::WorldFault::Dedupe) as of renaming, in the main module;
    /// - of [`Main`](crate::WorldFault::Main), [`Adapter`](crate::WorldFault::Adapter) and
    ///   [`Minimized`](crate::WorldFault::Minimized) an import or an export of the module, what it lacks, or a byte;
    /// - of [`Trim`](crate::WorldFault::Trim) as of trimming, in the adapter;
    /// - of [`PageSize`](crate::WorldFault::PageSize) the adapter, and both sizes;
    /// - of [`Plan`](crate::WorldFault::Plan) the function, and the module that imports it;
    /// - of [`Resolve`](crate::WorldFault::Resolve) a world, an interface, a type or a package;
    /// - of [`UnknownWorld`](crate::WorldFault::UnknownWorld) and [`SeveralWorlds`](crate::WorldFault::SeveralWorlds) the
    ///   worlds that there are;
    /// - of [`UnknownImport`](crate::WorldFault::UnknownImport) what the world imports.
    ///
    /// Of the validation of one module as of [`Main`](crate::WorldFault::Main), without the name of an adapter.
    #[must_use]
    pub fn place(&self) -> Option<&Place> {
        self.place.get()
    }
}

impl<F: Display> Display for Refused<F> {
    fn fmt(&self, f: &mut Formatter<'_>) -> fmt::Result {
        write!(f, "{}", self.fault)
    }
}

impl<F: Debug> Debug for Refused<F> {
    /// The place is there by its text.
    fn fmt(&self, f: &mut Formatter<'_>) -> fmt::Result {
        f.debug_struct("Refused")
            .field("fault", &self.fault)
            .field("place", &Shown(self.place()))
            .finish()
    }
}

impl<F: error::Error> error::Error for Refused<F> {
    /// The source of the fault, which only [`AdapterModuleDidNotExport`](crate::AdapterModuleDidNotExport) is; else
    /// [the place](Refused::place).
    fn source(&self) -> Option<&(dyn error::Error + 'static)> {
        let place = || self.place().map(|place| place as _);
        self.fault.source().or_else(place)
    }
}
