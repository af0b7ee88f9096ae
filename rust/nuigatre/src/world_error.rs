//! Why a component has no world.

use crate::encoder::{ComponentEncoder, World};
use crate::faults::{DedupeFault, GcFault, ReadFault, numbered, parts_of};
use crate::ffi::Fault;
use crate::memory::string;
use crate::place::About;
use crate::read::{Backquoted, Unread};
use crate::refused::Refused;
use std::error;
use std::fmt::{self, Display, Formatter};

/// Why a component has no world, and where. Its text has all names that the fault carries, with escapes for what is not
/// printed, and the path to what is wrong in the JSON of the worlds.
///
/// [`Error`](crate::Error) has an example.
pub type WorldError = Refused<WorldFault>;

/// The number of the encoder's fault that no world is at the index.
const UNKNOWN_WORLD: u32 = 1;

/// The number of the fault of JSON that a text is none.
const NOT_JSON: u32 = 1;

/// Why a component has no world. Of several causes the first in this order is named, and of several keys the first, those
/// of the main module before those of adapters; but a key that is given twice after all that are unknown or of several
/// exports.
///
/// [`Error`](crate::Error) has an example.
#[derive(Clone, Debug, PartialEq, Eq, Hash)]
#[non_exhaustive]
pub enum WorldFault {
    /// The JSON of the worlds is not what it has to be.
    Json(JsonFault),
    /// No world has this name. The place of the error has those that there are.
    UnknownWorld(String),
    /// No world is at this index.
    UnknownIndex(u32),
    /// Several worlds have this name. The place of the error has all that there are.
    SeveralWorlds(String),
    /// The world is given by its name, and a world says to be of a package that is not there.
    PackageRange,
    /// The worlds, interfaces, types and packages are not well-formed.
    Resolve(ResolveFault),
    /// A module has to export this key, and the world has no export with it.
    UnknownKey(String),
    /// A module has to export this key, which has no version, and several exports of the world have it but for theirs.
    SeveralKeys(String),
    /// This key is given twice, for one module or for two, in whichever forms.
    RepeatedKey(String),
    /// Two adapters have this name.
    AdapterTwice(String),
    /// The main module's imports could not be renamed.
    Dedupe(DedupeFault),
    /// The parts are no encoder's.
    Encoder(EncoderFault),
    /// The main module is refused.
    Main(ValidateFault),
    /// The adapter of this name is refused, as it is or, if it is a library, as a library.
    Adapter(String, ValidateFault),
    /// The adapter of this name can't be trimmed.
    Trim(String, GcFault),
    /// The adapter of this name is refused after it was trimmed.
    Minimized(String, ValidateFault),
    /// The memory that an adapter imports has pages of another size than the main module's memory.
    PageSize,
    /// Of a plan alone: a function needs what is not there.
    Plan(PlanFault),
    /// Of paths alone ([`paths_to_json`](crate::ComponentEncoder::paths_to_json)): the world imports nothing that this key asks
    /// about. The place of the error has what it imports.
    UnknownImport(String),
    /// Of paths and of what is imported alone: an adapter can't be searched. None that could be trimmed is known to have such a
    /// fault.
    Ways(GcFault),
}

/// A mistake in JSON.
///
/// [`Error`](crate::Error) has an example.
#[derive(Clone, Debug, PartialEq, Eq, Hash)]
#[non_exhaustive]
pub enum JsonFault {
    /// The text is not JSON, or not one value of it.
    #[non_exhaustive]
    NotJson {
        /// The byte of the JSON of the worlds at which the first piece begins that JSON can't have there, or the comma is; its
        /// length, where it ends too early.
        position: usize,
    },
    /// An object has two members of one name.
    #[non_exhaustive]
    RepeatedMember {
        /// The path in the JSON of the worlds to the first member whose object has one of its name before.
        path: String,
    },
    /// A value is not what it has to be.
    #[non_exhaustive]
    Wrong {
        /// The path to it in the JSON of the worlds, as `interfaces[0].functions["f"].kind`; empty for the whole.
        path: String,
        /// The mistake in it.
        problem: Problem,
    },
}

numbered! {
    /// A mistake in a JSON value.
    Problem {
        /// An object has no member of a name that has to be there.
        Missing = 0 "missing",
        /// The value is not an object.
        NotAnObject = 1 "not an object",
        /// The value is an object that should have exactly one member, and has none or several.
        NotOneMember = 2 "not an object of one member",
        /// The value is not a list.
        NotAList = 3 "not a list",
        /// The value is not a text.
        NotAText = 4 "not a text",
        /// The value is not a number of decimal digits alone, below 2^32.
        NotAnIndex = 5 "not an index",
        /// The text, or the name of an object's only member, is none that the format has here.
        Unknown = 6 "unknown",
        /// A kind of type that the format has and this layer leaves out: `fixed-length-list`, `fixed-size-list`, `map`
        /// or `unknown`.
        LeftOut = 7 "kind of type that is left out",
        /// A member of an older form of the format, which means something that would be lost: `results`.
        Outdated = 8 "member of an older form",
        /// The text is neither `namespace:name` nor `namespace:name@version`.
        NotAPackageName = 9 "not a package name",
        /// The value is neither true nor false.
        NotABool = 10 "not a truth value",
    }
}

numbered! {
    /// A rule that worlds, interfaces, types or packages break.
    ResolveFault {
        /// An id is not in range: it is no index of its list.
        IdRange = 1,
        /// A type refers to itself, directly or through others. Handles refer to their resources, aliases to their
        /// targets.
        Cycle = 2,
        /// A resource has no name; or an interface that is a key of a world, or is listed in a package, has no name or
        /// no package.
        Unnamed = 3,
        /// The key of an item of a world is another interface than the item, or an interface where the item is a
        /// function or a type; or a function, a type, or an interface of a package is listed under another name than
        /// its own.
        KeyMismatch = 4,
        /// Two packages have the same namespace, name and version, build included. Keys of a map are never equal.
        NameClash = 5,
        /// A name is empty, or has a character that is no ASCII letter, no digit and no `-`, and in the name of a
        /// function none of `[`, `]` and `.` either. Checked are plain keys, names of interfaces, functions, types and
        /// packages, and namespaces; names of worlds, parameters, fields, cases and labels, and external ids, are not.
        BadCharacter = 6,
        /// A parameter, a result, or a type that a type contains by value (a field, item, element or payload) is a
        /// resource or an alias of one.
        ByValueResource = 7,
        /// A variant or an enum has no cases, or flags have no labels.
        Empty = 8,
    }
}

numbered! {
    /// Why parts are no encoder's.
    EncoderFault {
        /// The world doesn't export a key of `main_module_exports`, or of an adapter's `required_exports`. Here that is
        /// [`WorldFault::UnknownKey`].
        NotAnExport = 2,
        /// The world exports a type.
        TypeExported = 3,
        /// The world exports one interface under two keys.
        InterfaceTwice = 4,
        /// An interface that the world exports depends directly on one that is exported after it under its own id.
        DependencyLater = 5,
        /// Two imports of the world have one name.
        ImportNameClash = 6,
    }
}

numbered! {
    /// Why a component's world has no plan.
    PlanFault {
        /// The options of a function have a memory, and the main module neither imports nor exports one.
        NoMemory = 1,
        /// The options of a function have a realloc, and its module exports none for the results of imports.
        NoRealloc = 2,
    }
}

/// Why a core module is refused.
///
/// [`Error`](crate::Error) has an example.
#[derive(Clone, Debug, PartialEq, Eq, Hash)]
#[non_exhaustive]
pub enum ValidateFault {
    /// The bytes are neither a module nor a component.
    Read(ReadFault),
    /// The bytes begin with a component's header.
    NotAModule,
    /// An import that has to be a function is none.
    NotAFunction,
    /// A function's type is not the one that its name fixes.
    SignatureMismatch,
    /// The world imports nothing of this name.
    NoRootImport,
    /// The world imports something of this name that is no function.
    RootNotFunction,
    /// The name of a module doesn't begin as the standard scheme's names do.
    BadSyntax,
    /// The name of a module is about no interface that the world imports or exports.
    UnknownInterface,
    /// A name is none of the built-ins for an exported interface.
    UnknownIntrinsic,
    /// An imported interface has no function, and no built-in, of this name.
    MissingFunction,
    /// The function whose `task.return` is imported is not exported.
    NoSuchExport,
    /// A module's name stands for two modules of the component.
    WholeDiffers,
    /// A module's name stands for a module of the component, and for single items too.
    Mixed,
    /// The main module's memory is imported twice.
    SeveralMemoryImports,
    /// Two imports share a module and a name.
    DuplicateImport,
    /// A function of an adapter is imported with two types.
    AdapterTypesDiffer,
    /// Two memories are exported.
    SeveralMemoryExports,
    /// An asynchronous function is exported without its callback.
    MissingCallback,
    /// A function of an interface that has to be exported is not.
    MissingInterfaceExport,
    /// A function of the world that has to be exported is not.
    MissingWorldExport,
    /// An adapter doesn't export a function that is imported from it.
    AdapterModuleDidNotExport(AdapterModuleDidNotExport),
    /// An adapter exports what is imported from it with another type.
    AdapterExportType,
    /// A function's type names a type of its module by an index, which means nothing in another module: that of a
    /// function which is imported from an adapter, or is imported from it by another module; or the type that a
    /// function of `env` reads or writes.
    TypedReference,
}

/// An adapter doesn't export the function of this name, which is imported from it. It is in the chain of sources of each
/// error that is about this, and can be asked for there:
///
/// ```
/// use nuigatre::AdapterModuleDidNotExport;
/// use std::error::Error;
///
/// fn missing<'a>(error: &'a (dyn Error + 'static)) -> Option<&'a AdapterModuleDidNotExport> {
///     let mut chain = std::iter::successors(Some(error), |&error| error.source());
///     chain.find_map(|error| error.downcast_ref())
/// }
/// # assert_eq!(missing(&nuigatre::Error::Memory), None);
/// ```
#[derive(Clone, Debug, PartialEq, Eq, Hash)]
pub struct AdapterModuleDidNotExport(pub String);

/// Why a core module is refused by itself, and where.
///
/// [`Error`](crate::Error) has an example.
pub type ValidateError = Refused<ValidateFault>;

/// The beginning of a message, before the worlds.
pub(crate) const BEFORE_WORLDS: &str = "{\"resolve\":";

/// The member of a message that the worlds are.
const WORLDS: &str = "resolve";

impl JsonFault {
    /// The fault of this number of a message with these worlds.
    fn from_number(number: u32, about: Option<&About>, worlds: &str) -> Result<JsonFault, Unread> {
        Ok(match (parts_of(number), about) {
            ((1, 0), Some(About::Byte(byte))) => JsonFault::NotJson {
                position: byte.saturating_sub(BEFORE_WORLDS.len()).min(worlds.len()),
            },
            ((2, 0), Some(About::Path(path))) => JsonFault::RepeatedMember {
                path: path_in_worlds(path)?,
            },
            ((3, carried), Some(About::Path(path))) => JsonFault::Wrong {
                path: path_in_worlds(path)?,
                problem: Problem::from_number(carried)?,
            },
            _ => return Err(Unread::Unknown),
        })
    }
}

/// A path of the message, from the worlds on, in which it is.
fn path_in_worlds(path: &str) -> Result<String, Unread> {
    let path = path.strip_prefix(WORLDS).ok_or(Unread::Unknown)?;
    Ok(string(path.strip_prefix('.').unwrap_or(path))?)
}

impl ValidateFault {
    /// The fault of this number.
    fn from_number(number: u32, about: Option<&About>) -> Result<ValidateFault, Unread> {
        Ok(match parts_of(number) {
            (1, carried) => ValidateFault::Read(ReadFault::from_number(carried)?),
            (2, 0) => ValidateFault::NotAModule,
            (3, 0) => ValidateFault::NotAFunction,
            (4, 0) => ValidateFault::SignatureMismatch,
            (5, 0) => ValidateFault::NoRootImport,
            (6, 0) => ValidateFault::RootNotFunction,
            (7, 0) => ValidateFault::BadSyntax,
            (8, 0) => ValidateFault::UnknownInterface,
            (9, 0) => ValidateFault::UnknownIntrinsic,
            (10, 0) => ValidateFault::MissingFunction,
            (11, 0) => ValidateFault::NoSuchExport,
            (12, 0) => ValidateFault::WholeDiffers,
            (13, 0) => ValidateFault::Mixed,
            (14, 0) => ValidateFault::SeveralMemoryImports,
            (15, 0) => ValidateFault::DuplicateImport,
            (16, 0) => ValidateFault::AdapterTypesDiffer,
            (17, 0) => ValidateFault::SeveralMemoryExports,
            (18, 0) => ValidateFault::MissingCallback,
            (19, 0) => ValidateFault::MissingInterfaceExport,
            (20, 0) => ValidateFault::MissingWorldExport,
            (21, 0) => {
                let name = about.and_then(About::missing_export);
                let name = string(name.ok_or(Unread::Unknown)?)?;
                ValidateFault::AdapterModuleDidNotExport(AdapterModuleDidNotExport(name))
            }
            (22, 0) => ValidateFault::AdapterExportType,
            (23, 0) => ValidateFault::TypedReference,
            _ => return Err(Unread::Unknown),
        })
    }
}

/// The error of a fault that the archive answered to the message of an encoder.
pub(crate) fn world_error(
    answered: &Fault,
    encoder: &ComponentEncoder<'_>,
) -> Result<WorldError, Unread> {
    let about = answered.about()?;
    let fault = WorldFault::from_number(answered.number, about.as_ref(), encoder)?;
    Ok(Refused::new(fault, about.and_then(About::into_place))?)
}

/// The error of worlds that are no value of JSON, of the archive's answer to them alone.
pub(crate) fn not_json(answered: &Fault) -> Result<WorldError, Unread> {
    match (parts_of(answered.number), answered.about()?) {
        ((2, NOT_JSON), Some(About::Byte(position))) => {
            let fault = WorldFault::Json(JsonFault::NotJson { position });
            Ok(Refused::new(fault, None)?)
        }
        _ => Err(Unread::Unknown),
    }
}

impl WorldFault {
    /// The fault of this number, of the message of an encoder.
    fn from_number(
        number: u32,
        about: Option<&About>,
        encoder: &ComponentEncoder<'_>,
    ) -> Result<WorldFault, Unread> {
        Ok(match (parts_of(number), about) {
            ((2, carried), about) => {
                let worlds = encoder.resolve.text();
                WorldFault::Json(JsonFault::from_number(carried, about, worlds)?)
            }
            ((3, 0), Some(About::Worlds { name, .. })) => WorldFault::UnknownWorld(string(name)?),
            ((5, carried), _) => WorldFault::Resolve(ResolveFault::from_number(carried)?),
            ((6, 0), about) => WorldFault::AdapterTwice(adapter_of(about)?),
            ((7, carried), _) => WorldFault::Dedupe(DedupeFault::from_number(carried)?),
            ((8, UNKNOWN_WORLD), _) => match encoder.world {
                World::Index(index) => WorldFault::UnknownIndex(index),
                World::Name(_) => return Err(Unread::Unknown),
            },
            ((8, carried), _) => WorldFault::Encoder(EncoderFault::from_number(carried)?),
            ((9, carried), about) => WorldFault::of_module(carried, about)?,
            ((10, carried), _) => WorldFault::Plan(PlanFault::from_number(carried)?),
            ((11, 0), Some(About::Worlds { name, .. })) => WorldFault::SeveralWorlds(string(name)?),
            ((12, 0), _) => WorldFault::PackageRange,
            ((13, 0), Some(About::Key(key))) => WorldFault::UnknownKey(string(key)?),
            ((14, 0), Some(About::Key(key))) => WorldFault::SeveralKeys(string(key)?),
            ((15, 0), Some(About::Key(key))) => WorldFault::RepeatedKey(string(key)?),
            ((16, 0), Some(About::Imports { key, .. })) => WorldFault::UnknownImport(string(key)?),
            ((17, carried), _) => WorldFault::Ways(GcFault::from_number(carried, None)?),
            _ => return Err(Unread::Unknown),
        })
    }

    /// The fault of this number of a module.
    fn of_module(number: u32, about: Option<&About>) -> Result<WorldFault, Unread> {
        let (own, carried) = parts_of(number);
        let refused = || ValidateFault::from_number(carried, about);
        Ok(match own {
            1 => WorldFault::Main(refused()?),
            2 => WorldFault::Adapter(adapter_of(about)?, refused()?),
            3 => {
                let missing = about.and_then(About::missing_export);
                WorldFault::Trim(adapter_of(about)?, GcFault::from_number(carried, missing)?)
            }
            4 => WorldFault::Minimized(adapter_of(about)?, refused()?),
            5 if carried == 0 => WorldFault::PageSize,
            _ => return Err(Unread::Unknown),
        })
    }
}

/// The name of the adapter that a fault is about.
fn adapter_of(about: Option<&About>) -> Result<String, Unread> {
    let name = about.and_then(About::adapter);
    Ok(string(name.ok_or(Unread::Unknown)?)?)
}

impl Display for WorldFault {
    fn fmt(&self, f: &mut Formatter<'_>) -> fmt::Result {
        match self {
            WorldFault::Json(fault) => write!(f, "Json: {fault}"),
            WorldFault::UnknownWorld(name) => write!(f, "UnknownWorld {}", Backquoted(name)),
            WorldFault::UnknownIndex(index) => write!(f, "UnknownIndex {index}"),
            WorldFault::SeveralWorlds(name) => write!(f, "SeveralWorlds {}", Backquoted(name)),
            WorldFault::PackageRange => f.write_str("PackageRange"),
            WorldFault::Resolve(fault) => write!(f, "Resolve: {fault}"),
            WorldFault::UnknownKey(key) => write!(f, "UnknownKey {}", Backquoted(key)),
            WorldFault::SeveralKeys(key) => write!(f, "SeveralKeys {}", Backquoted(key)),
            WorldFault::RepeatedKey(key) => write!(f, "RepeatedKey {}", Backquoted(key)),
            WorldFault::AdapterTwice(name) => write!(f, "AdapterTwice {}", Backquoted(name)),
            WorldFault::Dedupe(fault) => write!(f, "Main module: {fault}"),
            WorldFault::Encoder(fault) => write!(f, "Encoder: {fault}"),
            WorldFault::Main(fault) => write!(f, "World: Main: {fault}"),
            WorldFault::Adapter(name, fault) => {
                write!(f, "World: Adapter {}: {fault}", Backquoted(name))
            }
            WorldFault::Trim(name, fault) => {
                write!(f, "World: Trim {}: {fault}", Backquoted(name))
            }
            WorldFault::Minimized(name, fault) => {
                write!(f, "World: Minimized {}: {fault}", Backquoted(name))
            }
            WorldFault::PageSize => f.write_str("World: PageSize"),
            WorldFault::Plan(fault) => write!(f, "Plan: {fault}"),
            WorldFault::UnknownImport(key) => write!(f, "UnknownImport {}", Backquoted(key)),
            WorldFault::Ways(fault) => write!(f, "Ways: {fault}"),
        }
    }
}

impl Display for JsonFault {
    fn fmt(&self, f: &mut Formatter<'_>) -> fmt::Result {
        match self {
            JsonFault::NotJson { position } => write!(f, "not JSON at byte {position}"),
            JsonFault::RepeatedMember { path } => write!(f, "{path}: repeated member"),
            JsonFault::Wrong { path, problem } if path.is_empty() => write!(f, "{problem}"),
            JsonFault::Wrong { path, problem } => write!(f, "{path}: {problem}"),
        }
    }
}

impl Display for ValidateFault {
    fn fmt(&self, f: &mut Formatter<'_>) -> fmt::Result {
        match self {
            ValidateFault::Read(fault) => write!(f, "Read: {fault}"),
            ValidateFault::AdapterModuleDidNotExport(fault) => write!(f, "{fault}"),
            fault => write!(f, "{fault:?}"),
        }
    }
}

impl Display for AdapterModuleDidNotExport {
    fn fmt(&self, f: &mut Formatter<'_>) -> fmt::Result {
        write!(f, "adapter module did not export {}", Backquoted(&self.0))
    }
}

impl error::Error for WorldFault {
    /// An [`AdapterModuleDidNotExport`], if the fault is that.
    fn source(&self) -> Option<&(dyn error::Error + 'static)> {
        match self {
            WorldFault::Main(fault)
            | WorldFault::Adapter(_, fault)
            | WorldFault::Minimized(_, fault) => fault.source(),
            _ => None,
        }
    }
}

impl error::Error for JsonFault {}

impl error::Error for ValidateFault {
    /// An [`AdapterModuleDidNotExport`], if the fault is that.
    fn source(&self) -> Option<&(dyn error::Error + 'static)> {
        match self {
            ValidateFault::AdapterModuleDidNotExport(fault) => Some(fault),
            _ => None,
        }
    }
}

impl error::Error for AdapterModuleDidNotExport {}
