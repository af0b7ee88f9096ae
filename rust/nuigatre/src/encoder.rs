//! The parts from which a component is encoded.

use crate::core_types::ExportKind;
use crate::error::Error;
use crate::json::{Value, put_list, put_string};
use crate::memory::{OutOfMemory, Text, collect, concat};
use crate::read::{Read, Unread, list, member};
use crate::required_options::RequiredOptions;
use crate::resolved::Worlds;
use crate::world_error::BEFORE_WORLDS;
use std::borrow::Cow;
use std::fmt::{self, Display, Formatter};

/// The main module, or the adapter of this name. Its text is as `main` or `adapter old`.
///
/// [`ComponentWorld::new`](crate::ComponentWorld::new) has an example.
#[derive(Clone, Debug, PartialEq, Eq, Hash)]
pub enum MainOrAdapter {
    /// The main module.
    Main,
    /// An adapter.
    Adapter(String),
}

/// An export of a module, as a library gets it.
///
/// [`ComponentWorld::new`](crate::ComponentWorld::new) has an example.
#[derive(Clone, Debug, PartialEq, Eq, Hash)]
pub struct Item {
    /// The name by which the library imports it.
    pub alias: String,
    /// The module or the function.
    pub kind: ExportKind,
    /// The module that exports it.
    pub which: MainOrAdapter,
    /// The name under which it is exported.
    pub name: String,
}

/// The instance that a library gets under a module's name.
///
/// [`ComponentWorld::new`](crate::ComponentWorld::new) has an example.
#[derive(Clone, Debug, PartialEq, Eq, Hash)]
pub enum Instance {
    /// All exports of a module.
    MainOrAdapter(MainOrAdapter),
    /// Items.
    Items(Vec<Item>),
}

/// How a library is instantiated.
///
/// [`ComponentWorld::new`](crate::ComponentWorld::new) has an example.
#[derive(Clone, Debug, Default, PartialEq, Eq, Hash)]
pub struct LibraryInfo {
    /// The instances that it gets, by the names of the modules that it imports from.
    pub arguments: Vec<(String, Instance)>,
    /// Whether it is instantiated after the shims.
    pub instantiate_after_shims: bool,
}

/// An adapter or a library.
///
/// [`ComponentWorld::new`](crate::ComponentWorld::new) has an example.
#[derive(Clone, Debug)]
#[non_exhaustive]
pub struct Adapter<'a> {
    /// Its name.
    pub name: &'a str,
    /// Its module.
    pub wasm: &'a [u8],
    /// The keys of the world's exports that it has to export. [`ComponentEncoder::main_module_exports`] says what a key is.
    pub required_exports: Vec<&'a str>,
    /// How it is instantiated, if it is a library.
    pub library_info: Option<LibraryInfo>,
}

impl<'a> Adapter<'a> {
    /// An adapter of this name and module, which has to export nothing.
    #[must_use]
    pub fn new(name: &'a str, wasm: &'a [u8]) -> Self {
        Adapter {
            name,
            wasm,
            required_exports: Vec::new(),
            library_info: None,
        }
    }
}

/// The canonical options of functions of a name where they are lowered.
///
/// [`ComponentWorld::new`](crate::ComponentWorld::new) has an example.
#[derive(Clone, Copy, Debug, PartialEq, Eq)]
#[non_exhaustive]
pub struct ImportOptions<'a> {
    /// The functions' name in WIT, in whichever interfaces they are: `[method]output-stream.write`.
    pub name: &'a str,
    /// Their options, also where they are imported asynchronously.
    pub options: RequiredOptions,
}

impl<'a> ImportOptions<'a> {
    /// These options for the functions of this name.
    #[must_use]
    pub fn new(name: &'a str, options: RequiredOptions) -> Self {
        ImportOptions { name, options }
    }
}

/// Which world a component is encoded for.
///
/// [`ComponentWorld::new`](crate::ComponentWorld::new) has an example.
#[derive(Clone, Copy, Debug, PartialEq, Eq, Hash)]
#[non_exhaustive]
pub enum World<'a> {
    /// That at an index.
    Index(u32),
    /// The only one of a name: `wasi:cli/command@0.2.6`, or without the version, or `command`. A name that several worlds
    /// have is refused.
    Name(&'a str),
}

impl From<u32> for World<'_> {
    fn from(index: u32) -> Self {
        World::Index(index)
    }
}

impl<'a> From<&'a str> for World<'a> {
    fn from(name: &'a str) -> Self {
        World::Name(name)
    }
}

impl<'a> From<&'a String> for World<'a> {
    fn from(name: &'a String) -> Self {
        World::Name(name)
    }
}

/// The parts from which a component is encoded: worlds, a main module, and adapters and libraries beside it.
///
/// [`ComponentWorld::new`](crate::ComponentWorld::new) has an example.
#[derive(Clone, Debug)]
#[non_exhaustive]
pub struct ComponentEncoder<'a> {
    /// The worlds.
    pub resolve: Worlds<'a>,
    /// The world that the component is encoded for.
    pub world: World<'a>,
    /// The main module. Its repeated imports are renamed.
    pub module: &'a [u8],
    /// The keys of the world's exports that the main module has to export; `None` for all that no adapter has to.
    ///
    /// A key is a plain name (`run`), or the id of an interface: `wasi:cli/run@0.2.6`, or `wasi:cli/run` where one export
    /// alone has this id but for its version. An interface that is exported under its own id may be given by its index
    /// among all interfaces too, as in the JSON: `interface-27`, which is that interface alone, also where another export has
    /// its id. Each key is given once, for one module.
    pub main_module_exports: Option<Vec<&'a str>>,
    /// Adapters and libraries.
    pub adapters: Vec<Adapter<'a>>,
    /// Whether names of the older scheme are refused.
    pub reject_legacy_names: bool,
    /// Whether adapters grow memory for themselves, in place of calling the main module's realloc.
    pub realloc_via_memory_grow: bool,
    /// The name of the export that is the task hook; with `None` no export is taken for it.
    pub task_hook: Option<&'a str>,
    /// Functions that have other options where they are lowered than those that their parameters and results need. Of
    /// several entries of one name the first counts, and an entry of no function's name says nothing.
    pub import_options: Vec<ImportOptions<'a>>,
}

impl<'a> ComponentEncoder<'a> {
    /// An encoder for this world of these, without adapters and flags, whose main module has to export all that no
    /// adapter has to. The worlds are a [`Resolved`](crate::Resolved) or their JSON, and the world is given by its name or
    /// its index.
    #[must_use]
    pub fn new(
        resolve: impl Into<Worlds<'a>>,
        world: impl Into<World<'a>>,
        module: &'a [u8],
    ) -> Self {
        ComponentEncoder {
            resolve: resolve.into(),
            world: world.into(),
            module,
            main_module_exports: None,
            adapters: Vec::new(),
            reject_legacy_names: false,
            realloc_via_memory_grow: false,
            task_hook: None,
            import_options: Vec::new(),
        }
    }

    /// The question to the archive: the message, and the bytes of all modules.
    pub(crate) fn question(&self) -> Result<(String, Cow<'_, [u8]>), Error> {
        let adapters = collect(self.adapters.iter().map(AskedAdapter::of))?;
        let asked = Asked {
            encoder: self,
            module: self.module,
            exports: self.main_module_exports.as_deref(),
            adapters: &adapters,
        };
        let adapters = self.adapters.iter().map(|adapter| adapter.wasm);
        Ok((asked.message()?, modules_of(self.module, adapters)?))
    }
}

/// An encoder with another main module, other keys that this has to export, and other adapters and libraries.
#[derive(Clone, Copy)]
pub(crate) struct Asked<'a> {
    pub(crate) encoder: &'a ComponentEncoder<'a>,
    pub(crate) module: &'a [u8],
    pub(crate) exports: Option<&'a [&'a str]>,
    pub(crate) adapters: &'a [AskedAdapter<'a>],
}

/// An adapter or a library.
#[derive(Clone, Copy)]
pub(crate) struct AskedAdapter<'a> {
    pub(crate) name: &'a str,
    pub(crate) wasm: &'a [u8],
    pub(crate) exports: &'a [&'a str],
    pub(crate) library: Option<&'a LibraryInfo>,
}

impl<'a> AskedAdapter<'a> {
    pub(crate) fn of(adapter: &'a Adapter<'a>) -> Self {
        AskedAdapter {
            name: adapter.name,
            wasm: adapter.wasm,
            exports: &adapter.required_exports,
            library: adapter.library_info.as_ref(),
        }
    }

    /// An adapter of this name that is not looked at.
    pub(crate) fn named(name: &'a str) -> Self {
        AskedAdapter {
            name,
            wasm: b"",
            exports: &[],
            library: None,
        }
    }
}

impl<'a> Asked<'a> {
    /// The message for the archive.
    pub(crate) fn message(&self) -> Result<String, Error> {
        let resolve = self.encoder.resolve.json()?;
        let mut out = Text::default();
        out.0
            .try_reserve(resolve.len() + 512)
            .map_err(OutOfMemory::from)?;
        self.put_message(&mut out, resolve)?;
        Ok(out.0)
    }

    fn put_message(&self, out: &mut Text, resolve: &str) -> Result<(), OutOfMemory> {
        let encoder = self.encoder;
        out.put(BEFORE_WORLDS)?;
        out.put(resolve)?;
        out.put(",\"world\":")?;
        match encoder.world {
            World::Index(index) => out.put_args(format_args!("{index}"))?,
            World::Name(name) => put_string(out, name)?,
        }
        out.put_args(format_args!(
            ",\"reject_legacy_names\":{},\"realloc_via_memory_grow\":{},\"task_hook\":",
            encoder.reject_legacy_names, encoder.realloc_via_memory_grow
        ))?;
        match encoder.task_hook {
            Some(name) => put_string(out, name)?,
            None => out.put("null")?,
        }
        put_length(out, self.module)?;
        if let Some(keys) = self.exports {
            put_exports(out, keys)?;
        }
        out.put(",\"adapters\":")?;
        put_list(out, self.adapters, put_adapter)?;
        if !encoder.import_options.is_empty() {
            out.put(",\"options\":")?;
            put_list(out, &encoder.import_options, put_options)?;
        }
        out.put("}")
    }

    /// The bytes of all modules, one after another, the main module first. Where the others have none it is not copied.
    pub(crate) fn modules(&self) -> Result<Cow<'a, [u8]>, OutOfMemory> {
        let adapters = self.adapters.iter().map(|adapter| adapter.wasm);
        modules_of(self.module, adapters)
    }
}

fn modules_of<'a>(
    main: &'a [u8],
    adapters: impl Iterator<Item = &'a [u8]> + Clone,
) -> Result<Cow<'a, [u8]>, OutOfMemory> {
    if adapters.clone().all(<[u8]>::is_empty) {
        return Ok(Cow::Borrowed(main));
    }
    Ok(Cow::Owned(concat(std::iter::once(main).chain(adapters))?))
}

fn put_options(out: &mut Text, of: &ImportOptions<'_>) -> Result<(), OutOfMemory> {
    out.put("{\"name\":")?;
    put_string(out, of.name)?;
    let has = |option| of.options.contains(option);
    out.put_args(format_args!(
        ",\"memory\":{},\"realloc\":{},\"string_encoding\":{},\"async\":{}}}",
        has(RequiredOptions::MEMORY),
        has(RequiredOptions::REALLOC),
        has(RequiredOptions::STRING_ENCODING),
        has(RequiredOptions::ASYNC)
    ))
}

fn put_length(out: &mut Text, module: &[u8]) -> Result<(), OutOfMemory> {
    out.put_args(format_args!(",\"length\":{}", module.len()))
}

fn put_exports(out: &mut Text, keys: &[&str]) -> Result<(), OutOfMemory> {
    out.put(",\"exports\":")?;
    put_list(out, keys, |out, key| put_string(out, key))
}

fn put_adapter(out: &mut Text, adapter: &AskedAdapter<'_>) -> Result<(), OutOfMemory> {
    out.put("{\"name\":")?;
    put_string(out, adapter.name)?;
    put_length(out, adapter.wasm)?;
    put_exports(out, adapter.exports)?;
    if let Some(library) = adapter.library {
        out.put(",\"library_info\":")?;
        put_library(out, library)?;
    }
    out.put("}")
}

fn put_library(out: &mut Text, library: &LibraryInfo) -> Result<(), OutOfMemory> {
    out.put("{\"arguments\":")?;
    put_list(out, &library.arguments, |out, (name, instance)| {
        out.put("{\"name\":")?;
        put_string(out, name)?;
        out.put(",\"instance\":")?;
        put_instance(out, instance)?;
        out.put("}")
    })?;
    let after_shims = library.instantiate_after_shims;
    out.put_args(format_args!(",\"instantiate_after_shims\":{after_shims}}}"))
}

fn put_instance(out: &mut Text, instance: &Instance) -> Result<(), OutOfMemory> {
    match instance {
        Instance::MainOrAdapter(which) => {
            out.put("{\"kind\":\"module\",\"which\":")?;
            put_which(out, which)?;
        }
        Instance::Items(items) => {
            out.put("{\"kind\":\"items\",\"items\":")?;
            put_list(out, items, put_item)?;
        }
    }
    out.put("}")
}

fn put_which(out: &mut Text, which: &MainOrAdapter) -> Result<(), OutOfMemory> {
    match which {
        MainOrAdapter::Main => out.put("{\"kind\":\"main\"}"),
        MainOrAdapter::Adapter(name) => {
            out.put("{\"kind\":\"adapter\",\"name\":")?;
            put_string(out, name)?;
            out.put("}")
        }
    }
}

fn put_item(out: &mut Text, item: &Item) -> Result<(), OutOfMemory> {
    out.put("{\"alias\":")?;
    put_string(out, &item.alias)?;
    let kind = item.kind;
    out.put_args(format_args!(",\"kind\":\"{kind}\",\"which\":"))?;
    put_which(out, &item.which)?;
    out.put(",\"name\":")?;
    put_string(out, &item.name)?;
    out.put("}")
}

impl Display for MainOrAdapter {
    fn fmt(&self, f: &mut Formatter<'_>) -> fmt::Result {
        match self {
            MainOrAdapter::Main => f.write_str("main"),
            MainOrAdapter::Adapter(name) => write!(f, "adapter {name}"),
        }
    }
}

impl Read for MainOrAdapter {
    fn read(value: &Value<'_>) -> Result<Self, Unread> {
        Ok(match value.kind()? {
            "main" => MainOrAdapter::Main,
            "adapter" => MainOrAdapter::Adapter(member(value, "name")?),
            _ => return Err(Unread::Unknown),
        })
    }
}

impl Read for Item {
    fn read(value: &Value<'_>) -> Result<Self, Unread> {
        Ok(Item {
            alias: member(value, "alias")?,
            kind: member(value, "kind")?,
            which: member(value, "which")?,
            name: member(value, "name")?,
        })
    }
}

impl Read for Instance {
    fn read(value: &Value<'_>) -> Result<Self, Unread> {
        Ok(match value.kind()? {
            "module" => Instance::MainOrAdapter(member(value, "which")?),
            "items" => Instance::Items(member(value, "items")?),
            _ => return Err(Unread::Unknown),
        })
    }
}

impl Read for LibraryInfo {
    fn read(value: &Value<'_>) -> Result<Self, Unread> {
        let argument = |it: &Value<'_>| Ok((member(it, "name")?, member(it, "instance")?));
        Ok(LibraryInfo {
            arguments: list(value, "arguments", argument)?,
            instantiate_after_shims: member(value, "instantiate_after_shims")?,
        })
    }
}
