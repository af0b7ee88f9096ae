//! Imports and exports of modules, and the names of their functions.

use crate::core_types::{ExportKind, FuncType, GlobalType, MemoryType, TableType};
use crate::error::Error;
use crate::faults::read_error;
use crate::ffi::{self, Answered};
use crate::gc::{ItemIndex, Space};
use crate::json::Value;
use crate::ordered_map::OrderedMap;
use crate::read::{Read, Unread, map, member};
use std::str;

/// The type of an item of a module.
///
/// [`scan`](fn@crate::scan) has an example.
#[derive(Clone, Debug, PartialEq, Eq, Hash)]
pub enum ItemType {
    /// That of a function.
    Func(FuncType),
    /// That of a table.
    Table(TableType),
    /// That of a memory.
    Memory(MemoryType),
    /// That of a global.
    Global(GlobalType),
}

/// An import of a module.
///
/// [`scan`](fn@crate::scan) has an example.
#[derive(Clone, Debug, PartialEq, Eq, Hash)]
#[non_exhaustive]
pub struct ScannedImport {
    /// The name of the module that it comes from.
    pub module: String,
    /// Its name there.
    pub name: String,
    /// The type of its item.
    pub ty: ItemType,
}

/// An export of a module.
///
/// [`scan`](fn@crate::scan) has an example.
#[derive(Clone, Debug, PartialEq, Eq, Hash)]
#[non_exhaustive]
pub struct ScannedExport {
    /// Its name.
    pub name: String,
    /// The index of its item among all of its kind, imported ones first.
    pub index: u32,
    /// The type of its item.
    pub ty: ItemType,
}

/// The imports and exports of a module, as [`scan`] lists them.
///
/// [`scan`](fn@crate::scan) has an example.
#[derive(Clone, Debug, PartialEq, Eq)]
#[non_exhaustive]
pub struct Scan {
    /// Its imports, in order.
    pub imports: Vec<ScannedImport>,
    /// Its exports, in order.
    pub exports: Vec<ScannedExport>,
    /// The names that its name sections give functions, by their indices. An index may be past the last function.
    pub function_names: OrderedMap<u32, String>,
}

impl Scan {
    /// The name of a function, if the module has one for it. So the items of a [chain](crate::gc::Chain) get names.
    #[must_use]
    pub fn name_of(&self, item: ItemIndex) -> Option<&str> {
        let index = (item.space == Space::Func).then_some(item.index)?;
        self.function_names.get(&index).map(String::as_str)
    }
}

impl ItemType {
    /// The kind of items of this type.
    #[must_use]
    pub fn kind(&self) -> ExportKind {
        match self {
            ItemType::Func(_) => ExportKind::Func,
            ItemType::Table(_) => ExportKind::Table,
            ItemType::Memory(_) => ExportKind::Memory,
            ItemType::Global(_) => ExportKind::Global,
        }
    }
}

/// How many bytes of a first buffer are for each byte of the module, and how many there are besides.
const PER_BYTE: usize = 2;
const MORE: usize = 4096;

/// Lists what a module imports and exports, with types, and how its functions are named. Bodies of functions, elements and
/// data are not read.
///
/// ```
/// use nuigatre::{ExportKind, gc, scan};
///
/// // imports `f` of `env`, as the function 0; the function 1 calls it, and is exported as `b`; its name is `inner`
/// let adapter = b"\0asm\x01\0\0\0\x01\x04\x01\x60\0\0\x02\x09\x01\x03env\x01f\0\0\x03\x02\x01\0\x07\x05\x01\x01b\0\x01\x0a\x06\x01\x04\0\x10\0\x0b\0\x0f\x04name\x01\x08\x01\x01\x05inner";
/// let scan = scan(adapter)?;
/// let import = &scan.imports[0];
/// assert_eq!((&*import.module, &*import.name, import.ty.kind()), ("env", "f", ExportKind::Func));
/// assert_eq!((&*scan.exports[0].name, scan.exports[0].index), ("b", 1));
///
/// // the chain to the import, with names
/// let chain = gc::why(adapter, ["b"])?.of_import(0)?.expect("it is reached");
/// let names: Vec<_> = chain.items.iter().map(|item| scan.name_of(*item)).collect();
/// assert_eq!(names, [Some("inner"), None]);
/// # Ok::<(), nuigatre::Error>(())
/// ```
///
/// # Errors
///
/// - `Read`: the bytes are no module. The error has [a place](Error::place).
/// - `Memory`: an allocation failed.
/// - `OtherVersion`: the library is of another version than this crate.
pub fn scan(wasm: &[u8]) -> Result<Scan, Error> {
    let room = wasm.len().saturating_mul(PER_BYTE).saturating_add(MORE);
    match ffi::scan(wasm, room)? {
        Answered::Bytes { bytes, .. } => Ok(read_scan(&bytes)?),
        Answered::Same | Answered::BadArgument => Err(Error::OtherVersion),
        Answered::Fault(fault) => Err(Error::Read(read_error(&fault)?)),
    }
}

/// The lists of this text, which the archive wrote.
fn read_scan(text: &[u8]) -> Result<Scan, Unread> {
    let value = Value::parse(str::from_utf8(text).map_err(|_| Unread::Unknown)?)?;
    Ok(Scan {
        imports: member(&value, "imports")?,
        exports: member(&value, "exports")?,
        function_names: map(&value, "function_names", |entry| {
            Ok((member(entry, "index")?, member(entry, "name")?))
        })?,
    })
}

impl Read for ScannedImport {
    fn read(value: &Value<'_>) -> Result<Self, Unread> {
        Ok(ScannedImport {
            module: member(value, "module")?,
            name: member(value, "name")?,
            ty: ItemType::read(value)?,
        })
    }
}

impl Read for ScannedExport {
    fn read(value: &Value<'_>) -> Result<Self, Unread> {
        Ok(ScannedExport {
            name: member(value, "name")?,
            index: member(value, "index")?,
            ty: ItemType::read(value)?,
        })
    }
}

/// The members `kind` and `type` of an object.
impl Read for ItemType {
    fn read(value: &Value<'_>) -> Result<Self, Unread> {
        Ok(match member(value, "kind")? {
            ExportKind::Func => ItemType::Func(member(value, "type")?),
            ExportKind::Table => ItemType::Table(member(value, "type")?),
            ExportKind::Memory => ItemType::Memory(member(value, "type")?),
            ExportKind::Global => ItemType::Global(member(value, "type")?),
        })
    }
}
