//! Trimming of adapters, and why they import what they do.

use crate::error::Error;
use crate::faults::trim_error;
use crate::ffi::{self, Answered, Slice, TrimArguments};
use crate::json::Value;
use crate::memory::{collect, fitted, push, string};
use crate::read::{Read, Unread, list, member, optional};
use std::fmt::{self, Display, Formatter};
use std::str;

/// How many bytes a trimmed adapter may have beside those of the adapter, and of the realloc's name, before a call is
/// made twice: those of the code that is added.
const ADDED: usize = 1024;

/// The largest exponent of a page's bytes.
const MAX_PAGE_SIZE_LOG2: u32 = 16;

/// Trims an adapter: its exports of the names `required`, and what they reach, under new indices. A repeated name
/// counts once. The names may be those of any collection of texts, `["write"]` or the set of another crate.
///
/// The main module exports a realloc of the name `main_module_realloc`, if there is one, and its memory has pages of
/// 2^`page_size_log2` bytes; 16 is the usual exponent. Imported reallocs take that name, or are replaced by a function
/// that grows memory; where the adapter has a stack pointer, code is added that allocates its stack.
///
/// # Errors
///
/// - `NothingRequired`, `LargePageSize`: `required` is empty, or else `page_size_log2` is more than 16.
/// - `Trim`: the adapter is no module, or has what is not supported. The error has [a place](Error::place).
/// - `Memory`: an allocation failed.
/// - `OtherVersion`: the library is of another version than this crate.
pub fn run(
    wasm: &[u8],
    required: impl IntoIterator<Item = impl AsRef<str>>,
    main_module_realloc: Option<&str>,
    page_size_log2: u32,
) -> Result<Vec<u8>, Error> {
    let required = collect(required)?;
    let names = collect(required.iter().map(AsRef::as_ref))?;
    run_on(wasm, &names, main_module_realloc, page_size_log2)
}

fn run_on(
    wasm: &[u8],
    required: &[&str],
    main_module_realloc: Option<&str>,
    page_size_log2: u32,
) -> Result<Vec<u8>, Error> {
    if required.is_empty() {
        return Err(Error::NothingRequired);
    }
    if page_size_log2 > MAX_PAGE_SIZE_LOG2 {
        return Err(Error::LargePageSize);
    }
    let names = collect(required.iter().map(|name| Slice::new(name.as_bytes())))?;
    let arguments = TrimArguments {
        wasm,
        required: &names,
        realloc: main_module_realloc,
        page_size_log2,
    };
    let room = wasm.len() + main_module_realloc.unwrap_or_default().len() + ADDED;
    match ffi::trim(arguments, room)? {
        Answered::Bytes { bytes, .. } => Ok(fitted(bytes)),
        Answered::Same | Answered::BadArgument => Err(Error::OtherVersion),
        Answered::Fault(fault) => {
            let missing = required.get(fault.position).copied();
            Err(Error::Trim(trim_error(&fault, missing)?))
        }
    }
}

/// How many bytes of a first buffer for chains are for each byte of the adapter.
const PER_BYTE: usize = 4;

/// A space of indices that the items of a module have.
///
/// [`gc::why`](crate::gc::why) has an example.
#[derive(Clone, Copy, Debug, PartialEq, Eq, Hash)]
#[non_exhaustive]
pub enum Space {
    /// Types.
    Type,
    /// Functions, imported ones first.
    Func,
    /// Tables, imported ones first.
    Table,
    /// Memories, imported ones first.
    Memory,
    /// Globals, imported ones first.
    Global,
}

impl Display for Space {
    fn fmt(&self, f: &mut Formatter<'_>) -> fmt::Result {
        f.write_str(match self {
            Space::Type => "type",
            Space::Func => "func",
            Space::Table => "table",
            Space::Memory => "memory",
            Space::Global => "global",
        })
    }
}

/// An item of an adapter. Its text is as `func 3`.
///
/// [`gc::why`](crate::gc::why) has an example.
#[derive(Clone, Copy, Debug, PartialEq, Eq, Hash)]
#[non_exhaustive]
pub struct ItemIndex {
    /// The space that it is in.
    pub space: Space,
    /// Its index in this space.
    pub index: u32,
}

impl Display for ItemIndex {
    fn fmt(&self, f: &mut Formatter<'_>) -> fmt::Result {
        write!(f, "{} {}", self.space, self.index)
    }
}

/// The shortest chain from a required export of an adapter to an import. Of several the first, by the order of the
/// required names, and then by the order in which each item names others.
///
/// [`gc::why`](crate::gc::why) has an example.
#[derive(Clone, Debug, PartialEq, Eq, Hash)]
#[non_exhaustive]
pub struct Chain {
    /// The required export that names the first item: of several the first.
    pub export: String,
    /// The items, each named by the one before it. The last is the import.
    pub items: Vec<ItemIndex>,
}

/// The chains to all imports of an adapter that its required exports reach, as a tree, which is linear in the adapter;
/// one chain at a time is taken from it.
///
/// [`gc::why`](crate::gc::why) has an example.
#[derive(Clone, Debug, PartialEq, Eq)]
pub struct Chains {
    items: Vec<ItemIndex>,
    finders: Vec<usize>,
    exports: Vec<String>,
    imports: Vec<Option<usize>>,
}

impl Chains {
    /// How many imports the adapter has.
    #[must_use]
    pub fn len(&self) -> usize {
        self.imports.len()
    }

    /// Whether it has none.
    #[must_use]
    pub fn is_empty(&self) -> bool {
        self.imports.is_empty()
    }

    /// The chain to the import of this number, in the order of the adapter's bytes; `None` where no required export
    /// reaches it, and where there are fewer imports.
    ///
    /// # Errors
    ///
    /// - `Memory`: an allocation failed.
    /// - `OtherVersion`: the library is of another version than this crate.
    pub fn of_import(&self, number: usize) -> Result<Option<Chain>, Error> {
        let Some(Some(position)) = self.imports.get(number) else {
            return Ok(None);
        };
        Ok(Some(self.chain(*position)?))
    }

    /// The chain to the item at a position. Each finder is before what it found.
    fn chain(&self, position: usize) -> Result<Chain, Unread> {
        let mut items = Vec::new();
        let mut at = position;
        loop {
            push(&mut items, *self.items.get(at).ok_or(Unread::Unknown)?)?;
            let finder = *self.finders.get(at).ok_or(Unread::Unknown)?;
            if finder >= at {
                break;
            }
            at = finder;
        }
        items.reverse();
        Ok(Chain {
            export: string(self.exports.get(at).ok_or(Unread::Unknown)?)?,
            items,
        })
    }
}

/// Why an adapter imports what it does: for each import that its exports of the names `required` reach the shortest chain
/// from one of these to it. The chains are those of the adapter as it is; [`run`] keeps the imports that have one, and may
/// exchange or add some for a realloc.
///
/// ```
/// use nuigatre::gc;
///
/// // imports `f` of `env`, as the function 0; the function 1 calls it, and the function 2, which is exported as `b`, calls 1
/// let adapter = b"\0asm\x01\0\0\0\x01\x04\x01\x60\0\0\x02\x09\x01\x03env\x01f\0\0\x03\x03\x02\0\0\x07\x05\x01\x01b\0\x02\x0a\x0b\x02\x04\0\x10\0\x0b\x04\0\x10\x01\x0b";
/// let chain = gc::why(adapter, ["b"])?.of_import(0)?.expect("it is reached");
/// assert_eq!(chain.export, "b");
/// let items: Vec<String> = chain.items.iter().map(ToString::to_string).collect();
/// assert_eq!(items, ["func 2", "func 1", "func 0"]);
/// # Ok::<(), nuigatre::Error>(())
/// ```
///
/// # Errors
///
/// - `Trim`: the adapter is no module, a required name is not exported, or what it has is not supported, as of [`run`].
/// - `Memory`: an allocation failed.
/// - `OtherVersion`: the library is of another version than this crate.
pub fn why(
    wasm: &[u8],
    required: impl IntoIterator<Item = impl AsRef<str>>,
) -> Result<Chains, Error> {
    let required = collect(required)?;
    let names = collect(required.iter().map(AsRef::as_ref))?;
    why_of(wasm, &names)
}

fn why_of(wasm: &[u8], required: &[&str]) -> Result<Chains, Error> {
    let names = collect(required.iter().map(|name| Slice::new(name.as_bytes())))?;
    match ffi::why(wasm, &names, PER_BYTE * wasm.len() + ADDED)? {
        Answered::Bytes { bytes, .. } => Ok(read_chains(&bytes)?),
        Answered::Same | Answered::BadArgument => Err(Error::OtherVersion),
        Answered::Fault(fault) => {
            let missing = required.get(fault.position).copied();
            Err(Error::Trim(trim_error(&fault, missing)?))
        }
    }
}

/// The chains of this text, which the archive wrote.
fn read_chains(text: &[u8]) -> Result<Chains, Unread> {
    let value = Value::parse(str::from_utf8(text).map_err(|_| Unread::Unknown)?)?;
    Ok(Chains {
        items: member(&value, "items")?,
        finders: member(&value, "finders")?,
        exports: member(&value, "exports")?,
        imports: list(&value, "imports", optional)?,
    })
}

impl Read for Space {
    fn read(value: &Value<'_>) -> Result<Self, Unread> {
        Ok(match value.as_str()? {
            "type" => Space::Type,
            "func" => Space::Func,
            "table" => Space::Table,
            "memory" => Space::Memory,
            "global" => Space::Global,
            _ => return Err(Unread::Unknown),
        })
    }
}

impl Read for ItemIndex {
    fn read(value: &Value<'_>) -> Result<Self, Unread> {
        Ok(ItemIndex {
            space: member(value, "space")?,
            index: member(value, "index")?,
        })
    }
}
