//! Paths to the imports of modules.

use crate::error::Error;
use crate::faults::trim_error;
use crate::ffi::{self, Answered, Slice};
use crate::gc::ItemIndex;
use crate::json::Value;
use crate::memory::{OutOfMemory, collect};
use crate::read::{Read, Unread, list, member, optional_member};
use std::fmt::{self, Display, Formatter};
use std::str;

/// Where a path begins. Its text is as `export run`, `start`, `fills table 0` or `fills memory 0`.
///
/// [`paths`](fn@crate::paths) has an example.
#[derive(Clone, Debug, PartialEq, Eq, Hash)]
pub enum PathRoot {
    /// At the export of this name.
    Export(String),
    /// At the start function.
    Start,
    /// At an active element segment, which fills the table of this index.
    FillsTable(u32),
    /// At an active data segment, which fills the memory of this index.
    FillsMemory(u32),
}

impl Display for PathRoot {
    fn fmt(&self, f: &mut Formatter<'_>) -> fmt::Result {
        match self {
            PathRoot::Export(name) => write!(f, "export {name}"),
            PathRoot::Start => f.write_str("start"),
            PathRoot::FillsTable(index) => write!(f, "fills table {index}"),
            PathRoot::FillsMemory(index) => write!(f, "fills memory {index}"),
        }
    }
}

/// An item on a path. Its text is that of its kind.
///
/// [`paths`](fn@crate::paths) has an example.
#[derive(Clone, Debug, PartialEq, Eq, Hash)]
#[non_exhaustive]
pub struct PathItem {
    /// The item or segment.
    pub kind: PathItemKind,
    /// Where imports are asked for, whether it is marked: each path to any of them goes through it, and it is none of them
    /// itself. So without it no path is left to any of them. `None` where no imports are asked for.
    pub only: Option<bool>,
}

impl Display for PathItem {
    fn fmt(&self, f: &mut Formatter<'_>) -> fmt::Result {
        self.kind.fmt(f)
    }
}

/// A kind of item on a path: of an index space, or a segment. Its text is as `func 3 write_all`, `elem 0` or `data 0`.
///
/// [`paths`](fn@crate::paths) has an example.
#[derive(Clone, Debug, PartialEq, Eq, Hash)]
pub enum PathItemKind {
    /// An item of an index space.
    Item {
        /// The item.
        item: ItemIndex,
        /// Of a function the name that the module's name section gives it, if it does.
        name: Option<String>,
    },
    /// The element segment of this index.
    Elements(u32),
    /// The data segment of this index.
    Data(u32),
}

impl Display for PathItemKind {
    fn fmt(&self, f: &mut Formatter<'_>) -> fmt::Result {
        match self {
            PathItemKind::Item { item, name: None } => write!(f, "{item}"),
            PathItemKind::Item {
                item,
                name: Some(name),
            } => write!(f, "{item} {name}"),
            PathItemKind::Elements(index) => write!(f, "elem {index}"),
            PathItemKind::Data(index) => write!(f, "data {index}"),
        }
    }
}

/// The shortest path to an import. Of several the first, by the order of the exports, and then by the order in which each
/// item names others.
///
/// [`paths`](fn@crate::paths) has an example.
#[derive(Clone, Debug, PartialEq, Eq, Hash)]
#[non_exhaustive]
pub struct ImportPath {
    /// The module that it is imported from.
    pub module: String,
    /// Its name there.
    pub name: String,
    /// Where the path begins.
    pub root: PathRoot,
    /// The items, each named by the one before it. The last is the import.
    pub items: Vec<PathItem>,
}

/// How many bytes a first buffer has for each byte of the module, and how many besides.
const PER_BYTE: usize = 1;
const MORE: usize = 1 << 16;

/// Why a module imports what it does, main modules too: of each import to which a path leads that path, in the order of the
/// module. Paths begin at the exports of these names, or at all, where there are none, and at the start function; only where
/// none of these leads to an import, they begin at what an active segment fills.
///
/// Each text of `imports` asks for imports: `KEY` for those of a module or of a package of interfaces, as `wasi:io/error` and
/// `wasi:io`, each with its version or without, and `KEY=NAME` for those of them that have this name; `KEY` ends at the first
/// `=`. Without texts all are asked for. What the module does not import has no path.
///
/// ```
/// use nuigatre::paths;
///
/// // imports `f` of `env`, as the function 0; the function 1, `inner`, calls it, and the function 2, the export `b`, calls 1
/// let module = b"\0asm\x01\0\0\0\x01\x04\x01\x60\0\0\x02\x09\x01\x03env\x01f\0\0\x03\x03\x02\0\0\x07\x05\x01\x01b\0\x02\x0a\x0b\x02\x04\0\x10\0\x0b\x04\0\x10\x01\x0b\0\x0f\x04name\x01\x08\x01\x01\x05inner";
/// let paths = paths(module, &[], &["env"])?;
/// assert_eq!((&*paths[0].module, &*paths[0].name), ("env", "f"));
/// assert_eq!(paths[0].root.to_string(), "export b");
/// let items: Vec<String> = paths[0].items.iter().map(ToString::to_string).collect();
/// assert_eq!(items, ["func 2", "func 1 inner", "func 0"]);
/// # Ok::<(), nuigatre::Error>(())
/// ```
///
/// Where texts ask for imports, items are [marked](PathItem::only).
///
/// # Errors
///
/// - `Trim`, as of [`gc::why`](crate::gc::why): `Read` of bytes that are no module, or whose segments can't be read;
///   `MissingExport`; or `LiveBody` of a function that a path reaches. The error has [a place](Error::place).
/// - `Memory`: an allocation failed.
/// - `OtherVersion`: the library is of another version than this crate.
pub fn paths(wasm: &[u8], exports: &[&str], imports: &[&str]) -> Result<Vec<ImportPath>, Error> {
    let names = slices(exports)?;
    let asked = slices(imports)?;
    let room = wasm.len().saturating_mul(PER_BYTE).saturating_add(MORE);
    match ffi::paths(wasm, &names, &asked, room)? {
        Answered::Bytes { bytes, .. } => Ok(read_paths(&bytes)?),
        Answered::Same | Answered::BadArgument => Err(Error::OtherVersion),
        Answered::Fault(fault) => {
            let missing = exports.get(fault.position).copied();
            Err(Error::Trim(trim_error(&fault, missing)?))
        }
    }
}

/// Texts as the archive has them.
fn slices<'a>(texts: &[&'a str]) -> Result<Vec<Slice<'a>>, Error> {
    Ok(collect(
        texts.iter().map(|text| Slice::new(text.as_bytes())),
    )?)
}

/// The paths of this text, which the archive wrote.
fn read_paths(text: &[u8]) -> Result<Vec<ImportPath>, Unread> {
    let value = Value::parse(str::from_utf8(text).map_err(|_| Unread::Unknown)?)?;
    member(&value, "ways")
}

impl Read for ImportPath {
    /// The first step is where the path begins, and the others are items.
    fn read(value: &Value<'_>) -> Result<Self, Unread> {
        let mut steps = list(value, "steps", Step::read)?.into_iter();
        let Some(Step::Root(root)) = steps.next() else {
            return Err(Unread::Unknown);
        };
        let mut items = Vec::new();
        items
            .try_reserve_exact(steps.len())
            .map_err(OutOfMemory::from)?;
        for step in steps {
            match step {
                Step::Item(item) => items.push(item),
                Step::Root(_) => return Err(Unread::Unknown),
            }
        }
        Ok(ImportPath {
            module: member(value, "interface")?,
            name: member(value, "name")?,
            root,
            items,
        })
    }
}

/// A step of a path, as it is written.
enum Step {
    Root(PathRoot),
    Item(PathItem),
}

impl Read for Step {
    fn read(value: &Value<'_>) -> Result<Self, Unread> {
        Ok(match value.get("kind")?.as_str()? {
            "export" => Step::Root(PathRoot::Export(member(value, "name")?)),
            "start" => Step::Root(PathRoot::Start),
            "fills" => Step::Root(filled(value)?),
            "item" => Step::Item(PathItem::read(value)?),
            _ => return Err(Unread::Unknown),
        })
    }
}

/// The root of a path that begins at what a segment fills.
fn filled(value: &Value<'_>) -> Result<PathRoot, Unread> {
    let index = member(value, "index")?;
    match value.get("space")?.as_str()? {
        "table" => Ok(PathRoot::FillsTable(index)),
        "memory" => Ok(PathRoot::FillsMemory(index)),
        _ => Err(Unread::Unknown),
    }
}

impl Read for PathItem {
    fn read(value: &Value<'_>) -> Result<Self, Unread> {
        Ok(PathItem {
            kind: PathItemKind::read(value)?,
            only: value.find("only").map(bool::read).transpose()?,
        })
    }
}

impl Read for PathItemKind {
    fn read(value: &Value<'_>) -> Result<Self, Unread> {
        Ok(match value.get("space")?.as_str()? {
            "elem" => PathItemKind::Elements(member(value, "index")?),
            "data" => PathItemKind::Data(member(value, "index")?),
            _ => PathItemKind::Item {
                item: ItemIndex::read(value)?,
                name: optional_member(value, "name")?,
            },
        })
    }
}

#[cfg(test)]
mod tests {
    use super::read_paths;
    use crate::read::Unread;

    /// A text of paths, with this member after the others of an item.
    fn with(member: &str) -> String {
        let item = r#"{"kind":"item","space":"func","index":1,"name":null"#;
        let steps = format!(r#"[{{"kind":"start"}},{item}{member}}}]"#);
        format!(r#"{{"ways":[{{"interface":"env","name":"f","steps":{steps}}}]}}"#)
    }

    /// Items with a mark, and without one.
    #[test]
    fn marks_of_items() {
        let only = |member| Ok(read_paths(with(member).as_bytes())?[0].items[0].only);
        assert_eq!(only(r#","only":true"#), Ok(Some(true)));
        assert_eq!(only(r#","only":false"#), Ok(Some(false)));
        assert_eq!(only(""), Ok(None));
        assert_eq!(only(r#","only":null"#), Err(Unread::Unknown));
    }
}
