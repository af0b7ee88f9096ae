//! The places of faults.

use crate::core_types::FuncType;
use crate::ids::{AbiVariant, InterfaceId, TypeId};
use crate::json::Value;
use crate::read::{Read, Unread, member, optional_member};
use std::error;
use std::fmt::{self, Debug, Display, Formatter};

/// The place of a fault. Its text is as `import "env" "log", wanted (i32) -> (), found () -> (), in adapter "old"`. It
/// is the source of the error that has it, so what prints a chain of sources prints it.
///
/// [`Error`](crate::Error) has an example.
#[derive(Clone, Debug, PartialEq, Eq, Hash)]
#[non_exhaustive]
pub struct Place {
    /// The adapter or the library whose module it is in; `None` for the main module, for the adapter of
    /// [`gc::run`](crate::gc::run), which has no name, and for what is in no module.
    pub adapter: Option<String>,
    /// The place in the module.
    pub subject: Subject,
    /// The core types that differ, where the fault is that they do.
    pub types: Option<TypeDifference>,
}

/// The place of a fault, by its names or its number. An import or an export of a module is there as it is; what a
/// module lacks is missing.
///
/// [`Error`](crate::Error) has an example.
#[derive(Clone, Debug, PartialEq, Eq, Hash)]
#[non_exhaustive]
pub enum Subject {
    /// An import of a module.
    #[non_exhaustive]
    Import {
        /// The name of the module that it comes from.
        module: String,
        /// Its name in that module. That of a renamed import is the new one.
        name: String,
        /// Its index among all imports, from 0 on.
        index: usize,
    },
    /// An export of a module.
    #[non_exhaustive]
    Export {
        /// Its name.
        name: String,
    },
    /// A function of an interface, which the module has to export.
    #[non_exhaustive]
    MissingFunction {
        /// The interface, as the names of exports have it: `wasi:cli/run@0.2.6`.
        module: String,
        /// The function's name in the interface.
        name: String,
    },
    /// An export that the module has to have.
    #[non_exhaustive]
    MissingExport {
        /// Its name.
        name: String,
    },
    /// A byte of a module, at which it stops to be right.
    #[non_exhaustive]
    Bytes {
        /// How many bytes of the module are before it.
        offset: usize,
        /// The id of the section in whose content it is; `None` outside of all.
        section: Option<u8>,
    },
    /// A section of an adapter.
    #[non_exhaustive]
    Section {
        /// The section's id in the binary format: 8 for the start function, 9 for elements, 11 for data, 12 for their
        /// count.
        id: u8,
    },
    /// The body of a function of an adapter.
    #[non_exhaustive]
    Body {
        /// The function's index, imported ones counted too.
        function: u32,
        /// The number of the operator in the body, from 0 on, each `else` and `end` counted; `None` where the body is no
        /// code, or where the types of its locals are at fault.
        operator: Option<usize>,
    },
    /// The page size of the memory that the adapter imports, which is not that of the main module's memory.
    #[non_exhaustive]
    PageSizes {
        /// How many bytes a page of the adapter's has.
        own: u64,
        /// How many bytes one of the main module's has.
        main: u64,
    },
    /// A function that a core module imports, which needs what is not there.
    #[non_exhaustive]
    Function {
        /// Its interface, by the name that the world has for it; `None` for a function of the world.
        interface: Option<String>,
        /// Its name in its interface or in the world.
        name: String,
        /// How it is imported.
        abi: AbiVariant,
    },
    /// The worlds that there are, by their full names.
    Worlds(Vec<String>),
    /// All that the world imports, as keys that may be asked about.
    Imports(Vec<String>),
    /// The world at an index among those of the JSON.
    World(u32),
    /// An interface.
    Interface(InterfaceId),
    /// A type.
    Type(TypeId),
    /// The package at an index among those of the JSON.
    Package(u32),
}

/// Two core types that differ. The text is as `wanted (i32) -> (), found () -> i64`.
///
/// [`Error`](crate::Error) has an example.
#[derive(Clone, Debug, PartialEq, Eq, Hash)]
#[non_exhaustive]
pub struct TypeDifference {
    /// The type that is wanted.
    pub wanted: FuncType,
    /// The type that is found.
    pub found: FuncType,
}

/// The place of a fault, as the archive writes it after the fault.
#[derive(Debug, PartialEq, Eq)]
pub(crate) enum About {
    /// A place.
    Place(Place),
    /// An adapter as a whole, by its name.
    Adapter(String),
    /// A key of the world's exports.
    Key(String),
    /// Of a name of a world the name, and the worlds that there are.
    Worlds { name: String, worlds: Vec<String> },
    /// Of a key that asks about no import of the world the key, and the imports that there are.
    Imports { key: String, imports: Vec<String> },
    /// A byte of the message.
    Byte(usize),
    /// A path in the message.
    Path(String),
}

impl About {
    /// The place that this text has; `None` where the archive wrote none.
    pub(crate) fn parse(text: &str) -> Result<Option<About>, Unread> {
        if text.is_empty() {
            return Ok(None);
        }
        Ok(Some(About::read(&Value::parse(text)?)?))
    }

    /// The adapter that it is in, or is.
    pub(crate) fn adapter(&self) -> Option<&str> {
        match self {
            About::Place(place) => place.adapter.as_deref(),
            About::Adapter(name) => Some(name),
            _ => None,
        }
    }

    /// The name of the export that is missing.
    pub(crate) fn missing_export(&self) -> Option<&str> {
        match self {
            About::Place(Place {
                subject: Subject::MissingExport { name },
                ..
            }) => Some(name),
            _ => None,
        }
    }

    /// It, as the place of an error; `None` for what the fault of the error has itself.
    pub(crate) fn into_place(self) -> Option<Place> {
        match self {
            About::Place(place) => Some(place),
            About::Worlds { worlds, .. } => Some(Place {
                adapter: None,
                subject: Subject::Worlds(worlds),
                types: None,
            }),
            About::Imports { imports, .. } => Some(Place {
                adapter: None,
                subject: Subject::Imports(imports),
                types: None,
            }),
            _ => None,
        }
    }
}

impl Read for About {
    fn read(value: &Value<'_>) -> Result<Self, Unread> {
        Ok(match value.kind()? {
            "module" => About::Adapter(member(value, "adapter")?),
            "key" => About::Key(member(value, "key")?),
            "worlds" => About::Worlds {
                name: member(value, "name")?,
                worlds: member(value, "worlds")?,
            },
            "imports" => About::Imports {
                key: member(value, "key")?,
                imports: member(value, "imports")?,
            },
            "json-byte" => About::Byte(member(value, "byte")?),
            "json-path" => About::Path(member(value, "path")?),
            _ => About::Place(Place::read(value)?),
        })
    }
}

/// The member of this name, where there is one that is not null.
fn member_if_there<T: Read>(value: &Value<'_>, name: &str) -> Result<Option<T>, Unread> {
    match value.find(name) {
        Some(_) => optional_member(value, name),
        None => Ok(None),
    }
}

impl Read for Place {
    fn read(value: &Value<'_>) -> Result<Self, Unread> {
        Ok(Place {
            adapter: member_if_there(value, "adapter")?,
            subject: Subject::read(value)?,
            types: member_if_there(value, "types")?,
        })
    }
}

impl Read for Subject {
    fn read(value: &Value<'_>) -> Result<Self, Unread> {
        Ok(match value.kind()? {
            "import" => Subject::Import {
                module: member(value, "module")?,
                name: member(value, "name")?,
                index: member(value, "index")?,
            },
            "export" => Subject::Export {
                name: member(value, "name")?,
            },
            "missing-function" => Subject::MissingFunction {
                module: member(value, "module")?,
                name: member(value, "name")?,
            },
            "missing-export" => Subject::MissingExport {
                name: member(value, "name")?,
            },
            "bytes" => Subject::Bytes {
                offset: member(value, "offset")?,
                section: optional_member(value, "section")?,
            },
            "section" => Subject::Section {
                id: member(value, "id")?,
            },
            "body" => Subject::Body {
                function: member(value, "function")?,
                operator: optional_member(value, "operator")?,
            },
            "page-sizes" => Subject::PageSizes {
                own: member(value, "own")?,
                main: member(value, "main")?,
            },
            "function" => Subject::Function {
                interface: optional_member(value, "interface")?,
                name: member(value, "name")?,
                abi: member(value, "abi")?,
            },
            "world" => Subject::World(member(value, "index")?),
            "interface" => Subject::Interface(member(value, "index")?),
            "type" => Subject::Type(member(value, "index")?),
            "package" => Subject::Package(member(value, "index")?),
            _ => return Err(Unread::Unknown),
        })
    }
}

impl Read for TypeDifference {
    fn read(value: &Value<'_>) -> Result<Self, Unread> {
        Ok(TypeDifference {
            wanted: member(value, "wanted")?,
            found: member(value, "found")?,
        })
    }
}

impl Display for Place {
    fn fmt(&self, f: &mut Formatter<'_>) -> fmt::Result {
        write!(f, "{}", self.subject)?;
        if let Some(types) = &self.types {
            write!(f, ", {types}")?;
        }
        match &self.adapter {
            Some(name) => write!(f, ", in adapter {name:?}"),
            None => Ok(()),
        }
    }
}

/// The name of the section of this id, if the format has one.
fn section_name(id: u8) -> Option<&'static str> {
    let names = [
        "custom",
        "type",
        "import",
        "function",
        "table",
        "memory",
        "global",
        "export",
        "start",
        "element",
        "code",
        "data",
        "data count",
    ];
    names.get(usize::from(id)).copied()
}

impl error::Error for Place {}

/// A place, or that there is none, by its text, also where it is debugged.
pub(crate) struct Shown<'a>(pub(crate) Option<&'a Place>);

impl Debug for Shown<'_> {
    fn fmt(&self, f: &mut Formatter<'_>) -> fmt::Result {
        match self.0 {
            Some(place) => write!(f, "Some({place})"),
            None => f.write_str("None"),
        }
    }
}

impl Display for Subject {
    /// Names are in quotes, with escapes.
    fn fmt(&self, f: &mut Formatter<'_>) -> fmt::Result {
        match self {
            Subject::Import { module, name, .. } => write!(f, "import {module:?} {name:?}"),
            Subject::Export { name } => write!(f, "export {name:?}"),
            Subject::MissingFunction { module, name } => write!(f, "missing {module:?} {name:?}"),
            Subject::MissingExport { name } => write!(f, "missing export {name:?}"),
            Subject::Bytes {
                offset,
                section: None,
            } => write!(f, "byte {offset}"),
            Subject::Bytes {
                offset,
                section: Some(id),
            } => match section_name(*id) {
                Some(name) => write!(f, "byte {offset}, in the {name} section"),
                None => write!(f, "byte {offset}, in section {id}"),
            },
            Subject::Section { id } => match section_name(*id) {
                Some(name) => write!(f, "{name} section"),
                None => write!(f, "section {id}"),
            },
            Subject::Body {
                function,
                operator: Some(operator),
            } => write!(f, "operator {operator} of the body of function {function}"),
            Subject::Body { function, .. } => write!(f, "body of function {function}"),
            Subject::PageSizes { own, main } => {
                write!(f, "page size {own}, main module's {main}")
            }
            Subject::Function {
                interface: None,
                name,
                ..
            } => write!(f, "function {name:?}"),
            Subject::Function {
                interface: Some(interface),
                name,
                ..
            } => write!(f, "function {interface:?} {name:?}"),
            Subject::Worlds(names) if names.is_empty() => f.write_str("there is no world"),
            Subject::Worlds(names) => {
                f.write_str("worlds")?;
                names.iter().try_for_each(|name| write!(f, " {name:?}"))
            }
            Subject::Imports(texts) if texts.is_empty() => f.write_str("the world imports nothing"),
            Subject::Imports(texts) => {
                f.write_str("imports")?;
                texts.iter().try_for_each(|text| write!(f, " {text:?}"))
            }
            Subject::World(index) => write!(f, "world {index}"),
            Subject::Interface(id) => write!(f, "{id}"),
            Subject::Type(id) => write!(f, "{id}"),
            Subject::Package(index) => write!(f, "package {index}"),
        }
    }
}

impl Display for TypeDifference {
    fn fmt(&self, f: &mut Formatter<'_>) -> fmt::Result {
        write!(f, "wanted {}, found {}", self.wanted, self.found)
    }
}

#[cfg(test)]
mod tests {
    use super::{About, Place, Subject};
    use crate::read::Unread;

    /// The text of the place that a JSON text is.
    fn shown(json: &str) -> String {
        let about = About::parse(json).expect("a place");
        let place = about.and_then(About::into_place);
        place.map_or_else(String::new, |it| it.to_string())
    }

    #[test]
    fn forms() {
        let types = r#"{"wanted":{"params":["i32",{"nullable":true,"index":3}],"results":["i64"]},"found":{"params":[],"results":["externref","non-null-funcref"]}}"#;
        let of_import = r#"{"kind":"import","adapter":"a \"b\"","module":"m","name":"f","index":3,"types":TYPES}"#;
        assert_eq!(
            shown(&of_import.replace("TYPES", types)),
            r#"import "m" "f", wanted (i32, (ref null 3)) -> i64, found () -> (externref, (ref func)), in adapter "a \"b\"""#
        );
        assert_eq!(
            About::parse(&of_import.replace("TYPES", "null")),
            Ok(Some(About::Place(Place {
                adapter: Some("a \"b\"".into()),
                subject: Subject::Import {
                    module: "m".into(),
                    name: "f".into(),
                    index: 3
                },
                types: None
            })))
        );
        for (json, text) in [
            (
                r#"{"kind":"export","adapter":null,"name":"f\n","types":null}"#,
                r#"export "f\n""#,
            ),
            (
                r#"{"kind":"missing-function","adapter":null,"module":"wasi:cli/run@0.2.6","name":"run","types":null}"#,
                r#"missing "wasi:cli/run@0.2.6" "run""#,
            ),
            (
                r#"{"kind":"missing-export","adapter":null,"name":"f","types":null}"#,
                r#"missing export "f""#,
            ),
            (r#"{"kind":"section","id":8}"#, "start section"),
            (
                r#"{"kind":"section","adapter":"old","id":12}"#,
                r#"data count section, in adapter "old""#,
            ),
            (
                r#"{"kind":"body","function":7,"operator":2}"#,
                "operator 2 of the body of function 7",
            ),
            (
                r#"{"kind":"body","adapter":"old","function":7,"operator":null}"#,
                r#"body of function 7, in adapter "old""#,
            ),
            (
                r#"{"kind":"page-sizes","adapter":"old","own":1,"main":65536}"#,
                r#"page size 1, main module's 65536, in adapter "old""#,
            ),
            (
                r#"{"kind":"function","adapter":null,"interface":null,"name":"log","abi":"guest-import"}"#,
                r#"function "log""#,
            ),
            (
                r#"{"kind":"function","adapter":"old","interface":"a:b/c","name":"f","abi":"guest-import-async"}"#,
                r#"function "a:b/c" "f", in adapter "old""#,
            ),
            (
                r#"{"kind":"bytes","adapter":null,"offset":57,"section":2}"#,
                "byte 57, in the import section",
            ),
            (
                r#"{"kind":"bytes","adapter":"old","offset":4,"section":null}"#,
                r#"byte 4, in adapter "old""#,
            ),
            (
                r#"{"kind":"worlds","name":"a","worlds":["b:c/d","e"]}"#,
                r#"worlds "b:c/d" "e""#,
            ),
            (
                r#"{"kind":"worlds","name":"a","worlds":[]}"#,
                "there is no world",
            ),
            (r#"{"kind":"world","index":0}"#, "world 0"),
            (r#"{"kind":"interface","index":1}"#, "interface 1"),
            (r#"{"kind":"type","index":2}"#, "type 2"),
            (r#"{"kind":"package","index":3}"#, "package 3"),
            ("", ""),
        ] {
            assert_eq!(shown(json), text);
        }
        for json in [
            "{}",
            r#"{"kind":"other"}"#,
            r#"{"kind":"section","id":256}"#,
            r#"{"kind":"export","adapter":3,"name":"f"}"#,
        ] {
            assert_eq!(About::parse(json), Err(Unread::Unknown), "{json}");
        }
    }

    /// The part of an error that is in its fault, and is no place.
    #[test]
    fn others() {
        for (json, about) in [
            (
                r#"{"kind":"module","adapter":"`"}"#,
                About::Adapter("`".into()),
            ),
            (r#"{"kind":"key","key":"a`b"}"#, About::Key("a`b".into())),
            (r#"{"kind":"json-byte","byte":7}"#, About::Byte(7)),
            (
                r#"{"kind":"json-path","path":"a[0]"}"#,
                About::Path("a[0]".into()),
            ),
        ] {
            assert_eq!(shown(json), "");
            assert_eq!(About::parse(json), Ok(Some(about)));
        }
    }
}
