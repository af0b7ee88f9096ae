//! The validation of one module, and what it imports and exports.

use crate::binary::{Bytes, HEADER};
use crate::core_types::FuncType;
use crate::encoder::{Asked, AskedAdapter, ComponentEncoder, LibraryInfo};
use crate::error::Error;
use crate::ffi::{self, Answered, Required};
use crate::json::Value;
use crate::memory::{OutOfMemory, Text, collect, push};
use crate::module_import_map::ModuleImportMap;
use crate::originals::Original;
use crate::place::{Place, Subject};
use crate::read::{Read, Unread};
use crate::refused::Refused;
use crate::world::ValidatedModule;
use crate::world_error::{WorldError, WorldFault, world_error};
use std::borrow::Borrow;
use std::collections::HashSet;
use std::str;

/// Validates these bytes as the main module of an encoder: by their imports and exports they can be part of the component.
/// The encoder's own module is not looked at, nor are its adapters, but for their names and their keys.
///
/// If repeated imports of the module are renamed, `import_map` has their original names. With `None` they are renamed as
/// [`ComponentWorld::new`](crate::ComponentWorld::new) does; what the module imports is then under the new names.
///
/// # Errors
///
/// - `Validate`: the module is refused, with [a place](Error::place).
/// - `Dedupe`: its repeated imports can't be renamed, for instance because it can't be read.
/// - `World`: the worlds, or the keys, are refused.
/// - `Memory`: an allocation failed.
/// - `OtherVersion`: the library is of another version than this crate.
pub fn validate_module(
    encoder: &ComponentEncoder<'_>,
    bytes: &[u8],
    import_map: Option<&ModuleImportMap>,
) -> Result<ValidatedModule, Error> {
    let original = Original::of(bytes, import_map)?;
    let mut adapters = collect(encoder.adapters.iter().map(AskedAdapter::of))?;
    adapters.iter_mut().for_each(|adapter| adapter.wasm = b"");
    let asked = Asked {
        encoder,
        module: &original.module,
        exports: encoder.main_module_exports.as_deref(),
        adapters: &adapters,
    };
    record_of(&asked, None).map_err(|error| error_of(error, &original))
}

/// Validates these bytes as an adapter or a library of an encoder: by their imports and exports, and by the functions that
/// are required of it ([`required_from_adapter`](crate::ImportMap::required_from_adapter) of what the main module imports;
/// of several of one name the first counts). `exports` are the keys of the world's exports that it has to export
/// ([`required_exports`](crate::Adapter::required_exports)); `library_info` is how it is instantiated, if it is a library. No
/// other module is looked at, nor are the encoder's other keys.
///
/// # Errors
///
/// - `Validate`: the module is refused, with [a place](Error::place), which has no name of an adapter.
/// - `World`: the worlds, or the keys, are refused.
/// - `Memory`: an allocation failed.
/// - `OtherVersion`: the library is of another version than this crate.
pub fn validate_adapter_module<N: AsRef<str>, F: Borrow<FuncType>>(
    encoder: &ComponentEncoder<'_>,
    bytes: &[u8],
    required_by_import: impl IntoIterator<Item = (N, F)>,
    exports: &[&str],
    library_info: Option<&LibraryInfo>,
) -> Result<ValidatedModule, Error> {
    let functions = required_functions(&collect(required_by_import)?)?;
    let name = other_name(encoder, bytes)?;
    let others = encoder.adapters.iter();
    let mut adapters = collect(others.map(|adapter| AskedAdapter::named(adapter.name)))?;
    let adapter = AskedAdapter {
        name: &name,
        wasm: bytes,
        exports,
        library: library_info,
    };
    push(&mut adapters, adapter)?;
    let original = Original::of(HEADER, None)?;
    let asked = Asked {
        encoder,
        module: &original.module,
        exports: Some(&[]),
        adapters: &adapters,
    };
    let required = Required {
        adapter: &name,
        functions: &functions,
    };
    record_of(&asked, Some(required)).map_err(|error| error_of(error, &original))
}

/// Functions by their names and types for the library: how many they are, and each in the binary format.
fn required_functions<N: AsRef<str>, F: Borrow<FuncType>>(
    required: &[(N, F)],
) -> Result<Vec<u8>, OutOfMemory> {
    let mut names = HashSet::new();
    names.try_reserve(required.len())?;
    let mut functions = Bytes::default();
    for (name, ty) in required {
        let name = name.as_ref();
        if names.insert(name) {
            functions.put_sized(name.as_bytes())?;
            functions.put_func_type(ty.borrow())?;
        }
    }
    let mut all = Bytes::default();
    all.put_number(names.len())?;
    all.put(&functions.0)?;
    Ok(all.0)
}

/// A name that no adapter of the encoder has, and no import of the module, since its bytes don't have it.
fn other_name(encoder: &ComponentEncoder<'_>, module: &[u8]) -> Result<String, OutOfMemory> {
    let mut number = 0_usize;
    loop {
        let mut name = Text::default();
        name.put_args(format_args!("adapter {number} of this call"))?;
        let name = name.0;
        let is_taken = encoder.adapters.iter().any(|other| other.name == name);
        if !is_taken && !module.windows(name.len()).any(|at| at == name.as_bytes()) {
            return Ok(name);
        }
        number += 1;
    }
}

/// How many bytes more than the modules' a first buffer has for a record at most. What is not written to costs nothing, and
/// a second call all that the first did.
const MORE: usize = 1 << 22;

/// The imports and exports of the main module of a question, or of this adapter or library.
fn record_of(asked: &Asked<'_>, adapter: Option<Required<'_>>) -> Result<ValidatedModule, Error> {
    let (message, modules) = (asked.message()?, asked.modules()?);
    let room = modules.len() + (8 * modules.len()).min(MORE) + 4096;
    match ffi::validated_module(message.as_bytes(), &modules, adapter, room)? {
        Answered::Bytes { bytes, .. } => {
            let record = str::from_utf8(&bytes).map_err(|_| Unread::Unknown)?;
            Ok(ValidatedModule::read(&Value::parse(record)?)?)
        }
        Answered::Same | Answered::BadArgument => Err(Error::OtherVersion),
        Answered::Fault(fault) => Err(Error::World(world_error(&fault, asked.encoder)?)),
    }
}

/// The error of one module, of that of a message with it. `main`: the main module of the message, with the original names
/// of its imports.
fn error_of(error: Error, main: &Original<'_>) -> Error {
    match error {
        Error::World(error) => error_of_module(error, main).unwrap_or_else(Error::from),
        error => error,
    }
}

fn error_of_module(error: WorldError, main: &Original<'_>) -> Result<Error, OutOfMemory> {
    let (fault, place) = error.into_parts();
    // what is passed, and what a byte is of, is the main module with the original names
    let place = place.map(|place| renamed_place(place, main));
    Ok(match fault {
        WorldFault::Main(fault) | WorldFault::Adapter(_, fault) => {
            Error::Validate(Refused::new(fault, place)?)
        }
        WorldFault::Dedupe(fault) => Error::Dedupe(Refused::new(fault, place)?),
        fault => Error::World(Refused::new(fault, place)?),
    })
}

/// A place in the renamed module, under no name of an adapter, of one in that with the original names.
fn renamed_place(place: Place, main: &Original<'_>) -> Place {
    let subject = match place.subject {
        Subject::Bytes { offset, section } => Subject::Bytes {
            offset: main.renamed_offset(offset),
            section,
        },
        subject => subject,
    };
    Place {
        subject,
        adapter: None,
        ..place
    }
}

#[cfg(test)]
mod tests {
    use super::{other_name, record_of, required_functions, validate_adapter_module};
    use crate::core_types::{FuncType, ValType};
    use crate::encoder::{Adapter, Asked, AskedAdapter, ComponentEncoder};
    use crate::error::Error;
    use crate::ffi::{self, Answered, Required};
    use crate::validate_module;

    /// A world that imports nothing and exports nothing.
    const WORLDS: &str = r#"{"worlds": [{"name": "demo", "imports": {}, "exports": {}, "package": 0}],
        "interfaces": [], "types": [], "packages": [{"name": "a:b", "interfaces": {}, "worlds": {"demo": 0}}]}"#;

    /// Imports the function `f` of `old`, which has no parameters and no results.
    const MAIN: &[u8] = b"\0asm\x01\0\0\0\x01\x04\x01\x60\0\0\x02\x09\x01\x03old\x01f\0\0";

    /// Exports a function of this name and type.
    fn exporting(name: u8, ty: &[u8]) -> Vec<u8> {
        let types = [&[1, ty.len() as u8 + 1, 1], ty].concat();
        let exported = [7, 5, 1, 1, name, 0, 0];
        let code = b"\x0a\x05\x01\x03\0\0\x0b";
        [
            b"\0asm\x01\0\0\0",
            &types[..],
            b"\x03\x02\x01\0",
            &exported,
            code,
        ]
        .concat()
    }

    fn ty(params: &[ValType]) -> FuncType {
        FuncType {
            params: params.to_vec(),
            results: Vec::new(),
        }
    }

    /// The call that says whether a module is valid, and no more, says the same.
    #[test]
    fn verdicts() {
        let good = exporting(b'f', b"\x60\0\0");
        let typed = exporting(b'f', b"\x60\x01\x7f\0");
        let named = exporting(b'g', b"\x60\0\0");
        for (wasm, text) in [
            (&good, None),
            (&typed, Some("Validate: AdapterExportType")),
            (&named, Some("Validate: adapter module did not export `f`")),
        ] {
            let mut encoder = ComponentEncoder::new(WORLDS, 0, MAIN);
            encoder.adapters.push(Adapter::new("old", wasm));
            let (message, modules) = encoder.question().expect("a message");
            let verdict = |adapter| match ffi::validate(message.as_bytes(), &modules, adapter, 64)
                .expect("an answer")
            {
                Answered::Bytes { bytes, .. } => bytes.is_empty(),
                Answered::Fault(_) => false,
                _ => panic!("another answer"),
            };
            assert!(verdict(None));
            let main = validate_module(&encoder, MAIN, None).expect("a module");
            let required = main.imports.required_from_adapter("old");
            let record = validate_adapter_module(&encoder, wasm, required, &[], None);
            assert_eq!(record.is_ok(), verdict(Some("old")));
            assert_eq!(record.err().map(|error| error.to_string()).as_deref(), text);
        }
    }

    /// Of several functions of one name the first counts.
    #[test]
    fn repeated_names() {
        let functions = [("f", ty(&[])), ("g", ty(&[])), ("f", ty(&[ValType::I32]))];
        let bytes = required_functions(&functions).expect("memory");
        assert_eq!(bytes, b"\x02\x01f\x60\0\0\x01g\x60\0\0");
        assert_eq!(
            required_functions::<&str, &FuncType>(&[]).expect("memory"),
            [0]
        );
    }

    /// A text that is no list of functions has no answer, and neither has an adapter that is not there.
    #[test]
    fn bad_arguments() {
        let good = exporting(b'f', b"\x60\0\0");
        let encoder = ComponentEncoder::new(WORLDS, 0, MAIN);
        let adapters = [AskedAdapter {
            wasm: &good,
            ..AskedAdapter::named("old")
        }];
        let asked = Asked {
            encoder: &encoder,
            module: MAIN,
            exports: None,
            adapters: &adapters,
        };
        let ask =
            |adapter, functions: &[u8]| record_of(&asked, Some(Required { adapter, functions }));
        let one = b"\x01\x01f\x60\0\0";
        let record = ask("old", one).expect("an adapter");
        assert_eq!(ask("old", b"\0").as_ref(), Ok(&record));
        for functions in [
            &one[..5],
            b"",
            b"\x01\x01f\x60\0\0\0",
            b"\x01\x01f\x5f\0\0",
            b"\x01\x01\xff\x60\0\0",
            b"\x02\x01f\x60\0\0\x01f\x60\0\0",
        ] {
            assert_eq!(ask("old", functions), Err(Error::OtherVersion));
        }
        assert_eq!(ask("new", one), Err(Error::OtherVersion));
    }

    #[test]
    fn names_of_no_adapter() {
        let mut encoder = ComponentEncoder::new(WORLDS, 0, MAIN);
        let name = |encoder: &ComponentEncoder<'_>, module: &[u8]| other_name(encoder, module);
        let of = |number: u32| Ok(format!("adapter {number} of this call"));
        assert_eq!(name(&encoder, b""), of(0));
        assert_eq!(name(&encoder, b"\x16adapter 0 of this call"), of(1));
        encoder
            .adapters
            .push(Adapter::new("adapter 1 of this call", b""));
        assert_eq!(name(&encoder, b"\x16adapter 0 of this call"), of(2));
    }
}
