//! Each call with arguments that are all different, and the answers that no row has.

use nuigatre::{
    DedupeFault, Error, GcFault, ImportPath, ItemType, ModuleImportMap, ReadFault, gc, paths, scan,
};
use std::borrow::Cow;
use std::collections::BTreeSet;
use std::error::Error as _;
use std::path::Path;
use std::{env, fs};

/// Three functions, of which `a` is the first, and `b` the second, which calls the third.
const THREE: &[u8] = b"\0asm\x01\0\0\0\x01\x04\x01\x60\0\0\x03\x04\x03\0\0\0\x07\x09\x02\x01a\0\0\x01b\0\x01\x0a\x0c\x03\x02\0\x0b\x04\0\x10\x02\x0b\x02\0\x0b";

/// The same without the first.
const TWO: &[u8] = b"\0asm\x01\0\0\0\x01\x04\x01\x60\0\0\x03\x03\x02\0\0\x07\x05\x01\x01b\0\0\x0a\x09\x02\x04\0\x10\x01\x0b\x02\0\x0b";

/// An adapter whose export `f` calls an imported realloc of the main module's, and which imports its memory.
const REALLOC: &[u8] = b"\0asm\x01\0\0\0\x01\x0c\x02\x60\x04\x7f\x7f\x7f\x7f\x01\x7f\x60\0\0\x02\x2e\x02\x0f__main_module__\x0ccabi_realloc\0\0\x03env\x06memory\x02\0\x01\x03\x02\x01\x01\x07\x05\x01\x01f\0\x01\x0a\x12\x01\x10\0\x41\0\x41\0\x41\0\x41\0\x10\0\x1a\x3f\0\x1a\x0b";

/// The fault of a trim.
fn trim_fault(error: &Error) -> &GcFault {
    match error {
        Error::Trim(error) => error.fault(),
        other => panic!("no fault of a trim: {other:?}"),
    }
}

#[test]
fn names_are_passed() {
    assert_eq!(gc::run(THREE, ["b"], None, 16), Ok(TWO.to_vec()));
    assert_eq!(gc::run(THREE, ["b", "b"], None, 16), Ok(TWO.to_vec()));
    assert_eq!(gc::run(THREE, ["b", "a"], None, 0), Ok(THREE.to_vec()));
}

/// Imports the functions `f` and `g` of `env`, as 0 and 1; the function 2 calls `f`, and 3, which is `b`, calls 2.
const IMPORTS: &[u8] = b"\0asm\x01\0\0\0\x01\x04\x01\x60\0\0\x02\x11\x02\x03env\x01f\0\0\x03env\x01g\0\0\x03\x03\x02\0\0\x07\x05\x01\x01b\0\x03\x0a\x0b\x02\x04\0\x10\0\x0b\x04\0\x10\x02\x0b";

/// Chains to imports, and that there is none.
#[test]
fn chains_to_imports() {
    let chains = gc::why(IMPORTS, ["b", "b"]).expect("an adapter");
    assert_eq!((chains.len(), chains.is_empty()), (2, false));
    let chain = chains.of_import(0).expect("memory").expect("a chain");
    let items: Vec<String> = chain.items.iter().map(ToString::to_string).collect();
    assert_eq!(chain.export, "b");
    assert_eq!(items, ["func 3", "func 2", "func 0"]);
    assert_eq!(chains.of_import(1), Ok(None));
    assert_eq!(chains.of_import(2), Ok(None));
    let none = gc::why(IMPORTS, [""; 0]).expect("an adapter");
    assert_eq!(none.of_import(0), Ok(None));
    assert!(gc::why(THREE, ["a"]).expect("an adapter").is_empty());
    let fault = gc::why(IMPORTS, ["b", "x", "y"]).expect_err("x");
    assert_eq!(trim_fault(&fault), &GcFault::MissingExport("x".to_owned()));
}

/// Imports and exports of each kind; `wasm-objdump -x` lists the same.
const KINDS: &[u8] = b"\0asm\x01\0\0\0\x01\x07\x01\x60\x02\x7f\x7e\x01\x7d\x02\x26\x04\x03env\x01f\0\0\x03env\x01t\x01\x70\x01\x01\x02\x03env\x01m\x02\0\x03\x03env\x01g\x03\x7e\x01\x03\x02\x01\0\x07\x19\x04\x03run\0\x01\x03mem\x02\0\x03tab\x01\0\x03glo\x03\0\x0a\x05\x01\x03\0\0\x0b\0\x13\x04name\x01\x0c\x02\0\x03log\x01\x04main";

/// What a module imports and exports, how its functions are named, and that there is no module.
#[test]
fn scans() {
    let found = scan(KINDS).expect("a module");
    let names = found.function_names.iter();
    assert!(names.eq([(&0, &"log".to_owned()), (&1, &"main".to_owned())]));
    let imports = found.imports.iter().map(|it| (&*it.module, &*it.name));
    assert!(imports.eq([("env", "f"), ("env", "t"), ("env", "m"), ("env", "g")]));
    let exports = found.exports.iter().map(|it| (&*it.name, it.index));
    assert!(exports.eq([("run", 1), ("mem", 0), ("tab", 0), ("glo", 0)]));
    let shown = |ty: &ItemType| match ty {
        ItemType::Func(ty) => format!("{ty}"),
        ItemType::Table(ty) => format!(
            "{} {} {} {:?}",
            ty.element_type, ty.table64, ty.initial, ty.maximum
        ),
        ItemType::Memory(ty) => format!(
            "{} {} {} {:?} {:?}",
            ty.memory64, ty.shared, ty.initial, ty.maximum, ty.page_size_log2
        ),
        ItemType::Global(ty) => format!("{} {}", ty.content_type, ty.mutable),
    };
    let [func, table, memory, global] = [
        "(i32, i64) -> f32",
        "funcref false 1 Some(2)",
        "false false 3 None None",
        "i64 true",
    ];
    let imports: Vec<_> = found.imports.iter().map(|it| shown(&it.ty)).collect();
    assert_eq!(imports, [func, table, memory, global]);
    let exports: Vec<_> = found.exports.iter().map(|it| shown(&it.ty)).collect();
    assert_eq!(exports, [func, memory, table, global]);
    let kinds = found.exports.iter().map(|it| it.ty.kind().to_string());
    assert!(kinds.eq(["func", "memory", "table", "global"]));
    let error = scan(&KINDS[..12]).expect_err("its end is missing");
    assert_eq!(error.to_string(), "Read: Truncated");
    let place = error.place().expect("a byte").to_string();
    assert_eq!(place, "byte 12");
    assert!(matches!(error, Error::Read(it) if *it.fault() == ReadFault::Truncated));
}

/// Imports `f` of `a:b/c@1.0.0`, which the function 2 calls. Its name is `telemetry`, and it stands in a table; the function 1
/// is the export `run`, and does nothing.
const TABLE: &[u8] = b"\0asm\x01\0\0\0\x01\x04\x01\x60\0\0\x02\x11\x01\x0ba:b/c@1.0.0\x01f\0\0\x03\x03\x02\0\0\x04\x04\x01\x70\0\x04\x07\x07\x01\x03run\0\x01\x09\x07\x01\0\x41\x01\x0b\x01\x02\x0a\x09\x02\x02\0\x0b\x04\0\x10\0\x0b\0\x13\x04name\x01\x0c\x01\x02\x09telemetry";

/// Imports `f` of `env`, which the start function calls, 1.
const STARTED: &[u8] = b"\0asm\x01\0\0\0\x01\x04\x01\x60\0\0\x02\x09\x01\x03env\x01f\0\0\x03\x02\x01\0\x08\x01\x01\x0a\x06\x01\x04\0\x10\0\x0b";

/// A data segment, whose offset is an imported global.
const DATA: &[u8] = b"\0asm\x01\0\0\0\x02\x0a\x01\x03env\x01g\x03\x7f\0\x05\x03\x01\0\x01\x0b\x07\x01\0\x23\0\x0b\x01a";

/// The lines of paths.
fn lines(paths: &[ImportPath]) -> Vec<String> {
    let mut lines = Vec::new();
    for path in paths {
        lines.push(format!("{} {}", path.module, path.name));
        lines.push(path.root.to_string());
        lines.extend(path.items.iter().map(ToString::to_string));
    }
    lines
}

/// Paths from each kind of root, with names, and imports that are asked for.
#[test]
fn paths_to_imports() {
    let all = |wasm| lines(&paths(wasm, &[], &[]).expect("paths"));
    let through_table = [
        "a:b/c@1.0.0 f",
        "fills table 0",
        "elem 0",
        "func 2 telemetry",
        "func 0",
    ];
    assert_eq!(all(TABLE), through_table);
    assert_eq!(all(STARTED), ["env f", "start", "func 1", "func 0"]);
    assert_eq!(all(DATA), ["env g", "fills memory 0", "data 0", "global 0"]);
    let chain = ["env f", "export b", "func 3", "func 2", "func 0"];
    assert_eq!(all(IMPORTS), chain);
    let asked = |imports: &[&str]| paths(TABLE, &["run"], imports).map(|it| it.len());
    assert_eq!(asked(&["a:b/c"]), Ok(1));
    assert_eq!(asked(&["a:b/c@1.0.0=f", "other"]), Ok(1));
    assert_eq!(asked(&["a:b/c=g"]), Ok(0));
    assert_eq!(asked(&["other"]), Ok(0));
    let fault = paths(TABLE, &["run", "x"], &[]).expect_err("x");
    assert_eq!(trim_fault(&fault), &GcFault::MissingExport("x".to_owned()));
    let error = paths(&TABLE[..12], &[], &[]).expect_err("its end is missing");
    assert_eq!(error.to_string(), "Trim: Read: Truncated");
    assert_eq!(error.place().expect("a byte").to_string(), "byte 12");
}

/// Items are marked where imports are asked for.
#[test]
fn marks_on_paths() {
    let marks = |wasm, imports: &[&str]| {
        let paths = paths(wasm, &[], imports).expect("paths");
        paths[0].items.iter().map(|it| it.only).collect::<Vec<_>>()
    };
    let before = [Some(true), Some(true), Some(false)];
    assert_eq!(marks(IMPORTS, &["env"]), before);
    assert_eq!(marks(TABLE, &["a:b/c"]), before);
    assert_eq!(marks(IMPORTS, &[]), [None; 3]);
}

/// Names of any collection of texts.
#[test]
fn collections_of_names() {
    let names = ["b".to_owned(), "b".to_owned()];
    assert_eq!(gc::run(THREE, &names, None, 16), Ok(TWO.to_vec()));
    let set = BTreeSet::from(names.clone());
    assert_eq!(gc::run(THREE, &set, None, 16), Ok(TWO.to_vec()));
    let some = names.iter().skip(1).map(|name| name.as_str());
    assert_eq!(gc::run(THREE, some, None, 16), Ok(TWO.to_vec()));
    let missing = names.into_iter().chain(["x".to_owned()]);
    let fault = gc::run(THREE, missing, None, 16).expect_err("x");
    assert_eq!(trim_fault(&fault), &GcFault::MissingExport("x".to_owned()));
}

#[test]
fn the_realloc_is_passed() {
    let named = gc::run(REALLOC, ["f"], Some("grow_it"), 16).expect("an adapter");
    let is_named = |name: &[u8]| named.windows(name.len()).any(|at| at == name);
    assert!(is_named(b"\x0f__main_module__\x07grow_it\0\0") && !is_named(b"cabi_realloc"));
    let grown = gc::run(REALLOC, ["f"], None, 16).expect("an adapter");
    assert!(!grown.windows(15).any(|at| at == b"__main_module__"));
    // its memory has pages of 2^16 bytes
    let fault = gc::run(REALLOC, ["f"], None, 0).expect_err("pages of one byte");
    assert_eq!(trim_fault(&fault), &GcFault::ReallocMemory);
}

#[test]
fn arguments_that_are_none() {
    let nothing = Err(Error::NothingRequired);
    assert_eq!(gc::run(THREE, [""; 0], None, 16), nothing);
    assert_eq!(gc::run(THREE, [""; 0], None, 17), nothing);
    let large = Err(Error::LargePageSize);
    assert_eq!(gc::run(THREE, ["b"], None, 17), large);
    assert_eq!(gc::run(b"", ["b"], None, u32::MAX), large);
}

#[test]
fn faults_carry_what_they_are_about() {
    let fault = gc::run(THREE, ["b", "b", "x", "y"], None, 16).expect_err("x");
    assert_eq!(trim_fault(&fault), &GcFault::MissingExport("x".to_owned()));
    let fault = gc::run(b"\0asm\x0d\0\x01\0", ["b"], None, 16).expect_err("a component");
    assert_eq!(trim_fault(&fault), &GcFault::Read(ReadFault::Component));
    assert_eq!(fault.to_string(), "Trim: Read: Component");
    let source = fault.source().map(ToString::to_string);
    assert_eq!(source.as_deref(), Some("byte 4"));
    let fault = ModuleImportMap::new(Cow::Borrowed(b"\0asm")).expect_err("no module");
    match &fault {
        Error::Dedupe(error) => {
            assert_eq!(*error.fault(), DedupeFault::Read(ReadFault::NotWasm));
        }
        other => panic!("no fault of renaming: {other:?}"),
    }
}

/// A module that imports `f` of a module with a name of so many bytes, so many times.
fn repeats(count: usize, length: usize) -> Vec<u8> {
    let number = |number: usize| {
        let low = (0..4).map(|at| (number >> (7 * at)) as u8 | 128);
        low.chain([(number >> 28) as u8]).collect::<Vec<u8>>()
    };
    let import = [number(length), vec![b'a'; length], b"\x01f\0\0".to_vec()].concat();
    let content = [number(count), import.repeat(count)].concat();
    let mut module = b"\0asm\x01\0\0\0\x02".to_vec();
    module.extend(number(content.len()));
    module.extend(content);
    module
}

/// Short modules, and one whose renames are longer than the first buffer.
#[test]
fn buffers() {
    for (count, length) in [(2, 1), (3, 127), (6_000, 1_000)] {
        let module = repeats(count, length);
        let (bytes, map) = ModuleImportMap::new(Cow::Borrowed(&module)).expect("a module");
        let map = map.expect("renames");
        assert_eq!(map.renames().len(), count - 1);
        let name = "a".repeat(length);
        let last = format!("f [v{count}]");
        assert_eq!(map.original_name(&name, &last), Some("f"));
        assert_eq!(map.original_name("b", &last), None);
        assert!(bytes.ends_with(format!("{last}\0\0").as_bytes()));
    }
}

/// The symbol that only an unproved library has, in the library that `rust/check` links.
#[test]
fn which_library() {
    let Some(folder) = env::var_os("NUIGATRE_LIB_DIR") else {
        return;
    };
    let library = fs::read(Path::new(&folder).join("libnuigatre.a")).expect("the library");
    let symbol = b"nuigatre9_unproved";
    let is_unproved = library.windows(symbol.len()).any(|at| at == symbol);
    assert_eq!(nuigatre::is_proved(), !is_unproved);
}
