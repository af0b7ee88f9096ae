//! What single modules import and export, beside the worlds that have them.

use nuigatre::{
    Adapter, ComponentEncoder, ComponentWorld, Error, ExportKind, FuncType, ImportInstance,
    Instance, Item, LibraryInfo, MainOrAdapter, ModuleImportMap, OrderedMap, ValType,
    ValidatedModule, WorldFault, gc, validate_adapter_module, validate_module,
};

/// A world that imports the interface `my:demo/host`, which has the function `hello: func(x: u32)`; and exports functions of
/// `a:b/run` in two versions, and `go` of its own.
const WORLDS: &str = r#"{
    "worlds": [{"name": "other", "imports": {}, "exports": {}, "package": null}, {"name": "demo", "package": 0,
        "imports": {"interface-0": {"interface": {"id": 0}}},
        "exports": {"interface-1": {"interface": {"id": 1}}, "interface-2": {"interface": {"id": 2}},
            "go": {"function": {"name": "go", "kind": "freestanding", "params": []}}}}],
    "interfaces": [
        {"name": "host", "types": {}, "package": 0, "functions": {"hello": {
            "name": "hello", "kind": "freestanding", "params": [{"name": "x", "type": "u32"}], "result": null}}},
        {"name": "run", "types": {}, "package": 1, "functions": {"f": {"name": "f", "kind": "freestanding", "params": []}}},
        {"name": "run", "types": {}, "package": 2, "functions": {"f": {"name": "f", "kind": "freestanding", "params": []}}}],
    "types": [],
    "packages": [{"name": "my:demo", "interfaces": {"host": 0}, "worlds": {"demo": 1}},
        {"name": "a:b@1.0.0", "interfaces": {"run": 1}, "worlds": {}},
        {"name": "a:b@2.0.0", "interfaces": {"run": 2}, "worlds": {}}]
}"#;

const ONE: &str = "a:b/run@1.0.0#f";
const TWO: &str = "a:b/run@2.0.0#f";

/// Bytes after how many they are, below 128.
fn sized(bytes: &[u8]) -> Vec<u8> {
    [&[bytes.len() as u8], bytes].concat()
}

/// An export of a module: its name, the index of its type, and its code.
type Exported<'a> = (&'a str, u8, &'a [u8]);

/// A function without parameters that does nothing.
fn idle(name: &str) -> Exported<'_> {
    (name, 0, b"\x0b")
}

/// A module with the types `() -> ()`, `(i32) -> ()` and `(i64, funcref) -> f32`, that imports functions by their types, and
/// exports functions.
fn module(imports: &[(&str, &str, u8)], exports: &[Exported<'_>]) -> Vec<u8> {
    let section = |id: u8, count: usize, content: Vec<u8>| {
        let content = [vec![count as u8], content].concat();
        let length = [content.len() as u8 | 128, (content.len() >> 7) as u8];
        [&[id], &length[..], &content].concat()
    };
    let import = |(module, name, ty): &(&str, &str, u8)| {
        [
            sized(module.as_bytes()),
            sized(name.as_bytes()),
            vec![0, *ty],
        ]
        .concat()
    };
    let export = |(at, (name, ..)): (usize, &Exported<'_>)| {
        [sized(name.as_bytes()), vec![0, (imports.len() + at) as u8]].concat()
    };
    let (of_imports, count) = (imports.iter().flat_map(import).collect(), exports.len());
    let of_exports = exports.iter().enumerate().flat_map(export).collect();
    let body = |(_, _, code): &Exported<'_>| sized(&[b"\0", *code].concat());
    [
        b"\0asm\x01\0\0\0".to_vec(),
        section(
            1,
            3,
            b"\x60\0\0\x60\x01\x7f\0\x60\x02\x7e\x70\x01\x7d".to_vec(),
        ),
        section(2, imports.len(), of_imports),
        section(3, count, exports.iter().map(|it| it.1).collect()),
        section(7, count, of_exports),
        section(10, count, exports.iter().flat_map(body).collect()),
    ]
    .concat()
}

/// Imports `hello` twice, and functions of `old`, one of them twice.
fn main_module() -> Vec<u8> {
    let imports = [
        ("my:demo/host", "hello", 1),
        ("old", "b", 2),
        ("my:demo/host", "hello", 1),
        ("old", "a", 0),
        ("old", "b", 2),
    ];
    module(&imports, &[idle("go"), idle(TWO)])
}

/// An adapter that exports what the main module imports, and a function of the world; what it imports is for one that nobody
/// calls.
fn old() -> Vec<u8> {
    let calls: Exported<'_> = ("unused", 0, b"\x41\0\x10\0\x0b");
    let traps: Exported<'_> = ("b", 2, b"\0\x0b");
    let imports = [("my:demo/host", "hello", 1)];
    module(&imports, &[idle("a"), calls, idle(ONE), traps])
}

fn encoder<'a>(main: &'a [u8], old: &'a [u8], keys: &[&'a str]) -> ComponentEncoder<'a> {
    let mut encoder = ComponentEncoder::new(WORLDS, "my:demo/demo", main);
    encoder.adapters.push(Adapter::new("old", old));
    encoder.adapters[0].required_exports = keys.to_vec();
    encoder
}

/// The main module alone, renamed or not, imports and exports what it does in its world.
#[test]
fn main_modules() {
    let (main, old) = (main_module(), old());
    let (renamed, map) = ModuleImportMap::new((&main).into()).expect("a module");
    for keys in [["a:b/run@1.0.0"], ["interface-1"]] {
        let encoder = encoder(&main, &old, &keys);
        let world = ComponentWorld::new(&encoder).expect("a world");
        let of = |bytes, map| validate_module(&encoder, bytes, map).expect("a module");
        assert_eq!(of(&main, None), world.info);
        assert_eq!(of(&renamed, map.as_ref()), world.info);
        assert_eq!(
            of(&world.module, world.module_import_map.as_ref()),
            world.info
        );
    }
    let encoder = encoder(&main, &old, &["a:b/run@1.0.0"]);
    // the renamed module without the original names
    let refused = validate_module(&encoder, &renamed, None).expect_err("no `hello [v2]`");
    assert_eq!(refused.to_string(), "Validate: MissingFunction");
}

/// Neither the encoder's module nor the bytes of its adapters are looked at, nor what libraries are handed.
#[test]
fn adapters_that_are_refused() {
    let main = main_module();
    let expected = ComponentWorld::new(&encoder(&main, &old(), &["a:b/run@1.0.0"]));
    let expected = expected.expect("a world").info;
    let mut encoder = encoder(b"", b"no module", &["a:b/run@1.0.0"]);
    let mut library = Adapter::new("library", b"");
    library.library_info = Some(LibraryInfo::default());
    encoder.adapters.push(library);
    assert_eq!(validate_module(&encoder, &main, None), Ok(expected.clone()));
    encoder.main_module_exports = Some(vec!["go", "a:b/run@2.0.0"]);
    assert_eq!(validate_module(&encoder, &main, None), Ok(expected));
    // keys are looked at: the main module has no function of the other version
    encoder.main_module_exports = None;
    encoder.adapters[0].required_exports = vec!["go"];
    let refused = validate_module(&encoder, &main, None).expect_err("an export is missing");
    assert_eq!(refused.to_string(), "Validate: MissingInterfaceExport");
    encoder.adapters[0].required_exports = vec!["stop"];
    match validate_module(&encoder, &main, None).expect_err("no such export") {
        Error::World(error) => {
            assert_eq!(*error.fault(), WorldFault::UnknownKey("stop".into()));
        }
        error => panic!("another error: {error:?}"),
    }
}

/// What an adapter imports and exports before it is trimmed, and after.
#[test]
fn adapters() {
    let (main, old) = (main_module(), old());
    let keys = ["a:b/run@1.0.0"];
    let encoder = encoder(&main, &old, &keys);
    let world = ComponentWorld::new(&encoder).expect("a world");
    let (trimmed, required) = (
        &world.adapters["old"],
        world.info.imports.required_from_adapter("old"),
    );
    assert_eq!(required.keys().collect::<Vec<_>>(), ["b", "a"]);
    let of = |wasm| validate_adapter_module(&encoder, wasm, required, &keys, None);
    assert_eq!(of(&trimmed.wasm), Ok(trimmed.info.clone()));
    let whole = of(&old).expect("an adapter");
    assert_eq!(whole.exports, trimmed.info.exports);
    assert_eq!(whole.imports.imports().count(), 1);
    assert_eq!(trimmed.info.imports.imports().count(), 0);
    // functions from any collection
    let pairs: Vec<(String, FuncType)> = required.clone().into_iter().collect();
    let pairs = validate_adapter_module(&encoder, &old, pairs, &keys, None);
    assert_eq!(pairs, Ok(whole));
    let ty = FuncType {
        params: vec![ValType::I64, ValType::FuncRef],
        results: vec![ValType::F32],
    };
    assert_eq!(required["b"], ty);
    let refused = validate_adapter_module(&encoder, &old, [("unused", &ty)], &[], None);
    assert_eq!(
        refused.expect_err("a type").to_string(),
        "Validate: AdapterExportType"
    );
    // a key that it does not export
    let refused = validate_adapter_module(&encoder, &old, required, &["a:b/run@2.0.0"], None);
    let text = refused.expect_err("a key").to_string();
    assert_eq!(text, "Validate: MissingInterfaceExport");
}

/// The names for which an adapter was trimmed: with these it is trimmed to the same.
#[test]
fn required_exports() {
    let (main, old) = (main_module(), old());
    let encoder = encoder(&main, &old, &["a:b/run@1.0.0"]);
    let world = ComponentWorld::new(&encoder).expect("a world");
    let required: Vec<&str> = world.required_exports("old").expect("an adapter").collect();
    assert_eq!(required, ["b", "a", ONE]);
    let trimmed = gc::run(&old, &required, None, 16).expect("an adapter");
    assert_eq!(trimmed, world.adapters["old"].wasm);
    assert!(gc::why(&old, &required).expect("chains").len() == 1);
    assert!(world.required_exports("new").is_none());
}

/// A library is handed items, and imports a memory with pages of another size than a main module has as a rule.
#[test]
fn libraries() {
    let main = module(&[], &["go", ONE, TWO].map(idle));
    let which = MainOrAdapter::Adapter("old".to_owned());
    let item = Item {
        alias: "f".to_owned(),
        kind: ExportKind::Func,
        which: which.clone(),
        name: "a".to_owned(),
    };
    let library = LibraryInfo {
        arguments: vec![
            ("all".to_owned(), Instance::MainOrAdapter(which.clone())),
            ("some".to_owned(), Instance::Items(vec![item])),
        ],
        instantiate_after_shims: true,
    };
    let wasm = module(&[("all", "x", 0), ("some", "f", 1)], &[idle("g")]);
    let old = old();
    let mut encoder = encoder(&main, &old, &[]);
    let mut adapter = Adapter::new("library", &wasm);
    adapter.library_info = Some(library.clone());
    encoder.adapters.push(adapter);
    let world = ComponentWorld::new(&encoder).expect("a world");
    let none = &OrderedMap::<String, FuncType>::default();
    let of = |wasm: &[u8], library| validate_adapter_module(&encoder, wasm, none, &[], library);
    let found = of(&wasm, Some(&library)).expect("a library");
    assert_eq!(found, world.adapters["library"].info);
    let all = ImportInstance::Whole(which);
    assert_eq!(found.imports.modules().get("all"), Some(&all));
    // without its information it is an adapter that imports from nowhere
    let refused = of(&wasm, None).expect_err("an import of nothing");
    assert_eq!(refused.to_string(), "Validate: UnknownInterface");
    let pages = b"\0asm\x01\0\0\0\x02\x10\x01\x03env\x06memory\x02\x08\x01\0";
    for library in [None, Some(&library)] {
        let found = of(pages, library).expect("a library");
        let memory = found.imports.imported_memory().expect("a memory");
        assert_eq!(memory.page_size(), 1);
        assert_eq!(found.exports, ValidatedModule::default().exports);
    }
}
