//! The code of docs/FROM-WIT-COMPONENT.md, over a small stand-in of the crates that an encoder is made of.

mod as_there;
mod replacement;
mod wit_component;
mod wit_parser;

use nuigatre::{
    AbiVariant, Adapter, AdapterModuleDidNotExport, ComponentEncoder, ComponentWorld, InterfaceId,
    Lowering, RequiredOptions, Type, TypeId, WorldKey,
};
use replacement::{
    Ids, alone, asked_key, component_world, is_of_exports, lacking, live_types, lowered, resolved,
};
use wit_component::Metadata;
use wit_parser::Resolve;

const PAGE: &str = include_str!("../../../../docs/FROM-WIT-COMPONENT.md");
const CODE: &str = include_str!("replacement.rs");
const AS_THERE: &str = include_str!("as_there.rs");
const TESTS: &str = include_str!("main.rs");
const EXAMPLE: &str = include_str!("../../examples/encoder.rs");

/// A world that imports `a:b/host`, which has `hello: func(x: thing)` and `say: func(x: string)` and the record `thing`; and
/// exports `a:b/run`, whose `go: func(x: thing)` takes it too, and `a:b/more`, which uses that of `a:b/run`.
const SERIALIZED: &str = r#"{
    "worlds": [{"name": "none", "imports": {}, "exports": {}, "package": null}, {"name": "app", "package": 0,
        "imports": {"interface-0": {"interface": {"id": 0}}},
        "exports": {"interface-1": {"interface": {"id": 1}}, "interface-2": {"interface": {"id": 2}}}}],
    "interfaces": [
        {"name": "host", "types": {"thing": 0}, "package": 0, "functions": {
            "hello": {"name": "hello", "kind": "freestanding", "params": [{"name": "x", "type": 0}]},
            "say": {"name": "say", "kind": "freestanding", "params": [{"name": "x", "type": "string"}]}}},
        {"name": "run", "types": {"own": 1}, "package": 0, "functions": {
            "go": {"name": "go", "kind": "freestanding", "params": [{"name": "x", "type": 1}]}}},
        {"name": "more", "types": {"other": 2}, "package": 0, "functions": {
            "stop": {"name": "stop", "kind": "freestanding", "params": [{"name": "x", "type": 2}]}}}],
    "types": [
        {"name": "thing", "kind": {"record": {"fields": [{"name": "x", "type": "u32"}]}}, "owner": {"interface": 0}},
        {"name": "own", "kind": {"record": {"fields": [{"name": "x", "type": "u32"}]}}, "owner": {"interface": 1}},
        {"name": "other", "kind": {"type": 1}, "owner": {"interface": 2}}],
    "packages": [{"name": "a:b", "interfaces": {"host": 0, "run": 1, "more": 2}, "worlds": {"app": 1}}]
}"#;

/// Imports `hello` and `say` of `a:b/host` and `f` of `old`, and exports `go` and a memory; the adapter `old` exports `f` and
/// `stop`.
const MAIN: &[u8] = b"\0asm\x01\0\0\0\x01\x0d\x03\x60\0\0\x60\x01\x7f\0\x60\x02\x7f\x7f\0\
    \x02\x29\x03\x08a:b/host\x05hello\0\x01\x08a:b/host\x03say\0\x02\x03old\x01f\0\0\x03\x02\x01\x01\x05\x03\x01\0\x01\
    \x07\x17\x02\x0aa:b/run#go\0\x03\x06memory\x02\0\x0a\x04\x01\x02\0\x0b";
const OLD: &[u8] = b"\0asm\x01\0\0\0\x01\x08\x02\x60\0\0\x60\x01\x7f\0\x03\x03\x02\0\x01\
    \x07\x15\x02\x01f\0\0\x0da:b/more#stop\0\x01\x0a\x07\x02\x02\0\x0b\x02\0\x0b";

fn resolve() -> Resolve {
    let interfaces = ["host", "run", "more"];
    Resolve::of(
        &["none", "app"],
        &interfaces,
        &["thing", "own", "other"],
        SERIALIZED,
    )
}

fn encoder(adapter: &[u8]) -> wit_component::ComponentEncoder {
    let resolve = resolve();
    let interface = |name: &str| {
        let mut interfaces = resolve.interfaces.iter();
        let found = interfaces.find(|it| it.1.name.as_deref() == Some(name));
        vec![wit_parser::WorldKey::Interface(
            found.expect("an interface").0,
        )]
    };
    let adapter = wit_component::Adapter {
        wasm: adapter.to_vec(),
        required_exports: interface("more"),
        library_info: None,
    };
    wit_component::ComponentEncoder {
        module: MAIN.to_vec(),
        main_module_exports: interface("run"),
        adapters: vec![("old".to_owned(), adapter)],
        reject_legacy_names: false,
        realloc_via_memory_grow: false,
        metadata: Metadata {
            world: resolve.worlds.iter().last().expect("a world").0,
            resolve,
        },
    }
}

#[test]
fn an_encoder_is_made_of_it() {
    let encoder = encoder(OLD);
    let resolve = &encoder.metadata.resolve;
    let (worlds, ids) = (resolved(resolve).expect("worlds"), Ids::of(resolve));
    assert_eq!(resolve.worlds[encoder.metadata.world].name, "app");
    let world = component_world(&encoder, &worlds).expect("a world");
    let imports: Vec<_> = world
        .info
        .imports
        .imports()
        .map(|it| lowered(&world, &ids, it.2))
        .collect();
    let name = |id| resolve.interfaces[id].name.as_deref();
    let imports: Vec<_> = imports
        .iter()
        .map(|it| it.map(|(id, is_indirect)| (name(id), is_indirect)))
        .collect();
    assert_eq!(
        imports,
        [
            Some((Some("host"), false)),
            Some((Some("host"), true)),
            None
        ]
    );
    let [host, run, more] = [0, 1, 2].map(InterfaceId);
    assert!(is_of_exports(&world, more, run) && is_of_exports(&world, run, run));
    assert!(!is_of_exports(&world, run, more) && !is_of_exports(&world, more, host));
    let types = live_types(&world, &ids, host);
    let types: Vec<_> = types
        .iter()
        .map(|id| resolve.types[*id].name.as_deref())
        .collect();
    assert_eq!(types, [Some("thing")]);
    assert!(live_types(&world, &ids, run).is_empty());
    for key in [WorldKey::Name("run".to_owned()), WorldKey::Interface(more)] {
        assert_eq!(asked_key(&ids.key(&key)), key.to_string());
    }
}

#[test]
fn modules_alone() {
    let encoder = encoder(OLD);
    let worlds = resolved(&encoder.metadata.resolve).expect("worlds");
    let world = component_world(&encoder, &worlds).expect("a world");
    let mut parts = ComponentEncoder::new(&worlds, "app", MAIN);
    let mut adapter = Adapter::new("old", OLD);
    adapter.required_exports.push("a:b/more");
    parts.adapters.push(adapter);
    let (main, adapted) = alone(&parts, &parts.adapters[0]).expect("two modules");
    assert_eq!(
        (&main, &adapted),
        (&world.info, &world.adapters["old"].info)
    );
}

#[test]
fn an_export_that_is_missing() {
    let encoder = encoder(
        &OLD.iter()
            .map(|it| if *it == b'f' { b'g' } else { *it })
            .collect::<Vec<_>>(),
    );
    let worlds = resolved(&encoder.metadata.resolve).expect("worlds");
    let error = component_world(&encoder, &worlds).expect_err("no `f`");
    assert_eq!(
        lacking(&error),
        Some(&AdapterModuleDidNotExport("f".to_owned()))
    );
    let other = ComponentWorld::new(&ComponentEncoder::new("{}", 0, b"")).expect_err("no worlds");
    assert_eq!(lacking(&other), None);
    let right = component_world(&self::encoder(OLD), &worlds).expect("a world");
    as_there::are_shared(worlds, right, other);
}

#[test]
fn what_is_as_there() {
    let encoder = encoder(OLD);
    let worlds = resolved(&encoder.metadata.resolve).expect("worlds");
    let world = component_world(&encoder, &worlds).expect("a world");
    let mut parts = ComponentEncoder::new(&worlds, "app", MAIN);
    let mut old = Adapter::new("old", OLD);
    old.required_exports.push("a:b/more");
    parts.adapters.push(old);

    let (names, wholes) = as_there::instances(&world.info.imports);
    let imports = [("a:b/host", "hello"), ("a:b/host", "say"), ("old", "f")];
    assert_eq!((&names[..], wholes), (&imports[..], vec![]));
    let mut imports = world.info.imports.imports();
    assert!(imports.all(|it| as_there::type_of(it.2).is_none()));
    let exports = as_there::exports(&world.info.exports);
    let exports: Vec<_> = exports
        .iter()
        .map(|it| (it.0, as_there::lifted(it.1)))
        .collect();
    let lifted = Some(AbiVariant::GuestExport);
    assert_eq!(exports, [("a:b/run#go", lifted), ("memory", None)]);
    let options: Vec<_> = world.import_map[&Some("a:b/host")]
        .lowerings
        .values()
        .map(as_there::options)
        .collect();
    let of_text = RequiredOptions::MEMORY | RequiredOptions::STRING_ENCODING;
    assert_eq!(options, [RequiredOptions::empty(), of_text]);
    let lifted = as_there::lifted_options(&world, &parts).expect("options");
    assert_eq!(
        lifted,
        [("a:b/run#go".to_owned(), RequiredOptions::empty())]
    );

    let (position, adapter, is_first, is_last) = as_there::adapter(&world, "old").expect("it");
    assert_eq!((position, is_first, is_last), (0, true, true));
    let [host, run, more] = [0, 1, 2].map(InterfaceId);
    assert_eq!(as_there::uses(&world, host, TypeId(0), run), (true, false));
    assert_eq!(as_there::uses(&world, more, TypeId(0), run), (false, true));

    let required = world.info.imports.required_from_adapter("old");
    let required = required
        .iter()
        .map(|(name, ty)| (name.clone(), ty.clone()))
        .collect();
    let (wasm, info) =
        as_there::trimmed(&parts, OLD, &required, &["a:b/more"], None).expect("an adapter");
    assert_eq!((&wasm, &info), (&adapter.wasm, &adapter.info));
    let required = world.required_exports("old").expect("the adapter");
    assert_eq!(required.collect::<Vec<_>>(), ["f", "a:b/more#stop"]);

    let functions = as_there::imported_functions(MAIN).expect("a module");
    let functions: Vec<_> = functions
        .iter()
        .map(|it| (&*it.1, it.2.to_string()))
        .collect();
    let wanted = [
        ("hello", "(i32) -> ()"),
        ("say", "(i32, i32) -> ()"),
        ("f", "() -> ()"),
    ];
    assert_eq!(functions, wanted.map(|(name, ty)| (name, ty.to_owned())));
    let explained = as_there::explained(&world, &parts).expect("paths");
    let path = |name: &str| vec![format!("main imports a:b/host {name}")];
    let wanted = ["hello", "say"].map(|name| (name.to_owned(), path(name)));
    assert_eq!(explained, wanted);
    assert_eq!(as_there::owned(world.adapters), [("old".to_owned(), wasm)]);
}

/// Imports `f` of `env` twice.
const TWICE: &[u8] =
    b"\0asm\x01\0\0\0\x01\x04\x01\x60\0\0\x02\x11\x02\x03env\x01f\0\0\x03env\x01f\0\0";

/// Imports `f` of `env`; the function 1, `inner`, calls it, and the function 2, the export `b`, calls that.
const CALLS: &[u8] = b"\0asm\x01\0\0\0\x01\x04\x01\x60\0\0\x02\x09\x01\x03env\x01f\0\0\x03\x03\x02\0\0\x07\x05\x01\x01b\0\x02\
    \x0a\x0b\x02\x04\0\x10\0\x0b\x04\0\x10\x01\x0b\0\x0f\x04name\x01\x08\x01\x01\x05inner";

#[test]
fn modules_as_there() {
    let encoder = encoder(OLD);
    let worlds = resolved(&encoder.metadata.resolve).expect("worlds");
    let mut parts = ComponentEncoder::new(&worlds, "app", MAIN);
    parts.main_module_exports = Some(vec!["a:b/run"]);
    let mut old = Adapter::new("old", OLD);
    old.required_exports.push("a:b/more");
    parts.adapters.push(old);
    let world = ComponentWorld::new(&parts).expect("a world");
    let (info, map) = as_there::validated(&parts).expect("a module");
    assert_eq!((&info, &map), (&world.info, &world.module_import_map));
    assert_eq!(as_there::original(map.as_ref(), "old", "f"), "f");
    let (_, map) = nuigatre::ModuleImportMap::new(TWICE.into()).expect("a module");
    assert_eq!(as_there::original(map.as_ref(), "env", "f [v2]"), "f");

    let [host, run] = [0, 1].map(InterfaceId);
    let (abi, names) = as_there::of_function(&info.exports, &WorldKey::Interface(run), "go");
    assert_eq!((abi, names), (Some(AbiVariant::GuestExport), [None; 3]));
    let (memory, names, reallocs) =
        as_there::of_module(&info.exports, Some(host), "say", TypeId(0));
    assert_eq!(memory.map(|it| it.0), Some("memory"));
    assert_eq!((names, reallocs), ([None; 8], 0));

    let library = as_there::library("go");
    let wanted = library.clone();
    parts.adapters[0].library_info = Some(library);
    let whole = ComponentWorld::new(&parts).expect("a world");
    assert_eq!(whole.adapters["old"].library_info, Some(wanted));

    let chain = as_there::chain(CALLS, &["b"]).expect("a chain");
    let items = ["func 2", "inner", "func 0"].map(str::to_owned);
    assert_eq!(chain, Some(("b".to_owned(), items.to_vec())));
    assert_eq!(as_there::chain(OLD, &["f"]), Ok(None));
    let begun = as_there::begun(CALLS).expect("paths");
    assert_eq!(begun, [("export b".to_owned(), "f".to_owned())]);
}

#[test]
fn maps_and_options_as_there() {
    let encoder = encoder(OLD);
    let worlds = resolved(&encoder.metadata.resolve).expect("worlds");
    let world = component_world(&encoder, &worlds).expect("a world");
    let abi = AbiVariant::GuestImport;
    let say = as_there::lowering(&world, "a:b/host", "say", abi);
    let Some((Lowering::Indirect { sig, .. }, true)) = say else {
        panic!("not lowered indirectly, or not first: {say:?}");
    };
    // (ptr, len), of the core type (i32, i32) -> ()
    let (params, core) = as_there::signature(sig);
    let wanted = [wit_parser::WasmType::Pointer, wit_parser::WasmType::Length];
    assert_eq!(params, wanted);
    let codes = core.params.into_iter().map(as_there::code);
    assert_eq!(codes.collect::<Vec<_>>(), [Some(0x7f); 2]);
    assert_eq!(as_there::abi(abi), wit_parser::AbiVariant::GuestImport);
    assert_eq!(as_there::lowering(&world, "a:b/run", "go", abi), None);
    let [host, run, more] = [0, 1, 2].map(InterfaceId);
    let ty = TypeId(0);
    let types = as_there::members(&world.live_type_imports[&host]);
    assert_eq!(types, (vec![ty], Some(ty), Some(ty)));
    let used = as_there::members(&world.exports_used[&more]);
    assert!(used.0.contains(&run) && used.1.is_some() && used.2.is_some());

    let mut parts = ComponentEncoder::new(&worlds, "app", MAIN);
    let mut old = Adapter::new("old", OLD);
    old.required_exports.push("a:b/more");
    parts.adapters.push(old);
    let chosen = as_there::with_options(&parts, "hello", RequiredOptions::MEMORY).expect("it");
    let hello = as_there::lowering(&chosen, "a:b/host", "hello", abi).expect("a lowering");
    assert_eq!(as_there::options(hello.0), RequiredOptions::MEMORY);
}

/// A world that has `future<u8>` in a function, and a module that makes one.
const FUTURE: &str = r#"{
    "worlds": [{"name": "app", "package": null, "exports": {}, "imports": {"make": {"function": {"name": "make",
        "kind": "freestanding", "params": [], "result": 0}}}}],
    "interfaces": [], "types": [{"name": null, "kind": {"future": "u8"}, "owner": null}], "packages": []
}"#;
const MAKES: &[u8] =
    b"\0asm\x01\0\0\0\x01\x05\x01\x60\0\x01\x7e\x02\x1c\x01\x05$root\x12[future-new-0]make\0\0";

#[test]
fn payloads_as_there() {
    let resolved: nuigatre::Resolved = FUTURE.parse().expect("worlds");
    let encoder = ComponentEncoder::new(&resolved, 0, MAKES);
    let world = ComponentWorld::new(&encoder).expect("a world");
    let mut imports = world.info.imports.imports();
    let payload = imports
        .next()
        .and_then(|it| as_there::payload(it.2, &resolved));
    let Some((Some(ty), false)) = payload else {
        panic!("no payload: {payload:?}");
    };
    let ids = Ids::of(&resolve());
    assert!(matches!(as_there::ty(ty, &ids), wit_parser::Type::U8));
    let own = as_there::ty(Type::Id(TypeId(1)), &ids);
    assert!(matches!(own, wit_parser::Type::Id(id) if id.index() == 1));
}

/// What the table of the page says is here is compiled here: each word of its code, and of what is the same as there.
#[test]
fn the_table_of_the_page() {
    let (_, table) = PAGE.split_once("## Differences").expect("the table");
    let is_word = |letter: char| letter.is_alphanumeric() || letter == '_';
    let compiled = [CODE, AS_THERE, TESTS, EXAMPLE];
    let mut words = 0;
    for row in table.lines().filter(|line| line.starts_with("| ")).skip(1) {
        let cells: Vec<&str> = row.split(" | ").collect();
        let [there, here, ..] = cells[..] else {
            panic!("not two cells: {row}");
        };
        let said = if here.starts_with("the same") {
            [there, here]
        } else {
            ["", here]
        };
        let code = said
            .iter()
            .flat_map(|cell| cell.split('`').skip(1).step_by(2));
        for word in code
            .flat_map(|code| code.split(|it| !is_word(it)))
            .filter(|it| !it.is_empty())
        {
            let mut all = compiled
                .iter()
                .flat_map(|text| text.split(|it| !is_word(it)));
            assert!(all.any(|it| it == word), "not compiled: {word} of {row}");
            words += 1;
        }
    }
    assert!(words > 50, "{words} words");
}

/// The blocks of code of the page are in the code that is compiled here, as they are.
#[test]
fn the_code_of_the_page() {
    let blocks: Vec<&str> = PAGE
        .split("```rust\n")
        .skip(1)
        .map(|it| it.split("```").next().expect("a block"))
        .collect();
    assert!(blocks.len() >= 5);
    for block in blocks {
        assert!(CODE.contains(block), "not compiled:\n{block}");
    }
}

/// What the example `encoder` uses of the crate is on the page.
#[test]
fn what_the_example_uses() {
    let (_, used) = EXAMPLE.split_once("use nuigatre::{").expect("what it uses");
    let (used, _) = used.split_once('}').expect("its end");
    let words: Vec<&str> = used
        .split([',', '\n', ' '])
        .filter(|word| !word.is_empty())
        .collect();
    assert!(words.len() > 5);
    let mut of_page = PAGE.split(|letter: char| !letter.is_alphanumeric() && letter != '_');
    for word in words {
        assert!(
            of_page.clone().any(|it| it == word),
            "not on the page: {word}"
        );
    }
    assert!(of_page.next().is_some());
}
