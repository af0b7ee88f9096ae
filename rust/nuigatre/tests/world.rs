//! The world of a small component, and why there is none.

use nuigatre::{
    AbiVariant, Adapter, AdapterModuleDidNotExport, ComponentEncoder, ComponentWorld, DedupeFault,
    Error, Export, ExportMap, FuncType, Import, ImportInstance, ImportOptions, ImportedKind,
    InterfaceId, JsonFault, Lowering, MainOrAdapter, ModuleImportMap, OrderedMap, Plan, PlanFault,
    Problem, ReadFault, RequiredOptions, ResolveFault, ValidateFault, World, WorldFault, WorldKey,
    validate_adapter_module, validate_module,
};
use std::collections::HashSet;
use std::thread;

/// A world that imports the interface `my:demo/host`, which has the function `hello: func(x: u32)`.
const WORLDS: &str = r#"{
    "worlds": [{"name": "demo", "imports": {"interface-0": {"interface": {"id": 0}}}, "exports": {}, "package": 0}],
    "interfaces": [{"name": "host", "types": {}, "package": 0, "functions": {"hello": {
        "name": "hello", "kind": "freestanding", "params": [{"name": "x", "type": "u32"}], "result": null}}}],
    "types": [],
    "packages": [{"name": "my:demo", "interfaces": {"host": 0}, "worlds": {"demo": 0}}]
}"#;

/// Imports `hello` of `my:demo/host` twice, and `b` of `old`.
const MAIN: &[u8] = b"\0asm\x01\0\0\0\x01\x08\x02\x60\x01\x7f\0\x60\0\0\x02\x33\x03\x0cmy:demo/host\x05hello\0\0\x0cmy:demo/host\x05hello\0\0\x03old\x01b\0\x01";

/// Three functions, of which `a` is the first, and `b` the second, which calls the third.
const OLD: &[u8] = b"\0asm\x01\0\0\0\x01\x04\x01\x60\0\0\x03\x04\x03\0\0\0\x07\x09\x02\x01a\0\0\x01b\0\x01\x0a\x0c\x03\x02\0\x0b\x04\0\x10\x02\x0b\x02\0\x0b";

/// The same without the first.
const TRIMMED: &[u8] = b"\0asm\x01\0\0\0\x01\x04\x01\x60\0\0\x03\x03\x02\0\0\x07\x05\x01\x01b\0\0\x0a\x09\x02\x04\0\x10\x01\x0b\x02\0\x0b";

fn encoder() -> ComponentEncoder<'static> {
    let mut encoder = ComponentEncoder::new(WORLDS, World::Name("demo"), MAIN);
    encoder.adapters.push(Adapter::new("old", OLD));
    encoder
}

/// The fault and its text, which the fault has too, but for the path of JSON.
fn fault_of(encoder: &ComponentEncoder<'_>) -> (WorldFault, String) {
    match ComponentWorld::new(encoder) {
        Err(Error::World(error)) => {
            let fault = error.fault().clone();
            if !matches!(fault, WorldFault::Json(_)) {
                assert_eq!(fault.to_string(), error.to_string());
            }
            (fault, error.to_string())
        }
        answer => panic!("no fault of a world: {answer:?}"),
    }
}

/// The paths to what the component imports, and what it imports of each interface.
#[test]
fn paths_and_imported_parts() {
    let encoder = encoder();
    let paths = encoder.paths_to_json("all").expect("paths");
    assert!(paths.contains("my:demo/host") && paths.contains("hello [v2]"));
    // of a key each item says whether all paths go through it, and none does here
    let of_key = encoder.paths_to_json("my:demo").expect("paths");
    assert!(of_key.contains(",\"only\":false"));
    assert_eq!(of_key.replace(",\"only\":false", ""), paths);
    let parts = encoder.imported_parts().expect("imports");
    let [part] = &parts[..] else {
        panic!("{parts:?}")
    };
    assert_eq!(
        (&*part.interface, part.kind),
        ("my:demo/host", ImportedKind::Main)
    );
    let [importing] = &part.modules[..] else {
        panic!("{parts:?}")
    };
    assert_eq!(
        (&importing.module, importing.imports),
        (&MainOrAdapter::Main, 2)
    );
    assert!(importing.by.is_empty() && importing.exports.is_empty());
}

/// A key that asks about no import, with the imports that there are.
#[test]
fn paths_to_an_unknown_import() {
    match encoder().paths_to_json("my:demo/hosts") {
        Err(Error::World(error)) => {
            let wanted = WorldFault::UnknownImport("my:demo/hosts".to_owned());
            assert_eq!(error.fault(), &wanted);
            assert_eq!(error.to_string(), "UnknownImport `my:demo/hosts`");
            let place = error.place().expect("the imports");
            assert_eq!(place.to_string(), "imports \"my:demo/host\"");
        }
        answer => panic!("no fault of a key: {answer:?}"),
    }
}

#[test]
fn main_module() {
    let world = ComponentWorld::new(&encoder()).expect("a world");
    let (module, map) = ModuleImportMap::new(MAIN.into()).expect("a module");
    assert_eq!(module, world.module);
    assert_eq!(map, world.module_import_map);
    let map = world.module_import_map.expect("a renamed import");
    assert_eq!(map.renames().len(), 1);
    assert_eq!(
        map.original_name("my:demo/host", "hello [v2]"),
        Some("hello")
    );
    let hello = Import::InterfaceFunc(
        WorldKey::Interface(InterfaceId(0)),
        InterfaceId(0),
        "hello".to_owned(),
        AbiVariant::GuestImport,
    );
    let b = Import::AdapterExport {
        adapter: "old".to_owned(),
        func: "b".to_owned(),
        ty: FuncType {
            params: Vec::new(),
            results: Vec::new(),
        },
    };
    let imports: Vec<_> = world.info.imports.imports().collect();
    assert_eq!(
        imports,
        [
            ("my:demo/host", "hello", &hello),
            ("my:demo/host", "hello [v2]", &hello),
            ("old", "b", &b)
        ]
    );
    let required = world.info.imports.required_from_adapter("old");
    assert_eq!(required.keys().collect::<Vec<_>>(), ["b"]);
    assert!(world.info.imports.required_from_adapter("new").is_empty());
    assert!(matches!(
        world.info.imports.modules().get("old"),
        Some(ImportInstance::Names(names)) if names.len() == 1
    ));
    assert_eq!(
        world.info.imports.get("my:demo/host", "hello"),
        Some(&hello)
    );
    assert_eq!(world.info.imports.get("my:demo/host", "goodbye"), None);
    assert_eq!(world.info.imports.imported_memory(), None);
    assert_eq!(world.info.exports.memory(), None);
}

/// A world that exports `run: func(s: string) -> string`.
const EXPORTING: &str = r#"{
    "worlds": [{"name": "demo", "imports": {}, "exports": {"run": {"function": {"name": "run", "kind": "freestanding",
        "params": [{"name": "s", "type": "string"}], "result": "string"}}}, "package": 0}],
    "interfaces": [],
    "types": [],
    "packages": [{"name": "my:demo", "interfaces": {}, "worlds": {"demo": 0}}]
}"#;

/// Exports `run`, of two i32 and with an i32.
const RUN: &[u8] = b"\0asm\x01\0\0\0\x01\x07\x01\x60\x02\x7f\x7f\x01\x7f\x03\x02\x01\0\x07\x07\x01\x03run\0\0\x0a\x05\x01\x03\0\0\x0b";

/// The canonical options of an exported function (Canonical ABI, "canon lift"): its string is lowered, and lifted.
#[test]
fn options_of_exported_functions() {
    let encoder = ComponentEncoder::new(EXPORTING, World::Name("demo"), RUN);
    let world = ComponentWorld::new(&encoder).expect("a world");
    let options = world.export_options(&encoder).expect("the same worlds");
    let run = world.info.exports.get("run").expect("an export");
    let passed = RequiredOptions::MEMORY | RequiredOptions::STRING_ENCODING;
    assert_eq!(options.get(run), Some(passed | RequiredOptions::REALLOC));
    assert_eq!(options.get(&Export::Initialize), None);
}

#[test]
fn adapters_and_lowerings() {
    let world = ComponentWorld::new(&encoder()).expect("a world");
    let old = world.adapters.get("old").expect("an adapter");
    assert_eq!(old.wasm, TRIMMED);
    assert_eq!(old.library_info, None);
    assert_eq!(world.import_map.len(), 1);
    let host = world
        .import_map
        .get(&Some("my:demo/host"))
        .expect("an interface");
    assert_eq!(host.interface, Some(InterfaceId(0)));
    let key = ("hello", AbiVariant::GuestImport);
    let Some(Lowering::Direct { options }) = host.lowerings.get(&key) else {
        panic!("not direct");
    };
    assert!(options.is_empty());
    let imports = &world.info.imports;
    for name in ["hello", "hello [v2]"] {
        let import = imports.get("my:demo/host", name).expect("an import");
        let lowering = Lowering::Direct { options: *options };
        assert_eq!(world.lowering(import), Some(&lowering));
    }
    let key = WorldKey::Interface(InterfaceId(0));
    assert_eq!(world.imported(&key), Some(("my:demo/host", host)));
    assert_eq!(world.imported(&WorldKey::Name("host".into())), None);
    assert_eq!(world.imported(&WorldKey::Interface(InterfaceId(1))), None);
    let b = imports.get("old", "b").expect("an import");
    assert_eq!(world.lowering(b), None);
    assert!(world.live_type_imports.is_empty() && world.exports_used.is_empty());
    assert!(!world.can_use_context_slot_1());
}

#[test]
fn a_world_by_its_index() {
    let mut encoder = encoder();
    encoder.world = World::Index(0);
    let by_name = ComponentWorld::new(&self::encoder());
    assert_eq!(ComponentWorld::new(&encoder), by_name);
    encoder.world = World::Index(1);
    let unknown = (WorldFault::UnknownIndex(1), "UnknownIndex 1".into());
    assert_eq!(fault_of(&encoder), unknown);
    encoder.world = World::Name("ro`ot");
    let unknown = WorldFault::UnknownWorld("ro`ot".into());
    assert_eq!(fault_of(&encoder), (unknown, "UnknownWorld `ro`ot`".into()));
}

/// Where worlds are not JSON.
fn position_of(fault: &WorldFault) -> Option<usize> {
    match fault {
        WorldFault::Json(JsonFault::NotJson { position, .. }) => Some(*position),
        _ => None,
    }
}

#[test]
fn faults_have_their_paths() {
    let refused = |worlds: &str| {
        let mut encoder = encoder();
        encoder.resolve = worlds.into();
        fault_of(&encoder)
    };
    let wrong = |worlds: &str| match refused(worlds) {
        (WorldFault::Json(fault), text) => {
            let JsonFault::Wrong { path, problem, .. } = &fault else {
                panic!("no path: {fault:?}");
            };
            assert_eq!(text, format!("Json: {fault}"));
            (path.clone(), *problem, fault.to_string())
        }
        other => panic!("no fault of JSON: {other:?}"),
    };
    let function = "interfaces[0].functions[\"hello\"]";
    let kind = format!("{function}.kind");
    assert_eq!(
        wrong(&WORLDS.replace("freestanding", "standing")),
        (kind.clone(), Problem::Unknown, kind + ": unknown")
    );
    let params = format!("{function}.params");
    assert_eq!(
        wrong(&WORLDS.replace("\"params\"", "\"parameters\"")),
        (params.clone(), Problem::Missing, params + ": missing")
    );
    assert_eq!(
        wrong("[]"),
        (String::new(), Problem::NotAnObject, "not an object".into())
    );
    let cut = &WORLDS[..WORLDS.len() - 1];
    for (worlds, at) in [
        ("]", 0),
        ("{]", 1),
        ("{\"worlds\":01}", 10),
        (cut, cut.len()),
    ] {
        let (fault, text) = refused(worlds);
        assert_eq!(position_of(&fault), Some(at), "{worlds}");
        assert_eq!(text, format!("Json: not JSON at byte {at}"));
    }
    assert_eq!(
        refused(&WORLDS.replace("{\"id\": 0}", "{\"id\": 1}")),
        (
            WorldFault::Resolve(ResolveFault::IdRange),
            "Resolve: IdRange".into()
        )
    );
}

/// The text of the worlds is one value of the message, and says nothing of what comes after it.
#[test]
fn worlds_are_one_value() {
    let spliced = format!("{WORLDS},\"other\":1");
    let mut encoder = encoder();
    for (worlds, at) in [
        (&*spliced, WORLDS.len()),
        ("", 0),
        ("{},\"world\":\"demo\",\"length\":0", 2),
        ("1,2", 1),
    ] {
        encoder.resolve = worlds.into();
        assert_eq!(position_of(&fault_of(&encoder).0), Some(at), "{worlds}");
    }
    let spaced = format!(" \n{WORLDS}\t ");
    encoder.resolve = (&spaced).into();
    assert!(ComponentWorld::new(&encoder).is_ok());
}

#[test]
fn modules_that_are_refused() {
    let mut adapted = encoder();
    adapted.adapters[0].wasm = b"\0asm\x02\0\0\0";
    let not_wasm = ValidateFault::Read(ReadFault::NotWasm);
    assert_eq!(
        fault_of(&adapted),
        (
            WorldFault::Adapter("old".into(), not_wasm),
            "World: Adapter `old`: Read: NotWasm".into()
        )
    );
    let mut main = encoder();
    main.module = b"";
    assert_eq!(
        fault_of(&main),
        (
            WorldFault::Dedupe(DedupeFault::Read(ReadFault::NotWasm)),
            "Main module: Read: NotWasm".into()
        )
    );
    let mut twice = encoder();
    twice.adapters.push(twice.adapters[0].clone());
    assert_eq!(
        fault_of(&twice),
        (
            WorldFault::AdapterTwice("old".into()),
            "AdapterTwice `old`".into()
        )
    );
    let mut key = encoder();
    key.main_module_exports = Some(vec!["run"]);
    assert_eq!(
        fault_of(&key),
        (
            WorldFault::UnknownKey("run".into()),
            "UnknownKey `run`".into()
        )
    );
    // imports `b` of `old`, which it does not export
    let mut lacking = encoder();
    let wasm = OLD
        .iter()
        .map(|byte| if *byte == b'b' { b'c' } else { *byte });
    let wasm: Vec<u8> = wasm.collect();
    lacking.adapters[0].wasm = &wasm;
    let (fault, text) = fault_of(&lacking);
    let missing = AdapterModuleDidNotExport("b".into());
    let missing = ValidateFault::AdapterModuleDidNotExport(missing);
    assert_eq!(fault, WorldFault::Adapter("old".into(), missing), "{text}");
}

/// A world and its plan on the stack that they need, of JSON that nests as deep as it may, and deeper.
#[test]
fn on_a_stack_of_its_size() {
    let nested = |depth: usize| {
        let value = "[".repeat(depth) + &"]".repeat(depth);
        WORLDS.replace(
            "\"result\": null",
            &format!("\"result\": null, \"docs\": {value}"),
        )
    };
    for (depth, is_read) in [(1, true), (110, true), (100_000, false)] {
        let worlds = nested(depth);
        thread::scope(|scope| {
            let call = || {
                let mut encoder = encoder();
                encoder.resolve = (&worlds).into();
                let is_made = ComponentWorld::new(&encoder).is_ok();
                assert_eq!(Plan::new(&encoder).is_ok(), is_made);
                assert_eq!(validate_module(&encoder, MAIN, None).is_ok(), is_made);
                let none = &OrderedMap::<String, FuncType>::default();
                let old = validate_adapter_module(&encoder, OLD, none, &[], None);
                assert_eq!(old.is_ok(), is_made);
                is_made
            };
            let thread = thread::Builder::new().stack_size(256 << 10);
            let is_made = thread.spawn_scoped(scope, call).expect("a thread").join();
            assert_eq!(is_made.expect("no panic"), is_read, "{depth}");
        });
    }
}

/// A library is handed the items that its arguments say, and its bytes stay as they are.
#[test]
fn libraries() {
    use nuigatre::{ExportKind, Instance, Item, LibraryInfo};
    let mut encoder = encoder();
    let which = MainOrAdapter::Adapter("old \"x\"".to_owned());
    let item = Item {
        alias: "b".to_owned(),
        kind: ExportKind::Func,
        which: which.clone(),
        name: "c".to_owned(),
    };
    let library = LibraryInfo {
        arguments: vec![
            ("all".to_owned(), Instance::MainOrAdapter(which)),
            ("old".to_owned(), Instance::Items(vec![item.clone()])),
        ],
        instantiate_after_shims: true,
    };
    // imports `b` of `old`
    let wasm = b"\0asm\x01\0\0\0\x01\x04\x01\x60\0\0\x02\x09\x01\x03old\x01b\0\0";
    let mut adapter = Adapter::new("lib", wasm);
    adapter.library_info = Some(library.clone());
    encoder.adapters.push(adapter);
    let world = ComponentWorld::new(&encoder).expect("a world");
    let made = world.adapters.get("lib").expect("a library");
    assert_eq!(made.wasm, encoder.adapters[1].wasm);
    assert_eq!(made.library_info, Some(library));
    let imports: Vec<_> = made.info.imports.imports().collect();
    assert_eq!(imports, [("old", "b", &Import::Item(item))]);
}

/// Options that the encoder has for functions of a name: those of the first entry of it, all that are not in them left out. A
/// function that needs a memory or a realloc is lowered indirectly.
#[test]
fn import_options() {
    let lowered = |options: &[ImportOptions<'static>]| {
        let mut encoder = encoder();
        encoder.import_options = options.to_vec();
        let world = ComponentWorld::new(&encoder).expect("a world");
        let key = ("hello", AbiVariant::GuestImport);
        match &world.import_map[&Some("my:demo/host")].lowerings[&key] {
            Lowering::Direct { options } => (*options, false),
            Lowering::Indirect { options, .. } => (*options, true),
            other => panic!("no function: {other:?}"),
        }
    };
    let all = RequiredOptions::MEMORY
        | RequiredOptions::REALLOC
        | RequiredOptions::STRING_ENCODING
        | RequiredOptions::ASYNC;
    let none = RequiredOptions::default();
    assert_eq!(lowered(&[]), (none, false));
    let others = ["other", "", "Hello", "hello \"\\\u{1}"];
    assert_eq!(
        lowered(&others.map(|name| ImportOptions::new(name, all))),
        (none, false)
    );
    for (options, indirect) in [
        (RequiredOptions::MEMORY, true),
        (RequiredOptions::REALLOC, true),
        (RequiredOptions::STRING_ENCODING, false),
        (RequiredOptions::ASYNC, false),
        (all, true),
        (none, false),
    ] {
        let [first, second] = [options, all].map(|it| ImportOptions::new("hello", it));
        assert_eq!(lowered(&[first, second]), (options, indirect));
    }
}

/// A plan and a validation take the same options.
#[test]
fn plan_by_import_options() {
    let mut encoder = encoder();
    encoder.import_options = vec![ImportOptions::new("hello", RequiredOptions::MEMORY)];
    match Plan::new(&encoder) {
        Err(Error::World(error)) => {
            assert_eq!(*error.fault(), WorldFault::Plan(PlanFault::NoMemory));
        }
        answer => panic!("no fault: {answer:?}"),
    }
    validate_module(&encoder, MAIN, None).expect("a valid module");
    let worlds = WORLDS.replace("u32", "string");
    let main =
        b"\0asm\x01\0\0\0\x01\x06\x01\x60\x02\x7f\x7f\0\x02\x16\x01\x0cmy:demo/host\x05hello\0\0";
    let mut encoder = ComponentEncoder::new(&worlds, World::Name("demo"), main);
    encoder
        .import_options
        .push(ImportOptions::new("hello", RequiredOptions::default()));
    let plan = Plan::new(&encoder).expect("a plan");
    assert_eq!(plan.uses()[0].slot, None);
}

#[test]
fn plan() {
    let plan = Plan::new(&encoder()).expect("a plan");
    let [hello] = plan.uses() else {
        panic!("not one function: {plan:?}");
    };
    assert_eq!(hello.module, MainOrAdapter::Main);
    assert_eq!(hello.interface.as_deref(), Some("my:demo/host"));
    assert_eq!(
        (hello.name.as_str(), hello.abi),
        ("hello", AbiVariant::GuestImport)
    );
    assert_eq!((hello.slot, &hello.realloc), (None, &None));
    assert!((&plan).into_iter().eq(plan.uses()));
    assert!(plan.iter().cloned().eq(plan.clone()));
    let both = ComponentWorld::with_plan(&encoder()).expect("both");
    let world = ComponentWorld::new(&encoder()).expect("a world");
    assert_eq!(both, (world, plan.clone()));
    let line = "main my:demo/host hello sync slot - realloc -";
    assert_eq!(hello.to_string(), line);
    // both imports of `hello` are this use, and that of `old` is none
    let world = ComponentWorld::new(&encoder()).expect("a world");
    let uses = world.info.imports.imports();
    let uses: Vec<_> = uses.map(|it| plan.of(&world, None, it.2)).collect();
    assert_eq!(uses, [Some(hello), Some(hello), None]);
    let imports = plan.imports(&world);
    let imports: Vec<_> = imports
        .map(|it| (it.adapter, it.module, it.name, it.used))
        .collect();
    let named = |name| (None, "my:demo/host", name, hello);
    assert_eq!(imports, [named("hello"), named("hello [v2]")]);
    let import = world.info.imports.get("my:demo/host", "hello");
    let import = import.expect("an import");
    assert_eq!(plan.of(&world, Some("old"), import), None);
    assert!(HashSet::from([hello]).contains(hello));
}

/// What is not printed is escaped in texts, and an adapter is known by its name, whatever that is.
#[test]
fn names_in_texts() {
    let mut encoder = encoder();
    encoder.main_module_exports = Some(vec!["a\u{1b}[2J\u{202e}\"`"]);
    let (fault, text) = fault_of(&encoder);
    assert_eq!(
        fault,
        WorldFault::UnknownKey("a\u{1b}[2J\u{202e}\"`".into())
    );
    assert_eq!(text, "UnknownKey `a\\u{1b}[2J\\u{202e}\"``");
    let mut encoder = self::encoder();
    encoder.adapters[0].wasm = b"\0asm\x01\0\0\0";
    let other = "old`: adapter module did not export `b";
    encoder.adapters.push(Adapter::new(other, OLD));
    let missing = AdapterModuleDidNotExport("b".into());
    let missing = ValidateFault::AdapterModuleDidNotExport(missing);
    let (fault, text) = fault_of(&encoder);
    assert_eq!(fault, WorldFault::Adapter("old".into(), missing));
    assert_eq!(text, format!("World: Adapter `{other}`"));
}

/// Which module exports what is under a key.
#[test]
fn exported() {
    let worlds = WORLDS.replace(
        "\"exports\": {}",
        r#""exports": {"b": {"function": {"name": "b", "kind": "freestanding", "params": [], "result": null}},
            "a": {"function": {"name": "a", "kind": "freestanding", "params": [], "result": null}}}"#,
    );
    let mut encoder = ComponentEncoder::new(&worlds, World::Name("demo"), OLD);
    encoder.adapters.push(Adapter::new("old", OLD));
    encoder.adapters[0].required_exports.push("b");
    let world = ComponentWorld::new(&encoder).expect("a world");
    let key = |name: &str| WorldKey::Name(name.into());
    let exported = |name: &str| world.exported(&key(name)).map(|it| (it.0, &it.1.exports));
    let old: &ExportMap = &world.adapters["old"].info.exports;
    assert_eq!(exported("a"), Some((None, &world.info.exports)));
    assert_eq!(exported("b"), Some((Some("old"), old)));
    assert_eq!(exported("c"), None);
    assert_eq!(world.exported(&WorldKey::Interface(InterfaceId(0))), None);
}

/// A function that takes a string needs a memory, which the main module has not.
#[test]
fn no_plan() {
    let worlds = WORLDS.replace("u32", "string");
    let main =
        b"\0asm\x01\0\0\0\x01\x06\x01\x60\x02\x7f\x7f\0\x02\x16\x01\x0cmy:demo/host\x05hello\0\0";
    let encoder = ComponentEncoder::new(&worlds, World::Name("demo"), main);
    ComponentWorld::new(&encoder).expect("a world");
    let both = ComponentWorld::with_plan(&encoder).map(|it| it.1);
    assert_eq!(both, Plan::new(&encoder));
    match Plan::new(&encoder) {
        Err(Error::World(error)) => {
            assert_eq!(*error.fault(), WorldFault::Plan(PlanFault::NoMemory));
            assert_eq!(error.to_string(), "Plan: NoMemory");
        }
        answer => panic!("no fault: {answer:?}"),
    }
}
