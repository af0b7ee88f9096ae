//! Each allocation of a call failing in turn, with all after it and alone, those of the archive and those of this crate: the
//! answer is that memory ran out, the process goes on, and nothing stays allocated.

use crate::error::Error;
use crate::heap::counts::{add, fail_after, fail_once_after, has_failed, held, may_allocate};
use crate::{
    Adapter, ComponentEncoder, ComponentWorld, ExportKind, FuncType, ImportOptions, Instance, Item,
    LibraryInfo, MainOrAdapter, ModuleImportMap, OrderedMap, Plan, RequiredOptions, Resolved,
    World, gc, paths, scan, validate_adapter_module, validate_module,
};
use std::alloc::{GlobalAlloc, Layout, System};
use std::borrow::Cow;
use std::fmt::Debug;
use std::ptr;

/// The system's heap, which counts as the archive's does.
struct Counted;

#[global_allocator]
static COUNTED: Counted = Counted;

// SAFETY: all calls go to the system's heap, but for those that answer that there is no memory.
unsafe impl GlobalAlloc for Counted {
    unsafe fn alloc(&self, layout: Layout) -> *mut u8 {
        if !may_allocate() {
            return ptr::null_mut();
        }
        // SAFETY: as is required of the caller.
        let block = unsafe { System.alloc(layout) };
        add(i64::from(!block.is_null()));
        block
    }

    unsafe fn realloc(&self, block: *mut u8, layout: Layout, size: usize) -> *mut u8 {
        if !may_allocate() {
            return ptr::null_mut();
        }
        // SAFETY: as is required of the caller.
        unsafe { System.realloc(block, layout, size) }
    }

    unsafe fn dealloc(&self, block: *mut u8, layout: Layout) {
        add(-1);
        // SAFETY: as is required of the caller.
        unsafe { System.dealloc(block, layout) }
    }
}

/// Three functions, of which `b` reaches two.
const THREE: &[u8] = b"\0asm\x01\0\0\0\x01\x04\x01\x60\0\0\x03\x04\x03\0\0\0\x07\x09\x02\x01a\0\0\x01b\0\x01\x0a\x0c\x03\x02\0\x0b\x04\0\x10\x02\x0b\x02\0\x0b";

/// A function that is exported as `a`, and is the start function.
const STARTED: &[u8] = b"\0asm\x01\0\0\0\x01\x04\x01\x60\0\0\x03\x02\x01\0\x07\x05\x01\x01a\0\0\x08\x01\0\x0a\x04\x01\x02\0\x0b";

/// As `b`.
const STARTED_B: &[u8] = b"\0asm\x01\0\0\0\x01\x04\x01\x60\0\0\x03\x02\x01\0\x07\x05\x01\x01b\0\0\x08\x01\0\x0a\x04\x01\x02\0\x0b";

/// An adapter with an imported realloc and an imported memory.
const REALLOC: &[u8] = b"\0asm\x01\0\0\0\x01\x0c\x02\x60\x04\x7f\x7f\x7f\x7f\x01\x7f\x60\0\0\x02\x2e\x02\x0f__main_module__\x0ccabi_realloc\0\0\x03env\x06memory\x02\0\x01\x03\x02\x01\x01\x07\x05\x01\x01f\0\x01\x0a\x12\x01\x10\0\x41\0\x41\0\x41\0\x41\0\x10\0\x1a\x3f\0\x1a\x0b";

/// Imports the functions `f` and `g` of `env`; `b` calls a function that calls `f`.
const IMPORTS: &[u8] = b"\0asm\x01\0\0\0\x01\x04\x01\x60\0\0\x02\x11\x02\x03env\x01f\0\0\x03env\x01g\0\0\x03\x03\x02\0\0\x07\x05\x01\x01b\0\x03\x0a\x0b\x02\x04\0\x10\0\x0b\x04\0\x10\x02\x0b";

/// An adapter that imports a memory with pages of one byte.
const PAGES: &[u8] = b"\0asm\x01\0\0\0\x02\x10\x01\x03env\x06memory\x02\x08\x01\0";

/// Two modules, from each of which a name is imported three times.
const REPEATS: &[u8] = b"\0asm\x01\0\0\0\x01\x04\x01\x60\0\0\x02\x25\x06\x01a\x01f\0\0\x01a\x01f\0\0\x01b\x01g\0\0\x01a\x01f\0\0\x01b\x01g\0\0\x01b\x01g\0\0";

/// A world that imports the interface `my:demo/host`, which has the function `hello: func(x: u32)`.
const WORLDS: &str = r#"{
    "worlds": [{"name": "demo", "imports": {"interface-0": {"interface": {"id": 0}}}, "exports": {}, "package": 0}],
    "interfaces": [{"name": "host", "types": {}, "package": 0, "functions": {"hello": {
        "name": "hello", "kind": "freestanding", "params": [{"name": "x", "type": "u32"}], "result": null}}}],
    "types": [],
    "packages": [{"name": "my:demo", "interfaces": {"host": 0}, "worlds": {"demo": 0}}]
}"#;

/// Two futures and a stream, of which one has an escape in its name.
const FUTURES: &str = r#"{
    "worlds": [{"name": "de\u006do", "imports": {}, "exports": {}, "package": null}], "interfaces": [],
    "types": [{"name": null, "kind": {"future": null}, "docs": {}}, {"name": null, "kind": {"str\u0065am": "u8"}},
        {"name": null, "kind": {"future": 1}}],
    "packages": []
}"#;

/// A world that exports the interfaces `a:b/run@1.0.0`, `a:b/run@2.0.0` and `a:b/go@2.0.0`, which have nothing.
const EXPORTS: &str = r#"{
    "worlds": [{"name": "demo", "imports": {}, "package": 1, "exports": {
        "interface-0": {"interface": 0}, "interface-1": {"interface": 1}, "interface-2": {"interface": 2}}}],
    "interfaces": [
        {"name": "run", "types": {}, "functions": {}, "package": 0},
        {"name": "run", "types": {}, "functions": {}, "package": 1},
        {"name": "go", "types": {}, "functions": {}, "package": 1}],
    "types": [],
    "packages": [
        {"name": "a:b@1.0.0", "interfaces": {"run": 0}, "worlds": {}},
        {"name": "a:b@2.0.0", "interfaces": {"run": 1, "go": 2}, "worlds": {"demo": 0}}]
}"#;

/// A type of itself.
const CYCLE: &str = r#"{
    "worlds": [{"name": "demo", "imports": {}, "exports": {}, "package": null}], "interfaces": [],
    "types": [{"name": "t", "kind": {"list": 0}}], "packages": []
}"#;

/// Imports `hello` of `my:demo/host` twice, and `b` of `old`.
const MAIN: &[u8] = b"\0asm\x01\0\0\0\x01\x08\x02\x60\x01\x7f\0\x60\0\0\x02\x33\x03\x0cmy:demo/host\x05hello\0\0\x0cmy:demo/host\x05hello\0\0\x03old\x01b\0\x01";

/// Imports `hello` of `my:demo/host`, and `b` of `old`.
const CALLER: &[u8] = b"\0asm\x01\0\0\0\x01\x08\x02\x60\x01\x7f\0\x60\0\0\x02\x1e\x02\x0cmy:demo/host\x05hello\0\0\x03old\x01b\0\x01";

/// Imports `hello` of `my:demo/host`, which `b` calls.
const CALLED: &[u8] = b"\0asm\x01\0\0\0\x01\x08\x02\x60\x01\x7f\0\x60\0\0\x02\x16\x01\x0cmy:demo/host\x05hello\0\0\x03\x02\x01\x01\x07\x05\x01\x01b\0\x01\x0a\x08\x01\x06\0\x41\0\x10\0\x0b";

/// Imports `b` of `old`.
const LIBRARY: &[u8] = b"\0asm\x01\0\0\0\x01\x04\x01\x60\0\0\x02\x09\x01\x03old\x01b\0\0";

/// A world that exports `run: async func(a: string) -> list<stream<string>>`, and one besides of the same name.
const RETURNS: &str = r#"{
    "worlds": [{"name": "demo", "imports": {}, "exports": {}, "package": null}, {"name": "demo", "imports": {}, "package": 0,
        "exports": {"run": {"function": {"name": "run", "kind": "async-freestanding", "params": [{"name": "a", "type": "string"}],
            "result": 2}}}}],
    "interfaces": [], "types": [{"name": null, "kind": {"tuple": {"types": ["u8", "f64"]}}},
        {"name": null, "kind": {"stream": "string"}}, {"name": null, "kind": {"list": 1}}],
    "packages": [{"name": "a:b@1.0.0", "interfaces": {}, "worlds": {"demo": 1}}]
}"#;

/// Imports `task.return` of `run`, and reads its stream; exports `run`, and a memory.
const RETURNING: &[u8] = b"\0asm\x01\0\0\0\x01\x0d\x02`\x02\x7f\x7f\0`\x03\x7f\x7f\x7f\x01\x7f\x02E\x02\x0d[export]$root\x10[task-return]run\0\0\x0d[export]$root\x12[stream-read-0]run\0\x01\x03\x02\x01\0\x05\x03\x01\0\x01\x07%\x02\x18[async-lift-stackful]run\0\x02\x06memory\x02\0\x0a\x14\x01\x12\0A\0A\0\x10\0A\0A\0A\0\x10\x01\x1a\0\x0b";

/// How many allocations had to fail, the first of them in each run, before all succeeded. With all after it, and alone: then
/// the answer may be the wanted one too, since some memory is asked for that a call can do without.
fn failures<T: Debug + PartialEq>(call: impl Fn() -> Result<T, Error>) -> u64 {
    onwards_and_alone(call).0
}

/// How many had to fail with all after them, and how many alone.
fn onwards_and_alone<T: Debug + PartialEq>(call: impl Fn() -> Result<T, Error>) -> (u64, u64) {
    let wanted = call();
    assert!(wanted != Err(Error::Memory));
    let alone = refusals(&call, &wanted, fail_once_after);
    let count = refusals(&call, &wanted, fail_after);
    assert!(alone >= count, "{alone} alone, {count} with all after them");
    (count, alone)
}

/// As the function before, where `fail` says which allocations fail after so many.
fn refusals<T: Debug + PartialEq>(
    call: impl Fn() -> Result<T, Error>,
    wanted: &Result<T, Error>,
    fail: impl Fn(u64),
) -> u64 {
    for count in 0.. {
        let before = held();
        fail(count);
        let answer = call();
        let failed = has_failed();
        fail_after(u64::MAX);
        let is_wanted = answer == *wanted;
        let is_memory = answer == Err(Error::Memory);
        drop(answer);
        assert_eq!(held(), before, "blocks that were not given back");
        assert!(is_wanted || is_memory, "the allocation after {count}");
        if !failed {
            assert!(is_wanted, "no allocation failed");
            return count;
        }
    }
    unreachable!("a call has an end")
}

type Deduped<'a> = (Cow<'a, [u8]>, Option<ModuleImportMap>);

fn deduped(wasm: &[u8]) -> Result<Deduped<'_>, Error> {
    ModuleImportMap::new(Cow::Borrowed(wasm))
}

/// A module that imports `a.f` so many times.
fn repeats(count: u8) -> Vec<u8> {
    let import = b"\x01a\x01f\0\0";
    let length = 1 + import.len() * usize::from(count);
    let mut module = b"\0asm\x01\0\0\0\x01\x04\x01\x60\0\0\x02".to_vec();
    module.extend([(length % 128) as u8 | 128, (length / 128) as u8, count]);
    module.extend(import.repeat(count.into()));
    module
}

fn encoder() -> ComponentEncoder<'static> {
    let mut encoder = ComponentEncoder::new(WORLDS, World::Name("demo"), MAIN);
    encoder.adapters.push(Adapter::new("old", THREE));
    let which = MainOrAdapter::Adapter("old \"x\"".to_owned());
    let item = Item {
        alias: "b".to_owned(),
        kind: ExportKind::Func,
        which: which.clone(),
        name: "c\n".to_owned(),
    };
    encoder
        .import_options
        .push(ImportOptions::new("hello \"", RequiredOptions::MEMORY));
    let mut library = Adapter::new("library", LIBRARY);
    library.library_info = Some(LibraryInfo {
        arguments: vec![
            ("all".to_owned(), Instance::MainOrAdapter(which)),
            ("old".to_owned(), Instance::Items(vec![item])),
        ],
        instantiate_after_shims: true,
    });
    encoder.adapters.push(library);
    encoder
}

/// How many allocations of a world that is refused had to fail.
#[track_caller]
fn refused(change: impl Fn(&mut ComponentEncoder<'static>)) -> u64 {
    let mut encoder = encoder();
    change(&mut encoder);
    assert!(matches!(
        ComponentWorld::new(&encoder),
        Err(Error::World(_))
    ));
    failures(|| ComponentWorld::new(&encoder))
}

#[test]
fn renaming() {
    let count = |answer: Result<Deduped<'_>, Error>| {
        answer.map(|it| it.1.map_or(0, |map| map.renames().len()))
    };
    assert_eq!(count(deduped(REPEATS)), Ok(4));
    assert!(failures(|| deduped(REPEATS)) > 20);
    let many = repeats(20);
    assert_eq!(count(deduped(&many)), Ok(19));
    assert!(failures(|| deduped(&many)) > 60);
    assert!(failures(|| deduped(&REPEATS[..21])) > 0);
}

#[test]
fn trimming() {
    assert!(failures(|| gc::run(THREE, ["b"], None, 16)) > 20);
    assert!(failures(|| gc::run(REALLOC, ["f"], None, 16)) > 20);
    assert!(failures(|| gc::run(REALLOC, ["f"], Some("realloc"), 16)) > 20);
    // one whose fault carries a name, and one that has a place
    assert!(failures(|| gc::run(THREE, ["b", "x"], None, 16)) > 5);
    assert!(failures(|| gc::run(STARTED, ["a"], None, 16)) > 5);
}

/// An import that is reached, and one that is not; a name that is no export.
#[test]
fn chains() {
    let chains = gc::why(IMPORTS, ["b"]).expect("chains");
    assert_eq!(chains.len(), 2);
    assert!(failures(|| gc::why(IMPORTS, ["b"])) > 20);
    assert!(failures(|| chains.of_import(0)) > 0);
    assert!(failures(|| gc::why(IMPORTS, ["b", "x"])) > 5);
    assert!(failures(|| gc::why(STARTED, ["a"])) > 5);
    assert!(failures(|| scan(IMPORTS)) > 10);
    assert!(failures(|| scan(&IMPORTS[..9])) > 0);
    assert!(failures(|| paths(IMPORTS, &["b"], &["env"])) > 20);
    assert!(failures(|| paths(IMPORTS, &["b", "x"], &[])) > 5);
    assert!(failures(|| paths(&IMPORTS[..9], &[], &[])) > 0);
}

#[test]
fn worlds() {
    let encoder = encoder();
    assert!(failures(|| ComponentWorld::new(&encoder)) > 200);
    assert!(failures(|| Plan::new(&encoder)) > 200);
    assert!(failures(|| ComponentWorld::with_plan(&encoder)) > 200);
}

/// The paths to imports of a main module and of an adapter.
#[test]
fn ways() {
    let mut encoder = ComponentEncoder::new(WORLDS, World::Name("demo"), CALLER);
    encoder.adapters.push(Adapter::new("old", CALLED));
    let world = ComponentWorld::new(&encoder).expect("a world");
    let ways = world.ways(&encoder).expect("paths");
    let texts = |number| {
        let steps = ways.steps(number).expect("a path");
        steps.iter().map(ToString::to_string).collect::<Vec<_>>()
    };
    assert_eq!(texts(0), ["main imports my:demo/host hello"]);
    let path = [
        "main imports old b",
        "adapter old exports b",
        "func 1",
        "func 0",
        "adapter old imports my:demo/host hello",
    ];
    assert_eq!(texts(1), path);
    assert!(texts(2).is_empty() && ways.imports().len() == 2);
    assert!(failures(|| world.ways(&encoder).map(|ways| ways.imports().len())) > 20);
    assert!(failures(|| ways.steps(1)) > 5);
    // an encoder without the adapter
    encoder.adapters.clear();
    assert_eq!(world.ways(&encoder).err(), Some(Error::OtherVersion));
}

/// The types of built-ins, a table with slots of all kinds that these have, and the options of what is exported.
#[test]
fn tables() {
    let encoder = ComponentEncoder::new(RETURNS, "a:b/demo", RETURNING);
    assert!(failures(|| ComponentWorld::new(&encoder)) > 200);
    let world = ComponentWorld::new(&encoder).expect("a world");
    let run = world.info.exports.get("[async-lift-stackful]run");
    let options = world.export_options(&encoder).expect("options");
    assert!(options.get(run.expect("an export")).is_some());
    assert!(failures(|| world.export_options(&encoder)) > 5);
    for (encoder, slots) in [(encoder, 2), (self::encoder(), 1)] {
        let world = ComponentWorld::new(&encoder).expect("a world");
        let count = || world.table().map(|table| table.slots().len());
        assert_eq!(count(), Ok(slots));
        assert!(failures(count) >= 2);
    }
}

#[test]
fn validation() {
    let encoder = encoder();
    let (renamed, map) = ModuleImportMap::new(MAIN.into()).expect("a module");
    assert!(failures(|| validate_module(&encoder, MAIN, None)) > 50);
    assert!(failures(|| validate_module(&encoder, &renamed, map.as_ref())) > 50);
    assert!(failures(|| validate_module(&encoder, LIBRARY, None)) > 50);
    let none = &OrderedMap::<String, FuncType>::default();
    let library = encoder.adapters[1].library_info.as_ref();
    assert!(failures(|| validate_adapter_module(&encoder, THREE, none, &[], None)) > 50);
    assert!(failures(|| validate_adapter_module(&encoder, LIBRARY, none, &[], library)) > 50);
    let main = validate_module(&encoder, MAIN, None).expect("a module");
    let required = main.imports.required_from_adapter("old");
    assert!(failures(|| validate_adapter_module(&encoder, THREE, required, &[], None)) > 50);
    // one whose fault has a name, and one of another page size
    assert!(failures(|| validate_adapter_module(&encoder, STARTED, required, &[], None)) > 50);
    assert!(failures(|| validate_adapter_module(&encoder, PAGES, none, &[], None)) > 50);
    // keys of adapters
    let mut encoder = ComponentEncoder::new(EXPORTS, "a:b/demo", THREE);
    encoder.adapters.push(Adapter::new("old", THREE));
    encoder.adapters[0].required_exports = vec!["a:b/run@1.0.0", "interface-2"];
    assert!(failures(|| validate_module(&encoder, THREE, None)) > 100);
}

#[test]
fn resolved_worlds() {
    assert!(failures(|| Resolved::new(FUTURES)) > 40);
    assert!(failures(|| Resolved::new("{}")) > 10);
    let resolved = Resolved::new(WORLDS).expect("worlds");
    let mut encoder = encoder();
    encoder.resolve = (&resolved).into();
    assert!(failures(|| ComponentWorld::new(&encoder)) > 200);
}

/// Keys in all forms, and those that are refused.
#[test]
fn keys() {
    let failures = |main: &[&'static str], adapter: &[&'static str]| {
        let mut encoder = ComponentEncoder::new(EXPORTS, "a:b/demo", THREE);
        encoder.main_module_exports = Some(main.to_vec());
        encoder.adapters.push(Adapter::new("old", THREE));
        encoder.adapters[0].required_exports = adapter.to_vec();
        failures(|| ComponentWorld::new(&encoder))
    };
    assert!(failures(&["a:b/go", "interface-1"], &["a:b/run@1.0.0"]) > 100);
    for key in ["a:b/run", "a:b/go", "interface-0", "other"] {
        assert!(failures(&[key, "a:b/go"], &["a:b/run@1.0.0"]) > 50);
    }
    let encoder = ComponentEncoder::new(EXPORTS, 0, THREE);
    assert!(self::failures(|| ComponentWorld::new(&encoder)) > 100);
}

#[test]
fn refused_worlds() {
    assert!(refused(|it| it.resolve = "{},\"world\":1".into()) > 0);
    assert!(refused(|it| it.resolve = "{".into()) > 0);
    assert!(refused(|it| it.resolve = "{}".into()) > 10);
    assert!(refused(|it| it.world = World::Name("other")) > 50);
    assert!(refused(|it| it.adapters[1].name = "old") > 50);
    assert!(refused(|it| it.module = b"") > 50);
    assert!(refused(|it| it.main_module_exports = Some(vec!["run"])) > 50);
    assert!(refused(|it| it.adapters[0].name = "new") > 50);
    assert!(refused(|it| it.adapters[0].required_exports.push("run")) > 50);
    assert!(refused(|it| it.adapters[0].wasm = LIBRARY) > 50);
    assert!(refused(|it| it.adapters[0].wasm = &THREE[..20]) > 50);
    assert!(refused(|it| it.adapters[0].wasm = STARTED_B) > 50);
    assert!(refused(|it| it.reject_legacy_names = true) > 50);
    assert!(refused(|it| it.resolve = CYCLE.into()) > 50);
}

/// A real program over an adapter: each call, and how many allocations of it failed, with all after them and alone.
///
///     NUIGATRE_PROGRAM='WORLDS.json WORLD MAIN.wasm NAME=ADAPTER.wasm KEY' cargo test a_program -- --ignored --nocapture
#[test]
#[ignore = "takes minutes, and the program of NUIGATRE_PROGRAM"]
fn a_program() {
    let given = std::env::var("NUIGATRE_PROGRAM").expect("NUIGATRE_PROGRAM");
    let words: Vec<&str> = given.split(' ').collect();
    let [worlds, world, main, adapter, key] = words[..] else {
        panic!("not five words: {given}");
    };
    let read = |path: &str| std::fs::read(path).expect("a file");
    let (name, adapter) = adapter.split_once('=').expect("NAME=FILE");
    let (json, module, adapter) = (read(worlds), read(main), read(adapter));
    let json = String::from_utf8(json).expect("a text");
    let mut encoder = ComponentEncoder::new(&json, world, &module);
    encoder.adapters.push(Adapter::new(name, &adapter));
    encoder.adapters[0].required_exports.push(key);
    show_worlds(&encoder, &json);
    let world = ComponentWorld::new(&encoder).expect("a world");
    show_what_is_of(&world, &encoder);
    let required: Vec<&str> = world.required_exports(name).expect("it").collect();
    show("ModuleImportMap::new", || deduped(&module));
    show("gc::run", || gc::run(&adapter, &required, None, 16));
    show("gc::why", || gc::why(&adapter, &required));
    show("scan", || scan(&adapter));
    show("paths", || paths(&adapter, &[], &[]));
}

fn show_worlds(encoder: &ComponentEncoder<'_>, json: &str) {
    show("Resolved::new", || Resolved::new(json));
    show("ComponentWorld::new", || ComponentWorld::new(encoder));
    show("with_plan", || ComponentWorld::with_plan(encoder));
    show("Plan::new", || Plan::new(encoder));
    let resolved = Resolved::new(json).expect("worlds");
    let mut changed = encoder.clone();
    changed.resolve = (&resolved).into();
    show("of a Resolved", || ComponentWorld::new(&changed));
    changed.adapters[0].required_exports.clear();
    assert!(ComponentWorld::new(&changed).is_err());
    show("refused", || ComponentWorld::new(&changed));
}

fn show_what_is_of(world: &ComponentWorld, encoder: &ComponentEncoder<'_>) {
    let (module, adapter) = (encoder.module, &encoder.adapters[0]);
    let imports = world.info.imports.required_from_adapter(adapter.name);
    let keys = &adapter.required_exports;
    let adapted = || validate_adapter_module(encoder, adapter.wasm, imports, keys, None);
    show("validate_module", || validate_module(encoder, module, None));
    show("validate_adapter_module", adapted);
    let ways = world.ways(encoder).expect("paths");
    show("table", || world.table().map(|it| it.slots().len()));
    show("ways", || world.ways(encoder).map(|it| it.imports().len()));
    show("steps", || ways.steps(ways.imports().len() - 1));
    show("export_options", || world.export_options(encoder));
}

fn show<T: Debug + PartialEq>(name: &str, call: impl Fn() -> Result<T, Error>) {
    let (onwards, alone) = onwards_and_alone(call);
    println!("{name}: {onwards} with all after them, {alone} alone");
}
