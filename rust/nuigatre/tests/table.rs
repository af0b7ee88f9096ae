//! The table of a shim: functions of adapters and of the world, built-ins, and destructors.

use nuigatre::{
    Adapter, ComponentEncoder, ComponentWorld, Filler, LibraryInfo, Lowering, Plan,
    RequiredOptions, Resolved, World, Worlds,
};

const NONE: RequiredOptions = RequiredOptions::empty();
const MEMORY: RequiredOptions = RequiredOptions::MEMORY;

/// Three functions, of which `a` is the first, and `b` the second, which calls the third.
const OLD: &[u8] = b"\0asm\x01\0\0\0\x01\x04\x01\x60\0\0\x03\x04\x03\0\0\0\x07\x09\x02\x01a\0\0\x01b\0\x01\x0a\x0c\x03\x02\0\x0b\x04\0\x10\x02\x0b\x02\0\x0b";

/// A world that imports the interface `my:demo/host`, which has the function `hello: func(x: string)`.
const WORLDS: &str = r#"{
    "worlds": [{"name": "demo", "imports": {"interface-0": {"interface": {"id": 0}}}, "exports": {}, "package": 0}],
    "interfaces": [{"name": "host", "types": {}, "package": 0, "functions": {"hello": {
        "name": "hello", "kind": "freestanding", "params": [{"name": "x", "type": "string"}], "result": null}}}],
    "types": [],
    "packages": [{"name": "my:demo", "interfaces": {"host": 0}, "worlds": {"demo": 0}}]
}"#;

/// What a core module imports or exports: a module's name, a name, and the types of parameters and results, as `il`.
type Function<'a> = (&'a str, &'a str, &'a str, &'a str);

fn number(mut number: usize) -> Vec<u8> {
    let mut bytes = Vec::new();
    while number > 127 {
        bytes.push((number % 128) as u8 | 128);
        number /= 128;
    }
    bytes.push(number as u8);
    bytes
}

fn name(text: &str) -> Vec<u8> {
    [number(text.len()), text.into()].concat()
}

fn section(id: u8, items: Vec<Vec<u8>>) -> Vec<u8> {
    let content = [number(items.len()), items.concat()].concat();
    [vec![id], number(content.len()), content].concat()
}

/// A core type: `i` and `l` are i32 and i64, `f` and `d` f32 and f64.
fn core_type(params: &str, results: &str) -> Vec<u8> {
    let code = |letter| 0x7c + "dfli".find(letter).expect("a type") as u8;
    let list =
        |letters: &str| [number(letters.len()), letters.chars().map(code).collect()].concat();
    [vec![0x60], list(params), list(results)].concat()
}

/// A module with these imports and exports, which exports its memory too. Functions trap.
fn module(imports: &[Function<'_>], exports: &[Function<'_>]) -> Vec<u8> {
    let functions = imports.iter().chain(exports);
    let types = functions.map(|it| core_type(it.2, it.3)).collect();
    let numbered = imports.iter().enumerate();
    let import =
        |(at, it): (usize, &Function<'_>)| [name(it.0), name(it.1), vec![0], number(at)].concat();
    let own = imports.len()..imports.len() + exports.len();
    let export = |(it, at): (&Function<'_>, usize)| [name(it.1), vec![0], number(at)].concat();
    let mut exported: Vec<_> = exports.iter().zip(own.clone()).map(export).collect();
    exported.push([name("memory"), vec![2, 0]].concat());
    let parts = [
        b"\0asm\x01\0\0\0".to_vec(),
        section(1, types),
        section(2, numbered.map(import).collect()),
        section(3, own.clone().map(number).collect()),
        section(5, vec![vec![0, 1]]),
        section(7, exported),
        section(10, own.map(|_| vec![3, 0, 0, 0x0b]).collect()),
    ];
    parts.concat()
}

/// The slots of a world: their names, their types and their options.
fn slots(world: &ComponentWorld) -> Vec<String> {
    let table = world.table().expect("memory");
    let slots = table.slots().iter().enumerate().map(|(number, slot)| {
        assert_eq!(table.number_of(slot.filler), Some(number));
        format!("{slot} {} {}", slot.ty, slot.filler.options())
    });
    slots.collect()
}

/// A main module that imports two functions of an adapter, one of them twice, and of a function that takes a string.
#[test]
fn adapters_and_functions() {
    let main = module(
        &[
            ("old", "b", "", ""),
            ("my:demo/host", "hello", "ii", ""),
            ("my:demo/host", "hello", "ii", ""),
            ("old", "a", "", ""),
            ("old", "b", "", ""),
        ],
        &[],
    );
    let mut encoder = ComponentEncoder::new(WORLDS, World::Name("demo"), &main);
    encoder.adapters.push(Adapter::new("old", OLD));
    let world = ComponentWorld::new(&encoder).expect("a world");
    let wanted = [
        "adapt-old-b () -> () ",
        "adapt-old-a () -> () ",
        "indirect-my:demo/host-hello (i32, i32) -> () MEMORY | STRING_ENCODING",
    ];
    assert_eq!(slots(&world), wanted);
    let table = world.table().expect("memory");
    let plan = Plan::new(&encoder).expect("a plan");
    let mut numbers = Vec::new();
    for (_, _, import) in world.info.imports.imports() {
        let filler = world.filler(None, import).expect("all need a slot");
        numbers.push(table.number_of(filler).expect("a slot"));
        // what is lowered has the slots of the plan, in the same order
        let used = plan.of(&world, None, import);
        let is_lowered = matches!(filler, Filler::Lowered { .. });
        assert_eq!(used.and_then(|it| it.slot), is_lowered.then_some(0));
    }
    // module by module
    assert_eq!(numbers, [0, 1, 0, 2, 2]);
    let import = world.info.imports.get("my:demo/host", "hello");
    let import = import.expect("an import");
    let other = world.filler(Some("old"), import).expect("lowered for it");
    assert_eq!(table.number_of(other), None);
}

#[test]
fn no_slots() {
    let worlds = WORLDS.replace("string", "u32");
    let main = module(&[("my:demo/host", "hello", "i", "")], &[]);
    let encoder = ComponentEncoder::new(&worlds, 0, &main);
    let world = ComponentWorld::new(&encoder).expect("a world");
    assert!(slots(&world).is_empty());
    let import = world.info.imports.get("my:demo/host", "hello");
    assert_eq!(world.filler(None, import.expect("an import")), None);
}

/// The kind of a type in JSON, by its position among these; the core types that a value is flattened to; and what
/// `task.return` of one needs.
const TYPES: [(&str, &str, RequiredOptions); 15] = [
    (r#"{"tuple":{"types":["u32","u8"]}}"#, "ii", MEMORY),
    (r#"{"option":"f32"}"#, "if", MEMORY),
    (r#"{"result":{"ok":"u32","err":"f64"}}"#, "il", MEMORY),
    (r#"{"result":{"err":null,"ok":null}}"#, "i", NONE),
    (r#"{"list":"u8"}"#, "ii", MEMORY),
    (r#"{"stream":"u8"}"#, "i", NONE),
    (r#"{"future":null}"#, "i", NONE),
    (r#"{"option":5}"#, "ii", MEMORY),
    (
        r#"{"tuple":{"types":[0,0,0,0,0,0,0,"u16","s64"]}}"#,
        FLAT_16,
        MEMORY,
    ),
    (r#"{"tuple":{"types":[8,"u8"]}}"#, "i", MEMORY),
    (r#"{"option":8}"#, "i", MEMORY),
    (r#"{"type":"f64"}"#, "d", NONE),
    (r#"{"tuple":{"types":[14,"error-context"]}}"#, "i", NONE),
    (r#"{"result":{"ok":"char","err":11}}"#, "il", MEMORY),
    (r#"{"tuple":{"types":[]}}"#, "", NONE),
];
const FLAT_16: &str = "iiiiiiiiiiiiiiil";

const HOST: &str = "my:demo/host@1.0.0";
const API: &str = "[export]my:demo/api@1.0.0";

/// The worlds of these interfaces, of their functions in JSON, and types. There are two of the name `demo`: the second one
/// imports the first interface, and exports the second one, and `run`, which takes a string and has no result.
fn worlds_of(functions: [&str; 2], types: &str) -> String {
    let run = r#"{"name": "run", "kind": "async-freestanding", "params": [{"name": "a", "type": "string"}]}"#;
    let [host, api] = functions;
    [
        r#"{"packages": [{"name": "my:other", "interfaces": {}, "worlds": {}},
            {"name": "my:demo@1.0.0", "interfaces": {"host": 0, "api": 1}, "worlds": {}}],
        "worlds": [{"name": "demo", "imports": {}, "exports": {}, "package": 0}, {"name": "demo", "package": 1,
            "imports": {"interface-0": {"interface": {"id": 0}}},
            "exports": {"interface-1": {"interface": 1}, "run": {"function": "#,
        run,
        r#"}}}], "interfaces": [{"name": "host", "types": {}, "package": 1, "functions": {"#,
        host,
        r#"}}, {"name": "api", "types": {}, "package": 1, "functions": {"#,
        api,
        r#"}}], "types": ["#,
        types,
        "]}",
    ]
    .concat()
}

/// For each type a function of the first interface that takes it, and an asynchronous one of the second that returns it. Names
/// have escapes, and members that say nothing are there.
fn functions_of_types() -> String {
    let join = |piece: &dyn Fn(usize) -> String| {
        let pieces: Vec<_> = (0..TYPES.len()).map(piece).collect();
        pieces.join(",")
    };
    let kinds = join(&|at| {
        let kind = TYPES[at].0;
        format!(r#"{{"x":-1.5e3,"name":null,"kind":{kind},"owner":null}}"#)
    });
    let taking = join(&|at| {
        format!(
            r#""f{at}":{{"name":"f{at}","kind":"freestanding","params":[{{"name":"x","type":{at}}}],"result":null}}"#
        )
    });
    let returning = join(&|at| {
        format!(
            r#""\u0067{at}":{{"x":[{{}}],"name":"g{at}","kind":"async-freestanding","params":[],"result":{at}}}"#
        )
    });
    worlds_of([&taking, &returning], &kinds)
}

/// The library takes a function of each type with these core types, so values are flattened to them. `task.return` has the same
/// type, and needs what the function needs, and a memory for more than one core value. What it needs for parameters counts too.
#[test]
fn results() {
    let worlds = functions_of_types();
    let names: Vec<_> = (0..TYPES.len())
        .map(|at| {
            let lifted = format!("[async-lift-stackful]my:demo/api@1.0.0#g{at}");
            [format!("f{at}"), format!("[task-return]g{at}"), lifted]
        })
        .collect();
    let (mut imports, mut exports) = (Vec::new(), Vec::new());
    for ([taking, returning, lifted], (_, core, _)) in names.iter().zip(TYPES) {
        imports.push((HOST, taking.as_str(), core, ""));
        imports.push((API, returning.as_str(), core, ""));
        exports.push(("", lifted.as_str(), "", ""));
    }
    imports.push(("[export]$root", "[task-return]run", "", ""));
    exports.push(("", "[async-lift-stackful]run", "ii", ""));
    let main = module(&imports, &exports);
    let resolved = Resolved::new(&worlds).expect("worlds");
    let mut shown = Vec::new();
    for name in ["my:demo/demo", "my:demo/demo@1.0.0"].map(World::Name) {
        for worlds in [Worlds::from(&worlds), Worlds::from(&resolved)] {
            for world in [name, World::Index(1)] {
                let encoder = ComponentEncoder::new(worlds, world, &main);
                let world = ComponentWorld::new(&encoder).expect("a world");
                for (names, (kind, _, options)) in names.iter().zip(TYPES) {
                    check_result(&world, [&names[0], &names[1]], kind, options);
                }
                shown.push(slots(&world));
            }
        }
    }
    let last = "task-return-run () -> () MEMORY | STRING_ENCODING";
    assert_eq!(shown[0].last().map(String::as_str), Some(last));
    assert!(shown.iter().all(|it| *it == shown[0]));
}

/// Compares `task.return` of a type with the function that takes it.
fn check_result(world: &ComponentWorld, names: [&str; 2], kind: &str, options: RequiredOptions) {
    let taken = world.info.imports.get(HOST, names[0]).expect("an import");
    let returned = world.info.imports.get(API, names[1]).expect("an import");
    let table = world.table().expect("memory");
    let slot_of = |import| Some(&table.slots()[table.number_of(world.filler(None, import)?)?]);
    let slot = slot_of(returned);
    let found = slot.map_or(NONE, |it| it.filler.options());
    assert_eq!(found, options, "{kind}");
    match world.lowering(taken) {
        Some(Lowering::Direct { .. }) => {
            assert_eq!(slot_of(taken), None);
            assert!(MEMORY.contains(options), "{kind}");
        }
        Some(Lowering::Indirect { options, .. }) => {
            let (slot, taken) = (slot.expect("a slot"), slot_of(taken).expect("a slot"));
            assert_eq!((&slot.ty, found), (&taken.ty, *options), "{kind}");
        }
        other => panic!("{kind}: {other:?}"),
    }
}

/// Functions with futures and streams, by the types: 0 is a stream of strings, 1 a future of a list of bytes, 2 the list.
const TRANSFERS: [&str; 3] = [
    r#""read": {"name": "read", "kind": "freestanding", "params": [], "result": 0},
        "soon": {"name": "soon", "kind": "freestanding", "params": [{"name": "a", "type": 0}], "result": 1}"#,
    r#""[constructor]job": {"name": "[constructor]job", "kind": {"constructor": 3}, "params": [], "result": 4},
        "both": {"name": "both", "kind": "async-freestanding", "params": [], "result": 1}"#,
    r#"{"name": null, "kind": {"stream": "string"}, "owner": null}, {"name": null, "kind": {"future": 2}, "owner": null},
        {"name": null, "kind": {"list": "u8"}, "owner": null},
        {"name": "job", "kind": "resource", "owner": {"interface": 1}}, {"name": null, "kind": {"handle": {"own": 3}}, "owner": null}"#,
];

/// What the main module and a library need, module by module; what both have one of is there once.
#[test]
fn built_ins_and_destructors() {
    let worlds = worlds_of([TRANSFERS[0], TRANSFERS[1]], TRANSFERS[2]);
    let worlds = worlds.replace(r#""api", "types": {}"#, r#""api", "types": {"job": 3}"#);
    let own = [
        (HOST, "[stream-read-0]read", "iii", "i"),
        ("$root", "[waitable-set-wait]", "ii", "i"),
        (HOST, "[async-lower][stream-read-0]read", "iii", "i"),
        (HOST, "[stream-write-0]read", "iii", "i"),
        (HOST, "[stream-new-0]read", "", "l"),
        (HOST, "[async-lower][future-read-1]soon", "ii", "i"),
        (HOST, "[future-write-unit]", "ii", "i"),
        (API, "[task-return]both", "i", ""),
        ("[export]$root", "[task-return]run", "", ""),
        (API, "[future-write-0]both", "ii", "i"),
        ("$root", "[error-context-new-utf16]", "ii", "i"),
        ("$root", "[waitable-set-wait]", "ii", "i"),
        ("$root", "[waitable-set-drop]", "i", ""),
        ("old", "go", "d", "f"),
    ];
    let exports = [
        ("", "my:demo/api@1.0.0#[dtor]job", "i", ""),
        ("", "my:demo/api@1.0.0#[constructor]job", "", "i"),
        ("", "[async-lift-stackful]my:demo/api@1.0.0#both", "", ""),
        ("", "[async-lift-stackful]run", "ii", ""),
    ];
    let shared = [
        ("$root", "[error-context-debug-message-utf16]", "ii", ""),
        ("$root", "[error-context-new-utf8]", "ii", "i"),
        ("$root", "[error-context-new-utf16]", "ii", "i"),
        ("$root", "[waitable-set-poll]", "ii", "i"),
        ("$root", "[waitable-set-wait]", "ii", "i"),
        (HOST, "[stream-read-0]read", "iii", "i"),
        ("$root", "[thread-new-indirect-v0]", "ii", "i"),
    ];
    let main = module(&own, &exports);
    let old = module(&shared, &[("", "go", "d", "f")]);
    let mut encoder = ComponentEncoder::new(&worlds, 1, &main);
    encoder.adapters.push(Adapter::new("old", &old));
    encoder.adapters[0].library_info = Some(LibraryInfo::default());
    let world = ComponentWorld::new(&encoder).expect("a world");
    let wanted = [
        "my:demo/host@1.0.0-[stream-read-0]read (i32, i32, i32) -> i32 MEMORY | REALLOC | STRING_ENCODING",
        "my:demo/host@1.0.0-[async-lower][stream-read-0]read (i32, i32, i32) -> i32 MEMORY | REALLOC | STRING_ENCODING | ASYNC",
        "my:demo/host@1.0.0-[stream-write-0]read (i32, i32, i32) -> i32 MEMORY | STRING_ENCODING",
        "my:demo/host@1.0.0-[async-lower][future-read-1]soon (i32, i32) -> i32 MEMORY | REALLOC | ASYNC",
        "my:demo/host@1.0.0-[future-write-unit] (i32, i32) -> i32 MEMORY",
        "waitable-set.wait (i32, i32) -> i32 MEMORY",
        "error-new (i32, i32) -> i32 MEMORY | STRING_ENCODING",
        "[export]my:demo/api@1.0.0-[future-write-0]both (i32, i32) -> i32 MEMORY",
        "task-return-run () -> () MEMORY | STRING_ENCODING",
        "adapt-old-go (f64) -> f32 ",
        "dtor-my:demo/api@1.0.0#[dtor]job (i32) -> () ",
        "error-debug-message (i32, i32) -> () MEMORY | REALLOC | STRING_ENCODING",
        "error-new (i32, i32) -> i32 MEMORY | STRING_ENCODING",
        "waitable-set.poll (i32, i32) -> i32 MEMORY",
        "thread.new-indirect (i32, i32) -> i32 ",
        "my:demo/host@1.0.0-[stream-read-0]read (i32, i32, i32) -> i32 MEMORY | REALLOC | STRING_ENCODING",
    ];
    assert_eq!(slots(&world), wanted);
    let table = world.table().expect("memory");
    let dtor = Filler::Destructor {
        module: None,
        function: "my:demo/api@1.0.0#[dtor]job",
    };
    assert_eq!(table.number_of(dtor), Some(10));
    assert_eq!(table.slots()[10].import, None);
    let number_of = |module, imports: &[Function<'_>], at: usize| {
        let of = match module {
            None => &world.info,
            Some(name) => &world.adapters[name].info,
        };
        let import = of.imports.get(imports[at].0, imports[at].1);
        table.number_of(world.filler(module, import.expect("an import"))?)
    };
    assert_eq!(number_of(None, &own, 1), Some(5));
    assert_eq!(number_of(None, &own, 2), Some(1));
    assert_eq!(number_of(None, &own, 7), None);
    assert_eq!(number_of(Some("old"), &shared, 4), Some(5));
    assert_eq!(number_of(Some("old"), &shared, 2), Some(6));
    assert_eq!(number_of(Some("old"), &shared, 5), Some(15));
}
