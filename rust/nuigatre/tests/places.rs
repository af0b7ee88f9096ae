//! What faults are about: ten ordinary mistakes, and the parts of an adapter and of worlds.

use nuigatre::{
    Adapter, AdapterModuleDidNotExport, ComponentEncoder, ComponentWorld, Error, FuncType, GcFault,
    ModuleImportMap, OrderedMap, Plan, PlanFault, ResolveFault, Resolved, Subject, ValidateFault,
    WorldFault, gc, validate_adapter_module, validate_module,
};
use std::error::Error as _;

/// The package `my:demo@0.2.0`: the interface `host` with `add: func(a: u32) -> u64` and `log: func(s: string)`, and the
/// world `w`, which imports `host` and `ask: func() -> string`, and exports `run: func(a: u32) -> u64`.
const WORLDS: &str = r#"{
    "worlds": [{"name": "w", "package": 0,
        "imports": {
            "interface-0": {"interface": {"id": 0}},
            "ask": {"function": {"name": "ask", "kind": "freestanding", "params": [], "result": "string"}}},
        "exports": {"run": {"function": {"name": "run", "kind": "freestanding",
            "params": [{"name": "a", "type": "u32"}], "result": "u64"}}}}],
    "interfaces": [{"name": "host", "package": 0, "types": {}, "functions": {
        "add": {"name": "add", "kind": "freestanding", "params": [{"name": "a", "type": "u32"}], "result": "u64"},
        "log": {"name": "log", "kind": "freestanding", "params": [{"name": "s", "type": "string"}]}}}],
    "types": [],
    "packages": [{"name": "my:demo@0.2.0", "interfaces": {"host": 0}, "worlds": {"w": 0}}]
}"#;

const HOST: &str = "my:demo/host@0.2.0";

/// A core type of parameters and results: `i` is `i32`, and `I` is `i64`.
type Ty = (&'static str, &'static str);

fn vector<T>(items: &[T], put: impl Fn(&mut Vec<u8>, &T)) -> Vec<u8> {
    let mut bytes = vec![items.len() as u8];
    for item in items {
        put(&mut bytes, item);
    }
    bytes
}

/// A length below 2^14.
fn put_length(bytes: &mut Vec<u8>, length: usize) {
    bytes.extend([length as u8 | 128, (length >> 7) as u8]);
}

fn put_name(bytes: &mut Vec<u8>, name: &str) {
    put_length(bytes, name.len());
    bytes.extend(name.as_bytes());
}

fn put_types(bytes: &mut Vec<u8>, types: &str) {
    bytes.push(types.len() as u8);
    let code = |letter| if letter == b'i' { 0x7f } else { 0x7e };
    bytes.extend(types.bytes().map(code));
}

fn put_section(module: &mut Vec<u8>, id: u8, content: &[u8]) {
    module.push(id);
    put_length(module, content.len());
    module.extend(content);
}

/// A module that imports these functions, and exports functions of one body each, and a memory if it is to have one.
fn module(imports: &[(&str, &str, Ty)], exports: &[(&str, Ty)], memory: bool) -> Vec<u8> {
    let of_imports = imports.iter().map(|it| it.2);
    let types: Vec<Ty> = of_imports.chain(exports.iter().map(|it| it.1)).collect();
    let types = vector(&types, |bytes, ty| {
        bytes.push(0x60);
        put_types(bytes, ty.0);
        put_types(bytes, ty.1);
    });
    let indices: Vec<u8> = (0..).take(imports.len() + exports.len()).collect();
    let (of_imports, of_exports) = indices.split_at(imports.len());
    let import_section = vector(of_imports, |bytes, index| {
        let (from, name, _) = imports[usize::from(*index)];
        put_name(bytes, from);
        put_name(bytes, name);
        bytes.extend([0, *index]);
    });
    let mut items: Vec<(&str, u8, u8)> = exports
        .iter()
        .zip(of_exports)
        .map(|(export, index)| (export.0, 0, *index))
        .collect();
    if memory {
        items.push(("memory", 2, 0));
    }
    let export_section = vector(&items, |bytes, (name, kind, index)| {
        put_name(bytes, name);
        bytes.extend([*kind, *index]);
    });
    let mut module = b"\0asm\x01\0\0\0".to_vec();
    put_section(&mut module, 1, &types);
    put_section(&mut module, 2, &import_section);
    put_section(
        &mut module,
        3,
        &vector(of_exports, |bytes, index| bytes.push(*index)),
    );
    if memory {
        put_section(&mut module, 5, b"\x01\0\x01");
    }
    put_section(&mut module, 7, &export_section);
    // `unreachable`
    put_section(
        &mut module,
        10,
        &vector(of_exports, |bytes, _| bytes.extend(b"\x03\0\0\x0b")),
    );
    module
}

const RUN: (&str, Ty) = ("run", ("i", "I"));

/// A main module that imports these, and exports `run`.
fn main_module(imports: &[(&str, &str, Ty)]) -> Vec<u8> {
    module(imports, &[RUN], false)
}

/// Why an encoder of this main module and these adapters has no plan: the text, and what it is about.
fn mistake(main: &[u8], adapters: &[Adapter<'_>]) -> (Error, String) {
    let mut encoder = ComponentEncoder::new(WORLDS, "w", main);
    encoder.adapters = adapters.to_vec();
    let error = Plan::new(&encoder).expect_err("a mistake");
    let both = ComponentWorld::with_plan(&encoder).map(|it| it.1);
    assert_eq!(both, Err(error.clone()));
    match &error {
        Error::World(it) if matches!(it.fault(), WorldFault::Plan(_)) => {
            ComponentWorld::new(&encoder).expect("a world without a plan");
        }
        _ => assert_eq!(ComponentWorld::new(&encoder), Err(error.clone())),
    }
    let place = error.place().map(ToString::to_string);
    // the source says the same, unless it is an error of its own; and so does what is printed where `main` ends with the error
    match error.source() {
        Some(source) if source.is::<AdapterModuleDidNotExport>() => {}
        source => assert_eq!(source.map(ToString::to_string), place),
    }
    let debugged = format!("{error:?}");
    assert!(
        place.iter().all(|place| debugged.contains(place)),
        "{debugged}"
    );
    assert!(!debugged.contains("Held"), "{debugged}");
    (error, place.unwrap_or_default())
}

fn world_fault(error: &Error) -> &WorldFault {
    match error {
        Error::World(error) => error.fault(),
        other => panic!("no fault of a world: {other:?}"),
    }
}

/// The fault of the main module, and what it is about.
#[track_caller]
fn assert_main(main: &[u8], fault: ValidateFault, wanted: &str) {
    let (error, place) = mistake(main, &[]);
    assert_eq!(*world_fault(&error), WorldFault::Main(fault));
    assert_eq!(place, wanted);
    // validation alone finds the same
    let encoder = ComponentEncoder::new(WORLDS, "w", b"");
    let WorldFault::Main(fault) = world_fault(&error) else {
        panic!("no fault of the main module: {error:?}");
    };
    let alone = validate_module(&encoder, main, None).expect_err("a mistake");
    assert_eq!(validate_fault(&alone), fault);
    assert_eq!(alone.place(), error.place());
    assert_eq!(alone.to_string(), format!("Validate: {fault}"));
}

fn validate_fault(error: &Error) -> &ValidateFault {
    match error {
        Error::Validate(error) => error.fault(),
        other => panic!("no fault of one module: {other:?}"),
    }
}

/// The functions that a main module imports from `old`.
fn required(main: &[u8], old: &[u8]) -> OrderedMap<String, FuncType> {
    let mut encoder = ComponentEncoder::new(WORLDS, "w", b"");
    encoder.adapters.push(Adapter::new("old", old));
    let main = validate_module(&encoder, main, None).expect("a module");
    main.imports.required_from_adapter("old").clone()
}

/// No functions.
fn none() -> OrderedMap<String, FuncType> {
    OrderedMap::default()
}

#[test]
fn an_interface_that_the_world_lacks() {
    let main = main_module(&[
        (HOST, "add", ("i", "I")),
        ("my:demo/clock@0.2.0", "now", ("", "I")),
    ]);
    let wanted = r#"import "my:demo/clock@0.2.0" "now""#;
    assert_main(&main, ValidateFault::UnknownInterface, wanted);
    let (error, _) = mistake(&main, &[]);
    let place = error.place().expect("a place");
    assert!(place.adapter.is_none() && place.types.is_none());
    assert!(matches!(place.subject, Subject::Import { index: 1, .. }));
}

#[test]
fn another_version() {
    let main = main_module(&[("my:demo/host@0.1.0", "add", ("i", "I"))]);
    let wanted = r#"import "my:demo/host@0.1.0" "add""#;
    assert_main(&main, ValidateFault::UnknownInterface, wanted);
}

#[test]
fn a_letter_wrong() {
    let main = main_module(&[(HOST, "Add", ("i", "I"))]);
    let wanted = r#"import "my:demo/host@0.2.0" "Add""#;
    assert_main(&main, ValidateFault::MissingFunction, wanted);
}

#[test]
fn too_few_parameters() {
    let main = main_module(&[(HOST, "log", ("i", ""))]);
    let wanted = r#"import "my:demo/host@0.2.0" "log", wanted (i32, i32) -> (), found (i32) -> ()"#;
    assert_main(&main, ValidateFault::SignatureMismatch, wanted);
    let exported = module(&[], &[("run", ("i", "i"))], false);
    let wanted = r#"export "run", wanted (i32) -> i64, found (i32) -> i32"#;
    assert_main(&exported, ValidateFault::SignatureMismatch, wanted);
}

#[test]
fn an_export_missing() {
    let main = module(&[(HOST, "add", ("i", "I"))], &[], false);
    let wanted = r#"missing export "run""#;
    assert_main(&main, ValidateFault::MissingWorldExport, wanted);
}

#[test]
fn a_memory_missing() {
    let main = main_module(&[(HOST, "log", ("ii", ""))]);
    let (error, place) = mistake(&main, &[]);
    assert_eq!(*world_fault(&error), WorldFault::Plan(PlanFault::NoMemory));
    assert_eq!(place, r#"function "my:demo/host@0.2.0" "log""#);
}

#[test]
fn a_realloc_missing() {
    let main = module(&[("$root", "ask", ("i", ""))], &[RUN], true);
    let (error, place) = mistake(&main, &[]);
    assert_eq!(*world_fault(&error), WorldFault::Plan(PlanFault::NoRealloc));
    assert_eq!(place, r#"function "ask""#);
}

/// An adapter whose memory has pages of one byte, beside one that is refused for nothing.
#[test]
fn pages_of_another_size() {
    let main = module(
        &[("old", "f", ("", "")), ("good", "g", ("", ""))],
        &[RUN],
        true,
    );
    let good = module(&[], &[("g", ("", ""))], false);
    let old = b"\0asm\x01\0\0\0\x01\x04\x01\x60\0\0\x02\x10\x01\x03env\x06memory\x02\x08\x01\0\
        \x03\x02\x01\0\x07\x05\x01\x01f\0\0\x0a\x07\x01\x05\0\x3f\0\x1a\x0b";
    let adapters = [Adapter::new("good", &good), Adapter::new("old", old)];
    let (error, place) = mistake(&main, &adapters);
    assert_eq!(*world_fault(&error), WorldFault::PageSize);
    assert_eq!(error.to_string(), "World: PageSize");
    assert_eq!(
        place,
        r#"page size 1, main module's 65536, in adapter "old""#
    );
    let place = error.place().expect("both sizes");
    assert!(matches!(
        place.subject,
        Subject::PageSizes {
            own: 1,
            main: 65536,
            ..
        }
    ));
}

#[test]
fn an_adapter_not_given() {
    let main = main_module(&[("wasi_snapshot_preview1", "fd_write", ("iiii", "i"))]);
    let wanted = r#"import "wasi_snapshot_preview1" "fd_write""#;
    assert_main(&main, ValidateFault::UnknownInterface, wanted);
}

#[test]
fn an_adapter_for_the_wrong_world() {
    let main = main_module(&[("wasi_snapshot_preview1", "fd_write", ("iiii", "i"))]);
    let stdout = [("wasi:cli/stdout@0.2.6", "get-stdout", ("", "i"))];
    let wasm = module(&stdout, &[("fd_write", ("iiii", "i"))], false);
    let adapters = [Adapter::new("wasi_snapshot_preview1", &wasm)];
    let (error, place) = mistake(&main, &adapters);
    let name = "wasi_snapshot_preview1";
    let fault = WorldFault::Adapter(name.into(), ValidateFault::UnknownInterface);
    assert_eq!(*world_fault(&error), fault);
    let wanted =
        r#"import "wasi:cli/stdout@0.2.6" "get-stdout", in adapter "wasi_snapshot_preview1""#;
    assert_eq!(place, wanted);
    assert_eq!(
        error.place().and_then(|it| it.adapter.as_deref()),
        Some(name)
    );
    // validation alone finds the same, but for the name
    let mut encoder = ComponentEncoder::new(WORLDS, "w", &main);
    encoder.adapters = adapters.to_vec();
    let required = validate_module(&encoder, &main, None).expect("a module");
    let required = required.imports.required_from_adapter(name);
    let alone = validate_adapter_module(&encoder, &wasm, required, &[], None);
    let alone = alone.expect_err("an import of nothing");
    assert_eq!(*validate_fault(&alone), ValidateFault::UnknownInterface);
    let wanted = r#"import "wasi:cli/stdout@0.2.6" "get-stdout""#;
    assert_eq!(
        alone.place().map(ToString::to_string).as_deref(),
        Some(wanted)
    );
}

#[test]
fn a_text_that_is_no_module() {
    let (error, place) = mistake(b"(module)", &[]);
    assert_eq!(error.to_string(), "Main module: Read: NotWasm");
    assert_eq!(place, "byte 0");
}

/// A main module whose start function has a parameter: a byte is of the module as it is passed, also where its repeated
/// imports are renamed.
#[test]
fn bytes_of_renamed_modules() {
    let main = b"\0asm\x01\0\0\0\x01\x05\x01\x60\x01\x7f\0\x02\x0d\x02\x01a\x01f\0\0\x01a\x01f\0\0\x08\x01\0";
    let (error, place) = mistake(main, &[]);
    assert_eq!(error.to_string(), "World: Main: Read: BadStart");
    assert_eq!(place, "byte 32, in the start section");
    let encoder = ComponentEncoder::new(WORLDS, "w", b"");
    let place_of = |bytes: &[u8], map: Option<&ModuleImportMap>| {
        let error = validate_module(&encoder, bytes, map).expect_err("a parameter");
        error.place().map(ToString::to_string).unwrap_or_default()
    };
    assert_eq!(place_of(main, None), "byte 32, in the start section");
    let (renamed, map) = ModuleImportMap::new((&main[..]).into()).expect("a module");
    assert_eq!(renamed.len(), main.len() + 5);
    assert_eq!(
        place_of(&renamed, map.as_ref()),
        "byte 37, in the start section"
    );
}

/// A module that is cut in its import section, whose content begins with the byte 16.
#[test]
fn cut_modules() {
    let whole = b"\0asm\x01\0\0\0\x01\x04\x01\x60\0\0\x02\x09\x01\x03env\x01f\0\0";
    let cut = &whole[..20];
    // the import section says that it is longer: so the bytes end in no whole section
    let wanted = "byte 20";
    let (error, place) = mistake(cut, &[]);
    assert_eq!(error.to_string(), "Main module: Read: Truncated");
    assert_eq!(place, wanted);
    let places = [
        ModuleImportMap::new(cut.into()).map(|_| ()),
        gc::run(cut, ["f"], None, 16).map(|_| ()),
        gc::why(cut, ["f"]).map(|_| ()),
    ];
    for answer in places {
        let error = answer.expect_err("a module that is cut");
        assert_eq!(error.place().map(ToString::to_string), Some(wanted.into()));
    }
    let main = main_module(&[("old", "f", ("", ""))]);
    let (error, place) = mistake(&main, &[Adapter::new("old", cut)]);
    assert_eq!(error.to_string(), "World: Adapter `old`: Read: Truncated");
    assert_eq!(place, format!("{wanted}, in adapter \"old\""));
}

/// What callers look for among the sources of an error.
fn source_of(error: &Error) -> Option<&AdapterModuleDidNotExport> {
    let world = match error {
        Error::World(error) => error.fault().source(),
        Error::Validate(error) => error.fault().source(),
        _ => None,
    };
    let source = error.source().and_then(|it| it.downcast_ref());
    assert_eq!(source, world.and_then(|it| it.downcast_ref()));
    source
}

/// Names of adapters, and of what they lack, that are like texts of faults.
#[test]
fn names_like_texts() {
    let names = [
        "a",
        "a`: adapter module did not export `b",
        "`",
        "`: Read: NotWasm",
        "World: Adapter `a`: x",
    ];
    for name in names {
        let main = main_module(&[(name, "f", ("i", "i"))]);
        let lacking = module(&[], &[("g", ("i", "i"))], false);
        let adapters = names.map(|other| Adapter::new(other, &lacking));
        let (error, place) = mistake(&main, &adapters);
        let lacks = AdapterModuleDidNotExport("f".into());
        assert_eq!(source_of(&error), Some(&lacks));
        let lacks = ValidateFault::AdapterModuleDidNotExport(lacks);
        assert_eq!(
            *world_fault(&error),
            WorldFault::Adapter(name.into(), lacks)
        );
        assert_eq!(place, format!("missing export \"f\", in adapter {name:?}"));
        // the export that is missing has the name
        let main = main_module(&[("a", name, ("i", "i"))]);
        let (error, _) = mistake(&main, &adapters);
        let lacks = AdapterModuleDidNotExport(name.into());
        assert_eq!(source_of(&error), Some(&lacks));
        let lacks = ValidateFault::AdapterModuleDidNotExport(lacks);
        assert_eq!(*world_fault(&error), WorldFault::Adapter("a".into(), lacks));
        // two memories are reached: a fault without a place in the adapter
        let memories = b"\0asm\x01\0\0\0\x01\x04\x01\x60\0\0\x02\x24\x02\x03env\x06memory\x02\0\x01\x0f__main_module__\x01m\x02\0\x01\
            \x03\x02\x01\0\x07\x05\x01\x01f\0\0\x0a\x0a\x01\x08\0\x3f\0\x1a\x3f\x01\x1a\x0b";
        let main = main_module(&[(name, "f", ("", ""))]);
        let (error, place) = mistake(&main, &[Adapter::new(name, memories)]);
        let fault = WorldFault::Trim(name.into(), GcFault::SeveralMemories);
        assert_eq!((world_fault(&error), place), (&fault, String::new()));
    }
}

/// What an adapter lacks, or exports with another type.
#[test]
fn exports_of_adapters() {
    let main = main_module(&[("old", "f", ("i", "i"))]);
    let about = |exports: &[(&str, Ty)]| {
        let wasm = module(&[], exports, false);
        let (error, place) = mistake(&main, &[Adapter::new("old", &wasm)]);
        assert!(matches!(world_fault(&error), WorldFault::Adapter(name, _) if name == "old"));
        place
    };
    assert_eq!(
        about(&[("g", ("i", "i"))]),
        r#"missing export "f", in adapter "old""#
    );
    assert_eq!(
        about(&[("f", ("iI", "i"))]),
        r#"export "f", wanted (i32) -> i32, found (i32, i64) -> i32, in adapter "old""#
    );
}

/// An adapter that the component doesn't need is validated alone all the same.
#[test]
fn adapters_alone() {
    let main = main_module(&[]);
    let bad = module(&[("nowhere", "f", ("", ""))], &[("f", ("", ""))], false);
    let good = module(&[(HOST, "add", ("i", "I"))], &[("f", ("", ""))], false);
    let mut encoder = ComponentEncoder::new(WORLDS, "w", &main);
    encoder.adapters = vec![Adapter::new("bad", &bad), Adapter::new("good", &good)];
    assert!(ComponentWorld::new(&encoder).is_ok());
    validate_module(&encoder, &main, None).expect("a module");
    validate_adapter_module(&encoder, &good, &none(), &[], None).expect("an adapter");
    let alone = |wasm: &[u8], required: &OrderedMap<String, FuncType>| {
        let refused = validate_adapter_module(&encoder, wasm, required, &[], None);
        let error = refused.expect_err("a mistake");
        (error.to_string(), error.place().map(ToString::to_string))
    };
    let (text, place) = alone(&bad, &none());
    assert_eq!(text, "Validate: UnknownInterface");
    assert_eq!(place.as_deref(), Some(r#"import "nowhere" "f""#));
    // what is required of it, and is not there or has another type
    let required = required(&main_module(&[("old", "g", ("i", "i"))]), &good);
    let (text, place) = alone(&good, &required);
    assert_eq!(text, "Validate: adapter module did not export `g`");
    assert_eq!(place.as_deref(), Some(r#"missing export "g""#));
    let other = module(&[], &[("g", ("", "i"))], false);
    let (text, place) = alone(&other, &required);
    assert_eq!(text, "Validate: AdapterExportType");
    let wanted = r#"export "g", wanted (i32) -> i32, found () -> i32"#;
    assert_eq!(place.as_deref(), Some(wanted));
    let (text, place) = alone(b"(module)", &required);
    assert_eq!(
        (text.as_str(), place.as_deref()),
        ("Validate: Read: NotWasm", Some("byte 0"))
    );
    // the encoder's own module is not looked at
    assert_eq!(encoder.module, &main[..]);
    encoder.module = b"";
    validate_adapter_module(&encoder, &other, &none(), &[], None).expect("an adapter");
}

/// Names of any characters. The place is longer than the first buffer that validation alone has.
#[test]
fn long_names() {
    let name = "\"é\n\\\0\u{7f}😀".repeat(200);
    let main = main_module(&[(&name, &name, ("", ""))]);
    let wanted = format!("import {name:?} {name:?}");
    assert_main(&main, ValidateFault::UnknownInterface, &wanted);
    let (error, _) = mistake(&main, &[]);
    match &error.place().expect("a place").subject {
        Subject::Import {
            module, name: own, ..
        } => assert_eq!((module, own), (&name, &name)),
        other => panic!("no import: {other:?}"),
    }
}

/// A message that is refused for another reason than a module.
#[test]
fn no_encoder() {
    let main = main_module(&[]);
    let encoder = ComponentEncoder::new(WORLDS, "other", &main);
    let error = validate_module(&encoder, &main, None).expect_err("no such world");
    assert_eq!(
        *world_fault(&error),
        WorldFault::UnknownWorld("other".into())
    );
    assert_eq!(error.to_string(), "UnknownWorld `other`");
    let worlds = error.place().map(ToString::to_string);
    assert_eq!(worlds.as_deref(), Some(r#"worlds "my:demo/w@0.2.0""#));
    let adapter = validate_adapter_module(&encoder, b"", &none(), &[], None);
    assert_eq!(adapter, Err(error));
}

/// `f` of an adapter, with this section before its code, and this body.
fn adapter(section: &[u8], body: &[u8]) -> Vec<u8> {
    let mut module =
        b"\0asm\x01\0\0\0\x01\x04\x01\x60\0\0\x03\x02\x01\0\x07\x05\x01\x01f\0\0".to_vec();
    module.extend(section);
    let mut bodies = vec![1, body.len() as u8];
    bodies.extend(body);
    module.extend([10, bodies.len() as u8]);
    module.extend(bodies);
    module
}

/// Sections and operators that are refused, where an adapter is trimmed alone and where it is for a component.
#[test]
fn trims() {
    let main = main_module(&[("old", "f", ("", ""))]);
    for (wasm, fault, wanted) in [
        (
            adapter(b"\x08\x01\0", b"\0\x0b"),
            GcFault::UnsupportedSection,
            "start section",
        ),
        (
            // `nop`, and a call of a function that is not there
            adapter(b"", b"\0\x01\x10\x05\x0b"),
            GcFault::LiveBody,
            "operator 1 of the body of function 0",
        ),
        (
            // a code that is no operator's
            adapter(b"", b"\0\xff\x0b"),
            GcFault::LiveBody,
            "body of function 0",
        ),
    ] {
        let error = gc::run(&wasm, ["f"], None, 16).expect_err(wanted);
        match &error {
            Error::Trim(error) => assert_eq!(*error.fault(), fault),
            other => panic!("no fault of a trim: {other:?}"),
        }
        assert_eq!(
            error.place().map(ToString::to_string).as_deref(),
            Some(wanted)
        );
        let (error, place) = mistake(&main, &[Adapter::new("old", &wasm)]);
        assert_eq!(*world_fault(&error), WorldFault::Trim("old".into(), fault));
        assert_eq!(place, format!("{wanted}, in adapter \"old\""));
    }
    let error = gc::run(&adapter(b"", b"\0\x0b"), ["g"], None, 16).expect_err("no `g`");
    assert!(error.place().is_none());
}

/// Parts of worlds.
#[test]
fn parts() {
    let about = |worlds: &str| {
        let error = Resolved::new(worlds).expect_err("worlds that are refused");
        let place = error.place().expect("a place").to_string();
        (world_fault(&error).clone(), place)
    };
    let range = WorldFault::Resolve(ResolveFault::IdRange);
    let interface = WORLDS.replace("{\"id\": 0}", "{\"id\": 1}");
    assert_eq!(about(&interface), (range.clone(), "world 0".into()));
    let types = WORLDS.replace("\"type\": \"string\"", "\"type\": 7");
    assert_eq!(about(&types), (range.clone(), "interface 0".into()));
    let cycle = WORLDS.replace(
        "\"types\": [],",
        r#""types": [{"name": "t", "kind": {"list": 0}, "owner": null}],"#,
    );
    let cycle = about(&cycle);
    assert_eq!(
        cycle,
        (WorldFault::Resolve(ResolveFault::Cycle), "type 0".into())
    );
    let package = WORLDS.replace("{\"host\": 0}", "{\"host\": 1}");
    assert_eq!(about(&package), (range, "package 0".into()));
}
