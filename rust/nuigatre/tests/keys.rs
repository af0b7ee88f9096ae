//! What modules have to export, by the keys of the world's exports, and worlds by their names.

use nuigatre::{
    Adapter, ComponentEncoder, ComponentWorld, Error, Export, ValidateFault, World, WorldFault,
};

/// Of the package `my:demo@1.2.0` the world `one`, which exports the interface `run` and the function `start`; of
/// `my:demo@2.0.0` the world `two`, which exports `run` of both packages. Each `run` has the function `go: func()`. Both
/// packages have a world `both`.
const WORLDS: &str = r#"{
    "worlds": [
        {"name": "one", "package": 0, "imports": {}, "exports": {
            "interface-0": {"interface": {"id": 0}},
            "start": {"function": {"name": "start", "kind": "freestanding", "params": []}}}},
        {"name": "two", "package": 1, "imports": {}, "exports": {
            "interface-0": {"interface": {"id": 0}},
            "interface-1": {"interface": {"id": 1}}}},
        {"name": "both", "package": 0, "imports": {}, "exports": {}},
        {"name": "both", "package": 1, "imports": {}, "exports": {}}],
    "interfaces": [
        {"name": "run", "package": 0, "types": {}, "functions": {
            "go": {"name": "go", "kind": "freestanding", "params": []}}},
        {"name": "run", "package": 1, "types": {}, "functions": {
            "go": {"name": "go", "kind": "freestanding", "params": []}}}],
    "types": [],
    "packages": [
        {"name": "my:demo@1.2.0", "interfaces": {"run": 0}, "worlds": {"one": 0, "both": 2}},
        {"name": "my:demo@2.0.0", "interfaces": {"run": 1}, "worlds": {"two": 1, "both": 3}}]
}"#;

/// The world `one` exports the interface `run` and a clone of it, which have one text.
const CLONES: &str = r#"{
    "worlds": [{"name": "one", "package": 0, "imports": {}, "exports": {
        "interface-0": {"interface": {"id": 0}}, "interface-1": {"interface": {"id": 1}}}}],
    "interfaces": [
        {"name": "run", "package": 0, "types": {}, "functions": {
            "go": {"name": "go", "kind": "freestanding", "params": []}}},
        {"name": "run", "package": 0, "types": {}, "functions": {
            "go": {"name": "go", "kind": "freestanding", "params": []}}}],
    "types": [],
    "packages": [{"name": "my:demo@1.2.0", "interfaces": {"run": 0}, "worlds": {"one": 0}}]
}"#;

/// A module of one function, which it exports under these names.
fn exporting(names: &[&str]) -> Vec<u8> {
    let mut exports = vec![names.len() as u8];
    for name in names {
        exports.push(name.len() as u8);
        exports.extend(name.as_bytes());
        exports.extend([0, 0]);
    }
    let mut module = b"\0asm\x01\0\0\0\x01\x04\x01\x60\0\0\x03\x02\x01\0\x07".to_vec();
    module.push(exports.len() as u8);
    module.extend(exports);
    module.extend(b"\x0a\x04\x01\x02\0\x0b");
    module
}

/// `go` of the interface `run` of the first package.
const GO: &str = "my:demo/run@1.2.0#go";

/// The fault and its text.
fn fault_of(encoder: &ComponentEncoder<'_>) -> (WorldFault, String) {
    match ComponentWorld::new(encoder) {
        Err(Error::World(error)) => (error.fault().clone(), error.to_string()),
        answer => panic!("no fault of a world: {answer:?}"),
    }
}

/// Without a task hook no export is taken for it, also not one without a name; with the empty name that one is.
#[test]
fn no_task_hook() {
    // exports the function 0, which takes a number, without a name
    let module = b"\0asm\x01\0\0\0\x01\x05\x01\x60\x01\x7e\0\x03\x02\x01\0\x07\x04\x01\0\0\0\x0a\x04\x01\x02\0\x0b";
    let mut encoder = ComponentEncoder::new(WORLDS, "one", module);
    encoder.main_module_exports = Some(Vec::new());
    assert!(ComponentWorld::new(&encoder).is_ok());
    encoder.task_hook = Some("");
    let mismatch = WorldFault::Main(ValidateFault::SignatureMismatch);
    assert_eq!(fault_of(&encoder).0, mismatch);
}

/// Where nobody says what the main module exports, it is all that no adapter has to.
#[test]
fn all_others() {
    let both = exporting(&[GO, "start"]);
    let encoder = ComponentEncoder::new(WORLDS, "one", &both);
    let world = ComponentWorld::new(&encoder).expect("a world");
    let exports = world.info.exports.exports();
    assert_eq!(exports.keys().collect::<Vec<_>>(), [GO, "start"]);
    assert!(matches!(
        world.info.exports.get(GO),
        Some(Export::InterfaceFunc(_, _, name, _)) if name == "go"
    ));
    let (go, start) = (exporting(&[GO]), exporting(&["start"]));
    let of_one = |module| fault_of(&ComponentEncoder::new(WORLDS, "one", module)).0;
    let missing = WorldFault::Main(ValidateFault::MissingInterfaceExport);
    assert_eq!(of_one(&start), missing);
    let missing = WorldFault::Main(ValidateFault::MissingWorldExport);
    assert_eq!(of_one(&go), missing);
    let mut encoder = ComponentEncoder::new(WORLDS, "one", &start);
    encoder.adapters.push(Adapter::new("old", &go));
    encoder.adapters[0].required_exports.push("my:demo/run");
    let world = ComponentWorld::new(&encoder).expect("a world");
    let names = |exports: &nuigatre::ExportMap| exports.exports().keys().cloned().collect();
    let main: Vec<String> = names(&world.info.exports);
    let old: Vec<String> = names(&world.adapters["old"].info.exports);
    assert_eq!((main, old), (vec!["start".into()], vec![GO.into()]));
}

#[test]
fn none() {
    let nothing = exporting(&[]);
    let mut encoder = ComponentEncoder::new(WORLDS, "one", &nothing);
    encoder.main_module_exports = Some(Vec::new());
    let world = ComponentWorld::new(&encoder).expect("a world");
    assert!(world.info.exports.exports().is_empty());
}

/// The forms of a key.
#[test]
fn forms() {
    let (nothing, go) = (exporting(&[]), exporting(&[GO]));
    for key in ["interface-0", "my:demo/run@1.2.0", "my:demo/run"] {
        let mut encoder = ComponentEncoder::new(WORLDS, "one", &go);
        encoder.main_module_exports = Some(vec![key]);
        let world = ComponentWorld::new(&encoder).expect(key);
        assert_eq!(world.info.exports.exports().len(), 1);
        encoder.module = &nothing;
        let missing = WorldFault::Main(ValidateFault::MissingInterfaceExport);
        assert_eq!(fault_of(&encoder).0, missing, "{key}");
    }
}

#[test]
fn keys_that_are_refused() {
    let go = exporting(&[GO]);
    let refused = |world: &str, main: &[&str], adapter: &[&str]| {
        let mut encoder = ComponentEncoder::new(WORLDS, World::Name(world), &go);
        encoder.main_module_exports = Some(main.to_vec());
        encoder.adapters.push(Adapter::new("old", &go));
        encoder.adapters[0].required_exports = adapter.to_vec();
        let (fault, text) = fault_of(&encoder);
        assert_eq!(text.split(' ').count(), 2, "{text}");
        fault
    };
    for key in ["my:demo/run@3.0.0", "interface-1", "run", "`", ""] {
        let unknown = WorldFault::UnknownKey(key.into());
        assert_eq!(refused("one", &[key], &[]), unknown);
        assert_eq!(refused("one", &["my:demo/run"], &[key]), unknown);
    }
    let several = WorldFault::SeveralKeys("my:demo/run".into());
    assert_eq!(refused("two", &["my:demo/run"], &[]), several);
    assert_eq!(refused("two", &[], &["my:demo/run"]), several);
    let repeated = |key: &str| WorldFault::RepeatedKey(key.into());
    assert_eq!(refused("one", &["start", "start"], &[]), repeated("start"));
    assert_eq!(refused("one", &["start"], &["start"]), repeated("start"));
    // an export that is given by its index is not given by its text too
    for key in ["my:demo/run@1.2.0", "my:demo/run"] {
        assert_eq!(refused("one", &[key], &["interface-0"]), repeated(key));
        assert_eq!(refused("one", &["interface-0"], &[key]), repeated(key));
    }
    let index = repeated("interface-0");
    assert_eq!(refused("one", &["interface-0", "interface-0"], &[]), index);
}

/// An index is that of one interface, also where another export has its text.
#[test]
fn indices_are_of_one_interface() {
    let go = exporting(&[GO]);
    let world = CLONES;
    let exports = |main: &[&'static str]| {
        let mut encoder = ComponentEncoder::new(world, "one", &go);
        encoder.main_module_exports = Some(main.to_vec());
        ComponentWorld::new(&encoder).map(|_| ())
    };
    assert_eq!(exports(&["interface-0"]), Ok(()));
    let repeated = WorldFault::RepeatedKey("my:demo/run@1.2.0".into());
    let mut encoder = ComponentEncoder::new(world, "one", &go);
    encoder.main_module_exports = Some(vec!["interface-0", "interface-1", "my:demo/run@1.2.0"]);
    assert_eq!(fault_of(&encoder).0, repeated);
}

#[test]
fn worlds_by_their_names() {
    let nothing = exporting(&[]);
    let found = |name| {
        let encoder = ComponentEncoder::new(WORLDS, World::Name(name), &nothing);
        match ComponentWorld::new(&encoder) {
            Ok(_) => None,
            Err(Error::World(error)) => Some(error.fault().clone()),
            Err(error) => panic!("{error}"),
        }
    };
    for name in ["my:demo/both@1.2.0", "my:demo/both@2.0.0"] {
        assert_eq!(found(name), None, "{name}");
    }
    for name in ["both", "my:demo/both"] {
        assert_eq!(
            found(name),
            Some(WorldFault::SeveralWorlds(name.into())),
            "{name}"
        );
    }
    for name in ["my:demo/one@2.0.0", "three", "", "my:demo"] {
        assert_eq!(
            found(name),
            Some(WorldFault::UnknownWorld(name.into())),
            "{name}"
        );
    }
    for name in ["one", "my:demo/one", "my:demo/one@1.2.0"] {
        assert!(matches!(found(name), Some(WorldFault::Main(_))), "{name}");
    }
}
