//! Worlds that are read once, and what futures and streams carry.

use nuigatre::{
    ComponentEncoder, ComponentWorld, Error, Import, JsonFault, PayloadInfo, Plan, Problem,
    ResolveFault, Resolved, Type, TypeId, WorldFault,
};
use std::thread;

/// A world that imports the interface `my:demo/host`, with a function of two streams and three futures.
const WORLDS: &str = r#" {
    "worlds": [{"name": "demo", "imports": {"interface-0": {"interface": {"id": 0}}}, "exports": {}, "package": 0,
        "docs": {"contents": "one, \"two\" {"}}],
    "interfaces": [{"name": "host", "types": {"docs": 2}, "package": 0, "functions": {"f": {
        "name": "f", "kind": "freestanding", "docs": null, "params": [
            {"name": "a", "type": 0}, {"name": "b", "type": 1}, {"name": "c", "type": 3},
            {"name": "d", "type": 4}, {"name": "e", "type": 5}], "result": null}}}],
    "types": [
        {"name": null, "kind": {"stream": "u8"}, "owner": null},
        {"name": null, "kind": {"future": 2}, "owner": null},
        {"name": "docs", "kind": {"record": {"fields": [{"name": "x", "type": "u32"}]}}, "owner": {"interface": 0},
            "stability": {"stable": {"since": "1.0.0"}}, "other": [-1.5e3]},
        {"name": null, "kind": {"stream": null}, "owner": null},
        {"name": null, "kind": {"future": null}, "owner": null},
        {"name": null, "kind": {"\u0066uture": "error-context"}, "owner": null}],
    "packages": [{"name": "my:demo", "interfaces": {"host": 0}, "worlds": {"demo": 0}, "docs": [[]]}]
} "#;

/// Imports the making of five futures and streams, by their numbers, and those of two without a payload.
fn main_module() -> Vec<u8> {
    let names = [
        "[stream-new-0]f",
        "[future-new-1]f",
        "[stream-new-2]f",
        "[future-new-3]f",
        "[future-new-4]f",
        "[stream-new-unit]",
        "[future-new-unit]",
    ];
    let mut imports = vec![names.len() as u8];
    for name in names {
        imports.extend(b"\x0cmy:demo/host");
        imports.push(name.len() as u8);
        imports.extend(name.as_bytes());
        imports.extend([0, 0]);
    }
    let mut module = b"\0asm\x01\0\0\0\x01\x05\x01\x60\0\x01\x7e\x02".to_vec();
    module.extend([imports.len() as u8 | 128, (imports.len() >> 7) as u8]);
    module.extend(imports);
    module
}

fn payload(import: &Import) -> &PayloadInfo {
    match import {
        Import::StreamNew(info) | Import::FutureNew(info) => info,
        other => panic!("neither a future nor a stream: {other:?}"),
    }
}

#[test]
fn payloads() {
    let resolved = Resolved::new(WORLDS).expect("worlds");
    let module = main_module();
    let world = ComponentWorld::new(&ComponentEncoder::new(&resolved, "demo", &module));
    let world = world.expect("a world");
    let imports = world.info.imports.imports().map(|it| it.2);
    let payloads: Vec<_> = imports.map(|it| payload(it).payload(&resolved)).collect();
    let record = Type::Id(TypeId(2));
    assert_eq!(
        payloads,
        [
            Some(Type::U8),
            Some(record),
            None,
            None,
            Some(Type::ErrorContext),
            None,
            None
        ]
    );
}

/// The answers are those of the text, by the name of the world and by its index.
#[test]
fn the_same_answers() {
    let resolved: Resolved = WORLDS.parse().expect("worlds");
    let module = main_module();
    let by_text = ComponentWorld::new(&ComponentEncoder::new(WORLDS, "demo", &module));
    assert!(by_text.is_ok());
    let by_resolved = ComponentWorld::new(&ComponentEncoder::new(&resolved, 0, &module));
    assert_eq!(by_resolved, by_text);
    let plan = |encoder: ComponentEncoder<'_>| Plan::new(&encoder);
    assert_eq!(
        plan(ComponentEncoder::new(&resolved, "my:demo/demo", &module)),
        plan(ComponentEncoder::new(WORLDS, 0, &module))
    );
    match ComponentWorld::new(&ComponentEncoder::new(&resolved, 1, &module)) {
        Err(Error::World(error)) => {
            assert_eq!(*error.fault(), WorldFault::UnknownIndex(1));
        }
        answer => panic!("no fault: {answer:?}"),
    }
}

#[test]
fn the_text_that_is_kept() {
    let resolved = Resolved::new(WORLDS).expect("worlds");
    let kept = resolved.as_json();
    assert!(kept.starts_with(r#"{"worlds":[{"name":"demo","imports":"#));
    assert!(kept.contains(r#""types":{"docs":2}"#) && !kept.contains("contents"));
    assert!(kept.contains(r#"{"name":"docs","kind":{"record":"#) && !kept.contains("since"));
    assert_eq!(Resolved::new(kept), Ok(resolved.clone()));
}

#[test]
fn worlds_that_are_refused() {
    let refused = |json: &str| match Resolved::new(json) {
        Err(Error::World(error)) => (error.fault().clone(), error.to_string()),
        answer => panic!("no fault: {answer:?}"),
    };
    for (json, at) in [
        ("", 0),
        ("{", 1),
        ("1,2", 1),
        ("{},\"world\":1", 2),
        ("{\"worlds\":}", 10),
    ] {
        match refused(json).0 {
            WorldFault::Json(JsonFault::NotJson { position, .. }) => {
                assert_eq!(position, at, "{json}");
            }
            fault => panic!("another fault: {fault:?}"),
        }
    }
    let (fault, text) = refused("{}");
    assert_eq!(text, "Json: worlds: missing");
    assert!(matches!(
        fault,
        WorldFault::Json(JsonFault::Wrong { path, problem: Problem::Missing, .. }) if path == "worlds"
    ));
    // one that would be left out
    let twice = WORLDS.replace("\"docs\": null", "\"docs\": null, \"docs\": null");
    let (fault, text) = refused(&twice);
    let member = "interfaces[0].functions.f.docs";
    assert!(matches!(
        fault,
        WorldFault::Json(JsonFault::RepeatedMember { path, .. }) if path == member
    ));
    assert_eq!(text, format!("Json: {member}: repeated member"));
    let range = WORLDS.replace("\"type\": 5", "\"type\": 6");
    let fault = WorldFault::Resolve(ResolveFault::IdRange);
    assert_eq!(refused(&range).0, fault);
}

/// A text that nests as deep as it may, on the stack that a call needs.
#[test]
fn on_a_stack_of_its_size() {
    for (depth, is_read) in [(110, true), (100_000, false)] {
        let value = "[".repeat(depth) + &"]".repeat(depth);
        let worlds = WORLDS.replace("[-1.5e3]", &value);
        let thread = thread::Builder::new().stack_size(256 << 10);
        let call = move || Resolved::new(&worlds).is_ok();
        let read = thread.spawn(call).expect("a thread").join();
        assert_eq!(read.expect("no panic"), is_read, "{depth}");
    }
}
