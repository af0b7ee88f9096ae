//! Calls from several threads at once, and on small stacks.

use nuigatre::{ModuleImportMap, gc};
use std::borrow::Cow;
use std::thread;

const HEADER: &[u8] = b"\0asm\x01\0\0\0";

fn put_number(bytes: &mut Vec<u8>, mut number: usize) {
    while number >= 128 {
        bytes.push((number % 128) as u8 | 128);
        number /= 128;
    }
    bytes.push(number as u8);
}

fn put_section(module: &mut Vec<u8>, id: u8, content: &[u8]) {
    module.push(id);
    put_number(module, content.len());
    module.extend_from_slice(content);
}

/// What crosses threads.
#[test]
fn values_can_be_sent() {
    fn is_sent<T: Send + Sync + 'static>() {}
    is_sent::<ModuleImportMap>();
    is_sent::<nuigatre::ComponentWorld>();
    is_sent::<nuigatre::Resolved>();
    is_sent::<nuigatre::Error>();
}

/// A module that imports `a.f` so many times.
fn repeats(count: usize) -> Vec<u8> {
    let mut imports = Vec::new();
    put_number(&mut imports, count);
    imports.extend(b"\x01a\x01f\0\0".repeat(count));
    let mut module = HEADER.to_vec();
    put_section(&mut module, 1, b"\x01\x60\0\0");
    put_section(&mut module, 2, &imports);
    module
}

/// A module whose export `f` is one function with this code.
fn with_code(code: &[u8]) -> Vec<u8> {
    let mut bodies = vec![1];
    put_number(&mut bodies, code.len() + 1);
    bodies.push(0);
    bodies.extend_from_slice(code);
    let mut module = HEADER.to_vec();
    put_section(&mut module, 1, b"\x01\x60\0\0");
    put_section(&mut module, 3, b"\x01\0");
    put_section(&mut module, 7, b"\x01\x01f\0\0");
    put_section(&mut module, 10, &bodies);
    module
}

/// A module of so many functions, each of which calls the next.
fn chain(count: usize) -> Vec<u8> {
    let mut indices = Vec::new();
    put_number(&mut indices, count);
    indices.extend(vec![0; count]);
    let mut bodies = Vec::new();
    put_number(&mut bodies, count);
    for next in 1..=count {
        let mut body = b"\0\x10".to_vec();
        put_number(&mut body, next % count);
        body.push(0x0b);
        put_number(&mut bodies, body.len());
        bodies.extend_from_slice(&body);
    }
    let mut module = HEADER.to_vec();
    put_section(&mut module, 1, b"\x01\x60\0\0");
    put_section(&mut module, 3, &indices);
    put_section(&mut module, 7, b"\x01\x01f\0\0");
    put_section(&mut module, 10, &bodies);
    module
}

/// Modules that would need a deep stack, were they worked off by recursion.
fn deep_modules() -> Vec<Vec<u8>> {
    const COUNT: usize = 100_000;
    let blocks = [b"\x02\x40".repeat(COUNT), vec![0x0b; COUNT + 1]].concat();
    let mut table = b"\x41\0\x0e".to_vec();
    put_number(&mut table, COUNT);
    table.extend(vec![0; COUNT + 1]);
    table.push(0x0b);
    vec![with_code(&blocks), with_code(&table), chain(COUNT)]
}

#[test]
fn four_threads_at_once() {
    let module = repeats(2_000);
    let adapter = chain(2_000);
    let renamed = ModuleImportMap::new(Cow::Borrowed(&module))
        .expect("a module")
        .0;
    let trimmed = gc::run(&adapter, ["f"], None, 16).expect("an adapter");
    assert_eq!(trimmed, adapter);
    thread::scope(|scope| {
        for _ in 0..4 {
            scope.spawn(|| {
                for _ in 0..20 {
                    let (bytes, map) =
                        ModuleImportMap::new(Cow::Borrowed(&module)).expect("a module");
                    assert_eq!(bytes, renamed);
                    assert_eq!(map.expect("renames").renames().len(), 1_999);
                    let bytes = gc::run(&adapter, ["f"], None, 16).expect("an adapter");
                    assert_eq!(bytes, trimmed);
                }
            });
        }
    });
}

#[test]
fn small_stacks() {
    let modules = deep_modules();
    for kilobytes in [64, 16] {
        for module in &modules {
            let call = || gc::run(module, ["f"], None, 16);
            thread::scope(|scope| {
                let thread = thread::Builder::new().stack_size(kilobytes << 10);
                let trimmed = thread.spawn_scoped(scope, call).expect("a thread").join();
                assert_eq!(trimmed.expect("no panic"), Ok(module.clone()));
            });
        }
        let module = repeats(20_000);
        let call = move || {
            ModuleImportMap::new(Cow::Owned(module)).map(|it| it.1.map(|map| map.renames().len()))
        };
        let thread = thread::Builder::new()
            .stack_size(kilobytes << 10)
            .spawn(call);
        assert_eq!(
            thread.expect("a thread").join().expect("no panic"),
            Ok(Some(19_999))
        );
    }
}
