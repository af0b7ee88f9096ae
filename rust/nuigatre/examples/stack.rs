//! Measures the stack of each call: `stack WORLDS.json WORLD MAIN.wasm [NAME=ADAPTER.wasm [KEY]...]` prints, for each call on
//! these, how many bytes of its thread's stack it takes, with all that the crate takes for it. So it does of deep modules.

use nuigatre::{
    Adapter, ComponentEncoder, ComponentWorld, Error, ModuleImportMap, Plan, Resolved, gc, paths,
    scan, validate_adapter_module, validate_module,
};
use std::borrow::Cow;
use std::hint::black_box;
use std::process::ExitCode;
use std::{array, env, fs, ptr, thread};

/// So many bytes of the stack are painted; the thread has twice as many.
const PAINTED: usize = 1 << 20;

/// So many bytes of them, the nearest ones, are the painter's own.
const OWN: usize = 512;

const PAINT: u64 = 0x5ca1_ab1e_0ddb_a115;

/// The words of the stack that are painted, the deepest first.
fn words(top: usize) -> impl Iterator<Item = *mut u64> {
    let first = (top - PAINTED) & !7;
    (first..top - OWN)
        .step_by(8)
        .map(ptr::with_exposed_provenance_mut)
}

/// How many bytes of the stack a call takes.
#[inline(never)]
fn depth<T>(call: impl FnOnce() -> T) -> usize {
    let here = 0_u64;
    let top = black_box(&raw const here).expose_provenance();
    for word in words(top) {
        // SAFETY: the stack goes on so far down, and nothing is there yet.
        unsafe { ptr::write_volatile(word, PAINT) };
    }
    black_box(call());
    // SAFETY: the same words, of which a call that is over has written to some.
    let untouched = words(top).take_while(|word| unsafe { ptr::read_volatile(*word) } == PAINT);
    PAINTED - 8 * untouched.count()
}

/// Prints what a call takes, on a thread of its own. Of several calls it is the most.
fn show<T>(name: &str, calls: impl IntoIterator<Item = impl FnOnce() -> Result<T, Error> + Send>) {
    let depths = calls.into_iter().map(|call| {
        thread::scope(|scope| {
            let measured = move || depth(|| call().map(drop).err());
            let thread = thread::Builder::new().stack_size(2 * PAINTED);
            let started = thread.spawn_scoped(scope, measured).expect("a thread");
            started.join().expect("no panic")
        })
    });
    println!("{name} {}", depths.max().unwrap_or_default());
}

/// A number as LEB128.
fn put_number(out: &mut Vec<u8>, mut number: usize) {
    while number >= 128 {
        out.push((number % 128) as u8 | 128);
        number /= 128;
    }
    out.push(number as u8);
}

/// A module whose export `f` is one function with this code.
fn with_code(code: &[u8]) -> Vec<u8> {
    let mut bodies = vec![1];
    put_number(&mut bodies, code.len() + 1);
    bodies.push(0);
    bodies.extend_from_slice(code);
    let mut module =
        b"\0asm\x01\0\0\0\x01\x04\x01\x60\0\0\x03\x02\x01\0\x07\x05\x01\x01f\0\0\x0a".to_vec();
    put_number(&mut module, bodies.len());
    module.extend(bodies);
    module
}

/// Blocks in blocks, and a branch of many labels.
fn deep_modules() -> [Vec<u8>; 2] {
    const COUNT: usize = 100_000;
    let mut table = b"\x41\0\x0e".to_vec();
    put_number(&mut table, COUNT);
    table.extend([0; COUNT + 1]);
    table.push(0x0b);
    [
        [b"\x02\x40".repeat(COUNT), vec![0x0b; COUNT + 1]].concat(),
        table,
    ]
    .map(|code| with_code(&code))
}

/// JSON that nests as deep as it may.
fn deep_json() -> String {
    format!("{{\"x\":{}{}}}", "[".repeat(127), "]".repeat(127))
}

fn show_all(encoder: &ComponentEncoder<'_>, json: &str) -> Result<(), Error> {
    let world = ComponentWorld::new(encoder)?;
    show(
        "ModuleImportMap::new",
        [|| ModuleImportMap::new(Cow::Borrowed(encoder.module))],
    );
    let names = |adapter: &Adapter<'_>| world.required_exports(adapter.name).map(Iterator::collect);
    let adapters: Vec<(&[u8], Vec<&str>)> = encoder
        .adapters
        .iter()
        .filter_map(|adapter| Some((adapter.wasm, names(adapter)?)))
        .collect();
    let trim = |(wasm, names): &(&[u8], Vec<&str>)| gc::run(wasm, names, None, 16);
    show("gc::run", adapters.iter().map(|it| move || trim(it)));
    let deep = deep_modules();
    show(
        "gc::run of deep modules",
        array::from_fn::<_, 2, _>(|at| {
            let module = &deep[at];
            move || gc::run(module, ["f"], None, 16)
        }),
    );
    show(
        "gc::why",
        adapters.iter().map(|it| move || gc::why(it.0, &it.1)),
    );
    let modules = adapters.iter().map(|it| it.0).chain([encoder.module]);
    show("scan", modules.clone().map(|wasm| move || scan(wasm)));
    show("paths", modules.map(|wasm| move || paths(wasm, &[], &[])));
    show(
        "paths of deep modules",
        array::from_fn::<_, 4, _>(|at| {
            let module = &deep[at % 2];
            let exports: &'static [&str] = if at < 2 { &["f"] } else { &[] };
            move || paths(module, exports, &[])
        }),
    );
    show("Resolved::new", [|| Resolved::new(json)]);
    let deep = deep_json();
    show("Resolved::new of deep JSON", [|| Resolved::new(&deep)]);
    show("ComponentWorld::new", [|| ComponentWorld::new(encoder)]);
    show(
        "ComponentWorld::with_plan",
        [|| ComponentWorld::with_plan(encoder)],
    );
    show("Plan::new", [|| Plan::new(encoder)]);
    show(
        "ComponentEncoder::paths_to_json",
        [|| encoder.paths_to_json("all")],
    );
    show(
        "ComponentEncoder::imported_parts",
        [|| encoder.imported_parts()],
    );
    show(
        "validate_module",
        [|| validate_module(encoder, encoder.module, None)],
    );
    let world = &world;
    show(
        "validate_adapter_module",
        encoder.adapters.iter().map(|adapter| {
            move || {
                let required = world.info.imports.required_from_adapter(adapter.name);
                validate_adapter_module(
                    encoder,
                    adapter.wasm,
                    required,
                    &adapter.required_exports,
                    None,
                )
            }
        }),
    );
    show(
        "ComponentWorld::table",
        [|| world.table().map(|table| table.slots().len())],
    );
    show(
        "ComponentWorld::ways",
        [|| world.ways(encoder).map(|ways| ways.imports().len())],
    );
    show(
        "ComponentWorld::export_options",
        [|| world.export_options(encoder)],
    );
    Ok(())
}

fn main() -> ExitCode {
    let arguments: Vec<String> = env::args().skip(1).collect();
    let [worlds, world, main, adapters @ ..] = &arguments[..] else {
        println!("usage: stack WORLDS.json WORLD MAIN.wasm [NAME=ADAPTER.wasm [KEY]...]");
        return ExitCode::from(2);
    };
    let read = |path: &str| fs::read(path).expect("a file that can be read");
    let json = String::from_utf8(read(worlds)).expect("a text");
    let module = read(main);
    let mut parts: Vec<(&str, Vec<u8>, Vec<&str>)> = Vec::new();
    for word in adapters {
        match (word.split_once('='), parts.last_mut()) {
            (Some((name, path)), _) => parts.push((name, read(path), Vec::new())),
            (None, Some(last)) => last.2.push(word),
            (None, None) => panic!("an adapter before its keys"),
        }
    }
    let mut encoder = ComponentEncoder::new(&json, world, &module);
    for (name, wasm, keys) in &parts {
        let mut adapter = Adapter::new(name, wasm);
        adapter.required_exports.clone_from(keys);
        encoder.adapters.push(adapter);
    }
    match show_all(&encoder, &json) {
        Ok(()) => ExitCode::SUCCESS,
        Err(error) => {
            println!("{error}");
            ExitCode::FAILURE
        }
    }
}
