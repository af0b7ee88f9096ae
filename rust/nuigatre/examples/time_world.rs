//! Times the making of a component's world:
//! `time_world [--resolved] WORLDS.json WORLD MAIN.wasm TIMES [NAME=ADAPTER.wasm [KEY]...]` prints the fastest of so many
//! calls in nanoseconds, that of looking all imports up, and how many have a lowering or are an adapter's. With
//! `--resolved` the worlds are read once before.

use nuigatre::{Adapter, ComponentEncoder, ComponentWorld, Resolved};
use std::error::Error;
use std::hint::black_box;
use std::time::Instant;
use std::{env, fs};

/// The fastest of so many calls, and the last answer.
fn fastest<T>(times: u32, call: impl Fn() -> T) -> (u128, T) {
    let timed = || {
        let begun = Instant::now();
        let answer = black_box(call());
        (begun.elapsed().as_nanos(), answer)
    };
    let (mut time, mut answer) = timed();
    for _ in 1..times {
        let (other, last) = timed();
        (time, answer) = (time.min(other), last);
    }
    (time, answer)
}

/// Looks each import of the main module up, as an encoder does.
fn found(world: &ComponentWorld) -> usize {
    let imports = world.info.imports.imports();
    let lowered = imports.filter(|import| world.lowering(import.2).is_some());
    let mut found = lowered.count();
    for name in world.adapters.keys() {
        let required = world.info.imports.required_from_adapter(name);
        let asked = required
            .keys()
            .filter(|function| required.contains_key(*function));
        found += asked.count();
    }
    found
}

fn main() -> Result<(), Box<dyn Error>> {
    let mut arguments: Vec<String> = env::args().skip(1).collect();
    let is_resolved = arguments.first().is_some_and(|it| it == "--resolved");
    if is_resolved {
        arguments.remove(0);
    }
    let [worlds, world, main, times, adapter @ ..] = &arguments[..] else {
        return Err(
            "usage: time_world [--resolved] WORLDS.json WORLD MAIN.wasm TIMES [NAME=ADAPTER.wasm [KEY]...]"
                .into(),
        );
    };
    let (json, module) = (fs::read_to_string(worlds)?, fs::read(main)?);
    let mut encoder = ComponentEncoder::new(&json, world, &module);
    let resolved;
    if is_resolved {
        resolved = Resolved::new(&json)?;
        encoder.resolve = (&resolved).into();
    }
    let wasm;
    if let [named, keys @ ..] = adapter {
        let (name, file) = named.split_once('=').ok_or("an adapter is NAME=FILE")?;
        wasm = fs::read(file)?;
        let mut adapter = Adapter::new(name, &wasm);
        adapter.required_exports = keys.iter().map(String::as_str).collect();
        encoder.adapters.push(adapter);
    }
    let times = times.parse()?;
    let (call, world) = fastest(times, || ComponentWorld::new(&encoder));
    let world = world?;
    let (asked, found) = fastest(times, || found(&world));
    println!("{call} {asked} {found}");
    Ok(())
}
