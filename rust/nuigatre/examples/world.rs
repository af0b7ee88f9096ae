//! Prints the world of a component:
//! `world WORLDS.json WORLD MAIN.wasm [--adapt NAME=FILE]... [--export KEY]... [--adapter-export NAME=KEY]...`.
//! A KEY is the id of an interface, with its version or without, or a plain name. Without `--export` the main module has
//! to export all that no adapter has to.

use nuigatre::{Adapter, ComponentEncoder, ComponentWorld, ImportInstance, ValidatedModule};
use std::process::ExitCode;
use std::{env, fs};

/// What the arguments ask for, with the bytes of files.
struct Asked {
    worlds: String,
    world: String,
    main: Vec<u8>,
    adapters: Vec<(String, Vec<u8>)>,
    exports: Vec<String>,
    adapter_exports: Vec<(String, String)>,
}

fn asked(arguments: &[String]) -> Option<Asked> {
    let [worlds, world, main, options @ ..] = arguments else {
        return None;
    };
    let mut asked = Asked {
        worlds: fs::read_to_string(worlds).ok()?,
        world: world.clone(),
        main: fs::read(main).ok()?,
        adapters: Vec::new(),
        exports: Vec::new(),
        adapter_exports: Vec::new(),
    };
    for option in options.chunks(2) {
        let [option, value] = option else { return None };
        match option.as_str() {
            "--adapt" => {
                let (name, file) = value.split_once('=')?;
                asked.adapters.push((name.to_owned(), fs::read(file).ok()?));
            }
            "--export" => asked.exports.push(value.clone()),
            "--adapter-export" => {
                let (name, key) = value.split_once('=')?;
                asked
                    .adapter_exports
                    .push((name.to_owned(), key.to_owned()));
            }
            _ => return None,
        }
    }
    Some(asked)
}

fn encoder(asked: &Asked) -> ComponentEncoder<'_> {
    let mut encoder = ComponentEncoder::new(&asked.worlds, &asked.world, &asked.main);
    if !asked.exports.is_empty() {
        encoder.main_module_exports = Some(asked.exports.iter().map(String::as_str).collect());
    }
    for (name, wasm) in &asked.adapters {
        let keys = asked.adapter_exports.iter().filter(|it| it.0 == *name);
        let mut adapter = Adapter::new(name, wasm);
        adapter.required_exports = keys.map(|it| it.1.as_str()).collect();
        encoder.adapters.push(adapter);
    }
    encoder
}

fn print_imports(module: &ValidatedModule) {
    for (name, instance) in module.imports.modules().iter() {
        match instance {
            ImportInstance::Whole(which) => println!("{name}: {which:?}"),
            ImportInstance::Names(names) => names
                .iter()
                .for_each(|(import, what)| println!("{name} {import}: {what:?}")),
        }
    }
}

fn print_import_map(world: &ComponentWorld) {
    for (name, imported) in world.import_map.iter() {
        println!(
            "{}: interface {:?} implements {:?} external {:?}",
            name.as_deref().unwrap_or("$root"),
            imported.interface,
            imported.implements,
            imported.external_id
        );
        for ((function, abi), lowering) in imported.lowerings.iter() {
            println!("  {function} {abi:?}: {lowering:?}");
        }
    }
}

fn print_world(world: &ComponentWorld) {
    print_imports(&world.info);
    for (name, adapter) in world.adapters.iter() {
        println!("adapter {name}");
        print_imports(&adapter.info);
        for (export, what) in adapter.info.exports.iter() {
            println!("{export}: {what:?}");
        }
    }
    for (name, adapter) in world.adapters.iter() {
        println!("adapter {name} of {} bytes", adapter.wasm.len());
    }
    print_import_map(world);
    for (interface, uses) in world.exports_used.iter() {
        let uses: String = uses.iter().map(|it| format!(" i{}", it.0)).collect();
        println!("i{} uses{uses}", interface.0);
    }
    for (interface, types) in world.live_type_imports.iter() {
        let types: String = types.iter().map(|it| format!(" t{}", it.0)).collect();
        println!("i{}:{types}", interface.0);
    }
    println!("slot-1 {}", world.can_use_context_slot_1());
}

fn main() -> ExitCode {
    let arguments: Vec<String> = env::args().skip(1).collect();
    let Some(asked) = asked(&arguments) else {
        println!(
            "usage: world WORLDS.json WORLD MAIN.wasm [--adapt NAME=FILE]... [--export KEY]... [--adapter-export NAME=KEY]..."
        );
        return ExitCode::from(2);
    };
    match ComponentWorld::new(&encoder(&asked)) {
        Ok(world) => {
            print_world(&world);
            ExitCode::SUCCESS
        }
        Err(error) => {
            println!("{error}");
            ExitCode::FAILURE
        }
    }
}
