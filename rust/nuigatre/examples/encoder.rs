//! An encoder for an engine of core modules: it writes all modules of a component, and prints what each gets.
//! `encoder OUT WORLDS.json WORLD MAIN.wasm [NAME=ADAPTER.wasm [KEY]...]`
//!
//! A KEY is an export of the world that the adapter has to have. The folder OUT gets `main.wasm`, each needed adapter under
//! its name, and `shim.wasm` and `fixup.wasm`: what needs a memory before there is one calls through the shim's table, which
//! the fixup fills. The words of a line are separated by tabs:
//!
//! - `use`, and a line of `wcplan`; `slot`, its number, and the name, the type and the options of a function of the shim;
//! - `module`, and a name: modules are instantiated in this order, as `run.mjs` does;
//! - `supply`, a module, an import's module and name, and what meets it: `export` of a module, or `host` and two names;
//! - `lift`, a module and its export, and the key and the name that it has in the world.

use nuigatre::{
    Adapter, ComponentEncoder, ComponentWorld, Export, Filler, Import, Slot, Table, ValType,
    ValidatedModule,
};
use std::{env, error::Error, fs, path::Path};

/// In five bytes, for a number below 2^28, with a sign or without.
fn number(number: usize) -> Vec<u8> {
    let low = [0, 7, 14, 21].map(|shift| (number >> shift) as u8 | 128);
    [&low[..], &[0]].concat()
}

fn vector(items: impl IntoIterator<Item = Vec<u8>>) -> Vec<u8> {
    let items: Vec<_> = items.into_iter().collect();
    [number(items.len()), items.concat()].concat()
}

fn name(text: &str) -> Vec<u8> {
    [number(text.len()), text.into()].concat()
}

fn module(sections: &[(u8, Vec<u8>)]) -> Vec<u8> {
    let section = |(id, of): &(u8, Vec<u8>)| [vec![*id], number(of.len()), of.clone()].concat();
    let sections: Vec<_> = sections.iter().map(section).collect();
    [b"\0asm\x01\0\0\0".to_vec(), sections.concat()].concat()
}

fn type_section(slots: &[Slot<'_>]) -> (u8, Vec<u8>) {
    let codes = [ValType::F64, ValType::F32, ValType::I64, ValType::I32];
    let code = |ty: &ValType| vec![0x7c + codes.iter().position(|it| it == ty).unwrap() as u8];
    let list = |types: &[ValType]| vector(types.iter().map(code));
    let ty = |slot: &Slot<'_>| [vec![0x60], list(&slot.ty.params), list(&slot.ty.results)].concat();
    (1, vector(slots.iter().map(ty)))
}

/// Exports functions `0`, `1`, .. that call those of its table, and the table as `$imports`.
fn shim(slots: &[Slot<'_>]) -> Vec<u8> {
    let (numbers, count) = (0..slots.len(), number(slots.len()));
    let export = |at: usize| [name(&at.to_string()), vec![0], number(at)].concat();
    let body = |at: usize| {
        let params = 0..slots[at].ty.params.len();
        let gets: Vec<_> = params.map(|at| [vec![0x20], number(at)].concat()).collect();
        let constant = [vec![0x41], number(at)].concat();
        let call = [vec![0x11], number(at), vec![0, 0x0b]].concat();
        let code = [vec![0], gets.concat(), constant, call].concat();
        [number(code.len()), code].concat()
    };
    let table = [name("$imports"), vec![1, 0]].concat();
    module(&[
        type_section(slots),
        (3, vector(numbers.clone().map(number))),
        (4, [vec![1, 0x70, 1], count.clone(), count].concat()),
        (7, vector(numbers.clone().map(export).chain([table]))),
        (10, vector(numbers.map(body))),
    ])
}

/// Imports such functions and the table, and puts them into it.
fn fixup(slots: &[Slot<'_>]) -> Vec<u8> {
    let (numbers, count) = (0..slots.len(), number(slots.len()));
    let import = |at: usize| [name(""), name(&at.to_string()), vec![0], number(at)].concat();
    let limits = [vec![1, 0x70, 1], count.clone(), count].concat();
    let table = [name(""), name("$imports"), limits].concat();
    let functions = vector(numbers.clone().map(number));
    let filled = [vec![1, 0, 0x41, 0, 0x0b], functions].concat();
    let imports = vector(numbers.map(import).chain([table]));
    module(&[type_section(slots), (2, imports), (9, filled)])
}

/// What meets each import of a module: `adapter` is its name, or `None` for the main module.
fn supply(world: &ComponentWorld, table: &Table<'_>, adapter: Option<&str>, of: &ValidatedModule) {
    let module = adapter.unwrap_or("main");
    for (from, field, import) in of.imports.imports() {
        let filler = world.filler(adapter, import);
        let memory = world.info.exports.memory().map_or("", |it| it.0);
        let with = match (filler, import) {
            (Some(filler), _) => {
                let slot = table.number_of(filler).expect("it is in the table");
                format!("export\tshim\t{slot}")
            }
            (_, Import::MainModuleMemory(_)) => format!("export\tmain\t{memory}"),
            (_, Import::MainModuleExport { name, .. }) => format!("export\tmain\t{name}"),
            _ => format!("host\t{from}\t{field}"),
        };
        println!("supply\t{module}\t{from}\t{field}\t{with}");
    }
    for (export, what) in &of.exports {
        if let Export::InterfaceFunc(key, _, func, _) | Export::WorldFunc(key, func, _) = what {
            println!("lift\t{module}\t{export}\t{key}\t{func}");
        }
    }
}

fn main() -> Result<(), Box<dyn Error>> {
    let arguments: Vec<String> = env::args().skip(1).collect();
    let [out, worlds, world, main, adapter @ ..] = &arguments[..] else {
        return Err("usage: encoder OUT WORLDS.json WORLD MAIN.wasm [NAME=FILE [KEY]...]".into());
    };
    let (resolve, wasm) = (fs::read_to_string(worlds)?, fs::read(main)?);
    let mut encoder = ComponentEncoder::new(&resolve, world, &wasm);
    let wasm;
    if let [named, keys @ ..] = adapter {
        let (name, file) = named.split_once('=').ok_or("an adapter is NAME=FILE")?;
        wasm = fs::read(file)?;
        let mut adapter = Adapter::new(name, &wasm);
        adapter.required_exports = keys.iter().map(String::as_str).collect();
        encoder.adapters.push(adapter);
    }
    let (world, plan) = ComponentWorld::with_plan(&encoder)?;
    let table = world.table()?;
    let slots = table.slots();
    let write = |name: &str, wasm: &[u8]| {
        println!("module\t{name}");
        fs::write(Path::new(out).join(name).with_extension("wasm"), wasm)
    };
    write("shim", &shim(slots))?;
    write("main", &world.module)?;
    supply(&world, &table, None, &world.info);
    for (name, adapter) in &world.adapters {
        write(name, &adapter.wasm)?;
        supply(&world, &table, Some(name), &adapter.info);
    }
    write("fixup", &fixup(slots))?;
    plan.iter().for_each(|it| println!("use\t{it}"));
    println!("supply\tfixup\t\t$imports\texport\tshim\t$imports");
    for (at, slot) in slots.iter().enumerate() {
        println!("slot\t{at}\t{slot}\t{}\t{}", slot.ty, slot.filler.options());
        let (kind, (from, name)) = match slot.filler {
            Filler::Adapter { adapter, function } => ("export", (adapter, function)),
            Filler::Destructor { module, function } => {
                ("export", (module.unwrap_or("main"), function))
            }
            _ => ("host", slot.import.ok_or("a slot of another kind")?),
        };
        println!("supply\tfixup\t\t{at}\t{kind}\t{from}\t{name}");
    }
    Ok(())
}
