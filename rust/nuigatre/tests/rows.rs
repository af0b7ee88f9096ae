//! The rows of renaming, of trimming and of paths to imports, through the crate. Their answers are those of the libraries' own
//! functions, and those of the program `wcplan`.

mod common;

use common::{Row, answered_bytes, bytes_of, rows_of};
use nuigatre::{Adapter, ComponentEncoder, ComponentWorld, Error, ModuleImportMap, World, gc};
use std::borrow::Cow;
use std::collections::HashMap;
use std::str;

/// The files with calls of trimming.
const TRIMMING: [&str; 3] = ["trim.rows", "no-trace.rows", "hostile.rows"];

/// The line of the fault, as rows have it: without the name of what could not be done.
fn fault_line(error: &Error) -> String {
    match error {
        Error::Dedupe(fault) => format!("fault {fault}"),
        Error::Trim(fault) => format!("fault {fault}"),
        error => format!("fault {error}"),
    }
}

/// How the bytes are held, and the renamed imports, as rows have them.
fn renamed_lines(is_owned: bool, map: Option<&ModuleImportMap>) -> Vec<String> {
    let Some(map) = map else {
        return vec!["no map".to_owned()];
    };
    assert!(is_owned);
    let renames = map.renames().iter();
    renames
        .map(|it| format!("renamed {:?} {:?} {:?}", it.module, it.original, it.name))
        .collect()
}

fn check_dedupe(row: &Row, wasm: Cow<'_, [u8]>) {
    let (held, input) = (matches!(wasm, Cow::Owned(_)), wasm.to_vec());
    match ModuleImportMap::new(wasm) {
        Ok((bytes, map)) => {
            let is_owned = matches!(bytes, Cow::Owned(_));
            let word = if is_owned { "owned" } else { "borrowed" };
            assert_eq!(answered_bytes(&row.answer, word), *bytes, "{}", row.name);
            assert!(map.is_some() || (is_owned == held && *bytes == input));
            let others = row.answer.iter().filter(|line| !line.starts_with(word));
            let wanted: Vec<_> = others.cloned().collect();
            assert_eq!(
                wanted,
                renamed_lines(is_owned, map.as_ref()),
                "{}",
                row.name
            );
        }
        Err(error) => assert_eq!(row.answer, [fault_line(&error)], "{}", row.name),
    }
}

/// The names in quotes of a line, without escapes.
fn quoted(line: &str) -> Vec<&str> {
    line.split('"').skip(1).step_by(2).collect()
}

fn check_original_names(row: &Row) {
    let wasm = bytes_of(&row.arguments);
    let (_, map) = ModuleImportMap::new(Cow::Owned(wasm)).expect("a module");
    for wanted in &row.answer {
        let import = wanted.split(" was ").next().expect("an import");
        let [module, name] = quoted(import)[..] else {
            panic!("{}: {import}", row.name)
        };
        let original = map.as_ref().and_then(|map| map.original_name(module, name));
        let was = original.map_or(String::new(), |original| format!(" was {original:?}"));
        assert_eq!(format!("{import}{was}"), *wanted, "{}", row.name);
    }
}

#[test]
fn rows_of_renaming() {
    let mut counts = [0; 3];
    for row in rows_of("dedupe.rows") {
        let bytes = || bytes_of(&row.input);
        match row.call.as_str() {
            "dedupe" => check_dedupe(&row, Cow::Borrowed(&bytes())),
            "dedupe_owned" => check_dedupe(&row, Cow::Owned(bytes())),
            "original_names" => check_original_names(&row),
            _ => continue,
        }
        counts[["dedupe", "dedupe_owned", "original_names"]
            .iter()
            .position(|call| *call == row.call)
            .expect("a call")] += 1;
    }
    assert!(counts.iter().all(|count| *count > 0), "{counts:?}");
}

fn check_trim(row: &Row, realloc: Option<&str>, page: u32, names: &[String]) {
    let names: Vec<&str> = names.iter().map(String::as_str).collect();
    match gc::run(&bytes_of(&row.input), &names, realloc, page) {
        Ok(bytes) => {
            assert!(row.answer.iter().all(|line| line.starts_with("bytes ")));
            assert_eq!(answered_bytes(&row.answer, "bytes"), bytes, "{}", row.name);
        }
        Err(error) => assert_eq!(row.answer, [fault_line(&error)], "{}", row.name),
    }
}

#[test]
fn rows_of_trimming() {
    let mut count = 0;
    for row in TRIMMING.iter().flat_map(|file| rows_of(file)) {
        match (row.call.as_str(), &row.arguments[..]) {
            ("trim", names) => check_trim(&row, None, 16, names),
            ("trim_for", [realloc, page, names @ ..]) => {
                let realloc = Some(realloc.as_str()).filter(|name| *name != "-");
                check_trim(&row, realloc, page.parse().expect("a page"), names);
            }
            _ => continue,
        }
        count += 1;
    }
    assert!(count > 50, "{count}");
}

/// What the program prints of a fault is the text of the error.
#[test]
fn printed_faults() {
    let mut count = 0;
    for row in rows_of("command.rows")
        .iter()
        .filter(|row| row.call == "run_program")
    {
        let Some(text) = row
            .answer
            .first()
            .and_then(|line| line.strip_prefix("printed wctrim: "))
        else {
            continue;
        };
        let bytes = bytes_of(&row.input);
        let words: Vec<&str> = row.arguments.iter().map(String::as_str).collect();
        let error = match &words[..] {
            ["dedupe", "in.wasm", _] => ModuleImportMap::new(Cow::Borrowed(&bytes)).err(),
            ["trim", "in.wasm", _, names @ ..] => gc::run(&bytes, names, None, 16).err(),
            _ => None,
        };
        let Some(error) = error else { continue };
        assert_eq!(error.to_string(), text, "{}", row.name);
        count += 1;
    }
    assert!(count >= 2, "{count}");
}

/// The files of a row, by their paths.
fn files_of(row: &Row) -> HashMap<&str, Vec<u8>> {
    let mut files = HashMap::new();
    let heads = row.input.iter().enumerate().filter_map(|(at, line)| {
        let (kind, path) = line.split_once(' ')?;
        matches!(kind, "text" | "file").then_some((at, kind == "text", path))
    });
    let heads: Vec<_> = heads.collect();
    for (number, (at, is_text, path)) in heads.iter().enumerate() {
        let end = heads.get(number + 1).map_or(row.input.len(), |it| it.0);
        let lines = &row.input[at + 1..end];
        let bytes = if *is_text {
            lines.join("\n").into_bytes()
        } else {
            bytes_of(lines)
        };
        files.insert(*path, bytes);
    }
    files
}

/// Paths as lines, each with its import, without what is before the import or the export at which it begins here.
type Paths = Vec<Vec<String>>;

/// What the crate says of a command of `wcplan`.
fn paths_of(row: &Row) -> Paths {
    let files = files_of(row);
    let file = |path: &str| &files[path][..];
    let (mut places, mut adapters, mut exports) = (Vec::new(), Vec::new(), Vec::new());
    let mut arguments = row.arguments.iter().map(String::as_str);
    while let Some(argument) = arguments.next() {
        let mut pair = || arguments.next().and_then(|it| it.split_once('='));
        match argument {
            "--adapt" => adapters.extend(pair()),
            "--adapter-export" => exports.extend(pair()),
            "--why" => drop(arguments.next()),
            argument => places.push(argument),
        }
    }
    let worlds = str::from_utf8(file(places[0])).expect("a text");
    let (world, main) = match places[1..] {
        [world, main] => (World::Name(world), main),
        _ => (World::Index(0), places[1]),
    };
    let mut encoder = ComponentEncoder::new(worlds, world, file(main));
    for (name, path) in adapters {
        let mut adapter = Adapter::new(name, file(path));
        let keys = exports.iter().filter(|it| it.0 == name).map(|it| it.1);
        adapter.required_exports.extend(keys);
        encoder.adapters.push(adapter);
    }
    let world = ComponentWorld::new(&encoder).expect("a world");
    let ways = world.ways(&encoder).expect("paths");
    let imports = ways.imports().iter().enumerate().map(|(number, import)| {
        let interface = import.interface.unwrap_or("$root");
        let steps = ways.steps(number).expect("a path");
        let head = format!("{interface} {}", import.function);
        let steps = steps.iter().map(|step| format!("  {step}"));
        std::iter::once(head).chain(steps).collect()
    });
    imports.collect()
}

/// Replaces each line `as above to ITEM of MODULE` by the lines that it stands for.
fn tell_in_full(paths: &mut Paths) {
    let mut above = HashMap::new();
    for path in paths {
        let mut module = "main".to_owned();
        let mut told = Vec::new();
        for line in path.drain(1..) {
            if let Some(item) = line.strip_prefix("  as above to ") {
                told.clone_from(&above[item]);
                module = item.rsplit_once(" of ").expect("a module").1.to_owned();
                continue;
            }
            if let Some((adapter, _)) = line.split_once(" exports ") {
                module = adapter.trim_start().to_owned();
            }
            let item = format!("{} of {module}", &line[2..]);
            told.push(line);
            above.entry(item).or_insert_with(|| told.clone());
        }
        path.append(&mut told);
    }
}

/// The paths that the program prints.
fn printed(row: &Row) -> Paths {
    let mut paths = Paths::new();
    let lines = row
        .answer
        .iter()
        .filter_map(|it| it.strip_prefix("printed "));
    for line in lines {
        match paths.last_mut() {
            // a mark is no part of a path
            Some(path) if line.starts_with("  ") || line.starts_with("* ") => {
                path.push(format!("  {}", &line[2..]));
            }
            _ => paths.push(vec![line.to_owned()]),
        }
    }
    tell_in_full(&mut paths);
    // what isn't imported has no path, and the one to what needs the types of an interface is the program's alone
    paths.retain(|path| path.len() > 1 && !path[0].ends_with(": only its types are used"));
    let begins =
        |line: &String| line.starts_with("  main imports ") || line.starts_with("  adapter ");
    for path in &mut paths {
        let at = path.iter().position(begins).expect("an import");
        path.drain(1..at);
    }
    paths
}

#[test]
fn rows_of_paths() {
    let mut count = 0;
    for row in rows_of("wcplan.rows") {
        let has = |word: &str| row.arguments.iter().any(|it| it == word);
        let is_done = row.answer.iter().any(|line| line == "status 0");
        if row.call != "wcplan" || !has("--why") || has("--json") || has("--dot") || !is_done {
            continue;
        }
        let (wanted, mut found) = (printed(&row), paths_of(&row).into_iter());
        if has("all") {
            assert!(found.clone().eq(wanted.iter().cloned()), "{}", row.name);
        }
        for path in &wanted {
            assert!(found.any(|it| it == *path), "{}: {path:?}", row.name);
        }
        count += wanted.len();
    }
    assert!(count > 20, "{count}");
}

/// As the program's lines: the names of an adapter, of its exports, and of its functions, with blanks and quotes.
#[test]
fn the_paths_through_an_export_with_a_quote() {
    let rows = rows_of("wcplan.rows");
    let row = rows
        .iter()
        .find(|row| row.name == "the_ways_through_an_export_with_a_quote")
        .expect("the row");
    let row = Row {
        arguments: row
            .arguments
            .iter()
            .filter(|it| *it != "--json")
            .cloned()
            .collect(),
        name: row.name.clone(),
        call: row.call.clone(),
        input: row.input.clone(),
        answer: Vec::new(),
    };
    let wanted = [
        "$root f",
        "  main imports old a\\u{20}\"b",
        "  adapter old exports a\\u{20}\"b",
        "  func 1",
        "  func 0",
        "  adapter old imports $root f",
    ];
    assert_eq!(paths_of(&row), [wanted]);
}
