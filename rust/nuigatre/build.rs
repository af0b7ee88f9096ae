//! Links `libnuigatre.a`, or the one beside it that has the number of the form in its name: that of the folder
//! `NUIGATRE_LIB_DIR`; else the one that a checkout of the repository made, proved (`rust/check`) or not (`rust/check
//! --unproved`); else the one that comes with this package, packed, in `lib`. One that is missing, is for another processor,
//! or whose calls have another form than this crate knows, is an error that says what makes it; one that is older than its
//! sources, or not proved, is a warning. Where `DOCS_RS` is set nothing is linked, so `cargo doc` needs none.

use std::collections::BTreeSet;
use std::path::{Path, PathBuf};
use std::time::SystemTime;
use std::{env, fs, str};

#[path = "build/gzip.rs"]
mod gzip;

const ARCHIVE: &str = "libnuigatre.a";

/// The end of the symbol that only a library has that was compiled without its proof.
const UNPROVED: &[u8] = b"_unproved";

/// The end of the symbol of the function that answers the number of the form, which the crate compares at each call too.
const NUMBERED: &[u8] = b"_abi";

/// The source that has the number of the form that the crate knows.
const CALLS: &str = include_str!("src/ffi.rs");

/// What a library is made of, in the folder of each of its crates.
const PARTS: [&str; 3] = ["src", "specs", "proofs"];

/// The processors for which a library can be made, with the numbers that object files have for them.
const PROCESSORS: [(&str, u16); 2] = [("x86_64", 62), ("aarch64", 183)];

fn main() {
    println!("cargo::rerun-if-env-changed=NUIGATRE_LIB_DIR");
    println!("cargo::rerun-if-env-changed=DOCS_RS");
    if env::var_os("DOCS_RS").is_some() {
        return;
    }
    let Some((processor, machine)) = processor() else {
        println!(
            "cargo::warning=libnuigatre.a is for 64-bit Linux on x86 and on Arm: no program can be linked for {}",
            env::var("TARGET").unwrap_or_default()
        );
        return;
    };
    let checkout = checkout();
    let how = how_to_make(checkout.as_deref(), processor);
    let Some(folder) = folder(checkout.as_deref(), processor, &how) else {
        return;
    };
    // of the libraries of several forms in one folder, for versions of this crate in one program, the one of this form
    let form = known_form();
    let is_numbered = folder.join(format!("libnuigatre{form}.a")).is_file();
    let name = if is_numbered {
        format!("nuigatre{form}")
    } else {
        "nuigatre".to_owned()
    };
    let archive = folder.join(format!("lib{name}.a"));
    // what this script writes itself would be newer each time
    if env::var_os("OUT_DIR").is_none_or(|out| folder != Path::new(&out)) {
        println!("cargo::rerun-if-changed={}", archive.display());
    }
    let Ok(bytes) = fs::read(&archive) else {
        println!("cargo::error={} is missing: {how}", archive.display());
        return;
    };
    report_machine(&archive, &bytes, machine, &how);
    report_form(&archive, &bytes, &how);
    if let Some(checkout) = checkout.filter(|checkout| is_made_in(&archive, checkout)) {
        report_age(&archive, &checkout, &how);
    }
    if forms(&bytes, UNPROVED).next().is_some() {
        println!(
            "cargo::warning={} is compiled without its proof, and slower: `rust/check` proves it",
            archive.display()
        );
    }
    println!("cargo::rustc-link-search=native={}", folder.display());
    println!("cargo::rustc-link-lib=static={name}");
}

/// What makes the library: the scripts of the checkout that this is in, or of any of this version.
fn how_to_make(checkout: Option<&Path>, processor: &str) -> String {
    let (top, where_to) = match checkout {
        Some(checkout) => (checkout, ""),
        None => (
            Path::new(""),
            " in a checkout of this version; set NUIGATRE_LIB_DIR to the folder that has it",
        ),
    };
    if processor != "x86_64" {
        return format!(
            "`{} {processor}` makes it over what `rt ci` proved (crates/nuigatre/out/{processor}/{ARCHIVE}){where_to}",
            top.join("tools/targets.py").display()
        );
    }
    format!(
        "`{}` makes it in some minutes, without its proof (rust/unproved/{ARCHIVE}), and `{}` proves it \
         (crates/nuigatre/out/{ARCHIVE}){where_to}",
        top.join("rust/build-unproved.py").display(),
        top.join("rust/check").display()
    )
}

/// Refuses a library for another processor, by the first object file that is in it.
fn report_machine(archive: &Path, bytes: &[u8], machine: u16, how: &str) {
    let object = bytes.windows(4).position(|at| at == b"\x7fELF");
    let number = object.and_then(|at| bytes.get(at + 18..at + 20));
    if number.is_some_and(|number| number != machine.to_le_bytes()) {
        println!(
            "cargo::error={} is for another processor: {how}",
            archive.display()
        );
    }
}

/// The numbers of forms that symbols with this end have, as `nuigatre9_abi`; `None` for one without a number.
fn forms<'a>(bytes: &'a [u8], end: &'a [u8]) -> impl Iterator<Item = Option<u32>> + 'a {
    const NAME: &[u8] = b"nuigatre";
    let starts = bytes
        .windows(NAME.len())
        .enumerate()
        .filter(|(_, name)| *name == NAME);
    starts.filter_map(move |(at, _)| {
        let rest = &bytes[at + NAME.len()..];
        let digits = rest.iter().take_while(|byte| byte.is_ascii_digit());
        let (digits, rest) = rest.split_at(digits.count());
        rest.strip_prefix(end)
            .filter(|rest| rest.first().is_none_or(|byte| *byte == 0))?;
        Some(str::from_utf8(digits).ok()?.parse().ok())
    })
}

/// The number of the form that the crate knows.
fn known_form() -> u32 {
    let known = CALLS
        .split_once("const ABI: u32 = ")
        .and_then(|it| it.1.split_once(';'));
    known.and_then(|it| it.0.parse().ok()).expect("a number")
}

/// Refuses a library whose calls have another form.
fn report_form(archive: &Path, bytes: &[u8], how: &str) {
    let known = known_form();
    let forms: Vec<Option<u32>> = forms(bytes, NUMBERED).collect();
    if forms.contains(&Some(known)) {
        return;
    }
    let found = match forms.iter().flatten().next() {
        Some(form) => format!("has form {form}"),
        None if forms.is_empty() => "is from before its form had a number".to_owned(),
        None => {
            "has symbols without the number of its form, as `rt lib` leaves it, or one before 7"
                .to_owned()
        }
    };
    println!(
        "cargo::error={} {found}, and this crate needs form {known}: {how}",
        archive.display()
    );
}

/// Warns of a library of the checkout that is older than what it is made of, as `rust/check` compares them.
fn report_age(archive: &Path, checkout: &Path, how: &str) {
    let list = checkout.join("crates.txt");
    let mut paths = vec![list.clone()];
    for library in libraries(&fs::read_to_string(list).unwrap_or_default()) {
        paths.extend(PARTS.map(|part| checkout.join("crates").join(&library).join(part)));
    }
    let mut newest = None;
    for path in paths.iter().filter(|path| path.exists()) {
        println!("cargo::rerun-if-changed={}", path.display());
        newest = newest.max(newest_in(path));
    }
    match (newest, changed(archive)) {
        (Some((at, source)), Some(made)) if at > made => println!(
            "cargo::warning={} is older than {}, of which it is made: {how}",
            archive.display(),
            source.display()
        ),
        _ => {}
    }
}

/// The crates that the library is made of, by the lines of crates.txt.
fn libraries(list: &str) -> BTreeSet<String> {
    let lines = list
        .lines()
        .map(|line| line.split('#').next().unwrap_or_default());
    let uses: Vec<_> = lines.filter_map(|line| line.split_once(':')).collect();
    let (mut found, mut open) = (BTreeSet::new(), vec!["nuigatre"]);
    while let Some(library) = open.pop() {
        // after its name may be its kind
        let line = uses
            .iter()
            .find(|line| line.0.split_whitespace().next() == Some(library));
        if let Some(line) = line.filter(|_| found.insert(library.to_owned())) {
            open.extend(line.1.split_whitespace());
        }
    }
    found
}

fn changed(path: &Path) -> Option<SystemTime> {
    fs::metadata(path).ok()?.modified().ok()
}

/// The newest of a file or a folder and of all that is in it, and when it was changed.
fn newest_in(path: &Path) -> Option<(SystemTime, PathBuf)> {
    let own = changed(path).map(|at| (at, path.to_owned()));
    let entries = fs::read_dir(path).into_iter().flatten().flatten();
    entries
        .filter_map(|entry| newest_in(&entry.path()))
        .chain(own)
        .max()
}

/// The checkout of the repository, if this is in one.
fn checkout() -> Option<PathBuf> {
    let package = PathBuf::from(env::var_os("CARGO_MANIFEST_DIR")?);
    let checkout = package.parent()?.parent()?;
    checkout
        .join("crates.txt")
        .is_file()
        .then(|| checkout.to_owned())
}

/// The processor that the library is to be linked for, if there can be one: its name, and the number of its object files.
fn processor() -> Option<(&'static str, u16)> {
    let is = |name: &str, value: &str| env::var(name).is_ok_and(|it| it == value);
    let is_supported = is("CARGO_CFG_TARGET_OS", "linux")
        && is("CARGO_CFG_TARGET_POINTER_WIDTH", "64")
        && is("CARGO_CFG_TARGET_ENDIAN", "little");
    PROCESSORS
        .into_iter()
        .find(|it| is_supported && is("CARGO_CFG_TARGET_ARCH", it.0))
}

/// Whether the checkout made a library itself: what comes with the package was made of the sources of its version.
fn is_made_in(archive: &Path, checkout: &Path) -> bool {
    let made = ["crates", "rust/unproved"];
    made.iter()
        .any(|folder| archive.starts_with(checkout.join(folder)))
}

/// The folder of the library; `None` where there is no library.
fn folder(checkout: Option<&Path>, processor: &str, how: &str) -> Option<PathBuf> {
    if let Some(folder) = env::var_os("NUIGATRE_LIB_DIR") {
        let folder = PathBuf::from(folder);
        if folder.is_absolute() {
            return Some(folder);
        }
        // this runs in the folder of the package, and not in the one where cargo was called
        println!(
            "cargo::error=NUIGATRE_LIB_DIR has to be an absolute path, and is `{}` (in .cargo/config.toml a relative \
             one can be written, with `relative = true`)",
            folder.display()
        );
        return None;
    }
    let mut folders = Vec::new();
    if let Some(checkout) = checkout {
        let made = checkout.join("crates/nuigatre/out");
        if processor == "x86_64" {
            folders.extend([made.clone(), checkout.join("rust/unproved")]);
        }
        folders.push(made.join(processor));
    }
    let found = folders.into_iter().find(|it| it.join(ARCHIVE).is_file());
    found.or_else(|| unpacked(processor, how))
}

/// The folder in which the library that comes with the package is unpacked; `None` where there is none, or it is damaged.
fn unpacked(processor: &str, how: &str) -> Option<PathBuf> {
    let package = PathBuf::from(env::var_os("CARGO_MANIFEST_DIR")?);
    let packed = package.join(format!("lib/{processor}-unknown-linux-gnu/{ARCHIVE}.gz"));
    let Ok(file) = fs::read(&packed) else {
        println!("cargo::error={ARCHIVE} is missing: {how}");
        return None;
    };
    println!("cargo::rerun-if-changed={}", packed.display());
    let Some(bytes) = gzip::unpacked(&file) else {
        println!("cargo::error={} is damaged: {how}", packed.display());
        return None;
    };
    let folder = PathBuf::from(env::var_os("OUT_DIR")?);
    if let Err(why) = fs::write(folder.join(ARCHIVE), bytes) {
        println!(
            "cargo::error={} can't be written: {why}",
            folder.join(ARCHIVE).display()
        );
        return None;
    }
    Some(folder)
}
