//! What the build script says of libraries: of one that is missing, of another form, of an older version, for another
//! processor, or older than its sources; and which one it takes of several.

#[path = "../build/gzip.rs"]
mod gzip;

use std::path::{Path, PathBuf};
use std::process::Command;
use std::time::{Duration, SystemTime};
use std::{env, fs};

/// The build script, as a program, and a folder for its files.
struct Script {
    folder: PathBuf,
}

impl Script {
    fn compiled() -> Self {
        let folder = Path::new(env!("CARGO_TARGET_TMPDIR")).join("build_script");
        // what an earlier run left
        let _ = fs::remove_dir_all(&folder);
        fs::create_dir_all(&folder).expect("a folder");
        let source = Path::new(env!("CARGO_MANIFEST_DIR")).join("build.rs");
        let rustc = env::var_os("RUSTC").unwrap_or_else(|| "rustc".into());
        let mut command = Command::new(rustc);
        command.args(["--edition", "2024", "--crate-name", "build_script", "-o"]);
        let made = command.arg(folder.join("script")).arg(source).status();
        assert!(made.expect("rustc").success());
        Script { folder }
    }

    /// The lines of the script for a package, with these variables.
    fn lines(&self, package: &Path, variables: &[(&str, &str)]) -> Vec<String> {
        let mut command = Command::new(self.folder.join("script"));
        command.env_clear();
        for (name, value) in [
            ("CARGO_CFG_TARGET_OS", "linux"),
            ("CARGO_CFG_TARGET_ARCH", "x86_64"),
            ("CARGO_CFG_TARGET_POINTER_WIDTH", "64"),
            ("CARGO_CFG_TARGET_ENDIAN", "little"),
        ] {
            command.env(name, value);
        }
        command.env("CARGO_MANIFEST_DIR", package);
        command.env("OUT_DIR", &self.folder);
        let ran = command.envs(variables.iter().copied()).output();
        let ran = ran.expect("the script");
        assert!(ran.status.success());
        let text = String::from_utf8(ran.stdout).expect("a text");
        text.lines().map(str::to_owned).collect()
    }

    /// A file of the folder, with these bytes.
    fn write(&self, path: &str, bytes: &[u8]) -> PathBuf {
        let path = self.folder.join(path);
        fs::create_dir_all(path.parent().expect("a folder")).expect("a folder");
        fs::write(&path, bytes).expect("a file");
        path
    }
}

/// The texts of the lines of a kind.
fn said<'a>(lines: &'a [String], kind: &str) -> Vec<&'a str> {
    let head = format!("cargo::{kind}=");
    lines
        .iter()
        .filter_map(|line| line.strip_prefix(&head))
        .collect()
}

/// What looks like a library that has these symbols.
fn archive(symbols: &[&str]) -> Vec<u8> {
    let mut bytes = b"!<arch>\n".to_vec();
    for symbol in symbols {
        bytes.extend(b"\0");
        bytes.extend(symbol.as_bytes());
        bytes.extend(b"\0");
    }
    bytes
}

/// What looks like a library of the crate's form, of object files for the processor that has this number.
fn archive_for(machine: u16) -> Vec<u8> {
    let mut bytes = archive(&[&symbol("abi")]);
    bytes.extend(b"\x7fELF\x02\x01\x01\0\0\0\0\0\0\0\0\0\x01\0");
    bytes.extend(machine.to_le_bytes());
    bytes
}

/// The number of the form that the crate knows.
fn form() -> u32 {
    let source = include_str!("../src/ffi.rs");
    let (_, rest) = source.split_once("const ABI: u32 = ").expect("the number");
    let (number, _) = rest.split_once(';').expect("its end");
    number.parse().expect("a number")
}

/// A symbol of a library of that form.
fn symbol(name: &str) -> String {
    format!("nuigatre{}_{name}", form())
}

#[test]
fn libraries() {
    let script = Script::compiled();
    let package = script.write("alone/nuigatre/Cargo.toml", b"");
    let package = package.parent().expect("a folder");
    let lib = script.folder.join("lib");
    let at = lib.to_str().expect("a text");
    let ask = || script.lines(package, &[("NUIGATRE_LIB_DIR", at)]);

    // there is none
    let lines = ask();
    let file = lib.join("libnuigatre.a").display().to_string();
    let [text] = said(&lines, "error")[..] else {
        panic!("not one error: {lines:?}");
    };
    assert!(text.starts_with(&format!("{file} is missing: ")), "{text}");
    assert!(text.contains("`rust/build-unproved.py`") && text.contains("`rust/check`"));
    let lines = script.lines(package, &[]);
    assert!(
        said(&lines, "error")[0].contains("NUIGATRE_LIB_DIR"),
        "{lines:?}"
    );
    assert!(said(&script.lines(package, &[("DOCS_RS", "1")]), "error").is_empty());
    let lines = script.lines(package, &[("NUIGATRE_LIB_DIR", "lib")]);
    assert!(said(&lines, "error")[0].contains("absolute"), "{lines:?}");

    // forms, by symbols; what is not the whole symbol has none
    let plain =
        "has symbols without the number of its form, as `rt lib` leaves it, or one before 7";
    let none = "is from before its form had a number";
    let (trim, own) = (symbol("trim"), symbol("abi"));
    let longer = format!("{own}2");
    for (symbols, found) in [
        (&[&*trim, &*own][..], None),
        (&["nuigatre99_abi", &own], None),
        (&["nuigatre6_abi"], Some("has form 6")),
        (&["nuigatre263_abi", "nuigatre_abi"], Some("has form 263")),
        (&["nuigatre_abi"], Some(plain)),
        (&["nuigatre99999999999_abi"], Some(plain)),
        (&[&trim], Some(none)),
        (&[&longer, "7_abi", "nuigatrex7_abi"], Some(none)),
        (&[], Some(none)),
    ] {
        script.write("lib/libnuigatre.a", &archive(symbols));
        let lines = ask();
        let errors = said(&lines, "error");
        let Some(found) = found else {
            assert!(errors.is_empty(), "{lines:?}");
            assert_eq!(said(&lines, "rustc-link-lib"), ["static=nuigatre"]);
            continue;
        };
        let head = format!("{file} {found}, and this crate needs form {}: ", form());
        assert!(
            errors.len() == 1 && errors[0].starts_with(&head),
            "{errors:?}"
        );
        assert!(errors[0].contains("`rust/build-unproved.py`"));
    }
    assert!(said(&ask(), "warning").is_empty());
    script.write("lib/libnuigatre.a", &archive(&[&own, &symbol("unproved")]));
    assert!(said(&ask(), "warning")[0].contains("without its proof"));

    // of several in one folder the one of the form
    let other = script.write("lib/libnuigatre6.a", &archive(&["nuigatre6_abi"]));
    let numbered = format!("lib/libnuigatre{}.a", form());
    let own = script.write(&numbered, &archive(&[&own]));
    script.write("lib/libnuigatre.a", &archive(&["nuigatre6_abi"]));
    let lines = ask();
    assert!(said(&lines, "error").is_empty(), "{lines:?}");
    let linked = format!("static=nuigatre{}", form());
    assert_eq!(said(&lines, "rustc-link-lib"), [linked]);
    for path in [own, other] {
        fs::remove_file(path).expect("a file");
    }

    ages(&script);
    of_package(&script);
}

/// Libraries of a checkout, by the age of the sources.
fn ages(script: &Script) {
    let package = script.write("top/rust/nuigatre/Cargo.toml", b"");
    let package = package.parent().expect("a folder");
    script.write(
        "top/crates.txt",
        b"# all\nlow: std\nnuigatre staticlib: middle\nmiddle: low # one\nother: low\n",
    );
    let made = script.write(
        "top/rust/unproved/libnuigatre.a",
        &archive(&[&symbol("abi")]),
    );
    let source = script.write("top/crates/low/src/deep/lib.rt", b"");
    let other = script.write("top/crates/other/src/lib.rt", b"");
    let now = SystemTime::now();
    let set = |path: &Path, hours: u64| {
        let at = now - Duration::from_secs(3_600 * hours);
        let file = fs::File::options().append(true).open(path).expect("a file");
        file.set_modified(at).expect("a time");
    };
    for path in ["top/crates.txt", "top/crates/other/src/lib.rt"] {
        set(&script.folder.join(path), 9);
    }
    let folders = ["top/crates/low/src/deep", "top/crates/low/src"];
    let set_folders = |hours: u64| {
        for path in folders {
            let at = now - Duration::from_secs(3_600 * hours);
            let folder = fs::File::open(script.folder.join(path)).expect("a folder");
            folder.set_modified(at).expect("a time");
        }
    };
    set_folders(9);
    for (library, of_source, of_other, is_old) in [(2, 3, 1, false), (2, 1, 3, true)] {
        set(&made, library);
        set(&source, of_source);
        set(&other, of_other);
        let lines = script.lines(package, &[]);
        assert!(said(&lines, "error").is_empty(), "{lines:?}");
        let warnings = said(&lines, "warning");
        assert_eq!(warnings.len(), usize::from(is_old), "{lines:?}");
        if is_old {
            let head = format!("{} is older than {}, ", made.display(), source.display());
            assert!(warnings[0].starts_with(&head), "{warnings:?}");
            let script = script.folder.join("top/rust/build-unproved.py");
            assert!(warnings[0].contains(&script.display().to_string()));
        }
    }
    // by the variable too, where it names a folder of the checkout; the proved one goes before
    let folder = made.parent().and_then(Path::to_str).expect("a text");
    let lines = script.lines(package, &[("NUIGATRE_LIB_DIR", folder)]);
    assert_eq!(said(&lines, "warning").len(), 1);
    script.write(
        "top/crates/nuigatre/out/libnuigatre.a",
        &archive(&["nuigatre4_abi"]),
    );
    let lines = script.lines(package, &[]);
    let [text] = said(&lines, "error")[..] else {
        panic!("not one error: {lines:?}");
    };
    assert!(
        text.contains("crates/nuigatre/out/libnuigatre.a has form 4"),
        "{text}"
    );
}

/// What `gzip` makes of bytes that it leaves as they are: at most 65,535.
fn stored(bytes: &[u8]) -> Vec<u8> {
    let length = bytes.len() as u16;
    let sum = bytes.iter().fold(u32::MAX, |sum, byte| {
        let next = |sum: u32, _| (sum >> 1) ^ (0xedb8_8320 * (sum & 1));
        (0..8).fold(sum ^ u32::from(*byte), next)
    });
    let mut file = b"\x1f\x8b\x08\0\0\0\0\0\x02\xff\x01".to_vec();
    file.extend([length, !length].map(u16::to_le_bytes).concat());
    file.extend(bytes);
    file.extend([!sum, bytes.len() as u32].map(u32::to_le_bytes).concat());
    file
}

/// The library that comes with the package, for each processor: what is said or made goes before.
fn of_package(script: &Script) {
    let package = script.write("git/rust/nuigatre/Cargo.toml", b"");
    let package = package.parent().expect("a folder");
    script.write("git/crates.txt", b"nuigatre staticlib: std\n");
    script.write("git/crates/nuigatre/src/lib.rt", b"");
    let arm = ("CARGO_CFG_TARGET_ARCH", "aarch64");
    let lines = script.lines(package, &[arm]);
    let text = said(&lines, "error")[0];
    let targets = script.folder.join("git/tools/targets.py");
    assert!(
        text.contains(&format!("`{} aarch64`", targets.display())),
        "{text}"
    );
    for (processor, machine, other) in [("x86_64", 62, 183), ("aarch64", 183, 62)] {
        let lib = format!("git/rust/nuigatre/lib/{processor}-unknown-linux-gnu/libnuigatre.a.gz");
        let mut packed = stored(&archive_for(machine));
        script.write(&lib, &packed);
        let lib = script.folder.join("libnuigatre.a");
        let ask = |variables: &[(&str, &str)]| {
            let asked = [&[("CARGO_CFG_TARGET_ARCH", processor)], variables].concat();
            script.lines(package, &asked)
        };
        let is_linked = |lines: &[String], archive: &Path| {
            let folder = archive.parent().expect("a folder").display().to_string();
            said(lines, "rustc-link-search") == [format!("native={folder}")]
        };
        // it is older than the sources, and nothing is said of that
        let lines = ask(&[]);
        assert!(said(&lines, "error").is_empty() && said(&lines, "warning").is_empty());
        assert!(is_linked(&lines, &lib), "{lines:?}");
        assert_eq!(fs::read(&lib).expect("a file"), archive_for(machine));
        // what the checkout made, and what the variable says
        let made = format!("git/crates/nuigatre/out/{processor}/libnuigatre.a");
        let made = script.write(&made, &archive_for(machine));
        assert!(is_linked(&ask(&[]), &made));
        let own = script.write("own/libnuigatre.a", &archive_for(machine));
        let folder = own.parent().and_then(Path::to_str).expect("a text");
        let asked = [("NUIGATRE_LIB_DIR", folder)];
        assert!(is_linked(&ask(&asked), &own));
        // for another processor
        script.write("own/libnuigatre.a", &archive_for(other));
        let lines = ask(&asked);
        assert!(
            said(&lines, "error")[0].contains("for another processor"),
            "{lines:?}"
        );
        // one that is damaged
        fs::remove_file(made).expect("a file");
        *packed.last_mut().expect("its length") += 1;
        let packed = script.write(
            &format!("git/rust/nuigatre/lib/{processor}-unknown-linux-gnu/libnuigatre.a.gz"),
            &packed,
        );
        let text = format!("{} is damaged: ", packed.display());
        assert!(said(&ask(&[]), "error")[0].starts_with(&text));
    }
    // no library at all is for others
    for (name, value) in [
        ("CARGO_CFG_TARGET_ARCH", "riscv64"),
        ("CARGO_CFG_TARGET_OS", "macos"),
        ("CARGO_CFG_TARGET_ENDIAN", "big"),
    ] {
        let lines = script.lines(package, &[(name, value), ("TARGET", "other")]);
        assert!(said(&lines, "error").is_empty() && said(&lines, "warning").len() == 1);
    }
}

/// What `gzip` makes of `abcabcabcabcabcabc nuigatre`, by its fixed codes.
const FIXED: &[u8] = b"\x1f\x8b\x08\x00\x00\x00\x00\x00\x02\xffKLJNDE\x0ay\xa5\x99\xe9\x89%E\
    \xa9\x00G6H\x05\x1b\x00\x00\x00";

/// What it makes of 1,500 bytes, by codes of its own: each i has i * i mod 7, and three times a ninth of i mod 97.
const OWN_CODES: &[u8] =
    b"\x1f\x8b\x08\x00\x00\x00\x00\x00\x02\xff\xed\xd2A\x92\x83\x20\x14\x00Q5\x10\x0c\x06\x82\
    b0\x90\xef`y\xffC\xceTQ}\x80\xd9{\x81~\x9b\xeez5\x0c\xaa\xef\
    z\xa3\xb5Q7e\xf4h\xcd\xdd\xd8q\xb4\xf6a\xdd49\xfbp\xc1\xfb\xe0\x9e\
    .\xccs\x0c\xaf\x10\xe79\xc5%\xa6uM\xf1\x9d\xf2\xb6\xe5\xf4NR\x8a\xe4O\
    \x96\xb2W\xf9J\xdd\xf7Z\x7f\xeay\x1c\xe7_\xba\x09\x0aaDp\x08O\x84\x88\
    \xb0\x22$\x84\x8c\xb0#\x9cMP\x087\x04\x8b0!8\x84\x80\xb0\x22d\x84\x0f\
    BE8\x9a0\x20(\x04\x830!\x04\x84\x17BB\xd8\x102\x82\x20\x1cM\x18\
    \x10\x0c\xc2\x1d\xc1!x\x84\x80\x10\x116\x04A\xf8\x22\x9cMP\x08\x1a\xc1\x20X\
    \x04\x8f\x10\x11\x16\x84\x8cP\x10\x04\xa16\x81\x89\x14\x13i&2Ld\x99\xc83\
    Qd\xa2\x85\x892\x13\x15&\x926Q\xed\xaeM\xafM\xafM\xff\xb7\xe9/\xc4\
    :\x83C\xdc\x05\x00\x00";

#[test]
fn packed_libraries() {
    assert_eq!(
        gzip::unpacked(FIXED).as_deref(),
        Some(&b"abcabcabcabcabcabc nuigatre"[..])
    );
    let bytes: Vec<u8> = (0..1_500_u32)
        .map(|i| (i * i % 7 + i % 97 / 9 * 3) as u8)
        .collect();
    assert_eq!(gzip::unpacked(OWN_CODES), Some(bytes));
    for bytes in [&b""[..], b"a", &[7; 65_535]] {
        assert_eq!(gzip::unpacked(&stored(bytes)).as_deref(), Some(bytes));
    }
    // each file that is cut short is refused, and one that is changed in a bit too, but for its time, its level, its system and
    // the bits after the last code
    for file in [FIXED, OWN_CODES, &stored(b"abc")] {
        for length in 0..file.len() {
            assert_eq!(gzip::unpacked(&file[..length]), None);
        }
        for bit in (0..8 * file.len()).filter(|bit| !(32..80).contains(bit)) {
            let mut changed = file.to_vec();
            changed[bit / 8] ^= 1 << (bit % 8);
            let found = gzip::unpacked(&changed);
            assert!(
                found.is_none() || found == gzip::unpacked(file),
                "bit {bit}"
            );
        }
        assert_eq!(gzip::unpacked(&[file, b"\0"].concat()), None);
    }
}
