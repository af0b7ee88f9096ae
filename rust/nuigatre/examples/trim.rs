//! Trims an adapter: `trim IN OUT [--realloc NAME] EXPORT...`, as `wctrim trim` does.

use std::process::ExitCode;
use std::{env, fs};

fn main() -> ExitCode {
    let arguments: Vec<String> = env::args().skip(1).collect();
    let words: Vec<&str> = arguments.iter().map(String::as_str).collect();
    let (source, target, realloc, exports) = match &words[..] {
        [source, target, "--realloc", name, exports @ ..] => (source, target, Some(*name), exports),
        [source, target, exports @ ..] => (source, target, None, exports),
        _ => {
            println!("usage: trim IN OUT [--realloc NAME] EXPORT...");
            return ExitCode::from(2);
        }
    };
    let adapter = fs::read(source).expect("a file that can be read");
    match nuigatre::gc::run(&adapter, exports, realloc, 16) {
        Ok(trimmed) => {
            fs::write(target, trimmed).expect("a file that can be written");
            ExitCode::SUCCESS
        }
        Err(error) => {
            println!("{error}");
            ExitCode::FAILURE
        }
    }
}
