//! Times the trimming of an adapter: `time_trim IN TIMES EXPORT...` prints the fastest of so many calls, in nanoseconds,
//! and how many bytes are left.

use std::hint::black_box;
use std::time::Instant;
use std::{env, fs};

fn main() {
    let arguments: Vec<String> = env::args().skip(1).collect();
    let [source, times, exports @ ..] = &arguments[..] else {
        println!("usage: time_trim IN TIMES EXPORT...");
        return;
    };
    let adapter = fs::read(source).expect("a file that can be read");
    let times: u32 = times.parse().expect("a number");
    let exports: Vec<&str> = exports.iter().map(String::as_str).collect();
    let mut fastest = u128::MAX;
    let mut left = 0;
    for _ in 0..times {
        let begun = Instant::now();
        let trimmed = nuigatre::gc::run(black_box(&adapter), &exports, None, 16);
        fastest = fastest.min(begun.elapsed().as_nanos());
        left = trimmed.expect("an adapter that can be trimmed").len();
    }
    println!("{fastest} {left}");
}
