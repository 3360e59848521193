//! `bench original CALL TIMES` and `bench ours CALL TIMES` make the call as often
//! on one of the two sides, and once more to print its result.
//! `bench sizes CALL` prints bytes of stack and of the session (see ours.rs).

// Of the Rust only a part is called.
#![allow(dead_code, unused_imports)]

include!(concat!(env!("OUT_DIR"), "/felica.rs"));

mod archive;
mod clock;
mod host;
mod inputs;
mod original;
mod ours;
mod stack;
mod wire;

use std::hint::black_box;

fn main() {
    let words: Vec<String> = std::env::args().skip(1).collect();
    let words: Vec<&str> = words.iter().map(String::as_str).collect();
    match words[..] {
        ["sizes", name] => ours::sizes(&inputs::call(name).expect("a call of the driver")),
        [side, name, times] => show(&result(side, name, times.parse().expect("how often"))),
        _ => panic!("SIDE CALL TIMES, or sizes CALL"),
    }
}

fn result(side: &str, name: &str, times: u64) -> Vec<u8> {
    match (side, inputs::call(name)) {
        ("original", Some(call)) => original::driver(&call, times),
        ("original", None) => original::codec(name, times),
        ("ours", Some(call)) => ours::driver(&call, times),
        ("ours", None) => ours::codec(name, times),
        _ => panic!("no such side: {side}"),
    }
}

/// Prints a result, so that those of the two sides can be compared.
fn show(result: &[u8]) {
    let hex: String = result.iter().map(|byte| format!("{byte:02X}")).collect();
    println!("{hex}");
}

/// Makes the call `times` times, and once more for its result. `black_box` keeps
/// the compiler from leaving a call out or from making it once for all: no result
/// is known to be unused.
fn repeat<T>(times: u64, mut call: impl FnMut() -> T) -> T {
    for _ in 0..times {
        black_box(&call());
    }
    call()
}
