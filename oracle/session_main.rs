//! session [--any-size]: prints for the session program's input, read from standard input, what the session program must print.
//! `--any-size` lifts question 10's limits on sizes.
use std::io::{Read, Write};

fn main() {
    let limits = !std::env::args().any(|a| a == "--any-size");
    let mut input = Vec::new();
    std::io::stdin().read_to_end(&mut input).expect("standard input");
    std::io::stdout().write_all(oracle::session::program(&input, limits).as_bytes()).expect("standard output");
}
