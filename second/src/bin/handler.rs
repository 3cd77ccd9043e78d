//! The plain handler (`second::plain`) as a program: the sheet of a good recording on standard input. The benchmarks
//! lay the proved sheet program beside it.
#![forbid(unsafe_code)]

use second::plain::Handler;
use std::io::{Read, Write};

/// How many bytes are read at once.
const BLOCK: usize = 65_536;

fn main() -> std::io::Result<()> {
    let mut handler = Handler::default();
    let mut block = vec![0; BLOCK];
    let mut input = std::io::stdin().lock();
    loop {
        match input.read(&mut block)? {
            0 => break,
            length => handler.feed(&block[..length]),
        }
    }
    std::io::stdout().write_all(handler.sheet().as_bytes())
}
