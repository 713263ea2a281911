//! The program of `tests/vectors`: reads a script of `replay` and prints what `replay` must print. It is built without the
//! proved library, so no answer can come from there.
#![allow(dead_code)] // the tests use more of what they share
use std::io::{self, Read, Write};

#[path = "."]
mod common {
    pub mod reference;
    pub mod reference_keys;
    pub mod replay;
}

fn main() -> io::Result<()> {
    let mut script = vec![];
    io::stdin().read_to_end(&mut script)?;
    io::stdout().write_all(&common::replay::output(&script))
}
