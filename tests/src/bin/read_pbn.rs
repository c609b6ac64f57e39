//! The independent reader of Portable Bridge Notation as a program: it reads and prints what the proved program `pbn` has to.
use outside::pbn;
use outside::run::stop;
use std::io::{Read, Write};

fn main() {
    let mut input = Vec::new();
    if std::io::stdin().read_to_end(&mut input).is_err() {
        stop("standard input cannot be read");
    }
    if std::io::stdout().write_all(&pbn::output(&input)).is_err() {
        stop("the record cannot be written");
    }
}
