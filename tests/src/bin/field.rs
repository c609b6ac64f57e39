//! Prints the records of a field, one a line in hexadecimal, board after board: each board has a deal of its own, and each table one lawful record of it.
use outside::making;
use outside::random::Random;
use outside::run::stop;
use std::io::{BufWriter, Write};

fn main() {
    let words: Vec<String> = std::env::args().skip(1).collect();
    let [seed, boards, tables] = words.as_slice() else { stop("usage: field SEED BOARDS TABLES") };
    let number = |word: &String| word.parse::<u64>().unwrap_or_else(|_| stop("seed, boards and tables are numbers"));
    let mut random = Random::new(number(seed));
    let mut out = BufWriter::new(std::io::stdout().lock());
    for board in 1..=number(boards) {
        let deal = making::deal(&mut random);
        for table in 1..=number(tables) {
            let mut parts = making::with_deal(&mut random, board, &deal).parts;
            parts.table = table;
            let line: String = parts.bytes().iter().map(|byte| format!("{byte:02x}")).collect();
            writeln!(out, "{line}").unwrap_or_else(|e| stop(&format!("the field cannot be written: {e}")));
        }
    }
}
