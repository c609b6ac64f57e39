//! Writes a record given in the game's words on standard input as hexadecimal bytes. samples/README.md describes the words.
use outside::parts::Parts;
use outside::run::stop;
use outside::words::{call, hand, number, plays, seat, NOBODY};
use std::io::Read;

fn main() {
    let mut text = String::new();
    if std::io::stdin().read_to_string(&mut text).is_err() {
        stop("standard input cannot be read as text");
    }
    let mut parts = Parts { deal: vec![NOBODY; 52], ..Parts::default() };
    let mut missing = 0;
    for line in text.lines().filter(|line| !line.starts_with('#') && !line.trim().is_empty()) {
        said(&mut parts, &mut missing, line).unwrap_or_else(|why| stop(&why));
    }
    if parts.deal.contains(&NOBODY) {
        stop("a card is in no hand");
    }
    parts.count();
    let mut bytes = parts.bytes();
    bytes.truncate(bytes.len() - missing);
    for line in bytes.chunks(20) {
        println!("{}", line.iter().map(|byte| format!("{byte:02X}")).collect::<Vec<_>>().join(" "));
    }
}

/// Takes what one line says of the record.
fn said(parts: &mut Parts, missing: &mut usize, line: &str) -> Result<(), String> {
    let words: Vec<&str> = line.split_whitespace().collect();
    match words[..] {
        ["board", board] => parts.board = number(board)?,
        ["table", table] => parts.table = number(table)?,
        ["hand", holder, cards] => hand(&mut parts.deal, seat(holder)?, cards)?,
        ["calls", ..] => parts.calls.extend(words[1..].iter().map(|word| call(word)).collect::<Result<Vec<_>, _>>()?),
        ["trick", ..] => plays(parts, words[1..].iter().copied())?,
        ["claim", claim] => parts.claim = Some(number(claim)?),
        ["missing", bytes] => *missing = number(bytes)? as usize,
        _ => return Err(format!("a line that says nothing of a record: {line}")),
    }
    Ok(())
}
