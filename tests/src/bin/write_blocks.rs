//! Writes contents of all shapes, with what the writer has to answer, to standard output for tests/c/write_blocks.c.
use outside::contents::{self, Contents};
use outside::making::{self, Made};
use outside::random::Random;
use outside::run::stop;
use outside::writer;
use std::io::Write;

/// One argument each: the seed, and how many contents at least.
fn main() {
    let words: Vec<u64> = std::env::args().skip(1).filter_map(|word| word.parse().ok()).collect();
    let &[seed, least] = words.as_slice() else { stop("usage: write_blocks SEED COUNT") };
    let mut random = Random::new(seed);
    let mut out = Vec::new();
    let mut count = 0;
    while count < least {
        let made: Vec<Made> = (0..6).map(|k| if k < 4 { making::lawful(&mut random) } else { making::with_codes(&mut random) }).collect();
        let mut cases: Vec<Contents> = made.iter().map(|m| Contents::of(&m.parts)).collect();
        cases.extend(contents::unlawful(&mut random, &made, &made[0]).into_iter().map(|u| u.contents));
        for c in &cases {
            let length = writer::length(c);
            for room in [length, length - 1, *random.pick(&[0, length + 1, 505])] {
                put(&mut out, c, room);
                count += 1;
            }
        }
    }
    if std::io::stdout().write_all(&out).is_err() {
        stop("the contents cannot be written");
    }
}

fn put(out: &mut Vec<u8>, c: &Contents, room: usize) {
    let mut record = vec![0; room];
    let number = writer::write(c, &mut record);
    for length in [c.holders.len(), c.calls.len(), c.cards.len(), room] {
        out.extend((length as u16).to_be_bytes());
    }
    for value in [c.board, c.table, c.marked, c.claim, number] {
        out.extend(value.to_be_bytes());
    }
    for list in [&c.holders, &c.calls, &c.cards] {
        out.extend(list);
    }
    if number < 1024 {
        out.extend(&record[..number as usize]);
    }
}
