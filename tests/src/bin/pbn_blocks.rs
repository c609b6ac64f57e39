//! Writes texts in Portable Bridge Notation, with what a reader has to answer, to standard output for tests/c/pbn_blocks.c.
use outside::making::{self, Made};
use outside::pbn;
use outside::pbn_texts::{self, Text};
use outside::random::Random;
use outside::run::stop;
use std::io::Write;

/// One argument each: the seed, and how many texts at least.
fn main() {
    let words: Vec<u64> = std::env::args().skip(1).filter_map(|word| word.parse().ok()).collect();
    let &[seed, least] = words.as_slice() else { stop("usage: pbn_blocks SEED COUNT") };
    let mut random = Random::new(seed);
    let mut out = Vec::new();
    let mut count = 0;
    while count < least {
        let mut made: Vec<Made> = (0..5).map(|_| making::played_out(&mut random)).collect();
        made.push(making::passed_out(&mut random));
        for m in &made {
            let text = pbn_texts::whole(m, random.below(4) as u8);
            let length = m.parts.bytes().len();
            for room in [length, length - 1, *random.pick(&[0, length + 1, 296])] {
                put(&mut out, &text, room);
                count += 1;
            }
        }
        // The file has two bytes for a length.
        for text in pbn_texts::wrong(&mut random, &made).into_iter().filter(|text| text.bytes.len() < 1 << 16) {
            put(&mut out, &text, *random.pick(&[0, 19, 296]));
            count += 1;
        }
    }
    if std::io::stdout().write_all(&out).is_err() {
        stop("the texts cannot be written");
    }
}

fn put(out: &mut Vec<u8>, text: &Text, room: usize) {
    let mut record = vec![0; room];
    let number = pbn::read(&text.bytes, text.table, &mut record);
    for length in [text.bytes.len(), room] {
        out.extend(u16::try_from(length).expect("a length of two bytes").to_be_bytes());
    }
    for value in [text.table, number] {
        out.extend(value.to_be_bytes());
    }
    out.extend(&text.bytes);
    if number < 1024 {
        out.extend(&record[..number as usize]);
    }
}
