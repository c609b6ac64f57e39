//! Writes records of all shapes, with what the judge has to answer, to standard output for tests/c/blocks.c.
use outside::compare::Room;
use outside::damage::{self, codes};
use outside::judge::{self, Lent};
use outside::making;
use outside::random::Random;
use outside::run::stop;
use std::io::Write;

/// One argument each: the seed, and how many records at least.
fn main() {
    let words: Vec<u64> = std::env::args().skip(1).filter_map(|word| word.parse().ok()).collect();
    let &[seed, least] = words.as_slice() else { stop("usage: blocks SEED COUNT") };
    let mut random = Random::new(seed);
    let mut out = Vec::new();
    let mut records = 0;
    while records < least {
        let made = making::lawful(&mut random);
        let whole = made.parts.bytes();
        let mut cases = vec![whole.clone(), damage::flipped(&mut random, &whole), damage::noise(&mut random, &whole)];
        cases.extend(damage::KINDS.into_iter().filter_map(|kind| damage::damaged(&mut random, &made, kind)).map(|d| d.bytes));
        cases.extend((0..3).map(|_| making::lawful(&mut random).parts.bytes()));
        let coded = making::with_codes(&mut random);
        cases.extend([coded.parts.bytes(), codes::flipped(&mut random, &coded), making::with_codes(&mut random).parts.bytes()]);
        cases.extend(codes::KINDS.into_iter().filter_map(|kind| codes::damaged(&mut random, &coded, kind)).map(|d| d.bytes));
        for record in &cases {
            let room = if random.percent(5) { Room::shorter(&mut random) } else { Room::EXACT };
            put(&mut out, record, room);
            records += 1;
        }
    }
    if std::io::stdout().write_all(&out).is_err() {
        stop("the records cannot be written");
    }
}

fn put(out: &mut Vec<u8>, record: &[u8], room: Room) {
    let lengths = [room.answer, room.list, room.failures, room.winners];
    let [mut answer, mut list, mut failures, mut winners] = lengths.map(|length| vec![0; length]);
    let mut lent = Lent { answer: &mut answer, list: &mut list, failures: &mut failures, winners: &mut winners };
    let number = judge::judge(record, &mut lent);
    for length in [record.len()].into_iter().chain(lengths) {
        out.extend((length as u16).to_be_bytes());
    }
    out.extend(number.to_be_bytes());
    out.extend(record);
    if number == 0 {
        let revokes = answer[4] & 63;
        out.extend(&answer[..7]);
        out.push(revokes);
        out.extend(&list[..usize::from(revokes)]);
        out.extend(&failures[..52]);
        let told = judge::read(record).map_or(0, |judgement| judgement.winners().len());
        out.push(told as u8);
        out.extend(&winners[..told]);
    }
}
