//! Writes calls on tallies in bytes, with what they have to answer, to standard output for tests/c/tally_blocks.c.
use outside::random::Random;
use outside::run::stop;
use outside::tally_calls::CALLS;
use outside::tally_cases::{Call, Cases};
use std::io::Write;

/// Calls with the same deals.
const SAME_DEALS: u64 = 1_000;

/// One argument each: the seed, and how many calls.
fn main() {
    let words: Vec<u64> = std::env::args().skip(1).filter_map(|word| word.parse().ok()).collect();
    let &[seed, count] = words.as_slice() else { stop("usage: tally_blocks SEED COUNT") };
    let mut random = Random::new(seed);
    let mut cases = Cases::new(&mut random);
    let mut out = Vec::new();
    for k in 0..count {
        if k % SAME_DEALS == 0 {
            cases = Cases::new(&mut random);
        }
        let call = cases.call(&mut random);
        let short = random.below(call.needs());
        let room = if random.percent(5) { short } else { call.needs() };
        put(&mut out, &call, room);
    }
    if std::io::stdout().write_all(&out).is_err() {
        stop("the calls cannot be written");
    }
}

fn put(out: &mut Vec<u8>, call: &Call, room: usize) {
    let mut lent = vec![0; room];
    let due = call.made_by(&CALLS, &mut lent);
    let (number, slices) = call.parts();
    for length in [call.kind(), slices[0].len(), slices[1].len(), room] {
        out.extend((length as u16).to_be_bytes());
    }
    out.extend(number.to_be_bytes());
    out.extend(due.to_be_bytes());
    slices.iter().for_each(|slice| out.extend(*slice));
    if due == 0 {
        out.extend(&lent[..call.needs()]);
    }
}
