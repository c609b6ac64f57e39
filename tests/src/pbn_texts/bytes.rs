//! Texts with bytes changed, left out, doubled or put in, cut anywhere, with lines moved, and of no plan.
use crate::random::Random;

pub const CHANGED: &str = "a byte changed";
pub const LEFT_OUT: &str = "a byte left out";
pub const DOUBLED: &str = "a byte doubled";
pub const PUT_IN: &str = "a byte put in";
pub const BY_BYTE: [&str; 4] = [CHANGED, LEFT_OUT, DOUBLED, PUT_IN];

pub const KINDS: [&str; 11] = [
    CHANGED,
    LEFT_OUT,
    DOUBLED,
    PUT_IN,
    "some bytes changed",
    "cut at a byte",
    "a line left out",
    "a line doubled",
    "two lines exchanged",
    "random bytes behind a line",
    "random bytes",
];

/// The bytes that texts are made of, and some that they are not.
const LETTERS: &[u8] = b"\n \".:[]0123456789AKQJTNESWCDHXPaslyoundtrBi-\r\t\0\x7f\xff";

pub fn spoil(random: &mut Random, text: &mut Vec<u8>, kind: &str) {
    let at = random.below(text.len());
    let mut lines: Vec<Vec<u8>> = text.split_inclusive(|&byte| byte == b'\n').map(<[u8]>::to_vec).collect();
    let (one, other) = (random.below(lines.len()), random.below(lines.len()));
    match kind {
        "some bytes changed" => {
            for _ in 0..random.between(2, 5) {
                let at = random.below(text.len());
                text[at] = *random.pick(LETTERS);
            }
            return;
        }
        "cut at a byte" => return text.truncate(at),
        "a line left out" => drop(lines.remove(one)),
        "a line doubled" => lines.insert(one, lines[one].clone()),
        "two lines exchanged" => lines.swap(one, other),
        "random bytes behind a line" => {
            lines.truncate(one);
            lines.push(noise(random));
        }
        "random bytes" => lines = vec![noise(random)],
        _ => {
            *text = self::at(random, text, kind, at);
            return;
        }
    }
    *text = lines.concat();
}

fn noise(random: &mut Random) -> Vec<u8> {
    let count = random.below(200);
    if random.percent(50) {
        return random.bytes(count);
    }
    (0..count).map(|_| *random.pick(LETTERS)).collect()
}

/// A text with the byte at a place changed, left out or doubled, or with another before it.
pub fn at(random: &mut Random, text: &[u8], kind: &str, at: usize) -> Vec<u8> {
    let mut text = text.to_vec();
    match kind {
        CHANGED => text[at] = *random.pick(LETTERS),
        LEFT_OUT => drop(text.remove(at)),
        DOUBLED => text.insert(at, text[at]),
        _ => text.insert(at, *random.pick(LETTERS)),
    }
    text
}
