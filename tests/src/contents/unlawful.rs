//! Contents that are damaged in each way that a refusal names, that have numbers which no field can hold, that are mixed, and of no plan.
use super::Contents;
use crate::damage::{self, codes, Damaged};
use crate::making::Made;
use crate::penalty::{CHOICE, EXPOSED};
use crate::random::Random;
use crate::writer::{self, items, Item};

/// Contents that a writer may refuse.
pub struct Unlawful {
    pub contents: Contents,
    /// What a writer has to return, where it is known from how the contents were made.
    pub number: Option<u32>,
    /// What is wrong with a code among the cards, where that is what was spoilt.
    pub kind: Option<&'static str>,
}

/// Contents made of lawful ones: with each kind of damage, with numbers that no field can hold, mixed with others, and of no plan.
pub fn unlawful(random: &mut Random, made: &[Made], other: &Made) -> Vec<Unlawful> {
    let read = |d: Damaged, kind| Some(Unlawful { contents: Contents::read(&d.bytes)?, number: d.number, kind });
    let plain = |(contents, number)| Unlawful { contents, number, kind: None };
    let mut all = Vec::new();
    for kind in damage::KINDS {
        let damaged = made.iter().find_map(|m| damage::damaged(random, m, kind));
        all.extend(damaged.and_then(|d| read(d, None)));
    }
    for kind in BEYOND {
        all.extend(made.iter().find_map(|m| beyond(random, m, kind)).map(plain));
    }
    for kind in codes::KINDS {
        let damaged = made.iter().find_map(|m| codes::damaged(random, m, kind));
        all.extend(damaged.and_then(|d| read(d, Some(kind))));
    }
    for kind in CODES_BEYOND {
        let spoilt = made.iter().find_map(|m| code_beyond(random, m, kind));
        all.extend(spoilt.map(|(contents, number)| Unlawful { contents, number, kind: Some(kind) }));
    }
    all.extend(made.iter().map(|m| plain((mixed(random, m, other), None))));
    all.push(plain((noise(random), None)));
    all
}

/// The refusals that numbers which no field can hold give.
const BEYOND: [u32; 7] = [3, 4, 5, 10, 11, 15, 33];

/// Gives contents a number that no field can hold; nothing where these contents cannot have one.
fn beyond(random: &mut Random, made: &Made, kind: u32) -> Option<(Contents, Option<u32>)> {
    let mut c = Contents::of(&made.parts);
    let place = match kind {
        3 => place(random, &mut c),
        4 => holder(random, &mut c),
        5 => {
            let k = random.below(c.calls.len());
            c.calls[k] = over(random, 63);
            k
        }
        10 => {
            let passed_out = *random.pick(&[1, 4, 52]);
            let count = if made.contract.is_none() { passed_out } else { *random.pick(&[53, 63, 64, 255, 256, 600]) };
            c.cards = (0..count).map(|_| card_number(random)).collect();
            if random.percent(50) {
                // Codes are not counted.
                let code = [*random.pick(&[52, 53]), random.below(256) as u8, random.below(256) as u8];
                c.cards.splice(0..0, code);
            }
            count.min(63)
        }
        11 if !made.parts.cards.is_empty() => {
            let k = random.below(made.parts.cards.len());
            let at = flat_place(&c.cards, k);
            c.cards[at] = over(random, 63);
            k
        }
        33 => {
            let more = *random.pick(&[512 - c.calls.len(), 513 - c.calls.len(), 1200]);
            c.calls.extend(random.bytes(more));
            511
        }
        15 if c.marked != 0 => {
            c.claim = great(random, 15);
            15
        }
        _ => return None,
    };
    Some((c, Some(kind * 1024 + place as u32)))
}

/// A number in a card's place, a card or none.
fn card_number(random: &mut Random) -> u8 {
    match random.below(256) as u8 {
        52 | 53 => 51,
        number => number,
    }
}

/// Where card k stands in a list with codes.
fn flat_place(list: &[u8], k: usize) -> usize {
    let (mut cards, mut at) = (0, 0);
    for item in items(list) {
        if matches!(item, Item::Card(_)) {
            if cards == k {
                return at;
            }
            cards += 1;
        }
        at += item.numbers();
    }
    panic!("no card {k}")
}

/// What is wrong with a code of the list, for a writer alone.
pub const CODES_BEYOND: [&str; 7] =
    ["cut short", "no card after", "code when passed out", "deliberate over 1", "kind over 1", "exposed over 63", "suit over 3"];

/// Spoils one code of the contents, or adds one, so that it is refused as a writer alone refuses it.
fn code_beyond(random: &mut Random, made: &Made, kind: &str) -> Option<(Contents, Option<u32>)> {
    let mut c = Contents::of(&made.parts);
    let (cards, codes) = (made.parts.cards.len(), made.parts.codes.len());
    if matches!(kind, "cut short" | "no card after" | "code when passed out") {
        if (kind == "code when passed out") != made.contract.is_none() {
            return None;
        }
        if kind == "no card after" && codes > 0 && random.percent(50) {
            return Some(end_after_code(random, made, c));
        }
        // Where the list has 40 codes, 27 comes first.
        let (number, code) = (if codes == 40 { 27 } else { 26 }, [*random.pick(&[52, 53]), random.below(60) as u8, random.below(3) as u8]);
        c.cards.extend(&code[..if kind == "cut short" { random.between(1, 2) } else { 3 }]);
        return Some((c, Some(number * 1024 + cards as u32)));
    }
    let wanted = if matches!(kind, "deliberate over 1" | "exposed over 63") { EXPOSED } else { CHOICE };
    let such: Vec<usize> = (0..codes).filter(|&k| made.parts.codes[k].1.numbers()[0] == wanted).collect();
    if such.is_empty() {
        return None;
    }
    let which = *random.pick(&such);
    let (place, _) = made.parts.codes[which];
    // Each code before this one takes three numbers, and each card before it one.
    let at = 3 * which + place;
    match kind {
        "deliberate over 1" => {
            c.cards[at + 1] = random.below(256) as u8;
            c.cards[at + 2] = over(random, 1);
        }
        "kind over 1" => c.cards[at + 1] = over(random, 1),
        "exposed over 63" => c.cards[at + 1] = over(random, 63),
        _ => c.cards[at + 2] = over(random, 3),
    }
    let number = if kind == "exposed over 63" { 25 } else { 26 };
    Some((c, Some(number * 1024 + place as u32)))
}

/// Leaves out all that stands behind some code.
fn end_after_code(random: &mut Random, made: &Made, mut c: Contents) -> (Contents, Option<u32>) {
    let which = random.below(made.parts.codes.len());
    let (place, _) = made.parts.codes[which];
    c.cards.truncate(3 * which + place + 3);
    (c, Some(26 * 1024 + place as u32))
}

/// A byte that is greater than a limit.
fn over(random: &mut Random, limit: u8) -> u8 {
    let any = random.between(usize::from(limit) + 1, 255) as u8;
    *random.pick(&[limit + 1, u8::MAX, any])
}

/// A number that is greater than a limit: just so, by a power of two, or by much.
fn great(random: &mut Random, limit: u32) -> u32 {
    let (by_bit, any) = ((limit + 1) << random.below(8), random.word() as u32 | 1 << 16);
    *random.pick(&[limit + 1, by_bit, by_bit + 1, 1 << 31, u32::MAX, any])
}

fn place(random: &mut Random, c: &mut Contents) -> usize {
    let which = random.below(3);
    if which != 1 {
        c.board = great(random, 127);
    }
    if which != 0 {
        c.table = great(random, 511);
    }
    usize::from(which == 1)
}

/// A holder that is no seat, or another number of holders than 52.
fn holder(random: &mut Random, c: &mut Contents) -> usize {
    match random.below(4) {
        0 => c.holders.truncate(random.below(52)),
        1 => c.holders.extend((0..random.between(1, 60)).map(|k| k as u8 % 4)),
        _ => {
            let card = random.below(52);
            c.holders[card] = over(random, 3);
        }
    }
    4
}

/// Spoils what the judge reads after the refused code or section, which must not change the answer.
pub fn spoil_after(random: &mut Random, c: &mut Contents, number: u32) {
    let (refusal, place) = (number / 1024, (number % 1024) as usize);
    let list = |random: &mut Random, most: usize| {
        let count = random.below(most);
        random.bytes(count)
    };
    match refusal {
        3 => (c.holders, c.calls) = (list(random, 60), list(random, 600)),
        4 => c.calls = list(random, 600),
        5..=8 | 24 => {
            let kept = if refusal == 24 { place + 2 } else { place + 1 };
            c.calls.truncate(kept);
            c.calls.extend(list(random, 600));
            c.calls.truncate(511);
        }
        11 | 12 | 23 => {
            let front = flat_place(&c.cards, place) + 1;
            c.cards.truncate(front);
            c.cards.extend(list(random, 52 - place));
        }
        25..=27 => {
            if let Some(front) = refused_code(c, number) {
                // One number in a card's place stands behind it, whatever the others are.
                c.cards.truncate(front);
                c.cards.push(*random.pick(&[0, 51, 54, 255]));
                c.cards.extend(list(random, 52 - place));
            }
        }
        _ => {}
    }
    if refusal <= 9 || refusal == 24 || refusal == 33 {
        c.cards = list(random, 100);
    }
    if refusal <= 12 || refusal >= 23 {
        c.marked = *random.pick(&[0, 1, 2, u32::MAX]);
        c.claim = random.word() as u32;
    }
}

/// How many numbers of the list there are up to the code that is refused, it included; nothing where it is refused for what is behind it.
fn refused_code(c: &Contents, number: u32) -> Option<usize> {
    let mut front = 0;
    items(&c.cards).find_map(|item| {
        front += item.numbers();
        let cards = [&c.cards[..front], &[54]].concat();
        (item.numbers() == 3 && writer::write(&Contents { cards, ..c.clone() }, &mut []) == number).then_some(front)
    })
}

/// One to three sections from other contents, or a number changed.
fn mixed(random: &mut Random, made: &Made, other: &Made) -> Contents {
    let (mut c, other) = (Contents::of(&made.parts), Contents::of(&other.parts));
    for _ in 0..random.between(1, 3) {
        match random.below(9) {
            0 => c.board = random.below(140) as u32,
            1 => c.table = random.below(600) as u32,
            2 => c.holders = other.holders.clone(),
            3 => c.calls = other.calls.clone(),
            4 => c.cards = other.cards.clone(),
            5 => (c.marked, c.claim) = (other.marked, other.claim),
            6 => c.claim = random.below(20) as u32,
            7 if !c.cards.is_empty() => {
                let k = random.below(c.cards.len());
                c.cards[k] = random.below(56) as u8;
            }
            _ => c.marked = *random.pick(&[0, 1, 256, 1 << 31]),
        }
    }
    c
}

/// Numbers of no plan at all.
fn noise(random: &mut Random) -> Contents {
    let list = |random: &mut Random, most: usize, below: usize| (0..random.below(most)).map(|_| random.below(below) as u8).collect();
    Contents {
        board: random.below(129) as u32,
        table: random.below(513) as u32,
        holders: (0..*random.pick(&[52, 52, 52, 51, 53])).map(|_| random.below(4) as u8).collect(),
        calls: list(random, 30, 40),
        cards: list(random, 60, 56),
        marked: random.below(2) as u32,
        claim: random.below(17) as u32,
    }
}
