//! A comparison that cannot fail shows nothing: writers with one fault each, every one of which it has to find.
use outside::contents::Contents;
use outside::judge::judge;
use outside::write_trial::WriteTrial;
use outside::writer::{items, length, write, Item, Writer};

fn changed(c: &Contents, change: impl Fn(&mut Contents)) -> Contents {
    let mut c = c.clone();
    change(&mut c);
    c
}

/// A writer that gives another place to a refusal.
fn other_place(c: &Contents, record: &mut [u8], refusal: u32, place: usize) -> u32 {
    match write(c, record) {
        number if number / 1024 == refusal => refusal * 1024 + place as u32,
        number => number,
    }
}

/// Contents whose codes have other numbers behind the first: those that this makes of it and of the two.
fn with_codes(c: &Contents, other: impl Fn(u8, &[u8]) -> Vec<u8>) -> Contents {
    let cards = items(&c.cards).flat_map(|item| match item {
        Item::Card(card) => vec![card],
        Item::Code(first, behind) => [vec![first], other(first, behind)].concat(),
    });
    Contents { cards: cards.collect(), ..c.clone() }
}

/// Each number behind a code's first, with that and its place, made another.
fn each_number(c: &Contents, other: impl Fn(u8, usize, u8) -> u8) -> Contents {
    with_codes(c, |first, behind| behind.iter().enumerate().map(|(k, &number)| other(first, k, number)).collect())
}

/// A writer that gives the refusal of other contents where that has this number.
fn refused_as(c: &Contents, record: &mut [u8], refusal: u32, other: &Contents) -> u32 {
    match write(other, &mut record.to_vec()) {
        number if number / 1024 == refusal => number,
        _ => write(c, record),
    }
}

const FAULTS: [(&str, Writer); 26] = [
    ("cuts an exposed number to six bits", |c, record| {
        write(&each_number(c, |first, k, number| if (first, k) == (52, 0) { number & 63 } else { number }), record)
    }),
    ("cuts the bit of an exposure to one", |c, record| {
        write(&each_number(c, |first, k, number| if (first, k) == (52, 1) { number & 1 } else { number }), record)
    }),
    ("cuts a kind to one bit", |c, record| {
        write(&each_number(c, |first, k, number| if (first, k) == (53, 0) { number & 1 } else { number }), record)
    }),
    ("cuts a suit to two bits", |c, record| {
        write(&each_number(c, |first, k, number| if (first, k) == (53, 1) { number & 3 } else { number }), record)
    }),
    ("looks at an exposed card before the bit", |c, record| {
        refused_as(c, record, 25, &each_number(c, |_, k, number| if k == 1 { number & 1 } else { number }))
    }),
    ("looks at a code before it looks for a card after it", |c, record| refused_as(c, record, 25, &changed(c, |c| c.cards.push(54)))),
    ("leaves out the codes behind the last card", |c, record| {
        let behind = items(&c.cards).collect::<Vec<_>>().into_iter().rev().take_while(|item| matches!(item, Item::Code(..)));
        let behind: usize = behind.map(|item| item.numbers()).sum();
        write(&changed(c, |c| c.cards.truncate(c.cards.len() - behind)), record)
    }),
    ("counts codes among the cards", |c, record| match write(c, record) {
        number if number < 1024 && c.cards.len() > 52 => 10 * 1024 + 63,
        number => number,
    }),
    ("gives a code the place of its number in the list", |c, record| {
        let place = items(&c.cards).take_while(|item| matches!(item, Item::Card(_))).count();
        match write(c, record) {
            number if number / 1024 == 26 && (number % 1024) as usize > place => number + 3,
            number => number,
        }
    }),
    ("refuses all", |_, _| 3 * 1024),
    ("writes nothing", |c, record| write(c, &mut record.to_vec())),
    ("clears the buffer on a refusal", |c, record| {
        let number = write(c, record);
        if number >= 1024 {
            record.fill(0);
        }
        number
    }),
    ("clears the byte behind the record", |c, record| {
        let number = write(c, record);
        if let Some(byte) = record.get_mut(number as usize) {
            *byte = 0;
        }
        number
    }),
    ("pads with ones", |c, record| {
        let number = write(c, record);
        if number < 1024 && c.marked == 0 && (136 + 6 * (c.calls.len() + c.cards.len())) % 8 != 0 {
            record[number as usize - 1] |= 1;
        }
        number
    }),
    ("writes what there is room for", |c, record| {
        let mut whole = [0; 505];
        let number = write(c, &mut whole);
        if number < 1024 {
            let room = record.len().min(number as usize);
            record[..room].copy_from_slice(&whole[..room]);
        }
        number
    }),
    ("looks at the room first", |c, record| if record.len() < length(c) { 22 * 1024 } else { write(c, record) }),
    ("cuts the board to seven bits", |c, record| write(&changed(c, |c| c.board &= 127), record)),
    ("cuts the table to nine bits", |c, record| write(&changed(c, |c| c.table &= 511), record)),
    ("cuts a holder to two bits", |c, record| write(&changed(c, |c| c.holders.iter_mut().for_each(|h| *h &= 3)), record)),
    ("takes the first 52 of more holders", |c, record| write(&changed(c, |c| c.holders.truncate(52)), record)),
    ("cuts a call to six bits", |c, record| write(&changed(c, |c| c.calls.iter_mut().for_each(|k| *k &= 63)), record)),
    ("gives the number of cards, however great", |c, record| other_place(c, record, 10, c.cards.len())),
    ("gives the claim, however great", |c, record| other_place(c, record, 15, (c.claim & 1023) as usize)),
    ("looks at 511 codes before it counts them", |c, record| match write(c, record) {
        number if number / 1024 == 33 => write(&changed(c, |c| c.calls.truncate(511)), record),
        number => number,
    }),
    ("takes a mark of 256 for none", |c, record| write(&changed(c, |c| c.marked &= 255), record)),
    ("calls a card played already one of another hand", |c, record| match write(c, record) {
        number if number / 1024 == 23 => number - 11 * 1024,
        number => number,
    }),
];

/// Contents after which a fault must have been found: those of the gate.
const CONTENTS: u64 = 300_000;

fn found(writer: Writer) -> bool {
    let mut trial = WriteTrial::new(writer, judge, 64);
    while trial.cases() < CONTENTS {
        if trial.round().is_err() {
            return true;
        }
    }
    false
}

#[test]
fn every_fault_is_found() {
    assert!(!found(write), "a writer without a fault was found out");
    for (fault, writer) in FAULTS {
        assert!(found(writer), "a writer that {fault} was not found out");
    }
}
