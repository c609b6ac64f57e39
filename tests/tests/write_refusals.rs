//! Contents for each refusal and each kind of place, rooms about a record's length, and two records of docs/RULES.md, by both writers. The numbers and
//! bytes due are worked out from that page.
use outside::contents::Contents;
use outside::writer::Writer;
use outside::{proved, writer};

const WRITERS: [Writer; 2] = [writer::write, proved::write];

/// What the buffer holds before.
const BEFORE: u8 = 0xEE;

/// Board 1 and table 1: North has the clubs, East the diamonds, South the hearts, West the spades.
fn contents(calls: &[u8], cards: &[u8], claim: Option<u32>) -> Contents {
    let holders = (0..52).map(|card| card / 13).collect();
    let (marked, claim) = (u32::from(claim.is_some()), claim.unwrap_or(0));
    Contents { board: 1, table: 1, holders, calls: calls.to_vec(), cards: cards.to_vec(), marked, claim }
}

fn passed_out() -> Contents {
    contents(&[0; 4], &[], None)
}

/// One club by North, and cards from East's lead on.
fn one_club(cards: &[u8], claim: Option<u32>) -> Contents {
    contents(&[3, 0, 0, 0], cards, claim)
}

fn changed(mut c: Contents, change: impl Fn(&mut Contents)) -> Contents {
    change(&mut c);
    c
}

/// Refusal, place, contents.
fn refused() -> Vec<(u32, u32, Contents)> {
    let place = |board, table| changed(passed_out(), |c| (c.board, c.table) = (board, table));
    let holder = |card: usize, holder| changed(passed_out(), |c| c.holders[card] = holder);
    let calls = |calls: &[u8]| contents(calls, &[], None);
    vec![
        (3, 0, place(0, 1)),
        (3, 0, place(128, 1)),
        (3, 0, place(129, 512)),
        (3, 0, place(0, 0)),
        (3, 1, place(127, 0)),
        (3, 1, place(1, 512)),
        (3, 1, place(1, u32::MAX)),
        (4, 4, holder(0, 4)),
        (4, 4, holder(51, 255)),
        (4, 4, changed(passed_out(), |c| c.holders.truncate(51))),
        (4, 4, changed(passed_out(), |c| c.holders.push(0))),
        (4, 4, changed(passed_out(), |c| c.holders.clear())),
        // A holder that is no seat comes before the seats are counted.
        (4, 4, changed(holder(0, 1), |c| c.holders[51] = 4)),
        (4, 0, holder(0, 1)),
        (4, 1, holder(13, 2)),
        (4, 2, holder(26, 3)),
        (4, 0, holder(51, 0)),
        (5, 0, calls(&[39])),
        (5, 0, calls(&[64])),
        (5, 1, calls(&[0, 255])),
        // A code that is no call after the end is 5 and not 8.
        (5, 4, calls(&[0, 0, 0, 0, 39])),
        (6, 1, calls(&[3, 3])),
        (7, 0, calls(&[1])),
        (7, 1, calls(&[3, 2])),
        (8, 4, calls(&[0; 5])),
        (8, 4, calls(&[0; 511])),
        (8, 4, calls(&[0, 0, 0, 0, 38])),
        // More codes than the count can tell, after the deal and before any code.
        (33, 511, calls(&[0; 512])),
        (33, 511, calls(&[255; 1000])),
        (33, 511, contents(&[3; 600], &[99; 80], Some(99))),
        (4, 1, changed(calls(&[0; 512]), |c| c.holders[13] = 2)),
        (24, 0, calls(&[38, 3])),
        (24, 1, calls(&[3, 38, 4])),
        (24, 1, calls(&[3, 38, 38])),
        (5, 2, calls(&[3, 38, 64])),
        (9, 2, calls(&[3, 38])),
        (8, 4, calls(&[3, 0, 0, 0, 3])),
        (9, 0, calls(&[])),
        (9, 3, calls(&[0; 3])),
        (9, 3, calls(&[3, 0, 0])),
        (10, 53, one_club(&[13; 53], None)),
        (10, 63, one_club(&[13; 63], None)),
        (10, 63, one_club(&[13; 64], None)),
        (10, 63, one_club(&[13; 700], Some(1))),
        (10, 1, contents(&[0; 4], &[13], None)),
        (10, 63, contents(&[0; 4], &[99; 80], Some(1))),
        (11, 0, one_club(&[54], None)),
        (11, 3, one_club(&[13, 26, 39, 64], None)),
        (11, 3, one_club(&[13, 26, 39, 255], Some(99))),
        (12, 0, one_club(&[0], None)),
        (12, 4, one_club(&[13, 26, 39, 0, 13], None)),
        (23, 4, one_club(&[13, 26, 39, 0, 0], None)),
        (13, 0, one_club(&[], None)),
        (13, 4, one_club(&[13, 26, 39, 0], None)),
        (14, 0, one_club(&[], Some(0))),
        (15, 15, one_club(&[13, 26, 39], Some(99))),
        (15, 14, one_club(&[13, 26, 39], Some(14))),
        (14, 0, contents(&[0; 4], &[], Some(0))),
        (15, 13, one_club(&[13, 26, 39, 0], Some(13))),
        (15, 15, one_club(&[13, 26, 39, 0], Some(15))),
        (15, 15, one_club(&[13, 26, 39, 0], Some(16))),
        (15, 15, one_club(&[13, 26, 39, 0], Some(u32::MAX))),
    ]
}

/// Forty codes before the opening lead: East's and West's 26 cards faced, spades required, and West's spades, which were picked up, faced again.
fn forty() -> Vec<u8> {
    let faced = |cards: std::ops::Range<u8>| cards.flat_map(|card| [52, card, 1]);
    faced(13..26).chain(faced(39..52)).chain([53, 0, 3]).chain(faced(39..52)).collect()
}

/// Refusal, place, contents whose list of cards has codes: one club by North, East to lead, East and West with diamonds and spades.
fn refused_codes() -> Vec<(u32, u32, Contents)> {
    let trick = |codes: &[u8]| one_club(&[codes, &[13, 26, 39, 0]].concat(), Some(12));
    let then = |codes: &[u8], tail: &[u8]| one_club(&[codes, tail].concat(), Some(12));
    vec![
        // As the judge: no card, North's, played, faced; a suit without a faced card, a minor one, after a requirement.
        (25, 0, trick(&[52, 52, 0])),
        (25, 0, trick(&[52, 0, 1])),
        (25, 1, one_club(&[13, 52, 13, 1, 26], None)),
        (25, 0, trick(&[52, 39, 1, 52, 39, 1])),
        (26, 0, trick(&[53, 0, 3])),
        (26, 0, trick(&[52, 39, 0, 53, 1, 3])),
        (26, 0, trick(&[52, 39, 1, 53, 0, 3, 52, 40, 1, 53, 1, 3])),
        (26, 1, one_club(&[52, 39, 1, 13, 53, 1, 3, 26], None)),
        // An exposed number beyond the field is no card; a suit beyond it is never open.
        (25, 0, trick(&[52, 64, 0])),
        (25, 0, trick(&[52, 255, 1])),
        (26, 0, trick(&[52, 39, 1, 53, 1, 4])),
        (26, 0, trick(&[52, 39, 1, 53, 0, 255])),
        (26, 0, trick(&[52, 39, 1, 53, 1, 7])),
        // A bit or a kind over 1, before the card is looked at.
        (26, 0, trick(&[52, 39, 2])),
        (26, 0, trick(&[52, 63, 2])),
        (26, 0, trick(&[52, 39, 255])),
        (26, 0, trick(&[52, 39, 1, 53, 2, 3])),
        (26, 0, trick(&[52, 39, 1, 53, 4, 3])),
        // Cut short.
        (26, 4, then(&[13, 26, 39, 0], &[52])),
        (26, 4, then(&[13, 26, 39, 0], &[52, 14])),
        (26, 4, then(&[13, 26, 39, 0], &[53, 1])),
        (26, 0, one_club(&[52], None)),
        (26, 0, one_club(&[53, 0], None)),
        // No card after it, though it is a bad exposure, and though other codes follow, whole or not. A number from 54 on stands in a card's place.
        (26, 4, then(&[13, 26, 39, 0], &[52, 14, 1])),
        (26, 4, then(&[13, 26, 39, 0], &[52, 63, 1])),
        (26, 4, then(&[13, 26, 39, 0], &[52, 14, 1, 52, 15, 1, 53, 9])),
        (26, 0, one_club(&[52, 13, 0, 52, 14, 0], None)),
        (11, 4, then(&[13, 26, 39, 0], &[52, 14, 1, 54])),
        (25, 4, then(&[13, 26, 39, 0], &[52, 63, 1, 255])),
        // The numbers behind a code are no codes: 53 and 52 are no cards here.
        (25, 0, trick(&[52, 53, 1])),
        (25, 0, trick(&[52, 52, 1])),
        // 27 comes before the code's numbers and what follows are looked at; the fortieth is looked at. Without any card, the first code is refused.
        (27, 0, then(&forty(), &[52, 39, 9, 13])),
        (27, 0, then(&forty(), &[53, 1, 3, 13])),
        (27, 4, then(&forty(), &[13, 26, 39, 0, 53])),
        (27, 4, then(&forty(), &[13, 26, 39, 0, 52, 14, 1])),
        (26, 4, then(&forty()[..117], &[13, 26, 39, 0, 53])),
        (26, 0, then(&forty(), &[52])),
        // Cards are counted without codes and their numbers; 10 comes before the codes are looked at.
        (10, 53, then(&[52, 99, 99], &[13; 53])),
        (10, 63, then(&[53, 13, 13, 52, 13, 13], &[13; 64])),
        (12, 1, then(&[52, 14, 1, 52, 15, 1], &[13; 52])),
        (10, 1, contents(&[0; 4], &[52, 13, 0, 13], None)),
        (26, 0, contents(&[0; 4], &[52, 13, 0], None)),
        (26, 0, contents(&[0; 4], &[53, 0, 0, 52], Some(9))),
        // What comes behind: no card without a claim, the count of cards, the room.
        (13, 1, one_club(&[52, 39, 1, 13], None)),
        (15, 14, one_club(&[52, 39, 1, 13], Some(14))),
    ]
}

/// The number returned, and the buffer after it.
fn written(writer: Writer, c: &Contents, room: usize) -> (u32, Vec<u8>) {
    let mut record = vec![BEFORE; room];
    let number = writer(c, &mut record);
    (number, record)
}

#[test]
fn each_refusal_and_place() {
    for writer in WRITERS {
        for (refusal, place, c) in refused().into_iter().chain(refused_codes()) {
            for room in [0, 19, 505] {
                assert_eq!(written(writer, &c, room), (refusal * 1024 + place, vec![BEFORE; room]), "{refusal}, {place}: {c:?}");
            }
        }
    }
}

/// Board 1, table 1 and the deal, which the records have in common.
const FRONT: [u8; 15] = [0x02, 0x01, 0x00, 0x00, 0x00, 0x15, 0x55, 0x55, 0x5A, 0xAA, 0xAA, 0xAB, 0xFF, 0xFF, 0xFF];

/// Contents and the bytes behind the deal. Four passes: 000000100 000000 000000 000000 000000 000000 0. One club, three passes, 13 26 39 0, a claim
/// of 12: 000000100 000011 000000 000000 000000 000100 001101 011010 100111 000000 1 1100 0000. The same with the two of spades faced deliberately and spades
/// forbidden before the lead, and the three of diamonds faced by accident before West's card: .. 000100 110100 100111 1 110101 01 11 001101 011010
/// 110100 001110 0 100111 000000 1 1100, which fills its last byte.
fn examples() -> [(Contents, Vec<u8>); 3] {
    let bytes = |behind: &[u8]| [&FRONT, behind].concat();
    [
        (passed_out(), bytes(&[0x02, 0x00, 0x00, 0x00, 0x00])),
        (one_club(&[13, 26, 39, 0], Some(12)), bytes(&[0x02, 0x06, 0x00, 0x00, 0x08, 0x6B, 0x53, 0x81, 0xC0])),
        (
            one_club(&[52, 39, 1, 53, 1, 3, 13, 26, 52, 14, 0, 39, 0], Some(12)),
            bytes(&[0x02, 0x06, 0x00, 0x00, 0x09, 0xA4, 0xFD, 0x5C, 0xD6, 0xB4, 0x39, 0x38, 0x1C]),
        ),
    ]
}

#[test]
fn writes_the_examples_where_there_is_room() {
    for writer in WRITERS {
        for (c, bytes) in examples() {
            let length = bytes.len();
            for room in 0..length {
                assert_eq!(written(writer, &c, room), (22 * 1024, vec![BEFORE; room]), "{room} bytes");
            }
            for more in [0, 1, 300] {
                let due = [bytes.clone(), vec![BEFORE; more]].concat();
                assert_eq!(written(writer, &c, length + more), (length as u32, due), "{more} bytes more");
            }
        }
    }
}

/// Any mark but 0 is a claim, and without one the claim is nothing.
#[test]
fn marks() {
    let [(plain, _), (claimed, bytes), _] = examples();
    for writer in WRITERS {
        for marked in [2, 256, 1 << 31, u32::MAX] {
            let c = changed(claimed.clone(), |c| c.marked = marked);
            assert_eq!(written(writer, &c, bytes.len()), (bytes.len() as u32, bytes.clone()), "marked {marked}");
        }
        let c = changed(plain.clone(), |c| c.claim = u32::MAX);
        assert_eq!(written(writer, &c, 20).0, 20);
    }
}
