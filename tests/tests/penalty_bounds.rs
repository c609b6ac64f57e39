//! The most that a record with penalty cards can have: codes, bytes, revokes, plays against Law 50D1. Worked out by hand, and judged and written by
//! both judges and both writers.
use outside::compare::Judge;
use outside::contents::Contents;
use outside::judge::Least;
use outside::parts::Parts;
use outside::penalty::Code::{self, Choice, Exposed};
use outside::words::{self, NOBODY};
use outside::writer::Writer;
use outside::{judge, proved, writer};

const JUDGES: [Judge; 2] = [judge::judge, proved::judge];
const WRITERS: [Writer; 2] = [writer::write, proved::write];
const BEFORE: u8 = 0xEE;

/// The buffers of an accepted record.
fn judged(judge: Judge, record: &[u8]) -> Least {
    let mut least = Least::of(BEFORE);
    assert_eq!(judge(record, &mut least.lend()), 0);
    least
}

/// North has the clubs, East the diamonds, South the hearts, West the spades; West declares, so North leads, and wins every trick with a club. Before
/// that, 40 codes: the 26 cards of North and South are faced, hearts are required, of which North has none, and South's hearts, picked up, are faced
/// again.
fn with_forty_codes(calls: Vec<u64>) -> Parts {
    let faced = |cards: std::ops::Range<u64>| cards.map(|card| (0, Exposed(card, 0)));
    let codes: Vec<(usize, Code)> = faced(0..13).chain(faced(26..39)).chain([(0, Choice(0, 2))]).chain(faced(26..39)).collect();
    let cards = (0..13).flat_map(|rank| [rank, 13 + rank, 26 + rank, 39 + rank]).collect();
    let deal = (0..52).map(|card| card / 13).collect();
    let mut parts = Parts { board: 1, table: 1, deal, calls, cards, codes, ..Parts::default() };
    parts.count();
    parts
}

/// 39 exposures of 13 bits and a choice of 10 are 517 bits: with the 2362 bits of the longest record without marks and codes they fill 360 bytes,
/// with the 3514 of the longest one with marks 504. Every card that North and South play is faced, so none is against Law 50.
#[test]
fn longest_records() {
    let rounds = (3..38).flat_map(|bid| [bid, 0, 0, 1, 0, 0, 2, 0, 0]);
    let without_marks: Vec<u64> = [0; 3].into_iter().chain(rounds).chain([0]).collect();
    let again = (0..252).flat_map(|_| [38, 3]);
    let with_marks: Vec<u64> = [0, 0, 0, 3].into_iter().chain(again).chain([0; 3]).collect();
    // Seven notrump redoubled by West, thirteen down: 7000. One club by West, seven down: 350.
    let longest = [(without_marks, 360, 7 << 5 | 4 << 2 | 2, 7000i16), (with_marks, 504, 1 << 5, 350)];
    for (calls, length, contract, score) in longest {
        let mut parts = with_forty_codes(calls);
        let record = parts.bytes();
        assert_eq!((parts.codes.len(), record.len()), (40, length));
        let [high, low] = score.to_be_bytes();
        for judge in JUDGES {
            let answer = [2, 1, contract, 3 << 6, 0, high, low];
            // North wins each trick with his club.
            let winners = std::array::from_fn(|k| if k % 2 == 0 { 0 } else { k as u8 / 2 });
            assert_eq!(judged(judge, &record), Least { answer, list: [BEFORE; 48], failures: [0; 52], winners });
        }
        written(&parts, &record);
        // One code more, before the last card, though that card is faced already.
        parts.codes.push((51, Exposed(38, 0)));
        for judge in JUDGES {
            assert_eq!(judge(&parts.bytes(), &mut Least::of(0).lend()), 27 * 1024 + 51);
        }
        for write in WRITERS {
            assert_eq!(write(&Contents::of(&parts), &mut [0; 505]), 27 * 1024 + 51);
        }
    }
}

fn written(parts: &Parts, record: &[u8]) {
    for write in WRITERS {
        let mut room = vec![BEFORE; record.len()];
        assert_eq!(write(&Contents::of(parts), &mut room), record.len() as u32);
        assert_eq!(room, record);
    }
}

/// One notrump by North. East leads his diamonds and clubs, which both are forbidden, since West had a card of each faced; his ace of hearts, faced
/// too, was due each time. West's two cards are faced again: the three of diamonds is due on tricks 1 to 10, the three of clubs on tricks 11 and 12,
/// and neither is played when it is due. South and North have a diamond and a club to the end as well, and follow with neither. East wins all tricks:
/// seven down, 350. Both sides have revoked, so none changes sides.
#[test]
fn forty_eight_revokes_and_twenty_four_failures() {
    let hands = ["AKQ..4.QJT987654", ".A.AKQJT98765.AK", ".KQJT9876543.2.2", "JT98765432.2.3.3"];
    let leads = "DA DK DQ DJ DT D9 D8 D7 D6 D5 CA CK HA";
    let south = "HK HQ HJ HT H9 H8 H7 H6 H5 H4 D2 H3 C2";
    let west = "SJ ST S9 S8 S7 S6 S5 S4 S3 S2 D3 H2 C3";
    let north = "CQ CJ CT C9 C8 C7 C6 C5 SA SK D4 SQ C4";
    let [leads, south, west, north] = [leads, south, west, north].map(|row| row.split(' ').collect::<Vec<_>>());

    let mut parts = Parts { board: 1, table: 1, deal: vec![NOBODY; 52], calls: vec![7, 0, 0, 0], ..Parts::default() };
    for (seat, cards) in hands.into_iter().enumerate() {
        words::hand(&mut parts.deal, seat as u64, cards).unwrap();
    }
    words::plays(&mut parts, "!D3 !C3 -D -C !D3 !C3 !HA".split(' ')).unwrap();
    for trick in 0..13 {
        words::plays(&mut parts, [leads[trick], south[trick], west[trick], north[trick]]).unwrap();
    }
    parts.count();

    let mut revokes = Vec::new();
    let mut failures = vec![0; 52];
    for trick in 1..=12u8 {
        let suit = if trick <= 10 { 1 } else { 0 };
        revokes.extend([1, 2, 3, 0].map(|seat| trick << 4 | seat << 2 | suit));
        for (seat, row) in [(1, &leads), (3, &west)] {
            let card = words::card(row[usize::from(trick) - 1]).unwrap() as u8;
            let at = 4 * (usize::from(trick) - 1) + usize::from(seat == 3) * 2;
            failures[at..at + 2].copy_from_slice(&[trick << 4 | seat << 2 | card >> 4, card << 4]);
        }
    }
    for judge in JUDGES {
        let Least { answer, list, failures: bytes, winners } = judged(judge, &parts.bytes());
        // Board 7, table 9; level 1, strain 4, doubling 0; declarer 0, no trick, none after Law 64, 48 revokes; -350.
        assert_eq!(answer, [2, 1, 1 << 5 | 4 << 2, 0, 48, 0xFE, 0xA2]);
        assert_eq!((list.to_vec(), bytes.to_vec()), (revokes.clone(), failures.clone()));
        // East wins each trick with the card that he led.
        let by_east: Vec<u8> = leads.iter().flat_map(|card| [1, words::card(card).unwrap() as u8]).collect();
        assert_eq!(winners.to_vec(), by_east);
    }
    written(&parts, &parts.bytes());
}
