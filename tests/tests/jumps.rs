//! Cases for conditional jumps of the archives that the other trials do not make go both ways: a list of revokes that is looked through beyond its first
//! sixteen, a tally without an unused place, and best play and slips of records that end or go wrong behind an exposure or a choice.
use outside::compare::Judge;
use outside::contents::Contents;
use outside::judge::Least;
use outside::parts::Parts;
use outside::random::Random;
use outside::tally_calls::{Calls, CALLS};
use outside::words::{self, NOBODY};
use outside::writer::Writer;
use outside::{best, judge, making, proved, proved_tally, slip, writer};

const JUDGES: [Judge; 2] = [judge::judge, proved::judge];
const WRITERS: [Writer; 2] = [writer::write, proved::write];
const BEFORE: u8 = 0xEE;

/// One notrump by North. East leads eight clubs, four diamonds and the ace of hearts; clubs and diamonds are forbidden, since West had a card of each faced.
/// On tricks 1 to 8 East and West revoke and no other seat: North follows once and has no more clubs, South has none. On tricks 9 to 12 all four revoke, each
/// with a diamond to the end. So of 32 revokes the first 16 are the defenders'.
fn sixteen_of_one_side_first() -> Parts {
    let hands = ["65432.KQJ.T984.2", ".A.AKQJ.AKQJT987", ".T98765432.7652.", "AKQJT987..3.6543"];
    let rows = [
        "CA CK CQ CJ CT C9 C8 C7 DA DK DQ DJ HA",
        "D7 D6 D5 HT H9 H8 H7 H6 H5 H4 H3 H2 D2",
        "SA SK SQ SJ ST S9 S8 S7 C6 C5 C4 C3 D3",
        "C2 DT D9 D8 S6 S5 S4 S3 S2 HK HQ HJ D4",
    ]
    .map(|row| row.split(' ').collect::<Vec<_>>());
    let mut parts = Parts { board: 1, table: 1, deal: vec![NOBODY; 52], calls: vec![7, 0, 0, 0], ..Parts::default() };
    for (seat, cards) in hands.into_iter().enumerate() {
        words::hand(&mut parts.deal, seat as u64, cards).unwrap();
    }
    words::plays(&mut parts, "!D3 !C3 -D -C".split(' ')).unwrap();
    for trick in 0..13 {
        words::plays(&mut parts, rows.each_ref().map(|row| row[trick])).unwrap();
    }
    parts.count();
    parts
}

#[test]
fn thirty_two_revokes_the_first_sixteen_of_one_side() {
    let parts = sixteen_of_one_side_first();
    let record = parts.bytes();
    let mut due: Vec<u8> = (1..=8).flat_map(|trick| [1, 3].map(|seat| trick << 4 | seat << 2)).collect();
    due.extend((9..=12).flat_map(|trick| [1, 2, 3, 0].map(|seat| trick << 4 | seat << 2 | 1)));
    for judge in JUDGES {
        let mut least = Least::of(BEFORE);
        assert_eq!(judge(&record, &mut least.lend()), 0);
        // No trick, none after Law 64 since both sides have revoked, 32 revokes; seven down, -350.
        assert_eq!(least.answer, [2, 1, 1 << 5 | 4 << 2, 0, 32, 0xFE, 0xA2]);
        assert_eq!(least.list[..32], due);
        assert_eq!(least.list[32..], [BEFORE; 16]);
        assert_eq!(least.failures, [0; 52]);
    }
    for write in WRITERS {
        let mut room = vec![BEFORE; record.len()];
        assert_eq!((write(&Contents::of(&parts), &mut room), &room), (record.len() as u32, &record));
    }
    let (mut own, mut proved) = ([BEFORE; 80], [BEFORE; 80]);
    assert_eq!(slip::written(&record, &mut own), proved::slip(&record, &mut proved));
    assert_eq!(own, proved);
    assert!(own.starts_with(b"UNDERTRICKS -350\nSUM -350\n"));
}

/// A tally of some scores, each of the same deal.
fn tally(calls: &Calls, scores: impl Iterator<Item = i32>) -> Vec<u8> {
    let holders: Vec<u8> = (0..52).map(|card| card / 13).collect();
    let mut tally = vec![0; 398];
    assert_eq!((calls.fresh)(9, &mut tally), 0);
    for score in scores {
        let before = tally.clone();
        assert_eq!((calls.add)(&before, score, &holders, &mut tally), 0);
    }
    tally
}

/// 128 scores of which no two are the same, added and merged: every place is used.
#[test]
fn a_tally_of_128_scores_that_differ() {
    for calls in [CALLS, proved_tally::CALLS] {
        let all = tally(&calls, (-64..64).map(|k| 10 * k));
        let scores: Vec<u8> = (-64..64).rev().flat_map(|k: i16| (10 * k).to_be_bytes()).collect();
        assert_eq!((&all[14..270], &all[270..]), (&scores[..], &[1; 128][..]));
        for (low, high) in [(-64..0, 0..64), (-64..63, 63..64), (-64..-63, -63..64)] {
            let [a, b] = [low, high].map(|range| tally(&calls, range.map(|k| 10 * k)));
            for (first, second) in [(&a, &b), (&b, &a)] {
                let mut merged = vec![BEFORE; 398];
                assert_eq!((calls.merge)(first, second, &mut merged), 0);
                assert_eq!(merged, all);
            }
        }
        let [odd, even] = [1, 0].map(|rest| tally(&calls, (-64..64).filter(|k| k & 1 == rest).map(|k| 10 * k)));
        let mut merged = vec![BEFORE; 398];
        assert_eq!((calls.merge)(&odd, &even, &mut merged), 0);
        assert_eq!(merged, all);
    }
}

/// What best play and the slip say of a record, by the proved code as by the independent one.
fn compare_readers(record: &[u8]) {
    assert_eq!(best::best(record), proved::best(record), "best play from {record:02X?}");
    let (mut own, mut proved) = ([BEFORE; 80], [BEFORE; 80]);
    assert_eq!(slip::written(record, &mut own), proved::slip(record, &mut proved), "the slip of {record:02X?}");
    assert_eq!(own, proved);
}

/// Records with penalty cards that end at every byte.
#[test]
fn best_play_and_slips_of_records_that_end_anywhere() {
    let mut random = Random::new(42);
    for _ in 0..60 {
        let mut parts = making::with_codes(&mut random).parts;
        parts.keep_cards(parts.cards.len() / 4 * 4);
        let record = parts.bytes();
        (0..=record.len()).for_each(|end| compare_readers(&record[..end]));
    }
}

/// Records in which, behind an exposure or a choice, a card is another number of six bits.
#[test]
fn best_play_and_slips_with_other_cards_behind_codes() {
    let mut random = Random::new(43);
    for _ in 0..60 {
        let mut parts = making::with_codes(&mut random).parts;
        let from = parts.codes.first().map_or(0, |&(place, _)| place);
        let at = random.between(from, parts.cards.len() - 1);
        for card in 0..64 {
            parts.cards[at] = card;
            compare_readers(&parts.bytes());
        }
    }
}
