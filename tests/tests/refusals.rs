//! A record for each refusal and each kind of place, every prefix of whole records, and buffers about the least length, by both judges.
//! The numbers due and the bytes due are worked out from docs/RULES.md.
use outside::compare::Judge;
use outside::judge::Lent;
use outside::parts::Parts;
use outside::penalty::Code::{self, Choice, Exposed};
use outside::{judge, proved};

const JUDGES: [Judge; 2] = [judge::judge, proved::judge];

/// What the buffers hold before.
const BEFORE: u8 = 0xEE;

/// North has the clubs, East the diamonds, South the hearts, West the spades.
fn parts(calls: &[u64], cards: &[u64], claim: Option<u64>) -> Parts {
    let deal = (0..52).map(|card| card / 13).collect();
    let (calls, cards) = (calls.to_vec(), cards.to_vec());
    let mut parts = Parts { board: 1, table: 1, deal, calls, cards, claim, ..Parts::default() };
    parts.count();
    parts
}

fn passed_out() -> Parts {
    parts(&[0; 4], &[], None)
}

/// One club by North, a first trick of twos, and a claim of 12.
fn one_club() -> Parts {
    parts(&[3, 0, 0, 0], &[13, 26, 39, 0], Some(12))
}

/// One notrump by North: East leads a diamond to each trick, nobody else has one, and East wins all.
fn one_notrump() -> Parts {
    let cards: Vec<u64> = (0..13).flat_map(|rank| [13 + rank, 26 + rank, 39 + rank, rank]).collect();
    parts(&[7, 0, 0, 0], &cards, None)
}

fn changed(mut parts: Parts, change: impl Fn(&mut Parts)) -> Vec<u8> {
    change(&mut parts);
    parts.bytes()
}

fn calls(codes: &[u64]) -> Vec<u8> {
    parts(codes, &[], None).bytes()
}

/// After one club by North, whose two of clubs ruffs and wins a first trick of twos.
fn cards(codes: &[u64], claim: Option<u64>) -> Vec<u8> {
    parts(&[3, 0, 0, 0], codes, claim).bytes()
}

/// One club by North and the first trick of twos again, each code before the card of its place; East and West defend, with diamonds and spades.
fn codes(codes: &[(usize, Code)]) -> Parts {
    let mut parts = one_club();
    parts.codes = codes.to_vec();
    parts
}

/// The two of spades, faced deliberately: East leads, and spades may be required or forbidden.
const FACED: (usize, Code) = (0, Exposed(39, 1));

/// Forty codes before the opening lead: East's and West's 26 cards faced, spades required, and West's spades, which were picked up, faced again.
fn forty() -> Vec<(usize, Code)> {
    let faced = |cards: std::ops::Range<u64>| cards.map(|card| (0, Exposed(card, 1)));
    faced(13..26).chain(faced(39..52)).chain([(0, Choice(0, 3))]).chain(faced(39..52)).collect()
}

/// The number due, and a record that is refused for its codes with it.
fn refused_codes() -> Vec<(u32, u32, Vec<u8>)> {
    let with = |list: &[(usize, Code)]| codes(list).bytes();
    vec![
        // No card; North's, South's; played; faced, by accident or not, and though it is another's turn.
        (25, 0, with(&[(0, Exposed(52, 0))])),
        (25, 3, with(&[(3, Exposed(63, 1))])),
        (25, 0, with(&[(0, Exposed(0, 0))])),
        (25, 1, with(&[(1, Exposed(26, 1))])),
        (25, 1, with(&[(1, Exposed(13, 0))])),
        (25, 3, with(&[(3, Exposed(39, 1))])),
        (25, 0, with(&[FACED, FACED])),
        (25, 2, with(&[(1, Exposed(14, 0)), (2, Exposed(14, 1))])),
        // No kind; nothing faced; the leader's own card; a card of another suit; a minor card; a card played already.
        (26, 0, with(&[FACED, (0, Choice(2, 3))])),
        (26, 0, with(&[FACED, (0, Choice(3, 3))])),
        (26, 0, with(&[(0, Choice(0, 3))])),
        (26, 0, with(&[(0, Exposed(13, 1)), (0, Choice(1, 1))])),
        (26, 0, with(&[FACED, (0, Choice(1, 2))])),
        (26, 0, with(&[(0, Exposed(39, 0)), (0, Choice(0, 3))])),
        (26, 0, with(&[(0, Exposed(46, 0)), (0, Choice(1, 3))])),
        // After the lead; at a lead of declarer's side: North won trick 1.
        (26, 1, with(&[FACED, (1, Choice(1, 3))])),
        (26, 3, with(&[(0, Exposed(40, 1)), (3, Choice(0, 3))])),
        (
            26,
            4,
            changed(codes(&[(0, Exposed(40, 1)), (4, Choice(1, 3))]), |p| {
                p.cards.push(1);
                p.count()
            }),
        ),
        // After a requirement; a requirement after a ban; the card picked up.
        (26, 0, with(&[FACED, (0, Choice(0, 3)), FACED, (0, Choice(0, 3))])),
        (26, 0, with(&[FACED, (0, Choice(0, 3)), FACED, (0, Choice(1, 3))])),
        (26, 0, with(&[FACED, (0, Choice(1, 3)), FACED, (0, Choice(0, 3))])),
        (26, 0, with(&[FACED, (0, Choice(1, 3)), (0, Choice(1, 3))])),
        // The 41st, whatever it is; at the play that it stands before.
        (27, 0, with(&[forty(), vec![FACED]].concat())),
        (27, 0, with(&[forty(), vec![(0, Exposed(63, 0))]].concat())),
        (27, 3, with(&[forty(), vec![(3, Choice(3, 3))]].concat())),
        // The fortieth is looked at.
        (25, 0, with(&[&forty()[..39], &[(0, Exposed(63, 0))]].concat())),
        (26, 2, with(&[&forty()[..39], &[(2, Choice(1, 3))]].concat())),
        // A number from 54 on behind a code.
        (11, 0, changed(codes(&[FACED]), |p| p.cards[0] = 54)),
        (11, 3, changed(codes(&[FACED, (3, Exposed(14, 0))]), |p| p.cards[3] = 63)),
        // The card behind a code.
        (12, 0, changed(codes(&[FACED]), |p| p.cards[0] = 39)),
        // 159 bits stand before the first code. Of an exposure's 13 bits, byte 20 ends behind the first and byte 21 behind the ninth; of a choice's
        // ten, byte 20 behind the first and byte 21 behind the ninth.
        (2, 0, with(&[FACED])[..20].to_vec()),
        (2, 0, with(&[FACED])[..21].to_vec()),
        (2, 0, with(&[(0, Choice(0, 3))])[..21].to_vec()),
        (26, 0, with(&[(0, Choice(0, 3))])[..22].to_vec()),
        // 39 exposures and a choice have 517 bits: the 41st begins at bit 676, and its six bits end at bit 682. Byte 85 ends at bit 680, byte 86 at
        // bit 688, before the exposure's last bit.
        (2, 0, with(&[forty(), vec![FACED]].concat())[..85].to_vec()),
        (27, 0, with(&[forty(), vec![FACED]].concat())[..86].to_vec()),
    ]
}

/// The number due, and a record that is refused with it.
fn refused() -> Vec<(u32, u32, Vec<u8>)> {
    vec![
        (2, 0, Vec::new()),
        (3, 0, changed(passed_out(), |p| p.board = 0)),
        (3, 1, changed(passed_out(), |p| p.table = 0)),
        (3, 0, changed(passed_out(), |p| (p.board, p.table) = (0, 0))),
        (4, 0, changed(passed_out(), |p| p.deal[0] = 1)),
        (4, 0, changed(passed_out(), |p| p.deal[51] = 0)),
        (4, 1, changed(passed_out(), |p| p.deal[13] = 2)),
        (4, 2, changed(passed_out(), |p| p.deal[26] = 3)),
        (5, 0, calls(&[39, 0, 0, 0])),
        (5, 3, calls(&[3, 0, 0, 63])),
        (5, 4, calls(&[0, 0, 0, 0, 40])),
        (6, 1, calls(&[3, 3])),
        (6, 2, calls(&[8, 0, 7])),
        (7, 0, calls(&[1])),
        (7, 0, calls(&[2])),
        (7, 2, calls(&[3, 0, 1])),
        (7, 1, calls(&[3, 2])),
        (7, 3, calls(&[3, 1, 0, 2])),
        (8, 4, calls(&[0, 0, 0, 0, 0])),
        (8, 4, calls(&[3, 0, 0, 0, 3])),
        // A mark before any bid, before a bid above the last, a pass, a double, a second mark; at the mark.
        (24, 0, calls(&[38, 3])),
        (24, 2, calls(&[3, 0, 38, 4])),
        (24, 1, calls(&[3, 38, 0])),
        (24, 1, calls(&[3, 38, 1])),
        (24, 2, calls(&[3, 1, 38, 2])),
        (24, 1, calls(&[3, 38, 38])),
        (24, 3, calls(&[8, 38, 7, 38, 8])),
        // A code that is neither a call nor a mark comes first; a mark after the end; a mark that is the last code.
        (5, 2, calls(&[3, 38, 39])),
        (8, 4, calls(&[3, 0, 0, 0, 38])),
        (8, 4, calls(&[3, 0, 0, 0, 38, 3])),
        (9, 2, calls(&[3, 38])),
        (9, 1, calls(&[38])),
        // After an accepted bid, a bid without a mark is above that one; partner's bid is not doubled.
        (6, 3, calls(&[8, 38, 7, 7])),
        (7, 4, calls(&[8, 38, 7, 0, 1])),
        // The record ends in the code after a mark: 129 bits stand before the calls, and 18 bytes hold 144 of the 147.
        (2, 0, calls(&[3, 38, 3])[..18].to_vec()),
        (9, 0, calls(&[])),
        (9, 3, calls(&[0, 0, 0])),
        (9, 3, calls(&[3, 0, 0])),
        (10, 1, changed(passed_out(), |p| p.play_count = 1)),
        (10, 52, changed(passed_out(), |p| p.play_count = 52)),
        (10, 53, changed(one_club(), |p| p.play_count = 53)),
        (10, 63, changed(one_club(), |p| p.play_count = 63)),
        (11, 0, cards(&[54], None)),
        (11, 3, cards(&[13, 26, 39, 63], None)),
        (12, 0, cards(&[0], None)),
        (12, 1, cards(&[13, 14], None)),
        (12, 4, cards(&[13, 26, 39, 0, 14], None)),
        (12, 4, cards(&[13, 26, 39, 0, 13], None)),
        (12, 7, cards(&[13, 26, 39, 0, 1, 14, 27, 0], None)),
        (23, 4, cards(&[13, 26, 39, 0, 0], None)),
        (23, 6, cards(&[13, 26, 39, 0, 1, 14, 26], None)),
        (23, 7, cards(&[13, 26, 39, 0, 1, 14, 27, 39], None)),
        (13, 0, cards(&[], None)),
        (13, 4, cards(&[13, 26, 39, 0], None)),
        (14, 0, cards(&[], Some(0))),
        (14, 0, parts(&[0; 4], &[], Some(0)).bytes()),
        (14, 52, changed(one_notrump(), |p| p.claim = Some(0))),
        (15, 13, cards(&[13, 26, 39, 0], Some(13))),
        (15, 14, cards(&[13, 26, 39], Some(14))),
        (15, 13, cards(&[13, 26, 39, 0, 1, 14, 27], Some(13))),
        (15, 15, cards(&[13, 26, 39, 0], Some(15))),
        (16, 0, changed(passed_out(), |p| p.after = vec![0])),
        (16, 0, changed(one_club(), |p| p.padding = 1)),
        (16, 0, changed(one_club(), |p| p.padding = 8)),
    ]
}

/// The number returned, and the four buffers after it.
fn judged(judge: Judge, record: &[u8], lengths: [usize; 4]) -> (u32, [Vec<u8>; 4]) {
    let mut lent = lengths.map(|length| vec![BEFORE; length]);
    let [answer, list, failures, winners] = &mut lent;
    let number = judge(record, &mut Lent { answer, list, failures, winners });
    (number, lent)
}

const LEAST: [usize; 4] = [7, 48, 52, 26];

fn expect_refused(record: &[u8], number: u32, what: &str) {
    for judge in JUDGES {
        assert_eq!(judged(judge, record, LEAST), (number, LEAST.map(|length| vec![BEFORE; length])), "{what}");
    }
}

#[test]
fn each_refusal_and_place() {
    for (refusal, place, record) in refused() {
        expect_refused(&record, refusal * 1024 + place, &format!("refusal {refusal}, place {place}"));
    }
}

#[test]
fn each_refusal_and_place_of_codes() {
    for (k, (refusal, place, record)) in refused_codes().into_iter().enumerate() {
        expect_refused(&record, refusal * 1024 + place, &format!("case {k}: refusal {refusal}, place {place}"));
    }
}

#[test]
fn every_prefix_ends_too_soon() {
    let coded = codes(&[FACED, (0, Choice(1, 3)), FACED, (2, Exposed(25, 0))]).bytes();
    for whole in [passed_out().bytes(), one_club().bytes(), one_notrump().bytes(), coded] {
        for length in 0..whole.len() {
            expect_refused(&whole[..length], 2 * 1024, &format!("{length} bytes"));
        }
    }
}

/// One notrump by North, not vulnerable, no trick won of 7: 7 undertricks at 50 are -350, or 0xFEA2. The 52 bytes of plays against Law 50 become zero, and
/// East wins each trick with the diamond that he led.
#[test]
fn buffers_about_the_least_length() {
    let record = one_notrump().bytes();
    for case in 0..81 {
        let lengths = [0, 1, 2, 3].map(|k| LEAST[k] + case / 3usize.pow(k as u32) % 3 - 1);
        let mut due = lengths.map(|length| vec![BEFORE; length]);
        let number = match lengths {
            [6, _, _, _] => 1024,
            [_, 47, _, _] => 1025,
            [_, _, 51, _] => 1026,
            [_, _, _, 25] => 1027,
            _ => 0,
        };
        if number == 0 {
            due[0][..7].copy_from_slice(&[0x02, 0x01, 0x30, 0x00, 0x00, 0xFE, 0xA2]);
            due[2][..52].fill(0);
            (0..13).for_each(|trick| due[3][2 * trick..][..2].copy_from_slice(&[1, 13 + trick as u8]));
        }
        for judge in JUDGES {
            assert_eq!(judged(judge, &record, lengths), (number, due.clone()), "{lengths:?}");
        }
    }
}
