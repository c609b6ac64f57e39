//! The examples of docs/RULES.md. The numbers due are that page's. A test of whole records goes over both judges, the proved one and the one written here;
//! one of a single function, of matchpoints, of the sheet or of the slip tries the Rust code alone.
use outside::auction::Contract;
use outside::compare::Judge;
use outside::judge::Least;
use outside::law64::transferred;
use outside::parts::Parts;
use outside::penalty::{Code, FORBID};
use outside::score::contract_score;
use outside::sheet::{cells, sheet};
use outside::slip::slip;
use outside::tally::Tally;
use outside::team::{imps, Line, Match, Written};
use outside::tree::numbered;
use outside::words::card;
use outside::{judge, proved};

const JUDGES: [Judge; 2] = [judge::judge, proved::judge];

const PASSED_OUT: [u8; 21] =
    [0x02, 0x01, 0x00, 0x00, 0x00, 0x15, 0x55, 0x55, 0x5A, 0xAA, 0xAA, 0xAB, 0xFF, 0xFF, 0xFF, 0x02, 0x00, 0x00, 0x00, 0x00, 0x00];

/// The number returned, and NS's score.
fn judged(judge: Judge, record: &[u8]) -> (u32, i32) {
    let mut least = Least::of(0);
    let number = judge(record, &mut least.lend());
    (number, i32::from(least.score()))
}

/// N all clubs, E diamonds, S hearts, W spades.
fn suits(board: u64, calls: &[u64], cards: &[u64], claim: Option<u64>) -> Vec<u8> {
    record(board, (0..52).map(|card| card / 13).collect(), calls, cards, claim)
}

fn record(board: u64, deal: Vec<u64>, calls: &[u64], cards: &[u64], claim: Option<u64>) -> Vec<u8> {
    let (calls, cards) = (calls.to_vec(), cards.to_vec());
    let mut parts = Parts { board, table: 1, deal, calls, cards, claim, ..Parts::default() };
    parts.count();
    parts.bytes()
}

#[test]
fn passed_out_board() {
    for judge in JUDGES {
        assert_eq!(suits(1, &[0; 4], &[], None), PASSED_OUT[..20]);
        assert_eq!(judged(judge, &PASSED_OUT[..20]), (0, 0));
        assert_eq!(judged(judge, &PASSED_OUT[..19]).0, 2 * 1024);
        assert_eq!(judged(judge, &PASSED_OUT).0, 16 * 1024);
    }
}

#[test]
fn one_club_and_a_claim() {
    for judge in JUDGES {
        let record = |claim| suits(1, &[3, 0, 0, 0], &[13, 26, 39, 0], Some(claim));
        assert_eq!(judged(judge, &record(12)), (0, 190));
        assert_eq!(judged(judge, &record(13)).0, 15 * 1024 + 13);
    }
}

/// The four of diamonds is exposed, and the three led in its place: trick 1, E, card 14 is 0001 01 001110 0000. The two of clubs is declarer's, and West
/// has no penalty card.
#[test]
fn an_exposure_and_a_choice() {
    let with = |code| {
        let deal = (0..52).map(|card| card / 13).collect();
        let (calls, cards) = (vec![3, 0, 0, 0], vec![14, 26, 39, 0]);
        let mut parts = Parts { board: 1, table: 1, deal, calls, cards, codes: vec![(0, code)], claim: Some(12), ..Parts::default() };
        parts.count();
        parts.bytes()
    };
    for judge in JUDGES {
        let mut least = Least::of(0xEE);
        assert_eq!(judge(&with(Code::Exposed(15, 0)), &mut least.lend()), 0);
        assert_eq!((least.answer[4] & 63, least.score()), (0, 190));
        assert_eq!((&least.failures[..2], &least.failures[2..]), (&[0x14, 0xE0][..], &[0; 50][..]));
        assert_eq!(judged(judge, &with(Code::Exposed(0, 0))).0, 25 * 1024);
        assert_eq!(judged(judge, &with(Code::Choice(FORBID, 1))).0, 26 * 1024);
    }
}

/// The slips of these records; and with two diamonds doubled by E, who ruffs and claims eight of the other twelve tricks, the slip of docs/RULES.md.
#[test]
fn slips() {
    let text = |record: &[u8]| slip(record).text;
    assert_eq!(text(&PASSED_OUT[..20]), "SUM 0\n");
    assert_eq!(text(&PASSED_OUT[..19]), "2 0\n");
    assert_eq!(text(&PASSED_OUT), "16 0\n");
    let club = |claim| suits(1, &[3, 0, 0, 0], &[13, 26, 39, 0], Some(claim));
    assert_eq!(text(&club(12)), "TRICKS 20\nOVERTRICKS 120\nPARTSCORE 50\nSUM 190\n");
    assert_eq!(text(&club(13)), "15 13\n");
    let diamonds = suits(1, &[0, 9, 1, 0, 0, 0], &[26, 39, 0, 13], Some(8));
    assert_eq!(text(&diamonds), "TRICKS -80\nOVERTRICKS -100\nPARTSCORE -50\nDOUBLING -50\nSUM -280\n");
}

/// The same after three cards, in the middle of the first trick: thirteen tricks are left. 12 tricks score 20 + 50 + 5 × 20, 13 one more.
#[test]
fn a_claim_in_the_middle_of_a_trick() {
    for judge in JUDGES {
        let record = |claim| suits(1, &[3, 0, 0, 0], &[13, 26, 39], Some(claim));
        assert_eq!(judged(judge, &record(12)), (0, 170));
        assert_eq!(judged(judge, &record(13)), (0, 190));
        assert_eq!(judged(judge, &record(14)).0, 15 * 1024 + 14);
    }
}

/// The winners as `seat card`, of tricks played as `one_club_cards` has them, and the bytes of the other tricks as they were.
fn expect_winners(record: &[u8], winners: &str) {
    let words: Vec<&str> = winners.split_whitespace().collect();
    let mut bytes = [0xEE; 26];
    for (two, pair) in bytes.chunks_exact_mut(2).zip(words.chunks_exact(2)) {
        two.copy_from_slice(&["NESW".find(pair[0]).unwrap() as u8, card(pair[1]).unwrap() as u8]);
    }
    for judge in JUDGES {
        let mut least = Least::of(0xEE);
        assert_eq!(judge(record, &mut least.lend()), 0);
        assert_eq!(least.winners, bytes);
    }
}

/// The two tricks of docs/RULES.md's example; a ruff that is a revoke, and a trick under way; a passed-out board has no trick.
#[test]
fn winners_and_cards() {
    expect_winners(&suits(1, &[3, 0, 0, 0], &[13, 26, 39, 0], Some(12)), "N C2");
    expect_winners(&suits(1, &[7, 0, 0, 0], &[13, 26, 39, 0, 14], Some(0)), "E D2");
    expect_winners(&one_club_cards(&NONE_LATER, 11, Some(5)), "E DA N C4");
    expect_winners(&one_club_cards(&NONE_LATER, 12, Some(5)), "E DA N C4 E C2");
    let later = "E DQ E DJ E DT E D9 W C3 N CT N CJ N CQ N CK N CA";
    expect_winners(&one_club_played(&FIVE_LATER, 13, None), &format!("E DA N C9 E C2 {later}"));
    expect_winners(&PASSED_OUT[..20], "");
}

/// Level, strain, doubling, tricks, vulnerable, and what declarer's side scores: P1 to P6, by the Rust judge's function.
const SCORES: [(u8, u8, u8, u8, bool, i32); 6] = [
    (3, 4, 0, 9, false, 400),
    (4, 3, 0, 11, true, 650),
    (2, 1, 1, 9, false, 280),
    (7, 4, 1, 13, true, 2490),
    (5, 0, 2, 7, false, -1600),
    (1, 4, 2, 13, true, 3160),
];

#[test]
fn p1_to_p6() {
    for (level, strain, doubling, tricks, vulnerable, score) in SCORES {
        let contract = Contract { level, strain, doubling, declarer: 0 };
        assert_eq!(contract_score(&contract, vulnerable, tricks), score);
    }
}

/// The same by whole records and both judges: N declares, dealer on boards 1 and 5, and has the ace of diamonds for the two of clubs. It wins the first trick,
/// but for spades, where W ruffs; the rest is claimed.
#[test]
fn p1_to_p6_by_records() {
    let mut deal: Vec<u64> = (0..52).map(|card| card / 13).collect();
    deal.swap(0, 25);
    for (level, strain, doubling, tricks, vulnerable, score) in SCORES {
        let board = if vulnerable { 5 } else { 1 };
        let bid = 3 + 5 * (u64::from(level) - 1) + u64::from(strain);
        let calls = [&[bid], &[1, 2][..usize::from(doubling)], &[0; 3]].concat();
        let claim = u64::from(tricks) - u64::from(strain != 3);
        let bytes = record(board, deal.clone(), &calls, &[13, 26, 39, 25], Some(claim));
        for judge in JUDGES {
            assert_eq!(judged(judge, &bytes), (0, score), "{level} {strain} {doubling}");
        }
    }
}

#[test]
fn p8_matchpoints() {
    let mut tally = Tally::fresh(1).unwrap();
    for score in [420, 420, -50, 450] {
        tally.add(score, &numbered(0)).unwrap();
    }
    let north_south = [420, 420, -50, 450].map(|score| tally.matchpoints(score, &numbered(0)).unwrap().0);
    assert_eq!(north_south, [3, 3, 0, 6]);
    assert!(tally.described());
}

/// A revoke's byte.
fn revoke(trick: u8, seat: u8, suit: u8) -> u8 {
    trick << 4 | seat << 2 | suit
}

/// The Rust judge's function alone. N declares; E is the defender who revokes.
#[test]
fn p9_to_p11_law_64() {
    let mut winners = [0; 13];
    winners[2] = 1;
    let on_trick_3 = [revoke(3, 1, 2)];
    assert_eq!(transferred(&on_trick_3, 0, &winners, 0, [0, 0]), Some((1, 1)));
    winners[5..10].fill(3);
    assert_eq!(transferred(&on_trick_3, 0, &winners, 0, [0, 0]), Some((1, 2)));
    let mut winners = [0; 13];
    (winners[2], winners[9]) = (1, 1);
    assert_eq!(transferred(&[revoke(3, 1, 2), revoke(10, 1, 3)], 0, &winners, 0, [0, 0]), Some((1, 2)));
    let mut winners = [0; 13];
    winners[11] = 1;
    assert_eq!(transferred(&[revoke(12, 1, 2)], 0, &winners, 0, [0, 0]), Some((1, 0)));
}

/// One club by N on board 1, where nobody is vulnerable. A line is a trick, the seat that leads and the four cards in order of play; all thirteen
/// say which seat was dealt which card. With a claim, only the first `played` tricks are in the record.
fn one_club_played(tricks: &[&str; 13], played: usize, claim: Option<u64>) -> Vec<u8> {
    one_club_cards(tricks, 4 * played, claim)
}

/// The same with so many cards in the record.
fn one_club_cards(tricks: &[&str; 13], count: usize, claim: Option<u64>) -> Vec<u8> {
    let (mut deal, mut cards) = (vec![4; 52], Vec::new());
    for trick in tricks {
        let (leader, words) = trick.split_once(' ').unwrap();
        let leader = "NESW".find(leader).unwrap() as u64;
        for (k, word) in words.split(' ').enumerate() {
            let card = card(word).unwrap();
            deal[card as usize] = (leader + k as u64) % 4;
            cards.push(card);
        }
    }
    record(1, deal, &[3, 0, 0, 0], &cards[..count], claim)
}

/// Accepted by both judges, with tricks won by N's side, the same after Law 64, NS's score, and the revokes.
fn expect_law_64(record: &[u8], tricks: u8, after: u8, score: i32, revokes: &[u8]) {
    for judge in JUDGES {
        let mut least = Least::of(0);
        assert_eq!(judge(record, &mut least.lend()), 0);
        let Least { answer, list, .. } = least;
        assert_eq!((answer[3] >> 2 & 15, (answer[3] & 3) << 2 | answer[4] >> 6), (tricks, after));
        assert_eq!(i32::from(least.score()), score);
        assert_eq!((usize::from(answer[4] & 63), &list[..revokes.len()]), (revokes.len(), revokes));
    }
}

/// E takes the ace of diamonds, and on trick 3 ruffs a heart with a heart in hand. His side wins no other trick.
const NONE_LATER: [&str; 13] = [
    "E DA D2 S3 S2",
    "E DK D3 S4 C4",
    "N H2 C2 H4 S5",
    "E D4 H5 S6 C5",
    "N CA D5 H6 C3",
    "N CK D6 H7 S7",
    "N CQ D7 H8 S8",
    "N CJ D8 H9 S9",
    "N CT D9 HT ST",
    "N C9 DT HJ SJ",
    "N C8 DJ HQ SQ",
    "N C7 DQ HK SK",
    "N C6 H3 HA SA",
];

/// The same, but E wins four diamonds after trick 3 and W ruffs a fifth.
const FIVE_LATER: [&str; 13] = [
    "E DA D2 S8 S2",
    "E DK D3 S9 C9",
    "N H2 C2 H4 ST",
    "E DQ H5 SJ S3",
    "E DJ H6 SQ S4",
    "E DT H7 SK S5",
    "E D9 H8 SA S6",
    "E D8 H9 C3 S7",
    "W C4 CT D4 HT",
    "N CJ D5 HJ C5",
    "N CQ D6 HQ C6",
    "N CK D7 HK C7",
    "N CA H3 HA C8",
];

/// The revoke of P9 in a trick that a claim leaves unfinished: one trick, as far as E's side gets one by the claim. N's side has one trick of two, and
/// eleven are left. 7 tricks score 20 + 50.
#[test]
fn a_revoke_in_an_unfinished_trick() {
    let hearts = [revoke(3, 1, 2)];
    for cards in [10, 11] {
        expect_law_64(&one_club_cards(&NONE_LATER, cards, Some(5)), 6, 7, 70, &hearts);
        expect_law_64(&one_club_cards(&NONE_LATER, cards, Some(10)), 11, 12, 170, &hearts);
        expect_law_64(&one_club_cards(&NONE_LATER, cards, Some(11)), 12, 12, 170, &hearts);
    }
}

/// P9: the two tricks of the revoke, down to those that E's side won from trick 3 on, played or claimed. 12 tricks score 20 + 50 + 5 × 20, 8 tricks
/// 20 + 50 + 20.
#[test]
fn p9_by_records() {
    let hearts = [revoke(3, 1, 2)];
    expect_law_64(&one_club_played(&NONE_LATER, 13, None), 11, 12, 170, &hearts);
    expect_law_64(&one_club_played(&NONE_LATER, 3, Some(10)), 11, 12, 170, &hearts);
    expect_law_64(&one_club_played(&FIVE_LATER, 13, None), 6, 8, 90, &hearts);
    expect_law_64(&one_club_played(&NONE_LATER, 3, Some(5)), 6, 8, 90, &hearts);
}

/// P10: E ruffs a heart on trick 3 and a spade on trick 10, each with a card of the suit in hand. With the ace of diamonds his side has three tricks, two
/// of them from trick 3 on.
#[test]
fn p10_by_records() {
    let tricks = [
        "E DA D2 D5 S4",
        "E DK D3 ST CT",
        "N H2 C2 H5 H6",
        "E DQ D4 SJ CJ",
        "N H4 H3 HA H7",
        "S HK H8 S5 DJ",
        "S HQ H9 S6 DT",
        "S HJ SQ S7 D9",
        "S HT SK S8 D8",
        "S S2 SA S9 C3",
        "E D6 C4 C7 CQ",
        "N CK S3 C5 C8",
        "N CA D7 C6 C9",
    ];
    expect_law_64(&one_club_played(&tricks, 13, None), 10, 12, 170, &[revoke(3, 1, 2), revoke(10, 1, 3)]);
}

/// P11: on trick 12, which W wins, E throws a diamond with a club in hand. 10 tricks score 20 + 50 + 3 × 20.
#[test]
fn p11_by_records() {
    let tricks = [
        "E DA D2 D5 S4",
        "E DK D3 ST CK",
        "N H2 H3 HA H6",
        "S HK H7 H4 DQ",
        "S HQ H8 S5 DJ",
        "S HJ H9 S6 DT",
        "S HT SJ S7 D9",
        "S H5 SQ S8 D8",
        "S D4 SK CQ D6",
        "N CJ C2 C4 C7",
        "N S9 S3 S2 SA",
        "W CA C9 D7 C5",
        "W C8 CT C3 C6",
    ];
    expect_law_64(&one_club_played(&tricks, 13, None), 10, 10, 130, &[revoke(12, 1, 0)]);
}

#[test]
fn p12_ends_of_auctions() {
    for judge in JUDGES {
        assert_eq!(judged(judge, &suits(1, &[3, 0, 0, 0], &[], None)).0, 13 * 1024);
        assert_eq!(judged(judge, &suits(1, &[0, 0, 0], &[], None)).0, 9 * 1024 + 3);
    }
}

/// The longest auction and with it the longest record: three passes, then every bid, each doubled and redoubled after two passes, 319 calls. The
/// seat that bids goes round by one from W on, so E bids the last, seven notrump, and W is the first of that side to have bid notrump. N leads and
/// wins every trick with a club: thirteen down, redoubled, not vulnerable, 2 × (100 + 2 × 200 + 10 × 300).
#[test]
fn longest_auction_and_record() {
    let rounds = (3..38).flat_map(|bid| [bid, 0, 0, 1, 0, 0, 2, 0, 0]);
    let calls: Vec<u64> = [0; 3].into_iter().chain(rounds).chain([0]).collect();
    let cards: Vec<u64> = (0..13).flat_map(|rank| [rank, 13 + rank, 26 + rank, 39 + rank]).collect();
    let record = suits(1, &calls, &cards, None);
    assert_eq!((calls.len(), record.len()), (319, 296));
    for judge in JUDGES {
        let mut least = Least::of(0);
        assert_eq!(judge(&record, &mut least.lend()), 0);
        // board 7, table 9; level 7, strain 4, doubling 2; declarer 3, no trick, none after Law 64, no revoke
        assert_eq!(least.answer[..5], [2, 1, 7 << 5 | 4 << 2 | 2, 3 << 6, 0]);
        assert_eq!(judged(judge, &record), (0, 7000));
    }
    let one_call_more = suits(1, &[&calls[..], &[0]].concat(), &cards, None);
    for judge in JUDGES {
        assert_eq!(judged(judge, &one_call_more).0, 8 * 1024 + 319);
    }
}

/// The longest record: three passes, one club by W, and one club again 252 times, each accepted though it is not above the last: 511 codes. A mark takes
/// no turn, so the 253rd bid is W's again, and W is the first of that side to have bid clubs. N leads and wins every trick with a club: seven down, not
/// vulnerable, 350.
#[test]
fn longest_marked_auction_and_record() {
    let again = (0..252).flat_map(|_| [38, 3]);
    let calls: Vec<u64> = [0, 0, 0, 3].into_iter().chain(again).chain([0; 3]).collect();
    let cards: Vec<u64> = (0..13).flat_map(|rank| [rank, 13 + rank, 26 + rank, 39 + rank]).collect();
    let record = suits(1, &calls, &cards, None);
    assert_eq!((calls.len(), record.len()), (511, 440));
    for judge in JUDGES {
        let mut least = Least::of(0);
        assert_eq!(judge(&record, &mut least.lend()), 0);
        // board 7, table 9; level 1, strain 0, doubling 0; declarer 3, no trick, none after Law 64, no revoke
        assert_eq!(least.answer[..5], [2, 1, 1 << 5, 3 << 6, 0]);
        assert_eq!(judged(judge, &record), (0, 350));
    }
}

#[test]
fn cells_of_four() {
    assert_eq!(cells(b"420\n420\n-50\n450\n"), "NS-SCORE COUNT NS-% EW-%\n450 1 100.00 0.00\n420 2 50.00 50.00\n-50 1 0.00 100.00\n");
    assert_eq!(cells(b"420\n"), "NS-SCORE COUNT NS-% EW-%\n420 1 ALONE ALONE\n");
    assert_eq!(cells(b""), "NS-SCORE COUNT NS-% EW-%\n");
    assert_eq!(cells(b"5\n"), "line 1 refused\n");
    let seventeen: String = (0..17).map(|k| format!("{}\n", 10 * (k + 1))).collect();
    assert!(cells(seventeen.as_bytes()).contains("\n20 1 6.25 93.75\n"));
    assert!(cells(format!("10\n{seventeen}").replacen("170\n", "", 1).as_bytes()).contains("\n10 2 3.13 96.88\n"));
}

#[test]
fn sheet_of_four() {
    assert_eq!(sheet(b"420\n420\n-50\n450\n"), "NS-SCORE COUNT NS-MP EW-MP\n450 1 6 0\n420 2 3 3\n-50 1 0 6\n");
    assert_eq!(sheet(b""), "NS-SCORE COUNT NS-MP EW-MP\n");
    assert_eq!(sheet(b"\n"), "line 1 refused\n");
    assert_eq!(sheet(b"0\n-0\n"), "line 2 refused\n");
    assert_eq!(sheet(&b"0\n".repeat(129)), "line 129 refused\n");
    assert_eq!(sheet(&b"0\n".repeat(128)), "NS-SCORE COUNT NS-MP EW-MP\n0 128 127 127\n");
}

#[test]
fn imps_of_differences() {
    assert_eq!([10, 20, 490, 500, 3990, 4000].map(|points| imps(points, 0)), [0, 1, 10, 11, 23, 24]);
    assert_eq!((imps(0, 500), imps(7600, -7600)), (-11, 24));
}

#[test]
fn team_match_of_two_boards() {
    let written = Written::of(&[Line::Board(1, 420, -50), Line::Board(2, -100, 620)], Match::play);
    assert_eq!(written.text, "10\n-12\nTOTAL -2 2\n");
    assert_eq!(Written::of(&[], Match::play).text, "TOTAL 0 0\n");
    assert_eq!(Written::of(&[Line::Board(1, 420, -50), Line::Unreadable], Match::play).text, "10\nline 2 refused\n");
}
