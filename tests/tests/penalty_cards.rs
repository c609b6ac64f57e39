//! Penalty cards by small records, the answers worked out by hand: for each reading that the Laws leave open, a record that tells it from the other one.
//! Both judges have to give the same. In the plays, `?D5` is a card exposed by accident, `!D5` deliberately, `+D` a suit required, `-D` one forbidden.
//!
//! Where nothing else is said, N plays one notrump on board 1, not vulnerable: seven tricks score 90, each more 30, each fewer costs 50. E leads, and
//! W is his partner. The rest after the plays is claimed.
use outside::compare::Judge;
use outside::judge::Lent;
use outside::parts::Parts;
use outside::words::{self, NOBODY};
use outside::{judge, proved};

const JUDGES: [Judge; 2] = [judge::judge, proved::judge];
const BEFORE: u8 = 0xEE;
const NOTRUMP: u64 = 7;
const SPADES: u64 = 6;

/// N, E, S, W.
const HANDS: [&str; 4] = ["AKQ.876.543.JT92", "JT9.543.AKQ2.876", "876.AKQ2.JT9.543", "5432.JT9.876.AKQ"];
/// E has one heart.
const ONE_HEART: [&str; 4] = ["AKQ.876.543.JT92", "JT987.5.AKQ2.876", "6.AKQ432.JT9.543", "5432.JT9.876.AKQ"];
/// E has the top hearts.
const TOP_HEARTS: [&str; 4] = ["AKQ.876.543.JT92", "JT9.AKQ2.AKQ2.87", "876.543.JT9.6543", "5432.JT9.876.AKQ"];
/// N has the clubs, E the diamonds, S the hearts, W the spades.
const SUITS: [&str; 4] = ["...AKQJT98765432", "..AKQJT98765432.", ".AKQJT98765432..", "AKQJT98765432..."];

fn parts(hands: [&str; 4], bid: u64, plays: &str, claim: u64) -> Parts {
    let mut parts = Parts { board: 1, table: 1, deal: vec![NOBODY; 52], calls: vec![bid, 0, 0, 0], claim: Some(claim), ..Parts::default() };
    for (seat, cards) in hands.into_iter().enumerate() {
        words::hand(&mut parts.deal, seat as u64, cards).unwrap();
    }
    words::plays(&mut parts, plays.split_whitespace()).unwrap();
    parts.count();
    parts
}

/// The number returned, and the first three buffers after it.
fn judged(judge: Judge, record: &[u8]) -> (u32, [u8; 7], [u8; 49], [u8; 53]) {
    let (mut answer, mut list, mut failures) = ([BEFORE; 7], [BEFORE; 49], [BEFORE; 53]);
    let mut lent = Lent { answer: &mut answer, list: &mut list, failures: &mut failures, winners: &mut [0; 26] };
    let number = judge(record, &mut lent);
    (number, answer, list, failures)
}

/// `2 W S7`: trick, seat, and a suit or a card.
fn entry(words: &str) -> (u8, u8, &str) {
    let words: Vec<&str> = words.split(' ').collect();
    (words[0].parse().unwrap(), words::seat(words[1]).unwrap() as u8, words[2])
}

/// A claimed record is accepted by both judges with tricks won by N's side, the same after Law 64, NS's score, revokes as `2 E H`, and plays against
/// Laws 50C and 50D1 as `1 W D7`.
fn accepted(record: &Parts, tricks: [u8; 2], score: i16, revokes: &[&str], failures: &[&str]) {
    let (mut list, mut bytes) = ([BEFORE; 49], [BEFORE; 53]);
    bytes[..52].fill(0);
    for (byte, (trick, seat, suit)) in list.iter_mut().zip(revokes.iter().map(|r| entry(r))) {
        *byte = trick << 4 | seat << 2 | words::suit(suit).unwrap() as u8;
    }
    for (two, (trick, seat, card)) in bytes.chunks_mut(2).zip(failures.iter().map(|f| entry(f))) {
        let card = words::card(card).unwrap() as u8;
        two.copy_from_slice(&[trick << 4 | seat << 2 | card >> 4, card << 4]);
    }
    for judge in JUDGES {
        let (number, answer, is_list, is_failures) = judged(judge, &record.bytes());
        assert_eq!(number, 0);
        assert_eq!((is_list, is_failures), (list, bytes));
        assert_eq!(
            [answer[3] >> 2 & 15, (answer[3] & 3) << 2 | answer[4] >> 6, answer[4] & 63],
            [tricks[0], tricks[1], revokes.len() as u8]
        );
        assert_eq!(i16::from_be_bytes([answer[5], answer[6]]), score);
    }
}

fn refused(record: &[u8], number: u32, place: u32) {
    for judge in JUDGES {
        assert_eq!(judged(judge, record), (number * 1024 + place, [BEFORE; 7], [BEFORE; 49], [BEFORE; 53]), "{number} at {place}");
    }
}

/// One notrump with these plays and seven tricks for N's side, nothing transferred.
fn seven(hands: [&str; 4], plays: &str, claim: u64, failures: &[&str]) {
    accepted(&parts(hands, NOTRUMP, plays, claim), [7, 7], 90, &[], failures);
}

/// The two of diamonds is faced before the opening lead, so it is due at this lead.
#[test]
fn decision_1_a_code_binds_the_very_next_card() {
    seven(HANDS, "!D2 DA D9 D6 D3", 7, &["1 E DA"]);
    seven(HANDS, "DA !D2 D9 D6 D3", 7, &[]);
}

/// At one spade by N the nine of trumps is minor, and E may lead another suit; the ten is major and due. Seven tricks score 30 + 50.
#[test]
fn decision_2_the_ten_is_the_lowest_honour_in_trumps_too() {
    accepted(&parts(HANDS, SPADES, "?S9 DA D9 D6 D3", 7), [7, 7], 80, &[], &[]);
    accepted(&parts(HANDS, SPADES, "?ST DA D9 D6 D3", 7), [7, 7], 80, &[], &["1 E DA"]);
}

/// First: each defender has one minor card. E leads an honour of its suit, which is free; W plays another low card, which is not. Second: both of E's
/// low clubs are major and played on tricks 1 and 2, so the nine of spades is single, and minor: the ten may be played in its place.
#[test]
fn decision_3_one_defender_s_cards_that_lie_there_at_a_time() {
    seven(HANDS, "?D2 ?D6 DA D9 D7 D3", 7, &["1 W D7"]);
    seven(HANDS, "?C8 ?C7 C8 C3 CA C2  CK C9 C7 C4  ?S9 S2 SA ST S6", 6, &[]);
    seven(HANDS, "?C8 ?C7 C8 C3 CA C2  CK C9 C6 C4", 7, &["2 E C6"]);
}

/// The nine of hearts was faced deliberately and picked up, as hearts are forbidden; then it is faced by accident, and minor. So W may lead the king
/// of clubs to trick 2, but no low heart in its place.
#[test]
fn decision_4_a_card_that_was_picked_up_is_classed_anew() {
    seven(HANDS, "!H9 -H ?H9 C8 C3 CA C2  CK C9 C7 C4", 7, &[]);
    seven(HANDS, "!H9 -H !H9 C8 C3 CA C2  CK C9 C7 C4", 7, &["2 W CK"]);
}

/// W's ten is picked up, E's five stays faced: E has to play it to trick 2, which W leads.
#[test]
fn decision_5_the_leader_s_own_card_stays_faced() {
    seven(HANDS, "!H5 !HT -H C8 C3 CA C2  HJ H6 H4 HA", 6, &["2 E H4"]);
    seven(HANDS, "!H5 !HT -H C8 C3 CA C2  HJ H6 H5 HA", 6, &[]);
}

#[test]
fn decision_6_one_requirement_or_bans() {
    for choices in ["+H +D", "+H -D", "-H +D"] {
        refused(&parts(HANDS, NOTRUMP, &format!("!HT !D6 {choices} C8"), 7).bytes(), 26, 0);
    }
    seven(HANDS, "!HT !D6 -H -D C8 C3 CA C2", 7, &[]);
}

/// Diamonds are required and led. On trick 2 E leads again: without a code he is free; with hearts required, the king of diamonds is a revoke, which
/// wins: 2 of the six tricks that his side has from there on. Eight tricks score 120.
#[test]
fn decision_7_a_requirement_is_for_one_lead_and_open_again() {
    accepted(&parts(HANDS, NOTRUMP, "!D6 !HT +D DA D9 D6 D3  DK DT D7 D4", 6), [6, 6], -50, &[], &[]);
    accepted(&parts(HANDS, NOTRUMP, "!D6 !HT +D DA D9 D6 D3  +H DK DT D7 D4", 6), [6, 8], 120, &["2 E H"], &[]);
}

/// Hearts are forbidden twice, and the ten of hearts is picked up twice: W need not lead it to trick 2.
#[test]
fn decision_8_a_ban_may_be_repeated() {
    seven(HANDS, "!HT -H !HT -H C8 C3 CA C2  CK C9 C7 C4", 7, &[]);
}

/// E wins trick 1, and the ban binds trick 2 too: one of the five tricks that his side is given. In the third record W wins trick 1 and E trick 2:
/// the ban is over.
#[test]
fn decision_9_a_ban_is_for_one_run_of_leads() {
    accepted(&parts(HANDS, NOTRUMP, "!HT -H DA D9 D6 D3  H5 HA H9 H6", 6), [7, 8], 120, &["2 E H"], &[]);
    seven(HANDS, "!HT -H DA D9 D6 D3  C8 C3 CA C2", 7, &[]);
    seven(HANDS, "!HT -H C8 C3 CA C2  D8 D3 DA D9  H5 HA H9 H6", 6, &[]);
    // Clubs join on trick 2; hearts are forbidden still, and so is a requirement.
    accepted(&parts(HANDS, NOTRUMP, "!HT -H DA D9 D6 D3  !CQ -C H5 HA H9 H6", 6), [7, 8], 120, &["2 E H"], &[]);
    refused(&parts(HANDS, NOTRUMP, "!HT -H DA D9 D6 D3  !CQ +C C8", 6).bytes(), 26, 4);
}

/// E has diamonds only. Spades required, he may lead a diamond, and W has picked the two of spades up. Without a choice it stays, and is due when W discards.
#[test]
fn decision_10_a_choice_that_cannot_be_met_and_none() {
    seven(SUITS, "!S2 +S D2 H2 S3 C2", 7, &[]);
    seven(SUITS, "!S2 D2 H2 S3 C2", 7, &["1 W S3"]);
    // E has diamonds and a spade, and both suits are forbidden; where diamonds alone are, he has to lead the spade. He wins, so that is 2 of his
    // side's tricks.
    let exchanged = ["...AKQJT98765432", "2..AKQJT9876543.", ".AKQJT98765432..", "AKQJT9876543..2."];
    seven(exchanged, "!D2 -D !S3 -S DA H2 D2 C2", 7, &[]);
    accepted(&parts(exchanged, NOTRUMP, "!D2 -D DA H2 D2 C2", 5), [5, 7], 90, &["1 E D"], &[]);
}

/// The only heart is led to trick 1 as required. On trick 3 hearts are required of E again, who had one in the deal and has none: a diamond is no
/// revoke. Before he had led it, it was one, on trick 1: 1 of the tricks given to his side, as W wins.
#[test]
fn decision_11_the_hand_of_the_moment() {
    seven(ONE_HEART, "!HT +H H5 HA H9 H6  DJ D6 D3 DA  !HJ +H DK DT D7 D4", 6, &[]);
    accepted(&parts(ONE_HEART, NOTRUMP, "!HT +H C8 C3 CA C2", 6), [6, 7], 90, &["1 E H"], &[]);
}

/// W has the ten of hearts faced, and discards: a revoke, excused since the ten would have been none, and against Law 50D1.
#[test]
fn decision_12_a_play_in_both_lists() {
    accepted(&parts(HANDS, NOTRUMP, "!HT H3 H2 D6 H6", 6), [7, 7], 90, &["1 W H"], &["1 W D6"]);
}

/// The queen of clubs is faced and played to a heart: a revoke. Where the ten of hearts is faced too, that one was due, and excuses. Where it is not,
/// no card was due, and 1 trick is transferred.
#[test]
fn decision_13_a_major_card_played_in_a_revoke() {
    accepted(&parts(HANDS, NOTRUMP, "!HT !CQ H3 H2 CQ H6", 6), [7, 7], 90, &["1 W H"], &["1 W CQ"]);
    accepted(&parts(HANDS, NOTRUMP, "!CQ H3 H2 CQ H6", 6), [7, 8], 120, &["1 W H"], &[]);
}

/// E's seven of clubs is minor. Clubs are forbidden, and the eight is led: a revoke that the seven, forbidden too, does not excuse, and against Law
/// 50C. W wins, so 1.
#[test]
fn decision_14_law_50c_where_the_minor_card_would_be_a_revoke_too() {
    accepted(&parts(HANDS, NOTRUMP, "?C7 !CQ -C C8 C3 CA C2", 6), [6, 7], 90, &["1 E C"], &["1 E C8"]);
    // The three of hearts in place of the minor four, discarded on a club with clubs in hand.
    accepted(&parts(HANDS, NOTRUMP, "C8 C3 CA C2  ?H4 CK C9 H3 C4", 6), [6, 7], 90, &["2 E C"], &["2 E H3"]);
}

/// Hearts are forbidden and the ten is picked up; the queen of clubs stays faced, and is due when clubs are led.
#[test]
fn decision_15_partner_is_not_free_of_the_other_cards() {
    seven(HANDS, "!HT !CQ -H C8 C3 CA C2", 7, &["1 W CA"]);
    seven(HANDS, "!HT !CQ -H C8 C3 CQ C2", 7, &[]);
}

/// Before N plays to trick 1, and before W plays to trick 2.
#[test]
fn decision_16_plays_of_an_unfinished_trick() {
    accepted(&parts(HANDS, NOTRUMP, "!HT H3 H2 D6", 7), [7, 7], 90, &["1 W H"], &["1 W D6"]);
    seven(HANDS, "DA D9 D6 D3  !C6 DK", 7, &["2 E DK"]);
}

/// Hearts are forbidden. E leads and wins two of them: 2, and 0 for the same suit. On trick 4 he discards a spade on a heart: 0 once more.
#[test]
fn decision_17_one_suit_on_leads_and_in_following() {
    let plays = "!HT -H HA H3 H9 H6  HK H4 HT H7  C8 C3 CA C2  HJ H8 S9 H5";
    accepted(&parts(TOP_HEARTS, NOTRUMP, plays, 5), [5, 7], 90, &["1 E H", "2 E H", "4 E H"], &[]);
}

/// The ten of hearts was picked up and does not excuse W, so 1 trick is transferred. E's ace of diamonds may be led under the ban on hearts: it is
/// due, and excuses him. His five of hearts, faced as well, would not.
#[test]
fn decision_18_the_cards_that_are_faced_at_that_play() {
    accepted(&parts(HANDS, NOTRUMP, "!HT +H H3 H2 D6 H6", 6), [7, 8], 120, &["1 W H"], &[]);
    accepted(&parts(HANDS, NOTRUMP, "!DA !HT -H H3 HA H9 H6", 6), [7, 7], 90, &["1 E H"], &["1 E H3"]);
    accepted(&parts(HANDS, NOTRUMP, "!H5 !HT -H H3 HA H9 H6", 6), [7, 8], 120, &["1 E H"], &[]);
    // In an unfinished trick.
    accepted(&parts(HANDS, NOTRUMP, "!DA !HT -H H3", 7), [7, 7], 90, &["1 E H"], &["1 E H3"]);
    accepted(&parts(HANDS, NOTRUMP, "!HT -H H3", 7), [7, 8], 120, &["1 E H"], &[]);
}

/// W's revoke asks for nothing, but both sides have revoked: N's on trick 3 costs no trick.
#[test]
fn decision_19_an_excused_revoke_counts_as_one_of_its_side() {
    let plays = "!HT H3 H2 D6 H6  D3 DA D9 D7  SJ S6 S2 C2";
    accepted(&parts(HANDS, NOTRUMP, plays, 6), [7, 7], 90, &["1 W H", "3 N S"], &["1 W D6"]);
}

/// 135 bits stand before the calls' 24. After one exposure, of 13 bits, the second has its six bits and its card by bit 184, the end of byte 23. After the
/// exposure and two cards, a choice has its six bits and its kind by bit 192, the end of byte 24.
#[test]
fn decision_20_all_bits_of_a_code_before_its_fault() {
    use outside::penalty::Code;
    let with = |plays: &str, place: usize, code: Code| {
        let mut parts = parts(HANDS, NOTRUMP, plays, 7);
        parts.codes.push((place, code));
        parts.bytes()
    };
    for card in [52, 53, 54, 63] {
        let record = with("!HT DA", 0, Code::Exposed(card, 1));
        refused(&record, 25, 0);
        refused(&record[..23], 2, 0);
        refused(&record[..24], 25, 0);
    }
    for kind in [2, 3] {
        let record = with("!HT DA D9 D6", 2, Code::Choice(kind, 2));
        refused(&record, 26, 2);
        refused(&record[..24], 2, 0);
        refused(&record[..25], 26, 2);
        refused(&with("!HT DA", 0, Code::Choice(kind, 2)), 26, 0);
    }
}

/// The ace of clubs is W's: not E's to lead (12). Before it stands an exposure of N's card (25), or a choice without a card that causes it (26).
#[test]
fn decision_21_a_code_s_fault_before_the_card_s() {
    refused(&parts(HANDS, NOTRUMP, "?SA CA", 7).bytes(), 25, 0);
    refused(&parts(HANDS, NOTRUMP, "-C CA", 7).bytes(), 26, 0);
    refused(&parts(HANDS, NOTRUMP, "?CA CA", 7).bytes(), 12, 0);
    refused(&parts(HANDS, NOTRUMP, "?CA DA D9 D6 D3  DA", 7).bytes(), 23, 4);
}

/// The 52 bytes become zero without any code and on a passed-out board; the byte behind them stays.
#[test]
fn decision_24_the_failures_are_written_on_every_acceptance() {
    seven(HANDS, "DA D9 D6 D3", 7, &[]);
    let mut record = parts(HANDS, NOTRUMP, "", 0);
    (record.calls, record.claim) = (vec![0; 4], None);
    record.count();
    for judge in JUDGES {
        let (number, _, list, failures) = judged(judge, &record.bytes());
        assert_eq!((number, list, &failures[..52], failures[52]), (0, [BEFORE; 49], &[0; 52][..], BEFORE));
    }
}
