//! Cards played with exposures and choices among them, by players who obey and who do not.
use super::Made;
use crate::penalty::{Code, FORBID, MOST_CODES, REQUIRE};
use crate::play::{suit, Play};
use crate::random::Random;

/// How the players of one record behave; the chances are in a hundred.
struct Manner {
    /// One more code before a card, where any is open.
    code: usize,
    most: usize,
    /// The first card that a code stands before, if it is there.
    from: usize,
    /// A choice where one is open; else an exposure.
    choice: usize,
    require: usize,
    deliberate: usize,
    /// A card that was picked up is the one exposed, where there is one.
    again: usize,
    /// The seats that expose cards.
    exposing: [bool; 4],
    /// A play that does not obey, where there is one.
    disobey: [usize; 4],
    /// A play against Law 50, where there is one; else one that is not.
    fail: usize,
}

impl Manner {
    fn new(random: &mut Random, declarer: u8) -> Manner {
        let most = *random.pick(&[1, 2, 3, 6, 12, MOST_CODES]);
        let often = *random.pick(&[0, 10, 40, 100]);
        let defenders = [0, 1, 2, 3].map(|seat: u8| (seat ^ declarer) & 1 == 1);
        let mut exposing = defenders;
        if random.percent(40) {
            exposing[random.below(4)] = false;
        }
        let disobey = match random.below(3) {
            0 => random.revoking(declarer),
            _ => defenders.map(|defends| if defends { often } else { 0 }),
        };
        Manner {
            code: if most == MOST_CODES { *random.pick(&[60, 97]) } else { *random.pick(&[3, 10, 40, 80]) },
            most,
            from: *random.pick(&[0, 0, 0, 20, 40, 44]),
            choice: *random.pick(&[10, 50, 90]),
            require: *random.pick(&[0, 30, 100]),
            deliberate: *random.pick(&[0, 30, 100]),
            again: *random.pick(&[0, 60]),
            exposing,
            disobey,
            fail: *random.pick(&[0, 20, 50, 100]),
        }
    }
}

/// The cards of a set, and those of them that have or have not a property, all of them where none is such.
fn where_there_is(cards: u64, wanted: bool, has: impl Fn(u64) -> bool) -> u64 {
    let such = (0..52).filter(|&card| cards >> card & 1 == 1 && has(card) == wanted).fold(0, |set, card| set | 1 << card);
    if such == 0 {
        cards
    } else {
        such
    }
}

/// Plays the cards of a contract to the end or to a claim.
pub fn fill(random: &mut Random, made: &mut Made) {
    let count = if random.percent(50) { random.between(1, 51) } else { 52 };
    fill_up_to(random, made, count);
}

/// Plays so many cards of a contract, and claims some of the rest where there is one.
pub fn fill_up_to(random: &mut Random, made: &mut Made, count: usize) {
    let manner = Manner::new(random, made.contract.expect("a contract").declarer);
    let mut play = made.position(0).expect("a contract");
    let mut picked_up = 0;
    for place in 0..count {
        while place >= manner.from.min(count - 1) && play.penalty.codes() < manner.most && random.percent(manner.code) {
            let Some(code) = code(random, &manner, &play, picked_up) else { break };
            let before = faced(&play);
            assert!(play.code(code), "an open code");
            picked_up |= before & !faced(&play);
            made.parts.codes.push((place, code));
        }
        let card = card(random, &manner, &play);
        assert!(play.card(card), "a card in the hand at turn");
        made.parts.cards.push(card);
    }
    if count < 52 {
        made.parts.claim = Some(random.between(0, 13 - count / 4) as u64);
    }
    made.parts.count();
}

fn faced(play: &Play) -> u64 {
    play.penalty.faced().iter().fold(0, |set, f| set | 1 << f.card)
}

/// A choice or an exposure that may stand here.
fn code(random: &mut Random, manner: &Manner, play: &Play, picked_up: u64) -> Option<Code> {
    let choices: Vec<Code> = [REQUIRE, FORBID]
        .into_iter()
        .flat_map(|kind| (0..4).map(move |suit| Code::Choice(kind, suit)))
        .filter(|&code| play.clone().code(code))
        .collect();
    if !choices.is_empty() && random.percent(manner.choice) {
        let wanted = if random.percent(manner.require) { REQUIRE } else { FORBID };
        let of_kind: Vec<Code> = choices.iter().copied().filter(|c| matches!(c, Code::Choice(kind, _) if *kind == wanted)).collect();
        return Some(*random.pick(if of_kind.is_empty() { &choices } else { &of_kind }));
    }
    let hands = (0..4).filter(|&seat| manner.exposing[seat]).fold(0, |set, seat| set | play.hands()[seat]);
    let hidden = hands & !faced(play);
    if hidden == 0 {
        return None;
    }
    let from = if hidden & picked_up != 0 && random.percent(manner.again) { hidden & picked_up } else { hidden };
    let card = random.card_of(from);
    Some(Code::Exposed(card, u64::from(random.percent(manner.deliberate))))
}

/// A card of the seat at turn.
fn card(random: &mut Random, manner: &Manner, play: &Play) -> u64 {
    let (turn, faced) = (play.at_turn(), play.faced_at_turn());
    let disobeys = random.percent(manner.disobey[usize::from(turn.seat)]);
    let cards = where_there_is(turn.hand, !disobeys, |card| turn.obeys(card));
    let fails = random.percent(manner.fail);
    random.card_of(where_there_is(cards, fails, |card| turn.against_law_50(&faced, card)))
}

/// The deal, the cards and the codes of a play at notrump in which, on each of tricks 1 to 12, all four seats revoke and both defenders play against Law
/// 50D1. The leader has ten cards of a long suit, two of a second and one of another. Both suits are forbidden, since his partner had a card of each faced,
/// and are led all the same; the last card is faced, and due at every lead. Each other seat keeps a card of both suits, and the partner's are faced again.
pub fn most_revokes_and_failures(random: &mut Random, leader: u8) -> (Vec<u64>, Vec<u64>, Vec<(usize, Code)>) {
    let mut suits = [0u64, 1, 2, 3];
    random.shuffle(&mut suits);
    let mut cards_of = suits.map(|suit| {
        let mut cards: Vec<u64> = (13 * suit..13 * suit + 13).collect();
        random.shuffle(&mut cards);
        cards
    });
    let long: Vec<u64> = cards_of[0].split_off(3);
    let second: Vec<u64> = cards_of[1].split_off(11);
    let last = cards_of[2].pop().expect("a card of the third suit");
    let kept: Vec<[u64; 2]> = (0..3).map(|_| [0, 1].map(|s| cards_of[s].pop().expect("a card to keep"))).collect();
    let mut rest: Vec<u64> = cards_of.concat();
    random.shuffle(&mut rest);
    let mut others: Vec<Vec<u64>> = rest.chunks(11).map(<[u64]>::to_vec).collect();
    for other in &mut others {
        // The last of them is played to a lead of the second suit.
        let off = other.iter().position(|&card| suit(card) != suits[1]).expect("eight of 33 cards are of that suit");
        other.swap(off, 10);
    }

    let mut deal = vec![u64::from(leader); 52];
    for k in 0..3 {
        for &card in kept[k].iter().chain(&others[k]) {
            deal[card as usize] = u64::from((leader + 1 + k as u8) & 3);
        }
    }
    let mut cards = Vec::new();
    for trick in 0..10 {
        cards.push(long[trick]);
        cards.extend(others.iter().map(|other| other[trick]));
    }
    cards.push(second[0]);
    cards.extend(kept.iter().map(|k| k[0]));
    cards.push(second[1]);
    cards.extend(others.iter().map(|other| other[10]));
    cards.push(last);
    cards.extend(kept.iter().map(|k| k[1]));

    let faced = kept[1].map(|card| Code::Exposed(card, 1));
    let forbidden = [suits[0], suits[1]].map(|suit| Code::Choice(FORBID, suit));
    let codes = faced.into_iter().chain(forbidden).chain(faced).chain([Code::Exposed(last, 1)]);
    (deal, cards, codes.map(|code| (0, code)).collect())
}
