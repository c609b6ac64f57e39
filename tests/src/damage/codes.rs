//! Damage to the exposures and choices of a lawful record, of each kind that their refusals name.
use super::Damaged;
use crate::making::Made;
use crate::penalty::{Code, CHOICE, EXPOSED, FORBID, MOST_CODES, REQUIRE};
use crate::play::{suit, Play};
use crate::random::Random;

/// The refusal, and why. Those of 25 and 26 come by a code more, those of 27 by the 41st, those of 2 by a record that ends inside a code.
pub const KINDS: [&str; 19] = [
    "25 for no card",
    "25 for a card of declarer's side",
    "25 for a card that was played",
    "25 for a card that is faced",
    "26 for a kind over 1",
    "26 in the middle of a trick",
    "26 where declarer's side leads",
    "26 without a faced card of the suit",
    "26 by a minor card alone",
    "26 by the leader's own card",
    "26 for a second requirement",
    "26 for a ban after a requirement",
    "26 for a requirement after a ban",
    "26 for a requirement under a running ban",
    "26 with 40 codes",
    "27",
    "27 before its bits",
    "2 in an exposure",
    "2 in a choice",
];

/// Damages a record in that way, or nothing where this record cannot be.
pub fn damaged(random: &mut Random, made: &Made, kind: &str) -> Option<Damaged> {
    match kind {
        "2 in an exposure" => cut(random, made, EXPOSED),
        "2 in a choice" => cut(random, made, CHOICE),
        "27" | "27 before its bits" => forty_first(random, made, kind != "27"),
        "26 with 40 codes" => fortieth(random, made),
        _ => one_more(random, made, kind),
    }
}

/// A wrong code at some point where there is one of that kind.
fn one_more(random: &mut Random, made: &Made, kind: &str) -> Option<Damaged> {
    let mut play = made.position(0)?;
    let mut points = Vec::new();
    let mut taken = 0;
    for place in 0..made.parts.cards.len() {
        let first = taken;
        for code in made.parts.codes_before(place).map(Some).chain([None]) {
            let here: Vec<Code> = made.parts.codes[first..taken].iter().map(|&(_, code)| code).collect();
            if play.penalty.codes() < MOST_CODES {
                points.extend(wrong(random, &play, &here, kind).map(|wrong| (place, taken, wrong)));
            }
            if let Some(code) = code {
                assert!(play.code(code), "a lawful code");
                taken += 1;
            }
        }
        assert!(play.card(made.parts.cards[place]), "a lawful card");
    }
    if points.is_empty() {
        return None;
    }
    let &(place, at, wrong) = random.pick(&points);
    let mut parts = made.parts.clone();
    parts.codes.insert(at, (place, wrong));
    Some(Damaged { bytes: parts.bytes(), number: Some(wrong.refusal() * 1024 + place as u32) })
}

/// A code that may not stand in a position, for the reason of its kind; `here` has the codes since the last card.
fn wrong(random: &mut Random, play: &Play, here: &[Code], kind: &str) -> Option<Code> {
    if kind.starts_with("25") {
        return wrong_card(random, play, kind).map(|card| Code::Exposed(card, random.below(2) as u64));
    }
    let penalty = &play.penalty;
    let named = random.below(4) as u64;
    let any_kind = random.below(2) as u64;
    let major = |seat: u8| penalty.faced().iter().any(|f| f.owner == seat && f.major && suit(f.card) == named);
    let leader = play.to_lead().filter(|&seat| penalty.defends(seat));
    // The choice would be open but for what this kind is about.
    let caused = leader.is_some_and(|seat| major(seat ^ 2));
    let anywhere = (0..4).any(major);
    let (required, banned) = (penalty.required().is_some(), penalty.banned() != [false; 4]);
    let of_this_lead = here.iter().any(|code| matches!(code, Code::Choice(FORBID, _)));
    let minor = |seat: u8| penalty.faced().iter().any(|f| f.owner == seat && !f.major && suit(f.card) == named);
    let (is, choice) = match kind {
        "26 for a kind over 1" => (caused && !required, random.between(2, 3) as u64),
        "26 in the middle of a trick" => (play.to_lead().is_none() && anywhere, any_kind),
        "26 where declarer's side leads" => (play.to_lead().is_some() && leader.is_none() && anywhere, any_kind),
        "26 without a faced card of the suit" => (!required && leader.is_some_and(|seat| !major(seat ^ 2) && !minor(seat ^ 2)), any_kind),
        "26 by a minor card alone" => (!required && leader.is_some_and(|seat| minor(seat ^ 2)), any_kind),
        "26 by the leader's own card" => (!required && !caused && leader.is_some_and(major), any_kind),
        "26 for a second requirement" => (required && caused, REQUIRE),
        "26 for a ban after a requirement" => (required && caused, FORBID),
        "26 for a requirement after a ban" => (caused && banned && of_this_lead, REQUIRE),
        "26 for a requirement under a running ban" => (caused && banned && !of_this_lead, REQUIRE),
        _ => panic!("no such kind: {kind}"),
    };
    is.then_some(Code::Choice(choice, named))
}

fn wrong_card(random: &mut Random, play: &Play, kind: &str) -> Option<u64> {
    let held = |defends: bool| {
        let seats = (0..4).filter(|&seat| play.penalty.defends(seat) == defends);
        seats.fold(0, |set, seat| set | play.hands()[usize::from(seat)])
    };
    let set = match kind {
        "25 for no card" => return Some(random.between(52, 63) as u64),
        "25 for a card of declarer's side" => held(false),
        "25 for a card that was played" => !(held(true) | held(false)) & ((1 << 52) - 1),
        "25 for a card that is faced" => play.penalty.faced().iter().fold(0, |set, f| set | 1 << f.card),
        _ => panic!("no such kind: {kind}"),
    };
    (set != 0).then(|| random.card_of(set))
}

/// Any code at all.
fn any(random: &mut Random) -> Code {
    if random.percent(50) {
        Code::Exposed(random.below(64) as u64, random.below(2) as u64)
    } else {
        Code::Choice(random.below(4) as u64, random.below(4) as u64)
    }
}

/// The bit at which each code begins, and the one behind it.
fn bits(made: &Made) -> Vec<(usize, usize)> {
    let (fields, codes) = made.parts.fields();
    let bit = |field: usize| fields[..field].iter().map(|&(_, width)| width).sum();
    codes.into_iter().map(|field| (bit(field), bit(field + 3))).collect()
}

/// A 41st code, behind the fortieth or later; and where its first six bits alone are left, still 27.
fn forty_first(random: &mut Random, made: &Made, cut: bool) -> Option<Damaged> {
    let &[.., (last, _)] = made.parts.codes.as_slice() else { return None };
    if made.parts.codes.len() != MOST_CODES {
        return None;
    }
    let place = random.between(last, made.parts.cards.len() - 1);
    let mut m = made.clone();
    m.parts.codes.push((place, any(random)));
    let mut bytes = m.parts.bytes();
    if cut {
        let (start, end) = bits(&m)[MOST_CODES];
        let kept = (start + 6).div_ceil(8);
        if 8 * kept >= end {
            return None;
        }
        bytes.truncate(kept);
    }
    Some(Damaged { bytes, number: Some(27 * 1024 + place as u32) })
}

/// The fortieth code replaced by one that may not stand: it is looked at, unlike the 41st.
fn fortieth(random: &mut Random, made: &Made) -> Option<Damaged> {
    if made.parts.codes.len() != MOST_CODES {
        return None;
    }
    let mut m = made.clone();
    let (place, code) = &mut m.parts.codes[MOST_CODES - 1];
    *code = Code::Choice(random.between(2, 3) as u64, random.below(4) as u64);
    let number = Some(26 * 1024 + *place as u32);
    Some(Damaged { bytes: m.parts.bytes(), number })
}

/// The record ended inside a code that begins with this number.
fn cut(random: &mut Random, made: &Made, first: u64) -> Option<Damaged> {
    let such = made.parts.codes.iter().zip(bits(made)).filter(|((_, code), _)| code.numbers()[0] == first);
    let ends: Vec<usize> = such.flat_map(|(_, (start, end))| start / 8 + 1..=(end - 1) / 8).collect();
    if ends.is_empty() {
        return None;
    }
    let mut bytes = made.parts.bytes();
    bytes.truncate(*random.pick(&ends));
    Some(Damaged { bytes, number: Some(2 * 1024) })
}

/// The record with a few bits turned, from its first code on.
pub fn flipped(random: &mut Random, made: &Made) -> Vec<u8> {
    let mut bytes = made.parts.bytes();
    let first = bits(made).first().map_or(0, |&(start, _)| start);
    for _ in 0..*random.pick(&[1, 1, 1, 2, 5]) {
        let bit = random.between(first, 8 * bytes.len() - 1);
        bytes[bit / 8] ^= 128 >> (bit % 8);
    }
    bytes
}
