//! Damage to a lawful record, of each kind that a refusal names. Where the damage alone decides the answer, it is given too.
use crate::auction::{Auction, Fault, DOUBLE, MARK, NO_CALL, REDOUBLE};
use crate::making::Made;
use crate::penalty::NO_CODE;
use crate::random::Random;

pub mod codes;

/// A record's bytes, and the number that the judge has to return for them where it is known from how they were made.
pub struct Damaged {
    pub bytes: Vec<u8>,
    pub number: Option<u32>,
}

/// The refusals that damage to the record can give.
pub const KINDS: [u32; 17] = [2, 3, 4, 5, 6, 7, 8, 9, 10, 11, 12, 13, 14, 15, 16, 23, 24];

/// Damages a record so that it is refused with the number `kind`, or nothing where this record cannot be.
pub fn damaged(random: &mut Random, made: &Made, kind: u32) -> Option<Damaged> {
    let mut m = made.clone();
    let place = match kind {
        2 => return Some(shortened(random, &m)),
        3 => place(random, &mut m),
        4 => deal(random, &mut m),
        5 => call_code(random, &mut m),
        6 => low_bid(random, &mut m)?,
        7 => double(random, &mut m)?,
        8 => after_the_end(random, &mut m)?,
        9 => unfinished(random, &mut m),
        10 => play_count(random, &mut m),
        11 => card_code(random, &mut m)?,
        12 => anothers_card(random, &mut m)?,
        13 => no_claim(random, &mut m)?,
        14 => claim_elsewhere(random, &mut m),
        15 => claim_too_high(random, &mut m)?,
        23 => own_card_again(random, &mut m)?,
        24 => wrong_mark(random, &mut m)?,
        _ => past_the_end(random, &mut m),
    };
    Some(Damaged { bytes: m.parts.bytes(), number: Some(kind * 1024 + place as u32) })
}

fn shortened(random: &mut Random, m: &Made) -> Damaged {
    let mut bytes = m.parts.bytes();
    bytes.truncate(random.below(bytes.len()));
    Damaged { bytes, number: Some(2 * 1024) }
}

fn place(random: &mut Random, m: &mut Made) -> u64 {
    let which = random.below(3);
    if which != 1 {
        m.parts.board = 0;
    }
    if which != 0 {
        m.parts.table = 0;
    }
    u64::from(which == 1)
}

/// One card goes to another seat: both have a wrong number, and the first of them is named.
fn deal(random: &mut Random, m: &mut Made) -> u64 {
    let card = random.below(52);
    let old = m.parts.deal[card];
    let new = (old + random.between(1, 3) as u64) & 3;
    m.parts.deal[card] = new;
    old.min(new)
}

fn call_code(random: &mut Random, m: &mut Made) -> u64 {
    let k = random.below(m.parts.calls.len());
    m.parts.calls[k] = random.between(NO_CALL as usize, 63) as u64;
    k as u64
}

/// The auction before call k.
fn auction_before(m: &Made, k: usize) -> Auction {
    let mut auction = Auction::new(m.dealer());
    for &call in &m.parts.calls[..k] {
        auction.call(call).expect("a lawful call");
    }
    auction
}

fn low_bid(random: &mut Random, m: &mut Made) -> Option<u64> {
    let first = m.parts.calls.iter().position(|&call| call >= 3)?;
    let k = random.between(first + 1, m.parts.calls.len() - 1);
    if m.parts.calls[k - 1] == MARK {
        return None;
    }
    let last = auction_before(m, k).last_bid();
    m.parts.calls[k] = random.between(3, usize::from(last)) as u64;
    Some(k as u64)
}

fn double(random: &mut Random, m: &mut Made) -> Option<u64> {
    let k = random.below(m.parts.calls.len());
    let code = *random.pick(&[DOUBLE, REDOUBLE]);
    if auction_before(m, k).call(code) != Err(Fault::DoubleNotAllowed) {
        return None;
    }
    m.parts.calls[k] = code;
    Some(k as u64)
}

/// A mark before a call that may stand without one, or another code after a mark.
fn wrong_mark(random: &mut Random, m: &mut Made) -> Option<u64> {
    let marks: Vec<usize> = (0..m.parts.calls.len()).filter(|&k| m.parts.calls[k] == MARK).collect();
    if marks.is_empty() || random.percent(30) {
        let k = random.below(m.parts.calls.len());
        if m.parts.calls.len() == 511 || (k > 0 && m.parts.calls[k - 1] == MARK) {
            return None;
        }
        m.parts.calls.insert(k, MARK);
        m.parts.count();
        return Some(k as u64);
    }
    let k = *random.pick(&marks);
    let last = u64::from(auction_before(m, k).last_bid());
    let above = random.between(last as usize + 1, MARK as usize) as u64;
    m.parts.calls[k + 1] = *random.pick(&[0, DOUBLE, REDOUBLE, MARK, last + 1, above]);
    Some(k as u64)
}

fn after_the_end(random: &mut Random, m: &mut Made) -> Option<u64> {
    let end = m.parts.calls.len() as u64;
    let more = *random.pick(&[1, 1, 2, 3, 190]);
    let more = more.min(511 - m.parts.calls.len());
    if more == 0 {
        return None;
    }
    m.parts.calls.extend((0..more).map(|_| random.below(NO_CALL as usize) as u64));
    m.parts.count();
    Some(end)
}

fn unfinished(random: &mut Random, m: &mut Made) -> u64 {
    m.parts.calls.truncate(random.below(m.parts.calls.len()));
    m.parts.count();
    m.parts.call_count
}

fn play_count(random: &mut Random, m: &mut Made) -> u64 {
    let least = if m.contract.is_some() { 53 } else { 1 };
    m.parts.play_count = random.between(least, 63) as u64;
    if random.percent(50) {
        let cards = random.below(60);
        m.parts.cards = (0..cards).map(|_| random.below(64) as u64).collect();
    }
    m.parts.play_count
}

/// The number of a card that was played, nothing where none was.
fn some_card(random: &mut Random, m: &Made) -> Option<usize> {
    (!m.parts.cards.is_empty()).then(|| random.below(m.parts.cards.len()))
}

fn card_code(random: &mut Random, m: &mut Made) -> Option<u64> {
    let k = some_card(random, m)?;
    m.parts.cards[k] = random.between(NO_CODE as usize, 63) as u64;
    Some(k as u64)
}

/// The seat at turn before card k.
fn turn_before(m: &Made, k: usize) -> Option<usize> {
    m.position(k).map(|play| usize::from(play.turn()))
}

/// A card that was dealt to another seat; half of the time, where there is one, a card that this seat has played.
fn anothers_card(random: &mut Random, m: &mut Made) -> Option<u64> {
    let k = some_card(random, m)?;
    let own = m.hands[turn_before(m, k)?];
    let anothers = |card: &u64| own >> card & 1 == 0;
    let played: Vec<u64> = m.parts.cards[..k].iter().copied().filter(anothers).collect();
    let any: Vec<u64> = (0..52).filter(anothers).collect();
    let from = if !played.is_empty() && random.percent(50) { &played } else { &any };
    m.parts.cards[k] = *random.pick(from);
    Some(k as u64)
}

/// A card that the seat at turn was dealt and has played.
fn own_card_again(random: &mut Random, m: &mut Made) -> Option<u64> {
    let k = some_card(random, m)?;
    let own = m.hands[turn_before(m, k)?];
    let played: Vec<u64> = m.parts.cards[..k].iter().copied().filter(|card| own >> card & 1 == 1).collect();
    if played.is_empty() {
        return None;
    }
    m.parts.cards[k] = *random.pick(&played);
    Some(k as u64)
}

fn no_claim(random: &mut Random, m: &mut Made) -> Option<u64> {
    m.contract?;
    let most = m.parts.cards.len().min(51);
    m.parts.keep_cards(random.between(0, most));
    m.parts.claim = None;
    Some(m.parts.play_count)
}

fn claim_elsewhere(random: &mut Random, m: &mut Made) -> u64 {
    if m.contract.is_some() {
        let end = if m.parts.cards.len() == 52 && random.percent(50) { 52 } else { 0 };
        m.parts.keep_cards(end);
    }
    m.parts.claim = Some(random.below(16) as u64);
    m.parts.play_count
}

fn claim_too_high(random: &mut Random, m: &mut Made) -> Option<u64> {
    let claim = m.parts.claim.as_mut()?;
    *claim = random.between(14 - m.parts.cards.len() / 4, 15) as u64;
    Some(*claim)
}

fn past_the_end(random: &mut Random, m: &mut Made) -> u64 {
    let spare = m.parts.padding_bits();
    if spare > 0 && random.percent(50) {
        m.parts.padding = random.between(1, (1 << spare) - 1) as u8;
    } else {
        let more = *random.pick(&[1, 2, 9, 300]);
        m.parts.after = if random.percent(50) { vec![0; more] } else { random.bytes(more) };
    }
    0
}

/// Two kinds of damage in one record, fields of it from another, or counts that are not those of what follows.
pub fn mixed(random: &mut Random, made: &Made, other: &Made) -> Vec<u8> {
    let mut m = made.clone();
    for _ in 0..random.between(1, 3) {
        match random.below(9) {
            0 => m.parts.call_count = random.below(512) as u64,
            1 => m.parts.play_count = random.below(64) as u64,
            2 => m.parts.deal = other.parts.deal.clone(),
            3 => m.parts.calls = other.parts.calls.clone(),
            4 => m.parts.cards = other.parts.cards.clone(),
            5 => m.parts.claim = other.parts.claim,
            6 => m.parts.board = random.below(128) as u64,
            7 => m.parts.codes = other.parts.codes.clone(),
            _ => m.parts.count(),
        }
    }
    m.parts.bytes()
}

/// A record with a few bits turned.
pub fn flipped(random: &mut Random, bytes: &[u8]) -> Vec<u8> {
    let mut bytes = bytes.to_vec();
    for _ in 0..*random.pick(&[1, 1, 1, 2, 5]) {
        let bit = random.below(8 * bytes.len());
        bytes[bit / 8] ^= 128 >> (bit % 8);
    }
    bytes
}

/// Random bytes, or a record whose bytes from some point on are random.
pub fn noise(random: &mut Random, bytes: &[u8]) -> Vec<u8> {
    let kept = if random.percent(70) { random.below(bytes.len()) } else { 0 };
    let more = random.below(400);
    let mut noise = bytes[..kept].to_vec();
    noise.extend(random.bytes(more));
    noise
}
