//! Auctions that the Laws allow.
use crate::auction::{Auction, DOUBLE, FIRST_BID, LAST_BID, MARK, PASS, REDOUBLE};
use crate::random::Random;

fn make(auction: &mut Auction, calls: &mut Vec<u64>, code: u64) {
    auction.call(code).expect("a lawful call");
    calls.push(code);
}

fn allowed(auction: &Auction, code: u64) -> bool {
    auction.clone().call(code).is_ok()
}

fn pass_ends(auction: &Auction) -> bool {
    let mut next = auction.clone();
    next.call(PASS).is_ok() && next.over()
}

/// Passes up to declarer's turn, one bid, its doubling, and the passes that end it.
pub fn short(dealer: u8, declarer: u8, bid: u64, doubling: u8) -> Vec<u64> {
    let mut calls = vec![PASS; usize::from((declarer + 4 - dealer) & 3)];
    calls.push(bid);
    calls.extend(&[DOUBLE, REDOUBLE][..usize::from(doubling)]);
    calls.extend([PASS; 3]);
    calls
}

/// An auction that ends in a given bid with a given doubling, by a way of bidding chosen at random.
pub fn towards(random: &mut Random, dealer: u8, target: u64, doubling: u8) -> Vec<u64> {
    let wait = *random.pick(&[0, 30, 60, 90, 100]);
    let doubles = *random.pick(&[0, 10, 50, 100]);
    let jump = *random.pick(&[0, 5, 20, 60, 100]);
    let mut auction = Auction::new(dealer);
    let mut calls = Vec::new();
    while !auction.over() {
        let waits = !pass_ends(&auction) && random.percent(wait);
        let at_target = u64::from(auction.last_bid()) == target;
        let code = if waits || (at_target && auction.doubling() == doubling) {
            PASS
        } else if at_target {
            one_doubling(&auction, true)
        } else {
            match one_doubling(&auction, random.percent(doubles)) {
                PASS => next_bid(random, &auction, target, jump),
                code => code,
            }
        };
        make(&mut auction, &mut calls, code);
    }
    calls
}

/// A double or redouble where it is wanted and allowed, else a pass.
fn one_doubling(auction: &Auction, wanted: bool) -> u64 {
    [DOUBLE, REDOUBLE].into_iter().find(|&code| wanted && allowed(auction, code)).unwrap_or(PASS)
}

fn next_bid(random: &mut Random, auction: &Auction, target: u64, jump: usize) -> u64 {
    let lowest = u64::from(auction.last_bid()).max(2) + 1;
    if random.percent(jump) {
        random.between(lowest as usize, target as usize) as u64
    } else {
        lowest
    }
}

/// A bid with all that can be called over it until the next bid.
const ROUND: [u64; 9] = [BID, PASS, PASS, DOUBLE, PASS, PASS, REDOUBLE, PASS, PASS];
const BID: u64 = 63;

/// An auction of exactly so many calls, from 4 to 319: opening passes, rounds of up to nine calls, and a last bid of 4, 7 or 10 calls.
pub fn of_length(random: &mut Random, count: usize) -> Vec<u64> {
    let (opening, last) = loop {
        let (opening, last) = (random.below(4), *random.pick(&[4, 7, 10]));
        if opening + last <= count && count <= opening + last + 34 * ROUND.len() {
            break (opening, last);
        }
    };
    let between = count - opening - last;
    let mut calls = vec![PASS; opening];
    for k in (0..between).step_by(ROUND.len()) {
        calls.extend(&ROUND[..ROUND.len().min(between - k)]);
    }
    calls.extend(&ROUND[..last - 3]);
    calls.extend([PASS; 3]);
    name_bids(random, &mut calls);
    calls
}

/// Puts bids, each above the one before, in the places left for them.
fn name_bids(random: &mut Random, calls: &mut [u64]) {
    let places: Vec<usize> = (0..calls.len()).filter(|&k| calls[k] == BID).collect();
    let mut bids: Vec<u64> = (3..38).collect();
    random.shuffle(&mut bids);
    bids.truncate(places.len());
    bids.sort_unstable();
    for (place, bid) in places.into_iter().zip(bids) {
        calls[place] = bid;
    }
}

/// An auction of exactly so many codes, from 4 to 511, with insufficient bids that were accepted at any point after the first bid.
pub fn marked(random: &mut Random, dealer: u8, count: usize) -> Vec<u64> {
    let often = *random.pick(&[5, 30, 60, 100]);
    let mut auction = Auction::new(dealer);
    let mut calls = Vec::new();
    while calls.len() + 3 < count {
        let left = count - 3 - calls.len();
        for code in step(random, &auction, left, often) {
            make(&mut auction, &mut calls, code);
        }
    }
    for _ in 0..3 {
        make(&mut auction, &mut calls, PASS);
    }
    calls
}

/// The next call, or a mark and a bid, with so many codes left until the three passes that end the auction: the last of them is a bid.
fn step(random: &mut Random, auction: &Auction, left: usize, often: usize) -> Vec<u64> {
    let last = u64::from(auction.last_bid());
    if last == 0 && left <= 3 {
        return vec![random.between(FIRST_BID as usize, LAST_BID as usize - 1) as u64];
    }
    if left == 1 {
        return vec![random.between(last as usize + 1, LAST_BID as usize) as u64];
    }
    let above = last.max(2) + 1;
    let may_bid = above <= LAST_BID;
    if last > 0 && (left <= 3 || random.percent(often) || (!may_bid && pass_ends(auction))) {
        let most = if left == 3 { last.min(LAST_BID - 1) } else { last };
        let low = random.between(FIRST_BID as usize, most as usize) as u64;
        return vec![MARK, *random.pick(&[low, most])];
    }
    let doubling = one_doubling(auction, random.percent(40));
    if doubling != PASS {
        return vec![doubling];
    }
    if may_bid && (pass_ends(auction) || random.percent(30)) {
        let most = (above + 3).min(LAST_BID);
        return vec![random.between(above as usize, most as usize) as u64];
    }
    vec![PASS]
}
