//! The judge: a record read in the order of docs/RULES.md, judged as it is read.
use crate::auction::{Auction, Contract, NO_CALL};
use crate::deal::{self, Hands};
use crate::law64;
use crate::penalty::{Code, Rules, CHOICE, EXPOSED, MOST_CODES, RIGHT};
use crate::play::{Play, MOST_REVOKES, NO_CARD};
use crate::reader::Reader;
use crate::score;

pub const ANSWER_BYTES: usize = 7;
/// Two bytes for each play against Law 50C or 50D1, and zeros behind them.
pub const FAILURE_BYTES: usize = 52;
/// Two bytes for each complete trick: its winner, and the card that won.
pub const WINNER_BYTES: usize = 26;

/// The lent buffers: the answer, the list of revokes, the plays against Laws 50C and 50D1, the winners.
pub struct Lent<'a> {
    pub answer: &'a mut [u8],
    pub list: &'a mut [u8],
    pub failures: &'a mut [u8],
    pub winners: &'a mut [u8],
}

/// Buffers of the least lengths.
#[derive(Clone, Debug, PartialEq)]
pub struct Least {
    pub answer: [u8; ANSWER_BYTES],
    pub list: [u8; MOST_REVOKES],
    pub failures: [u8; FAILURE_BYTES],
    pub winners: [u8; WINNER_BYTES],
}

impl Least {
    /// With this byte in every place.
    pub fn of(byte: u8) -> Least {
        Least { answer: [byte; ANSWER_BYTES], list: [byte; MOST_REVOKES], failures: [byte; FAILURE_BYTES], winners: [byte; WINNER_BYTES] }
    }

    pub fn lend(&mut self) -> Lent<'_> {
        Lent { answer: &mut self.answer, list: &mut self.list, failures: &mut self.failures, winners: &mut self.winners }
    }

    /// NS's score in the answer.
    pub fn score(&self) -> i16 {
        i16::from_be_bytes([self.answer[5], self.answer[6]])
    }
}

/// What is returned for a refusal: its number times 1024, and its place.
pub type Refused = u32;

fn refused(number: u32, place: u64) -> Refused {
    number * 1024 + place as u32
}

/// The bytes that the judge writes.
pub struct Judgement {
    pub answer: [u8; ANSWER_BYTES],
    revokes: usize,
    list: [u8; MOST_REVOKES],
    pub failures: [u8; FAILURE_BYTES],
    complete: usize,
    winners: [u8; WINNER_BYTES],
}

impl Judgement {
    pub fn revokes(&self) -> &[u8] {
        &self.list[..self.revokes]
    }

    /// Winner and winning card of each complete trick.
    pub fn winners(&self) -> &[u8] {
        &self.winners[..2 * self.complete]
    }

    /// Whether tricks change sides by Law 64.
    pub fn transferred(&self) -> bool {
        let (tricks, after) = (self.answer[3] >> 2 & 15, (self.answer[3] & 3) << 2 | self.answer[4] >> 6);
        tricks != after
    }
}

/// Judges a record: 0 and the bytes written, or a refusal and nothing written.
pub fn judge(record: &[u8], lent: &mut Lent) -> u32 {
    judge_by(&RIGHT, record, lent)
}

/// The same with these rules for penalty cards.
pub fn judge_by(rules: &'static Rules, record: &[u8], lent: &mut Lent) -> u32 {
    if lent.answer.len() < ANSWER_BYTES {
        return refused(1, 0);
    }
    if lent.list.len() < MOST_REVOKES {
        return refused(1, 1);
    }
    if lent.failures.len() < FAILURE_BYTES {
        return refused(1, 2);
    }
    if lent.winners.len() < WINNER_BYTES {
        return refused(1, 3);
    }
    match read_by(rules, record) {
        Ok(judgement) => {
            lent.answer[..ANSWER_BYTES].copy_from_slice(&judgement.answer);
            lent.list[..judgement.revokes].copy_from_slice(judgement.revokes());
            lent.failures[..FAILURE_BYTES].copy_from_slice(&judgement.failures);
            lent.winners[..2 * judgement.complete].copy_from_slice(judgement.winners());
            0
        }
        Err(number) => number,
    }
}

#[inline]
fn field(bits: &mut Reader, width: u32) -> Result<u64, Refused> {
    bits.take(width).ok_or(refused(2, 0))
}

/// A record's judgement, with buffers of the sizes that it needs.
pub fn read(record: &[u8]) -> Result<Judgement, Refused> {
    read_by(&RIGHT, record)
}

fn read_by(rules: &'static Rules, record: &[u8]) -> Result<Judgement, Refused> {
    let mut bits = Reader::new(record);
    let (place, hands, contract) = to_the_calls(&mut bits)?;
    let Some(contract) = contract else {
        passed_out(&mut bits)?;
        return Ok(Judgement {
            answer: answer_bytes(place, 0),
            revokes: 0,
            list: [0; MOST_REVOKES],
            failures: [0; FAILURE_BYTES],
            complete: 0,
            winners: [0; WINNER_BYTES],
        });
    };
    let mut play = Play::by(rules, hands, contract.strain, contract.declarer);
    let count = cards(&mut bits, &hands, &mut play)?;
    let claimed = claim(&mut bits, count)?;
    padding(&bits)?;
    Ok(judgement(place, &contract, &play, claimed))
}

/// The contract, nothing where the board is passed out, and the play up to its last card. What follows that card is not read.
pub fn to_last_card(record: &[u8]) -> Result<Option<(Contract, Play, u64)>, Refused> {
    let mut bits = Reader::new(record);
    let (_, hands, contract) = to_the_calls(&mut bits)?;
    let Some(contract) = contract else {
        no_cards(&mut bits)?;
        return Ok(None);
    };
    let mut play = Play::new(hands, contract.strain, contract.declarer);
    let count = cards(&mut bits, &hands, &mut play)?;
    Ok(Some((contract, play, count)))
}

/// Board and table in one number, the hands, and the contract, nothing where the board is passed out.
#[inline]
fn to_the_calls(bits: &mut Reader) -> Result<(u64, Hands, Option<Contract>), Refused> {
    let place = field(bits, 16)?;
    let (board, table) = ((place >> 9) as u8, place & 511);
    if board == 0 {
        return Err(refused(3, 0));
    }
    if table == 0 {
        return Err(refused(3, 1));
    }
    let hands = deal::hands(field(bits, 52)?, field(bits, 52)?);
    if let Some(seat) = deal::without_thirteen(&hands) {
        return Err(refused(4, u64::from(seat)));
    }
    let contract = calls(bits, score::dealer(board))?;
    Ok((place, hands, contract))
}

/// The calls, and the contract they reach, nothing where the board is passed out.
fn calls(bits: &mut Reader, dealer: u8) -> Result<Option<Contract>, Refused> {
    let count = field(bits, 9)?;
    let mut auction = Auction::new(dealer);
    for k in 0..count {
        let code = field(bits, 6)?;
        if code >= NO_CALL {
            return Err(refused(5, k));
        }
        auction.call(code).map_err(|fault| refused(fault as u32, fault.place(k)))?;
    }
    if !auction.over() {
        return Err(refused(9, count));
    }
    Ok(auction.contract())
}

/// The play count of a passed-out board.
fn no_cards(bits: &mut Reader) -> Result<(), Refused> {
    match field(bits, 6)? {
        0 => Ok(()),
        count => Err(refused(10, count)),
    }
}

/// What follows the calls of a passed-out board.
fn passed_out(bits: &mut Reader) -> Result<(), Refused> {
    no_cards(bits)?;
    if field(bits, 1)? == 1 {
        return Err(refused(14, 0));
    }
    padding(bits)
}

/// The cards with their codes, and their number.
#[inline]
fn cards(bits: &mut Reader, dealt: &Hands, play: &mut Play) -> Result<u64, Refused> {
    let count = field(bits, 6)?;
    if count > 52 {
        return Err(refused(10, count));
    }
    let mut trick = play.trick;
    let mut coded = false;
    for k in 0..count {
        let mut card = field(bits, 6)?;
        coded |= card >= NO_CARD;
        let held = if coded {
            play.trick = trick;
            card = codes(bits, play, card, k)?;
            let held = play.card(card);
            trick = play.trick;
            held
        } else {
            trick.card(&mut play.cards, card)
        };
        if !held {
            let own = dealt[usize::from(trick.turn())] >> card & 1 == 1;
            return Err(refused(if own { 23 } else { 12 }, k));
        }
    }
    play.trick = trick;
    Ok(count)
}

/// The claim after so many cards: the tricks claimed for declarer's side, 0 where there is no claim.
fn claim(bits: &mut Reader, count: u64) -> Result<u8, Refused> {
    if field(bits, 1)? == 0 {
        return if count < 52 { Err(refused(13, count)) } else { Ok(0) };
    }
    if count == 0 || count == 52 {
        return Err(refused(14, count));
    }
    let claim = field(bits, 4)?;
    if claim > 13 - count / 4 {
        return Err(refused(15, claim));
    }
    Ok(claim as u8)
}

/// Takes the codes that stand before card k, if any, the first number of which has been read, and gives the card.
#[cold]
fn codes(bits: &mut Reader, play: &mut Play, first: u64, k: u64) -> Result<u64, Refused> {
    let mut number = first;
    while number >= NO_CARD {
        if number != EXPOSED && number != CHOICE {
            return Err(refused(11, k));
        }
        let one_too_many = play.penalty.codes() == MOST_CODES;
        if one_too_many && play.penalty.rules.counts_first {
            return Err(refused(27, k));
        }
        let code = if number == EXPOSED {
            Code::Exposed(field(bits, 6)?, field(bits, 1)?)
        } else {
            Code::Choice(field(bits, 2)?, field(bits, 2)?)
        };
        if one_too_many {
            return Err(refused(27, k));
        }
        if !play.code(code) {
            return Err(refused(code.refusal(), k));
        }
        number = field(bits, 6)?;
    }
    Ok(number)
}

fn padding(bits: &Reader) -> Result<(), Refused> {
    if bits.only_padding_left() {
        Ok(())
    } else {
        Err(refused(16, 0))
    }
}

fn judgement(place: u64, contract: &Contract, play: &Play, claim: u8) -> Judgement {
    let side = contract.declarer & 1;
    let winners = play.winners();
    let left = 13 - winners.len() as u8;
    let tricks = claim + winners.iter().map(|w| u8::from(w & 1 == side)).sum::<u8>();
    let claimed = if side == 0 { [claim, left - claim] } else { [left - claim, claim] };
    let after = match law64::transferred(play.revokes(), play.excused, winners, contract.declarer, claimed) {
        None => tricks,
        Some((loser, n)) if loser == side => tricks - n,
        Some((_, n)) => tricks + n,
    };
    let vulnerable = score::vulnerable((place >> 9) as u8, contract.declarer);
    let points = score::contract_score(contract, vulnerable, after);
    let north_south = if side == 0 { points } else { -points } as i16;
    let revokes = play.revokes();
    let from_level = [
        (u64::from(contract.level), 3),
        (u64::from(contract.strain), 3),
        (u64::from(contract.doubling), 2),
        (u64::from(contract.declarer), 2),
        (u64::from(tricks), 4),
        (u64::from(after), 4),
        (revokes.len() as u64, 6),
        (u64::from(north_south as u16), 16),
    ]
    .iter()
    .fold(0, |word, &(value, width)| word << width | value);
    let mut list = [0; MOST_REVOKES];
    list[..revokes.len()].copy_from_slice(revokes);
    Judgement {
        answer: answer_bytes(place, from_level),
        revokes: revokes.len(),
        list,
        failures: failure_bytes(play),
        complete: winners.len(),
        winners: winner_bytes(play),
    }
}

/// Winner and winning card for each complete trick.
fn winner_bytes(play: &Play) -> [u8; WINNER_BYTES] {
    let mut bytes = [0; WINNER_BYTES];
    let tricks = play.winners().iter().zip(play.winning_cards());
    for (two, (&seat, &card)) in bytes.chunks_exact_mut(2).zip(tricks) {
        two.copy_from_slice(&[seat, card]);
    }
    bytes
}

/// Trick 4 bits, seat 2, card 6 and four zeros for each play against Law 50C or 50D1, and zeros behind them.
fn failure_bytes(play: &Play) -> [u8; FAILURE_BYTES] {
    let mut bytes = [0; FAILURE_BYTES];
    for (two, &(trick, seat, card)) in bytes.chunks_exact_mut(2).zip(&play.failures) {
        let entry = u16::from(trick) << 12 | u16::from(seat) << 10 | (card as u16) << 4;
        two.copy_from_slice(&entry.to_be_bytes());
    }
    bytes
}

/// The seven bytes: board and table, and the forty bits from the level on.
fn answer_bytes(place: u64, from_level: u64) -> [u8; ANSWER_BYTES] {
    let word = place << 40 | from_level;
    let bytes = word.to_be_bytes();
    bytes[1..].try_into().expect("seven of eight bytes")
}
