//! Rounds of texts in Portable Bridge Notation on which a reader is compared with the independent one; what it writes is judged and printed again.
use crate::compare::Judge;
use crate::contents::Contents;
use crate::judge::Least;
use crate::making::{self, Made};
use crate::pbn::{self, order, Game, PbnReader, OUTSIDE};
use crate::pbn_texts::{self, Text};
use crate::random::Random;
use std::collections::BTreeMap;

/// Lawful records in a round.
const LAWFUL: usize = 5;
/// One round in so many has a text cut at every byte, and one with every byte changed, left out and doubled.
const EVERY_BYTE: u64 = 60;
/// The place of 32 is found a second time, by its definition, in one text of so many.
const BY_DEFINITION: u64 = 40;
/// How often each refusal and each kind of text has to occur.
const LEAST: u64 = 100;
/// The most bytes of a record that a text can give.
const MOST_BYTES: usize = 296;
/// Bytes on each side of a slice that no reader may change.
const AROUND: usize = 24;
/// The refusals, 32 by what it is for.
const REFUSALS: [&str; 13] = ["03", "04", "06", "07", "08", "09", "12", "22", "23", "32 grammar", "32 dealer", "32 Play", "33"];

pub struct PbnTrial {
    random: Random,
    reader: PbnReader,
    judge: Judge,
    sentinels: Vec<u8>,
    rounds: u64,
    pub cases: u64,
    written: u64,
    by_definition: u64,
    refusals: BTreeMap<&'static str, u64>,
    kinds: BTreeMap<&'static str, u64>,
}

impl PbnTrial {
    /// The reader, and the judge that has to accept what it writes.
    pub fn new(reader: PbnReader, judge: Judge, seed: u64) -> Self {
        let mut random = Random::new(seed);
        let sentinels = random.bytes(4096);
        let (refusals, kinds) = (REFUSALS.map(|refusal| (refusal, 0)).into(), pbn_texts::kinds().map(|kind| (kind, 0)).collect());
        PbnTrial { random, reader, judge, sentinels, rounds: 0, cases: 0, written: 0, by_definition: 0, refusals, kinds }
    }

    /// One more round, with each text given to `seen` too; the first difference, in words, where there is one.
    pub fn round(&mut self, mut seen: impl FnMut(&Text)) -> Result<(), String> {
        let mut made: Vec<Made> = (0..LAWFUL).map(|_| making::played_out(&mut self.random)).collect();
        made.push(making::passed_out(&mut self.random));
        for m in &made {
            self.lawful(m, &mut seen)?;
        }
        for text in pbn_texts::wrong(&mut self.random, &made) {
            seen(&text);
            self.wrong(&text)?;
        }
        if self.rounds % EVERY_BYTE == 0 {
            self.every_byte(&made[0])?;
        }
        self.any_cards()?;
        self.rounds += 1;
        Ok(())
    }

    /// A lawful record's text from each seat on gives its bytes, where there is room, exactly or more; a byte less is 22.
    fn lawful(&mut self, made: &Made, seen: &mut impl FnMut(&Text)) -> Result<(), String> {
        let bytes = made.parts.bytes();
        for first in 0..4 {
            let text = pbn_texts::whole(made, first);
            seen(&text);
            let room = bytes.len() + *self.random.pick(&[0, 1, 300]);
            if self.case(&text, room, Some(bytes.len() as u32))? != bytes {
                return Err(format!("another record than the one that was printed\n{}", shown(&text, room)));
            }
        }
        let text = pbn_texts::whole(made, self.random.below(4) as u8);
        let short = *self.random.pick(&[0, bytes.len() / 2, bytes.len() - 1]);
        self.case(&text, short, Some(22 * 1024)).map(drop)
    }

    fn wrong(&mut self, text: &Text) -> Result<(), String> {
        for kind in &text.kinds {
            *self.kinds.get_mut(kind).ok_or(format!("no such kind: {kind}"))? += 1;
        }
        let room = match self.random.below(4) {
            0 => self.random.below(60),
            1 => self.random.below(MOST_BYTES),
            _ => MOST_BYTES,
        };
        self.case(text, room, text.number).map(drop)
    }

    fn every_byte(&mut self, made: &Made) -> Result<(), String> {
        let whole = pbn_texts::whole(made, self.random.below(4) as u8);
        let with = |bytes: Vec<u8>| Text { bytes, ..whole.clone() };
        for end in 0..whole.bytes.len() {
            self.wrong(&with(whole.bytes[..end].to_vec()))?;
        }
        for bytes in pbn_texts::each_byte(&mut self.random, &whole.bytes) {
            self.wrong(&with(bytes))?;
        }
        Ok(())
    }

    /// Columns and order of play are inverse to each other on any 52 cards.
    fn any_cards(&mut self) -> Result<(), String> {
        let cards: Vec<u8> = (0..52).map(|_| self.random.below(52) as u8).collect();
        let strain = self.random.below(5) as u8;
        let there_and_back = order::listed(&order::played(&cards, strain), strain) == cards;
        let back_and_there = order::played(&order::listed(&cards, strain), strain) == cards;
        (there_and_back && back_and_there).then_some(()).ok_or(format!("columns and order of play differ: {cards:?} in strain {strain}"))
    }

    /// A slice between other bytes.
    fn between(&mut self, bytes: &[u8]) -> Vec<u8> {
        let at = self.random.below(self.sentinels.len() - 2 * AROUND);
        let around = &self.sentinels[at..at + 2 * AROUND];
        [&around[..AROUND], bytes, &around[AROUND..]].concat()
    }

    /// Reads a text by both readers into a buffer of so many bytes, and gives what is written. `number` is what has to be returned, where it is known from
    /// how the text was made.
    fn case(&mut self, text: &Text, room: usize, number: Option<u32>) -> Result<Vec<u8>, String> {
        self.cases += 1;
        let before = self.random.bytes(room);
        let mut lent = self.between(&before);
        let mut due = lent.clone();
        let own = pbn::read(&text.bytes, text.table, &mut due[AROUND..AROUND + room]);
        if let Some(number) = number.filter(|&number| number != own) {
            return Err(format!(
                "the independent reader returns {}, the text was made for {}\n{}",
                say(own),
                say(number),
                shown(text, room)
            ));
        }
        let given = text.bytes.clone();
        let returned = (self.reader)(&given, text.table, &mut lent[AROUND..AROUND + room]);
        if returned != own {
            return Err(format!("returned {}, to be {}\n{}", say(returned), say(own), shown(text, room)));
        }
        if lent != due || given != text.bytes {
            return Err(format!("returned {}, but other bytes\n{lent:02x?}\nto be\n{due:02x?}\n{}", say(own), shown(text, room)));
        }
        if self.cases % BY_DEFINITION == 0 {
            self.place(text)?;
        }
        if own >= 1024 {
            return self.refused(text, own).map(|()| Vec::new());
        }
        let record = lent[AROUND..AROUND + own as usize].to_vec();
        self.accepted(text, &record).map_err(|why| format!("{why}\n{}", shown(text, room)))?;
        Ok(record)
    }

    /// Counts a refusal, 32 by what it is for.
    fn refused(&mut self, text: &Text, number: u32) -> Result<(), String> {
        let name = match (number / 1024, pbn::game(&text.bytes)) {
            (OUTSIDE, Err(_)) => "32 grammar",
            (OUTSIDE, Ok(_)) if number % 1024 == 3 => "32 dealer",
            (OUTSIDE, Ok(_)) => "32 Play",
            (refusal, _) => REFUSALS.into_iter().find(|name| *name == format!("{refusal:02}")).ok_or(format!("no refusal {refusal}"))?,
        };
        *self.refusals.entry(name).or_default() += 1;
        Ok(())
    }

    /// What is written is accepted by the judge and says what the text says; printed from the same seat it is the text.
    fn accepted(&mut self, text: &Text, record: &[u8]) -> Result<(), String> {
        let judged = (self.judge)(record, &mut Least::of(0).lend());
        if judged != 0 {
            return Err(format!("what is written is refused with {}", say(judged)));
        }
        let game = pbn::game(&text.bytes).map_err(|line| format!("written, but line {line} is outside the subset"))?;
        let contents = Contents::read(record).ok_or("what is written has no contents")?;
        if contents.table != text.table || Game::of(&contents, game.first) != Some(game.clone()) || game.text() != text.bytes {
            return Err(format!("what is written says {contents:?}"));
        }
        self.written += 1;
        Ok(())
    }

    /// The place of 32 for the grammar, a second time.
    fn place(&mut self, text: &Text) -> Result<(), String> {
        if text.bytes.len() > 5000 {
            return Ok(());
        }
        let (place, defined) = (pbn::game(&text.bytes).err(), pbn::place_by_definition(&text.bytes));
        self.by_definition += 1;
        if place == defined {
            return Ok(());
        }
        Err(format!("the independent reader names {place:?}, by definition it is {defined:?}\n{}", shown(text, 0)))
    }

    /// What occurred, in words.
    pub fn report(&self) -> String {
        let count = |names: &BTreeMap<&'static str, u64>| names.iter().map(|(name, n)| format!("\n  {n:>8} {name}")).collect::<String>();
        let cases = format!("{} texts, no difference: {} gave a record that the judge accepts", self.cases, self.written);
        let places = format!("the place of 32 was found by its definition too for {}", self.by_definition);
        format!("{cases}; {places}; refused:{}\nby what is wrong:{}", count(&self.refusals), count(&self.kinds))
    }

    /// Whether each refusal and each kind of text has occurred often enough; what is missing, in words.
    pub fn enough(&self) -> Result<(), String> {
        match self.refusals.iter().chain(&self.kinds).find(|&(_, &n)| n < LEAST) {
            Some((name, n)) => Err(format!("{name}: occurred only {n} times")),
            None => Ok(()),
        }
    }
}

/// A number that a reader returns, in words.
fn say(number: u32) -> String {
    if number < 1024 {
        format!("{number} bytes")
    } else {
        format!("{} {}", number / 1024, number % 1024)
    }
}

fn shown(text: &Text, room: usize) -> String {
    let kinds = text.kinds.join(", ");
    format!("a buffer of {room} bytes, table {}, {kinds}\n{}", text.table, String::from_utf8_lossy(&text.bytes))
}
