//! Rounds of contents, whole, damaged and with numbers that no field can hold, on which a writer is compared with the independent one, and what it writes
//! is judged.
use crate::compare::Judge;
use crate::contents::{self, Contents};
use crate::damage::codes;
use crate::judge::{self, Least};
use crate::making::{self, Made};
use crate::random::Random;
use crate::writer::{self, Writer};
use std::collections::BTreeMap;

/// Lawful contents in a round, beside the damaged ones.
const LAWFUL: usize = 6;
/// One round in so many is written with every room that is too short.
const EVERY_ROOM: u64 = 100;
/// How often each refusal has to occur.
const LEAST: u64 = 100;
/// The refusals of a writer.
const REFUSALS: [usize; 20] = [3, 4, 5, 6, 7, 8, 9, 10, 11, 12, 13, 14, 15, 22, 23, 24, 25, 26, 27, 33];
/// The most bytes of a record.
const MOST_BYTES: usize = 505;
/// Bytes on each side of a slice that no writer may change.
const AROUND: usize = 24;

pub struct WriteTrial {
    random: Random,
    writer: Writer,
    judge: Judge,
    sentinels: Vec<u8>,
    rounds: u64,
    written: u64,
    refusals: [u64; 34],
    /// Contents with a code that is not right, by what is wrong with it. A record that ends inside a code has no contents.
    kinds: BTreeMap<&'static str, u64>,
}

/// The kinds of wrong codes that contents can have.
fn code_kinds() -> impl Iterator<Item = &'static str> {
    codes::KINDS.into_iter().filter(|kind| !kind.starts_with("2 ") && *kind != "27 before its bits").chain(contents::CODES_BEYOND)
}

impl WriteTrial {
    /// The writer, and the judge that has to accept what it writes.
    pub fn new(writer: Writer, judge: Judge, seed: u64) -> Self {
        let mut random = Random::new(seed);
        let sentinels = random.bytes(4096);
        WriteTrial {
            random,
            writer,
            judge,
            sentinels,
            rounds: 0,
            written: 0,
            refusals: [0; 34],
            kinds: code_kinds().map(|kind| (kind, 0)).collect(),
        }
    }

    /// The contents compared so far.
    pub fn cases(&self) -> u64 {
        self.written + self.refusals.iter().sum::<u64>()
    }

    /// One more round; the first difference, in words, where there is one.
    pub fn round(&mut self) -> Result<(), String> {
        let mut made: Vec<Made> = (0..LAWFUL).map(|k| self.made(k % 2 == 1)).collect();
        if self.random.percent(50) {
            made.reverse();
        }
        for m in &made {
            self.lawful(m)?;
        }
        let other = made.pop().expect("a record");
        for u in contents::unlawful(&mut self.random, &made, &other) {
            self.unlawful(u.contents, u.number)?;
            if let Some(kind) = u.kind {
                *self.kinds.entry(kind).or_default() += 1;
            }
        }
        self.rounds += 1;
        if self.rounds % EVERY_ROOM == 1 {
            let c = Contents::of(&made[0].parts);
            for room in 0..writer::length(&c) {
                self.case(&c, room, Some(22 * 1024))?;
            }
        }
        Ok(())
    }

    fn made(&mut self, with_codes: bool) -> Made {
        if with_codes {
            making::with_codes(&mut self.random)
        } else {
            making::lawful(&mut self.random)
        }
    }

    /// Lawful contents in a buffer that is long enough, exactly or longer, and in one that is a byte too short.
    fn lawful(&mut self, made: &Made) -> Result<(), String> {
        let mut c = Contents::of(&made.parts);
        let whole = made.parts.bytes();
        if Contents::read(&whole).as_ref() != Some(&c) {
            return Err(format!("a record's bytes have other contents: {c:?}"));
        }
        if c.marked != 0 {
            c.marked = *self.random.pick(&[1, 1, 2, 256, u32::MAX]);
        } else if self.random.percent(20) {
            c.claim = self.random.word() as u32;
        }
        let longer = whole.len() + self.random.between(1, 40);
        for room in [whole.len(), longer] {
            if self.case(&c, room, Some(whole.len() as u32))? != whole {
                return Err(format!("other bytes than the layout's: {c:?}"));
            }
        }
        let shorter = if self.random.percent(50) { whole.len() - 1 } else { self.random.below(whole.len()) };
        self.case(&c, shorter, Some(22 * 1024)).map(drop)
    }

    /// Contents that may be refused; and the same with other numbers behind the refused one.
    fn unlawful(&mut self, mut c: Contents, number: Option<u32>) -> Result<(), String> {
        self.at_any_room(&c, number)?;
        let number = writer::write(&c, &mut []);
        if number == 22 * 1024 {
            return Ok(());
        }
        contents::spoil_after(&mut self.random, &mut c, number);
        self.at_any_room(&c, Some(number))
    }

    fn at_any_room(&mut self, c: &Contents, number: Option<u32>) -> Result<(), String> {
        let room = match self.random.below(4) {
            0 => 0,
            1 => self.random.below(MOST_BYTES),
            _ => MOST_BYTES,
        };
        self.case(c, room, number).map(drop)
    }

    /// A slice between other bytes.
    fn between(&mut self, bytes: &[u8]) -> Vec<u8> {
        let at = self.random.below(self.sentinels.len() - 2 * AROUND);
        let around = &self.sentinels[at..at + 2 * AROUND];
        [&around[..AROUND], bytes, &around[AROUND..]].concat()
    }

    /// Writes contents by both writers into a buffer of so many bytes, and gives what is written. `number` is what has to be returned, where it is known
    /// from how the contents were made.
    fn case(&mut self, c: &Contents, room: usize, number: Option<u32>) -> Result<Vec<u8>, String> {
        let before = self.random.bytes(room);
        let mut lent = self.between(&before);
        let mut due = lent.clone();
        let own = writer::write(c, &mut due[AROUND..AROUND + room]);
        let shown = || format!("a buffer of {room} bytes: {c:?}");
        if let Some(number) = number.filter(|&number| number != own) {
            return Err(format!("the independent writer returns {own}, the contents were made for {number}\n{}", shown()));
        }
        agrees(c, own).map_err(|why| format!("{why}\n{}", shown()))?;
        let given = c.clone();
        let returned = (self.writer)(&given, &mut lent[AROUND..AROUND + room]);
        if returned != own {
            return Err(format!("returned {returned}, to be {own}\n{}", shown()));
        }
        if lent != due || given != *c {
            return Err(format!("returned {returned}, but other bytes\n{lent:02x?}\nto be\n{due:02x?}\n{}", shown()));
        }
        if own >= 1024 {
            self.refusals[(own / 1024) as usize] += 1;
            return Ok(Vec::new());
        }
        let record = lent[AROUND..AROUND + own as usize].to_vec();
        let judged = (self.judge)(&record, &mut Least::of(0).lend());
        if judged != 0 {
            return Err(format!("what is written is refused with {judged}\n{}", shown()));
        }
        self.written += 1;
        Ok(record)
    }

    /// What occurred, in words.
    pub fn report(&self) -> String {
        let each = REFUSALS.map(|k| format!("  {k}: {}", self.refusals[k])).concat();
        let kinds: String = self.kinds.iter().map(|(kind, n)| format!("\n  {n:>8} {kind}")).collect();
        let cases = format!("{} contents, no difference: {} written and accepted by the judge", self.cases(), self.written);
        format!("{cases}, refused by number:\n{each}\nwith a code among the cards that is refused:{kinds}")
    }

    /// Whether each refusal has occurred often enough, and no other; what is missing, in words.
    pub fn enough(&self) -> Result<(), String> {
        if let Some(number) = (0..34).find(|k| !REFUSALS.contains(k) && self.refusals[*k] > 0) {
            return Err(format!("a writer gives no refusal {number}"));
        }
        if let Some((kind, n)) = self.kinds.iter().find(|&(_, &n)| n < LEAST) {
            return Err(format!("{kind}: occurred only {n} times"));
        }
        match REFUSALS.into_iter().find(|&k| self.refusals[k] < LEAST) {
            Some(number) => Err(format!("refusal {number} occurred only {} times", self.refusals[number])),
            None => Ok(()),
        }
    }
}

/// Where every number fits its field, the independent judge says of the record's bytes what the independent writer says of the contents, but for the room.
fn agrees(c: &Contents, own: u32) -> Result<(), String> {
    let Some(parts) = c.parts() else { return Ok(()) };
    let judged = judge::read(&parts.bytes()).map_or_else(|number| number, |_| 0);
    let said = if own < 1024 || own == 22 * 1024 { 0 } else { own };
    if judged == said {
        Ok(())
    } else {
        Err(format!("the independent writer returns {own}, and the independent judge {judged} for the record"))
    }
}
