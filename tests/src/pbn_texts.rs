//! Texts in Portable Bridge Notation: whole, wrong in each way that the subset and the order of refusals name, in several ways at once, with bytes changed, and
//! of no plan.
mod bytes;
mod dealt;
mod laid;
mod said;

use crate::contents::Contents;
use crate::making::Made;
use crate::pbn::{Game, OUTSIDE};
use crate::random::Random;
use laid::Laid;
use said::{Said, SECTIONS};

/// A text and its table.
#[derive(Clone, Debug)]
pub struct Text {
    pub bytes: Vec<u8>,
    pub table: u32,
    /// The refusal that a reader has to give, where it is known from how the text was made.
    pub number: Option<u32>,
    /// What was made wrong.
    pub kinds: Vec<&'static str>,
}

/// Kinds of texts that are wrong in more than one way, or as bytes.
const BEHIND_511: &str = "a wrong line behind 511 calls";
const BEHIND_1023: &str = "a wrong line behind line 1023";
const THOUSANDS: &str = "33 thousands of lines of calls";
const SEVERAL: &str = "several sections wrong";
const SEVERAL_AND_LINE: &str = "several sections and a line wrong";

/// Every kind of text that is not whole.
pub fn kinds() -> impl Iterator<Item = &'static str> {
    let said = said::KINDS.iter().map(|kind| kind.name);
    let laid = laid::KINDS.iter().map(|kind| kind.name).chain(dealt::KINDS.iter().map(|kind| kind.name));
    said.chain(laid).chain(bytes::KINDS).chain([BEHIND_511, BEHIND_1023, THOUSANDS, SEVERAL, SEVERAL_AND_LINE])
}

/// The text of a lawful record with the Deal tag from a seat on.
pub fn whole(made: &Made, first: u8) -> Text {
    let game = Game::of(&Contents::of(&made.parts), first).expect("a record that the notation can say");
    Text { bytes: game.text(), table: made.parts.table as u32, number: None, kinds: Vec::new() }
}

/// A text of each kind, from the first of these records that can be made wrong so.
pub fn wrong(random: &mut Random, made: &[Made]) -> Vec<Text> {
    let mut texts = Vec::new();
    for kind in &said::KINDS {
        texts.extend(made.iter().find_map(|m| said_wrong(random, m, kind)));
    }
    for kind in &laid::KINDS {
        texts.extend(made.iter().find_map(|m| laid_wrong(random, m, kind.name, |random, laid| laid.spoil(random, kind))));
    }
    for kind in &dealt::KINDS {
        texts.extend(made.iter().find_map(|m| laid_wrong(random, m, kind.name, |random, laid| laid.spoil_deal(random, kind))));
    }
    for kind in bytes::KINDS {
        let mut text = whole(&made[0], random.below(4) as u8);
        bytes::spoil(random, &mut text.bytes, kind);
        text.kinds.push(kind);
        texts.push(text);
    }
    texts.extend((0..6).map(|k| several(random, &made[k % made.len()], k % 2 == 1)));
    texts.extend([BEHIND_511, BEHIND_1023, THOUSANDS].map(|kind| many_calls(random, &made[0], kind)));
    texts
}

fn any_seat<'a>(random: &mut Random, made: &'a Made) -> Said<'a> {
    Said::of(made, random.below(4) as u8)
}

fn text_of(said: &Said, bytes: Vec<u8>, number: Option<u32>, kinds: Vec<&'static str>) -> Text {
    Text { bytes, table: said.table, number, kinds }
}

fn said_wrong(random: &mut Random, made: &Made, kind: &said::Kind) -> Option<Text> {
    let mut said = any_seat(random, made);
    let number = said.spoil(random, kind)?;
    Some(text_of(&said, said.game.text(), Some(number), vec![kind.name]))
}

fn laid_wrong(
    random: &mut Random,
    made: &Made,
    name: &'static str,
    spoil: impl Fn(&mut Random, &mut Laid) -> Option<usize>,
) -> Option<Text> {
    let said = any_seat(random, made);
    let mut laid = Laid::of(&said.game);
    let place = spoil(random, &mut laid)?;
    Some(text_of(&said, laid.bytes(), Some(outside(place)), vec![name]))
}

fn outside(place: usize) -> u32 {
    OUTSIDE * 1024 + place as u32
}

/// Something wrong in several sections, of which the first counts; or a line too, which comes before all of them.
fn several(random: &mut Random, made: &Made, with_line: bool) -> Text {
    let mut said = any_seat(random, made);
    let mut first = None;
    for section in 0..SECTIONS {
        if random.percent(40) {
            let of_section: Vec<&said::Kind> = said::KINDS.iter().filter(|kind| kind.section == section).collect();
            let kind = *random.pick(&of_section);
            let number = said.spoil(random, kind);
            first = first.or(number);
        }
    }
    let mut laid = Laid::of(&said.game);
    if with_line {
        let kind = random.pick(&laid::KINDS);
        if let Some(place) = laid.spoil(random, kind) {
            return text_of(&said, laid.bytes(), Some(outside(place)), vec![SEVERAL_AND_LINE]);
        }
    }
    text_of(&said, laid.bytes(), first, vec![SEVERAL])
}

/// More calls than a record can have, on more lines than a place can tell, with the last of them wrong or right.
fn many_calls(random: &mut Random, made: &Made, kind: &'static str) -> Text {
    let mut said = any_seat(random, made);
    let count = match (kind, random.below(20)) {
        (BEHIND_511, _) => random.between(512, 800),
        (_, 0) => random.between(6000, 20_000),
        _ => random.between(4 * 1021, 6000),
    };
    let number = said::more_calls(random, &mut said, count);
    let mut laid = Laid::of(&said.game);
    if kind == THOUSANDS {
        return text_of(&said, laid.bytes(), number, vec![kind]);
    }
    let place = laid.spoil_last_calls(random);
    text_of(&said, laid.bytes(), Some(outside(place)), vec![kind])
}

/// Every way to change, leave out, double or put in one byte of a text, at each of its places.
pub fn each_byte(random: &mut Random, text: &[u8]) -> Vec<Vec<u8>> {
    (0..text.len()).flat_map(|at| bytes::BY_BYTE.map(|kind| bytes::at(random, text, kind, at))).collect()
}
