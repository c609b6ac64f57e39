//! The slip of a record: the items of Law 77 from North-South, a line each, and their sum; or the judge's refusal.
use crate::auction::Contract;
use crate::judge::{read, Judgement, ANSWER_BYTES};
use crate::score;
use std::fmt::Write;

/// What a slip says.
pub struct Slip {
    pub items: Vec<(&'static str, i32)>,
    pub text: String,
    /// Declarer's side where there is a contract: 0 for NS, 1 for EW.
    pub side: Option<u8>,
    pub refused: bool,
}

/// The slip of a record.
pub fn slip(record: &[u8]) -> Slip {
    let (items, side, sum) = match read(record) {
        Ok(judgement) => explained(&judgement),
        Err(number) => {
            let text = format!("{} {}\n", number / 1024, number % 1024);
            return Slip { items: Vec::new(), text, side: None, refused: true };
        }
    };
    let mut text = String::new();
    for (name, points) in &items {
        writeln!(text, "{name} {points}").expect("a line in memory");
    }
    writeln!(text, "SUM {sum}").expect("a line in memory");
    Slip { items, text, side, refused: false }
}

/// The slip as C asks for it, over the front of a buffer: its length, the judge's refusal, or 22 where it does not fit.
pub fn written(record: &[u8], out: &mut [u8]) -> u32 {
    if let Err(number) = read(record) {
        return number;
    }
    let text = slip(record).text;
    let Some(front) = out.get_mut(..text.len()) else { return 22 * 1024 };
    front.copy_from_slice(text.as_bytes());
    text.len() as u32
}

/// The items that are not nothing, declarer's side and the score, by the seven bytes of the answer.
fn explained(judgement: &Judgement) -> (Vec<(&'static str, i32)>, Option<u8>, i32) {
    let mut bytes = [0; 8];
    bytes[8 - ANSWER_BYTES..].copy_from_slice(&judgement.answer);
    let word = u64::from_be_bytes(bytes);
    let field = |behind: u32, width: u32| (word >> behind & ((1 << width) - 1)) as u8;
    let sum = i32::from(word as u16 as i16);
    let contract = Contract { level: field(37, 3), strain: field(34, 3), doubling: field(32, 2), declarer: field(30, 2) };
    if contract.level == 0 {
        return (Vec::new(), None, sum);
    }
    let side = contract.declarer & 1;
    let vulnerable = score::vulnerable(field(49, 7), contract.declarer);
    let sign = if side == 0 { 1 } else { -1 };
    let mut items = items(&contract, vulnerable, i32::from(field(22, 4)));
    items.retain(|&(_, points)| points != 0);
    items.iter_mut().for_each(|(_, points)| *points *= sign);
    assert_eq!(items.iter().map(|&(_, points)| points).sum::<i32>(), sum, "the items make the score");
    (items, Some(side), sum)
}

/// What declarer's side gains by each item, nothing included.
fn items(c: &Contract, vulnerable: bool, tricks: i32) -> Vec<(&'static str, i32)> {
    let level = i32::from(c.level);
    let choose = |not: i32, when: i32| if vulnerable { when } else { not };
    let by_doubling = |all: [i32; 3]| all[usize::from(c.doubling)];
    let short = level + 6 - tricks;
    if short > 0 {
        return vec![("UNDERTRICKS", -(1..=short).map(|k| undertrick(c.doubling, vulnerable, k)).sum::<i32>())];
    }
    let each = [20, 20, 30, 30, 30][usize::from(c.strain)];
    let bid = (each * level + if c.strain == 4 { 10 } else { 0 }) * by_doubling([1, 2, 4]);
    let over = -short * by_doubling([each, choose(100, 200), choose(200, 400)]);
    let premium = if bid < 100 { ("PARTSCORE", 50) } else { ("GAME", choose(300, 500)) };
    let slam = [choose(500, 750), choose(1000, 1500)];
    let slam = if level < 6 { 0 } else { slam[level as usize - 6] };
    vec![("TRICKS", bid), ("OVERTRICKS", over), premium, ("SLAM", slam), ("DOUBLING", by_doubling([0, 50, 100]))]
}

/// The k-th undertrick, from 1.
fn undertrick(doubling: u8, vulnerable: bool, k: i32) -> i32 {
    let doubled = match (vulnerable, k) {
        (false, 1) => 100,
        (false, 2 | 3) | (true, 1) => 200,
        _ => 300,
    };
    match doubling {
        0 => 50 * (1 + i32::from(vulnerable)),
        d => doubled * i32::from(d),
    }
}
