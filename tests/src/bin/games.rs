//! Writes lawful games of all shapes without penalty cards to standard output, an object in JSON a line: their parts, the seat that leads to each trick, their
//! record, and what the judge here answers. python/tests prints them in Portable Bridge Notation and reads them back.
use outside::judge;
use outside::making::{self, Made};
use outside::random::Random;
use outside::run::stop;
use std::io::Write;

/// One argument each: the seed, and how many games.
fn main() {
    let words: Vec<u64> = std::env::args().skip(1).filter_map(|word| word.parse().ok()).collect();
    let &[seed, count] = words.as_slice() else { stop("usage: games SEED COUNT") };
    let mut random = Random::new(seed);
    let mut out = Vec::new();
    for k in 0..count {
        let made = if k % 2 == 0 { making::played_out(&mut random) } else { making::lawful(&mut random) };
        out.extend(line(&made).bytes());
    }
    if std::io::stdout().write_all(&out).is_err() {
        stop("the games cannot be written");
    }
}

fn line(made: &Made) -> String {
    let (parts, record) = (&made.parts, made.parts.bytes());
    let leaders: Vec<u8> = (0..parts.cards.len()).step_by(4).filter_map(|k| made.position(k)).map(|play| play.trick.turn()).collect();
    let Ok(judgement) = judge::read(&record) else { stop("a lawful record is refused") };
    let answer = judgement.answer;
    let score = i16::from_be_bytes([answer[5], answer[6]]);
    let contract = made.contract.map_or("null".to_string(), |c| format!("[{},{},{}]", answer[2] >> 5, c.strain, answer[2] & 3));
    let declarer = made.contract.map_or("null".to_string(), |c| c.declarer.to_string());
    let claim = parts.claim.map_or("null".to_string(), |tricks| tricks.to_string());
    let hex: String = record.iter().map(|byte| format!("{byte:02x}")).collect();
    let (tricks, after) = (answer[3] >> 2 & 15, (answer[3] & 3) << 2 | answer[4] >> 6);
    format!(
        "{{\"board\":{},\"table\":{},\"holders\":{:?},\"calls\":{:?},\"cards\":{:?},\"claim\":{claim},\"leaders\":{leaders:?},\"contract\":{contract},\
         \"declarer\":{declarer},\"tricks\":{tricks},\"after\":{after},\"score\":{score},\"record\":\"{hex}\"}}\n",
        parts.board, parts.table, parts.deal, parts.calls, parts.cards
    )
}
