//! The standings of some sections: each board's sheet over the results of all of them, by docs/RULES.md.
use crate::sheet::share;
use crate::tally::{Deal, Tally};
use std::collections::BTreeMap;
use std::fmt::Write;

/// The results of each board: scores with their deals.
pub type Results = BTreeMap<u8, Vec<(i32, Deal)>>;

/// What the program `standings` writes, whatever the order of sections and records.
pub fn standings(results: &Results) -> String {
    let mut text = String::new();
    for (&board, results) in results {
        match tally(board, results) {
            Some(tally) => sheet(&mut text, board, &tally),
            None => writeln!(text, "BOARD {board} refused").expect("a string takes any text"),
        }
    }
    text
}

/// The tally of a board's results; none where they are of two deals or over 128.
pub fn tally(board: u8, results: &[(i32, Deal)]) -> Option<Tally> {
    let mut tally = Tally::fresh(i32::from(board)).expect("a board");
    results.iter().try_for_each(|(score, deal)| tally.add(*score, deal)).ok()?;
    Some(tally)
}

fn sheet(text: &mut String, board: u8, tally: &Tally) {
    let mut line = |words: String| writeln!(text, "{words}").expect("a string takes any text");
    line(format!("BOARD {board}"));
    line("NS-SCORE COUNT NS-MP EW-MP NS-% EW-%".to_string());
    for (score, count) in tally.entries() {
        let deal = tally.deal().expect("a tally with a result carries a deal");
        let (ns, ew) = tally.matchpoints(score, &deal).expect("a score of the tally");
        let shares = [ns, ew].map(|points| share(points, tally.results()));
        line(format!("{score} {count} {ns} {ew} {} {}", shares[0], shares[1]));
    }
}
