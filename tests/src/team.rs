//! A team match by the rules of docs/RULES.md, and what the program `team` has to write for its lines.
use crate::score;
use std::collections::BTreeSet;

/// The most boards of a match.
pub const MOST_BOARDS: usize = 32;

/// The greatest differences of valid scores that are worth 0, 1, .. 23 IMPs.
const UP_TO: [i32; 24] =
    [10, 40, 80, 120, 160, 210, 260, 310, 360, 420, 490, 590, 740, 890, 1090, 1290, 1490, 1740, 1990, 2240, 2490, 2990, 3490, 3990];

/// Law 78B for two valid scores, the first less the second.
pub fn imps(first: i32, second: i32) -> i32 {
    let size = (first - second).abs();
    let worth = UP_TO.iter().filter(|&&most| size > most).count() as i32;
    if first < second {
        -worth
    } else {
        worth
    }
}

/// The first team's total, and the boards used.
#[derive(Clone, Default, PartialEq, Eq, Debug)]
pub struct Match {
    pub total: i32,
    pub used: BTreeSet<i32>,
}

impl Match {
    /// One board more: its IMPs, or a refusal, which leaves the match as it was.
    pub fn play(&mut self, board: i32, first: i32, second: i32) -> Result<i32, u32> {
        if !score::valid(first) || !score::valid(second) {
            return Err(20);
        }
        if !(1..=127).contains(&board) || self.used.contains(&board) {
            return Err(29);
        }
        if self.used.len() == MOST_BOARDS {
            return Err(30);
        }
        self.used.insert(board);
        self.total += imps(first, second);
        Ok(imps(first, second))
    }
}

/// A line of the program's input.
#[derive(Clone, Copy, PartialEq, Eq, Debug)]
pub enum Line {
    Board(i32, i32, i32),
    Unreadable,
}

/// How a board is played: by the rules, or with a fault that the comparison has to find.
pub type Play = fn(&mut Match, i32, i32, i32) -> Result<i32, u32>;

/// What was written for some lines, the match that was left, and how often each refusal occurred: 20, 29 for a board outside 1 to 127, 29 for one that was
/// used, and 30.
#[derive(Default)]
pub struct Written {
    pub text: String,
    pub left: Match,
    pub refusals: [u64; 4],
}

/// The names of the refusals that are counted.
pub const REFUSALS: [&str; 4] = ["20", "29 outside", "29 used", "30"];

impl Written {
    pub fn of(lines: &[Line], play: Play) -> Written {
        let mut written = Written::default();
        for (k, line) in lines.iter().enumerate() {
            let Line::Board(board, first, second) = *line else {
                written.text += &format!("line {} refused\n", k + 1);
                return written;
            };
            match play(&mut written.left, board, first, second) {
                Ok(imps) => written.text += &format!("{imps}\n"),
                Err(number) => {
                    written.text += &format!("refused {number}\n");
                    written.count(number, board);
                }
            }
        }
        let total = written.left.total;
        written.text += &format!("TOTAL {total} {}\n", -total);
        written
    }

    fn count(&mut self, number: u32, board: i32) {
        let kind = match number {
            20 => 0,
            29 if (1..=127).contains(&board) => 2,
            29 => 1,
            _ => 3,
        };
        self.refusals[kind] += 1;
    }
}
