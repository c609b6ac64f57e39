//! Inputs of the program `team`: matches of all lengths, with boards and scores that are refused, and lines that cannot be read.
use crate::random::Random;
use crate::scripts::wrong_score;
use crate::team::{Line, MOST_BOARDS};

/// A run: its text, and its lines as they are meant.
pub struct Script {
    pub text: String,
    pub lines: Vec<Line>,
}

/// Lines that cannot be read.
const UNREADABLE: [&str; 27] = [
    "",
    " ",
    "1",
    "1 420",
    "1 420 ",
    "1 420 -50 ",
    " 1 420 -50",
    "1  420 -50",
    "1 420  -50",
    "1 420 -50 0",
    "1\t420 -50",
    "1,420,-50",
    "-1 420 -50",
    "+1 420 -50",
    "1 +420 -50",
    "1 --420 50",
    "1 420 - 50",
    "1 420 -",
    "1 - -50",
    "000001 420 -50",
    "1 000420 -50",
    "1 420 -000050",
    "1 420x -50",
    "x 420 -50",
    "1 4.20 -50",
    "1 420 -50\r",
    "TOTAL 0 0",
];

/// Boards that there are not, some of them beyond a byte.
const OUTSIDE: [i32; 12] = [0, 128, 129, 200, 255, 256, 257, 383, 511, 65536, 65537, 99999];

impl Script {
    fn new() -> Self {
        Script { text: String::new(), lines: Vec::new() }
    }

    /// A run of lines that are all read.
    pub fn of_boards(random: &mut Random) -> Self {
        let mut script = Script::new();
        let count = match random.below(4) {
            0 => random.below(5),
            1 => random.between(MOST_BOARDS, MOST_BOARDS + 8),
            _ => random.between(1, MOST_BOARDS + 2),
        };
        let wrong = *random.pick(&[0, 5, 20]);
        let mut boards: Vec<i32> = (1..=127).collect();
        random.shuffle(&mut boards);
        for &board in &boards[..count] {
            if random.percent(wrong) {
                let outside = *random.pick(&OUTSIDE);
                script.board(random, outside);
            }
            if random.percent(wrong) {
                let any = random.between(1, 127) as i32;
                script.board(random, any);
            }
            if random.percent(wrong) {
                script.wrong_scores(random, board);
            }
            script.board(random, board);
            if random.percent(wrong) {
                script.board(random, board);
            }
        }
        script
    }

    /// A run that ends at a line that cannot be read, with or without lines behind it.
    pub fn that_stops(random: &mut Random) -> Self {
        let mut script = Script::of_boards(random);
        let line = *random.pick(&UNREADABLE);
        script.text += line;
        script.text.push('\n');
        script.lines.push(Line::Unreadable);
        if random.percent(50) {
            script.board(random, 1);
        }
        script
    }

    /// The last line may lack its newline, unless it is empty.
    pub fn end(mut self, random: &mut Random) -> Self {
        if random.percent(20) && !self.text.ends_with("\n\n") && self.text.len() > 1 {
            self.text.pop();
        }
        self
    }

    fn board(&mut self, random: &mut Random, board: i32) {
        let (first, second) = scores(random);
        self.line(random, board, first, second);
    }

    /// A board with a first score, a second or both that are not valid, on any board.
    fn wrong_scores(&mut self, random: &mut Random, board: i32) {
        let (mut first, mut second) = scores(random);
        let which = random.below(3);
        if which != 0 {
            first = wrong_score(random);
        }
        if which != 1 {
            second = wrong_score(random);
        }
        let board = if random.percent(30) { *random.pick(&OUTSIDE) } else { board };
        self.line(random, board, first, second);
    }

    fn line(&mut self, random: &mut Random, board: i32, first: i32, second: i32) {
        let fields = [number(random, board, false), number(random, first, true), number(random, second, true)];
        self.text += &fields.join(" ");
        self.text.push('\n');
        self.lines.push(Line::Board(board, first, second));
    }
}

/// Two valid scores: any two, near one another, equal, or as far apart as they can be.
fn scores(random: &mut Random) -> (i32, i32) {
    let any = |random: &mut Random| 10 * (random.between(0, 1520) as i32 - 760);
    let first = any(random);
    let second = match random.below(4) {
        0 => any(random),
        1 => (first + 10 * (random.between(0, 60) as i32 - 30)).clamp(-7600, 7600),
        2 => (first + 10 * (random.between(0, 800) as i32 - 400)).clamp(-7600, 7600),
        _ => *random.pick(&[first, -first, 7600, -7600]),
    };
    (first, second)
}

/// A number in one of the forms that are read: some with leading zeros, up to five digits, and a score of 0 as -0.
fn number(random: &mut Random, n: i32, score: bool) -> String {
    let digits = n.unsigned_abs().to_string();
    let zeros = if random.percent(5) { random.between(0, 5 - digits.len()) } else { 0 };
    let minus = n < 0 || (n == 0 && score && random.percent(20));
    format!("{}{}{digits}", if minus { "-" } else { "" }, "0".repeat(zeros))
}
