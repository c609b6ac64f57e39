//! Law 2, Law 77 and the scores that a result can have.
use crate::auction::Contract;

/// The vulnerable sides of boards 1 to 16: bit 0 for NS, bit 1 for EW.
const VULNERABLE: [u8; 16] = [0, 1, 2, 3, 1, 2, 3, 0, 2, 3, 0, 1, 3, 0, 1, 2];

pub fn dealer(board: u8) -> u8 {
    (board - 1) & 3
}

/// Whether a seat's side is vulnerable on a board.
pub fn vulnerable(board: u8, seat: u8) -> bool {
    VULNERABLE[usize::from(board - 1) & 15] >> (seat & 1) & 1 == 1
}

pub fn valid(score: i32) -> bool {
    (-7600..=7600).contains(&score) && score % 10 == 0
}

/// What declarer's side gets for its tricks.
pub fn contract_score(c: &Contract, vulnerable: bool, tricks: u8) -> i32 {
    let need = i32::from(c.level) + 6;
    let tricks = i32::from(tricks);
    if tricks < need {
        -undertricks(need - tricks, c.doubling, vulnerable)
    } else {
        made(c, vulnerable, tricks - need)
    }
}

fn made(c: &Contract, vulnerable: bool, over: i32) -> i32 {
    let choose = |not: i32, vul: i32| if vulnerable { vul } else { not };
    let each = if c.strain < 2 { 20 } else { 30 };
    let first = if c.strain == 4 { 10 } else { 0 };
    let points = (each * i32::from(c.level) + first) << c.doubling;
    let game = if points < 100 { 50 } else { choose(300, 500) };
    let slam = match c.level {
        6 => choose(500, 750),
        7 => choose(1000, 1500),
        _ => 0,
    };
    let (insult, overtrick) = match c.doubling {
        0 => (0, each),
        1 => (50, choose(100, 200)),
        _ => (100, choose(200, 400)),
    };
    points + game + slam + insult + over * overtrick
}

fn undertricks(down: i32, doubling: u8, vulnerable: bool) -> i32 {
    let doubled = match (vulnerable, down) {
        (true, _) => 300 * down - 100,
        (false, 1..=3) => 200 * down - 100,
        (false, _) => 300 * down - 400,
    };
    match doubling {
        0 => down * if vulnerable { 100 } else { 50 },
        1 => doubled,
        _ => 2 * doubled,
    }
}
