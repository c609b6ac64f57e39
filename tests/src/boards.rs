//! Law 2 as C asks for it: the dealer and the vulnerable sides of a board, or 3 with place 0 for a number that is none.

/// The vulnerable sides of boards 1 to 16, as the table of docs/RULES.md has them: 0 none, 1 NS, 2 EW, 3 both.
const SIDES: [&str; 16] = ["-", "NS", "EW", "both", "NS", "EW", "both", "-", "EW", "both", "-", "NS", "both", "-", "NS", "EW"];

fn of_board(board: u32, number: impl Fn(u32) -> u32) -> u32 {
    match board {
        1..=127 => number(board - 1),
        _ => 3 * 1024,
    }
}

pub fn dealer(board: u32) -> u32 {
    of_board(board, |before| before % 4)
}

pub fn vulnerable(board: u32) -> u32 {
    let sides = |before: u32| SIDES[before as usize % 16];
    of_board(board, |before| match sides(before) {
        "NS" => 1,
        "EW" => 2,
        "both" => 3,
        _ => 0,
    })
}
