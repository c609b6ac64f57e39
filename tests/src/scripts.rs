//! Scripts of tally calls, as the program `tree` reads them: trees of all shapes, and lines that are no calls.
use crate::random::Random;
use crate::tree::{numbered, Call, Runner, MOST_ON_STACK};

/// A script and what the program has to write for it.
pub struct Script {
    pub text: String,
    /// The calls of the text, up to a line that is none.
    pub calls: Vec<Call>,
    pub runner: Runner,
    random: Random,
}

/// Lines that are no call.
const UNREADABLE: [&str; 31] = [
    "",
    " ",
    "add",
    "add ",
    "add x",
    "add 1x",
    "add 123456",
    "add -123456",
    "add --10",
    "add +10",
    "add - 10",
    "fresh",
    "fresh -1",
    "fresh 000001",
    "merge 1",
    "matchpoints",
    "cell",
    "cell ",
    "cell x",
    "award",
    "award -60",
    "award 000060",
    "add 10 6",
    "add 10 01",
    "add 10  1",
    "add 10 1 ",
    "add 10 -1",
    "matchpoints 10 9",
    "cell 10 x",
    "Add 10",
    "pop",
];

impl Script {
    pub fn new(random: &mut Random) -> Self {
        Script { text: String::new(), calls: Vec::new(), runner: Runner::default(), random: Random::new(random.word()) }
    }

    fn call(&mut self, call: Call) {
        let (word, number, deal) = match call {
            Call::Fresh(board) => ("fresh ", Some(board), None),
            Call::Add(score, deal) => ("add ", Some(score), Some(deal)),
            Call::Merge => ("merge", None, None),
            Call::Matchpoints(score, deal) => ("matchpoints ", Some(score), Some(deal)),
            Call::Cell(score, deal) => ("cell ", Some(score), Some(deal)),
            Call::Award(percent) => ("award ", Some(percent), None),
        };
        self.text += word;
        if let Some(n) = number {
            self.number(n);
        }
        // Deal 0 need not be named.
        if let Some(deal) = deal.filter(|&deal| deal != 0 || self.random.percent(20)) {
            self.text += &format!(" {deal}");
        }
        self.text.push('\n');
        self.calls.push(call);
        self.runner.call(call);
    }

    /// A number in one of the forms that are read: some with leading zeros, up to five digits, and 0 as -0.
    fn number(&mut self, n: i32) {
        let digits = n.unsigned_abs().to_string();
        let zeros = if self.random.percent(5) { self.random.between(0, 5 - digits.len()) } else { 0 };
        if n < 0 || (n == 0 && self.text.ends_with("add ") && self.random.percent(20)) {
            self.text.push('-');
        }
        self.text += &"0".repeat(zeros);
        self.text += &digits;
    }

    /// Many trees in one script, each dropped by a merge with a tally of another board below it; the last one stays.
    pub fn of_trees(random: &mut Random, trees: usize) -> Self {
        let mut script = Script::new(random);
        if trees > 1 {
            script.call(Call::Fresh(127));
        }
        for k in 0..trees {
            script.one_tree();
            script.ask_matchpoints();
            script.ask_award();
            if k + 1 < trees {
                script.call(Call::Merge);
            }
        }
        script.end();
        script
    }

    /// A tree of a random shape on top of the stack, of a board from 1 to 126.
    fn one_tree(&mut self) {
        let r = &mut self.random;
        let results = match r.below(20) {
            0 => r.between(129, 170),
            1 | 2 => r.between(120, 128),
            3..=6 => r.between(20, 90),
            _ => r.below(20),
        };
        let plan = Plan {
            board: r.between(1, 126) as i32,
            scores: scores(r),
            other_boards: *r.pick(&[0, 0, 0, 10, 40]),
            wrong: *r.pick(&[0, 0, 3, 20]),
            other_deals: *r.pick(&[0, 0, 5, 30]),
            fouled: *r.pick(&[0, 0, 1, 8]),
        };
        let deal = r.below(4) as u8;
        let depth = self.random.below(MOST_ON_STACK - 2);
        self.subtree(&plan, results, depth, deal);
    }

    /// Calls that leave one more tally on the stack, with so many scores added, merged at most `depth` deep.
    fn subtree(&mut self, plan: &Plan, results: usize, depth: usize, deal: u8) {
        let deal = if self.random.percent(plan.other_deals) { self.random.below(4) as u8 } else { deal };
        let few = if results < 2 { 70 } else { 15 };
        if depth == 0 || self.random.percent(few) {
            self.fresh(plan);
            return self.adds(plan, results, deal);
        }
        let first = self.random.between(0, results);
        let after = if self.random.percent(20) { self.random.between(0, results - first) } else { 0 };
        self.subtree(plan, first, depth - 1, deal);
        self.subtree(plan, results - first - after, depth - 1, deal);
        self.call(Call::Merge);
        self.adds(plan, after, deal);
    }

    fn fresh(&mut self, plan: &Plan) {
        if self.random.percent(plan.wrong) {
            let board = *self.random.pick(&[0, 128, 129, 255, 256, 257, 383, 511, 65535, 65536, 65537, 99999]);
            self.call(Call::Fresh(board));
        }
        let board = if self.random.percent(plan.other_boards) { self.random.between(1, 126) as i32 } else { plan.board };
        self.call(Call::Fresh(board));
    }

    fn adds(&mut self, plan: &Plan, count: usize, deal: u8) {
        for _ in 0..count {
            if self.random.percent(plan.wrong) {
                let (score, deal) = (wrong_score(&mut self.random), self.deal(plan, deal));
                self.call(Call::Add(score, deal));
            }
            let (score, deal) = (*self.random.pick(&plan.scores), self.deal(plan, deal));
            self.call(Call::Add(score, deal));
        }
    }

    /// The tree's deal, or another one, some of which are none.
    fn deal(&mut self, plan: &Plan, deal: u8) -> u8 {
        if self.random.percent(plan.fouled) {
            self.random.below(6) as u8
        } else {
            deal
        }
    }

    /// A tally of so many results, all different, and the cell of each.
    pub fn of_cells(random: &mut Random, results: usize) -> Self {
        let mut script = Script::new(random);
        script.call(Call::Fresh(7));
        let mut scores: Vec<i32> = (0..results as i32).map(|k| 10 * k - 640).collect();
        script.random.shuffle(&mut scores);
        scores.iter().for_each(|&score| script.call(Call::Add(score, 0)));
        scores.iter().for_each(|&score| script.call(Call::Cell(score, 0)));
        script.runner.finish();
        script
    }

    /// An award, most often of a number that can be awarded.
    fn ask_award(&mut self) {
        let percent = *self.random.pick(&[60, 50, 40, 60, 50, 40, 55, 0, 100, 41, 59, 99999]);
        self.call(Call::Award(percent));
    }

    /// Asks for every score of the top tally, which together give all its counts, and for some that are not in it.
    fn ask_matchpoints(&mut self) {
        let Some(top) = self.runner.stack.last() else { return };
        let mut scores: Vec<i32> = top.entries(true).iter().map(|&(score, _)| score).collect();
        let number = |deal| (0..4).find(|&k| numbered(k) == deal);
        let own = top.list.first().and_then(|&(_, deal)| number(deal)).unwrap_or(0);
        scores.push(10 * self.random.between(0, 1520) as i32 - 7600);
        if self.random.percent(30) {
            scores.push(wrong_score(&mut self.random));
        }
        self.random.shuffle(&mut scores);
        for score in scores {
            for ask in [Call::Matchpoints, Call::Cell] {
                if self.random.percent(5) {
                    let deal = self.random.below(6) as u8;
                    self.call(ask(score, deal));
                }
                self.call(ask(score, own));
            }
        }
    }

    fn end(&mut self) {
        if self.random.percent(10) {
            self.text.pop();
        }
        self.runner.finish();
    }

    /// A short script that ends in a line that is no call, or in a stack that is too short or too full.
    pub fn that_stops(random: &mut Random) -> Self {
        let mut script = Script::new(random);
        let tallies = script.random.below(4);
        for _ in 0..tallies {
            script.call(Call::Fresh(7));
            script.call(Call::Add(420, 0));
        }
        match script.random.below(4) {
            0 => {
                while script.runner.stack.len() < MOST_ON_STACK {
                    script.call(Call::Fresh(7));
                }
                script.call(Call::Fresh(7));
            }
            1 => (0..tallies.max(1)).for_each(|_| script.call(Call::Merge)),
            2 if tallies == 0 => script.call(Call::Add(10, 0)),
            3 if tallies == 0 && script.random.percent(50) => script.call(Call::Matchpoints(10, 0)),
            3 if tallies == 0 => script.call(Call::Cell(10, 0)),
            _ => {
                let line = *script.random.pick(&UNREADABLE);
                script.text += line;
                script.text.push('\n');
                script.runner.unreadable();
            }
        }
        if script.random.percent(50) {
            script.call(Call::Fresh(1));
        }
        script.runner.finish();
        script
    }
}

struct Plan {
    board: i32,
    /// The scores to add.
    scores: Vec<i32>,
    /// How many in a hundred fresh tallies are of another board.
    other_boards: usize,
    /// How many in a hundred calls have a wrong call before them.
    wrong: usize,
    /// How many in a hundred trees within are of another deal.
    other_deals: usize,
    /// How many in a hundred results are of another deal.
    fouled: usize,
}

/// Scores of a field: few, some or many distinct ones.
fn scores(random: &mut Random) -> Vec<i32> {
    let distinct = *random.pick(&[1, 2, 5, 20, 200]);
    let (low, high) = *random.pick(&[(-760, 760), (-20, 20), (-760, -740), (740, 760)]);
    (0..distinct).map(|_| 10 * (low + random.between(0, (high - low) as usize) as i32)).collect()
}

/// A score that is not valid, some of them beyond 16 bits.
pub fn wrong_score(random: &mut Random) -> i32 {
    let size =
        *random.pick(&[1, 5, 9, 415, 7599, 7601, 7610, 7620, 9990, 32760, 32767, 32768, 32770, 65530, 65536, 65540, 65956, 99990, 99999]);
    if random.percent(50) {
        size
    } else {
        -size
    }
}
