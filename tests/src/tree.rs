//! Trees of tally calls by the rules of docs/RULES.md on lists of results, and scripts of such calls as the program `tree` reads them.
use crate::score;
use crate::tally::{deal_of, Cell, Deal, Refusal, Tally, MOST_RESULTS};
use std::collections::BTreeMap;

/// The most tallies on the program's stack.
pub const MOST_ON_STACK: usize = 16;

/// The deal of a number: 0 to 3 with thirteen cards a seat, 4 with a holder that is no seat, 5 with East the first seat without thirteen.
pub fn numbered(deal: u8) -> Deal {
    let mut holders: Deal = std::array::from_fn(|card| (card / 13) as u8);
    match deal {
        1 => holders.swap(0, 13),
        2 => holders.swap(26, 39),
        3 => holders.swap(12, 51),
        4 => holders[51] = 4,
        5 => holders[13] = 2,
        _ => (),
    }
    holders
}

/// A call; a score has the number of its deal beside it.
#[derive(Clone, Copy, PartialEq, Eq, Debug)]
pub enum Call {
    Fresh(i32),
    Add(i32, u8),
    Merge,
    Matchpoints(i32, u8),
    Cell(i32, u8),
    Award(i32),
}

/// A tree's board and its list of results, each a score with its deal, and the tally of the same calls beside them.
#[derive(Clone, Debug)]
pub struct Tree {
    pub board: i32,
    pub list: Vec<(i32, Deal)>,
    pub tally: Tally,
}

/// The rules on lists: what a call is refused with, or not. A fault is a rule of another kind.
#[derive(Clone, Copy)]
pub struct Rules {
    pub given: fn(&Tree, i32, &Deal) -> Option<Refusal>,
    pub add: fn(&Tree, i32, &Deal) -> Option<Refusal>,
    pub merge: fn(&Tree, &Tree) -> Option<Refusal>,
    /// Whether each answer is held to the tally's.
    pub held: bool,
}

impl Default for Rules {
    fn default() -> Self {
        Rules { given, add, merge, held: true }
    }
}

/// A result that is given beside a list: 20, 4, and 28 where the list has a result of another deal.
pub fn given(tree: &Tree, score: i32, deal: &Deal) -> Option<Refusal> {
    if !score::valid(score) {
        return Some((20, 0));
    }
    deal_of(deal).err().or_else(|| tree.list.iter().any(|(_, other)| other != deal).then_some((28, 0)))
}

/// Adding it: the same, then 19 where the list has 128.
pub fn add(tree: &Tree, score: i32, deal: &Deal) -> Option<Refusal> {
    given(tree, score, deal).or_else(|| (tree.list.len() >= MOST_RESULTS).then_some((19, 0)))
}

/// Merging: 18, then 28 where a result of each list are of different deals, then 19.
pub fn merge(first: &Tree, second: &Tree) -> Option<Refusal> {
    if first.board != second.board {
        return Some((18, 0));
    }
    if first.list.iter().any(|(_, deal)| second.list.iter().any(|(_, other)| deal != other)) {
        return Some((28, 0));
    }
    (first.list.len() + second.list.len() > MOST_RESULTS).then_some((19, 0))
}

impl Tree {
    fn add(&mut self, rules: &Rules, score: i32, deal: &Deal) -> Result<(), Refusal> {
        let by_list = (rules.add)(self, score, deal).map_or(Ok(()), Err);
        if rules.held {
            assert_eq!(self.tally.add(score, deal), by_list, "the tally's answer against the list's");
        }
        if by_list.is_ok() {
            self.list.push((score, *deal));
        }
        by_list
    }

    fn merge(&mut self, rules: &Rules, second: &Tree) -> Result<(), Refusal> {
        let by_list = (rules.merge)(self, second).map_or(Ok(()), Err);
        if rules.held {
            let merged = self.tally.merge(&second.tally);
            assert_eq!(merged.as_ref().err(), by_list.as_ref().err(), "the tally's answer against the list's");
            if let Ok(tally) = merged {
                self.tally = tally;
            }
        }
        if by_list.is_ok() {
            self.list.extend(&second.list);
        }
        by_list
    }

    /// Law 78A by comparing one result of the score with every other in the list.
    fn matchpoints(&self, rules: &Rules, score: i32, deal: &Deal) -> Result<(u32, u32), Refusal> {
        let own = self.list.iter().position(|&(s, _)| s == score);
        let by_list = match ((rules.given)(self, score, deal), own) {
            (Some(refusal), _) => Err(refusal),
            (None, None) => Err((21, 0)),
            (None, Some(own)) => {
                let others = self.list.iter().enumerate().filter(|&(k, _)| k != own).map(|(_, &(s, _))| s);
                Ok(others.fold((0, 0), |(ns, ew), s| match s.cmp(&score) {
                    std::cmp::Ordering::Less => (ns + 2, ew),
                    std::cmp::Ordering::Equal => (ns + 1, ew + 1),
                    std::cmp::Ordering::Greater => (ns, ew + 2),
                }))
            }
        };
        if rules.held {
            assert_eq!(self.tally.matchpoints(score, deal), by_list, "the tally's matchpoints against the list's");
        }
        by_list
    }

    fn cell(&self, rules: &Rules, score: i32, deal: &Deal) -> Result<Cell, Refusal> {
        self.matchpoints(rules, score, deal).map(|(ns, _)| Cell::of(ns, self.list.len()))
    }

    /// The distinct scores, highest first, each with the number of times it stands in the list.
    pub fn entries(&self, held: bool) -> Vec<(i32, u32)> {
        let mut sorted: Vec<i32> = self.list.iter().map(|&(score, _)| score).collect();
        sorted.sort_unstable_by(|a, b| b.cmp(a));
        let mut entries: Vec<(i32, u32)> = Vec::new();
        for score in sorted {
            match entries.last_mut() {
                Some((last, count)) if *last == score => *count += 1,
                _ => entries.push((score, 1)),
            }
        }
        if held {
            assert!(self.tally.described(), "a tally as it is described");
            assert!(self.tally.entries().eq(entries.iter().copied()), "the tally's entries against the list's");
        }
        entries
    }
}

/// Runs calls on a stack of trees and writes what the program has to write.
#[derive(Default)]
pub struct Runner {
    pub stack: Vec<Tree>,
    pub output: String,
    /// How often each refusal occurred, by its number and its place.
    pub refusals: BTreeMap<Refusal, u64>,
    rules: Rules,
    lines: usize,
    stopped: bool,
}

impl Runner {
    /// A run by other rules.
    pub fn by(rules: Rules) -> Self {
        Runner { rules, ..Runner::default() }
    }

    /// Makes one call; after a call that the stack has no room or no tally for, nothing more is written.
    pub fn call(&mut self, call: Call) {
        if self.stopped {
            return;
        }
        self.lines += 1;
        match self.answer(call) {
            Some(Ok(text)) => self.output += &text,
            Some(Err((number, place))) => {
                *self.refusals.entry((number, place)).or_default() += 1;
                self.output += &match place {
                    0 => format!("refused {number}\n"),
                    _ => format!("refused {number} place {place}\n"),
                };
            }
            None => self.stop_at(self.lines),
        }
    }

    /// A line that is no call.
    pub fn unreadable(&mut self) {
        if !self.stopped {
            self.lines += 1;
            self.stop_at(self.lines);
        }
    }

    fn stop_at(&mut self, line: usize) {
        self.output += &format!("line {line} refused\n");
        self.stopped = true;
    }

    fn answer(&mut self, call: Call) -> Option<Result<String, Refusal>> {
        let rules = self.rules;
        let ok = |()| "ok\n".to_string();
        match call {
            Call::Fresh(board) => {
                if self.stack.len() == MOST_ON_STACK {
                    return None;
                }
                let tally = Tally::fresh(board);
                Some(tally.map(|tally| self.stack.push(Tree { board, list: Vec::new(), tally })).map(ok))
            }
            Call::Add(score, deal) => Some(self.stack.last_mut()?.add(&rules, score, &numbered(deal)).map(ok)),
            Call::Merge => {
                if self.stack.len() < 2 {
                    return None;
                }
                let second = self.stack.pop()?;
                Some(self.stack.last_mut()?.merge(&rules, &second).map(ok))
            }
            Call::Matchpoints(score, deal) => {
                let points = self.stack.last()?.matchpoints(&rules, score, &numbered(deal));
                Some(points.map(|(ns, ew)| format!("{ns} {ew}\n")))
            }
            Call::Cell(score, deal) => Some(self.stack.last()?.cell(&rules, score, &numbered(deal)).map(|cell| cell.line())),
            Call::Award(percent) => Some(Cell::award(percent).map(|cell| cell.line())),
        }
    }

    /// Ends the script: the top tally is written.
    pub fn finish(&mut self) {
        if self.stopped {
            return;
        }
        if let Some(top) = self.stack.last() {
            for (score, count) in top.entries(self.rules.held) {
                self.output += &format!("{score} {count}\n");
            }
        }
    }
}
