//! Texts with a line too many or too few, or with lines in other places.
use super::{Laid, TAGS};
use crate::random::Random;

const TAG_LINES: [&str; 8] = [
    "[Event \"Club evening\"]\n",
    "[Site \"\"]\n",
    "[Dealer \"N\"]\n",
    "[Vulnerable \"None\"]\n",
    "[Contract \"3NT\"]\n",
    "[Result \"9\"]\n",
    "[Declarer \"S\"]\n",
    "[Note \"1:forcing\"]\n",
];
const COMMENTS: [&str; 5] = ["% PBN 2.1\n", "% EXPORT\n", "{a comment}\n", "; a comment\n", "{\n"];

pub fn no_last_newline(_: &mut Random, laid: &mut Laid) -> Option<usize> {
    laid.lines.last_mut()?.pop();
    Some(laid.lines.len())
}

/// Behind calls, a line of calls or the Play tag could go on; so there it is another.
pub fn extra_line(random: &mut Random, laid: &mut Laid) -> Option<usize> {
    let any = ["\n", " \n", "C2 C3 C4 C5\n", "[Board \"2\"]\n", "%\n", "Pass Pass Pass\n", "[Play \"N\"]\n"];
    let line = *random.pick(if laid.play { &any } else { &any[..5] });
    laid.lines.push(line.to_string());
    Some(laid.lines.len())
}

/// A line without its newline is not there whole, whatever it says.
pub fn half_a_line(random: &mut Random, laid: &mut Laid) -> Option<usize> {
    laid.lines.push(random.pick(&[" ", "P", "Pass", "C2 C3 C4 C5", "[Play \"N\"]", "\0", "\r"]).to_string());
    Some(laid.lines.len())
}

pub fn twelve_lines(random: &mut Random, laid: &mut Laid) -> Option<usize> {
    let line = laid.some_cards(random)?;
    laid.lines.remove(line);
    Some(laid.lines.len() + 1)
}

pub fn fourteen_lines(random: &mut Random, laid: &mut Laid) -> Option<usize> {
    let line = laid.some_cards(random)?;
    laid.lines.insert(line, laid.lines[line].clone());
    Some(laid.lines.len())
}

pub fn no_play_line(_: &mut Random, laid: &mut Laid) -> Option<usize> {
    let line = laid.play_line()?;
    laid.lines.remove(line);
    Some(line + 1)
}

pub fn play_at_once(_: &mut Random, laid: &mut Laid) -> Option<usize> {
    let line = laid.play_line()?;
    laid.lines.drain(TAGS..line);
    Some(TAGS + 1)
}

/// Behind Play too, where the cards are missing.
pub fn ends_behind_a_tag(random: &mut Random, laid: &mut Laid) -> Option<usize> {
    let kept = laid.play_line().filter(|_| random.percent(30)).map_or(random.between(0, TAGS), |line| line + 1);
    laid.lines.truncate(kept);
    Some(kept + 1)
}

pub fn another_tag(random: &mut Random, laid: &mut Laid) -> Option<usize> {
    let tag = *random.pick(&TAG_LINES);
    laid.put_in(random, tag)
}

pub fn comment(random: &mut Random, laid: &mut Laid) -> Option<usize> {
    let comment = *random.pick(&COMMENTS);
    laid.put_in(random, comment)
}

pub fn tag_left_out(random: &mut Random, laid: &mut Laid) -> Option<usize> {
    let line = random.below(TAGS);
    laid.lines.remove(line);
    Some(line + 1)
}

pub fn tag_twice(random: &mut Random, laid: &mut Laid) -> Option<usize> {
    let line = laid.play_line().filter(|_| random.percent(30)).unwrap_or(random.below(TAGS));
    laid.lines.insert(line, laid.lines[line].clone());
    Some(line + 2)
}

pub fn tags_exchanged(random: &mut Random, laid: &mut Laid) -> Option<usize> {
    let line = random.below(TAGS - 1);
    laid.lines.swap(line, line + 1);
    Some(line + 1)
}
