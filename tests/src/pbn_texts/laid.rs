//! Texts whose lines are not those of the subset, in each way that one line can be wrong.
use super::dealt;
use crate::pbn::{Game, LAST_LINE};
use crate::random::Random;

mod lines;

/// The lines of a text, each with its newline.
pub struct Laid {
    lines: Vec<String>,
    /// How many of them have calls; they begin behind the three tags.
    calls: usize,
    /// Whether the Play tag and the cards follow.
    play: bool,
}

/// One way to lay a text wrong: its name, and what does it. It gives the line that a reader has to name, nothing where this text cannot be made wrong so.
pub struct Kind {
    pub name: &'static str,
    spoil: fn(&mut Random, &mut Laid) -> Option<usize>,
}

/// The lines of the tags, from 0.
const TAGS: usize = 3;

pub const KINDS: [Kind; 31] = [
    Kind { name: "lines end in CR LF", spoil: cr_lf },
    Kind { name: "one line ends in CR LF", spoil: one_cr_lf },
    Kind { name: "the last newline is missing", spoil: lines::no_last_newline },
    Kind { name: "a line behind the end", spoil: lines::extra_line },
    Kind { name: "half a line behind the end", spoil: lines::half_a_line },
    Kind { name: "a short line of calls in the middle", spoil: short_calls },
    Kind { name: "five calls in a line", spoil: |random, laid| laid.one_more(random, Laid::some_calls, "Pass") },
    Kind { name: "five cards in a line", spoil: |random, laid| laid.one_more(random, Laid::some_cards, "C2") },
    Kind { name: "three cards in a line", spoil: three_cards },
    Kind { name: "12 lines of cards", spoil: lines::twelve_lines },
    Kind { name: "14 lines of cards", spoil: lines::fourteen_lines },
    Kind { name: "cards without the Play tag", spoil: lines::no_play_line },
    Kind { name: "Play in the place of calls", spoil: lines::play_at_once },
    Kind { name: "nothing behind a tag", spoil: lines::ends_behind_a_tag },
    Kind { name: "an empty line", spoil: |random, laid| laid.put_in(random, "\n") },
    Kind { name: "another tag", spoil: lines::another_tag },
    Kind { name: "a comment or an escaped line", spoil: lines::comment },
    Kind { name: "a tag left out", spoil: lines::tag_left_out },
    Kind { name: "a tag twice", spoil: lines::tag_twice },
    Kind { name: "two tags exchanged", spoil: lines::tags_exchanged },
    Kind { name: "a byte-order mark", spoil: byte_order_mark },
    Kind { name: "a number that is no board", spoil: no_board },
    Kind { name: "no dealer's letter", spoil: |random, laid| laid.seat(random, 2, "Auction") },
    Kind { name: "no leader's letter", spoil: no_leader },
    Kind { name: "a word that is no call", spoil: |random, laid| laid.word(random, Laid::some_calls, &NO_CALLS) },
    Kind { name: "a word that is no card", spoil: |random, laid| laid.word(random, Laid::some_cards, &NO_CARDS) },
    Kind { name: "two spaces", spoil: |random, laid| laid.in_place_of_a_space(random, "  ") },
    Kind { name: "a tab", spoil: |random, laid| laid.in_place_of_a_space(random, "\t") },
    Kind { name: "a space in front", spoil: space_in_front },
    Kind { name: "a space behind", spoil: space_behind },
    Kind { name: "a small or capital letter", spoil: other_case },
];

const NO_CALLS: [&str; 28] = [
    "1N", "AP", "8C", "0C", "XXX", "pass", "PASS", "P", "Pas", "Passs", "x", "xx", "1nt", "1c", "NT", "C1", "-", "*", "+", "?", "Pass!",
    "1C=1=", "$1", "7NTX", "10C", "^S", "1", "SA",
];
const NO_CARDS: [&str; 20] =
    ["S10", "sA", "Sa", "St", "2S", "S1", "S0", "SX", "NA", "-", "--", "*", "+", "S", "A", "SAA", "SA!", "SA=1=", "1S", "Pass"];

impl Laid {
    pub fn of(game: &Game) -> Laid {
        let lines = game.lines().into_iter().map(|line| line + "\n").collect();
        Laid { lines, calls: game.calls.len().div_ceil(4), play: game.play.is_some() }
    }

    pub fn bytes(&self) -> Vec<u8> {
        self.lines.concat().into_bytes()
    }

    /// Lays the text wrong; the place that a reader has to give.
    pub fn spoil(&mut self, random: &mut Random, kind: &Kind) -> Option<usize> {
        (kind.spoil)(random, self).map(|line| line.min(LAST_LINE))
    }

    /// Puts a word that is no call into the last line of calls.
    pub fn spoil_last_calls(&mut self, random: &mut Random) -> usize {
        let line = TAGS + self.calls - 1;
        self.other_word(random, line, &NO_CALLS).min(LAST_LINE)
    }

    /// The line of the Play tag, from 0.
    fn play_line(&self) -> Option<usize> {
        self.play.then_some(TAGS + self.calls)
    }

    fn some_calls(&self, random: &mut Random) -> Option<usize> {
        Some(TAGS + random.below(self.calls))
    }

    fn some_cards(&self, random: &mut Random) -> Option<usize> {
        Some(self.play_line()? + random.between(1, 13))
    }

    /// A line of whatever kind.
    fn some_line(&self, random: &mut Random) -> usize {
        if random.percent(30) {
            random.below(TAGS)
        } else {
            random.below(self.lines.len())
        }
    }

    /// What a line says, its newline left out.
    fn said(&self, line: usize) -> &str {
        self.lines[line].trim_end_matches('\n')
    }

    fn put_in(&mut self, random: &mut Random, line: &str) -> Option<usize> {
        let at = random.below(self.lines.len() + 1);
        self.lines.insert(at, line.to_string());
        Some(at + 1)
    }

    fn one_more(&mut self, random: &mut Random, of: fn(&Laid, &mut Random) -> Option<usize>, word: &str) -> Option<usize> {
        let line = of(self, random)?;
        let more = 5 - self.said(line).split(' ').count();
        self.lines[line] = format!("{}{}\n", self.said(line), format!(" {word}").repeat(more));
        Some(line + 1)
    }

    fn other_word(&mut self, random: &mut Random, line: usize, wrong: &[&str]) -> usize {
        let mut words: Vec<&str> = self.said(line).split(' ').collect();
        let which = random.below(words.len());
        words[which] = *random.pick(wrong);
        self.lines[line] = words.join(" ") + "\n";
        line + 1
    }

    fn word(&mut self, random: &mut Random, of: fn(&Laid, &mut Random) -> Option<usize>, wrong: &[&str]) -> Option<usize> {
        let line = of(self, random)?;
        Some(self.other_word(random, line, wrong))
    }

    /// A tag that names no seat.
    fn seat(&mut self, random: &mut Random, line: usize, name: &str) -> Option<usize> {
        let letter = *random.pick(&["n", "s", "", "NE", "X", "0", " ", "North", "N "]);
        let plain = format!("[{name} \"{letter}\"]\n");
        let unquoted = format!("[{name} N]\n");
        let cut = format!("[{name} \"N\"\n");
        self.lines[line] = random.pick(&[plain.clone(), plain, unquoted, cut]).clone();
        Some(line + 1)
    }

    fn in_place_of_a_space(&mut self, random: &mut Random, other: &str) -> Option<usize> {
        let line = self.some_line(random);
        let spaces: Vec<usize> = self.lines[line].match_indices(' ').map(|(at, _)| at).collect();
        if spaces.is_empty() {
            return None;
        }
        let at = *random.pick(&spaces);
        self.lines[line].replace_range(at..at + 1, other);
        Some(line + 1)
    }

    /// A wrong Deal line.
    pub fn spoil_deal(&mut self, random: &mut Random, kind: &dealt::Kind) -> Option<usize> {
        self.lines[1] = dealt::spoilt(random, self.said(1), kind)? + "\n";
        Some(2)
    }
}

fn cr_lf(_: &mut Random, laid: &mut Laid) -> Option<usize> {
    laid.lines.iter_mut().for_each(|line| *line = line.replace('\n', "\r\n"));
    Some(1)
}

fn one_cr_lf(random: &mut Random, laid: &mut Laid) -> Option<usize> {
    let line = laid.some_line(random);
    let end = *random.pick(&["\r\n", "\r"]);
    laid.lines[line] = laid.lines[line].replace('\n', end);
    Some(line + 1)
}

/// Up to the short line it could be the last one, so the line behind it is named.
fn short_calls(random: &mut Random, laid: &mut Laid) -> Option<usize> {
    if laid.calls < 2 {
        return None;
    }
    let line = TAGS + random.below(laid.calls - 1);
    let words: Vec<&str> = laid.said(line).split(' ').collect();
    laid.lines[line] = words[..random.between(1, 3)].join(" ") + "\n";
    Some(line + 2)
}

fn three_cards(random: &mut Random, laid: &mut Laid) -> Option<usize> {
    let line = laid.some_cards(random)?;
    let words: Vec<&str> = laid.said(line).split(' ').collect();
    laid.lines[line] = words[..random.between(1, 3)].join(" ") + "\n";
    Some(line + 1)
}

fn byte_order_mark(_: &mut Random, laid: &mut Laid) -> Option<usize> {
    laid.lines[0].insert(0, '\u{feff}');
    Some(1)
}

fn no_board(random: &mut Random, laid: &mut Laid) -> Option<usize> {
    let number =
        *random.pick(&["0", "00", "07", "007", "1000", "1270", "", "-1", "+1", " 7", "7 ", "7.", "a", "1a", "#", "?", "4294967297"]);
    laid.lines[0] = format!("[Board \"{number}\"]\n");
    Some(1)
}

fn no_leader(random: &mut Random, laid: &mut Laid) -> Option<usize> {
    let line = laid.play_line()?;
    laid.seat(random, line, "Play")
}

fn space_in_front(random: &mut Random, laid: &mut Laid) -> Option<usize> {
    let line = laid.some_line(random);
    laid.lines[line].insert(0, ' ');
    Some(line + 1)
}

fn space_behind(random: &mut Random, laid: &mut Laid) -> Option<usize> {
    let line = laid.some_line(random);
    laid.lines[line] = format!("{} \n", laid.said(line));
    Some(line + 1)
}

/// Every letter counts as it is printed.
fn other_case(random: &mut Random, laid: &mut Laid) -> Option<usize> {
    let line = laid.some_line(random);
    let letters: Vec<usize> = laid.lines[line].match_indices(char::is_alphabetic).map(|(at, _)| at).collect();
    if letters.is_empty() {
        return None;
    }
    let at = *random.pick(&letters);
    let letter = laid.lines[line].as_bytes()[at];
    laid.lines[line].replace_range(at..at + 1, &char::from(letter ^ 0x20).to_string());
    Some(line + 1)
}
