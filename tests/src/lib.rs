//! A judge, a writer, best play from an ending, a reader of Portable Bridge Notation, a tally, a sheet, a slip and a team match for duplicate bridge, written
//! from docs/RULES.md alone, and what is needed to compare the proved library with them: records of all shapes, damaged records, their contents, endings,
//! texts, tallies in bytes and forged ones, trees of tally calls, sheets, team matches.

pub mod auction;
pub mod best;
pub mod boards;
pub mod compare;
pub mod contents;
pub mod damage;
pub mod deal;
pub mod judge;
pub mod kept;
pub mod kinds;
pub mod law64;
pub mod making;
pub mod parts;
pub mod pbn;
pub mod pbn_texts;
pub mod pbn_trial;
pub mod penalty;
pub mod penalty_trial;
pub mod play;
pub mod random;
pub mod reader;
pub mod run;
pub mod score;
pub mod scripts;
pub mod sheet;
pub mod slip;
pub mod standings;
pub mod tally;
pub mod tally_calls;
pub mod tally_cases;
pub mod tally_trial;
pub mod team;
pub mod team_scripts;
pub mod tree;
pub mod trial;
pub mod words;
pub mod write_trial;
pub mod writer;

#[cfg(not(feature = "stand_in"))]
pub mod proved;
#[cfg(not(feature = "stand_in"))]
pub mod proved_tally;
#[cfg(feature = "stand_in")]
pub mod stand_in;
