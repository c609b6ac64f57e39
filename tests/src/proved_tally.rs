//! The proved calls on tallies in bytes, as the archive exports them.
use crate::kept::{self, Call};
use crate::tally_calls::Calls;

extern "C" {
    fn tally_fresh(board: u32, out: *mut u8, out_len: usize) -> u32;
    fn tally_add(
        tally: *const u8,
        tally_len: usize,
        score: i32,
        holders: *const u8,
        holders_len: usize,
        out: *mut u8,
        out_len: usize,
    ) -> u32;
    fn tally_merge(a: *const u8, a_len: usize, b: *const u8, b_len: usize, out: *mut u8, out_len: usize) -> u32;
    fn tally_matchpoints(
        tally: *const u8,
        tally_len: usize,
        score: i32,
        holders: *const u8,
        holders_len: usize,
        points: *mut u8,
        points_len: usize,
    ) -> u32;
    fn tally_award(percent: u32, cell: *mut u8, cell_len: usize) -> u32;
    fn tally_cell(
        tally: *const u8,
        tally_len: usize,
        score: i32,
        holders: *const u8,
        holders_len: usize,
        cell: *mut u8,
        cell_len: usize,
    ) -> u32;
    fn tally_hundredths(
        tally: *const u8,
        tally_len: usize,
        score: i32,
        holders: *const u8,
        holders_len: usize,
        shares: *mut u8,
        shares_len: usize,
    ) -> u32;
}

pub const CALLS: Calls = Calls { fresh, add, merge, matchpoints, award, cell, hundredths };

// Rust's slices keep what the C interface trusts: true lengths and no overlap with what is written.

fn fresh(board: u32, out: &mut [u8]) -> u32 {
    kept::call(Call::Fresh, &[board], &[], [out], |[out]| unsafe { tally_fresh(board, out.as_mut_ptr(), out.len()) })
}

fn add(tally: &[u8], score: i32, holders: &[u8], out: &mut [u8]) -> u32 {
    of_a_score(Call::Add, tally_add, tally, score, holders, out)
}

pub fn merge(a: &[u8], b: &[u8], out: &mut [u8]) -> u32 {
    kept::call(Call::Merge, &[], &[a, b], [out], |[out]| unsafe {
        tally_merge(a.as_ptr(), a.len(), b.as_ptr(), b.len(), out.as_mut_ptr(), out.len())
    })
}

fn matchpoints(tally: &[u8], score: i32, holders: &[u8], points: &mut [u8]) -> u32 {
    of_a_score(Call::Matchpoints, tally_matchpoints, tally, score, holders, points)
}

fn award(percent: u32, cell: &mut [u8]) -> u32 {
    kept::call(Call::Award, &[percent], &[], [cell], |[cell]| unsafe { tally_award(percent, cell.as_mut_ptr(), cell.len()) })
}

fn cell(tally: &[u8], score: i32, holders: &[u8], cell: &mut [u8]) -> u32 {
    of_a_score(Call::Cell, tally_cell, tally, score, holders, cell)
}

fn hundredths(tally: &[u8], score: i32, holders: &[u8], shares: &mut [u8]) -> u32 {
    of_a_score(Call::Hundredths, tally_hundredths, tally, score, holders, shares)
}

/// A call of a tally, a score and its deal.
type OfAScore = unsafe extern "C" fn(*const u8, usize, i32, *const u8, usize, *mut u8, usize) -> u32;

fn of_a_score(call: Call, proved: OfAScore, tally: &[u8], score: i32, holders: &[u8], out: &mut [u8]) -> u32 {
    kept::call(call, &[score as u32], &[tally, holders], [out], |[out]| unsafe {
        proved(tally.as_ptr(), tally.len(), score, holders.as_ptr(), holders.len(), out.as_mut_ptr(), out.len())
    })
}
