//! The proved judge, writer, best play, reader of Portable Bridge Notation, slip and Law 2, as the archive exports them.
use crate::contents::Contents;
use crate::judge::Lent;
use crate::kept::{self, Call};

extern "C" {
    fn judge_record(
        record: *const u8,
        record_len: usize,
        answer: *mut u8,
        answer_len: usize,
        list: *mut u8,
        list_len: usize,
        failures: *mut u8,
        failures_len: usize,
        winners: *mut u8,
        winners_len: usize,
    ) -> u32;
    fn judge_write_record(
        board: u32,
        table: u32,
        holders: *const u8,
        holders_len: usize,
        calls: *const u8,
        calls_len: usize,
        cards: *const u8,
        cards_len: usize,
        marked: u32,
        claim: u32,
        record: *mut u8,
        record_len: usize,
    ) -> u32;
    fn judge_best_play(record: *const u8, record_len: usize) -> u32;
    fn judge_read_pbn(text: *const u8, text_len: usize, table: u32, record: *mut u8, record_len: usize) -> u32;
    fn judge_slip(record: *const u8, record_len: usize, text: *mut u8, text_len: usize) -> u32;
    fn judge_dealer(board: u32) -> u32;
    fn judge_vulnerable(board: u32) -> u32;
}

/// The proved judge on slices. Rust's slices keep what its C interface trusts: true lengths and no overlap.
pub fn judge(record: &[u8], lent: &mut Lent) -> u32 {
    let Lent { answer, list, failures, winners } = lent;
    kept::call(Call::Record, &[], &[record], [answer, list, failures, winners], |[answer, list, failures, winners]| unsafe {
        judge_record(
            record.as_ptr(),
            record.len(),
            answer.as_mut_ptr(),
            answer.len(),
            list.as_mut_ptr(),
            list.len(),
            failures.as_mut_ptr(),
            failures.len(),
            winners.as_mut_ptr(),
            winners.len(),
        )
    })
}

/// The proved writer on slices.
pub fn write(c: &Contents, record: &mut [u8]) -> u32 {
    let numbers = [c.board, c.table, c.marked, c.claim];
    kept::call(Call::Write, &numbers, &[&c.holders, &c.calls, &c.cards], [record], |[record]| unsafe {
        judge_write_record(
            c.board,
            c.table,
            c.holders.as_ptr(),
            c.holders.len(),
            c.calls.as_ptr(),
            c.calls.len(),
            c.cards.as_ptr(),
            c.cards.len(),
            c.marked,
            c.claim,
            record.as_mut_ptr(),
            record.len(),
        )
    })
}

/// The proved best play on a slice.
pub fn best(record: &[u8]) -> u32 {
    kept::call(Call::BestPlay, &[], &[record], [], |_| unsafe { judge_best_play(record.as_ptr(), record.len()) })
}

/// The proved reader of Portable Bridge Notation on slices.
pub fn read_pbn(text: &[u8], table: u32, record: &mut [u8]) -> u32 {
    kept::call(Call::ReadPbn, &[table], &[text], [record], |[record]| unsafe {
        judge_read_pbn(text.as_ptr(), text.len(), table, record.as_mut_ptr(), record.len())
    })
}

/// The proved slip.
pub fn slip(record: &[u8], text: &mut [u8]) -> u32 {
    kept::call(Call::Slip, &[], &[record], [text], |[text]| unsafe {
        judge_slip(record.as_ptr(), record.len(), text.as_mut_ptr(), text.len())
    })
}

/// The proved dealer and vulnerable sides of a board.
pub fn dealer(board: u32) -> u32 {
    kept::call(Call::Dealer, &[board], &[], [], |_| unsafe { judge_dealer(board) })
}

pub fn vulnerable(board: u32) -> u32 {
    kept::call(Call::Vulnerable, &[board], &[], [], |_| unsafe { judge_vulnerable(board) })
}
