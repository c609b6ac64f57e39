//! The judge, the writer, best play, the reader of Portable Bridge Notation and the calls on tallies written here, behind the C interfaces of the proved
//! ones, to try the C side with others.
use crate::contents::Contents;
use crate::judge::Lent;
use crate::tally_calls;

/// # Safety
/// Each pointer has as many bytes as its length says, and no two slices overlap. A null pointer has no bytes.
#[no_mangle]
pub unsafe extern "C" fn judge_record(
    record: *const u8,
    record_len: usize,
    answer: *mut u8,
    answer_len: usize,
    list: *mut u8,
    list_len: usize,
    failures: *mut u8,
    failures_len: usize,
    winners: *mut u8,
    winners_len: usize,
) -> u32 {
    let (answer, list) = (lent(answer, answer_len), lent(list, list_len));
    let (failures, winners) = (lent(failures, failures_len), lent(winners, winners_len));
    crate::judge::judge(given(record, record_len), &mut Lent { answer, list, failures, winners })
}

/// # Safety
/// As for `judge_record`.
#[no_mangle]
pub unsafe extern "C" fn judge_write_record(
    board: u32,
    table: u32,
    holders: *const u8,
    holders_len: usize,
    calls: *const u8,
    calls_len: usize,
    cards: *const u8,
    cards_len: usize,
    marked: u32,
    claim: u32,
    record: *mut u8,
    record_len: usize,
) -> u32 {
    let list = |at, length| given(at, length).to_vec();
    let (holders, calls, cards) = (list(holders, holders_len), list(calls, calls_len), list(cards, cards_len));
    crate::writer::write(&Contents { board, table, holders, calls, cards, marked, claim }, lent(record, record_len))
}

/// # Safety
/// As for `judge_record`.
#[no_mangle]
pub unsafe extern "C" fn judge_best_play(record: *const u8, record_len: usize) -> u32 {
    crate::best::best(given(record, record_len))
}

/// # Safety
/// As for `judge_record`.
#[no_mangle]
pub unsafe extern "C" fn judge_read_pbn(text: *const u8, text_len: usize, table: u32, record: *mut u8, record_len: usize) -> u32 {
    crate::pbn::read(given(text, text_len), table, lent(record, record_len))
}

/// # Safety
/// As for `judge_record`.
#[no_mangle]
pub unsafe extern "C" fn judge_slip(record: *const u8, record_len: usize, text: *mut u8, text_len: usize) -> u32 {
    crate::slip::written(given(record, record_len), lent(text, text_len))
}

#[no_mangle]
pub extern "C" fn judge_dealer(board: u32) -> u32 {
    crate::boards::dealer(board)
}

#[no_mangle]
pub extern "C" fn judge_vulnerable(board: u32) -> u32 {
    crate::boards::vulnerable(board)
}

unsafe fn given<'a>(at: *const u8, length: usize) -> &'a [u8] {
    if at.is_null() {
        &[]
    } else {
        std::slice::from_raw_parts(at, length)
    }
}

/// A lent buffer. Rust's slices have an address even where they have no bytes.
unsafe fn lent<'a>(at: *mut u8, length: usize) -> &'a mut [u8] {
    if at.is_null() {
        &mut []
    } else {
        std::slice::from_raw_parts_mut(at, length)
    }
}

/// # Safety
/// As for `judge_record`, here and below.
#[no_mangle]
pub unsafe extern "C" fn tally_fresh(board: u32, out: *mut u8, out_len: usize) -> u32 {
    tally_calls::fresh(board, lent(out, out_len))
}

/// # Safety
#[no_mangle]
pub unsafe extern "C" fn tally_add(
    tally: *const u8,
    tally_len: usize,
    score: i32,
    holders: *const u8,
    holders_len: usize,
    out: *mut u8,
    out_len: usize,
) -> u32 {
    tally_calls::add(given(tally, tally_len), score, given(holders, holders_len), lent(out, out_len))
}

/// # Safety
#[no_mangle]
pub unsafe extern "C" fn tally_merge(a: *const u8, a_len: usize, b: *const u8, b_len: usize, out: *mut u8, out_len: usize) -> u32 {
    tally_calls::merge(given(a, a_len), given(b, b_len), lent(out, out_len))
}

/// # Safety
#[no_mangle]
pub unsafe extern "C" fn tally_matchpoints(
    tally: *const u8,
    tally_len: usize,
    score: i32,
    holders: *const u8,
    holders_len: usize,
    points: *mut u8,
    points_len: usize,
) -> u32 {
    tally_calls::matchpoints(given(tally, tally_len), score, given(holders, holders_len), lent(points, points_len))
}

/// # Safety
#[no_mangle]
pub unsafe extern "C" fn tally_award(percent: u32, cell: *mut u8, cell_len: usize) -> u32 {
    tally_calls::award(percent, lent(cell, cell_len))
}

/// # Safety
#[no_mangle]
pub unsafe extern "C" fn tally_cell(
    tally: *const u8,
    tally_len: usize,
    score: i32,
    holders: *const u8,
    holders_len: usize,
    cell: *mut u8,
    cell_len: usize,
) -> u32 {
    tally_calls::cell(given(tally, tally_len), score, given(holders, holders_len), lent(cell, cell_len))
}

/// # Safety
#[no_mangle]
pub unsafe extern "C" fn tally_hundredths(
    tally: *const u8,
    tally_len: usize,
    score: i32,
    holders: *const u8,
    holders_len: usize,
    shares: *mut u8,
    shares_len: usize,
) -> u32 {
    tally_calls::hundredths(given(tally, tally_len), score, given(holders, holders_len), lent(shares, shares_len))
}
