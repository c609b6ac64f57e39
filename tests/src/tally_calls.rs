//! The seven calls on tallies in bytes, as C makes them, by docs/RULES.md.
use crate::sheet;
use crate::tally::{Cell, Refusal, Tally, TALLY_BYTES};

/// A score with the holders of the cards, asked about or added, beside a tally.
pub type Asked = fn(tally: &[u8], score: i32, holders: &[u8], out: &mut [u8]) -> u32;

/// A set of the calls: the ones here, the proved ones, or ones with a fault.
#[derive(Clone, Copy)]
pub struct Calls {
    pub fresh: fn(board: u32, out: &mut [u8]) -> u32,
    pub add: Asked,
    pub merge: fn(a: &[u8], b: &[u8], out: &mut [u8]) -> u32,
    pub matchpoints: Asked,
    pub award: fn(percent: u32, cell: &mut [u8]) -> u32,
    pub cell: Asked,
    pub hundredths: Asked,
}

pub const CALLS: Calls = Calls { fresh, add, merge, matchpoints, award, cell, hundredths };

/// Puts what is answered into a buffer that needs so many bytes; 1 where it is shorter, before the call is made.
fn put<const N: usize>(out: &mut [u8], answer: impl FnOnce() -> Result<[u8; N], Refusal>) -> u32 {
    let Some(front) = out.get_mut(..N) else { return 1024 };
    match answer() {
        Ok(bytes) => {
            front.copy_from_slice(&bytes);
            0
        }
        Err((number, place)) => 1024 * number + place,
    }
}

fn read(bytes: &[u8]) -> Result<Tally, Refusal> {
    Tally::read(bytes).ok_or((17, 0))
}

pub fn fresh(board: u32, out: &mut [u8]) -> u32 {
    put::<TALLY_BYTES>(out, || Tally::fresh(i32::try_from(board).unwrap_or(0)).map(|t| t.bytes()))
}

pub fn add(tally: &[u8], score: i32, holders: &[u8], out: &mut [u8]) -> u32 {
    put::<TALLY_BYTES>(out, || {
        let mut tally = read(tally)?;
        tally.add(score, holders)?;
        Ok(tally.bytes())
    })
}

pub fn merge(a: &[u8], b: &[u8], out: &mut [u8]) -> u32 {
    put::<TALLY_BYTES>(out, || Ok(read(a)?.merge(&read(b)?)?.bytes()))
}

pub fn matchpoints(tally: &[u8], score: i32, holders: &[u8], points: &mut [u8]) -> u32 {
    put::<4>(points, || {
        let (ns, ew) = read(tally)?.matchpoints(score, holders)?;
        Ok((ns << 16 | ew).to_be_bytes())
    })
}

/// A byte for what the cell is, and the bits of its float.
fn cell_bytes(cell: Cell) -> [u8; 9] {
    let (kind, bits) = match cell {
        Cell::Played(x) => (0, x.to_bits()),
        Cell::Awarded(x) => (1, x.to_bits()),
        Cell::Alone => (2, 0),
    };
    let mut bytes = [kind; 9];
    bytes[1..].copy_from_slice(&bits.to_be_bytes());
    bytes
}

pub fn award(percent: u32, cell: &mut [u8]) -> u32 {
    put::<9>(cell, || Cell::award(i32::try_from(percent).unwrap_or(0)).map(cell_bytes))
}

pub fn cell(tally: &[u8], score: i32, holders: &[u8], cell: &mut [u8]) -> u32 {
    put::<9>(cell, || {
        let tally = read(tally)?;
        let (ns, _) = tally.matchpoints(score, holders)?;
        Ok(cell_bytes(Cell::of(ns, tally.results())))
    })
}

/// The shares of both sides, two bytes each.
pub fn hundredths(tally: &[u8], score: i32, holders: &[u8], shares: &mut [u8]) -> u32 {
    put::<4>(shares, || {
        let tally = read(tally)?;
        let (ns, ew) = tally.matchpoints(score, holders)?;
        let [ns, ew] = [ns, ew].map(|points| sheet::hundredths(points, tally.results()).unwrap_or(65_535));
        Ok((ns << 16 | ew).to_be_bytes())
    })
}
