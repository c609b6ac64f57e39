//! A record's fields packed into bytes, the most significant bit first.
use super::{cards_in, items, plain, Item};
use crate::contents::Contents;

/// How many bytes a record takes.
pub fn length(c: &Contents) -> usize {
    let claim = if c.marked == 0 { 1 } else { 5 };
    let width = |item: Item| item.widths().iter().sum::<u32>() as usize;
    let cards = if plain(&c.cards) { 6 * c.cards.len() } else { items(&c.cards).map(width).sum() };
    (7 + 9 + 2 * c.holders.len() + 9 + 6 * c.calls.len() + 6 + cards + claim).div_ceil(8)
}

/// The record's bytes, which fill the room.
pub fn pack(c: &Contents, room: &mut [u8]) {
    let mut out = Packer { room, at: 0, window: 0, held: 0 };
    out.put(c.board, 7);
    out.put(c.table, 9);
    out.row(&c.holders, 2);
    out.put(c.calls.len() as u32, 9);
    out.row(&c.calls, 6);
    out.put(cards_in(&c.cards) as u32, 6);
    if plain(&c.cards) {
        out.row(&c.cards, 6);
    } else {
        items(&c.cards).for_each(|item| out.item(item));
    }
    if c.marked == 0 {
        out.put(0, 1);
    } else {
        out.put(1, 1);
        out.put(c.claim, 4);
    }
    out.finish();
}

/// Bits on their way into the room, stored four bytes at a time.
struct Packer<'a> {
    room: &'a mut [u8],
    at: usize,
    window: u64,
    held: u32,
}

impl Packer<'_> {
    #[inline]
    fn put(&mut self, value: u32, width: u32) {
        self.window = self.window << width | u64::from(value);
        self.held += width;
        if self.held >= 32 {
            self.held -= 32;
            let word = (self.window >> self.held) as u32;
            self.room[self.at..self.at + 4].copy_from_slice(&word.to_be_bytes());
            self.at += 4;
        }
    }

    fn row(&mut self, values: &[u8], width: u32) {
        for &value in values {
            self.put(u32::from(value), width);
        }
    }

    fn item(&mut self, item: Item) {
        match item {
            Item::Card(card) => self.put(u32::from(card), 6),
            Item::Code(first, behind) => {
                for (&number, width) in [first].iter().chain(behind).zip(item.widths()) {
                    self.put(u32::from(number), width);
                }
            }
        }
    }

    /// The bytes that are left, the last one filled up with zero bits.
    fn finish(self) {
        let last = ((self.window << (32 - self.held)) as u32).to_be_bytes();
        let left = self.held.div_ceil(8) as usize;
        self.room[self.at..self.at + left].copy_from_slice(&last[..left]);
    }
}
