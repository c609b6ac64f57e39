//! The four hands, each a word with bit c set for card c.

pub type Hands = [u64; 4];

const HALF: u32 = 26;

/// The even bits of a word, side by side.
fn even_bits(word: u64) -> u32 {
    let mut x = word & 0x5555_5555_5555_5555;
    x = (x | x >> 1) & 0x3333_3333_3333_3333;
    x = (x | x >> 2) & 0x0f0f_0f0f_0f0f_0f0f;
    x = (x | x >> 4) & 0x00ff_00ff_00ff_00ff;
    x = (x | x >> 8) & 0x0000_ffff_0000_ffff;
    (x | x >> 16) as u32
}

/// One bit of the holder of each of 26 cards, the first card lowest; the record has the first card highest.
fn cards(bits: u32) -> u64 {
    u64::from(bits.reverse_bits() >> (32 - HALF))
}

/// The hands from the holders of cards 0 to 25 and of cards 26 to 51, two bits each.
pub fn hands(first: u64, second: u64) -> Hands {
    let low = cards(even_bits(first)) | cards(even_bits(second)) << HALF;
    let high = cards(even_bits(first >> 1)) | cards(even_bits(second >> 1)) << HALF;
    let all = (1 << (2 * HALF)) - 1;
    [all & !high & !low, low & !high, high & !low, high & low]
}

/// The first seat, in the order N E S W, that does not have thirteen cards.
pub fn without_thirteen(hands: &Hands) -> Option<u32> {
    hands.iter().position(|hand| hand.count_ones() != 13).map(|seat| seat as u32)
}
