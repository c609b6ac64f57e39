//! A record's parts, and its bytes by the layout table of docs/RULES.md. Counts and codes are written as they are given, right or wrong.
use crate::penalty::Code;

#[derive(Clone, Debug, Default)]
pub struct Parts {
    pub board: u64,
    pub table: u64,
    /// The holder of each card.
    pub deal: Vec<u64>,
    pub call_count: u64,
    pub calls: Vec<u64>,
    pub play_count: u64,
    pub cards: Vec<u64>,
    /// Exposures and choices in their order, each with the number of the card that it stands before.
    pub codes: Vec<(usize, Code)>,
    /// The claim, where the record is marked to have one.
    pub claim: Option<u64>,
    /// The padding bits, as the low bits of a byte.
    pub padding: u8,
    /// Bytes after the record's last.
    pub after: Vec<u8>,
}

impl Parts {
    /// Makes both counts those of the calls and cards that are there.
    pub fn count(&mut self) {
        self.call_count = self.calls.len() as u64;
        self.play_count = self.cards.len() as u64;
    }

    /// Leaves out all cards but the first so many, with the codes that stand before the others, and counts again.
    pub fn keep_cards(&mut self, count: usize) {
        self.cards.truncate(count);
        self.codes.retain(|&(place, _)| place < count);
        self.count();
    }

    /// The exposures and choices that stand before a card.
    pub fn codes_before(&self, place: usize) -> impl Iterator<Item = Code> + '_ {
        self.codes.iter().filter(move |(at, _)| *at == place).map(|&(_, code)| code)
    }

    /// The record's fields in their order, value and width, the padding left out; and where the fields of each code begin, from 0.
    pub fn fields(&self) -> (Vec<(u64, usize)>, Vec<usize>) {
        let (mut fields, mut codes) = (vec![(self.board, 7), (self.table, 9)], Vec::new());
        fields.extend(self.deal.iter().map(|&holder| (holder, 2)));
        fields.push((self.call_count, 9));
        fields.extend(self.calls.iter().map(|&call| (call, 6)));
        fields.push((self.play_count, 6));
        for place in 0..=self.cards.len() {
            for code in self.codes_before(place) {
                codes.push(fields.len());
                fields.extend(code.numbers().into_iter().zip(code.widths()));
            }
            fields.extend(self.cards.get(place).map(|&card| (card, 6)));
        }
        fields.push((u64::from(self.claim.is_some()), 1));
        fields.extend(self.claim.map(|tricks| (tricks, 4)));
        (fields, codes)
    }

    /// The number of padding bits.
    pub fn padding_bits(&self) -> usize {
        let bits: usize = self.fields().0.iter().map(|&(_, width)| width).sum();
        (8 - bits % 8) % 8
    }

    pub fn bytes(&self) -> Vec<u8> {
        let mut out = Writer::default();
        for (value, width) in self.fields().0 {
            out.put(value, width);
        }
        let spare = (8 - out.bits % 8) % 8;
        out.put(u64::from(self.padding) & ((1 << spare) - 1), spare);
        out.bytes.extend(&self.after);
        out.bytes
    }
}

#[derive(Default)]
struct Writer {
    bytes: Vec<u8>,
    bits: usize,
}

impl Writer {
    fn put(&mut self, value: u64, width: usize) {
        assert!(value >> width == 0, "{value} does not fit in {width} bits");
        for k in (0..width).rev() {
            if self.bits % 8 == 0 {
                self.bytes.push(0);
            }
            let last = self.bytes.len() - 1;
            self.bytes[last] |= ((value >> k & 1) as u8) << (7 - self.bits % 8);
            self.bits += 1;
        }
    }
}
