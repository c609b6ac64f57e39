//! A record's bits, most significant first.

/// What is left of a record. The first `held` bits are at the top of `window`; `rest` has the bytes after them.
pub struct Reader<'a> {
    rest: &'a [u8],
    window: u64,
    held: u32,
}

impl<'a> Reader<'a> {
    pub fn new(record: &'a [u8]) -> Self {
        Reader { rest: record, window: 0, held: 0 }
    }

    /// The next field of `width` bits, from 1 to 56, or nothing where the record ends before it is whole.
    #[inline]
    pub fn take(&mut self, width: u32) -> Option<u64> {
        if self.held < width {
            self.fill();
            if self.held < width {
                return None;
            }
        }
        let field = self.window >> (64 - width);
        self.window <<= width;
        self.held -= width;
        Some(field)
    }

    /// Takes in as many whole bytes as the window has room for. Bits of a byte that fits in part are the record's own,
    /// so that taking that byte in later changes none of them.
    #[inline]
    fn fill(&mut self) {
        if let Some(eight) = self.rest.first_chunk::<8>() {
            self.window |= u64::from_be_bytes(*eight) >> self.held;
            let whole = (64 - self.held) / 8;
            self.held += 8 * whole;
            self.rest = &self.rest[whole as usize..];
        } else {
            self.fill_at_end();
        }
    }

    #[cold]
    fn fill_at_end(&mut self) {
        while self.held <= 56 {
            let Some((&byte, rest)) = self.rest.split_first() else { return };
            self.window |= u64::from(byte) << (56 - self.held);
            self.held += 8;
            self.rest = rest;
        }
    }

    /// Whether only zero bits up to the byte's end are left.
    pub fn only_padding_left(&self) -> bool {
        self.rest.is_empty() && self.held < 8 && self.window == 0
    }
}
