//! Which wire an identifier code names. There are at most 1,024, so the table has a fixed size.

pub const LONGEST: usize = 8;

/// The bytes of a code as one number, the first byte lowest.
#[inline]
pub fn packed(code: &[u8]) -> u64 {
    code.iter().rev().fold(0, |number, byte| number << 8 | u64::from(*byte))
}

const SLOT_BITS: u32 = 12;
const SLOTS: usize = 1 << SLOT_BITS;

/// A hash table with linear probing. A slot with code 0 is free: no declared code has a byte 0.
pub struct Codes {
    slots: Vec<(u64, usize)>,
}

impl Codes {
    pub fn new() -> Codes {
        Codes { slots: vec![(0, 0); SLOTS] }
    }

    /// The slot that has this code, or the free one where it belongs.
    #[inline]
    fn slot(&self, packed: u64) -> usize {
        let mut slot = (packed.wrapping_mul(0x9e37_79b9_7f4a_7c15) >> (64 - SLOT_BITS)) as usize;
        while self.slots[slot].0 != packed && self.slots[slot].0 != 0 {
            slot = (slot + 1) % SLOTS;
        }
        slot
    }

    #[inline]
    pub fn find_packed(&self, packed: u64) -> Option<usize> {
        let (code, wire) = self.slots[self.slot(packed)];
        (code == packed && packed != 0).then_some(wire)
    }

    /// Bytes 0 at the end are lost by packing, so a code that ends with one is not looked for.
    #[inline]
    pub fn find(&self, code: &[u8]) -> Option<usize> {
        match code.last() {
            Some(0) | None => None,
            Some(_) => self.find_packed(packed(code)),
        }
    }

    pub fn insert(&mut self, code: &[u8], wire: usize) {
        let slot = self.slot(packed(code));
        self.slots[slot] = (packed(code), wire);
    }
}
