//! Decimal numbers and ranges of indices.

pub enum Number {
    Fits(u64),
    Above64Bits,
}

/// A number of any length; `None` where the bytes are no decimal number.
pub fn decimal(bytes: &[u8]) -> Option<Number> {
    if bytes.is_empty() || !bytes.iter().all(u8::is_ascii_digit) {
        return None;
    }
    let next = |number: u64, digit: &u8| number.checked_mul(10)?.checked_add(u64::from(digit - b'0'));
    Some(bytes.iter().try_fold(0, next).map_or(Number::Above64Bits, Number::Fits))
}

/// `[i]` or `[i:j]`
pub struct Brackets {
    /// i and j, or i twice; `None` where one is above 64 bits.
    pub ends: Option<(u64, u64)>,
    pub is_pair: bool,
}

impl Brackets {
    pub fn read(word: &[u8]) -> Option<Brackets> {
        let inside = word.strip_prefix(b"[")?.strip_suffix(b"]")?;
        let colon = inside.iter().position(|byte| *byte == b':');
        let left = decimal(&inside[..colon.unwrap_or(inside.len())])?;
        let ends = match (colon, left) {
            (Some(colon), left) => match (left, decimal(&inside[colon + 1..])?) {
                (Number::Fits(left), Number::Fits(right)) => Some((left, right)),
                _ => None,
            },
            (None, Number::Fits(index)) => Some((index, index)),
            (None, Number::Above64Bits) => None,
        };
        Some(Brackets { ends, is_pair: colon.is_some() })
    }

    /// The range that the end of a name declares: not in every name, and `[i]` only for one bit.
    pub fn at_end_of(name: &[u8], width: u32) -> Option<Brackets> {
        let open = name.iter().rposition(|byte| *byte == b'[')?;
        let is_escaped = name[0] == b'\\';
        if open == 0 || is_escaped && (open == 1 || name[open - 1] != b'\\') {
            return None;
        }
        Brackets::read(&name[open..]).filter(|brackets| brackets.is_pair || width == 1)
    }

    /// The ends, where they are so far apart as the width says.
    pub fn of_width(&self, width: u32) -> Option<(u64, u64)> {
        // The distance is compared, since the width of a range of all indices has 65 bits.
        self.ends.filter(|(left, right)| left.abs_diff(*right) == u64::from(width) - 1)
    }
}
