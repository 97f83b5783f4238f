//! Fields of Protocol Buffers messages, read for explanations only: the library alone judges. Any bytes are survived.

/// A field whose tag could be read. `end` is absent where its value does not fit the message.
#[derive(Clone, Copy, Debug, PartialEq, Eq)]
pub struct Field {
    /// Where the tag starts.
    pub tag: usize,
    pub number: u64,
    pub wire: u64,
    /// Where the value starts, after the length if there is one.
    pub value: usize,
    pub end: Option<usize>,
    /// The number, for wire type 0; the length, for wire type 2.
    pub varint: u64,
}

impl Field {
    /// Whether what stands for its tag is one, by its number and its wire type.
    pub fn has_tag(&self) -> bool {
        (1..1 << 29).contains(&self.number) && matches!(self.wire, 0 | 1 | 2 | 5)
    }
}

/// A varint inside `bytes[at..end]`, padded or not, and where it ends.
pub fn varint(bytes: &[u8], at: usize, end: usize) -> Option<(u64, usize)> {
    let mut value = 0u64;
    for (i, byte) in bytes.get(at..end)?.iter().take(10).enumerate() {
        value |= u64::from(byte & 0x7F).checked_shl(7 * i as u32).unwrap_or(0);
        if byte & 0x80 == 0 {
            return Some((value, at + i + 1));
        }
    }
    None
}

/// How many bytes the varint of a number needs.
pub fn shortest(number: u64) -> usize {
    (1..10).find(|bytes| number >> (7 * bytes) == 0).unwrap_or(10)
}

/// The field at `at` of a message that ends at `end`.
pub fn field(bytes: &[u8], at: usize, end: usize) -> Option<Field> {
    let (tag, value) = varint(bytes, at, end)?;
    let mut f = Field { tag: at, number: tag >> 3, wire: tag & 7, value, end: None, varint: 0 };
    let fits = |from: usize, length: u64| usize::try_from(length).ok().filter(|n| *n <= end - from).map(|n| from + n);
    match f.wire {
        0 => {
            if let Some((number, next)) = varint(bytes, value, end) {
                (f.varint, f.end) = (number, Some(next));
            }
        }
        1 => f.end = fits(value, 8),
        2 => {
            if let Some((length, next)) = varint(bytes, value, end) {
                (f.varint, f.value, f.end) = (length, next, fits(next, length));
            }
        }
        5 => f.end = fits(value, 4),
        _ => {}
    }
    Some(f)
}

/// The fields of the message `bytes[at..end]`, up to the first that cannot be read, which is the last one given.
pub fn fields(bytes: &[u8], at: usize, end: usize) -> impl Iterator<Item = Field> + '_ {
    let mut next = Some(at);
    std::iter::from_fn(move || {
        let at = next.filter(|at| *at < end)?;
        let f = field(bytes, at, end);
        next = f.and_then(|f| f.end);
        f
    })
}

/// The contents of the message's first field of this number, if it has wire type 2.
pub fn contents(bytes: &[u8], at: usize, end: usize, number: u64) -> Option<&[u8]> {
    let f = fields(bytes, at, end).find(|f| f.number == number && f.wire == 2)?;
    bytes.get(f.value..f.end?)
}

/// The message's first number behind this field.
pub fn number(bytes: &[u8], at: usize, end: usize, number: u64) -> Option<u64> {
    let f = fields(bytes, at, end).find(|f| f.number == number && f.wire == 0)?;
    f.end.map(|_| f.varint)
}

#[cfg(test)]
mod tests {
    use super::*;

    #[test]
    fn varints_of_all_lengths() {
        assert_eq!(varint(&[0x08], 0, 1), Some((8, 1)));
        assert_eq!(varint(&[0x96, 0x01], 0, 2), Some((150, 2)));
        assert_eq!(varint(&[0x96, 0x01], 0, 1), None);
        let mut longest = [0xFF; 10];
        longest[9] = 1;
        assert_eq!(varint(&longest, 0, 10), Some((u64::MAX, 10)));
        assert_eq!(varint(&[0xFF; 11], 0, 11), None);
        assert_eq!(varint(&[], 5, 3), None);
    }

    #[test]
    fn padded_varints() {
        for (number, bytes) in [(0, 1), (0x7F, 1), (0x80, 2), (0x3FFF, 2), (u64::MAX >> 1, 9), (1 << 63, 10)] {
            assert_eq!(shortest(number), bytes, "{number}");
        }
        assert_eq!(varint(&[0x88, 0x80, 0x00], 0, 3), Some((8, 3)));
        // field 1 of two bytes, in a tag of two and a length of three
        let f = field(&[0x8A, 0, 0x82, 0x80, 0, 7, 7], 0, 7).unwrap();
        assert_eq!((f.number, f.wire, f.value, f.end, f.has_tag()), (1, 2, 5, Some(7), true));
        for bad in [&[0x80, 0][..], &[0x8B, 0], &[0x88, 0x80, 0x80, 0x80, 0x90, 0]] {
            assert!(!field(bad, 0, bad.len()).unwrap().has_tag(), "{bad:x?}");
        }
    }

    #[test]
    fn lengths_that_do_not_fit() {
        let mut bytes = vec![0x0A];
        bytes.extend([0xFF; 9]);
        bytes.push(1);
        let f = field(&bytes, 0, bytes.len()).unwrap();
        assert_eq!((f.number, f.end), (1, None));
        assert_eq!(fields(&bytes, 0, bytes.len()).count(), 1);
        assert_eq!(field(&[0x0D, 0, 0, 0], 0, 4).unwrap().end, None);
    }
}
