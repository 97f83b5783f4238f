//! Reading Protocol Buffers bytes: varints, tags, values and the fields of one message.
//! Document 01, "First walk: the wire". All places are offsets in the whole model.

/// A varint, value or length runs past its message.
pub const PAST_MESSAGE: u64 = 1;
/// The tenth varint byte is above 1.
pub const TENTH_BYTE: u64 = 2;
/// The tag is above 2^32 - 1, its field number is 0, or its wire type is none of 0, 1, 2, 5.
pub const BAD_TAG: u64 = 3;
/// A tag, value or length is padded: its varint is not the shortest.
pub const PADDED: u64 = 9;

/// The four wire types that document 01 lets pass.
pub const VARINT: u8 = 0;
pub const EIGHT: u8 = 1;
pub const BYTES: u8 = 2;
pub const FOUR: u8 = 5;

/// A field's tag: `place` is its first byte, `next` the byte after it.
#[derive(Clone, Copy, Debug)]
pub struct Tag {
    pub place: usize,
    pub next: usize,
    pub number: u32,
    pub kind: u8,
}

/// A whole field. `value` is the number of a varint field and 0 otherwise;
/// `start..end` are the bytes of the value, and `end` is where the next field begins.
#[derive(Clone, Copy, Debug)]
pub struct Field {
    pub place: usize,
    pub number: u32,
    pub kind: u8,
    pub value: u64,
    pub start: usize,
    pub end: usize,
}

/// A varint's value, the place after it, and whether it is the shortest form of that value.
#[derive(Clone, Copy, Debug)]
pub struct Varint {
    pub value: u64,
    pub next: usize,
    pub shortest: bool,
}

/// What becomes of a padded varint: the first walk refuses it, the runner takes it for its value.
#[derive(Clone, Copy, Debug, PartialEq, Eq)]
pub enum Padding {
    Refused,
    Passes,
}

/// The varint at `at` in a message that ends at `end`.
pub fn varint(bytes: &[u8], at: usize, end: usize) -> Result<Varint, u64> {
    let mut value = 0u64;
    for (count, &byte) in bytes[at..end].iter().take(10).enumerate() {
        if count == 9 && byte > 1 {
            return Err(TENTH_BYTE);
        }
        value |= u64::from(byte & 0x7f) << (7 * count);
        if byte < 0x80 {
            // A last byte of 0 adds nothing to the bytes before it.
            return Ok(Varint { value, next: at + count + 1, shortest: count == 0 || byte != 0 });
        }
    }
    // The tenth byte ends every varint that gets so far, so the message ended first.
    Err(PAST_MESSAGE)
}

/// A varint's value and the place after it: 1 and 2, and only then 9.
fn read(bytes: &[u8], at: usize, end: usize, padding: Padding) -> Result<(u64, usize), u64> {
    let Varint { value, next, shortest } = varint(bytes, at, end)?;
    if padding == Padding::Refused && !shortest {
        return Err(PADDED);
    }
    Ok((value, next))
}

pub fn tag(bytes: &[u8], at: usize, end: usize, padding: Padding) -> Result<Tag, u64> {
    let (value, next) = read(bytes, at, end, padding)?;
    let kind = (value & 7) as u8;
    let number = value >> 3;
    let known_kind = matches!(kind, VARINT | EIGHT | BYTES | FOUR);
    if value > u64::from(u32::MAX) || number == 0 || !known_kind {
        return Err(BAD_TAG);
    }
    Ok(Tag { place: at, next, number: number as u32, kind })
}

/// The value that follows a tag, in a message that ends at `end`.
pub fn value(bytes: &[u8], tag: Tag, end: usize, padding: Padding) -> Result<Field, u64> {
    let field = |value, start, end| Field { place: tag.place, number: tag.number, kind: tag.kind, value, start, end };
    if tag.kind == VARINT {
        let (number, next) = read(bytes, tag.next, end, padding)?;
        return Ok(field(number, tag.next, next));
    }
    let (length, start) = match tag.kind {
        EIGHT => (8, tag.next),
        FOUR => (4, tag.next),
        _ => read(bytes, tag.next, end, padding)?,
    };
    // A length reaches 2^64 - 1, so it is compared with what is left and never added first.
    if length > (end - start) as u64 {
        return Err(PAST_MESSAGE);
    }
    Ok(field(0, start, start + length as usize))
}

/// The fields of the message `at..end`, up to the first one that cannot be read. Padded ones can be.
pub struct Fields<'m> {
    bytes: &'m [u8],
    at: usize,
    end: usize,
}

pub fn fields(bytes: &[u8], start: usize, end: usize) -> Fields<'_> {
    Fields { bytes, at: start, end }
}

impl Iterator for Fields<'_> {
    type Item = Field;

    fn next(&mut self) -> Option<Field> {
        if self.at >= self.end {
            return None;
        }
        let tag = tag(self.bytes, self.at, self.end, Padding::Passes);
        match tag.and_then(|tag| value(self.bytes, tag, self.end, Padding::Passes)) {
            Ok(field) => {
                self.at = field.end;
                Some(field)
            }
            Err(_) => {
                self.at = self.end;
                None
            }
        }
    }
}

#[cfg(test)]
mod tests {
    use super::*;

    #[test]
    fn the_shortest_form() {
        let shortest = |bytes: &[u8]| varint(bytes, 0, bytes.len()).map(|read| (read.value, read.shortest));
        let ten = |last| [&[0x80; 9][..], &[last]].concat();
        assert_eq!(shortest(&[0]), Ok((0, true)));
        assert_eq!(shortest(&[0x80, 0]), Ok((0, false)));
        assert_eq!(shortest(&[0x80, 1]), Ok((128, true)));
        assert_eq!(shortest(&[0x88, 0x80, 0]), Ok((8, false)));
        assert_eq!(shortest(&ten(0)), Ok((0, false)));
        assert_eq!(shortest(&ten(1)), Ok((1 << 63, true)));
        assert_eq!(shortest(&ten(2)), Err(TENTH_BYTE));
        assert_eq!(shortest(&[0x80; 2]), Err(PAST_MESSAGE));
    }
}
