//! Models that are nearly all zeros, without the memory for them: `vec![0; n]` is zeroed by the system, and only where it is written
//! does it become real.

use super::proto::put_varint;
use crate::wire::BYTES;

/// Bytes at their places, and zeros everywhere else.
#[derive(Clone, Debug, Default)]
pub struct Sparse {
    length: usize,
    written: Vec<(usize, Vec<u8>)>,
}

impl Sparse {
    pub fn new(bytes: impl Into<Vec<u8>>) -> Sparse {
        Sparse::default().then(bytes)
    }

    pub fn then(mut self, bytes: impl Into<Vec<u8>>) -> Sparse {
        let bytes = bytes.into();
        let place = self.length;
        self.length += bytes.len();
        self.written.push((place, bytes));
        self
    }

    pub fn zeros(mut self, count: usize) -> Sparse {
        self.length += count;
        self
    }

    pub fn and(mut self, other: Sparse) -> Sparse {
        let start = self.length;
        self.length += other.length;
        self.written.extend(other.written.into_iter().map(|(place, bytes)| (start + place, bytes)));
        self
    }

    pub fn field(self, number: u32, contents: Sparse) -> Sparse {
        let length = contents.length as u64;
        self.field_of(number, length, contents)
    }

    /// A field that says to have `length` bytes, whatever it has.
    pub fn field_of(self, number: u32, length: u64, contents: Sparse) -> Sparse {
        let mut head = Vec::new();
        put_varint(&mut head, u64::from(number) << 3 | u64::from(BYTES), 0);
        put_varint(&mut head, length, 0);
        self.then(head).and(contents)
    }

    pub fn length(&self) -> usize {
        self.length
    }

    pub fn build(&self) -> Vec<u8> {
        let mut model = vec![0; self.length];
        for (place, bytes) in &self.written {
            model[*place..][..bytes.len()].copy_from_slice(bytes);
        }
        model
    }
}

#[cfg(test)]
mod tests {
    use super::*;

    #[test]
    fn bytes_stand_where_they_are_put() {
        let inner = Sparse::new([1]).field(2, Sparse::default().zeros(2)).then([3]);
        let outer = Sparse::default().zeros(1).field(1, inner).field_of(16, 300, Sparse::new([4]));
        assert_eq!(outer.build(), [0, 0x0A, 6, 1, 0x12, 2, 0, 0, 3, 0x82, 1, 0xAC, 2, 4]);
    }
}
