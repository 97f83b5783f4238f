//! Cells as a caller may lend them: full of garbage, and with neighbours that are not lent.

/// Cells on both sides of those that are lent; the library must leave them alone.
const GUARD: usize = 4;

pub struct Lent {
    buffer: Vec<u32>,
    /// What stands in each place before the call.
    garbage: fn(usize) -> u32,
}

/// Numbers that no index holds, and small ones that look like the buckets and links of one. None is 0.
const GARBAGE: [fn(usize) -> u32; 2] =
    [|place| (place as u32).wrapping_mul(0x9E37_79B1) | 1, |place| 1 + (place % 7) as u32];

impl Lent {
    pub fn new(count: usize, kind: usize) -> Lent {
        let garbage = GARBAGE[kind % GARBAGE.len()];
        Lent { buffer: (0..count + 2 * GUARD).map(garbage).collect(), garbage }
    }

    pub fn cells(&mut self) -> &mut [u32] {
        let end = self.buffer.len() - GUARD;
        &mut self.buffer[GUARD..end]
    }

    /// After any call all cells are zero and their neighbours as they were.
    pub fn left_clean(&self, what: &str) -> Result<(), String> {
        let end = self.buffer.len() - GUARD;
        let count = end - GUARD;
        if let Some(place) = self.buffer[GUARD..end].iter().position(|cell| *cell != 0) {
            return Err(format!("{what} {place} of {count} is not zero"));
        }
        let mut guards = (0..GUARD).chain(end..end + GUARD);
        match guards.find(|place| self.buffer[*place] != (self.garbage)(*place)) {
            Some(place) => Err(format!("memory beside the {count} of {what} changed, at {place}")),
            None => Ok(()),
        }
    }
}

#[cfg(test)]
mod tests {
    use super::*;

    #[test]
    fn what_is_left_is_seen() {
        let mut lent = Lent::new(3, 0);
        assert!(lent.cells().iter().all(|cell| *cell != 0));
        lent.cells()[..2].fill(0);
        assert!(lent.left_clean("cell").is_err(), "the third is not zero");
        lent.cells().fill(0);
        assert!(lent.left_clean("cell").is_ok());
        for place in [GUARD - 1, GUARD + 3] {
            let was = std::mem::replace(&mut lent.buffer[place], 0);
            assert!(lent.left_clean("cell").is_err(), "the neighbour at {place}");
            lent.buffer[place] = was;
        }
    }
}
