//! The bucket of a name, from the text of crates/index/specs/Bucket.antt, and names made to share one.
//! A right answer never depends on this: it only makes the index slow. So nothing is lost but the aim if the hash changes.

use crate::checker::CELLS_PER_NAME;
use crate::parts::identifier;

/// A Mersenne prime, 2^31 - 1.
const PRIME: u64 = (1 << 31) - 1;

/// Three bytes as one number, the lowest first; past the end stand zeros.
fn digit(name: &[u8], k: usize) -> u64 {
    let byte = |at: usize| u64::from(name.get(at).copied().unwrap_or(0));
    byte(3 * k) + 256 * byte(3 * k + 1) + 65536 * byte(3 * k + 2)
}

/// The length and then the digits as a number to this base, modulo the prime.
fn hash(base: u64, name: &[u8]) -> u64 {
    let digits = name.len().div_ceil(3);
    (0..digits).fold(name.len() as u64 % PRIME, |sum, k| (sum * base + digit(name, k)) % PRIME)
}

fn base(seed: u64) -> u64 {
    seed % (1 << 30) + 2
}

/// Which of `size` buckets a name is in.
pub fn bucket(seed: u64, size: u64, name: &[u8]) -> u64 {
    let factor = (seed >> 32) % (PRIME - 1) + 1;
    hash(base(seed), name) * factor % PRIME * size / (1 << 31)
}

/// How many buckets the visible names have, with so many cells and extra cells. The layout may change.
pub fn visible_buckets(cells: usize, extra: usize) -> u64 {
    let own = extra.min(4 * (cells / CELLS_PER_NAME) + 1);
    (own.saturating_sub(1) as u64 / 4).min(u64::from(u32::MAX))
}

/// Letters, digits and underscores, three at a time.
fn triples() -> impl Iterator<Item = [u8; 3]> {
    let part = |byte: &u8| byte.is_ascii_alphanumeric() || *byte == b'_';
    let bytes: Vec<u8> = (0..=255u8).filter(part).collect();
    let count = bytes.len();
    (0..count * count * count).map(move |at| [at % count, at / count % count, at / count / count].map(|i| bytes[i]))
}

/// Names of nine bytes with one hash under the seed: one bucket, however many there are. The first six bytes are free,
/// and for about one in 8,600 of them three more make the hash what it should be. (Not so for a base near 0 or the prime.)
pub fn colliding(seed: u64, count: usize) -> Vec<String> {
    let base = base(seed);
    let aim = hash(base, b"t00000000");
    let mut names = Vec::with_capacity(count);
    for (head, middle) in triples().flat_map(|head| triples().map(move |middle| (head, middle))) {
        let so_far = [head, middle].iter().fold(9, |sum, three| (sum * base + digit(three, 0)) % PRIME);
        let last = (aim + PRIME - so_far * base % PRIME) % PRIME;
        if last >= 1 << 24 {
            continue;
        }
        let name = [&head[..], &middle, &last.to_le_bytes()[..3]].concat();
        if identifier(&name) {
            names.push(String::from_utf8(name).expect("an identifier is ASCII"));
        }
        if names.len() == count {
            break;
        }
    }
    names
}

/// Names with the bucket of the first one among so many, and hashes of all kinds.
pub fn sharing(seed: u64, size: u64, count: usize) -> Vec<String> {
    let aim = bucket(seed, size, b"t0");
    let names = (0..).map(|at| format!("t{at}"));
    names.filter(|name| bucket(seed, size, name.as_bytes()) == aim).take(count).collect()
}

#[cfg(test)]
mod tests {
    use super::*;
    use std::collections::HashSet;

    const SEED: u64 = 0x0123_4567_89AB_CDEF;

    /// The rows of crates/index/specs/Samples.antt.
    #[test]
    fn the_samples_of_the_definition() {
        assert_eq!(bucket(0, 100, b""), 0);
        assert_eq!(bucket(1, 20_000, b"t12345"), 124);
        assert_eq!(bucket(SEED, 20_000, b"t12345"), 6136);
        assert_eq!(bucket(SEED, 20_000, b"t12346"), 16981);
        assert_eq!(bucket(u64::MAX, u64::from(u32::MAX), &[0xff; 7]), 2_650_802_325);
    }

    #[test]
    fn made_names_share_a_bucket() {
        for seed in [SEED, 0x5DEE_CE66_D1CE_4E5B] {
            let names = colliding(seed, 300);
            assert_eq!(names.iter().collect::<HashSet<_>>().len(), 300);
            for size in [1, 300, 1_000_003] {
                let buckets: HashSet<u64> = names.iter().map(|name| bucket(seed, size, name.as_bytes())).collect();
                assert_eq!(buckets.len(), 1, "seed {seed}, {size} buckets");
            }
            let others: HashSet<u64> =
                names.iter().map(|name| bucket(seed ^ 0x6A09_E667_F3BC_C908, 300, name.as_bytes())).collect();
            assert!(others.len() > 100, "under another seed they spread");
        }
        let shared: HashSet<u64> =
            sharing(SEED, 50, 80).iter().map(|name| bucket(SEED, 1 << 20, name.as_bytes())).collect();
        assert!(shared.len() > 70, "one bucket of few is many of many");
    }
}
