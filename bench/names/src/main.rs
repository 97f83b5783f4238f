//! The proved test of a name beside a loop in Rust, and beside the proved test of another clone, timed in one process.
//! With a folder the names of the models below it are timed too.
mod models;
mod sides;

use std::hint::black_box;
use std::io;
use std::path::Path;
use std::time::{Duration, Instant};

use gate_tests::rng::Rng;
use sides::{Side, SIDES};

const NAMES: usize = 20_000;
const LENGTHS: [usize; 3] = [5, 20, 60];
const RUNS: usize = 500;
const HELD: usize = 1_000_000;

const LETTERS: &[u8] = b"abcdefghijklmnopqrstuvwxyz";
const DIGITS: &[u8] = b"0123456789";
const WORDS: &[u8] = b"abcdefghijklmnopqrstuvwxyzABCDEFGHIJKLMNOPQRSTUVWXYZ_0123456789";
/// So many of these can begin an identifier.
const STARTS: usize = 53;

/// How a name is made that has so many bytes.
type Make = fn(&mut Rng, usize) -> Vec<u8>;

const KINDS: [(&str, Make); 3] = [
    ("letters, an underscore, digits", numbered),
    ("any letters, digits and underscores", mixed),
    ("the same behind a slash", odd),
];

fn numbered(rng: &mut Rng, length: usize) -> Vec<u8> {
    let half = length / 2;
    let mut name: Vec<u8> = (0..half).map(|_| *rng.pick(LETTERS)).collect();
    name.push(b'_');
    name.extend((half + 1..length).map(|_| *rng.pick(DIGITS)));
    name
}

fn mixed(rng: &mut Rng, length: usize) -> Vec<u8> {
    let mut name = vec![*rng.pick(&WORDS[..STARTS])];
    name.extend((1..length).map(|_| *rng.pick(WORDS)));
    name
}

fn odd(rng: &mut Rng, length: usize) -> Vec<u8> {
    let mut name = mixed(rng, length);
    name[0] = b'/';
    name
}

/// All sides say the same of a name; what they say.
fn agree(name: &[u8]) -> u64 {
    let said = SIDES[0].1(name);
    for (side, spell) in SIDES {
        assert_eq!(spell(name), said, "{side} differs on {name:02X?}");
    }
    said
}

/// Names of at most two bytes, and longer ones with any byte in the place of one.
fn check() {
    let mut said = [0; 3];
    let mut hold = |name: &[u8]| said[agree(name) as usize] += 1;
    hold(&[]);
    for first in 0..=255u8 {
        hold(&[first]);
        (0..=255u8).for_each(|second| hold(&[first, second]));
    }
    let mut rng = Rng::new(1);
    for _ in 0..HELD {
        let length = 1 + rng.below(70);
        let mut name = mixed(&mut rng, length);
        let at = rng.below(name.len());
        name[at] = rng.word() as u8;
        hold(&name);
    }
    assert!(said.iter().all(|&times| times > 0));
    println!(
        "agree on {} names: {} identifiers, {} odd, {} not UTF-8\n",
        said.iter().sum::<u64>(),
        said[0],
        said[1],
        said[2]
    );
}

fn time(names: &[Vec<u8>], spell: Side) -> Duration {
    let start = Instant::now();
    for name in names {
        black_box(spell(black_box(name)));
    }
    start.elapsed()
}

/// The best of several runs of each side, taken in turn: nanoseconds for a name.
fn best(names: &[Vec<u8>]) -> Vec<f64> {
    let mut best = vec![Duration::MAX; SIDES.len()];
    for _ in 0..RUNS {
        for (best, (_, spell)) in best.iter_mut().zip(SIDES) {
            *best = (*best).min(time(names, *spell));
        }
    }
    best.iter().map(|taken| taken.as_secs_f64() * 1e9 / names.len() as f64).collect()
}

/// A line of the table.
fn compare(kind: &str, length: &str, names: &[Vec<u8>]) {
    let taken = best(names);
    let times: String = taken.iter().map(|time| format!("{time:9.2}")).collect();
    let ratios: String = taken[1..].iter().map(|other| format!("{:10.2}", taken[0] / other)).collect();
    println!("{kind:38}{length:>7}{times}{ratios}");
}

/// The names in the models below a folder.
fn compare_models(folder: &str) -> io::Result<()> {
    let (models, names) = models::names(Path::new(folder))?;
    if names.is_empty() {
        return Err(io::Error::other(format!("no names below {folder}")));
    }
    let mut lengths: Vec<_> = names.iter().map(Vec::len).collect();
    lengths.sort();
    let mean = lengths.iter().sum::<usize>() as f64 / lengths.len() as f64;
    compare(&format!("the {} names of {models} models", names.len()), &format!("{mean:.1}"), &names);
    println!("\nOf the names of models half have at most {} bytes; {mean:.1} is the mean.", lengths[lengths.len() / 2]);
    Ok(())
}

fn main() -> io::Result<()> {
    check();
    let sides: String = SIDES.iter().map(|(side, _)| format!("{side:>9}")).collect();
    let ratios: String = SIDES[1..].iter().map(|(side, _)| format!("{:>10}", format!("÷ {side}"))).collect();
    println!("{:38}{:>7}{sides}{ratios}", "ns for a name", "bytes");
    let mut rng = Rng::new(2);
    for (kind, make) in KINDS {
        for length in LENGTHS {
            let names: Vec<_> = (0..NAMES).map(|_| make(&mut rng, length)).collect();
            compare(kind, &length.to_string(), &names);
        }
    }
    match std::env::args().nth(1) {
        Some(folder) => compare_models(&folder),
        None => Ok(()),
    }
}
