//! What names made for a seed cost, under that seed and under others: time for each name, and the longest chain of a bucket.

use std::collections::HashMap;
use std::time::Duration;

use gate_tests::buckets::{bucket, colliding, visible_buckets};
use gate_tests::models::lists::L;
use gate_tests::rng::Rng;

use crate::given::Given;
use crate::markdown::{count, head, table, time};
use crate::workloads::chain_of;

const SIZES: [usize; 3] = [5_000, 10_000, 20_000];
/// Seeds that whoever made the names did not know.
const UNKNOWN: usize = 25;

const HEAD: [&str; 7] =
    ["names", "made for the seed", "seeds", "time, median", "for each name", "time, worst", "longest chain"];

/// Names as they come, and names made for the seed, under it and under others.
pub fn rows(seed: u64) -> String {
    let mut rng = Rng::new(seed);
    let others: Vec<u64> = (0..UNKNOWN).map(|_| rng.word()).collect();
    let mut rows = vec![head(&HEAD)];
    for names in SIZES {
        eprintln!("{names} names in one bucket");
        let made = colliding(seed, names);
        let usual: Vec<String> = (0..names).map(|at| format!("value_{at}")).collect();
        rows.push(row("no", &usual, &others));
        rows.push(row("no; the seed is 0", &usual, &[0]));
        rows.push(row("another", &made, &others));
        rows.push(row("yes", &made, &[seed]));
    }
    table(&rows, &[1])
}

fn row(made: &str, names: &[String], seeds: &[u64]) -> Vec<String> {
    let mut given = Given::new(chain_of(names, false), L.to_vec(), seeds[0]);
    let buckets = visible_buckets(given.cells, given.extra);
    let longest = seeds.iter().map(|seed| longest_chain(names, *seed, buckets)).max().unwrap_or(0);
    let mut times: Vec<Duration> = Vec::new();
    for seed in seeds {
        given.seed = *seed;
        let mut call = given.indexed();
        // The best of three: a single call may be disturbed.
        times.extend((0..3).map(|_| call()).min());
    }
    times.sort();
    let (median, worst) = (times[times.len() / 2], times[times.len() - 1]);
    let each = median / names.len() as u32;
    let numbers = [count(names.len() as u64), made.to_string(), seeds.len().to_string()];
    numbers.into_iter().chain([time(median), time(each), time(worst), count(longest)]).collect()
}

fn longest_chain(names: &[String], seed: u64, buckets: u64) -> u64 {
    let mut lengths: HashMap<u64, u64> = HashMap::new();
    for name in names {
        *lengths.entry(bucket(seed, buckets, name.as_bytes())).or_default() += 1;
    }
    lengths.into_values().max().unwrap_or(0)
}
