// Measures the adds of a row and of a run beside those of a sorted Vec, on the same indices.
use std::hint::black_box;
use std::time::Instant;

unsafe extern "C" {
    fn row_adds(indices: *const i32, length: usize, rounds: u32) -> u64;
    fn run_adds(indices: *const i32, length: usize, rounds: u32) -> u64;
    fn row_fills(indices: *const i32, length: usize, rounds: u32) -> u64;
    fn run_fills(indices: *const i32, length: usize, rounds: u32) -> u64;
}

// How many adds a measurement makes, about, and how many measurements the median is of.
const ADDS: usize = 10_000_000;
const TIMES: usize = 21;

type Work = fn(&[i32], u32) -> u64;

fn row_adds_work(indices: &[i32], rounds: u32) -> u64 {
    unsafe { row_adds(indices.as_ptr(), indices.len(), rounds) }
}

fn run_adds_work(indices: &[i32], rounds: u32) -> u64 {
    unsafe { run_adds(indices.as_ptr(), indices.len(), rounds) }
}

fn row_fills_work(indices: &[i32], rounds: u32) -> u64 {
    unsafe { row_fills(indices.as_ptr(), indices.len(), rounds) }
}

fn run_fills_work(indices: &[i32], rounds: u32) -> u64 {
    unsafe { run_fills(indices.as_ptr(), indices.len(), rounds) }
}

// A histogram as it is mostly written in Rust: the pairs sorted by index.
fn add(pairs: &mut Vec<(i32, u64)>, index: i32) {
    match pairs.binary_search_by_key(&index, |pair| pair.0) {
        Ok(position) => pairs[position].1 += 1,
        Err(position) => pairs.insert(position, (index, 1)),
    }
}

// How many adds there were, and each count times its index: what the two stores answer too.
fn checksum(adds: u64, pairs: &[(i32, u64)]) -> u64 {
    let mut sum = adds;
    for (index, count) in pairs {
        sum = sum.wrapping_add((i64::from(*index) as u64).wrapping_mul(*count));
    }
    sum
}

#[inline(never)]
fn vec_adds(indices: &[i32], rounds: u32) -> u64 {
    let mut pairs = Vec::with_capacity(320);
    for _ in 0..rounds {
        for index in indices {
            add(&mut pairs, *index);
        }
    }
    checksum(indices.len() as u64 * u64::from(rounds), &pairs)
}

#[inline(never)]
fn vec_fills(indices: &[i32], rounds: u32) -> u64 {
    let mut pairs = Vec::with_capacity(320);
    for _ in 0..rounds {
        pairs.clear();
        for index in indices {
            add(&mut pairs, *index);
        }
    }
    checksum(indices.len() as u64 * u64::from(rounds), &pairs)
}

// An xorshift of 64 bits.
struct Random(u64);

impl Random {
    fn below(&mut self, limit: u64) -> u64 {
        self.0 ^= self.0 << 13;
        self.0 ^= self.0 >> 7;
        self.0 ^= self.0 << 17;
        (self.0 >> 20) % limit
    }
}

// 40 indices, peaked in the middle: the sum of three numbers from 0 to 13.
fn peaked(random: &mut Random) -> Vec<i32> {
    (0..100_000).map(|_| 60 + (random.below(14) + random.below(14) + random.below(14)) as i32).collect()
}

// 300 indices, each as often as the others.
fn uniform(random: &mut Random) -> Vec<i32> {
    (0..100_000).map(|_| -150 + random.below(300) as i32).collect()
}

// 300 indices in order, round and round: a search goes the way that it went a round before.
fn ordered() -> Vec<i32> {
    (0..99_900).map(|k| -150 + k % 300).collect()
}

// 160 indices with one or two left out between them, each as often as the others.
fn gapped(random: &mut Random) -> Vec<i32> {
    (0..100_000).map(|_| random.below(160) as i32).map(|k| 5 * (k / 2) + 2 * (k % 2) - 200).collect()
}

// 300 indices once each, in no order.
fn shuffled(random: &mut Random) -> Vec<i32> {
    let mut indices: Vec<i32> = (-150..150).collect();
    for k in (1..indices.len()).rev() {
        indices.swap(k, random.below(k as u64 + 1) as usize);
    }
    indices
}

// Nanoseconds for one add, in one measurement.
fn measure(work: Work, indices: &[i32]) -> f64 {
    let rounds = (ADDS / indices.len()) as u32;
    let start = Instant::now();
    black_box(work(black_box(indices), rounds));
    start.elapsed().as_nanos() as f64 / (indices.len() as f64 * f64::from(rounds))
}

// Measures the three in turn, again and again, and prints for each the median, the least and the most.
fn compare(name: &str, indices: &[i32], works: [(&str, Work); 3]) {
    let expected = works[0].1(indices, 3);
    for (store, work) in works {
        assert_eq!(work(indices, 3), expected, "{name}: the {store} lists something else");
    }
    let mut times = [[0.0; TIMES]; 3];
    for turn in 0..TIMES {
        for (kept, (_, work)) in times.iter_mut().zip(works) {
            kept[turn] = measure(work, indices);
        }
    }
    for (kept, (store, _)) in times.iter_mut().zip(works) {
        kept.sort_by(f64::total_cmp);
        println!("| {name} | {store} | {:.1} | {:.1} to {:.1} |", kept[TIMES / 2], kept[0], kept[TIMES - 1]);
    }
}

fn main() {
    let adds: [(&str, Work); 3] = [("sorted Vec", vec_adds), ("row", row_adds_work), ("run", run_adds_work)];
    let fills: [(&str, Work); 3] = [("sorted Vec", vec_fills), ("row", row_fills_work), ("run", run_fills_work)];
    let mut random = Random(88_172_645_463_325_252);
    println!("| adds | store | ns per add, median | least to most |");
    println!("|---|---|---|---|");
    compare("40 indices, peaked", &peaked(&mut random), adds);
    compare("300 indices, uniform", &uniform(&mut random), adds);
    compare("300 indices, in order", &ordered(), adds);
    compare("160 indices with gaps, uniform", &gapped(&mut random), adds);
    let upward: Vec<i32> = (-150..150).collect();
    let downward: Vec<i32> = (-150..150).rev().collect();
    compare("clear, then 300 upward", &upward, fills);
    compare("clear, then 300 downward", &downward, fills);
    compare("clear, then 300 in no order", &shuffled(&mut random), fills);
}
