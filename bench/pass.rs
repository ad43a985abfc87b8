//! pass TIMES: the bytes of a cache, and the time of so many passes over as many bytes, added up 8 at a time.
use std::hint::black_box;
use std::time::Instant;

// Fields stand in the order in which the records declare them, each at a multiple of its alignment.
const SHARD: usize = 8 + 8;
const BLOCK_ID: usize = SHARD + 4 + 32 + 32 + 4;
const PREV_IDS: usize = 2 * BLOCK_ID + 8;
const TOP_BLOCK: usize = 8 + BLOCK_ID + 8;
const TOP_BLOCKS: usize = 8 * TOP_BLOCK + 8;
const KIND: usize = 32;
const ENTRY: usize = BLOCK_ID + PREV_IDS + 8 + 8 + 8 + KIND;
// A group's count, mark and boundary.
const MARKS: usize = 8 + 8 + 32;
const GROUP: usize = 16 * ENTRY + MARKS;
const MASTER_GROUP: usize = 16 * (ENTRY + TOP_BLOCKS) + MARKS;
const MASTER_DATA: usize = 32 * BLOCK_ID + 8 + 16;
const CACHE: usize = 8 + MASTER_GROUP + MASTER_DATA + 8 * (SHARD + GROUP) + 8;

fn main() {
    let times: u32 = std::env::args().nth(1).and_then(|n| n.parse().ok()).expect("pass TIMES");
    let words = vec![1u64; CACHE / 8];
    let start = Instant::now();
    for _ in 0..times {
        let sum = black_box(&words).iter().fold(0u64, |sum, word| sum.wrapping_add(*word));
        black_box(sum);
    }
    println!("pass {CACHE} bytes {times} times {} microseconds", start.elapsed().as_micros());
}
