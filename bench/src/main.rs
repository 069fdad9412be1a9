//! Times of the library's calls beside the Rust's, in one run: the ratio is what counts. A word names a topic to run alone.
// Matrices are indexed as on paper.
#![allow(clippy::needless_range_loop)]

mod comparisons;
mod fusing;
mod lists;
mod matrix;
mod merge_list;
mod merging;
mod pairing;
mod power;
mod root;
mod timer;

use std::{env, fs};

fn main() {
    let about = fs::read_to_string("/proc/cpuinfo").unwrap_or_default();
    let model = about.lines().find_map(|line| line.strip_prefix("model name")?.split_once(": "));
    println!("machine: {}", model.map_or("unknown", |(_, name)| name));
    let words: Vec<String> = env::args().skip(1).collect();
    let topics: [(&str, fn()); 10] = [
        ("root", root::run),
        ("matrix", matrix::run),
        ("rotating", matrix::run_rotating),
        ("power", power::run),
        ("comparisons", comparisons::run),
        ("fusing", fusing::run),
        ("lists", lists::run),
        ("pairing", pairing::run),
        ("merging", merging::run),
        ("merge_list", merge_list::run),
    ];
    for (topic, run) in topics {
        if words.is_empty() || words.iter().any(|word| word == topic) {
            run();
        }
    }
}
