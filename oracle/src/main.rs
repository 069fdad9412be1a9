//! `oracle quick` or `oracle long`, with the topics, the matrix calls or `merge_list` to run, or all; `oracle selftest` plants faults
//! and expects each to be found; `oracle vectors` writes the frozen answers, and `oracle vectors check` compares them with those that
//! stand.
use oracle::merge::list::run::{self as merged_lists, MERGE_LIST};
use oracle::merge::{checks, program, run as merges};
use oracle::{comparisons, dump, ffi, fusing, lists, matrix, number, selftest, source, tally, vectors};
use std::process::ExitCode;

const TOPICS: [&str; 7] = ["number", "matrix", "comparisons", "fusing", "lists", "merge", "dump"];

fn usage(problem: &str) -> ExitCode {
    let topics = TOPICS.map(|topic| format!("[{topic}]")).join(" ");
    eprintln!("{problem}usage: oracle quick|long {topics} [CALL].., oracle selftest, or oracle vectors [check]");
    ExitCode::from(2)
}

fn ended(differences: u64) -> ExitCode {
    if differences == 0 {
        ExitCode::SUCCESS
    } else {
        ExitCode::FAILURE
    }
}

/// Compares what is wanted, and answers the number of differences.
fn compare(long: bool, wanted: &dyn Fn(&str) -> bool) -> u64 {
    let mut differences = source::differences();
    if wanted("number") {
        differences += number::run(if long { 200_000_000 } else { 20_000_000 });
    }
    differences += matrix::run(long, &|call| wanted("matrix") || wanted(call));
    if wanted("comparisons") {
        differences += comparisons::run(if long { 2_000 } else { 60 });
    }
    if wanted("fusing") {
        differences += fusing::run::run(if long { 1_000 } else { 40 });
    }
    if wanted("lists") {
        differences += lists::run(&lists::amount(long));
    }
    if wanted("merge") {
        checks::run();
        differences += merges::run(merges::amount(long), long);
        differences += program::run(if long { 2_000 } else { 300 });
    }
    if wanted("merge") || wanted(MERGE_LIST) {
        differences += merged_lists::run(merged_lists::amount(long), long);
    }
    if wanted("dump") {
        differences += dump::run(long);
    }
    for name in ffi::UNKNOWN {
        println!("{name}: declared in the header, and not compared");
        differences += 1;
    }
    for name in ffi::UNDECLARED {
        println!("{name}: compared, and missing from the header");
        differences += 1;
    }
    println!("oracle: {differences} differences");
    differences
}

fn main() -> ExitCode {
    let words: Vec<String> = std::env::args().skip(1).collect();
    let words: Vec<&str> = words.iter().map(String::as_str).collect();
    match words[..] {
        ["selftest"] => ended(selftest::run()),
        ["vectors"] => {
            vectors::write();
            ExitCode::SUCCESS
        }
        ["vectors", "check"] => ended(source::differences() + vectors::check()),
        [form @ ("quick" | "long"), ref topics @ ..] => {
            let is_call = |word: &str| word == MERGE_LIST || matrix::calls().any(|(_, call)| call.name == word);
            if let Some(word) = topics.iter().find(|word| !TOPICS.contains(word) && !is_call(word)) {
                return usage(&format!("{word} is no topic, no matrix call and not {MERGE_LIST}\n"));
            }
            if form == "long" {
                tally::tell_progress();
            }
            ended(compare(form == "long", &|topic| topics.is_empty() || topics.contains(&topic)))
        }
        _ => usage(""),
    }
}
