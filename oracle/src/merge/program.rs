//! The compiled program `trackmerge`, run in folders of its own, beside the lines that the second merger gives.
use super::cases::{draw, listed, measured, Case, HERDS};
use super::checks::{text, WITHIN};
use super::damage::{fault, turn_bit};
use super::pairings::by_size;
use super::reference::merge;
use crate::lists::{COUNTS, DIMENSIONS, LONGEST};
use crate::rng::Rng;
use crate::tally::Tally;
use std::path::{Path, PathBuf};
use std::process::{Command, Stdio};
use std::{env, fs, process};

const NAMES: [&str; 3] = ["base.trk", "ours.trk", "theirs.trk"];

/// The questions that can be asked of three files: floor, gate and rows are the program's own.
const REFUSES: &[u32] = &[9, 10, 11, 12, 13, 14, 15, 16, 17];

/// A folder's three files; one that is none is missing.
type Files = [Option<Vec<u8>>; 3];

/// The longest list: every field of every track is stored.
fn longest(rng: &mut Rng) -> Vec<u8> {
    let tracks: Vec<Vec<f64>> = (0..COUNTS).map(|at| HERDS[0].1(rng, DIMENSIONS, at)).collect();
    let list = listed(&tracks, DIMENSIONS);
    assert!(list.len() == LONGEST);
    list
}

/// A file of so many bytes, at least as long as the longest list: one that begins as that list, or nothing of the kind.
fn long_file(rng: &mut Rng, length: usize) -> Vec<u8> {
    let mut file = longest(rng);
    match rng.below(4) {
        0 => file = (0..length).map(|_| rng.bits() as u8).collect(),
        1 => file.resize(length, 0),
        _ => file.resize(length, 0xFF),
    }
    file
}

/// The longest list three times, but that ours has lost its last track and theirs has another one.
fn longest_three(rng: &mut Rng) -> Files {
    let (base, mut theirs) = (longest(rng), longest(rng));
    let last = LONGEST - (LONGEST - 2) / COUNTS;
    let mut ours = base[..last].to_vec();
    ours[0] -= 1;
    theirs[..last].copy_from_slice(&base[..last]);
    [base, ours, theirs].map(Some)
}

/// One of the files is empty, or as long as the longest list, or longer.
fn sized(rng: &mut Rng, case: Case) -> Files {
    let mut files = files(case);
    let length = rng.one_of(&[0, LONGEST, LONGEST, LONGEST + 1, LONGEST + 1, 65_535, 65_536, 65_537, 100_000, 100_000]);
    if length == LONGEST {
        return longest_three(rng);
    }
    files[rng.below(3) as usize] = Some(if length == 0 { Vec::new() } else { long_file(rng, length) });
    files
}

fn files(case: Case) -> Files {
    case.lists.map(Some)
}

/// The folders, one after the other: merges, refusals of every number, missing, empty and long files.
fn folder(rng: &mut Rng, turn: u32) -> Files {
    let mut case = if turn % 10 >= 8 { measured(rng) } else { draw(rng) };
    match turn % 10 {
        0 => {
            let mut files = files(case);
            files[rng.below(3) as usize] = None;
            files
        }
        1 => sized(rng, case),
        2 | 3 => {
            let list = rng.below(3) as usize;
            fault(rng, &mut case, list, REFUSES[turn as usize / 10 % REFUSES.len()]);
            files(case)
        }
        4 => {
            turn_bit(rng, &mut case);
            files(case)
        }
        _ => files(case),
    }
}

/// What the program prints in a folder with these files.
fn printed(program: &Path, folder: &Path, files: &Files) -> String {
    for (name, file) in NAMES.iter().zip(files) {
        let path = folder.join(name);
        match file {
            Some(bytes) => fs::write(path, bytes).unwrap(),
            None => drop(fs::remove_file(path)),
        }
    }
    let output = Command::new(program).current_dir(folder).stdin(Stdio::null()).output().unwrap();
    let lines = String::from_utf8_lossy(&output.stdout).into_owned();
    if output.status.success() && output.stderr.is_empty() {
        lines
    } else {
        format!("{lines}{}{}", String::from_utf8_lossy(&output.stderr), output.status)
    }
}

/// Where the program stands: TRACKMERGE, or where `make programs` leaves it.
fn place() -> PathBuf {
    let built = Path::new(env!("CARGO_MANIFEST_DIR")).join("../target/bin/trackmerge");
    env::var_os("TRACKMERGE").map_or(built, PathBuf::from)
}

/// Runs the program in so many folders and answers the number of differences; a program that is not there is one.
pub fn run(folders: u32) -> u64 {
    let Ok(program) = place().canonicalize() else {
        println!("trackmerge: no program at {}: run `make programs` first", place().display());
        return 1;
    };
    let at = env::temp_dir().join(format!("oracle-trackmerge-{}", process::id()));
    fs::create_dir_all(&at).unwrap();
    let mut rng = Rng::new(41);
    let mut tally = Tally::refusing("trackmerge", REFUSES, u64::from(folders / 100));
    let (mut fused, mut unfused) = (0, 0);
    for turn in 0..folders {
        let files = folder(&mut rng, turn);
        let [base, ours, theirs] = files.each_ref().map(|file| file.as_deref().unwrap_or_default());
        let answer = merge([base, ours, theirs], WITHIN, 4 * 3 * COUNTS, by_size);
        tally.refused(answer.as_ref().err().copied().unwrap_or(0));
        if let Ok(merged) = &answer {
            fused += merged.rows.iter().filter(|row| row[3] == 5).count();
            unfused += merged.unfused();
        }
        let (wanted, lines) = (text(&answer), printed(&program, &at, &files));
        tally.case(lines == wanted, || {
            let lengths = files.each_ref().map(|file| file.as_ref().map(Vec::len));
            format!("files of {lengths:?} bytes: prints\n{lines}and not\n{wanted}")
        });
        tally.done(turn as usize + 1, folders as usize);
    }
    fs::remove_dir_all(&at).unwrap();
    println!("trackmerge: {fused} rows fused, {unfused} conflicts of three tracks");
    tally.close() + u64::from(fused == 0 || unfused == 0)
}
