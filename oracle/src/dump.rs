//! The compiled program `trackdump` beside Rust's own text of a double, and the questions in words as `docs/FORMAT.md` has them.
use crate::lists::{fields, read, write, Read, COUNTS, DIMENSIONS, LONGEST, MOST_VALUES};
use crate::merge::cases::draw;
use crate::merge::damage::{fault, turn_bit};
use crate::number::{powers_of_two, sample, special};
use crate::rng::Rng;
use crate::tally::Tally;
use std::path::{Path, PathBuf};
use std::process::{Command, Stdio};
use std::{env, fs, process};

/// The questions that can be asked of a file.
const REFUSES: &[u32] = &[9, 10, 11, 12, 13, 14, 15, 16];

const NAME: &str = "list.trk";

/// The table of docs/FORMAT.md: a line `| 9 | Are there two bytes? | .. |` for each question.
fn question(number: u32) -> String {
    let text = fs::read_to_string(Path::new(env!("CARGO_MANIFEST_DIR")).join("../docs/FORMAT.md")).unwrap();
    let head = format!("| {number} | ");
    let mut rows = text.lines().filter(|line| line.contains('?'));
    let line = rows.find_map(|line| line.strip_prefix(&head)).expect("a row for each question");
    let question = line.split(" |").next().unwrap();
    question[..1].to_lowercase() + &question[1..]
}

fn row(index: usize, values: &[f64], d: usize, whole: bool) -> String {
    let text = |values: &[f64]| values.iter().map(|x| format!(" {x:?}")).collect::<String>();
    let (state, triangle) = values.split_at(d);
    let variances: Vec<f64> = (0..d).map(|i| triangle[i * (i + 1) / 2 + i]).collect();
    let rest =
        if whole { " triangle".to_string() + &text(triangle) } else { " variances".to_string() + &text(&variances) };
    format!("{index} state{}{rest}\n", text(state))
}

/// What the program is to print of a file.
fn wanted(answer: &Result<Read, u32>, whole: bool, questions: &[String]) -> String {
    match answer {
        Ok(list) => {
            let (d, f) = (list.dimension, fields(list.dimension));
            let rows = list.values.chunks(f).enumerate().map(|(j, values)| row(j, values, d, whole));
            format!("count {} dimension {d}\n{}", list.values.len() / f, rows.collect::<String>())
        }
        Err(number) => format!("no {number}: {}\n", questions[(number - REFUSES[0]) as usize]),
    }
}

/// Decimals of few digits at any place, as people write them, and their neighbours.
fn decimal(rng: &mut Rng) -> f64 {
    let digits = rng.bits() % 10u64.pow(1 + rng.below(17) as u32);
    let place = if rng.below(2) == 0 { rng.below(633) as i64 - 324 } else { rng.below(24) as i64 - 12 };
    let x: f64 = format!("{digits}e{place}").parse().unwrap();
    f64::from_bits((x.to_bits() + rng.below(3)).saturating_sub(1))
}

/// Numbers of every kind: those that stand for themselves, powers of two and of ten with their neighbours, and random ones.
fn numbers(rng: &mut Rng, random: u64) -> Vec<f64> {
    let tens = (-324..309).map(|k| format!("1e{k}").parse::<f64>().unwrap().to_bits());
    let tens = tens.flat_map(|x| (0..7).map(move |k| f64::from_bits((x + k).saturating_sub(3))));
    let mut all: Vec<f64> = special().into_iter().chain(powers_of_two()).chain(tens).collect();
    for turn in 0..random {
        let x = if turn % 3 == 0 { decimal(rng) } else { sample(rng, turn) };
        all.push(f64::from_bits(x.to_bits() ^ rng.below(2) << 63));
    }
    all.retain(|x| x.is_finite());
    all
}

struct Program {
    path: PathBuf,
    folder: PathBuf,
}

impl Program {
    /// What it prints, with what it says of an error behind it.
    fn run(&self, words: &[&str]) -> String {
        let mut command = Command::new(&self.path);
        let output = command.args(words).current_dir(&self.folder).stdin(Stdio::null()).output().unwrap();
        let ended = if output.status.success() { String::new() } else { output.status.to_string() };
        [output.stdout, output.stderr].map(|text| String::from_utf8_lossy(&text).into_owned()).concat() + &ended
    }

    fn shown(&self, list: &[u8], whole: bool) -> String {
        fs::write(self.folder.join(NAME), list).unwrap();
        self.run(if whole { &[NAME, "triangle"] } else { &[NAME] })
    }
}

/// Where the program stands: TRACKDUMP, or where `make programs` leaves it.
fn place() -> PathBuf {
    let built = Path::new(env!("CARGO_MANIFEST_DIR")).join("../target/bin/trackdump");
    env::var_os("TRACKDUMP").map_or(built, PathBuf::from)
}

/// Runs the program, and answers the number of differences; a program that is not there is one.
pub fn run(long: bool) -> u64 {
    let Ok(path) = place().canonicalize() else {
        println!("trackdump: no program at {}: run `make programs` first", place().display());
        return 1;
    };
    let folder = env::temp_dir().join(format!("oracle-trackdump-{}", process::id()));
    fs::create_dir_all(&folder).unwrap();
    let program = Program { path, folder };
    let questions: Vec<String> = REFUSES.iter().map(|number| question(*number)).collect();
    let mut rng = Rng::new(43);

    let mut digits = Tally::new("trackdump, numbers");
    for part in numbers(&mut rng, if long { 5_000_000 } else { 60_000 }).chunks(MOST_VALUES) {
        let mut values = part.to_vec();
        values.resize(MOST_VALUES, 0.0);
        let list = write(COUNTS, DIMENSIONS, &values).unwrap();
        let shown = program.shown(&list, true);
        let is_number = |word: &&str| word.contains(['.', 'e']) && !word.starts_with(char::is_alphabetic);
        let texts: Vec<&str> = shown.split_whitespace().filter(is_number).collect();
        for (at, x) in part.iter().enumerate() {
            let (wanted, text) = (format!("{x:?}"), texts.get(at).copied().unwrap_or_default());
            digits.case(text == wanted, || format!("{wanted} is shown as {text}"));
        }
        let wanted = wanted(&read(&list), true, &questions);
        digits.case(shown == wanted, || "another text around the numbers".to_string());
    }

    let turns = if long { 3_000 } else { 200 };
    let mut lists = Tally::refusing("trackdump, lists", REFUSES, turns / 40);
    for turn in 0..turns as u32 {
        let mut case = draw(&mut rng);
        match turn % 4 {
            0 => turn_bit(&mut rng, &mut case),
            1 | 2 => {
                let list = rng.below(3) as usize;
                fault(&mut rng, &mut case, list, REFUSES[turn as usize / 4 % REFUSES.len()]);
            }
            _ => {}
        }
        case.lists[0].resize(
            if turn % 16 == 3 {
                rng.one_of(&[0, 1, LONGEST + 1, 65_536, 65_537, 100_000])
            } else {
                case.lists[0].len()
            },
            0,
        );
        for list in &case.lists {
            let (answer, whole) = (read(list), rng.below(2) == 0);
            lists.refused(answer.as_ref().err().copied().unwrap_or(0));
            let (shown, wanted) = (program.shown(list, whole), wanted(&answer, whole, &questions));
            lists.case(shown == wanted, || format!("a list of {} bytes: prints\n{shown}and not\n{wanted}", list.len()));
        }
    }
    let usage = "usage: trackdump FILE [triangle]\n";
    let missing = "missing.trk: No such file or directory\n";
    let told: [(&[&str], &str); 7] = [
        (&[], usage),
        (&["missing.trk"], missing),
        (&["missing.trk", "triangle"], missing),
        (&["."], ".: Is a directory\n"),
        (&[NAME, "triangles"], usage),
        (&[NAME, "a word that is longer than any form"], usage),
        (&[NAME, "triangle", "triangle"], usage),
    ];
    for (words, text) in told {
        let said = program.run(words);
        lists.case(said == text, || format!("{words:?}: says {said} and not {text}"));
    }
    fs::remove_dir_all(&program.folder).unwrap();
    digits.close() + lists.close()
}
