//! The library's fusion beside the second one.
use super::cases::{any, classes, fields, refused, related, Case, RELATED};
use super::reference::{fuse, Fused, Unfused};
use crate::faults::fusions::Rule;
use crate::faults::{self, Fault, Kind, Met, Shape};
use crate::ffi;
use crate::lent::Lent;
use crate::rng::Rng;
use crate::tally::{self, Tally};

const CALL: &str = "fuse";

const REFUSES: &[u32] = &[1, 2];

/// Each kind of answer, each number and each class is met so many times at least.
const LEAST: u64 = 100;

/// A fused track has finite fields; where there is none, nothing is written.
pub fn shape() -> Shape {
    let lengths = (0..4).map(Fault::Unasked);
    Shape {
        name: CALL,
        reads: 3,
        writes: vec![Kind::Doubles { slice: true, nan: false, zero: true }, Kind::Whole],
        partly: vec![0],
        refuses: REFUSES,
        orders: vec![(1, 2)],
        others: lengths.chain(Rule::ALL.iter().copied().map(Fault::Fusion)).collect(),
    }
}

/// How many cases of a class were fused, and how many not.
#[derive(Clone, Copy, Default)]
struct Of {
    fused: u64,
    not: u64,
}

/// How many answers were of each kind, and why there was no track.
#[derive(Default)]
struct Seen {
    fused: u64,
    /// Fused ones of which the floor has raised an eigenvalue.
    raised: u64,
    /// Fused ones under a floor that a merge can have.
    usual: u64,
    refused: u64,
    covariance: [u64; 3],
    information: u64,
    repair: u64,
    infinite_state: u64,
    infinite_covariance: u64,
    related: Vec<Of>,
    any: Of,
}

impl Seen {
    fn answered(&mut self, class: Option<usize>, floor: f64, wanted: &Result<Fused, Unfused>) {
        let count = match wanted {
            Ok(fused) => {
                self.raised += u64::from(fused.raised > 0);
                self.usual += u64::from(floor.is_finite() && floor > 0.0);
                &mut self.fused
            }
            Err(Unfused::Covariance(of)) => &mut self.covariance[*of],
            Err(Unfused::Information) => &mut self.information,
            Err(Unfused::Repair) => &mut self.repair,
            Err(Unfused::InfiniteState) => &mut self.infinite_state,
            Err(Unfused::InfiniteCovariance) => &mut self.infinite_covariance,
        };
        *count += 1;
        let of = class.map_or(&mut self.any, |class| &mut self.related[class]);
        of.fused += u64::from(wanted.is_ok());
        of.not += u64::from(wanted.is_err());
    }

    fn print(&self) {
        let [base, ours, theirs] = self.covariance;
        let Seen { information, repair, infinite_state, infinite_covariance, .. } = self;
        let not = base + ours + theirs + information + repair + infinite_state + infinite_covariance;
        println!(
            "fuse: {} fused, {} of them with an eigenvalue raised, {} under a floor that a merge can have; {not} not fused (no inverse of base {base}, of ours {ours}, of theirs {theirs}, of what they know together {information}, no repair {repair}, a state that is not finite {infinite_state}, a covariance {infinite_covariance}); {} refused",
            self.fused, self.raised, self.usual, self.refused
        );
        let line = |name: &str, of: &Of| format!("{name} {} and {}", of.fused, of.not);
        let classes: Vec<String> = RELATED.iter().zip(&self.related).map(|((name, _), of)| line(name, of)).collect();
        println!(
            "fuse: fused and not, by classes: {}, {}",
            classes.join(", "),
            line("those of all matrix calls", &self.any)
        );
    }

    /// The kinds of answers and the classes that were met too rarely.
    fn rare(&self) -> bool {
        let Seen { fused, raised, usual, information, repair, infinite_state, infinite_covariance, .. } = *self;
        let kinds = [fused, raised, usual, information, repair, infinite_state, infinite_covariance];
        let classes = self.related.iter().chain([&self.any]).map(|of| of.fused + of.not);
        kinds.into_iter().chain(self.covariance).chain(classes).any(|met| met < LEAST)
    }
}

/// The questions that are not met, each asked by itself.
fn unmet(case: &Case) -> Vec<u32> {
    let questions = [(1, (1..=16).contains(&case.side)), (2, wrong_lengths(case).is_empty())];
    questions.iter().filter(|(_, met)| !met).map(|(question, _)| *question).collect()
}

/// The slices that have another length than the side asks for: base, ours, theirs, and the one that is written.
fn wrong_lengths(case: &Case) -> Vec<usize> {
    let [base, ours, theirs] = case.slices().map(<[f64]>::len);
    [base, ours, theirs, case.room]
        .iter()
        .enumerate()
        .filter(|(_, n)| **n != fields(case.side))
        .map(|(at, _)| at)
        .collect()
}

/// One fusion: its answer and all memory. The number of a refusal is wanted, or a track, or none.
fn compare(tally: &mut Tally, case: &Case, number_wanted: u32, wanted: Option<&Fused>) {
    let [mut base, mut ours, mut theirs] = case.slices().map(Lent::holding);
    let (mut out, mut fused) = (Lent::<f64>::marked(case.room), Lent::<u32>::marked(1));
    let tracks = [base.slice(), ours.slice(), theirs.slice()];
    let mut number = ffi::fuse(tracks, case.side, case.floor, out.slice_mut(), fused.one());
    if let (0, Some(Fault::Fusion(rule))) = (number, faults::planted(CALL)) {
        rule.plant(case, &mut out, &mut fused);
    }
    let out_wanted = wanted.map_or(&[][..], |track| &track.fields);
    faults::plant(CALL, || Met {
        number: &mut number,
        also: unmet(case),
        wrong: wrong_lengths(case),
        reads: vec![&mut base, &mut ours, &mut theirs],
        writes: vec![(&mut out, out_wanted.len()), (&mut fused, 1)],
    });
    let told = [u32::from(wanted.is_some())];
    let agrees = number == number_wanted
        && fused.begins_with(if number_wanted == 0 { &told } else { &[] })
        && out.begins_with(out_wanted);
    let kept = [&base, &ours, &theirs].into_iter().all(Lent::is_untouched);
    tally.refused(number_wanted);
    tally.case(agrees && kept, || {
        format!(
            "side {}, {}, floor {:e}: answers {number}, fused {}, {:?}, not {number_wanted}, {wanted:?}, what is read {}\n    {:?}",
            case.side,
            case.class,
            case.floor,
            fused.slice()[0],
            out.slice(),
            if kept { "stays" } else { "is changed" },
            case.tracks
        )
    });
}

/// A fusion that is answered, and the same with ours and theirs exchanged, whose answer has the same bits.
fn answered(tally: &mut Tally, seen: &mut Seen, class: Option<usize>, case: &Case) {
    let wanted = fuse(case.side, case.slices(), case.floor);
    seen.answered(class, case.floor, &wanted);
    compare(tally, case, 0, wanted.as_ref().ok());
    compare(tally, &case.exchanged(), 0, wanted.as_ref().ok());
}

/// Runs every class at every side so many times, and answers the number of differences.
pub fn run(count: usize) -> u64 {
    let classes = classes();
    let mut tally = Tally::refusing(CALL, REFUSES, LEAST);
    let mut seen = Seen { related: vec![Of::default(); RELATED.len()], ..Seen::default() };
    let mut rng = Rng::new(71);
    for n in 1..=16 {
        for _ in 0..count {
            for class in 0..RELATED.len() {
                let case = related(&mut rng, class, n);
                answered(&mut tally, &mut seen, Some(class), &case);
            }
            for class in &classes {
                let case = any(&mut rng, class, n);
                answered(&mut tally, &mut seen, None, &case);
            }
        }
        for (case, number) in refused(&mut rng, n) {
            seen.refused += 1;
            compare(&mut tally, &case, number, None);
        }
        tally.done(n, 16);
    }
    if tally::is_quiet() {
        return tally.close();
    }
    seen.print();
    let rare = seen.rare();
    if rare {
        println!("fuse: a kind of answer or a class was met fewer than {LEAST} times");
    }
    tally.close() + u64::from(rare)
}
