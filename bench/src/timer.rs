//! How long a call takes, and its line of the report.

#[repr(C)]
struct Timespec {
    seconds: i64,
    nanoseconds: i64,
}

extern "C" {
    fn clock_gettime(clock: i32, time: &mut Timespec) -> i32;
}

/// CLOCK_THREAD_CPUTIME_ID of Linux.
const THREAD_TIME: i32 = 3;

/// Nanoseconds that this thread has run: what others run in the meantime does not count.
fn run_time() -> f64 {
    let mut time = Timespec { seconds: 0, nanoseconds: 0 };
    assert!(unsafe { clock_gettime(THREAD_TIME, &mut time) } == 0);
    time.seconds as f64 * 1e9 + time.nanoseconds as f64
}

/// So many rounds at least, and so many nanoseconds in all: a round of short calls takes some microseconds, and a processor that
/// has just begun to work is slow for longer than that.
const ROUNDS: usize = 15;
const LEAST: f64 = 2e8;

/// Nanoseconds of one call, where a round makes `calls` of them: ours and theirs in turn, and the lower quartile of the rounds of each.
/// The least of them can be that of a round in which the thread's clock stood still, as it did now and then on a virtual machine.
pub fn typical(calls: usize, mut ours: impl FnMut(), mut theirs: impl FnMut()) -> (f64, f64) {
    let timed = |round: &mut dyn FnMut()| {
        let start = run_time();
        round();
        (run_time() - start) / calls as f64
    };
    let (mut of_ours, mut of_theirs) = (Vec::new(), Vec::new());
    let start = run_time();
    while of_ours.len() < ROUNDS || run_time() - start < LEAST {
        of_ours.push(timed(&mut ours));
        of_theirs.push(timed(&mut theirs));
    }
    (lower_quartile(of_ours), lower_quartile(of_theirs))
}

fn lower_quartile(mut times: Vec<f64>) -> f64 {
    times.sort_by(f64::total_cmp);
    times[times.len() / 4]
}

/// Prints the two times and their ratio.
pub fn line(name: &str, calls: usize, ours: impl FnMut(), theirs: impl FnMut()) {
    print(name, typical(calls, ours, theirs));
}

/// Prints two times and their ratio.
pub fn print(name: &str, (ours, theirs): (f64, f64)) {
    println!("{name:44} {ours:9.1} ns   Rust {theirs:9.1} ns   ratio {:5.2}", ours / theirs);
}
