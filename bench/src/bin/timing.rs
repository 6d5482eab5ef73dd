//! Times builds at full size by the proved library and by the plain implementation: `timing [CASE]`.
use bench::cases::{self, Case};
use bench::command::Told;
use bench::{ours, plain};
use std::env;
use std::hint::black_box;
use std::time::{Duration, Instant};

type Build = fn(&[u64], &mut [u64], &mut [u64], u64) -> Told;

/// Builds of each kind in a case, as many as fit into this time.
const TIME: Duration = Duration::from_millis(1500);
const FEWEST: usize = 15;

/// One build over a store that holds so many entries, as the others before it found it.
fn time_one(case: &mut Case, kept: u64, build: Build) -> Duration {
    case.rows.store[0] = kept;
    let desk = &case.rows.desks;
    let start = Instant::now();
    let told = build(black_box(desk), &mut case.rows.store, &mut case.rows.ran, case.item);
    let time = start.elapsed();
    black_box(told);
    time
}

/// The median and the fastest, in microseconds. On a machine that others use too, the fastest is the steadier.
fn summary(mut times: Vec<Duration>) -> (f64, f64) {
    times.sort();
    let microseconds = |time: Duration| time.as_nanos() as f64 / 1e3;
    (microseconds(times[times.len() / 2]), microseconds(times[0]))
}

/// All answer alike and leave the same rows.
fn check(case: &Case) {
    let mut left = case.rows.clone();
    let told = ours::build_item(case.desk(), &mut left.store, &mut left.ran, case.item);
    for build in [plain::build_item, plain::build_item_indexed] {
        let mut right = case.rows.clone();
        let told_right = build(case.desk(), &mut right.store, &mut right.ran, case.item);
        assert_eq!(told, told_right, "{}", case.name);
        assert!(left == right, "{}: the rows differ", case.name);
    }
}

fn time_case(mut case: Case) {
    check(&case);
    let kept = case.rows.store[0];
    let (mut ours, mut plain, mut indexed) = (Vec::new(), Vec::new(), Vec::new());
    let start = Instant::now();
    while ours.len() < FEWEST || start.elapsed() < TIME {
        ours.push(time_one(&mut case, kept, ours::build_item));
        plain.push(time_one(&mut case, kept, plain::build_item));
        indexed.push(time_one(&mut case, kept, plain::build_item_indexed));
    }
    let ran = case.rows.ran[0];
    let builds = ours.len();
    let [(ours, fastest), (plain, fastest_plain), (indexed, _)] = [ours, plain, indexed].map(summary);
    println!(
        "| {} | {kept} | {ran} | {ours:.1} | {plain:.1} | {:.2} | {fastest:.1} | {fastest_plain:.1} | {:.2} | {indexed:.1} | {builds} |",
        case.name,
        ours / plain,
        fastest / fastest_plain,
    );
}

fn main() {
    let wanted = env::args().nth(1).unwrap_or_default();
    println!(
        "| Case | Kept before | Ran | Ours, µs | Plain, µs | Ratio | Ours, fastest | Plain, fastest | Ratio | Indexed, µs | Builds |"
    );
    println!("|---|---|---|---|---|---|---|---|---|---|---|");
    for case in cases::all() {
        if case.name.contains(&wanted) {
            time_case(case);
        }
    }
}
