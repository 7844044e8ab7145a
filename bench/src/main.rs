//! Times the proved library's calls, and its re-judging against the same work in plain Rust.
//!
//! Without `--before` all is timed in this process. With it, the program that is named is this one with another build of the library;
//! workers are then told what to time.
#![cfg_attr(feature = "overrides", forbid(unsafe_code))]
#![deny(unsafe_code)]
mod cases;
mod library;
mod plain;
#[cfg(feature = "snapshots")]
mod snapshots;
mod work;
mod workers;

use aspa_filter::{KeptVerdict, MOST_RECORDS};
use cases::{Cases, Timed, What, CHANGED, PLAIN};
use std::path::PathBuf;
use work::{PATH, ROUTES};
use workers::{Worker, WORKER};

/// 10th percentile, median, 90th percentile.
fn spread(samples: &mut [f64]) -> [f64; 3] {
    samples.sort_by(f64::total_cmp);
    [10, 50, 90].map(|p| samples[(samples.len() - 1) * p / 100])
}

fn print(name: &str, unit: &str, samples: &mut [f64]) {
    let [low, median, high] = spread(samples);
    println!("{name:<60} {median:>9.3} {unit:<3} (10th {low:.3}, 90th {high:.3})");
}

/// The microseconds of each of so many, one vector for each, interleaved run by run in every order in turn. In a round all must tell the
/// same.
fn interleaved(
    many: usize,
    rounds: usize,
    mut run: impl FnMut(usize, usize) -> Timed,
) -> Vec<Vec<f64>> {
    const WARM: usize = 20;
    let mut times = vec![Vec::new(); many];
    for round in 0..rounds + WARM {
        let mut told = None;
        for turn in 0..many {
            let which = if round % 2 == 0 {
                (round + turn) % many
            } else {
                (round + many - turn) % many
            };
            let Timed { nanoseconds, check } = run(which, round);
            assert_eq!(*told.get_or_insert(check), check, "they differ");
            if round >= WARM {
                times[which].push(nanoseconds as f64 / 1000.0);
            }
        }
    }
    times
}

/// The first over another, round by round.
fn ratios(times: &[Vec<f64>], other: usize) -> Vec<f64> {
    times[0]
        .iter()
        .zip(&times[other])
        .map(|(a, b)| a / b)
        .collect()
}

/// Who runs what is timed.
enum Timer<'a> {
    Here(&'a Cases),
    Worker(Worker),
}

impl Timer<'_> {
    fn time(&mut self, what: What, round: usize) -> Timed {
        match self {
            Timer::Here(cases) => cases.time(what, round),
            Timer::Worker(worker) => worker.time(what, round),
        }
    }

    /// How many calls its library takes. Later ones are not for earlier libraries.
    fn calls(&mut self) -> usize {
        match self {
            Timer::Here(cases) => cases.calls.len(),
            Timer::Worker(worker) => worker.calls(),
        }
    }

    /// How many tables it takes, likewise.
    fn tables(&mut self) -> usize {
        match self {
            Timer::Here(cases) => cases.tables.len(),
            Timer::Worker(worker) => worker.tables(),
        }
    }
}

/// A library, or a way of plain Rust, and the index of who runs it.
struct Way {
    name: &'static str,
    plain: Option<usize>,
    timer: usize,
}

/// How long each way takes on these tables; nothing where its library does not take them.
fn time_rejudges(
    timers: &mut [Timer],
    ways: &[Way],
    rounds: usize,
    tables: usize,
) -> Vec<Vec<f64>> {
    let takes = |way: &usize| tables < timers[ways[*way].timer].tables();
    let there: Vec<usize> = (0..ways.len()).filter(takes).collect();
    let times = interleaved(there.len(), rounds, |which, round| {
        let Way { plain, timer, .. } = ways[there[which]];
        timers[timer].time(What::Rejudge(tables, plain), round)
    });
    let mut all = vec![Vec::new(); ways.len()];
    for (way, times) in there.into_iter().zip(times) {
        all[way] = times;
    }
    all
}

/// The program with another library, and the rounds.
fn arguments() -> Option<(Option<PathBuf>, usize)> {
    let mut args = std::env::args().skip(1).peekable();
    let before = match args.next_if(|arg| arg == "--before") {
        Some(_) => Some(PathBuf::from(args.next()?)),
        None => None,
    };
    let rounds = match args.next() {
        Some(rounds) => rounds.parse().ok().filter(|rounds| *rounds > 0)?,
        None => 500,
    };
    args.next().is_none().then_some((before, rounds))
}

fn main() {
    if std::env::args().nth(1).as_deref() == Some(WORKER) {
        return workers::serve(&Cases::make());
    }
    let Some((before, rounds)) = arguments() else {
        eprintln!("usage: bench/run [--before DIR] [ROUNDS], with 1 round or more");
        std::process::exit(2);
    };
    let cases = Cases::make();
    let (refused, ends) = cases.compare();
    // The libraries by name, the first of which is the one that is measured. Each has a worker of its own, and plain Rust has one too.
    let (libraries, mut timers) = match before {
        None => (&["proved"][..], vec![Timer::Here(&cases)]),
        Some(before) => {
            let this = std::env::current_exe().expect("this program's path");
            let mut workers = [&this, &before, &this].map(|program| Worker::start(program));
            for worker in &mut workers[..2] {
                assert_eq!(worker.compare(), ends, "the libraries differ");
            }
            let workers = workers.map(Timer::Worker);
            (&["proved", "before"][..], workers.into())
        }
    };
    let proved = libraries.iter().enumerate().map(|(timer, name)| Way {
        name,
        plain: None,
        timer,
    });
    let plain = PLAIN.iter().enumerate().map(|(i, (name, _))| Way {
        name,
        plain: Some(i),
        timer: timers.len() - 1,
    });
    let ways: Vec<Way> = proved.chain(plain).collect();
    println!("same words and same answers, also on {CHANGED} changed tables ({refused} refused)");
    println!(
        "no register with a list that holds its own customer is taken ({} lists)",
        cases.compare_own_customers()
    );
    println!(
        "no ledger with two equal numbers side by side on a path is taken ({} paths)",
        cases.compare_equal_neighbours()
    );
    #[cfg(feature = "overrides")]
    println!(
        "same with half of the records overridden, also on {CHANGED} changed tables ({} refused), and the same hops and lists",
        cases.compare_overrides()
    );
    #[cfg(feature = "snapshots")]
    println!(
        "same snapshots, also of {CHANGED} changed tables and of as many changed ones ({} refused)",
        cases.compare_snapshots()
    );

    let main = &cases.tables[0];
    let (_, changed, now) = library::rejudge(&main.register, &main.overrides, &main.stale);
    let changed = changed.expect("judged anew");
    let [mut valid, mut invalid, mut unknown] = [0; 3];
    for route in now.routes() {
        *match route.verdict {
            KeptVerdict::Valid => &mut valid,
            KeptVerdict::Invalid(_) => &mut invalid,
            KeptVerdict::Unknown { .. } => &mut unknown,
        } += 1;
    }
    println!(
        "{ROUTES} routes of {PATH}, {MOST_RECORDS} records of 8, no overrides, {rounds} rounds: {changed} change; \
         then Valid {valid}, Invalid {invalid}, Unknown {unknown}"
    );
    let mut times = time_rejudges(&mut timers, &ways, rounds, 0);
    for (i, way) in ways.iter().enumerate().skip(1) {
        print(
            &format!("proved / {}", way.name),
            "",
            &mut ratios(&times, i),
        );
    }
    for (way, samples) in ways.iter().zip(&mut times) {
        print(&format!("re-judge, {}", way.name), "us", samples);
    }

    print!("\n{:<42}", "re-judge, medians in us");
    for way in &ways {
        print!(" {:>9}", way.name.trim_start_matches("Rust, "));
    }
    println!();
    for (i, tables) in cases.tables.iter().enumerate().skip(1) {
        print!("{:<42}", tables.name);
        for samples in &mut time_rejudges(&mut timers, &ways, rounds.div_ceil(5), i) {
            match samples[..] {
                [] => print!(" {:>9}", "-"),
                _ => print!(" {:>9.1}", spread(samples)[1]),
            }
        }
        println!();
    }
    println!();
    for (i, call) in cases.calls.iter().enumerate() {
        let mut ways: Vec<(&str, What, usize)> = Vec::new();
        for (timer, library) in libraries.iter().enumerate() {
            if i < timers[timer].calls() {
                ways.push((library, What::Call(i), timer));
            }
        }
        if call.plain.is_some() {
            ways.push(("Rust", What::PlainCall(i), timers.len() - 1));
        }
        let mut times = interleaved(ways.len(), rounds, |which, round| {
            let (_, what, timer) = ways[which];
            timers[timer].time(what, round)
        });
        for (other, (way, ..)) in ways.iter().enumerate().skip(1) {
            print(
                &format!("{}, proved / {way}", call.name),
                "",
                &mut ratios(&times, other),
            );
        }
        for ((way, ..), samples) in ways.iter().zip(&mut times) {
            print(&format!("{}, {way}", call.name), "us", samples);
        }
    }
}
