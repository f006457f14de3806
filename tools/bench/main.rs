//! Times the Rust and this library on the same inputs and prints a Markdown table. Each time is the least of several
//! runs; both answers are compared before they are timed.

mod durations;
mod houses;
mod links;
mod runs;
mod settings;
mod shortest;
mod trajectories;
mod words;

use std::time::{Duration, Instant};

/// A fixed source of inputs, so that every run times the same ones.
pub struct Inputs(u64);

impl Inputs {
    pub fn new() -> Self {
        Self(0x9e37_79b9_7f4a_7c15)
    }

    /// A number from `low` up to `high`.
    pub fn between(&mut self, low: f64, high: f64) -> f64 {
        self.0 ^= self.0 << 13;
        self.0 ^= self.0 >> 7;
        self.0 ^= self.0 << 17;
        low + (self.0 >> 11) as f64 / (1u64 << 53) as f64 * (high - low)
    }
}

/// Whose call is timed.
#[derive(Clone, Copy)]
pub enum Side {
    Rust,
    Ours,
}

/// The least times of the Rust's call and of ours, a fifth of a second each in turn for two seconds, so that what else the
/// machine does falls on both.
pub fn least_times(mut call: impl FnMut(Side)) -> (Duration, Duration) {
    let mut least_of = |side| {
        let begin = Instant::now();
        let mut least = Duration::MAX;
        let mut runs = 0;
        while runs < 3 || begin.elapsed() < Duration::from_millis(200) {
            let start = Instant::now();
            call(side);
            least = least.min(start.elapsed());
            runs += 1;
        }
        least
    };
    let begin = Instant::now();
    let (mut rust, mut ours) = (Duration::MAX, Duration::MAX);
    while begin.elapsed() < Duration::from_secs(2) {
        rust = rust.min(least_of(Side::Rust));
        ours = ours.min(least_of(Side::Ours));
    }
    (rust, ours)
}

/// One row: what was timed, the Rust's time, ours, and how many times as fast ours is.
pub fn row(what: &str, rust: Duration, ours: Duration) {
    let ratio = rust.as_secs_f64() / ours.as_secs_f64();
    println!("| {what} | {} | {} | {ratio:.1} |", shown(rust), shown(ours));
}

pub fn shown(time: Duration) -> String {
    let nanoseconds = time.as_nanos() as f64;
    match nanoseconds {
        n if n < 1e4 => format!("{n:.0} ns"),
        n if n < 1e7 => format!("{:.1} µs", n / 1e3),
        n => format!("{:.1} ms", n / 1e6),
    }
}

/// A group's name, its columns, and what prints its rows.
type Group = (&'static str, &'static str, fn());

const BOTH: &str = "Rust | Hejmirov | times as fast";
const PLAIN: &str = "plain Rust | Hejmirov | times as fast";
const GROUPS: [Group; 11] = [
    ("durations", BOTH, durations::run),
    ("alignments", BOTH, durations::alignments),
    ("shortest", PLAIN, shortest::run),
    ("trajectories", BOTH, trajectories::run),
    ("growth", BOTH, trajectories::growth),
    ("largest", BOTH, trajectories::largest),
    ("runs", BOTH, runs::run),
    ("links", "as a file | over a link | of that a part", links::run),
    ("settings", PLAIN, settings::run),
    ("houses", PLAIN, houses::run),
    ("words", PLAIN, words::run),
];

fn main() {
    let asked: Vec<String> = std::env::args().skip(1).collect();
    if let Some(unknown) = asked.iter().find(|name| GROUPS.iter().all(|(group, ..)| group != name)) {
        let known: Vec<&str> = GROUPS.iter().map(|(group, ..)| *group).collect();
        eprintln!("bench: no group {unknown}; there are {}", known.join(", "));
        std::process::exit(2);
    }
    for (name, columns, run) in GROUPS {
        if asked.is_empty() || asked.iter().any(|one| one == name) {
            println!("| {name} | {columns} |\n|---|---|---|---|");
            run();
            println!();
        }
    }
}
