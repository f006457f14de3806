//! Durations with a shortest of 3 for every third state, beside a plain Rust of the same rule, as the Rust original has no
//! shortest durations: growth with states and steps, speeds, and a length that leaves every state its shortest.

use std::hint::black_box;

use crate::{Inputs, Side, least_times, row};

unsafe extern "C" {
    fn hejmirov_fit(
        means: *const f64, n_means: usize, varis: *const f64, n_varis: usize, shortest: *const u32, n_shortest: usize,
        frame_length: f64, out: *mut u32, n_out: usize, work: *mut u32, n_work: usize, changes: *mut u32,
    ) -> u32;
}

const KEPT: u32 = 3;

struct States {
    means: Vec<f64>,
    varis: Vec<f64>,
    shortest: Vec<u32>,
    out: Vec<u32>,
    work: Vec<u32>,
}

impl States {
    fn new(count: usize, mut pair: impl FnMut() -> (f64, f64)) -> Self {
        let (means, varis) = (0..count).map(|_| pair()).unzip();
        let shortest = (0..count).map(|state| if state % 3 == 0 { KEPT } else { 1 }).collect();
        Self { means, varis, shortest, out: vec![0; count], work: vec![0; count] }
    }

    /// States and a length at which the rule takes so many steps, and two more for each short state that is kept: the means
    /// of the short states make rho 0, so that every other state is estimated too long.
    fn too_long(count: usize, steps: usize) -> (Self, f64) {
        let mut inputs = Inputs::new();
        let long = count.div_ceil(2);
        let short = count - long;
        let each = steps / long + 4; // so that the target is above the sum of the shortest
        let target = long * each + short - steps;
        let mean = 1.0 - steps as f64 / short as f64;
        let mut next = mean;
        let states = Self::new(count, || {
            next = if next == mean { each as f64 } else { mean };
            (next, inputs.between(0.5, 20.0))
        });
        (states, target as f64)
    }

    fn estimates(&self, rho: f64) -> Vec<u32> {
        let pairs = self.means.iter().zip(&self.varis).zip(&self.shortest);
        pairs.map(|((mean, vari), &shortest)| ((mean + rho * vari).round() as u32).max(shortest)).collect()
    }

    /// The state whose next frame, given or taken, costs least, of those that may have it.
    fn least(&self, durations: &[u32], rho: f64, gives: bool) -> Option<usize> {
        let cost = |state: usize| {
            let frames = f64::from(durations[state]) + if gives { 1.0 } else { -1.0 };
            (rho - (frames - self.means[state]) / self.varis[state]).abs()
        };
        let may = (0..durations.len()).filter(|&state| gives || durations[state] > self.shortest[state]);
        may.map(|state| (state, cost(state))).min_by(|a, b| a.1.total_cmp(&b.1)).map(|(state, _)| state)
    }

    fn plain(&self, length: f64) -> Vec<u32> {
        let target = (length.round() as u32).max(1);
        if target <= self.shortest.iter().sum() {
            return self.shortest.clone();
        }
        let rho = (f64::from(target) - self.means.iter().sum::<f64>()) / self.varis.iter().sum::<f64>();
        let mut durations = self.estimates(rho);
        let mut total: u32 = durations.iter().sum();
        while total != target {
            let gives = total < target;
            let Some(state) = self.least(&durations, rho, gives) else { return durations };
            if gives {
                (durations[state], total) = (durations[state] + 1, total + 1);
            } else {
                (durations[state], total) = (durations[state] - 1, total - 1);
            }
        }
        durations
    }

    /// Our answer, in `out`; how many unit changes it took.
    fn ours(&mut self, length: f64) -> u32 {
        let count = self.means.len();
        let (means, varis, shortest) = (self.means.as_ptr(), self.varis.as_ptr(), self.shortest.as_ptr());
        let (out, work) = (self.out.as_mut_ptr(), self.work.as_mut_ptr());
        let mut changes = 0;
        // Every list has `count` numbers and outlives the call.
        let refusal = unsafe {
            hejmirov_fit(means, count, varis, count, shortest, count, length, out, count, work, count, &mut changes)
        };
        assert_eq!(refusal, 0);
        changes
    }

    fn compare(&mut self, what: &str, length: f64) {
        let steps = self.ours(length);
        assert_eq!(self.plain(length), self.out, "the two differ: {what}");
        // Short calls are timed a hundred at once, so that reading the clock doesn't count.
        let rounds = if self.means.len() * (steps as usize + 10) < 20_000 { 100 } else { 1 };
        let (plain, ours) = least_times(|side| {
            for _ in 0..rounds {
                match side {
                    Side::Rust => drop(black_box(self.plain(black_box(length)))),
                    Side::Ours => drop(black_box(self.ours(black_box(length)))),
                }
            }
        });
        row(&format!("{what}, {steps} steps"), plain / rounds, ours / rounds);
    }
}

pub fn run() {
    for count in [100, 1_000, 4_096] {
        for steps in [100, 1_000, 10_000] {
            let (mut states, length) = States::too_long(count, steps);
            states.compare(&format!("{count} states"), length);
        }
    }
    for count in [100, 1_000, 4_096] {
        let mut inputs = Inputs::new();
        let mut states = States::new(count, || (inputs.between(1.0, 12.0), inputs.between(0.5, 20.0)));
        let natural = f64::from(states.estimates(0.0).iter().sum::<u32>());
        for speed in [0.8, 2.0] {
            states.compare(&format!("{count} states, speed {speed}"), natural / speed);
        }
        let least = f64::from(states.shortest.iter().sum::<u32>());
        states.compare(&format!("{count} states, each at its shortest"), least);
    }
}
