//! Durations: growth with states and steps, estimates alone, speeds, the largest gaps, and alignments.

use std::hint::black_box;

use jbonsai::{duration::DurationEstimator, model::MeanVari};

use crate::{Inputs, Side, least_times, row};

unsafe extern "C" {
    fn hejmirov_fit(
        means: *const f64, n_means: usize, varis: *const f64, n_varis: usize, shortest: *const u32, n_shortest: usize,
        frame_length: f64, out: *mut u32, n_out: usize, work: *mut u32, n_work: usize, changes: *mut u32,
    ) -> u32;
    fn hejmirov_speed(
        means: *const f64, n_means: usize, varis: *const f64, n_varis: usize, shortest: *const u32, n_shortest: usize,
        speed: f64, out: *mut u32, n_out: usize, work: *mut u32, n_work: usize, changes: *mut u32,
    ) -> u32;
    fn hejmirov_align(
        means: *const f64, n_means: usize, varis: *const f64, n_varis: usize, shortest: *const u32, n_shortest: usize,
        nstate: u32, ends: *const f64, n_ends: usize, out: *mut u32, n_out: usize, work: *mut u32, n_work: usize,
        written: *mut u32, changes: *mut u32,
    ) -> u32;
}

const MOST_FRAMES: f64 = 65_536.0;
const NSTATE: usize = 5;
const OPEN: f64 = -1.0;

/// What is asked of the states: a speed, a length in frames, the labels' ends, or an alignment with no end, all tail. The
/// Rust answers the last by its own estimates: it gives a tail no durations, and prints a warning each time.
#[derive(Clone, Copy)]
enum Asked {
    Speed(f64),
    Length(f64),
    Ends,
    Tail,
}

/// An end for each fourth label, two frames behind its states' natural time, and for the last.
fn ends_of(means: &[f64]) -> Vec<f64> {
    let labels = means.len() / NSTATE;
    let end = |label| means[..label * NSTATE].iter().sum::<f64>() + 2.0;
    (1..=labels).map(|label| if label % 4 == 0 || label == labels { end(label) } else { OPEN }).collect()
}

/// States as both sides take them, with room for our answer.
struct States {
    estimator: DurationEstimator,
    parameters: Vec<MeanVari>,
    means: Vec<f64>,
    varis: Vec<f64>,
    ones: Vec<u32>, // the shortest durations, which the Rust doesn't have
    times: Vec<(f64, f64)>,
    ends: Vec<f64>,
    open: Vec<f64>,
    out: Vec<u32>,
    work: Vec<u32>,
}

impl States {
    fn new(count: usize, mut pair: impl FnMut() -> (f64, f64)) -> Self {
        let (means, varis): (Vec<f64>, Vec<f64>) = (0..count).map(|_| pair()).unzip();
        let parameters: Vec<_> = means.iter().zip(&varis).map(|(&mean, &vari)| MeanVari(mean, vari)).collect();
        let estimator = DurationEstimator::new(parameters.clone(), NSTATE);
        let ends = ends_of(&means);
        let times = ends.iter().map(|&end| (0.0, end)).collect();
        let open = vec![OPEN; ends.len()];
        let (ones, out, work) = (vec![1; count], vec![0; count], vec![0; count]);
        Self { estimator, parameters, means, varis, ones, times, ends, open, out, work }
    }

    /// States and a length at which the rule takes so many steps: the means of the short states make rho 0, so that every
    /// other state is estimated too long.
    fn too_long(count: usize, steps: usize) -> (Self, Asked) {
        let mut inputs = Inputs::new();
        let long = count.div_ceil(2);
        let short = count - long;
        let each = steps / long + 3;
        let target = long * each + short - steps;
        let mean = 1.0 - steps as f64 / short as f64;
        let mut next = mean;
        let states = Self::new(count, || {
            next = if next == mean { each as f64 } else { mean };
            (next, inputs.between(0.5, 20.0))
        });
        (states, Asked::Length(target as f64))
    }

    fn rust(&self, asked: Asked) -> Vec<usize> {
        match asked {
            Asked::Speed(speed) => self.estimator.create(speed),
            Asked::Length(length) => {
                DurationEstimator::estimate_duration_with_frame_length(&self.parameters, length)
            }
            Asked::Ends => self.estimator.create_with_alignment(&self.times),
            Asked::Tail => DurationEstimator::estimate_duration(&self.parameters, 0.0),
        }
    }

    /// Our answer, in `out`; how many unit changes it took.
    fn ours(&mut self, asked: Asked) -> u32 {
        let count = self.means.len();
        let (means, varis, ones) = (self.means.as_ptr(), self.varis.as_ptr(), self.ones.as_ptr());
        let (out, work) = (self.out.as_mut_ptr(), self.work.as_mut_ptr());
        let nstate = NSTATE as u32;
        let (mut changes, mut written) = (0, 0);
        // Every list has `count` numbers, or one a label, and outlives the call.
        let refusal = unsafe {
            match asked {
                Asked::Speed(speed) => {
                    hejmirov_speed(means, count, varis, count, ones, count, speed, out, count, work, count, &mut changes)
                }
                Asked::Length(length) => {
                    hejmirov_fit(means, count, varis, count, ones, count, length, out, count, work, count, &mut changes)
                }
                Asked::Ends | Asked::Tail => {
                    let ends = if let Asked::Tail = asked { &self.open } else { &self.ends };
                    let (written, changes) = (&mut written, &mut changes);
                    hejmirov_align(
                        means, count, varis, count, ones, count, nstate, ends.as_ptr(), ends.len(), out, count, work,
                        count, written, changes,
                    )
                }
            }
        };
        assert_eq!(refusal, 0);
        changes
    }

    fn compare(&mut self, what: &str, asked: Asked) {
        let steps = self.ours(asked);
        let same = self.rust(asked).iter().zip(&self.out).all(|(&rust, &ours)| rust == ours as usize);
        assert!(same, "the two differ: {what}");
        // Short calls are timed a hundred at once, so that reading the clock doesn't count.
        let rounds = if self.means.len() * (steps as usize + 10) < 20_000 { 100 } else { 1 };
        let (rust, ours) = least_times(|side| {
            for _ in 0..rounds {
                match side {
                    Side::Rust => drop(black_box(self.rust(black_box(asked)))),
                    Side::Ours => drop(black_box(self.ours(black_box(asked)))),
                }
            }
        });
        row(&format!("{what}, {steps} steps"), rust / rounds, ours / rounds);
    }
}

pub fn run() {
    for count in [2, 5, 10, 100, 1_000, 4_096] {
        for steps in [10, 100, 1_000, 10_000] {
            let (mut states, asked) = States::too_long(count, steps);
            states.compare(&format!("{count} states"), asked);
        }
    }
    for count in [100, 1_000, 4_096] {
        let mut inputs = Inputs::new();
        let mut states = States::new(count, || (inputs.between(1.0, 12.0), inputs.between(0.5, 20.0)));
        for speed in [1.0, 0.8, 1.25, 2.0] {
            states.compare(&format!("{count} states, speed {speed}"), Asked::Speed(speed));
        }
    }
    for count in [100, 1_000, 4_096] {
        // Without variances rho is infinite, every estimate 1, and all frames are given by steps.
        let mut up = States::new(count, || (1.0, 0.0));
        up.compare(&format!("{count} states, the largest gap up"), Asked::Length(MOST_FRAMES));
        // Means that cancel out leave rho near 0: half of the estimates are long, half are 1, and nearly all is taken again.
        let target = count as f64 + 1.0;
        let long = 2.0 * MOST_FRAMES / count as f64 - 2.0;
        let short = 2.0 * target / count as f64 - long;
        let mut next = short;
        let mut down = States::new(count, || {
            next = if next == long { short } else { long };
            (next, 1.0)
        });
        down.compare(&format!("{count} states, the largest gap down"), Asked::Length(target));
    }
}

pub fn alignments() {
    for count in [100, 1_000, 4_000] {
        let mut inputs = Inputs::new();
        let mut states = States::new(count, || (inputs.between(1.0, 12.0), inputs.between(0.5, 20.0)));
        states.compare(&format!("{count} states, an end every 20"), Asked::Ends);
        states.compare(&format!("{count} states, no end"), Asked::Tail);
    }
}
