//! Trajectories: with and without global variance, and how their cost grows with frames, components and windows.

use std::hint::black_box;

use jbonsai::mlpg_adjust::MlpgAdjust;
use jbonsai::model::voice::window::{Window, Windows};
use jbonsai::model::{MeanVari, ModelStream, StreamParameter};

use crate::{Inputs, Side, least_times, row};

unsafe extern "C" {
    fn hejmirov_trajectory(
        v: u32, masked: u32, threshold: f64, fill: f64, gv_on: u32, gv_weight: f64,
        widths: *const u32, n_widths: usize, coefficients: *const f64, n_coefficients: usize,
        records: *const f64, n_records: usize, durations: *const u32, n_durations: usize,
        gv: *const f64, n_gv: usize, switches: *const u8, n_switches: usize,
        out: *mut f64, n_out: usize, work: *mut f64, n_work: usize, marks: *mut u32, n_marks: usize,
        clamped_high: *mut u32, clamped_low: *mut u32,
    ) -> u32;
}

/// As on a real voice: a state lasts five frames, and one in five of a masked stream is unvoiced.
const FRAMES_A_STATE: usize = 5;

pub const THRESHOLD: f64 = 0.5;

pub const FILL: f64 = -1e10;

/// Static, velocity and acceleration, as voices have them.
const USUAL: [&[f64]; 3] = [&[1.0], &[-0.5, 0.0, 0.5], &[1.0, -2.0, 1.0]];

/// What a stream is made of.
#[derive(Clone)]
pub struct Shape {
    pub v: usize,
    pub frames: usize,
    pub windows: Vec<Vec<f64>>,
    pub masked: bool,
    pub gv: bool,
}

impl Shape {
    pub fn usual(v: usize, frames: usize, gv: bool) -> Self {
        Self { v, frames, windows: USUAL.iter().map(|window| window.to_vec()).collect(), masked: false, gv }
    }

    /// A state's means, variances and, where the stream is masked, its voicing weight.
    pub fn record(&self, inputs: &mut Inputs, voiced: bool) -> Vec<f64> {
        let pairs = self.v * self.windows.len();
        let mut record: Vec<f64> = (0..pairs).map(|_| inputs.between(-2.0, 2.0)).collect();
        record.extend((0..pairs).map(|_| inputs.between(0.05, 1.0)));
        if self.masked {
            record.push(f64::from(voiced));
        }
        record
    }
}

/// A stream as both sides take it, with room for our answer.
pub struct Utterance {
    pub shape: Shape,
    windows: Windows,
    pub records: Vec<f64>,
    pub durations: Vec<usize>,
    gv: Vec<f64>,
    switches: Vec<u8>,
    pub widths: Vec<u32>,
    pub coefficients: Vec<f64>,
    pub lengths: Vec<u32>,
    pub out: Vec<f64>,
    pub work: Vec<f64>,
    pub marks: Vec<u32>,
}

impl Utterance {
    fn new(shape: Shape) -> Self {
        let mut inputs = Inputs::new();
        // No more states than 4,096: those of the longest utterances last longer.
        let states = (shape.frames / FRAMES_A_STATE).clamp(1, 4_096);
        let (each, more) = (shape.frames / states, shape.frames % states);
        let durations: Vec<usize> = (0..states).map(|state| each + usize::from(state < more)).collect();
        let records = (0..states).flat_map(|state| shape.record(&mut inputs, state % 5 != 4)).collect();
        let mut gv: Vec<f64> = (0..shape.v).map(|_| inputs.between(0.5, 1.5)).collect();
        gv.extend((0..shape.v).map(|_| inputs.between(1.0, 20.0)));
        Self::of(shape, records, durations, gv)
    }

    /// That of given states.
    pub fn of(shape: Shape, records: Vec<f64>, durations: Vec<usize>, gv: Vec<f64>) -> Self {
        let (states, frames, v) = (durations.len(), shape.frames, shape.v);
        Self {
            windows: Windows::new(shape.windows.iter().cloned().map(Window::new).collect()),
            widths: shape.windows.iter().map(|window| window.len() as u32).collect(),
            coefficients: shape.windows.concat(),
            switches: (0..states).map(|state| u8::from(state % 10 != 0)).collect(),
            lengths: durations.iter().map(|&duration| duration as u32).collect(),
            out: vec![0.0; frames * v],
            work: vec![0.0; frames * 48],
            marks: vec![0; frames * 4],
            shape,
            records,
            durations,
            gv,
        }
    }

    /// The Rust's own form of the stream, which it is handed as voices give it.
    pub fn adjust(&self) -> MlpgAdjust<'_> {
        let pairs = self.shape.v * self.shape.windows.len();
        let pairs_of = |numbers: &[f64], count: usize| -> Vec<MeanVari> {
            numbers[..count].iter().zip(&numbers[count..]).map(|(&mean, &vari)| MeanVari(mean, vari)).collect()
        };
        let stream = self
            .records
            .chunks(2 * pairs + usize::from(self.shape.masked))
            .map(|record| (pairs_of(record, pairs), if self.shape.masked { record[2 * pairs] } else { f64::MAX }))
            .collect();
        let gv = self.shape.gv.then(|| {
            (pairs_of(&self.gv, self.shape.v), self.switches.iter().map(|&switch| switch != 0).collect())
        });
        let stream = StreamParameter::new(stream);
        MlpgAdjust::new(1.0, THRESHOLD, ModelStream { vector_length: self.shape.v, stream, gv, windows: &self.windows })
    }

    pub fn render(&mut self) {
        let shape = &self.shape;
        let (mut high, mut low) = (1, 1);
        // Every list comes with its own length and outlives the call; so do both counts.
        let refusal = unsafe {
            hejmirov_trajectory(
                shape.v as u32, u32::from(shape.masked), THRESHOLD, FILL, u32::from(shape.gv), 1.0,
                self.widths.as_ptr(), self.widths.len(), self.coefficients.as_ptr(), self.coefficients.len(),
                self.records.as_ptr(), self.records.len(), self.lengths.as_ptr(), self.lengths.len(),
                self.gv.as_ptr(), self.gv.len(), self.switches.as_ptr(), self.switches.len(),
                self.out.as_mut_ptr(), self.out.len(), self.work.as_mut_ptr(), self.work.len(),
                self.marks.as_mut_ptr(), self.marks.len(), &mut high, &mut low,
            )
        };
        // No variance is clamped; that is counted on this side alone, as the Rust has no such counts.
        assert_eq!((refusal, high, low), (0, 0, 0));
    }
}

fn compare(what: &str, shape: Shape) {
    let (theirs, mut ours) = (Utterance::new(shape.clone()), Utterance::new(shape));
    let adjust = theirs.adjust();
    ours.render();
    let rust = adjust.create(&theirs.durations).concat();
    let same = rust.iter().map(|x| x.to_bits()).eq(ours.out.iter().map(|x| x.to_bits()));
    assert!(same, "the two differ: {what}");
    let (rust, ours) = least_times(|side| match side {
        Side::Rust => drop(black_box(adjust.create(black_box(&theirs.durations)))),
        Side::Ours => ours.render(),
    });
    row(what, rust, ours);
}

fn named(gv: bool) -> &'static str {
    if gv { ", with GV" } else { "" }
}

pub fn run() {
    for frames in [3_000, 12_000] {
        for gv in [false, true] {
            compare(&format!("v 45, windows 1, 3, 3, {frames} frames{}", named(gv)), Shape::usual(45, frames, gv));
        }
    }
    for gv in [false, true] {
        let masked = Shape { masked: true, ..Shape::usual(1, 3_000, gv) };
        compare(&format!("v 1, masked, windows 1, 3, 3, 3000 frames{}", named(gv)), masked);
    }
}

/// How the time grows with frames, components and the length of windows.
pub fn growth() {
    for frames in [1_000, 4_000, 16_000, 65_536] {
        compare(&format!("v 45, windows 1, 3, 3, {frames} frames"), Shape::usual(45, frames, false));
    }
    for v in [1, 4, 16, 64] {
        compare(&format!("v {v}, windows 1, 3, 3, 3000 frames"), Shape::usual(v, 3_000, false));
    }
    for width in [1, 2, 3, 4, 5, 7, 9, 11, 13, 15] {
        for gv in [false, true] {
            let taps = |low: f64| (0..width).map(|tap| low + 0.125 * tap as f64).collect();
            let windows = vec![vec![1.0], taps(-0.5625), taps(0.3)];
            let shape = Shape { windows, ..Shape::usual(10, 2_000, gv) };
            compare(&format!("v 10, windows 1, {width}, {width}, 2000 frames{}", named(gv)), shape);
        }
    }
}

/// The largest stream there is.
pub fn largest() {
    let taps = |low: f64| (0..15).map(|tap| low + 0.125 * tap as f64).collect();
    let windows = vec![vec![1.0], taps(-0.5625), taps(0.3), taps(-0.9)];
    let shape = Shape { windows, ..Shape::usual(64, 65_536, true) };
    compare("v 64, windows 1, 15, 15, 15, 65536 frames, with GV", shape);
}
