//! One voiced run alone, beside the whole utterance that it is in, and finding the runs of the most states. The Rust has
//! no runs: beside one of them stands its trajectory of the run's states alone, cut out beforehand, and beside the search
//! a plain Rust of the same rules over the same lists.

use std::hint::black_box;

use crate::trajectories::{FILL, Shape, THRESHOLD, Utterance};
use crate::words::timed;
use crate::{Inputs, Side, least_times, row};

unsafe extern "C" {
    fn hejmirov_runs(
        v: u32, masked: u32, threshold: f64, windows: usize,
        records: *const f64, n_records: usize, durations: *const u32, n_durations: usize,
        runs: *mut u32, n_runs: usize, count: *mut u32,
    ) -> u32;
    fn hejmirov_run(
        v: u32, masked: u32, threshold: f64, fill: f64, gv_on: u32, gv_weight: f64,
        widths: *const u32, n_widths: usize, coefficients: *const f64, n_coefficients: usize,
        records: *const f64, n_records: usize, durations: *const u32, n_durations: usize,
        gv: *const f64, n_gv: usize, switches: *const u8, n_switches: usize, run: u32,
        out: *mut f64, n_out: usize, work: *mut f64, n_work: usize, marks: *mut u32, n_marks: usize,
        frames: *mut u32,
    ) -> u32;
}

const V: usize = 40;
const STATES: usize = 4_096;
const FRAMES: usize = 65_536;
/// A state lasts so long, but for the last of a run and the unvoiced one behind it, which together last twice as long.
const FRAMES_A_STATE: usize = FRAMES / STATES;
const MAX_WINDOWS: usize = 4;
const MAX_V: u32 = 64;

/// States of which a run has the first ones and one unvoiced stands behind them.
struct Stretch {
    durations: Vec<usize>,
    records: Vec<Vec<f64>>,
}

impl Stretch {
    /// With a run of so many frames.
    fn new(shape: &Shape, run: usize, inputs: &mut Inputs) -> Self {
        let states = run.div_ceil(FRAMES_A_STATE);
        let mut durations = vec![FRAMES_A_STATE; states - 1];
        durations.push(run - FRAMES_A_STATE * (states - 1));
        durations.push(FRAMES_A_STATE * (states + 1) - run);
        let records = (0..=states).map(|state| shape.record(inputs, state < states)).collect();
        Self { durations, records }
    }
}

fn shape_of(frames: usize) -> Shape {
    Shape { masked: true, ..Shape::usual(V, frames, false) }
}

/// An utterance of runs of one length, of which the middle one has the same numbers whatever the utterance is; states that
/// are left at the end are unvoiced.
fn whole_of(frames: usize, run: usize) -> Utterance {
    let (shape, mut others) = (shape_of(frames), Inputs::new());
    others.between(0.0, 1.0); // not those of the middle one
    let (mut durations, mut records) = (Vec::new(), Vec::new());
    let (states, each) = (frames / FRAMES_A_STATE, run.div_ceil(FRAMES_A_STATE) + 1);
    let runs = states / each;
    for number in 0..runs {
        let mut own = Inputs::new();
        let stretch = Stretch::new(&shape, run, if number == runs / 2 { &mut own } else { &mut others });
        durations.extend(stretch.durations);
        records.extend(stretch.records.concat());
    }
    for _ in runs * each..states {
        durations.push(FRAMES_A_STATE);
        records.extend(shape.record(&mut others, false));
    }
    Utterance::of(shape, records, durations, Vec::new())
}

/// The states of the middle run alone, as the Rust is handed them.
fn cut_of(run: usize) -> Utterance {
    let shape = shape_of(run);
    let mut stretch = Stretch::new(&shape, run, &mut Inputs::new());
    stretch.durations.pop();
    stretch.records.pop();
    Utterance::of(shape, stretch.records.concat(), stretch.durations, Vec::new())
}

/// Whether the rules take the utterance.
fn is_taken(u: &Utterance) -> bool {
    let (v, windows) = (u.shape.v as u32, u.shape.windows.len());
    let total: u64 = u.lengths.iter().map(|&frames| u64::from(frames)).sum();
    (1..=MAX_WINDOWS).contains(&windows)
        && u.lengths.len() <= STATES
        && (1..=MAX_V).contains(&v)
        && u.records.len() == record_len(u) * u.lengths.len()
        && total <= FRAMES as u64
}

fn record_len(u: &Utterance) -> usize {
    2 * u.shape.windows.len() * u.shape.v + 1
}

/// Hands the first frame and the frames of each run on, by a plain loop over the states, and answers how many there are.
fn each_run(u: &Utterance, mut take: impl FnMut(usize, [u32; 2])) -> usize {
    let voiced = u.records.chunks_exact(record_len(u)).map(|record| record[record.len() - 1] > THRESHOLD);
    let (mut count, mut frame, mut run) = (0, 0, [0, 0]);
    for (&frames, voiced) in u.lengths.iter().zip(voiced).filter(|&(&frames, _)| frames > 0) {
        if voiced {
            run = if run[1] == 0 { [frame, frames] } else { [run[0], run[1] + frames] };
        } else if run[1] > 0 {
            take(count, run);
            (count, run) = (count + 1, [0, 0]);
        }
        frame += frames;
    }
    if run[1] > 0 {
        take(count, run);
        count += 1;
    }
    count
}

/// Two numbers a run, where there is room for all of them.
fn plain_runs(u: &Utterance, out: &mut [u32]) -> Option<usize> {
    if !is_taken(u) || out.len() < 2 * each_run(u, |_, _| ()) {
        return None;
    }
    Some(each_run(u, |number, run| out[2 * number..][..2].copy_from_slice(&run)))
}

// Every list comes with its own length and outlives the call; so do the counts.

fn our_runs(u: &Utterance, out: &mut [u32]) -> usize {
    let mut count = 0;
    let refusal = unsafe {
        hejmirov_runs(
            u.shape.v as u32, 1, THRESHOLD, u.widths.len(), u.records.as_ptr(), u.records.len(),
            u.lengths.as_ptr(), u.lengths.len(), out.as_mut_ptr(), out.len(), &mut count,
        )
    };
    assert_eq!(refusal, 0);
    count as usize
}

/// Into room for the run's own frames.
fn our_run(u: &Utterance, run: u32, room: &mut Utterance) {
    let mut frames = 0;
    let refusal = unsafe {
        hejmirov_run(
            u.shape.v as u32, 1, THRESHOLD, FILL, 0, 1.0,
            u.widths.as_ptr(), u.widths.len(), u.coefficients.as_ptr(), u.coefficients.len(),
            u.records.as_ptr(), u.records.len(), u.lengths.as_ptr(), u.lengths.len(),
            std::ptr::null(), 0, std::ptr::null(), 0, run,
            room.out.as_mut_ptr(), room.out.len(), room.work.as_mut_ptr(), room.work.len(),
            room.marks.as_mut_ptr(), room.marks.len(), &mut frames,
        )
    };
    assert_eq!((refusal, frames as usize), (0, room.shape.frames));
}

/// The whole of an utterance, and its middle run alone.
fn compare(frames: usize, run: usize, with_whole: bool) {
    let (mut whole, mut cut) = (whole_of(frames, run), cut_of(run));
    let theirs = whole_of(frames, run);
    let mut runs = vec![0; 2 * STATES];
    let count = our_runs(&whole, &mut runs);
    let number = count / 2;
    let first = runs[2 * number] as usize;
    assert_eq!((first / FRAMES_A_STATE * FRAMES_A_STATE, runs[2 * number + 1] as usize), (first, run));

    whole.render();
    our_run(&theirs, number as u32, &mut cut);
    let part = &whole.out[first * V..(first + run) * V];
    assert!(part == cut.out, "the run of {run} frames differs from the whole");
    let alone = cut_of(run);
    let alone_adjust = alone.adjust();
    let rust = alone_adjust.create(&alone.durations).concat();
    assert!(rust == cut.out, "the two differ: a run of {run} frames");

    if with_whole {
        let adjust = theirs.adjust();
        let rust = adjust.create(&theirs.durations).concat();
        assert!(rust == whole.out, "the two differ: {frames} frames");
        let (rust, ours) = least_times(|side| match side {
            Side::Rust => drop(black_box(adjust.create(black_box(&theirs.durations)))),
            Side::Ours => whole.render(),
        });
        row(&format!("all {frames} frames, with {count} runs of {run}"), rust, ours);
    }
    let (rust, ours) = least_times(|side| match side {
        Side::Rust => drop(black_box(alone_adjust.create(black_box(&alone.durations)))),
        Side::Ours => our_run(black_box(&theirs), number as u32, black_box(&mut cut)),
    });
    row(&format!("one run of {run} frame{} in {frames}", if run == 1 { "" } else { "s" }), rust, ours);
}

/// The runs of the most states, of so many frames each.
fn compare_runs(run: usize) {
    let u = whole_of(FRAMES, run);
    let (mut plain, mut ours) = (vec![0; 2 * STATES], vec![0; 2 * STATES]);
    let count = plain_runs(&u, &mut plain);
    assert_eq!(count, Some(our_runs(&u, &mut ours)));
    assert_eq!(plain, ours);
    let count = count.unwrap_or(0);
    timed(
        &format!("finding the {count} run{} of {STATES} states", if count == 1 { "" } else { "s" }),
        10,
        || assert!(plain_runs(black_box(&u), black_box(&mut plain)).is_some()),
        || assert!(our_runs(black_box(&u), black_box(&mut ours)) > 0),
    );
}

pub fn run() {
    compare(FRAMES, 400, true);
    compare(1_024, 400, true);
    for frames in [1, 100, 1_600] {
        compare(FRAMES, frames, false);
    }
    for frames in [1, 400, FRAMES - FRAMES_A_STATE] {
        compare_runs(frames);
    }
}
