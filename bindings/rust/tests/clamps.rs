//! How many pairs a trajectory clamps: counts worked out by hand, around both bounds and near the
//! ends of runs. Random streams are held to counts that are made here frame by frame.

use hejmirov::{
    Clamped, GlobalVariance, MAX_FRAMES, MAX_V, MAX_WINDOWS, Refusal, Stream, WORK_FLOATS_A_FRAME,
    WORK_MARKS_A_FRAME, Windows,
};

/// One window, one number a frame, every frame voiced: a record is a mean and a variance.
const PLAIN: Stream = Stream {
    v: 1,
    windows: Windows {
        widths: &[1],
        coefficients: &[1.0],
    },
    masked: false,
    threshold: 0.0,
    fill: -1.0,
    gv: None,
};

/// Three windows, two numbers a frame, and a voicing weight.
const USUAL: Stream = Stream {
    v: 2,
    windows: Windows {
        widths: &[1, 3, 3],
        coefficients: &[1.0, -0.5, 0.0, 0.5, 1.0, -2.0, 1.0],
    },
    masked: true,
    threshold: 0.5,
    ..PLAIN
};

const NEITHER: Clamped = Clamped { high: 0, low: 0 };

/// A record of `USUAL`: its six variances, and the weight; the means are any numbers.
fn record(varis: [f64; 6], weight: f64) -> Vec<f64> {
    let means = [1.0, -2.0, 0.1, 0.2, -0.1, 0.3];
    [&means[..], &varis, &[weight]].concat()
}

fn counts(stream: &Stream, records: &[Vec<f64>], durations: &[u32]) -> Clamped {
    let trajectory = stream.trajectory(&records.concat(), durations);
    trajectory.unwrap().clamped
}

/// A variance's counts in a frame.
fn clamp_of(vari: f64) -> (u32, u32) {
    let clamped = counts(&PLAIN, &[vec![1.0, vari]], &[1]);
    (clamped.high, clamped.low)
}

#[test]
fn the_bounds_and_the_numbers_beside_them() {
    // 1e19 = 2^19 x 5^19 is a float; 1e-19 is none, and the bound is the nearest.
    let (high, low) = (0x43e1_58e4_6091_3d00, 0x3bfd_83c9_4fb6_d2ac);
    assert_eq!((1e19_f64.to_bits(), 1e-19_f64.to_bits()), (high, low));
    for (bits, expected) in [
        (high - 1, (0, 0)),
        (high, (0, 0)),
        (high + 1, (1, 0)),
        (low - 1, (0, 1)),
        (low, (0, 0)),
        (low + 1, (0, 0)),
    ] {
        let vari = f64::from_bits(bits);
        assert_eq!(clamp_of(vari), expected, "{vari:e}");
        assert_eq!(clamp_of(-vari), expected, "-{vari:e}");
    }
}

#[test]
fn variances_of_every_kind() {
    for (vari, expected) in [
        (1.0, (0, 0)),
        (0.0, (0, 1)),
        (f64::from_bits(1), (0, 1)), // the smallest number above 0
        (f64::MIN_POSITIVE, (0, 1)),
        (1e-20, (0, 1)),
        (1e20, (1, 0)),
        (f64::MAX, (1, 0)),
        (f64::INFINITY, (1, 0)),
    ] {
        assert_eq!(clamp_of(vari), expected, "{vari:e}");
        assert_eq!(clamp_of(-vari), expected, "-{vari:e}");
    }
    // A NaN is neither, whatever its bits.
    for bits in [
        0x7ff8_0000_0000_0000,
        0xfff8_0000_0000_0000,
        0x7ff0_0000_0000_0001,
        0xfff0_0000_0000_0001,
        u64::MAX,
    ] {
        assert_eq!(clamp_of(f64::from_bits(bits)), (0, 0), "{bits:x}");
    }
}

#[test]
fn a_pair_counts_once_a_voiced_frame() {
    let two_high_one_low = [1.0, 1e20, -1e20, 0.0, 1.0, f64::NAN];
    let all_low = [0.0, -0.0, 1e-20, -1e-20, 1e-300, f64::MIN_POSITIVE];
    let all_high = [
        f64::INFINITY,
        f64::NEG_INFINITY,
        1e20,
        -1e20,
        1e300,
        f64::MAX,
    ];
    let records = [
        record(two_high_one_low, 0.9),
        record(all_high, 0.1), // unvoiced
        record(all_low, 0.9),
        record(all_high, 0.5), // unvoiced: the weight is not above the threshold
        record(all_high, 0.6), // of no frames
        record(all_high, f64::NAN), // unvoiced
        record([1.0; 6], 0.9),
        record(all_high, 0.9),
    ];
    // 5 frames of (2, 1), 3 of (0, 6), 2 of (6, 0).
    let durations = [5, 7, 3, 4, 0, 6, 9, 2];
    let expected = Clamped { high: 22, low: 23 };
    assert_eq!(counts(&USUAL, &records, &durations), expected);
    assert_eq!(USUAL.pairs_a_frame(), 6);
    // Every state voiced: 7 + 4 + 6 frames of (6, 0) more.
    let voiced = Stream {
        threshold: -1.0,
        ..USUAL
    };
    let weight = |record: &Vec<f64>| [&record[..12], &[0.0]].concat();
    let records: Vec<_> = records.iter().map(weight).collect();
    let expected = Clamped { high: 124, low: 23 };
    assert_eq!(counts(&voiced, &records, &durations), expected);
    let unvoiced = Stream {
        threshold: 0.0,
        ..USUAL
    };
    assert_eq!(counts(&unvoiced, &records, &durations), NEITHER);
}

#[test]
fn without_weights_the_threshold_decides() {
    let records = [vec![1.0, 0.0], vec![1.0, 1e20]];
    for (threshold, expected) in [
        (f64::NEG_INFINITY, Clamped { high: 3, low: 2 }),
        (1e308, Clamped { high: 3, low: 2 }),
        (f64::MAX, NEITHER),
        (f64::INFINITY, NEITHER),
        (f64::NAN, NEITHER),
    ] {
        let stream = Stream { threshold, ..PLAIN };
        assert_eq!(counts(&stream, &records, &[2, 3]), expected);
    }
}

#[test]
fn a_run_shorter_than_the_windows_counts_them_all() {
    // A run of one frame: the inverse variances of the second and the third window are set to 0.
    let own = [1.0, 1.0, 0.0, 1e20, -1e20, 1e-20];
    let expected = Clamped { high: 2, low: 2 };
    assert_eq!(counts(&USUAL, &[record(own, 0.9)], &[1]), expected);
    // So the numbers are those of the first window alone, whatever the others' variances are.
    let trajectory = USUAL.trajectory(&record(own, 0.9), &[1]).unwrap();
    assert_eq!(trajectory.numbers, [1.0, -2.0]);
    let tame = USUAL.trajectory(&record([1.0; 6], 0.9), &[1]).unwrap();
    assert_eq!((tame.numbers, tame.clamped), (trajectory.numbers, NEITHER));
}

#[test]
fn the_ends_of_a_run_count_as_its_middle() {
    // Of five frames a window of three is set to 0 at two, one of nine at all.
    let varis = [1.0, 1.0, 0.0, 1.0, 1e20, 1e20];
    let expected = Clamped { high: 10, low: 5 };
    for width in [1, 2, 3, 9, 15] {
        let widths = [1, width, width];
        let coefficients = vec![1.0; 1 + 2 * width as usize];
        let windows = Windows {
            widths: &widths,
            coefficients: &coefficients,
        };
        let stream = Stream { windows, ..USUAL };
        assert_eq!(counts(&stream, &[record(varis, 0.9)], &[5]), expected);
        // Five runs of one frame each.
        let apart: Vec<_> = (0..9)
            .map(|state| record(varis, if state % 2 == 0 { 0.9 } else { 0.1 }))
            .collect();
        assert_eq!(counts(&stream, &apart, &[1; 9]), expected);
    }
}

#[test]
fn global_variance_counts_nothing() {
    let records = [vec![1.0, 1e-20], vec![3.0, 1.0]];
    let expected = Clamped { high: 0, low: 2 };
    for pairs in [[4.0, 1.0], [0.0, 0.0], [1e20, f64::INFINITY]] {
        for switches in [[true, true], [true, false], [false, false]] {
            let gv = Some(GlobalVariance {
                weight: 1.0,
                pairs: &pairs,
                switches: &switches,
            });
            let stream = Stream { gv, ..PLAIN };
            assert_eq!(counts(&stream, &records, &[2, 2]), expected);
        }
    }
}

#[test]
fn the_largest_counts() {
    let frames = u32::try_from(MAX_FRAMES).unwrap();
    let windows = Windows {
        widths: &[1; MAX_WINDOWS],
        coefficients: &[1.0; MAX_WINDOWS],
    };
    let stream = Stream {
        v: u32::try_from(MAX_V).unwrap(),
        windows,
        ..PLAIN
    };
    for (vari, expected) in [
        (
            1e300,
            Clamped {
                high: 16_777_216,
                low: 0,
            },
        ),
        (
            0.0,
            Clamped {
                high: 0,
                low: 16_777_216,
            },
        ),
    ] {
        let record = [vec![1.0; 256], vec![vari; 256]].concat();
        assert_eq!(counts(&stream, &[record], &[frames]), expected);
    }
}

#[test]
fn a_refusal_leaves_nothing_over_for_the_next_call() {
    let record = [1.0, 0.0];
    let (mut out, mut work) = ([7.0; 2], [7.0; 2 * WORK_FLOATS_A_FRAME]);
    let mut marks = [7; 2 * WORK_MARKS_A_FRAME];
    let mut call =
        |frames| PLAIN.trajectory_into(&record, &[frames], &mut out, &mut work, &mut marks);
    assert_eq!(call(3), Err(Refusal::TooLittleRoom));
    assert_eq!(call(65_537), Err(Refusal::TooManyFrames));
    assert_eq!(call(2), Ok(Clamped { high: 0, low: 2 }));
    assert_eq!(call(1), Ok(Clamped { high: 0, low: 1 }));
}

/// Whole numbers from a seed: splitmix64.
struct Seed(u64);

impl Seed {
    fn below(&mut self, end: usize) -> usize {
        self.0 = self.0.wrapping_add(0x9e37_79b9_7f4a_7c15);
        let z = (self.0 ^ (self.0 >> 30)).wrapping_mul(0xbf58_476d_1ce4_e5b9);
        let z = (z ^ (z >> 27)).wrapping_mul(0x94d0_49bb_1331_11eb);
        usize::try_from((z ^ (z >> 31)) % end as u64).unwrap()
    }

    fn one_of(&mut self, numbers: &[f64]) -> f64 {
        numbers[self.below(numbers.len())]
    }
}

/// One frame's counts, pair by pair, of its record's variances.
fn frame_counts(varis: &[f64]) -> Clamped {
    let count = |is: fn(f64) -> bool| {
        let clamped = varis.iter().filter(|vari| is(vari.abs())).count();
        u32::try_from(clamped).unwrap()
    };
    Clamped {
        high: count(|size| size > 1e19),
        low: count(|size| size < 1e-19),
    }
}

#[test]
fn random_streams() {
    const VARIS: [f64; 12] = [
        1.0,
        0.25,
        -4.0,
        1e19,
        -1e19,
        1.1e19,
        -1.1e19,
        1e-19,
        0.9e-19,
        0.0,
        f64::INFINITY,
        f64::NAN,
    ];
    const WEIGHTS: [f64; 5] = [0.0, 0.5, 0.500_000_1, 1.0, f64::NAN];
    let mut seed = Seed(7);
    let mut total = NEITHER;
    for _ in 0..2_000 {
        let widths: Vec<u32> = (0..=seed.below(4))
            .map(|_| u32::try_from(1 + seed.below(15)).unwrap())
            .collect();
        let coefficients = vec![0.5; widths.iter().sum::<u32>() as usize];
        let windows = Windows {
            widths: &widths,
            coefficients: &coefficients,
        };
        let v = u32::try_from(1 + seed.below(3)).unwrap();
        let stream = Stream {
            v,
            windows,
            ..USUAL
        };
        let pairs = stream.pairs_a_frame();
        let (mut records, mut durations) = (Vec::new(), Vec::new());
        let mut expected = NEITHER;
        for _ in 0..seed.below(6) {
            let varis: Vec<f64> = (0..pairs).map(|_| seed.one_of(&VARIS)).collect();
            let weight = seed.one_of(&WEIGHTS);
            let frames = u32::try_from(seed.below(5)).unwrap();
            for _ in 0..frames {
                if weight > 0.5 {
                    let frame = frame_counts(&varis);
                    expected.high += frame.high;
                    expected.low += frame.low;
                }
            }
            records.push([vec![1.0; pairs], varis, vec![weight]].concat());
            durations.push(frames);
        }
        assert_eq!(counts(&stream, &records, &durations), expected);
        // The counts of the states alone have the same sums.
        let mut alone = NEITHER;
        for (record, frames) in records.iter().zip(&durations) {
            let own = stream.trajectory(record, &[*frames]).unwrap().clamped;
            alone.high += own.high;
            alone.low += own.low;
        }
        assert_eq!(alone, expected);
        total.high += expected.high;
        total.low += expected.low;
    }
    assert!(total.high > 3_000 && total.low > 3_000, "{total:?}");
}
