//! The voiced runs of a stream, and each of them alone: runs by hand, refusals in their order with
//! everything as it was, and random streams, whose runs are held to the mask and whose numbers to the
//! whole trajectory's.

#![allow(clippy::float_cmp)] // what is promised is exact, zeros of either sign being the same

use hejmirov::{
    GlobalVariance, MAX_FRAMES, MAX_STATES, Refusal, Run, Stream, WORK_FLOATS_A_FRAME,
    WORK_MARKS_A_FRAME, Windows,
};

/// One window, one number a frame, and a voicing weight: a record is a mean, a variance, a weight.
const PLAIN: Stream = Stream {
    v: 1,
    windows: Windows {
        widths: &[1],
        coefficients: &[1.0],
    },
    masked: true,
    threshold: 0.5,
    fill: -1.0,
    gv: None,
};

/// Three windows, two numbers a frame, and a voicing weight.
const USUAL: Stream = Stream {
    v: 2,
    windows: Windows {
        widths: &[1, 3, 3],
        coefficients: &[1.0, -0.5, 0.0, 0.5, 1.0, -2.0, 1.0],
    },
    ..PLAIN
};

/// Records of `PLAIN`, of these weights.
fn weighed(weights: &[f64]) -> Vec<f64> {
    weights.iter().flat_map(|&w| [1.0, 1.0, w]).collect()
}

/// The runs of `PLAIN` with these weights: first frames and frames.
fn runs_of(weights: &[f64], durations: &[u32]) -> Vec<(u32, u32)> {
    let runs = PLAIN.runs(&weighed(weights), durations).unwrap();
    runs.iter().map(|run| (run.first, run.frames)).collect()
}

#[test]
fn runs_by_hand() {
    assert_eq!(runs_of(&[], &[]), []);
    assert_eq!(runs_of(&[0.1], &[4]), []);
    assert_eq!(runs_of(&[0.9], &[0]), []);
    assert_eq!(runs_of(&[0.9], &[4]), [(0, 4)]);
    // States side by side are one run; a weight at the threshold, or NaN, is not voiced.
    assert_eq!(runs_of(&[0.9, 0.6, 0.7], &[1, 2, 3]), [(0, 6)]);
    assert_eq!(
        runs_of(&[0.9, 0.5, 0.7, f64::NAN, 1.0], &[1, 2, 3, 4, 5]),
        [(0, 1), (3, 3), (10, 5)]
    );
    // States of no frames: none of them is a run, ends one or separates two.
    let weights = [0.1, 0.9, 0.9, 0.1, 0.9, 0.1, 0.9, 0.1];
    assert_eq!(
        runs_of(&weights, &[0, 0, 2, 0, 3, 1, 0, 0]),
        [(0, 5)] // voiced again behind the gap, but of no frames
    );
    assert_eq!(
        runs_of(&weights, &[2, 0, 0, 0, 3, 1, 4, 0]),
        [(2, 3), (6, 4)]
    );
}

#[test]
fn without_weights_all_is_one_run_or_none() {
    let records = [1.0; 4];
    for (threshold, frames) in [
        (f64::NEG_INFINITY, 7),
        (1e308, 7),
        (f64::MAX, 0),
        (f64::INFINITY, 0),
        (f64::NAN, 0),
    ] {
        let stream = Stream {
            masked: false,
            threshold,
            ..PLAIN
        };
        let runs = stream.runs(&records, &[3, 4]).unwrap();
        let run = stream.run(&records, &[3, 4], 0);
        if frames > 0 {
            assert_eq!(runs, [Run { first: 0, frames }]);
            assert_eq!(run, Ok(vec![1.0; 7]));
        } else {
            assert_eq!((runs, run), (Vec::new(), Err(Refusal::NoSuchRun)));
        }
    }
}

#[test]
fn as_many_runs_as_there_can_be() {
    let weights: Vec<f64> = (0..MAX_STATES)
        .map(|state| f64::from(state % 2 == 0))
        .collect();
    let runs = runs_of(&weights, &[16; MAX_STATES]);
    let expected: Vec<(u32, u32)> = (0..2_048).map(|run| (32 * run, 16)).collect();
    assert_eq!(runs, expected);
    let last = PLAIN.run(&weighed(&weights), &[16; MAX_STATES], 2_047);
    assert_eq!(last, Ok(vec![1.0; 16]));

    // One of all frames; and one of one frame, behind all others.
    let most = u32::try_from(MAX_FRAMES).unwrap();
    assert_eq!(runs_of(&[0.9], &[most]), [(0, most)]);
    let whole = PLAIN.run(&weighed(&[0.9]), &[most], 0).unwrap();
    assert!(whole.len() == MAX_FRAMES && whole.iter().all(|&number| number == 1.0));
    assert_eq!(runs_of(&[0.1, 0.9], &[most - 1, 1]), [(most - 1, 1)]);
    assert_eq!(
        PLAIN.run(&weighed(&[0.1, 0.9]), &[most - 1, 1], 0),
        Ok(vec![1.0])
    );
}

#[test]
fn of_the_windows_only_their_number_counts_for_runs() {
    let records = [1.0, 1.0, 1.0, 1.0, 0.9];
    let windows = Windows {
        widths: &[0, 99],
        coefficients: &[f64::NAN],
    };
    let stream = Stream { windows, ..PLAIN };
    let run = Run {
        first: 0,
        frames: 3,
    };
    assert_eq!(stream.runs(&records, &[3]), Ok(vec![run]));
    assert_eq!(stream.run(&records, &[3], 0), Err(Refusal::BadWindows));
}

#[test]
fn other_records_are_read_for_their_weights_alone() {
    // Of three runs the first has a NaN, the last an infinite mean: the middle one is what it was.
    let middle = [
        2.0, -3.0, 0.1, 0.2, 0.3, 0.4, 1.0, 0.5, 0.25, 2.0, 4.0, 1.0, 0.9,
    ];
    let mut records = [[0.0; 13], [0.0; 13], middle, [0.0; 13], middle];
    records[0] = [f64::NAN; 13];
    records[0][12] = 0.9;
    records[4][0] = f64::INFINITY;
    let durations = [4, 2, 5, 1, 3];
    let runs = USUAL.runs(&records.concat(), &durations).unwrap();
    assert_eq!(runs.len(), 3);
    let alone = USUAL.run(&records.concat(), &durations, 1).unwrap();
    assert_eq!(alone, USUAL.trajectory(&middle, &[5]).unwrap().numbers);
    // A NaN that is handed out has the one pattern.
    for number in USUAL.run(&records.concat(), &durations, 0).unwrap() {
        assert_eq!(number.to_bits(), 0x7FF8_0000_0000_0000);
    }
}

/// What a call is asked, and the lists that it is lent.
#[derive(Clone)]
struct Asked {
    v: u32,
    widths: Vec<u32>,
    coefficients: Vec<f64>,
    records: Vec<f64>,
    durations: Vec<u32>,
    gv_on: bool,
    number: u32,
    rooms: [usize; 3], // of out, work and marks
}

/// Four states of `USUAL` in two runs, of which the second, of three frames, is asked.
fn asked() -> Asked {
    let record = |weight| {
        [
            1.0, -2.0, 0.1, 0.2, -0.1, 0.3, 1.0, 1.0, 1.0, 1.0, 1.0, 1.0, weight,
        ]
    };
    Asked {
        v: 2,
        widths: USUAL.windows.widths.to_vec(),
        coefficients: USUAL.windows.coefficients.to_vec(),
        records: [record(0.9), record(0.1), record(0.9), record(0.8)].concat(),
        durations: vec![4, 2, 1, 2],
        gv_on: false,
        number: 1,
        rooms: [6, 3 * WORK_FLOATS_A_FRAME, 3 * WORK_MARKS_A_FRAME],
    }
}

/// What is left of the lists, of which each number was a seven, and the answer.
struct Left {
    answer: Result<u32, Refusal>,
    out: Vec<f64>,
    work: Vec<f64>,
    marks: Vec<u32>,
}

impl Left {
    fn is_as_it_was(&self) -> bool {
        let floats = self.out.iter().chain(&self.work);
        floats.copied().all(|number| number == 7.0) && self.marks.iter().all(|&mark| mark == 7)
    }
}

impl Asked {
    fn with_stream<T>(&self, then: impl FnOnce(&Stream) -> T) -> T {
        let pairs = vec![1.0; 4];
        let switches = vec![true; self.durations.len()];
        let gv = GlobalVariance {
            weight: 1.0,
            pairs: &pairs,
            switches: &switches,
        };
        let windows = Windows {
            widths: &self.widths,
            coefficients: &self.coefficients,
        };
        let gv = self.gv_on.then_some(gv);
        let v = self.v;
        then(&Stream {
            v,
            windows,
            gv,
            ..USUAL
        })
    }

    fn run_into(&self) -> Left {
        let [out, work, marks] = self.rooms;
        let (mut out, mut work, mut marks) = (vec![7.0; out], vec![7.0; work], vec![7; marks]);
        let answer = self.with_stream(|stream| {
            stream.run_into(
                &self.records,
                &self.durations,
                self.number,
                &mut out,
                &mut work,
                &mut marks,
            )
        });
        Left {
            answer,
            out,
            work,
            marks,
        }
    }

    fn run(&self) -> Result<Vec<f64>, Refusal> {
        self.with_stream(|stream| stream.run(&self.records, &self.durations, self.number))
    }

    fn runs(&self) -> Result<Vec<Run>, Refusal> {
        self.with_stream(|stream| stream.runs(&self.records, &self.durations))
    }

    /// The runs' refusal or how many there are, and whether the list, of so many sevens, is as it was.
    fn runs_into(&self, room: usize) -> (Result<u32, Refusal>, bool) {
        let mut runs = vec![7; room];
        let answer =
            self.with_stream(|stream| stream.runs_into(&self.records, &self.durations, &mut runs));
        (answer, runs.iter().all(|&number| number == 7))
    }
}

/// What makes a call be refused.
type Fault = (Refusal, fn(&mut Asked));

/// The faults, in the order in which they are looked for. The last width is changed for the window
/// count's refusal, so that it goes with a longer first window.
const FAULTS: [Fault; 12] = [
    (Refusal::BadWindows, |asked| asked.widths[2] = 16),
    (Refusal::BadCoefficient, |asked| {
        asked.coefficients[1] = f64::NEG_INFINITY;
    }),
    (Refusal::BadSize, |asked| asked.v = 65),
    (Refusal::ListsDisagree, |asked| asked.coefficients.push(1.0)),
    (Refusal::ListsDisagree, |asked| asked.records.push(1.0)),
    (Refusal::TooManyFrames, |asked| asked.durations[0] = 65_532),
    (Refusal::TooLittleRoom, |asked| asked.rooms[0] -= 1),
    (Refusal::TooLittleRoom, |asked| asked.rooms[1] -= 1),
    (Refusal::TooLittleRoom, |asked| asked.rooms[2] -= 1),
    (Refusal::RunWithGv, |asked| asked.gv_on = true),
    (Refusal::NoSuchRun, |asked| asked.number = 2),
    (Refusal::RunFirstWindow, |asked| {
        asked.widths[0] = 2;
        asked.coefficients.insert(0, 0.5);
    }),
];

#[test]
fn a_run_is_accepted_and_writes_no_more_than_its_own() {
    let mut asked = asked();
    asked.rooms = asked.rooms.map(|room| room + 1);
    let left = asked.run_into();
    assert_eq!(left.answer, Ok(3));
    let whole = asked.with_stream(|stream| stream.trajectory(&asked.records, &asked.durations));
    assert_eq!(left.out[..6], whole.unwrap().numbers[12..]);
    assert_eq!(asked.run().as_deref(), Ok(&left.out[..6]));
    assert_eq!(left.out[6], 7.0);
    let (last, used) = left.work.split_last().unwrap();
    assert!(*last == 7.0 && used.iter().all(|number| number.to_bits() == 0));
    let (last, used) = left.marks.split_last().unwrap();
    assert!(*last == 7 && used.iter().all(|&mark| mark == 0));
}

#[test]
fn every_refusal_of_a_run_leaves_everything() {
    for (refusal, spoil) in FAULTS {
        let mut asked = asked();
        spoil(&mut asked);
        let left = asked.run_into();
        assert_eq!(left.answer, Err(refusal));
        assert!(left.is_as_it_was(), "{refusal}");
        // The form that owns its memory never lacks room.
        match refusal {
            Refusal::TooLittleRoom => assert!(asked.run().is_ok()),
            _ => assert_eq!(asked.run(), Err(refusal)),
        }
    }
}

#[test]
fn the_first_of_two_refusals_is_given() {
    for (i, (first, spoil)) in FAULTS.into_iter().enumerate() {
        for (second, spoil_more) in &FAULTS[i + 1..] {
            let mut asked = asked();
            spoil(&mut asked);
            spoil_more(&mut asked);
            // A run that isn't there needs no room.
            let expected = match (first, *second) {
                (Refusal::TooLittleRoom, Refusal::NoSuchRun) => Refusal::NoSuchRun,
                _ => first,
            };
            let left = asked.run_into();
            assert_eq!(left.answer, Err(expected), "{first}, {second}");
            assert!(left.is_as_it_was(), "{first}, {second}");
        }
    }
    let mut nothing = asked();
    (nothing.rooms, nothing.number) = ([0; 3], u32::MAX);
    assert_eq!(nothing.run_into().answer, Err(Refusal::NoSuchRun));
    nothing.gv_on = true;
    assert_eq!(nothing.run_into().answer, Err(Refusal::RunWithGv));
}

#[test]
fn every_refusal_of_runs_leaves_everything() {
    assert_eq!(asked().runs_into(4), (Ok(2), false));
    assert_eq!(asked().runs_into(3), (Err(Refusal::TooLittleRoom), true));
    assert_eq!(asked().runs_into(0), (Err(Refusal::TooLittleRoom), true));
    let spoiled: [Fault; 6] = [
        (Refusal::BadWindows, |asked| asked.widths.clear()),
        (Refusal::BadWindows, |asked| asked.widths = vec![1; 5]),
        (Refusal::BadSize, |asked| asked.v = 0),
        (Refusal::BadSize, |asked| {
            asked.durations = vec![1; MAX_STATES + 1];
        }),
        (Refusal::ListsDisagree, |asked| _ = asked.records.pop()),
        (Refusal::TooManyFrames, |asked| {
            asked.durations[1] = u32::MAX;
        }),
    ];
    for (i, (refusal, spoil)) in spoiled.into_iter().enumerate() {
        let mut asked = asked();
        spoil(&mut asked);
        for room in [0, 3, 4, 9_000] {
            assert_eq!(asked.runs_into(room), (Err(refusal), true));
        }
        assert_eq!(asked.runs(), Err(refusal));
        // It is so too with any that is looked for later.
        for (_, spoil_more) in &spoiled[i + 1..] {
            let mut twice = asked.clone();
            spoil_more(&mut twice);
            if twice.widths.len() == asked.widths.len() {
                assert_eq!(twice.runs_into(4), (Err(refusal), true));
            }
        }
    }
    // Global variance is not looked at, nor are coefficients and a longer first window.
    for (refusal, spoil) in FAULTS {
        let mut asked = asked();
        spoil(&mut asked);
        let expected = match refusal {
            Refusal::BadSize | Refusal::TooManyFrames => Err(refusal),
            Refusal::ListsDisagree if asked.records.len() != 4 * 13 => Err(refusal),
            _ => Ok(2),
        };
        assert_eq!(asked.runs_into(4).0, expected);
    }
}

/// Whole numbers from a seed: splitmix64.
struct Seed(u64);

impl Seed {
    fn below(&mut self, end: u32) -> u32 {
        self.0 = self.0.wrapping_add(0x9e37_79b9_7f4a_7c15);
        let z = (self.0 ^ (self.0 >> 30)).wrapping_mul(0xbf58_476d_1ce4_e5b9);
        let z = (z ^ (z >> 27)).wrapping_mul(0x94d0_49bb_1331_11eb);
        u32::try_from((z ^ (z >> 31)) % u64::from(end)).unwrap()
    }

    fn number(&mut self) -> f64 {
        f64::from(self.below(4_001)) / 1_000.0 - 2.0
    }
}

/// The runs that the mask's frames have.
fn masked_runs(weights: &[f64], durations: &[u32]) -> Vec<Run> {
    let mask = hejmirov::mask(weights, PLAIN.threshold, durations).unwrap();
    let begins = (0..).zip(&mask.voiced).zip(&mask.left);
    begins
        .filter(|&((_, &voiced), &left)| voiced == 1 && left == 0)
        .map(|((first, _), _)| Run {
            first,
            frames: mask.right[first as usize] + 1,
        })
        .collect()
}

#[test]
fn random_streams() {
    let mut seed = Seed(4);
    let (mut rendered, mut longest) = (0, 0);
    for _ in 0..400 {
        let mut widths = vec![1];
        widths.extend((0..seed.below(4)).map(|_| 1 + seed.below(15)));
        let taps: u32 = widths.iter().sum();
        let mut coefficients: Vec<f64> = (0..taps).map(|_| seed.number()).collect();
        coefficients[0] = 1.0;
        let windows = Windows {
            widths: &widths,
            coefficients: &coefficients,
        };
        let v = 1 + seed.below(4);
        let stream = Stream {
            v,
            windows,
            fill: f64::NAN,
            ..PLAIN
        };
        let states = seed.below(17);
        let durations: Vec<u32> = (0..states).map(|_| seed.below(9)).collect();
        let weights: Vec<f64> = (0..states)
            .map(|_| f64::from(seed.below(4)) / 3.0)
            .collect();
        let mut records = Vec::new();
        for &weight in &weights {
            records.extend((0..stream.pairs_a_frame()).map(|_| seed.number()));
            records.extend((0..stream.pairs_a_frame()).map(|_| seed.number().abs() + 0.1));
            records.push(weight);
        }
        let whole = stream.trajectory(&records, &durations).unwrap().numbers;
        let runs = stream.runs(&records, &durations).unwrap();
        assert_eq!(runs, masked_runs(&weights, &durations));
        for (number, run) in (0..).zip(&runs) {
            let alone = stream.run(&records, &durations, number).unwrap();
            assert!(alone.iter().all(|number| number.is_finite()));
            assert_eq!(alone, whole[run.range(v)]);
            (rendered, longest) = (rendered + 1, longest.max(run.frames));
        }
        for number in [u32::try_from(runs.len()).unwrap(), u32::MAX] {
            let refused = stream.run(&records, &durations, number);
            assert_eq!(refused, Err(Refusal::NoSuchRun));
        }
        // Each frame is in one run where it is voiced, and else in none.
        for (frame, numbers) in (0..).zip(whole.chunks_exact(v as usize)) {
            let holders = runs.iter().filter(|run| run.has(frame)).count();
            assert_eq!(holders, usize::from(!numbers[0].is_nan()));
        }
    }
    assert!(rendered > 500 && longest > 30, "{rendered}, {longest}");
}

#[test]
fn a_run_of_any_fields() {
    let run = Run {
        first: u32::MAX,
        frames: u32::MAX,
    };
    assert!(run.has(u32::MAX) && !run.has(u32::MAX - 1) && !run.has(0));
    let first = u32::MAX as usize;
    assert_eq!(run.range(0), 0..0);
    assert_eq!(run.range(1), first..2 * first);
    assert_eq!(run.range(u32::MAX), first * first..usize::MAX);
    let none = Run::default();
    assert!(!none.has(0) && none.range(64).is_empty());
}
