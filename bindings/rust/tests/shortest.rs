//! Shortest durations: fits, speeds, alignments and jobs of version 2, worked out by hand; their
//! refusals; and random states, held to what is promised of them and to the same without.

use hejmirov::{Answered, Fitted, Link, MAX_FRAMES, MAX_JOB_STATES, MAX_STATES, OPEN_END, Refusal};

const MEANS: [f64; 2] = [2.0, 3.0];
const VARIS: [f64; 2] = [1.0, 1.0];

fn done(durations: &[u32], changes: u32) -> Fitted {
    let durations = durations.to_vec();
    Fitted { durations, changes }
}

fn sum(numbers: &[u32]) -> u64 {
    numbers.iter().map(|&number| u64::from(number)).sum()
}

#[test]
fn fits() {
    for (shortest, length, durations, changes) in [
        // rho is 1.5, and the states start from 4 and 5, or from their shortest.
        ([1, 1], 8.0, [3, 5], 1),
        ([4, 1], 8.0, [4, 4], 1), // the first, of the same cost, has nothing to give
        ([1, 5], 8.0, [3, 5], 1),
        ([5, 1], 8.0, [5, 3], 2),
        ([5, 3], 8.0, [5, 3], 0), // their sum is the length
        ([5, 4], 8.0, [5, 4], 0),
        ([900, 1], 8.0, [900, 1], 0),
        // rho is 1.
        ([5, 1], 6.5, [5, 2], 2),
        ([5, 1], 6.4, [5, 1], 0),
        ([5, 1], 0.0, [5, 1], 0),
        ([5, 1], -65_537.0, [5, 1], 0),
        ([5, 1], f64::NAN, [5, 1], 0),
        ([5, 1], f64::NEG_INFINITY, [5, 1], 0),
        ([65_535, 1], 65_536.0, [65_535, 1], 0),
        ([1, 65_535], 65_536.4, [1, 65_535], 0),
    ] {
        let answer = hejmirov::fit(&MEANS, &VARIS, Some(&shortest), length);
        let expected = Ok(done(&durations, changes));
        assert_eq!(answer, expected, "{shortest:?}, length {length}");
    }
    // rho is 32,765, and the estimates are 32,767 and 32,768: by its shortest the first is too long.
    assert_eq!(
        hejmirov::fit(&MEANS, &VARIS, Some(&[32_768, 1]), 65_535.0),
        Ok(done(&[32_768, 32_767], 1))
    );
    assert_eq!(
        hejmirov::fit(&MEANS, &VARIS, Some(&[32_769, 1]), 65_535.0),
        Err(Refusal::EstimateTooLong)
    );
    // Without variances every cost is NaN: the states start from their shortest, and the first gets all.
    for (shortest, durations, changes) in [
        ([1, 1], [5, 1], 4),
        ([2, 1], [5, 1], 3),
        ([1, 2], [4, 2], 3),
        ([3, 3], [3, 3], 0),
    ] {
        let answer = hejmirov::fit(&[2.0; 2], &[0.0; 2], Some(&shortest), 6.0);
        assert_eq!(answer, Ok(done(&durations, changes)), "{shortest:?}");
    }
}

#[test]
fn speeds() {
    let shortest = Some(&[4, 1][..]);
    for (speed, durations, changes) in [
        (1.0, [4, 3], 0),
        (0.5, [6, 8], 1), // twice 7: rho is 4.5, and the states start from 7 and 8
        (2.0, [4, 1], 0), // 3.5 is rounded to 4, which is below their sum
        (f64::NAN, [4, 1], 0),
        (f64::INFINITY, [4, 1], 0),
        (f64::NEG_INFINITY, [4, 1], 0),
        (-0.0, [4, 1], 0),
        (-1.0, [4, 1], 0),
    ] {
        let answer = hejmirov::speed(&MEANS, &VARIS, shortest, speed);
        assert_eq!(answer, Ok(done(&durations, changes)), "speed {speed}");
    }
    // Of an estimate that is no number the shortest is left.
    for (mean, vari) in [
        (9.0, f64::INFINITY),
        (9.0, f64::NAN),
        (f64::NAN, 1.0),
        (f64::NEG_INFINITY, 1.0),
    ] {
        let answer = hejmirov::speed(&[mean], &[vari], Some(&[6]), 1.0);
        assert_eq!(answer, Ok(done(&[6], 0)));
    }
    // The estimates may be too long by the shortest alone.
    assert_eq!(
        hejmirov::speed(&MEANS, &VARIS, Some(&[65_534, 1]), 1.0),
        Err(Refusal::EstimateTooLong)
    );
    assert_eq!(
        hejmirov::speed(&MEANS, &VARIS, Some(&[65_533, 1]), 1.0),
        Ok(done(&[65_533, 3], 0))
    );
}

#[test]
fn alignments() {
    let (means, varis) = ([2.0, 3.0, 2.0, 3.0], [1.0; 4]);
    let ends = [2.0, 4.5, 5.0, OPEN_END];
    // The totals are 3, which the end doesn't leave, then 5, the end with halves up, and 6.
    for (shortest, durations) in [
        ([3, 1, 1, 2], [3, 2, 1, 3]),
        ([3, 1, 1, 5], [3, 2, 1, 5]), // the tail is natural, and at least its shortest
        ([1, 1, 1, 1], [2, 3, 1, 3]),
        ([1, 4, 1, 1], [2, 4, 1, 3]),
    ] {
        let answer = hejmirov::align(&means, &varis, Some(&shortest), 1, &ends);
        assert_eq!(answer, Ok(done(&durations, 0)), "{shortest:?}");
    }
    // Two states a label: of the first group, from 4 and 5, the second gives the frame.
    let answer = hejmirov::align(&means, &varis, Some(&[4, 1, 1, 1]), 2, &[8.0, OPEN_END]);
    assert_eq!(answer, Ok(done(&[4, 4, 2, 3], 1)));
    // Ends that leave no room at all: every state has its shortest, as many frames as there may be.
    let most = [65_535, 1];
    let answer = hejmirov::align(&MEANS, &VARIS, Some(&most), 1, &[0.0, 0.0]);
    assert_eq!(answer, Ok(done(&most, 0)));
    for (shortest, ends, refusal) in [
        // The sum is that of the whole list, though each group's own is small enough.
        ([65_536, 1], [0.0, 0.0], Refusal::BadShortest),
        ([65_536, 1], [OPEN_END, OPEN_END], Refusal::BadShortest),
        // A group's shortest don't fit behind the frames so far; nor do those of the tail.
        ([1, 2], [65_535.0, 65_535.0], Refusal::EstimateTooLong),
        ([1, 2], [65_535.0, OPEN_END], Refusal::EstimateTooLong),
    ] {
        let answer = hejmirov::align(&MEANS, &VARIS, Some(&shortest), 1, &ends);
        assert_eq!(answer, Err(refusal), "{shortest:?}, {ends:?}");
    }
}

/// What the three calls refuse with, all asked for more than 65,536 frames, each list of which must be
/// left: the shortest, and how many numbers there are in the output and in the work space.
fn refused(shortest: &[u32], out: usize, work: usize) -> Vec<Option<Refusal>> {
    let (mut out, mut work) = (vec![7; out], vec![9; work]);
    let shortest = Some(shortest);
    let ends = [65_537.0, OPEN_END];
    let refusals = vec![
        hejmirov::fit_into(&MEANS, &VARIS, shortest, 65_537.0, &mut out, &mut work).err(),
        hejmirov::speed_into(&MEANS, &VARIS, shortest, 0.0, &mut out, &mut work).err(),
        hejmirov::align_into(&MEANS, &VARIS, shortest, 1, &ends, &mut out, &mut work).err(),
    ];
    assert!(out.iter().all(|&number| number == 7));
    assert!(work.iter().all(|&number| number == 9));
    refusals
}

#[test]
fn refusals_in_their_order() {
    // Another number of them comes before room, room before a 0, and a 0 before a target.
    for shortest in [&[][..], &[0], &[1, 1, 1], &[0; 9]] {
        assert_eq!(
            refused(shortest, 2, 1),
            [Some(Refusal::ListsDisagree); 3],
            "{shortest:?}"
        );
    }
    for (out, work) in [(1, 2), (2, 1), (0, 0)] {
        assert_eq!(
            refused(&[0, 1], out, work),
            [Some(Refusal::TooLittleRoom); 3]
        );
    }
    for shortest in [
        [0, 1],
        [1, 0],
        [0, 0],
        [65_536, 1],
        [1, 65_536],
        [65_537, 1],
        [u32::MAX, 1], // 0 in 32 bits
        [u32::MAX, 2], // 1 in 32 bits
        [u32::MAX, u32::MAX],
        [0x8000_0000, 0x8000_0000],
        [0, u32::MAX],
    ] {
        assert_eq!(
            refused(&shortest, 3, 3),
            [Some(Refusal::BadShortest); 3],
            "{shortest:?}"
        );
    }
    let (mut out, mut work) = ([7; 3], [9; 3]);
    let most = Some(&[65_535, 1][..]);
    let late = hejmirov::fit_into(&MEANS, &VARIS, most, 65_536.5, &mut out, &mut work);
    assert_eq!(late, Err(Refusal::TargetTooLong));
    assert_eq!((out, work), ([7; 3], [0, 0, 9]));
    let bad = Refusal::BadShortest;
    assert_eq!((bad.number(), bad.old_number()), (15, 15));
    assert_eq!(
        bad.to_string(),
        "refused 15: a shortest duration of 0, or their sum above 65,536"
    );
}

#[test]
fn as_many_states_as_there_may_be_and_more() {
    let (ones, mut shortest) = (vec![1.0; MAX_STATES + 2], vec![16; MAX_STATES]);
    let most = &ones[..MAX_STATES];
    // 4,096 x 16 frames are as many as there may be.
    assert_eq!(shortest.len() * 16, MAX_FRAMES);
    let answer = hejmirov::fit(most, most, Some(&shortest), 1.0).unwrap();
    assert_eq!(answer.durations, shortest);
    shortest[MAX_STATES - 1] = 17;
    let answer = hejmirov::fit(most, most, Some(&shortest), 1.0);
    assert_eq!(answer, Err(Refusal::BadShortest));
    let answer = hejmirov::fit(most, most, Some(&[u32::MAX; MAX_STATES]), 1.0);
    assert_eq!(answer, Err(Refusal::BadShortest));
    // Without shortest there are ones for as many states, and more are refused before these are looked at.
    let answer = hejmirov::fit(most, most, None, 1.0).unwrap();
    assert_eq!(answer.durations, [1; MAX_STATES]);
    for states in [MAX_STATES + 1, MAX_STATES + 2] {
        let many = &ones[..states];
        let (mut out, mut work) = (vec![7; states], vec![9; states]);
        for shortest in [None, Some(&[][..]), Some(&[0]), Some(&vec![1; states])] {
            let refused = [
                hejmirov::fit_into(many, many, shortest, 1.0, &mut out, &mut work),
                hejmirov::speed_into(many, many, shortest, 1.0, &mut out, &mut work),
                hejmirov::align_into(many, many, shortest, 1, many, &mut out, &mut work)
                    .map(|aligned| aligned.changes),
            ];
            assert_eq!(refused, [Err(Refusal::BadSize); 3]);
        }
        assert!(out.iter().all(|&number| number == 7));
        assert!(work.iter().all(|&number| number == 9));
    }
}

#[test]
fn lists_of_no_states() {
    let none = Ok(Fitted::default());
    for shortest in [None, Some(&[][..])] {
        assert_eq!(hejmirov::fit(&[], &[], shortest, f64::INFINITY), none);
        assert_eq!(hejmirov::speed(&[], &[], shortest, 0.0), none);
        assert_eq!(hejmirov::align(&[], &[], shortest, 1, &[]), none);
    }
    let one = Some(&[1][..]);
    let refused = Err(Refusal::ListsDisagree);
    assert_eq!(hejmirov::fit(&[], &[], one, 1.0), refused);
    assert_eq!(hejmirov::speed(&[], &[], one, 1.0), refused);
    assert_eq!(hejmirov::align(&[], &[], one, 1, &[]), refused);
}

/// States of a job of version 2: a mean, a variance, a shortest.
type State = (f64, f64, u32);

/// The file of a job, of version 1 without the shortest.
fn job_of(version: u16, speed: f64, states: &[State]) -> Vec<u8> {
    let mut bytes = b"SPJ".to_vec();
    bytes.extend(version.to_le_bytes());
    bytes.extend(u16::try_from(states.len()).unwrap().to_le_bytes());
    bytes.extend(speed.to_le_bytes());
    for (mean, vari, shortest) in states {
        bytes.extend(mean.to_le_bytes());
        bytes.extend(vari.to_le_bytes());
        if version == 2 {
            bytes.extend(shortest.to_le_bytes());
        }
    }
    bytes
}

/// A job's answer, the same in every way to ask for it.
fn answered(link: &mut Link, job: &[u8]) -> Result<Fitted, Refusal> {
    let answer = hejmirov::job(job);
    for bytes in [1, 3, 20, job.len()] {
        link.begin();
        for part in job.chunks(bytes) {
            link.part(part).unwrap();
        }
        assert_eq!(link.end(), answer, "in parts of {bytes}");
    }
    let (mut out, mut work) = ([7; MAX_JOB_STATES], [9; MAX_JOB_STATES]);
    let into = hejmirov::job_into(job, &mut out, &mut work);
    let same = answer.clone().map(|fitted| Answered {
        states: u32::try_from(fitted.durations.len()).unwrap(),
        frames: u32::try_from(fitted.frames()).unwrap(),
        changes: fitted.changes,
    });
    assert_eq!(into, same);
    if let Ok(fitted) = &answer {
        assert_eq!(out[..fitted.durations.len()], fitted.durations);
    }
    answer
}

#[test]
fn jobs() {
    let mut link = Link::new();
    let worked = |first, second| [(2.0, 1.0, first), (3.0, 1.0, second)];
    for (shortest, speed, answer) in [
        ([1, 1], 0.5, Ok(done(&[4, 6], 1))),
        ([4, 1], 0.5, Ok(done(&[6, 8], 1))),
        ([4, 1], 1.0, Ok(done(&[4, 3], 0))),
        ([4, 1], 2.0, Ok(done(&[4, 1], 0))),
        ([0, 1], 0.0, Err(Refusal::BadShortest)),
        ([1, 0], 0.5, Err(Refusal::BadShortest)),
        ([65_536, 1], 0.5, Err(Refusal::BadShortest)),
        ([u32::MAX, 2], 1.0, Err(Refusal::BadShortest)),
        ([4, 1], 0.0, Err(Refusal::TargetTooLong)),
        ([65_534, 1], 0.0, Err(Refusal::EstimateTooLong)), // at speed 1, before the target
    ] {
        let states = worked(shortest[0], shortest[1]);
        assert_eq!(answered(&mut link, &job_of(2, speed, &states)), answer);
        // Version 1 has ones.
        let ones = answered(&mut link, &job_of(2, speed, &worked(1, 1)));
        assert_eq!(answered(&mut link, &job_of(1, speed, &states)), ones);
    }
    for version in [1, 2] {
        let none = answered(&mut link, &job_of(version, f64::NAN, &[]));
        assert_eq!(none, Ok(Fitted::default()));
    }
    // All four bytes are read, the least first.
    for (shortest, answer) in [
        (256, Ok(done(&[256], 0))),
        (65_536, Ok(done(&[65_536], 0))),
        (65_537, Err(Refusal::BadShortest)),
        ((1 << 24) + 1, Err(Refusal::BadShortest)),
    ] {
        let job = job_of(2, 2.0, &[(9.0, 1.0, shortest)]);
        assert_eq!(answered(&mut link, &job), answer, "{shortest}");
    }
}

/// Numbers from a seed: splitmix64.
struct Seed(u64);

impl Seed {
    fn below(&mut self, end: u32) -> u32 {
        self.0 = self.0.wrapping_add(0x9e37_79b9_7f4a_7c15);
        let z = (self.0 ^ (self.0 >> 30)).wrapping_mul(0xbf58_476d_1ce4_e5b9);
        let z = (z ^ (z >> 27)).wrapping_mul(0x94d0_49bb_1331_11eb);
        u32::try_from((z >> 32) % u64::from(end)).unwrap()
    }

    /// From 0 on, in eighths.
    fn eighths(&mut self, below: u32) -> f64 {
        f64::from(self.below(8 * below)) / 8.0
    }

    fn list<T>(&mut self, count: u32, mut item: impl FnMut(&mut Self) -> T) -> Vec<T> {
        (0..count).map(|_| item(self)).collect()
    }
}

/// The durations keep their shortest, and total the target, in eighths of a frame, or the shortest's
/// sum.
fn keeps(fitted: &Fitted, shortest: &[u32], eighths: u64) {
    assert_eq!(fitted.durations.len(), shortest.len());
    let mut both = fitted.durations.iter().zip(shortest);
    assert!(both.all(|(duration, shortest)| duration >= shortest));
    let target = ((eighths + 4) / 8).max(1);
    if target > sum(shortest) {
        assert_eq!(fitted.frames(), target);
    } else {
        assert_eq!(fitted.durations, shortest);
        assert_eq!(fitted.changes, 0);
    }
}

#[test]
fn random_states_keep_their_shortest() {
    let mut seed = Seed(9);
    let mut link = Link::new();
    let mut kept = 0;
    for _ in 0..3_000 {
        let count = 1 + seed.below(12);
        let means = seed.list(count, |seed| seed.eighths(12));
        let varis = seed.list(count, |seed| seed.eighths(20));
        let shortest = seed.list(count, |seed| 1 + seed.below(4) * seed.below(3));
        let eighths = seed.below(8 * 80);
        let length = f64::from(eighths) / 8.0;
        let given = hejmirov::fit(&means, &varis, Some(&shortest), length).unwrap();
        keeps(&given, &shortest, eighths.into());
        let ones = vec![1; means.len()];
        let plain = hejmirov::fit(&means, &varis, None, length).unwrap();
        keeps(&plain, &ones, eighths.into());
        assert_eq!(
            hejmirov::fit(&means, &varis, Some(&ones), length),
            Ok(plain.clone())
        );
        kept += u32::from(plain != given);

        // A speed is a fit to the natural total, and a job of version 2 is a speed.
        let natural = hejmirov::speed(&means, &varis, Some(&shortest), 1.0).unwrap();
        assert!(natural.durations.iter().zip(&shortest).all(|(a, b)| a >= b));
        let total = f64::from(u32::try_from(natural.frames()).unwrap());
        let fast = hejmirov::speed(&means, &varis, Some(&shortest), 2.0);
        let to_half = hejmirov::fit(&means, &varis, Some(&shortest), total / 2.0);
        assert_eq!(fast, to_half);
        let states: Vec<State> = (means.iter().zip(&varis).zip(&shortest))
            .map(|((&mean, &vari), &shortest)| (mean, vari, shortest))
            .collect();
        assert_eq!(answered(&mut link, &job_of(2, 2.0, &states)), fast);
    }
    assert!(kept > 1_000, "{kept} of 3,000 are other than without");
}

#[test]
fn random_chapters_do_not_drift() {
    let mut seed = Seed(8);
    let (mut met, mut missed) = (0, 0);
    for _ in 0..1_000 {
        let (labels, nstate) = (1 + seed.below(20), 1 + seed.below(3));
        let states = labels * nstate;
        let means = seed.list(states, |seed| seed.eighths(12));
        let varis = seed.list(states, |seed| seed.eighths(20));
        let shortest = seed.list(states, |seed| 1 + seed.below(4) * seed.below(2));
        let mut now = 0;
        let ends = seed.list(labels, |seed| {
            now += seed.below(8 * 12 * nstate);
            (seed.below(3) > 0).then_some(now)
        });
        let times: Vec<f64> = ends
            .iter()
            .map(|end| end.map_or(OPEN_END, |end| f64::from(end) / 8.0))
            .collect();
        let answer = hejmirov::align(&means, &varis, Some(&shortest), nstate, &times).unwrap();
        let natural = hejmirov::speed(&means, &varis, Some(&shortest), 1.0).unwrap();
        let (mut from, mut total) = (0, 0);
        for (label, end) in ends.iter().enumerate() {
            let Some(end) = end else { continue };
            let to = (label + 1) * nstate as usize;
            let rounded = u64::from((end + 4) / 8); // halves up
            let least = total + sum(&shortest[from..to]);
            total += sum(&answer.durations[from..to]);
            assert_eq!(total, rounded.max(least));
            met += u32::from(rounded > least);
            missed += u32::from(rounded < least);
            from = to;
        }
        assert_eq!(answer.durations[from..], natural.durations[from..]);
    }
    assert!(met > 500 && missed > 500, "{met} met, {missed} missed");
}
