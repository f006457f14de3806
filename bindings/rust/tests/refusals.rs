//! Each refusal through the safe calls, what the lists hold afterwards, and empty lists.

#![allow(clippy::float_cmp)] // what is promised is exact

use hejmirov::{
    Aligned, Clamped, Damage, Fitted, GlobalVariance, JOB_STATE_BYTES, JOB2_STATE_BYTES,
    LINK_BYTES, Link, MAX_FRAMES, MAX_JOB_STATES, MAX_NSTATE, MAX_STATES, MAX_V, MAX_WIDTH,
    MAX_WINDOWS, OPEN_END, Refusal, SLOTS, Stream, Table, WORK_FLOATS_A_FRAME, WORK_MARKS_A_FRAME,
    Windows,
};

const MEANS: [f64; 2] = [2.0, 3.0];
const VARIS: [f64; 2] = [1.0, 1.0];

const PLAIN: Stream = Stream {
    v: 1,
    windows: Windows {
        widths: &[1],
        coefficients: &[1.0],
    },
    masked: false,
    threshold: 0.0,
    fill: -1.0,
    gv: None,
};

fn damaged(damage: Damage, place: u64) -> Refusal {
    Refusal::JobDamaged { damage, place }
}

#[test]
fn windows_are_refused() {
    let none = Stream {
        windows: Windows::default(),
        ..PLAIN
    };
    assert_eq!(none.trajectory(&[], &[]), Err(Refusal::BadWindows));
    let empty = Windows {
        widths: &[1, 0],
        coefficients: &[1.0],
    };
    assert_eq!(
        hejmirov::band_rows(empty, &[], &[]),
        Err(Refusal::BadWindows)
    );
    let long = Windows {
        widths: &[u32::MAX],
        coefficients: &[1.0],
    };
    assert_eq!(
        hejmirov::band_rows(long, &[1.0; 9], &[]),
        Err(Refusal::BadWindows)
    );
    let infinite = Windows {
        widths: &[1],
        coefficients: &[f64::INFINITY],
    };
    assert_eq!(
        hejmirov::band_rows(infinite, &[], &[]),
        Err(Refusal::BadCoefficient)
    );
}

#[test]
fn sizes_are_refused() {
    let many = vec![1.0; MAX_STATES + 1];
    assert_eq!(
        hejmirov::fit(&many, &many, None, 9.0),
        Err(Refusal::BadSize)
    );
    assert_eq!(
        hejmirov::mask(&many, 0.0, &vec![1; MAX_STATES + 1]),
        Err(Refusal::BadSize)
    );
    assert_eq!(
        hejmirov::align(&MEANS, &VARIS, None, 0, &[8.0]),
        Err(Refusal::BadSize)
    );
    assert_eq!(hejmirov::place(0, 0, 65), Err(Refusal::BadSize));
    for v in [0, 65, u32::MAX] {
        assert_eq!(
            Stream { v, ..PLAIN }.trajectory(&[], &[1]),
            Err(Refusal::BadSize)
        );
    }
}

#[test]
fn lists_that_disagree_are_refused() {
    assert_eq!(
        hejmirov::fit(&MEANS, &[1.0], None, 8.0),
        Err(Refusal::ListsDisagree)
    );
    assert_eq!(
        hejmirov::align(&MEANS, &VARIS, None, 2, &[8.0, 9.0]),
        Err(Refusal::ListsDisagree)
    );
    assert_eq!(
        hejmirov::mask(&[0.5], 0.0, &[1, 1]),
        Err(Refusal::ListsDisagree)
    );
    assert_eq!(
        hejmirov::band_rows(PLAIN.windows, &[1.0], &[]),
        Err(Refusal::ListsDisagree)
    );
    assert_eq!(
        hejmirov::excerpt(&[1.0], &[2], 1, 0),
        Err(Refusal::ListsDisagree)
    );
    assert_eq!(PLAIN.trajectory(&[1.0], &[1]), Err(Refusal::ListsDisagree));
    let gv = Some(GlobalVariance {
        weight: 1.0,
        pairs: &[1.0, 1.0],
        switches: &[],
    });
    assert_eq!(
        Stream { gv, ..PLAIN }.trajectory(&[1.0, 1.0], &[1]),
        Err(Refusal::ListsDisagree)
    );
}

#[test]
fn too_many_frames_are_refused() {
    let over = [u32::MAX, 2];
    assert_eq!(
        hejmirov::mask(&MEANS, 0.0, &over),
        Err(Refusal::TooManyFrames)
    );
    assert_eq!(
        PLAIN.trajectory(&[1.0; 4], &over),
        Err(Refusal::TooManyFrames)
    );
    let frames = vec![1.0; MAX_FRAMES + 1];
    assert_eq!(
        hejmirov::band_rows(PLAIN.windows, &frames, &frames),
        Err(Refusal::TooManyFrames)
    );
}

#[test]
fn too_little_room_leaves_everything() {
    let (mut out, mut work) = ([7; 2], [7; 1]);
    let refused = hejmirov::fit_into(&MEANS, &VARIS, None, 8.0, &mut out, &mut work);
    assert_eq!(
        (refused, out, work),
        (Err(Refusal::TooLittleRoom), [7; 2], [7; 1])
    );

    let mut numbers = [7.0; 2];
    let mut floats = [7.0; 2 * WORK_FLOATS_A_FRAME];
    let mut marks = [7; 2 * WORK_MARKS_A_FRAME - 1];
    let records = [5.0, 1.0];
    let refused = PLAIN.trajectory_into(&records, &[2], &mut numbers, &mut floats, &mut marks);
    assert_eq!(refused, Err(Refusal::TooLittleRoom));
    assert!(numbers.iter().chain(&floats).all(|&number| number == 7.0));
    assert!(marks.iter().all(|&mark| mark == 7));
}

#[test]
fn lengths_above_the_limit_zero_the_work_space() {
    let (mut out, mut work) = ([7; 2], [7; 3]);
    let refused = hejmirov::fit_into(&MEANS, &VARIS, None, 65_536.5, &mut out, &mut work);
    assert_eq!(
        (refused, out, work),
        (Err(Refusal::TargetTooLong), [7; 2], [0, 0, 7])
    );
    let mut work = [7; 3];
    let refused = hejmirov::fit_into(&MEANS, &VARIS, None, 65_536.0, &mut out, &mut work);
    assert_eq!(
        (refused, out, work),
        (Err(Refusal::EstimateTooLong), [7; 2], [0, 0, 7])
    );
    assert_eq!(
        hejmirov::speed(&MEANS, &VARIS, None, 0.0),
        Err(Refusal::TargetTooLong)
    );
}

#[test]
fn jobs_places_and_states_that_are_not_there() {
    assert_eq!(hejmirov::job(b"SPJ"), Err(damaged(Damage::Length, 3)));
    assert_eq!(hejmirov::place(0, 40, 40), Err(Refusal::NoSuchPlace));
    assert_eq!(
        hejmirov::excerpt(&[1.0, 2.0], &[2], 1, 1),
        Err(Refusal::NoSuchPlace)
    );
}

#[test]
fn trajectories_zero_the_work_space_they_use_and_no_more() {
    let mut numbers = [7.0; 3];
    let mut floats = [7.0; 2 * WORK_FLOATS_A_FRAME + 1];
    let mut marks = [7; 2 * WORK_MARKS_A_FRAME + 1];
    let clamped = PLAIN
        .trajectory_into(&[5.0, 0.0], &[2], &mut numbers, &mut floats, &mut marks)
        .unwrap();
    assert_eq!(clamped, Clamped { high: 0, low: 2 });
    assert_eq!(numbers, [5.0, 5.0, 7.0]);
    let (last, used) = floats.split_last().unwrap();
    assert!(*last == 7.0 && used.iter().all(|number| number.to_bits() == 0));
    let (last, used) = marks.split_last().unwrap();
    assert!(*last == 7 && used.iter().all(|&mark| mark == 0));
}

#[test]
fn empty_lists_are_accepted() {
    assert_eq!(
        hejmirov::fit(&[], &[], None, f64::INFINITY),
        Ok(Fitted::default())
    );
    assert_eq!(
        hejmirov::align(&[], &[], None, 1, &[]),
        Ok(Fitted::default())
    );
    assert_eq!(hejmirov::mask(&[], 0.5, &[]), Ok(hejmirov::Mask::default()));
    let trajectory = PLAIN.trajectory(&[], &[]).unwrap();
    assert_eq!(trajectory.numbers, []);
    assert_eq!(trajectory.clamped, Clamped::default());
    assert_eq!(
        PLAIN
            .trajectory(&[1.0, 1.0], &[0])
            .unwrap()
            .frames()
            .count(),
        0
    );
}

/// An alignment of one state a label, of variance 1, and what it leaves of lists of sevens that have
/// one number more than there are states.
fn aligned(means: &[f64], ends: &[f64]) -> (Result<Aligned, Refusal>, Vec<u32>, Vec<u32>) {
    let varis = vec![1.0; means.len()];
    let (mut out, mut work) = (vec![7; means.len() + 1], vec![7; means.len() + 1]);
    let answer = hejmirov::align_into(means, &varis, None, 1, ends, &mut out, &mut work);
    (answer, out, work)
}

#[test]
fn an_alignment_writes_one_duration_a_state_and_no_more() {
    let two = Ok(Aligned {
        written: 2,
        changes: 0,
    });
    assert_eq!(
        aligned(&MEANS, &[4.0, OPEN_END]),
        (two, vec![4, 3, 7], vec![0, 0, 7])
    );
    let none = Ok(Aligned {
        written: 0,
        changes: 0,
    });
    assert_eq!(aligned(&[], &[]), (none, vec![7], vec![7]));
}

#[test]
fn states_after_the_last_given_end_are_natural() {
    let (means, varis) = ([2.0, 3.0, 2.5, -0.2], [1.0, 1.0, 9.0, f64::INFINITY]);
    for (ends, durations, changes) in [
        ([8.0, OPEN_END], [3, 5, 3, 1], 1),
        ([-0.0, OPEN_END], [1, 1, 3, 1], 0),
        ([OPEN_END, OPEN_END], [2, 3, 3, 1], 0),
        ([-f64::MIN_POSITIVE, f64::NAN], [2, 3, 3, 1], 0),
    ] {
        let fitted = hejmirov::align(&means, &varis, None, 2, &ends).unwrap();
        assert_eq!(
            (fitted.durations, fitted.changes),
            (durations.to_vec(), changes)
        );
    }
}

#[test]
fn a_total_with_the_last_states_above_the_limit() {
    for (means, ends) in [
        ([65_536.0, 1.0], [OPEN_END, OPEN_END]),
        ([2.0, 65_537.0], [4.0, OPEN_END]), // by the last state alone
        ([2.0, 65_533.0], [4.0, OPEN_END]), // with the frames so far
    ] {
        assert_eq!(
            aligned(&means, &ends),
            (Err(Refusal::EstimateTooLong), vec![7, 7, 7], vec![0, 0, 7])
        );
    }
    let (_, out, _) = aligned(&[65_535.0, 1.0], &[OPEN_END, OPEN_END]);
    assert_eq!(out, [65_535, 1, 7]);
    let (_, out, _) = aligned(&[2.0, 65_532.0], &[4.0, OPEN_END]);
    assert_eq!(out, [4, 65_532, 7]);
    let (target_first, _, _) = aligned(&[2.0, 65_537.0], &[65_536.5, OPEN_END]);
    assert_eq!(target_first, Err(Refusal::TargetTooLong));
}

#[test]
fn nan_is_handed_out_with_the_one_pattern() {
    let other = f64::from_bits(0xFFF8_0000_0000_0001);
    let unvoiced = Stream {
        threshold: f64::NAN,
        fill: other,
        ..PLAIN
    };
    let filled = unvoiced.trajectory(&[1.0, 1.0], &[1]).unwrap();
    assert_eq!(filled.numbers[0].to_bits(), 0x7FF8_0000_0000_0000);
}

/// A window set of so many windows of so many coefficients each, on no frames.
fn window_set(windows: usize, width: usize) -> Result<(), Refusal> {
    let widths = vec![u32::try_from(width).unwrap(); windows];
    let coefficients = vec![1.0; windows * width];
    let windows = Windows {
        widths: &widths,
        coefficients: &coefficients,
    };
    hejmirov::band_rows_into(windows, &[], &[], &mut [], &mut [])
}

/// A label of so many states, without an end.
fn label(nstate: usize) -> Result<Fitted, Refusal> {
    let states = vec![1.0; nstate];
    hejmirov::align(
        &states,
        &states,
        None,
        u32::try_from(nstate).unwrap(),
        &[OPEN_END],
    )
}

/// The head of a job file.
fn head_of(version: u16, states: usize) -> Vec<u8> {
    let mut bytes = b"SPJ".to_vec();
    bytes.extend(version.to_le_bytes());
    bytes.extend(u16::try_from(states).unwrap().to_le_bytes());
    bytes.extend(1.0_f64.to_le_bytes());
    bytes
}

/// The file of a job of so many states of one frame each.
fn job_of(states: usize) -> Vec<u8> {
    let mut bytes = head_of(1, states);
    bytes.resize(bytes.len() + states * JOB_STATE_BYTES, 0);
    bytes
}

/// The same in version 2, with so many frames a state.
fn job_2_of(states: usize, shortest: u32) -> Vec<u8> {
    let mut bytes = head_of(2, states);
    for _ in 0..states {
        bytes.resize(bytes.len() + JOB2_STATE_BYTES - 4, 0);
        bytes.extend(shortest.to_le_bytes());
    }
    bytes
}

fn job(states: usize) -> Result<u64, Refusal> {
    hejmirov::job(&job_of(states)).map(|fitted| fitted.frames())
}

#[test]
fn limits_are_the_last_accepted() {
    assert_eq!(window_set(MAX_WINDOWS, MAX_WIDTH), Ok(()));
    assert_eq!(window_set(MAX_WINDOWS + 1, 1), Err(Refusal::BadWindows));
    assert_eq!(window_set(1, MAX_WIDTH + 1), Err(Refusal::BadWindows));

    let v = u32::try_from(MAX_V).unwrap();
    assert_eq!(hejmirov::place(1, v - 1, v), Ok(8 * (2 * MAX_V as u64 - 1)));
    assert_eq!(hejmirov::place(1, 0, v + 1), Err(Refusal::BadSize));

    let ones = vec![1.0; MAX_STATES + 1];
    let most = &ones[..MAX_STATES];
    assert_eq!(
        hejmirov::speed(most, most, None, 1.0)
            .unwrap()
            .durations
            .len(),
        MAX_STATES
    );
    assert_eq!(
        hejmirov::speed(&ones, &ones, None, 1.0),
        Err(Refusal::BadSize)
    );
    assert_eq!(label(MAX_NSTATE).unwrap().durations, [1; MAX_NSTATE]);
    assert_eq!(label(MAX_NSTATE + 1), Err(Refusal::BadSize));

    let frames = u32::try_from(MAX_FRAMES).unwrap();
    assert_eq!(
        hejmirov::mask(&[1.0], 0.5, &[frames]).unwrap().voiced.len(),
        MAX_FRAMES
    );
    assert_eq!(
        hejmirov::mask(&[1.0], 0.5, &[frames + 1]),
        Err(Refusal::TooManyFrames)
    );

    let (slots, mut table) = (u32::try_from(SLOTS).unwrap(), Table::new());
    assert_eq!(table.house(1).set(slots - 1, PLAIN.windows), Ok(()));
    assert_eq!(
        table.house(1).set(slots, PLAIN.windows),
        Err(Refusal::NotYourSlot)
    );

    assert_eq!(job(MAX_JOB_STATES), Ok(MAX_JOB_STATES as u64));
    assert_eq!(job(MAX_JOB_STATES + 1), Err(damaged(Damage::Count, 5)));
    // 1,024 x 64 frames are as many as there may be.
    let most = hejmirov::job(&job_2_of(MAX_JOB_STATES, 64)).unwrap();
    assert_eq!(most.durations, [64; MAX_JOB_STATES]);
    assert_eq!(
        hejmirov::job(&job_2_of(MAX_JOB_STATES, 65)),
        Err(Refusal::BadShortest)
    );
    assert_eq!(
        hejmirov::job(&job_2_of(MAX_JOB_STATES + 1, 65)),
        Err(damaged(Damage::Count, 5))
    );
}

#[test]
fn a_link_that_has_ended_takes_nothing_but_begin() {
    let job = job_of(2);
    let (mut out, mut work) = ([7; 2], [7; 1]);
    let mut memory = vec![0xff; LINK_BYTES + 1];
    for (part, expected) in [
        (&job[..], Err(Refusal::TooLittleRoom)), // a refused end is an end
        (b"SPJ", Err(damaged(Damage::Length, 3))),
        (&job_2_of(1, 0), Err(Refusal::BadShortest)),
        (&job_of(0), Ok(0)),
    ] {
        hejmirov::link_begin(&mut memory).unwrap();
        hejmirov::link_part(&mut memory, part).unwrap();
        let ended = hejmirov::link_end_into(&mut memory, &mut out, &mut work);
        assert_eq!(ended.map(|answered| answered.states), expected);
        let left = memory.clone();
        assert_eq!(
            hejmirov::link_part(&mut memory, &[]),
            Err(Refusal::JobEnded)
        );
        assert_eq!(
            hejmirov::link_part(&mut memory, &job),
            Err(Refusal::JobEnded)
        );
        let again = hejmirov::link_end_into(&mut memory, &mut out, &mut work);
        assert_eq!(again, Err(Refusal::JobEnded));
        assert_eq!((&left, out, work), (&memory, [7; 2], [7; 1]));
    }
    assert_eq!(memory[..8], [0; 8]);
    assert_eq!(memory[LINK_BYTES], 0xff);
}

#[test]
fn memory_in_which_nothing_was_begun() {
    for byte in [0, 0x01, 0xff] {
        let mut memory = vec![byte; LINK_BYTES];
        let refused = hejmirov::link_part(&mut memory, b"SPJ");
        assert_eq!(refused, Err(Refusal::JobEnded));
        assert!(memory.iter().all(|&left| left == byte));
    }
    // A number in front says that a job is under way, of one byte less.
    let mut memory = vec![0; LINK_BYTES];
    memory[..11].copy_from_slice(b"\x04\0\0\0\0\0\0\0SPJ");
    hejmirov::link_part(&mut memory, &job_of(1)[3..]).unwrap();
    let (mut out, mut work) = ([0; 1], [0; 1]);
    let ended = hejmirov::link_end_into(&mut memory, &mut out, &mut work);
    assert_eq!((ended.unwrap().frames, out), (1, [1]));
}

#[test]
fn a_memory_that_is_too_short() {
    let (mut out, mut work) = ([7; 1], [7; 1]);
    for (first, expected) in [(0, Refusal::JobEnded), (1, Refusal::TooLittleRoom)] {
        for bytes in [1, 8, LINK_BYTES - 1] {
            let mut memory = vec![0; bytes];
            memory[0] = first;
            let left = memory.clone();
            assert_eq!(
                hejmirov::link_begin(&mut memory),
                Err(Refusal::TooLittleRoom)
            );
            assert_eq!(hejmirov::link_part(&mut memory, b"SPJ"), Err(expected));
            let ended = hejmirov::link_end_into(&mut memory, &mut out, &mut work);
            assert_eq!((ended, &left), (Err(expected), &memory));
        }
    }
    assert_eq!(hejmirov::link_begin(&mut []), Err(Refusal::TooLittleRoom));
    assert_eq!(hejmirov::link_part(&mut [], b"SPJ"), Err(Refusal::JobEnded));
}

#[test]
fn more_bytes_than_any_job_has() {
    for (largest, bytes) in [
        (job_of(MAX_JOB_STATES), 16_399),
        (job_2_of(MAX_JOB_STATES, 1), 20_495),
    ] {
        let mut link = Link::default();
        for part in largest.chunks(1_000) {
            link.part(part).unwrap();
        }
        let ended = link.clone().end().unwrap();
        assert_eq!(ended.durations, [1; MAX_JOB_STATES]);
        for surplus in [1, 2, 16, 4_096, 70_000] {
            let mut longer = link.clone();
            longer.part(&vec![0; surplus]).unwrap();
            longer.part(&largest).unwrap();
            assert_eq!(longer.end(), Err(damaged(Damage::Length, bytes)));
            longer.begin();
            longer.part(&largest).unwrap();
            assert_eq!(longer.end(), Ok(ended.clone()));
        }
    }
}

#[test]
fn the_largest_trajectory_is_accepted() {
    let v = u32::try_from(MAX_V).unwrap();
    let record: Vec<f64> = [2.5; MAX_V].into_iter().chain([1.0; MAX_V]).collect();
    let frames = u32::try_from(MAX_FRAMES).unwrap();
    let trajectory = Stream { v, ..PLAIN }
        .trajectory(&record, &[frames])
        .unwrap();
    assert_eq!(trajectory.frames().count(), MAX_FRAMES);
    assert!(trajectory.numbers.iter().all(|&number| number == 2.5));
}
