//! The voiced runs of a stream, and one of them alone.

use std::ops::Range;

use crate::{
    GlobalVariance, MAX_STATES, Refusal, Stream, WORK_FLOATS_A_FRAME, WORK_MARKS_A_FRAME, sys,
};

/// Numbers that tell of a run: its first frame, and how many it has.
const NUMBERS_A_RUN: usize = 2;

/// A stretch of voiced frames without a gap, as long as can be; see [`Stream::runs`].
#[derive(Clone, Copy, Debug, Default, PartialEq, Eq, Hash)]
pub struct Run {
    /// Its first frame.
    pub first: u32,
    /// How many frames it has.
    pub frames: u32,
}

impl Run {
    /// Whether a frame is one of the run's.
    ///
    /// # Examples
    ///
    /// ```
    /// use hejmirov::Run;
    ///
    /// let runs = [Run { first: 0, frames: 2 }, Run { first: 5, frames: 3 }];
    /// // A frame that is in no run is unvoiced.
    /// assert_eq!(runs.iter().position(|run| run.has(7)), Some(1));
    /// assert_eq!(runs.iter().position(|run| run.has(4)), None);
    /// ```
    #[must_use]
    pub fn has(self, frame: u32) -> bool {
        frame
            .checked_sub(self.first)
            .is_some_and(|behind| behind < self.frames)
    }

    /// Where the run's numbers stand in the trajectory of the whole stream, of v numbers a frame.
    ///
    /// # Examples
    ///
    /// ```
    /// use hejmirov::Run;
    ///
    /// // What was rendered anew is put in its place.
    /// let mut trajectory = [0.0, 0.0, 1.0, 2.0, 3.0, 4.0, 0.0, 0.0];
    /// let place = Run { first: 1, frames: 2 }.range(2);
    /// assert_eq!(place, 2..6);
    /// trajectory[place].copy_from_slice(&[5.0, 6.0, 7.0, 8.0]);
    /// assert_eq!(trajectory, [0.0, 0.0, 5.0, 6.0, 7.0, 8.0, 0.0, 0.0]);
    /// ```
    #[must_use]
    pub fn range(self, v: u32) -> Range<usize> {
        let (first, frames, v) = (self.first as usize, self.frames as usize, v as usize);
        let at = |frame: usize| frame.saturating_mul(v);
        at(first)..at(first.saturating_add(frames))
    }
}

impl Stream<'_> {
    /// The voiced runs of the stream, in the order of their frames; run k is number k of the list.
    ///
    /// A run is a stretch of voiced frames without a gap, as long as can be. A state of no frames has
    /// none, and separates nothing. `records` and `durations` are those of
    /// [`trajectory`](Self::trajectory); of a record only the weight is read, and of the windows only
    /// how many there are. Fill and global variance are not looked at.
    ///
    /// # Errors
    ///
    /// [`BadWindows`](Refusal::BadWindows): not 1 to 4 windows. [`BadSize`](Refusal::BadSize): more
    /// than 4,096 states, or `v` is not 1 to 64. [`ListsDisagree`](Refusal::ListsDisagree): the
    /// records are not one a state. [`TooManyFrames`](Refusal::TooManyFrames): the durations total
    /// above 65,536.
    ///
    /// # Examples
    ///
    /// ```
    /// use hejmirov::{Run, Stream, Windows};
    ///
    /// let stream = Stream {
    ///     v: 1,
    ///     windows: Windows { widths: &[1], coefficients: &[1.0] },
    ///     masked: true,
    ///     threshold: 0.5,
    ///     fill: -1e10,
    ///     gv: None,
    /// };
    /// // A record: a mean, a variance, the voicing weight.
    /// let (voiced, unvoiced) = ([3.0, 1.0, 0.9], [3.0, 1.0, 0.1]);
    /// let records = [voiced, unvoiced, voiced, unvoiced, voiced].concat();
    /// // The fourth state has no frames, so the last two voiced states are one run.
    /// let runs = stream.runs(&records, &[2, 3, 4, 0, 1])?;
    /// assert_eq!(runs, [Run { first: 0, frames: 2 }, Run { first: 5, frames: 5 }]);
    ///
    /// // Which run a listener means who has stopped at frame 8; frame 3 is unvoiced.
    /// assert_eq!(runs.iter().position(|run| run.has(8)), Some(1));
    /// assert_eq!(runs.iter().position(|run| run.has(3)), None);
    /// # Ok::<(), hejmirov::Refusal>(())
    /// ```
    pub fn runs(&self, records: &[f64], durations: &[u32]) -> Result<Vec<Run>, Refusal> {
        // There are no more runs than states; more states are refused before room is looked at.
        let mut numbers = vec![0; NUMBERS_A_RUN * durations.len().min(MAX_STATES)];
        let count = self.runs_into(records, durations, &mut numbers)?;
        let runs = numbers.chunks_exact(NUMBERS_A_RUN).take(count as usize);
        Ok(runs
            .map(|run| Run {
                first: run[0],
                frames: run[1],
            })
            .collect())
    }

    /// [`runs`](Self::runs) in the caller's memory: run k's first frame at 2 × k, how many frames it
    /// has behind that. It answers how many runs there are. There are no more of them than states, so
    /// two numbers a state are always enough; what is behind the last run's stays as it was.
    ///
    /// # Errors
    ///
    /// Those of [`runs`](Self::runs), and [`TooLittleRoom`](Refusal::TooLittleRoom). The list is then
    /// as it was.
    ///
    /// # Examples
    ///
    /// ```
    /// use hejmirov::{Refusal, Stream, Windows};
    ///
    /// let windows = Windows { widths: &[1], coefficients: &[1.0] };
    /// let stream = Stream { v: 1, windows, masked: true, threshold: 0.5, fill: 0.0, gv: None };
    /// let records = [3.0, 1.0, 0.9, 3.0, 1.0, 0.1, 3.0, 1.0, 0.9];
    /// let mut runs = [7; 6];
    /// assert_eq!(stream.runs_into(&records, &[2, 3, 4], &mut runs)?, 2);
    /// assert_eq!(runs, [0, 2, 5, 4, 7, 7]);
    ///
    /// let refused = stream.runs_into(&records, &[2, 3, 4], &mut runs[..3]);
    /// assert_eq!(refused, Err(Refusal::TooLittleRoom));
    /// # Ok::<(), Refusal>(())
    /// ```
    pub fn runs_into(
        &self,
        records: &[f64],
        durations: &[u32],
        runs: &mut [u32],
    ) -> Result<u32, Refusal> {
        let mut count = 0;
        // SAFETY: each pointer and length are those of one slice, and the written one is borrowed
        // alone; the last pointer is to a number of our own.
        let refusal = unsafe {
            sys::hejmirov_runs(
                self.v,
                u32::from(self.masked),
                self.threshold,
                self.windows.widths.len(),
                records.as_ptr(),
                records.len(),
                durations.as_ptr(),
                durations.len(),
                runs.as_mut_ptr(),
                runs.len(),
                &raw mut count,
            )
        };
        Refusal::or(refusal, count)
    }

    /// The numbers of one run alone, frame after frame: component c of its frame t is number
    /// t × v + c. `number` is the run's, as [`runs`](Self::runs) counts them; `records` and
    /// `durations` are those of [`trajectory`](Self::trajectory), of the whole stream.
    ///
    /// Only the run's own states are worked out, and of other records the weights alone are read: the
    /// time grows with the run and with the number of states, and so does the memory, but not with
    /// the frames of the utterance. The fill is not used, as every frame of a run is voiced.
    ///
    /// The numbers are those of [`trajectory`](Self::trajectory) at these frames, 0 and -0 being the
    /// same, where all of this holds, of every run and not of this one alone: the means of the voiced
    /// states are finite; the numbers of each run, by this call, are finite, and none at its last
    /// frame is a zero (where every window has one coefficient, none at any frame). Elsewhere they
    /// are what solving the run by itself gives, and nothing is said of the full trajectory's: a run's
    /// infinity or NaN can reach the runs beside it there.
    ///
    /// # Errors
    ///
    /// Those of [`trajectory`](Self::trajectory), and then [`RunWithGv`](Refusal::RunWithGv): global
    /// variance is on, which joins all runs. [`NoSuchRun`](Refusal::NoSuchRun): no run of that number.
    /// [`RunFirstWindow`](Refusal::RunFirstWindow): the first window has more than one coefficient,
    /// and so reaches over the ends of runs.
    ///
    /// # Examples
    ///
    /// ```
    /// use hejmirov::{Refusal, Stream, Windows};
    ///
    /// let stream = Stream {
    ///     v: 1,
    ///     windows: Windows { widths: &[1, 3], coefficients: &[1.0, -0.5, 0.0, 0.5] },
    ///     masked: true,
    ///     threshold: 0.5,
    ///     fill: -1e10,
    ///     gv: None,
    /// };
    /// // A record: a mean a window, a variance a window, the voicing weight.
    /// let mut records = [
    ///     [3.0, 0.0, 1.0, 1.0, 0.9],
    ///     [0.0, 0.0, 1.0, 1.0, 0.1],
    ///     [4.0, 0.0, 1.0, 1.0, 0.9],
    ///     [5.0, 0.5, 1.0, 2.0, 0.9],
    /// ];
    /// let durations = [2, 3, 4, 5];
    /// let mut trajectory = stream.trajectory(&records.concat(), &durations)?.numbers;
    ///
    /// let runs = stream.runs(&records.concat(), &durations)?;
    /// let number = runs.iter().position(|run| run.has(7)).unwrap();
    /// let place = runs[number].range(stream.v);
    /// let alone = stream.run(&records.concat(), &durations, number as u32)?;
    /// assert_eq!(alone, trajectory[place.clone()]);
    ///
    /// // A state of the run is recorded anew: the run alone is rendered, and put in its place.
    /// records[2][0] = 4.5;
    /// let alone = stream.run(&records.concat(), &durations, number as u32)?;
    /// trajectory[place].copy_from_slice(&alone);
    /// assert_eq!(trajectory, stream.trajectory(&records.concat(), &durations)?.numbers);
    ///
    /// assert_eq!(stream.run(&records.concat(), &durations, 2), Err(Refusal::NoSuchRun));
    /// # Ok::<(), Refusal>(())
    /// ```
    pub fn run(
        &self,
        records: &[f64],
        durations: &[u32],
        number: u32,
    ) -> Result<Vec<f64>, Refusal> {
        // A stream whose runs are refused is refused here before room is looked at, and a run that
        // isn't there needs none.
        let runs = self.runs(records, durations).unwrap_or_default();
        let run = runs.get(number as usize).copied().unwrap_or_default();
        let frames = run.frames as usize;
        let mut numbers = vec![0.0; run.range(self.v).len()];
        let mut work = vec![0.0; frames * WORK_FLOATS_A_FRAME];
        let mut marks = vec![0; frames * WORK_MARKS_A_FRAME];
        self.run_into(
            records,
            durations,
            number,
            &mut numbers,
            &mut work,
            &mut marks,
        )?;
        Ok(numbers)
    }

    /// [`run`](Self::run) in the caller's memory: frames × v numbers in `out`, of the run's frames.
    /// It answers how many frames the run has.
    ///
    /// `work` needs [`WORK_FLOATS_A_FRAME`] and `marks` [`WORK_MARKS_A_FRAME`] numbers for each frame
    /// of the run; so many of each are zero afterwards. What is beyond stays as it was.
    ///
    /// # Errors
    ///
    /// Those of [`run`](Self::run), and [`TooLittleRoom`](Refusal::TooLittleRoom), which comes before
    /// [`RunWithGv`](Refusal::RunWithGv); a run that isn't there needs no room. All three lists are
    /// then as they were.
    ///
    /// # Examples
    ///
    /// ```
    /// use hejmirov::{Refusal, Stream, WORK_FLOATS_A_FRAME, WORK_MARKS_A_FRAME, Windows};
    ///
    /// let windows = Windows { widths: &[1], coefficients: &[1.0] };
    /// let stream = Stream { v: 2, windows, masked: true, threshold: 0.5, fill: 0.0, gv: None };
    /// // Two means, two variances, the voicing weight.
    /// let records = [5.0, 6.0, 1.0, 1.0, 0.9, 0.0, 0.0, 1.0, 1.0, 0.1, 7.0, 8.0, 1.0, 1.0, 0.9];
    /// let durations = [2, 3, 1];
    /// // The last run has one frame of the six that there are.
    /// let mut out = [1.0; 3];
    /// let mut work = [1.0; WORK_FLOATS_A_FRAME];
    /// let mut marks = [1; WORK_MARKS_A_FRAME];
    /// let frames = stream.run_into(&records, &durations, 1, &mut out, &mut work, &mut marks)?;
    /// assert_eq!((frames, out), (1, [7.0, 8.0, 1.0]));
    /// assert!(work.iter().all(|&number| number == 0.0) && marks.iter().all(|&mark| mark == 0));
    ///
    /// let refused = stream.run_into(&records, &durations, 0, &mut out, &mut work, &mut marks);
    /// assert_eq!(refused, Err(Refusal::TooLittleRoom));
    /// # Ok::<(), Refusal>(())
    /// ```
    pub fn run_into(
        &self,
        records: &[f64],
        durations: &[u32],
        number: u32,
        out: &mut [f64],
        work: &mut [f64],
        marks: &mut [u32],
    ) -> Result<u32, Refusal> {
        let gv = self.gv.unwrap_or(GlobalVariance::OFF);
        let mut frames = 0;
        // SAFETY: each pointer and length are those of one slice, and the written ones are borrowed
        // alone; a `bool` is a byte of 0 or 1; the last pointer is to a number of our own.
        let refusal = unsafe {
            sys::hejmirov_run(
                self.v,
                u32::from(self.masked),
                self.threshold,
                self.fill,
                u32::from(self.gv.is_some()),
                gv.weight,
                self.windows.widths.as_ptr(),
                self.windows.widths.len(),
                self.windows.coefficients.as_ptr(),
                self.windows.coefficients.len(),
                records.as_ptr(),
                records.len(),
                durations.as_ptr(),
                durations.len(),
                gv.pairs.as_ptr(),
                gv.pairs.len(),
                gv.switches.as_ptr().cast(),
                gv.switches.len(),
                number,
                out.as_mut_ptr(),
                out.len(),
                work.as_mut_ptr(),
                work.len(),
                marks.as_mut_ptr(),
                marks.len(),
                &raw mut frames,
            )
        };
        Refusal::or(refusal, frames)
    }
}

#[cfg(test)]
mod tests {
    //! What stands behind the pointers to the two counts, of which the safe calls show only what was
    //! written.

    use super::sys;

    /// What both calls are asked, of a masked stream of one number a frame and two windows.
    struct Asked {
        v: u32,
        widths: Vec<u32>,
        coefficients: Vec<f64>,
        durations: Vec<u32>,
        gv_on: u32,
        run: u32,
        rooms: [usize; 4], // of the runs, and of out, work and marks in frames
    }

    /// Two runs, of two frames and of three.
    fn asked() -> Asked {
        Asked {
            v: 1,
            widths: vec![1, 1],
            coefficients: vec![1.0, 1.0],
            durations: vec![2, 1, 3],
            gv_on: 0,
            run: 1,
            rooms: [4, 3, 3, 3],
        }
    }

    const RECORDS: [f64; 15] = [
        1.0, 2.0, 1.0, 1.0, 0.9, 1.0, 2.0, 1.0, 1.0, 0.1, 1.0, 2.0, 1.0, 1.0, 0.9,
    ];

    /// The number of the call of runs, and what it leaves behind its pointer, where 21 stood.
    fn count(asked: &Asked) -> (u32, u32) {
        let (mut runs, mut count) = (vec![7; asked.rooms[0]], 21);
        // SAFETY: each pointer and length are those of one list, and the written one is borrowed
        // alone; the last is to a number of our own.
        let number = unsafe {
            sys::hejmirov_runs(
                asked.v,
                1,
                0.5,
                asked.widths.len(),
                RECORDS.as_ptr(),
                RECORDS.len(),
                asked.durations.as_ptr(),
                asked.durations.len(),
                runs.as_mut_ptr(),
                runs.len(),
                &raw mut count,
            )
        };
        (number, count)
    }

    /// The number of the call of one run, and what it leaves behind its pointer, where 22 stood.
    fn frames(asked: &Asked) -> (u32, u32) {
        let [_, out, work, marks] = asked.rooms;
        let (mut out, mut work) = (vec![7.0; out], vec![7.0; work * 48]);
        let (mut marks, mut frames) = (vec![7; marks * 4], 22);
        let (gv, switches) = ([1.0; 2], [1; 3]);
        // SAFETY: each pointer and length are those of one list, and the written ones are borrowed
        // alone; the last is to a number of our own.
        let number = unsafe {
            sys::hejmirov_run(
                asked.v,
                1,
                0.5,
                0.0,
                asked.gv_on,
                1.0,
                asked.widths.as_ptr(),
                asked.widths.len(),
                asked.coefficients.as_ptr(),
                asked.coefficients.len(),
                RECORDS.as_ptr(),
                RECORDS.len(),
                asked.durations.as_ptr(),
                asked.durations.len(),
                gv.as_ptr(),
                gv.len(),
                switches.as_ptr(),
                switches.len(),
                asked.run,
                out.as_mut_ptr(),
                out.len(),
                work.as_mut_ptr(),
                work.len(),
                marks.as_mut_ptr(),
                marks.len(),
                &raw mut frames,
            )
        };
        (number, frames)
    }

    #[test]
    fn both_counts_are_written_where_the_calls_are_accepted() {
        assert_eq!((count(&asked()), frames(&asked())), ((0, 2), (0, 3)));
        let first = Asked { run: 0, ..asked() };
        assert_eq!(frames(&first), (0, 2));
        let none = Asked {
            durations: vec![0, 1, 0],
            rooms: [0; 4],
            ..asked()
        };
        assert_eq!((count(&none), frames(&none)), ((0, 0), (21, 22)));
    }

    #[test]
    fn both_counts_stay_where_the_calls_refuse() {
        let windows = Asked {
            widths: vec![1; 5],
            ..asked()
        };
        assert_eq!((count(&windows), frames(&windows)), ((1, 21), (1, 22)));
        let no_windows = Asked {
            widths: Vec::new(),
            ..asked()
        };
        assert_eq!(
            (count(&no_windows), frames(&no_windows)),
            ((1, 21), (1, 22))
        );
        let coefficient = Asked {
            coefficients: vec![1.0, f64::NAN],
            ..asked()
        };
        // The call of runs takes no coefficients.
        assert_eq!(
            (count(&coefficient), frames(&coefficient)),
            ((0, 2), (2, 22))
        );
        for v in [0, 65] {
            let size = Asked { v, ..asked() };
            assert_eq!((count(&size), frames(&size)), ((3, 21), (3, 22)));
        }
        let lists = Asked {
            durations: vec![2, 1],
            ..asked()
        };
        assert_eq!((count(&lists), frames(&lists)), ((4, 21), (4, 22)));
        let many = Asked {
            durations: vec![65_536, 1, 0],
            ..asked()
        };
        assert_eq!((count(&many), frames(&many)), ((5, 21), (5, 22)));
        for rooms in [[3, 2, 3, 3], [0, 3, 2, 3], [1, 3, 3, 2], [2, 0, 0, 0]] {
            let room = Asked { rooms, ..asked() };
            assert_eq!((count(&room), frames(&room)), ((6, 21), (6, 22)));
        }
        let variance = Asked {
            gv_on: 1,
            ..asked()
        };
        assert_eq!((count(&variance), frames(&variance)), ((0, 2), (20, 22)));
        for run in [2, 3, u32::MAX] {
            assert_eq!(frames(&Asked { run, ..asked() }), (21, 22));
        }
        let first_window = Asked {
            widths: vec![2, 1],
            coefficients: vec![1.0; 3],
            ..asked()
        };
        assert_eq!(
            (count(&first_window), frames(&first_window)),
            ((0, 2), (22, 22))
        );
    }
}
