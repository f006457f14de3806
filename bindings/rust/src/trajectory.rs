//! The voicing mask, the band rows, and trajectories.

use crate::{
    MAX_FRAMES, MAX_V, MAX_WIDTH, Refusal, WORK_FLOATS_A_FRAME, WORK_MARKS_A_FRAME, excerpt,
    frames_at_most, sys,
};

/// Which frames are voiced, and how far each is from the ends of its run of voiced frames.
#[derive(Clone, Debug, Default, PartialEq, Eq)]
pub struct Mask {
    /// 1 for a voiced frame, 0 for another.
    pub voiced: Vec<u32>,
    /// How many voiced frames stand directly before a voiced frame; 0 for another.
    pub left: Vec<u32>,
    /// How many voiced frames stand directly after a voiced frame; 0 for another.
    pub right: Vec<u32>,
}

/// Which frames are voiced: those of states whose weight is greater than the threshold.
///
/// # Errors
///
/// [`BadSize`](Refusal::BadSize): more than 4,096 durations.
/// [`ListsDisagree`](Refusal::ListsDisagree): another number of weights.
/// [`TooManyFrames`](Refusal::TooManyFrames): the durations total above 65,536.
///
/// # Examples
///
/// ```
/// let mask = hejmirov::mask(&[0.9, 0.2, 0.7], 0.5, &[2, 1, 3])?;
/// assert_eq!(mask.voiced, [1, 1, 0, 1, 1, 1]);
/// assert_eq!(mask.left, [0, 1, 0, 0, 1, 2]);
/// assert_eq!(mask.right, [1, 0, 0, 2, 1, 0]);
/// # Ok::<(), hejmirov::Refusal>(())
/// ```
pub fn mask(weights: &[f64], threshold: f64, durations: &[u32]) -> Result<Mask, Refusal> {
    let frames = frames_at_most(durations);
    let (mut voiced, mut left, mut right) = (vec![0; frames], vec![0; frames], vec![0; frames]);
    mask_into(
        weights,
        threshold,
        durations,
        &mut voiced,
        &mut left,
        &mut right,
    )?;
    Ok(Mask {
        voiced,
        left,
        right,
    })
}

/// [`mask`] in the caller's memory, one number a frame in each list; it answers the number of frames.
///
/// # Errors
///
/// Those of [`mask`], and [`TooLittleRoom`](Refusal::TooLittleRoom). The lists are then as they were.
///
/// # Examples
///
/// ```
/// let (mut voiced, mut left, mut right) = ([7; 4], [7; 4], [7; 4]);
/// let frames = hejmirov::mask_into(&[0.9], 0.5, &[3], &mut voiced, &mut left, &mut right)?;
/// assert_eq!(frames, 3);
/// assert_eq!((voiced, left, right), ([1, 1, 1, 7], [0, 1, 2, 7], [2, 1, 0, 7]));
/// # Ok::<(), hejmirov::Refusal>(())
/// ```
pub fn mask_into(
    weights: &[f64],
    threshold: f64,
    durations: &[u32],
    voiced: &mut [u32],
    left: &mut [u32],
    right: &mut [u32],
) -> Result<u32, Refusal> {
    let mut frames = 0;
    // SAFETY: each pointer and length are those of one slice, and the written ones are borrowed alone.
    let refusal = unsafe {
        sys::hejmirov_mask(
            weights.as_ptr(),
            weights.len(),
            threshold,
            durations.as_ptr(),
            durations.len(),
            voiced.as_mut_ptr(),
            voiced.len(),
            left.as_mut_ptr(),
            left.len(),
            right.as_mut_ptr(),
            right.len(),
            &raw mut frames,
        )
    };
    Refusal::or(refusal, frames)
}

/// A set of 1 to 4 windows.
#[derive(Clone, Copy, Debug, Default, PartialEq)]
pub struct Windows<'a> {
    /// Each window's number of coefficients, 1 to 15.
    pub widths: &'a [u32],
    /// The windows' coefficients, window after window.
    pub coefficients: &'a [f64],
}

impl Windows<'_> {
    /// Numbers in a band row: 2 × (longest window / 2, rounded down) + 1.
    ///
    /// ```
    /// let windows = hejmirov::Windows { widths: &[1, 4], coefficients: &[1.0, -1.0, 0.0, 0.0, 1.0] };
    /// assert_eq!(windows.band_width(), 5);
    /// ```
    #[must_use]
    pub fn band_width(&self) -> usize {
        let longest = self.widths.iter().copied().max().unwrap_or(0);
        2 * (longest as usize / 2) + 1
    }
}

/// The equations of one component, before they are solved.
#[derive(Clone, Debug, Default, PartialEq)]
pub struct BandRows {
    /// Numbers in a row.
    pub width: usize,
    /// The rows, one a frame; entry j of row t belongs to columns t and t + j.
    pub rows: Vec<f64>,
    /// The right side, one number a frame.
    pub right: Vec<f64>,
}

/// The band rows of one component and their right side.
///
/// `means` and `ivars` hold means and inverse variances window after window, one number a frame each.
///
/// # Errors
///
/// [`BadWindows`](Refusal::BadWindows): not 1 to 4 windows, or a width is not 1 to 15.
/// [`BadCoefficient`](Refusal::BadCoefficient): a coefficient is infinite or NaN.
/// [`ListsDisagree`](Refusal::ListsDisagree): the widths' sum is not the number of coefficients, the
/// means can't be shared out among the windows, or there is another number of inverse variances.
/// [`TooManyFrames`](Refusal::TooManyFrames): more than 65,536 frames.
///
/// # Examples
///
/// ```
/// use hejmirov::Windows;
///
/// let windows = Windows { widths: &[1, 3], coefficients: &[1.0, -0.5, 0.0, 0.5] };
/// let means = [1.0, 2.0, 3.0, 1.0, 1.0, 1.0];
/// let ivars = [1.0, 1.0, 1.0, 0.0, 1.0, 0.0];
/// let band = hejmirov::band_rows(windows, &means, &ivars)?;
/// assert_eq!(band.rows, [1.25, 0.0, -0.25, 1.0, 0.0, 0.0, 1.25, 0.0, 0.0]);
/// assert_eq!(band.right, [0.5, 2.0, 3.5]);
/// # Ok::<(), hejmirov::Refusal>(())
/// ```
pub fn band_rows(windows: Windows, means: &[f64], ivars: &[f64]) -> Result<BandRows, Refusal> {
    let frames = means
        .len()
        .checked_div(windows.widths.len())
        .unwrap_or(0)
        .min(MAX_FRAMES);
    let width = windows.band_width().min(MAX_WIDTH);
    let (mut rows, mut right) = (vec![0.0; frames * width], vec![0.0; frames]);
    band_rows_into(windows, means, ivars, &mut rows, &mut right)?;
    Ok(BandRows { width, rows, right })
}

/// [`band_rows`] in the caller's memory: frames × [`band_width`](Windows::band_width) numbers in
/// `rows`, one a frame in `right`.
///
/// # Errors
///
/// Those of [`band_rows`], and [`TooLittleRoom`](Refusal::TooLittleRoom). The lists are then as they
/// were.
///
/// # Examples
///
/// ```
/// use hejmirov::{Refusal, Windows};
///
/// let windows = Windows { widths: &[1], coefficients: &[2.0] };
/// let (mut rows, mut right) = ([0.0; 2], [0.0; 2]);
/// hejmirov::band_rows_into(windows, &[3.0, 5.0], &[1.0, 0.5], &mut rows, &mut right)?;
/// assert_eq!((rows, right), ([4.0, 2.0], [6.0, 5.0]));
///
/// let refused = hejmirov::band_rows_into(windows, &[3.0], &[1.0], &mut [], &mut right);
/// assert_eq!(refused, Err(Refusal::TooLittleRoom));
/// # Ok::<(), hejmirov::Refusal>(())
/// ```
pub fn band_rows_into(
    windows: Windows,
    means: &[f64],
    ivars: &[f64],
    rows: &mut [f64],
    right: &mut [f64],
) -> Result<(), Refusal> {
    // SAFETY: each pointer and length are those of one slice, and the written ones are borrowed alone.
    let refusal = unsafe {
        sys::hejmirov_band_rows(
            windows.widths.as_ptr(),
            windows.widths.len(),
            windows.coefficients.as_ptr(),
            windows.coefficients.len(),
            means.as_ptr(),
            means.len(),
            ivars.as_ptr(),
            ivars.len(),
            rows.as_mut_ptr(),
            rows.len(),
            right.as_mut_ptr(),
            right.len(),
        )
    };
    Refusal::or(refusal, ())
}

/// Global variance of a stream.
///
/// The numbers of the frames that count are scaled about their mean, so that their variance is the
/// target: the component's GV mean × weight. Five steps follow, of every voiced frame. In these the
/// GV variance multiplies the pull to the target; it is used as given, not inverted, so a larger one
/// holds the variance nearer to the target.
///
/// A voice's are small: in `cmu_us_slt_arctic_hts` a GV mean and variance of log F0 are 0.0080 and
/// 6.2e-6, those of the 45 mel-cepstral numbers 1.37 to 0.005 and 0.23 to 5e-7. They pull hardly at
/// all: the scaling decides.
///
/// ```
/// use hejmirov::{GlobalVariance, Refusal, Stream, Windows};
///
/// /// The variance of two states, means 1 and 3, variance 1, two frames each, drawn to 2.
/// fn drawn(vari: f64) -> Result<f64, Refusal> {
///     let stream = Stream {
///         v: 1,
///         windows: Windows { widths: &[1], coefficients: &[1.0] },
///         masked: false,
///         threshold: 0.0,
///         fill: 0.0,
///         gv: Some(GlobalVariance { weight: 1.0, pairs: &[2.0, vari], switches: &[true, true] }),
///     };
///     let numbers = stream.trajectory(&[1.0, 1.0, 3.0, 1.0], &[2, 2])?.numbers;
///     let mean = numbers.iter().sum::<f64>() / 4.0;
///     Ok(numbers.iter().map(|number| (number - mean).powi(2)).sum::<f64>() / 4.0)
/// }
///
/// assert!((drawn(1e-6)? - 2.249).abs() < 0.001);
/// assert!((drawn(1.0)? - 2.090).abs() < 0.001);
/// assert!((drawn(1e6)? - 2.000).abs() < 0.001);
/// # Ok::<(), Refusal>(())
/// ```
#[derive(Clone, Copy, Debug, PartialEq)]
pub struct GlobalVariance<'a> {
    /// The GV means are multiplied by it; 1 takes them as they are.
    pub weight: f64,
    /// One GV mean a component, then one GV variance a component: the component's numbers have a
    /// variance over an utterance, and these are its mean and its variance, as a voice gives them.
    pub pairs: &'a [f64],
    /// One a state: whether its frames count, of the voiced ones.
    pub switches: &'a [bool],
}

impl GlobalVariance<'_> {
    /// What a call is handed where it is off, and doesn't look at.
    pub(crate) const OFF: Self = GlobalVariance {
        weight: 0.0,
        pairs: &[],
        switches: &[],
    };
}

/// What a stream's trajectory is worked out with, but for its states.
///
/// ```
/// use hejmirov::{Stream, Windows};
///
/// let stream = Stream {
///     v: 1,
///     windows: Windows { widths: &[1, 3], coefficients: &[1.0, -0.5, 0.0, 0.5] },
///     masked: true,
///     threshold: 0.5,
///     fill: -1e10,
///     gv: None,
/// };
/// // A record: a mean a window, a variance a window, the voicing weight.
/// assert_eq!((stream.pairs_a_frame(), stream.record_len()), (2, 5));
/// let voiced = [3.0, 0.0, 1.0, 1.0, 0.9];
/// let unvoiced = [3.0, 0.0, 1.0, 1.0, 0.1];
/// let trajectory = stream.trajectory(&[voiced, unvoiced].concat(), &[2, 1])?;
/// assert_eq!(trajectory.numbers, [3.0, 3.0, -1e10]);
/// # Ok::<(), hejmirov::Refusal>(())
/// ```
#[derive(Clone, Copy, Debug, PartialEq)]
pub struct Stream<'a> {
    /// Numbers a frame, 1 to 64.
    pub v: u32,
    /// The windows; every one but the first counts nothing where it would reach past the ends of a
    /// run of voiced frames.
    pub windows: Windows<'a>,
    /// Whether each record ends with a voicing weight. Without one every frame is voiced, but where
    /// the threshold is NaN or at least the largest finite number.
    pub masked: bool,
    /// A state is voiced where its weight is greater.
    pub threshold: f64,
    /// Stands for every number of an unvoiced frame.
    pub fill: f64,
    /// Global variance, where it is on.
    pub gv: Option<GlobalVariance<'a>>,
}

impl Stream<'_> {
    /// Pairs of a voiced frame, each a mean and a variance: windows × v. All pairs of a stream, of
    /// which those that were [`Clamped`] are a share, are so many for each of its voiced frames.
    #[must_use]
    pub fn pairs_a_frame(&self) -> usize {
        self.windows.widths.len().saturating_mul(self.v as usize)
    }

    /// Numbers in a state's record: windows × v means, as many variances, and the weight of a masked
    /// stream. Component c of window w is number v × w + c.
    #[must_use]
    pub fn record_len(&self) -> usize {
        self.pairs_a_frame()
            .saturating_mul(2)
            .saturating_add(usize::from(self.masked))
    }

    /// The stream's numbers, frame after frame, and how many of its pairs were clamped.
    ///
    /// `records` holds one record a state, [`record_len`](Self::record_len) numbers each; `durations`
    /// one number of frames a state, 0 too.
    ///
    /// # Errors
    ///
    /// [`BadWindows`](Refusal::BadWindows): not 1 to 4 windows, or a width is not 1 to 15.
    /// [`BadCoefficient`](Refusal::BadCoefficient): a coefficient is infinite or NaN.
    /// [`BadSize`](Refusal::BadSize): more than 4,096 states, or `v` is not 1 to 64.
    /// [`ListsDisagree`](Refusal::ListsDisagree): the widths' sum is not the number of coefficients,
    /// the records are not one a state, or, with global variance, there are not 2 × v numbers of
    /// pairs and one switch a state. [`TooManyFrames`](Refusal::TooManyFrames): the durations total
    /// above 65,536.
    ///
    /// # Examples
    ///
    /// ```
    /// use hejmirov::{GlobalVariance, Stream, Windows};
    ///
    /// let plain = Stream {
    ///     v: 1,
    ///     windows: Windows { widths: &[1], coefficients: &[1.0] },
    ///     masked: false,
    ///     threshold: 0.0,
    ///     fill: 0.0,
    ///     gv: None,
    /// };
    /// let records = [1.0, 1.0, 3.0, 1.0];
    /// let trajectory = plain.trajectory(&records, &[2, 2])?;
    /// assert_eq!(trajectory.numbers, [1.0, 1.0, 3.0, 3.0]);
    /// assert_eq!((trajectory.clamped.high, trajectory.clamped.low), (0, 0));
    ///
    /// // The variance of 1, 1, 3, 3 is 1; a target of 4 draws the numbers apart.
    /// let switches = [true, true];
    /// let gv = Some(GlobalVariance { weight: 1.0, pairs: &[4.0, 0.0], switches: &switches });
    /// let drawn = Stream { gv, ..plain }.trajectory(&records, &[2, 2])?;
    /// assert!(drawn.numbers[0] < 1.0 && drawn.numbers[3] > 3.0);
    /// # Ok::<(), hejmirov::Refusal>(())
    /// ```
    pub fn trajectory(&self, records: &[f64], durations: &[u32]) -> Result<Trajectory, Refusal> {
        let frames = frames_at_most(durations);
        let mut numbers = vec![0.0; frames * (self.v as usize).min(MAX_V)];
        let mut work = vec![0.0; frames * WORK_FLOATS_A_FRAME];
        let mut marks = vec![0; frames * WORK_MARKS_A_FRAME];
        let clamped =
            self.trajectory_into(records, durations, &mut numbers, &mut work, &mut marks)?;
        Ok(Trajectory {
            v: self.v,
            numbers,
            clamped,
        })
    }

    /// [`trajectory`](Self::trajectory) in the caller's memory: frames × v numbers in `out`,
    /// component c of frame t at t × v + c. It answers how many pairs were clamped.
    ///
    /// `work` needs [`WORK_FLOATS_A_FRAME`] and `marks` [`WORK_MARKS_A_FRAME`] numbers a frame; so
    /// many of each are zero afterwards. What is beyond stays as it was.
    ///
    /// # Errors
    ///
    /// Those of [`trajectory`](Self::trajectory), and [`TooLittleRoom`](Refusal::TooLittleRoom). All
    /// three lists are then as they were.
    ///
    /// # Examples
    ///
    /// ```
    /// use hejmirov::{Clamped, Stream, WORK_FLOATS_A_FRAME, WORK_MARKS_A_FRAME, Windows};
    ///
    /// let windows = Windows { widths: &[1], coefficients: &[1.0] };
    /// let stream = Stream { v: 2, windows, masked: false, threshold: 0.0, fill: 0.0, gv: None };
    /// let mut out = [7.0; 5];
    /// let mut work = [7.0; 2 * WORK_FLOATS_A_FRAME];
    /// let mut marks = [7; 2 * WORK_MARKS_A_FRAME];
    /// // Means of 5 and 6; the second variance is 0, and is so in both frames.
    /// let record = [5.0, 6.0, 1.0, 0.0];
    /// let clamped = stream.trajectory_into(&record, &[2], &mut out, &mut work, &mut marks)?;
    /// assert_eq!(out, [5.0, 6.0, 5.0, 6.0, 7.0]);
    /// assert_eq!(clamped, Clamped { high: 0, low: 2 });
    /// # Ok::<(), hejmirov::Refusal>(())
    /// ```
    pub fn trajectory_into(
        &self,
        records: &[f64],
        durations: &[u32],
        out: &mut [f64],
        work: &mut [f64],
        marks: &mut [u32],
    ) -> Result<Clamped, Refusal> {
        let gv = self.gv.unwrap_or(GlobalVariance::OFF);
        let mut clamped = Clamped::default();
        // SAFETY: each pointer and length are those of one slice, and the written ones are borrowed
        // alone; a `bool` is a byte of 0 or 1; the last two pointers are to numbers of our own.
        let refusal = unsafe {
            sys::hejmirov_trajectory(
                self.v,
                u32::from(self.masked),
                self.threshold,
                self.fill,
                u32::from(self.gv.is_some()),
                gv.weight,
                self.windows.widths.as_ptr(),
                self.windows.widths.len(),
                self.windows.coefficients.as_ptr(),
                self.windows.coefficients.len(),
                records.as_ptr(),
                records.len(),
                durations.as_ptr(),
                durations.len(),
                gv.pairs.as_ptr(),
                gv.pairs.len(),
                gv.switches.as_ptr().cast(),
                gv.switches.len(),
                out.as_mut_ptr(),
                out.len(),
                work.as_mut_ptr(),
                work.len(),
                marks.as_mut_ptr(),
                marks.len(),
                &raw mut clamped.high,
                &raw mut clamped.low,
            )
        };
        Refusal::or(refusal, clamped)
    }
}

/// How many pairs of a stream's voiced frames were clamped, at most 16,777,216 together.
///
/// A voiced frame has [`pairs_a_frame`](Stream::pairs_a_frame) pairs: the means of its state's
/// record, each with its variance. Every variance is inverted: where its size is above 1e19 to 0, and
/// the pair is clamped high; where its size is below 1e-19 to 1e38, and the pair is clamped low; else,
/// at both bounds too, to 1 / variance. So -1e20 and the infinities are high, 0 and -0 low, and NaN
/// is neither.
///
/// A pair is counted once a voiced frame, before the inverse variances near the ends of a run of
/// voiced frames are set to 0: those of every window but the first, at frames from which it would
/// reach past the run. Other frames add nothing, nor do the variances of a [`GlobalVariance`], which
/// are not inverted.
///
/// # Examples
///
/// ```
/// use hejmirov::{Clamped, Stream, Windows};
///
/// let stream = Stream {
///     v: 1,
///     windows: Windows { widths: &[1, 3], coefficients: &[1.0, -0.5, 0.0, 0.5] },
///     masked: true,
///     threshold: 0.5,
///     fill: 0.0,
///     gv: None,
/// };
/// // A record: a mean a window, a variance a window, the voicing weight.
/// let records = [
///     [3.0, 0.0, 1.0, -1e20, 0.9],    // one of its two pairs is clamped high
///     [3.0, 0.0, 1e19, 1e-19, 0.9],   // none at the bounds themselves
///     [3.0, 0.0, f64::NAN, 1.0, 0.9], // none
///     [3.0, 0.0, 0.0, 1e-20, 0.9],    // both low
///     [3.0, 0.0, 0.0, f64::MAX, 0.1], // unvoiced
/// ];
/// let durations = [2, 3, 1, 4, 5];
/// let clamped = stream.trajectory(&records.concat(), &durations)?.clamped;
/// assert_eq!(clamped, Clamped { high: 2, low: 8 });
///
/// // Their shares of all pairs, in percent.
/// let mask = hejmirov::mask(&records.map(|record| record[4]), 0.5, &durations)?;
/// let voiced = mask.voiced.iter().filter(|&&voiced| voiced == 1).count();
/// let pairs = voiced * stream.pairs_a_frame();
/// let share = |count: u32| 100.0 * f64::from(count) / pairs as f64;
/// assert_eq!((pairs, share(clamped.high), share(clamped.low)), (20, 10.0, 40.0));
/// # Ok::<(), hejmirov::Refusal>(())
/// ```
#[derive(Clone, Copy, Debug, Default, PartialEq, Eq, Hash)]
pub struct Clamped {
    /// Pairs whose variance is above 1e19 in size: its inverse is 0.
    pub high: u32,
    /// Pairs whose variance is below 1e-19 in size: its inverse is 1e38.
    pub low: u32,
}

/// A stream's numbers, frame after frame.
#[derive(Clone, Debug, PartialEq)]
pub struct Trajectory {
    /// Numbers a frame.
    pub v: u32,
    /// Component c of frame t is number t × v + c.
    pub numbers: Vec<f64>,
    /// How many pairs were clamped.
    pub clamped: Clamped,
}

impl Trajectory {
    /// The frames in order, each of v numbers.
    pub fn frames(&self) -> std::slice::ChunksExact<'_, f64> {
        self.numbers.chunks_exact((self.v as usize).max(1))
    }

    /// The part that belongs to one state of those that it was made with.
    ///
    /// # Errors
    ///
    /// Those of [`excerpt`].
    ///
    /// # Examples
    ///
    /// ```
    /// use hejmirov::{Clamped, Trajectory};
    ///
    /// let numbers = vec![0.0, 0.1, 1.0, 1.1, 2.0, 2.1];
    /// let trajectory = Trajectory { v: 2, numbers, clamped: Clamped::default() };
    /// assert_eq!(trajectory.excerpt(&[1, 2], 0)?, [0.0, 0.1]);
    /// assert_eq!(trajectory.frames().nth(2), Some(&[2.0, 2.1][..]));
    /// # Ok::<(), hejmirov::Refusal>(())
    /// ```
    pub fn excerpt(&self, durations: &[u32], state: u32) -> Result<&[f64], Refusal> {
        excerpt(&self.numbers, durations, self.v, state)
    }
}

#[cfg(test)]
mod tests {
    //! What stands behind the pointers to the two counts, of which the safe call shows only what was
    //! written.

    use super::sys;

    /// What the call is asked, of a masked stream whose windows have a coefficient each.
    struct Asked {
        v: u32,
        coefficients: Vec<f64>,
        records: Vec<f64>,
        durations: Vec<u32>,
        rooms: [usize; 3], // of out, work and marks, in frames
    }

    /// A state of three frames, three of whose four variances are clamped.
    fn asked() -> Asked {
        Asked {
            v: 2,
            coefficients: vec![1.0, 1.0],
            records: vec![1.0, 2.0, 3.0, 4.0, 1e20, 0.0, -0.0, 1.0, 0.9],
            durations: vec![3],
            rooms: [3; 3],
        }
    }

    /// The call's number, and what it leaves behind both pointers, where 21 and 22 stood.
    fn counts(asked: &Asked) -> (u32, u32, u32) {
        let (mut high, mut low) = (21, 22);
        let widths = vec![1; asked.coefficients.len()];
        let [out, work, marks] = asked.rooms;
        let (mut out, mut work) = (vec![7.0; out * 2], vec![7.0; work * 48]);
        let mut marks = vec![7; marks * 4];
        // SAFETY: each pointer and length are those of one list, and the written ones are borrowed
        // alone; a list of none may come with a null pointer; the last two are to numbers of our own.
        let number = unsafe {
            sys::hejmirov_trajectory(
                asked.v,
                1,
                0.5,
                0.0,
                0,
                0.0,
                widths.as_ptr(),
                widths.len(),
                asked.coefficients.as_ptr(),
                asked.coefficients.len(),
                asked.records.as_ptr(),
                asked.records.len(),
                asked.durations.as_ptr(),
                asked.durations.len(),
                std::ptr::null(),
                0,
                std::ptr::null(),
                0,
                out.as_mut_ptr(),
                out.len(),
                work.as_mut_ptr(),
                work.len(),
                marks.as_mut_ptr(),
                marks.len(),
                &raw mut high,
                &raw mut low,
            )
        };
        (number, high, low)
    }

    #[test]
    fn both_counts_are_written_where_the_call_is_accepted() {
        assert_eq!(counts(&asked()), (0, 3, 6));
        let none = Asked {
            records: vec![1.0, 2.0, 3.0, 4.0, 1.0, 1.0, 1.0, 1.0, 0.9],
            ..asked()
        };
        assert_eq!(counts(&none), (0, 0, 0));
        let no_states = Asked {
            records: Vec::new(),
            durations: Vec::new(),
            rooms: [0; 3],
            ..asked()
        };
        assert_eq!(counts(&no_states), (0, 0, 0));
    }

    #[test]
    fn both_counts_stay_where_the_call_refuses() {
        let windows = Asked {
            coefficients: vec![1.0; 5],
            ..asked()
        };
        assert_eq!(counts(&windows), (1, 21, 22));
        let coefficient = Asked {
            coefficients: vec![1.0, f64::NAN],
            ..asked()
        };
        assert_eq!(counts(&coefficient), (2, 21, 22));
        for v in [0, 65] {
            assert_eq!(counts(&Asked { v, ..asked() }), (3, 21, 22));
        }
        let records = Asked {
            records: vec![0.0; 10],
            ..asked()
        };
        assert_eq!(counts(&records), (4, 21, 22));
        let durations = Asked {
            durations: vec![65_537],
            ..asked()
        };
        assert_eq!(counts(&durations), (5, 21, 22));
        for rooms in [[2, 3, 3], [3, 2, 3], [3, 3, 2], [0, 0, 0]] {
            assert_eq!(counts(&Asked { rooms, ..asked() }), (6, 21, 22));
        }
    }
}
