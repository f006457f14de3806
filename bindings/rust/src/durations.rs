//! States' durations.

use crate::{JOB_HEAD_BYTES, JOB_STATE_BYTES, MAX_JOB_STATES, MAX_STATES, Refusal, sys};

/// States' durations, and how they came to be.
#[derive(Clone, Debug, Default, PartialEq, Eq)]
pub struct Fitted {
    /// Frames a state, each at least the state's shortest.
    pub durations: Vec<u32>,
    /// How many frames were added or taken away, one at a time.
    pub changes: u32,
}

impl Fitted {
    /// The durations' total, at most 65,536 of what a call answered.
    #[must_use]
    pub fn frames(&self) -> u64 {
        self.durations
            .iter()
            .map(|&frames| u64::from(frames))
            .fold(0, u64::saturating_add)
    }
}

/// What an [`align_into`] wrote.
#[derive(Clone, Copy, Debug, PartialEq, Eq)]
pub struct Aligned {
    /// How many durations were written: one a state.
    pub written: u32,
    /// The fits' changes, summed.
    pub changes: u32,
}

/// What a [`job_into`] answered.
#[derive(Clone, Copy, Debug, PartialEq, Eq)]
pub struct Answered {
    /// The job's states.
    pub states: u32,
    /// The durations' total.
    pub frames: u32,
    /// How many frames were added or taken away, one at a time.
    pub changes: u32,
}

/// Room for so many states' durations, and as much work space.
fn room(states: usize) -> (Vec<u32>, Vec<u32>) {
    let states = states.min(MAX_STATES);
    (vec![0; states], vec![0; states])
}

/// What is lent where a caller has no shortest durations.
static ONES: [u32; MAX_STATES] = [1; MAX_STATES];

/// The shortest durations of so many states: those that are given, or ones. Of more than
/// [`MAX_STATES`] states, which are refused before these are looked at, there are fewer.
fn lent(shortest: Option<&[u32]>, states: usize) -> &[u32] {
    shortest.unwrap_or(&ONES[..states.min(MAX_STATES)])
}

/// States' durations, fitted to a length in frames.
///
/// `means` and `varis` are the mean and the variance of each state's duration, and `shortest` is the
/// fewest frames that each state may have, at least 1; with `None` that is 1 for every state. The
/// length is rounded, halves away from zero; NaN and what is below 1 count as 1. The durations'
/// total is that length, or the sum of the shortest where that is more: every state has its shortest
/// then.
///
/// # Errors
///
/// [`BadSize`](Refusal::BadSize): more than 4,096 states. [`ListsDisagree`](Refusal::ListsDisagree):
/// another number of variances, or of shortest. [`BadShortest`](Refusal::BadShortest): a shortest is
/// 0, or their sum is above 65,536. [`TargetTooLong`](Refusal::TargetTooLong): the rounded length is
/// above 65,536, and there is a state. [`EstimateTooLong`](Refusal::EstimateTooLong): the estimates
/// that the fit starts from total more.
///
/// # Examples
///
/// ```
/// let (means, varis) = ([2.0, 3.0], [1.0, 1.0]);
/// let fitted = hejmirov::fit(&means, &varis, None, 8.0)?;
/// assert_eq!(fitted.durations, [3, 5]);
/// assert_eq!(fitted.changes, 1);
/// assert_eq!(fitted.frames(), 8);
///
/// let kept = hejmirov::fit(&means, &varis, Some(&[4, 1]), 8.0)?;
/// assert_eq!(kept.durations, [4, 4]);
/// # Ok::<(), hejmirov::Refusal>(())
/// ```
pub fn fit(
    means: &[f64],
    varis: &[f64],
    shortest: Option<&[u32]>,
    frame_length: f64,
) -> Result<Fitted, Refusal> {
    let (mut durations, mut work) = room(means.len());
    let changes = fit_into(
        means,
        varis,
        shortest,
        frame_length,
        &mut durations,
        &mut work,
    )?;
    Ok(Fitted { durations, changes })
}

/// [`fit`] in the caller's memory; it answers the changes.
///
/// The durations go to the front of `out`, and as much of `work` is zero afterwards. What is beyond
/// stays as it was.
///
/// # Errors
///
/// Those of [`fit`], and [`TooLittleRoom`](Refusal::TooLittleRoom) where `out` or `work` has fewer
/// numbers than there are states. `out` is then as it was; so is `work`, but for zeros at its front
/// after `TargetTooLong` and `EstimateTooLong`.
///
/// # Examples
///
/// ```
/// let (mut out, mut work) = ([7; 3], [7; 3]);
/// let changes = hejmirov::fit_into(&[2.0, 3.0], &[1.0, 1.0], None, 8.0, &mut out, &mut work)?;
/// assert_eq!((changes, out, work), (1, [3, 5, 7], [0, 0, 7]));
/// # Ok::<(), hejmirov::Refusal>(())
/// ```
pub fn fit_into(
    means: &[f64],
    varis: &[f64],
    shortest: Option<&[u32]>,
    frame_length: f64,
    out: &mut [u32],
    work: &mut [u32],
) -> Result<u32, Refusal> {
    let shortest = lent(shortest, means.len());
    let mut changes = 0;
    // SAFETY: each pointer and length are those of one slice, and the written ones are borrowed alone.
    let refusal = unsafe {
        sys::hejmirov_fit(
            means.as_ptr(),
            means.len(),
            varis.as_ptr(),
            varis.len(),
            shortest.as_ptr(),
            shortest.len(),
            frame_length,
            out.as_mut_ptr(),
            out.len(),
            work.as_mut_ptr(),
            work.len(),
            &raw mut changes,
        )
    };
    Refusal::or(refusal, changes)
}

/// States' durations at a speed.
///
/// Speed 1 gives each state's estimate: its mean, rounded, halves away from zero, and at least its
/// shortest, which is 1 with `None`. Any other speed gives the [`fit`] to their total / speed. At
/// NaN, at the infinities, at -0 and below 0 every state gets its shortest.
///
/// # Errors
///
/// Those of [`fit`]; [`EstimateTooLong`](Refusal::EstimateTooLong) also where the estimates at speed
/// 1 total above 65,536. Speed 0 is [`TargetTooLong`](Refusal::TargetTooLong).
///
/// # Examples
///
/// ```
/// let slow = hejmirov::speed(&[2.0, 3.0], &[1.0, 1.0], None, 0.5)?;
/// assert_eq!((slow.durations, slow.changes), (vec![4, 6], 1));
///
/// // Of the second state, a plosive's, no fewer than 3 frames are heard.
/// let (means, varis) = ([6.0, 3.0], [4.0, 1.0]);
/// let clicks = hejmirov::speed(&means, &varis, None, 2.0)?;
/// let kept = hejmirov::speed(&means, &varis, Some(&[1, 3]), 2.0)?;
/// assert_eq!((clicks.durations, kept.durations), (vec![3, 2], vec![2, 3]));
/// # Ok::<(), hejmirov::Refusal>(())
/// ```
pub fn speed(
    means: &[f64],
    varis: &[f64],
    shortest: Option<&[u32]>,
    speed: f64,
) -> Result<Fitted, Refusal> {
    let (mut durations, mut work) = room(means.len());
    let changes = speed_into(means, varis, shortest, speed, &mut durations, &mut work)?;
    Ok(Fitted { durations, changes })
}

/// [`speed`] in the caller's memory, as [`fit_into`]; it answers the changes.
///
/// # Errors
///
/// Those of [`speed`], and [`TooLittleRoom`](Refusal::TooLittleRoom), with `out` and `work` as
/// [`fit_into`] leaves them.
///
/// # Examples
///
/// ```
/// let (mut out, mut work) = ([0; 2], [0; 2]);
/// let shortest = Some(&[1, 4][..]);
/// let changes = hejmirov::speed_into(&[2.0, 3.0], &[1.0, 1.0], shortest, 1.0, &mut out, &mut work)?;
/// assert_eq!((changes, out), (0, [2, 4]));
/// # Ok::<(), hejmirov::Refusal>(())
/// ```
pub fn speed_into(
    means: &[f64],
    varis: &[f64],
    shortest: Option<&[u32]>,
    speed: f64,
    out: &mut [u32],
    work: &mut [u32],
) -> Result<u32, Refusal> {
    let shortest = lent(shortest, means.len());
    let mut changes = 0;
    // SAFETY: each pointer and length are those of one slice, and the written ones are borrowed alone.
    let refusal = unsafe {
        sys::hejmirov_speed(
            means.as_ptr(),
            means.len(),
            varis.as_ptr(),
            varis.len(),
            shortest.as_ptr(),
            shortest.len(),
            speed,
            out.as_mut_ptr(),
            out.len(),
            work.as_mut_ptr(),
            work.len(),
            &raw mut changes,
        )
    };
    Refusal::or(refusal, changes)
}

/// States' durations, with labels closed at given ends.
///
/// A label has `nstate` states and one end: a time in frames from the utterance's start, or
/// [`OPEN_END`](crate::OPEN_END). A label with an end closes a group of all states since the last
/// given end, and the group is [`fit`]ted to its end less the frames so far. States after the last
/// given end, all of them where none is given, get their estimates, as at [`speed`] 1, and add no
/// changes. No state gets fewer frames than its shortest, which is 1 with `None`.
///
/// Rounding does not add up over labels. At a given end the durations up to it total the end, rounded
/// with halves up, or the total before its group and the sum of the group's shortest, whichever is
/// more.
///
/// # Errors
///
/// [`BadSize`](Refusal::BadSize): more than 4,096 states, or `nstate` is not 1 to 16.
/// [`ListsDisagree`](Refusal::ListsDisagree): the states are not labels × `nstate`, or there is
/// another number of variances, or of shortest. [`BadShortest`](Refusal::BadShortest): a shortest is
/// 0, or the sum of all is above 65,536. Those of [`fit`], group after group;
/// [`EstimateTooLong`](Refusal::EstimateTooLong) also where the frames so far are above 65,536 with a
/// group's own, or with the estimates after the last given end.
///
/// # Examples
///
/// ```
/// use hejmirov::OPEN_END;
///
/// let (means, varis) = ([2.0, 3.0], [1.0, 1.0]);
/// let both = hejmirov::align(&means, &varis, None, 1, &[OPEN_END, 8.0])?;
/// assert_eq!(both.durations, [3, 5]);
/// let tail = hejmirov::align(&means, &varis, None, 1, &[4.0, OPEN_END])?;
/// assert_eq!(tail.durations, [4, 3]);
/// let even = hejmirov::align(&means, &varis, None, 1, &[2.4, 4.8])?;
/// assert_eq!(even.durations, [2, 3]);
/// let kept = hejmirov::align(&means, &varis, Some(&[3, 1]), 1, &[2.4, 4.8])?;
/// assert_eq!(kept.durations, [3, 2]);
/// # Ok::<(), hejmirov::Refusal>(())
/// ```
pub fn align(
    means: &[f64],
    varis: &[f64],
    shortest: Option<&[u32]>,
    nstate: u32,
    ends: &[f64],
) -> Result<Fitted, Refusal> {
    let (mut durations, mut work) = room(means.len());
    let aligned = align_into(
        means,
        varis,
        shortest,
        nstate,
        ends,
        &mut durations,
        &mut work,
    )?;
    Ok(Fitted {
        durations,
        changes: aligned.changes,
    })
}

/// [`align`] in the caller's memory, as [`fit_into`].
///
/// # Errors
///
/// Those of [`align`], and [`TooLittleRoom`](Refusal::TooLittleRoom), with `out` and `work` as
/// [`fit_into`] leaves them.
///
/// # Examples
///
/// ```
/// use hejmirov::{Aligned, OPEN_END};
///
/// let (means, varis, ends) = ([2.0, 3.0], [1.0, 1.0], [4.0, OPEN_END]);
/// let (mut out, mut work) = ([7; 3], [7; 3]);
/// let aligned = hejmirov::align_into(&means, &varis, None, 1, &ends, &mut out, &mut work)?;
/// assert_eq!(aligned, Aligned { written: 2, changes: 0 });
/// assert_eq!((out, work), ([4, 3, 7], [0, 0, 7]));
/// # Ok::<(), hejmirov::Refusal>(())
/// ```
pub fn align_into(
    means: &[f64],
    varis: &[f64],
    shortest: Option<&[u32]>,
    nstate: u32,
    ends: &[f64],
    out: &mut [u32],
    work: &mut [u32],
) -> Result<Aligned, Refusal> {
    let shortest = lent(shortest, means.len());
    let (mut written, mut changes) = (0, 0);
    // SAFETY: each pointer and length are those of one slice, and the written ones are borrowed alone.
    let refusal = unsafe {
        sys::hejmirov_align(
            means.as_ptr(),
            means.len(),
            varis.as_ptr(),
            varis.len(),
            shortest.as_ptr(),
            shortest.len(),
            nstate,
            ends.as_ptr(),
            ends.len(),
            out.as_mut_ptr(),
            out.len(),
            work.as_mut_ptr(),
            work.len(),
            &raw mut written,
            &raw mut changes,
        )
    };
    Refusal::or(refusal, Aligned { written, changes })
}

/// The durations of a job file's states, at the job's speed.
///
/// The bytes are the whole file, little-endian: `SPJ`, version 1 or 2 (16 bits), the number of states
/// (16 bits, at most 1,024), the speed, then the states: a mean, a variance and, in version 2, the
/// state's shortest duration (32 bits). In version 1 every shortest is 1.
///
/// # Errors
///
/// [`JobDamaged`](Refusal::JobDamaged), before all others: the bytes depart from the format; it says
/// what is wrong, and at which byte. [`BadShortest`](Refusal::BadShortest), in version 2 alone,
/// [`TargetTooLong`](Refusal::TargetTooLong) and [`EstimateTooLong`](Refusal::EstimateTooLong) as
/// [`speed`].
///
/// # Examples
///
/// ```
/// use hejmirov::{Damage, Refusal};
///
/// let mut bytes = b"SPJ\x01\0\x02\0".to_vec();
/// for number in [0.5_f64, 2.0, 1.0, 3.0, 1.0] {
///     bytes.extend(number.to_le_bytes());
/// }
/// let fitted = hejmirov::job(&bytes)?;
/// assert_eq!((fitted.frames(), fitted.changes), (10, 1));
/// assert_eq!(fitted.durations, [4, 6]);
///
/// bytes.push(0);
/// let refused = hejmirov::job(&bytes);
/// assert_eq!(refused, Err(Refusal::JobDamaged { damage: Damage::Length, place: 47 }));
///
/// let mut bytes = b"SPJ\x02\0\x02\0".to_vec();
/// bytes.extend(0.5_f64.to_le_bytes());
/// for (mean, vari, shortest) in [(2.0_f64, 1.0_f64, 5_u32), (3.0, 1.0, 1)] {
///     bytes.extend(mean.to_le_bytes());
///     bytes.extend(vari.to_le_bytes());
///     bytes.extend(shortest.to_le_bytes());
/// }
/// assert_eq!(hejmirov::job(&bytes)?.durations, [7, 9]); // twice the natural 5 and 3
/// # Ok::<(), Refusal>(())
/// ```
pub fn job(bytes: &[u8]) -> Result<Fitted, Refusal> {
    // A job of more states, or of another length, is damaged, and that comes before room. In version
    // 2 a state has more bytes, so that there are fewer.
    let states = bytes.len().saturating_sub(JOB_HEAD_BYTES) / JOB_STATE_BYTES;
    let (mut durations, mut work) = room(states.min(MAX_JOB_STATES));
    let answered = job_into(bytes, &mut durations, &mut work)?;
    durations.truncate(answered.states as usize);
    Ok(Fitted {
        durations,
        changes: answered.changes,
    })
}

/// [`job`] in the caller's memory.
///
/// `out` and `work` need room for one number a state of the job, at most
/// [`MAX_JOB_STATES`](crate::MAX_JOB_STATES).
///
/// # Errors
///
/// Those of [`job`], and [`TooLittleRoom`](Refusal::TooLittleRoom), with `out` and `work` as
/// [`fit_into`] leaves them.
///
/// # Examples
///
/// ```
/// use hejmirov::{Answered, Damage, MAX_JOB_STATES, Refusal};
///
/// let bytes = std::fs::read("../../examples/worked.spj")?;
/// let (mut out, mut work) = ([0; MAX_JOB_STATES], [0; MAX_JOB_STATES]);
/// let answered = hejmirov::job_into(&bytes, &mut out, &mut work)?;
/// assert_eq!(answered, Answered { states: 2, frames: 10, changes: 1 });
/// assert_eq!(out[..answered.states as usize], [4, 6]);
///
/// let damaged = std::fs::read("../../examples/damaged.spj")?;
/// let refused = hejmirov::job_into(&damaged, &mut out, &mut work);
/// assert_eq!(refused, Err(Refusal::JobDamaged { damage: Damage::Mark, place: 2 }));
/// assert_eq!(out[..2], [4, 6]); // as it was
/// # Ok::<(), Box<dyn std::error::Error>>(())
/// ```
pub fn job_into(bytes: &[u8], out: &mut [u32], work: &mut [u32]) -> Result<Answered, Refusal> {
    let (mut states, mut frames, mut changes, mut place) = (0, 0, 0, 0);
    // SAFETY: each pointer and length are those of one slice, and the written ones are borrowed alone.
    let refusal = unsafe {
        sys::hejmirov_job(
            bytes.as_ptr(),
            bytes.len(),
            out.as_mut_ptr(),
            out.len(),
            work.as_mut_ptr(),
            work.len(),
            &raw mut states,
            &raw mut frames,
            &raw mut changes,
            &raw mut place,
        )
    };
    Refusal::or_at(
        refusal,
        place,
        Answered {
            states,
            frames,
            changes,
        },
    )
}
