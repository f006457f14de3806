//! Places in the spool, and parts of trajectories.

use std::ops::Range;

use crate::{Refusal, sys};

/// The byte place of one number in the spool, a file of frames of `v` numbers each:
/// (frame × v + component) × 8.
///
/// # Errors
///
/// [`BadSize`](Refusal::BadSize): `v` is not 1 to 64. [`NoSuchPlace`](Refusal::NoSuchPlace): the
/// component is not below `v`.
///
/// # Examples
///
/// ```
/// assert_eq!(hejmirov::place(13_421_772, 32, 40)?, 4_294_967_296);
/// assert_eq!(hejmirov::place(13_421_773, 0, 40)?, 4_294_967_360);
/// # Ok::<(), hejmirov::Refusal>(())
/// ```
pub fn place(frame: u32, component: u32, v: u32) -> Result<u64, Refusal> {
    let mut place = 0;
    // SAFETY: the pointer is to a number of our own.
    let refusal = unsafe { sys::hejmirov_place(frame, component, v, &raw mut place) };
    Refusal::or(refusal, place)
}

/// The part of a trajectory that belongs to one state: `durations[state]` × `v` numbers, none for a
/// state of no frames.
///
/// # Errors
///
/// [`BadSize`](Refusal::BadSize): more than 4,096 durations, or `v` is not 1 to 64.
/// [`ListsDisagree`](Refusal::ListsDisagree): the trajectory's length is not the durations' total ×
/// `v`. [`TooManyFrames`](Refusal::TooManyFrames): that total is above 65,536.
/// [`NoSuchPlace`](Refusal::NoSuchPlace): there is no such state.
///
/// # Examples
///
/// ```
/// let trajectory = [0.0, 0.1, 1.0, 1.1, 2.0, 2.1];
/// let durations = [1, 2];
/// assert_eq!(hejmirov::excerpt(&trajectory, &durations, 2, 1)?, [1.0, 1.1, 2.0, 2.1]);
/// # Ok::<(), hejmirov::Refusal>(())
/// ```
pub fn excerpt<'a>(
    trajectory: &'a [f64],
    durations: &[u32],
    v: u32,
    state: u32,
) -> Result<&'a [f64], Refusal> {
    Ok(&trajectory[excerpt_range(trajectory, durations, v, state)?])
}

/// Where that part stands in the trajectory, counted in numbers; a state of no frames has the empty
/// range where it would start.
///
/// # Errors
///
/// Those of [`excerpt`].
///
/// # Examples
///
/// ```
/// let trajectory = [0.0; 6];
/// assert_eq!(hejmirov::excerpt_range(&trajectory, &[1, 2], 2, 1)?, 2..6);
/// assert_eq!(hejmirov::excerpt_range(&trajectory, &[3, 0], 2, 1)?, 6..6);
/// # Ok::<(), hejmirov::Refusal>(())
/// ```
// On x86-64 an index has 64 bits, and so have these two.
#[allow(clippy::cast_possible_truncation)]
pub fn excerpt_range(
    trajectory: &[f64],
    durations: &[u32],
    v: u32,
    state: u32,
) -> Result<Range<usize>, Refusal> {
    let (mut first, mut count) = (0, 0);
    // SAFETY: each pointer and length are those of one slice; the others are to numbers of our own.
    let refusal = unsafe {
        sys::hejmirov_excerpt(
            trajectory.as_ptr(),
            trajectory.len(),
            durations.as_ptr(),
            durations.len(),
            v,
            state,
            &raw mut first,
            &raw mut count,
        )
    };
    Refusal::or(refusal, first as usize..(first + count) as usize)
}
