//! Jobs that come in parts.

use std::fmt;

use crate::{Answered, Fitted, LINK_BYTES, MAX_JOB_STATES, Refusal, sys};

/// A job that comes a few bytes at a time, over a serial link: begin, its parts in order, end.
///
/// However the job is cut, its end answers what [`job`](crate::job) answers on the joined bytes.
/// After an end, accepted or refused, only [`begin`](Link::begin) is taken, and the job that it
/// begins starts clean.
///
/// # Examples
///
/// ```
/// use hejmirov::{Link, Refusal};
///
/// let bytes = std::fs::read("../../examples/worked.spj")?;
/// let mut link = Link::new();
/// for part in bytes.chunks(5) {
///     link.part(part)?;
/// }
/// assert_eq!(link.end()?.durations, [4, 6]);
///
/// assert_eq!(link.part(&bytes), Err(Refusal::JobEnded));
/// link.begin();
/// link.part(&bytes)?;
/// assert_eq!(link.end()?.durations, [4, 6]);
/// # Ok::<(), Box<dyn std::error::Error>>(())
/// ```
#[derive(Clone)]
pub struct Link {
    memory: Box<[u8]>,
}

impl Link {
    /// A link over which a job is under way of which nothing has come.
    ///
    /// # Examples
    ///
    /// ```
    /// use hejmirov::{Damage, Link, Refusal};
    ///
    /// let refused = Link::new().end(); // no bytes are no job
    /// assert_eq!(refused, Err(Refusal::JobDamaged { damage: Damage::Length, place: 0 }));
    /// ```
    #[must_use]
    pub fn new() -> Self {
        let mut link = Link {
            memory: vec![0; LINK_BYTES].into_boxed_slice(),
        };
        link.begin();
        link
    }

    /// Begins a job, whatever job was under way.
    ///
    /// # Examples
    ///
    /// ```
    /// let mut link = hejmirov::Link::new();
    /// link.part(b"SPJ and then something else")?;
    /// link.begin();
    /// link.part(&std::fs::read("../../examples/worked.spj")?)?;
    /// assert_eq!(link.end()?.frames(), 10);
    /// # Ok::<(), Box<dyn std::error::Error>>(())
    /// ```
    pub fn begin(&mut self) {
        // Only a shorter memory is refused.
        let _ = link_begin(&mut self.memory);
    }

    /// Takes the next part of the job that is under way, of any length, 0 too, and cut anywhere.
    ///
    /// # Errors
    ///
    /// [`JobEnded`](Refusal::JobEnded): no job is under way; nothing changes.
    ///
    /// # Examples
    ///
    /// ```
    /// let mut link = hejmirov::Link::new();
    /// link.part(b"SP")?;
    /// link.part(b"")?;
    /// link.part(b"J\x01\0\0\0")?;
    /// link.part(&1.0_f64.to_le_bytes())?;
    /// assert_eq!(link.end()?.durations, []);
    /// # Ok::<(), hejmirov::Refusal>(())
    /// ```
    pub fn part(&mut self, bytes: &[u8]) -> Result<(), Refusal> {
        link_part(&mut self.memory, bytes)
    }

    /// Ends the job that is under way, and answers it.
    ///
    /// # Errors
    ///
    /// [`JobEnded`](Refusal::JobEnded): no job is under way; nothing changes. Else those of
    /// [`job`](crate::job), and the job has ended; a place counts from the job's first byte, over
    /// all parts.
    ///
    /// # Examples
    ///
    /// ```
    /// use hejmirov::{Damage, Link, Refusal};
    ///
    /// let mut link = Link::new();
    /// link.part(b"S")?;
    /// link.part(b"PK")?;
    /// assert_eq!(link.end(), Err(Refusal::JobDamaged { damage: Damage::Mark, place: 2 }));
    /// assert_eq!(link.end(), Err(Refusal::JobEnded));
    /// # Ok::<(), Refusal>(())
    /// ```
    pub fn end(&mut self) -> Result<Fitted, Refusal> {
        let (mut durations, mut work) = (vec![0; MAX_JOB_STATES], vec![0; MAX_JOB_STATES]);
        let answered = self.end_into(&mut durations, &mut work)?;
        durations.truncate(answered.states as usize);
        Ok(Fitted {
            durations,
            changes: answered.changes,
        })
    }

    /// [`end`](Link::end) in the caller's memory.
    ///
    /// # Errors
    ///
    /// Those of [`end`](Link::end), and [`TooLittleRoom`](Refusal::TooLittleRoom), with `out` and
    /// `work` as [`job_into`](crate::job_into) leaves them; the job has then ended, too.
    ///
    /// # Examples
    ///
    /// ```
    /// use hejmirov::{Answered, Link, MAX_JOB_STATES};
    ///
    /// let mut link = Link::new();
    /// link.part(&std::fs::read("../../examples/worked.spj")?)?;
    /// let (mut out, mut work) = ([0; MAX_JOB_STATES], [0; MAX_JOB_STATES]);
    /// let answered = link.end_into(&mut out, &mut work)?;
    /// assert_eq!(answered, Answered { states: 2, frames: 10, changes: 1 });
    /// assert_eq!(out[..answered.states as usize], [4, 6]);
    /// # Ok::<(), Box<dyn std::error::Error>>(())
    /// ```
    pub fn end_into(&mut self, out: &mut [u32], work: &mut [u32]) -> Result<Answered, Refusal> {
        link_end_into(&mut self.memory, out, work)
    }
}

impl Default for Link {
    fn default() -> Self {
        Self::new()
    }
}

impl fmt::Debug for Link {
    fn fmt(&self, f: &mut fmt::Formatter<'_>) -> fmt::Result {
        f.debug_struct("Link").finish_non_exhaustive()
    }
}

/// Begins a job in a link's memory, of any content, whatever job was under way.
///
/// The memory has [`LINK_BYTES`] bytes, or more. It may be kept anywhere, copied and moved; a link's
/// calls take any content, and memory of zeros, in which nothing was begun, has ended.
///
/// # Errors
///
/// [`TooLittleRoom`](Refusal::TooLittleRoom): the memory is shorter. It is then as it was.
///
/// # Examples
///
/// ```
/// use hejmirov::{LINK_BYTES, Refusal};
///
/// let mut memory = [7; LINK_BYTES];
/// hejmirov::link_begin(&mut memory)?;
/// assert_eq!(memory[..9], [1, 0, 0, 0, 0, 0, 0, 0, 7]);
/// assert_eq!(hejmirov::link_begin(&mut memory[1..]), Err(Refusal::TooLittleRoom));
/// # Ok::<(), Refusal>(())
/// ```
pub fn link_begin(link: &mut [u8]) -> Result<(), Refusal> {
    // SAFETY: pointer and length are those of one slice, which is borrowed alone.
    let refusal = unsafe { sys::hejmirov_link_begin(link.as_mut_ptr(), link.len()) };
    Refusal::or(refusal, ())
}

/// Takes the next part of the job that is under way in a link's memory, of any length, 0 too, and
/// cut anywhere.
///
/// # Errors
///
/// [`JobEnded`](Refusal::JobEnded), before all others: no job is under way.
/// [`TooLittleRoom`](Refusal::TooLittleRoom): the memory is too short. It is then as it was.
///
/// # Examples
///
/// ```
/// use hejmirov::{LINK_BYTES, Refusal};
///
/// let mut memory = [0; LINK_BYTES];
/// assert_eq!(hejmirov::link_part(&mut memory, b"SPJ"), Err(Refusal::JobEnded));
/// hejmirov::link_begin(&mut memory)?;
/// hejmirov::link_part(&mut memory, b"SPJ")?;
/// assert_eq!(memory[..12], *b"\x04\0\0\0\0\0\0\0SPJ\0");
/// # Ok::<(), Refusal>(())
/// ```
pub fn link_part(link: &mut [u8], bytes: &[u8]) -> Result<(), Refusal> {
    // SAFETY: each pointer and length are those of one slice, and the written one is borrowed alone.
    let refusal = unsafe {
        sys::hejmirov_link_part(link.as_mut_ptr(), link.len(), bytes.as_ptr(), bytes.len())
    };
    Refusal::or(refusal, ())
}

/// Ends the job that is under way in a link's memory, and answers it.
///
/// `out` and `work` need room for one number a state of the job, at most [`MAX_JOB_STATES`].
///
/// # Errors
///
/// [`JobEnded`](Refusal::JobEnded), before all others: no job is under way.
/// [`TooLittleRoom`](Refusal::TooLittleRoom): the memory is too short. It is then as it was. Else
/// those of [`job_into`](crate::job_into), with `out` and `work` as that leaves them, and the job
/// has ended; a place counts from the job's first byte, over all parts.
///
/// # Examples
///
/// ```
/// use hejmirov::{Damage, LINK_BYTES, Refusal};
///
/// let mut memory = [0; LINK_BYTES];
/// let (mut out, mut work) = ([7; 2], [7; 2]);
/// hejmirov::link_begin(&mut memory)?;
/// hejmirov::link_part(&mut memory, &std::fs::read("../../examples/worked.spj")?)?;
/// let answered = hejmirov::link_end_into(&mut memory, &mut out, &mut work)?;
/// assert_eq!((answered.frames, out, work), (10, [4, 6], [0, 0]));
/// let again = hejmirov::link_end_into(&mut memory, &mut out, &mut work);
/// assert_eq!(again, Err(Refusal::JobEnded));
///
/// hejmirov::link_begin(&mut memory)?;
/// hejmirov::link_part(&mut memory, b"SPJ\x03\0")?;
/// let refused = hejmirov::link_end_into(&mut memory, &mut out, &mut work);
/// assert_eq!(refused, Err(Refusal::JobDamaged { damage: Damage::Version, place: 3 }));
/// # Ok::<(), Box<dyn std::error::Error>>(())
/// ```
pub fn link_end_into(
    link: &mut [u8],
    out: &mut [u32],
    work: &mut [u32],
) -> Result<Answered, Refusal> {
    let (mut states, mut frames, mut changes, mut place) = (0, 0, 0, 0);
    // SAFETY: each pointer and length are those of one slice, and each is borrowed alone.
    let refusal = unsafe {
        sys::hejmirov_link_end(
            link.as_mut_ptr(),
            link.len(),
            out.as_mut_ptr(),
            out.len(),
            work.as_mut_ptr(),
            work.len(),
            &raw mut states,
            &raw mut frames,
            &raw mut changes,
            &raw mut place,
        )
    };
    Refusal::or_at(
        refusal,
        place,
        Answered {
            states,
            frames,
            changes,
        },
    )
}
