//! Why a call refused.

use std::error::Error;
use std::fmt;

use crate::sys;

/// Why a call refused: the first of these that applies, in the order of their numbers
/// ([`JobDamaged`](Refusal::JobDamaged) before all others, and before that, over a link,
/// [`JobEnded`](Refusal::JobEnded) and a memory that is too short;
/// [`BadShortest`](Refusal::BadShortest) before the two that are too long, between which the work's
/// order decides; of a settings file a wrong mark is first, then the version, then the length, and
/// then a store that is full; of a table [`NotYourSlot`](Refusal::NotYourSlot) is first, then
/// [`SlotEmpty`](Refusal::SlotEmpty) or [`SlotSet`](Refusal::SlotSet)).
///
/// Every call's outputs are then as they were, and so are a store and a table.
///
/// # Examples
///
/// ```
/// use hejmirov::{Damage, Refusal};
///
/// let refusal = hejmirov::place(7, 40, 40).unwrap_err();
/// assert_eq!(refusal, Refusal::NoSuchPlace);
/// assert_eq!(refusal.number(), 10);
/// assert_eq!(refusal.to_string(), "refused 10: no such frame, component or state");
///
/// let refusal = hejmirov::job(b"SPK").unwrap_err();
/// assert_eq!(refusal, Refusal::JobDamaged { damage: Damage::Mark, place: 2 });
/// assert_eq!(refusal.to_string(), "refused 12 at byte 2: job file's mark is wrong");
/// ```
#[derive(Clone, Copy, Debug, PartialEq, Eq, Hash)]
#[non_exhaustive]
pub enum Refusal {
    /// 1: window count or a window's length out of range.
    BadWindows,
    /// 2: a coefficient is infinite or NaN.
    BadCoefficient,
    /// 3: states, states a label or v out of range; of a voice never here, as its number is a `u16`.
    BadSize,
    /// 4: list lengths disagree.
    ListsDisagree,
    /// 5: given durations total above 65,536.
    TooManyFrames,
    /// 6: output, work space, link's memory or store too short; only where the caller lends them.
    TooLittleRoom,
    /// 7: a rounded target length above 65,536.
    TargetTooLong,
    /// 8: an estimate's or an alignment's total above 65,536.
    EstimateTooLong,
    /// 9, 12, 13 or 14: job file damaged.
    JobDamaged {
        /// What is wrong with it.
        damage: Damage,
        /// The place of a byte, as [`Damage`] says, the job's first byte having the place 0.
        place: u64,
    },
    /// 10: no such frame, component or state.
    NoSuchPlace,
    /// 11: a part or an end of a job that has ended.
    JobEnded,
    /// 15: a shortest duration of 0, or their sum above 65,536.
    BadShortest,
    /// 16: settings file's version is neither 1 nor 2.
    SettingsVersion,
    /// 17: a store with no place for one more voice.
    StoreFull,
    /// 18: settings file's mark or length is wrong.
    SettingsMalformed,
    /// 19: a voice that the store doesn't hold.
    VoiceNotHeld,
    /// 20: one run alone, with global variance on.
    RunWithGv,
    /// 21: no run of that number.
    NoSuchRun,
    /// 22: one run alone, with a first window longer than one.
    RunFirstWindow,
    /// 23: not a slot of the house's, or no such slot or house.
    NotYourSlot,
    /// 24: a slot of a table that is empty.
    SlotEmpty,
    /// 25: a slot of a table that is set already.
    SlotSet,
    /// A number that these bindings don't know, of a newer library.
    Unknown(u32),
}

impl Refusal {
    /// The library's number of this refusal.
    #[must_use]
    pub fn number(self) -> u32 {
        match self {
            Refusal::BadWindows => 1,
            Refusal::BadCoefficient => 2,
            Refusal::BadSize => 3,
            Refusal::ListsDisagree => 4,
            Refusal::TooManyFrames => 5,
            Refusal::TooLittleRoom => 6,
            Refusal::TargetTooLong => 7,
            Refusal::EstimateTooLong => 8,
            Refusal::JobDamaged { damage, .. } => damage.number(),
            Refusal::NoSuchPlace => 10,
            Refusal::JobEnded => 11,
            Refusal::BadShortest => 15,
            Refusal::SettingsVersion => 16,
            Refusal::StoreFull => 17,
            Refusal::SettingsMalformed => 18,
            Refusal::VoiceNotHeld => 19,
            Refusal::RunWithGv => 20,
            Refusal::NoSuchRun => 21,
            Refusal::RunFirstWindow => 22,
            Refusal::NotYourSlot => 23,
            Refusal::SlotEmpty => 24,
            Refusal::SlotSet => 25,
            Refusal::Unknown(number) => number,
        }
    }

    /// The old number: 9 for 9, 12, 13 and 14, and every other [`number`](Refusal::number) as it is.
    ///
    /// It is for programs that know 9 alone, which was the number of every damage.
    ///
    /// # Examples
    ///
    /// ```
    /// let damaged = hejmirov::job(b"SPK").unwrap_err();
    /// assert_eq!((damaged.number(), damaged.old_number()), (12, 9));
    /// let absent = hejmirov::place(7, 40, 40).unwrap_err();
    /// assert_eq!((absent.number(), absent.old_number()), (10, 10));
    /// ```
    #[must_use]
    pub fn old_number(self) -> u32 {
        // SAFETY: it takes a number and answers one.
        unsafe { sys::hejmirov_job_old_number(self.number()) }
    }

    fn of(number: u32) -> Self {
        match number {
            1 => Refusal::BadWindows,
            2 => Refusal::BadCoefficient,
            3 => Refusal::BadSize,
            4 => Refusal::ListsDisagree,
            5 => Refusal::TooManyFrames,
            6 => Refusal::TooLittleRoom,
            7 => Refusal::TargetTooLong,
            8 => Refusal::EstimateTooLong,
            10 => Refusal::NoSuchPlace,
            11 => Refusal::JobEnded,
            15 => Refusal::BadShortest,
            16 => Refusal::SettingsVersion,
            17 => Refusal::StoreFull,
            18 => Refusal::SettingsMalformed,
            19 => Refusal::VoiceNotHeld,
            20 => Refusal::RunWithGv,
            21 => Refusal::NoSuchRun,
            22 => Refusal::RunFirstWindow,
            23 => Refusal::NotYourSlot,
            24 => Refusal::SlotEmpty,
            25 => Refusal::SlotSet,
            other => Refusal::Unknown(other),
        }
    }

    fn text(self) -> &'static str {
        match self {
            Refusal::BadWindows => "window count or a window's length out of range",
            Refusal::BadCoefficient => "a coefficient is infinite or NaN",
            Refusal::BadSize => "states, states a label, v or a voice out of range",
            Refusal::ListsDisagree => "list lengths disagree",
            Refusal::TooManyFrames => "given durations total above 65,536",
            Refusal::TooLittleRoom => "output, work space, link's memory or store too short",
            Refusal::TargetTooLong => "a rounded target length above 65,536",
            Refusal::EstimateTooLong => "an estimate's or an alignment's total above 65,536",
            Refusal::JobDamaged { damage, .. } => damage.text(),
            Refusal::NoSuchPlace => "no such frame, component or state",
            Refusal::JobEnded => "a part or an end of a job that has ended",
            Refusal::BadShortest => "a shortest duration of 0, or their sum above 65,536",
            Refusal::SettingsVersion => "settings file's version is neither 1 nor 2",
            Refusal::StoreFull => "a store with no place for one more voice",
            Refusal::SettingsMalformed => "settings file's mark or length is wrong",
            Refusal::VoiceNotHeld => "a voice that the store doesn't hold",
            Refusal::RunWithGv => "one run alone, with global variance on",
            Refusal::NoSuchRun => "no run of that number",
            Refusal::RunFirstWindow => "one run alone, with a first window longer than one",
            Refusal::NotYourSlot => "not a slot of the house's, or no such slot or house",
            Refusal::SlotEmpty => "a slot of a table that is empty",
            Refusal::SlotSet => "a slot of a table that is set already",
            Refusal::Unknown(_) => "a refusal that these bindings don't know",
        }
    }

    /// A call's answer: its values, where the number is 0.
    pub(crate) fn or<T>(number: u32, values: T) -> Result<T, Self> {
        match number {
            0 => Ok(values),
            _ => Err(Self::of(number)),
        }
    }

    /// A job's answer: its values, where the number is 0; where it is a damage's, that and the place.
    pub(crate) fn or_at<T>(number: u32, place: u64, values: T) -> Result<T, Self> {
        match Damage::of(number) {
            Some(damage) => Err(Refusal::JobDamaged { damage, place }),
            None => Self::or(number, values),
        }
    }
}

impl fmt::Display for Refusal {
    fn fmt(&self, f: &mut fmt::Formatter<'_>) -> fmt::Result {
        write!(f, "refused {}", self.number())?;
        if let Refusal::JobDamaged { place, .. } = self {
            write!(f, " at byte {place}")?;
        }
        write!(f, ": {}", self.text())
    }
}

impl Error for Refusal {}

/// What is wrong with a damaged job, and the place of which byte a refusal says.
///
/// The order is by place: each byte of the mark, the version, the number of states, and last the
/// length. A file that ends before a field's last byte is [`Length`](Damage::Length) at its end,
/// whatever it has of that field.
///
/// # Examples
///
/// ```
/// use hejmirov::{Damage, Refusal};
///
/// for (bytes, damage, place) in [
///     (&b"SX"[..], Damage::Mark, 1),
///     (b"SPJ\x03\0", Damage::Version, 3),
///     (b"SPJ\x01\0\x01\x04", Damage::Count, 5),
///     (b"S", Damage::Length, 1),
/// ] {
///     assert_eq!(hejmirov::job(bytes), Err(Refusal::JobDamaged { damage, place }));
/// }
/// ```
#[derive(Clone, Copy, Debug, PartialEq, Eq, Hash)]
#[non_exhaustive]
pub enum Damage {
    /// 12: the mark is wrong; the first wrong byte, at 0, 1 or 2.
    Mark,
    /// 13: the version is neither 1 nor 2; its first byte, at 3.
    Version,
    /// 14: there are more than 1,024 states; their number's first byte, at 5.
    Count,
    /// 9: the file ends short, at its length; or it goes on behind its last state, and the first
    /// byte too many is at 15 + 16 × states, in version 2 at 15 + 20 × states.
    Length,
}

impl Damage {
    fn number(self) -> u32 {
        match self {
            Damage::Mark => 12,
            Damage::Version => 13,
            Damage::Count => 14,
            Damage::Length => 9,
        }
    }

    fn of(number: u32) -> Option<Self> {
        match number {
            12 => Some(Damage::Mark),
            13 => Some(Damage::Version),
            14 => Some(Damage::Count),
            9 => Some(Damage::Length),
            _ => None,
        }
    }

    fn text(self) -> &'static str {
        match self {
            Damage::Mark => "job file's mark is wrong",
            Damage::Version => "job file's version is wrong",
            Damage::Count => "job file says too many states",
            Damage::Length => "job file too short or too long",
        }
    }
}

/// Why a call of words refused: one of those that begin with `words_`. They have numbers of their own,
/// 1 to 5, which say other things than a [`Refusal`]'s, and of those that apply the first is given in
/// the order 5, 1, 2, 3, 4. Every output is then as it was.
///
/// # Examples
///
/// ```
/// use hejmirov::WordsRefusal;
///
/// let refusal = hejmirov::words_at(&[1, 2], 1, &[4, 5, 6], 15).unwrap_err();
/// assert_eq!(refusal, WordsRefusal::NoSuchPlace);
/// assert_eq!(refusal.number(), 2);
/// assert_eq!(refusal.to_string(), "words: refused 2: no such frame or word");
/// ```
#[derive(Clone, Copy, Debug, PartialEq, Eq, Hash)]
#[non_exhaustive]
pub enum WordsRefusal {
    /// 5: durations, nstate, v or a trajectory out of range; it is looked for first.
    BadUtterance,
    /// 1: labels and durations disagree, or too many words.
    LabelsDisagree,
    /// 2: no such frame or word.
    NoSuchPlace,
    /// 3: timing file's mark, version, length or words are wrong.
    Malformed,
    /// 4: output shorter than the answer; only where the caller lends it.
    TooLittleRoom,
    /// A number that these bindings don't know, of a newer library.
    Unknown(u32),
}

impl WordsRefusal {
    /// The number of this refusal, among those of the calls of words.
    #[must_use]
    pub fn number(self) -> u32 {
        match self {
            WordsRefusal::BadUtterance => 5,
            WordsRefusal::LabelsDisagree => 1,
            WordsRefusal::NoSuchPlace => 2,
            WordsRefusal::Malformed => 3,
            WordsRefusal::TooLittleRoom => 4,
            WordsRefusal::Unknown(number) => number,
        }
    }

    fn of(number: u32) -> Self {
        match number {
            5 => WordsRefusal::BadUtterance,
            1 => WordsRefusal::LabelsDisagree,
            2 => WordsRefusal::NoSuchPlace,
            3 => WordsRefusal::Malformed,
            4 => WordsRefusal::TooLittleRoom,
            other => WordsRefusal::Unknown(other),
        }
    }

    fn text(self) -> &'static str {
        match self {
            WordsRefusal::BadUtterance => "durations, nstate, v or a trajectory out of range",
            WordsRefusal::LabelsDisagree => "labels and durations disagree, or too many words",
            WordsRefusal::NoSuchPlace => "no such frame or word",
            WordsRefusal::Malformed => "timing file's mark, version, length or words are wrong",
            WordsRefusal::TooLittleRoom => "output shorter than the answer",
            WordsRefusal::Unknown(_) => "a refusal that these bindings don't know",
        }
    }

    /// A call's answer: its values, where the number is 0.
    pub(crate) fn or<T>(number: u32, values: T) -> Result<T, Self> {
        match number {
            0 => Ok(values),
            _ => Err(Self::of(number)),
        }
    }
}

impl fmt::Display for WordsRefusal {
    fn fmt(&self, f: &mut fmt::Formatter<'_>) -> fmt::Result {
        // The number alone would be taken for one of the other calls'.
        write!(f, "words: refused {}: {}", self.number(), self.text())
    }
}

impl Error for WordsRefusal {}

#[cfg(test)]
mod tests {
    use super::{Damage, Refusal, WordsRefusal};

    #[test]
    fn every_number_of_words_comes_back() {
        for (number, refusal) in [
            (1, WordsRefusal::LabelsDisagree),
            (2, WordsRefusal::NoSuchPlace),
            (3, WordsRefusal::Malformed),
            (4, WordsRefusal::TooLittleRoom),
            (5, WordsRefusal::BadUtterance),
            (6, WordsRefusal::Unknown(6)),
            (u32::MAX, WordsRefusal::Unknown(u32::MAX)),
        ] {
            assert_eq!(WordsRefusal::or(number, ()), Err(refusal));
            assert_eq!(refusal.number(), number);
        }
        assert_eq!(WordsRefusal::or(0, "values"), Ok("values"));
    }

    #[test]
    fn every_number_comes_back() {
        for number in 1..=26 {
            assert_eq!(Refusal::of(number).number(), number);
            assert_eq!(Refusal::or_at(number, 5, ()).unwrap_err().number(), number);
        }
        assert_eq!(Refusal::or(0, "values"), Ok("values"));
        assert_eq!(Refusal::or(11, ()), Err(Refusal::JobEnded));
        for (number, refusal) in [
            (15, Refusal::BadShortest),
            (16, Refusal::SettingsVersion),
            (17, Refusal::StoreFull),
            (18, Refusal::SettingsMalformed),
            (19, Refusal::VoiceNotHeld),
            (20, Refusal::RunWithGv),
            (21, Refusal::NoSuchRun),
            (22, Refusal::RunFirstWindow),
            (23, Refusal::NotYourSlot),
            (24, Refusal::SlotEmpty),
            (25, Refusal::SlotSet),
            (26, Refusal::Unknown(26)),
        ] {
            assert_eq!(Refusal::or(number, ()), Err(refusal));
        }
    }

    #[test]
    fn damage_alone_has_a_place() {
        for (number, damage) in [
            (9, Damage::Length),
            (12, Damage::Mark),
            (13, Damage::Version),
            (14, Damage::Count),
        ] {
            let place = 7;
            let refused = Err(Refusal::JobDamaged { damage, place });
            assert_eq!(Refusal::or_at(number, place, ()), refused);
            assert_eq!(Refusal::or(number, ()), Err(Refusal::Unknown(number)));
        }
        for number in [6, 7, 8, 11, 15] {
            assert_eq!(Refusal::or_at(number, 7, ()), Refusal::or(number, ()));
        }
        assert_eq!(Refusal::or_at(0, 7, "values"), Ok("values"));
    }
}
