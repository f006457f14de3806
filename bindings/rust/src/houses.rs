//! A table of window sets that two houses share.

use std::fmt;
use std::iter::zip;

use crate::{MAX_WINDOWS, Refusal, SLOTS, TABLE_COEFFICIENTS, TABLE_WIDTHS, Windows, sys};

/// A table of window sets that two houses share, 0 and 1: its owner's side.
///
/// It has [`SLOTS`] slots. Slots 0 to 3 are common: both houses may use them, and they are set by
/// [`start`](Table::start) and never again. Slots 4 to 7 are house 0's own and 8 to 11 house 1's:
/// only that house may set, clear or use them. The owner keeps the table, and lends each house its
/// [`House`], which can do just that.
///
/// Whatever calls one house makes, and however they lie between the other's, what the other is
/// answered and refused, its free count, its own slots and the common ones are the same as if it had
/// been alone. Only [`start`](Table::start) is not covered by this, and a [`House`] doesn't have it.
///
/// The table owns its lists, so that they are never too short:
/// [`TooLittleRoom`](Refusal::TooLittleRoom) is never answered. Tables are equal where their lists
/// are, bit for bit. Two that hold the same may differ in their empty slots.
///
/// # Examples
///
/// ```
/// use hejmirov::{Refusal, Table, Windows};
///
/// let one = Windows { widths: &[1], coefficients: &[1.0] };
/// let two = Windows { widths: &[1, 3], coefficients: &[1.0, -0.5, 0.0, 0.5] };
/// let mut table = Table::new();
/// table.start(&[one])?;
///
/// table.house(0).set(4, two)?;
/// assert_eq!(table.house(0).use_slot(4), Ok(two));
/// assert_eq!(table.house(0).free(), Ok(3));
///
/// let mut other = table.house(1);
/// assert_eq!(other.use_slot(0), Ok(one)); // a common one
/// assert_eq!(other.use_slot(4), Err(Refusal::NotYourSlot));
/// assert_eq!(other.clear(4), Err(Refusal::NotYourSlot));
/// assert_eq!(other.free(), Ok(4));
/// # Ok::<(), Refusal>(())
/// ```
#[derive(Clone)]
pub struct Table {
    widths: Box<[u32; TABLE_WIDTHS]>,
    coefficients: Box<[f64; TABLE_COEFFICIENTS]>,
}

impl Table {
    /// A table in which every slot is empty, the common ones too.
    ///
    /// # Examples
    ///
    /// ```
    /// use hejmirov::{Refusal, Table};
    ///
    /// let mut table = Table::new();
    /// assert_eq!(table.house(0).free(), Ok(4));
    /// assert_eq!(table.house(0).use_slot(0), Err(Refusal::SlotEmpty));
    /// ```
    #[must_use]
    pub fn new() -> Self {
        Self::from_lists([0; TABLE_WIDTHS], [0.0; TABLE_COEFFICIENTS])
    }

    /// The table that two lists are, of any content: four widths and sixty coefficients for each
    /// slot.
    ///
    /// The widths of a slot are its four numbers without the zeros at their end, and its coefficients
    /// as many of its sixty as these widths sum to. A slot holds this window set, or is empty where a
    /// trajectory would refuse it.
    ///
    /// # Examples
    ///
    /// ```
    /// use hejmirov::{Refusal, TABLE_COEFFICIENTS, TABLE_WIDTHS, Table, Windows};
    ///
    /// // In every slot one window of three coefficients, but for a zero before a width in slot 5.
    /// let mut widths = [0; TABLE_WIDTHS];
    /// widths.iter_mut().step_by(4).for_each(|width| *width = 3);
    /// widths[4 * 5..4 * 6].copy_from_slice(&[0, 3, 0, 0]);
    /// let mut table = Table::from_lists(widths, [0.5; TABLE_COEFFICIENTS]);
    /// let set = Windows { widths: &[3], coefficients: &[0.5; 3] };
    /// assert_eq!(table.house(0).use_slot(4), Ok(set));
    /// assert_eq!(table.house(0).use_slot(5), Err(Refusal::SlotEmpty));
    /// ```
    #[must_use]
    pub fn from_lists(
        widths: [u32; TABLE_WIDTHS],
        coefficients: [f64; TABLE_COEFFICIENTS],
    ) -> Self {
        Table {
            widths: Box::new(widths),
            coefficients: Box::new(coefficients),
        }
    }

    /// The widths; slot s has the four from 4 × s on.
    ///
    /// # Examples
    ///
    /// ```
    /// use hejmirov::{Table, Windows};
    ///
    /// let mut table = Table::new();
    /// table.house(1).set(8, Windows { widths: &[1, 3], coefficients: &[1.0, -0.5, 0.0, 0.5] })?;
    /// assert_eq!(table.widths()[32..36], [1, 3, 0, 0]);
    /// # Ok::<(), hejmirov::Refusal>(())
    /// ```
    #[must_use]
    pub fn widths(&self) -> &[u32; TABLE_WIDTHS] {
        &self.widths
    }

    /// The coefficients; slot s has the sixty from 60 × s on.
    ///
    /// # Examples
    ///
    /// ```
    /// use hejmirov::{Table, Windows};
    ///
    /// let mut table = Table::new();
    /// table.house(1).set(8, Windows { widths: &[1, 3], coefficients: &[1.0, -0.5, 0.0, 0.5] })?;
    /// assert_eq!(table.coefficients()[480..485], [1.0, -0.5, 0.0, 0.5, 0.0]);
    /// # Ok::<(), hejmirov::Refusal>(())
    /// ```
    #[must_use]
    pub fn coefficients(&self) -> &[f64; TABLE_COEFFICIENTS] {
        &self.coefficients
    }

    /// Starts the table, whatever it holds: set i is in slot i then, and every other slot is empty,
    /// those of both houses too.
    ///
    /// # Errors
    ///
    /// [`NotYourSlot`](Refusal::NotYourSlot): more than four sets. Then those of a window set, each of
    /// any set: [`BadWindows`](Refusal::BadWindows): not 1 to 4 windows, or a width is not 1 to 15.
    /// [`BadCoefficient`](Refusal::BadCoefficient): a coefficient is infinite or NaN.
    /// [`ListsDisagree`](Refusal::ListsDisagree): the widths' sum is not the number of coefficients.
    /// The table is then as it was.
    ///
    /// # Examples
    ///
    /// ```
    /// use hejmirov::{Refusal, Table, Windows};
    ///
    /// let one = Windows { widths: &[1], coefficients: &[1.0] };
    /// let two = Windows { widths: &[1, 3], coefficients: &[1.0, -0.5, 0.0, 0.5] };
    /// let mut table = Table::new();
    /// table.house(0).set(4, one)?;
    /// table.start(&[one, two])?;
    /// assert_eq!(table.house(0).use_slot(1), Ok(two));
    /// assert_eq!(table.house(0).use_slot(4), Err(Refusal::SlotEmpty));
    ///
    /// assert_eq!(table.start(&[one; 5]), Err(Refusal::NotYourSlot));
    /// assert_eq!(table.house(0).use_slot(1), Ok(two)); // as it was
    /// # Ok::<(), Refusal>(())
    /// ```
    pub fn start(&mut self, common: &[Windows<'_>]) -> Result<(), Refusal> {
        let longest = common.iter().map(|set| set.widths.len()).max();
        // Five windows are refused, as any more are.
        let row = longest.unwrap_or(0).clamp(1, MAX_WINDOWS + 1);
        let mut widths = vec![0; row * common.len()];
        for (places, set) in zip(widths.chunks_exact_mut(row), common) {
            for (place, &width) in zip(places, set.widths) {
                // A width of 0 is out of range, and must not be taken for one that isn't there.
                *place = if width == 0 { u32::MAX } else { width };
            }
        }
        let numbers = common.iter().flat_map(|set| set.coefficients);
        let mut coefficients: Vec<f64> = numbers.copied().collect();
        // The call sees the sum of all: a set that has too many is not made up for by another.
        let wrong = |set: &Windows<'_>| width_sum(set) != set.coefficients.len() as u64;
        let total: u64 = common.iter().map(width_sum).sum();
        if coefficients.len() as u64 == total && common.iter().any(wrong) {
            coefficients.push(0.0);
        }
        table_start(
            &mut *self.widths,
            &mut *self.coefficients,
            &widths,
            &coefficients,
            u32::try_from(common.len()).unwrap_or(u32::MAX),
        )
    }

    /// A house's side of the table, 0 or 1. Of a house that doesn't exist every call is refused with
    /// [`NotYourSlot`](Refusal::NotYourSlot).
    ///
    /// # Examples
    ///
    /// ```
    /// use hejmirov::{Refusal, Table};
    ///
    /// let mut table = Table::new();
    /// assert_eq!(table.house(1).free(), Ok(4));
    /// assert_eq!(table.house(2).free(), Err(Refusal::NotYourSlot));
    /// ```
    pub fn house(&mut self, house: u32) -> House<'_> {
        House { table: self, house }
    }
}

/// What a set's widths sum to; with more than four it is refused before the sum counts.
fn width_sum(set: &Windows<'_>) -> u64 {
    let widths = set.widths.iter().take(MAX_WINDOWS);
    widths.map(|&width| u64::from(width)).sum()
}

impl Default for Table {
    fn default() -> Self {
        Self::new()
    }
}

impl PartialEq for Table {
    fn eq(&self, other: &Self) -> bool {
        let bits = |table: &Self| table.coefficients.map(f64::to_bits);
        self.widths == other.widths && bits(self) == bits(other)
    }
}

impl Eq for Table {}

impl fmt::Debug for Table {
    fn fmt(&self, f: &mut fmt::Formatter<'_>) -> fmt::Result {
        let set = |slot: usize| {
            let slot = u32::try_from(slot).ok()?;
            let house = u32::from(slot >= 8); // one that may use it
            let set = table_use(&*self.widths, &*self.coefficients, house, slot);
            Some((slot, set.ok()?))
        };
        f.debug_map().entries((0..SLOTS).filter_map(set)).finish()
    }
}

/// One house's side of a [`Table`]: its own four slots, and the common ones to be used.
///
/// It has no call that starts the table, or that tells what the other house has:
///
/// ```compile_fail,E0599
/// let mut table = hejmirov::Table::new();
/// table.house(0).start(&[]);
/// ```
pub struct House<'a> {
    table: &'a mut Table,
    house: u32,
}

impl House<'_> {
    /// Sets a slot of the house's own that is empty.
    ///
    /// # Errors
    ///
    /// [`NotYourSlot`](Refusal::NotYourSlot): the slot is not the house's own.
    /// [`SlotSet`](Refusal::SlotSet): it is set already. Then those of the window set:
    /// [`BadWindows`](Refusal::BadWindows), [`BadCoefficient`](Refusal::BadCoefficient),
    /// [`ListsDisagree`](Refusal::ListsDisagree). The table is then as it was.
    ///
    /// # Examples
    ///
    /// ```
    /// use hejmirov::{Refusal, Table, Windows};
    ///
    /// let one = Windows { widths: &[1], coefficients: &[1.0] };
    /// let mut table = Table::new();
    /// let mut house = table.house(0);
    /// house.set(4, one)?;
    /// assert_eq!(house.set(4, one), Err(Refusal::SlotSet));
    /// assert_eq!(house.set(8, one), Err(Refusal::NotYourSlot));
    /// assert_eq!(house.set(0, one), Err(Refusal::NotYourSlot)); // a common one
    /// assert_eq!(house.set(5, Windows::default()), Err(Refusal::BadWindows));
    /// # Ok::<(), Refusal>(())
    /// ```
    pub fn set(&mut self, slot: u32, windows: Windows<'_>) -> Result<(), Refusal> {
        let Table {
            widths,
            coefficients,
        } = &mut *self.table;
        table_set(
            &mut **widths,
            &mut **coefficients,
            self.house,
            slot,
            windows,
        )
    }

    /// Clears a slot of the house's own. It can be set again.
    ///
    /// # Errors
    ///
    /// [`NotYourSlot`](Refusal::NotYourSlot): the slot is not the house's own.
    /// [`SlotEmpty`](Refusal::SlotEmpty). The table is then as it was.
    ///
    /// # Examples
    ///
    /// ```
    /// use hejmirov::{Refusal, Table, Windows};
    ///
    /// let one = Windows { widths: &[1], coefficients: &[1.0] };
    /// let mut table = Table::new();
    /// let mut house = table.house(0);
    /// house.set(4, one)?;
    /// house.clear(4)?;
    /// assert_eq!(house.clear(4), Err(Refusal::SlotEmpty));
    /// house.set(4, one)?;
    /// # Ok::<(), Refusal>(())
    /// ```
    pub fn clear(&mut self, slot: u32) -> Result<(), Refusal> {
        let Table {
            widths,
            coefficients,
        } = &mut *self.table;
        table_clear(&mut **widths, &mut **coefficients, self.house, slot)
    }

    /// The window set of a slot, common or the house's own, as a [`Stream`](crate::Stream) takes it.
    /// It lies in the table, which can't be changed as long as the set is in use.
    ///
    /// # Errors
    ///
    /// [`NotYourSlot`](Refusal::NotYourSlot): the slot is neither common nor the house's own.
    /// [`SlotEmpty`](Refusal::SlotEmpty).
    ///
    /// # Examples
    ///
    /// ```
    /// use hejmirov::{Refusal, Stream, Table, Windows};
    ///
    /// let two = Windows { widths: &[1, 3], coefficients: &[1.0, -0.5, 0.0, 0.5] };
    /// let mut table = Table::new();
    /// let mut house = table.house(1);
    /// house.set(8, two)?;
    /// let windows = house.use_slot(8)?;
    /// let stream = Stream { v: 1, windows, masked: false, threshold: 0.0, fill: 0.0, gv: None };
    /// let records = [3.0, 0.0, 1.0, 1.0];
    /// assert_eq!(stream.trajectory(&records, &[2])?.numbers, [3.0, 3.0]);
    ///
    /// assert_eq!(house.use_slot(9), Err(Refusal::SlotEmpty));
    /// assert_eq!(house.use_slot(12), Err(Refusal::NotYourSlot));
    /// # Ok::<(), Refusal>(())
    /// ```
    pub fn use_slot(&self, slot: u32) -> Result<Windows<'_>, Refusal> {
        let (widths, coefficients) = (self.table.widths(), self.table.coefficients());
        table_use(widths, coefficients, self.house, slot)
    }

    /// How many of the house's own four slots are empty.
    ///
    /// # Errors
    ///
    /// [`NotYourSlot`](Refusal::NotYourSlot): there is no such house.
    ///
    /// # Examples
    ///
    /// ```
    /// use hejmirov::{Table, Windows};
    ///
    /// let mut table = Table::new();
    /// table.house(0).set(7, Windows { widths: &[1], coefficients: &[1.0] })?;
    /// assert_eq!((table.house(0).free()?, table.house(1).free()?), (3, 4));
    /// # Ok::<(), hejmirov::Refusal>(())
    /// ```
    pub fn free(&self) -> Result<u32, Refusal> {
        let (widths, coefficients) = (self.table.widths(), self.table.coefficients());
        table_free(widths, coefficients, self.house)
    }
}

/// What the other house has is not told.
impl fmt::Debug for House<'_> {
    fn fmt(&self, f: &mut fmt::Formatter<'_>) -> fmt::Result {
        f.debug_struct("House")
            .field("house", &self.house)
            .finish_non_exhaustive()
    }
}

/// [`Table::start`] in the caller's lists, of any content.
///
/// The lists have [`TABLE_WIDTHS`] widths and [`TABLE_COEFFICIENTS`] coefficients, or more; what lies
/// behind these is not looked at and not touched. [`Table::from_lists`] says what they mean; the
/// calls take any content.
///
/// `common` is how many sets there are. `common_widths` has a row for each set, all of one length,
/// zeros standing behind the last width of a set that has fewer; `common_coefficients` has the sets'
/// coefficients, set after set.
///
/// # Errors
///
/// [`NotYourSlot`](Refusal::NotYourSlot): more than four sets. [`BadWindows`](Refusal::BadWindows): a
/// row has more than four numbers, or without the zeros at its end no number, or one that is not 1 to
/// 15. [`BadCoefficient`](Refusal::BadCoefficient): a coefficient is infinite or NaN.
/// [`ListsDisagree`](Refusal::ListsDisagree): the widths are not rows of one length, or the
/// coefficients not as many as all widths sum to. [`TooLittleRoom`](Refusal::TooLittleRoom): one of
/// the table's lists is too short. Both are then as they were.
///
/// # Examples
///
/// ```
/// use hejmirov::{Refusal, TABLE_COEFFICIENTS, TABLE_WIDTHS};
///
/// let (mut widths, mut coefficients) = ([7; TABLE_WIDTHS + 1], [7.0; TABLE_COEFFICIENTS]);
/// // The sets (1) and (1), (-0.5, 0, 0.5).
/// let sets = ([1, 0, 1, 3], [1.0, 1.0, -0.5, 0.0, 0.5]);
/// hejmirov::table_start(&mut widths, &mut coefficients, &sets.0, &sets.1, 2)?;
/// assert_eq!(widths[..8], [1, 0, 0, 0, 1, 3, 0, 0]);
/// assert_eq!(widths[TABLE_WIDTHS - 1..], [0, 7]);
/// assert_eq!(coefficients[60..65], [1.0, -0.5, 0.0, 0.5, 0.0]);
///
/// let refused = hejmirov::table_start(&mut widths[2..], &mut coefficients, &[], &[], 0);
/// assert_eq!(refused, Err(Refusal::TooLittleRoom));
/// # Ok::<(), Refusal>(())
/// ```
pub fn table_start(
    widths: &mut [u32],
    coefficients: &mut [f64],
    common_widths: &[u32],
    common_coefficients: &[f64],
    common: u32,
) -> Result<(), Refusal> {
    // SAFETY: each pointer and length are those of one slice, and the written ones are borrowed alone.
    let refusal = unsafe {
        sys::hejmirov_table_start(
            widths.as_mut_ptr(),
            widths.len(),
            coefficients.as_mut_ptr(),
            coefficients.len(),
            common_widths.as_ptr(),
            common_widths.len(),
            common_coefficients.as_ptr(),
            common_coefficients.len(),
            common,
        )
    };
    Refusal::or(refusal, ())
}

/// [`House::set`] in the caller's lists.
///
/// # Errors
///
/// Those of [`House::set`], and then [`TooLittleRoom`](Refusal::TooLittleRoom): a list is too short.
/// Both are then as they were.
///
/// # Examples
///
/// ```
/// use hejmirov::{TABLE_COEFFICIENTS, TABLE_WIDTHS, Windows};
///
/// let (mut widths, mut coefficients) = ([0; TABLE_WIDTHS], [0.0; TABLE_COEFFICIENTS]);
/// let set = Windows { widths: &[2], coefficients: &[0.25, 0.75] };
/// hejmirov::table_set(&mut widths, &mut coefficients, 0, 4, set)?;
/// assert_eq!((widths[16], &coefficients[240..243]), (2, &[0.25, 0.75, 0.0][..]));
/// # Ok::<(), hejmirov::Refusal>(())
/// ```
pub fn table_set(
    widths: &mut [u32],
    coefficients: &mut [f64],
    house: u32,
    slot: u32,
    windows: Windows<'_>,
) -> Result<(), Refusal> {
    // SAFETY: each pointer and length are those of one slice, and the written ones are borrowed alone.
    let refusal = unsafe {
        sys::hejmirov_table_set(
            widths.as_mut_ptr(),
            widths.len(),
            coefficients.as_mut_ptr(),
            coefficients.len(),
            house,
            slot,
            windows.widths.as_ptr(),
            windows.widths.len(),
            windows.coefficients.as_ptr(),
            windows.coefficients.len(),
        )
    };
    Refusal::or(refusal, ())
}

/// [`House::clear`] in the caller's lists: the slot has zeros then.
///
/// # Errors
///
/// Those of [`House::clear`], and then [`TooLittleRoom`](Refusal::TooLittleRoom): a list is too
/// short. Both are then as they were. A slot that the lists end before is empty.
///
/// # Examples
///
/// ```
/// use hejmirov::{TABLE_COEFFICIENTS, TABLE_WIDTHS};
///
/// let (mut widths, mut coefficients) = ([2; TABLE_WIDTHS], [0.5; TABLE_COEFFICIENTS]);
/// hejmirov::table_clear(&mut widths, &mut coefficients, 0, 4)?;
/// assert_eq!(widths[15..21], [2, 0, 0, 0, 0, 2]);
/// assert_eq!((coefficients[239], coefficients[300]), (0.5, 0.5));
/// assert_eq!(coefficients[240..300], [0.0; 60]);
/// # Ok::<(), hejmirov::Refusal>(())
/// ```
pub fn table_clear(
    widths: &mut [u32],
    coefficients: &mut [f64],
    house: u32,
    slot: u32,
) -> Result<(), Refusal> {
    // SAFETY: each pointer and length are those of one slice, and each is borrowed alone.
    let refusal = unsafe {
        sys::hejmirov_table_clear(
            widths.as_mut_ptr(),
            widths.len(),
            coefficients.as_mut_ptr(),
            coefficients.len(),
            house,
            slot,
        )
    };
    Refusal::or(refusal, ())
}

/// [`House::use_slot`] in the caller's lists, which it only reads: both houses may use their slots at
/// once, and the set is a part of these lists.
///
/// # Errors
///
/// Those of [`House::use_slot`], and then [`TooLittleRoom`](Refusal::TooLittleRoom): a list is too
/// short. A slot that the lists end before is empty.
///
/// # Examples
///
/// ```
/// use hejmirov::{Refusal, TABLE_COEFFICIENTS, TABLE_WIDTHS, Windows};
///
/// let (widths, coefficients) = ([2; TABLE_WIDTHS], [0.5; TABLE_COEFFICIENTS]);
/// let first = hejmirov::table_use(&widths, &coefficients, 0, 4)?;
/// let second = hejmirov::table_use(&widths, &coefficients, 1, 8)?;
/// assert_eq!(first, Windows { widths: &[2; 4], coefficients: &[0.5; 8] });
/// assert_eq!(first, second);
/// let refused = hejmirov::table_use(&widths, &coefficients, 1, 4);
/// assert_eq!(refused, Err(Refusal::NotYourSlot));
/// # Ok::<(), Refusal>(())
/// ```
// On x86-64 an index has 64 bits, and so have these numbers.
#[allow(clippy::cast_possible_truncation)]
pub fn table_use<'a>(
    widths: &'a [u32],
    coefficients: &'a [f64],
    house: u32,
    slot: u32,
) -> Result<Windows<'a>, Refusal> {
    let (mut first, mut own, mut count) = (0, [0; MAX_WINDOWS], 0);
    // SAFETY: each pointer and length are those of one list; the written ones are of our own.
    let refusal = unsafe {
        sys::hejmirov_table_use(
            widths.as_ptr(),
            widths.len(),
            coefficients.as_ptr(),
            coefficients.len(),
            house,
            slot,
            &raw mut first,
            own.as_mut_ptr(),
            own.len(),
            &raw mut count,
        )
    };
    Refusal::or(refusal, ())?;
    let windows = own.iter().take_while(|&&width| width != 0).count();
    Ok(Windows {
        widths: &widths[MAX_WINDOWS * slot as usize..][..windows],
        coefficients: &coefficients[first as usize..][..count as usize],
    })
}

/// [`House::free`] in the caller's lists.
///
/// # Errors
///
/// That of [`House::free`], and then [`TooLittleRoom`](Refusal::TooLittleRoom): a list is too short.
///
/// # Examples
///
/// ```
/// use hejmirov::{TABLE_COEFFICIENTS, TABLE_WIDTHS};
///
/// // Four windows of two coefficients in each slot; one of house 1's is infinite, and its slot empty.
/// let (widths, mut coefficients) = ([2; TABLE_WIDTHS], [0.5; TABLE_COEFFICIENTS]);
/// coefficients[480] = f64::INFINITY;
/// assert_eq!(hejmirov::table_free(&widths, &coefficients, 0)?, 0);
/// assert_eq!(hejmirov::table_free(&widths, &coefficients, 1)?, 1);
/// # Ok::<(), hejmirov::Refusal>(())
/// ```
pub fn table_free(widths: &[u32], coefficients: &[f64], house: u32) -> Result<u32, Refusal> {
    let mut free = 0;
    // SAFETY: each pointer and length are those of one slice; the other is to a number of our own.
    let refusal = unsafe {
        sys::hejmirov_table_free(
            widths.as_ptr(),
            widths.len(),
            coefficients.as_ptr(),
            coefficients.len(),
            house,
            &raw mut free,
        )
    };
    Refusal::or(refusal, free)
}

#[cfg(test)]
mod tests {
    //! What only the C calls can be asked: how much room the widths of a slot in use have, and what
    //! stands behind the pointers after a refusal.

    use super::{MAX_WINDOWS, TABLE_COEFFICIENTS, TABLE_WIDTHS, Windows, sys, table_set};

    /// What a use leaves behind its pointers.
    #[derive(Clone, Copy, Debug, PartialEq)]
    struct Left {
        first: u64,
        widths: [u32; MAX_WINDOWS + 1],
        count: u64,
    }

    const UNTOUCHED: Left = Left {
        first: 21,
        widths: [22; MAX_WINDOWS + 1],
        count: 23,
    };

    /// A table of zeros but for slot 4, which holds two windows.
    fn table() -> (Vec<u32>, Vec<f64>) {
        let (mut widths, mut coefficients) = (vec![0; TABLE_WIDTHS], vec![0.0; TABLE_COEFFICIENTS]);
        let windows = Windows {
            widths: &[1, 3],
            coefficients: &[1.0, -0.5, 0.0, 0.5],
        };
        table_set(&mut widths, &mut coefficients, 0, 4, windows).unwrap();
        (widths, coefficients)
    }

    /// The number of a use of the first so many of the lists, and what it leaves.
    fn used(house: u32, slot: u32, lengths: [usize; 3]) -> (u32, Left) {
        let ((widths, coefficients), mut left) = (table(), UNTOUCHED);
        let [n_widths_table, n_coefficients_table, n_widths] = lengths;
        // SAFETY: the lists are at least so long, and each pointer is to memory that is borrowed alone.
        let number = unsafe {
            sys::hejmirov_table_use(
                widths.as_ptr(),
                n_widths_table,
                coefficients.as_ptr(),
                n_coefficients_table,
                house,
                slot,
                &raw mut left.first,
                left.widths.as_mut_ptr(),
                n_widths,
                &raw mut left.count,
            )
        };
        (number, left)
    }

    #[test]
    fn a_use_writes_four_widths_or_nothing() {
        let found = Left {
            first: 240,
            widths: [1, 3, 0, 0, 22],
            count: 4,
        };
        for room in [4, 5] {
            assert_eq!(used(0, 4, [48, 720, room]), (0, found));
        }
        for (house, slot, lengths, number) in [
            (0, 4, [48, 720, 3], 6),
            (0, 4, [48, 720, 0], 6),
            (0, 4, [47, 720, 4], 6),
            (0, 4, [48, 719, 4], 6),
            // What is there of a shorter table counts: widths and coefficients of slot 4, or not.
            (0, 4, [18, 244, 4], 6),
            (0, 4, [17, 244, 0], 6),
            (0, 4, [16, 244, 0], 24),
            (0, 4, [18, 243, 0], 24),
            (0, 4, [0, 0, 0], 24),
            (0, 5, [48, 720, 0], 24),
            (0, 3, [48, 720, 4], 24),
            (1, 4, [48, 720, 0], 23),
            (1, 12, [0, 0, 0], 23),
            (0, u32::MAX, [48, 720, 4], 23),
            (2, 0, [48, 720, 4], 23),
            (u32::MAX, 4, [48, 720, 4], 23),
        ] {
            assert_eq!(used(house, slot, lengths), (number, UNTOUCHED));
        }
    }

    #[test]
    fn a_free_count_stays_where_the_call_refuses() {
        let (widths, coefficients) = table();
        for (house, n_widths, n_coefficients, expected) in [
            (0, 48, 720, (0, 3)),
            (1, 48, 720, (0, 4)),
            (0, 47, 720, (6, 21)),
            (1, 48, 719, (6, 21)),
            (2, 48, 720, (23, 21)),
            (u32::MAX, 0, 0, (23, 21)),
        ] {
            let mut free = 21;
            // SAFETY: the lists are at least so long, and the pointer is to a number of our own.
            let number = unsafe {
                sys::hejmirov_table_free(
                    widths.as_ptr(),
                    n_widths,
                    coefficients.as_ptr(),
                    n_coefficients,
                    house,
                    &raw mut free,
                )
            };
            assert_eq!((number, free), expected);
        }
    }
}
