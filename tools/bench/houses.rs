//! The calls of a table of window sets, beside a plain Rust of the same rules over the same lists: of the smallest set and
//! of the largest.

use std::hint::black_box;

use crate::words::timed;

unsafe extern "C" {
    fn hejmirov_table_start(
        widths_table: *mut u32, n_widths_table: usize, coefficients_table: *mut f64, n_coefficients_table: usize,
        common_widths: *const u32, n_common_widths: usize, common_coefficients: *const f64, n_common_coefficients: usize,
        common: u32,
    ) -> u32;
    fn hejmirov_table_set(
        widths_table: *mut u32, n_widths_table: usize, coefficients_table: *mut f64, n_coefficients_table: usize,
        house: u32, slot: u32, widths: *const u32, n_widths: usize, coefficients: *const f64, n_coefficients: usize,
    ) -> u32;
    fn hejmirov_table_clear(
        widths_table: *mut u32, n_widths_table: usize, coefficients_table: *mut f64, n_coefficients_table: usize,
        house: u32, slot: u32,
    ) -> u32;
    fn hejmirov_table_use(
        widths_table: *const u32, n_widths_table: usize, coefficients_table: *const f64, n_coefficients_table: usize,
        house: u32, slot: u32, first: *mut u64, widths: *mut u32, n_widths: usize, count: *mut u64,
    ) -> u32;
    fn hejmirov_table_free(
        widths_table: *const u32, n_widths_table: usize, coefficients_table: *const f64, n_coefficients_table: usize,
        house: u32, free: *mut u32,
    ) -> u32;
}

const SLOTS: usize = 12;
const FOUR: usize = 4;
const SIXTY: usize = 60;

/// A window set, and common sets in rows of four.
#[derive(Clone)]
struct Sets {
    widths: Vec<u32>,
    coefficients: Vec<f64>,
}

impl Sets {
    /// So many sets of so many windows of one length, with zeros behind the widths where there are several.
    fn new(sets: usize, windows: usize, width: usize) -> Self {
        let mut row = vec![width as u32; windows];
        if sets > 1 {
            row.resize(FOUR, 0);
        }
        let count = sets * windows * width;
        Self { widths: row.repeat(sets), coefficients: (0..count).map(|i| i as f64 / 8.0).collect() }
    }
}

fn is_set(widths: &[u32], coefficients: &[f64]) -> bool {
    (1..=FOUR).contains(&widths.len())
        && widths.iter().all(|width| (1..=15).contains(width))
        && coefficients.iter().all(|number| number.is_finite())
        && widths.iter().sum::<u32>() as usize == coefficients.len()
}

fn without_zeros(widths: &[u32]) -> &[u32] {
    &widths[..widths.iter().rposition(|&width| width != 0).map_or(0, |last| last + 1)]
}

fn is_own(house: u32, slot: u32) -> bool {
    house < 2 && (4 + 4 * house..8 + 4 * house).contains(&slot)
}

#[derive(Clone, Debug, PartialEq)]
struct Table {
    widths: Vec<u32>,
    coefficients: Vec<f64>,
}

impl Table {
    fn new() -> Self {
        Self { widths: vec![0; FOUR * SLOTS], coefficients: vec![0.0; SIXTY * SLOTS] }
    }

    fn held(&self, slot: usize) -> Option<(&[u32], &[f64])> {
        let widths = without_zeros(&self.widths[FOUR * slot..][..FOUR]);
        let sum: u64 = widths.iter().map(|&width| u64::from(width)).sum();
        let coefficients = &self.coefficients[SIXTY * slot..][..SIXTY.min(sum as usize)];
        is_set(widths, coefficients).then_some((widths, coefficients))
    }

    fn put(&mut self, slot: usize, widths: &[u32], coefficients: &[f64]) {
        let (front, back) = self.widths[FOUR * slot..][..FOUR].split_at_mut(widths.len());
        front.copy_from_slice(widths);
        back.fill(0);
        let (front, back) = self.coefficients[SIXTY * slot..][..SIXTY].split_at_mut(coefficients.len());
        front.copy_from_slice(coefficients);
        back.fill(0.0);
    }

    fn start(&mut self, common: &Sets, sets: usize) -> bool {
        let row = common.widths.len() / sets.max(1);
        let mut rows = (0..sets).map(|set| without_zeros(&common.widths[set * row..][..row]));
        let fits = |widths: &[u32]| !widths.is_empty() && widths.iter().all(|width| (1..=15).contains(width));
        let sum = |widths: &[u32]| widths.iter().sum::<u32>() as usize;
        if sets > FOUR
            || row > FOUR
            || !rows.clone().all(fits)
            || !common.coefficients.iter().all(|number| number.is_finite())
            || row * sets != common.widths.len()
            || rows.clone().map(sum).sum::<usize>() != common.coefficients.len()
        {
            return false;
        }
        let mut rest = &common.coefficients[..];
        for slot in 0..SLOTS {
            let widths = rows.next().unwrap_or_default();
            let (own, behind) = rest.split_at(sum(widths));
            self.put(slot, widths, own);
            rest = behind;
        }
        true
    }

    fn set(&mut self, house: u32, slot: u32, set: &Sets) -> bool {
        let taken = is_own(house, slot) && self.held(slot as usize).is_none() && is_set(&set.widths, &set.coefficients);
        if taken {
            self.put(slot as usize, &set.widths, &set.coefficients);
        }
        taken
    }

    fn clear(&mut self, house: u32, slot: u32) -> bool {
        let taken = is_own(house, slot) && self.held(slot as usize).is_some();
        if taken {
            self.put(slot as usize, &[], &[]);
        }
        taken
    }

    fn used(&self, house: u32, slot: u32) -> Option<(usize, [u32; FOUR], usize)> {
        if house > 1 || (slot >= 4 && !is_own(house, slot)) {
            return None;
        }
        let (widths, coefficients) = self.held(slot as usize)?;
        let mut four = [0; FOUR];
        four[..widths.len()].copy_from_slice(widths);
        Some((SIXTY * slot as usize, four, coefficients.len()))
    }

    fn free(&self, house: usize) -> usize {
        (4 + 4 * house..8 + 4 * house).filter(|&slot| self.held(slot).is_none()).count()
    }

    // Every list comes with its own length and outlives the call; so do the numbers.

    fn our_start(&mut self, common: &Sets, sets: usize) {
        let refusal = unsafe {
            hejmirov_table_start(
                self.widths.as_mut_ptr(), self.widths.len(), self.coefficients.as_mut_ptr(), self.coefficients.len(),
                common.widths.as_ptr(), common.widths.len(), common.coefficients.as_ptr(), common.coefficients.len(),
                sets as u32,
            )
        };
        assert_eq!(refusal, 0);
    }

    fn our_set(&mut self, house: u32, slot: u32, set: &Sets) {
        let refusal = unsafe {
            hejmirov_table_set(
                self.widths.as_mut_ptr(), self.widths.len(), self.coefficients.as_mut_ptr(), self.coefficients.len(),
                house, slot, set.widths.as_ptr(), set.widths.len(), set.coefficients.as_ptr(), set.coefficients.len(),
            )
        };
        assert_eq!(refusal, 0);
    }

    fn our_clear(&mut self, house: u32, slot: u32) {
        let refusal = unsafe {
            hejmirov_table_clear(
                self.widths.as_mut_ptr(), self.widths.len(), self.coefficients.as_mut_ptr(), self.coefficients.len(), house, slot,
            )
        };
        assert_eq!(refusal, 0);
    }

    fn our_use(&self, house: u32, slot: u32) -> (usize, [u32; FOUR], usize) {
        let (mut first, mut widths, mut count) = (0, [0; FOUR], 0);
        let refusal = unsafe {
            hejmirov_table_use(
                self.widths.as_ptr(), self.widths.len(), self.coefficients.as_ptr(), self.coefficients.len(),
                house, slot, &mut first, widths.as_mut_ptr(), FOUR, &mut count,
            )
        };
        assert_eq!(refusal, 0);
        (first as usize, widths, count as usize)
    }

    fn our_free(&self, house: u32) -> usize {
        let mut free = 0;
        let refusal = unsafe {
            hejmirov_table_free(
                self.widths.as_ptr(), self.widths.len(), self.coefficients.as_ptr(), self.coefficients.len(), house, &mut free,
            )
        };
        assert_eq!(refusal, 0);
        free as usize
    }
}

fn compare_starts(sets: usize, windows: usize, width: usize, what: &str) {
    let common = Sets::new(sets, windows, width);
    let (mut plain, mut ours) = (Table::new(), Table::new());
    assert!(plain.start(&common, sets));
    ours.our_start(&common, sets);
    assert_eq!(plain, ours);
    timed(
        what,
        100,
        || assert!(plain.start(black_box(&common), sets)),
        || ours.our_start(black_box(&common), sets),
    );
}

fn compare_slots(windows: usize, width: usize, what: &str) {
    let set = Sets::new(1, windows, width);
    let (mut plain, mut ours) = (Table::new(), Table::new());
    timed(
        &format!("set {what}, and clear it"),
        100,
        || assert!(plain.set(0, 4, black_box(&set)) && plain.clear(0, black_box(4))),
        || {
            ours.our_set(0, 4, black_box(&set));
            ours.our_clear(0, black_box(4));
        },
    );
    assert_eq!(plain, ours);
    for slot in 4..8 {
        assert!(plain.set(0, slot, &set));
        ours.our_set(0, slot, &set);
    }
    assert_eq!(plain, ours);
    assert_eq!(plain.used(0, 7), Some(ours.our_use(0, 7)));
    timed(
        &format!("use {what}"),
        100,
        || assert!(black_box(&plain).used(0, black_box(7)).is_some()),
        || assert!(black_box(&ours).our_use(0, black_box(7)).2 > 0),
    );
    assert_eq!((plain.free(0), ours.our_free(0)), (0, 0));
    timed(
        &format!("free of four slots of {what}"),
        100,
        || assert_eq!(black_box(&plain).free(black_box(0)), 0),
        || assert_eq!(black_box(&ours).our_free(black_box(0)), 0),
    );
}

pub fn run() {
    compare_starts(0, 0, 0, "start with no set");
    compare_starts(4, 3, 3, "start with 4 sets of 3 windows of 3");
    compare_starts(4, 4, 15, "start with 4 sets of 4 windows of 15");
    compare_slots(1, 1, "1 window of 1");
    compare_slots(3, 3, "3 windows of 3");
    compare_slots(4, 15, "4 windows of 15");
}
