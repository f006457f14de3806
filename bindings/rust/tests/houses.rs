//! A table of window sets that two houses share: refusals in their order with everything as it was,
//! tables of any content, and each house beside the other and alone. Random calls are held to a second
//! table, which is written here over plain lists.

use hejmirov::{
    MAX_WIDTH, MAX_WINDOWS, Refusal, SLOTS, Stream, TABLE_COEFFICIENTS, TABLE_WIDTHS, Table,
    Windows,
};

const A_SLOT: usize = MAX_WINDOWS * MAX_WIDTH;

const ONE: Windows = Windows {
    widths: &[1],
    coefficients: &[1.0],
};
const TWO: Windows = Windows {
    widths: &[1, 3],
    coefficients: &[1.0, -0.5, 0.0, 0.5],
};
const LARGEST: Windows = Windows {
    widths: &[15; MAX_WINDOWS],
    coefficients: &[0.25; A_SLOT],
};

const NOT_YOURS: Refusal = Refusal::NotYourSlot;

/// What is no window set, and why.
const NO_SETS: [(Windows, Refusal); 9] = [
    (no_set(&[], &[]), Refusal::BadWindows),
    (no_set(&[1; 5], &[1.0; 5]), Refusal::BadWindows),
    (no_set(&[16], &[1.0; 16]), Refusal::BadWindows),
    (no_set(&[1, 0], &[1.0]), Refusal::BadWindows),
    (no_set(&[0, 1], &[f64::NAN]), Refusal::BadWindows),
    (no_set(&[1, u32::MAX], &[1.0]), Refusal::BadWindows),
    (no_set(&[2], &[1.0, f64::INFINITY]), Refusal::BadCoefficient),
    (no_set(&[3], &[1.0, f64::NAN]), Refusal::BadCoefficient),
    (no_set(&[3], &[1.0; 2]), Refusal::ListsDisagree),
];

const fn no_set<'a>(widths: &'a [u32], coefficients: &'a [f64]) -> Windows<'a> {
    Windows {
        widths,
        coefficients,
    }
}

/// A table with one set in slot 0, two in slot 1, and both houses' first slots set.
fn started() -> Table {
    let mut table = Table::new();
    table.start(&[ONE, TWO]).unwrap();
    table.house(0).set(4, TWO).unwrap();
    table.house(1).set(8, LARGEST).unwrap();
    table
}

fn bits(coefficients: &[f64]) -> Vec<u64> {
    coefficients.iter().map(|number| number.to_bits()).collect()
}

#[test]
fn sizes() {
    assert_eq!(TABLE_WIDTHS, SLOTS * MAX_WINDOWS);
    assert_eq!(TABLE_COEFFICIENTS, SLOTS * A_SLOT);
}

#[test]
fn what_was_set_is_used() {
    let mut table = started();
    for (house, own) in [(0, 5..8), (1, 9..12)] {
        for slot in own {
            table.house(house).set(slot, LARGEST).unwrap();
            assert_eq!(table.house(house).use_slot(slot), Ok(LARGEST));
        }
        assert_eq!(table.house(house).free(), Ok(0));
        assert_eq!(table.house(house).use_slot(0), Ok(ONE));
        assert_eq!(table.house(house).use_slot(1), Ok(TWO));
        assert_eq!(
            table.house(house).use_slot(2),
            Err(Refusal::SlotEmpty) // common, and not started with
        );
    }
    assert_eq!(table.house(0).use_slot(4), Ok(TWO));
    // The set is the table's own memory.
    let place = table.coefficients()[4 * A_SLOT..].as_ptr();
    assert_eq!(
        table.house(0).use_slot(4).unwrap().coefficients.as_ptr(),
        place
    );
}

#[test]
fn a_cleared_slot_is_as_one_that_was_never_set() {
    let mut table = started();
    let before = table.clone();
    let mut house = table.house(0);
    house.set(7, LARGEST).unwrap();
    house.clear(7).unwrap();
    assert_eq!(table, before);
    let mut house = table.house(0);
    assert_eq!(house.clear(7), Err(Refusal::SlotEmpty));
    assert_eq!(house.use_slot(7), Err(Refusal::SlotEmpty));
    house.set(7, TWO).unwrap();
    assert_eq!(house.set(7, TWO), Err(Refusal::SlotSet));
    assert_eq!(house.use_slot(7), Ok(TWO));
    let mut once = before;
    once.house(0).set(7, TWO).unwrap();
    assert_eq!(table, once);
}

#[test]
fn slots_that_are_not_the_house_s() {
    let mut table = started();
    let before = table.clone();
    for (house, own) in [
        (0, 4..8),
        (1, 8..12),
        (2, 0..0),
        (3, 0..0),
        (u32::MAX, 0..0),
    ] {
        for slot in (0..14).chain([u32::MAX - 1, u32::MAX, 1 << 30, (1 << 30) + 4]) {
            if own.contains(&slot) {
                continue;
            }
            // Before all else that is wrong, and of a common slot, too.
            for (set, _) in NO_SETS {
                assert_eq!(table.house(house).set(slot, set), Err(NOT_YOURS));
            }
            assert_eq!(table.house(house).set(slot, ONE), Err(NOT_YOURS));
            assert_eq!(table.house(house).clear(slot), Err(NOT_YOURS));
            if house > 1 || slot > 3 {
                assert_eq!(table.house(house).use_slot(slot), Err(NOT_YOURS));
            }
        }
        let free = table.house(house).free();
        assert_eq!(free, if house > 1 { Err(NOT_YOURS) } else { Ok(3) });
        assert_eq!(table, before);
    }
}

#[test]
fn no_window_sets() {
    let mut table = started();
    let before = table.clone();
    for (set, refusal) in NO_SETS {
        assert_eq!(table.house(0).set(5, set), Err(refusal), "{set:?}");
        assert_eq!(
            table.house(0).set(4, set),
            Err(Refusal::SlotSet) // which comes first
        );
        for common in [vec![set], vec![ONE, set], vec![set, TWO, ONE, LARGEST]] {
            assert_eq!(table.start(&common), Err(refusal), "{set:?}");
        }
        assert_eq!(table.start(&[set; 5]), Err(NOT_YOURS));
        assert_eq!(table, before);
    }
}

#[test]
fn a_start_clears_both_houses() {
    let mut table = started();
    table.start(&[LARGEST, ONE, TWO, ONE]).unwrap();
    for house in [0, 1] {
        assert_eq!(table.house(house).free(), Ok(4));
        for (slot, set) in [(0, LARGEST), (1, ONE), (2, TWO), (3, ONE)] {
            assert_eq!(table.house(house).use_slot(slot), Ok(set));
        }
    }
    table.start(&[]).unwrap();
    assert_eq!(table, Table::default());
    assert_eq!(format!("{table:?}"), "{}");
    table.start(&[ONE]).unwrap();
    table.house(1).set(11, ONE).unwrap();
    let set = "Windows { widths: [1], coefficients: [1.0] }";
    assert_eq!(format!("{table:?}"), format!("{{0: {set}, 11: {set}}}"));
    assert_eq!(format!("{:?}", table.house(1)), "House { house: 1, .. }");
}

#[test]
fn one_set_of_a_start_does_not_make_up_for_another() {
    // Together they have as many coefficients as widths.
    let (more, fewer) = (no_set(&[1], &[1.0; 2]), no_set(&[3], &[1.0; 2]));
    let mut table = started();
    let before = table.clone();
    for common in [[more, fewer], [fewer, more]] {
        assert_eq!(table.start(&common), Err(Refusal::ListsDisagree));
    }
    // What comes before that still does.
    let infinite = no_set(&[1], &[f64::INFINITY]);
    assert_eq!(
        table.start(&[more, fewer, infinite]),
        Err(Refusal::BadCoefficient)
    );
    assert_eq!(
        table.start(&[more, fewer, infinite, no_set(&[], &[])]),
        Err(Refusal::BadWindows)
    );
    assert_eq!(table.start(&[more, fewer, ONE, ONE, ONE]), Err(NOT_YOURS));
    assert_eq!(table, before);
}

#[test]
fn rows_of_a_start() {
    let start = |widths: &[u32], coefficients: &[f64], common| {
        let (mut all, mut numbers) = (vec![7; TABLE_WIDTHS], vec![7.0; TABLE_COEFFICIENTS]);
        let answer = hejmirov::table_start(&mut all, &mut numbers, widths, coefficients, common);
        if answer.is_err() {
            assert!(all.iter().all(|&width| width == 7));
            assert_eq!(bits(&numbers), bits(&[7.0; TABLE_COEFFICIENTS]));
        }
        answer.map(|()| all[..16].to_vec())
    };
    let sets = [1.0, 1.0, -0.5, 0.0, 0.5];
    let rows = Ok(vec![1, 0, 0, 0, 1, 3, 0, 0, 0, 0, 0, 0, 0, 0, 0, 0]);
    assert_eq!(start(&[1, 0, 1, 3], &sets, 2), rows);
    assert_eq!(start(&[1, 0, 0, 1, 3, 0], &sets, 2), rows);
    assert_eq!(start(&[1, 0, 0, 0, 1, 3, 0, 0], &sets, 2), rows);
    assert_eq!(start(&[], &[], 0), Ok(vec![0; 16]));
    for (widths, coefficients, common, refusal) in [
        (&[1, 1, 1, 1, 1][..], &[1.0; 5][..], 5, NOT_YOURS),
        (&[], &[], u32::MAX, NOT_YOURS),
        (
            &[1, 0, 0, 0, 0, 1, 3, 0, 0, 0],
            &sets,
            2,
            Refusal::BadWindows,
        ),
        (&[1, 0, 0, 0, 0, 0], &[f64::NAN], 2, Refusal::BadWindows),
        (&[], &[], 1, Refusal::BadWindows),
        (&[0, 1, 1, 3], &sets, 2, Refusal::BadWindows),
        (&[1, 0, 3], &sets, 1, Refusal::BadWindows),
        (&[1, 0, 1, 16], &sets, 2, Refusal::BadWindows),
        (
            &[1, 0, 1, 3],
            &[1.0, 1.0, -0.5, 0.0, f64::NAN],
            2,
            Refusal::BadCoefficient,
        ),
        (&[1, 1, 3], &sets, 2, Refusal::ListsDisagree), // a remainder
        (&[1, 0, 1, 3], &sets[..4], 2, Refusal::ListsDisagree),
        (&[1, 0, 1, 3], &[1.0; 6], 2, Refusal::ListsDisagree),
        (&[1], &[], 0, Refusal::ListsDisagree),
        (&[], &[1.0], 0, Refusal::ListsDisagree),
    ] {
        let refused = start(widths, coefficients, common);
        assert_eq!(refused, Err(refusal), "{widths:?} {common}");
    }
}

#[test]
fn a_set_renders_as_it_does_by_itself() {
    let plain = Stream {
        v: 1,
        windows: TWO,
        masked: false,
        threshold: 0.0,
        fill: 0.0,
        gv: None,
    };
    let (records, durations) = ([4.0, 0.0, 1.0, 0.5, 5.0, 0.0, 1.0, 0.5], [3, 2]);
    let by_itself = plain.trajectory(&records, &durations);
    let mut table = started();
    for (house, slot) in [(0, 1), (1, 1), (0, 4)] {
        let house = table.house(house);
        let windows = house.use_slot(slot).unwrap();
        let stream = Stream { windows, ..plain };
        assert_eq!(stream.trajectory(&records, &durations), by_itself);
    }
}

#[test]
fn lists_that_are_too_short() {
    let short = Err(Refusal::TooLittleRoom);
    let table = started();
    for (n_widths, n_coefficients) in [
        (TABLE_WIDTHS - 1, TABLE_COEFFICIENTS),
        (TABLE_WIDTHS, TABLE_COEFFICIENTS - 1),
    ] {
        let mut widths = table.widths()[..n_widths].to_vec();
        let mut numbers = table.coefficients()[..n_coefficients].to_vec();
        let left = (widths.clone(), bits(&numbers));
        assert_eq!(
            hejmirov::table_start(&mut widths, &mut numbers, &[1], &[1.0], 1),
            short
        );
        assert_eq!(
            hejmirov::table_set(&mut widths, &mut numbers, 0, 5, ONE),
            short
        );
        assert_eq!(
            hejmirov::table_clear(&mut widths, &mut numbers, 0, 4),
            short
        );
        assert_eq!(
            hejmirov::table_use(&widths, &numbers, 0, 4),
            Err(Refusal::TooLittleRoom)
        );
        assert_eq!(
            hejmirov::table_free(&widths, &numbers, 0),
            Err(Refusal::TooLittleRoom)
        );
        // After all other refusals.
        for (set, refusal) in NO_SETS {
            assert_eq!(
                hejmirov::table_set(&mut widths, &mut numbers, 0, 5, set),
                Err(refusal)
            );
        }
        assert_eq!(
            hejmirov::table_set(&mut widths, &mut numbers, 0, 4, ONE),
            Err(Refusal::SlotSet)
        );
        assert_eq!(
            hejmirov::table_clear(&mut widths, &mut numbers, 1, 9),
            Err(Refusal::SlotEmpty)
        );
        assert_eq!(
            hejmirov::table_start(&mut widths, &mut numbers, &[1], &[], 1),
            Err(Refusal::ListsDisagree)
        );
        assert_eq!(hejmirov::table_free(&widths, &numbers, 2), Err(NOT_YOURS));
        assert_eq!((widths, bits(&numbers)), left);
    }
}

/// Whole numbers from a seed: splitmix64.
struct Seed(u64);

impl Seed {
    fn next(&mut self) -> u64 {
        self.0 = self.0.wrapping_add(0x9e37_79b9_7f4a_7c15);
        let z = (self.0 ^ (self.0 >> 30)).wrapping_mul(0xbf58_476d_1ce4_e5b9);
        let z = (z ^ (z >> 27)).wrapping_mul(0x94d0_49bb_1331_11eb);
        z ^ (z >> 31)
    }

    fn below(&mut self, end: u32) -> u32 {
        u32::try_from(self.next() % u64::from(end)).unwrap()
    }

    /// Of any bits, once in so many.
    fn coefficient(&mut self, odd: u32) -> f64 {
        match self.below(odd) {
            0 => f64::from_bits(self.next() | 0x7ff0_0000_0000_0000),
            1 => -0.0,
            _ => f64::from(self.below(100)) / 8.0,
        }
    }

    /// Mostly 1 to 15, once in so many around that or far beyond.
    fn width(&mut self, odd: u32) -> u32 {
        match self.below(odd) {
            0 => [0, 16, 1 << 31, u32::MAX][self.below(4) as usize],
            _ => 1 + self.below(15),
        }
    }

    /// Mostly a window set.
    fn windows(&mut self) -> (Vec<u32>, Vec<f64>) {
        let count = match self.below(16) {
            0 => 0,
            1 => 5,
            _ => 1 + self.below(4),
        };
        let widths: Vec<u32> = (0..count).map(|_| self.width(40)).collect();
        let sum: u32 = widths.iter().map(|&width| width.min(16)).sum();
        let length = sum + u32::from(self.below(16) == 0);
        let coefficients = (0..length).map(|_| self.coefficient(200)).collect();
        (widths, coefficients)
    }

    /// Lists of any content, in which about half of the slots hold a set.
    fn garbage(&mut self) -> ([u32; TABLE_WIDTHS], [f64; TABLE_COEFFICIENTS]) {
        let mut widths = [0; TABLE_WIDTHS];
        for slot in widths.chunks_exact_mut(MAX_WINDOWS) {
            let count = self.below(5) as usize;
            slot[..count].fill_with(|| self.width(12));
            if self.below(16) == 0 {
                slot.fill_with(|| u32::try_from(self.next() >> 32).unwrap());
            }
        }
        (widths, std::array::from_fn(|_| self.coefficient(100)))
    }

    fn call(&mut self) -> Call {
        let slot = match self.below(16) {
            0 => [12, 13, u32::MAX][self.below(3) as usize],
            _ => self.below(12),
        };
        match self.below(8) {
            0 => Call::Free,
            1 | 2 => Call::Use(slot),
            3 | 4 => Call::Clear(slot),
            _ => {
                let (widths, coefficients) = self.windows();
                Call::Set(slot, widths, coefficients)
            }
        }
    }
}

#[derive(Clone, Debug)]
enum Call {
    Set(u32, Vec<u32>, Vec<f64>),
    Clear(u32),
    Use(u32),
    Free,
}

#[derive(Debug, PartialEq)]
enum Answer {
    Done,
    Windows(Vec<u32>, Vec<u64>),
    Free(u32),
}

fn windows_of(set: Windows<'_>) -> Answer {
    Answer::Windows(set.widths.to_vec(), bits(set.coefficients))
}

/// A house's call on its side of a table.
fn ask(table: &mut Table, house: u32, call: &Call) -> Result<Answer, Refusal> {
    let mut house = table.house(house);
    match call {
        Call::Set(slot, widths, coefficients) => house
            .set(*slot, no_set(widths, coefficients))
            .map(|()| Answer::Done),
        Call::Clear(slot) => house.clear(*slot).map(|()| Answer::Done),
        Call::Use(slot) => house.use_slot(*slot).map(windows_of),
        Call::Free => house.free().map(Answer::Free),
    }
}

/// Two lists of any length, as the calls take them.
#[derive(Clone)]
struct Lists {
    widths: Vec<u32>,
    coefficients: Vec<f64>,
}

impl Lists {
    fn ask(&mut self, house: u32, call: &Call) -> Result<Answer, Refusal> {
        let (widths, coefficients) = (&mut self.widths, &mut self.coefficients);
        match call {
            Call::Set(slot, own, numbers) => {
                let set = no_set(own, numbers);
                hejmirov::table_set(widths, coefficients, house, *slot, set).map(|()| Answer::Done)
            }
            Call::Clear(slot) => {
                hejmirov::table_clear(widths, coefficients, house, *slot).map(|()| Answer::Done)
            }
            Call::Use(slot) => {
                hejmirov::table_use(widths, coefficients, house, *slot).map(windows_of)
            }
            Call::Free => hejmirov::table_free(widths, coefficients, house).map(Answer::Free),
        }
    }

    /// The same by the second table.
    fn answer(&mut self, house: u32, call: &Call) -> Result<Answer, Refusal> {
        match call {
            Call::Set(slot, widths, coefficients) => {
                owned(house, *slot)?;
                if self.held(*slot).is_some() {
                    return Err(Refusal::SlotSet);
                }
                taken(widths, coefficients)?;
                self.has_room()?;
                self.put(*slot, widths, coefficients);
                Ok(Answer::Done)
            }
            Call::Clear(slot) => {
                owned(house, *slot)?;
                self.held(*slot).ok_or(Refusal::SlotEmpty)?;
                self.has_room()?;
                self.put(*slot, &[], &[]);
                Ok(Answer::Done)
            }
            Call::Use(slot) => {
                if house > 1 || *slot > 3 {
                    owned(house, *slot)?;
                }
                let (widths, coefficients) = self.held(*slot).ok_or(Refusal::SlotEmpty)?;
                self.has_room()?;
                Ok(windows_of(no_set(&widths, &coefficients)))
            }
            Call::Free => {
                owned(house, 4 + 4 * house.min(2))?;
                self.has_room()?;
                let own = 4 + 4 * house..8 + 4 * house;
                let empty = own.filter(|&slot| self.held(slot).is_none()).count();
                Ok(Answer::Free(u32::try_from(empty).unwrap()))
            }
        }
    }

    /// The window set of a slot, by what is there of both lists.
    fn held(&self, slot: u32) -> Option<(Vec<u32>, Vec<f64>)> {
        let slot = slot as usize;
        let own =
            |from: usize, count: usize, length: usize| from.min(length)..(from + count).min(length);
        let four = &self.widths[own(slot * MAX_WINDOWS, MAX_WINDOWS, self.widths.len())];
        let sixty = &self.coefficients[own(slot * A_SLOT, A_SLOT, self.coefficients.len())];
        let last = four.iter().rposition(|&width| width != 0)?;
        let widths = &four[..=last];
        let sum: u64 = widths.iter().map(|&width| u64::from(width)).sum();
        let count = usize::try_from(sum).unwrap().min(sixty.len());
        taken(widths, &sixty[..count]).ok()?;
        Some((widths.to_vec(), sixty[..count].to_vec()))
    }

    fn has_room(&self) -> Result<(), Refusal> {
        if self.widths.len() < TABLE_WIDTHS || self.coefficients.len() < TABLE_COEFFICIENTS {
            return Err(Refusal::TooLittleRoom);
        }
        Ok(())
    }

    fn put(&mut self, slot: u32, widths: &[u32], coefficients: &[f64]) {
        let four = &mut self.widths[slot as usize * MAX_WINDOWS..][..MAX_WINDOWS];
        four.fill(0);
        four[..widths.len()].copy_from_slice(widths);
        let sixty = &mut self.coefficients[slot as usize * A_SLOT..][..A_SLOT];
        sixty.fill(0.0);
        sixty[..coefficients.len()].copy_from_slice(coefficients);
    }

    fn bits(&self) -> (Vec<u32>, Vec<u64>) {
        (self.widths.clone(), bits(&self.coefficients))
    }
}

fn owned(house: u32, slot: u32) -> Result<(), Refusal> {
    match (house, slot) {
        (0, 4..8) | (1, 8..12) => Ok(()),
        _ => Err(NOT_YOURS),
    }
}

fn taken(widths: &[u32], coefficients: &[f64]) -> Result<(), Refusal> {
    let fits = |width: &u32| (1..=15).contains(width);
    if !(1..=MAX_WINDOWS).contains(&widths.len()) || !widths.iter().all(fits) {
        return Err(Refusal::BadWindows);
    }
    if !coefficients.iter().all(|number| number.is_finite()) {
        return Err(Refusal::BadCoefficient);
    }
    if widths.iter().sum::<u32>() as usize != coefficients.len() {
        return Err(Refusal::ListsDisagree);
    }
    Ok(())
}

#[test]
fn random_calls_on_any_lists_as_a_second_table_answers_them() {
    let mut seed = Seed(11);
    let mut counts = [0; 26]; // by the refusal's number, 0 for an answer
    for table in 0..600 {
        let (widths, coefficients) = seed.garbage();
        let (mut widths, mut coefficients) = (widths.to_vec(), coefficients.to_vec());
        if table % 3 == 0 {
            // Shorter, at a slot's edge or not; or longer.
            widths.resize(seed.below(60) as usize, 1);
            coefficients.resize(seed.below(800) as usize, 1.0);
        }
        let mut lists = Lists {
            widths,
            coefficients,
        };
        let mut second = lists.clone();
        for _ in 0..60 {
            let house = match seed.below(16) {
                0 => [2, 3, u32::MAX][seed.below(3) as usize],
                _ => seed.below(2),
            };
            let call = seed.call();
            let answer = lists.ask(house, &call);
            assert_eq!(answer, second.answer(house, &call), "{house} {call:?}");
            assert_eq!(lists.bits(), second.bits(), "{house} {call:?}");
            let number = answer.map_or_else(Refusal::number, |_| 0);
            counts[number as usize] += 1;
        }
    }
    for number in [0, 1, 2, 4, 6, 23, 24, 25] {
        assert!(counts[number] > 100, "{number}: {counts:?}");
    }
}

/// The slots that a house sees, its own and the common ones, with all that stands there.
fn seen_by(table: &Table, house: usize) -> (Vec<u32>, Vec<u64>) {
    let own = 4 + 4 * house;
    let slots: Vec<usize> = (0..4).chain(own..own + 4).collect();
    let widths = slots
        .iter()
        .flat_map(|slot| &table.widths()[4 * slot..4 * slot + 4]);
    let coefficients = slots
        .iter()
        .flat_map(|slot| bits(&table.coefficients()[A_SLOT * slot..A_SLOT * (slot + 1)]));
    (widths.copied().collect(), coefficients.collect())
}

#[test]
fn a_house_is_answered_as_if_it_were_alone() {
    let mut seed = Seed(12);
    let (mut accepted, mut refused) = (0, 0);
    for _ in 0..400 {
        let (widths, coefficients) = seed.garbage();
        let mut shared = Table::from_lists(widths, coefficients);
        // Each house's own table: the slots of the other are any others.
        let mut alone = [0, 1].map(|house: usize| {
            let (mut other, mut numbers) = seed.garbage();
            for slot in (0..4).chain(4 + 4 * house..8 + 4 * house) {
                let four = 4 * slot..4 * (slot + 1);
                other[four.clone()].copy_from_slice(&widths[four]);
                let sixty = A_SLOT * slot..A_SLOT * (slot + 1);
                numbers[sixty.clone()].copy_from_slice(&coefficients[sixty]);
            }
            Table::from_lists(other, numbers)
        });
        for _ in 0..60 {
            let (house, call) = (seed.below(2), seed.call());
            let answer = ask(&mut shared, house, &call);
            let own = &mut alone[house as usize];
            assert_eq!(answer, ask(own, house, &call), "{house} {call:?}");
            *(if answer.is_ok() {
                &mut accepted
            } else {
                &mut refused
            }) += 1;
        }
        for (house, own) in alone.iter().enumerate() {
            assert_eq!(seen_by(&shared, house), seen_by(own, house));
        }
    }
    assert!(accepted > 4_000 && refused > 4_000, "{accepted} {refused}");
}

#[test]
fn what_lies_behind_longer_lists_is_not_looked_at() {
    let (mut widths, mut numbers) = (
        vec![1; TABLE_WIDTHS + 8],
        vec![1.0; TABLE_COEFFICIENTS + 120],
    );
    widths[..TABLE_WIDTHS].fill(0);
    numbers[..TABLE_COEFFICIENTS].fill(0.0);
    let behind = (widths.clone(), bits(&numbers));
    for (house, slot) in [(0, 12), (1, 12), (1, 13)] {
        let used = hejmirov::table_use(&widths, &numbers, house, slot);
        assert_eq!(used, Err(NOT_YOURS));
        let cleared = hejmirov::table_clear(&mut widths, &mut numbers, house, slot);
        assert_eq!(cleared, Err(NOT_YOURS));
    }
    for slot in 8..12 {
        hejmirov::table_set(&mut widths, &mut numbers, 1, slot, LARGEST).unwrap();
    }
    assert_eq!(hejmirov::table_free(&widths, &numbers, 1), Ok(0));
    for slot in 8..12 {
        hejmirov::table_clear(&mut widths, &mut numbers, 1, slot).unwrap();
    }
    assert_eq!((widths.clone(), bits(&numbers)), behind);
    hejmirov::table_start(&mut widths, &mut numbers, &[], &[], 0).unwrap();
    assert_eq!((widths, bits(&numbers)), behind);
}
