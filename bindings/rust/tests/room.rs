//! The forms that own their memory never lack room, whatever lengths and sizes they are given; and
//! what is asked of a value is answered, whatever its fields are.

use hejmirov::{Clamped, Fitted, Link, Refusal, Stream, Table, Trajectory, Windows};

/// Whole numbers from a seed: splitmix64.
struct Seed(u64);

impl Seed {
    fn below(&mut self, end: u64) -> u64 {
        self.0 = self.0.wrapping_add(0x9e37_79b9_7f4a_7c15);
        let z = (self.0 ^ (self.0 >> 30)).wrapping_mul(0xbf58_476d_1ce4_e5b9);
        let z = (z ^ (z >> 27)).wrapping_mul(0x94d0_49bb_1331_11eb);
        (z ^ (z >> 31)) % end
    }

    /// Mostly small, now and then at a limit or far beyond.
    fn size(&mut self) -> u32 {
        const EDGES: [u32; 8] = [0, 1, 15, 16, 64, 65_536, 65_537, u32::MAX];
        match self.below(8) {
            0 => EDGES[usize::try_from(self.below(8)).unwrap()],
            _ => u32::try_from(self.below(6)).unwrap(),
        }
    }

    fn sizes(&mut self) -> Vec<u32> {
        (0..self.below(6)).map(|_| self.size()).collect()
    }
}

fn has_room<T>(answer: Result<T, Refusal>) {
    assert_ne!(answer.err(), Some(Refusal::TooLittleRoom));
}

#[test]
fn durations() {
    let mut seed = Seed(1);
    let mut link = Link::new();
    for _ in 0..2_000 {
        let numbers = seed.sizes().into_iter().map(f64::from).collect::<Vec<_>>();
        let length = f64::from(seed.size());
        let given = seed.sizes();
        let as_many: Vec<u32> = numbers.iter().map(|_| seed.size()).collect();
        for shortest in [None, Some(&given[..]), Some(&as_many)] {
            has_room(hejmirov::fit(&numbers, &numbers, shortest, length));
            has_room(hejmirov::speed(&numbers, &numbers, shortest, length));
            has_room(hejmirov::align(&numbers, &numbers, shortest, 1, &numbers));
        }
        let mut job = b"SPJ".to_vec();
        job.extend(u16::try_from(seed.below(4)).unwrap().to_le_bytes());
        job.extend(u16::try_from(seed.below(5)).unwrap().to_le_bytes());
        let a_state = [16, 20][usize::try_from(seed.below(2)).unwrap()];
        job.resize(15 + a_state * usize::try_from(seed.below(5)).unwrap(), 1);
        has_room(hejmirov::job(&job));
        link.begin();
        has_room(link.part(&job));
        has_room(link.end());
    }
}

#[test]
fn frames() {
    let mut seed = Seed(2);
    let mut accepted = 0;
    for _ in 0..2_000 {
        let (widths, durations) = (seed.sizes(), seed.sizes());
        let coefficients = vec![
            1.0;
            widths
                .iter()
                .take(4)
                .map(|&width| width.min(20) as usize)
                .sum()
        ];
        let windows = Windows {
            widths: &widths,
            coefficients: &coefficients,
        };
        let numbers = vec![1.0; usize::try_from(seed.below(9)).unwrap() * widths.len()];
        has_room(hejmirov::band_rows(windows, &numbers, &numbers));
        has_room(hejmirov::mask(&vec![1.0; durations.len()], 0.5, &durations));

        let v = seed.size();
        let masked = seed.below(2) == 1;
        let stream = Stream {
            v,
            windows,
            masked,
            threshold: 0.5,
            fill: 0.0,
            gv: None,
        };
        let records = vec![1.0; stream.record_len().min(2_000) * durations.len()];
        let trajectory = stream.trajectory(&records, &durations);
        accepted += u32::from(trajectory.is_ok());
        has_room(trajectory);
        has_room(stream.runs(&records, &durations));
        for number in [0, 1, seed.size()] {
            has_room(stream.run(&records, &durations, number));
        }
    }
    assert!(accepted > 100, "{accepted} accepted");
}

#[test]
fn tables() {
    let mut seed = Seed(3);
    let mut table = Table::new();
    let mut accepted = 0;
    for _ in 0..2_000 {
        let sets: Vec<_> = (0..seed.below(6))
            .map(|_| (seed.sizes(), vec![1.0; seed.size().min(65) as usize]))
            .collect();
        let sets: Vec<Windows> = sets
            .iter()
            .map(|(widths, coefficients)| Windows {
                widths,
                coefficients,
            })
            .collect();
        has_room(table.start(&sets));
        for &set in &sets {
            let slot = seed.size().saturating_add(4);
            let mut house = table.house(seed.size());
            accepted += u32::from(house.set(slot, set).is_ok());
            has_room(house.set(slot, set));
            has_room(house.use_slot(slot));
            has_room(house.free());
            has_room(house.clear(slot));
        }
    }
    assert!(accepted > 20, "{accepted} accepted");
}

#[test]
fn values_of_any_fields() {
    let most = u64::from(u32::MAX);
    let fitted = Fitted {
        durations: vec![u32::MAX; 3],
        changes: u32::MAX,
    };
    assert_eq!(fitted.frames(), 3 * most);

    let windows = Windows {
        widths: &[u32::MAX; 5],
        coefficients: &[],
    };
    assert_eq!(windows.band_width() as u64, most);
    assert_eq!(Windows::default().band_width(), 1);
    let stream = Stream {
        v: u32::MAX,
        windows,
        masked: true,
        threshold: f64::NAN,
        fill: f64::NAN,
        gv: None,
    };
    assert_eq!(stream.pairs_a_frame() as u64, 5 * most);
    assert_eq!(stream.record_len() as u64, 10 * most + 1);
    assert_eq!(
        stream.trajectory(&[], &[u32::MAX]),
        Err(Refusal::BadWindows)
    );
    assert_eq!(stream.runs(&[], &[u32::MAX]), Err(Refusal::BadWindows));
    assert_eq!(
        stream.run(&[], &[u32::MAX], u32::MAX),
        Err(Refusal::BadWindows)
    );
    let mut table = Table::new();
    assert_eq!(table.start(&[windows; 4]), Err(Refusal::BadWindows));
    assert_eq!(table.start(&[windows; 5]), Err(Refusal::NotYourSlot));
    assert_eq!(table.house(0).set(4, windows), Err(Refusal::BadWindows));

    for v in [0, 1, 2, 65, u32::MAX] {
        let trajectory = Trajectory {
            v,
            numbers: vec![1.0; 3],
            clamped: Clamped::default(),
        };
        assert_eq!(trajectory.frames().count(), 3 / (v as usize).max(1));
        for state in [0, 3, u32::MAX] {
            assert_eq!(
                trajectory.excerpt(&[1, 1, 1], state).is_ok(),
                v == 1 && state == 0
            );
            assert!(trajectory.excerpt(&[u32::MAX; 2], state).is_err());
        }
    }
}
