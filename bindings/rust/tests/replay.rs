//! The repository's stored answers of the Rust original, through the safe calls.
//!
//! The file's format is in `tools/README.md`, 'Stored answers': a section for each kind, and a case is
//! four lists, little-endian, each its count in 32 bits and its items. A section ends with one case for
//! each value in which that value is wrong.

use std::fs;
use std::path::Path;
use std::vec::IntoIter;

use hejmirov::{Clamped, Fitted, GlobalVariance, Link, Stream, Windows};

/// The bytes that are left of the file.
struct File {
    bytes: IntoIter<u8>,
}

impl File {
    fn open() -> Self {
        let file = Path::new(env!("CARGO_MANIFEST_DIR")).join("../../crates/replay_rust/stdin");
        let bytes = fs::read(&file).unwrap_or_else(|error| panic!("{}: {error}", file.display()));
        File {
            bytes: bytes.into_iter(),
        }
    }

    fn take<const N: usize>(&mut self) -> [u8; N] {
        std::array::from_fn(|_| self.bytes.next().unwrap())
    }

    fn u32(&mut self) -> u32 {
        u32::from_le_bytes(self.take())
    }

    fn list<const N: usize, T>(&mut self, item: impl Fn([u8; N]) -> T) -> IntoIter<T> {
        let items: Vec<T> = (0..self.u32()).map(|_| item(self.take())).collect();
        items.into_iter()
    }

    /// The cases of the section that comes next, and its kind's number.
    fn section(&mut self) -> (u8, Vec<Stored>) {
        let [kind] = self.take();
        let cases = (0..self.u32()).map(|_| Stored {
            head: self.list(u32::from_le_bytes),
            numbers: self.list(u32::from_le_bytes),
            floats: self.list(f64::from_le_bytes),
            bytes: self.list(|[byte]| byte),
        });
        (kind, cases.collect())
    }
}

/// What is left of a case.
struct Stored {
    head: IntoIter<u32>,
    numbers: IntoIter<u32>,
    floats: IntoIter<f64>,
    bytes: IntoIter<u8>,
}

impl Stored {
    fn u32(&mut self) -> u32 {
        self.head.next().unwrap()
    }

    fn count(&mut self) -> usize {
        self.u32() as usize
    }

    fn f64(&mut self) -> f64 {
        self.floats.next().unwrap()
    }

    fn u32s(&mut self) -> Vec<u32> {
        let count = self.count();
        self.numbers.by_ref().take(count).collect()
    }

    fn f64s(&mut self) -> Vec<f64> {
        let count = self.count();
        self.floats.by_ref().take(count).collect()
    }

    fn u8s(&mut self) -> Vec<u8> {
        let count = self.count();
        self.bytes.by_ref().take(count).collect()
    }

    fn left(&self) -> usize {
        self.head.len() + self.numbers.len() + self.floats.len() + self.bytes.len()
    }
}

/// Hands each case of a kind to a function that takes all of it and says whether the answer is the
/// stored one; so are all but the last, which are wrong.
fn replay(kind: u8, wrong: usize, mut agrees: impl FnMut(&mut Stored) -> bool) {
    let mut file = File::open();
    let mut section = file.section();
    while section.0 != kind {
        section = file.section();
    }
    let cases = section.1.len();
    assert!(cases > wrong);
    for (case, mut stored) in section.1.into_iter().enumerate() {
        assert_eq!(agrees(&mut stored), case < cases - wrong, "case {case}");
        assert_eq!(stored.left(), 0, "case {case}");
    }
}

fn bits(numbers: &[f64]) -> Vec<u64> {
    numbers.iter().map(|number| number.to_bits()).collect()
}

#[test]
fn fits() {
    replay(3, 2, |stored| {
        let (means, varis, length) = (stored.f64s(), stored.f64s(), stored.f64());
        let fitted = hejmirov::fit(&means, &varis, None, length).unwrap();
        (fitted.changes, fitted.durations) == (stored.u32(), stored.u32s())
    });
}

#[test]
fn speeds() {
    replay(4, 2, |stored| {
        let (means, varis, speed) = (stored.f64s(), stored.f64s(), stored.f64());
        let fitted = hejmirov::speed(&means, &varis, None, speed).unwrap();
        (fitted.changes, fitted.durations) == (stored.u32(), stored.u32s())
    });
}

#[test]
fn alignments() {
    replay(5, 3, |stored| {
        let (means, varis, nstate) = (stored.f64s(), stored.f64s(), stored.u32());
        let fitted = hejmirov::align(&means, &varis, None, nstate, &stored.f64s()).unwrap();
        let written = fitted.durations.len();
        (written, fitted.changes, fitted.durations) == (stored.count(), stored.u32(), stored.u32s())
    });
}

/// A job that comes in parts of so many bytes, with one of none before each.
fn over(link: &mut Link, job: &[u8], bytes: usize) -> Fitted {
    link.begin();
    for part in job.chunks(bytes) {
        link.part(&[]).unwrap();
        link.part(part).unwrap();
    }
    link.end().unwrap()
}

#[test]
fn jobs() {
    let mut link = Link::new();
    replay(11, 4, |stored| {
        let job = stored.u8s();
        let fitted = hejmirov::job(&job).unwrap();
        for bytes in [1, 2, 15, job.len()] {
            assert_eq!(over(&mut link, &job, bytes), fitted);
        }
        let (states, frames) = (fitted.durations.len(), fitted.frames());
        (states, frames, fitted.changes, fitted.durations)
            == (
                stored.count(),
                stored.u32().into(),
                stored.u32(),
                stored.u32s(),
            )
    });
}

#[test]
fn masks() {
    replay(6, 3, |stored| {
        let (weights, threshold, durations) = (stored.f64s(), stored.f64(), stored.u32s());
        let mask = hejmirov::mask(&weights, threshold, &durations).unwrap();
        (mask.voiced, mask.left, mask.right) == (stored.u32s(), stored.u32s(), stored.u32s())
    });
}

#[test]
fn band_rows() {
    replay(7, 2, |stored| {
        let (widths, coefficients) = (stored.u32s(), stored.f64s());
        let windows = Windows {
            widths: &widths,
            coefficients: &coefficients,
        };
        let band = hejmirov::band_rows(windows, &stored.f64s(), &stored.f64s()).unwrap();
        (bits(&band.rows), bits(&band.right)) == (bits(&stored.f64s()), bits(&stored.f64s()))
    });
}

#[test]
fn trajectories() {
    replay(8, 3, |stored| {
        let (v, masked, threshold, fill) =
            (stored.u32(), stored.u32() != 0, stored.f64(), stored.f64());
        let (gv_on, weight) = (stored.u32() != 0, stored.f64());
        let (widths, coefficients) = (stored.u32s(), stored.f64s());
        let (records, durations, pairs) = (stored.f64s(), stored.u32s(), stored.f64s());
        let switches: Vec<bool> = stored.u8s().iter().map(|&byte| byte != 0).collect();
        let windows = Windows {
            widths: &widths,
            coefficients: &coefficients,
        };
        let gv = gv_on.then_some(GlobalVariance {
            weight,
            pairs: &pairs,
            switches: &switches,
        });
        let stream = Stream {
            v,
            windows,
            masked,
            threshold,
            fill,
            gv,
        };
        let trajectory = stream.trajectory(&records, &durations).unwrap();
        let Clamped { high, low } = trajectory.clamped;
        let right = (bits(&stored.f64s()), stored.u32(), stored.u32());
        (bits(&trajectory.numbers), high, low) == right
    });
}
