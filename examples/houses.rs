//! Two houses on one table of window sets. One of them makes every call that it shouldn't, and the
//! other sees nothing of it.
//!
//! usage: `houses`
//!
//! The owner starts a table with two common sets. House 0 does its work on it: it sets slots of its
//! own, uses them and renders with them. Between its calls house 1 makes its own, most of which are
//! refused. Every call is a line with its answer. Then house 0 does the same on a table where it is
//! alone: its lines, its slots and the common ones are held to those from before, and the program
//! says that they are the same. `houses.c` does the same and prints the same text.

use std::env;
use std::error::Error;
use std::fmt::Display;
use std::io::{self, Write as _};
use std::iter::zip;
use std::process::ExitCode;

use hejmirov::{House, Refusal, Stream, Table, Windows};

/// A window set, or what is none, by its name.
#[derive(Clone, Copy)]
struct Set(&'static str, &'static [u32], &'static [f64]);

impl Set {
    fn windows(self) -> Windows<'static> {
        Windows {
            widths: self.1,
            coefficients: self.2,
        }
    }
}

/// Static, with velocity, with acceleration.
const ONE: Set = Set("one window", &[1], &[1.0]);
const TWO: Set = Set("two windows", &[1, 3], &[1.0, -0.5, 0.0, 0.5]);
const THREE: Set = Set(
    "three windows",
    &[1, 3, 3],
    &[1.0, -0.5, 0.0, 0.5, 1.0, -2.0, 1.0],
);

/// None of these is a window set.
const NONE: Set = Set("no window", &[], &[]);
const FIVE: Set = Set("five windows", &[1; 5], &[1.0; 5]);
const LONG: Set = Set("a window of 16", &[16], &[1.0; 16]);
const INFINITE: Set = Set("an infinite coefficient", &[1], &[f64::INFINITY]);
const FEW: Set = Set("a coefficient too few", &[1, 3], &[1.0, -0.5, 0.0]);

/// A house's call, with the slot that it is about.
enum Call {
    Set(u32, Set),
    Clear(u32),
    Use(u32),
    Render(u32),
    Free,
}

use Call::{Clear, Free, Render, Use};

/// The house that is held to itself alone.
const CAREFUL: u32 = 0;

/// Houses and their calls, in order. Slots 0 and 1 are common and set, 2 and 3 common and empty.
const STEPS: [(u32, Call); 46] = [
    (0, Free),
    (1, Call::Set(4, ONE)),
    (0, Use(4)),
    (0, Call::Set(4, THREE)),
    (1, Call::Set(4, ONE)),
    (1, Clear(4)),
    (1, Use(4)),
    (0, Use(4)),
    (0, Render(4)),
    (1, Clear(0)),
    (1, Call::Set(0, TWO)),
    (1, Call::Set(2, ONE)),
    (0, Use(0)),
    (0, Render(0)),
    (0, Use(2)),
    (1, Call::Set(12, ONE)),
    (1, Use(12)),
    (2, Free),
    (2, Call::Set(8, ONE)),
    (2, Use(0)),
    (0, Free),
    (1, Call::Set(8, NONE)),
    (1, Call::Set(8, FIVE)),
    (1, Call::Set(8, LONG)),
    (1, Call::Set(8, INFINITE)),
    (1, Call::Set(8, FEW)),
    (0, Call::Set(4, TWO)),
    (1, Call::Set(8, ONE)),
    (1, Call::Set(8, TWO)),
    (1, Clear(8)),
    (1, Clear(8)),
    (0, Clear(4)),
    (1, Call::Set(8, THREE)),
    (1, Call::Set(9, THREE)),
    (1, Call::Set(10, THREE)),
    (1, Call::Set(11, THREE)),
    (1, Free),
    (0, Free),
    (0, Call::Set(4, TWO)),
    (0, Render(4)),
    (0, Call::Set(5, ONE)),
    (1, Clear(5)),
    (0, Use(5)),
    (0, Use(8)),
    (0, Clear(8)),
    (0, Free),
];

/// What a render works on: a stream of one number a frame, which rises from 4 to 5.
const DURATIONS: [u32; 2] = [3, 3];
const MEANS: [f64; 2] = [4.0, 5.0];

/// Numbers with spaces between them.
fn listed<T>(numbers: &[T], shown: impl Fn(&T) -> String) -> String {
    numbers.iter().map(shown).collect::<Vec<_>>().join(" ")
}

/// The stream's numbers, with these windows: every change has the mean 0.
fn trajectory(windows: Windows<'_>) -> Result<String, Refusal> {
    let stream = Stream {
        v: 1,
        windows,
        masked: false,
        threshold: 0.0,
        fill: 0.0,
        gv: None,
    };
    let changes = vec![0.0; windows.widths.len() - 1];
    let records =
        MEANS.map(|mean| [&[mean][..], &changes, &vec![1.0; windows.widths.len()]].concat());
    let rendered = stream.trajectory(&records.concat(), &DURATIONS)?;
    Ok(listed(&rendered.numbers, |number| format!("{number:.3}")))
}

/// An answer, or why it was refused.
fn said(answer: Result<impl Display, Refusal>) -> String {
    match answer {
        Ok(answer) => answer.to_string(),
        Err(refusal) => refusal.to_string(),
    }
}

/// Makes a house's call: what is asked, and the answer. The house has nothing but its own side.
fn make(mut house: House<'_>, call: &Call) -> String {
    match *call {
        Call::Set(slot, set) => {
            let answer = house.set(slot, set.windows()).map(|()| "accepted");
            format!("set slot {slot} to {}: {}", set.0, said(answer))
        }
        Clear(slot) => {
            let answer = house.clear(slot).map(|()| "accepted");
            format!("clear slot {slot}: {}", said(answer))
        }
        Use(slot) => {
            let answer = house.use_slot(slot).map(|set| {
                let widths = listed(set.widths, u32::to_string);
                let coefficients = listed(set.coefficients, f64::to_string);
                format!("widths {widths}, coefficients {coefficients}")
            });
            format!("use slot {slot}: {}", said(answer))
        }
        Render(slot) => {
            let answer = house.use_slot(slot).and_then(trajectory);
            format!("render with slot {slot}: {}", said(answer))
        }
        Free => format!("free slots: {}", said(house.free())),
    }
}

/// The owner's part: a table is started, and each house that is there makes its calls; a line for
/// each.
fn play(is_there: impl Fn(u32) -> bool) -> Result<(Table, Vec<String>), Refusal> {
    let mut table = Table::new();
    table.start(&[ONE.windows(), TWO.windows()])?;
    let steps = STEPS.iter().filter(|(house, _)| is_there(*house));
    let lines = steps
        .map(|(house, call)| format!("house {house}: {}", make(table.house(*house), call)))
        .collect();
    Ok((table, lines))
}

/// Fails at the first of the house's lines that is another.
fn hold_lines(beside: &[String], alone: &[String]) -> Result<(), String> {
    let own = zip(beside, &STEPS).filter(|(_, (house, _))| *house == CAREFUL);
    match zip(own, alone).find(|((beside, _), alone)| beside != alone) {
        Some(((beside, _), alone)) => Err(format!("{beside}\nhouses: alone it is {alone}")),
        None => Ok(()),
    }
}

/// The common slots and the house's own, which are the first eight, with the coefficients as bits.
fn slots(table: &Table) -> (&[u32], Vec<u64>) {
    let (slots, bits) = (8, |number: &f64| number.to_bits());
    let coefficients = &table.coefficients()[..slots * 60];
    (
        &table.widths()[..slots * 4],
        coefficients.iter().map(bits).collect(),
    )
}

fn run() -> Result<(), Box<dyn Error>> {
    let (shared, beside) = play(|_| true)?;
    let (own, alone) = play(|house| house == CAREFUL)?;
    hold_lines(&beside, &alone)?;
    if slots(&shared) != slots(&own) {
        return Err("slots 0 to 7: alone they are others".into());
    }
    let (widths, coefficients) = slots(&own);
    let indented = |lines: &[String]| format!("  {}\n", lines.join("\n  "));
    let said = [
        format!(
            "a table is started with {} in slot 0 and {} in slot 1, and two houses share it:\n",
            ONE.0, TWO.0
        ),
        indented(&beside),
        "another is started so, and house 0 is alone on it:\n".into(),
        indented(&alone),
        format!(
            "house 0: {} lines compared with those beside house 1, all equal\n\
             slots 0 to 7: {} widths and {} coefficients compared, all equal\n",
            alone.len(),
            widths.len(),
            coefficients.len()
        ),
    ];
    io::stdout()
        .write_all(said.concat().as_bytes())
        .map_err(|_| "standard output: can't be written".into())
}

fn main() -> ExitCode {
    if env::args().len() != 1 {
        eprintln!("usage: houses");
        return ExitCode::from(2);
    }
    if let Err(error) = run() {
        eprintln!("houses: {error}");
        return ExitCode::FAILURE;
    }
    ExitCode::SUCCESS
}
