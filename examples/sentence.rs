//! Fits a sentence to a length or to an editor's ends, renders its trajectory, and takes one state's
//! part of it.
//!
//! usage: `sentence FILE [--ends ENDS] [--frames]`
//!
//! It says what was done; with `--frames` it prints a line a frame: what `tools/picture` draws. FILE
//! is `sentence.txt` and ENDS `ends.txt`; `README.md` says what stands in them. `sentence.c` does the
//! same and prints the same text.

use std::env;
use std::error::Error;
use std::fs;
use std::iter::zip;
use std::process::ExitCode;
use std::str::{FromStr, SplitWhitespace};

use hejmirov::{Fitted, GlobalVariance, Mask, OPEN_END, Refusal, Stream, Trajectory, Windows};

/// The state whose part is taken: the middle of the longest vowel.
const CHOSEN_STATE: u32 = 43;

const STATES_A_LABEL: u32 = 3;

/// The words of the file, one after the other.
struct Words<'a>(SplitWhitespace<'a>);

impl<'a> Words<'a> {
    fn next(&mut self) -> Result<&'a str, Box<dyn Error>> {
        Ok(self.0.next().ok_or("the sentence ends too soon")?)
    }

    fn number<T: FromStr<Err: Error + 'static>>(&mut self) -> Result<T, Box<dyn Error>> {
        Ok(self.next()?.parse()?)
    }

    fn numbers(&mut self, count: usize) -> Result<Vec<f64>, Box<dyn Error>> {
        (0..count).map(|_| self.number()).collect()
    }

    fn name(&mut self, name: &str) -> Result<(), Box<dyn Error>> {
        match self.next()? {
            word if word == name => Ok(()),
            word => Err(format!("the sentence has {word} where {name} should stand").into()),
        }
    }

    fn named<T: FromStr<Err: Error + 'static>>(&mut self, name: &str) -> Result<T, Box<dyn Error>> {
        self.name(name)?;
        self.number()
    }
}

#[derive(Default)]
struct Sentence {
    v: u32,
    length: f64,
    threshold: f64,
    fill: f64,
    gv_weight: f64,
    gv: Vec<f64>,
    widths: Vec<u32>,
    coefficients: Vec<f64>,
    labels: Vec<String>, // of the states: a phone, a dot and the state's number
    means: Vec<f64>,     // of the states' durations
    varis: Vec<f64>,
    switches: Vec<bool>,
    weights: Vec<f64>,
    records: Vec<f64>,
}

impl Sentence {
    fn read(text: &str) -> Result<Self, Box<dyn Error>> {
        let mut words = Words(text.split_whitespace());
        let states: usize = words.named("states")?;
        let mut s = Sentence {
            v: words.named("v")?,
            length: words.named("length")?,
            threshold: words.named("threshold")?,
            fill: words.named("fill")?,
            gv_weight: words.named("gv_weight")?,
            ..Self::default()
        };
        let v = s.v as usize;
        words.name("gv")?;
        s.gv = words.numbers(2 * v)?;
        for _ in 0..words.named("windows")? {
            let width = words.number()?;
            s.widths.push(width);
            s.coefficients.extend(words.numbers(width as usize)?);
        }
        for _ in 0..states {
            s.labels.push(words.next()?.to_owned());
            s.means.push(words.number()?);
            s.varis.push(words.number()?);
            s.switches.push(words.number::<u8>()? != 0);
            s.records.extend(words.numbers(2 * s.widths.len() * v)?);
            s.weights.push(words.number()?);
            s.records.extend(s.weights.last());
        }
        Ok(s)
    }

    /// The stream without global variance.
    fn stream(&self) -> Stream<'_> {
        Stream {
            v: self.v,
            windows: Windows {
                widths: &self.widths,
                coefficients: &self.coefficients,
            },
            masked: true,
            threshold: self.threshold,
            fill: self.fill,
            gv: None,
        }
    }

    fn global_variance(&self) -> GlobalVariance<'_> {
        GlobalVariance {
            weight: self.gv_weight,
            pairs: &self.gv,
            switches: &self.switches,
        }
    }
}

/// A time in frames, or open.
fn read_end(word: &str) -> Option<f64> {
    if word == "open" {
        return Some(OPEN_END);
    }
    word.parse().ok().filter(|time| *time >= 0.0)
}

/// An editor's ends, one a label.
fn read_ends(text: &str, s: &Sentence) -> Result<Vec<f64>, String> {
    let mut words = text.split_whitespace();
    let mut ends = Vec::new();
    for (label, states) in s.labels.chunks_exact(STATES_A_LABEL as usize).enumerate() {
        let (Some(name), Some(word)) = (words.next(), words.next()) else {
            return Err("the ends: fewer than the sentence's labels".into());
        };
        let wrong = |word: &str, wanted: &str| {
            format!("the ends: label {label}: {word} instead of {wanted}")
        };
        let first = format!("{name}.1");
        if first != states[0] {
            return Err(wrong(&first, &states[0]));
        }
        ends.push(read_end(word).ok_or_else(|| wrong(word, "a time or open"))?);
    }
    match words.next() {
        None => Ok(ends),
        Some(_) => Err("the ends: more than the sentence's labels".into()),
    }
}

/// The FNV-1a sum of the numbers' bytes, as they stand in the spool: every bit of every number counts.
fn sum_of(numbers: &[f64]) -> u64 {
    let bytes = numbers.iter().flat_map(|number| number.to_le_bytes());
    bytes.fold(0xcbf2_9ce4_8422_2325, |sum, byte| {
        (sum ^ u64::from(byte)).wrapping_mul(0x0100_0000_01b3)
    })
}

/// From which to which number a stream's first component goes in voiced frames.
fn print_range(name: &str, mask: &Mask, trajectory: &Trajectory) {
    let voiced = zip(trajectory.frames(), &mask.voiced).filter(|(_, voiced)| **voiced == 1);
    let numbers: Vec<f64> = voiced.map(|(frame, _)| frame[0]).collect();
    let least = numbers.iter().copied().reduce(f64::min).unwrap_or(0.0);
    let most = numbers.iter().copied().reduce(f64::max).unwrap_or(0.0);
    println!("{name}: component 0 from {least:.6} to {most:.6}");
}

/// One state's part of the trajectory, and where its first frame stands in the spool.
fn print_excerpt(
    s: &Sentence,
    fitted: &Fitted,
    rendered: &Trajectory,
) -> Result<(), Box<dyn Error>> {
    let numbers = &rendered.numbers;
    let part = hejmirov::excerpt_range(numbers, &fitted.durations, s.v, CHOSEN_STATE)?;
    let frame = u32::try_from(part.start)? / s.v;
    let place = hejmirov::place(frame, 0, s.v)?;
    let label = &s.labels[CHOSEN_STATE as usize];
    println!(
        "state {CHOSEN_STATE}, {label}: {} numbers from {} on",
        part.len(),
        part.start
    );
    println!("its first frame: {frame}, at byte {place} of the spool");
    for (component, number) in numbers[part].iter().take(s.v as usize).enumerate() {
        println!(
            "component {component}: {number:.6}, bits {:016x}",
            number.to_bits()
        );
    }
    Ok(())
}

fn print_durations(s: &Sentence, ends: Option<&[f64]>, fitted: &Fitted) {
    let (states, windows) = (s.means.len(), s.widths.len());
    println!(
        "sentence: {states} states, {} numbers a frame, {windows} windows",
        s.v
    );
    let done = format!("{} frames, {} changes", fitted.frames(), fitted.changes);
    if let Some(ends) = ends {
        let given = ends.iter().filter(|end| **end >= 0.0).count();
        let open = ends.iter().rev().take_while(|end| **end < 0.0).count();
        let natural = open * STATES_A_LABEL as usize;
        println!("aligned to {given} ends: {done}, the last {natural} states natural");
    } else {
        println!("fit to {:.1}: {done}", s.length);
    }
    let durations: Vec<String> = fitted.durations.iter().map(u32::to_string).collect();
    println!("durations: {}", durations.join(" "));
}

fn print_report(
    s: &Sentence,
    fitted: &Fitted,
    mask: &Mask,
    plain: &Trajectory,
    rendered: &Trajectory,
) -> Result<(), Box<dyn Error>> {
    let voiced: u32 = mask.voiced.iter().sum();
    let runs = zip(&mask.voiced, &mask.left)
        .filter(|pair| *pair == (&1, &0))
        .count();
    println!("mask: {voiced} voiced frames in {runs} runs");
    let numbers = &rendered.numbers;
    println!(
        "trajectory: {} numbers, sum {:016x}",
        numbers.len(),
        sum_of(numbers)
    );
    print_range("without global variance", mask, plain);
    print_range("with global variance", mask, rendered);
    print_excerpt(s, fitted, rendered)
}

fn print_frames(
    s: &Sentence,
    fitted: &Fitted,
    mask: &Mask,
    plain: &Trajectory,
    rendered: &Trajectory,
) {
    println!("frame\tstate\tlabel\tvoiced\tplain\trendered");
    let states = zip(&fitted.durations, 0..).flat_map(|(&frames, i)| (0..frames).map(move |_| i));
    let numbers = zip(plain.frames(), rendered.frames());
    for (t, (i, (before, after))) in zip(states, numbers).enumerate() {
        let (label, voiced): (&String, u32) = (&s.labels[i], mask.voiced[t]);
        println!(
            "{t}\t{i}\t{label}\t{voiced}\t{:.9}\t{:.9}",
            before[0], after[0]
        );
    }
}

fn text_of(name: &str) -> Result<String, String> {
    fs::read_to_string(name).map_err(|error| format!("{name}: {error}"))
}

/// One duration a state.
fn durations_of(s: &Sentence, ends: Option<&[f64]>) -> Result<Fitted, Refusal> {
    match ends {
        Some(ends) => hejmirov::align(&s.means, &s.varis, None, STATES_A_LABEL, ends),
        None => hejmirov::fit(&s.means, &s.varis, None, s.length),
    }
}

fn run(name: &str, ends: Option<&str>, frames_asked: bool) -> Result<(), Box<dyn Error>> {
    let s = Sentence::read(&text_of(name)?)?;
    let ends = match ends {
        Some(name) => Some(read_ends(&text_of(name)?, &s)?),
        None => None,
    };
    let fitted = durations_of(&s, ends.as_deref())?;
    let mask = hejmirov::mask(&s.weights, s.threshold, &fitted.durations)?;
    let without = s.stream();
    let with = Stream {
        gv: Some(s.global_variance()),
        ..without
    };
    let plain = without.trajectory(&s.records, &fitted.durations)?;
    let rendered = with.trajectory(&s.records, &fitted.durations)?;
    if frames_asked {
        print_frames(&s, &fitted, &mask, &plain, &rendered);
        return Ok(());
    }
    print_durations(&s, ends.as_deref(), &fitted);
    print_report(&s, &fitted, &mask, &plain, &rendered)
}

fn main() -> ExitCode {
    let words: Vec<String> = env::args().skip(1).collect();
    let words: Vec<&str> = words.iter().map(String::as_str).collect();
    let done = match words[..] {
        [name] => run(name, None, false),
        [name, "--frames"] => run(name, None, true),
        [name, "--ends", ends] => run(name, Some(ends), false),
        [name, "--ends", ends, "--frames"] => run(name, Some(ends), true),
        _ => {
            eprintln!("usage: sentence FILE [--ends ENDS] [--frames]");
            return ExitCode::from(2);
        }
    };
    if let Err(error) = done {
        eprintln!("sentence: {error}");
        return ExitCode::FAILURE;
    }
    ExitCode::SUCCESS
}
