//! Counts the pairs of a stream that are clamped, for a builder of voices.
//!
//! usage: `clamps FILE`
//!
//! It says how many frames are voiced, how many pairs of a mean and a variance these have, and how
//! many of them were clamped high and low, with their share of all pairs; then it prints a table of
//! the states that have such pairs. FILE is `variances.txt`; `README.md` says what stands in it.
//! `clamps.c` does the same and prints the same text.

use std::env;
use std::error::Error;
use std::fmt::Write as _;
use std::fs;
use std::io::{self, Write as _};
use std::process::ExitCode;

use hejmirov::{Clamped, MAX_V, MAX_WINDOWS, Refusal, Stream, Windows};

/// A line of the file that has words: its number, from 1 on, and the words, a comment left out.
struct Line<'a> {
    number: usize,
    words: Vec<&'a str>,
}

impl<'a> Line<'a> {
    fn all(text: &'a str) -> impl Iterator<Item = Self> {
        let line = |(number, line): (usize, &'a str)| Line {
            number,
            words: line
                .split_ascii_whitespace()
                .take_while(|word| !word.starts_with('#'))
                .collect(),
        };
        let lines = (1..).zip(text.split('\n')).map(line);
        lines.filter(|line| !line.words.is_empty())
    }

    fn wrong(&self, why: &str) -> String {
        format!("line {}: {why}", self.number)
    }

    fn instead(&self, word: &str, wanted: &str) -> String {
        self.wrong(&format!("{word} instead of {wanted}"))
    }

    /// A word as any float, infinities and NaN too.
    fn float(&self, word: &str, wanted: &str) -> Result<f64, String> {
        word.parse().map_err(|_| self.instead(word, wanted))
    }

    fn floats(&self, words: &[&str], wanted: &str) -> Result<Vec<f64>, String> {
        words.iter().map(|word| self.float(word, wanted)).collect()
    }

    /// A word that says a number from 1 to the most.
    fn size(&self, word: &str, most: usize, wanted: &str) -> Result<u32, String> {
        whole(word)
            .filter(|&number| number >= 1 && number as usize <= most)
            .ok_or_else(|| self.instead(word, wanted))
    }
}

/// A word of digits alone: a sign is none.
fn whole(word: &str) -> Option<u32> {
    let digits = word.bytes().all(|byte| byte.is_ascii_digit());
    word.parse().ok().filter(|_| digits)
}

#[derive(Default)]
struct States<'a> {
    v: u32,
    threshold: f64,
    widths: Vec<u32>,
    coefficients: Vec<f64>,
    labels: Vec<&'a str>,
    durations: Vec<u32>,
    weights: Vec<f64>,
    records: Vec<Vec<f64>>,
}

impl<'a> States<'a> {
    fn read(text: &'a str) -> Result<Self, String> {
        let mut lines = Line::all(text);
        let mut s = Self::default();
        let windows = s.read_head(lines.next())?;
        for _ in 0..windows {
            s.read_window(lines.next())?;
        }
        for line in lines {
            s.read_state(&line)?;
        }
        Ok(s)
    }

    /// Answers the number of windows.
    fn read_head(&mut self, line: Option<Line>) -> Result<u32, String> {
        let line = line.ok_or("the file: it ends before v, threshold and windows")?;
        let ["v", v, "threshold", threshold, "windows", windows] = line.words[..] else {
            let why = "v, threshold and windows should stand there, each with its number";
            return Err(line.wrong(why));
        };
        self.v = line.size(v, MAX_V, "v, 1 to 64")?;
        self.threshold = line.float(threshold, "a threshold")?;
        line.size(windows, MAX_WINDOWS, "a number of windows, 1 to 4")
    }

    fn read_window(&mut self, line: Option<Line>) -> Result<(), String> {
        let line = line.ok_or("the file: it ends before its last window")?;
        let (width, coefficients) = (line.words[0], &line.words[1..]);
        let width = whole(width)
            .filter(|&width| width as usize == coefficients.len())
            .ok_or_else(|| {
                line.wrong("a number of coefficients, and so many of them, should stand there")
            })?;
        self.widths.push(width);
        let coefficients = line.floats(coefficients, "a coefficient")?;
        self.coefficients.extend(coefficients);
        Ok(())
    }

    /// The means are all 0, as the counts don't depend on them.
    fn read_state(&mut self, line: &Line<'a>) -> Result<(), String> {
        let pairs = self.stream().pairs_a_frame();
        let [label, frames, weight, ref varis @ ..] = line.words[..] else {
            return Err(self.no_state(line));
        };
        if varis.len() != pairs {
            return Err(self.no_state(line));
        }
        let frames = whole(frames).ok_or_else(|| line.instead(frames, "a number of frames"))?;
        let weight = line.float(weight, "a weight")?;
        let varis = line.floats(varis, "a variance")?;
        self.labels.push(label);
        self.durations.push(frames);
        self.weights.push(weight);
        self.records
            .push([vec![0.0; pairs], varis, vec![weight]].concat());
        Ok(())
    }

    fn no_state(&self, line: &Line) -> String {
        let pairs = self.stream().pairs_a_frame();
        let why = format!("a label, frames, a weight and {pairs} variances should stand there");
        line.wrong(&why)
    }

    fn stream(&self) -> Stream<'_> {
        Stream {
            v: self.v,
            windows: Windows {
                widths: &self.widths,
                coefficients: &self.coefficients,
            },
            masked: true,
            threshold: self.threshold,
            fill: 0.0,
            gv: None,
        }
    }
}

/// The share is in percent, to the nearest hundredth, halves up; of no pairs there is none.
fn counted(name: &str, count: u32, pairs: u64) -> String {
    let share = match (20_000 * u64::from(count) + pairs).checked_div(2 * pairs) {
        Some(hundredths) => format!("{}.{:02}%", hundredths / 100, hundredths % 100),
        None => "no share".into(),
    };
    format!("clamped {name}: {count} of {pairs} pairs, {share}\n")
}

fn about_stream(s: &States, all: Clamped) -> Result<String, Refusal> {
    let mask = hejmirov::mask(&s.weights, s.threshold, &s.durations)?;
    let voiced = mask.voiced.iter().filter(|&&voiced| voiced == 1).count();
    let pairs = (voiced * s.stream().pairs_a_frame()) as u64;
    let (states, frames, windows) = (s.labels.len(), mask.voiced.len(), s.widths.len());
    Ok(format!(
        "stream: {states} states, {frames} frames, {} numbers a frame, {windows} windows\n\
         voiced: {voiced} frames, {pairs} pairs\n{}{}",
        s.v,
        counted("high", all.high, pairs),
        counted("low", all.low, pairs)
    ))
}

/// Counts are sums over the states, so that a state's own are those of the state alone.
fn about_states(s: &States) -> Result<String, Box<dyn Error>> {
    let mut table = String::from("state\tlabel\tframes\thigh\tlow\n");
    for (i, record) in s.records.iter().enumerate() {
        let (label, frames) = (s.labels[i], s.durations[i]);
        let Clamped { high, low } = s.stream().trajectory(record, &[frames])?.clamped;
        if (high, low) != (0, 0) {
            writeln!(table, "{i}\t{label}\t{frames}\t{high}\t{low}")?;
        }
    }
    Ok(table)
}

fn run(name: &str) -> Result<(), Box<dyn Error>> {
    let text = fs::read_to_string(name).map_err(|_| format!("{name}: can't be read"))?;
    if text.contains('\0') {
        return Err(format!("{name}: a zero byte stands there").into());
    }
    let s = States::read(&text)?;
    let all = s.stream().trajectory(&s.records.concat(), &s.durations)?;
    let said = about_stream(&s, all.clamped)? + &about_states(&s)?;
    io::stdout()
        .write_all(said.as_bytes())
        .map_err(|_| "standard output: can't be written".into())
}

fn main() -> ExitCode {
    let words: Vec<String> = env::args().skip(1).collect();
    let [name] = &words[..] else {
        eprintln!("usage: clamps FILE");
        return ExitCode::from(2);
    };
    if let Err(error) = run(name) {
        eprintln!("clamps: {error}");
        return ExitCode::FAILURE;
    }
    ExitCode::SUCCESS
}
