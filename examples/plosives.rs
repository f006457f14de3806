//! Keeps the states of plosives long enough at a higher speed, where they would click.
//!
//! usage: `plosives FILE [--speed SPEED]`
//!
//! It prints a table of states: their durations at speed 1, at SPEED, and at SPEED with each state
//! kept at its shortest, with the totals of each; and says how many states would be shorter than
//! their shortest, and whether the total is the same. SPEED is 2 where it is not given. FILE is
//! `plosives.txt`; `README.md` says what stands in it. `plosives.c` does the same and prints the
//! same text.

use std::env;
use std::error::Error;
use std::fmt::Write as _;
use std::fs;
use std::io::{self, Write as _};
use std::iter::zip;
use std::process::ExitCode;

#[derive(Default)]
struct States<'a> {
    names: Vec<[&'a str; 2]>, // phone and state
    means: Vec<f64>,          // of the states' durations
    varis: Vec<f64>,
    shortest: Vec<u32>,
}

/// A word of digits alone: a sign is none.
fn whole(word: &str) -> Option<u32> {
    let digits = word.bytes().all(|byte| byte.is_ascii_digit());
    word.parse().ok().filter(|_| digits)
}

impl<'a> States<'a> {
    /// A state a line, a comment left out.
    fn read(text: &'a str) -> Result<Self, String> {
        let mut s = Self::default();
        for (number, line) in (1..).zip(text.split('\n')) {
            let words: Vec<&str> = line
                .split_ascii_whitespace()
                .take_while(|word| !word.starts_with('#'))
                .collect();
            if !words.is_empty() {
                s.read_state(&words)
                    .map_err(|why| format!("line {number}: {why}"))?;
            }
        }
        Ok(s)
    }

    fn read_state(&mut self, words: &[&'a str]) -> Result<(), String> {
        let &[phone, state, mean, vari, shortest] = words else {
            let wanted = "a phone, a state, a mean, a variance and a shortest duration";
            return Err(format!("{wanted} should stand there"));
        };
        let instead = |word: &str, wanted: &str| format!("{word} instead of {wanted}");
        self.names.push([phone, state]);
        self.means
            .push(mean.parse().map_err(|_| instead(mean, "a mean"))?);
        self.varis
            .push(vari.parse().map_err(|_| instead(vari, "a variance"))?);
        let frames =
            whole(shortest).ok_or_else(|| instead(shortest, "a shortest duration in frames"))?;
        self.shortest.push(frames);
        Ok(())
    }

    /// One duration a state, of which none is below its shortest where these are given.
    fn durations(
        &self,
        shortest: Option<&[u32]>,
        speed: f64,
    ) -> Result<Vec<u32>, hejmirov::Refusal> {
        let fitted = hejmirov::speed(&self.means, &self.varis, shortest, speed)?;
        Ok(fitted.durations)
    }

    /// Fails where a state has fewer frames than its shortest.
    fn hold(&self, durations: &[u32]) -> Result<(), String> {
        for ((names, shortest), frames) in zip(zip(&self.names, &self.shortest), durations) {
            if frames < shortest {
                let state = names.join(" ");
                return Err(format!(
                    "{state}: {frames} frames, and its shortest is {shortest}"
                ));
            }
        }
        Ok(())
    }
}

fn sum(numbers: &[u32]) -> u64 {
    numbers.iter().map(|&number| u64::from(number)).sum()
}

fn table(s: &States, columns: [&[u32]; 4], speed: &str) -> Result<String, Box<dyn Error>> {
    let mut table = format!("phone\tstate\tshortest\tspeed_1\tspeed_{speed}\tspeed_{speed}_kept\n");
    for (i, [phone, state]) in s.names.iter().enumerate() {
        let numbers = columns.map(|column| column[i].to_string()).join("\t");
        writeln!(table, "{phone}\t{state}\t{numbers}")?;
    }
    let totals = columns.map(|column| sum(column).to_string()).join("\t");
    writeln!(table, "total\t\t{totals}")?;
    Ok(table)
}

fn about_end(s: &States, without: &[u32], with: &[u32], speed: &str) -> String {
    let is_short = |&(frames, shortest): &(&u32, &u32)| frames < shortest;
    let (states, too_short) = (
        s.names.len(),
        zip(without, &s.shortest).filter(is_short).count(),
    );
    let (before, after) = (sum(without), sum(with));
    let total = if before == after {
        format!("the same, {after} frames")
    } else {
        format!("{after} frames instead of {before}")
    };
    format!(
        "at speed {speed}, {too_short} of {states} states would be shorter than their shortest; \
         kept at it, none is, and the total is {total}\n"
    )
}

fn run(name: &str, word: &str) -> Result<(), Box<dyn Error>> {
    let speed = word
        .parse()
        .map_err(|_| format!("{word} instead of a speed"))?;
    let text = fs::read_to_string(name).map_err(|_| format!("{name}: can't be read"))?;
    if text.contains('\0') {
        return Err(format!("{name}: a zero byte stands there").into());
    }
    let s = States::read(&text)?;
    let natural = s.durations(None, 1.0)?;
    let without = s.durations(None, speed)?;
    let with = s.durations(Some(&s.shortest), speed)?;
    s.hold(&with)?;
    let columns = [&s.shortest[..], &natural, &without, &with];
    let said = table(&s, columns, word)? + &about_end(&s, &without, &with, word);
    io::stdout()
        .write_all(said.as_bytes())
        .map_err(|_| "standard output: can't be written".into())
}

fn main() -> ExitCode {
    let words: Vec<String> = env::args().skip(1).collect();
    let words: Vec<&str> = words.iter().map(String::as_str).collect();
    let done = match words[..] {
        [name] if !name.starts_with('-') => run(name, "2"),
        [name, "--speed", speed] => run(name, speed),
        _ => {
            eprintln!("usage: plosives FILE [--speed SPEED]");
            return ExitCode::from(2);
        }
    };
    if let Err(error) = done {
        eprintln!("plosives: {error}");
        return ExitCode::FAILURE;
    }
    ExitCode::SUCCESS
}
