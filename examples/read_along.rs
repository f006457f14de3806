//! Times the words of a sentence, for a text that is read along.
//!
//! usage: `read_along SENTENCE WORDS [--ral FILE] [--vtt]`
//!
//! It fits the sentence to its length and prints a table: each word, the millisecond from which it
//! sounds, and the one to which. With `--vtt` it prints a `WebVTT` file, which a browser plays
//! beside the sound. With `--ral` it writes the timing file FILE first, reads it back, and takes the
//! times from there. SENTENCE is `sentence.txt` and WORDS `words.txt`; `README.md` says what stands
//! in them. `read_along.c` does the same and prints the same text.

use std::env;
use std::error::Error;
use std::fs;
use std::io::{self, Write};
use std::iter::zip;
use std::process::ExitCode;
use std::str::{FromStr, SplitWhitespace};

use hejmirov::{MILLISECONDS_A_FRAME, Span, WordsRefusal};

const STATES_A_LABEL: u32 = 3;

/// A word of this text is a silence.
const SILENCE: &str = "-";

/// The words and numbers of the sentence, one after the other.
struct Items<'a>(SplitWhitespace<'a>);

impl Items<'_> {
    fn number<T: FromStr<Err: Error + 'static>>(&mut self) -> Result<T, Box<dyn Error>> {
        let item = self.0.next().ok_or("the sentence ends too soon")?;
        Ok(item.parse()?)
    }

    fn name(&mut self, name: &str) -> Result<(), String> {
        if self.0.next() != Some(name) {
            return Err(format!("the sentence has no {name} where it should stand"));
        }
        Ok(())
    }

    fn named<T: FromStr<Err: Error + 'static>>(&mut self, name: &str) -> Result<T, Box<dyn Error>> {
        self.name(name)?;
        self.number()
    }

    fn skip(&mut self, count: usize) -> Result<(), Box<dyn Error>> {
        for _ in 0..count {
            self.number::<f64>()?;
        }
        Ok(())
    }
}

#[derive(Default)]
struct Sentence {
    length: f64,
    means: Vec<f64>,
    varis: Vec<f64>,
}

impl Sentence {
    /// The durations' means and variances alone: nothing is rendered.
    fn read(text: &str) -> Result<Self, Box<dyn Error>> {
        let mut items = Items(text.split_whitespace());
        let states: u16 = items.named("states")?;
        let v: u8 = items.named("v")?;
        let mut s = Sentence {
            length: items.named("length")?,
            ..Self::default()
        };
        for name in ["threshold", "fill", "gv_weight"] {
            items.named::<f64>(name)?;
        }
        items.name("gv")?;
        items.skip(2 * usize::from(v))?;
        let windows: u8 = items.named("windows")?;
        for _ in 0..windows {
            let width: u8 = items.number()?;
            items.skip(width.into())?;
        }
        let record = 2 * usize::from(windows) * usize::from(v) + 1;
        for _ in 0..states {
            items.0.next();
            s.means.push(items.number()?);
            s.varis.push(items.number()?);
            items.skip(1 + record)?; // the switch of global variance, and the record
        }
        Ok(s)
    }
}

#[derive(Default)]
struct Words<'a> {
    texts: Vec<&'a str>,
    labels: Vec<u32>, // how many each word has
}

impl<'a> Words<'a> {
    /// A line has a word and its number of labels, or nothing.
    fn read(text: &'a str) -> Result<Self, String> {
        let mut w = Words::default();
        if text.contains('\0') {
            return Err("the words: a zero byte stands there".into());
        }
        for (number, line) in (1..).zip(text.split('\n')) {
            let wrong = |what: &str| format!("the words: line {number}: {what}");
            match line.split_ascii_whitespace().collect::<Vec<_>>()[..] {
                [] => {}
                [text, labels] => {
                    w.texts.push(text);
                    let instead = || wrong(&format!("{labels} instead of a number of labels"));
                    w.labels.push(read_labels(labels).ok_or_else(instead)?);
                }
                _ => return Err(wrong("a word and its number of labels should stand there")),
            }
        }
        Ok(w)
    }
}

/// Digits alone: a sign is none.
fn read_labels(word: &str) -> Option<u32> {
    let digits = word.bytes().all(|byte| byte.is_ascii_digit());
    word.parse().ok().filter(|_| digits)
}

/// From which millisecond each word sounds, and to which.
fn times_of(w: &Words, durations: &[u32]) -> Result<Vec<Span>, Box<dyn Error>> {
    match hejmirov::words_milliseconds(&w.labels, STATES_A_LABEL, durations) {
        Err(WordsRefusal::LabelsDisagree) => {
            let labels: u64 = w.labels.iter().map(|&labels| u64::from(labels)).sum();
            let states = durations.len();
            let said = format!(
                "the words have {labels} labels of {STATES_A_LABEL} states, \
                 and the sentence has {states} states"
            );
            Err(said.into())
        }
        answer => Ok(answer?),
    }
}

/// Writes a timing file, and reads it: the times that it says, which must be those that were worked
/// out.
fn by_file(
    name: &str,
    w: &Words,
    durations: &[u32],
    times: &[Span],
) -> Result<Vec<Span>, Box<dyn Error>> {
    let bytes = hejmirov::words_write(&w.labels, STATES_A_LABEL, durations)?;
    fs::write(name, bytes).map_err(|_| format!("{name}: can't be written"))?;
    let bytes = fs::read(name).map_err(|_| format!("{name}: can't be read"))?;
    let milliseconds = |frame: u32| frame.wrapping_mul(MILLISECONDS_A_FRAME);
    let in_milliseconds = |span: Span| Span {
        first: milliseconds(span.first),
        after: milliseconds(span.after),
    };
    let spans = hejmirov::words_read(&bytes)?;
    let read: Vec<Span> = spans.into_iter().map(in_milliseconds).collect();
    if read != times {
        return Err(format!("{name}: says other times than were written").into());
    }
    Ok(read)
}

fn table(w: &Words, times: &[Span]) -> String {
    let row = |(text, time): (&&str, &Span)| format!("{text}\t{}\t{}\n", time.first, time.after);
    let rows: String = zip(&w.texts, times).map(row).collect();
    format!("word\tfrom_ms\tto_ms\n{rows}")
}

/// Hours, minutes, seconds and milliseconds.
fn time(ms: u32) -> String {
    let (hours, minutes, seconds) = (ms / 3_600_000, ms / 60_000 % 60, ms / 1_000 % 60);
    format!("{hours:02}:{minutes:02}:{seconds:02}.{:03}", ms % 1_000)
}

/// The three characters that `WebVTT` would take for its own.
fn escaped(text: &str) -> String {
    let text = text.replace('&', "&amp;");
    text.replace('<', "&lt;").replace('>', "&gt;")
}

/// A cue for each word that sounds and is no silence.
fn vtt(w: &Words, times: &[Span]) -> String {
    let sounding =
        zip(&w.texts, times).filter(|(text, time)| time.first != time.after && **text != SILENCE);
    let cue = |(text, span): (&&str, &Span)| {
        let (from, to) = (time(span.first), time(span.after));
        format!("\n{from} --> {to}\n{}\n", escaped(text))
    };
    let cues: String = sounding.map(cue).collect();
    format!("WEBVTT\n{cues}")
}

fn text_of(name: &str) -> Result<String, String> {
    fs::read_to_string(name).map_err(|_| format!("{name}: can't be read"))
}

fn run(
    sentence: &str,
    words: &str,
    ral: Option<&str>,
    vtt_asked: bool,
) -> Result<(), Box<dyn Error>> {
    let s = Sentence::read(&text_of(sentence)?)?;
    let words = text_of(words)?;
    let w = Words::read(&words)?;
    let durations = hejmirov::fit(&s.means, &s.varis, None, s.length)?.durations;
    let mut times = times_of(&w, &durations)?;
    if let Some(name) = ral {
        times = by_file(name, &w, &durations, &times)?;
    }
    let said = if vtt_asked { vtt } else { table }(&w, &times);
    io::stdout()
        .write_all(said.as_bytes())
        .map_err(|_| "standard output: can't be written".into())
}

fn main() -> ExitCode {
    let words: Vec<String> = env::args().skip(1).collect();
    let words: Vec<&str> = words.iter().map(String::as_str).collect();
    let done = match words[..] {
        [sentence, words] => run(sentence, words, None, false),
        [sentence, words, "--vtt"] => run(sentence, words, None, true),
        [sentence, words, "--ral", file] => run(sentence, words, Some(file), false),
        [sentence, words, "--ral", file, "--vtt"] => run(sentence, words, Some(file), true),
        _ => {
            eprintln!("usage: read_along SENTENCE WORDS [--ral FILE] [--vtt]");
            return ExitCode::from(2);
        }
    };
    if let Err(error) = done {
        eprintln!("read_along: {error}");
        return ExitCode::FAILURE;
    }
    ExitCode::SUCCESS
}
