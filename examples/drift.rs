//! Shows that rounding doesn't add up over a chapter, for a timing desk.
//!
//! usage: `drift [--seed SEED]`, `drift ENDS [--states STATES]`
//!
//! It aligns a chapter to the ends of its labels, and holds the running total at every given end to
//! what is promised: with room, the end rounded, halves up; without, one frame a state more than
//! before. It says how far the totals are from the ends, and how far they would be if the lengths
//! were rounded one by one, and prints a table of ten ends. The chapter is made up from SEED, or
//! has the ends that stand in ENDS; `README.md` says how. `drift.c` does the same and prints the
//! same text.

use std::env;
use std::error::Error;
use std::fs;
use std::io::{self, Write as _};
use std::process::ExitCode;

use hejmirov::{MAX_NSTATE, MILLISECONDS_A_FRAME, OPEN_END};

/// Ends and distances are whole numbers: thousandths of a frame.
const FRAME: i64 = 1000;

const DECIMALS: usize = 3;
const WHOLE_DIGITS: usize = 6;
const ROWS: usize = 10;

/// The chapter that is made up.
const LABELS: usize = 4000;
const OPEN_AT_THE_END: usize = 3;

#[derive(Default)]
struct Chapter {
    seed: Option<u32>,
    states_a_label: u32,
    ends: Vec<Option<u32>>, // one a label, or open
    means: Vec<f64>,        // of the states' durations
    varis: Vec<f64>,
}

/// A given end.
#[derive(Clone, Copy, Default)]
struct Mark {
    label: usize, // from 1 on
    end: i64,
    states: i64,      // since the given end before
    before: i64,      // frames up to that one
    total: i64,       // frames up to this one
    one_by_one: i64,  // what that would be with each length rounded by itself
    by_rounding: i64, // how far that is off for its roundings alone
}

/// A number from 0 on, below the count: Knuth's linear congruential generator, its upper bits.
fn draw(seed: &mut u64, count: u32) -> u32 {
    *seed = seed
        .wrapping_mul(6_364_136_223_846_793_005)
        .wrapping_add(1_442_695_040_888_963_407);
    u32::try_from(*seed >> 33).map_or(0, |bits| bits % count) // there are 31 bits
}

/// Labels of one state, 20 to 120 ms long; now and then one to four of 1 to 3 ms. A third is open,
/// and so are the last. The ends are the lengths' running sums.
fn made_up(from: u32) -> Chapter {
    let mut c = Chapter {
        seed: Some(from),
        states_a_label: 1,
        ..Chapter::default()
    };
    let mut seed = u64::from(from);
    let (mut now, mut short_ones) = (0, 0);
    for label in 0..LABELS {
        if short_ones == 0 && draw(&mut seed, 100) == 0 {
            short_ones = 1 + draw(&mut seed, 4);
        }
        let milliseconds = if short_ones > 0 {
            short_ones -= 1;
            1 + draw(&mut seed, 3)
        } else {
            20 + draw(&mut seed, 101)
        };
        let is_open = draw(&mut seed, 3) == 0 || label >= LABELS - OPEN_AT_THE_END;
        now += milliseconds * 1000 / MILLISECONDS_A_FRAME;
        c.ends.push(if is_open { None } else { Some(now) });
        c.means.push(f64::from(20 + draw(&mut seed, 241)) / 10.0);
        c.varis.push(f64::from(1 + draw(&mut seed, 100)) / 4.0);
    }
    c
}

fn is_digits(word: &str, most: usize) -> bool {
    (1..=most).contains(&word.len()) && word.bytes().all(|byte| byte.is_ascii_digit())
}

/// A time in frames.
fn read_time(word: &str) -> Option<u32> {
    let (whole, decimals) = word.split_once('.').unwrap_or((word, "0"));
    if !is_digits(whole, WHOLE_DIGITS) || !is_digits(decimals, DECIMALS) {
        return None;
    }
    format!("{whole}{decimals:0<DECIMALS$}").parse().ok()
}

/// The end of a label, if it is not open: the last word of its line, before which the label's name
/// may stand.
fn read_end(words: &[&str]) -> Result<Option<u32>, String> {
    let ([word] | [_, word]) = words else {
        return Err("a label and its end should stand there".into());
    };
    if *word == "open" {
        return Ok(None);
    }
    let wanted = format!("an end in frames, with at most {DECIMALS} decimals, or open");
    let time = read_time(word).ok_or_else(|| format!("{word} instead of {wanted}"))?;
    Ok(Some(time))
}

/// The ends of a file, a label a line. Every state has the mean 6 and the variance 4: the totals
/// don't depend on them, but in the tail.
fn read_chapter(name: &str, states_a_label: u32) -> Result<Chapter, String> {
    let bytes = fs::read(name).map_err(|_| format!("{name}: can't be read"))?;
    if bytes.contains(&0) {
        return Err(format!("{name}: a zero byte stands there"));
    }
    let text = String::from_utf8_lossy(&bytes);
    let mut ends = Vec::new();
    for (number, line) in (1..).zip(text.split('\n')) {
        let words: Vec<&str> = line.split_ascii_whitespace().collect();
        if !words.is_empty() {
            ends.push(read_end(&words).map_err(|why| format!("line {number}: {why}"))?);
        }
    }
    let states = ends.len() * states_a_label as usize;
    Ok(Chapter {
        seed: None,
        states_a_label,
        ends,
        means: vec![6.0; states],
        varis: vec![4.0; states],
    })
}

impl Chapter {
    /// One duration a state.
    fn aligned(&self) -> Result<Vec<u32>, hejmirov::Refusal> {
        let time = |end: &Option<u32>| end.map_or(OPEN_END, |end| f64::from(end) / 1000.0);
        let ends: Vec<f64> = self.ends.iter().map(time).collect();
        let fitted = hejmirov::align(&self.means, &self.varis, None, self.states_a_label, &ends)?;
        Ok(fitted.durations)
    }

    /// The given ends, in order.
    fn marks(&self, durations: &[u32]) -> Vec<Mark> {
        let mut marks: Vec<Mark> = Vec::new();
        let (mut total, mut states) = (0, 0);
        let labels = durations.chunks_exact(self.states_a_label as usize);
        for ((label, own), end) in (1..).zip(labels).zip(&self.ends) {
            total += own.iter().map(|&frames| i64::from(frames)).sum::<i64>();
            states += i64::from(self.states_a_label);
            let &Some(end) = end else { continue };
            let last = marks.last().copied().unwrap_or_default();
            let end = i64::from(end);
            let length = end - last.end;
            let alone = rounded(length);
            let is_long = alone >= states;
            marks.push(Mark {
                label,
                end,
                states,
                before: last.total,
                total,
                one_by_one: last.one_by_one + if is_long { alone } else { states },
                by_rounding: last.by_rounding + if is_long { alone * FRAME - length } else { 0 },
            });
            states = 0;
        }
        marks
    }
}

/// Of a time in thousandths, halves up.
fn rounded(time: i64) -> i64 {
    (time + FRAME / 2) / FRAME
}

impl Mark {
    /// What is left up to the end, in frames, and at least one.
    fn target(&self) -> i64 {
        (rounded(self.end) - self.before).max(1)
    }

    fn has_room(&self) -> bool {
        self.target() > self.states
    }

    /// From the total to the end, in thousandths: above 0 where the total is late.
    fn off(&self) -> i64 {
        self.total * FRAME - self.end
    }

    fn one_by_one_off(&self) -> i64 {
        self.one_by_one * FRAME - self.end
    }

    /// Fails where the total is not what is promised.
    fn hold(&self) -> Result<(), String> {
        let promised = if self.has_room() {
            rounded(self.end)
        } else {
            self.before + self.states
        };
        let is_near = 2 * self.off().abs() <= FRAME;
        if self.total == promised && (is_near || !self.has_room()) {
            return Ok(());
        }
        let (label, total) = (self.label, self.total);
        Err(format!(
            "label {label}: {total} frames instead of {promised}"
        ))
    }

    fn row(&self) -> String {
        let room = if self.has_room() { "yes" } else { "no" };
        let times = [
            self.end,
            self.total * FRAME,
            self.off(),
            self.one_by_one * FRAME,
            self.one_by_one_off(),
        ];
        let times = times.map(milliseconds).join("\t");
        format!("{}\t{room}\t{times}\n", self.label)
    }
}

/// An exact decimal of so many thousandths.
fn decimal(thousandths: i64) -> String {
    let sign = if thousandths < 0 { "-" } else { "" };
    let size = thousandths.abs();
    let all = format!("{sign}{}.{:03}", size / 1000, size % 1000);
    all.trim_end_matches('0').trim_end_matches('.').into()
}

/// Of a time in thousandths of a frame.
fn milliseconds(time: i64) -> String {
    decimal(time * i64::from(MILLISECONDS_A_FRAME))
}

fn distance(distance: i64) -> String {
    let size = distance.abs();
    let frames = if size == FRAME { "frame" } else { "frames" };
    format!("{} {frames} or {} ms", decimal(size), milliseconds(size))
}

fn side(number: i64) -> String {
    let side = match number {
        1.. => "late",
        0 => "off",
        _ => "early",
    };
    format!("{} {side}", distance(number))
}

/// The largest distance from 0, of no numbers too.
fn farthest(numbers: impl Iterator<Item = i64>) -> String {
    distance(numbers.map(i64::abs).max().unwrap_or(0))
}

fn about_chapter(c: &Chapter, durations: &[u32], marks: &[Mark]) -> String {
    let frames: i64 = durations.iter().map(|&frames| i64::from(frames)).sum();
    let (labels, each) = (c.ends.len(), c.states_a_label);
    let states = if each == 1 { "state" } else { "states" };
    let seed = c.seed.map(|seed| format!(", made up from seed {seed}"));
    let (given, last) = (marks.len(), marks.last().copied().unwrap_or_default());
    format!(
        "labels: {labels} with {each} {states} each{}\n\
         ends: {given} given, {} open\n\
         frames: {frames}, {} ms, of them {} after the last given end\n",
        seed.unwrap_or_default(),
        labels - given,
        milliseconds(frames * FRAME),
        frames - last.total
    )
}

/// Every mark has been held to its promise before.
fn about_marks(marks: &[Mark]) -> String {
    let (room, none): (Vec<Mark>, Vec<Mark>) = marks.iter().partition(|mark| mark.has_room());
    let is_again = |pair: &&[Mark]| !pair[0].has_room() && pair[1].has_room();
    let again = marks.windows(2).filter(is_again).count();
    let last = marks.last().copied().unwrap_or_default();
    format!(
        "on time at all {0} ends with room, at most {1} off\n\
         one frame a state at all {2} ends without room, at most {3} off\n\
         right again at all {again} ends with room after one without\n\
         rounded one by one: at most {4} off, at the last given end {5}\n\
         of that by rounding {6}, by lengths below one frame a state {7}\n",
        room.len(),
        farthest(room.iter().map(Mark::off)),
        none.len(),
        farthest(none.iter().map(Mark::off)),
        farthest(marks.iter().map(Mark::one_by_one_off)),
        side(last.one_by_one_off()),
        side(last.by_rounding),
        side(last.one_by_one_off() - last.by_rounding)
    )
}

/// Ten ends at most, as many from one to the next, and the last.
fn table(marks: &[Mark]) -> String {
    let step = marks.len().div_ceil(ROWS).max(1);
    let rows: String = marks
        .chunks(step)
        .filter_map(|ends| ends.last().map(Mark::row))
        .collect();
    format!("label\troom\tend_ms\ttotal_ms\toff_ms\tone_by_one_ms\toff_ms\n{rows}")
}

fn run(chapter: Result<Chapter, String>) -> Result<(), Box<dyn Error>> {
    let c = chapter?;
    let durations = c.aligned()?;
    let marks = c.marks(&durations);
    marks.iter().try_for_each(Mark::hold)?;
    let said = about_chapter(&c, &durations, &marks) + &about_marks(&marks) + &table(&marks);
    io::stdout()
        .write_all(said.as_bytes())
        .map_err(|_| "standard output: can't be written".into())
}

/// A word of digits alone, from the least to the most.
fn whole(word: &str, least: u32, most: u32, wanted: &str) -> Result<u32, String> {
    let digits = word.bytes().all(|byte| byte.is_ascii_digit());
    let number = word.parse().ok().filter(|_| digits);
    number
        .filter(|number| (least..=most).contains(number))
        .ok_or_else(|| format!("{word} instead of {wanted}"))
}

fn main() -> ExitCode {
    let words: Vec<String> = env::args().skip(1).collect();
    let words: Vec<&str> = words.iter().map(String::as_str).collect();
    let most = u32::try_from(MAX_NSTATE).unwrap_or(u32::MAX);
    let chapter = match words[..] {
        [] => Ok(made_up(1)),
        ["--seed", seed] => whole(seed, 0, u32::MAX, "a seed, 0 to 4294967295").map(made_up),
        [name] if !name.starts_with('-') => read_chapter(name, 1),
        [name, "--states", states] if !name.starts_with('-') => {
            whole(states, 1, most, "states a label, 1 to 16")
                .and_then(|states| read_chapter(name, states))
        }
        _ => {
            eprintln!("usage: drift [--seed SEED] | drift ENDS [--states STATES]");
            return ExitCode::from(2);
        }
    };
    if let Err(error) = run(chapter) {
        eprintln!("drift: {error}");
        return ExitCode::FAILURE;
    }
    ExitCode::SUCCESS
}
