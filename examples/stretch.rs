//! Renders one stretch of a sentence anew, and not the whole sentence, where a listener has flagged
//! a frame of it.
//!
//! usage: `stretch [FRAME]`
//!
//! A sentence is made up and rendered. FRAME, 222 where it is not given, is the frame that was
//! flagged: the voiced run that it lies in is found, rendered alone, and held to the sentence's
//! numbers. Then the state that sounds there gets another mean, as one that was recorded anew; the
//! run is rendered alone again and put in its place, and all numbers are held to those of the whole
//! sentence, rendered anew. A table of the runs is printed, and what each rendering took.
//! `stretch.c` does the same and prints the same text.
//!
//! Zeros of either sign are the same here: that is what is promised, where the numbers are finite
//! and no run ends in a zero; `Stream::run` has it to the letter.

use std::env;
use std::error::Error;
use std::fmt::Write as _;
use std::io::{self, Write as _};
use std::iter::zip;
use std::process::ExitCode;

use hejmirov::{
    MILLISECONDS_A_FRAME, Refusal, Run, Stream, WORK_FLOATS_A_FRAME, WORK_MARKS_A_FRAME, Windows,
};

/// "Keep the text as it stands": phones, and whether they are voiced.
const PHONES: [(&str, bool); 22] = [
    ("pau", false),
    ("k", false),
    ("iy", true),
    ("p", false),
    ("dh", true),
    ("ax", true),
    ("t", false),
    ("eh", true),
    ("k", false),
    ("s", false),
    ("t", false),
    ("ae", true),
    ("z", true),
    ("ih", true),
    ("t", false),
    ("s", false),
    ("t", false),
    ("ae", true),
    ("n", true),
    ("d", true),
    ("z", true),
    ("pau", false),
];

const STATES_A_PHONE: usize = 3;

const V: usize = 4;

/// Static, velocity and acceleration.
const STREAM: Stream = Stream {
    v: 4,
    windows: Windows {
        widths: &[1, 3, 3],
        coefficients: &[1.0, -0.5, 0.0, 0.5, 1.0, -2.0, 1.0],
    },
    masked: true,
    threshold: 0.5,
    fill: -1e10,
    gv: None,
};

const RECORDED_ANEW: f64 = 0.25;

const FLAGGED: &str = "222";

#[derive(Default)]
struct Sentence {
    durations: Vec<u32>,
    records: Vec<f64>,
}

/// A number from 0 on, below the count: Knuth's linear congruential generator, its upper bits.
fn draw(seed: &mut u64, count: u32) -> u32 {
    *seed = seed
        .wrapping_mul(6_364_136_223_846_793_005)
        .wrapping_add(1_442_695_040_888_963_407);
    u32::try_from(*seed >> 33).map_or(0, |bits| bits % count) // there are 31 bits
}

impl Sentence {
    /// A state has 2 to 10 frames, means from 4 to 6 and, of the changes, about 0.
    fn made_up() -> Self {
        let (mut s, mut seed) = (Self::default(), 1);
        let pairs = STREAM.pairs_a_frame();
        for (_, is_voiced) in PHONES {
            for _ in 0..STATES_A_PHONE {
                s.durations.push(2 + draw(&mut seed, 9));
                let mut drawn = |count| f64::from(draw(&mut seed, count));
                s.records
                    .extend((0..V).map(|_| (400.0 + drawn(201)) / 100.0));
                s.records
                    .extend((V..pairs).map(|_| (drawn(101) - 50.0) / 1000.0));
                s.records
                    .extend((0..pairs).map(|_| (1.0 + drawn(100)) / 1000.0));
                s.records.push(if is_voiced { 0.9 } else { 0.1 });
            }
        }
        s
    }

    fn frames(&self) -> u32 {
        self.durations.iter().sum()
    }

    /// The states in order, each with its first frame.
    fn states(&self) -> impl Iterator<Item = (usize, u32)> {
        let begins = self.durations.iter().scan(0, |next, frames| {
            let first = *next;
            *next += frames;
            Some(first)
        });
        begins.enumerate()
    }

    /// The whole sentence's numbers.
    fn render(&self) -> Result<Rendered, Refusal> {
        let mut r = Rendered::of(self.frames());
        let room = (&mut r.numbers, &mut r.work, &mut r.marks);
        STREAM.trajectory_into(&self.records, &self.durations, room.0, room.1, room.2)?;
        Ok(r)
    }

    /// Those of one run alone, in room for its own frames.
    fn render_run(&self, runs: &[Run], number: usize) -> Result<Rendered, Box<dyn Error>> {
        let mut r = Rendered::of(runs[number].frames);
        let room = (&mut r.numbers, &mut r.work, &mut r.marks);
        let number = u32::try_from(number)?;
        STREAM.run_into(
            &self.records,
            &self.durations,
            number,
            room.0,
            room.1,
            room.2,
        )?;
        Ok(r)
    }

    /// The phones of a run, with spaces between them.
    fn phones(&self, run: Run) -> String {
        let begins = self.states().step_by(STATES_A_PHONE);
        let names: Vec<&str> = zip(begins, PHONES)
            .filter(|((_, frame), _)| run.has(*frame))
            .map(|(_, (name, _))| name)
            .collect();
        names.join(" ")
    }

    /// The state at a frame gets another mean.
    fn record_anew(&mut self, frame: u32) -> String {
        let last = self
            .states()
            .take_while(|&(_, first)| first <= frame)
            .last();
        let (state, first) = last.unwrap_or_default();
        let mean = &mut self.records[state * STREAM.record_len()];
        let (before, (name, _)) = (*mean, PHONES[state / STATES_A_PHONE]);
        *mean += RECORDED_ANEW;
        format!(
            "recorded anew: {name}.{}, frames {first} to {}, with the first mean {mean:.2} instead \
             of {before:.2}\n",
            state % STATES_A_PHONE + 1,
            first + self.durations[state] - 1
        )
    }
}

/// The numbers of some frames, and the room that the call was lent for them.
struct Rendered {
    numbers: Vec<f64>,
    work: Vec<f64>,
    marks: Vec<u32>,
}

impl Rendered {
    fn of(frames: u32) -> Self {
        let frames = frames as usize;
        Rendered {
            numbers: vec![0.0; frames * V],
            work: vec![0.0; frames * WORK_FLOATS_A_FRAME],
            marks: vec![0; frames * WORK_MARKS_A_FRAME],
        }
    }
}

/// Fails at the first number that is another; the frames are counted from `first`.
#[allow(clippy::float_cmp)] // all or nothing, but zeros of either sign are equal
fn hold(what: &str, numbers: &[f64], wanted: &[f64], first: u32) -> Result<(), String> {
    match zip(numbers, wanted).position(|(number, wanted)| number != wanted) {
        Some(place) => Err(format!(
            "{what}: another number at frame {}, component {}",
            first as usize + place / V,
            place % V
        )),
        None => Ok(()),
    }
}

/// When a frame begins.
fn seconds(frame: u32) -> String {
    let ms = frame * MILLISECONDS_A_FRAME;
    format!("{}.{:03}", ms / 1000, ms % 1000)
}

fn table(s: &Sentence, runs: &[Run], flagged: u32) -> Result<String, Box<dyn Error>> {
    let mut table = String::from("run\tfirst_frame\tframes\tfrom_s\tto_s\tflagged\tphones\n");
    for (number, &run) in runs.iter().enumerate() {
        let Run { first, frames } = run;
        let (from, to) = (seconds(first), seconds(first + frames));
        let is_flagged = if run.has(flagged) { "yes" } else { "no" };
        let phones = s.phones(run);
        writeln!(
            table,
            "{number}\t{first}\t{frames}\t{from}\t{to}\t{is_flagged}\t{phones}"
        )?;
    }
    Ok(table)
}

/// The run is rendered alone and held to its part of the sentence.
fn about_alone(
    s: &Sentence,
    runs: &[Run],
    number: usize,
    sentence: &Rendered,
) -> Result<String, Box<dyn Error>> {
    let run = runs[number];
    let alone = s.render_run(runs, number)?;
    let part = &sentence.numbers[run.range(STREAM.v)];
    hold("the run alone", &alone.numbers, part, run.first)?;
    Ok(format!(
        "run {number} alone: {} numbers compared with the sentence's, all equal\n\
         work space: {} floats and {} marks for the run, {} and {} for the sentence\n",
        alone.numbers.len(),
        alone.work.len(),
        alone.marks.len(),
        sentence.work.len(),
        sentence.marks.len()
    ))
}

/// The run is rendered alone and put in its place, and all is held to the sentence rendered anew.
fn about_put(
    s: &Sentence,
    runs: &[Run],
    number: usize,
    frame: u32,
    sentence: &mut Rendered,
) -> Result<String, Box<dyn Error>> {
    let (alone, anew) = (s.render_run(runs, number)?, s.render()?);
    let (heard, place) = (frame as usize * V, runs[number].range(STREAM.v));
    let before = sentence.numbers[heard];
    sentence.numbers[place].copy_from_slice(&alone.numbers);
    hold("the run in its place", &sentence.numbers, &anew.numbers, 0)?;
    Ok(format!(
        "frame {frame}, component 0: {:.6} instead of {before:.6}\n\
         run {number} in its place: {} numbers compared with the whole sentence's, rendered anew, \
         all equal\n",
        sentence.numbers[heard],
        anew.numbers.len()
    ))
}

/// A word of digits alone: a sign is none.
fn whole(word: &str) -> Option<u32> {
    let digits = word.bytes().all(|byte| byte.is_ascii_digit());
    word.parse().ok().filter(|_| digits)
}

fn run(word: &str) -> Result<(), Box<dyn Error>> {
    let instead = |wanted: &str| format!("{word} instead of {wanted}");
    let flagged = whole(word).ok_or_else(|| instead("a frame"))?;
    let mut s = Sentence::made_up();
    let frames = s.frames();
    if flagged >= frames {
        return Err(instead("a frame of the sentence").into());
    }
    let mut sentence = s.render()?;
    let runs = STREAM.runs(&s.records, &s.durations)?;
    let number = runs
        .iter()
        .position(|run| run.has(flagged))
        .ok_or_else(|| format!("frame {flagged} is in no run: it is unvoiced"))?;
    let said = [
        format!(
            "sentence: {} states, {frames} frames, {} s, {V} numbers a frame, {} voiced runs\n",
            s.durations.len(),
            seconds(frames),
            runs.len()
        ),
        table(&s, &runs, flagged)?,
        format!(
            "flagged: frame {flagged}, at {} s, in run {number}\n",
            seconds(flagged)
        ),
        about_alone(&s, &runs, number, &sentence)?,
        s.record_anew(flagged),
        about_put(&s, &runs, number, flagged, &mut sentence)?,
    ];
    io::stdout()
        .write_all(said.concat().as_bytes())
        .map_err(|_| "standard output: can't be written".into())
}

fn main() -> ExitCode {
    let words: Vec<String> = env::args().skip(1).collect();
    let done = match &words[..] {
        [] => run(FLAGGED),
        [word] if !word.starts_with('-') => run(word),
        _ => {
            eprintln!("usage: stretch [FRAME]");
            return ExitCode::from(2);
        }
    };
    if let Err(error) = done {
        eprintln!("stretch: {error}");
        return ExitCode::FAILURE;
    }
    ExitCode::SUCCESS
}
