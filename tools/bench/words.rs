//! The calls of words on the longest lists, beside a plain Rust of the same rules over the same lists: how the time grows
//! with the number of words, with a word's place, and with the words of a file.

use std::hint::black_box;

use crate::{Side, least_times, row};

unsafe extern "C" {
    fn hejmirov_words_spans(
        words: *const u32, n_words: usize, nstate: u32, durations: *const u32, n_durations: usize,
        spans: *mut u32, n_spans: usize,
    ) -> u32;
    fn hejmirov_words_at(
        words: *const u32, n_words: usize, nstate: u32, durations: *const u32, n_durations: usize,
        frame: u32, word: *mut u32,
    ) -> u32;
    fn hejmirov_words_write(
        words: *const u32, n_words: usize, nstate: u32, durations: *const u32, n_durations: usize,
        out: *mut u8, n_out: usize, written: *mut u64,
    ) -> u32;
    fn hejmirov_words_read(bytes: *const u8, n_bytes: usize, spans: *mut u32, n_spans: usize, words: *mut u32) -> u32;
}

const STATES: usize = 4_096;
const FRAMES: u64 = 65_536;
const NSTATE: u32 = 1;
const HEAD: usize = 9;
const SPAN: usize = 8;
// Numbers in half a page: a load waits for a store to the same place of another page, so lists begin at others.
const HALF_PAGE: usize = 512;

/// The largest utterance, cut into words that are as long as each other, as far as they can be.
struct Utterance {
    words: Vec<u32>,
    durations: Vec<u32>,
}

impl Utterance {
    fn new(count: usize) -> Self {
        let begin = |word| (word * STATES / count) as u32;
        let words = (0..count).map(|word| begin(word + 1) - begin(word)).collect();
        // Of two states one has 10 frames and one 22.
        let durations = (0..STATES).map(|state| if state % 2 == 0 { 10 } else { 22 }).collect();
        Self { words, durations }
    }

    /// Whether the rules take it.
    fn is_taken(&self) -> bool {
        let total = |list: &[u32]| list.iter().map(|&number| u64::from(number)).sum::<u64>();
        let states = total(&self.words).checked_mul(NSTATE.into());
        self.durations.len() <= STATES && total(&self.durations) <= FRAMES && states == Some(self.durations.len() as u64)
    }

    /// Hands each word's number and its two frames on, in order, until it is enough.
    fn each(&self, mut take: impl FnMut(usize, u32, u32) -> bool) {
        let (mut state, mut frame) = (0, 0);
        for (word, &labels) in self.words.iter().enumerate() {
            let end = state + labels as usize * NSTATE as usize;
            let after = frame + self.durations[state..end].iter().sum::<u32>();
            if !take(word, frame, after) {
                return;
            }
            (state, frame) = (end, after);
        }
    }

    fn spans(&self, out: &mut [u32]) -> bool {
        if !self.is_taken() || out.len() < 2 * self.words.len() {
            return false;
        }
        self.each(|word, first, after| {
            out[2 * word..][..2].copy_from_slice(&[first, after]);
            true
        });
        true
    }

    fn write(&self, out: &mut [u8]) -> bool {
        let length = HEAD + SPAN * self.words.len();
        if !self.is_taken() || out.len() < length {
            return false;
        }
        out[..5].copy_from_slice(b"RAL\x01\0");
        out[5..HEAD].copy_from_slice(&(self.words.len() as u32).to_le_bytes());
        self.each(|word, first, after| {
            let span = &mut out[HEAD + SPAN * word..][..SPAN];
            span[..4].copy_from_slice(&first.to_le_bytes());
            span[4..].copy_from_slice(&after.to_le_bytes());
            true
        });
        true
    }

    fn at(&self, frame: u32) -> Option<usize> {
        let mut found = None;
        if self.is_taken() {
            self.each(|word, _, after| {
                found = (frame < after).then_some(word);
                found.is_none()
            });
        }
        found
    }

    // Every list comes with its own length and outlives the call.

    fn our_spans(&self, out: &mut [u32]) {
        let (words, durations) = (&self.words, &self.durations);
        let refusal = unsafe {
            hejmirov_words_spans(
                words.as_ptr(), words.len(), NSTATE, durations.as_ptr(), durations.len(), out.as_mut_ptr(), out.len(),
            )
        };
        assert_eq!(refusal, 0);
    }

    fn our_write(&self, out: &mut [u8]) {
        let (words, durations) = (&self.words, &self.durations);
        let mut written = 0;
        let refusal = unsafe {
            hejmirov_words_write(
                words.as_ptr(), words.len(), NSTATE, durations.as_ptr(), durations.len(), out.as_mut_ptr(), out.len(),
                &mut written,
            )
        };
        assert_eq!((refusal, written), (0, out.len() as u64));
    }

    fn our_at(&self, frame: u32) -> usize {
        let (words, durations) = (&self.words, &self.durations);
        let mut word = 0;
        let refusal = unsafe {
            hejmirov_words_at(words.as_ptr(), words.len(), NSTATE, durations.as_ptr(), durations.len(), frame, &mut word)
        };
        assert_eq!(refusal, 0);
        word as usize
    }
}

fn read(bytes: &[u8], out: &mut [u32]) -> Option<usize> {
    let number = |four: &[u8]| u32::from_le_bytes(four.try_into().unwrap());
    let span = |bytes: &[u8]| [number(&bytes[..4]), number(&bytes[4..])];
    if !bytes.starts_with(b"RAL\x01\0") || bytes.len() < HEAD {
        return None;
    }
    let count = number(&bytes[5..HEAD]) as usize;
    if bytes.len() != HEAD + SPAN * count {
        return None;
    }
    let mut end = 0;
    for [first, after] in bytes[HEAD..].chunks_exact(SPAN).map(span) {
        if first != end || after < end {
            return None;
        }
        end = after;
    }
    let out = out.get_mut(..2 * count)?;
    for (place, span) in out.chunks_exact_mut(2).zip(bytes[HEAD..].chunks_exact(SPAN).map(span)) {
        place.copy_from_slice(&span);
    }
    Some(count)
}

fn our_read(bytes: &[u8], out: &mut [u32]) -> usize {
    let mut words = 0;
    // Every list comes with its own length and outlives the call.
    let refusal = unsafe { hejmirov_words_read(bytes.as_ptr(), bytes.len(), out.as_mut_ptr(), out.len(), &mut words) };
    assert_eq!(refusal, 0);
    words as usize
}

/// A file of words of 12 frames each.
fn file(words: u32) -> Vec<u8> {
    let mut bytes = b"RAL\x01\0".to_vec();
    bytes.extend(words.to_le_bytes());
    for word in 0..words {
        bytes.extend((12 * word).to_le_bytes());
        bytes.extend((12 * word + 12).to_le_bytes());
    }
    bytes
}

/// Short calls are timed many at once, so that reading the clock doesn't count.
pub fn timed(what: &str, rounds: u32, mut plain: impl FnMut(), mut ours: impl FnMut()) {
    let (first, second) = least_times(|side| {
        for _ in 0..rounds {
            match side {
                Side::Rust => plain(),
                Side::Ours => ours(),
            }
        }
    });
    row(what, first / rounds, second / rounds);
}

fn compare_spans(count: usize) {
    let utterance = Utterance::new(count);
    let (mut plain, mut ours) = (vec![0; 2 * count], vec![0; 2 * count]);
    assert!(utterance.spans(&mut plain));
    utterance.our_spans(&mut ours);
    assert_eq!(plain, ours);
    let what = format!("spans of {count} word{}", if count == 1 { "" } else { "s" });
    timed(
        &what,
        100,
        || assert!(black_box(&utterance).spans(black_box(&mut plain))),
        || black_box(&utterance).our_spans(black_box(&mut ours)),
    );
}

fn compare_writes(count: usize) {
    let utterance = Utterance::new(count);
    let (mut plain, mut ours) = (vec![0; HEAD + SPAN * count], vec![0; HEAD + SPAN * count]);
    assert!(utterance.write(&mut plain));
    utterance.our_write(&mut ours);
    assert_eq!(plain, ours);
    let what = format!("write {count} word{}", if count == 1 { "" } else { "s" });
    timed(
        &what,
        100,
        || assert!(black_box(&utterance).write(black_box(&mut plain))),
        || black_box(&utterance).our_write(black_box(&mut ours)),
    );
}

fn compare_at(which: &str, frame: u32) {
    let utterance = Utterance::new(STATES);
    assert_eq!(utterance.at(frame), Some(utterance.our_at(frame)));
    timed(
        &format!("at the {which} frame of {STATES} words"),
        100,
        || assert!(black_box(&utterance).at(black_box(frame)).is_some()),
        || assert!(black_box(&utterance).our_at(black_box(frame)) < STATES),
    );
}

fn compare_reads(words: u32) {
    let bytes = file(words);
    let room = HALF_PAGE + 2 * words as usize;
    let (mut plain, mut ours) = (vec![0; room], vec![0; room]);
    let (plain, ours) = (&mut plain[HALF_PAGE..], &mut ours[HALF_PAGE..]);
    assert_eq!(read(&bytes, plain), Some(our_read(&bytes, ours)));
    assert_eq!(plain, ours);
    timed(
        &format!("read {words} words"),
        if words < 100_000 { 100 } else { 1 },
        || assert!(read(black_box(&bytes), black_box(plain)).is_some()),
        || assert!(our_read(black_box(&bytes), black_box(ours)) > 0),
    );
}

pub fn run() {
    let counts = [1, 100, 1_365, STATES];
    counts.into_iter().for_each(compare_spans);
    counts.into_iter().for_each(compare_writes);
    for (which, frame) in [("first", 0), ("middle", FRAMES as u32 / 2), ("last", FRAMES as u32 - 1)] {
        compare_at(which, frame);
    }
    for words in [STATES as u32, 1_000_000] {
        compare_reads(words);
    }
}
