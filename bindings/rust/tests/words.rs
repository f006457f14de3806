//! Words' spans, their parts of a trajectory and the timing file, by the rules' laws; bytes and
//! frames are written out by hand. Random words are held to a list of each frame's word, which is
//! made here state by state.

use hejmirov::{
    MAX_FRAMES, MAX_NSTATE, MAX_STATES, MAX_V, MILLISECONDS_A_FRAME, Span, TIMING_HEAD_BYTES,
    TIMING_WORD_BYTES, WordsRefusal, words_at, words_excerpt, words_excerpt_range,
    words_milliseconds, words_milliseconds_into, words_read, words_read_into, words_spans,
    words_spans_into, words_write, words_write_into,
};

// The worked words of the rules: two states a label.
const WORDS: [u32; 3] = [1, 0, 2];
const DURATIONS: [u32; 6] = [2, 3, 4, 0, 1, 5];

/// A span that a call would not give, as it ends before it begins.
const UNTOUCHED: Span = Span { first: 8, after: 7 };

fn spans<const N: usize>(numbers: [(u32, u32); N]) -> Vec<Span> {
    let span = |(first, after)| Span { first, after };
    numbers.map(span).to_vec()
}

/// A timing file of any spans, with a mark, a version and a number of words.
fn file_of(mark: &[u8], version: u16, words: u32, spans: &[(u32, u32)]) -> Vec<u8> {
    let mut bytes = mark.to_vec();
    bytes.extend(version.to_le_bytes());
    bytes.extend(words.to_le_bytes());
    for (first, after) in spans {
        bytes.extend(first.to_le_bytes());
        bytes.extend(after.to_le_bytes());
    }
    bytes
}

fn file(spans: &[(u32, u32)]) -> Vec<u8> {
    file_of(b"RAL", 1, u32::try_from(spans.len()).unwrap(), spans)
}

/// That every call without a trajectory refuses so, whatever its room and wherever it is asked, and
/// leaves what it was lent.
fn all_refuse(words: &[u32], nstate: u32, durations: &[u32], expected: WordsRefusal) {
    let refused = Err(expected);
    for room in [0, words.len().saturating_sub(1), words.len() + 1] {
        let mut spans = vec![UNTOUCHED; room];
        assert_eq!(
            words_spans_into(words, nstate, durations, &mut spans),
            refused
        );
        assert_eq!(
            words_milliseconds_into(words, nstate, durations, &mut spans),
            refused
        );
        assert!(spans.iter().all(|&span| span == UNTOUCHED));
        let mut out = vec![0xa5; 8 * room];
        let written = words_write_into(words, nstate, durations, &mut out);
        assert_eq!(written, Err(expected));
        assert!(out.iter().all(|&byte| byte == 0xa5));
    }
    assert_eq!(words_spans(words, nstate, durations), Err(expected));
    assert_eq!(words_milliseconds(words, nstate, durations), Err(expected));
    assert_eq!(words_write(words, nstate, durations), Err(expected));
    // A frame and a word that may be there, and some that can't.
    for place in [0, 65_536, u32::MAX] {
        assert_eq!(words_at(words, nstate, durations, place), Err(expected));
    }
}

/// That an excerpt refuses so, of any word; the trajectory has the right length, as far as it can.
fn excerpt_refuses(words: &[u32], nstate: u32, durations: &[u32], v: u32, expected: WordsRefusal) {
    let frames: u64 = durations.iter().map(|&frames| u64::from(frames)).sum();
    let numbers = usize::try_from(frames * u64::from(v)).unwrap_or(0);
    let trajectory = vec![1.0; numbers.min(5_000_000)];
    for word in [0, u32::MAX] {
        let refused = words_excerpt(words, nstate, durations, &trajectory, v, word);
        assert_eq!(refused, Err(expected));
        let range = words_excerpt_range(words, nstate, durations, &trajectory, v, word);
        assert_eq!(range, Err(expected));
    }
}

#[test]
fn sizes() {
    assert_eq!(words_write(&[], 1, &[]).unwrap().len(), TIMING_HEAD_BYTES);
    let file = words_write(&WORDS, 2, &DURATIONS).unwrap();
    assert_eq!(file.len(), TIMING_HEAD_BYTES + 3 * TIMING_WORD_BYTES);
    assert_eq!(MILLISECONDS_A_FRAME, 5);
}

#[test]
fn the_worked_words() {
    let expected = [(0, 5), (5, 5), (5, 15)];
    assert_eq!(words_spans(&WORDS, 2, &DURATIONS), Ok(spans(expected)));
    let times = spans([(0, 25), (25, 25), (25, 75)]);
    assert_eq!(words_milliseconds(&WORDS, 2, &DURATIONS), Ok(times));
    let sounding: Vec<_> = (0..15)
        .map(|frame| words_at(&WORDS, 2, &DURATIONS, frame))
        .collect();
    let zeros_and_twos = [0, 0, 0, 0, 0, 2, 2, 2, 2, 2, 2, 2, 2, 2, 2].map(Ok);
    assert_eq!(sounding, zeros_and_twos);
    assert_eq!(words_write(&WORDS, 2, &DURATIONS), Ok(file(&expected)));
    assert_eq!(
        file(&expected),
        b"RAL\x01\0\x03\0\0\0\0\0\0\0\x05\0\0\0\x05\0\0\0\x05\0\0\0\x05\0\0\0\x0f\0\0\0"
    );
    assert_eq!(words_read(&file(&expected)), Ok(spans(expected)));
}

#[test]
fn an_excerpt_is_a_part_of_the_trajectory_itself() {
    let trajectory: Vec<f64> = (0..30).map(f64::from).collect();
    for (word, expected) in [(0, 0..10), (1, 10..10), (2, 10..30)] {
        let part = words_excerpt(&WORDS, 2, &DURATIONS, &trajectory, 2, word).unwrap();
        assert_eq!(
            part.as_ptr_range(),
            trajectory[expected.clone()].as_ptr_range()
        );
        let range = words_excerpt_range(&WORDS, 2, &DURATIONS, &trajectory, 2, word);
        assert_eq!(range, Ok(expected));
    }
    // It lives as long as the trajectory, whatever becomes of the words.
    let part = {
        let (words, durations) = (WORDS.to_vec(), DURATIONS.to_vec());
        words_excerpt(&words, 2, &durations, &trajectory, 2, 0).unwrap()
    };
    assert_eq!(part[9].to_bits(), 9.0_f64.to_bits());
}

#[test]
fn no_words_and_words_of_no_frames() {
    assert_eq!(words_spans(&[], 3, &[]), Ok(vec![]));
    assert_eq!(words_milliseconds(&[], 3, &[]), Ok(vec![]));
    assert_eq!(words_write(&[], 3, &[]), Ok(b"RAL\x01\0\0\0\0\0".to_vec()));
    assert_eq!(words_read(b"RAL\x01\0\0\0\0\0"), Ok(vec![]));
    assert_eq!(words_at(&[], 3, &[], 0), Err(WordsRefusal::NoSuchPlace));
    let none = words_excerpt(&[], 3, &[], &[], 1, 0);
    assert_eq!(none, Err(WordsRefusal::NoSuchPlace));

    // Words without labels, before, between and behind the others; and labels without frames.
    let (words, durations) = ([0, 0, 1, 0, 2, 1, 0], [3, 0, 0, 4]);
    let expected = [(0, 0), (0, 0), (0, 3), (3, 3), (3, 3), (3, 7), (7, 7)];
    assert_eq!(words_spans(&words, 1, &durations), Ok(spans(expected)));
    let sounding: Vec<_> = (0..7)
        .map(|frame| words_at(&words, 1, &durations, frame))
        .collect();
    assert_eq!(sounding, [2, 2, 2, 5, 5, 5, 5].map(Ok));
    let gone = words_at(&words, 1, &durations, 7);
    assert_eq!(gone, Err(WordsRefusal::NoSuchPlace));

    // All frames are none, so that no frame is there to ask for, and every excerpt is empty.
    assert_eq!(
        words_spans(&[1, 1], 2, &[0; 4]),
        Ok(spans([(0, 0), (0, 0)]))
    );
    assert_eq!(
        words_at(&[1, 1], 2, &[0; 4], 0),
        Err(WordsRefusal::NoSuchPlace)
    );
    assert_eq!(words_excerpt(&[1, 1], 2, &[0; 4], &[], 64, 1), Ok(&[][..]));
    // Words alone, without a label.
    assert_eq!(words_spans(&[0; 4], 16, &[]), Ok(spans([(0, 0); 4])));
}

#[test]
fn an_utterance_out_of_range_comes_first() {
    let expected = WordsRefusal::BadUtterance;
    // Of words that agree, and of words that don't.
    for words in [&[2][..], &[3], &[]] {
        for nstate in [0, 17, u32::MAX] {
            all_refuse(words, nstate, &[1, 2], expected);
            excerpt_refuses(words, nstate, &[1, 2], 1, expected);
        }
        for v in [0, 65, u32::MAX] {
            excerpt_refuses(words, 1, &[0, 0], v, expected);
        }
        for v in [0, 65] {
            excerpt_refuses(words, 1, &[1, 2], v, expected);
        }
        // A trajectory with a number too few or too many; of any word.
        for numbers in [0, 1, 5, 7, 12] {
            let trajectory = vec![0.5; numbers];
            for word in [0, 1, u32::MAX] {
                let refused = words_excerpt(words, 1, &[1, 2], &trajectory, 2, word);
                assert_eq!(refused, Err(expected));
            }
        }
    }
    // Too many states, and too many frames; of words that agree, and of words that don't.
    for (states, frames) in [
        (4_097, 1),
        (4_097, 0),
        (4_096, 17),
        (1, 65_537),
        (2, 32_769),
    ] {
        for words in [&[states][..], &[states, 0], &[states + 1], &[]] {
            let durations = vec![frames; states as usize];
            all_refuse(words, 1, &durations, expected);
            excerpt_refuses(words, 1, &durations, 1, expected);
        }
    }
    // A frame total that a sum in 32 bits would take for 0, and one that it would take for 65,536.
    all_refuse(&[2], 1, &[1 << 31, 1 << 31], expected);
    all_refuse(&[2], 1, &[u32::MAX, 65_537], expected);
}

#[test]
fn labels_that_disagree_come_second() {
    let expected = WordsRefusal::LabelsDisagree;
    for (words, nstate, states) in [
        (&[1][..], 1, 0),
        (&[1], 1, 2),
        (&[], 1, 1),
        (&[0, 0], 2, 2),
        (&[1, 1], 2, 3),
        (&[1, 1], 2, 2),
        (&[2], 3, 5),
        (&[2], 3, 7),
        (&[1, 0, 2], 3, 6),
        // Sums and products that 32 bits would take for others.
        (&[1 << 31, 1 << 31], 1, 0),
        (&[u32::MAX, 3], 1, 2),
        (&[1 << 31], 2, 0),
        (&[(1 << 30) + 1], 4, 4),
        (&[u32::MAX; 5], 16, 4_096),
    ] {
        all_refuse(words, nstate, &vec![1; states], expected);
        excerpt_refuses(words, nstate, &vec![1; states], 2, expected);
    }
}

#[test]
fn a_frame_and_a_word_that_are_not_there() {
    let expected = Err(WordsRefusal::NoSuchPlace);
    for frame in [15, 16, 65_535, 65_536, u32::MAX] {
        assert_eq!(words_at(&WORDS, 2, &DURATIONS, frame), expected);
    }
    let trajectory = [0.25; 15];
    for word in [3, 4, 1 << 31, u32::MAX] {
        let refused = words_excerpt(&WORDS, 2, &DURATIONS, &trajectory, 1, word);
        assert_eq!(refused, Err(WordsRefusal::NoSuchPlace));
    }
}

#[test]
fn too_little_room_comes_last() {
    let expected = Err(WordsRefusal::TooLittleRoom);
    for room in 0..3 {
        let mut list = vec![UNTOUCHED; room];
        assert_eq!(words_spans_into(&WORDS, 2, &DURATIONS, &mut list), expected);
        assert_eq!(
            words_milliseconds_into(&WORDS, 2, &DURATIONS, &mut list),
            expected
        );
        let read = words_read_into(&file(&[(0, 5), (5, 5), (5, 15)]), &mut list);
        assert_eq!(read, Err(WordsRefusal::TooLittleRoom));
        assert_eq!(list, vec![UNTOUCHED; room]);
    }
    for room in 0..33 {
        let mut out = vec![0xa5; room];
        let written = words_write_into(&WORDS, 2, &DURATIONS, &mut out);
        assert_eq!(written, Err(WordsRefusal::TooLittleRoom));
        assert_eq!(out, vec![0xa5; room]);
    }
    // What lies behind the answer is not touched.
    let mut list = [UNTOUCHED; 5];
    words_spans_into(&WORDS, 2, &DURATIONS, &mut list).unwrap();
    assert_eq!(list[2..], spans([(5, 15), (8, 7), (8, 7)]));
    words_milliseconds_into(&WORDS, 2, &DURATIONS, &mut list).unwrap();
    assert_eq!(list[2..], spans([(25, 75), (8, 7), (8, 7)]));
    assert_eq!(words_read_into(&file(&[(0, 3)]), &mut list), Ok(1));
    assert_eq!(list[..3], spans([(0, 3), (25, 25), (25, 75)]));
    let mut out = [0xa5; 36];
    assert_eq!(words_write_into(&WORDS, 2, &DURATIONS, &mut out), Ok(33));
    assert_eq!(out[29..], [15, 0, 0, 0, 0xa5, 0xa5, 0xa5]);
}

#[test]
fn a_malformed_file_comes_before_too_little_room() {
    let good = file(&[(0, 5), (5, 5), (5, 15)]);
    let longer = |bytes: &[u8], byte: u8| [bytes, &[byte]].concat();
    let mut malformed = vec![
        file_of(b"RAL", 0, 1, &[(0, 5)]),
        file_of(b"RAL", 2, 1, &[(0, 5)]),
        file_of(b"RAL", 0x0100, 1, &[(0, 5)]), // the least byte is the first
        file_of(b"RAL", 0x0101, 1, &[(0, 5)]),
        file_of(b"RAL", u16::MAX, 1, &[(0, 5)]),
        file_of(b"ral", 1, 1, &[(0, 5)]),
        file_of(b"RAM", 1, 1, &[(0, 5)]),
        file_of(b"RbL", 1, 1, &[(0, 5)]),
        file_of(b"LAR", 1, 1, &[(0, 5)]),
        file_of(b"VST", 1, 1, &[(0, 5)]),
        // Other numbers of words than the length has.
        file_of(b"RAL", 1, 0, &[(0, 5)]),
        file_of(b"RAL", 1, 2, &[(0, 5)]),
        file_of(b"RAL", 1, u32::MAX, &[(0, 5)]),
        file_of(b"RAL", 1, 0x0100_0000, &[(0, 5)]),
        file_of(b"RAL", 1, 0x2000_0001, &[(0, 5)]), // times 8 it is 8 in 32 bits
        longer(&good, 0),
        longer(b"RAL\x01\0\0\0\0\0", 0),
        // Words that don't touch, from 0 on.
        file(&[(1, 5)]),
        file(&[(u32::MAX, u32::MAX)]),
        file(&[(0, 5), (4, 6)]),
        file(&[(0, 5), (6, 7)]),
        file(&[(0, 5), (0, 5)]),
        file(&[(5, 15), (0, 5)]),
        // A word that ends before it begins.
        file(&[(0, 5), (5, 4)]),
        file(&[(0, 5), (5, 0)]),
        file(&[(0, 5), (5, 4), (4, 9)]),
        file(&[(0, u32::MAX), (u32::MAX, 0)]),
        // The last word alone is wrong.
        file(&[(0, 5), (5, 9), (9, 9), (10, 12)]),
    ];
    malformed.extend((0..good.len()).map(|end| good[..end].to_vec()));
    for bytes in malformed {
        assert_eq!(
            words_read(&bytes),
            Err(WordsRefusal::Malformed),
            "{bytes:?}"
        );
        for room in [0, 1, 40] {
            let mut list = vec![UNTOUCHED; room];
            let read = words_read_into(&bytes, &mut list);
            assert_eq!(read, Err(WordsRefusal::Malformed), "{bytes:?}");
            assert_eq!(list, vec![UNTOUCHED; room]);
        }
    }
}

#[test]
fn a_file_may_name_any_frames() {
    let most = u32::MAX;
    for expected in [
        vec![(0, most)],
        vec![(0, 0), (0, most), (most, most)],
        vec![(0, 65_536), (65_536, 65_537)],
        vec![(0, 1 << 31), (1 << 31, (1 << 31) + 1)],
    ] {
        let read = words_read(&file(&expected)).unwrap();
        let numbers: Vec<_> = read.iter().map(|span| (span.first, span.after)).collect();
        assert_eq!(numbers, expected);
    }
    // More words than any utterance has states.
    let many: Vec<_> = (0..100_000).map(|frame| (frame, frame + 1)).collect();
    let read = words_read(&file(&many)).unwrap();
    assert_eq!(read.len(), 100_000);
    assert_eq!(
        read[99_999],
        Span {
            first: 99_999,
            after: 100_000
        }
    );
}

#[test]
fn the_largest_utterance() {
    // 16 frames a state; a word a label, and a label has 16 states.
    let (nstate, labels) = (16, MAX_STATES / MAX_NSTATE);
    let (words, durations) = (vec![1; labels], vec![16; MAX_STATES]);
    let all = words_spans(&words, nstate, &durations).unwrap();
    assert_eq!(
        all[0],
        Span {
            first: 0,
            after: 256
        }
    );
    assert_eq!(
        all[255],
        Span {
            first: 65_280,
            after: 65_536
        }
    );
    let times = words_milliseconds(&words, nstate, &durations).unwrap();
    assert_eq!(
        times[255],
        Span {
            first: 326_400,
            after: 327_680
        }
    );
    assert_eq!(words_at(&words, nstate, &durations, 65_535), Ok(255));
    let gone = words_at(&words, nstate, &durations, 65_536);
    assert_eq!(gone, Err(WordsRefusal::NoSuchPlace));
    let trajectory = vec![0.0; MAX_FRAMES * MAX_V];
    let last = words_excerpt_range(&words, nstate, &durations, &trajectory, 64, 255);
    assert_eq!(last, Ok(4_177_920..4_194_304));

    // All frames in the first of 4,096 states, and all in the last.
    let mut durations = vec![0; MAX_STATES];
    durations[0] = 65_536;
    assert_eq!(words_at(&[1; MAX_STATES], 1, &durations, 65_535), Ok(0));
    durations.rotate_left(1);
    let all = words_spans(&[1; MAX_STATES], 1, &durations).unwrap();
    assert_eq!(all[4_094..], spans([(0, 0), (0, 65_536)]));

    // Words of no labels are not counted against the states.
    let mut words = vec![0; 100_000];
    (words[0], words[99_999]) = (4_095, 1);
    let all = words_spans(&words, 1, &durations).unwrap();
    assert_eq!(all.len(), 100_000);
    assert_eq!(all[99_998..], spans([(0, 0), (0, 65_536)]));
    assert_eq!(words_at(&words, 1, &durations, 7), Ok(99_999));
    let bytes = words_write(&words, 1, &durations).unwrap();
    assert_eq!(bytes.len(), 800_009);
    assert_eq!(bytes[5..9], 100_000_u32.to_le_bytes());
    assert_eq!(words_read(&bytes), Ok(all));
}

#[test]
fn how_a_refusal_is_said() {
    for (refusal, number, text) in [
        (
            WordsRefusal::LabelsDisagree,
            1,
            "words: refused 1: labels and durations disagree, or too many words",
        ),
        (
            WordsRefusal::NoSuchPlace,
            2,
            "words: refused 2: no such frame or word",
        ),
        (
            WordsRefusal::Malformed,
            3,
            "words: refused 3: timing file's mark, version, length or words are wrong",
        ),
        (
            WordsRefusal::TooLittleRoom,
            4,
            "words: refused 4: output shorter than the answer",
        ),
        (
            WordsRefusal::BadUtterance,
            5,
            "words: refused 5: durations, nstate, v or a trajectory out of range",
        ),
        (
            WordsRefusal::Unknown(6),
            6,
            "words: refused 6: a refusal that these bindings don't know",
        ),
    ] {
        assert_eq!(refusal.number(), number);
        let error: Box<dyn std::error::Error> = Box::new(refusal);
        assert_eq!(error.to_string(), text);
    }
}

/// Whole numbers from a seed: splitmix64.
struct Seed(u64);

impl Seed {
    fn next(&mut self) -> u64 {
        self.0 = self.0.wrapping_add(0x9e37_79b9_7f4a_7c15);
        let z = (self.0 ^ (self.0 >> 30)).wrapping_mul(0xbf58_476d_1ce4_e5b9);
        let z = (z ^ (z >> 27)).wrapping_mul(0x94d0_49bb_1331_11eb);
        z ^ (z >> 31)
    }

    fn below(&mut self, end: u32) -> u32 {
        u32::try_from(self.next() % u64::from(end)).unwrap()
    }

    /// Some numbers below `end`, every other one 0.
    fn numbers(&mut self, count: u32, end: u32) -> Vec<u32> {
        let half = |seed: &mut Self| seed.below(2) * seed.below(end);
        (0..count).map(|_| half(self)).collect()
    }
}

/// The word of each frame, in order: frame by frame, state by state, label by label.
fn word_of_each_frame(words: &[u32], nstate: u32, durations: &[u32]) -> Vec<u32> {
    let mut states = durations.iter();
    let mut owners = Vec::new();
    for (word, &labels) in (0..).zip(words) {
        for _ in 0..labels * nstate {
            let frames = *states.next().unwrap();
            owners.extend((0..frames).map(|_| word));
        }
    }
    assert_eq!(states.next(), None);
    owners
}

#[test]
fn random_words_keep_the_laws() {
    let mut seed = Seed(6);
    let (mut silent, mut frames_in_all) = (0, 0);
    for _ in 0..3_000 {
        let nstate = 1 + seed.below(16);
        let (count, most) = (seed.below(12), 1 + seed.below(5));
        let words = seed.numbers(count, most);
        let labels: u32 = words.iter().sum();
        let most = 1 + seed.below(9);
        let durations = seed.numbers(labels * nstate, most);
        let owners = word_of_each_frame(&words, nstate, &durations);
        let frames = u32::try_from(owners.len()).unwrap();

        // A word begins behind all frames of the words before it, and ends behind its own.
        let until = |word: u32| owners.iter().filter(|&&owner| owner < word).count();
        let ends = |word| u32::try_from(until(word)).unwrap();
        let expected: Vec<Span> = (0..count)
            .map(|word| Span {
                first: ends(word),
                after: ends(word + 1),
            })
            .collect();
        let given = words_spans(&words, nstate, &durations).unwrap();
        assert_eq!(given, expected);
        let times = expected.iter().map(|span| (5 * span.first, 5 * span.after));
        let given = words_milliseconds(&words, nstate, &durations).unwrap();
        assert!(given.iter().map(|span| (span.first, span.after)).eq(times));

        // Words touch and cover, and each frame is in exactly one.
        let mut end = 0;
        for span in &expected {
            assert_eq!(span.first, end);
            assert!(span.first <= span.after);
            silent += u32::from(span.first == span.after);
            end = span.after;
        }
        assert_eq!(end, frames);
        for (frame, &owner) in (0..).zip(&owners) {
            assert_eq!(words_at(&words, nstate, &durations, frame), Ok(owner));
            let holding = |span: &&Span| span.first <= frame && frame < span.after;
            assert_eq!(expected.iter().filter(holding).count(), 1);
        }
        let gone = words_at(&words, nstate, &durations, frames);
        assert_eq!(gone, Err(WordsRefusal::NoSuchPlace));
        frames_in_all += frames;

        // The excerpts, joined, are the trajectory.
        let v = 1 + seed.below(3);
        let trajectory: Vec<f64> = (0..frames * v).map(f64::from).collect();
        let excerpt = |word| words_excerpt(&words, nstate, &durations, &trajectory, v, word);
        let parts: Vec<&[f64]> = (0..count).map(|word| excerpt(word).unwrap()).collect();
        assert_eq!(parts.concat(), trajectory);
        for (part, span) in parts.iter().zip(&expected) {
            assert_eq!(part.len(), ((span.after - span.first) * v) as usize);
        }

        // What was written is read back.
        let numbers: Vec<_> = expected
            .iter()
            .map(|span| (span.first, span.after))
            .collect();
        let bytes = words_write(&words, nstate, &durations).unwrap();
        assert_eq!(bytes, file(&numbers));
        assert_eq!(words_read(&bytes), Ok(expected));

        // A label or a state more or less disagrees.
        if let Some(last) = words.last() {
            let mut more = words.clone();
            more[words.len() - 1] = last + 1;
            let refused = words_spans(&more, nstate, &durations);
            assert_eq!(refused, Err(WordsRefusal::LabelsDisagree));
        }
        let refused = words_spans(&words, nstate, &[&durations[..], &[1]].concat());
        assert_eq!(refused, Err(WordsRefusal::LabelsDisagree));
    }
    assert!(silent > 1_000, "{silent}");
    assert!(frames_in_all > 50_000, "{frames_in_all}");
}
