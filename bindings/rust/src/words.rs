//! When each word of an utterance sounds, its part of a trajectory, and the timing file.

use std::ops::Range;

use crate::{TIMING_HEAD_BYTES, TIMING_WORD_BYTES, WordsRefusal, sys};

/// A word's first frame and the frame after its last, or both in milliseconds.
///
/// A word of no frames has equal ends.
#[derive(Clone, Copy, Debug, Default, PartialEq, Eq, Hash)]
#[repr(C)] // Spans one after the other are the C calls' list of numbers.
pub struct Span {
    /// The first frame.
    pub first: u32,
    /// The frame after the last.
    pub after: u32,
}

/// Each word's first frame and the frame after its last.
///
/// A word is a number of consecutive labels, 0 too, and `words` has these numbers in order; a pause
/// is a word like any other. A label has `nstate` states, and `durations` one number of frames a
/// state, 0 too, as [`fit`](crate::fit()) and the other calls give them.
///
/// So words touch: the first begins at frame 0, each begins where the one before it ends, and the
/// last ends at the durations' total. Every frame lies in exactly one word.
///
/// # Errors
///
/// [`BadUtterance`](WordsRefusal::BadUtterance): `nstate` is not 1 to 16, there are more than 4,096
/// durations, or they total above 65,536. [`LabelsDisagree`](WordsRefusal::LabelsDisagree): there are
/// not as many durations as labels × `nstate`, or more than [`MAX_WORDS`](crate::MAX_WORDS) words.
///
/// # Examples
///
/// ```
/// use hejmirov::Span;
///
/// let spans = hejmirov::words_spans(&[1, 0, 2], 2, &[2, 3, 4, 0, 1, 5])?;
/// assert_eq!(spans[0], Span { first: 0, after: 5 });
/// assert_eq!(spans[1], Span { first: 5, after: 5 }); // a word of no labels
/// assert_eq!(spans[2], Span { first: 5, after: 15 });
/// # Ok::<(), hejmirov::WordsRefusal>(())
/// ```
pub fn words_spans(
    words: &[u32],
    nstate: u32,
    durations: &[u32],
) -> Result<Vec<Span>, WordsRefusal> {
    let mut spans = vec![Span::default(); words.len()];
    words_spans_into(words, nstate, durations, &mut spans)?;
    Ok(spans)
}

/// [`words_spans`] in the caller's memory.
///
/// The spans go to the front of `spans`, one a word. What is beyond stays as it was.
///
/// # Errors
///
/// Those of [`words_spans`], and [`TooLittleRoom`](WordsRefusal::TooLittleRoom) where there are fewer
/// spans than words. All are then as they were.
///
/// # Examples
///
/// ```
/// use hejmirov::{Span, WordsRefusal};
///
/// let mut spans = [Span { first: 7, after: 7 }; 3];
/// hejmirov::words_spans_into(&[1, 1], 1, &[4, 5], &mut spans)?;
/// assert_eq!(spans[1], Span { first: 4, after: 9 });
/// assert_eq!(spans[2], Span { first: 7, after: 7 });
///
/// let refused = hejmirov::words_spans_into(&[1, 1], 1, &[4, 5], &mut spans[..1]);
/// assert_eq!(refused, Err(WordsRefusal::TooLittleRoom));
/// # Ok::<(), WordsRefusal>(())
/// ```
pub fn words_spans_into(
    words: &[u32],
    nstate: u32,
    durations: &[u32],
    spans: &mut [Span],
) -> Result<(), WordsRefusal> {
    spans_by(sys::hejmirov_words_spans, words, nstate, durations, spans)
}

/// [`words_spans`] in whole milliseconds, of which a frame has 5.
///
/// # Errors
///
/// Those of [`words_spans`].
///
/// # Examples
///
/// ```
/// use hejmirov::Span;
///
/// let times = hejmirov::words_milliseconds(&[1, 0, 2], 2, &[2, 3, 4, 0, 1, 5])?;
/// assert_eq!(times[2], Span { first: 25, after: 75 });
/// # Ok::<(), hejmirov::WordsRefusal>(())
/// ```
pub fn words_milliseconds(
    words: &[u32],
    nstate: u32,
    durations: &[u32],
) -> Result<Vec<Span>, WordsRefusal> {
    let mut spans = vec![Span::default(); words.len()];
    words_milliseconds_into(words, nstate, durations, &mut spans)?;
    Ok(spans)
}

/// [`words_milliseconds`] in the caller's memory, as [`words_spans_into`].
///
/// # Errors
///
/// Those of [`words_spans_into`]. All spans are then as they were.
///
/// # Examples
///
/// ```
/// use hejmirov::Span;
///
/// let mut times = [Span::default(); 2];
/// hejmirov::words_milliseconds_into(&[1, 1], 1, &[4, 5], &mut times)?;
/// assert_eq!(times[1], Span { first: 20, after: 45 });
/// # Ok::<(), hejmirov::WordsRefusal>(())
/// ```
pub fn words_milliseconds_into(
    words: &[u32],
    nstate: u32,
    durations: &[u32],
    spans: &mut [Span],
) -> Result<(), WordsRefusal> {
    let call = sys::hejmirov_words_milliseconds;
    spans_by(call, words, nstate, durations, spans)
}

type SpansCall =
    unsafe extern "C" fn(*const u32, usize, u32, *const u32, usize, *mut u32, usize) -> u32;

fn spans_by(
    call: SpansCall,
    words: &[u32],
    nstate: u32,
    durations: &[u32],
    spans: &mut [Span],
) -> Result<(), WordsRefusal> {
    // SAFETY: each pointer and length are those of one slice, a span being two numbers, and the
    // written one is borrowed alone.
    let refusal = unsafe {
        call(
            words.as_ptr(),
            words.len(),
            nstate,
            durations.as_ptr(),
            durations.len(),
            spans.as_mut_ptr().cast(),
            2 * spans.len(),
        )
    };
    WordsRefusal::or(refusal, ())
}

/// The word that sounds at a frame, counted from 0: the one whose first frame the frame has reached
/// and whose frame after its last it has not. A word of no frames never sounds.
///
/// # Errors
///
/// Those of [`words_spans`]; then [`NoSuchPlace`](WordsRefusal::NoSuchPlace): the frame is not below
/// the durations' total.
///
/// # Examples
///
/// ```
/// use hejmirov::WordsRefusal;
///
/// let (words, durations) = ([1, 0, 2], [2, 3, 4, 0, 1, 5]);
/// assert_eq!(hejmirov::words_at(&words, 2, &durations, 4)?, 0);
/// assert_eq!(hejmirov::words_at(&words, 2, &durations, 5)?, 2);
/// let refused = hejmirov::words_at(&words, 2, &durations, 15);
/// assert_eq!(refused, Err(WordsRefusal::NoSuchPlace));
/// # Ok::<(), WordsRefusal>(())
/// ```
pub fn words_at(
    words: &[u32],
    nstate: u32,
    durations: &[u32],
    frame: u32,
) -> Result<u32, WordsRefusal> {
    let mut word = 0;
    // SAFETY: each pointer and length are those of one slice; the other is to a number of our own.
    let refusal = unsafe {
        sys::hejmirov_words_at(
            words.as_ptr(),
            words.len(),
            nstate,
            durations.as_ptr(),
            durations.len(),
            frame,
            &raw mut word,
        )
    };
    WordsRefusal::or(refusal, word)
}

/// The part of a trajectory that belongs to one word: its frames × `v` numbers, none for a word of no
/// frames. The parts of all words, in order, are the whole trajectory.
///
/// # Errors
///
/// [`BadUtterance`](WordsRefusal::BadUtterance): as [`words_spans`], and where `v` is not 1 to 64 or
/// the trajectory's length is not the durations' total × `v`.
/// [`LabelsDisagree`](WordsRefusal::LabelsDisagree): as [`words_spans`].
/// [`NoSuchPlace`](WordsRefusal::NoSuchPlace): there is no such word.
///
/// # Examples
///
/// ```
/// let trajectory = [0.0, 0.1, 1.0, 1.1, 2.0, 2.1];
/// let (words, durations) = ([1, 0, 2], [1, 1, 1]);
/// assert_eq!(hejmirov::words_excerpt(&words, 1, &durations, &trajectory, 2, 0)?, [0.0, 0.1]);
/// assert_eq!(hejmirov::words_excerpt(&words, 1, &durations, &trajectory, 2, 1)?, []);
/// assert_eq!(hejmirov::words_excerpt(&words, 1, &durations, &trajectory, 2, 2)?, [1.0, 1.1, 2.0, 2.1]);
/// # Ok::<(), hejmirov::WordsRefusal>(())
/// ```
pub fn words_excerpt<'a>(
    words: &[u32],
    nstate: u32,
    durations: &[u32],
    trajectory: &'a [f64],
    v: u32,
    word: u32,
) -> Result<&'a [f64], WordsRefusal> {
    let range = words_excerpt_range(words, nstate, durations, trajectory, v, word)?;
    Ok(&trajectory[range])
}

/// Where that part stands in the trajectory, counted in numbers; a word of no frames has the empty
/// range where it would start.
///
/// # Errors
///
/// Those of [`words_excerpt`].
///
/// # Examples
///
/// ```
/// let range = hejmirov::words_excerpt_range(&[1, 0, 2], 1, &[1, 1, 1], &[0.0; 6], 2, 2)?;
/// assert_eq!(range, 2..6);
/// # Ok::<(), hejmirov::WordsRefusal>(())
/// ```
// On x86-64 an index has 64 bits, and so have these two.
#[allow(clippy::cast_possible_truncation)]
pub fn words_excerpt_range(
    words: &[u32],
    nstate: u32,
    durations: &[u32],
    trajectory: &[f64],
    v: u32,
    word: u32,
) -> Result<Range<usize>, WordsRefusal> {
    let (mut first, mut count) = (0, 0);
    // SAFETY: each pointer and length are those of one slice; the others are to numbers of our own.
    let refusal = unsafe {
        sys::hejmirov_words_excerpt(
            words.as_ptr(),
            words.len(),
            nstate,
            durations.as_ptr(),
            durations.len(),
            trajectory.as_ptr(),
            trajectory.len(),
            v,
            word,
            &raw mut first,
            &raw mut count,
        )
    };
    WordsRefusal::or(refusal, first as usize..(first + count) as usize)
}

/// The timing file of words, little-endian: `RAL`, version 1 (16 bits), the number of words (32
/// bits), then each word's first frame and the frame after its last (32 bits each).
///
/// Reading it gives the spans of [`words_spans`].
///
/// # Errors
///
/// Those of [`words_spans`].
///
/// # Examples
///
/// ```
/// let file = hejmirov::words_write(&[1, 1], 1, &[4, 5])?;
/// assert_eq!(file[..9], *b"RAL\x01\0\x02\0\0\0");
/// assert_eq!(file[9..], *b"\0\0\0\0\x04\0\0\0\x04\0\0\0\x09\0\0\0");
/// assert_eq!(hejmirov::words_read(&file)?, hejmirov::words_spans(&[1, 1], 1, &[4, 5])?);
/// # Ok::<(), hejmirov::WordsRefusal>(())
/// ```
pub fn words_write(words: &[u32], nstate: u32, durations: &[u32]) -> Result<Vec<u8>, WordsRefusal> {
    let mut bytes = vec![0; TIMING_HEAD_BYTES + TIMING_WORD_BYTES * words.len()];
    words_write_into(words, nstate, durations, &mut bytes)?;
    Ok(bytes)
}

/// [`words_write`] in the caller's memory; it answers how many bytes the file has:
/// [`TIMING_HEAD_BYTES`], and [`TIMING_WORD_BYTES`] a word.
///
/// The file goes to the front of `out`. What is beyond stays as it was.
///
/// # Errors
///
/// Those of [`words_write`], and [`TooLittleRoom`](WordsRefusal::TooLittleRoom) where `out` is
/// shorter than the file. It is then as it was.
///
/// # Examples
///
/// ```
/// use hejmirov::WordsRefusal;
///
/// let mut out = [0xff; 20];
/// assert_eq!(hejmirov::words_write_into(&[1], 1, &[4], &mut out)?, 17);
/// assert_eq!(out[..9], *b"RAL\x01\0\x01\0\0\0");
/// assert_eq!(out[9..], *b"\0\0\0\0\x04\0\0\0\xff\xff\xff");
///
/// let refused = hejmirov::words_write_into(&[1], 1, &[4], &mut out[..16]);
/// assert_eq!(refused, Err(WordsRefusal::TooLittleRoom));
/// # Ok::<(), WordsRefusal>(())
/// ```
// On x86-64 an index has 64 bits, and so has this number.
#[allow(clippy::cast_possible_truncation)]
pub fn words_write_into(
    words: &[u32],
    nstate: u32,
    durations: &[u32],
    out: &mut [u8],
) -> Result<usize, WordsRefusal> {
    let mut written = 0;
    // SAFETY: each pointer and length are those of one slice, and the written one is borrowed alone.
    let refusal = unsafe {
        sys::hejmirov_words_write(
            words.as_ptr(),
            words.len(),
            nstate,
            durations.as_ptr(),
            durations.len(),
            out.as_mut_ptr(),
            out.len(),
            &raw mut written,
        )
    };
    WordsRefusal::or(refusal, written as usize)
}

/// The spans that a timing file says. The bytes are the whole file, as [`words_write`] gives it; a
/// frame may be any number.
///
/// # Errors
///
/// [`Malformed`](WordsRefusal::Malformed): the file doesn't begin with `RAL`, its version is not 1, it
/// has another length, the first word doesn't begin at 0, a word doesn't begin where the one before
/// it ends, or a word ends before it begins.
///
/// # Examples
///
/// ```
/// use hejmirov::{Span, WordsRefusal};
///
/// let file = b"RAL\x01\0\x01\0\0\0\0\0\0\0\x04\0\0\0";
/// assert_eq!(hejmirov::words_read(file)?, [Span { first: 0, after: 4 }]);
/// assert_eq!(hejmirov::words_read(&file[..16]), Err(WordsRefusal::Malformed));
/// # Ok::<(), WordsRefusal>(())
/// ```
pub fn words_read(bytes: &[u8]) -> Result<Vec<Span>, WordsRefusal> {
    // A file of another length is refused before room is looked at.
    let words = bytes.len().saturating_sub(TIMING_HEAD_BYTES) / TIMING_WORD_BYTES;
    let mut spans = vec![Span::default(); words];
    words_read_into(bytes, &mut spans)?;
    Ok(spans)
}

/// [`words_read`] in the caller's memory; it answers how many words the file has.
///
/// The spans go to the front of `spans`. What is beyond stays as it was.
///
/// # Errors
///
/// That of [`words_read`], and [`TooLittleRoom`](WordsRefusal::TooLittleRoom) where there are fewer
/// spans than the file has words. All are then as they were.
///
/// # Examples
///
/// ```
/// use hejmirov::{Span, WordsRefusal};
///
/// let file = hejmirov::words_write(&[1, 1], 1, &[4, 5])?;
/// let mut spans = [Span::default(); 10];
/// let words = hejmirov::words_read_into(&file, &mut spans)?;
/// assert_eq!(spans[..words], [Span { first: 0, after: 4 }, Span { first: 4, after: 9 }]);
///
/// let refused = hejmirov::words_read_into(&file, &mut spans[..1]);
/// assert_eq!(refused, Err(WordsRefusal::TooLittleRoom));
/// # Ok::<(), WordsRefusal>(())
/// ```
pub fn words_read_into(bytes: &[u8], spans: &mut [Span]) -> Result<usize, WordsRefusal> {
    let mut words = 0;
    // SAFETY: each pointer and length are those of one slice, a span being two numbers, and the
    // written one is borrowed alone; the other pointer is to a number of our own.
    let refusal = unsafe {
        sys::hejmirov_words_read(
            bytes.as_ptr(),
            bytes.len(),
            spans.as_mut_ptr().cast(),
            2 * spans.len(),
            &raw mut words,
        )
    };
    WordsRefusal::or(refusal, words as usize)
}

#[cfg(test)]
mod tests {
    //! What only the C calls can be asked: lists of numbers that are no whole spans, and what stands
    //! behind the pointers after a refusal.

    use super::sys;

    const WORDS: [u32; 3] = [1, 0, 2];
    const DURATIONS: [u32; 6] = [2, 3, 4, 0, 1, 5];
    const FILE: &[u8; 25] = b"RAL\x01\0\x02\0\0\0\0\0\0\0\x05\0\0\0\x05\0\0\0\x05\0\0\0";

    /// The numbers of spans and of milliseconds with room for so many numbers, which they leave.
    fn spans(nstate: u32, room: usize) -> [(u32, Vec<u32>); 2] {
        let calls = [sys::hejmirov_words_spans, sys::hejmirov_words_milliseconds];
        calls.map(|call| {
            let mut spans = vec![7; room];
            // SAFETY: each pointer and length are those of one list, and the written one is borrowed alone.
            let number = unsafe {
                call(
                    WORDS.as_ptr(),
                    WORDS.len(),
                    nstate,
                    DURATIONS.as_ptr(),
                    DURATIONS.len(),
                    spans.as_mut_ptr(),
                    spans.len(),
                )
            };
            (number, spans)
        })
    }

    #[test]
    fn a_number_too_few_and_a_number_too_many() {
        for room in [0, 1, 4, 5] {
            assert_eq!(spans(2, room), [(4, vec![7; room]), (4, vec![7; room])]);
            assert_eq!(spans(3, room), [(1, vec![7; room]), (1, vec![7; room])]);
            assert_eq!(spans(0, room), [(5, vec![7; room]), (5, vec![7; room])]);
        }
        let frames = vec![0, 5, 5, 5, 5, 15, 7];
        let times = vec![0, 25, 25, 25, 25, 75, 7];
        assert_eq!(spans(2, 7), [(0, frames), (0, times)]);
    }

    #[test]
    fn the_word_stays_where_a_call_refuses() {
        for (nstate, frame, expected) in [
            (17, 15, (5, 21)),
            (3, 15, (1, 21)),
            (2, 15, (2, 21)),
            (2, u32::MAX, (2, 21)),
            (2, 14, (0, 2)),
        ] {
            let mut word = 21;
            // SAFETY: each pointer and length are those of one list; the other is to a number of our own.
            let number = unsafe {
                sys::hejmirov_words_at(
                    WORDS.as_ptr(),
                    WORDS.len(),
                    nstate,
                    DURATIONS.as_ptr(),
                    DURATIONS.len(),
                    frame,
                    &raw mut word,
                )
            };
            assert_eq!((number, word), expected);
        }
    }

    #[test]
    fn first_and_count_stay_where_a_call_refuses() {
        let trajectory = [0.0; 30];
        for (nstate, v, word, expected) in [
            (2, 3, 3, (5, 21, 22)),
            (17, 2, 3, (5, 21, 22)),
            (3, 2, 3, (1, 21, 22)),
            (2, 2, 3, (2, 21, 22)),
            (2, 2, 2, (0, 10, 20)),
            (2, 2, 1, (0, 10, 0)),
        ] {
            let (mut first, mut count) = (21, 22);
            // SAFETY: each pointer and length are those of one list; the others are to numbers of our own.
            let number = unsafe {
                sys::hejmirov_words_excerpt(
                    WORDS.as_ptr(),
                    WORDS.len(),
                    nstate,
                    DURATIONS.as_ptr(),
                    DURATIONS.len(),
                    trajectory.as_ptr(),
                    trajectory.len(),
                    v,
                    word,
                    &raw mut first,
                    &raw mut count,
                )
            };
            assert_eq!((number, first, count), expected);
        }
    }

    #[test]
    fn written_stays_where_a_call_refuses() {
        for (nstate, room, expected) in [
            (0, 32, (5, 21)),
            (3, 32, (1, 21)),
            (2, 32, (4, 21)),
            (2, 33, (0, 33)),
            (2, 34, (0, 33)),
        ] {
            let (mut out, mut written) = ([0xa5; 34], 21);
            // SAFETY: the lists are at least so long, and each pointer is to memory that is borrowed alone.
            let number = unsafe {
                sys::hejmirov_words_write(
                    WORDS.as_ptr(),
                    WORDS.len(),
                    nstate,
                    DURATIONS.as_ptr(),
                    DURATIONS.len(),
                    out.as_mut_ptr(),
                    room,
                    &raw mut written,
                )
            };
            assert_eq!((number, written), expected);
            assert_eq!(out == [0xa5; 34], number != 0);
            assert_eq!(out[33], 0xa5);
        }
    }

    #[test]
    fn the_number_of_words_stays_where_a_call_refuses() {
        for (n_bytes, room, expected) in [
            (24, 3, (3, [7; 5], 21)),
            (24, 4, (3, [7; 5], 21)),
            (25, 3, (4, [7; 5], 21)),
            (25, 4, (0, [0, 5, 5, 5, 7], 2)),
            (25, 5, (0, [0, 5, 5, 5, 7], 2)),
        ] {
            let (mut spans, mut words) = ([7; 5], 21);
            // SAFETY: the lists are at least so long, and each pointer is to memory that is borrowed alone.
            let number = unsafe {
                sys::hejmirov_words_read(
                    FILE.as_ptr(),
                    n_bytes,
                    spans.as_mut_ptr(),
                    room,
                    &raw mut words,
                )
            };
            assert_eq!((number, spans, words), expected);
        }
    }
}
