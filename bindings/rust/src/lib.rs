//! Safe calls of `libhejmirov.a`, the numeric core of a talking-book renderer.
//!
//! | call | what it gives |
//! |---|---|
//! | [`fit`], [`speed`], [`align`] | states' durations in frames: to a length, at a speed, to labels' ends; none below a state's shortest |
//! | [`job`] | the same from a job file's bytes |
//! | [`Link`] | the same from a job that comes in parts |
//! | [`mask`] | which frames are voiced, and how far each is from the ends of its run |
//! | [`band_rows`] | the equations of one component, before they are solved |
//! | [`Stream::trajectory`] | a stream's numbers, frame after frame, and how many of its pairs were clamped |
//! | [`Stream::runs`], [`Stream::run`] | where the voiced runs of a stream lie, and the numbers of one of them alone |
//! | [`place`], [`excerpt`] | where a number stands in the spool, and a state's part of a trajectory |
//! | [`Store`] | voices' settings by the voice's number, and the file of them |
//! | [`Table`], [`House`] | window sets in slots that two houses share, and one house's side of them |
//! | [`words_spans`], [`words_milliseconds`] | when each word of an utterance sounds, in frames and in milliseconds |
//! | [`words_at`], [`words_excerpt`] | the word that sounds at a frame, and a word's part of a trajectory |
//! | [`words_write`], [`words_read`] | the timing file of words |
//!
//! Each call that writes lists has two forms: one that owns what it allocates, output and work
//! space, and one ending in `_into` that takes the caller's and allocates nothing. Both answer the
//! same. So do a [`Link`], which owns its memory, and [`link_begin`], [`link_part`] and
//! [`link_end_into`], which take the caller's; a [`Store`], which owns its two lists, and
//! [`settings_clear`] and the other calls that begin so, which take the caller's; and a [`Table`],
//! which owns its two lists, and [`table_start`] and the other calls that begin so.
//!
//! No call panics, whatever its numbers and lengths; what the library doesn't take is a
//! [`Refusal`], which says of a damaged job what is wrong with it, and at which byte; of the calls of
//! words, which have refusal numbers of their own, it is a [`WordsRefusal`]. After a refusal every
//! output is as it was. Any `f64` is taken; a NaN that is handed out has the bits
//! 0x7FF8000000000000. The calls keep nothing between them but what a link's memory, a store or a
//! table holds, and threads may make them at once. The answers are exact, to the bit, as long as
//! nothing in the program makes the processor flush subnormal numbers to zero.
//!
//! # Linking
//!
//! The archive is found in the folder that the environment variable `HEJMIROV_LIB_DIR` names, else
//! in this repository's `target/staticlib`, where `tools/archive` writes it. It is for
//! x86-64 Linux and needs nothing but the C library's `memset` and `memcpy`.

mod durations;
mod houses;
mod link;
mod refusal;
mod runs;
mod settings;
mod spool;
mod sys;
mod trajectory;
mod words;

pub use durations::{
    Aligned, Answered, Fitted, align, align_into, fit, fit_into, job, job_into, speed, speed_into,
};
pub use houses::{House, Table, table_clear, table_free, table_set, table_start, table_use};
pub use link::{Link, link_begin, link_end_into, link_part};
pub use refusal::{Damage, Refusal, WordsRefusal};
pub use runs::Run;
pub use settings::{
    Settings, Store, settings_clear, settings_count, settings_get, settings_read, settings_remove,
    settings_set, settings_write_into,
};
pub use spool::{excerpt, excerpt_range, place};
pub use trajectory::{
    BandRows, Clamped, GlobalVariance, Mask, Stream, Trajectory, Windows, band_rows,
    band_rows_into, mask, mask_into,
};
pub use words::{
    Span, words_at, words_excerpt, words_excerpt_range, words_milliseconds,
    words_milliseconds_into, words_read, words_read_into, words_spans, words_spans_into,
    words_write, words_write_into,
};

/// Most windows in a set; at least 1.
pub const MAX_WINDOWS: usize = 4;
/// Most coefficients in a window; at least 1.
pub const MAX_WIDTH: usize = 15;
/// Most numbers in a frame of a stream; at least 1.
pub const MAX_V: usize = 64;
/// Most states in an utterance.
pub const MAX_STATES: usize = 4096;
/// Most states in a label; at least 1.
pub const MAX_NSTATE: usize = 16;
/// Most frames in an utterance.
pub const MAX_FRAMES: usize = 65536;
/// Most states in a job file.
pub const MAX_JOB_STATES: usize = 1024;
/// Most voices in a store, which has so many places.
pub const MAX_VOICES: usize = 256;
/// The largest number of a voice.
pub const MAX_VOICE: u32 = 65535;
/// Most words in an utterance, those of no labels too.
pub const MAX_WORDS: usize = 4_294_967_295;

/// Floats of a trajectory's work space for each frame.
pub const WORK_FLOATS_A_FRAME: usize = 48;
/// Whole numbers of a trajectory's marks for each frame.
pub const WORK_MARKS_A_FRAME: usize = 4;
/// Bytes of one number in the spool.
pub const BYTES_A_NUMBER: usize = 8;
/// Bytes of a job file before its first state.
pub const JOB_HEAD_BYTES: usize = 15;
/// Bytes of each state of a job file, in version 1.
pub const JOB_STATE_BYTES: usize = 16;
/// Bytes of each state of a job file, in version 2, with a shortest duration.
pub const JOB2_STATE_BYTES: usize = 20;
/// Bytes of a link's memory: a job that comes in parts.
pub const LINK_BYTES: usize = 20504;
/// Settings in a store, three for each place.
pub const STORE_SETTINGS: usize = 768;
/// Bytes of a settings file before its first record.
pub const SETTINGS_HEAD_BYTES: usize = 7;
/// Bytes of each record of a settings file, in version 2.
pub const SETTINGS_RECORD_BYTES: usize = 26;
/// Bytes of the longest settings file that is written.
pub const SETTINGS_WRITTEN_BYTES: usize = 6663;
/// Bytes of the longest settings file that is read: 65,535 records.
pub const SETTINGS_MOST_BYTES: usize = 1_703_917;
/// Slots of a table of window sets.
pub const SLOTS: usize = 12;
/// Widths in a table, four for each slot.
pub const TABLE_WIDTHS: usize = 48;
/// Coefficients in a table, sixty for each slot.
pub const TABLE_COEFFICIENTS: usize = 720;
/// Bytes of a timing file before its first word.
pub const TIMING_HEAD_BYTES: usize = 9;
/// Bytes of each word of a timing file.
pub const TIMING_WORD_BYTES: usize = 8;
/// Milliseconds that a frame lasts.
pub const MILLISECONDS_A_FRAME: u32 = 5;

/// An end that is open, for [`align`]; any number below 0, and NaN, says the same.
pub const OPEN_END: f64 = -1.0;

/// The number of a place of a store that is free; any number above 65,535 says the same.
pub const FREE_PLACE: u32 = 4_294_967_295;

/// The durations' total, as far as a call can take it: more is refused before room is looked at.
fn frames_at_most(durations: &[u32]) -> usize {
    let total: u64 = durations
        .iter()
        .take(MAX_STATES)
        .map(|&frames| u64::from(frames))
        .sum();
    usize::try_from(total).map_or(MAX_FRAMES, |total| total.min(MAX_FRAMES))
}
