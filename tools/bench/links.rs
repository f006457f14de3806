//! Jobs over a link, beside the same jobs as files: how the time grows with the number of parts, and what of it is a
//! part's.

use std::hint::black_box;

use crate::{Inputs, Side, least_times, shown};

unsafe extern "C" {
    fn hejmirov_job(
        bytes: *const u8, n_bytes: usize, out: *mut u32, n_out: usize, work: *mut u32, n_work: usize,
        states: *mut u32, frames: *mut u32, changes: *mut u32, place: *mut u64,
    ) -> u32;
    fn hejmirov_link_begin(link: *mut u8, n_link: usize) -> u32;
    fn hejmirov_link_part(link: *mut u8, n_link: usize, part: *const u8, n_part: usize) -> u32;
    fn hejmirov_link_end(
        link: *mut u8, n_link: usize, out: *mut u32, n_out: usize, work: *mut u32, n_work: usize,
        states: *mut u32, frames: *mut u32, changes: *mut u32, place: *mut u64,
    ) -> u32;
}

const LINK_BYTES: usize = 20_504;

/// A job file, the link that it comes over, and room for the answer.
struct Job {
    bytes: Vec<u8>,
    link: Vec<u8>,
    out: Vec<u32>,
    work: Vec<u32>,
}

impl Job {
    /// At speed 1, so that there is little to do but to read it.
    fn new(states: usize) -> Self {
        let mut inputs = Inputs::new();
        let mut bytes = b"SPJ\x01\0".to_vec();
        bytes.extend((states as u16).to_le_bytes());
        bytes.extend(1.0_f64.to_le_bytes());
        for _ in 0..states {
            bytes.extend(inputs.between(1.0, 12.0).to_le_bytes());
            bytes.extend(inputs.between(0.5, 20.0).to_le_bytes());
        }
        Self { bytes, link: vec![0; LINK_BYTES], out: vec![0; states], work: vec![0; states] }
    }

    /// Frames in all, of the whole file.
    fn as_file(&mut self) -> u32 {
        let (out, work, count) = (self.out.as_mut_ptr(), self.work.as_mut_ptr(), self.out.len());
        let (mut states, mut frames, mut changes, mut place) = (0, 0, 0, 0);
        // Every list comes with its own length and outlives the call.
        let refusal = unsafe {
            hejmirov_job(
                self.bytes.as_ptr(), self.bytes.len(), out, count, work, count,
                &mut states, &mut frames, &mut changes, &mut place,
            )
        };
        assert_eq!(refusal, 0);
        frames
    }

    /// Frames in all, of parts of so many bytes.
    fn over_link(&mut self, part: usize) -> u32 {
        let (link, bytes) = (self.link.as_mut_ptr(), self.link.len());
        let (out, work, count) = (self.out.as_mut_ptr(), self.work.as_mut_ptr(), self.out.len());
        let (mut states, mut frames, mut changes, mut place) = (0, 0, 0, 0);
        // Every list comes with its own length and outlives the calls.
        unsafe {
            assert_eq!(hejmirov_link_begin(link, bytes), 0);
            for part in self.bytes.chunks(part) {
                assert_eq!(hejmirov_link_part(link, bytes, part.as_ptr(), part.len()), 0);
            }
            let refusal = hejmirov_link_end(
                link, bytes, out, count, work, count, &mut states, &mut frames, &mut changes, &mut place,
            );
            assert_eq!(refusal, 0);
        }
        frames
    }

    fn compare(&mut self, part: usize) {
        assert_eq!(self.as_file(), self.over_link(part), "the two differ: parts of {part} bytes");
        let parts = self.bytes.len().div_ceil(part);
        // Short calls are timed a hundred at once, so that reading the clock doesn't count.
        let rounds = if self.out.len() + parts < 1_000 { 100 } else { 1 };
        // In place of the Rust's call stands our own of the file.
        let (file, link) = least_times(|side| {
            for _ in 0..rounds {
                black_box(match side {
                    Side::Rust => self.as_file(),
                    Side::Ours => self.over_link(black_box(part)),
                });
            }
        });
        let (file, link) = (file / rounds, link / rounds);
        let part = link.saturating_sub(file) / parts as u32;
        let what = format!("{} states, {parts} part{}", self.out.len(), if parts == 1 { "" } else { "s" });
        println!("| {what} | {} | {} | {} |", shown(file), shown(link), shown(part));
    }
}

pub fn run() {
    for states in [2, 100, 1_024] {
        let mut job = Job::new(states);
        for part in [job.bytes.len(), 1_000, 100, 10, 1] {
            if part <= job.bytes.len() {
                job.compare(part);
            }
        }
    }
}
