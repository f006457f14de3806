//! The C calls. `tools/check_header` holds these declarations to the library's source.

unsafe extern "C" {
    pub fn hejmirov_fit(
        means: *const f64,
        n_means: usize,
        varis: *const f64,
        n_varis: usize,
        shortest: *const u32,
        n_shortest: usize,
        frame_length: f64,
        out: *mut u32,
        n_out: usize,
        work: *mut u32,
        n_work: usize,
        changes: *mut u32,
    ) -> u32;

    pub fn hejmirov_speed(
        means: *const f64,
        n_means: usize,
        varis: *const f64,
        n_varis: usize,
        shortest: *const u32,
        n_shortest: usize,
        speed: f64,
        out: *mut u32,
        n_out: usize,
        work: *mut u32,
        n_work: usize,
        changes: *mut u32,
    ) -> u32;

    pub fn hejmirov_align(
        means: *const f64,
        n_means: usize,
        varis: *const f64,
        n_varis: usize,
        shortest: *const u32,
        n_shortest: usize,
        nstate: u32,
        ends: *const f64,
        n_ends: usize,
        out: *mut u32,
        n_out: usize,
        work: *mut u32,
        n_work: usize,
        written: *mut u32,
        changes: *mut u32,
    ) -> u32;

    pub fn hejmirov_mask(
        weights: *const f64,
        n_weights: usize,
        threshold: f64,
        durations: *const u32,
        n_durations: usize,
        voiced: *mut u32,
        n_voiced: usize,
        left: *mut u32,
        n_left: usize,
        right: *mut u32,
        n_right: usize,
        frames: *mut u32,
    ) -> u32;

    pub fn hejmirov_band_rows(
        widths: *const u32,
        n_widths: usize,
        coefficients: *const f64,
        n_coefficients: usize,
        means: *const f64,
        n_means: usize,
        ivars: *const f64,
        n_ivars: usize,
        rows: *mut f64,
        n_rows: usize,
        right: *mut f64,
        n_right: usize,
    ) -> u32;

    pub fn hejmirov_trajectory(
        v: u32,
        masked: u32,
        threshold: f64,
        fill: f64,
        gv_on: u32,
        gv_weight: f64,
        widths: *const u32,
        n_widths: usize,
        coefficients: *const f64,
        n_coefficients: usize,
        records: *const f64,
        n_records: usize,
        durations: *const u32,
        n_durations: usize,
        gv: *const f64,
        n_gv: usize,
        switches: *const u8,
        n_switches: usize,
        out: *mut f64,
        n_out: usize,
        work: *mut f64,
        n_work: usize,
        marks: *mut u32,
        n_marks: usize,
        clamped_high: *mut u32,
        clamped_low: *mut u32,
    ) -> u32;

    pub fn hejmirov_runs(
        v: u32,
        masked: u32,
        threshold: f64,
        windows: usize,
        records: *const f64,
        n_records: usize,
        durations: *const u32,
        n_durations: usize,
        runs: *mut u32,
        n_runs: usize,
        count: *mut u32,
    ) -> u32;

    pub fn hejmirov_run(
        v: u32,
        masked: u32,
        threshold: f64,
        fill: f64,
        gv_on: u32,
        gv_weight: f64,
        widths: *const u32,
        n_widths: usize,
        coefficients: *const f64,
        n_coefficients: usize,
        records: *const f64,
        n_records: usize,
        durations: *const u32,
        n_durations: usize,
        gv: *const f64,
        n_gv: usize,
        switches: *const u8,
        n_switches: usize,
        run: u32,
        out: *mut f64,
        n_out: usize,
        work: *mut f64,
        n_work: usize,
        marks: *mut u32,
        n_marks: usize,
        frames: *mut u32,
    ) -> u32;

    pub fn hejmirov_place(frame: u32, component: u32, v: u32, place: *mut u64) -> u32;

    pub fn hejmirov_excerpt(
        trajectory: *const f64,
        n_trajectory: usize,
        durations: *const u32,
        n_durations: usize,
        v: u32,
        state: u32,
        first: *mut u64,
        count: *mut u64,
    ) -> u32;

    pub fn hejmirov_job(
        bytes: *const u8,
        n_bytes: usize,
        out: *mut u32,
        n_out: usize,
        work: *mut u32,
        n_work: usize,
        states: *mut u32,
        frames: *mut u32,
        changes: *mut u32,
        place: *mut u64,
    ) -> u32;

    pub fn hejmirov_job_old_number(number: u32) -> u32;

    pub fn hejmirov_link_begin(link: *mut u8, n_link: usize) -> u32;

    pub fn hejmirov_link_part(link: *mut u8, n_link: usize, part: *const u8, n_part: usize) -> u32;

    pub fn hejmirov_link_end(
        link: *mut u8,
        n_link: usize,
        out: *mut u32,
        n_out: usize,
        work: *mut u32,
        n_work: usize,
        states: *mut u32,
        frames: *mut u32,
        changes: *mut u32,
        place: *mut u64,
    ) -> u32;

    pub fn hejmirov_settings_clear(
        voices: *mut u32,
        n_voices: usize,
        settings: *mut u64,
        n_settings: usize,
    ) -> u32;

    pub fn hejmirov_settings_set(
        voices: *mut u32,
        n_voices: usize,
        settings: *mut u64,
        n_settings: usize,
        voice: u32,
        speed: f64,
        gv_weight: f64,
        threshold: f64,
    ) -> u32;

    pub fn hejmirov_settings_get(
        voices: *const u32,
        n_voices: usize,
        settings: *const u64,
        n_settings: usize,
        voice: u32,
        speed: *mut f64,
        gv_weight: *mut f64,
        threshold: *mut f64,
    ) -> u32;

    pub fn hejmirov_settings_remove(
        voices: *mut u32,
        n_voices: usize,
        settings: *mut u64,
        n_settings: usize,
        voice: u32,
    ) -> u32;

    pub fn hejmirov_settings_count(voices: *const u32, n_voices: usize, held: *mut u32) -> u32;

    pub fn hejmirov_settings_read(
        voices: *mut u32,
        n_voices: usize,
        settings: *mut u64,
        n_settings: usize,
        bytes: *const u8,
        n_bytes: usize,
    ) -> u32;

    pub fn hejmirov_settings_write(
        voices: *const u32,
        n_voices: usize,
        settings: *const u64,
        n_settings: usize,
        out: *mut u8,
        n_out: usize,
        written: *mut u64,
    ) -> u32;

    pub fn hejmirov_table_start(
        widths_table: *mut u32,
        n_widths_table: usize,
        coefficients_table: *mut f64,
        n_coefficients_table: usize,
        common_widths: *const u32,
        n_common_widths: usize,
        common_coefficients: *const f64,
        n_common_coefficients: usize,
        common: u32,
    ) -> u32;

    pub fn hejmirov_table_set(
        widths_table: *mut u32,
        n_widths_table: usize,
        coefficients_table: *mut f64,
        n_coefficients_table: usize,
        house: u32,
        slot: u32,
        widths: *const u32,
        n_widths: usize,
        coefficients: *const f64,
        n_coefficients: usize,
    ) -> u32;

    pub fn hejmirov_table_clear(
        widths_table: *mut u32,
        n_widths_table: usize,
        coefficients_table: *mut f64,
        n_coefficients_table: usize,
        house: u32,
        slot: u32,
    ) -> u32;

    pub fn hejmirov_table_use(
        widths_table: *const u32,
        n_widths_table: usize,
        coefficients_table: *const f64,
        n_coefficients_table: usize,
        house: u32,
        slot: u32,
        first: *mut u64,
        widths: *mut u32,
        n_widths: usize,
        count: *mut u64,
    ) -> u32;

    pub fn hejmirov_table_free(
        widths_table: *const u32,
        n_widths_table: usize,
        coefficients_table: *const f64,
        n_coefficients_table: usize,
        house: u32,
        free: *mut u32,
    ) -> u32;

    pub fn hejmirov_words_spans(
        words: *const u32,
        n_words: usize,
        nstate: u32,
        durations: *const u32,
        n_durations: usize,
        spans: *mut u32,
        n_spans: usize,
    ) -> u32;

    pub fn hejmirov_words_milliseconds(
        words: *const u32,
        n_words: usize,
        nstate: u32,
        durations: *const u32,
        n_durations: usize,
        spans: *mut u32,
        n_spans: usize,
    ) -> u32;

    pub fn hejmirov_words_at(
        words: *const u32,
        n_words: usize,
        nstate: u32,
        durations: *const u32,
        n_durations: usize,
        frame: u32,
        word: *mut u32,
    ) -> u32;

    pub fn hejmirov_words_excerpt(
        words: *const u32,
        n_words: usize,
        nstate: u32,
        durations: *const u32,
        n_durations: usize,
        trajectory: *const f64,
        n_trajectory: usize,
        v: u32,
        word: u32,
        first: *mut u64,
        count: *mut u64,
    ) -> u32;

    pub fn hejmirov_words_write(
        words: *const u32,
        n_words: usize,
        nstate: u32,
        durations: *const u32,
        n_durations: usize,
        out: *mut u8,
        n_out: usize,
        written: *mut u64,
    ) -> u32;

    pub fn hejmirov_words_read(
        bytes: *const u8,
        n_bytes: usize,
        spans: *mut u32,
        n_spans: usize,
        words: *mut u32,
    ) -> u32;
}

#[cfg(test)]
mod tests {
    //! What stands behind a job's pointers, of which the safe calls show only what was written.

    use super::{hejmirov_job, hejmirov_link_end};
    use crate::{LINK_BYTES, link_begin, link_part};

    /// What a call left behind the pointers, of numbers that would show if they were touched.
    #[derive(Clone, Debug, PartialEq)]
    struct Left {
        out: Vec<u32>,
        work: Vec<u32>,
        values: [u32; 3],
        place: u64,
    }

    /// As it is before a call, with room for so many states.
    fn untouched(room: usize) -> Left {
        Left {
            out: vec![7; room],
            work: vec![9; room],
            values: [21, 22, 23],
            place: 0xa5a5_a5a5_a5a5_a5a5,
        }
    }

    /// A job as a file, with room for so many states: the number, and what is left.
    fn job(bytes: &[u8], room: usize) -> (u32, Left) {
        let mut left = untouched(room);
        let [states, frames, changes] = &mut left.values;
        // SAFETY: each pointer and length are those of one list, and each is borrowed alone.
        let number = unsafe {
            hejmirov_job(
                bytes.as_ptr(),
                bytes.len(),
                left.out.as_mut_ptr(),
                room,
                left.work.as_mut_ptr(),
                room,
                states,
                frames,
                changes,
                &raw mut left.place,
            )
        };
        (number, left)
    }

    /// The end of the job in a link's memory, the same.
    fn end(memory: &mut [u8], room: usize) -> (u32, Left) {
        let mut left = untouched(room);
        let [states, frames, changes] = &mut left.values;
        // SAFETY: each pointer and length are those of one list, and each is borrowed alone.
        let number = unsafe {
            hejmirov_link_end(
                memory.as_mut_ptr(),
                memory.len(),
                left.out.as_mut_ptr(),
                room,
                left.work.as_mut_ptr(),
                room,
                states,
                frames,
                changes,
                &raw mut left.place,
            )
        };
        (number, left)
    }

    /// A memory in which the job has come in two parts.
    fn come(bytes: &[u8]) -> Vec<u8> {
        let mut memory = vec![0; LINK_BYTES];
        link_begin(&mut memory).unwrap();
        let (front, back) = bytes.split_at(bytes.len() / 2);
        link_part(&mut memory, front).unwrap();
        link_part(&mut memory, back).unwrap();
        memory
    }

    /// A job of two states of variance 1: their means, and the speed.
    fn two(means: [f64; 2], speed: f64) -> Vec<u8> {
        let mut bytes = b"SPJ\x01\0\x02\0".to_vec();
        for number in [speed, means[0], 1.0, means[1], 1.0] {
            bytes.extend(number.to_le_bytes());
        }
        bytes
    }

    /// The states (2, 1) and (3, 1) at a speed, in version 2: their shortest.
    fn kept(shortest: [u32; 2], speed: f64) -> Vec<u8> {
        let mut bytes = b"SPJ\x02\0\x02\0".to_vec();
        bytes.extend(speed.to_le_bytes());
        for (mean, shortest) in [2.0_f64, 3.0].into_iter().zip(shortest) {
            bytes.extend(mean.to_le_bytes());
            bytes.extend(1.0_f64.to_le_bytes());
            bytes.extend(shortest.to_le_bytes());
        }
        bytes
    }

    #[test]
    fn place_is_written_of_a_damaged_job_alone() {
        let worked = two([2.0, 3.0], 0.5);
        let answered = Left {
            out: vec![4, 6, 7],
            work: vec![0, 0, 9],
            values: [2, 10, 1],
            ..untouched(3)
        };
        // Natural 5 and 3, so 16 frames: rho is 5.5, and of the estimates 8 and 9 the first gives one.
        let longer = Left {
            out: vec![7, 9, 7],
            values: [2, 16, 1],
            ..answered.clone()
        };
        let zeros = Left {
            work: vec![0, 0, 9],
            ..untouched(3)
        };
        let at = |place| Left {
            place,
            ..untouched(3)
        };
        for (bytes, expected) in [
            (&worked[..], (0, answered)),
            (&two([2.0, 3.0], 0.0), (7, zeros.clone())),
            (&two([65_536.0, 1.0], 1.0), (8, zeros.clone())),
            (&worked[..46], (9, at(46))),
            (b"SPK", (12, at(2))),
            (b"SPJ\x03\0", (13, at(3))),
            (b"SPJ\x01\0\x01\x04", (14, at(5))),
            (b"SPJ\x02\0\x01\x04", (14, at(5))),
            (&kept([5, 1], 0.5), (0, longer)),
            (&kept([5, 1], 0.0), (7, zeros.clone())),
            (&kept([65_534, 1], 1.0), (8, zeros)),
            (&kept([5, 0], 0.0), (15, untouched(3))),
            (&kept([65_536, 1], 0.5), (15, untouched(3))),
            (&kept([5, 0], 0.5)[..54], (9, at(54))),
        ] {
            assert_eq!(job(bytes, 3), expected);
            assert_eq!(end(&mut come(bytes), 3), expected);
        }
        // Room comes before the shortest.
        for bytes in [worked, kept([0, 1], 0.5)] {
            assert_eq!(job(&bytes, 1), (6, untouched(1)));
            assert_eq!(end(&mut come(&bytes), 1), (6, untouched(1)));
        }
    }

    #[test]
    fn place_stays_where_a_link_refuses() {
        let mut memory = come(b"SPK");
        let short = &mut memory[..LINK_BYTES - 1];
        assert_eq!(end(short, 3), (6, untouched(3)));
        assert_eq!(end(&mut memory, 3).0, 12);
        assert_eq!(end(&mut memory, 3), (11, untouched(3)));
        assert_eq!(end(&mut [], 3), (11, untouched(3)));
    }
}
