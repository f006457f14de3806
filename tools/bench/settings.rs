//! The calls of a store of settings, beside a plain Rust of the same rules over the same lists: how the time grows with the
//! voices that are held, and with the records of a file.

use std::hint::black_box;

use crate::{Side, least_times, row};

unsafe extern "C" {
    fn hejmirov_settings_clear(voices: *mut u32, n_voices: usize, settings: *mut u64, n_settings: usize) -> u32;
    fn hejmirov_settings_set(
        voices: *mut u32, n_voices: usize, settings: *mut u64, n_settings: usize,
        voice: u32, speed: f64, gv_weight: f64, threshold: f64,
    ) -> u32;
    fn hejmirov_settings_read(
        voices: *mut u32, n_voices: usize, settings: *mut u64, n_settings: usize, bytes: *const u8, n_bytes: usize,
    ) -> u32;
    fn hejmirov_settings_write(
        voices: *const u32, n_voices: usize, settings: *const u64, n_settings: usize,
        out: *mut u8, n_out: usize, written: *mut u64,
    ) -> u32;
}

const PLACES: usize = 256;
const HEAD: usize = 7;
const RECORD: usize = 26;
const FREE: u32 = u32::MAX;

#[derive(Clone, PartialEq, Debug)]
struct Store {
    voices: Vec<u32>,
    settings: Vec<u64>,
}

impl Store {
    fn new() -> Self {
        Self { voices: vec![FREE; PLACES], settings: vec![0; 3 * PLACES] }
    }

    fn holds(&self, place: usize) -> bool {
        let number = self.voices[place];
        number <= 0xffff && !self.voices[..place].contains(&number)
    }

    fn set(&mut self, voice: u32, given: [u64; 3]) -> bool {
        let own = self.voices.iter().position(|&number| number == voice);
        let Some(place) = own.or_else(|| (0..PLACES).find(|&place| !self.holds(place))) else { return false };
        self.voices[place] = voice;
        self.settings[3 * place..][..3].copy_from_slice(&given);
        true
    }

    fn read(&mut self, bytes: &[u8]) -> bool {
        let mut new = Self::new();
        for record in bytes[HEAD..].chunks_exact(RECORD) {
            let at = |from: usize| u64::from_le_bytes(record[from..from + 8].try_into().unwrap());
            let voice = u16::from_le_bytes([record[0], record[1]]);
            if !new.set(voice.into(), [at(2), at(10), at(18)]) {
                return false;
            }
        }
        *self = new;
        true
    }

    fn write(&self) -> Vec<u8> {
        let held: Vec<usize> = (0..PLACES).filter(|&place| self.holds(place)).collect();
        let mut bytes = b"VST\x02\0".to_vec();
        bytes.extend((held.len() as u16).to_le_bytes());
        for place in held {
            bytes.extend((self.voices[place] as u16).to_le_bytes());
            self.settings[3 * place..][..3].iter().for_each(|setting| bytes.extend(setting.to_le_bytes()));
        }
        bytes
    }

    // Every list comes with its own length and outlives the call.

    fn our_clear(&mut self) {
        let (voices, settings) = (self.voices.as_mut_ptr(), self.settings.as_mut_ptr());
        assert_eq!(unsafe { hejmirov_settings_clear(voices, PLACES, settings, 3 * PLACES) }, 0);
    }

    fn our_set(&mut self, voice: u32, given: [u64; 3]) {
        let (voices, settings) = (self.voices.as_mut_ptr(), self.settings.as_mut_ptr());
        let [speed, weight, threshold] = given.map(f64::from_bits);
        let refusal = unsafe { hejmirov_settings_set(voices, PLACES, settings, 3 * PLACES, voice, speed, weight, threshold) };
        assert_eq!(refusal, 0);
    }

    fn our_read(&mut self, bytes: &[u8]) {
        let (voices, settings) = (self.voices.as_mut_ptr(), self.settings.as_mut_ptr());
        assert_eq!(unsafe { hejmirov_settings_read(voices, PLACES, settings, 3 * PLACES, bytes.as_ptr(), bytes.len()) }, 0);
    }

    fn our_write(&self, out: &mut [u8]) -> usize {
        let (voices, settings) = (self.voices.as_ptr(), self.settings.as_ptr());
        let mut written = 0;
        let refusal = unsafe { hejmirov_settings_write(voices, PLACES, settings, 3 * PLACES, out.as_mut_ptr(), out.len(), &mut written) };
        assert_eq!(refusal, 0);
        written as usize
    }
}

/// So many records, of voices taken round and round.
fn file(records: usize, voices: usize) -> Vec<u8> {
    let mut bytes = b"VST\x02\0".to_vec();
    bytes.extend((records as u16).to_le_bytes());
    for record in 0..records {
        bytes.extend(((record % voices * 7) as u16).to_le_bytes());
        for setting in 0..3 {
            bytes.extend((1.0 + (3 * record + setting) as f64).to_le_bytes());
        }
    }
    bytes
}

fn counted(count: usize, what: &str) -> String {
    format!("{count} {what}{}", if count == 1 { "" } else { "s" })
}

/// Short calls are timed a hundred at once, so that reading the clock doesn't count.
fn timed(what: &str, mut plain: impl FnMut(), mut ours: impl FnMut()) {
    let (first, second) = least_times(|side| {
        for _ in 0..100 {
            match side {
                Side::Rust => plain(),
                Side::Ours => ours(),
            }
        }
    });
    row(what, first / 100, second / 100);
}

pub fn run() {
    for (records, voices) in [(1, 1), (16, 16), (64, 64), (256, 256), (2_560, 256), (65_535, 256)] {
        let bytes = file(records, voices);
        let (mut plain, mut ours) = (Store::new(), Store::new());
        assert!(plain.read(&bytes));
        ours.our_clear();
        ours.our_read(&bytes);
        assert_eq!(plain, ours);
        timed(
            &format!("read {} of {}", counted(records, "record"), counted(voices, "voice")),
            || assert!(plain.read(black_box(&bytes))),
            || ours.our_read(black_box(&bytes)),
        );
    }
    for voices in [1, 16, 64, 256] {
        let mut store = Store::new();
        store.our_read(&file(voices, voices));
        let mut out = vec![0; HEAD + RECORD * PLACES];
        let written = store.our_write(&mut out);
        assert_eq!(out[..written], store.write());
        timed(&format!("write {}", counted(voices, "voice")), || drop(black_box(store.write())), || drop(black_box(store.our_write(&mut out))));
        // The last voice is new each time.
        let last = voices - 1;
        let (mut plain, mut ours) = (store.clone(), store.clone());
        let given = [1.5, 0.5, 0.25].map(f64::to_bits);
        timed(
            &format!("set a new voice beside {last}"),
            || {
                plain.voices[last] = FREE;
                assert!(plain.set(black_box(60_000), given));
            },
            || {
                ours.voices[last] = FREE;
                ours.our_set(black_box(60_000), given);
            },
        );
        assert_eq!(plain, ours);
    }
}
