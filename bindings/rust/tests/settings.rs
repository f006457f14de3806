//! A store of voices' settings and its file, by the rules' laws; bytes and lists are written out by
//! hand. Random calls are held to a second store, which is written here and looks up places only.

use hejmirov::{
    FREE_PLACE, MAX_VOICE, MAX_VOICES, Refusal, SETTINGS_HEAD_BYTES, SETTINGS_RECORD_BYTES,
    SETTINGS_WRITTEN_BYTES, STORE_SETTINGS, Settings, Store,
};

const NAN: u64 = 0x7ff8_0000_0000_0000;
const HALF: u64 = 0x3fe0_0000_0000_0000;

/// Settings of a number of their own.
fn settings(number: u32) -> Settings {
    let number = f64::from(number);
    Settings {
        speed: number,
        gv_weight: -number,
        threshold: number / 3.0,
    }
}

fn bits(settings: Settings) -> [u64; 3] {
    [settings.speed, settings.gv_weight, settings.threshold].map(f64::to_bits)
}

fn of_bits(bits: [u64; 3]) -> Settings {
    let [speed, gv_weight, threshold] = bits.map(f64::from_bits);
    Settings {
        speed,
        gv_weight,
        threshold,
    }
}

/// A store that holds these voices, set one after the other, each with its own number's settings.
fn store_of(voices: impl IntoIterator<Item = u16>) -> Store {
    let mut store = Store::new();
    for voice in voices {
        store.set(voice, settings(voice.into())).unwrap();
    }
    store
}

/// A file of a version, with records of any number of settings.
fn file<const N: usize>(version: u16, records: &[(u16, [u64; N])]) -> Vec<u8> {
    let mut bytes = b"VST".to_vec();
    bytes.extend(version.to_le_bytes());
    bytes.extend(u16::try_from(records.len()).unwrap().to_le_bytes());
    for (voice, settings) in records {
        bytes.extend(voice.to_le_bytes());
        bytes.extend(settings.iter().flat_map(|setting| setting.to_le_bytes()));
    }
    bytes
}

/// The first numbers of the places, and that all others are free, with no settings.
fn places(store: &Store, expected: &[u32]) {
    let (front, back) = store.voices().split_at(expected.len());
    assert_eq!(front, expected);
    assert!(back.iter().all(|&number| number == FREE_PLACE));
    let settings = &store.settings()[3 * expected.len()..];
    assert!(settings.iter().all(|&setting| setting == 0));
}

#[test]
fn sizes() {
    assert_eq!(STORE_SETTINGS, 3 * MAX_VOICES);
    assert_eq!(MAX_VOICE, u32::from(u16::MAX));
    assert_eq!(FREE_PLACE, u32::MAX);
    let longest = SETTINGS_HEAD_BYTES + SETTINGS_RECORD_BYTES * MAX_VOICES;
    assert_eq!(SETTINGS_WRITTEN_BYTES, longest);
    assert_eq!(store_of(0..256).write().len(), longest);
}

#[test]
fn what_was_set_is_got() {
    let mut store = Store::new();
    let any = [0, 1, 1 << 63, 0x7ff0_0000_0000_0000, u64::MAX >> 12, HALF];
    for (voice, first) in (0_u16..).zip(any) {
        store.set(voice, of_bits([first, 2, 3])).unwrap();
        assert_eq!(bits(store.get(voice).unwrap()), [first, 2, 3]);
    }
    for (voice, first) in (0_u16..).zip(any) {
        assert_eq!(bits(store.get(voice).unwrap()), [first, 2, 3]);
    }
    store.set(u16::MAX, settings(5)).unwrap();
    assert_eq!(store.get(u16::MAX), Ok(settings(5)));
    assert_eq!(store.get(u16::MAX - 1), Err(Refusal::VoiceNotHeld));
    assert_eq!(store.len(), 7);
}

#[test]
fn a_voice_keeps_its_place() {
    let mut store = store_of([300, 7, 9]);
    places(&store, &[300, 7, 9]);
    store.set(7, settings(1)).unwrap();
    places(&store, &[300, 7, 9]);
    assert_eq!(store.settings()[3..6], bits(settings(1)));
    assert_eq!(store.get(300), Ok(settings(300)));
    assert_eq!(store.get(9), Ok(settings(9)));
    let held: Vec<u16> = store.iter().map(|(voice, _)| voice).collect();
    assert_eq!(held, [300, 7, 9]);
    assert_eq!(
        format!("{:?}", store_of([2])),
        "{2: Settings { speed: 2.0, gv_weight: -2.0, threshold: 0.6666666666666666 }}"
    );
}

#[test]
fn a_new_voice_takes_the_place_that_a_removed_one_leaves() {
    let mut store = store_of(1..=5);
    store.remove(4).unwrap();
    store.remove(2).unwrap();
    places(&store, &[1, FREE_PLACE, 3, FREE_PLACE, 5]);
    assert_eq!(store.settings()[3..6], [0; 3]);
    assert_eq!((store.len(), store.is_empty()), (3, false));
    assert_eq!(store.get(2), Err(Refusal::VoiceNotHeld));
    let left = store.clone();
    assert_eq!(store.remove(2), Err(Refusal::VoiceNotHeld));
    assert_eq!(store, left);

    // The file leaves the free places out, and in the store that reads it there are none.
    let mut read = Store::new();
    read.read(&store.write()).unwrap();
    places(&read, &[1, 3, 5]);
    assert!(read.iter().eq(store.iter()));

    for voice in [6, 7, 8] {
        store.set(voice, settings(voice.into())).unwrap();
    }
    places(&store, &[1, 6, 3, 7, 5, 8]);
    for voice in [1, 3, 5, 6, 7, 8] {
        assert_eq!(store.get(voice), Ok(settings(voice.into())));
        store.remove(voice).unwrap();
    }
    assert_eq!(store, Store::default());
    assert!(store.is_empty());
}

#[test]
fn a_full_store_takes_the_voices_that_it_holds() {
    let mut store = store_of(1_000..1_256);
    assert_eq!(store.len(), MAX_VOICES);
    let left = store.clone();
    for voice in [0, 999, 1_256, u16::MAX] {
        assert_eq!(store.set(voice, settings(1)), Err(Refusal::StoreFull));
        assert_eq!(store, left);
    }
    for voice in [1_000, 1_255] {
        store.set(voice, settings(1)).unwrap();
        assert_eq!(store.get(voice), Ok(settings(1)));
    }
    store.remove(1_255).unwrap();
    store.set(0, settings(2)).unwrap();
    assert_eq!(store.voices()[MAX_VOICES - 1], 0);
    assert_eq!(store.set(1_255, settings(1)), Err(Refusal::StoreFull));
}

#[test]
fn every_content_of_the_lists_has_a_meaning() {
    // Places 1 and 3 repeat an earlier number, and 2 has none of a voice.
    let mut voices = [FREE_PLACE; MAX_VOICES];
    voices[..6].copy_from_slice(&[5, 5, MAX_VOICE + 6, 5, MAX_VOICE, 6]);
    let raw = std::array::from_fn(|place| place as u64);
    let store = Store::from_lists(voices, raw);
    assert_eq!(store.len(), 3);
    assert_eq!(bits(store.get(5).unwrap()), [0, 1, 2]);
    let expected = [(5, [0, 1, 2]), (u16::MAX, [12, 13, 14]), (6, [15, 16, 17])];
    assert!(
        store
            .iter()
            .map(|(voice, settings)| (voice, bits(settings)))
            .eq(expected)
    );
    assert_eq!(store.write(), file(2, &expected));

    // The first free place is the first that repeats a number.
    let mut one_more = store.clone();
    one_more.set(9, of_bits([70, 71, 72])).unwrap();
    voices[1] = 9;
    assert_eq!(one_more.voices(), &voices);
    assert_eq!(one_more.settings()[..7], [0, 1, 2, 70, 71, 72, 6]);
    assert_eq!(one_more.settings()[6..], raw[6..]);

    // A voice is removed wherever its number stands; only its own place loses its settings.
    let mut one_less = one_more.clone();
    one_less.remove(5).unwrap();
    (voices[0], voices[3]) = (FREE_PLACE, FREE_PLACE);
    assert_eq!(one_less.voices(), &voices);
    assert_eq!(one_less.settings()[..3], [0; 3]);
    assert_eq!(one_less.settings()[3..], one_more.settings()[3..]);

    let full: [u32; MAX_VOICES] = std::array::from_fn(|place| u32::try_from(place).unwrap());
    let mut all_but_one = full;
    all_but_one[255] = 254;
    let mut store = Store::from_lists(all_but_one, [0; STORE_SETTINGS]);
    assert_eq!(store.len(), MAX_VOICES - 1);
    store.set(255, settings(1)).unwrap();
    assert_eq!(store.voices(), &full);
    store.clear();
    assert_eq!(store, Store::new());
}

#[test]
fn a_file_of_version_1() {
    let mut bytes = b"VST\x01\0\x02\0\x07\0".to_vec();
    bytes.extend(1.25_f64.to_le_bytes());
    bytes.extend(1.0_f64.to_le_bytes());
    bytes.extend(b"\x2c\x01");
    bytes.extend(0.8_f64.to_le_bytes());
    bytes.extend(0.7_f64.to_le_bytes());
    let mut store = store_of(0..200);
    store.read(&bytes).unwrap();
    places(&store, &[7, 300]);
    let expected = [1.25, 1.0, 0.5, 0.8, 0.7, 0.5].map(f64::to_bits);
    assert_eq!(store.settings()[..6], expected);
    let written = file(
        2,
        &[
            (7, [1.25, 1.0, 0.5].map(f64::to_bits)),
            (300, [0.8, 0.7, 0.5].map(f64::to_bits)),
        ],
    );
    assert_eq!(store.write(), written);
}

#[test]
fn the_later_record_replaces_the_earlier_in_its_place() {
    let records = [(9, [1, 2, 3]), (8, [4, 5, 6]), (9, [7, 8, 9])];
    let mut store = store_of(0..200);
    store.read(&file(2, &records)).unwrap();
    places(&store, &[9, 8]);
    assert_eq!(store.settings()[..6], [7, 8, 9, 4, 5, 6]);

    // More records than places, and as many as a file can have.
    let records: Vec<_> = (0..u16::MAX)
        .map(|record| (record % 256, [u64::from(record); 3]))
        .collect();
    store.read(&file(2, &records)).unwrap();
    assert_eq!(store.len(), MAX_VOICES);
    assert_eq!(bits(store.get(254).unwrap()), [65_534; 3]);
    assert_eq!(bits(store.get(255).unwrap()), [65_279; 3]);
}

#[test]
fn nan_patterns() {
    let patterns = [
        0x7ff0_0000_0000_0001,
        0xfff8_0000_0000_0000,
        0xffff_ffff_ffff_ffff,
    ];
    // A file keeps its bits, and get hands out one NaN.
    let bytes = file(2, &[(7, patterns)]);
    let mut store = Store::new();
    store.read(&bytes).unwrap();
    assert_eq!(store.settings()[..3], patterns);
    assert_eq!(bits(store.get(7).unwrap()), [NAN; 3]);
    assert_eq!(store.write(), bytes);
    assert_eq!(store, store.clone());
    // Set keeps that one NaN, whichever it is given.
    store.set(7, of_bits(patterns)).unwrap();
    assert_eq!(store.settings()[..3], [NAN; 3]);
    assert_eq!(store.write(), file(2, &[(7, [NAN; 3])]));
    // In version 1 too.
    let [first, second, _] = patterns;
    store.read(&file(1, &[(7, [first, second])])).unwrap();
    assert_eq!(store.settings()[..3], [first, second, HALF]);
}

#[test]
fn a_refused_file_leaves_the_store() {
    let good = file(2, &[(7, [1, 2, 3]), (8, [4, 5, 6])]);
    let old = file(1, &[(7, [1, 2]), (8, [4, 5])]);
    let longer = |bytes: &[u8], byte: u8| [bytes, &[byte]].concat();
    let too_many: Vec<_> = (0..257).map(|voice| (voice, [1, 2, 3])).collect();
    let malformed = Refusal::SettingsMalformed;
    let version = Refusal::SettingsVersion;
    for (bytes, expected) in [
        (b"".to_vec(), malformed),
        (b"VS".to_vec(), malformed),
        (b"VST".to_vec(), malformed),
        (b"VST\x02".to_vec(), malformed),
        (b"VST\x03".to_vec(), malformed),
        (b"VST\x03\0".to_vec(), version),
        (b"VST\0\0".to_vec(), version),
        (b"VST\0\x02".to_vec(), version), // the least byte is the first
        (b"VST\x02\x01".to_vec(), version),
        (b"VSU\x03\0".to_vec(), malformed), // the mark is looked at first
        (b"vst\x02\0\0\0".to_vec(), malformed),
        (b"VST\x02\0".to_vec(), malformed),
        (b"VST\x02\0\0".to_vec(), malformed),
        (b"VST\x02\0\x01\0".to_vec(), malformed),
        (longer(b"VST\x02\0\0\0", 0), malformed),
        (good[..58].to_vec(), malformed),
        (longer(&good, 0), malformed),
        (longer(&old, 0), malformed),
        (old[..42].to_vec(), malformed),
        // Of the length that another version would have.
        ([b"VST\x01", &good[4..]].concat(), malformed),
        ([b"VST\x02", &old[4..]].concat(), malformed),
        ([b"VST\x03", &good[4..]].concat(), version),
        (file(2, &too_many), Refusal::StoreFull),
        (longer(&file(2, &too_many), 0), malformed), // the length is looked at first
    ] {
        let shown = &bytes[..bytes.len().min(9)];
        let mut store = store_of([5, 6]);
        assert_eq!(store.read(&bytes), Err(expected), "{shown:?}");
        assert_eq!(store, store_of([5, 6]), "{shown:?}");
    }
    let mut store = store_of([5, 6]);
    store.read(&file(2, &too_many[..256])).unwrap();
    assert_eq!(store.len(), MAX_VOICES);
    store.read(&old).unwrap();
    store.read(&good).unwrap();
    places(&store, &[7, 8]);
    store.read(b"VST\x01\0\0\0").unwrap();
    assert_eq!(store, Store::new());
}

#[test]
fn the_examples_files() {
    let example = |name| std::fs::read(format!("../../examples/{name}")).unwrap();
    let table = [(7, [1.25, 1.0, 0.5]), (300, [0.8, 0.7, 0.45])];
    let table = table.map(|(voice, row)| (voice, row.map(f64::to_bits)));
    assert_eq!(example("voices.vst"), file(2, &table));
    let table = table.map(|(voice, [speed, gv_weight, _])| (voice, [speed, gv_weight]));
    assert_eq!(example("voices1.vst"), file(1, &table));
}

#[test]
fn lists_that_are_too_short() {
    let short = Err(Refusal::TooLittleRoom);
    for (n_voices, n_settings) in [
        (MAX_VOICES - 1, STORE_SETTINGS),
        (MAX_VOICES, STORE_SETTINGS - 1),
        (0, 0),
    ] {
        let (mut voices, mut raw) = (vec![7; n_voices], vec![7; n_settings]);
        assert_eq!(hejmirov::settings_clear(&mut voices, &mut raw), short);
        assert_eq!(
            hejmirov::settings_set(&mut voices, &mut raw, 7, settings(1)),
            short
        );
        assert_eq!(
            hejmirov::settings_get(&voices, &raw, 7),
            Err(Refusal::TooLittleRoom)
        );
        assert_eq!(hejmirov::settings_remove(&mut voices, &mut raw, 7), short);
        // Before all that could be wrong with a file.
        assert_eq!(hejmirov::settings_read(&mut voices, &mut raw, b"V"), short);
        let good = file(2, &[(8, [0; 3])]);
        assert_eq!(hejmirov::settings_read(&mut voices, &mut raw, &good), short);
        let mut out = [7; 40];
        assert_eq!(
            hejmirov::settings_write_into(&voices, &raw, &mut out),
            Err(Refusal::TooLittleRoom)
        );
        assert_eq!(out, [7; 40]);
        assert_eq!(
            hejmirov::settings_count(&voices).is_ok(),
            n_voices == MAX_VOICES
        );
        assert!(voices.iter().all(|&number| number == 7));
        assert!(raw.iter().all(|&setting| setting == 7));
    }
}

#[test]
fn what_lies_behind_longer_lists_is_not_looked_at() {
    let (mut voices, mut raw) = (vec![FREE_PLACE; 300], vec![0; 800]);
    voices[MAX_VOICES..].fill(7);
    raw[STORE_SETTINGS..].fill(7);
    let (behind, behind_raw) = (voices.clone(), raw.clone());
    assert_eq!(hejmirov::settings_count(&voices), Ok(0));
    assert_eq!(
        hejmirov::settings_get(&voices, &raw, 7),
        Err(Refusal::VoiceNotHeld)
    );
    assert_eq!(
        hejmirov::settings_remove(&mut voices, &mut raw, 7),
        Err(Refusal::VoiceNotHeld)
    );
    for voice in 0..256 {
        hejmirov::settings_set(&mut voices, &mut raw, voice, settings(1)).unwrap();
    }
    assert_eq!(
        hejmirov::settings_set(&mut voices, &mut raw, 256, settings(1)),
        Err(Refusal::StoreFull)
    );
    let mut out = [7; SETTINGS_WRITTEN_BYTES + 1];
    assert_eq!(
        hejmirov::settings_write_into(&voices, &raw, &mut out),
        Ok(SETTINGS_WRITTEN_BYTES)
    );
    assert_eq!(out[SETTINGS_WRITTEN_BYTES], 7);
    hejmirov::settings_read(&mut voices, &mut raw, &out[..SETTINGS_WRITTEN_BYTES]).unwrap();
    hejmirov::settings_remove(&mut voices, &mut raw, 7).unwrap();
    hejmirov::settings_clear(&mut voices, &mut raw).unwrap();
    assert_eq!((voices, raw), (behind, behind_raw));
}

/// Whole numbers from a seed: splitmix64.
struct Seed(u64);

impl Seed {
    fn next(&mut self) -> u64 {
        self.0 = self.0.wrapping_add(0x9e37_79b9_7f4a_7c15);
        let z = (self.0 ^ (self.0 >> 30)).wrapping_mul(0xbf58_476d_1ce4_e5b9);
        let z = (z ^ (z >> 27)).wrapping_mul(0x94d0_49bb_1331_11eb);
        z ^ (z >> 31)
    }

    fn below(&mut self, end: u16) -> u16 {
        u16::try_from(self.next() % u64::from(end)).unwrap()
    }

    /// A setting of any bits, now and then a NaN.
    fn setting(&mut self) -> u64 {
        match self.below(4) {
            0 => self.next() | 0x7ff0_0000_0000_0000,
            _ => self.next(),
        }
    }
}

/// What set keeps of a setting.
fn kept(setting: u64) -> u64 {
    if f64::from_bits(setting).is_nan() {
        NAN
    } else {
        setting
    }
}

#[test]
fn random_calls_as_a_second_store_answers_them() {
    type Held = Vec<Option<(u16, [u64; 3])>>;
    let place_of = |second: &Held, voice| {
        second
            .iter()
            .position(|held| held.is_some_and(|(other, _)| other == voice))
    };
    let mut seed = Seed(4);
    let mut refusals = [0; 2];
    let (mut store, mut second): (Store, Held) = (Store::new(), vec![None; MAX_VOICES]);
    for call in 0..20_000 {
        // About as many voices as there are places, so that the store is full now and then.
        let voice = seed.below(300) * 218;
        let place = place_of(&second, voice);
        if seed.below(8) > 0 {
            let given: [u64; 3] = std::array::from_fn(|_| seed.setting());
            let free = second.iter().position(Option::is_none);
            let set = store.set(voice, of_bits(given));
            match place.or(free) {
                Some(place) => second[place] = Some((voice, given.map(kept))),
                None => refusals[0] += 1,
            }
            let full = place.or(free).is_none();
            assert_eq!(
                set,
                if full {
                    Err(Refusal::StoreFull)
                } else {
                    Ok(())
                }
            );
        } else {
            let removed = store.remove(voice);
            match place {
                Some(place) => second[place] = None,
                None => refusals[1] += 1,
            }
            let absent = place.is_none();
            let expected = if absent {
                Err(Refusal::VoiceNotHeld)
            } else {
                Ok(())
            };
            assert_eq!(removed, expected);
        }
        let asked = seed.below(300) * 218;
        let expected = place_of(&second, asked)
            .and_then(|place| second[place])
            .map_or(Err(Refusal::VoiceNotHeld), |(_, three)| Ok(three));
        assert_eq!(store.get(asked).map(bits), expected);
        assert_eq!(store.len(), second.iter().flatten().count());
        if call % 500 == 0 {
            let records: Vec<_> = second.iter().copied().flatten().collect();
            assert_eq!(store.write(), file(2, &records));
            store.read(&file(2, &records)).unwrap();
            second.retain(Option::is_some);
            second.resize(MAX_VOICES, None);
        }
        for (place, held) in second.iter().enumerate() {
            let (number, three) =
                held.map_or((FREE_PLACE, [0; 3]), |(voice, three)| (voice.into(), three));
            assert_eq!(store.voices()[place], number);
            assert_eq!(store.settings()[3 * place..3 * place + 3], three);
        }
    }
    assert!(refusals.iter().all(|&refused| refused > 50), "{refusals:?}");
}
