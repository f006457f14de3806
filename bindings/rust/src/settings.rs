//! Voices' settings, and their file.

use std::fmt;

use crate::{MAX_VOICES, Refusal, SETTINGS_HEAD_BYTES, SETTINGS_RECORD_BYTES, STORE_SETTINGS, sys};

/// A voice's settings.
#[derive(Clone, Copy, Debug, PartialEq)]
pub struct Settings {
    /// The speed, as [`speed`](crate::speed()) takes it.
    pub speed: f64,
    /// The weight of global variance, as [`GlobalVariance`](crate::GlobalVariance) has it.
    pub gv_weight: f64,
    /// The voicing threshold, as [`Stream`](crate::Stream) has it.
    pub threshold: f64,
}

/// Voices' settings by the voice's number, for at most [`MAX_VOICES`] voices.
///
/// A store has as many places. A voice that is held keeps its place; a new one takes the first that
/// is free, which may be one that a removed voice has left. Files keep the order of the places.
///
/// A voice is a `u16`, so that no number is out of range, and the store owns its lists, so that they
/// are never too short: [`BadSize`](Refusal::BadSize) and [`TooLittleRoom`](Refusal::TooLittleRoom)
/// are never answered. A setting is kept bit for bit, but that [`set`](Store::set) keeps every NaN as
/// 0x7FF8000000000000, and [`get`](Store::get) hands out those bits. Stores are equal where their
/// lists are, bit for bit, NaNs too: they hold the same in the same places. Two that hold the same
/// may differ in their free places.
///
/// # Examples
///
/// ```
/// use hejmirov::{Refusal, Settings, Store};
///
/// let mut store = Store::new();
/// store.set(7, Settings { speed: 1.25, gv_weight: 1.0, threshold: 0.5 })?;
/// store.set(300, Settings { speed: 0.8, gv_weight: 0.7, threshold: 0.45 })?;
/// assert_eq!(store.get(300)?.gv_weight, 0.7);
/// assert_eq!(store.get(8), Err(Refusal::VoiceNotHeld));
///
/// let file = store.write();
/// let mut other = Store::new();
/// other.read(&file)?;
/// assert_eq!(other, store);
/// # Ok::<(), Refusal>(())
/// ```
#[derive(Clone, PartialEq, Eq)]
pub struct Store {
    voices: Box<[u32; MAX_VOICES]>,
    settings: Box<[u64; STORE_SETTINGS]>,
}

impl Store {
    /// A store that holds no voice.
    ///
    /// # Examples
    ///
    /// ```
    /// use hejmirov::{FREE_PLACE, MAX_VOICES, STORE_SETTINGS, Store};
    ///
    /// let store = Store::new();
    /// assert!(store.is_empty());
    /// assert_eq!(store.voices(), &[FREE_PLACE; MAX_VOICES]);
    /// assert_eq!(store.settings(), &[0; STORE_SETTINGS]);
    /// ```
    #[must_use]
    pub fn new() -> Self {
        let mut store = Self::from_lists([0; MAX_VOICES], [0; STORE_SETTINGS]);
        store.clear();
        store
    }

    /// The store that two lists are, of any content: a number for each place, and three settings for
    /// each place, as bits.
    ///
    /// A place is free where its number is above [`MAX_VOICE`](crate::MAX_VOICE), and where an earlier
    /// place has the same number; any other place holds the voice of its number.
    ///
    /// # Examples
    ///
    /// ```
    /// use hejmirov::{MAX_VOICES, STORE_SETTINGS, Store};
    ///
    /// let zeros = Store::from_lists([0; MAX_VOICES], [0; STORE_SETTINGS]);
    /// assert_eq!(zeros.len(), 1);
    /// assert_eq!(zeros.get(0)?.speed, 0.0);
    /// # Ok::<(), hejmirov::Refusal>(())
    /// ```
    #[must_use]
    pub fn from_lists(voices: [u32; MAX_VOICES], settings: [u64; STORE_SETTINGS]) -> Self {
        Store {
            voices: Box::new(voices),
            settings: Box::new(settings),
        }
    }

    /// The number of each place; what is above [`MAX_VOICE`](crate::MAX_VOICE) is no voice's.
    ///
    /// # Examples
    ///
    /// ```
    /// use hejmirov::{FREE_PLACE, Settings, Store};
    ///
    /// let any = Settings { speed: 1.0, gv_weight: 1.0, threshold: 0.5 };
    /// let mut store = Store::new();
    /// for voice in [7, 8, 9] {
    ///     store.set(voice, any)?;
    /// }
    /// store.remove(8)?;
    /// assert_eq!(store.voices()[..4], [7, FREE_PLACE, 9, FREE_PLACE]);
    /// # Ok::<(), hejmirov::Refusal>(())
    /// ```
    #[must_use]
    pub fn voices(&self) -> &[u32; MAX_VOICES] {
        &self.voices
    }

    /// The settings as bits, three for each place: speed, GV weight, threshold.
    ///
    /// # Examples
    ///
    /// ```
    /// use hejmirov::{Settings, Store};
    ///
    /// let mut store = Store::new();
    /// store.set(7, Settings { speed: 1.25, gv_weight: 1.0, threshold: 0.5 })?;
    /// assert_eq!(store.settings()[..4], [1.25_f64, 1.0, 0.5, 0.0].map(f64::to_bits));
    /// # Ok::<(), hejmirov::Refusal>(())
    /// ```
    #[must_use]
    pub fn settings(&self) -> &[u64; STORE_SETTINGS] {
        &self.settings
    }

    /// Makes every place free.
    ///
    /// # Examples
    ///
    /// ```
    /// use hejmirov::{Settings, Store};
    ///
    /// let mut store = Store::new();
    /// store.set(7, Settings { speed: 1.25, gv_weight: 1.0, threshold: 0.5 })?;
    /// store.clear();
    /// assert_eq!(store, Store::new());
    /// # Ok::<(), hejmirov::Refusal>(())
    /// ```
    pub fn clear(&mut self) {
        // Only shorter lists are refused.
        let _ = settings_clear(&mut *self.voices, &mut *self.settings);
    }

    /// Sets a voice's settings: in its place where it is held, else in the first free place.
    ///
    /// # Errors
    ///
    /// [`StoreFull`](Refusal::StoreFull): 256 other voices are held; nothing changes.
    ///
    /// # Examples
    ///
    /// ```
    /// use hejmirov::{Refusal, Settings, Store};
    ///
    /// let natural = Settings { speed: 1.0, gv_weight: 1.0, threshold: 0.5 };
    /// let mut store = Store::new();
    /// for voice in 0..256 {
    ///     store.set(voice, natural)?;
    /// }
    /// assert_eq!(store.set(256, natural), Err(Refusal::StoreFull));
    /// store.set(7, Settings { speed: 1.25, ..natural })?; // which is held
    /// assert_eq!(store.get(7)?.speed, 1.25);
    /// # Ok::<(), Refusal>(())
    /// ```
    pub fn set(&mut self, voice: u16, settings: Settings) -> Result<(), Refusal> {
        settings_set(&mut *self.voices, &mut *self.settings, voice, settings)
    }

    /// A voice's settings.
    ///
    /// # Errors
    ///
    /// [`VoiceNotHeld`](Refusal::VoiceNotHeld).
    ///
    /// # Examples
    ///
    /// ```
    /// use hejmirov::{Refusal, Settings, Store};
    ///
    /// let slow = Settings { speed: 0.8, gv_weight: 0.7, threshold: 0.45 };
    /// let mut store = Store::new();
    /// assert_eq!(store.get(300), Err(Refusal::VoiceNotHeld));
    /// store.set(300, slow)?;
    /// assert_eq!(store.get(300), Ok(slow));
    /// # Ok::<(), Refusal>(())
    /// ```
    pub fn get(&self, voice: u16) -> Result<Settings, Refusal> {
        settings_get(&*self.voices, &*self.settings, voice)
    }

    /// Removes a voice. Its place is free then, and all others stay where they are.
    ///
    /// # Errors
    ///
    /// [`VoiceNotHeld`](Refusal::VoiceNotHeld); nothing changes.
    ///
    /// # Examples
    ///
    /// ```
    /// use hejmirov::{Refusal, Settings, Store};
    ///
    /// let mut store = Store::new();
    /// store.set(7, Settings { speed: 1.25, gv_weight: 1.0, threshold: 0.5 })?;
    /// store.remove(7)?;
    /// assert_eq!(store, Store::new());
    /// assert_eq!(store.remove(7), Err(Refusal::VoiceNotHeld));
    /// # Ok::<(), Refusal>(())
    /// ```
    pub fn remove(&mut self, voice: u16) -> Result<(), Refusal> {
        settings_remove(&mut *self.voices, &mut *self.settings, voice)
    }

    /// How many voices are held.
    ///
    /// # Examples
    ///
    /// ```
    /// let mut store = hejmirov::Store::new();
    /// assert_eq!(store.len(), 0);
    /// store.read(&std::fs::read("../../examples/voices.vst")?)?;
    /// assert_eq!(store.len(), 2);
    /// # Ok::<(), Box<dyn std::error::Error>>(())
    /// ```
    #[must_use]
    pub fn len(&self) -> usize {
        // Only a shorter list is refused.
        settings_count(&*self.voices).map_or(0, |held| held as usize)
    }

    /// Whether no voice is held.
    ///
    /// # Examples
    ///
    /// ```
    /// let mut store = hejmirov::Store::new();
    /// assert!(store.is_empty());
    /// store.read(&std::fs::read("../../examples/voices.vst")?)?;
    /// assert!(!store.is_empty());
    /// # Ok::<(), Box<dyn std::error::Error>>(())
    /// ```
    #[must_use]
    pub fn is_empty(&self) -> bool {
        self.len() == 0
    }

    /// The voices that are held and their settings, in the order of the places.
    ///
    /// # Examples
    ///
    /// ```
    /// let mut store = hejmirov::Store::new();
    /// store.read(&std::fs::read("../../examples/voices.vst")?)?;
    /// let speeds: Vec<_> = store.iter().map(|(voice, settings)| (voice, settings.speed)).collect();
    /// assert_eq!(speeds, [(7, 1.25), (300, 0.8)]);
    /// # Ok::<(), Box<dyn std::error::Error>>(())
    /// ```
    pub fn iter(&self) -> impl Iterator<Item = (u16, Settings)> {
        let held = |(place, &number): (usize, &u32)| {
            let voice = u16::try_from(number).ok()?;
            let repeated = self.voices[..place].contains(&number);
            (!repeated).then_some((voice, self.get(voice).ok()?))
        };
        self.voices.iter().enumerate().filter_map(held)
    }

    /// Makes the store what a settings file says: a cleared one in which the file's records are set,
    /// one after the other. The later record of a voice replaces the earlier in its place.
    ///
    /// The bytes are the whole file, little-endian: `VST`, the version (16 bits), the number of
    /// records (16 bits), then the records: a voice (16 bits), its speed, its GV weight and, in
    /// version 2, its threshold, which in version 1 is 0.5. All bits are kept, a NaN's too.
    ///
    /// # Errors
    ///
    /// [`SettingsMalformed`](Refusal::SettingsMalformed): the file doesn't begin with `VST`, or ends
    /// before the version's last byte. [`SettingsVersion`](Refusal::SettingsVersion): the version is
    /// neither 1 nor 2. `SettingsMalformed`: the file has another length.
    /// [`StoreFull`](Refusal::StoreFull): there are more than 256 different voices. The store is then
    /// as it was.
    ///
    /// # Examples
    ///
    /// ```
    /// use hejmirov::{Refusal, Settings, Store};
    ///
    /// let mut store = Store::new();
    /// store.read(&std::fs::read("../../examples/voices.vst")?)?;
    /// assert_eq!(store.get(300)?, Settings { speed: 0.8, gv_weight: 0.7, threshold: 0.45 });
    /// store.read(&std::fs::read("../../examples/voices1.vst")?)?; // of version 1
    /// assert_eq!(store.get(300)?, Settings { speed: 0.8, gv_weight: 0.7, threshold: 0.5 });
    ///
    /// assert_eq!(store.read(b"VST\x03\0"), Err(Refusal::SettingsVersion));
    /// assert_eq!(store.read(b"VST\x02\0\x01\0"), Err(Refusal::SettingsMalformed));
    /// assert_eq!(store.len(), 2); // as it was
    /// # Ok::<(), Box<dyn std::error::Error>>(())
    /// ```
    pub fn read(&mut self, bytes: &[u8]) -> Result<(), Refusal> {
        settings_read(&mut *self.voices, &mut *self.settings, bytes)
    }

    /// The store's settings file, of version 2: a record for each voice that is held, in the order of
    /// the places.
    ///
    /// Reading it gives the same voices in the same order, with the same settings bit for bit; free
    /// places between them are not in the file.
    ///
    /// # Examples
    ///
    /// ```
    /// use hejmirov::{Settings, Store};
    ///
    /// let mut store = Store::new();
    /// store.set(7, Settings { speed: 1.25, gv_weight: 1.0, threshold: 0.5 })?;
    /// store.set(300, Settings { speed: 0.8, gv_weight: 0.7, threshold: 0.45 })?;
    /// assert_eq!(store.write(), std::fs::read("../../examples/voices.vst")?);
    /// assert_eq!(Store::new().write(), b"VST\x02\0\0\0");
    /// # Ok::<(), Box<dyn std::error::Error>>(())
    /// ```
    #[must_use]
    pub fn write(&self) -> Vec<u8> {
        let mut bytes = vec![0; SETTINGS_HEAD_BYTES + SETTINGS_RECORD_BYTES * self.len()];
        // Only shorter lists are refused.
        let _ = settings_write_into(&*self.voices, &*self.settings, &mut bytes);
        bytes
    }
}

impl Default for Store {
    fn default() -> Self {
        Self::new()
    }
}

impl fmt::Debug for Store {
    fn fmt(&self, f: &mut fmt::Formatter<'_>) -> fmt::Result {
        f.debug_map().entries(self.iter()).finish()
    }
}

/// Clears a store in the caller's lists, of any content: every place is free then.
///
/// The lists have [`MAX_VOICES`] numbers and [`STORE_SETTINGS`] settings as bits, or more; what lies
/// behind these is not looked at and not touched. [`Store::from_lists`] says what they mean; the
/// calls take any content.
///
/// # Errors
///
/// [`TooLittleRoom`](Refusal::TooLittleRoom): a list is shorter. Both are then as they were.
///
/// # Examples
///
/// ```
/// use hejmirov::{FREE_PLACE, MAX_VOICES, Refusal, STORE_SETTINGS};
///
/// let (mut voices, mut settings) = ([7; MAX_VOICES + 1], [7; STORE_SETTINGS + 1]);
/// hejmirov::settings_clear(&mut voices, &mut settings)?;
/// assert_eq!(voices[MAX_VOICES - 1..], [FREE_PLACE, 7]);
/// assert_eq!(settings[STORE_SETTINGS - 1..], [0, 7]);
///
/// let refused = hejmirov::settings_clear(&mut voices[2..], &mut settings);
/// assert_eq!(refused, Err(Refusal::TooLittleRoom));
/// # Ok::<(), Refusal>(())
/// ```
pub fn settings_clear(voices: &mut [u32], settings: &mut [u64]) -> Result<(), Refusal> {
    // SAFETY: each pointer and length are those of one slice, and each is borrowed alone.
    let refusal = unsafe {
        sys::hejmirov_settings_clear(
            voices.as_mut_ptr(),
            voices.len(),
            settings.as_mut_ptr(),
            settings.len(),
        )
    };
    Refusal::or(refusal, ())
}

/// [`Store::set`] in the caller's lists.
///
/// # Errors
///
/// [`TooLittleRoom`](Refusal::TooLittleRoom): a list is too short. Then that of [`Store::set`]. Both
/// lists are then as they were.
///
/// # Examples
///
/// ```
/// use hejmirov::{MAX_VOICES, STORE_SETTINGS, Settings};
///
/// let (mut voices, mut settings) = ([0; MAX_VOICES], [0; STORE_SETTINGS]);
/// hejmirov::settings_clear(&mut voices, &mut settings)?;
/// let values = Settings { speed: 1.25, gv_weight: 1.0, threshold: 0.5 };
/// hejmirov::settings_set(&mut voices, &mut settings, 7, values)?;
/// assert_eq!((voices[0], settings[0]), (7, 1.25_f64.to_bits()));
/// # Ok::<(), hejmirov::Refusal>(())
/// ```
pub fn settings_set(
    voices: &mut [u32],
    settings: &mut [u64],
    voice: u16,
    values: Settings,
) -> Result<(), Refusal> {
    // SAFETY: each pointer and length are those of one slice, and each is borrowed alone.
    let refusal = unsafe {
        sys::hejmirov_settings_set(
            voices.as_mut_ptr(),
            voices.len(),
            settings.as_mut_ptr(),
            settings.len(),
            voice.into(),
            values.speed,
            values.gv_weight,
            values.threshold,
        )
    };
    Refusal::or(refusal, ())
}

/// [`Store::get`] in the caller's lists.
///
/// # Errors
///
/// [`TooLittleRoom`](Refusal::TooLittleRoom): a list is too short. Then that of [`Store::get`].
///
/// # Examples
///
/// ```
/// use hejmirov::{MAX_VOICES, Refusal, STORE_SETTINGS};
///
/// let (voices, settings) = ([7; MAX_VOICES], [1.0_f64.to_bits(); STORE_SETTINGS]);
/// assert_eq!(hejmirov::settings_get(&voices, &settings, 7)?.threshold, 1.0);
/// let refused = hejmirov::settings_get(&voices, &settings, 8);
/// assert_eq!(refused, Err(Refusal::VoiceNotHeld));
/// # Ok::<(), Refusal>(())
/// ```
pub fn settings_get(voices: &[u32], settings: &[u64], voice: u16) -> Result<Settings, Refusal> {
    let (mut speed, mut gv_weight, mut threshold) = (0.0, 0.0, 0.0);
    // SAFETY: each pointer and length are those of one slice; the others are to numbers of our own.
    let refusal = unsafe {
        sys::hejmirov_settings_get(
            voices.as_ptr(),
            voices.len(),
            settings.as_ptr(),
            settings.len(),
            voice.into(),
            &raw mut speed,
            &raw mut gv_weight,
            &raw mut threshold,
        )
    };
    Refusal::or(
        refusal,
        Settings {
            speed,
            gv_weight,
            threshold,
        },
    )
}

/// [`Store::remove`] in the caller's lists. Every later place with the voice's number becomes free
/// with [`FREE_PLACE`](crate::FREE_PLACE), too, or the voice would be held there.
///
/// # Errors
///
/// [`TooLittleRoom`](Refusal::TooLittleRoom): a list is too short. Then that of [`Store::remove`].
/// Both lists are then as they were.
///
/// # Examples
///
/// ```
/// use hejmirov::{FREE_PLACE, MAX_VOICES, STORE_SETTINGS};
///
/// let (mut voices, mut settings) = ([7; MAX_VOICES], [1; STORE_SETTINGS]);
/// voices[0] = 8;
/// hejmirov::settings_remove(&mut voices, &mut settings, 7)?;
/// assert_eq!(voices[..3], [8, FREE_PLACE, FREE_PLACE]);
/// assert_eq!(settings[..9], [1, 1, 1, 0, 0, 0, 1, 1, 1]); // those of its place alone
/// # Ok::<(), hejmirov::Refusal>(())
/// ```
pub fn settings_remove(
    voices: &mut [u32],
    settings: &mut [u64],
    voice: u16,
) -> Result<(), Refusal> {
    // SAFETY: each pointer and length are those of one slice, and each is borrowed alone.
    let refusal = unsafe {
        sys::hejmirov_settings_remove(
            voices.as_mut_ptr(),
            voices.len(),
            settings.as_mut_ptr(),
            settings.len(),
            voice.into(),
        )
    };
    Refusal::or(refusal, ())
}

/// How many voices a store in the caller's lists holds, by the numbers of its places.
///
/// # Errors
///
/// [`TooLittleRoom`](Refusal::TooLittleRoom): the list is too short.
///
/// # Examples
///
/// ```
/// use hejmirov::{MAX_VOICE, MAX_VOICES};
///
/// let mut voices = [7; MAX_VOICES];
/// (voices[1], voices[2], voices[3]) = (8, MAX_VOICE, MAX_VOICE + 1);
/// assert_eq!(hejmirov::settings_count(&voices)?, 3); // 7, once; 8; and the largest that there is
/// # Ok::<(), hejmirov::Refusal>(())
/// ```
pub fn settings_count(voices: &[u32]) -> Result<u32, Refusal> {
    let mut held = 0;
    // SAFETY: pointer and length are those of one slice; the other is to a number of our own.
    let refusal =
        unsafe { sys::hejmirov_settings_count(voices.as_ptr(), voices.len(), &raw mut held) };
    Refusal::or(refusal, held)
}

/// [`Store::read`] in the caller's lists.
///
/// # Errors
///
/// [`TooLittleRoom`](Refusal::TooLittleRoom): a list is too short. Then those of [`Store::read`].
/// Both lists are then as they were.
///
/// # Examples
///
/// ```
/// use hejmirov::{FREE_PLACE, MAX_VOICES, STORE_SETTINGS};
///
/// let (mut voices, mut settings) = ([9; MAX_VOICES], [9; STORE_SETTINGS]);
/// let bytes = std::fs::read("../../examples/voices.vst")?;
/// hejmirov::settings_read(&mut voices, &mut settings, &bytes)?;
/// assert_eq!(voices[..3], [7, 300, FREE_PLACE]);
/// assert_eq!(settings[5..8], [0.45_f64.to_bits(), 0, 0]);
/// # Ok::<(), Box<dyn std::error::Error>>(())
/// ```
pub fn settings_read(
    voices: &mut [u32],
    settings: &mut [u64],
    bytes: &[u8],
) -> Result<(), Refusal> {
    // SAFETY: each pointer and length are those of one slice, and the written ones are borrowed alone.
    let refusal = unsafe {
        sys::hejmirov_settings_read(
            voices.as_mut_ptr(),
            voices.len(),
            settings.as_mut_ptr(),
            settings.len(),
            bytes.as_ptr(),
            bytes.len(),
        )
    };
    Refusal::or(refusal, ())
}

/// [`Store::write`] in the caller's memory; it answers how many bytes the file has.
///
/// The file goes to the front of `out`, for which
/// [`SETTINGS_WRITTEN_BYTES`](crate::SETTINGS_WRITTEN_BYTES) are always enough. What is beyond stays as it
/// was.
///
/// # Errors
///
/// [`TooLittleRoom`](Refusal::TooLittleRoom): one of the store's lists is too short, or `out` is
/// shorter than the file. `out` is then as it was.
///
/// # Examples
///
/// ```
/// use hejmirov::{MAX_VOICES, Refusal, STORE_SETTINGS};
///
/// let (voices, settings) = ([7; MAX_VOICES], [0; STORE_SETTINGS]);
/// let mut out = [0xff; 40];
/// let written = hejmirov::settings_write_into(&voices, &settings, &mut out)?;
/// assert_eq!(written, 33);
/// assert_eq!(out[..9], *b"VST\x02\0\x01\0\x07\0");
/// assert_eq!(out[32..34], [0, 0xff]);
///
/// let refused = hejmirov::settings_write_into(&voices, &settings, &mut out[..32]);
/// assert_eq!(refused, Err(Refusal::TooLittleRoom));
/// # Ok::<(), Refusal>(())
/// ```
// On x86-64 an index has 64 bits, and so has this number.
#[allow(clippy::cast_possible_truncation)]
pub fn settings_write_into(
    voices: &[u32],
    settings: &[u64],
    out: &mut [u8],
) -> Result<usize, Refusal> {
    let mut written = 0;
    // SAFETY: each pointer and length are those of one slice, and the written one is borrowed alone.
    let refusal = unsafe {
        sys::hejmirov_settings_write(
            voices.as_ptr(),
            voices.len(),
            settings.as_ptr(),
            settings.len(),
            out.as_mut_ptr(),
            out.len(),
            &raw mut written,
        )
    };
    Refusal::or(refusal, written as usize)
}

#[cfg(test)]
mod tests {
    //! What only the C calls can be asked: a voice's number above 65,535, and what stands behind the
    //! pointers after a refusal.

    use super::{MAX_VOICES, STORE_SETTINGS, Settings, settings_clear, settings_set, sys};
    use crate::MAX_VOICE;

    type Lists = (Vec<u32>, Vec<u64>);

    /// A store that holds the voices 0 and 7, in longer lists than it needs.
    fn store() -> Lists {
        let (mut voices, mut settings) = (vec![9; MAX_VOICES + 2], vec![9; STORE_SETTINGS + 2]);
        settings_clear(&mut voices, &mut settings).unwrap();
        for voice in [0, 7] {
            let values = Settings {
                speed: 1.25,
                gv_weight: 1.0,
                threshold: 0.5,
            };
            settings_set(&mut voices, &mut settings, voice, values).unwrap();
        }
        (voices, settings)
    }

    /// The number of each call that takes a voice, set, get and remove, of the first so many numbers
    /// and settings. Where a call refuses, it must leave all that it was lent.
    fn numbers_of(voice: u32, n_voices: usize, n_settings: usize) -> [u32; 3] {
        let (mut voices, mut settings) = store();
        let mut values = [21.0, 22.0, 23.0];
        let [speed, gv_weight, threshold] = &mut values;
        // SAFETY: the lists are at least so long, and each pointer is to memory that is borrowed alone.
        let get = unsafe {
            sys::hejmirov_settings_get(
                voices.as_ptr(),
                n_voices,
                settings.as_ptr(),
                n_settings,
                voice,
                speed,
                gv_weight,
                threshold,
            )
        };
        let expected = if get == 0 {
            [1.25, 1.0, 0.5]
        } else {
            [21.0, 22.0, 23.0]
        };
        assert_eq!(values.map(f64::to_bits), expected.map(f64::to_bits));

        // SAFETY: as above.
        let set = unsafe {
            sys::hejmirov_settings_set(
                voices.as_mut_ptr(),
                n_voices,
                settings.as_mut_ptr(),
                n_settings,
                voice,
                2.0,
                2.0,
                2.0,
            )
        };
        assert_eq!((voices, settings) == store(), set != 0);

        let (mut voices, mut settings) = store();
        // SAFETY: as above.
        let remove = unsafe {
            sys::hejmirov_settings_remove(
                voices.as_mut_ptr(),
                n_voices,
                settings.as_mut_ptr(),
                n_settings,
                voice,
            )
        };
        assert_eq!((voices, settings) == store(), remove != 0);
        [set, get, remove]
    }

    #[test]
    fn a_voice_out_of_range_comes_before_a_short_store() {
        for voice in [MAX_VOICE + 1, MAX_VOICE + 8, 0x8000_0007, u32::MAX] {
            for n_voices in [0, MAX_VOICES - 1, MAX_VOICES] {
                assert_eq!(numbers_of(voice, n_voices, STORE_SETTINGS), [3; 3]);
            }
        }
        for (n_voices, n_settings) in [
            (0, 0),
            (MAX_VOICES - 1, STORE_SETTINGS),
            (MAX_VOICES, STORE_SETTINGS - 1),
        ] {
            for voice in [7, 8, MAX_VOICE] {
                assert_eq!(numbers_of(voice, n_voices, n_settings), [6; 3]);
            }
        }
        for longer in [0, 2] {
            let (n_voices, n_settings) = (MAX_VOICES + longer, STORE_SETTINGS + longer);
            assert_eq!(numbers_of(7, n_voices, n_settings), [0; 3]);
            assert_eq!(numbers_of(MAX_VOICE, n_voices, n_settings), [0, 19, 19]);
        }
    }

    #[test]
    fn count_and_written_stay_where_a_call_refuses() {
        let (voices, settings) = store();
        for (n_voices, expected) in [(MAX_VOICES - 1, (6, 21)), (MAX_VOICES, (0, 2))] {
            let mut held = 21;
            // SAFETY: the list is at least so long, and the pointer is to a number of our own.
            let number =
                unsafe { sys::hejmirov_settings_count(voices.as_ptr(), n_voices, &raw mut held) };
            assert_eq!((number, held), expected);
        }
        for (n_voices, n_settings, n_out, expected) in [
            (MAX_VOICES - 1, STORE_SETTINGS, 60, (6, 21)),
            (MAX_VOICES, STORE_SETTINGS - 1, 60, (6, 21)),
            (MAX_VOICES, STORE_SETTINGS, 58, (6, 21)),
            (MAX_VOICES, STORE_SETTINGS, 59, (0, 59)),
        ] {
            let (mut out, mut written) = ([0xa5; 60], 21);
            // SAFETY: the lists are at least so long, and each pointer is to memory that is borrowed alone.
            let number = unsafe {
                sys::hejmirov_settings_write(
                    voices.as_ptr(),
                    n_voices,
                    settings.as_ptr(),
                    n_settings,
                    out.as_mut_ptr(),
                    n_out,
                    &raw mut written,
                )
            };
            assert_eq!((number, written), expected);
            assert_eq!(out == [0xa5; 60], number == 6);
            assert_eq!(out[59], 0xa5);
        }
    }
}
