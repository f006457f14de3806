//! Little-endian numbers and lists with their count before them.

pub struct Reader<'a>(&'a [u8]);

impl<'a> Reader<'a> {
    pub fn new(bytes: &'a [u8]) -> Self {
        Self(bytes)
    }

    pub fn at_end(&self) -> bool {
        self.0.is_empty()
    }

    pub fn take(&mut self, count: usize) -> &'a [u8] {
        let (taken, rest) = self.0.split_at(count);
        self.0 = rest;
        taken
    }

    fn array<const N: usize>(&mut self) -> [u8; N] {
        self.take(N).try_into().unwrap()
    }

    pub fn u8(&mut self) -> u8 {
        self.array::<1>()[0]
    }

    pub fn u32(&mut self) -> u32 {
        u32::from_le_bytes(self.array())
    }

    pub fn f64(&mut self) -> f64 {
        f64::from_le_bytes(self.array())
    }

    pub fn u32s(&mut self) -> Vec<u32> {
        (0..self.u32()).map(|_| self.u32()).collect()
    }

    pub fn f64s(&mut self) -> Vec<f64> {
        (0..self.u32()).map(|_| self.f64()).collect()
    }

    pub fn u8s(&mut self) -> Vec<u8> {
        let count = self.u32() as usize;
        self.take(count).to_vec()
    }
}

#[derive(Default)]
pub struct Writer {
    pub bytes: Vec<u8>,
    /// NaNs as the machine made them, instead of the one that is handed out.
    pub raw_nans: bool,
}

impl Writer {
    pub fn u8(&mut self, number: u8) {
        self.bytes.push(number);
    }

    pub fn u32(&mut self, number: u32) {
        self.bytes.extend(number.to_le_bytes());
    }

    /// All NaNs are one.
    pub fn f64(&mut self, number: f64) {
        let one_nan = number.is_nan() && !self.raw_nans;
        let bits = if one_nan { 0x7FF8_0000_0000_0000 } else { number.to_bits() };
        self.bytes.extend(bits.to_le_bytes());
    }

    pub fn u32s(&mut self, numbers: impl ExactSizeIterator<Item = u32>) {
        self.u32(numbers.len() as u32);
        numbers.for_each(|number| self.u32(number));
    }

    pub fn f64s(&mut self, numbers: &[f64]) {
        self.u32(numbers.len() as u32);
        numbers.iter().for_each(|&number| self.f64(number));
    }
}
