//! Operations on floats, pairs and records.

use clamps::Taken;
use jbonsai::duration::DurationEstimator;
use jbonsai::model::{MeanVari, voice::model::ModelParameter};

use crate::bytes::{Reader, Writer};

/// Stands for every rounded number above 65,536.
const TOO_LONG: usize = 65_537;

pub fn float(reader: &mut Reader, writer: &mut Writer) {
    let operation = reader.u8();
    let (a, b) = (reader.f64(), reader.f64());
    writer.f64(match operation {
        0 => a.round(),
        1 => a.abs(),
        2 => a.sqrt(),
        3 => f64::from(u8::from(a.abs().total_cmp(&b.abs()).is_lt())),
        _ => panic!("no float operation {operation}"),
    });
}

pub fn pair(reader: &mut Reader, writer: &mut Writer) {
    let operation = reader.u8();
    let a = MeanVari(reader.f64(), reader.f64());
    let b = MeanVari(reader.f64(), reader.f64());
    let weight = reader.f64();
    clamps::taken(); // by another case
    let MeanVari(mean, vari) = match operation {
        0 => a.with_ivar(),
        1 => a.with_0(),
        2 => a.weighted(weight),
        3 => a + b,
        4 => [a, b].iter().sum(),
        5 => {
            let estimate = DurationEstimator::estimate_duration(&[a], weight)[0];
            MeanVari(estimate.min(TOO_LONG) as f64, 0.0)
        }
        _ => panic!("no pair operation {operation}"),
    };
    let Taken { high, low } = clamps::taken();
    writer.f64(mean);
    writer.f64(vari);
    writer.u32(high + 2 * low); // one branch at most
}

pub fn record(reader: &mut Reader, writer: &mut Writer) {
    let operation = reader.u8();
    let mut record = ModelParameter::from_linear(reader.f64s());
    let other = ModelParameter::from_linear(reader.f64s());
    let weight = reader.f64();
    match operation {
        0 => (),
        1 => record = record.mul(weight),
        2 => record.mul_add_assign(weight, &other),
        _ => panic!("no record operation {operation}"),
    }
    let means = record.parameters.iter().map(|pair| pair.0);
    let varis = record.parameters.iter().map(|pair| pair.1);
    writer.f64s(&means.chain(varis).chain(record.msd).collect::<Vec<_>>());
}
