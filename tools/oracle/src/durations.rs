//! Fit, speed and alignment, with the unit changes that the Rust doesn't report.

use jbonsai::{duration::DurationEstimator, model::MeanVari};

use crate::bytes::{Reader, Writer};

/// The Rust has no shortest durations: it is asked where all are 1, and they are passed over.
fn parameters(reader: &mut Reader) -> Vec<MeanVari> {
    let (means, varis, _shortest) = (reader.f64s(), reader.f64s(), reader.u32s());
    means.into_iter().zip(varis).map(|(mean, vari)| MeanVari(mean, vari)).collect()
}

fn total(durations: &[usize]) -> usize {
    durations.iter().sum()
}

/// How far the fit's start, by the Rust's own estimate, is from its target.
fn changes(parameters: &[MeanVari], frame_length: f64) -> usize {
    let target = frame_length.round().max(1.0) as usize;
    if target <= parameters.len() || parameters.is_empty() {
        return 0;
    }
    let MeanVari(mean, vari) = parameters.iter().sum();
    let rho = (target as f64 - mean) / vari;
    target.abs_diff(total(&DurationEstimator::estimate_duration(parameters, rho)))
}

fn write(writer: &mut Writer, durations: &[usize]) {
    writer.u32s(durations.iter().map(|&duration| duration as u32));
}

pub fn fit(reader: &mut Reader, writer: &mut Writer) {
    let parameters = parameters(reader);
    let length = reader.f64();
    let durations =
        DurationEstimator::estimate_duration_with_frame_length(&parameters, length);
    writer.u32(changes(&parameters, length) as u32);
    write(writer, &durations);
}

pub fn speed(reader: &mut Reader, writer: &mut Writer) {
    let parameters = parameters(reader);
    let speed = reader.f64();
    let durations = DurationEstimator::new(parameters.clone(), 1).create(speed);
    let natural = total(&DurationEstimator::estimate_duration(&parameters, 0.0));
    let changed = if speed == 1.0 { 0 } else { changes(&parameters, natural as f64 / speed) };
    writer.u32(changed as u32);
    write(writer, &durations);
}

pub fn align(reader: &mut Reader, writer: &mut Writer) {
    let parameters = parameters(reader);
    let nstate = reader.u32() as usize;
    let times: Vec<_> = reader.f64s().into_iter().map(|end| (0.0, end)).collect();
    let durations =
        DurationEstimator::new(parameters.clone(), nstate).create_with_alignment(&times);

    // The same groups again, the frames so far taken from the Rust's answer.
    let (mut changed, mut first) = (0, 0);
    for (label, &(_, end)) in times.iter().enumerate() {
        if end >= 0.0 {
            let next = (label + 1) * nstate;
            let frames = total(&durations[..first]);
            changed += changes(&parameters[first..next], end - frames as f64);
            first = next;
        }
    }
    writer.u32(durations.len() as u32);
    writer.u32(changed as u32);
    write(writer, &durations);
}
