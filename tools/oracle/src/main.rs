//! Answers cases with the Rust. The formats of standard input and output are in tools/README.md.

mod bytes;
mod durations;
mod mlpg;
mod pairs;

use std::io::{Read, Write};
use std::panic::{self, AssertUnwindSafe};

use bytes::{Reader, Writer};

/// A case that the caller says is refused: it is passed over.
const REFUSED: u8 = 1;

const ANSWERED: u8 = 0;
const PANICKED: u8 = 1;
const NOT_RUN: u8 = 2;

fn answer(case: &[u8], raw_nans: bool) -> Vec<u8> {
    let mut reader = Reader::new(case);
    let (kind, flags) = (reader.u8(), reader.u8());
    let mut writer = Writer { raw_nans, ..Writer::default() };
    if flags & REFUSED != 0 {
        writer.u8(NOT_RUN);
        return writer.bytes;
    }
    writer.u8(ANSWERED);
    let run = || {
        match kind {
            0 => pairs::float(&mut reader, &mut writer),
            1 => pairs::pair(&mut reader, &mut writer),
            2 => pairs::record(&mut reader, &mut writer),
            3 => durations::fit(&mut reader, &mut writer),
            4 => durations::speed(&mut reader, &mut writer),
            5 => durations::align(&mut reader, &mut writer),
            6 => mlpg::mask(&mut reader, &mut writer),
            7 => mlpg::band(&mut reader, &mut writer),
            8 => mlpg::trajectory(&mut reader, &mut writer),
            _ => writer.bytes = vec![NOT_RUN], // ours alone: the Rust has no such thing
        }
        std::mem::take(&mut writer.bytes)
    };
    panic::catch_unwind(AssertUnwindSafe(run)).unwrap_or_else(|_| vec![PANICKED])
}

fn main() -> std::io::Result<()> {
    panic::set_hook(Box::new(|info| eprintln!("oracle: {info}")));
    let raw_nans = std::env::args().any(|argument| argument == "--raw-nans");
    let mut input = Vec::new();
    std::io::stdin().read_to_end(&mut input)?;
    let mut output = std::io::stdout().lock();
    let mut cases = Reader::new(&input);
    while !cases.at_end() {
        let size = cases.u32() as usize;
        let answer = answer(cases.take(size), raw_nans);
        output.write_all(&(answer.len() as u32).to_le_bytes())?;
        output.write_all(&answer)?;
        output.flush()?;
    }
    Ok(())
}
