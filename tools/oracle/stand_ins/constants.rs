/// The Rust's fill number is a constant that its text doesn't hold. The caller's fill number takes
/// the place of this one after the run, frame by frame, by the Rust's own mask.
pub const NODATA: f64 = -1e10;
