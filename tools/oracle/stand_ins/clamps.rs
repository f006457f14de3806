//! How often a branch of `with_ivar` that clamps was taken: the copy of the Rust says so itself.

use std::cell::Cell;

/// Pairs whose variance was clamped at 1e19, and at 1e-19.
#[derive(Clone, Copy, Default)]
pub struct Taken {
    pub high: u32,
    pub low: u32,
}

thread_local! {
    static TAKEN: Cell<Taken> = Cell::new(Taken::default());
}

pub fn high() {
    let taken = TAKEN.get();
    TAKEN.set(Taken { high: taken.high + 1, ..taken });
}

pub fn low() {
    let taken = TAKEN.get();
    TAKEN.set(Taken { low: taken.low + 1, ..taken });
}

/// Those since it was last asked.
pub fn taken() -> Taken {
    TAKEN.take()
}
